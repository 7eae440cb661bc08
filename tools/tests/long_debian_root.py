"""The package for Debian, installed by dpkg in a minimal Debian system: tools/test tests.long_debian_root

The system is made by debootstrap, in the suite and from the mirror that apt has here. That takes some minutes, so the
gate leaves it out. Commands run in it by chroot, so that no file of the checkout is in reach. JEZUNDWA_PACKAGE names
the package; else it is made as the other tests of packages make theirs. JEZUNDWA_DEBIAN_ROOT names a folder in which
the system is kept, or was kept before.
"""
import os
import re
import shutil
import subprocess
import sys
import tempfile
import unittest
from pathlib import Path

from shq_tools.places import PROGRAM
from tests.test_package import ANSWER, EXAMPLE, Room, run

DOCUMENTS = "/usr/share/doc/jezundwa"
STATEMENT = "SubClassOf(:MagneticPump owl:Nothing)"
# Prints what bash offers for the beginning of a command.
COMPLETE = """. /usr/share/bash-completion/completions/shq
COMP_WORDS=(shq clas) COMP_CWORD=1
_shq
echo "${COMPREPLY[@]}"
"""


def lacking():
    """What is not here, so that none of this can be tried, or nothing."""
    if os.geteuid() != 0:
        return "this is not root"
    missing = [it for it in ("debootstrap", "dpkg-deb", "apt-get", "git") if shutil.which(it) is None]
    if missing:
        return f"{missing[0]} is not here"
    return "" if PROGRAM.exists() else "the program is not built"


def suite_and_mirror():
    """The suite of this system, and the first place from which apt has its packages."""
    suite = re.search("(?m)^VERSION_CODENAME=(.*)$", Path("/etc/os-release").read_text(encoding="utf-8"))[1]
    said = run(["apt-get", "indextargets", "--format", "$(CODENAME) $(COMPONENT) $(REPO_URI)"]).stdout.decode()
    found = [it.split(" ") for it in said.splitlines()]
    return suite, next(uri for name, component, uri in found if (name, component) == (suite, "main"))


def make_system(root):
    """Makes a minimal system in a folder, where there is none yet."""
    if not (root / "usr" / "bin" / "dpkg").exists():
        suite, mirror = suite_and_mirror()
        ran = run(["debootstrap", "--variant=minbase", suite, root, mirror])
        assert ran.returncode == 0, ran.stdout.decode()[-2000:]


def make_package(folder):
    """The package that is named, or one that is made as the other tests make theirs."""
    if "JEZUNDWA_PACKAGE" in os.environ:
        return Path(os.environ["JEZUNDWA_PACKAGE"])
    room = Room()
    ran = room.gate()
    assert ran.returncode == 0, ran.stderr
    assert room.package(folder).returncode == 0
    room.place.cleanup()
    return next(folder.glob("*.deb"))


def setUpModule():
    why = lacking()
    if why:
        print(f"not tried: the package in a minimal Debian system, since {why}", file=sys.stderr)
        raise unittest.SkipTest(why)


class MinimalSystem(unittest.TestCase):
    @classmethod
    def setUpClass(cls):
        place = tempfile.TemporaryDirectory(prefix="shq-test-")
        cls.addClassCleanup(place.cleanup)
        folder = Path(place.name)
        cls.root = Path(os.environ.get("JEZUNDWA_DEBIAN_ROOT") or folder / "root")
        make_system(cls.root)
        # bash completes over /dev/fd, which leads to the processes of the system
        if run(["mount", "-t", "proc", "proc", cls.root / "proc"]).returncode == 0:
            cls.addClassCleanup(run, ["umount", cls.root / "proc"])
        shutil.copy(make_package(folder / "made"), cls.root / "jezundwa.deb")

    def inside(self, *words, **given):
        """Runs a command in the system."""
        environment = {"PATH": "/usr/sbin:/usr/bin:/sbin:/bin", "HOME": "/root", "DEBIAN_FRONTEND": "noninteractive"}
        return run(["chroot", self.root, *words], env={**environment, "LANG": "C.UTF-8"}, **given)

    def succeed(self, *words):
        """What a command prints in the system, where it succeeds."""
        ran = self.inside(*words)
        self.assertEqual(ran.returncode, 0, (words, ran.stdout[-1000:], ran.stderr[-1000:]))
        return ran.stdout

    def test_it_is_installed_used_and_removed(self):
        self.succeed("dpkg", "-i", "/jezundwa.deb")
        if not (self.root / "usr" / "bin" / "python3").exists():
            with self.subTest("without Python"):
                self.assert_the_program_answers()
                ran = self.inside("shq", "profile", f"{DOCUMENTS}/{EXAMPLE}")
                self.assertEqual((ran.returncode, ran.stdout), (127, b""))
                self.assertIn(b"needs python3", ran.stderr)
        self.succeed("apt-get", "update", "-qq")
        self.succeed("apt-get", "install", "-y", "-qq", "--no-install-recommends", "python3", "man-db")
        with self.subTest("with Python"):
            self.assert_the_program_answers()
            self.assert_people_can_read_it()
        with self.subTest("removed"):
            self.succeed("dpkg", "-r", "jezundwa")
            self.assertFalse((self.root / "usr" / "lib" / "jezundwa").exists())
            self.assertFalse((self.root / "usr" / "bin" / "shq").is_symlink())

    def assert_the_program_answers(self):
        told = self.succeed("shq", "--version").decode()
        self.assertRegex(told, r"\Ajezundwa [0-9.]+\n(?s:.*)proved: 20")
        self.assertTrue(self.succeed("shq", "classify", f"{DOCUMENTS}/{EXAMPLE}").startswith(ANSWER))
        explained = self.succeed("shq", "explain", STATEMENT, f"{DOCUMENTS}/{EXAMPLE}")
        self.assertTrue(explained.startswith(b"justifications 1\n"))
        self.assertEqual(self.succeed("bash", "-c", COMPLETE), b"classify\n")

    def assert_people_can_read_it(self):
        file = f"{DOCUMENTS}/{EXAMPLE}"
        read = f"shq explain '{STATEMENT}' {file} | shq read --labels {file}"
        self.assertIn(b"It follows. There is 1 reason:", self.succeed("bash", "-c", read))
        page = re.sub(b".\b", b"", self.succeed("man", "-P", "cat", "shq"))
        self.assertIn(b"EXIT STATUS", page)
        folder = f"{DOCUMENTS}/examples/anatomy"
        axiom = (self.root / folder[1:] / "hearts-are-organs.txt").read_text(encoding="utf-8").strip()
        checked = self.succeed("/usr/lib/jezundwa/second/check", f"{folder}/ontology.ofn", f"{folder}/heart.txt", axiom)
        self.assertEqual(checked, b"accepted entailed\n")
