"""The archives of a release: made in a small checkout behind a gate, and used in empty folders without it."""
import contextlib
import gzip
import hashlib
import os
import re
import shutil
import subprocess
import sys
import tarfile
import tempfile
import time
import unittest
from pathlib import Path

from shq_tools import packaging
from shq_tools.commands import COMMANDS
from shq_tools.places import PROGRAM, TOP
from tests.program import needs_program

# A toolchain that only seems to be one: its `ci` makes the program of this checkout, or fails.
TOOLCHAIN = """#!/bin/sh
case $1 in
  version) echo "kit-of-tests logic 1" ;;
  ci)
    rm -rf crates/ontology_cli/out && mkdir -p crates/ontology_cli/out
    cp "$TEST_PROGRAM" crates/ontology_cli/out/ontology_cli
    echo "rt: ok"
    echo "3 passed, ${FAILED:-0} failed"
    exit "${FAILED:-0}"
    ;;
esac
"""
SOURCES = ("crates.txt", "HANDLES", "crates/ontology_cli/src/main.rt")
NOT_COPIED = re.compile(r"(crates|edits|bench)/.*|tools/(tests/.*|test)|second/(tests/.*|test)|clients/.*test.*")
EXAMPLE = "examples/contradiction/ontology.ofn"
ANSWER = b"consistent\nnothing <http://example.org/pumps#MagneticPump>\n"


def run(words, **given):
    """Runs a command, and returns how it ended."""
    given = {"stdin": subprocess.DEVNULL, "stdout": subprocess.PIPE, "stderr": subprocess.PIPE, "check": False, **given}
    return subprocess.run([str(it) for it in words], **given)


def checkout(top):
    """A small checkout with everything of this one but most crates and the tests, under git."""
    words = ["git", "ls-files", "-z", "--cached", "--others", "--exclude-standard"]
    for name in filter(None, run(words, cwd=TOP).stdout.decode().split("\0")):
        if not NOT_COPIED.fullmatch(name) or name in SOURCES:
            (top / name).parent.mkdir(parents=True, exist_ok=True)
            # what another test made is perhaps gone again
            with contextlib.suppress(FileNotFoundError):
                shutil.copy2(TOP / name, top / name)
    who = {f"GIT_{one}_{it}": "tests" for one in ("AUTHOR", "COMMITTER") for it in ("NAME", "EMAIL")}
    for words in (["init", "-q"], ["add", "-A"], ["commit", "-qm", "all"]):
        ran = run(["git", *words], cwd=top, env={**os.environ, **who})
        assert ran.returncode == 0, ran.stderr


class Room:
    """A folder with a toolchain that only seems to be one."""

    def __init__(self):
        self.place = tempfile.TemporaryDirectory(prefix="shq-test-")
        self.top = Path(self.place.name) / "checkout"
        (self.top.parent / "bin").mkdir(parents=True)
        rt = self.top.parent / "bin" / "rt"
        rt.write_text(TOOLCHAIN, encoding="utf-8")
        rt.chmod(0o755)
        self.top.mkdir()
        checkout(self.top)

    def environment(self, **more):
        path = f"{self.top.parent}/bin:{os.environ['PATH']}"
        return {**os.environ, "PATH": path, "TEST_PROGRAM": str(PROGRAM), "CI": "", **more}

    def gate(self, **more):
        """Runs the gate, over this toolchain."""
        return run(["bash", ".ci/run"], cwd=self.top, env=self.environment(**more))

    def package(self, *words):
        """Runs tools/package."""
        return run([self.top / "tools" / "package", *words], env=self.environment(), cwd=self.top)


@needs_program
@unittest.skipUnless(shutil.which("git"), "git is not here")
class Refusals(unittest.TestCase):
    def setUp(self):
        self.room = Room()
        self.addCleanup(self.room.place.cleanup)
        self.built = self.room.top / "crates" / "ontology_cli" / "out" / "ontology_cli"
        self.source = self.room.top / "crates" / "ontology_cli" / "src" / "main.rt"

    def assert_refused(self, why):
        folder = self.room.top.parent / "made"
        ran = self.room.package(folder)
        self.assertEqual((ran.returncode, ran.stdout), (1, b""))
        self.assertIn(why.encode(), ran.stderr)
        self.assertFalse(folder.exists())

    def test_what_is_not_packaged(self):
        self.assert_refused("the program is not built")
        self.built.parent.mkdir()
        shutil.copy(PROGRAM, self.built)
        self.assert_refused("there is no record that rt ci passed")
        failed = self.room.gate(FAILED="1")
        self.assertEqual((failed.returncode, failed.stdout.splitlines()[-1]), (1, b"3 passed, 1 failed"))
        self.assertFalse((self.room.top / "dist").exists())
        self.assert_refused("there is no record that rt ci passed")
        passed = self.room.gate()
        self.assertEqual((passed.returncode, passed.stdout.splitlines()[-1]), (0, b"3 passed, 0 failed"))
        self.assertEqual(len([*(self.room.top / "dist").glob("jezundwa*")]), 1 + bool(shutil.which("dpkg-deb")))
        with self.subTest("a source was touched"):
            os.utime(self.source)
            self.assert_refused("a source is newer than the program")
        with self.subTest("a source was changed, and is as old as before"):
            text = self.source.read_bytes()
            self.source.write_bytes(text + b"\n")
            os.utime(self.source, (1, 1))
            self.assert_refused("the sources are not those")
            self.source.write_bytes(text)
            os.utime(self.source, (1, 1))
        with self.subTest("a file is not committed"):
            (self.room.top / "new.txt").write_text("new", encoding="utf-8")
            self.assert_refused("files are changed and not committed")
            (self.room.top / "new.txt").unlink()
        with self.subTest("another program"):
            self.built.chmod(0o755)
            with open(self.built, "ab") as file:
                file.write(b"x")
            self.assert_refused("the program is not the one that the gate made")

    def test_a_source_that_changes_during_the_gate(self):
        rt = self.room.top.parent / "bin" / "rt"
        rt.write_text(TOOLCHAIN.replace("  ci)\n", "  ci)\n    sleep 0.1; touch crates/ontology_cli/src/main.rt\n"))
        self.addCleanup(rt.write_text, TOOLCHAIN)
        ran = self.room.gate()
        self.assertEqual(ran.returncode, 0)
        self.assertIn(b"changed while the gate ran", ran.stderr)


@needs_program
@unittest.skipUnless(shutil.which("git"), "git is not here")
class Archives(unittest.TestCase):
    """The archives are unpacked, and then the checkout from which they were made is removed."""

    @classmethod
    def setUpClass(cls):
        cls.place = tempfile.TemporaryDirectory(prefix="shq-test-")
        cls.addClassCleanup(cls.place.cleanup)
        cls.folder = Path(cls.place.name)
        room = Room()
        gate = room.gate()
        assert gate.returncode == 0, gate.stderr
        cls.commit = run(["git", "rev-parse", "HEAD"], cwd=room.top).stdout.decode().strip()
        cls.said = [room.package(cls.folder / it) for it in ("first", "second")]
        room.place.cleanup()
        cls.version = (TOP / "VERSION").read_text(encoding="utf-8").strip()
        cls.tar = cls.folder / "first" / f"jezundwa-{cls.version}-x86_64-linux.tar.gz"
        cls.debian = cls.folder / "first" / f"jezundwa_{cls.version}_amd64.deb"
        with tarfile.open(cls.tar) as archive:
            archive.extractall(cls.folder / "tar")
        cls.top = cls.folder / "tar" / f"jezundwa-{cls.version}-x86_64-linux"

    def shq(self, *words, data=b"", python=True, top=None, **more):
        """Runs the unpacked shq, far from the checkout; without Python where that is asked for."""
        environment = {"PATH": os.environ["PATH"], "HOME": str(self.folder), "LANG": "C.UTF-8"}
        if not python:
            environment["PATH"] = str(self.without_python())
        words = [(top or self.top) / "shq", *words]
        return run(words, cwd="/", env=environment, input=data, stdin=None, **more)

    def without_python(self):
        """A folder with the commands that the script needs, and no python3."""
        folder = self.folder / "commands"
        if not folder.exists():
            folder.mkdir()
            for name in "bash cat cut dirname env find grep mktemp readlink sha256sum tail".split():
                (folder / name).symlink_to(shutil.which(name))
        return folder

    def test_both_are_made_and_the_same_each_time(self):
        for ran in self.said:
            self.assertEqual((ran.returncode, ran.stderr), (0, b""))
        for path in (self.tar, self.debian):
            again = self.folder / "second" / path.name
            self.assertEqual(path.read_bytes(), again.read_bytes(), path.name)
        sums = run(["sha256sum", "--check", "--quiet", "SHA256SUMS"], cwd=self.tar.parent)
        self.assertEqual((sums.returncode, sums.stdout), (0, b""))

    def test_sums(self):
        lines = (self.top / "SHA256SUMS").read_text(encoding="utf-8").splitlines()
        told = dict(reversed(it.split("  ", 1)) for it in lines)
        files = [it for it in self.top.rglob("*") if it.is_file() and not it.is_symlink()]
        there = {str(it.relative_to(self.top)): it for it in files}
        self.assertEqual(set(told), set(there) - {"SHA256SUMS"})
        for name, sum_ in told.items():
            self.assertEqual(hashlib.sha256(there[name].read_bytes()).hexdigest(), sum_, name)

    def test_the_program_answers(self):
        for python in (True, False):
            with self.subTest(python=python):
                ran = self.shq("classify", self.top / EXAMPLE, python=python)
                self.assertEqual((ran.returncode, ran.stdout[: len(ANSWER)], ran.stderr), (0, ANSWER, b""))
                ran = self.shq("classify", data=(self.top / EXAMPLE).read_bytes(), python=python)
                self.assertEqual(ran.stdout[: len(ANSWER)], ANSWER)

    def test_each_job_without_python(self):
        """With a FILE word each job of the program answers as it does on standard input."""
        anatomy, ward = self.top / "examples" / "anatomy", self.top / "examples" / "ward"
        axiom = (anatomy / "hearts-are-organs.txt").read_text(encoding="utf-8").strip()
        files = {"check": "heart.txt", "audit": "audit.txt"}
        jobs = [[it, axiom] for it in ("check", "audit", "entails", "explain", "repair", "evidence")]
        jobs += [["classify"], ["realize"], ["session"], ["sat", ":Heart"]]
        jobs += [[it, "owl:Thing"] for it in ("instances", "why")]
        self.assertEqual({it[0] for it in jobs} | {"workload"}, {it.name for it in COMMANDS.values() if it.is_job})
        for job in jobs:
            with self.subTest(job=job[0]):
                data = (anatomy / "ontology.ofn").read_bytes()
                if job[0] in files:
                    data += (anatomy / files[job[0]]).read_bytes()
                if job[0] == "session":
                    data = (ward / "ontology.ofn").read_bytes() + (ward / "script.txt").read_bytes()
                file = self.folder / "input"
                file.write_bytes(data)
                wanted = run([PROGRAM, *job], input=data, stdin=None)
                found = self.shq(*job, file, python=False)
                self.assertEqual((found.returncode, found.stdout), (wanted.returncode, wanted.stdout))
                self.assertEqual(found.returncode, 0)
        said = self.shq("workload", "1", python=False).stdout.splitlines()
        self.assertEqual(said[2:], [b"justifications 8", b"repairs 3"])

    def test_what_needs_python_says_so(self):
        ran = self.shq("profile", self.top / EXAMPLE, python=False)
        self.assertEqual((ran.returncode, ran.stdout), (127, b""))
        self.assertIn(b"needs python3", ran.stderr)

    def test_versions(self):
        with_python, without = (self.shq("--version", python=it) for it in (True, False))
        self.assertEqual(with_python.stdout, without.stdout)
        lines = with_python.stdout.decode().splitlines()
        self.assertEqual(lines[0], f"jezundwa {self.version}")
        self.assertIn("kit: kit-of-tests logic 1", lines)
        self.assertIn("gate: 3 passed, 0 failed", lines)
        self.assertTrue(any(it.startswith(f"proved: {time.strftime('%Y-')}") for it in lines))
        self.assertIn("3 passed, 0 failed", (self.top / "PROOFS.txt").read_text(encoding="utf-8"))

    def test_what_was_proved_is_told(self):
        """PROOFS.txt has the day, the kit, the last line of the gate, the commit and the sum of this very program."""
        told = (self.top / "PROOFS.txt").read_text(encoding="utf-8")
        program = hashlib.sha256((self.top / "libexec" / "ontology_cli").read_bytes()).hexdigest()
        self.assertEqual((self.top / "libexec" / "ontology_cli").read_bytes(), PROGRAM.read_bytes())
        for wanted in (time.strftime("%Y-"), "kit-of-tests logic 1", "3 passed, 0 failed", self.commit, program):
            self.assertIn(wanted, told)

    def test_no_toolchain_is_asked_for(self):
        """Where rt is on the path and fails, and where there is none, the packaged program answers all the same."""
        rt = self.folder / "failing" / "rt"
        rt.parent.mkdir()
        rt.write_text("#!/bin/sh\necho called >&2\nexit 1\n", encoding="utf-8")
        rt.chmod(0o755)
        for python in (True, False):
            folder = Path(sys.executable).parent if python else self.without_python()
            commands = self.without_python()
            for path in (f"{rt.parent}:{folder}:{commands}", f"{folder}:{commands}"):
                with self.subTest(path=path):
                    words = [self.top / "shq", "classify", self.top / EXAMPLE]
                    ran = run(words, cwd="/", env={"PATH": path, "HOME": "/", "LANG": "C.UTF-8"})
                    self.assertEqual((ran.returncode, ran.stdout[: len(ANSWER)], ran.stderr), (0, ANSWER, b""))

    def test_the_first_answer_by_the_readme(self):
        """The commands that the README has for a release give the answer that stands below them, within a minute."""
        readme = (self.top / "README.md").read_text(encoding="utf-8")
        block = re.search(r"```console\n(\$ tar xf (?s:.*?))```", readme)[1]
        unpack, classify, *told = block.splitlines()
        folder = self.folder / "downloads"
        folder.mkdir()
        shutil.copy(self.tar, folder)
        environment = {"PATH": os.environ["PATH"], "HOME": "/", "LANG": "C.UTF-8"}
        begun = time.monotonic()
        ran = run(["bash", "-ec", f"{unpack[2:]}\n{classify[2:]}"], cwd=folder, env=environment)
        self.assertLess(time.monotonic() - begun, 60)
        self.assertEqual((ran.returncode, ran.stderr), (0, b""))
        self.assertEqual(ran.stdout.decode().splitlines()[:2], told[:2])
        self.assertEqual(told[:2], ANSWER.decode().splitlines())

    def test_another_program_is_not_said_to_be_proved(self):
        copy = self.folder / "copy"
        shutil.copytree(self.top, copy, symlinks=True)
        with open(copy / "libexec" / "ontology_cli", "ab") as file:
            file.write(b"x")
        for python in (True, False):
            said = self.shq("--version", python=python, top=copy).stdout
            self.assertIn(b"there is no record of a gate", said)
            self.assertNotIn(b"kit:", said)

    def test_each_module_is_there(self):
        """Each module of the repository that is packaged can be loaded, and each command says what it is for."""
        modules = [it.relative_to(TOP / "tools") for it in (TOP / "tools" / "shq_tools").rglob("*.py")]
        names = sorted(".".join(it.with_suffix("").parts).removesuffix(".__init__") for it in modules)
        self.assertGreater(len(names), 50)
        program = f"import importlib\nfor name in {names}: importlib.import_module(name)"
        ran = run([sys.executable, "-B", "-c", program], cwd=self.top / "tools")
        self.assertEqual((ran.returncode, ran.stderr), (0, b""))
        for name in COMMANDS:
            ran = self.shq(name, "--help")
            self.assertEqual(ran.returncode, 0)
            self.assertTrue(ran.stdout.startswith(f"usage: ./shq {name}".encode()))

    def test_an_answer_for_people(self):
        file = self.top / EXAMPLE
        answer = self.shq("explain", "SubClassOf(:MagneticPump owl:Nothing)", file)
        shown = self.shq("read", "--labels", file, data=answer.stdout)
        self.assertEqual(shown.returncode, 0)
        self.assertIn(b"It follows. There is 1 reason:", shown.stdout)
        page = self.shq("read", "--html", "--labels", file, data=answer.stdout)
        self.assertIn(b"</html>", page.stdout)

    def test_tools_on_files(self):
        devices = self.top / "examples" / "hospital" / "devices.ofn"
        self.assertIn(b"outside", self.shq("profile", devices).stdout)
        for command in ("cut", "approximate"):
            written = self.shq(command, devices)
            self.assertEqual(written.returncode, 0)
            self.assertEqual(self.shq("sat", ":Device", data=written.stdout).returncode, 0)

    def test_the_second_checker(self):
        anatomy = self.top / "examples" / "anatomy"
        axiom = (anatomy / "hearts-are-organs.txt").read_text(encoding="utf-8").strip()
        for job, file in (("check", "heart.txt"), ("audit", "audit.txt")):
            ran = run([self.top / "second" / job, anatomy / "ontology.ofn", anatomy / file, axiom], cwd="/")
            self.assertTrue(ran.stdout.startswith(b"accepted "), ran)

    def test_nothing_is_packaged_that_serves_only_a_checkout(self):
        names = [str(it.relative_to(self.top)) for it in self.top.rglob("*")]
        self.assertFalse([it for it in names if it.startswith(("crates", ".git", ".ci", "edits"))])
        self.assertFalse([it for it in names if {"test", "tests"} & {*it.split("/")}])

    def test_the_readme_names_only_files_that_are_there(self):
        text = (self.top / "README.md").read_text(encoding="utf-8")
        for name in set(re.findall(r"`((?:docs|examples)/[\w./-]+\w)`", text)):
            self.assertTrue((self.top / name).exists(), name)

    @unittest.skipUnless(shutil.which("dpkg-deb"), "dpkg-deb is not here")
    def test_the_package_for_debian(self):
        self.assert_installed(self.unpacked("dpkg", "-x", self.debian))
        control = run(["dpkg-deb", "-f", self.debian]).stdout.decode()
        self.assertIn(f"Package: jezundwa\nVersion: {self.version}\nArchitecture: amd64\n", control)

    @unittest.skipUnless(shutil.which("dpkg") and os.geteuid() == 0, "dpkg is not here, or not as root")
    def test_the_package_for_debian_installed(self):
        """Into a root of its own, whose list of packages is empty; so what it depends on is not asked for."""
        root = self.folder / "root"
        for name in ("info", "updates"):
            (root / "var" / "lib" / "dpkg" / name).mkdir(parents=True)
        (root / "var" / "lib" / "dpkg" / "status").touch()
        ran = run(["dpkg", f"--root={root}", "--force-depends", "--force-script-chrootless", "-i", self.debian])
        self.assertEqual(ran.returncode, 0, ran.stderr)
        self.assert_installed(root)
        ran = run(["dpkg", f"--root={root}", "-r", "jezundwa"])
        self.assertEqual(ran.returncode, 0, ran.stderr)
        self.assertFalse((root / "usr" / "lib" / "jezundwa").exists())

    def unpacked(self, *words):
        folder = self.folder / "unpacked"
        self.assertEqual(run([*words, folder]).returncode, 0)
        return folder

    def assert_installed(self, root):
        documents = root / "usr" / "share" / "doc" / "jezundwa"
        for python in (True, False):
            environment = {"PATH": os.environ["PATH"] if python else str(self.without_python()), "HOME": "/"}
            ran = run([root / "usr" / "bin" / "shq", "classify", documents / EXAMPLE], cwd="/", env=environment)
            self.assertEqual((ran.returncode, ran.stdout[: len(ANSWER)], ran.stderr), (0, ANSWER, b""))
        environment = {"PATH": os.environ["PATH"], "HOME": "/", "LANG": "C.UTF-8"}
        read = f"$0 explain 'SubClassOf(:MagneticPump owl:Nothing)' {documents / EXAMPLE} | $0 read; $0 --version"
        ran = run(["bash", "-c", read, root / "usr" / "bin" / "shq"], cwd="/", env=environment)
        self.assertIn(b"It follows. There is 1 reason:", ran.stdout)
        self.assertIn(f"\njezundwa {self.version}\nkit: kit-of-tests logic 1\n".encode(), ran.stdout)
        self.assert_manual_and_completions(root / "usr" / "share", compressed=True)
        for name in ("zsh/vendor-completions/_shq", "doc/jezundwa/copyright"):
            self.assertTrue((root / "usr" / "share" / name).exists(), name)
        self.assertFalse((root / "usr" / "lib" / "jezundwa" / "crates").exists())

    def test_manual_and_completions(self):
        self.assert_manual_and_completions(self.top / "share", compressed=False)

    def assert_manual_and_completions(self, share, compressed):
        """The page of the package is read by man, and its completions by bash."""
        page = share / "man" / "man1" / ("shq.1.gz" if compressed else "shq.1")
        if compressed:
            plain = (self.top / "share" / "man" / "man1" / "shq.1").read_bytes()
            self.assertEqual(gzip.decompress(page.read_bytes()), plain)
        if shutil.which("man"):
            shown = run(["man", "-P", "cat", "-l", page], env={**os.environ, "LANG": "C.UTF-8"}).stdout
            self.assertIn(b"EXIT STATUS", re.sub(b".\b", b"", shown))
            self.assertIn(f"jezundwa {self.version}".encode(), shown)
        ask = 'source "$0"; COMP_WORDS=(shq clas) COMP_CWORD=1; _shq; echo "${COMPREPLY[@]}"'
        ran = run(["bash", "--norc", "-c", ask, share / "bash-completion" / "completions" / "shq"], cwd="/")
        self.assertEqual((ran.stdout, ran.stderr), (b"classify\n", b""))


class Patterns(unittest.TestCase):
    def test_what_is_packaged(self):
        cases = {
            "shq": True, "VERSION": True, "README.md": True, "tools/ask": True, "tools/shq_tools/a/b.py": True,
            "second/checker/main.py": True, "examples/ward/query.txt": True, "docs/TRUST.md": True,
            "tools/tests/test_cut.py": False, "tools/test": False, "second/tests/cases.py": False, "second/test": False,
            "clients/owlapi/test/run": False, "clients/owlapi/src/A.java": True, "clients/test": False,
            "tools/.gitignore": False, "second/agree": False, "crates/a/src/lib.rt": False, "edits/try": False,
            ".ci/run": False,
        }  # fmt: skip
        for name, is_packaged in cases.items():
            found = packaging.PACKAGED.fullmatch(name) and not packaging.LEFT_OUT.fullmatch(name)
            self.assertEqual(bool(found), is_packaged, name)
