"""The driver that builds the program, with a toolchain that only seems to be one."""
import os
import shutil
import subprocess
import sys
import tempfile
import threading
import time
import unittest
from pathlib import Path
from unittest import mock

from shq_tools import building
from shq_tools.kit_command import SumsOnce
from shq_tools.lanes import Lanes
from shq_tools.places import CRATE_LIST, PROGRAM_CRATE, TOOLS, TOP

LIST = """# a list
low:
high: low indexmap
beside: low
ontology_cli: high  # the program
"""
# A toolchain that keeps each library that it proves, and makes a program or fails.
TOOLCHAIN = """#!/usr/bin/env python3
import os, sys
BELOW = {"low": [], "high": ["low"], "ontology_cli": ["low", "high"]}


def note(text):
    with open(os.environ["CALLS"], "a") as calls:
        calls.write(text + "\\n")


class Crate:
    def __init__(self, folder, root, known):
        self.folder, self.name, self.root = folder, os.path.basename(folder), root

    def below(self):
        return [Crate(os.path.join(self.root, "crates", it), self.root, {}) for it in BELOW[self.name]]

    def stamp(self):
        return "sum"

    def build_rlib(self, flags, anew):
        note(f"lib {self.name} {' '.join(flags)}")
        print(f"fn {self.name}::f: proved", file=self.out)
        return int(os.environ["PROVES"]) if self.name == "high" else 0


class rtlib:
    Crate = Crate
    guarded = lock = stop_on_links = staticmethod(lambda *it: None)
    root_above = staticmethod(lambda folder: os.path.dirname(os.path.dirname(folder)))


def main(words):
    note(" ".join(words))
    os.makedirs("out", exist_ok=True)
    if os.environ["MAKES"] != "yes":
        print("error: not proved")
        return 1
    with open("out/ontology_cli", "w") as made:
        made.write("made")
    print("rt: running out/ontology_cli; to give it other input, run that file yourself")
    return 2


if __name__ == "__main__":
    sys.exit(main(sys.argv[1:]))
"""


class Lists(unittest.TestCase):
    def test_crates_below(self):
        crates = building.crate_lines(LIST)
        self.assertEqual(crates["high"], ["low", "indexmap"])
        self.assertEqual(building.crates_below(crates, "ontology_cli"), {"low", "high"})

    def test_the_list_of_this_repository(self):
        crates = building.crate_lines(CRATE_LIST.read_text(encoding="utf-8"))
        below = building.crates_below(crates, PROGRAM_CRATE)
        self.assertIn("ofn_reader", below)
        self.assertLess(len(below), len(crates))

    def test_the_readme_says_how_long_a_build_takes(self):
        words = (TOP / "README.md").read_text(encoding="utf-8").split()
        self.assertIn(f"from nothing that is {building.TIME_FROM_NOTHING}.", " ".join(words))

    def test_checks_at_once(self):
        with mock.patch.dict(os.environ, {"RT_JOBS": "3"}):
            self.assertEqual(building.checks_at_once(), 3)
        with mock.patch.dict(os.environ, {"RT_JOBS": ""}), mock.patch.object(building, "processors", lambda: 4):
            for memory, count in ((2_000_000_000, 1), (9_000_000_000, 2), (64_000_000_000, 4), (None, 4)):
                with mock.patch.object(building, "free_memory", lambda memory=memory: memory):
                    self.assertEqual(building.checks_at_once(), count)


class Crate:
    def __init__(self, name, below, walked):
        self.folder, self.below, self.walked = name, below, walked


class Sums(unittest.TestCase):
    def test_each_crate_is_summed_once_in_each_walk(self):
        walked = []

        def plain(crate):
            walked.append(crate.folder)
            return crate.folder + "".join(once(it) for it in crate.below)

        once = SumsOnce(plain)
        low = Crate("a", [], walked)
        middle = [Crate(name, [low], walked) for name in "bc"]
        top = Crate("d", [*middle, low], walked)
        self.assertEqual(once(top), "dbacaa")
        self.assertEqual(walked, ["d", "b", "a", "c"])
        once(top)
        self.assertEqual(len(walked), 8)


class Side(unittest.TestCase):
    BELOW = {"a": set(), "b": {"a"}, "c": {"a"}, "d": {"a", "b"}, "e": {"a", "b", "c", "d"}}

    def run_lanes(self, at_once, status=lambda name: 0):
        order, beside, most, lock = [], set(), [0], threading.Lock()

        def work(name):
            with lock:
                self.assertLessEqual(self.BELOW[name], set(order))
                beside.add(name)
                most[0] = max(most[0], len(beside))
            time.sleep(0.02)
            with lock:
                beside.remove(name)
                order.append(name)
            return status(name)

        failed = Lanes(self.BELOW, dict.fromkeys(self.BELOW, 1), at_once, work).run()
        return failed, order, most[0]

    def test_each_comes_after_what_it_stands_on(self):
        self.assertEqual(self.run_lanes(1), ([], ["a", "b", "c", "d", "e"], 1))
        failed, order, most = self.run_lanes(3)
        self.assertEqual((failed, sorted(order), most), ([], list("abcde"), 2))

    def test_nothing_begins_after_a_failure(self):
        failed, order, _ = self.run_lanes(1, lambda name: int(name == "b"))
        self.assertEqual((failed, order), (["b"], ["a", "b"]))

    def test_what_is_killed_is_done_once_more_alone(self):
        tries = []

        def status(name):
            tries.append(name)
            return -9 if name == "b" and tries.count("b") == 1 else 0

        failed, order, _ = self.run_lanes(2, status)
        self.assertEqual((failed, order.count("b")), ([], 2))


class Driver(unittest.TestCase):
    def setUp(self):
        self.top = Path(tempfile.mkdtemp(prefix="shq-test-"))
        self.addCleanup(shutil.rmtree, self.top)
        made = shutil.ignore_patterns("__pycache__")
        shutil.copytree(TOOLS / "shq_tools", self.top / "tools" / "shq_tools", ignore=made)
        shutil.copy(TOOLS / "build", self.top / "tools" / "build")
        for name in ("low", "high", "ontology_cli"):
            (self.top / "crates" / name / "src").mkdir(parents=True)
        (self.top / "crates.txt").write_text(LIST, encoding="utf-8")
        (self.top / "bin").mkdir()
        (self.top / "bin" / "rt").write_text(TOOLCHAIN, encoding="utf-8")
        (self.top / "bin" / "rt").chmod(0o755)

    def build(self, **given):
        calls = self.top / "calls"
        calls.unlink(missing_ok=True)
        path = f"{self.top}/bin:{os.environ['PATH']}"
        wanted = {"CALLS": str(calls), "PROVES": "0", "MAKES": "yes", "RT_JOBS": "2", "PATH": path}
        environment = {**os.environ, **wanted, **given}
        words = [sys.executable, str(self.top / "tools" / "build")]
        ran = subprocess.run(words, env=environment, capture_output=True, text=True, check=False)
        self.assertEqual(ran.stdout, "")
        return ran.returncode, ran.stderr, calls.read_text(encoding="utf-8").splitlines() if calls.exists() else []

    def test_proves_side_by_side_and_then_makes(self):
        status, said, calls = self.build()
        self.assertEqual((status, calls), (0, ["lib low --jobs 1", "lib high --jobs 1", "run"]))
        self.assertIn("shq: crate 2 of 3: high\n", said)
        self.assertIn("./shq --unproved JOB ..", said.splitlines()[0])

    def test_says_where_it_failed(self):
        status, said, calls = self.build(PROVES="1")
        self.assertEqual((status, len(calls)), (127, 2))
        self.assertIn("fn high::f: proved\nnot proved: high\n", said)
        self.assertIn("the build failed; the whole log is ", said)

    def test_a_check_that_was_killed_is_tried_once_more(self):
        status, _, calls = self.build(PROVES="-9")
        self.assertEqual((status, calls), (127, ["lib low --jobs 1", "lib high --jobs 1", "lib high --jobs 1"]))

    def test_a_toolchain_of_another_form_does_it_alone(self):
        text = TOOLCHAIN.replace("    def stamp(self):", "    def other(self):")
        (self.top / "bin" / "rt").write_text(text, encoding="utf-8")
        status, said, calls = self.build()
        self.assertEqual((status, calls), (0, ["run"]))
        self.assertIn("one crate after the other", said)

    def test_an_old_program_is_not_taken_for_a_new_one(self):
        self.build()
        made = self.top / "crates" / "ontology_cli" / "out" / "ontology_cli"
        os.utime(made, (1, 1))
        self.assertEqual(self.build(MAKES="no")[0], 127)
        self.assertEqual(made.stat().st_mtime, 1)
        self.assertEqual(self.build()[0], 0)
        self.assertGreater(made.stat().st_mtime, 1)

    def test_without_a_toolchain(self):
        (self.top / "bin" / "rt").unlink()
        status, said, _ = self.build(PATH=str(self.top / "bin"))
        self.assertEqual(status, 127)
        self.assertIn("rt is not on the path", said)
