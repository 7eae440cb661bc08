"""`./shq --unproved`, over a toolchain that only seems to be one."""
import os
import subprocess
import sys
import tempfile
import unittest
from pathlib import Path

from shq_tools.places import EXAMPLES, TOOLS
from shq_tools.unproved import NOTE

# Prints its words and its input, and says on standard error how the run ended.
TOOLCHAIN = """#!/bin/sh
[ "$(basename "$PWD")" = ontology_cli ] || exit 9
echo "words: $*"
cat
echo "call=main" >&2
echo "$ENDED" >&2
exit 1
"""
FILE = EXAMPLES / "contradiction" / "ontology.ofn"


def unproved(*words, ended="run=ended status=0 calls=1 proved=no", has_toolchain=True):
    """What it prints, says besides and ends with."""
    with tempfile.TemporaryDirectory() as room:
        rt = Path(room) / "rt"
        rt.write_text(TOOLCHAIN, encoding="utf-8")
        rt.chmod(0o755)
        path = f"{room}:{os.environ['PATH']}" if has_toolchain else room
        if not has_toolchain:
            rt.unlink()
        command = [sys.executable, "-B", TOOLS / "ask", *words]
        environment = {**os.environ, "ENDED": ended, "PATH": path}
        ran = subprocess.run(command, stdin=subprocess.DEVNULL, env=environment, capture_output=True, check=False)
        return ran.stdout, ran.stderr.decode(), ran.returncode


class Unproved(unittest.TestCase):
    def test_the_answer_says_that_it_is_not_proved(self):
        said, complaint, status = unproved("--unproved", "classify", str(FILE))
        self.assertEqual((said, status), (NOTE + b"words: try -- classify\n" + FILE.read_bytes(), 0))
        self.assertTrue(said.startswith(b"not proved: "))
        self.assertIn("takes a minute or two", complaint)

    def test_words_are_read_as_for_the_program(self):
        said, _, _ = unproved("sat", "MagneticPump", str(FILE), "--unproved", "--budget", "7")
        self.assertIn(b"words: try -- sat :MagneticPump budget 7\n", said)

    def test_the_status_is_that_of_the_run(self):
        for status in (0, 1, 8):
            ended = f"run=ended status={status} calls=1 proved=no"
            self.assertEqual(unproved("--unproved", "classify", str(FILE), ended=ended)[2], status)

    def test_a_run_that_does_not_end(self):
        _, complaint, status = unproved("--unproved", "classify", str(FILE), ended="run=none proved=no")
        self.assertEqual(status, 127)
        self.assertIn("the trial run did not end", complaint)

    def test_without_a_toolchain(self):
        said, complaint, status = unproved("--unproved", "classify", str(FILE), has_toolchain=False)
        self.assertEqual((said, status), (b"", 127))
        self.assertIn("needs the sources and the toolchain", complaint)

    def test_other_words(self):
        for words in ((), ("workload", "1"), ("profile", str(FILE)), ("sat",)):
            said, complaint, status = unproved("--unproved", *words)
            self.assertEqual((said, status), (b"bad words\n", 2), words)
            self.assertIn("a job that reads an ontology", complaint)

    def test_a_file_that_is_not_there(self):
        said, _, status = unproved("--unproved", "classify", "/not/there")
        self.assertEqual((said, status), (b"read fault\n", 6))
