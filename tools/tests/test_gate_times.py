"""bench/gate-times begins the gate for the words that it knows alone."""
import os
import subprocess
import tempfile
import unittest
from pathlib import Path

from shq_tools.places import TOP

FAKE = '#!/bin/sh\necho "$@" >> "$CALLS"\n'


class Words(unittest.TestCase):
    def run_with(self, *words):
        """Exit status, what was said on standard error, and what a stand-in for `rt` was called with."""
        with tempfile.TemporaryDirectory() as folder:
            fake, calls = Path(folder) / "rt", Path(folder) / "calls"
            fake.write_text(FAKE)
            fake.chmod(0o755)
            calls.touch()
            place = {**os.environ, "PATH": f"{folder}:{os.environ['PATH']}", "CALLS": str(calls)}
            run = subprocess.run([f"{TOP}/bench/gate-times", *words], capture_output=True, text=True, env=place)
            return run.returncode, run.stderr, calls.read_text()

    def test_an_unknown_word_begins_nothing(self):
        status, said, calls = self.run_with("everything")
        self.assertEqual((status, calls), (2, ""))
        self.assertIn("unrecognized arguments: everything", said)

    def test_help_begins_nothing(self):
        status, _, calls = self.run_with("--help")
        self.assertEqual((status, calls), (0, ""))
