"""The program, for tests that run it."""
import subprocess
import unittest

from shq_tools.places import PROGRAM

needs_program = unittest.skipUnless(PROGRAM.exists(), "the program is not built")


def run_program(words, data):
    """The program's output and status."""
    ran = subprocess.run([PROGRAM, *words], input=data, stdout=subprocess.PIPE, check=False)
    return ran.stdout.decode("utf-8"), ran.returncode


def refusal_by_program(data):
    """How the program refuses a document, as text, or None."""
    said, status = run_program(["sat", "owl:Thing", "budget", "1"], data)
    return said.rstrip("\n") if status in (3, 4, 5) else None
