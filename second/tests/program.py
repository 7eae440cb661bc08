"""The program, and the second checker as it is called."""
import os
import subprocess
import sys
import tempfile
import unittest
from pathlib import Path

from tests.cases import TOP

SECOND = TOP / "second"
PROGRAM = Path(os.environ.get("SHQ_PROGRAM") or TOP / "crates" / "ontology_cli" / "out" / "ontology_cli")
needs_program = unittest.skipUnless(PROGRAM.exists(), "the program is not built")


def by_program(job, text, *rest):
    """What the program says of the words on an input, and its status."""
    ran = subprocess.run([PROGRAM, *job, *rest], input=text, stdout=subprocess.PIPE, check=False)
    return ran.stdout, ran.returncode


def by_command(job, document, behind, axiom):
    """What the command `second/check` or `second/audit` says of files with these bytes, and its status."""
    with tempfile.TemporaryDirectory() as room:
        names = [os.path.join(room, it) for it in ("document", "behind")]
        for name, data in zip(names, (document, behind)):
            Path(name).write_bytes(data)
        words = [sys.executable, "-B", SECOND / job, *names, axiom]
        ran = subprocess.run(words, stdout=subprocess.PIPE, check=False)
    return ran.stdout, ran.returncode


def by_checker(job, document, behind, axiom):
    """The same in this process."""
    from checker import main

    said, status = main.answer(getattr(main, job), document + behind, axiom.encode("utf-8"))
    return said.encode("utf-8") + b"\n", status
