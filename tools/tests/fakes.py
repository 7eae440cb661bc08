"""Programs that only seem to be the reasoner, for tests of what stands around it."""
import contextlib
import os
import subprocess
import sys
import tempfile
from pathlib import Path

from shq_tools.places import TOOLS

# Runs `ask` with another program: the words are that program and those of ./shq.
CALL = """import sys
from shq_tools import asking, program

program.PROGRAM = sys.argv[1]
sys.exit(asking.main(sys.argv[2:]))
"""
HEAD = "#!/bin/sh\n"
# Prints its words and its input, and ends as it is told.
TOLD = (
    HEAD
    + """if [ "$1" = repair ]; then kill -TERM $$; fi
echo "words: $*"
cat
exit "${STATUS:-0}"
"""
)
# Needs a budget of ENOUGH steps, and never ends with one of ENDLESS steps, when it makes the file BEGUN.
GROWING = (
    HEAD
    + """for last in "$@"; do :; done
if [ "$last" -ge "${ENDLESS:-9999999999}" ]; then
  : > "${BEGUN:-/dev/null}"
  exec sleep 60
fi
echo "budget: $last"
cat
if [ "$last" -ge "${ENOUGH:-9999999999}" ]; then exit 0; fi
echo undecided
exit 8
"""
)


@contextlib.contextmanager
def command_of(program, words):
    """A command that runs ./shq with these words over a program with this text."""
    with tempfile.TemporaryDirectory() as room:
        path = Path(room) / "program"
        path.write_text(program, encoding="utf-8")
        path.chmod(0o755)
        yield [sys.executable, "-Bc", CALL, str(path), *map(str, words)]


def run(command, data=b""):
    """What a command prints, says besides and ends with."""
    ran = subprocess.run(list(map(str, command)), input=data, capture_output=True, check=False)
    return ran.stdout.decode("utf-8"), ran.stderr.decode("utf-8"), ran.returncode


def shq(*words, data=b"", program=TOLD, **environment):
    """What ./shq prints, says besides and ends with, over a program with this text."""
    environment = {**os.environ, **{name: str(value) for name, value in environment.items()}}
    with command_of(program, words) as command:
        how = {"input": data, "cwd": TOOLS, "env": environment, "capture_output": True, "check": False}
        ran = subprocess.run(command, **how)
    return ran.stdout.decode(), ran.stderr.decode(), ran.returncode
