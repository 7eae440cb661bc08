"""A quick look before all is proved: `./shq --unproved JOB ..` runs a job by the toolchain's trial run, `rt try`.

That builds the program's sources in a minute or two, without a proof, and checks each step while it runs, which is
slow. It is for looking at the examples alone, and each answer begins with a line that says so.
"""
import re
import shutil
import subprocess

from shq_tools.commands import usage_for
from shq_tools.messages import say
from shq_tools.output import written
from shq_tools.places import CRATE_LIST, CRATES, PROGRAM_CRATE
from shq_tools.preparing import Unprepared, prepared
from shq_tools.sources import source_of
from shq_tools.statuses import Status
from shq_tools.words import BadWords, asked

OPTION = "--unproved"
NOTE = b"not proved: this answer is of a trial run of the sources, and not of the proved program\n"
ENDED = re.compile(rb"(?m)^run=ended status=([0-9]+) .*proved=no$")


def trial(words, source):
    """Runs the sources on the bytes of a source, and returns the status."""
    with source.opened() as stdin:
        command = ["rt", "try", "--", *words]
        ran = subprocess.run(command, cwd=CRATES / PROGRAM_CRATE, stdin=stdin, stderr=subprocess.PIPE, check=False)
    ended = ENDED.search(ran.stderr)
    if ended:
        return int(ended[1])
    say(f"the trial run did not end: {ran.stderr.decode('utf-8', 'replace').rstrip()}")
    return Status.NOT_BUILT


def answered(question):
    """Prints the answer to a question behind the line that it is not proved, and returns the status."""
    try:
        source = source_of(question.file)
    except OSError as error:
        say(f"{question.file or 'standard input'}: {error.strerror}")
        return Status.READ_FAULT if written(b"read fault\n") else Status.WRITE_FAULT
    try:
        question, source = prepared(question, source)
    except Unprepared as fault:
        say(str(fault))
        return fault.status
    say("building the sources for a trial run, which takes a minute or two")
    return trial(question.words, source) if written(NOTE) else Status.WRITE_FAULT


def main(given):
    """Runs the job that the words ask for, and returns the status."""
    words = [it for it in given if it != OPTION]
    if not CRATE_LIST.exists() or shutil.which("rt") is None:
        say(f"{OPTION} needs the sources and the toolchain, whose command is rt")
        return Status.NOT_BUILT
    try:
        question = asked(words)
    except BadWords as fault:
        say(str(fault))
        question = None
    if question is None or not question.is_whole:
        say(f"{OPTION} stands with a job that reads an ontology: {usage_for(words)}")
        return Status.BAD_WORDS if written(b"bad words\n") else Status.WRITE_FAULT
    return answered(question)
