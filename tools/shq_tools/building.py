"""Proves and builds the program, several crates at a time, and says on standard error how far it is.

The libraries that the program stands on, and no others, are proved side by side and kept. The toolchain's own `rt
run` then finds them, proves none of them again, and proves and makes the program.
"""
import os
import re
import shutil
import subprocess
import sys
import tempfile
import time

from shq_tools import kit_command, proving
from shq_tools.places import CRATE_LIST, CRATES, PROGRAM, PROGRAM_CRATE, TOOLS

# How long a build takes where nothing is kept. The README says the same, and no other place.
TIME_FROM_NOTHING = "half an hour to an hour and a half on four processors"
# What one check may take of the memory, in bytes.
MEMORY_OF_A_CHECK = 4_000_000_000
NOT_BUILT = 127
LAST_LINES = 20


def say(text):
    print(f"shq: {text}", file=sys.stderr, flush=True)


def crate_lines(text):
    """The crates of a list like crates.txt, each with what it stands on, libraries of the toolchain too."""
    crates = {}
    for line in text.splitlines():
        head, _, libraries = line.partition("#")[0].partition(":")
        if head.strip():
            crates[head.split()[0]] = libraries.replace(",", " ").split()
    return crates


def crates_below(crates, name):
    """The crates of the list that a crate stands on."""
    found, left = set(), [name]
    while left:
        new = {below for below in crates[left.pop()] if below in crates} - found
        found |= new
        left += new
    return found


def processors():
    return len(os.sched_getaffinity(0))


def number_in(path, pattern):
    """The number that a pattern finds in a file, or None."""
    try:
        with open(path, encoding="utf-8") as file:
            found = re.search(pattern, file.read())
    except OSError:
        return None
    return int(found[1]) if found else None


def free_memory():
    """The bytes of memory that are free, under the limit of the control group too where there is one, or None."""
    kilobytes = number_in("/proc/meminfo", r"MemAvailable:\s+(\d+)")
    limit = number_in("/sys/fs/cgroup/memory.max", r"^(\d+)")
    held = number_in("/sys/fs/cgroup/memory.stat", r"anon (\d+)")
    found = [] if kilobytes is None else [1024 * kilobytes]
    found += [] if None in (limit, held) else [limit - held]
    return min(found, default=None)


def checks_at_once():
    """How many checks run side by side: those of RT_JOBS, else one a processor, as many as the memory holds."""
    wanted = os.environ.get("RT_JOBS", "")
    if wanted.isdigit() and int(wanted) > 0:
        return int(wanted)
    memory = free_memory()
    room = processors() if memory is None else memory // MEMORY_OF_A_CHECK
    return max(1, min(processors(), room))


class Progress:
    """Says of each library that is proved how many are, by the lines of the prover."""

    def __init__(self, names):
        self.names = names
        self.count = 0

    def line(self, line):
        name = line[3:].strip() if line.startswith("== ") else None
        if name in self.names:
            self.count += 1
            # the program itself comes last
            say(f"crate {self.count} of {len(self.names) + 1}: {name}")


class Making:
    """Whether the toolchain went on to run the program, which it does once that is built."""

    def __init__(self):
        self.is_made = False

    def line(self, line):
        self.is_made = self.is_made or line.startswith(f"rt: running out/{PROGRAM_CRATE};")


def run(words, folder, log, watcher):
    """Runs a script in a folder, shows each line that it prints to the watcher, and returns the status."""
    how = {"stdin": subprocess.DEVNULL, "stdout": subprocess.PIPE, "stderr": subprocess.STDOUT}
    text = {"encoding": "utf-8", "errors": "replace"}
    with subprocess.Popen([sys.executable, "-B", *words], cwd=folder, **how, **text) as started:
        for line in started.stdout:
            log.write(line)
            watcher.line(line)
    return started.returncode


def prove(log):
    """Proves all that the program stands on, and returns whether that went well."""
    crates = crate_lines(CRATE_LIST.read_text(encoding="utf-8"))
    names, at_once = crates_below(crates, PROGRAM_CRATE), checks_at_once()
    say(f"proving and building the program: {len(names) + 1} crates, {at_once} at a time")
    say(f"where nothing is kept, this takes {TIME_FROM_NOTHING}")
    words = ["-m", "shq_tools.proving", str(CRATES / PROGRAM_CRATE), str(at_once)]
    status = run(words, TOOLS, log, Progress(names))
    if status == proving.NOT_KNOWN:
        say("the toolchain has another form than is known here, so it proves one crate after the other")
    return status in (0, proving.NOT_KNOWN)


def make(log):
    """Makes the program over what was proved, and returns whether that went well."""
    say(f"proving and making the program itself, {PROGRAM_CRATE}")
    making = Making()
    # the toolchain runs the program once, with no words, and its status is then that of bad words
    run([kit_command.__file__, "run"], CRATES / PROGRAM_CRATE, log, making)
    if making.is_made:
        # where the toolchain found nothing changed, the file is as old as it was
        os.utime(PROGRAM)
    return making.is_made


def show_end(path):
    with open(path, encoding="utf-8") as log:
        sys.stderr.writelines(log.readlines()[-LAST_LINES:])


def main():
    """Builds the program, and returns 0, or 127 where that failed."""
    if shutil.which("rt") is None:
        say("the program is not built, and the toolchain's command rt is not on the path")
        say("a release has the program and needs no toolchain: README.md, 'Installed in a minute'")
        return NOT_BUILT
    say("the program is not built yet; ./shq --unproved JOB .. gives a first look in a minute or two, without proofs")
    begun = time.monotonic()
    with tempfile.NamedTemporaryFile("w+", encoding="utf-8", prefix="shq-build-", delete=False) as log:
        is_built = prove(log) and make(log)
    if not is_built:
        show_end(log.name)
        say(f"the build failed; the whole log is {log.name}")
        return NOT_BUILT
    os.remove(log.name)
    say(f"built in {round(time.monotonic() - begun)} seconds")
    return 0
