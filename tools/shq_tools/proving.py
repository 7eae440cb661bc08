"""Proves the libraries that a crate stands on, several at a time, and keeps them as the toolchain's `rt lib` does.

`rt lib` and `rt all` of the kit at hand lock all crates below the one that they work on, so two of them wait for each
other, and before a first build they look through the sources of everything at once, which takes many gigabytes. So
this calls what `rt lib` calls for each crate, over libraries that are there already. It runs as a process of its own:
proving FOLDER COUNT.
"""
import copy
import os
import sys
import tempfile
import threading

from shq_tools.kit_command import loaded_kit
from shq_tools.lanes import Lanes

NOT_KNOWN = 3


def lines_of(crate):
    """How many lines of text a crate has, as a measure of the work."""
    count = 0
    for part in ("src", "specs", "proofs"):
        for folder, _, names in os.walk(os.path.join(crate.folder, part)):
            for name in names:
                with open(os.path.join(folder, name), "rb") as file:
                    count += file.read().count(b"\n")
    return count


class Prover:
    """Proves each library that it is asked for, and prints what the toolchain says of it in one piece."""

    def __init__(self, crates):
        self.crates = {it.name: it for it in crates}
        self.printing = threading.Lock()

    def prove(self, name):
        """Proves a library, unless it is kept, and returns the toolchain's status."""
        crate = copy.copy(self.crates[name])
        os.makedirs(os.path.join(crate.folder, "out"), exist_ok=True)
        with tempfile.TemporaryFile("w+", encoding="utf-8", errors="replace") as crate.out:
            status = crate.build_rlib(["--jobs", "1"], anew=False)
            crate.out.seek(0)
            with self.printing:
                print(f"== {name}{f' failed ({status})' if status else ''}\n{crate.out.read()}", end="", flush=True)
        return status


def libraries_below(rtlib, folder):
    """The repository's libraries below the crate in a folder, with no other run of the toolchain beside this one."""
    crate = rtlib.Crate(folder, rtlib.root_above(folder) or folder, {})
    crates = crate.below()
    for one in crates:
        rtlib.stop_on_links(one.folder)
    return crates, rtlib.lock([*crates, crate])


def prove_below(rtlib, folder, at_once):
    """Proves the libraries below the crate in a folder, and returns 0 or 1."""
    # its first call sets a signal's handler, which only the main thread may do
    rtlib.guarded()
    crates, _held = libraries_below(rtlib, folder)
    below = {it.name: {other.name for other in it.below()} for it in crates}
    weights = {it.name: lines_of(it) for it in crates}
    failed = Lanes(below, weights, at_once, Prover(crates).prove).run()
    if failed:
        print(f"not proved: {' '.join(failed)}", flush=True)
    return 1 if failed else 0


def main(words):
    """Proves, and returns the status; 3 where the kit has another form than is known here."""
    folder, at_once = words
    kit = loaded_kit()
    needed = "Crate guarded lock root_above stop_on_links".split()
    if kit is None or not all(hasattr(kit.rtlib, it) for it in needed) or not hasattr(kit.rtlib.Crate, "build_rlib"):
        return NOT_KNOWN
    return prove_below(kit.rtlib, os.path.abspath(folder), int(at_once))


if __name__ == "__main__":
    sys.dont_write_bytecode = True
    sys.exit(main(sys.argv[1:]))
