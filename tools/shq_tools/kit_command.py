"""Runs a command of the toolchain, `rt`, with the sum over each crate's files made once in each walk.

`rt` tells by a sum over a crate's files, and over those of all crates below it, whether a kept library is still good.
The command of some kits makes that sum anew on every way through crates.txt, of which there are thousands, and takes
minutes for it. Here the kit's own command runs with that one function replaced by one that gives the same sums.
"""
import importlib.machinery
import importlib.util
import os
import shutil
import sys
import threading


class SumsOnce:
    """A crate's sum, made once in each walk through the crates below it.

    Nothing is kept from one walk to the next, so an edit between two walks is seen.
    """

    def __init__(self, plain):
        self.plain = plain
        self.walk = threading.local()

    def __call__(self, crate):
        known = getattr(self.walk, "known", None)
        if known is not None:
            return self.within(crate, known)
        self.walk.known = {}
        try:
            return self.plain(crate)
        finally:
            self.walk.known = None

    def within(self, crate, known):
        if crate.folder not in known:
            known[crate.folder] = self.plain(crate)
        return known[crate.folder]


def loaded(path):
    """The kit's command as a module, or None where it is no Python text of the form that is known here."""
    try:
        loader = importlib.machinery.SourceFileLoader("rt", path)
        module = importlib.util.module_from_spec(importlib.util.spec_from_loader("rt", loader))
        loader.exec_module(module)
        plain = module.rtlib.Crate.stamp
        sums = SumsOnce(plain)
        module.rtlib.Crate.stamp = lambda crate: sums(crate)
    except (AttributeError, ImportError, OSError, SyntaxError, ValueError):
        return None
    return module if callable(getattr(module, "main", None)) else None


def loaded_kit():
    """The command of the toolchain that is on the path, as a module, or None."""
    command = shutil.which("rt")
    return loaded(os.path.realpath(command)) if command else None


def main(words):
    """Runs `rt` with these words, and returns its status. One of another form runs as it is."""
    module = loaded_kit()
    if module is None:
        os.execvp("rt", ["rt", *words])
    return module.main(list(words))


if __name__ == "__main__":
    sys.dont_write_bytecode = True
    sys.exit(main(sys.argv[1:]))
