"""Definitions and clauses that a page shows, copied from where they stand, so that the page cannot say another thing.

A page names what it shows in a comment that a reader does not see, and the block of code behind it holds the copy:

    <!-- shown: crates/shq_meaning/specs/Truth.antt: Entails -->
    <!-- shown: crates/ontology_jobs/src/jobs.rt: clauses of run -->

A definition is copied with its comment; of a function its clauses are.
"""
import re
import sys
from pathlib import Path

from shq_tools.places import TOP

MARK = re.compile(r"<!-- shown: (?P<file>[\w./]+): (?P<names>[^>]+?) -->")
FENCE = "```"
CLAUSES = "clauses of "


class NotFound(Exception):
    """A page names what its file does not have, or has no block of code where it shows something."""


def paragraphs(text):
    """The blocks of lines between blank lines."""
    return [block.split("\n") for block in re.split(r"\n\s*\n", text)]


def declares(line, name):
    """Whether the line of a specification gives the definition's type."""
    return re.match(rf"\s*(abbrev |unfoldable |pub |record |data )*{re.escape(name)}( :| \(|$)", line) is not None


def without_indent(lines):
    """The lines, as far to the left as the first of them goes."""
    indent = len(lines[0]) - len(lines[0].lstrip())
    return [line[indent:] if line[:indent].isspace() else line for line in lines]


def definition(text, name):
    """The lines of a definition, with its comment."""
    for block in paragraphs(text):
        if any(declares(line, name) for line in block):
            return without_indent(block)
    raise NotFound(f"{name} is not defined there")


def clauses(text, name):
    """The clauses of a function, in their order, each with its comment."""
    lines = text.split("\n")
    starts = [at for at, line in enumerate(lines) if re.match(rf"(pub )?fn {re.escape(name)}\b", line)]
    if not starts:
        raise NotFound(f"there is no function {name}")
    begin = next(at for at in range(starts[0], len(lines)) if re.match(r"    (requires|ensures)\b", lines[at]))
    end = next(at for at in range(begin, len(lines)) if lines[at] == "{")
    return without_indent(lines[begin:end])


def shown(path, name):
    """What a page shows of a file by this name."""
    text = path.read_text(encoding="utf-8")
    if name.startswith(CLAUSES):
        return clauses(text, name[len(CLAUSES):])
    return definition(text, name)


def copied(path, names):
    """The lines of all that is named, with blank ones between; a block that has two of the names stands once."""
    blocks = []
    for name in names:
        block = shown(path, name)
        if block not in blocks:
            blocks.append(block)
    return "\n\n".join("\n".join(block).rstrip() for block in blocks).split("\n")


def page_with_copies(page, top=TOP):
    """The text of the page, with each copy as it stands in its file now."""
    lines, out = page.split("\n"), []
    at = 0
    while at < len(lines):
        out.append(lines[at])
        mark = MARK.fullmatch(lines[at].strip())
        at += 1
        if mark is None:
            continue
        if at == len(lines) or not lines[at].startswith(FENCE):
            raise NotFound(f"behind {lines[at - 1]} there is no block of code")
        try:
            end = lines.index(FENCE, at + 1)
            block = copied(top / mark["file"], mark["names"].split(", "))
        except (ValueError, OSError, NotFound) as why:
            raise NotFound(f"{mark['file']}: {why}") from why
        out += [lines[at], *block, FENCE]
        at = end + 1
    return "\n".join(out)


def main(words):
    """Writes the copies into each page, or with --check tells which pages are not current; returns the status."""
    check, pages = words[:1] == ["--check"], [Path(word) for word in words if word != "--check"]
    if not pages:
        print("usage: tools/show-definitions [--check] PAGE ..", file=sys.stderr)
        return 2
    status = 0
    for path in pages:
        try:
            before = path.read_text(encoding="utf-8")
            now = page_with_copies(before)
        except (OSError, NotFound) as why:
            print(f"{path}: {why}", file=sys.stderr)
            return 2
        if now == before:
            continue
        if check:
            print(f"{path}: shows what stands there no more: tools/show-definitions {path} mends it", file=sys.stderr)
            status = 1
        else:
            path.write_text(now, encoding="utf-8")
    return status
