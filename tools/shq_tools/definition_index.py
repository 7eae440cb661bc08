"""The index of definitions: what each public definition of a specification is, by the comment that stands above it.

A definition is a function, a type or a record of a file `crates/*/specs/*.antt`. It is told where a comment stands
right above it. Constructors and fields are told with their type, and the later definitions of a mutual block with its
first one. A definition that no other file names is a helper: it is told with what stands beside it.
"""
import re
import sys
import textwrap
from collections import defaultdict
from dataclasses import dataclass
from pathlib import Path

from shq_tools.output import written
from shq_tools.places import CRATE_LIST, CRATES, TOP

PAGE = TOP / "docs" / "INDEX.md"
DEFINITION = re.compile(r"(?:abbrev |unfoldable )pub (\S+) |pub (?:record|data) (\S+)(?= |$)")
IN_MUTUAL = re.compile(r"  pub (\S+) :")
MUTUAL = re.compile(r"(?:abbrev |unfoldable )?mutual\b")
IMPORT = re.compile(r"\buse Rattle\.(\w+)\.specs\.((?:\w+\.)*)\{([^}]*)\}")
PASSED_ON = re.compile(r"(?m)^pub use Rattle\.(\w+)\.specs\.((?:\w+\.)*\w+)(?: as (\w+))?$")
HEAD = """# Index of definitions

This page lists each definition of a specification that a contract or another crate names: crate by crate, from the
lowest up, and file by file. `tools/list-definitions` makes it from the comments above the definitions, and a test fails
if it is not current. `DEFINITIONS.md` says what the definitions mean together."""


@dataclass(frozen=True)
class Definition:
    """A definition: its crate and file, its name, its line, what is said of it, and whether another one tells that."""

    crate: str
    file: str
    name: str
    line: int
    comment: str
    is_told_beside: bool

    @property
    def path(self):
        """The file below `crates/`."""
        return f"{self.crate}/specs/{self.file.replace('.', '/')}.antt"


def comment_above(lines, at):
    """The comment that ends right above a line, as one text."""
    begin = at
    while begin > 0 and lines[begin - 1].lstrip().startswith("--"):
        begin -= 1
    return " ".join(it.lstrip()[2:].strip() for it in lines[begin:at])


def definitions_in(crate, file, text):
    """The public definitions of a file, in their order."""
    lines, block_comment, is_in_block, is_first = text.split("\n"), "", False, False
    for at, line in enumerate(lines):
        if line and not line.startswith((" ", "--")):
            is_in_block = MUTUAL.match(line) is not None
            if is_in_block:
                block_comment, is_first = comment_above(lines, at), True
        inner = IN_MUTUAL.match(line) if is_in_block else None
        match = inner or DEFINITION.match(line)
        if match is None:
            continue
        comment = comment_above(lines, at)
        if inner and is_first:
            comment, is_first = comment or block_comment, False
        is_told = inner is not None and bool(block_comment)
        yield Definition(crate, file, match[match.lastindex], at + 1, comment, is_told)


def imported_names(text):
    """What a file imports of specifications: the crate, the file and the name of each."""
    for crate, path, names in IMPORT.findall(re.sub(r"\n\s*", " ", text)):
        for name in re.split(r",\s*", names.strip()):
            yield crate, path.rstrip("."), name.strip()


def files_passed_on(crate, text):
    """Which files of other crates a crate passes on, by `text` of its `specs/Lib.antt` and by its names for them."""
    return {(crate, name or file.rpartition(".")[2]): (other, file) for other, file, name in PASSED_ON.findall(text)}


def defined_at(crate, file, passed_on):
    """The crate and the file that define what an import names: the import may name a crate that passes the file on."""
    first, _, rest = file.partition(".")
    while (crate, first) in passed_on:
        crate, file = passed_on[crate, first]
        first, _, rest = (f"{file}.{rest}" if rest else file).partition(".")
    return crate, f"{first}.{rest}" if rest else first


def crates_in_order():
    """The crates of the list, the lowest first."""
    names = re.findall(r"(?m)^(\w+):", CRATE_LIST.read_text(encoding="utf-8"))
    return [it for it in names if (CRATES / it / "specs").is_dir()]


@dataclass
class Specifications:
    """All definitions, and by which files each is named."""

    definitions: list
    users: dict

    def is_cited(self, it):
        """Whether a contract or another crate names the definition."""
        users = self.users.get((it.crate, it.file, it.name), ())
        return any(crate != it.crate or folder == "src" for crate, folder, _ in users)

    def lacks_comment(self, it):
        """Whether another file names the definition, and nothing tells what it is."""
        return (it.crate, it.file, it.name) in self.users and not it.comment and not it.is_told_beside


def read_specifications():
    """Reads all specifications, and what every source file imports."""
    found, users, passed_on = [], defaultdict(set), {}
    for crate in crates_in_order():
        passed_on |= files_passed_on(crate, (CRATES / crate / "specs" / "Lib.antt").read_text(encoding="utf-8"))
        for path in sorted((CRATES / crate / "specs").rglob("*.antt")):
            file = ".".join(path.relative_to(CRATES / crate / "specs").with_suffix("").parts)
            found += definitions_in(crate, file, path.read_text(encoding="utf-8"))
    for path in [*CRATES.glob("*/src/**/*.rt"), *CRATES.glob("*/specs/**/*.antt"), *CRATES.glob("*/proofs/**/*.antt")]:
        crate, folder = path.relative_to(CRATES).parts[:2]
        for other, file, name in imported_names(path.read_text(encoding="utf-8")):
            users[(*defined_at(other, file, passed_on), name)].add((crate, folder, path.name))
    return Specifications(found, users)


def index_text(specifications):
    """The page."""
    lines, crate, file = [HEAD], None, None
    for it in specifications.definitions:
        if not it.comment or not specifications.is_cited(it):
            continue
        if it.crate != crate:
            lines += ["", f"## `{it.crate}`"]
        if (it.crate, it.file) != (crate, file):
            lines += ["", f"**`{it.path}`**", ""]
        crate, file = it.crate, it.file
        lines += textwrap.wrap(f"- `{it.name}`: {it.comment}", 120, subsequent_indent="  ", break_on_hyphens=False)
    return "\n".join(lines) + "\n"


def main(words):
    """Writes the page, or tells with --check whether it is current, and with --lacking what has no comment."""
    specifications = read_specifications()
    if words == ["--lacking"]:
        lacking = filter(specifications.lacks_comment, specifications.definitions)
        said = "".join(f"crates/{it.path}:{it.line}: {it.name}\n" for it in lacking)
        return 0 if written(said.encode("utf-8")) else 1
    text = index_text(specifications)
    if words == ["--check"]:
        is_current = PAGE.exists() and PAGE.read_text(encoding="utf-8") == text
        if not is_current:
            print(f"{PAGE.relative_to(TOP)} is not current: run tools/list-definitions", file=sys.stderr)
        return 0 if is_current else 1
    if words:
        print("usage: tools/list-definitions [--check | --lacking]", file=sys.stderr)
        return 2
    PAGE.write_text(text, encoding="utf-8")
    return 0
