"""The cases of `job_cases`: inputs of the program with what it answers. The head of its src/main.rt has their form."""
import re
from dataclasses import dataclass, replace
from pathlib import Path

TOP = Path(__file__).resolve().parent.parent.parent
FOLDER = TOP / "crates" / "job_cases"
RUN_BY_THE_PROGRAM_ALONE = ("read", "write", "budget")


@dataclass(frozen=True)
class Block:
    """A block of the file: what was said in it, a document, lines behind it, words, and how they are changed."""

    axioms: tuple = ()
    text: tuple = ()
    is_whole: bool = False
    certificate: tuple = ()
    words: tuple = ()
    blanks: int = 0
    line_end: str = "\n"
    is_unended: bool = False
    each: tuple = ()

    def document(self):
        """The document, with blanks behind it where the block says so."""
        lines = self.text if self.is_whole else ("Prefix(:=<http://e.org/>)", "Ontology(", *self.axioms, ")")
        return "".join(it + "\n" for it in lines).ljust(self.blanks).encode("utf-8")

    def behind(self):
        """What stands behind the document."""
        said = "".join(it + self.line_end for it in self.certificate)
        return (said[: -len(self.line_end)] if self.is_unended and said else said).encode("utf-8")


def with_line(block, key, rest):
    """The block with one line more of the file."""
    if key in ("axioms", "certificate"):
        return replace(block, **{key: (*getattr(block, key), rest)})
    if key in ("text", "empty"):
        return replace(block, is_whole=True, text=(*block.text, *[rest] * (key == "text")))
    number, _, text = rest.partition(" ")
    kind = "text" if block.is_whole else "axioms"
    if key == "lines":
        lines = [text.replace("@", str(at)).replace("%", str(at + 1)) for at in range(1, int(number) + 1)]
        return replace(block, **{kind: (*getattr(block, kind), *lines)})
    if key == "more":
        *front, last = getattr(block, kind)
        return replace(block, **{kind: (*front, last + int(number) * text)})
    if key in ("change", "insert", "drop"):
        front, behind = block.certificate[: int(number) - 1], block.certificate[int(number) - 1 :]
        return replace(block, certificate=(*front, *[text] * (key != "drop"), *behind[key != "insert" :]))
    if key == "keep":
        return replace(block, certificate=block.certificate[: int(number)])
    if key == "ask":
        return replace(block, words=tuple(it for it in rest.split(" ", 1) if it))
    if key in ("word", "budget"):
        return replace(block, words=(*block.words, *(["budget"] if key == "budget" else []), rest))
    changes = {"blanks": {"blanks": int(rest or 0)} if key == "blanks" else {}, "returns": {"line_end": "\r\n"}}
    changes.update(unended={"is_unended": True}, each={"each": tuple(rest.split(" "))})
    return replace(block, **changes.get(key, {}))


def turns(name, block):
    """The runs of a case, each with its name, the block and how many bytes of the input there are."""
    if not block.each:
        yield name, block, None
        return
    kind, first, last = block.each[0], int(block.each[1]), int(block.each[2])
    for at in range(first, last + 1):
        if kind in RUN_BY_THE_PROGRAM_ALONE:
            continue
        if kind == "spoil":
            lines = [it + " x" if number == at else it for number, it in enumerate(block.certificate, 1)]
            yield f"{name} {at}", replace(block, certificate=tuple(lines)), None
        elif kind == "cut":
            yield f"{name} {at}", block, at
        else:
            yield f"{name} {at}", with_line(block, kind, str(at)), None


@dataclass(frozen=True)
class Run:
    """A run: its name, its words, the document, what stands behind it, and what the program answers."""

    name: str
    words: tuple
    document: bytes
    behind: bytes
    status: str
    said: str


def answers():
    """How each run ended, and what it said."""
    found = {}
    for line in (FOLDER / "stdout").read_text("utf-8").splitlines():
        name, _, rest = line.partition(": ")
        status, _, said = rest.partition("; ")
        found[name] = status, said.removesuffix(" (unended)")
    return found


def runs():
    """All runs of the cases."""
    blocks, told = {}, answers()
    text = re.sub(r"(?m)^#.*\n", "", (FOLDER / "stdin").read_text("utf-8"))
    for lines in re.split(r"\n\n+", text.strip("\n")):
        (kind, _, name), *rest = (it.partition(" ") for it in lines.split("\n"))
        block = Block()
        if rest and rest[0][0] == "like":
            block = blocks[rest.pop(0)[2]]
            block = replace(block, each=())
        for key, _, said in rest:
            block = with_line(block, key, said)
        blocks[name] = block
        for of, turned, cut in turns(name, block) if kind == "case" else ():
            document, behind = turned.document(), turned.behind()
            if cut is not None:
                document, behind = document[:cut], behind[: max(cut - len(document), 0)]
            yield Run(of, turned.words, document, behind, *told[of])
