"""The tokens of an ontology in OWL 2 functional-style syntax.

They are those of the proved reader, with the same faults on the same lines: blank, tab, line feed and carriage return
are whitespace; a comment runs from `#` to the end of its line; a name is the longest run of characters other than
whitespace, control characters and `( ) = < > " # @ ^`. Reading stops after the bracket that closes the group
`Ontology`.
"""
import re
from typing import NamedTuple

BYTE_ORDER_MARK = "\ufeff"

GAP = re.compile(r"[ \t\n\r]*")
# A token, or a comment, and the gap behind it. A long gap in front of what is no token would be tried again and again.
PATTERN = re.compile(
    r"""(?:(?P<name>[^\x00-\x20\x7f()=<>"#@^]+)
    |(?P<open>\()|(?P<close>\))|(?P<equals>=)
    |(?P<iri><[^\x00-\x20\x7f<>"]*>)
    |(?P<string>"[^"\\]*(?:\\["\\][^"\\]*)*")
    |(?P<tag>@[A-Za-z0-9-]+)|(?P<carets>\^\^)
    |(?P<comment>\#[^\n\r]*))[ \t\n\r]*""",
    re.X,
)
DELIMITED = {"iri", "string"}
BRACKETS = {"open", "close"}
# What there may be of a token that goes on where the text ends.
UNENDED = re.compile(r"""<[^\x00-\x20\x7f<>"]*\Z|"[^"\\]*(?:\\["\\][^"\\]*)*\\?\Z|@\Z|\^\Z""")


class Refused(Exception):
    """What the reasoner answers to a text that it does not read, as `bad text shape line 7`."""

    def __init__(self, sort, what, line):
        super().__init__(f"{sort} {what}" if line is None else f"{sort} {what} line {line}")
        self.sort = sort
        self.what = what
        self.line = line


def bad_text(kind, line):
    return Refused("bad text", kind, line)


class Token(NamedTuple):
    """A token: its kind by the pattern above, its text without delimiters, its place in the text and its line.

    That of a name or of an IRI stands in a tree as it is: so it has what an item has.
    """

    kind: str
    text: str
    start: int
    end: int
    line: int

    items = ()
    tag = ""
    datatype = None

    def is_group(self, name):
        return False


class DocumentEnd:
    """Finds the bracket that closes the first group `Ontology` which begins where no bracket is open."""

    def __init__(self):
        self.depth = 0
        self.is_document = False
        self.latest = "other"

    def is_at(self, token):
        """Takes one token more, and returns whether it closes the document."""
        kind = token.kind
        if kind == "open":
            if self.depth == 0:
                self.is_document = self.latest == "document name"
            self.depth += 1
        elif kind == "close":
            if self.depth == 1 and self.is_document:
                return True
            self.depth = max(0, self.depth - 1)
        self.latest = self.behind(token) if self.depth == 0 else "other"
        return False

    def behind(self, token):
        """What the last tokens are, as far as it tells what a name after them is."""
        if token.kind == "name" and token.text == "Ontology" and self.latest != "typed string":
            return "document name"
        if token.kind == "string":
            return "string"
        if token.kind == "carets" and self.latest == "string":
            return "typed string"
        return "other"


def readable_front(data):
    """The longest front of the bytes that is UTF-8, as text, and the line of the byte after it, or None."""
    try:
        return data.decode("utf-8"), None
    except UnicodeDecodeError as error:
        front = data[: error.start].decode("utf-8")
        return front, 1 + front.count("\n")


def fault_at(front, place, line, bad_line):
    """The refusal of a character that begins no token, or of a token that is not whole."""
    if bad_line is not None and UNENDED.match(front, place):
        return bad_text("utf8", bad_line)
    return bad_text("token", line)


def tokens(data):
    """The tokens of the document that the bytes begin with, the text that was read, and the place after the last token.

    Raises `Refused` with the fault that is met first.
    """
    front, bad_line = readable_front(data)
    place = GAP.match(front, len(BYTE_ORDER_MARK) if front.startswith(BYTE_ORDER_MARK) else 0).end()
    line, found, document_end = 1 + front.count("\n", 0, place), [], DocumentEnd()
    for match in PATTERN.finditer(front, place):
        kind = match.lastgroup
        start, end = match.span(kind)
        if start != place:
            break
        place = match.end()
        if kind != "comment":
            text = front[start + 1 : end - 1] if kind in DELIMITED else front[start:end]
            token = Token(kind, text, start, end, line)
            found.append(token)
            # inside of brackets nothing but brackets matters
            if (kind in BRACKETS or not document_end.depth) and document_end.is_at(token):
                return found, front, end
        if place != end or kind == "string":
            line += front.count("\n", start, place)
    if place < len(front):
        raise fault_at(front, place, line, bad_line)
    if bad_line is not None:
        raise bad_text("utf8", bad_line)
    return found, front, place


def end_line(data):
    """The line on which the bytes end."""
    return 1 + data.count(b"\n")
