"""Tokens and brackets of a text in functional-style syntax (OWL 2 Structural Specification, sections 2.3 and 3.7)."""
import re
from collections import namedtuple
from itertools import dropwhile

MOST_OPEN, SHAPE = 64, "bad text shape"
BAD = r"\udc80-\udcff"  # a byte that is no part of UTF-8, as it is read
IRI, STRING = rf'<[^<>"\x00-\x20\x7f{BAD}]*', rf'"(?:[^"\\{BAD}]|\\["\\])*'
TOKEN = re.compile(
    rf'(?P<gap>[ \t\n\r]+|#[^\n\r{BAD}]*)|(?P<open>\()|(?P<close>\))|(?P<equals>=)|(?P<iri>{IRI}>)|(?P<string>{STRING}'
    rf'")|(?P<tag>@[A-Za-z0-9-]+)|(?P<carets>\^\^)|(?P<name>[^\x00-\x20\x7f()=<>"#@^{BAD}]+)'
)
BEFORE_BAD = re.compile(rf"(?:{IRI}|{STRING}\\?|@|\^)?(?=[{BAD}])")  # the beginning of a token before such a byte


class Fault(Exception):
    """Something is refused, malformed or against the rules: what is said of it, and the line."""


def need(holds, *said):
    """Tells a fault where something does not hold."""
    if not holds:
        raise Fault(*said)


def ascend(items):
    return all(one < other for one, other in zip(items, items[1:]))


class Item(namedtuple("Item", "kind text line items", defaults=((),))):
    """A token, or a group with its items. Its kind is one of TOKEN, or group, or literal, a string with type or tag."""

    def is_group(self, *keywords):
        return self.kind == "group" and self.text in keywords

    def behind_annotations(self):
        """The items of a group without the annotations in front."""
        return tuple(dropwhile(lambda it: it.is_group("Annotation"), self.items))

    def check_keyword(self, known, outside):
        need(not self.is_group(*outside), f"outside {self.text}", self.line)
        need(self.is_group(*known), SHAPE, self.line)


def tokens(data):
    """The tokens up to the bracket that closes the group `Ontology`, the line of the end, and the bytes up to there."""
    text = data.decode("utf-8", "surrogateescape")
    found, depth, is_document, line, place = [], 0, False, 1, int(text.startswith("\ufeff"))
    while place < len(text):
        match = TOKEN.match(text, place)
        if match is None:
            cut = BEFORE_BAD.match(text, place)
            need(cut, "bad text token", line)
            need(False, "bad text utf8", line + cut[0].count("\n"))
        kind = match.lastgroup
        if kind == "open" and not depth:
            is_document = [it[:2] for it in found[-1:]] == [("name", "Ontology")]
        depth = max(0, depth + (kind == "open") - (kind == "close"))
        if kind == "tag" and found and found[-1].kind == "string":
            found[-1] = found[-1]._replace(kind="literal")
        elif kind in ("name", "iri") and [it.kind for it in found[-2:]] == ["string", "carets"]:
            found[-2:] = [found[-2]._replace(kind="literal")]
        elif kind != "gap":
            found.append(Item(kind, match[0].strip("<>"), line))
        place, line = match.end(), line + match[0].count("\n")
        if kind == "close" and is_document and not depth:
            break
    return found, line, len(text[:place].encode("utf-8"))


def read_items(data):
    """The items of a text, the line of its end, and how many bytes were read."""
    found, end_line, length = tokens(data)
    groups, before = [Item("text", "", 1, [])], None
    for token in found:
        items = groups[-1].items
        if token.kind == "open":
            need(len(groups) <= MOST_OPEN, "limit nesting", token.line)
            name = items.pop() if before == "name" else token
            groups.append(Item("group", name.text, name.line, []))
            items.append(groups[-1])
        elif token.kind == "close":
            need(len(groups) > 1, "bad text balance", token.line)
            groups.pop()
        else:
            items.append(token)
        before = token.kind
    need(len(groups) == 1, "bad text balance", end_line)
    return groups[0].items, end_line, length
