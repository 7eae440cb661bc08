"""The items of an ontology, bracketed."""
from shq_tools.tokens import Refused, bad_text

MOST_OPEN = 64


class Item:
    """A literal, a sign (an equals sign, a tag or carets) or a group, with its line and its place. A name or an IRI is
    an item too, and stands as its token.

    A group has its name, or None, as its text, and its items. A literal has its tag or type behind its text: the
    type is an item.
    """

    __slots__ = ("kind", "text", "line", "start", "end", "items", "tag", "datatype")

    def __init__(self, kind, text, line, start, end, items=(), tag="", datatype=None):
        self.kind = kind
        self.text = text
        self.line = line
        self.start = start
        self.end = end
        self.items = items
        self.tag = tag
        self.datatype = datatype

    def is_group(self, name):
        return self.kind == "group" and self.text == name


def type_length(tokens, place):
    """How many tokens behind a string belong to its literal: a tag, or carets and a type."""
    if place < len(tokens) and tokens[place].kind == "tag":
        return 1
    is_typed = place + 1 < len(tokens) and tokens[place].kind == "carets"
    return 2 if is_typed and tokens[place + 1].kind in ("name", "iri") else 0


def literal(tokens, place):
    """The literal whose string stands at a place, and how many tokens it has."""
    token = tokens[place]
    count = type_length(tokens, place + 1)
    last = tokens[place + count]
    tag = last.text[1:] if count == 1 else ""
    datatype = single(last) if count == 2 else None
    return Item("literal", token.text, token.line, token.start, last.end, tag=tag, datatype=datatype), 1 + count


def single(token):
    """The item of a token that is neither a bracket nor a string."""
    if token.kind in ("name", "iri"):
        return token
    return Item("sign", token.text, token.line, token.start, token.end)


def opened(items, before, bracket):
    """The group that a bracket opens, still without items. If the token before is a name, it is that of the group, and
    no item beside it.
    """
    if items and items[-1] is before and before.kind == "name":
        items.pop()
        return Item("group", before.text, before.line, before.start, bracket.end, [])
    return Item("group", None, bracket.line, bracket.start, bracket.end, [])


def trees(tokens, end_line):
    """The items of the tokens. Raises `Refused` at a bracket without its partner, or at the bracket that nests too
    deeply.
    """
    top, open_groups, place = [], [], 0
    items = top
    while place < len(tokens):
        token, count = tokens[place], 1
        if token.kind == "close":
            if not open_groups:
                raise bad_text("balance", token.line)
            open_groups.pop().end = token.end
            items = open_groups[-1].items if open_groups else top
        elif token.kind == "open":
            if len(open_groups) == MOST_OPEN:
                raise Refused("limit", "nesting", token.line)
            group = opened(items, tokens[place - 1], token)
            items.append(group)
            open_groups.append(group)
            items = group.items
        elif token.kind == "string":
            item, count = literal(tokens, place)
            items.append(item)
        else:
            items.append(single(token))
        place += count
    if open_groups:
        raise bad_text("balance", end_line)
    return top
