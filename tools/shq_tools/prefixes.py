"""Prefixes, and the IRIs of names."""
from shq_tools.keywords import PREDECLARED
from shq_tools.tokens import bad_text


class Prefixes:
    """The prefixes of a document, with those that every document begins with."""

    def __init__(self):
        self.iris = dict(PREDECLARED)

    def declare(self, group):
        """Reads one group `Prefix`. Raises `Refused` where it has another shape, or clashes with an earlier one."""
        if len(group.items) != 3:
            raise bad_text("shape", group.line)
        name, sign, iri = group.items
        if name.kind != "name" or name.text.find(":") != len(name.text) - 1:
            raise bad_text("shape", name.line)
        if sign.kind != "sign" or sign.text != "=":
            raise bad_text("shape", sign.line)
        if iri.kind != "iri":
            raise bad_text("shape", iri.line)
        if self.iris.setdefault(name.text[:-1], iri.text) != iri.text:
            raise bad_text("clash", name.line)

    def iri(self, item):
        """The IRI that an item names. Raises `Refused` where it names none."""
        if item.kind == "iri":
            return item.text
        if item.kind != "name" or ":" not in item.text:
            raise bad_text("shape", item.line)
        prefix, _, rest = item.text.partition(":")
        if prefix not in self.iris:
            raise bad_text("prefix", item.line)
        return self.iris[prefix] + rest
