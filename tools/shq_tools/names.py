"""Names for people: the label of a class, role or individual, or the end of its IRI."""
import re
from collections import Counter

from shq_tools.keywords import LABEL
from shq_tools.prefixes import Prefixes
from shq_tools.tokens import Refused, end_line, tokens
from shq_tools.trees import trees
from shq_tools.walk import without_annotations


def unescaped(text):
    """The text of a string, without its backslashes."""
    return text.replace('\\"', '"').replace("\\\\", "\\") if "\\" in text else text


def label_in(item, prefixes):
    """The IRI, the language and the text of a label that an item gives, or None."""
    if not item.is_group("AnnotationAssertion"):
        return None
    items = without_annotations(item.items)
    if len(items) != 3 or items[2].kind != "literal":
        return None
    try:
        if prefixes.iri(items[0]) != LABEL:
            return None
        return prefixes.iri(items[1]), items[2].tag.lower(), unescaped(items[2].text)
    except Refused:
        return None


def labels_of(items, prefixes):
    """The labels that some items give, by IRI: the first text in each language."""
    labels = {}
    for item in items:
        label = label_in(item, prefixes)
        if label:
            labels.setdefault(label[0], {}).setdefault(label[1], label[2])
    return labels


def labels_in(data):
    """The labels of a document, by IRI: the first text in each language. Raises `Refused` where it is damaged."""
    found, _, _ = tokens(data)
    prefixes, inner = Prefixes(), []
    for item in trees(found, end_line(data)):
        if item.is_group("Prefix"):
            prefixes.declare(item)
        if item.is_group("Ontology"):
            inner += item.items
    return labels_of(inner, prefixes)


def is_of_language(tag, language):
    """Whether a tag is the wanted language, or a kind of it, as `en-GB` is of `en`."""
    return tag == language or tag.startswith(language + "-")


def main_language(labels):
    """The language that most things have a label in, of equally many the one that is met first, or nothing."""
    counts = Counter(tag for by_language in labels.values() for tag in by_language if tag)
    return max(counts, key=counts.get, default="")


def languages(labels):
    """The languages in which there are labels, in order."""
    return sorted({tag for by_language in labels.values() for tag in by_language if tag})


def has_language(labels, language):
    """Whether any label is in a language."""
    return any(is_of_language(tag, language.lower()) for tag in languages(labels))


def chosen_label(by_language, language):
    """The label in a language, else the one without a language, else nothing."""
    for tag, text in by_language.items():
        if language and is_of_language(tag, language):
            return text
    return by_language.get("", "")


def end_of_iri(iri):
    """What stands behind the last `#`, `/` or `:` of an IRI, or the IRI itself where that is nothing."""
    at = max(iri.rfind(sign) for sign in "#/:")
    return iri[at + 1 :] or iri


def natural_order(name):
    """What names are sorted by: without regard to capitals, and numbers in them by their size."""
    pieces = re.split(r"([0-9]+)", name.casefold())
    pieces[1::2] = [it.lstrip("0") for it in pieces[1::2]]
    return [(len(it) if at % 2 else 0, it) for at, it in enumerate(pieces)], name


class Names:
    """The name of each class, role and individual. Two things never have the same name.

    A name is the label in the wanted language, or in that of most labels where none is wanted, else the label without
    a language, else the end of the IRI. Where two things would have the same name, both get the end of the IRI behind
    it, or the whole of it. That is settled over everything that has a label and over `known`, so that a thing has one
    name, whatever is asked for first.

    `written` has, by their IRIs, things with a form of their own, as `{a}`, which is never put in quotation marks.
    `left_out` are things that lists of classes, roles and individuals do not show.
    """

    def __init__(self, labels=None, language="", known=(), written=None, left_out=()):
        self.labels = labels or {}
        self.language = language.lower()
        self.label_language = self.language or main_language(self.labels)
        self.written = dict(written or {})
        self.left_out = frozenset(left_out)
        self.owners = {}
        self.given = dict(self.written)
        for iri in (*self.labels, *known, *self.written):
            self.own(iri)

    def plain(self, iri):
        """The name of a thing, before it is told apart from others."""
        text = " ".join(self.label(self.labels.get(iri, {})).split())
        return text or end_of_iri(iri)

    def label(self, by_language):
        """The label that is shown. Where no language was asked for, one in another language is better than none."""
        found = chosen_label(by_language, self.label_language)
        return found or ("" if self.language else next(iter(by_language.values()), ""))

    def candidates(self, iri):
        """The names that a thing may have, the best first."""
        if iri in self.written:
            return [self.written[iri]]
        plain = self.plain(iri)
        return [plain, f"{plain} ({end_of_iri(iri)})", f"{plain} ({iri})"]

    def own(self, iri):
        """Notes who may have which name."""
        for name in self.candidates(iri):
            self.owners.setdefault(name, set()).add(iri)

    def of(self, iri):
        """The name of a class, role or individual."""
        if iri not in self.given:
            self.own(iri)
            self.given[iri] = next((it for it in self.candidates(iri) if len(self.owners[it]) == 1), iri)
        return self.given[iri]

    def bare(self, iri):
        """The name alone, whatever `of` shows it in."""
        return self.of(iri)

    def order(self, iri):
        """What things are sorted by: their names."""
        return natural_order(self.of(iri))

    def shown(self, iris):
        """The things that a list shows, in the order of their names."""
        return sorted((it for it in iris if it not in self.left_out), key=self.order)

    def add_forms(self, written):
        """Gives some things a form of their own, by their IRIs, and leaves them out of lists."""
        self.written.update(written)
        self.left_out |= frozenset(written)
        self.given.update(written)

    def has_own_form(self, iri):
        """Whether a thing is written in a way of its own, without quotation marks."""
        return iri in self.written

    def marked(self, iri, text):
        """The text that stands for a thing: here the text itself; on pages it is a link, or has the IRI with it."""
        return text
