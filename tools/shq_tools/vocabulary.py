"""The classes, roles and individuals of an ontology, and how people may name them."""
import difflib
from dataclasses import dataclass, field

from shq_tools.approximation.new_names import is_new
from shq_tools.documents import document, walked
from shq_tools.keywords import NOTHING, THING
from shq_tools.names import end_of_iri, labels_of
from shq_tools.prefixes import Prefixes

KINDS = {"classes": "class", "roles": "role", "individuals": "individual"}
NEAREST = 3


def one_line(text):
    return " ".join(text.split())


@dataclass
class Vocabulary:
    """The names of an ontology by kind (`classes`, `roles` and `individuals`), their labels, its prefixes, and its
    numbered axioms in order.
    """

    prefixes: Prefixes
    names: dict
    labels: dict = field(default_factory=dict)
    axioms: list = field(default_factory=list)

    @property
    def axiom_count(self):
        return len(self.axioms)

    def has(self, kind, iri):
        return iri in self.names[kind] or kind == "classes" and iri in (THING, NOTHING)

    def labels_of(self, iri):
        """The labels of a thing, in all languages."""
        return [one_line(it) for it in self.labels.get(iri, {}).values()]

    def of_the_file(self, kind):
        """The names of a kind but for those that a translation made, which nobody writes."""
        return [it for it in self.names[kind] if not is_new(it)]

    def called(self, kind, text):
        """The IRIs of a kind that end in a text or have it as a label; where there is none, without regard to case."""
        for alike in (str, str.casefold):
            wanted = alike(one_line(text))
            found = [it for it in self.of_the_file(kind) if wanted in map(alike, [end_of_iri(it), *self.labels_of(it)])]
            if found:
                return found
        return []

    def written(self, iri):
        """An IRI as the document may write it."""
        fitting = [it for it in self.prefixes.iris.items() if it[0] != "_" and it[1] and iri.startswith(it[1])]
        if not fitting:
            return f"<{iri}>"
        prefix, start = max(fitting, key=lambda it: len(it[1]))
        rest = iri[len(start) :]
        return f"{prefix}:{rest}" if is_plain_end(rest) else f"<{iri}>"

    def told(self, iri):
        """An IRI as the document may write it, with its first label."""
        labels = self.labels_of(iri)
        return f"{self.written(iri)} ('{labels[0]}')" if labels else self.written(iri)

    def nearest(self, kind, text):
        """The things of a kind whose names are nearest to a text, the nearest first."""
        by_name = {}
        for iri in self.of_the_file(kind):
            for name in (end_of_iri(iri), *self.labels_of(iri)):
                by_name.setdefault(name.casefold(), iri)
        wanted = end_of_iri(one_line(text)).casefold()
        found = difflib.get_close_matches(wanted, by_name, n=2 * NEAREST, cutoff=0.6)
        return list(dict.fromkeys(by_name[it] for it in found))[:NEAREST]

    def other_kind(self, kind, iri):
        """What an IRI is in the ontology, where it is nothing of this kind, or None."""
        return next((KINDS[it] for it in KINDS if it != kind and iri in self.names[it]), None)

    def complaint(self, kind, iri, text):
        """What to say of a name that the ontology does not have in this kind."""
        other = self.other_kind(kind, iri)
        if other:
            return f"{text} is no {KINDS[kind]} in the file; there it is {'an' if other[0] == 'i' else 'a'} {other}"
        near = self.nearest(kind, iri)
        more = f"; nearest to it: {', '.join(map(self.told, near))}" if near else ""
        return f"the file has no {KINDS[kind]} {text}{more}"


def is_plain_end(text):
    """Whether what stands behind a prefix can be written so."""
    return not set(text) & set(' ()<>"=#@^')


def vocabulary_of(data):
    """The vocabulary of a document. Raises `Refused` where the reasoner refuses it."""
    read = document(data)
    axioms, names = walked(read)
    return Vocabulary(read.prefixes, names, labels_of(read.axiom_items, read.prefixes), axioms)
