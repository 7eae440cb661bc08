"""What is known of the ontology behind an answer: its axioms, its names, and what a page says of the file."""
import os
import time
from dataclasses import dataclass, field

from shq_tools.documents import document, walked
from shq_tools.prefixes import Prefixes
from shq_tools.tokens import Refused


@dataclass
class Ontology:
    """An ontology as the reasoner reads it: its prefixes, its axioms by their numbers, and its classes, roles and
    individuals in the order in which they are met. All of that is empty where it is not known.
    """

    prefixes: Prefixes = field(default_factory=Prefixes)
    axioms: dict = field(default_factory=dict)
    classes: list = field(default_factory=list)
    roles: list = field(default_factory=list)
    individuals: list = field(default_factory=list)

    @property
    def names(self):
        return [*self.classes, *self.roles, *self.individuals]

    def counts(self, names):
        """How much of each kind there is, by its word in the singular, without what has a form of its own."""
        kinds = {"class": self.classes, "role": self.roles, "individual": self.individuals}
        found = {what: sum(not names.has_own_form(it) for it in those) for what, those in kinds.items()}
        return {"axiom": len(self.axioms), **found}


def ontology_in(data):
    """The ontology in a file's bytes. Raises `Refused` where the reasoner refuses it."""
    read = document(data)
    axioms, names = walked(read)
    return Ontology(read.prefixes, {it.number: it for it in axioms}, *map(list, names.values()))


def ontology_from(data):
    """The ontology in a file's bytes, or an empty one where the reasoner refuses it."""
    try:
        return ontology_in(data)
    except Refused:
        return Ontology()


def made_at():
    """When a page is made, in words. `SOURCE_DATE_EPOCH` in the environment sets another time, in seconds."""
    seconds = int(os.environ.get("SOURCE_DATE_EPOCH") or time.time())
    return time.strftime("%Y-%m-%d %H:%M UTC", time.gmtime(seconds))
