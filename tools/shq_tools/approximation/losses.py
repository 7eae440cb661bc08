"""What a translation does not say that its file says."""
from dataclasses import dataclass, field
from enum import Enum


class Loss(Enum):
    """A kind of loss: what the file has there, and what of it the translation does not say."""

    ANONYMOUS = ("individuals without a name", "")
    BEYOND_LIMITS = ("numbers above 100", "the number, where a smaller one follows; else the class expression")
    CHAIN = ("role chains", "all; --approximate=full has them")
    CHAIN_IN_FULL = ("role chains", "what follows by further steps of roles that are not regular")
    COUNTED = ("numbers over roles that are not simple", "the number, where `some` follows; else the class expression")
    DATA = ("data", "what is said of more than two data ranges at once")
    DATATYPE = ("datatype definitions", "all but where the datatype stands alone")
    DISJOINT_ROLES = ("disjoint, asymmetric or irreflexive roles", "all but loops, and assertions that clash")
    IMPORT = ("imports", "all that the imported ontology says: nothing is fetched")
    INVERSE = ("inverse roles", "what an element says of those that lead to it; --approximate=full has it")
    INVERSE_IN_FULL = ("inverse roles", "numbers over inverses")
    INVERSE_FUNCTIONAL = ("inverse-functional roles", "all but for individuals by assertions")
    KEY = ("keys", "all")
    MANY_VALUES = ("many values of a functional data property", "that they differ")
    NOMINAL = ("classes of individuals", "that the class {a} has one member")
    RULE = ("rules", "all")
    SELF = ("loops", "that a loop leads to the same element")
    TOP_ROLE = ("owl:topObjectProperty or owl:bottomObjectProperty", "all, or what is said of all elements at once")

    def __init__(self, what, lost):
        self.what = what
        self.lost = lost


@dataclass
class Losses:
    """Each kind of loss with the lines on which it was met. Of a kind without a text nothing is lost."""

    lines: dict = field(default_factory=dict)

    def add(self, loss, line):
        self.lines.setdefault(loss, {})[line] = None

    def by_frequency(self):
        """The kinds of losses with their lines, the most frequent first."""
        found = [(loss, sorted(lines)) for loss, lines in self.lines.items() if loss.lost]
        return sorted(found, key=lambda it: (-len(it[1]), it[0].name))

    @property
    def is_exact(self):
        return not self.by_frequency()
