"""The answers of the reasoner, read from their texts."""
import re
from dataclasses import dataclass, field

from shq_tools.prefixes import Prefixes
from shq_tools.terms import BOTTOM, TOP, Axiom
from shq_tools.tokens import Refused, tokens
from shq_tools.trees import trees
from shq_tools.walk import NoLimits, Walk

LISTS = ("justifications", "repairs")
MODEL_VERDICTS = ("not entailed", "satisfiable")
REFUTATION_VERDICTS = ("entailed", "unsatisfiable")
# The verdicts on a class, in place of a statement.
OF_CLASSES = ("satisfiable", "unsatisfiable")
# The lines of answers that are a few words.
PLAIN_LINE = re.compile(
    r"""undecided|no\ memory|bad\ words|read\ fault|limit\ text(\ query)?
    |accepted\ (entailed|not\ entailed|audit)
    |rejected\ (query|transversal|(line|axiom|justification|repair)\ \d+)
    |bad\ text\ (utf8|token|balance|shape|prefix|clash)\ (line\ \d+|query)
    |(outside|limit)\ \S+\ (line\ \d+|query)
    |(axiom|removed)\ \d+|yes(\ empty|(\ \d+)+)|no|bad\ line
    |(workload|axioms|justifications|repairs)\ \d+""",
    re.X,
)


class Unread(Exception):
    """A text that begins as an answer, and goes on as none."""


@dataclass
class Plain:
    """An answer of a few words, as `undecided`."""

    lines: list


@dataclass
class ListedAxiom:
    """An axiom below a list: its number, its line in the file, and what it says."""

    number: int
    line: int
    axiom: Axiom


@dataclass
class SetList:
    """Justifications or repairs: sets of axioms by their numbers, and the axioms."""

    kind: str
    is_partial: bool
    sets: list
    axioms: dict


@dataclass
class Audit:
    """Justifications and repairs as sets of axioms by their numbers, which stand with what shows each of them."""

    justifications: list
    repairs: list


@dataclass
class Group:
    """Classes that are equal, and the first name of each group directly above; `None` stands for `owl:Thing`."""

    names: list
    parents: list


@dataclass
class Taxonomy:
    is_consistent: bool
    nothing: list = field(default_factory=list)
    thing: list = field(default_factory=list)
    groups: list = field(default_factory=list)


@dataclass
class Realization:
    """Individuals, each with the names of its most specific classes; none stands for `owl:Thing`."""

    types: list


@dataclass
class Instances:
    """The individuals of a class expression."""

    names: list


@dataclass
class Reasons:
    """The individuals of a class expression, each with its justifications as a list of sets of axioms."""

    instances: list


@dataclass
class Model:
    """A finite world: its verdict, how many things there are, the members of each class, the pairs of each role, and
    which thing each individual is.
    """

    verdict: str
    size: int
    classes: dict
    roles: dict
    individuals: dict = field(default_factory=dict)


@dataclass
class RuleLine:
    """A line of a refutation: its number in the certificate, its rule and its other words."""

    number: int
    rule: str
    words: list


@dataclass
class Refutation:
    verdict: str
    axioms: list
    concepts: dict
    lines: list


def iri_of(word):
    if not (word.startswith("<") and word.endswith(">")):
        raise Unread(f"{word} is no IRI")
    return word[1:-1]


def number_of(word):
    if not word.isascii() or not word.isdigit():
        raise Unread(f"{word} is no number")
    return int(word)


def axiom_of(text, line, number):
    """The axiom of a canonical text."""
    try:
        found, _, _ = tokens(text.encode("utf-8"))
        (item,) = trees(found, 1)
        axiom = Walk(Prefixes(), NoLimits()).axiom(item)
    except (Refused, ValueError) as fault:
        raise Unread(f"axiom {number}: {fault}") from fault
    if axiom is None:
        raise Unread(f"axiom {number} has no number")
    return Axiom(axiom.keyword, axiom.items, line, number)


def listed_axiom(line):
    words = line.split(" ", 4)
    if len(words) != 5 or words[0] != "axiom" or words[2] != "line":
        raise Unread(f"no line of an axiom: {line}")
    number, place = number_of(words[1]), number_of(words[3])
    return ListedAxiom(number, place, axiom_of(words[4], place, number))


def numbers_in(line):
    """The numbers of a set of axioms."""
    return [] if line == "empty" else list(map(number_of, line.split(" ")))


def listed_axioms(lines):
    """The axioms below a list, by their numbers."""
    return {it.number: it for it in map(listed_axiom, lines)}


def is_whole(count, sets, axioms):
    """Whether there are so many sets, of these axioms."""
    return len(sets) == count and all(number in axioms for one in sets for number in one)


def set_list(lines):
    """A list of justifications or repairs."""
    words = lines[0].split(" ")
    kind, count = words[-2], number_of(words[-1])
    sets = list(map(numbers_in, lines[1 : 1 + count]))
    axioms = listed_axioms(line for line in lines[1 + count :] if line != "undecided")
    if not is_whole(count, sets, axioms):
        raise Unread("the list is not whole")
    return SetList(kind, words[0] == "partial", sets, axioms)


def reasons(lines):
    """Why individuals are in a class expression."""
    heads = [at for at, line in enumerate(lines) if line.startswith("instance ")]
    counts = [number_of(lines[at].split(" ")[3]) for at in heads]
    ends = [at + 1 + count for at, count in zip(heads, counts)]
    axioms = listed_axioms(lines[ends[-1] :])
    if heads[1:] != ends[:-1] or any(lines[at].split(" ")[2:3] != ["justifications"] for at in heads):
        raise Unread("the reasons are not whole")
    found = []
    for at, count, end in zip(heads, counts, ends):
        sets = list(map(numbers_in, lines[at + 1 : end]))
        if not is_whole(count, sets, axioms):
            raise Unread("the reasons are not whole")
        found.append((iri_of(lines[at].split(" ")[1]), SetList("justifications", False, sets, axioms)))
    return Reasons(found)


def instances(lines):
    names = list(map(iri_of, lines[1:]))
    if len(names) != number_of(lines[0].removeprefix("instances ")):
        raise Unread("the list is not whole")
    return Instances(names)


def types(line):
    """An individual and its most specific classes."""
    words = line.split(" ")
    if words[0] != "individual" or words[2] != "types":
        raise Unread(f"no line of an individual: {line}")
    return iri_of(words[1]), [iri_of(word) for word in words[3:] if word != "owl:Thing"]


def realization(lines):
    return Realization(list(map(types, lines[1:])))


def group(line):
    words = line.split(" ")
    if words[0] != "class" or "under" not in words:
        raise Unread(f"no line of a class: {line}")
    at = words.index("under")
    parents = [None if word == "owl:Thing" else iri_of(word) for word in words[at + 1 :]]
    return Group([iri_of(word) for word in words[1:at]], parents)


def named(line, head):
    words = line.split(" ")
    if words[0] != head:
        raise Unread(f"no line that begins with {head}: {line}")
    return [iri_of(word) for word in words[1:]]


def taxonomy(lines):
    if lines[0] == "inconsistent":
        return Taxonomy(False)
    if len(lines) < 3:
        raise Unread("the taxonomy is not whole")
    return Taxonomy(True, named(lines[1], "nothing"), named(lines[2], "thing"), [group(it) for it in lines[3:]])


def model(lines):
    if lines[-1] != "end":
        raise Unread("the model is not whole")
    size = number_of(lines[1].removeprefix("model "))
    classes, roles, individuals = {}, {}, {}
    for line in lines[2:-1]:
        head, name, *members = line.split(" ")
        if head == "class":
            classes[iri_of(name)] = list(map(number_of, members))
        elif head == "role":
            roles[iri_of(name)] = [tuple(map(number_of, it.split(","))) for it in members]
        elif head == "individual":
            (individuals[iri_of(name)],) = map(number_of, members)
        else:
            raise Unread(f"no line of a model: {line}")
    return Model(lines[0], size, classes, roles, individuals)


def concept(words, concepts):
    """The class expression of a concept line, behind its number."""
    kind, *rest = words
    if kind in ("top", "bottom"):
        return TOP if kind == "top" else BOTTOM
    if kind == "name":
        return ("name", iri_of(rest[0]))
    if kind == "not":
        return ("not", ("name", iri_of(rest[0])))
    if kind in ("and", "or"):
        return (kind, tuple(concepts[number_of(it)] for it in rest))
    if kind in ("some", "all"):
        return (kind, iri_of(rest[0]), concepts[number_of(rest[1])])
    if kind in ("least", "most"):
        return (kind, number_of(rest[0]), iri_of(rest[1]), concepts[number_of(rest[2])])
    raise Unread(f"no concept: {' '.join(words)}")


def refutation(lines):
    if lines[-1] != "end" or len(lines) < 4:
        raise Unread("the refutation is not whole")
    axioms = list(map(number_of, lines[2].split(" ")[1:]))
    concepts, rules = {}, []
    for number, line in enumerate(lines[3:-1], 4):
        words = line.split(" ")
        if words[0] == "concept":
            concepts[number_of(words[1])] = concept(words[2:], concepts)
        else:
            rules.append(RuleLine(number, words[0], words[1:]))
    return Refutation(lines[0], axioms, concepts, rules)


def audit(lines):
    """An audit, without what shows its sets."""
    if lines[-1] != "end audit":
        raise Unread("the audit is not whole")
    lists, counts, latest = {}, {}, ""
    for line in lines[1:-1]:
        head, *rest = line.split(" ")
        if head in LISTS:
            latest, lists[head], counts[head] = head, [], number_of(rest[0])
        elif head == "set":
            lists[latest].append(list(map(number_of, rest)))
    if list(lists) != list(LISTS) or counts != {head: len(sets) for head, sets in lists.items()}:
        raise Unread("the audit is not whole")
    return Audit(*lists.values())


def plain(lines):
    """An answer of a few words."""
    for line in lines:
        if not PLAIN_LINE.fullmatch(line):
            raise Unread(f"no line of an answer: {line[:60]}")
    return Plain(lines)


def is_list(line):
    words = line.split(" ")
    return len(words) == 2 and words[0] in LISTS or len(words) == 3 and words[0] == "partial" and words[1] in LISTS


def reader_for(lines):
    """The call that reads an answer with these lines."""
    second = lines[1] if len(lines) > 1 else ""
    if lines[0] == "consistent" and (not second or second.startswith("individual ")):
        return realization
    if lines[0] in ("consistent", "inconsistent"):
        return taxonomy
    if lines[0].startswith("instances "):
        return instances
    if lines[0].startswith("instance "):
        return reasons
    if is_list(lines[0]):
        return set_list
    if lines[0] in MODEL_VERDICTS and second.startswith("model "):
        return model
    if lines[0] in REFUTATION_VERDICTS and second == "refutation":
        return refutation
    return audit if lines[0] == "audit" else plain


def answer(text):
    """The answer of a text. Raises `Unread` where it is not whole, or damaged."""
    lines = text.rstrip("\n").split("\n") if text.strip() else []
    if not lines:
        raise Unread("there is no answer")
    try:
        return reader_for(lines)(lines)
    except (IndexError, KeyError, ValueError) as fault:
        raise Unread("the answer is damaged") from fault
