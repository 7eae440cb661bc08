"""An answer together with what is known of its ontology, for all ways to show it."""
from dataclasses import dataclass, field, replace

from shq_tools.answers import OF_CLASSES, Instances, ListedAxiom, Model, Plain, Reasons, Refutation, SetList
from shq_tools.arguments import families, in_order_of_argument
from shq_tools.caveats import NO_CAVEAT, Caveat
from shq_tools.manchester import axiom_text, class_text, name_text
from shq_tools.names import Names
from shq_tools.ontology_facts import Ontology
from shq_tools.story import Story, all_told, list_text, story_of
from shq_tools.terms import BOTTOM, TOP, Axiom, RoleBox
from shq_tools.told import ToldClasses
from shq_tools.wording import counted, heading, reason_heading, types_text
from shq_tools.worlds import World, called, connected, things

OTHER_AXIOMS = "the axioms of the file for --labels are not those of this refutation, so they are not told"


def is_of_roles(axiom, story, box):
    """Whether an axiom says something of a role along which a story goes, or of one below it."""
    if axiom.keyword == "TransitiveObjectProperty":
        return axiom.items[0] in story.carried
    if axiom.keyword not in ("SubObjectPropertyOf", "EquivalentObjectProperties"):
        return False
    return bool(box.all_above(axiom.items[-1]) & story.roles)


@dataclass
class ReasonFamily:
    """Reasons that share most axioms: their numbers, what they share, and what each one has besides."""

    numbers: list
    shared: list
    rest: list


@dataclass
class Reading:
    """An answer, the names to use, its ontology as far as it is known, and the statement that was asked about (two
    classes, and an individual or None).

    `is_asked` says that the answer is surely to this statement. `file` is the name of the ontology's file, and
    `about` is the class to whose neighbourhood a taxonomy was cut, or nothing.
    `originals` has, by line, an axiom of the file as it stands there, where others were made from it: it is shown in
    their place, once. `caveat` says what the answer is worth for the whole of the file. `shows_all` also shows what of
    a world has nothing to do with the statement. `written` is the question as a person wrote it, where it was put in
    another way.
    """

    answer: object
    names: Names
    ontology: Ontology = field(default_factory=Ontology)
    query: tuple = None
    notes: list = field(default_factory=list)
    is_asked: bool = False
    file: str = ""
    about: str = ""
    originals: dict = field(default_factory=dict)
    caveat: Caveat = NO_CAVEAT
    shows_all: bool = False
    written: str = ""

    def __post_init__(self):
        self.axioms = self.ontology.axioms
        self.individuals = list(self.ontology.individuals)
        if self.query and self.query[2] is not None and self.query[2] not in self.individuals:
            self.individuals.append(self.query[2])

    def counts(self):
        """How much the ontology has of each kind, in words, or nothing where it is not known."""
        counts = self.ontology.counts(self.names)
        return [counted(number, what) for what, number in counts.items() if number or what in ("axiom", "class")]

    def axiom_text(self, axiom):
        """What an axiom says, as it stands in the file."""
        if not axiom.keyword:
            return "(--labels names no file that has it)"
        return self.originals.get(axiom.line) or axiom_text(axiom, self.names)

    def place(self, axiom):
        """Where an axiom stands: its number and its line, or its line where others were made from it."""
        if not axiom.line:
            return f"axiom {axiom.number}"
        return f"line {axiom.line}" if axiom.line in self.originals else f"axiom {axiom.number}, line {axiom.line}"

    def axiom_line(self, axiom):
        """An axiom with its number and its line."""
        return f"{self.place(axiom)}: {self.axiom_text(axiom)}"

    def one_for_each(self, axioms):
        """The axioms, and of those that were made from one axiom of the file the first."""
        found = {}
        for axiom in axioms:
            found.setdefault(axiom.line if axiom.line in self.originals else ("axiom", axiom.number), axiom)
        return list(found.values())

    def argument(self, axioms, query=None):
        """The axioms of a reason, in the order of the argument."""
        return self.one_for_each(in_order_of_argument(axioms, query or self.query))

    def families(self):
        """The reasons of a list, those together that share most axioms."""
        axioms, found = self.answer.axioms, []
        for family in families(self.answer.sets):
            numbers = [place for place, _ in family.members]
            shared = family.shared if len(numbers) > 1 else frozenset()
            whole = set().union(*(one for _, one in family.members))
            ordered = [it.number for it in in_order_of_argument((axioms[it].axiom for it in whole), self.query)]
            rest = [self.chosen(one - shared, ordered) for _, one in family.members]
            found.append(ReasonFamily(numbers, self.chosen(shared, ordered), rest))
        return found

    def chosen(self, numbers, ordered):
        """The axioms of these numbers, in the order of others."""
        return self.one_for_each(self.answer.axioms[it].axiom for it in ordered if it in numbers)

    def types(self):
        """Each individual of a realization by its name, with the names of its most specific classes."""
        types = dict(self.answer.types)
        return [(self.names.of(one), types_text(types[one], self.names)) for one in self.names.shown(types)]

    def reasons(self):
        """What comes before each reason why an individual is in a class expression, and the axioms of the reason."""
        told = []
        for one, found in self.answer.instances:
            for number, numbers in enumerate(found.sets, 1):
                query = (TOP, self.asked_class() or TOP, one)
                axioms = self.argument((found.axioms[it].axiom for it in numbers), query)
                told.append((reason_heading(self.names.of(one), number, numbers), axioms))
        return told

    def asked_class(self):
        """The class that was asked about, or None."""
        if self.query is None:
            return None
        return self.query[0] if self.query[1] == BOTTOM and self.query[2] is None else self.query[1]

    def heading(self):
        said = heading(self.answer, self.names)
        if self.query is None or not self.is_asked or isinstance(self.answer, Plain):
            return said
        if isinstance(self.answer, (Model, Refutation)):
            return f"{said} ({self.query_text()})"
        return f"{self.query_text()}: {said[0].lower()}{said[1:]}"

    def query_text(self):
        """The statement that was asked about, or the class."""
        sub, sup, individual = self.query
        if isinstance(self.answer, (Instances, Reasons)) or getattr(self.answer, "verdict", "") in OF_CLASSES:
            return class_text(self.asked_class(), self.names)
        if individual is not None:
            return f"{name_text(individual, self.names)} Type {class_text(sup, self.names)}"
        return f"{class_text(sub, self.names)} SubClassOf {class_text(sup, self.names)}"

    def story(self):
        """The refutation told over the axioms that are known, or without them where they are of another ontology."""
        known = {it: self.axioms[it] for it in self.answer.axioms if it in self.axioms}
        if self.axioms and len(known) == len(self.answer.axioms):
            story = story_of(self.answer, known, self.names, self.individuals)
            if story.is_sound:
                return story
        if self.axioms:
            self.notes += [OTHER_AXIOMS] * (OTHER_AXIOMS not in self.notes)
            self.axioms, self.individuals = {}, []
        return Story([], all_told(self.answer, self.names), 0, set(), set(), set(), True)

    def supposition(self, story):
        """What is supposed of the thing in question."""
        sub_and_not_sup = (self.query[0], ("not", self.query[1])) if self.query else ()
        left_out = (("not", BOTTOM), TOP)
        found = [class_text(it, self.names) for it in sub_and_not_sup or story.supposed if it not in left_out]
        asked = self.asked(story)
        called_by = [name_text(it, self.names) for it in self.individuals[: max(asked) + 1]]
        named = [called_by[it] if it < len(called_by) else f"thing {it}" for it in asked]
        if len(asked) > 1:
            return f"Suppose one of {list_text(named)} is {list_text(found)}."
        if asked[0] < len(called_by):
            return f"Suppose {named[0]} is {list_text(found) or 'there'}."
        if not found:
            return f"Suppose there is a {named[0]} for which it fails."
        return f"Suppose there is a {named[0]} that is {list_text(found)}."

    def asked(self, story):
        """The things one of which is in question: the individual asked about, or the thing behind all individuals."""
        if self.query and self.query[2] in self.individuals:
            return (self.individuals.index(self.query[2]),)
        return (len(self.individuals),) if self.query or not story.asked else story.asked

    def used_axioms(self, story):
        """The axioms that a story uses, and those of the roles along which it goes, where they are known."""
        known = [self.axioms[it] for it in self.answer.axioms if it in self.axioms]
        box = RoleBox(known)
        used = [it for it in known if it.number in story.axioms or is_of_roles(it, story, box)]
        return self.argument(used)

    def exceptions(self):
        """The things of a model that show that the statement fails, or none where it is not known."""
        return World(self.answer).exceptions(*self.query) if self.query else []

    def called(self):
        """What each thing of a model is called."""
        return called(self.answer, self.names)

    def things(self):
        """The things of a model that have to do with the statement, and the others, which no role connects with one
        that shows that it fails.
        """
        told = ToldClasses(self.axioms.values())
        found, shown = things(self.answer, self.names, told if self.axioms else None), self.exceptions()
        near = connected(self.answer, shown) if shown and not self.shows_all else range(self.answer.size)
        return [it for it in found if it.number in near], [it for it in found if it.number not in near]


def audited(reading):
    """The two lists of an audit, each as a reading of its own; their axioms are known where the ontology is."""
    audit, axioms = reading.answer, reading.axioms
    used = {it for sets in (audit.justifications, audit.repairs) for one in sets for it in one}
    if not used <= axioms.keys():
        axioms = {it: Axiom("", (), 0, it) for it in used}
    listed = {it: ListedAxiom(it, axioms[it].line, axioms[it]) for it in used}
    lists = (SetList(kind, False, getattr(audit, kind), listed) for kind in ("justifications", "repairs"))
    return [replace(reading, answer=it) for it in lists]
