"""The translation of an ontology: what becomes of each of its axioms, on the line where it stands."""
from collections import defaultdict
from dataclasses import dataclass, field, replace
from enum import Enum

from shq_tools.approximation import (
    class_axioms,
    data_classes,
    disjoint_roles,
    nominals,
    role_axioms,
    selves,
    special_roles,
)
from shq_tools.approximation.bounds import Bounds
from shq_tools.approximation.data_classes import DataClasses
from shq_tools.approximation.full import FullRows, Roles
from shq_tools.approximation.inverse_roles import RoleNames, roles_with_inverses
from shq_tools.approximation.losses import Loss, Losses
from shq_tools.approximation.new_names import NewNames
from shq_tools.approximation.nominals import Nominals
from shq_tools.approximation.owl import TOP_DATA, UNTRANSLATED, OwlAxiom, base, inverse
from shq_tools.approximation.role_axioms import inclusions
from shq_tools.approximation.selves import Selves
from shq_tools.keywords import NUMBERED
from shq_tools.terms import Axiom, RoleBox
from shq_tools.walk import MOST_NUMBER, is_within

# What an axiom may have in its expressions and stay as it is.
PLAIN = {"some", "all", "not", "and", "or", "least", "most", "exactly"}
NUMBERS = {"least", "most", "exactly"}
ROLE_AXIOMS = {
    "SubObjectPropertyOf": role_axioms.of_inclusion,
    "EquivalentObjectProperties": role_axioms.of_equivalence,
    "InverseObjectProperties": role_axioms.of_inverses,
    "SymmetricObjectProperty": role_axioms.of_symmetric,
    "TransitiveObjectProperty": role_axioms.of_transitive,
}
CLASS_AXIOMS = {
    "SubClassOf": class_axioms.of_inclusion,
    "EquivalentClasses": class_axioms.of_equivalence,
    "DisjointClasses": class_axioms.of_disjointness,
    "DisjointUnion": class_axioms.of_disjoint_union,
    "ObjectPropertyDomain": class_axioms.of_domain,
    "ObjectPropertyRange": class_axioms.of_range,
    "ClassAssertion": class_axioms.of_type,
    "NegativeObjectPropertyAssertion": nominals.of_no_pair,
    "FunctionalObjectProperty": role_axioms.of_functional,
    "InverseFunctionalObjectProperty": role_axioms.of_inverse_functional,
}
PLAIN_FEATURES = (PLAIN | {"inverse", "single"}) - NUMBERS
PLAIN_WITH_INVERSES = {
    "SubClassOf",
    "EquivalentClasses",
    "DisjointClasses",
    "DisjointUnion",
    "ObjectPropertyDomain",
    "ObjectPropertyRange",
    "InverseObjectProperties",
}
ABOUT_LOOPS = [
    "ReflexiveObjectProperty",
    "IrreflexiveObjectProperty",
    "AsymmetricObjectProperty",
    "DisjointObjectProperties",
]
ON_DATA_PROPERTIES = (
    "SubDataPropertyOf",
    "EquivalentDataProperties",
    "DisjointDataProperties",
    "FunctionalDataProperty",
)
LEFT_OUT = {"Import": Loss.IMPORT, "HasKey": Loss.KEY}


class Strength(Enum):
    """How much is translated: all that is cheap, or also what role chains and inverse roles say of each `all r C`."""

    LIGHT = "light"
    FULL = "full"


@dataclass
class Source:
    """An axiom of the file: what it says without special roles, the kinds of its expressions, and what it becomes."""

    axiom: OwlAxiom
    features: set
    says: list
    stays: bool = False
    written: list = field(default_factory=list)


def source_of(axiom, features):
    says = [axiom]
    if "special role" in features and special_roles.is_special(axiom):
        says, features = special_roles.without_special(axiom), features | {"rewritten"}
    elif axiom.keyword in ("ObjectPropertyAssertion", "NegativeObjectPropertyAssertion"):
        says = [role_axioms.normal_pair(axiom)]
    return Source(axiom, features, says)


class Context:
    """What the rows of the translation share: the names, the bounds, what is lost, and the axiom at which they are."""

    def __init__(self, sources, iris, strength):
        self.sources = sources
        self.strength = strength
        self.place = 0
        self.names = NewNames(iris)
        self.losses = Losses()
        self.roles = RoleNames(self.names)
        self.nominals = Nominals(self)
        self.selves = Selves(self)
        self.data = DataClasses(self)
        self.bounds = Bounds(self)
        self.not_simple = set()

    def lose(self, loss):
        if loss == Loss.INVERSE and self.strength == Strength.FULL:
            loss = Loss.INVERSE_IN_FULL
        self.losses.add(loss, self.sources[self.place].axiom.line)

    def define(self, axiom):
        """Writes what holds by the definition of a new name, on the line of the axiom at which it is."""
        self.define_at(self.place, axiom)

    def define_at(self, place, axiom):
        source = self.sources[place]
        source.written.append(replace(axiom, line=source.axiom.line))

    def meaning(self, of):
        """A class expression of the language without new names: what these mean stands in their places."""
        if of[0] == "name":
            return self.names.meanings.get(of, of)
        return tuple(self.meaning_of_part(it) for it in of)

    def meaning_of_part(self, part):
        if isinstance(part, str):
            return self.roles.meaning(part)
        if not isinstance(part, tuple) or not part:
            return part
        return self.meaning(part) if isinstance(part[0], str) else tuple(map(self.meaning, part))

    def roles_back(self, role):
        """The inverse of a role of the language, as one of OWL 2."""
        return inverse(self.roles.meaning(role))

    def individual(self, name):
        if name.startswith("_:"):
            self.lose(Loss.ANONYMOUS)
        return self.names.individual(name)


class Translator:
    """Translates the axioms of a file, those first on which others depend."""

    def __init__(self, sources, iris, strength=Strength.LIGHT):
        self.sources = sources
        self.strength = strength
        self.context = Context(sources, iris, strength)
        self.by_keyword = defaultdict(list)
        # the rows written by steps that are repeated, each with its place
        self.seen = set()
        for place, source in enumerate(sources):
            for axiom in source.says or ():
                self.by_keyword[axiom.keyword].append((place, axiom))

    def of(self, *keywords):
        """The axioms of some keywords, each at its place."""
        for keyword in keywords:
            for place, axiom in self.by_keyword[keyword]:
                self.context.place = place
                yield axiom

    def write(self, rows):
        """Writes rows at the axiom at which the translation is, but for what the axiom itself says where it stays."""
        source = self.sources[self.context.place]
        source.written += rows if not source.stays else [it for it in rows if not says_itself(it, source.axiom)]

    def write_new(self, rows):
        """Writes the rows that were not written at this place before."""
        for row in rows:
            if (self.context.place, row) not in self.seen:
                self.seen.add((self.context.place, row))
                self.write([row])

    def translate(self):
        self.leave_out()
        self.translate_roles()
        self.translate_classes()
        self.translate_assertions()
        self.translate_loops()
        self.translate_individuals()
        self.translate_data()
        if self.strength == Strength.FULL:
            self.translate_in_full()
        return self.context

    def leave_out(self):
        """Says what is lost of the axioms of which nothing is translated."""
        for place, source in enumerate(self.sources):
            self.context.place = place
            if source.axiom.keyword in UNTRANSLATED:
                self.context.lose(LEFT_OUT.get(source.axiom.keyword, Loss.RULE))
            elif source.says is None:
                self.context.lose(Loss.TOP_ROLE)

    def translate_roles(self):
        context = self.context
        pairs = [it for axiom in self.of(*ROLE_AXIOMS) for it in inclusions(axiom)]
        spoken_of = set()
        for source in self.sources:
            if "inverse" in source.features or source.axiom.keyword in role_axioms.OF_INVERSES:
                for axiom in source.says or ():
                    spoken_of |= role_axioms.spoken_of(axiom)
        asserted = {it.items[0] for it in self.of("ObjectPropertyAssertion")}
        chains = [it for it in self.of("SubObjectPropertyOf") if self.strength == Strength.FULL and is_chain(it)]
        context.roles.need(roles_with_inverses(spoken_of, pairs, asserted, chains))
        for axiom in self.of(*ROLE_AXIOMS):
            if "inverse" in self.sources[context.place].features and not says_transitive(axiom):
                context.lose(Loss.INVERSE)
            if axiom.keyword == "SubObjectPropertyOf" and is_chain(axiom):
                self.translate_chain(axiom)
            else:
                self.write(ROLE_AXIOMS[axiom.keyword](context, axiom))
        context.not_simple = RoleBox([it for source in self.sources for it in source.written]).not_simple()
        self.pairs = pairs
        for source in self.sources:
            source.stays = self.is_plain(source)
            if source.stays:
                source.written = [it for it in source.written if not says_itself(it, source.axiom)]

    def translate_chain(self, axiom):
        if role_axioms.is_transitivity(axiom):
            self.write(role_axioms.of_chain(self.context, axiom))
        elif self.strength == Strength.LIGHT:
            self.context.lose(Loss.CHAIN)

    def is_plain(self, source):
        """Whether an axiom stays as it is."""
        axiom = source.axiom
        is_whole = axiom.keyword in NUMBERED and is_within(len(axiom.items), NUMBERED[axiom.keyword])
        return is_whole and source.features <= PLAIN and self.can_count(source)

    def can_count(self, source):
        """Whether the language has the numbers of an axiom."""
        if source.axiom.keyword == "FunctionalObjectProperty":
            return source.axiom.items[0] not in self.context.not_simple
        return source.features.isdisjoint(NUMBERS) or all(
            role not in self.context.not_simple and number <= MOST_NUMBER
            for number, role in numbers_within(source.axiom.items)
        )

    def translate_classes(self):
        for axiom in self.of(*CLASS_AXIOMS):
            source = self.sources[self.context.place]
            if source.stays and axiom.keyword not in ("ObjectPropertyDomain", "ObjectPropertyRange"):
                continue
            if "inverse" in source.features:
                self.context.lose(Loss.INVERSE)
            self.write(CLASS_AXIOMS[axiom.keyword](self.context, axiom))
        for axiom in self.of("DataPropertyDomain"):
            # its row comes with those on data, but the names that it needs are made here
            self.context.bounds.above(axiom.items[1])

    def translate_assertions(self):
        """Writes the assertions, and where they clash with disjoint roles."""
        context = self.context
        has_loops = context.selves.made or any(self.by_keyword[it] for it in ABOUT_LOOPS)
        for axiom in self.of("ObjectPropertyAssertion"):
            self.write(role_axioms.of_pair(context, axiom))
            if has_loops and axiom.items[1] == axiom.items[2]:
                context.selves.class_of(axiom.items[0])
        for axiom in self.of("SameIndividual", "DifferentIndividuals"):
            if len(axiom.items) > 1:
                self.write([Axiom(axiom.keyword, tuple(map(context.individual, axiom.items)), axiom.line)])
        pairs = disjoint_roles.Pairs([it.items for it in self.of("ObjectPropertyAssertion")], self.pairs)
        for axiom in self.of("DisjointObjectProperties"):
            context.lose(Loss.DISJOINT_ROLES)
            self.write(disjoint_roles.of_disjoint(context, axiom, pairs))
        for axiom in self.of("AsymmetricObjectProperty"):
            context.lose(Loss.DISJOINT_ROLES)
            self.write(disjoint_roles.of_asymmetric(context, axiom, pairs))
        for axiom in self.of("IrreflexiveObjectProperty"):
            context.lose(Loss.DISJOINT_ROLES)

    def translate_loops(self):
        context = self.context
        for axiom in self.of("ReflexiveObjectProperty"):
            self.write(selves.of_reflexive(context, axiom))
        self.until_nothing_is_new(context.selves.made, self.loops_of_inclusions)
        for axiom in self.of("IrreflexiveObjectProperty", "AsymmetricObjectProperty"):
            self.write(selves.of_no_loop(context, axiom))
        for axiom in self.of("DisjointObjectProperties"):
            self.write(selves.of_disjoint(context, axiom))

    def loops_of_inclusions(self):
        for axiom in self.of(*ROLE_AXIOMS):
            if axiom.keyword == "SubObjectPropertyOf" and is_chain(axiom):
                self.write_new(selves.of_chain(self.context, axiom))
            for sub, sup in inclusions(axiom):
                self.write_new(selves.of_inclusion(self.context, sub, sup, axiom.line))

    def translate_individuals(self):
        """Writes what is said of individuals of their classes too, now that all of these are made."""
        context = self.context
        for axiom in self.of("ClassAssertion"):
            if axiom.items[1] in context.nominals.made:
                self.write(nominals.of_type(context, axiom, context.bounds.above(axiom.items[0])))
        for axiom in self.of("ObjectPropertyAssertion"):
            self.write(nominals.of_pair(context, axiom))
            self.write(selves.of_pair(context, axiom))
        for axiom in self.of("DifferentIndividuals"):
            self.write(nominals.of_different(context, axiom))
        for axiom in self.of("SameIndividual"):
            self.write(nominals.of_same(context, axiom))

    def translate_data(self):
        context = self.context
        for axiom in self.of(*ON_DATA_PROPERTIES):
            if TOP_DATA in axiom.items:
                context.lose(Loss.DATA)
        for axiom in self.of("DataPropertyAssertion"):
            self.write(data_classes.of_assertion(context, axiom))
        for axiom in self.of("NegativeDataPropertyAssertion"):
            self.write(data_classes.of_negative_assertion(context, axiom))
        self.until_nothing_is_new(context.data.made, self.classes_of_inclusions)
        for axiom in self.of("DataPropertyDomain"):
            self.write(data_classes.of_domain(context, axiom))
        for axiom in self.of("DataPropertyRange"):
            self.write(data_classes.of_range(context, axiom))
        for axiom in self.of("DatatypeDefinition"):
            self.write(data_classes.of_datatype(context, axiom))
        for axiom in self.of("FunctionalDataProperty"):
            self.write(data_classes.of_functional(context, axiom))
        for axiom in self.of("DisjointDataProperties"):
            self.write(data_classes.of_disjoint(context, axiom))
        context.data.relate()

    def rows_at(self, place):
        """The axioms of the language that stand at a place."""
        source = self.sources[place]
        own = [Axiom(source.axiom.keyword, source.axiom.items, source.axiom.line)] if source.stays else []
        return own + source.written

    def translate_in_full(self):
        """Writes what chains and inverses say of the class expressions that stand there by now."""
        context = self.context
        roles = Roles(self)
        full = FullRows(context, roles)
        for place, rows in [(it, self.rows_at(it)) for it in range(len(self.sources))]:
            context.place = place
            source = self.sources[place]
            source.written = source.written[len(rows) - source.stays :]
            found = [full.rewritten(it) for it in rows]
            changed = source.stays and found[0] is not None
            source.written = source.written + [
                row for at, (given, new) in enumerate(zip(rows, found)) for row in self.kept(source, at, given, new)
            ]
            source.stays = source.stays and not changed
        self.lose_numbers(roles)
        if self.has_plain_inverses():
            context.losses.lines.pop(Loss.INVERSE_IN_FULL, None)
        for axiom in self.of("SubObjectPropertyOf"):
            if is_chain(axiom) and (full.is_cut_off or context.place in roles.irregular):
                context.lose(Loss.CHAIN_IN_FULL)

    def lose_numbers(self, roles):
        """Says where a role at the end of a chain is counted: of the pairs that chains make none is counted."""
        for place, source in enumerate(self.sources):
            counted = {role for _, role in numbers_within(source.axiom.items)}
            if "FunctionalObjectProperty" in source.axiom.keyword:
                counted |= set(map(base, source.axiom.items))
            if counted & {base(self.context.roles.meaning(it)) for it in roles.complex}:
                self.context.place = place
                self.context.lose(Loss.COUNTED)

    def has_plain_inverses(self):
        """Whether the file has inverses, and besides nothing but plain axioms on classes. Of such files it is known
        that the rows on inverses lose nothing (Ding, Haarslev, Wu, "A new mapping from ALCI to ALC", 2007).
        """
        return all(it.axiom.keyword in PLAIN_WITH_INVERSES and it.features <= PLAIN_FEATURES for it in self.sources)

    def kept(self, source, at, given, new):
        """What is written for a row: nothing for the axiom itself where it stays."""
        if new is not None:
            return new
        return [] if at == 0 and source.stays else [given]

    def classes_of_inclusions(self):
        for axiom in self.of("SubDataPropertyOf", "EquivalentDataProperties"):
            for sub, sup in data_classes.inclusions(axiom):
                self.write_new(data_classes.of_inclusion(self.context, sub, sup, axiom.line))

    def until_nothing_is_new(self, made, step):
        """Repeats a step that makes classes until it makes none."""
        count = -1
        while count != len(made):
            count = len(made)
            step()


def says_itself(row, axiom):
    """Whether a row says of the same things what an axiom says that stays."""
    if axiom.keyword in ("ObjectPropertyDomain", "ObjectPropertyRange"):
        return row.keyword == axiom.keyword and row.items[0] == axiom.items[0]
    return row.keyword == axiom.keyword and row.items == axiom.items


def says_transitive(axiom):
    """Whether an axiom says that a role is transitive, which its inverse is too."""
    if axiom.keyword == "SubObjectPropertyOf":
        return is_chain(axiom) and role_axioms.is_transitivity(axiom)
    return axiom.keyword == "TransitiveObjectProperty"


def is_chain(axiom):
    sub = axiom.items[0]
    return sub[0] == "chain" and len(sub[1]) > 1


def numbers_within(of):
    """The numbers in some class expressions, with the roles that they count."""
    found = []
    for item in of:
        if isinstance(item, tuple):
            if item[0] in NUMBERS:
                found.append((item[1], item[2]))
            found += numbers_within(item)
    return found
