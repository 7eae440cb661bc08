"""Documents and queries: which items are read, and which are refused, in the order in which faults are told."""
from collections import Counter, namedtuple
from itertools import combinations, takewhile

from checker.concepts import BOTTOM, TOP, Concepts, Roles
from checker.syntax import SHAPE, Item, need, read_items

W3C, OWL = "http://www.w3.org/", "http://www.w3.org/2002/07/owl#"
PREDECLARED = {"owl": OWL, "rdf": W3C + "1999/02/22-rdf-syntax-ns#", "rdfs": W3C + "2000/01/rdf-schema#"}
PREDECLARED["xsd"] = W3C + "2001/XMLSchema#"
BUILT_IN_CLASSES = {OWL + "Thing": TOP, OWL + "Nothing": BOTTOM}
BUILT_IN_ROLES = {OWL + it: f"outside owl:{it}" for it in ("topObjectProperty", "bottomObjectProperty")}
MOST_BYTES, MOST_NUMBER = 16_777_216, 100
MOST = {"axioms": 20_000, "classes": 20_000, "roles": 1_000, "individuals": 20_000, "nodes": 262_144, "parts": 500_000}
Axiom = namedtuple("Axiom", "kind said")  # what an axiom or a query says, tuples of one kind
NONE, ONE, PAIRS = (lambda n: 0), (lambda n: 1), (lambda n: n * (n - 1) // 2)
# What stands behind a keyword: N a class name, C a class expression, R a role, I an individual, # a number; the last
# kind may stand more often where a + follows. Then the concept that a class expression means.
CLASSES = {
    "ObjectIntersectionOf": ("CC+", Concepts.intersection),
    "ObjectUnionOf": ("CC+", Concepts.union),
    "ObjectComplementOf": ("C", lambda it, part: part ^ 1),
    "ObjectSomeValuesFrom": ("RC", lambda it, role, filler: it.at_least(1, role, filler)),
    "ObjectAllValuesFrom": ("RC", lambda it, role, filler: it.at_most(0, role, filler ^ 1)),
    "ObjectMinCardinality": ("#RC", Concepts.at_least),
    "ObjectMaxCardinality": ("#RC", Concepts.at_most),
    "ObjectExactCardinality": ("#RC", lambda it, *all_: it.intersection(it.at_least(*all_), it.at_most(*all_))),
}
# The same of an axiom; how many parts and facts it has, by the number of its items; and what it says, tuples of a kind:
# "part", a concept is in another one; "range", a role leads into a concept alone; "below", a role is below another one;
# "transitive", a role is; and the facts "in", "edge", "same" and "apart".
AXIOMS = {
    "SubClassOf": ("CC", ONE, "part", lambda it, *both: [both]),
    "EquivalentClasses": ("CC+", lambda n: n, "part", lambda it, *all_: zip(all_, all_[1:] + all_[:1])),
    "DisjointClasses": ("CC+", PAIRS, "part", lambda it, *all_: [(a, b ^ 1) for a, b in combinations(all_, 2)]),
    "DisjointUnion": ("NCC+", lambda n: n + PAIRS(n - 1), "part", lambda it, name, *parts: (
        [(name, it.union(*parts)), *((a, name) for a in parts), *((a, b ^ 1) for a, b in combinations(parts, 2))])),
    "SubObjectPropertyOf": ("RR", NONE, "below", lambda it, *both: [both]),
    "EquivalentObjectProperties": ("RR+", NONE, "below", lambda it, *all_: zip(all_, all_[1:] + all_[:1])),
    "ObjectPropertyDomain": ("RC", ONE, "part", lambda it, role, domain: [(it.at_least(1, role, TOP), domain)]),
    "ObjectPropertyRange": ("RC", ONE, "range", lambda it, *both: [both]),
    "FunctionalObjectProperty": ("R", ONE, "part", lambda it, role: [(TOP, it.at_most(1, role, TOP))]),
    "TransitiveObjectProperty": ("R", NONE, "transitive", lambda it, role: [(role,)]),
    "ClassAssertion": ("CI", ONE, "in", lambda it, *both: [both]),
    "ObjectPropertyAssertion": ("RII", ONE, "edge", lambda it, *edge: [edge]),
    "SameIndividual": ("II+", lambda n: n - 1, "same", lambda it, *all_: [(True, *it) for it in zip(all_, all_[1:])]),
    "DifferentIndividuals": ("II+", PAIRS, "apart", lambda it, *all_: [(True, *it) for it in combinations(all_, 2)]),
}  # fmt: skip
DECLARED = {"Class": "classes", "ObjectProperty": "roles", "NamedIndividual": "individuals"}
DECLARED.update(dict.fromkeys(("DataProperty", "AnnotationProperty", "Datatype")))
NOT_LOOKED_AT = "AnnotationAssertion SubAnnotationPropertyOf AnnotationPropertyDomain AnnotationPropertyRange".split()
AXIOMS_OUTSIDE = """Import DisjointObjectProperties InverseObjectProperties InverseFunctionalObjectProperty
    ReflexiveObjectProperty IrreflexiveObjectProperty SymmetricObjectProperty AsymmetricObjectProperty
    SubDataPropertyOf EquivalentDataProperties DisjointDataProperties DataPropertyDomain DataPropertyRange
    FunctionalDataProperty DatatypeDefinition HasKey NegativeObjectPropertyAssertion DataPropertyAssertion
    NegativeDataPropertyAssertion""".split()
CLASSES_OUTSIDE = """ObjectOneOf ObjectHasValue ObjectHasSelf DataSomeValuesFrom DataAllValuesFrom DataHasValue
    DataMinCardinality DataMaxCardinality DataExactCardinality""".split()
ROLES_OUTSIDE = ["ObjectInverseOf", "ObjectPropertyChain"]


class Reader:
    """Reads a document, and then a query on it. Names are listed with their numbers."""

    def __init__(self):
        self.prefixes, self.axioms, self.concepts, self.counts = dict(PREDECLARED), [], Concepts(), Counter()
        self.names = {"classes": {}, "roles": {}, "individuals": {}}
        self.counted, self.line = [], 1  # the roles that are counted, with the lines of axioms; the line of this axiom

    def count(self, kind, number, line):
        self.counts[kind] += number
        need(self.counts[kind] <= MOST[kind], f"limit {kind}", line)

    def document(self, data):
        """Reads a document, and returns how many bytes it takes."""
        items, end_line, length = read_items(data)
        front = list(takewhile(lambda it: it.is_group("Prefix"), items))
        for item in front:
            self.prefix(item)
        ontology = items[len(front)] if len(items) > len(front) else Item("end", "", end_line)
        need(ontology.is_group("Ontology"), SHAPE, ontology.line)
        names = list(takewhile(lambda it: it.kind in ("name", "iri"), ontology.items[:2]))
        for item in ontology.items[len(names) :]:
            if item.is_group("Declaration"):
                self.declaration(item)
            elif not item.is_group("Annotation", *NOT_LOOKED_AT):
                item.check_keyword(AXIOMS, AXIOMS_OUTSIDE)
                self.count("axioms", 1, item.line)
                self.axioms.append(self.axiom(item, AXIOMS[item.text][1]))
        self.check_simple()
        return length

    def query(self, data):
        """Reads one `SubClassOf` or `ClassAssertion`; its lines play no part in what is said."""
        need(len(data) <= MOST_BYTES, "limit text", 1)
        group, *others = read_items(data)[0] or [Item(None, None, 1)]
        group.check_keyword(("SubClassOf", "ClassAssertion"), AXIOMS_OUTSIDE)
        axiom = self.axiom(group, NONE)
        need(not others, SHAPE, 1)
        self.check_simple()
        return axiom

    def prefix(self, group):
        """Reads `Prefix(NAME = IRI)`."""
        need(len(group.items) == 3, SHAPE, group.line)
        name, sign, iri = group.items
        need(name.kind == "name" and name.text.find(":") == len(name.text) - 1, SHAPE, name.line)
        need(sign.kind == "equals", SHAPE, sign.line)
        need(iri.kind == "iri", SHAPE, iri.line)
        need(self.prefixes.setdefault(name.text[:-1], iri.text) == iri.text, "bad text clash", name.line)

    def declaration(self, group):
        """Lists the name of a class, a role or an individual that is declared."""
        items = group.behind_annotations()
        need(len(items) == 1, SHAPE, group.line)
        need(items[0].is_group(*DECLARED) and len(items[0].items) == 1, SHAPE, items[0].line)
        kind, item = DECLARED[items[0].text], items[0].items[0]
        if kind == "individuals":
            self.individual(item)
        elif kind and self.iri(item) not in (BUILT_IN_CLASSES if kind == "classes" else BUILT_IN_ROLES):
            self.listed(kind, item)

    def axiom(self, group, parts):
        """Reads an axiom, of which is given how many parts and facts it has by the number of its items."""
        form, _, kind, said = AXIOMS[group.text]
        self.line = group.line
        items = self.operands(group, form, group.behind_annotations(), parts)
        if group.text == "FunctionalObjectProperty":
            self.counted.append((items[0], self.line))
        return Axiom(kind, list(said(self.concepts, *items)))

    def operands(self, group, form, items, parts=NONE):
        """Reads the items of a group, of which its form says how many there are and what each is."""
        kinds = form.rstrip("+")
        need(len(items) == len(kinds) or form.endswith("+") and len(items) > len(kinds), SHAPE, group.line)
        self.count("parts", parts(len(items)), group.line)
        read = {"N": self.named_class, "C": self.expression, "R": self.role, "I": self.individual, "#": self.number}
        return tuple(read[kind](item) for kind, item in zip(kinds.ljust(len(items), kinds[-1]), items))

    def expression(self, item):
        """Reads a class expression, and returns the number of its concept."""
        if item.kind != "group":
            return self.named_class(item)
        item.check_keyword(CLASSES, CLASSES_OUTSIDE)
        form, meant = CLASSES[item.text]
        is_short = form == "#RC" and len(item.items) == 2
        self.count("nodes", 1 + is_short, item.line)
        read = self.operands(item, "#R" if is_short else form, item.items)
        if form == "#RC":
            self.counted.append((read[1], self.line))
        return meant(self.concepts, *read, *[TOP] * is_short)

    def named_class(self, item):
        iri = self.iri(item)
        self.count("nodes", 1, item.line)
        if iri in BUILT_IN_CLASSES:
            return BUILT_IN_CLASSES[iri]
        return self.concepts.number(("name", self.listed("classes", item)))

    def role(self, item):
        need(not item.is_group(*ROLES_OUTSIDE), f"outside {item.text}", item.line)
        iri = self.iri(item)
        need(iri not in BUILT_IN_ROLES, BUILT_IN_ROLES.get(iri), item.line)
        return self.listed("roles", item)

    def individual(self, item):
        need(item.kind != "name" or not item.text.startswith("_:"), "outside _:", item.line)
        return self.listed("individuals", item)

    def number(self, item):
        need(item.kind == "name" and item.text.isascii() and item.text.isdigit(), SHAPE, item.line)
        digits = item.text.lstrip("0") or "0"
        need(len(digits) <= 3 and int(digits) <= MOST_NUMBER, "limit number", item.line)
        return int(digits)

    def iri(self, item):
        """The IRI for which a name stands."""
        if item.kind == "iri":
            return item.text
        need(item.kind == "name" and ":" in item.text, SHAPE, item.line)
        prefix, _, rest = item.text.partition(":")
        need(prefix in self.prefixes, "bad text prefix", item.line)
        return self.prefixes[prefix] + rest

    def listed(self, kind, item):
        """The number of a name in its list."""
        names, iri = self.names[kind], self.iri(item)
        if iri not in names:
            self.count(kind, 1, item.line)
            names[iri] = len(names)
        return names[iri]

    def check_simple(self):
        """Refuses where a role is counted below which one is transitive, and forgets which are counted."""
        roles = Roles(self.axioms)
        not_simple = roles.above(*roles.transitive)
        for role, line in self.counted:
            need(role not in not_simple, "outside not-simple", line)
        self.counted.clear()
