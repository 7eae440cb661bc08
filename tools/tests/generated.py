"""Ontologies made for tests: every construct that is left out, in every place where it may stand."""
import random

from shq_tools.keywords import OUTSIDE_AXIOMS, OUTSIDE_CLASSES, OUTSIDE_ROLES

HEAD = "Prefix(:=<http://e.org/>)\nOntology(<http://e.org/o>\n"
# The places of a class in an axiom, and in a class expression.
AXIOMS_WITH_CLASS = [
    "SubClassOf({} :B)",
    "SubClassOf(:A {})",
    'SubClassOf(Annotation(:note "with # and )") :A {})',
    "EquivalentClasses(:A :B {})",
    "DisjointClasses({} :A :B)",
    "DisjointUnion(:A :B {})",
    "ObjectPropertyDomain(:r {})",
    "ObjectPropertyRange(:r {})",
    "ClassAssertion({} :i)",
]
CLASSES_WITH_CLASS = [
    "ObjectIntersectionOf(:A {})",
    "ObjectUnionOf({} :A)",
    "ObjectComplementOf({})",
    "ObjectSomeValuesFrom(:r {})",
    "ObjectAllValuesFrom(:r {})",
    "ObjectMinCardinality(2 :r {})",
    "ObjectMaxCardinality(0 :r {})",
    "ObjectExactCardinality(007 :r {})",
]
# The same for a role.
AXIOMS_WITH_ROLE = [
    "SubObjectPropertyOf({} :r)",
    "SubObjectPropertyOf(:r {})",
    "EquivalentObjectProperties(:r {} :s)",
    "ObjectPropertyDomain({} :A)",
    "ObjectPropertyRange({} :A)",
    "FunctionalObjectProperty({})",
    "TransitiveObjectProperty({})",
    "ObjectPropertyAssertion({} :i :j)",
]
# The same for an individual.
AXIOMS_WITH_INDIVIDUAL = [
    "ClassAssertion(:A {})",
    "ObjectPropertyAssertion(:r {} :i)",
    "ObjectPropertyAssertion(:r :i {})",
    "SameIndividual(:i {})",
    "DifferentIndividuals({} :i :j)",
    'ClassAssertion(Annotation(:note "of it") :B {})',
]
CLASSES_WITH_ROLE = [
    "ObjectSomeValuesFrom({} :A)",
    "ObjectAllValuesFrom({} :A)",
    "ObjectMinCardinality(2 {})",
    "ObjectMinCardinality(2 {} :A)",
    "ObjectMaxCardinality(1 {})",
    "ObjectMaxCardinality(1 {} :A)",
    "ObjectExactCardinality(1 {})",
    "ObjectExactCardinality(1 {} :A)",
]
ROLE_NAMES = [
    "owl:topObjectProperty",
    "<http://www.w3.org/2002/07/owl#bottomObjectProperty>",
    "<http://www.w3.org/2002/07/owl#topObjectProperty>",
    "owl:bottomObjectProperty",
]
COUNTED_AXIOMS = [
    "FunctionalObjectProperty(:above)",
    "SubClassOf(:A ObjectMinCardinality(2 :above))",
    "SubClassOf(ObjectMaxCardinality(1 :above :B) :A)",
    "EquivalentClasses(:A ObjectComplementOf(ObjectExactCardinality(0 :carried :B)))",
]
ROLE_BOX = [
    "TransitiveObjectProperty(:carried)",
    "SubObjectPropertyOf(:carried :middle)",
    "EquivalentObjectProperties(:middle :above)",
]


# What a small change puts into a text.
DAMAGES = [b"", b"(", b")", b'"', b"<", b">", b"\\", b"\xff", b"\xe2\x82", b"^", b"^^", b"@", b"@en", b"=", b"#", b"\n"]
DAMAGES += [b"\x01", b" ", b"x:", b":", b"101", b"Ontology(", b"Ontology", b"\x7f", "é".encode(), b'"a"^^', b"\r"]
DAMAGES.append(b"9" * 20)


def nested(text, depth, chooser):
    """The class expression inside of some others."""
    for _ in range(depth):
        text = chooser.choice(CLASSES_WITH_CLASS).format(text)
    return text


def outside_axioms(chooser):
    """An axiom for each construct that is left out and each place."""
    classes = [f"{it}(:x :y)" for it in sorted(OUTSIDE_CLASSES)]
    roles = [f"{it}(:r)" for it in sorted(OUTSIDE_ROLES)] + ROLE_NAMES
    found = [f"{it}(:a (:b) \"text )\"@en)" for it in sorted(OUTSIDE_AXIOMS)]
    for one in classes:
        found += [it.format(one) for it in AXIOMS_WITH_CLASS]
        found += [f"SubClassOf(:A {it.format(one)})" for it in CLASSES_WITH_CLASS]
        found.append(f"SubClassOf({nested(one, 5, chooser)} :A)")
    found += [it.format("_:x") for it in AXIOMS_WITH_INDIVIDUAL]
    for one in roles:
        found += [it.format(one) for it in AXIOMS_WITH_ROLE]
        found += [f"SubClassOf(:A {it.format(one)})" for it in CLASSES_WITH_ROLE]
        inner = chooser.choice(CLASSES_WITH_ROLE).format(one)
        found.append(f"SubClassOf({nested(inner, 4, chooser)} :A)")
    return found


def inside_axioms(chooser, count):
    """Axioms with nothing that is left out."""
    found = []
    for _ in range(count):
        base = chooser.choice([":A", ":B", ":C", "owl:Thing", "<http://e.org/D>"])
        if chooser.random() < 0.3:
            base = chooser.choice(CLASSES_WITH_ROLE).format(chooser.choice([":s", "<http://e.org/t>"]))
        found.append(chooser.choice(AXIOMS_WITH_CLASS).format(nested(base, chooser.randrange(4), chooser)))
        if chooser.random() < 0.3:
            individual = chooser.choice([":i", ":k", "<http://e.org/l>"])
            found.append(chooser.choice(AXIOMS_WITH_INDIVIDUAL).format(individual))
    return found


def spaced(axiom, chooser):
    """The axiom with other whitespace and comments between its tokens."""
    gaps = [" ", "  ", "\n", " # a ) comment (\n", "\t", "\r\n"]
    if '"' in axiom:
        return axiom
    return "".join(chooser.choice(gaps) if it == " " and chooser.random() < 0.2 else it for it in axiom)


def document(axioms):
    return HEAD + "\n".join(axioms) + "\n)\n"


def mixed_document(seed, count=60):
    """A document with axioms of all sorts."""
    chooser = random.Random(seed)
    axioms = chooser.sample(outside_axioms(chooser), count // 2) + inside_axioms(chooser, count // 2)
    axioms += chooser.sample(COUNTED_AXIOMS, 2) + chooser.sample(ROLE_BOX, chooser.randrange(4))
    axioms += ["Declaration(Class(:A))", "Declaration(DataProperty(:d))", "Declaration(NamedIndividual(:n))"]
    axioms.append('AnnotationAssertion(rdfs:label :A "a \\" b"@en)')
    chooser.shuffle(axioms)
    return document([spaced(it, chooser) for it in axioms])


def damaged(text, seed):
    """The bytes of a text after one small change."""
    chooser = random.Random(seed)
    data = text.encode("utf-8")
    at = chooser.randrange(len(data))
    return data[:at] + chooser.choice(DAMAGES) + data[at + chooser.randrange(3) :]
