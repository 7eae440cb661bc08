"""Random ontologies of SHQ with one kind of OWL 2 construct more, as OWL 2 DL allows it, for another reasoner.

The roles r and s, and u above both, are simple; t may be transitive, v is its inverse, and chains lead into t and w.
"""
import random
import re

from tests.owl_grammar import document, text_of

BASE = {
    "axiom": [
        "SubClassOf(<name> <class>)",
        "SubClassOf(<name> <class>)",
        "SubClassOf(<class> <name>)",
        "SubClassOf(<class> <name>)",
        "EquivalentClasses(<name> <class>)",
        "EquivalentClasses(<name> <class>)",
        "DisjointClasses(<name> <name>)",
        "<role axiom>",
        "<assertion>",
        "<assertion>",
    ],
    "role axiom": [
        "SubObjectPropertyOf(:r :u)",
        "SubObjectPropertyOf(:s :u)",
        "TransitiveObjectProperty(:t)",
        "ObjectPropertyDomain(<role> <name>)",
        "ObjectPropertyRange(<role> <name>)",
        "FunctionalObjectProperty(<simple role>)",
    ],
    "assertion": [
        "ClassAssertion(<class> <individual>)",
        "ClassAssertion(<class> <individual>)",
        "ObjectPropertyAssertion(<role> <individual> <individual>)",
        "ObjectPropertyAssertion(<role> <individual> <individual>)",
        "DifferentIndividuals(:a :b :c)",
    ],
    "name": [":A", ":B", ":C", ":D", ":E", ":F"],
    "class": [
        "<name>",
        "<name>",
        "ObjectComplementOf(<class>)",
        "ObjectIntersectionOf(<class> <class>)",
        "ObjectUnionOf(<class> <class>)",
        "ObjectSomeValuesFrom(<role> <class>)",
        "ObjectSomeValuesFrom(<role> <class>)",
        "ObjectAllValuesFrom(<role> <class>)",
        "ObjectAllValuesFrom(<role> <class>)",
        "ObjectMaxCardinality(1 <simple role> <class>)",
        "ObjectMinCardinality(2 <simple role> <class>)",
    ],
    "role": [":r", ":r", ":s", ":t", ":t", ":u"],
    "simple role": [":r", ":r", ":s", ":u"],
    "individual": [":a", ":b", ":c"],
    "property": [":p", ":p", ":q"],
    "literal": ['"1"^^xsd:integer', '"2"^^xsd:integer', '"1.0"^^xsd:decimal', '"x"', '"3"^^xsd:integer'],
    "bound": ['"1"^^xsd:integer', '"2"^^xsd:integer'],
    "datatype": ["xsd:integer", "xsd:string"],
    "range": [
        "<datatype>",
        "<datatype>",
        # Konclude counts a value that stands there twice as two
        'DataOneOf(<literal> "y")',
        "DatatypeRestriction(xsd:integer xsd:minInclusive <bound>)",
        "DatatypeRestriction(xsd:integer xsd:maxExclusive <bound>)",
        "DataComplementOf(<range>)",
    ],
}
INVERSE = {
    "role": ["ObjectInverseOf(:r)", "ObjectInverseOf(:r)", "ObjectInverseOf(:t)"],
    "role axiom": [
        "InverseObjectProperties(:r :s)",
        "InverseObjectProperties(:t :v)",
        "SymmetricObjectProperty(:u)",
    ] * 2,
}
# What each kind has besides, by the signs of the grammar. Konclude ends without an answer at owl:topObjectProperty.
KINDS = {
    "classes of individuals": {
        "class": ["ObjectOneOf(<individual>)", "ObjectOneOf(:a :b)", "ObjectHasValue(<role> <individual>)"] * 2,
        "assertion": ["NegativeObjectPropertyAssertion(<role> <individual> <individual>)", "SameIndividual(:b :c)"],
    },
    "data": {
        "class": [
            "DataHasValue(<property> <literal>)",
            "DataSomeValuesFrom(<property> <range>)",
            "DataAllValuesFrom(<property> <range>)",
            "DataMaxCardinality(1 <property>)",
            "DataMinCardinality(2 <property> <range>)",
        ] * 2,
        "role axiom": [
            "SubDataPropertyOf(:p :q)",
            "DataPropertyDomain(<property> <name>)",
            "DataPropertyRange(<property> <range>)",
            "FunctionalDataProperty(<property>)",
        ],
        "assertion": ["DataPropertyAssertion(<property> <individual> <literal>)"] * 3,
    },
    "loops": {
        "class": ["ObjectHasSelf(<simple role>)"] * 4,
        "role axiom": ["ReflexiveObjectProperty(:r)", "ReflexiveObjectProperty(:s)", "IrreflexiveObjectProperty(:u)"],
    },
    "inverse roles, no numbers": {**INVERSE, "simple role": []},
    "inverse roles and numbers": {**INVERSE, "simple role": ["ObjectInverseOf(:r)", "ObjectInverseOf(:s)"]},
    "inverse-functional roles": {
        "role axiom": ["InverseFunctionalObjectProperty(:r)", "InverseFunctionalObjectProperty(:u)"] * 3,
    },
    "role chains": {
        "role axiom": [
            "SubObjectPropertyOf(ObjectPropertyChain(:r :s) :t)",
            "SubObjectPropertyOf(ObjectPropertyChain(:t :r) :t)",
            "SubObjectPropertyOf(ObjectPropertyChain(:s :t) :t)",
            "SubObjectPropertyOf(ObjectPropertyChain(:r :u :s) :w)",
            "SubObjectPropertyOf(ObjectPropertyChain(:t :r) :w)",
        ],
        "role": [":t", ":t", ":w"],
    },
    "disjoint, asymmetric or irreflexive roles": {
        "role axiom": [
            "DisjointObjectProperties(:r :s)",
            "AsymmetricObjectProperty(<simple role>)",
            "IrreflexiveObjectProperty(<simple role>)",
        ] * 2,
        "assertion": ["ObjectPropertyAssertion(<simple role> <individual> <individual>)"] * 4,
    },
}
KINDS["all of these together"] = {
    sign: [it for kind in KINDS.values() for it in kind.get(sign, [])] for sign in ("class", "role axiom", "assertion")
}


def grammar_of(kind):
    """The grammar of a kind. Where it has none of a sign that has alternatives, what has that sign is left out."""
    more = KINDS[kind]
    grammar = {sign: of + more.get(sign, []) for sign, of in BASE.items()}
    if more.get("simple role") == []:
        grammar = {sign: [it for it in of if "<simple role>" not in it] for sign, of in grammar.items()}
    return grammar


# Konclude does not see that such an assertion is a loop.
TO_ITSELF = re.compile(r"ObjectPropertyAssertion\(:\w+ (:\w+) \1\)")


def ontology(kind, seed, axioms=12):
    """A random ontology with what a kind has besides SHQ."""
    chooser, grammar = random.Random(f"{kind} {seed}"), grammar_of(kind)
    names = [f"Declaration(Class({it}))" for it in BASE["name"]]
    names += [f"Declaration(ObjectProperty({it}))" for it in (":r", ":s", ":t", ":u", ":v", ":w")]
    names += [f"Declaration(DataProperty({it}))" for it in (":p", ":q")]
    found = dict.fromkeys(text_of("axiom", chooser, grammar) for _ in range(axioms))
    return document([*names, *(it for it in found if not TO_ITSELF.fullmatch(it))])
