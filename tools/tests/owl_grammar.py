"""Random ontologies over all constructs of OWL 2, by a grammar."""
import random
import re

HEAD = """Prefix(:=<http://e.org/>)
Prefix(xsd:=<http://www.w3.org/2001/XMLSchema#>)
Prefix(rdf:=<http://www.w3.org/1999/02/22-rdf-syntax-ns#>)
Ontology(<http://e.org/o>
"""
# In each line a capital word in angle brackets stands for one of the alternatives of its own.
GRAMMAR = {
    "axiom": [
        "SubClassOf(<class> <class>)",
        "SubClassOf(<class> <class>)",
        "SubClassOf(<name> <class>)",
        "SubClassOf(<class> <name>)",
        "EquivalentClasses(<name> <class>)",
        "EquivalentClasses(<class> <class> <class>)",
        "EquivalentClasses(<class>)",
        "DisjointClasses(<class> <class>)",
        "DisjointClasses(<class> <class> <class>)",
        "DisjointUnion(<name> <class> <class>)",
        "DisjointUnion(<name> <class>)",
        "<role axiom>",
        "<role axiom>",
        "<role axiom>",
        "<data axiom>",
        "<data axiom>",
        "<assertion>",
        "<assertion>",
        "<assertion>",
    ],
    "role axiom": [
        "SubObjectPropertyOf(<role> <role>)",
        "SubObjectPropertyOf(<role> <role>)",
        "SubObjectPropertyOf(ObjectPropertyChain(<role> <role>) <role>)",
        "SubObjectPropertyOf(ObjectPropertyChain(:r :r) :r)",
        "SubObjectPropertyOf(ObjectPropertyChain(:r :s) :r)",
        "SubObjectPropertyOf(ObjectPropertyChain(:s :r) :r)",
        "SubObjectPropertyOf(ObjectPropertyChain(:r :s :t) :t)",
        "SubObjectPropertyOf(ObjectPropertyChain(<role> <role> <role>) <role>)",
        "SubObjectPropertyOf(ObjectPropertyChain(<role>) <role>)",
        "EquivalentObjectProperties(<role> <role>)",
        "EquivalentObjectProperties(<role> <role> <role>)",
        "DisjointObjectProperties(<role> <role>)",
        "DisjointObjectProperties(<role> <role> <role>)",
        "InverseObjectProperties(<role> <role>)",
        "InverseObjectProperties(:r :s)",
        "ObjectPropertyDomain(<role> <class>)",
        "ObjectPropertyRange(<role> <class>)",
        "FunctionalObjectProperty(<role>)",
        "InverseFunctionalObjectProperty(<role>)",
        "ReflexiveObjectProperty(<role>)",
        "IrreflexiveObjectProperty(<role>)",
        "SymmetricObjectProperty(<role>)",
        "AsymmetricObjectProperty(<role>)",
        "TransitiveObjectProperty(<role>)",
    ],
    "data axiom": [
        "SubDataPropertyOf(<property> <property>)",
        "EquivalentDataProperties(<property> <property>)",
        "DisjointDataProperties(:p :q)",
        "DisjointDataProperties(<property> <property>)",
        "DataPropertyDomain(<property> <class>)",
        "DataPropertyRange(<property> <range>)",
        "FunctionalDataProperty(<property>)",
        "DatatypeDefinition(:D <range>)",
        "SubClassOf(<name> <data class>)",
        "SubClassOf(<data class> <name>)",
        "EquivalentClasses(<name> <data class>)",
        "HasKey(<class> (<role>) (<property>))",
    ],
    "assertion": [
        "ClassAssertion(<class> <individual>)",
        "ClassAssertion(<class> <individual>)",
        "ObjectPropertyAssertion(<role> <individual> <individual>)",
        "ObjectPropertyAssertion(<role> <individual> <individual>)",
        "NegativeObjectPropertyAssertion(<role> <individual> <individual>)",
        "DataPropertyAssertion(<property> <individual> <literal>)",
        "DataPropertyAssertion(<property> <individual> <literal>)",
        "NegativeDataPropertyAssertion(<property> <individual> <literal>)",
        "SameIndividual(<individual> <individual>)",
        "DifferentIndividuals(<individual> <individual>)",
        "DifferentIndividuals(:a :b)",
        "DifferentIndividuals(:a :b _:x)",
    ],
    "name": [":A", ":B", ":C"],
    "class": [
        "<name>",
        "<name>",
        "<name>",
        "owl:Thing",
        "owl:Nothing",
        "ObjectComplementOf(<class>)",
        "ObjectIntersectionOf(<class> <class>)",
        "ObjectIntersectionOf(<class>)",
        "ObjectUnionOf(<class> <class>)",
        "ObjectUnionOf(<class>)",
        "ObjectOneOf(<individual>)",
        "ObjectOneOf(:a :b)",
        "ObjectSomeValuesFrom(<role> <class>)",
        "ObjectSomeValuesFrom(<role> <class>)",
        "ObjectAllValuesFrom(<role> <class>)",
        "ObjectAllValuesFrom(<role> <class>)",
        "ObjectHasValue(<role> <individual>)",
        "ObjectHasSelf(<role>)",
        "ObjectMinCardinality(<number> <role>)",
        "ObjectMinCardinality(<number> <role> <class>)",
        "ObjectMaxCardinality(<number> <role>)",
        "ObjectMaxCardinality(<number> <role> <class>)",
        "ObjectExactCardinality(<number> <role>)",
        "ObjectExactCardinality(<number> <role> <class>)",
        "<data class>",
        "<data class>",
    ],
    "data class": [
        "DataSomeValuesFrom(<property> <range>)",
        "DataSomeValuesFrom(<property> <range>)",
        "DataAllValuesFrom(<property> <range>)",
        "DataAllValuesFrom(<property> <range>)",
        "DataSomeValuesFrom(:p :q <range>)",
        "DataHasValue(<property> <literal>)",
        "DataHasValue(<property> <literal>)",
        "DataMinCardinality(<number> <property>)",
        "DataMinCardinality(<number> <property> <range>)",
        "DataMaxCardinality(<number> <property>)",
        "DataMaxCardinality(<number> <property> <range>)",
        "DataExactCardinality(<number> <property>)",
        "DataExactCardinality(<number> <property> <range>)",
    ],
    "role": [
        ":r",
        ":r",
        ":s",
        ":s",
        ":t",
        "ObjectInverseOf(:r)",
        "ObjectInverseOf(:s)",
        "owl:topObjectProperty",
        "owl:bottomObjectProperty",
    ],
    "number": ["0", "1", "1", "2", "2", "3", "101"],
    "individual": [":a", ":a", ":b", ":b", "_:x"],
    "property": [":p", ":p", ":p", ":q", ":q", "owl:bottomDataProperty"],
    "range": [
        "<datatype>",
        "DataComplementOf(<range>)",
        "DataIntersectionOf(<range> <range>)",
        "DataUnionOf(<range> <range>)",
        "DataUnionOf(<range>)",
        "DataOneOf(<literal>)",
        "DataOneOf(<literal> <literal>)",
        "DatatypeRestriction(<numbers> <facet> <number literal>)",
        "DatatypeRestriction(<numbers> <facet> <number literal>)",
        "DatatypeRestriction(<numbers> <facet> <number literal> <facet> <number literal>)",
    ],
    "datatype": [
        "xsd:integer",
        "xsd:integer",
        "xsd:nonNegativeInteger",
        "xsd:byte",
        "xsd:decimal",
        "owl:real",
        "xsd:string",
        "rdf:PlainLiteral",
        "xsd:boolean",
        "xsd:double",
        "rdfs:Literal",
        ":D",
    ],
    "numbers": ["xsd:integer", "xsd:integer", "xsd:decimal", "xsd:nonNegativeInteger", "owl:real"],
    "facet": ["xsd:minInclusive", "xsd:maxInclusive", "xsd:minExclusive", "xsd:maxExclusive"],
    "number literal": [
        '"1"^^xsd:integer',
        '"2"^^xsd:integer',
        '"1.5"^^xsd:decimal',
        '"-3"^^xsd:integer',
        '"0"^^xsd:int',
    ],
    "literal": [
        "<number literal>",
        "<number literal>",
        '"01"^^xsd:byte',
        '"1.0"^^xsd:decimal',
        '"3/2"^^owl:rational',
        '"x"',
        '"x"^^xsd:string',
        '"x"@en',
        '"x@en"^^rdf:PlainLiteral',
        '"true"^^xsd:boolean',
        '"1"^^xsd:boolean',
    ],
}
SIGN = re.compile(r"<([a-z ]+)>")
MOST_DEPTH = 3
# What stands for a sign where the text is deep enough.
SHALLOW = {"class": "name", "range": "datatype", "data class": "name"}


def text_of(sign, chooser, grammar=GRAMMAR, depth=0):
    """A random text of a grammar."""
    if depth > MOST_DEPTH:
        sign = SHALLOW.get(sign, sign)
    chosen = chooser.choice(grammar[sign])
    return SIGN.sub(lambda found: text_of(found[1], chooser, grammar, depth + (sign in SHALLOW)), chosen)


def document(axioms):
    return HEAD + "\n".join(axioms) + "\n)\n"


def ontology(seed, most_axioms=6):
    """A random ontology."""
    chooser = random.Random(seed)
    return document([text_of("axiom", chooser) for _ in range(chooser.randint(1, most_axioms))])
