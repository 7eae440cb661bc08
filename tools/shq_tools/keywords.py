"""The keywords of the language, and those that are left out of it."""

OWL = "http://www.w3.org/2002/07/owl#"
THING = OWL + "Thing"
NOTHING = OWL + "Nothing"
LABEL = "http://www.w3.org/2000/01/rdf-schema#label"

PREDECLARED = {
    "rdf": "http://www.w3.org/1999/02/22-rdf-syntax-ns#",
    "rdfs": "http://www.w3.org/2000/01/rdf-schema#",
    "xsd": "http://www.w3.org/2001/XMLSchema#",
    "owl": OWL,
}

# The numbered axioms, each with the least and the greatest number of its items.
MANY = 1 << 32
NUMBERED = {
    "SubClassOf": (2, 2),
    "EquivalentClasses": (2, MANY),
    "DisjointClasses": (2, MANY),
    "DisjointUnion": (3, MANY),
    "SubObjectPropertyOf": (2, 2),
    "EquivalentObjectProperties": (2, MANY),
    "ObjectPropertyDomain": (2, 2),
    "ObjectPropertyRange": (2, 2),
    "FunctionalObjectProperty": (1, 1),
    "TransitiveObjectProperty": (1, 1),
    "ClassAssertion": (2, 2),
    "ObjectPropertyAssertion": (3, 3),
    "SameIndividual": (2, MANY),
    "DifferentIndividuals": (2, MANY),
}
ANNOTATIONS = {
    "Annotation",
    "AnnotationAssertion",
    "SubAnnotationPropertyOf",
    "AnnotationPropertyDomain",
    "AnnotationPropertyRange",
}
ENTITIES = {"Class", "ObjectProperty", "DataProperty", "AnnotationProperty", "Datatype", "NamedIndividual"}

# The class expressions, each with the least and the greatest number of its items.
CLASSES = {
    "ObjectIntersectionOf": (2, MANY),
    "ObjectUnionOf": (2, MANY),
    "ObjectComplementOf": (1, 1),
    "ObjectSomeValuesFrom": (2, 2),
    "ObjectAllValuesFrom": (2, 2),
    "ObjectMinCardinality": (2, 3),
    "ObjectMaxCardinality": (2, 3),
    "ObjectExactCardinality": (2, 3),
}
CARDINALITIES = {"ObjectMinCardinality": "least", "ObjectMaxCardinality": "most", "ObjectExactCardinality": "exactly"}

OUTSIDE_AXIOMS = {
    "Import",
    "DisjointObjectProperties",
    "InverseObjectProperties",
    "InverseFunctionalObjectProperty",
    "ReflexiveObjectProperty",
    "IrreflexiveObjectProperty",
    "SymmetricObjectProperty",
    "AsymmetricObjectProperty",
    "SubDataPropertyOf",
    "EquivalentDataProperties",
    "DisjointDataProperties",
    "DataPropertyDomain",
    "DataPropertyRange",
    "FunctionalDataProperty",
    "DatatypeDefinition",
    "HasKey",
    "NegativeObjectPropertyAssertion",
    "DataPropertyAssertion",
    "NegativeDataPropertyAssertion",
}
OUTSIDE_CLASSES = {
    "ObjectOneOf",
    "ObjectHasValue",
    "ObjectHasSelf",
    "DataSomeValuesFrom",
    "DataAllValuesFrom",
    "DataHasValue",
    "DataMinCardinality",
    "DataMaxCardinality",
    "DataExactCardinality",
}
OUTSIDE_ROLES = {"ObjectInverseOf", "ObjectPropertyChain"}
OUTSIDE_ROLE_NAMES = {
    OWL + "topObjectProperty": "owl:topObjectProperty",
    OWL + "bottomObjectProperty": "owl:bottomObjectProperty",
}
# How the reasoner names an individual without a name of its own, and how such a one begins.
ANONYMOUS = "_:"
# A number restriction over a role that is not simple, as the reasoner names it.
NOT_SIMPLE = "not-simple"
