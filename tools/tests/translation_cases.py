"""Small ontologies of OWL 2, one or more for each row of the translation, with what follows from them.

What follows from the file, and what does not, was worked out by hand from the "OWL 2 Direct Semantics"; what the
translation has of it, from the table in docs/APPROXIMATION.md.
"""
from dataclasses import dataclass


@dataclass(frozen=True)
class Case:
    """An ontology: the row that it is for, as a function of the translation; its axioms; and statements.

    `follows` from the file and from both translations; `full` from the file and from the full form alone; `lost`
    follows from the file and from no translation; `open` does not follow from the file.
    """

    row: str
    file: str
    follows: str = ""
    full: str = ""
    lost: str = ""
    open: str = ""

    @property
    def axioms(self):
        return lines_of(self.file)


def lines_of(text):
    return [it.strip() for it in text.strip().split("\n") if it.strip()]


CONTRADICTION = "SubClassOf(owl:Thing owl:Nothing)"
AT_LEAST_TWO, AT_MOST_ONE = "ObjectMinCardinality(2 :r)", "ObjectMaxCardinality(1 :r)"

INDIVIDUALS = [
    Case(
        "translation.Context.define",
        """
        SubClassOf(ObjectOneOf(:a :b) :A)
        SubClassOf(:B ObjectMinCardinality(2 :r ObjectOneOf(:c)))
        """,
        follows="""
        ClassAssertion(:A :a)
        ClassAssertion(:A :b)
        """,
        lost="SubClassOf(:B owl:Nothing)",
        open="ClassAssertion(:A :c)",
    ),
    Case(
        "nominals.of_type",
        """
        SubClassOf(:A ObjectOneOf(:a))
        ClassAssertion(:B :a)
        ClassAssertion(:C :b)
        """,
        follows="SubClassOf(:A :B)",
        open="""
        SubClassOf(:B :A)
        SubClassOf(:A :C)
        ClassAssertion(:A :a)
        """,
    ),
    Case(
        "nominals.of_different",
        """
        SubClassOf(:A ObjectOneOf(:a))
        SubClassOf(:B ObjectOneOf(:b))
        SubClassOf(:C ObjectOneOf(:c))
        DifferentIndividuals(:a :b)
        """,
        follows="SubClassOf(ObjectIntersectionOf(:A :B) owl:Nothing)",
        open="""
        SubClassOf(ObjectIntersectionOf(:A :C) owl:Nothing)
        SubClassOf(:A owl:Nothing)
        """,
    ),
    Case("nominals.of_different", "DifferentIndividuals(:a :b :a)", follows=CONTRADICTION),
    Case(
        "nominals.of_different",
        """
        SubClassOf(:A ObjectOneOf(:a))
        DifferentIndividuals(:a :b)
        SameIndividual(:a :c)
        ClassAssertion(:B :c)
        """,
        # there are no classes {b} and {c}
        follows="ClassAssertion(:B :a)",
        lost="SubClassOf(:A :B)",
        open="SubClassOf(:A owl:Nothing)",
    ),
    Case(
        "nominals.of_same",
        """
        SubClassOf(:A ObjectOneOf(:a))
        SubClassOf(ObjectOneOf(:b) :B)
        SameIndividual(:a :b)
        """,
        follows="SubClassOf(:A :B)",
        open="""
        SubClassOf(:B :A)
        SubClassOf(:A owl:Nothing)
        """,
    ),
    Case(
        "nominals.of_pair",
        """
        SubClassOf(:A ObjectOneOf(:a))
        ObjectPropertyAssertion(:r :a :b)
        SubClassOf(ObjectHasValue(:r :b) :C)
        """,
        follows="""
        SubClassOf(:A :C)
        ClassAssertion(:C :a)
        """,
        open="""
        SubClassOf(:C :A)
        ClassAssertion(:C :b)
        """,
    ),
    Case(
        "nominals.of_pair",
        """
        SubClassOf(:A ObjectOneOf(:a))
        SubClassOf(:B ObjectOneOf(:b))
        ObjectPropertyAssertion(:r :b :a)
        InverseObjectProperties(:r :s)
        SubClassOf(:C ObjectHasValue(:s :b))
        SubClassOf(ObjectOneOf(:a) :A)
        """,
        follows="""
        SubClassOf(:B ObjectSomeValuesFrom(:r owl:Thing))
        SubClassOf(:A ObjectSomeValuesFrom(:s owl:Thing))
        """,
        open="""
        SubClassOf(:C :A)
        SubClassOf(:A ObjectSomeValuesFrom(:r owl:Thing))
        SubClassOf(:A owl:Nothing)
        """,
    ),
    Case(
        "nominals.of_pair",
        """
        SubClassOf(:A ObjectOneOf(:a))
        ObjectPropertyAssertion(:r :a :b)
        """,
        # there is no class {b}
        lost="SubClassOf(:A ObjectSomeValuesFrom(:r owl:Thing))",
    ),
    Case(
        "nominals.of_no_pair",
        """
        EquivalentClasses(:A ObjectOneOf(:a))
        EquivalentClasses(:B ObjectOneOf(:b))
        NegativeObjectPropertyAssertion(:r :a :b)
        """,
        follows="""
        ClassAssertion(ObjectAllValuesFrom(:r ObjectComplementOf(:B)) :a)
        SubClassOf(:A ObjectAllValuesFrom(:r ObjectComplementOf(:B)))
        """,
        open="""
        ClassAssertion(ObjectAllValuesFrom(:r owl:Nothing) :a)
        SubClassOf(ObjectAllValuesFrom(:r owl:Nothing) :A)
        ClassAssertion(ObjectAllValuesFrom(:r ObjectComplementOf(:A)) :b)
        """,
    ),
    Case(
        "nominals.of_no_pair",
        """
        NegativeObjectPropertyAssertion(ObjectInverseOf(:r) :b :a)
        ObjectPropertyAssertion(:r :a :b)
        """,
        follows=CONTRADICTION,
    ),
    Case(
        "new_names.NewNames.individual",
        """
        ClassAssertion(:A _:x)
        ClassAssertion(:B _:y)
        ObjectPropertyAssertion(:r :a _:x)
        """,
        follows="ClassAssertion(ObjectSomeValuesFrom(:r :A) :a)",
        open="""
        ClassAssertion(ObjectSomeValuesFrom(:r :B) :a)
        ClassAssertion(:A :a)
        """,
    ),
]

LOOPS = [
    Case(
        "translation.Context.define",
        """
        SubClassOf(:A ObjectHasSelf(:r))
        InverseObjectProperties(:r :s)
        """,
        follows="""
        SubClassOf(:A ObjectSomeValuesFrom(:r ObjectSomeValuesFrom(:r owl:Thing)))
        SubClassOf(:A ObjectSomeValuesFrom(:s ObjectSomeValuesFrom(:s owl:Thing)))
        """,
        lost="SubClassOf(:A ObjectSomeValuesFrom(:r :A))",
        open="SubClassOf(ObjectSomeValuesFrom(:r owl:Thing) :A)",
    ),
    Case(
        "translation.Context.define",
        """
        SubClassOf(ObjectHasSelf(owl:topObjectProperty) :A)
        SubClassOf(:B ObjectHasSelf(owl:bottomObjectProperty))
        """,
        follows="""
        SubClassOf(owl:Thing :A)
        SubClassOf(:B owl:Nothing)
        """,
        open="SubClassOf(:A owl:Nothing)",
    ),
    Case(
        "selves.of_inclusion",
        """
        SubClassOf(:A ObjectHasSelf(:r))
        SubClassOf(ObjectHasSelf(:s) :B)
        SubObjectPropertyOf(:r :s)
        SubClassOf(:C ObjectHasSelf(:t))
        SubObjectPropertyOf(:s :t)
        SubClassOf(ObjectHasSelf(:t) :D)
        """,
        follows="""
        SubClassOf(:A :B)
        SubClassOf(:A :D)
        """,
        open="""
        SubClassOf(:C :B)
        SubClassOf(:B :A)
        """,
    ),
    Case(
        "selves.of_inclusion",
        """
        SubClassOf(:A ObjectHasSelf(:r))
        SymmetricObjectProperty(:r)
        SubObjectPropertyOf(:r ObjectInverseOf(:s))
        SubClassOf(ObjectHasSelf(:s) :B)
        """,
        follows="SubClassOf(:A :B)",
        open="SubClassOf(:B :A)",
    ),
    Case(
        "selves.of_chain",
        """
        SubObjectPropertyOf(ObjectPropertyChain(:r :s) :t)
        SubClassOf(:A ObjectHasSelf(:r))
        SubClassOf(:B ObjectHasSelf(:s))
        SubClassOf(ObjectHasSelf(:t) :C)
        """,
        follows="SubClassOf(ObjectIntersectionOf(:A :B) :C)",
        open="""
        SubClassOf(:A :C)
        SubClassOf(:C :A)
        """,
    ),
    Case(
        "selves.of_reflexive",
        """
        ReflexiveObjectProperty(:r)
        SubClassOf(ObjectHasSelf(:r) :A)
        SubClassOf(ObjectSomeValuesFrom(:r :B) :C)
        """,
        follows="""
        SubClassOf(owl:Thing :A)
        SubClassOf(owl:Thing ObjectSomeValuesFrom(:r :A))
        """,
        lost="SubClassOf(:B :C)",
        open="SubClassOf(owl:Thing :C)",
    ),
    Case(
        "selves.of_no_loop",
        """
        IrreflexiveObjectProperty(:r)
        AsymmetricObjectProperty(:s)
        SubClassOf(:A ObjectHasSelf(:r))
        SubClassOf(:B ObjectHasSelf(:s))
        SubClassOf(:C ObjectHasSelf(:t))
        """,
        follows="""
        SubClassOf(:A owl:Nothing)
        SubClassOf(:B owl:Nothing)
        """,
        open="SubClassOf(:C owl:Nothing)",
    ),
    Case(
        "selves.of_no_loop",
        """
        IrreflexiveObjectProperty(:s)
        SubObjectPropertyOf(:r :s)
        ObjectPropertyAssertion(:r :a :a)
        """,
        follows=CONTRADICTION,
    ),
    Case(
        "selves.of_disjoint",
        """
        DisjointObjectProperties(:r :s)
        SubClassOf(:A ObjectHasSelf(:r))
        SubClassOf(:B ObjectHasSelf(:s))
        SubClassOf(:C ObjectHasSelf(:t))
        """,
        follows="SubClassOf(ObjectIntersectionOf(:A :B) owl:Nothing)",
        open="""
        SubClassOf(ObjectIntersectionOf(:A :C) owl:Nothing)
        SubClassOf(:A owl:Nothing)
        """,
    ),
    Case(
        "selves.of_pair",
        """
        ObjectPropertyAssertion(:r :a :a)
        ObjectPropertyAssertion(:r :b :c)
        SubClassOf(ObjectHasSelf(:r) :B)
        SubClassOf(:A ObjectOneOf(:a))
        """,
        follows="""
        ClassAssertion(:B :a)
        SubClassOf(:A :B)
        """,
        open="""
        ClassAssertion(:B :b)
        ClassAssertion(:B :c)
        """,
    ),
]

DISJOINT_ROLES = [
    Case(
        "disjoint_roles.of_disjoint",
        """
        DisjointObjectProperties(:s :r)
        SubObjectPropertyOf(:t :s)
        ObjectPropertyAssertion(:t :a :b)
        ObjectPropertyAssertion(:r :a :b)
        """,
        follows=CONTRADICTION,
    ),
    Case(
        "disjoint_roles.of_disjoint",
        """
        DisjointObjectProperties(:s :u :r)
        SubObjectPropertyOf(ObjectInverseOf(:t) :s)
        ObjectPropertyAssertion(:t :b :a)
        ObjectPropertyAssertion(:r :a :b)
        """,
        follows=CONTRADICTION,
    ),
    Case(
        "disjoint_roles.of_disjoint",
        """
        DisjointObjectProperties(:r :s)
        ObjectPropertyAssertion(:r :a :b)
        ObjectPropertyAssertion(:s :a :c)
        ObjectPropertyAssertion(:s :b :a)
        SubObjectPropertyOf(:s :t)
        """,
        open=CONTRADICTION,
    ),
    Case(
        "disjoint_roles.of_disjoint",
        """
        DisjointObjectProperties(:r :s)
        SubObjectPropertyOf(:r :t)
        SubObjectPropertyOf(:s :t)
        FunctionalObjectProperty(:t)
        SubClassOf(:A ObjectSomeValuesFrom(:r owl:Thing))
        SubClassOf(:A ObjectSomeValuesFrom(:s owl:Thing))
        """,
        lost="SubClassOf(:A owl:Nothing)",
        open=CONTRADICTION,
    ),
    Case(
        "disjoint_roles.of_asymmetric",
        """
        AsymmetricObjectProperty(:s)
        SubObjectPropertyOf(:r :s)
        ObjectPropertyAssertion(:r :a :b)
        ObjectPropertyAssertion(:s :b :a)
        """,
        follows=CONTRADICTION,
    ),
    Case(
        "disjoint_roles.of_asymmetric",
        """
        AsymmetricObjectProperty(:r)
        ObjectPropertyAssertion(:r :a :b)
        ObjectPropertyAssertion(:r :b :c)
        """,
        open=CONTRADICTION,
    ),
]

DISJOINT_ROLES += [
    Case(
        "disjoint_roles.of_disjoint",
        f"""
        DisjointObjectProperties(:r :t)
        ObjectPropertyAssertion(:t :a :b)
        {assertion}
        {axiom}
        """,
        follows=CONTRADICTION,
    )
    for axiom, assertion in (
        ("SymmetricObjectProperty(:r)", "ObjectPropertyAssertion(:r :b :a)"),
        ("InverseObjectProperties(:r :s)", "ObjectPropertyAssertion(:s :b :a)"),
        ("InverseObjectProperties(:s :r)", "ObjectPropertyAssertion(:s :b :a)"),
        ("EquivalentObjectProperties(:s :u :r)", "ObjectPropertyAssertion(:s :a :b)"),
        ("EquivalentObjectProperties(:r :s :u)", "ObjectPropertyAssertion(:s :a :b)"),
        ("SubObjectPropertyOf(ObjectPropertyChain(:s) :r)", "ObjectPropertyAssertion(:s :a :b)"),
        ("SubObjectPropertyOf(:s ObjectInverseOf(:r))", "ObjectPropertyAssertion(:s :b :a)"),
        ("SubObjectPropertyOf(:s :r) EquivalentObjectProperties(:s :u)", "ObjectPropertyAssertion(:u :a :b)"),
    )
]
DISJOINT_ROLES += [
    Case(
        "disjoint_roles.of_disjoint",
        f"""
        DisjointObjectProperties(:r :t)
        ObjectPropertyAssertion(:t :a :b)
        {assertion}
        {axiom}
        """,
        open=CONTRADICTION,
    )
    for axiom, assertion in (
        ("TransitiveObjectProperty(:r)", "ObjectPropertyAssertion(:r :b :a)"),
        ("InverseObjectProperties(:r :s)", "ObjectPropertyAssertion(:s :a :b)"),
        ("SubObjectPropertyOf(:r :s)", "ObjectPropertyAssertion(:s :a :b)"),
    )
]

ROLES = [
    Case(
        "role_axioms.of_inclusion",
        """
        SubObjectPropertyOf(:r :s)
        SubClassOf(:A ObjectSomeValuesFrom(ObjectInverseOf(:r) :B))
        SubClassOf(ObjectSomeValuesFrom(ObjectInverseOf(:s) :B) :C)
        SubClassOf(:D ObjectSomeValuesFrom(ObjectInverseOf(:s) :B))
        SubClassOf(ObjectSomeValuesFrom(ObjectInverseOf(:r) :B) :E)
        """,
        follows="""
        SubClassOf(:A :C)
        SubClassOf(ObjectSomeValuesFrom(:r :A) ObjectSomeValuesFrom(:s :A))
        """,
        open="""
        SubClassOf(:D :E)
        SubClassOf(ObjectSomeValuesFrom(:s :A) ObjectSomeValuesFrom(:r :A))
        """,
    ),
    Case(
        "role_axioms.of_inclusion",
        """
        SubObjectPropertyOf(:r :s)
        SubObjectPropertyOf(:s :t)
        SubObjectPropertyOf(:t :u)
        SubClassOf(:A ObjectSomeValuesFrom(ObjectInverseOf(:r) :B))
        SubClassOf(ObjectSomeValuesFrom(ObjectInverseOf(:u) :B) :C)
        """,
        follows="SubClassOf(:A :C)",
        open="SubClassOf(:C :A)",
    ),
    Case(
        "role_axioms.of_inclusion",
        """
        SubObjectPropertyOf(ObjectInverseOf(:r) :s)
        SubObjectPropertyOf(:s :t)
        SubClassOf(ObjectSomeValuesFrom(ObjectInverseOf(:t) :A) :B)
        SubClassOf(:C ObjectSomeValuesFrom(:r :A))
        """,
        follows="SubClassOf(:C :B)",
        open="SubClassOf(ObjectSomeValuesFrom(:t :A) :B)",
    ),
    Case(
        "role_axioms.of_inclusion",
        "SubObjectPropertyOf(ObjectPropertyChain(:r) :s)",
        follows="SubClassOf(ObjectSomeValuesFrom(:r :A) ObjectSomeValuesFrom(:s :A))",
        open="SubClassOf(ObjectSomeValuesFrom(:s :A) ObjectSomeValuesFrom(:r :A))",
    ),
    Case(
        "role_axioms.of_equivalence",
        """
        EquivalentObjectProperties(:r ObjectInverseOf(:s))
        SubClassOf(:A ObjectSomeValuesFrom(ObjectInverseOf(:r) :B))
        SubClassOf(:C ObjectSomeValuesFrom(ObjectInverseOf(:s) :B))
        """,
        follows="""
        SubClassOf(:A ObjectSomeValuesFrom(:s :B))
        SubClassOf(:C ObjectSomeValuesFrom(:r :B))
        """,
        open="""
        SubClassOf(:A ObjectSomeValuesFrom(:r :B))
        SubClassOf(ObjectSomeValuesFrom(:s :B) :A)
        """,
    ),
    Case(
        "role_axioms.of_inverses",
        """
        InverseObjectProperties(:r :s)
        ObjectPropertyAssertion(:r :a :b)
        ClassAssertion(:A :a)
        ObjectPropertyAssertion(:s :c :d)
        ClassAssertion(:A :c)
        SubClassOf(:B ObjectSomeValuesFrom(ObjectInverseOf(:s) :A))
        """,
        follows="""
        ClassAssertion(ObjectSomeValuesFrom(:s :A) :b)
        ClassAssertion(ObjectSomeValuesFrom(:r :A) :d)
        SubClassOf(:B ObjectSomeValuesFrom(:r :A))
        """,
        open="""
        ClassAssertion(ObjectSomeValuesFrom(:r :A) :b)
        ClassAssertion(ObjectSomeValuesFrom(:s :A) :d)
        """,
    ),
    Case(
        "role_axioms.of_symmetric",
        """
        SymmetricObjectProperty(:r)
        ObjectPropertyAssertion(:r :a :b)
        ClassAssertion(:A :a)
        ObjectPropertyAssertion(:s :a :c)
        SubObjectPropertyOf(:r :t)
        """,
        follows="""
        ClassAssertion(ObjectSomeValuesFrom(:r :A) :b)
        ClassAssertion(ObjectSomeValuesFrom(:t :A) :b)
        """,
        open="ClassAssertion(ObjectSomeValuesFrom(:s :A) :c)",
    ),
    Case(
        "role_axioms.of_transitive",
        """
        TransitiveObjectProperty(:r)
        SubClassOf(:A ObjectSomeValuesFrom(ObjectInverseOf(:r) ObjectSomeValuesFrom(ObjectInverseOf(:r) :B)))
        SubClassOf(ObjectSomeValuesFrom(ObjectInverseOf(:r) :B) :C)
        """,
        follows="""
        SubClassOf(:A :C)
        SubClassOf(ObjectSomeValuesFrom(:r ObjectSomeValuesFrom(:r :B)) ObjectSomeValuesFrom(:r :B))
        """,
        open="SubClassOf(:C :A)",
    ),
    Case(
        "role_axioms.of_transitive",
        "TransitiveObjectProperty(ObjectInverseOf(:r))",
        follows="SubClassOf(ObjectSomeValuesFrom(:r ObjectSomeValuesFrom(:r :B)) ObjectSomeValuesFrom(:r :B))",
        open="SubClassOf(ObjectSomeValuesFrom(:r :B) :B)",
    ),
    Case(
        "role_axioms.of_chain",
        """
        SubObjectPropertyOf(ObjectPropertyChain(:r :r) :r)
        SubObjectPropertyOf(ObjectPropertyChain(ObjectInverseOf(:s) ObjectInverseOf(:s)) ObjectInverseOf(:s))
        """,
        follows="""
        SubClassOf(ObjectSomeValuesFrom(:r ObjectSomeValuesFrom(:r :B)) ObjectSomeValuesFrom(:r :B))
        SubClassOf(ObjectSomeValuesFrom(:s ObjectSomeValuesFrom(:s :B)) ObjectSomeValuesFrom(:s :B))
        """,
        open="SubClassOf(ObjectSomeValuesFrom(:r ObjectSomeValuesFrom(:s :B)) ObjectSomeValuesFrom(:r :B))",
    ),
    Case(
        "role_axioms.of_functional",
        """
        FunctionalObjectProperty(ObjectInverseOf(:r))
        ObjectPropertyAssertion(:r :a :b)
        ObjectPropertyAssertion(:r :c :b)
        ClassAssertion(:A :a)
        ObjectPropertyAssertion(:r :a :d)
        """,
        follows="ClassAssertion(:A :c)",
        open="""
        ClassAssertion(:A :b)
        ClassAssertion(ObjectMaxCardinality(1 :r) :a)
        """,
    ),
    Case(
        "role_axioms.of_functional",
        """
        TransitiveObjectProperty(:r)
        FunctionalObjectProperty(:r)
        SubClassOf(:A ObjectSomeValuesFrom(:r :B))
        SubClassOf(:A ObjectSomeValuesFrom(:r ObjectComplementOf(:B)))
        """,
        lost="SubClassOf(:A owl:Nothing)",
        open="SubClassOf(ObjectSomeValuesFrom(:r :B) owl:Nothing)",
    ),
    Case(
        "role_axioms.of_inverse_functional",
        """
        InverseFunctionalObjectProperty(:r)
        ObjectPropertyAssertion(:r :a :b)
        ObjectPropertyAssertion(:r :c :b)
        ClassAssertion(:A :a)
        ObjectPropertyAssertion(:r :a :d)
        ClassAssertion(:B :b)
        """,
        follows="ClassAssertion(:A :c)",
        open="ClassAssertion(:B :d)",
    ),
    Case(
        "role_axioms.of_inverse_functional",
        """
        InverseFunctionalObjectProperty(:r)
        EquivalentClasses(:A ObjectOneOf(:a))
        SubClassOf(:B ObjectHasValue(:r :a))
        SubClassOf(:C ObjectMinCardinality(2 :s :B))
        """,
        # all that lead to a are one
        lost="SubClassOf(:C owl:Nothing)",
        open="SubClassOf(:B owl:Nothing)",
    ),
    Case(
        "role_axioms.of_pair",
        """
        ObjectPropertyAssertion(ObjectInverseOf(:r) :a :b)
        ClassAssertion(:A :a)
        """,
        follows="ClassAssertion(ObjectSomeValuesFrom(:r :A) :b)",
        open="ClassAssertion(ObjectSomeValuesFrom(:r owl:Thing) :a)",
    ),
]

CLASSES = [
    Case(
        "class_axioms.of_inclusion",
        """
        TransitiveObjectProperty(:r)
        SubClassOf(:A ObjectMinCardinality(2 :r :B))
        SubClassOf(ObjectMinCardinality(2 :r :B) :C)
        """,
        follows="SubClassOf(:A ObjectSomeValuesFrom(:r :B))",
        lost="SubClassOf(:A :C)",
        open="""
        SubClassOf(ObjectSomeValuesFrom(:r :B) :A)
        SubClassOf(ObjectSomeValuesFrom(:r :B) :C)
        """,
    ),
    Case(
        "class_axioms.of_equivalence",
        """
        EquivalentClasses(:A ObjectOneOf(:a) :B)
        ClassAssertion(:C :a)
        """,
        follows="""
        SubClassOf(:A :B)
        SubClassOf(:B :A)
        SubClassOf(:A :C)
        ClassAssertion(:B :a)
        """,
        open="SubClassOf(:C :A)",
    ),
    Case(
        "class_axioms.of_equivalence",
        """
        TransitiveObjectProperty(:r)
        EquivalentClasses(:A ObjectMinCardinality(2 :r :B) ObjectComplementOf(:C))
        """,
        follows="""
        SubClassOf(:A ObjectSomeValuesFrom(:r :B))
        SubClassOf(:A ObjectComplementOf(:C))
        SubClassOf(owl:Thing ObjectUnionOf(:A :C))
        """,
        open="""
        SubClassOf(ObjectSomeValuesFrom(:r :B) :A)
        SubClassOf(:A owl:Nothing)
        """,
    ),
    Case(
        "class_axioms.of_equivalence",
        f"""
        TransitiveObjectProperty(:r)
        EquivalentClasses(ObjectIntersectionOf(:A {AT_MOST_ONE}) ObjectUnionOf(:B {AT_LEAST_TWO}))
        """,
        # what leads to two elements is in the union, so in the intersection, and leads to one alone: so nothing does
        follows="""
        SubClassOf(:B :A)
        SubClassOf(ObjectIntersectionOf(:A ObjectAllValuesFrom(:r owl:Nothing)) :B)
        """,
        lost="SubClassOf(:A :B)",
        open="""
        SubClassOf(:A owl:Nothing)
        SubClassOf(owl:Thing :A)
        """,
    ),
    Case(
        "class_axioms.of_disjointness",
        """
        DisjointClasses(:A ObjectOneOf(:a) ObjectHasSelf(:r))
        SubClassOf(:B ObjectHasSelf(:r))
        """,
        follows="""
        ClassAssertion(ObjectComplementOf(:A) :a)
        ClassAssertion(ObjectComplementOf(:B) :a)
        SubClassOf(:A ObjectComplementOf(:B))
        """,
        open="""
        SubClassOf(:A owl:Nothing)
        ClassAssertion(ObjectComplementOf(:A) :b)
        """,
    ),
    Case(
        "class_axioms.of_disjointness",
        """
        TransitiveObjectProperty(:r)
        DisjointClasses(:A ObjectMinCardinality(2 :r :B))
        SubClassOf(:A ObjectMinCardinality(2 :r :B))
        """,
        lost="SubClassOf(:A owl:Nothing)",
        open="SubClassOf(ObjectSomeValuesFrom(:r :B) owl:Nothing)",
    ),
    Case(
        "class_axioms.of_disjointness",
        "DisjointClasses(owl:Thing ObjectUnionOf(:A))",
        follows="SubClassOf(:A owl:Nothing)",
        open=CONTRADICTION,
    ),
    Case(
        "class_axioms.of_disjoint_union",
        """
        DisjointUnion(:A ObjectOneOf(:a) :B)
        ClassAssertion(:C :a)
        """,
        follows="""
        ClassAssertion(:A :a)
        SubClassOf(:B :A)
        ClassAssertion(ObjectComplementOf(:B) :a)
        SubClassOf(:A ObjectUnionOf(:B :C))
        """,
        open="""
        SubClassOf(:A :B)
        SubClassOf(:C :A)
        SubClassOf(:B owl:Nothing)
        """,
    ),
    Case(
        "class_axioms.of_disjoint_union",
        """
        TransitiveObjectProperty(:r)
        DisjointUnion(:A :B ObjectMinCardinality(2 :r :C))
        SubClassOf(:D ObjectMinCardinality(2 :r :C))
        """,
        follows="""
        SubClassOf(:B :A)
        SubClassOf(:A ObjectUnionOf(:B ObjectSomeValuesFrom(:r :C)))
        """,
        lost="SubClassOf(:D :A)",
        open="""
        SubClassOf(ObjectSomeValuesFrom(:r :C) :A)
        SubClassOf(:A :B)
        """,
    ),
    Case(
        "class_axioms.of_domain",
        """
        ObjectPropertyDomain(:r :A)
        SubClassOf(:B ObjectSomeValuesFrom(ObjectInverseOf(:r) owl:Thing))
        SubClassOf(ObjectSomeValuesFrom(ObjectInverseOf(:r) :A) :C)
        ObjectPropertyDomain(ObjectInverseOf(:s) :A)
        """,
        follows="""
        SubClassOf(ObjectSomeValuesFrom(:r owl:Thing) :A)
        SubClassOf(:B :C)
        SubClassOf(owl:Thing ObjectAllValuesFrom(:s :A))
        """,
        open="""
        SubClassOf(owl:Thing ObjectAllValuesFrom(:r :A))
        SubClassOf(ObjectSomeValuesFrom(:s owl:Thing) :A)
        """,
    ),
    Case(
        "class_axioms.of_range",
        """
        ObjectPropertyRange(:r :A)
        SubClassOf(:B ObjectSomeValuesFrom(ObjectInverseOf(:r) owl:Thing))
        ObjectPropertyRange(ObjectInverseOf(:s) :A)
        """,
        follows="""
        SubClassOf(owl:Thing ObjectAllValuesFrom(:r :A))
        SubClassOf(:B :A)
        SubClassOf(ObjectSomeValuesFrom(:s owl:Thing) :A)
        """,
        open="""
        SubClassOf(ObjectSomeValuesFrom(:r owl:Thing) :A)
        SubClassOf(owl:Thing ObjectAllValuesFrom(:s :A))
        """,
    ),
    Case(
        "class_axioms.of_range",
        """
        TransitiveObjectProperty(:r)
        ObjectPropertyRange(:s ObjectMinCardinality(2 :r :A))
        ObjectPropertyDomain(:s ObjectMinCardinality(2 :r :B))
        """,
        follows="""
        SubClassOf(owl:Thing ObjectAllValuesFrom(:s ObjectSomeValuesFrom(:r :A)))
        SubClassOf(ObjectSomeValuesFrom(:s owl:Thing) ObjectSomeValuesFrom(:r :B))
        """,
        open="""
        SubClassOf(owl:Thing ObjectSomeValuesFrom(:r :A))
        SubClassOf(owl:Thing ObjectAllValuesFrom(:s owl:Nothing))
        """,
    ),
    Case(
        "class_axioms.of_type",
        """
        TransitiveObjectProperty(:r)
        ClassAssertion(ObjectMinCardinality(2 :r :A) :a)
        ClassAssertion(ObjectHasValue(:s :b) :a)
        ClassAssertion(:B :b)
        """,
        follows="""
        ClassAssertion(ObjectSomeValuesFrom(:r :A) :a)
        ClassAssertion(ObjectSomeValuesFrom(:s :B) :a)
        """,
        open="ClassAssertion(ObjectSomeValuesFrom(:r :A) :b)",
    ),
]

BOUNDS = [
    Case(
        "bounds.Bounds.bound",
        f"""
        TransitiveObjectProperty(:r)
        SubClassOf(:A ObjectComplementOf({AT_MOST_ONE}))
        SubClassOf(ObjectComplementOf({AT_MOST_ONE}) :B)
        SubClassOf(:C ObjectComplementOf({AT_LEAST_TWO}))
        SubClassOf(ObjectComplementOf({AT_LEAST_TWO}) :D)
        SubClassOf(:E {AT_LEAST_TWO})
        """,
        follows="""
        SubClassOf(:A ObjectSomeValuesFrom(:r owl:Thing))
        SubClassOf(:E ObjectSomeValuesFrom(:r owl:Thing))
        SubClassOf(ObjectAllValuesFrom(:r owl:Nothing) :D)
        """,
        lost="""
        SubClassOf(:A :B)
        SubClassOf(:C :D)
        """,
        open="""
        SubClassOf(ObjectSomeValuesFrom(:r owl:Thing) :B)
        SubClassOf(:C ObjectAllValuesFrom(:r owl:Nothing))
        SubClassOf(owl:Thing :D)
        SubClassOf(:E owl:Nothing)
        """,
    ),
    Case(
        "bounds.Bounds.bound",
        f"""
        TransitiveObjectProperty(:r)
        SubClassOf(:A ObjectIntersectionOf(:B {AT_LEAST_TWO}))
        SubClassOf(ObjectUnionOf(:C {AT_LEAST_TWO}) :D)
        SubClassOf(:E ObjectIntersectionOf(ObjectUnionOf(:F)))
        """,
        follows="""
        SubClassOf(:A :B)
        SubClassOf(:A ObjectSomeValuesFrom(:r owl:Thing))
        SubClassOf(:C :D)
        SubClassOf(:E :F)
        """,
        open="""
        SubClassOf(:F :E)
        SubClassOf(ObjectSomeValuesFrom(:r owl:Thing) :D)
        """,
    ),
    Case(
        "bounds.Bounds.over_roles",
        f"""
        TransitiveObjectProperty(:r)
        SubClassOf(:A ObjectSomeValuesFrom(:s {AT_LEAST_TWO}))
        SubClassOf(:B ObjectAllValuesFrom(:s {AT_LEAST_TWO}))
        SubClassOf(ObjectSomeValuesFrom(:s {AT_MOST_ONE}) :C)
        SubClassOf(:D ObjectMaxCardinality(1 :s {AT_MOST_ONE}))
        SubClassOf(:E ObjectMinCardinality(2 :s {AT_LEAST_TWO}))
        SubClassOf(:F {AT_LEAST_TWO})
        """,
        follows="""
        SubClassOf(:F ObjectSomeValuesFrom(:r owl:Thing))
        SubClassOf(:A ObjectSomeValuesFrom(:s ObjectSomeValuesFrom(:r owl:Thing)))
        SubClassOf(:B ObjectAllValuesFrom(:s ObjectSomeValuesFrom(:r owl:Thing)))
        SubClassOf(ObjectSomeValuesFrom(:s ObjectAllValuesFrom(:r owl:Nothing)) :C)
        SubClassOf(:D ObjectMaxCardinality(1 :s ObjectAllValuesFrom(:r owl:Nothing)))
        SubClassOf(:E ObjectMinCardinality(2 :s ObjectSomeValuesFrom(:r owl:Thing)))
        """,
        open="""
        SubClassOf(:A ObjectAllValuesFrom(:s ObjectSomeValuesFrom(:r owl:Thing)))
        SubClassOf(:B ObjectSomeValuesFrom(:s owl:Thing))
        SubClassOf(ObjectSomeValuesFrom(:s owl:Thing) :C)
        SubClassOf(:D ObjectMaxCardinality(1 :s))
        SubClassOf(:F owl:Nothing)
        """,
    ),
    Case(
        "bounds.Bounds.exactly",
        """
        TransitiveObjectProperty(:r)
        SubClassOf(:A ObjectExactCardinality(2 :r :B))
        SubClassOf(ObjectExactCardinality(0 :r :B) :C)
        SubClassOf(:D ObjectExactCardinality(2 :s ObjectUnionOf(:B)))
        SubClassOf(ObjectExactCardinality(2 :s ObjectUnionOf(:B)) :E)
        """,
        follows="""
        SubClassOf(:A ObjectSomeValuesFrom(:r :B))
        SubClassOf(ObjectAllValuesFrom(:r ObjectComplementOf(:B)) :C)
        SubClassOf(:D ObjectExactCardinality(2 :s :B))
        SubClassOf(:D :E)
        """,
        open="""
        SubClassOf(ObjectSomeValuesFrom(:r :B) :A)
        SubClassOf(:A :C)
        SubClassOf(:E ObjectSomeValuesFrom(:s :B))
        """,
    ),
    Case(
        "bounds.Bounds.exactly",
        f"""
        TransitiveObjectProperty(:r)
        SubClassOf(:A ObjectExactCardinality(1 :s {AT_LEAST_TWO}))
        SubClassOf(:B ObjectExactCardinality(1 :s {AT_MOST_ONE}))
        """,
        # at most one of s is among fewer, those that lead nowhere by r
        follows="""
        SubClassOf(:A ObjectSomeValuesFrom(:s ObjectSomeValuesFrom(:r owl:Thing)))
        SubClassOf(:B ObjectSomeValuesFrom(:s owl:Thing))
        SubClassOf(:B ObjectMaxCardinality(1 :s ObjectAllValuesFrom(:r owl:Nothing)))
        """,
        open="""
        SubClassOf(:A ObjectMaxCardinality(1 :s))
        SubClassOf(:A ObjectMaxCardinality(1 :s ObjectSomeValuesFrom(:r owl:Thing)))
        """,
    ),
    Case(
        "bounds.Bounds.number",
        """
        TransitiveObjectProperty(:r)
        SubClassOf(:A ObjectMinCardinality(2 :r :B))
        SubClassOf(ObjectMinCardinality(1 :r :B) :C)
        SubClassOf(ObjectMaxCardinality(1 :r :B) :D)
        SubClassOf(:E ObjectMaxCardinality(0 :r :B))
        SubClassOf(ObjectMaxCardinality(0 :r :B) :F)
        SubClassOf(ObjectMinCardinality(0 :r :B) :G)
        SubClassOf(:H ObjectMaxCardinality(1 :r :B))
        """,
        follows="""
        SubClassOf(:A ObjectSomeValuesFrom(:r :B))
        SubClassOf(:A :C)
        SubClassOf(ObjectAllValuesFrom(:r ObjectComplementOf(:B)) :D)
        SubClassOf(:E ObjectAllValuesFrom(:r ObjectComplementOf(:B)))
        SubClassOf(:E :F)
        SubClassOf(owl:Thing :G)
        """,
        lost="SubClassOf(:H :D)",
        open="""
        SubClassOf(:C :A)
        SubClassOf(:D :E)
        SubClassOf(:H :E)
        SubClassOf(:A owl:Nothing)
        """,
    ),
    Case(
        "bounds.Bounds.number",
        """
        SubClassOf(:A ObjectMinCardinality(101 :r :B))
        SubClassOf(ObjectMaxCardinality(101 :r :B) :C)
        SubClassOf(:D ObjectMaxCardinality(101 :r :B))
        SubClassOf(ObjectMinCardinality(101 :r :B) :E)
        """,
        follows="""
        SubClassOf(:A ObjectSomeValuesFrom(:r :B))
        SubClassOf(ObjectAllValuesFrom(:r ObjectComplementOf(:B)) :C)
        """,
        lost="""
        SubClassOf(:A :E)
        SubClassOf(:D :C)
        """,
    ),
    Case(
        "bounds.Bounds.value",
        """
        SubClassOf(:A ObjectHasValue(:r :a))
        ClassAssertion(:C :a)
        SubClassOf(ObjectHasValue(:s :b) :B)
        ObjectPropertyAssertion(:s :c :b)
        """,
        follows="""
        SubClassOf(:A ObjectSomeValuesFrom(:r :C))
        ClassAssertion(:B :c)
        """,
        open="""
        SubClassOf(:A ObjectAllValuesFrom(:r :C))
        ClassAssertion(:B :b)
        """,
    ),
    Case(
        "bounds.Bounds.value",
        """
        SubClassOf(ObjectHasValue(owl:topObjectProperty :a) :A)
        SubClassOf(:B ObjectHasValue(owl:bottomObjectProperty :a))
        """,
        follows="""
        SubClassOf(owl:Thing :A)
        SubClassOf(:B owl:Nothing)
        """,
        open="SubClassOf(:A owl:Nothing)",
    ),
    Case(
        "bounds.Bounds.restriction",
        """
        SubClassOf(ObjectSomeValuesFrom(:r ObjectHasSelf(owl:bottomObjectProperty)) :A)
        SubClassOf(ObjectAllValuesFrom(:r ObjectHasSelf(owl:topObjectProperty)) :B)
        """,
        follows="SubClassOf(owl:Thing :B)",
        open="SubClassOf(owl:Thing :A)",
    ),
]

SPECIAL_ROLES = [
    Case(
        "bounds.Bounds.over_special",
        """
        SubClassOf(:A ObjectAllValuesFrom(owl:topObjectProperty :B))
        SubClassOf(ObjectSomeValuesFrom(owl:topObjectProperty :C) :D)
        SubClassOf(ObjectMinCardinality(1 owl:topObjectProperty :D) :E)
        """,
        follows="""
        SubClassOf(:A :B)
        SubClassOf(:C :D)
        SubClassOf(:D :E)
        """,
        open="""
        SubClassOf(:B :A)
        SubClassOf(:D :C)
        SubClassOf(owl:Thing :D)
        """,
    ),
    Case(
        "bounds.Bounds.over_special",
        """
        SubClassOf(:A ObjectAllValuesFrom(owl:topObjectProperty :B))
        SubClassOf(ObjectSomeValuesFrom(owl:topObjectProperty :C) :D)
        ClassAssertion(:A :a)
        ClassAssertion(:C :c)
        """,
        # what is said of one element of all
        lost="""
        SubClassOf(owl:Thing :B)
        SubClassOf(owl:Thing :D)
        """,
        open="""
        SubClassOf(owl:Thing :A)
        SubClassOf(owl:Thing :C)
        """,
    ),
    Case(
        "bounds.Bounds.over_special",
        """
        SubClassOf(:A ObjectSomeValuesFrom(owl:topObjectProperty :B))
        SubClassOf(ObjectAllValuesFrom(owl:topObjectProperty :C) :D)
        SubClassOf(:E ObjectMaxCardinality(1 owl:topObjectProperty :B))
        SubClassOf(ObjectMaxCardinality(1 owl:topObjectProperty :B) :F)
        """,
        open="""
        SubClassOf(:A :B)
        SubClassOf(:C :D)
        SubClassOf(:E owl:Nothing)
        SubClassOf(owl:Thing :F)
        """,
    ),
    Case(
        "bounds.Bounds.over_special",
        """
        SubClassOf(ObjectSomeValuesFrom(owl:topObjectProperty owl:Thing) :A)
        SubClassOf(ObjectMinCardinality(0 owl:topObjectProperty :C) :B)
        """,
        follows="""
        SubClassOf(owl:Thing :A)
        SubClassOf(owl:Thing :B)
        """,
        open="SubClassOf(owl:Thing :C)",
    ),
    Case(
        "bounds.Bounds.over_special",
        """
        SubClassOf(:A ObjectSomeValuesFrom(owl:bottomObjectProperty owl:Thing))
        SubClassOf(:B ObjectMinCardinality(1 owl:bottomObjectProperty))
        SubClassOf(ObjectAllValuesFrom(owl:bottomObjectProperty owl:Nothing) :C)
        SubClassOf(ObjectMaxCardinality(0 owl:bottomObjectProperty) :D)
        SubClassOf(ObjectMinCardinality(0 owl:bottomObjectProperty) :E)
        """,
        follows="""
        SubClassOf(:A owl:Nothing)
        SubClassOf(:B owl:Nothing)
        SubClassOf(owl:Thing :C)
        SubClassOf(owl:Thing :D)
        SubClassOf(owl:Thing :E)
        """,
        open="SubClassOf(:C :A)",
    ),
    Case(
        "special_roles.of_inclusion",
        """
        SubObjectPropertyOf(:r owl:bottomObjectProperty)
        SubObjectPropertyOf(ObjectPropertyChain(:s :t) owl:bottomObjectProperty)
        SubObjectPropertyOf(owl:bottomObjectProperty :t)
        SubObjectPropertyOf(:t owl:topObjectProperty)
        SubObjectPropertyOf(ObjectPropertyChain(:s owl:bottomObjectProperty) :t)
        """,
        follows="""
        SubClassOf(owl:Thing ObjectAllValuesFrom(:r owl:Nothing))
        SubClassOf(owl:Thing ObjectAllValuesFrom(:s ObjectAllValuesFrom(:t owl:Nothing)))
        """,
        open="""
        SubClassOf(owl:Thing ObjectAllValuesFrom(:t ObjectAllValuesFrom(:s owl:Nothing)))
        SubClassOf(owl:Thing ObjectAllValuesFrom(:s owl:Nothing))
        """,
    ),
    Case(
        "special_roles.without_top",
        """
        SubObjectPropertyOf(ObjectPropertyChain(:r owl:topObjectProperty) owl:bottomObjectProperty)
        SubObjectPropertyOf(ObjectPropertyChain(owl:topObjectProperty :s) owl:bottomObjectProperty)
        SubObjectPropertyOf(ObjectPropertyChain(:t owl:topObjectProperty :u) owl:bottomObjectProperty)
        """,
        follows="""
        SubClassOf(owl:Thing ObjectAllValuesFrom(:r owl:Nothing))
        SubClassOf(owl:Thing ObjectAllValuesFrom(:s owl:Nothing))
        """,
        # where anything led anywhere by t, and anything by u, there would be such a chain
        lost="SubClassOf(owl:Thing ObjectAllValuesFrom(:t ObjectAllValuesFrom(:u owl:Nothing)))",
        open="SubClassOf(owl:Thing ObjectAllValuesFrom(:t owl:Nothing))",
    ),
    Case(
        "special_roles.without_top",
        "SubObjectPropertyOf(owl:topObjectProperty owl:bottomObjectProperty)",
        follows=CONTRADICTION,
    ),
    Case(
        "special_roles.of_inclusion",
        "SubObjectPropertyOf(owl:topObjectProperty :r)",
        lost="SubClassOf(owl:Thing ObjectSomeValuesFrom(:r owl:Thing))",
        open="SubClassOf(owl:Thing ObjectMaxCardinality(1 :r))",
    ),
    Case(
        "special_roles.without_special",
        """
        EquivalentObjectProperties(:r owl:bottomObjectProperty :t)
        InverseObjectProperties(owl:bottomObjectProperty :s)
        """,
        follows="""
        SubClassOf(owl:Thing ObjectAllValuesFrom(:r owl:Nothing))
        SubClassOf(owl:Thing ObjectAllValuesFrom(:t owl:Nothing))
        SubClassOf(owl:Thing ObjectAllValuesFrom(:s owl:Nothing))
        """,
        open="SubClassOf(owl:Thing ObjectAllValuesFrom(:u owl:Nothing))",
    ),
    Case(
        "special_roles.without_special",
        """
        EquivalentObjectProperties(:r owl:topObjectProperty)
        InverseObjectProperties(owl:topObjectProperty :s)
        """,
        lost="""
        SubClassOf(owl:Thing ObjectSomeValuesFrom(:r owl:Thing))
        SubClassOf(owl:Thing ObjectSomeValuesFrom(:s owl:Thing))
        """,
        open="SubClassOf(owl:Thing ObjectSomeValuesFrom(:t owl:Thing))",
    ),
    Case(
        "special_roles.without_special",
        """
        DisjointObjectProperties(:r owl:topObjectProperty owl:bottomObjectProperty)
        ObjectPropertyAssertion(:s :a :b)
        ObjectPropertyAssertion(:t :a :b)
        DisjointObjectProperties(:s owl:bottomObjectProperty)
        """,
        follows="SubClassOf(owl:Thing ObjectAllValuesFrom(:r owl:Nothing))",
        open=CONTRADICTION,
    ),
    Case(
        "special_roles.without_special",
        """
        DisjointObjectProperties(:r owl:bottomObjectProperty :s)
        ObjectPropertyAssertion(:r :a :b)
        ObjectPropertyAssertion(:s :a :b)
        """,
        follows=CONTRADICTION,
    ),
    Case(
        "special_roles.without_special",
        "DisjointObjectProperties(:r owl:topObjectProperty :s)",
        follows="""
        SubClassOf(owl:Thing ObjectAllValuesFrom(:r owl:Nothing))
        SubClassOf(owl:Thing ObjectAllValuesFrom(:s owl:Nothing))
        """,
        open=CONTRADICTION,
    ),
    Case(
        "special_roles.without_special",
        """
        ObjectPropertyDomain(owl:topObjectProperty :A)
        ObjectPropertyRange(owl:topObjectProperty :B)
        ObjectPropertyDomain(owl:bottomObjectProperty :C)
        ObjectPropertyRange(owl:bottomObjectProperty :D)
        """,
        follows="""
        SubClassOf(owl:Thing :A)
        SubClassOf(owl:Thing :B)
        """,
        open="""
        SubClassOf(owl:Thing :C)
        SubClassOf(owl:Thing :D)
        """,
    ),
    Case(
        "special_roles.without_special",
        """
        TransitiveObjectProperty(owl:topObjectProperty)
        SymmetricObjectProperty(owl:topObjectProperty)
        ReflexiveObjectProperty(owl:topObjectProperty)
        ObjectPropertyAssertion(owl:topObjectProperty :a :b)
        TransitiveObjectProperty(owl:bottomObjectProperty)
        SymmetricObjectProperty(owl:bottomObjectProperty)
        IrreflexiveObjectProperty(owl:bottomObjectProperty)
        AsymmetricObjectProperty(owl:bottomObjectProperty)
        FunctionalObjectProperty(owl:bottomObjectProperty)
        InverseFunctionalObjectProperty(owl:bottomObjectProperty)
        DisjointObjectProperties(owl:topObjectProperty owl:bottomObjectProperty)
        NegativeObjectPropertyAssertion(owl:bottomObjectProperty :a :b)
        """,
        open=CONTRADICTION,
    ),
    Case(
        "special_roles.without_special",
        """
        FunctionalObjectProperty(owl:topObjectProperty)
        InverseFunctionalObjectProperty(owl:topObjectProperty)
        """,
        # there is one element alone
        lost="SubClassOf(owl:Thing ObjectMaxCardinality(1 :r))",
        open=CONTRADICTION,
    ),
]
SPECIAL_ROLES += [
    Case("special_roles.without_special", axiom, follows=CONTRADICTION)
    for axiom in (
        "IrreflexiveObjectProperty(owl:topObjectProperty)",
        "AsymmetricObjectProperty(owl:topObjectProperty)",
        "ReflexiveObjectProperty(owl:bottomObjectProperty)",
        "DisjointObjectProperties(owl:topObjectProperty owl:topObjectProperty)",
        "ObjectPropertyAssertion(owl:bottomObjectProperty :a :b)",
        "NegativeObjectPropertyAssertion(owl:topObjectProperty :a :b)",
        "ObjectPropertyAssertion(ObjectInverseOf(owl:bottomObjectProperty) :a :b)",
    )
]

ONE, TWO, TEXT = '"1"^^xsd:integer', '"2"^^xsd:integer', '"x"'
UP_TO_ONE = f"DatatypeRestriction(xsd:integer xsd:maxInclusive {ONE})"
DATA = [
    Case(
        "data_classes.DataClasses.relate",
        f"""
        SubClassOf(:A DataHasValue(:p {ONE}))
        SubClassOf(DataSomeValuesFrom(:p {UP_TO_ONE}) :B)
        SubClassOf(DataSomeValuesFrom(:p xsd:decimal) :C)
        SubClassOf(:D DataAllValuesFrom(:p xsd:string))
        SubClassOf(:E DataHasValue(:p {TWO}))
        """,
        follows="""
        SubClassOf(:A :B)
        SubClassOf(:A :C)
        SubClassOf(ObjectIntersectionOf(:A :D) owl:Nothing)
        """,
        open="""
        SubClassOf(:E :B)
        SubClassOf(:C :A)
        SubClassOf(:D owl:Nothing)
        """,
    ),
    Case(
        "data_classes.DataClasses.relate",
        f"""
        SubClassOf(:A DataMinCardinality(2 :p xsd:integer))
        SubClassOf(DataMinCardinality(2 :p) :B)
        SubClassOf(:C DataMaxCardinality(1 :p xsd:decimal))
        SubClassOf(:D DataExactCardinality(3 :p xsd:string))
        SubClassOf(:E DataMinCardinality(3 :p xsd:boolean))
        """,
        follows="""
        SubClassOf(:A :B)
        SubClassOf(ObjectIntersectionOf(:A :C) owl:Nothing)
        SubClassOf(:D :B)
        SubClassOf(:E owl:Nothing)
        """,
        open="""
        SubClassOf(:B :A)
        SubClassOf(:C owl:Nothing)
        """,
    ),
    Case(
        "data_classes.DataClasses.split",
        f"""
        SubClassOf(DataSomeValuesFrom(:p {UP_TO_ONE}) :A)
        SubClassOf(DataSomeValuesFrom(:p DataComplementOf({UP_TO_ONE})) :A)
        SubClassOf(:B DataSomeValuesFrom(:p rdfs:Literal))
        """,
        follows="SubClassOf(:B :A)",
        open="SubClassOf(:A :B)",
    ),
    Case(
        "data_classes.DataClasses.bound",
        f"""
        SubClassOf(:A DataSomeValuesFrom(:p DataOneOf({ONE} {TEXT})))
        SubClassOf(DataHasValue(:p {ONE}) :B)
        SubClassOf(DataSomeValuesFrom(:p xsd:string) :B)
        SubClassOf(:C DataSomeValuesFrom(owl:bottomDataProperty xsd:string))
        SubClassOf(DataMinCardinality(0 :p) :D)
        """,
        follows="""
        SubClassOf(:A :B)
        SubClassOf(:C owl:Nothing)
        SubClassOf(owl:Thing :D)
        """,
        open="""
        SubClassOf(:B :A)
        SubClassOf(:A owl:Nothing)
        """,
    ),
    Case(
        "data_classes.DataClasses.bound",
        """
        SubClassOf(:A DataSomeValuesFrom(:p DataUnionOf(xsd:integer xsd:string)))
        SubClassOf(DataSomeValuesFrom(:p xsd:integer) :B)
        SubClassOf(DataSomeValuesFrom(:p xsd:string) :B)
        """,
        follows="SubClassOf(:A :B)",
        open="SubClassOf(:B :A)",
    ),
    Case(
        "data_classes.DataClasses.split",
        f"""
        SubClassOf(DataSomeValuesFrom(:p DataIntersectionOf(xsd:string DataComplementOf(DataOneOf({TEXT})))) :A)
        SubClassOf(DataSomeValuesFrom(:p DataComplementOf(xsd:string)) :A)
        SubClassOf(DataHasValue(:p {TEXT}) :A)
        SubClassOf(:B DataSomeValuesFrom(:p rdfs:Literal))
        """,
        follows="SubClassOf(:B :A)",
        open="SubClassOf(:A :B)",
    ),
    Case(
        "data_classes.DataClasses.relate",
        """
        SubClassOf(:A DataSomeValuesFrom(:p DatatypeRestriction(xsd:integer xsd:minInclusive "0"^^xsd:integer)))
        SubClassOf(DataSomeValuesFrom(:p DatatypeRestriction(xsd:integer xsd:minInclusive "0"^^xsd:integer)) :B)
        SubClassOf(:C DataSomeValuesFrom(:p xsd:nonNegativeInteger))
        SubClassOf(DataSomeValuesFrom(:p xsd:nonNegativeInteger) :D)
        """,
        follows="""
        SubClassOf(:A :D)
        SubClassOf(:C :B)
        """,
        open="SubClassOf(:D :C)",
    ),
    Case(
        "data_classes.of_assertion",
        f"""
        DataPropertyAssertion(:p :a {ONE})
        SubClassOf(DataSomeValuesFrom(:p xsd:integer) :A)
        SubClassOf(:B ObjectOneOf(:a))
        """,
        follows="""
        ClassAssertion(:A :a)
        SubClassOf(:B :A)
        """,
        open="""
        SubClassOf(:A :B)
        ClassAssertion(:A :b)
        """,
    ),
    Case(
        "data_classes.of_negative_assertion",
        f"""
        NegativeDataPropertyAssertion(:p :a {ONE})
        EquivalentClasses(:A DataHasValue(:p {ONE}))
        SubClassOf(:B ObjectOneOf(:a))
        """,
        follows="""
        ClassAssertion(ObjectComplementOf(:A) :a)
        SubClassOf(:B ObjectComplementOf(:A))
        """,
        open="""
        ClassAssertion(ObjectComplementOf(:A) :b)
        SubClassOf(:A owl:Nothing)
        """,
    ),
    Case(
        "data_classes.of_inclusion",
        f"""
        SubDataPropertyOf(:p :q)
        SubClassOf(:A DataHasValue(:p {ONE}))
        SubClassOf(DataSomeValuesFrom(:q xsd:integer) :B)
        SubClassOf(:C DataHasValue(:q {ONE}))
        SubClassOf(DataSomeValuesFrom(:p xsd:integer) :D)
        """,
        follows="SubClassOf(:A :B)",
        open="SubClassOf(:C :D)",
    ),
    Case(
        "data_classes.of_inclusion",
        f"""
        EquivalentDataProperties(:p :q)
        SubClassOf(:A DataHasValue(:p {ONE}))
        SubClassOf(DataHasValue(:q {ONE}) :B)
        SubClassOf(:C DataMinCardinality(2 :q xsd:integer))
        SubClassOf(DataMinCardinality(2 :p) :D)
        """,
        follows="""
        SubClassOf(:A :B)
        SubClassOf(:C :D)
        """,
        open="SubClassOf(:B :A)",
    ),
    Case(
        "data_classes.of_domain",
        f"""
        DataPropertyDomain(:p :A)
        SubClassOf(:B DataHasValue(:p {ONE}))
        """,
        follows="SubClassOf(:B :A)",
        open="SubClassOf(:A :B)",
    ),
    Case(
        "data_classes.of_range",
        f"""
        DataPropertyRange(:p xsd:integer)
        SubClassOf(:A DataHasValue(:p {TEXT}))
        SubClassOf(:B DataSomeValuesFrom(:p rdfs:Literal))
        SubClassOf(DataSomeValuesFrom(:p xsd:integer) :C)
        """,
        follows="""
        SubClassOf(:A owl:Nothing)
        SubClassOf(:B :C)
        """,
        open="""
        SubClassOf(:B owl:Nothing)
        SubClassOf(owl:Thing :C)
        """,
    ),
    Case(
        "data_classes.of_functional",
        f"""
        FunctionalDataProperty(:p)
        SubClassOf(:A DataHasValue(:p {ONE}))
        SubClassOf(:B DataHasValue(:p {TWO}))
        SubClassOf(:C DataSomeValuesFrom(:p xsd:integer))
        SubClassOf(:D DataSomeValuesFrom(:p xsd:string))
        SubClassOf(:E DataMinCardinality(2 :p))
        """,
        follows="""
        SubClassOf(ObjectIntersectionOf(:A :B) owl:Nothing)
        SubClassOf(ObjectIntersectionOf(:C :D) owl:Nothing)
        SubClassOf(:E owl:Nothing)
        """,
        open="""
        SubClassOf(ObjectIntersectionOf(:A :C) owl:Nothing)
        SubClassOf(:A owl:Nothing)
        """,
    ),
    Case(
        "data_classes.of_disjoint",
        f"""
        DisjointDataProperties(:p :q)
        SubClassOf(:A DataHasValue(:p {ONE}))
        SubClassOf(:B DataHasValue(:q "1.0"^^xsd:decimal))
        SubClassOf(:C DataHasValue(:q {TWO}))
        """,
        follows="SubClassOf(ObjectIntersectionOf(:A :B) owl:Nothing)",
        open="""
        SubClassOf(ObjectIntersectionOf(:A :C) owl:Nothing)
        SubClassOf(:B owl:Nothing)
        """,
    ),
    Case(
        "data_classes.of_datatype",
        """
        DatatypeDefinition(:D xsd:string)
        SubClassOf(:A DataSomeValuesFrom(:p :D))
        SubClassOf(DataSomeValuesFrom(:p xsd:string) :B)
        SubClassOf(:C DataSomeValuesFrom(:p DataComplementOf(:D)))
        SubClassOf(DataSomeValuesFrom(:p DataComplementOf(xsd:string)) :E)
        """,
        follows="""
        SubClassOf(:A :B)
        SubClassOf(:C :E)
        """,
        open="""
        SubClassOf(:A :E)
        SubClassOf(:B :A)
        """,
    ),
    Case(
        "data_classes.DataClasses.bound",
        """
        SubClassOf(:A DataAllValuesFrom(:p DataIntersectionOf(xsd:integer xsd:byte)))
        SubClassOf(:A DataMinCardinality(257 :p))
        """,
        # a byte is one of 256
        lost="SubClassOf(:A owl:Nothing)",
    ),
]

CHAIN = "SubObjectPropertyOf(ObjectPropertyChain"
FULL = [
    Case(
        "full.FullRows.rows_of_all",
        f"""
        {CHAIN}(:r :s) :t)
        SubClassOf(:A ObjectAllValuesFrom(:t :B))
        """,
        full="SubClassOf(:A ObjectAllValuesFrom(:r ObjectAllValuesFrom(:s :B)))",
        open="SubClassOf(:A ObjectAllValuesFrom(:s ObjectAllValuesFrom(:r :B)))",
    ),
    Case(
        "full.FullRows.rows_of_some",
        f"""
        {CHAIN}(:r :s) :t)
        SubClassOf(ObjectSomeValuesFrom(:t :A) :B)
        """,
        full="SubClassOf(ObjectSomeValuesFrom(:r ObjectSomeValuesFrom(:s :A)) :B)",
        open="SubClassOf(ObjectSomeValuesFrom(:s ObjectSomeValuesFrom(:r :A)) :B)",
    ),
    Case(
        "full.FullRows.rows_of_all",
        f"""
        {CHAIN}(:r :s) :r)
        SubClassOf(:A ObjectAllValuesFrom(:r :B))
        """,
        full="SubClassOf(:A ObjectAllValuesFrom(:r ObjectAllValuesFrom(:s ObjectAllValuesFrom(:s :B))))",
        open="""
        SubClassOf(:A ObjectAllValuesFrom(:s :B))
        SubClassOf(:B ObjectAllValuesFrom(:s :B))
        """,
    ),
    Case(
        "full.FullRows.rows_of_some",
        f"""
        {CHAIN}(:r :s) :r)
        SubClassOf(ObjectSomeValuesFrom(:r :A) :B)
        """,
        full="SubClassOf(ObjectSomeValuesFrom(:r ObjectSomeValuesFrom(:s ObjectSomeValuesFrom(:s :A))) :B)",
        open="""
        SubClassOf(ObjectSomeValuesFrom(:s :A) :B)
        SubClassOf(ObjectSomeValuesFrom(:s :A) :A)
        """,
    ),
    Case(
        "full.FullRows.rows_of_all",
        f"""
        {CHAIN}(:s :r) :r)
        SubClassOf(:A ObjectAllValuesFrom(:r :B))
        """,
        full="SubClassOf(:A ObjectAllValuesFrom(:s ObjectAllValuesFrom(:s ObjectAllValuesFrom(:r :B))))",
        open="SubClassOf(:A ObjectAllValuesFrom(:s :B))",
    ),
    Case(
        "full.FullRows.rows_of_some",
        f"""
        {CHAIN}(:s :r) :r)
        SubClassOf(ObjectSomeValuesFrom(:r :A) :B)
        """,
        full="SubClassOf(ObjectSomeValuesFrom(:s ObjectSomeValuesFrom(:s ObjectSomeValuesFrom(:r :A))) :B)",
        open="SubClassOf(ObjectSomeValuesFrom(:s :A) :B)",
    ),
    Case(
        "full.FullRows.rows_of_all",
        f"""
        {CHAIN}(:r :s) :t)
        SubObjectPropertyOf(:t :u)
        SubClassOf(:A ObjectAllValuesFrom(:u :B))
        SubClassOf(ObjectSomeValuesFrom(:u :C) :D)
        """,
        full="""
        SubClassOf(:A ObjectAllValuesFrom(:r ObjectAllValuesFrom(:s :B)))
        SubClassOf(ObjectSomeValuesFrom(:r ObjectSomeValuesFrom(:s :C)) :D)
        """,
        open="SubClassOf(:A ObjectAllValuesFrom(:r :B))",
    ),
    Case(
        "full.FullRows.rows_of_all",
        f"""
        {CHAIN}(:r :s) :t)
        SubObjectPropertyOf(:t :u)
        SubObjectPropertyOf(:u :v)
        SubClassOf(:A ObjectIntersectionOf(:C ObjectAllValuesFrom(:v :B)))
        """,
        full="SubClassOf(:A ObjectAllValuesFrom(:r ObjectAllValuesFrom(:s :B)))",
        open="SubClassOf(:A ObjectAllValuesFrom(:s :B))",
    ),
    Case(
        "full.FullRows.rows_of_some",
        f"""
        {CHAIN}(:r :s) :t)
        SubClassOf(ObjectUnionOf(:C ObjectSomeValuesFrom(:t :A)) :B)
        """,
        full="SubClassOf(ObjectSomeValuesFrom(:r ObjectSomeValuesFrom(:s :A)) :B)",
        open="SubClassOf(ObjectSomeValuesFrom(:r :A) :B)",
    ),
    Case(
        "full.FullRows.rows_of_all",
        """
        InverseObjectProperties(:r :s)
        SubClassOf(:A ObjectSomeValuesFrom(:r ObjectAllValuesFrom(:s :B)))
        """,
        full="SubClassOf(:A :B)",
        open="SubClassOf(:B :A)",
    ),
    Case(
        "full.FullRows.rows_of_some",
        """
        InverseObjectProperties(:r :s)
        SubClassOf(ObjectSomeValuesFrom(:s :A) :B)
        """,
        full="SubClassOf(:A ObjectAllValuesFrom(:r :B))",
        open="SubClassOf(:A ObjectAllValuesFrom(:s :B))",
    ),
    Case(
        "full.FullRows.rows_of_all",
        """
        TransitiveObjectProperty(:r)
        InverseObjectProperties(:r :s)
        SubClassOf(:A ObjectSomeValuesFrom(:r ObjectSomeValuesFrom(:r ObjectAllValuesFrom(:s :B))))
        SubClassOf(:C ObjectAllValuesFrom(:s :D))
        """,
        full="""
        SubClassOf(:A :B)
        SubClassOf(ObjectSomeValuesFrom(:r :C) ObjectAllValuesFrom(:s :D))
        """,
        open="""
        SubClassOf(:A ObjectAllValuesFrom(:r :B))
        SubClassOf(ObjectSomeValuesFrom(:s :C) ObjectAllValuesFrom(:r :D))
        """,
    ),
    Case(
        "full.FullRows.rows_of_some",
        """
        TransitiveObjectProperty(:r)
        InverseObjectProperties(:r :s)
        SubClassOf(ObjectSomeValuesFrom(:s :A) :B)
        """,
        full="""
        SubClassOf(:A ObjectAllValuesFrom(:r ObjectAllValuesFrom(:r :B)))
        SubClassOf(ObjectSomeValuesFrom(:s :A) ObjectAllValuesFrom(:r :B))
        """,
        open="SubClassOf(:A :B)",
    ),
    Case(
        "full.FullRows.rewritten",
        f"""
        {CHAIN}(:r :s) :t)
        ObjectPropertyDomain(:t :A)
        ObjectPropertyRange(:t :B)
        """,
        full="""
        SubClassOf(ObjectSomeValuesFrom(:r ObjectSomeValuesFrom(:s owl:Thing)) :A)
        SubClassOf(owl:Thing ObjectAllValuesFrom(:r ObjectAllValuesFrom(:s :B)))
        """,
        open="""
        SubClassOf(ObjectSomeValuesFrom(:s owl:Thing) :A)
        SubClassOf(owl:Thing ObjectAllValuesFrom(:r :B))
        """,
    ),
    Case(
        "full.FullRows.rewritten",
        f"""
        {CHAIN}(:r :s) :t)
        EquivalentClasses(:A ObjectSomeValuesFrom(:t :B))
        DisjointClasses(:C ObjectSomeValuesFrom(:t :B))
        """,
        full="""
        SubClassOf(ObjectSomeValuesFrom(:r ObjectSomeValuesFrom(:s :B)) :A)
        SubClassOf(ObjectSomeValuesFrom(:r ObjectSomeValuesFrom(:s :B)) ObjectComplementOf(:C))
        """,
        open="SubClassOf(:A ObjectSomeValuesFrom(:r owl:Thing))",
    ),
    Case(
        "full.FullRows.rewritten_union",
        f"""
        {CHAIN}(:r :s) :t)
        DisjointUnion(:A :B ObjectSomeValuesFrom(:t :C))
        """,
        follows="""
        SubClassOf(:B :A)
        SubClassOf(:A ObjectUnionOf(:B ObjectSomeValuesFrom(:t :C)))
        """,
        full="""
        SubClassOf(ObjectSomeValuesFrom(:r ObjectSomeValuesFrom(:s :C)) :A)
        SubClassOf(ObjectSomeValuesFrom(:r ObjectSomeValuesFrom(:s :C)) ObjectComplementOf(:B))
        """,
        open="SubClassOf(:A :B)",
    ),
    Case(
        "full.FullRows.rewritten_item",
        f"""
        {CHAIN}(:r :s) :t)
        ClassAssertion(ObjectAllValuesFrom(:t :A) :a)
        ObjectPropertyAssertion(:r :a :b)
        """,
        full="ClassAssertion(ObjectAllValuesFrom(:s :A) :b)",
        open="ClassAssertion(ObjectAllValuesFrom(:r :A) :a)",
    ),
    Case(
        "full.Roles.add_chain",
        f"""
        {CHAIN}(:r :s) :t)
        InverseObjectProperties(:t :u)
        SubClassOf(:A ObjectAllValuesFrom(:u :B))
        SubClassOf(:C ObjectSomeValuesFrom(:r ObjectSomeValuesFrom(:s :A)))
        """,
        full="SubClassOf(:C :B)",
        open="SubClassOf(:B :C)",
    ),
    Case(
        "full.Roles.add_chain",
        f"""
        {CHAIN}(:r :s) ObjectInverseOf(:t))
        SubClassOf(:A ObjectAllValuesFrom(:t :B))
        SubClassOf(:C ObjectSomeValuesFrom(:r ObjectSomeValuesFrom(:s :A)))
        """,
        full="SubClassOf(:C :B)",
        open="SubClassOf(:B :C)",
    ),
    Case(
        "full.Roles.leave_out_irregular",
        f"""
        {CHAIN}(:s :r :s) :r)
        SubClassOf(:A ObjectAllValuesFrom(:r :B))
        """,
        lost="SubClassOf(:A ObjectAllValuesFrom(:s ObjectAllValuesFrom(:r ObjectAllValuesFrom(:s :B))))",
        open="SubClassOf(:A ObjectAllValuesFrom(:s :B))",
    ),
    Case(
        "full.FullRows.above",
        f"""
        {CHAIN}(:r :s) :t)
        SubClassOf(:A ObjectMaxCardinality(0 :t :B))
        SubClassOf(:C ObjectComplementOf(ObjectSomeValuesFrom(:t :D)))
        SubClassOf(ObjectComplementOf(ObjectAllValuesFrom(:t :E)) :F)
        """,
        full="""
        SubClassOf(:A ObjectAllValuesFrom(:r ObjectAllValuesFrom(:s ObjectComplementOf(:B))))
        SubClassOf(:C ObjectAllValuesFrom(:r ObjectAllValuesFrom(:s ObjectComplementOf(:D))))
        SubClassOf(ObjectSomeValuesFrom(:r ObjectSomeValuesFrom(:s ObjectComplementOf(:E))) :F)
        """,
        open="SubClassOf(:A ObjectAllValuesFrom(:r owl:Nothing))",
    ),
    Case(
        "full.FullRows.class_of",
        """
        InverseObjectProperties(:r :s)
        SubClassOf(:A ObjectSomeValuesFrom(:r :B))
        SubClassOf(:B ObjectSomeValuesFrom(:s :C))
        SubClassOf(:B ObjectMaxCardinality(1 :s))
        """,
        # the only one that leads back from :B is :A itself
        lost="SubClassOf(:A :C)",
        open="SubClassOf(:B owl:Nothing)",
    ),
]

CASES = [*INDIVIDUALS, *LOOPS, *DISJOINT_ROLES, *ROLES, *CLASSES, *BOUNDS, *SPECIAL_ROLES, *DATA, *FULL]
