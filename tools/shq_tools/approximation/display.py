"""OWL 2 expressions in Manchester syntax, and how the new names of a translation are shown."""
from shq_tools.approximation.literals import INTEGERS
from shq_tools.approximation.new_names import definition_of
from shq_tools.approximation.owl import SHAPES, STRING, TOP_RANGE, XSD
from shq_tools.manchester import BOUNDS, QUANTIFIERS, name_text
from shq_tools.names import end_of_iri
from shq_tools.terms import TOP

FACETS = {"minInclusive": ">=", "maxInclusive": "<=", "minExclusive": ">", "maxExclusive": "<"}
# Literals of these datatypes are written without their datatypes.
PLAIN_NUMBERS = {*INTEGERS, XSD + "decimal"}


def role_text(role, names):
    return name_text(role, names) if isinstance(role, str) else f"inverse ({name_text(role[1], names)})"


def individual_text(individual, names):
    return individual if individual.startswith("_:") else name_text(individual, names)


def literal_text(literal):
    if literal.datatype in PLAIN_NUMBERS:
        return literal.text
    text = '"' + literal.text.replace("\\", "\\\\").replace('"', '\\"') + '"'
    if literal.language:
        return f"{text}@{literal.language}"
    return text if literal.datatype == STRING else f"{text}^^{end_of_iri(literal.datatype)}"


def range_text(of):
    """A data range, in brackets where it is part of another one."""
    kind = of[0]
    if kind == "datatype":
        return end_of_iri(of[1])
    if kind == "not":
        return f"not {part_of_range(of[1])}"
    if kind in ("and", "or"):
        return f" {kind} ".join(map(part_of_range, of[1]))
    if kind == "values":
        return "{" + ", ".join(map(literal_text, of[1])) + "}"
    facets = [f"{FACETS.get(end_of_iri(it), end_of_iri(it))} {literal_text(bound)}" for it, bound in of[2]]
    return f"{end_of_iri(of[1])}[{', '.join(facets)}]"


def part_of_range(of):
    text = range_text(of)
    return text if of[0] in ("datatype", "values", "restricted") else f"({text})"


def expression_text(of, names):
    """A class expression of OWL 2."""
    kind = of[0]
    if kind in ("top", "bottom"):
        return "Thing" if kind == "top" else "Nothing"
    if kind == "name":
        return name_text(of[1], names)
    if kind == "not":
        return f"not {part_text(of[1], names)}"
    if kind in ("and", "or"):
        return f" {kind} ".join(part_text(it, names) for it in of[1])
    if kind == "one of":
        return "{" + ", ".join(individual_text(it, names) for it in of[1]) + "}"
    if kind == "self":
        return f"{role_text(of[1], names)} Self"
    if kind == "value":
        return f"{role_text(of[1], names)} value {individual_text(of[2], names)}"
    if kind.startswith("data"):
        return data_text(of, names)
    if kind in QUANTIFIERS:
        return f"{role_text(of[1], names)} {QUANTIFIERS[kind]} {part_text(of[2], names)}"
    text = f"{role_text(of[2], names)} {BOUNDS[kind]} {of[1]}"
    return text if of[3] == TOP else f"{text} {part_text(of[3], names)}"


def data_text(of, names):
    kind = of[0][len("data ") :]
    if kind == "value":
        return f"{name_text(of[1], names)} value {literal_text(of[2])}"
    if kind in QUANTIFIERS:
        properties = ", ".join(name_text(it, names) for it in of[1])
        return f"{properties} {QUANTIFIERS[kind]} {part_of_range(of[2])}"
    text = f"{name_text(of[2], names)} {BOUNDS[kind]} {of[1]}"
    return text if of[3] == TOP_RANGE else f"{text} {part_of_range(of[3])}"


def part_text(of, names):
    text = expression_text(of, names)
    return text if of[0] in ("top", "bottom", "name", "one of") else f"({text})"


def chain_text(of, names):
    return " o ".join(role_text(it, names) for it in of[1]) if of[0] == "chain" else role_text(of, names)


# How an axiom of OWL 2 reads: its items with their kinds by `owl.SHAPES`, and what stands between them.
RELATIONS = {
    "SubClassOf": "{} SubClassOf {}",
    "ObjectPropertyDomain": "{} Domain {}",
    "ObjectPropertyRange": "{} Range {}",
    "DataPropertyDomain": "{} Domain {}",
    "DataPropertyRange": "{} Range {}",
    "SubObjectPropertyOf": "{} SubPropertyOf {}",
    "SubDataPropertyOf": "{} SubPropertyOf {}",
    "InverseObjectProperties": "{} InverseOf {}",
    "FunctionalObjectProperty": "Functional: {}",
    "FunctionalDataProperty": "Functional: {}",
    "InverseFunctionalObjectProperty": "InverseFunctional: {}",
    "ReflexiveObjectProperty": "Reflexive: {}",
    "IrreflexiveObjectProperty": "Irreflexive: {}",
    "SymmetricObjectProperty": "Symmetric: {}",
    "AsymmetricObjectProperty": "Asymmetric: {}",
    "TransitiveObjectProperty": "Transitive: {}",
    "DatatypeDefinition": "{} EquivalentTo {}",
    "ClassAssertion": "{1} Type {0}",
    "ObjectPropertyAssertion": "{1} {0} {2}",
    "DataPropertyAssertion": "{1} {0} {2}",
    "NegativeObjectPropertyAssertion": "not ({1} {0} {2})",
    "NegativeDataPropertyAssertion": "not ({1} {0} {2})",
}
PAIRS = {
    "EquivalentClasses": "EquivalentTo",
    "EquivalentObjectProperties": "EquivalentTo",
    "EquivalentDataProperties": "EquivalentTo",
    "DisjointClasses": "DisjointWith",
    "DisjointObjectProperties": "DisjointWith",
    "DisjointDataProperties": "DisjointWith",
    "SameIndividual": "SameAs",
    "DifferentIndividuals": "DifferentFrom",
}


def item_text(kind, of, names):
    if kind == "class":
        return expression_text(of, names)
    if kind == "literal":
        return literal_text(of)
    if kind == "range":
        return range_text(of)
    if kind in ("role", "chain"):
        return chain_text(of, names)
    return individual_text(of, names)


def owl_axiom_text(axiom, names):
    """An axiom of OWL 2 in one line."""
    kinds = [it.rstrip("*") for it in SHAPES.get(axiom.keyword, ())]
    kinds += kinds[-1:] * (len(axiom.items) - len(kinds))
    texts = [item_text(kind, of, names) for kind, of in zip(kinds, axiom.items)]
    if axiom.keyword in RELATIONS:
        return RELATIONS[axiom.keyword].format(*texts)
    if axiom.keyword == "DisjointUnion":
        return f"{texts[0]} DisjointUnionOf {', '.join(texts[1:])}"
    if axiom.keyword in PAIRS and len(texts) == 2:
        return f"{texts[0]} {PAIRS[axiom.keyword]} {texts[1]}"
    return f"{axiom.keyword}: {', '.join(texts)}"


def shown(iri, names):
    """How a new name is shown, as `{a}` or `inverse (r)`, or None where the IRI is not new."""
    meaning = definition_of(iri)
    if meaning is None:
        return None
    kind, of = meaning
    if kind == "class":
        return part_text(of, names)
    return role_text(of, names) if kind == "role" else of


def shown_names(iris, names):
    """How the new ones of some names are shown, by their IRIs."""
    found = {iri: shown(iri, names) for iri in iris}
    return {iri: text for iri, text in found.items() if text is not None}
