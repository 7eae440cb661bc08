"""Axioms and expressions in functional-style syntax, with whole IRIs."""
from shq_tools.approximation.owl import STRING

CLASS_KEYWORDS = {
    "and": "ObjectIntersectionOf",
    "or": "ObjectUnionOf",
    "not": "ObjectComplementOf",
    "some": "ObjectSomeValuesFrom",
    "all": "ObjectAllValuesFrom",
    "least": "ObjectMinCardinality",
    "most": "ObjectMaxCardinality",
    "exactly": "ObjectExactCardinality",
    "one of": "ObjectOneOf",
    "value": "ObjectHasValue",
    "self": "ObjectHasSelf",
    "data some": "DataSomeValuesFrom",
    "data all": "DataAllValuesFrom",
    "data value": "DataHasValue",
    "data least": "DataMinCardinality",
    "data most": "DataMaxCardinality",
    "data exactly": "DataExactCardinality",
}
RANGE_KEYWORDS = {"and": "DataIntersectionOf", "or": "DataUnionOf", "not": "DataComplementOf"}


def iri_text(iri):
    return iri if iri.startswith("_:") else f"<{iri}>"


def role_text(role):
    return iri_text(role) if isinstance(role, str) else f"ObjectInverseOf({iri_text(role[1])})"


def literal_text(literal):
    text = '"' + literal.text.replace("\\", "\\\\").replace('"', '\\"') + '"'
    if literal.language:
        return f"{text}@{literal.language}"
    return text if literal.datatype == STRING else f"{text}^^{iri_text(literal.datatype)}"


def group(keyword, texts):
    return f"{keyword}({' '.join(texts)})"


def range_text(of):
    kind = of[0]
    if kind == "datatype":
        return iri_text(of[1])
    if kind == "not":
        return group("DataComplementOf", [range_text(of[1])])
    if kind in RANGE_KEYWORDS:
        return group(RANGE_KEYWORDS[kind], map(range_text, of[1]))
    if kind == "values":
        return group("DataOneOf", map(literal_text, of[1]))
    facets = [f"{iri_text(facet)} {literal_text(literal)}" for facet, literal in of[2]]
    return group("DatatypeRestriction", [iri_text(of[1]), *facets])


def class_text(of):
    kind = of[0]
    if kind in ("top", "bottom"):
        return "owl:Thing" if kind == "top" else "owl:Nothing"
    if kind == "name":
        return iri_text(of[1])
    keyword = CLASS_KEYWORDS[kind]
    if kind == "not":
        return group(keyword, [class_text(of[1])])
    if kind in ("and", "or"):
        return group(keyword, map(class_text, of[1]))
    if kind == "one of":
        return group(keyword, map(iri_text, of[1]))
    if kind == "self":
        return group(keyword, [role_text(of[1])])
    return group(keyword, restriction_texts(of))


def restriction_texts(of):
    kind, role = of[0], of[1] if len(of) == 3 else of[2]
    number = [str(of[1])] if len(of) == 4 else []
    if kind == "value":
        return [role_text(role), iri_text(of[2])]
    if kind == "data value":
        return [iri_text(role), literal_text(of[2])]
    if kind in ("data some", "data all"):
        return [*map(iri_text, role), range_text(of[2])]
    if kind.startswith("data"):
        return [*number, iri_text(role), range_text(of[3])]
    return [*number, role_text(role), class_text(of[-1])]


def term_text(of):
    """A class expression, a role or an individual."""
    return iri_text(of) if isinstance(of, str) else class_text(of)


def axiom_text(axiom):
    """An axiom of the language of the reasoner."""
    return group(axiom.keyword, map(term_text, axiom.items))
