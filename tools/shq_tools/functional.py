"""Class expressions and axioms in OWL 2 functional-style syntax, with whole IRIs."""

GROUPS = {
    "not": "ObjectComplementOf",
    "and": "ObjectIntersectionOf",
    "or": "ObjectUnionOf",
    "some": "ObjectSomeValuesFrom",
    "all": "ObjectAllValuesFrom",
    "least": "ObjectMinCardinality",
    "most": "ObjectMaxCardinality",
    "exactly": "ObjectExactCardinality",
}


def iri_text(iri):
    return f"<{iri}>"


def class_text(expression, name=iri_text):
    """A class expression, with names as `name` writes IRIs."""
    kind = expression[0]
    if kind in ("top", "bottom"):
        return "owl:Thing" if kind == "top" else "owl:Nothing"
    if kind == "name":
        return name(expression[1])
    if kind in ("and", "or"):
        parts = [class_text(it, name) for it in expression[1]]
    elif kind == "not":
        parts = [class_text(expression[1], name)]
    elif kind in ("some", "all"):
        parts = [name(expression[1]), class_text(expression[2], name)]
    else:
        parts = [str(expression[1]), name(expression[2]), class_text(expression[3], name)]
    return f"{GROUPS[kind]}({' '.join(parts)})"


def axiom_text(axiom, name=iri_text):
    """An axiom, with names as `name` writes IRIs."""
    parts = [class_text(it, name) if isinstance(it, tuple) else name(it) for it in axiom.items]
    return f"{axiom.keyword}({' '.join(parts)})"
