"""Class expressions and axioms in OWL 2 Manchester syntax."""
import re

from shq_tools.terms import TOP

PLAIN_NAME = re.compile(r"[^\W\d][\w.-]*")
RESERVED = {"and", "or", "not", "some", "only", "min", "max", "exactly", "that", "value", "Self"}
QUANTIFIERS = {"some": "some", "all": "only"}
BOUNDS = {"least": "min", "most": "max", "exactly": "exactly"}


def name_text(iri, names):
    """The name of a class, role or individual, in quotation marks where it is not one word."""
    name = names.bare(iri)
    is_plain = names.has_own_form(iri) or PLAIN_NAME.fullmatch(name) and name not in RESERVED
    return names.marked(iri, name if is_plain else "'" + name.replace("'", "\\'") + "'")


def class_text(expression, names):
    """A class expression in Manchester syntax."""
    kind = expression[0]
    if kind in ("top", "bottom"):
        return "Thing" if kind == "top" else "Nothing"
    if kind == "name":
        return name_text(expression[1], names)
    if kind == "not":
        return f"not {part_text(expression[1], names)}"
    if kind in ("and", "or"):
        return f" {kind} ".join(part_text(it, names) for it in expression[1])
    if kind in QUANTIFIERS:
        return f"{name_text(expression[1], names)} {QUANTIFIERS[kind]} {part_text(expression[2], names)}"
    return bound_text(expression, names)


def bound_text(expression, names):
    kind, number, role, filler = expression
    text = f"{name_text(role, names)} {BOUNDS[kind]} {number}"
    return text if filler == TOP else f"{text} {part_text(filler, names)}"


def part_text(expression, names):
    """A class expression as a part of another: in brackets unless it is a name."""
    text = class_text(expression, names)
    return text if expression[0] in ("top", "bottom", "name") else f"({text})"


def term_text(term, names):
    """A class expression, or a role or an individual."""
    return class_text(term, names) if isinstance(term, tuple) else name_text(term, names)


def axiom_text(axiom, names):
    """An axiom in Manchester syntax, in one line."""
    terms = [term_text(it, names) for it in axiom.items]
    return {
        "SubClassOf": lambda: f"{terms[0]} SubClassOf {terms[1]}",
        "EquivalentClasses": lambda: related_text(terms, "EquivalentTo", "EquivalentClasses"),
        "DisjointClasses": lambda: f"DisjointClasses: {', '.join(terms)}",
        "DisjointUnion": lambda: f"{terms[0]} DisjointUnionOf {', '.join(terms[1:])}",
        "SubObjectPropertyOf": lambda: f"{terms[0]} SubPropertyOf {terms[1]}",
        "EquivalentObjectProperties": lambda: related_text(terms, "EquivalentTo", "EquivalentProperties"),
        "ObjectPropertyDomain": lambda: f"{terms[0]} Domain {terms[1]}",
        "ObjectPropertyRange": lambda: f"{terms[0]} Range {terms[1]}",
        "FunctionalObjectProperty": lambda: f"Functional: {terms[0]}",
        "TransitiveObjectProperty": lambda: f"Transitive: {terms[0]}",
        "ClassAssertion": lambda: f"{terms[1]} Type {terms[0]}",
        "ObjectPropertyAssertion": lambda: f"{terms[1]} {terms[0]} {terms[2]}",
        "SameIndividual": lambda: related_text(terms, "SameAs", "SameIndividual"),
        "DifferentIndividuals": lambda: related_text(terms, "DifferentFrom", "DifferentIndividuals"),
    }[axiom.keyword]()


def related_text(terms, relation, keyword):
    return f"{terms[0]} {relation} {terms[1]}" if len(terms) == 2 else f"{keyword}: {', '.join(terms)}"
