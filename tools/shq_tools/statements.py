"""Statements and class expressions as people write them: in Manchester syntax or in functional-style syntax, with
names that are IRIs, have a prefix, are the end of an IRI, or are a label in quotation marks.

`statement_in` and `class_in` read a text over a vocabulary. A statement is an `Axiom`, of any kind that `reductions`
knows.
"""
import re

from shq_tools.keywords import CARDINALITIES, CLASSES, NOTHING, THING
from shq_tools.manchester import BOUNDS, QUANTIFIERS
from shq_tools.terms import BOTTOM, TOP, Axiom

PATTERN = re.compile(
    r"""\s*(?:(?P<label>'(?:[^'\\]|\\.)*'|"(?:[^"\\]|\\.)*")
    |<(?P<iri>[^<>"\s]*)>
    |(?P<sign>[(),])
    |(?P<word>[^\s(),<>"'][^\s(),<>"]*))""",
    re.X,
)
KIND_OF_QUANTIFIER = {word: kind for kind, word in QUANTIFIERS.items()}
KIND_OF_BOUND = {word: kind for kind, word in BOUNDS.items()}
MOST_OPEN = 64
# What stands for a name that cannot be found, until the whole text is read.
NOT_FOUND = "urn:shq:not-found"

# Between two sides: the keyword of the statement, and what stands on the left and on the right.
INFIX = {
    "SubClassOf": ("SubClassOf", "class", "class"),
    "EquivalentTo": ("EquivalentClasses", "class", "classes"),
    "DisjointWith": ("DisjointClasses", "class", "classes"),
    "DisjointUnionOf": ("DisjointUnion", "class", "classes"),
    "SubPropertyOf": ("SubObjectPropertyOf", "role", "role"),
    "Domain": ("ObjectPropertyDomain", "role", "class"),
    "Range": ("ObjectPropertyRange", "role", "class"),
    "InverseOf": ("InverseObjectProperties", "role", "role"),
    "Type": ("ClassAssertion", "individual", "class"),
    "SameAs": ("SameIndividual", "individual", "individuals"),
    "DifferentFrom": ("DifferentIndividuals", "individual", "individuals"),
}
# With a colon before the rest: the keyword of the statement, and what the rest is.
PREFIXED = {
    "EquivalentClasses:": ("EquivalentClasses", "classes"),
    "DisjointClasses:": ("DisjointClasses", "classes"),
    "EquivalentProperties:": ("EquivalentObjectProperties", "roles"),
    "SameIndividual:": ("SameIndividual", "individuals"),
    "DifferentIndividuals:": ("DifferentIndividuals", "individuals"),
    "Functional:": ("FunctionalObjectProperty", "role"),
    "Transitive:": ("TransitiveObjectProperty", "role"),
    "Symmetric:": ("SymmetricObjectProperty", "role"),
    "Asymmetric:": ("AsymmetricObjectProperty", "role"),
    "Reflexive:": ("ReflexiveObjectProperty", "role"),
    "Irreflexive:": ("IrreflexiveObjectProperty", "role"),
    "InverseFunctional:": ("InverseFunctionalObjectProperty", "role"),
    "DisjointProperties:": ("DisjointObjectProperties", "roles"),
}
# In functional-style syntax: what stands in the brackets.
FUNCTIONAL = {
    "SubClassOf": ("class", "class"),
    "EquivalentClasses": ("classes",),
    "DisjointClasses": ("classes",),
    "DisjointUnion": ("classes",),
    "SubObjectPropertyOf": ("role", "role"),
    "EquivalentObjectProperties": ("roles",),
    "DisjointObjectProperties": ("roles",),
    "InverseObjectProperties": ("role", "role"),
    "ObjectPropertyDomain": ("role", "class"),
    "ObjectPropertyRange": ("role", "class"),
    "FunctionalObjectProperty": ("role",),
    "InverseFunctionalObjectProperty": ("role",),
    "TransitiveObjectProperty": ("role",),
    "SymmetricObjectProperty": ("role",),
    "AsymmetricObjectProperty": ("role",),
    "ReflexiveObjectProperty": ("role",),
    "IrreflexiveObjectProperty": ("role",),
    "ClassAssertion": ("class", "individual"),
    "ObjectPropertyAssertion": ("role", "individual", "individual"),
    "NegativeObjectPropertyAssertion": ("role", "individual", "individual"),
    "SameIndividual": ("individuals",),
    "DifferentIndividuals": ("individuals",),
}
# The words that are no names.
JOINING = {"and", "or", "not", "inverse", "value", "Self"}
WORDS = {*JOINING, *KIND_OF_QUANTIFIER, *KIND_OF_BOUND, *INFIX, *FUNCTIONAL, *CLASSES}
FEWEST = {"classes": 2, "roles": 2, "individuals": 2}


class Unclear(Exception):
    """A text that is no statement, with what is wrong with it."""


class UnknownName(Exception):
    """A name of a question that nothing has, or several things have."""


class Name:
    """A name as it was written: its text, and whether that is an IRI, a label, or a word."""

    def __init__(self, kind, text):
        self.kind = kind
        self.text = text

    def __str__(self):
        return {"iri": f"<{self.text}>", "label": f"'{self.text}'"}.get(self.kind, self.text)


def tokens(text):
    """The names, words and signs of a text."""
    found, place = [], 0
    text = text.rstrip()
    while place < len(text):
        match = PATTERN.match(text, place)
        if match is None:
            raise Unclear(f"cannot be read from here on: {text[place:].strip()[:40]}")
        kind = match.lastgroup
        inner = match[kind]
        found.append(Name(kind, re.sub(r"\\(.)", r"\1", inner[1:-1]) if kind == "label" else inner))
        place = match.end()
    return found


class Reader:
    """Reads tokens over a vocabulary, and notes which IRIs it does not have (`missing`), and what is wrong with names
    that stand for no IRI (`unknown`).
    """

    def __init__(self, text, vocabulary):
        self.tokens = tokens(text)
        self.place = 0
        self.vocabulary = vocabulary
        self.missing = []
        self.unknown = []

    # tokens

    def peek(self, ahead=0):
        """The token at a place further on, or None behind the last one."""
        at = self.place + ahead
        return self.tokens[at] if at < len(self.tokens) else None

    def is_next(self, *texts, ahead=0):
        """Whether a word or a sign with one of these texts comes next."""
        token = self.peek(ahead)
        return token is not None and token.kind in ("word", "sign") and token.text in texts

    def take(self, what="something"):
        token = self.peek()
        if token is None:
            raise Unclear(f"{what} is missing at the end")
        self.place += 1
        return token

    def expect(self, text):
        token = self.take(text)
        if token.kind not in ("word", "sign") or token.text != text:
            raise Unclear(f"{text} should stand where {token} stands")

    def end(self):
        """Raises `Unclear` where something is left, and `UnknownName` where a name was not found."""
        if self.peek() is not None:
            raise Unclear(f"nothing should stand behind the statement, but {self.peek()} does")
        if self.unknown:
            raise UnknownName("; ".join(dict.fromkeys(self.unknown)))

    # names

    def name(self, kind):
        """The IRI of the thing of a kind that the next token names. Raises `Unclear`."""
        token = self.take(f"a {kind}" if kind == "class" else f"a name of {kind}")
        if token.kind == "sign" or token.kind == "word" and token.text.removesuffix(":") in WORDS:
            raise Unclear(f"a name should stand where {token} stands")
        return self.iri(token, {"class": "classes", "role": "roles", "individual": "individuals"}[kind])

    def iri(self, token, kind):
        iri = token.text if token.kind == "iri" else self.by_prefix(token)
        if iri is not None:
            if not self.vocabulary.has(kind, iri):
                self.missing.append(self.vocabulary.complaint(kind, iri, str(token)))
            return iri
        found = self.vocabulary.called(kind, token.text)
        if len(found) == 1:
            return found[0]
        told = " and ".join(f"<{it}>" for it in found)
        is_several = f"{token} may be {told}; please write which"
        self.unknown.append(is_several if found else self.vocabulary.complaint(kind, token.text, str(token)))
        return NOT_FOUND

    def by_prefix(self, token):
        """The IRI of a word with a prefix that the document has, or None."""
        prefix, colon, rest = token.text.partition(":")
        iris = self.vocabulary.prefixes.iris
        if token.kind != "word" or not colon:
            return None
        if prefix not in iris:
            raise Unclear(f"the prefix of {token} is not declared")
        return iris[prefix] + rest

    # class expressions in Manchester syntax

    def class_expression(self, depth=0):
        if depth > MOST_OPEN:
            raise Unclear("brackets nest too deeply")
        return self.joined("or", lambda: self.joined("and", lambda: self.part(depth)))

    def joined(self, word, inner):
        parts = [inner()]
        while self.is_next(word):
            self.take()
            parts.append(inner())
        return parts[0] if len(parts) == 1 else (word, tuple(parts))

    def part(self, depth):
        """A class expression that is no intersection or union, or is one in brackets."""
        if self.is_next("not"):
            self.take()
            return ("not", self.part(depth + 1))
        if self.is_next("("):
            self.take()
            inner = self.class_expression(depth + 1)
            self.expect(")")
            return inner
        if self.is_next(*FUNCTIONAL, *CLASSES) and self.is_next("(", ahead=1):
            return self.group_class(depth)
        if self.is_next(*KIND_OF_QUANTIFIER, *KIND_OF_BOUND, ahead=1):
            return self.restriction(depth)
        return self.named_class()

    def named_class(self):
        if self.is_next("Thing", "Nothing", "owl:Thing", "owl:Nothing"):
            word = self.take().text.rpartition(":")[2]
            return TOP if word == "Thing" else BOTTOM
        iri = self.name("class")
        return {THING: TOP, NOTHING: BOTTOM}.get(iri, ("name", iri))

    def restriction(self, depth):
        role, word = self.name("role"), self.take().text
        if word in KIND_OF_QUANTIFIER:
            return (KIND_OF_QUANTIFIER[word], role, self.part(depth + 1))
        number = self.number()
        ends = self.peek() is None or self.is_next(")", "and", "or", ",", *INFIX, *(f"{it}:" for it in INFIX))
        return (KIND_OF_BOUND[word], number, role, TOP if ends else self.part(depth + 1))

    def number(self):
        token = self.take("a number")
        if token.kind != "word" or not token.text.isascii() or not token.text.isdigit() or len(token.text) > 9:
            raise Unclear(f"a number should stand where {token} stands")
        return int(token.text)

    # in functional-style syntax

    def group_class(self, depth):
        """A class expression of functional-style syntax."""
        if depth > MOST_OPEN:
            raise Unclear("brackets nest too deeply")
        keyword = self.take().text
        if keyword not in CLASSES:
            raise Unclear(f"{keyword} is no class expression")
        self.expect("(")
        if keyword in CARDINALITIES:
            number, role = self.number(), self.name("role")
            filler = TOP if self.is_next(")") else self.functional_class(depth + 1)
            found = (CARDINALITIES[keyword], number, role, filler)
        elif keyword in ("ObjectSomeValuesFrom", "ObjectAllValuesFrom"):
            kind = "some" if keyword == "ObjectSomeValuesFrom" else "all"
            found = (kind, self.name("role"), self.functional_class(depth + 1))
        elif keyword == "ObjectComplementOf":
            found = ("not", self.functional_class(depth + 1))
        else:
            kind = "and" if keyword == "ObjectIntersectionOf" else "or"
            found = (kind, tuple(self.until_bracket(lambda: self.functional_class(depth + 1))))
            if len(found[1]) < 2:
                raise Unclear(f"{keyword} needs two class expressions")
        self.expect(")")
        return found

    def functional_class(self, depth):
        return self.group_class(depth) if self.is_next("(", ahead=1) else self.named_class()

    def until_bracket(self, inner):
        found = []
        while not self.is_next(")"):
            found.append(inner())
        return found

    def functional_statement(self):
        keyword = self.take().text
        self.expect("(")
        items = []
        for slot in FUNCTIONAL[keyword]:
            if slot in FEWEST:
                items += self.until_bracket(lambda one=slot: self.functional_item(one))
                self.expect_count(slot, items)
            else:
                items.append(self.functional_item(slot))
        self.expect(")")
        return Axiom(keyword, tuple(items), 1)

    def functional_item(self, slot):
        if slot.startswith("class"):
            return self.functional_class(0)
        return self.name(slot.removesuffix("s"))

    def expect_count(self, slot, items):
        if len(items) < FEWEST[slot]:
            raise Unclear(f"at least {FEWEST[slot]} {slot} are needed")

    # statements

    def side(self, slot):
        """What stands on a side of a statement, as a list of items."""
        if slot == "class":
            return [self.class_expression()]
        if slot in ("role", "individual"):
            return [self.name(slot)]
        one = {"classes": self.class_expression, "roles": lambda: self.name("role")}.get(
            slot, lambda: self.name("individual")
        )
        items = [one()]
        while self.is_next(","):
            self.take()
            items.append(one())
        return items

    def infix(self):
        """The word between two sides, without a colon behind it, or None."""
        depth = 0
        for token in self.tokens:
            depth += {"(": 1, ")": -1}.get(token.text, 0) if token.kind == "sign" else 0
            if token.kind == "word" and depth == 0 and token.text.removesuffix(":") in INFIX:
                return token.text
        return None

    def infix_statement(self, word):
        keyword, left, right = INFIX[word.removesuffix(":")]
        if keyword == "EquivalentClasses" and self.is_role_alone():
            keyword, left, right = "EquivalentObjectProperties", "role", "roles"
        if keyword == "DisjointClasses" and self.is_role_alone():
            keyword, left, right = "DisjointObjectProperties", "role", "roles"
        items = self.side(left)
        self.expect(word)
        items += self.side(right)
        return Axiom(keyword, tuple(reversed(items)) if keyword == "ClassAssertion" else tuple(items), 1)

    def is_role_alone(self):
        """Whether a single name stands on the left that is a role and no class."""
        if len(self.tokens) < 2 or self.peek().kind == "sign" or self.infix() != self.tokens[1].text:
            return False
        token = self.peek()
        iri = token.text if token.kind == "iri" else self.by_prefix(token)
        names = self.vocabulary.names
        if iri is not None:
            return iri in names["roles"] and iri not in names["classes"]
        return bool(self.vocabulary.called("roles", token.text)) and not self.vocabulary.called("classes", token.text)

    def statement(self):
        """The whole text as a statement."""
        word = self.infix()
        if self.is_next(*FUNCTIONAL) and self.is_next("(", ahead=1):
            found = self.functional_statement()
        elif word:
            found = self.infix_statement(word)
        elif self.is_next(*PREFIXED):
            keyword, slot = PREFIXED[self.take().text]
            items = self.side(slot)
            found = Axiom(keyword, tuple(items), 1)
            if slot in FEWEST:
                self.expect_count(slot, items)
        elif len(self.tokens) == 3:
            one, role, other = self.name("individual"), self.name("role"), self.name("individual")
            found = Axiom("ObjectPropertyAssertion", (role, one, other), 1)
        else:
            raise Unclear("this is no statement")
        self.end()
        return found

    def whole_class(self):
        """The whole text as a class expression."""
        found = self.class_expression()
        self.end()
        return found


def statement_in(text, vocabulary):
    """The statement of a text, and complaints on names that the vocabulary does not have. Raises `Unclear` and
    `UnknownName`.
    """
    reader = Reader(text, vocabulary)
    return reader.statement(), reader.missing


def class_in(text, vocabulary):
    """The class expression of a text, and complaints on names, as `statement_in`."""
    reader = Reader(text, vocabulary)
    return reader.whole_class(), reader.missing
