"""The values of literals, as far as they are certain.

By the "OWL 2 Structural Specification", section 4, decimal numbers are one value space, those of float and of double
are others, and strings and booleans are others again. Nothing is said here of the values of floats and times.
"""
import re
from fractions import Fraction
from typing import NamedTuple

from shq_tools.approximation.owl import PLAIN_LITERAL, STRING, XSD, Literal
from shq_tools.keywords import OWL

INTEGER = re.compile(r"[+-]?[0-9]+")
DECIMAL = re.compile(r"[+-]?([0-9]+(\.[0-9]*)?|\.[0-9]+)")
RATIONAL = re.compile(r"([+-]?[0-9]+)\s*/\s*([0-9]+)")

# The least and the greatest of each kind of integer, None where there is none.
INTEGERS = {
    "integer": (None, None),
    "nonNegativeInteger": (0, None),
    "nonPositiveInteger": (None, 0),
    "positiveInteger": (1, None),
    "negativeInteger": (None, -1),
    "long": (-(2**63), 2**63 - 1),
    "int": (-(2**31), 2**31 - 1),
    "short": (-(2**15), 2**15 - 1),
    "byte": (-(2**7), 2**7 - 1),
    "unsignedLong": (0, 2**64 - 1),
    "unsignedInt": (0, 2**32 - 1),
    "unsignedShort": (0, 2**16 - 1),
    "unsignedByte": (0, 2**8 - 1),
}
INTEGERS = {XSD + name: bounds for name, bounds in INTEGERS.items()}
BOOLEANS = {"true": True, "1": True, "false": False, "0": False}


class Value(NamedTuple):
    """A data value: the space it is of, and what it is there."""

    space: str
    of: object


def within(number, bounds):
    least, greatest = bounds
    return (least is None or number >= least) and (greatest is None or number <= greatest)


def number_value(literal):
    """The number of a literal, or None where it is none."""
    text, datatype = literal.text.strip(), literal.datatype
    if datatype in INTEGERS and INTEGER.fullmatch(text) and within(int(text), INTEGERS[datatype]):
        return Value("number", Fraction(int(text)))
    if datatype == XSD + "decimal" and DECIMAL.fullmatch(text):
        return Value("number", Fraction(text))
    if datatype == OWL + "rational":
        match = RATIONAL.fullmatch(text)
        if match and int(match[2]):
            return Value("number", Fraction(int(match[1]), int(match[2])))
    return None


def text_value(literal):
    """The string of a literal, with its language, or None where it is none."""
    if literal.datatype == PLAIN_LITERAL:
        if literal.language:
            return Value("string", (literal.text, literal.language))
        text, sign, language = literal.text.rpartition("@")
        return Value("string", (text, language.lower())) if sign else None
    return Value("string", (literal.text, "")) if literal.datatype == STRING else None


def value_of(literal: Literal):
    """The value of a literal, or None where it is not certain."""
    if literal.datatype == XSD + "boolean" and literal.text.strip() in BOOLEANS:
        return Value("boolean", BOOLEANS[literal.text.strip()])
    return number_value(literal) or text_value(literal)


def are_same(one, other):
    """Whether two literals are certain to have one value."""
    return one == other or (value_of(one) is not None and value_of(one) == value_of(other))


def are_different(one, other):
    """Whether two literals are certain to have different values."""
    values = value_of(one), value_of(other)
    return None not in values and values[0] != values[1]


def canonical(literal):
    """One literal for all that are certain to have the value of this one."""
    value = value_of(literal)
    if value is None or value.space == "boolean":
        return literal if value is None else Literal(str(value.of).lower(), XSD + "boolean")
    if value.space == "string":
        text, language = value.of
        return Literal(text, PLAIN_LITERAL if language else STRING, language)
    is_whole = value.of.denominator == 1
    return Literal(str(value.of), XSD + "integer" if is_whole else OWL + "rational")
