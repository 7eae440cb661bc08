"""Which syntax a file is in, by how it begins, and what to do with one that is not functional-style.

A file that is compressed with gzip is opened. For the other syntaxes there is `converting`.
"""
import gzip
import io
import re
import zlib
from dataclasses import dataclass

FIRST_BYTES = 1 << 20
# No file that the reasoner reads is longer, in whatever syntax; and a small compressed file may hold a very long one.
MOST_OPENED = 1 << 28
GZIP = b"\x1f\x8b"
UTF_16 = (b"\xff\xfe", b"\xfe\xff")
# Where an archive by tar has its sign.
TAR, TAR_AT = b"ustar", 257


@dataclass(frozen=True)
class Syntax:
    """A syntax: its name, and how a file in it may begin."""

    name: str
    begins: re.Pattern


def begins(pattern):
    return re.compile(pattern.encode("ascii"), re.S | re.I)


# What may stand before the first sign that tells a syntax: a byte order mark, whitespace and comments.
GAP = r"(?:\xef\xbb\xbf)?(?:\s|#[^\n]*(?:\n|\Z))*"
XML_DECLARATION = r"<\?[^>]*\?>"
XML_COMMENT = r"<!--(?:(?!-->).)*-->"
XML_DOCTYPE = r"<!DOCTYPE[^\[>]*(?:\[[^\]]*\]\s*)?>"
XML_GAP = rf"(?:\xef\xbb\xbf)?\s*(?:(?:{XML_DECLARATION}|{XML_COMMENT}|{XML_DOCTYPE})\s*)*"
OBO_GAP = r"(?:\xef\xbb\xbf)?\s*(?:![^\n]*\n\s*)*"
OBO_TAG = r"(?:(?:format-version|data-version|date|saved-by|auto-generated-by|default-namespace|remark)\s*:\s"
OBO_TAG += r"|ontology\s*:\s*[^<\s])"
SUBJECT = r"(?:<[^<>\s]*>|_:\S+)"
FUNCTIONAL = begins(GAP + r"(?:Prefix\s*\(|Ontology\s*\()")
SYNTAXES = (
    Syntax("OWL/XML", begins(XML_GAP + r"<(?:\w+:)?Ontology[\s>]")),
    Syntax("RDF/XML", begins(XML_GAP + r"<(?:\w+:)?RDF[\s>]")),
    Syntax("OBO", begins(OBO_GAP + rf"(?:{OBO_TAG}|\[(?:Term|Typedef|Instance)\])")),
    Syntax("JSON-LD", begins(r"(?:\xef\xbb\xbf)?\s*[\[{]")),
    Syntax("Manchester syntax", begins(GAP + r"(?:Prefix|Ontology|Namespace)\s*:\s")),
    Syntax("Turtle", begins(GAP + rf"(?:@(?:prefix|base)\s|(?:prefix|base)\s+[\w-]*:?\s*<|{SUBJECT}\s+a\s)")),
    Syntax("N-Triples", begins(GAP + rf"{SUBJECT}\s+<[^<>\s]*>\s+[<\"_]")),
)
FUNCTIONAL_NAME = "functional-style syntax"
NAMES = (FUNCTIONAL_NAME, *(it.name for it in SYNTAXES))
# The first bytes of files that hold others, with what opens them.
PACKED = {
    b"PK\x03\x04": ("ZIP", "unzip"),
    b"BZh": ("bzip2", "bunzip2"),
    b"\xfd7zXZ": ("xz", "unxz"),
    b"\x28\xb5\x2f\xfd": ("zstd", "unzstd"),
}


class Unopened(Exception):
    """A file that cannot be opened, with what to say of it behind its name."""


def is_functional(data):
    """Whether a file begins as one in functional-style syntax."""
    return FUNCTIONAL.match(data[:FIRST_BYTES]) is not None


def syntax_of(data):
    """The syntax of a file that is not functional-style, or None where it is, or where it cannot be told."""
    if is_functional(data):
        return None
    first = data[:FIRST_BYTES]
    return next((it for it in SYNTAXES if it.begins.match(first)), None)


def opened(data):
    """The bytes of a file, out of gzip where they are in it. Raises `Unopened`."""
    if not data.startswith(GZIP):
        return plain(data)
    found = without_gzip(data)
    if found.startswith(GZIP):
        raise Unopened("is compressed (gzip) more than once; open it first, as by gunzip")
    return plain(found)


def plain(data):
    """The bytes of a file. Raises `Unopened` where they hold another file, or no text in UTF-8."""
    for sign, (name, command) in PACKED.items():
        if data.startswith(sign):
            raise Unopened(f"is compressed ({name}); open it first, as by {command}")
    if data[TAR_AT : TAR_AT + len(TAR)] == TAR:
        raise Unopened("is an archive (tar); take the ontology out of it first, as by tar -x")
    if data.startswith(UTF_16):
        raise Unopened("is in UTF-16; write it in UTF-8 first, as by iconv -f utf-16 -t utf-8")
    return data


def without_gzip(data):
    try:
        with gzip.GzipFile(fileobj=io.BytesIO(data)) as file:
            found = file.read(MOST_OPENED + 1)
    except (OSError, EOFError, zlib.error) as error:
        raise Unopened(f"is compressed (gzip), and damaged: {error}") from error
    if len(found) > MOST_OPENED:
        raise Unopened("is compressed (gzip), and far beyond all limits")
    return found
