"""A file and its translation as texts."""
from dataclasses import dataclass

from shq_tools.approximation.losses import Losses
from shq_tools.approximation.owl import OwlAxiom, OwlReader, read_axiom
from shq_tools.approximation.translation import Context, Strength, Translator, source_of
from shq_tools.approximation.writing import axiom_text
from shq_tools.documents import MOST_BYTES, parsed
from shq_tools.keywords import ANNOTATIONS
from shq_tools.walk import Limits


@dataclass
class Approximation:
    """A translated file: its bytes, what is lost, the axioms of the file that were read with what they became, and how
    many axioms and names it has by the limits of the reasoner.
    """

    data: bytes
    losses: Losses
    sources: list
    context: Context
    counts: dict
    has_annotations: bool

    @property
    def beyond(self):
        """The limits that are passed, each with the count of the file and the most that there may be."""
        most = {**Limits.MOST, "bytes": MOST_BYTES}
        return [(what, count, most[what]) for what, count in self.counts.items() if count > most[what]]


def sources_in(read):
    """The axioms of a document that can be read, and the reader. What is damaged stays as it is, for the reasoner to
    refuse.
    """
    reader, sources = OwlReader(read.prefixes), []
    for item in read.axiom_items:
        if item.text in ANNOTATIONS:
            continue
        found, features = read_axiom(reader, item)
        if isinstance(found, OwlAxiom):
            sources.append(source_of(found, features))
    return sources, reader


def text_of(source, text):
    """What stands in place of an axiom of the file. It has as many lines."""
    axiom = source.axiom
    given = text[axiom.start : axiom.end]
    rows = " ".join(map(axiom_text, source.written))
    if source.stays:
        return f"{given} {rows}" if rows else given
    return rows + "\n" * given.count("\n")


def translated_text(read, sources, has_annotations):
    """The text with what its axioms become; without its annotations where these are not wanted."""
    places = [(it.axiom.start, it.axiom.end, it) for it in sources if not it.stays or it.written]
    if not has_annotations:
        places += [(it.start, it.end, None) for it in read.axiom_items if it.text in ANNOTATIONS]
        places.sort(key=lambda it: it[0])
    pieces, place = [], 0
    for start, end, source in places:
        pieces.append(read.text[place:start])
        pieces.append(text_of(source, read.text) if source else "\n" * read.text.count("\n", start, end))
        place = end
    return "".join([*pieces, read.text[place : read.end]])


def counts_in(sources, reader, context, size):
    """How much of each thing with a limit a translation has."""
    return {
        "axioms": sum(it.stays + len(it.written) for it in sources),
        "classes": len(reader.classes) + len(context.names.classes),
        "roles": len(reader.roles) + len(context.roles.inverses),
        "individuals": len(reader.individuals),
        "bytes": size,
    }


def approximation(data, strength=Strength.LIGHT):
    """The translation of a file. Raises `Refused` where the whole text is damaged."""
    read = parsed(data)
    sources, reader = sources_in(read)
    context = Translator(sources, reader.iris.values(), strength).translate()
    behind = data[len(read.text[: read.end].encode("utf-8")) :]
    result = translated_text(read, sources, True).encode("utf-8") + behind
    has_annotations = len(result) <= MOST_BYTES
    if not has_annotations:
        result = translated_text(read, sources, False).encode("utf-8") + behind
    counts = counts_in(sources, reader, context, len(result))
    return Approximation(result, context.losses, sources, context, counts, has_annotations)
