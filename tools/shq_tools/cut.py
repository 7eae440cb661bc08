"""`./shq cut`: an ontology without what is outside of the language."""
import sys

from shq_tools.converting import ontology_data_of
from shq_tools.documents import refusal
from shq_tools.input_files import STATUSES, say
from shq_tools.profile import counted, table
from shq_tools.survey import by_keyword, survey
from shq_tools.tokens import Refused

USAGE = "usage: ./shq cut [FILE] > CUT"


def blanked(text, pieces):
    """The text with a blank for each byte of these pieces but its line ends, so that lines and columns stay."""
    result, place = [], 0
    for start, end in pieces:
        result.append(text[place:start])
        result += [it if it in "\r\n" else " " * len(it.encode("utf-8")) for it in text[start:end]]
        place = end
    return "".join([*result, text[place:]])


def cut(data):
    """The bytes without the axioms that are outside of the language, and what was seen of all axioms.

    Raises `Refused` where the whole text is damaged.
    """
    read, looked = survey(data)
    pieces = [(it.item.start, it.item.end) for it in looked if it.outside]
    size = len(read.text[: read.end].encode("utf-8"))
    return blanked(read.text[: read.end], pieces).encode("utf-8") + data[size:], looked


def explain(looked):
    """Says on standard error what was left out, and what that means."""
    axioms = [it for it in looked if it.is_axiom]
    left_out = [it for it in axioms if it.outside]
    if not left_out:
        say(f"nothing is outside of the language: all {counted(len(axioms), 'axiom')} stay")
        return
    say(f"left out {len(left_out):,} of {counted(len(axioms), 'axiom')}, since they have:")
    print("\n".join(table(by_keyword(looked))), file=sys.stderr)
    say("what follows from the rest follows from the whole ontology too")
    say("what does not follow from the rest may still follow from the whole ontology")


def main(words):
    """Writes the ontology that is left, and returns 0. A damaged text is written as it is, for the reasoner to
    refuse.
    """
    if len(words) > 1 or words[:1] == ["--help"]:
        print(USAGE, file=sys.stderr)
        return 2
    data = ontology_data_of(words)
    try:
        rest, looked = cut(data)
    except Refused as refused:
        sys.stdout.buffer.write(data)
        say(f"the text is left as it is, since the reasoner will answer: {refused}")
        return STATUSES[refused.sort]
    sys.stdout.buffer.write(rest)
    explain(looked)
    left = refusal(rest)
    if left is not None:
        say(f"the reasoner will answer: {left}")
    return 0
