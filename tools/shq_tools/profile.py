"""`./shq profile`: what of an ontology is outside of the language."""
import sys

from shq_tools.converting import ontology_data_of
from shq_tools.documents import refusal
from shq_tools.input_files import STATUSES
from shq_tools.keywords import ANNOTATIONS, ANONYMOUS, NOT_SIMPLE
from shq_tools.survey import by_keyword, survey
from shq_tools.tokens import Refused

FIRST_LINES = 8
USAGE = "usage: ./shq profile [FILE]"
NOTES = {
    "Import": "nothing is fetched",
    ANONYMOUS: "an individual without a name of its own",
    NOT_SIMPLE: "a number, or 'functional', over a role that has a transitive role below it",
}


def counted(number, what):
    return f"{number:,} {what}{'' if number == 1 else 's'}"


def lines_text(lines):
    """The first of some lines, each once."""
    shown = list(dict.fromkeys(lines))
    text = " ".join(map(str, shown[:FIRST_LINES]))
    return f"line{'' if len(shown) == 1 else 's'} {text}{' ..' if len(shown) > FIRST_LINES else ''}"


def table(constructs):
    """A line for each construct: how often it stands there, where first, and a note where one is needed."""
    width = max(map(len, constructs), default=0)
    rows = []
    for what, lines in constructs.items():
        note = f"  ({NOTES[what]})" if what in NOTES else ""
        rows.append(f"  {what:<{width}}  {len(lines):>6,}  {lines_text(lines)}{note}")
    return rows


def faults_in(looked):
    """The axioms that are damaged or pass a limit, by what the reasoner answers."""
    lines = {}
    for one in looked:
        if one.fault is not None and not one.outside:
            lines.setdefault(f"{one.fault.sort} {one.fault.what}", []).append(one.fault.line)
    return lines


def answer_text(refused):
    return "the reasoner reads it" if refused is None else f"the reasoner's answer: {refused}"


def profile_text(data):
    """The lines of the profile. Raises `Refused` where the whole text is damaged."""
    _, looked = survey(data)
    axioms = [it for it in looked if it.is_axiom]
    inside = sum(it.is_inside for it in axioms)
    declared = sum(it.item.text == "Declaration" for it in looked)
    annotations = sum(it.item.text in ANNOTATIONS for it in looked)
    lines = [f"{counted(len(axioms), 'axiom')}, {inside:,} of them inside of the language"]
    lines += [f"{counted(declared, 'declaration')} and {counted(annotations, 'annotation')}, which are skipped"]
    outside, faults = by_keyword(looked), faults_in(looked)
    lines += ["outside of the language:", *table(outside)] * bool(outside)
    lines += ["damaged, or beyond a limit:", *table(faults)] * bool(faults)
    return [*lines, answer_text(refusal(data))]


def main(words):
    """Prints the profile, and returns 0; or the reasoner's refusal and its status, where the whole text is damaged."""
    if len(words) > 1 or words[:1] == ["--help"]:
        print(USAGE, file=sys.stderr)
        return 2
    data = ontology_data_of(words)
    try:
        print("\n".join(profile_text(data)))
    except Refused as refused:
        print(refused)
        return STATUSES[refused.sort]
    return 0
