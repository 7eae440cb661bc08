"""What a translation says of its file, and what an answer to it is worth for the whole file."""
from shq_tools.approximation.losses import Loss
from shq_tools.profile import counted, lines_text

FOLLOWS = "what follows from the translation follows from the whole file, as contradictory classes and their reasons"
MAY_NOT_HOLD = '"not entailed", "consistent", "satisfiable", repairs and models hold of the translation alone'
NOT_ALL = "the translation does not say all that stands there:"
EXACT = "nothing is lost, so each answer holds of the whole file"
FIRST_LINES = 8


def axiom_counts(found):
    """How many axioms of the file stay, become others, and are left out."""
    stay = sum(it.stays for it in found.sources)
    left_out = sum(not it.stays and not it.written for it in found.sources)
    return stay, len(found.sources) - stay - left_out, left_out


def head_line(found):
    stay, become, left_out = axiom_counts(found)
    axioms = counted(len(found.sources), "axiom")
    return f"translated: of {axioms}, {stay:,} as they are, {become:,} by others, {left_out:,} left out"


def loss_rows(losses):
    """A line for each kind of loss: what the file has, on which lines, and what of it is lost."""
    found = losses.by_frequency()
    width = max((len(loss.what) for loss, _ in found), default=0)
    places = [lines_text(lines) for _, lines in found]
    column = max(map(len, places), default=0)
    return [
        f"  {loss.what:<{width}}  {len(lines):>6,}  {place:<{column}}  lost: {loss.lost}"
        for (loss, lines), place in zip(found, places)
    ]


def limit_lines(found):
    """What to say of each limit that the translation passes."""
    lines = [f"too many {what} for the reasoner: {count:,}, where {most:,} are the most"
             for what, count, most in found.beyond]
    if not found.has_annotations:
        lines.insert(0, "the annotations are left out, since the file is too long with them")
    return lines


def lines_of(found):
    """What a person is told of a translation."""
    if found.losses.is_exact:
        return [head_line(found), *limit_lines(found), EXACT]
    lines = [head_line(found), *limit_lines(found)]
    if Loss.IMPORT in found.losses.lines:
        lines.append("ATTENTION: the file imports other ontologies, and nothing is fetched: what they say is not there")
    return [*lines, NOT_ALL, *loss_rows(found.losses), FOLLOWS, MAY_NOT_HOLD]
