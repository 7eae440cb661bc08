"""The manual page `shq.1`, made from the text of `./shq --help` and the table of commands."""
import re
from itertools import groupby

from shq_tools.commands import COMMANDS, GENERAL_OPTIONS
from shq_tools.places import TOOLS

STATUSES = "Prints its answer, and ends with a status:"
# Words such as AXIOM and ClassAssertion are never cut at the end of a line.
NO_HYPHENS = (".nr HY 0", ".nh")
# In which column the text behind a term begins, and how far an example is indented at least.
TEXT_COLUMN, EXAMPLE_COLUMN = 16, 18


def escaped(text):
    """A line of text as troff reads it."""
    text = text.replace("\\", "\\e").replace("-", "\\-").replace("'", "\\(aq").replace("`", "\\(ga")
    return f"\\&{text}" if text.startswith(".") else text


def bold(text):
    return f"\\fB{escaped(text)}\\fR"


def indentation(line):
    return len(line) - len(line.lstrip())


def example(lines):
    """Lines that stay as they are."""
    least = min(map(indentation, lines))
    return [".PP", ".RS 4", ".EX", *(escaped(it[least:]) for it in lines), ".EE", ".RE"]


def has_text_beside(line):
    """Whether a term's text stands beside it, from the column of texts on."""
    return line[TEXT_COLUMN - 1 : TEXT_COLUMN] == " "


def are_terms(lines):
    """Whether each line is a term, with its text beside it or below it, or belongs to such a text."""
    below = [indentation(it) >= TEXT_COLUMN for it in (*lines, "")]
    return all(below[at] or has_text_beside(it) or below[at + 1] for at, it in enumerate(lines))


def term_lines(lines):
    """Terms with their texts, as `  classify      prints ..`; a long term stands on a line of its own."""
    made = []
    for line in lines:
        if indentation(line) >= TEXT_COLUMN:
            made.append(escaped(line.strip()))
            continue
        term, text = (line[:TEXT_COLUMN], line[TEXT_COLUMN:]) if has_text_beside(line) else (line, "")
        made += [".TP", bold(term.strip()), *[escaped(text.strip())] * bool(text.strip())]
    return made


def block_lines(lines):
    """A block of the help text, between two blank lines."""
    first = indentation(lines[0])
    if first >= EXAMPLE_COLUMN or first and lines[0].lstrip().startswith("shq "):
        return example(lines)
    if first >= TEXT_COLUMN:
        return [".IP", *(escaped(it.strip()) for it in lines)]
    if first and are_terms(lines):
        return term_lines(lines)
    return [".PP", *(escaped(it.strip()) for it in lines)]


def blocks_of(lines):
    """The blocks between blank lines."""
    return [list(block) for is_text, block in groupby(lines, key=lambda it: bool(it.strip())) if is_text]


def option_lines():
    """Each option once, with the commands that take it."""
    takers = {}
    for command in COMMANDS.values():
        for option in command.options:
            takers.setdefault(option, []).append(command.name)
    made = []
    for option, names in takers.items():
        text = f"{option.text}. Taken by {', '.join(names)}."
        made += [".TP", bold(option.usage()), escaped(text[:1].upper() + text[1:])]
    for option in GENERAL_OPTIONS:
        made += [".TP", bold(option.usage()), escaped(f"{option.text[:1].upper()}{option.text[1:]}.")]
    return made


def manual(version, date):
    """The text of the page, as of a version and a date."""
    lines = (TOOLS / "usage.txt").read_text(encoding="utf-8").replace("./shq", "shq").splitlines()
    usage, *blocks = blocks_of(lines)
    at = next(number for number, block in enumerate(blocks) if block == [STATUSES])
    statuses, behind = blocks[at + 1], blocks[at + 2 :]
    made = [f'.TH SHQ 1 "{date}" "jezundwa {version}" "User commands"', *NO_HYPHENS, ".SH NAME"]
    made += ["shq \\- reasoner for ontologies in OWL 2, with every reason and every repair", ".SH SYNOPSIS", ".nf"]
    made += [escaped(re.sub(r"^usage: | {7}", "", it)) for it in usage]
    made += [".fi", ".SH DESCRIPTION"]
    for block in [*blocks[:at], *behind]:
        made += block_lines(block)
    made += [".SH OPTIONS", *option_lines(), ".SH EXIT STATUS", ".nf", *map(escaped, statuses), ".fi"]
    made += [".SH SEE ALSO", "The documents and examples of the package, README.md first."]
    return "\n".join(made) + "\n"
