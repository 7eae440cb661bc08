"""A report as text for a pull request or an issue, in GitHub's Markdown."""
from dataclasses import replace

from shq_tools.differences import statement_text
from shq_tools.report_words import (
    ADDED,
    ANY_ONE,
    CHECKED_APART,
    MOST_SETS,
    NOT_ASKED,
    RULE,
    added_text,
    caveat_behind,
    cut_short_text,
    facts_of,
    found_text,
    is_plain_choice,
    no_class_text,
    reading_for,
    title_of,
)
from shq_tools.text_view import list_lines
from shq_tools.ontology_facts import made_at
from shq_tools.wording import counted

# A comment may have 65,536 characters.
MOST_CHARACTERS = 60_000


def plain(text):
    """A text in which no character has a meaning of its own."""
    return "".join(f"\\{it}" if it in "\\`*_{}[]<>#|~" else it for it in text)


def facts_lines(report):
    """What was read, and what was left out."""
    lines = ["| | |", "|---|---:|", *(f"| {what} | {number:,} |" for what, number in facts_of(report))]
    if report.given.not_said:
        lines += ["", "| not said, or not all | times | where | note |", "|---|---:|---|---|"]
        rows = report.given.not_said
        lines += [f"| {plain(what)} | {count:,} | {where} | {plain(note)} |" for what, count, where, note in rows]
    return lines


def set_lines(report, found, query):
    """A list of reasons or repairs, of a long one the first."""
    shown = replace(found, sets=found.sets[:MOST_SETS])
    lines = list_lines(reading_for(report.given, shown, query))
    left = len(found.sets) - len(shown.sets)
    return ["```text", *lines[1:], "```", *[f"{left:,} more are not shown."] * (left > 0), ""]


def explained_lines(report, one, name):
    """A contradictory class, to be opened."""
    lines = [f"<details><summary><b>{name}</b>: {found_text(one)}</summary>", ""]
    if one.is_derived:
        targets = report.given.names.shown({it.target for it in one.links})
        lines += [f"Comes from {', '.join(plain(report.given.names.of(it)) for it in targets)}.", ""]
    if one.reasons is None:
        lines += [NOT_ASKED, ""]
    is_choice = is_plain_choice(one)
    for found in (one.reasons, one.repairs)[: 1 if is_choice else 2]:
        if found is not None and found.sets:
            lines += set_lines(report, found, one.query)
    return [*lines, *[ANY_ONE, ""] * is_choice, "</details>", ""]


def html_text(text):
    return text.replace("&", "&amp;").replace("<", "&lt;")


def contradictory_lines(report):
    """What is contradictory, as far as there is room."""
    if not report.explained:
        return [no_class_text(report), ""]
    lines = [RULE, ""] if any(it.is_derived for it in report.explained) else []
    lines += [cut_short_text(report), ""] if report.is_cut_short() else []
    size, names = 0, report.given.names
    for at, one in enumerate(report.explained):
        name = html_text(names.of(one.iri)) if one.iri else "the ontology as a whole"
        new = explained_lines(report, one, name)
        size += sum(map(len, new))
        if size > MOST_CHARACTERS:
            return [*lines, f"{counted(len(report.explained) - at, 'contradictory class')} more are left out here.", ""]
        lines += new
    return lines


def added_lines(report):
    """What the full form of a translation adds, each statement with its reason where there is one."""
    added = report.added
    if added is None:
        return []
    lines = [f"### {ADDED}", "", added_text(added), ""]
    rows = []
    for statement in added.statements:
        rows += [statement_text(statement, added.names), *(f"  {it}" for it in added.reasons.get(statement, []))]
    return [*lines, *["```text", *rows, "```", ""] * bool(rows)]


def markdown_of_report(report):
    """The whole text."""
    lines = [f"## {plain(title_of(report))}", "", *caveat_behind(report)]
    for line in report.given.caveat.lines:
        lines += [f"> {line}"]
    lines += ["", *facts_lines(report), ""]
    if not report.is_undecided:
        lines += ["### Contradictory classes" if not report.is_inconsistent else "### Why", ""]
        lines += contradictory_lines(report)
    lines += added_lines(report)
    lines += [CHECKED_APART, ""] * bool(report.explained)
    return "\n".join([*lines, f"Made by `./shq report`, {made_at()}.", ""])
