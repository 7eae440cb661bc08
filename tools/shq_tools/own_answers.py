"""The answer to a question for which axioms were put into the ontology, without these axioms."""
from shq_tools.answers import LISTS

PARTIAL = "partial"


def numbers_in(line):
    return [] if line == "empty" else list(map(int, line.split(" ")))


def line_of(numbers):
    return " ".join(map(str, numbers)) or "empty"


def smallest(sets):
    """The sets that contain no other one, each once."""
    found = []
    for one in map(frozenset, sets):
        if not any(it <= one for it in found):
            found = [it for it in found if not one <= it] + [one]
    return [it for it in dict.fromkeys(tuple(it) for it in sets) if frozenset(it) in set(found)]


def own_justifications(sets, own, added, is_partial):
    """The justifications over the axioms of the ontology itself. Of a partial list only those are kept that surely are
    as small as they can be.
    """
    surely = [it for it in sets if len([number for number in it if number > own]) == added]
    stripped = [[number for number in it if number <= own] for it in (surely if is_partial else sets)]
    return stripped if is_partial or len(surely) == len(sets) else smallest(stripped)


def own_repairs(sets, own):
    """The repairs that remove axioms of the ontology itself alone."""
    return [it for it in sets if all(number <= own for number in it)]


def own_list(lines, own, added):
    """A list of justifications or repairs, from its heading on, and how many lines it had."""
    words = lines[0].split(" ")
    kind, count = words[-2], int(words[-1])
    sets = list(map(numbers_in, lines[1 : 1 + count]))
    is_partial = words[0] == PARTIAL
    found = own_repairs(sets, own) if kind == "repairs" else own_justifications(sets, own, added, is_partial)
    return [" ".join([*words[:-1], str(len(found))]), *map(line_of, found)], 1 + count


def is_heading(line):
    words = line.split(" ")
    return len(words) > 1 and words[-2] in LISTS and words[-1].isdigit()


def is_of_added(line, own):
    words = line.split(" ", 2)
    return words[0] == "axiom" and int(words[1]) > own


def own_answer(answer, own, added):
    """An answer of `explain`, `repair` or `why` over the axioms of the ontology itself, of which there are `own`; so
    many were added behind them. Any other answer stays as it is.
    """
    lines, told, place = answer.split("\n"), [], 0
    while place < len(lines):
        if is_heading(lines[place]):
            found, count = own_list(lines[place:], own, added)
            told += found
            place += count
        else:
            told += [] if is_of_added(lines[place], own) else [lines[place]]
            place += 1
    return "\n".join(told)
