"""An answer as one page of HTML that needs nothing else."""
from dataclasses import replace
from html import escape

from shq_tools.answers import Audit, Instances, Model, Plain, Realization, Reasons, Refutation, SetList, Taxonomy
from shq_tools.drawing import drawn, graph_of, node_count
from shq_tools.markup import LinkedNames, bar, details, element, fold_buttons, note_box, table, whole_page, wrapped
from shq_tools.ontology_facts import made_at
from shq_tools.reading import Reading, audited
from shq_tools.story import all_steps
from shq_tools.trees_of_classes import forest
from shq_tools.wording import (
    AS_A_WHOLE,
    ONE_EACH,
    ending,
    exceptions_text,
    family_heading,
    left_out_text,
    plain_lines,
    rest_heading,
    set_heading,
    unrelated_text,
    verdict,
)

# A picture with more things, steps or classes than this cannot be read.
MOST_DRAWN = 150
# How deep the tree is open at first.
OPEN_DEPTH = 3
# From how many lines on a page has a field for search.
SEARCHED_FROM = 12


def linked(reading, places=None):
    """The reading with names that are HTML: links to places on the page, or with their IRI."""
    originals = {line: escape(text, quote=False) for line, text in reading.originals.items()}
    return replace(reading, names=LinkedNames(reading.names, places), originals=originals)


def places_of(reading):
    """The places on the page of the classes of a taxonomy, by their IRIs."""
    answer = reading.answer
    if not isinstance(answer, Taxonomy):
        return {}
    found = [*answer.nothing, *answer.thing, *(it for group in answer.groups for it in group.names)]
    return {iri: f"c{at}" for at, iri in enumerate(reading.names.shown(found), 1)}


def axiom_item(reading, axiom):
    """An axiom as an item of a list, with its place in the file."""
    said = wrapped("span", reading.axiom_text(axiom), data_copy=True)
    return f"<li>{said} {element('span', reading.place(axiom), 'line')}</li>"


def axiom_list(reading, axioms, kind="ol"):
    return wrapped(kind, "".join(axiom_item(reading, it) for it in axioms))


def reason_parts(reading, level=2):
    """The reasons of a list; those that share most axioms show these once."""
    parts, head, inner = [], f"h{level}", f"h{level + 1}"
    for family in reading.families():
        if len(family.numbers) == 1:
            (number,), (axioms,) = family.numbers, family.rest
            parts += [element(head, set_heading("justifications", number)), axiom_list(reading, axioms)] * bool(axioms)
            continue
        parts += [element(head, family_heading(family.numbers)), axiom_list(reading, family.shared)]
        for number, axioms in zip(family.numbers, family.rest):
            parts += [element(inner, rest_heading(number)), axiom_list(reading, axioms)]
    return parts


def repair_parts(reading, level=2):
    """The repairs of a list; where each is one axiom, they are one list."""
    answer = reading.answer
    sets = [reading.one_for_each(answer.axioms[it].axiom for it in one) for one in answer.sets if one]
    if len(sets) > 1 and all(len(it) == 1 for it in sets):
        return [element("p", ONE_EACH), axiom_list(reading, [it for one in sets for it in one], "ul")]
    parts = []
    for number, axioms in enumerate(sets, 1):
        parts += [element(f"h{level}", set_heading("repairs", number)), axiom_list(reading, axioms, "ul")]
    return parts


def list_parts(reading, level=2):
    return reason_parts(reading, level) if reading.answer.kind == "justifications" else repair_parts(reading, level)


def audit_body(reading):
    parts = []
    for title, one in zip(("Reasons", "Ways to stop it"), audited(reading)):
        parts += [element("h2", title), *list_parts(one, 3)] * bool(one.answer.sets)
    return parts


def realization_body(reading):
    rows = [f"<tr data-entry><th scope='row'>{one}</th><td>{classes}</td></tr>" for one, classes in reading.types()]
    return [table(["individual", "is"], rows, "Individuals")] if rows else []


def instances_body(reading):
    names = [reading.names.of(it) for it in reading.names.shown(reading.answer.names)]
    return ["<ul>", *(f"<li data-entry>{it}</li>" for it in names), "</ul>"] if names else []


def reasons_body(reading):
    parts = []
    for title, axioms in reading.reasons():
        parts += [wrapped("h2", title), axiom_list(reading, axioms)] if axioms else [wrapped("h2", title)]
    return parts


def class_names(branch, names, placed):
    """The names of a branch, each at its place where it stands for the first time, else as a link there."""
    texts = []
    for iri in branch.classes:
        is_first = iri not in placed
        placed.add(iri)
        texts.append(names.placed(iri) if is_first else names.of(iri))
    return " = ".join(texts)


def tree_parts(branches, names, open_depth=OPEN_DEPTH):
    """The tree as lists, with what is below a class folded away further down."""
    parts, left, placed = [], ["</ul>", *reversed(branches), '<ul class="tree" id="tree">'], set()
    while left:
        item = left.pop()
        if isinstance(item, str):
            parts.append(item)
            continue
        text = class_names(item, names, placed)
        if not item.below:
            mark = ' <span class="quiet">(see there)</span>' if item.is_shown_before else ""
            parts.append(f'<li class="leaf" data-entry>{text}{mark}</li>')
        else:
            is_open = " open" if item.depth < open_depth else ""
            parts.append(f"<li data-entry><details{is_open}><summary>{text}</summary><ul>")
            left += ["</ul></details></li>", *reversed(item.below)]
    return parts


def class_list(names, iris):
    """Classes as a list, each at its place."""
    return ["<ul>", *(f"<li data-entry>{names.placed(it)}</li>" for it in names.shown(iris)), "</ul>"]


def taxonomy_body(reading):
    answer, names, parts = reading.answer, reading.names, []
    if answer.is_consistent and answer.nothing:
        parts.append(element("p", " ".join([AS_A_WHOLE, *reading.caveat.behind("consistent")])))
    titles = {"Contradictory classes": answer.nothing, "Classes that hold everything": answer.thing}
    for title, members in titles.items():
        if names.shown(members):
            parts += ["<div data-part>", element("h2", title), *class_list(names, members), "</div>"]
    branches = forest(answer, names)
    if branches:
        parts += ["<div data-part>", element("h2", "Classes"), fold_buttons("tree"), *tree_parts(branches, names)]
        parts.append("</div>")
    return parts


def picture(reading, plain, label):
    """The drawing of an answer, where Graphviz is there and it is not too large."""
    svg = drawn(graph_of(plain)) if node_count(plain) <= MOST_DRAWN else None
    if not svg:
        return []
    svg = svg.replace("<svg ", f'<svg role="img" aria-label="{escape(label)}" ', 1)
    return [f'<figure tabindex="0" aria-label="{escape(label)}" role="group">{svg}</figure>']


def thing_row(reading, thing, called, is_shown):
    led = "; ".join(f"{role} {', '.join(map(str, others))}" for role, others in thing.roles.items())
    above = f" <span class='quiet'>and so {', '.join(thing.classes_above)}</span>" if thing.classes_above else ""
    style = ' class="good"' if is_shown else ""
    first = f"<th scope='row'{style}>{called.removeprefix('thing ')}</th>"
    return f"<tr>{first}<td>{', '.join(thing.classes)}{above}</td><td>{led}</td></tr>"


def thing_table(reading, things):
    """The things of a world, as a table."""
    shown, called = reading.exceptions(), reading.called()
    rows = [thing_row(reading, it, called[it.number], it.number in shown) for it in things]
    return table(["thing", "is", "roles lead to"], rows, "The things of the world")


def model_body(reading, plain):
    shown, (near, others) = reading.exceptions(), reading.things()
    parts = [element("p", ending(reading.answer)), *picture(reading, plain, "A picture of the world")]
    if shown:
        parts.append(element("p", exceptions_text(reading.answer, shown), "good"))
    parts += [element("h2", "The world"), thing_table(reading, near)]
    return parts + [details(unrelated_text(len(others)), thing_table(reading, others))] * bool(others)


def step_parts(steps):
    """The sentences of a story, each case in a box of its own. The sentences are HTML already."""
    parts, left = [], list(reversed(steps))
    while left:
        item = left.pop()
        if isinstance(item, str):
            parts.append(item)
            continue
        parts.append(wrapped("p", item.text, class_="bad" if item.is_contradiction else None))
        for number, case in reversed(list(enumerate(item.cases, 1))):
            title = wrapped("p", f"Case {number}: {case.title}.")
            left += ["</div>", *reversed(case.steps), f'<div class="case">{title}']
    return parts


def refutation_body(reading, plain):
    story = reading.story()
    used = reading.used_axioms(story)
    parts = [element("h2", "The axioms that are used"), axiom_list(reading, used, "ul")] if used else []
    parts += [element("h2", "Why"), wrapped("p", reading.supposition(story)), *step_parts(story.steps)]
    parts.append(element("p", ending(reading.answer)))
    parts += [element("p", left_out_text(story), "quiet")] * bool(story.left_out)
    drawing = picture(reading, plain, "A picture of the steps") if len(list(all_steps(story.steps))) else []
    return parts + [element("h2", "The steps as a picture"), *drawing] * bool(drawing)


def body_of(reading, plain):
    """The parts of the page behind its heading. `plain` is the same reading with names that are no HTML."""
    answer = reading.answer
    if isinstance(answer, Plain):
        return [element("p", it) for it in plain_lines(answer)[1:]]
    if isinstance(answer, (Model, Refutation)):
        return model_body(reading, plain) if isinstance(answer, Model) else refutation_body(reading, plain)
    tells = {
        SetList: list_parts,
        Audit: audit_body,
        Realization: realization_body,
        Instances: instances_body,
        Reasons: reasons_body,
        Taxonomy: taxonomy_body,
    }
    return tells[type(answer)](reading)


def facts_line(reading):
    """The file, how much it has of each kind, and when the page was made."""
    named = [f"file {reading.file}"] if reading.file else []
    counts = reading.counts() if reading.axioms else []
    return " · ".join([*named, *counts, f"made {made_at()}"])


def head_parts(reading, heading):
    """What stands above the parts of the page."""
    parts = [wrapped("h1", heading)]
    parts += [element("p", it) for it in reading.caveat.behind(verdict(reading.answer))]
    parts += [element("p", f"Asked: {reading.written}")] * bool(reading.written)
    parts.append(element("p", facts_line(reading), "quiet"))
    return [*parts, note_box([*reading.caveat.lines, *map(sentence, reading.notes)])]


def sentence(note):
    return f"{note[0].upper()}{note[1:]}."


def page_of(reading: Reading):
    """The whole page."""
    marked = linked(reading, places_of(reading))
    heading = escape(reading.heading()) if isinstance(reading.answer, Plain) else marked.heading()
    parts = body_of(marked, reading)
    is_long = sum(it.count("data-entry") for it in parts) >= SEARCHED_FROM
    navigation = bar([], "a name") if is_long else ""
    return whole_page(reading.heading(), head_parts(reading, heading), parts, navigation)
