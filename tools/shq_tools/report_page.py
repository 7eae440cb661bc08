"""A report as one page of HTML that needs nothing else."""
from dataclasses import replace
from html import escape

from shq_tools.answers import Realization
from shq_tools.differences import statement_text
from shq_tools.markup import bar, details, element, fold_buttons, note_box, table, whole_page, wrapped
from shq_tools.ontology_facts import made_at
from shq_tools.page import linked, list_parts, tree_parts
from shq_tools.report_words import (
    ADDED,
    ANY_ONE,
    CHECKED_APART,
    MOST_SETS,
    NOT_ASKED,
    RULE,
    added_text,
    caveat_behind,
    command_for,
    cut_short_text,
    facts_of,
    found_text,
    is_plain_choice,
    no_class_text,
    reading_for,
    title_of,
    verdict_of,
    ways_text,
)
from shq_tools.trees_of_classes import forest
from shq_tools.wording import counted, types_text

# Of so many contradictory classes the reasons are open at first.
OPEN_AT_FIRST = 3
# Up to so many individuals are open at first.
OPEN_ROWS = 50


def places_in(report):
    """The places on the page of classes and individuals, by their IRIs."""
    names, taxonomy = report.given.names, report.taxonomy
    groups = getattr(taxonomy, "groups", [])
    classes = [*getattr(taxonomy, "nothing", []), *getattr(taxonomy, "thing", [])]
    classes += [it for group in groups for it in group.names]
    places = {iri: f"c{at}" for at, iri in enumerate(names.shown(classes), 1)}
    individuals = [one for one, _ in report.realization.types] if has_types(report) else []
    return {**places, **{iri: f"i{at}" for at, iri in enumerate(names.shown(individuals), 1)}}


def has_types(report):
    return isinstance(report.realization, Realization)


class ReportPage:
    """Makes the parts of the page."""

    def __init__(self, report):
        self.report = report
        self.given = report.given
        self.places = places_in(report)
        self.names = linked(reading_for(self.given, report.taxonomy), self.places).names

    def reading(self, answer, query=None):
        """An answer with names that are links."""
        return linked(reading_for(self.given, answer, query), self.places)

    def facts(self):
        """What was read, and what was left out."""
        rows = [f"<tr><th scope='row'>{what}</th><td class='number'>{number:,}</td></tr>"
                for what, number in facts_of(self.report)]
        parts = [table([], rows, "How much there is", is_narrow=True)]
        not_said = [self.not_said_row(*it) for it in self.given.not_said]
        heads = ["not said, or not all", "times", "where", "note"]
        return parts + [table(heads, not_said, "What of the file is not said", is_narrow=True)] * bool(not_said)

    def not_said_row(self, what, count, lines, note):
        return f"<tr><th scope='row'>{escape(what)}</th><td class='number'>{count:,}</td><td>{escape(lines)}</td>" \
               f"<td>{escape(note)}</td></tr>"

    def sets(self, found, query, job, iri, level):
        """A list of reasons or repairs, of a long one the first, with headings of this level."""
        if found is None:
            return [element("p", NOT_ASKED, "quiet")] if job == "explain" else []
        shown = replace(found, sets=found.sets[:MOST_SETS])
        parts = list_parts(self.reading(shown, query), level)
        left = len(found.sets) - len(shown.sets)
        if left:
            parts.append(element("p", f"{left:,} more are not shown: {command_for(job, self.report, iri)}", "quiet"))
        return parts + [element("p", "There may be more, but the time was over.", "quiet")] * found.is_partial

    def explanation(self, one, level):
        """Reasons and repairs, with headings of this level."""
        iri = one.iri or "http://www.w3.org/2002/07/owl#Thing"
        parts = [*self.sets(one.reasons, one.query, "explain", iri, level)]
        if is_plain_choice(one):
            return [*parts, element("p", ANY_ONE)]
        if one.repairs is not None and one.repairs.sets:
            inner = "".join(self.sets(one.repairs, one.query, "repair", iri, level + 1))
            parts.append(details(element(f"h{level}", ways_heading(one.repairs)), inner))
        return parts

    def links(self, one):
        """The axioms by which a class comes from other contradictory classes."""
        targets = self.names.shown({it.target for it in one.links})
        if not one.is_derived or not targets:
            return []
        return [wrapped("p", f"Comes from {', '.join(map(self.names.of, targets))}.")]

    def entry(self, one, level, is_open=False):
        """A contradictory class, to be opened, with a heading of this level."""
        heading = wrapped(f"h{level}", self.names.placed(one.iri), class_="bad")
        summary = f'{heading} <span class="quiet">{found_text(one)}</span>'
        inner = "".join([*self.links(one), *self.explanation(one, level + 1)])
        return details(summary, inner, is_open, class_="entry", data_entry=True)

    def contradictory(self):
        """The contradictory classes."""
        explained = self.report.explained
        if not explained:
            return [element("p", no_class_text(self.report))]
        first = [it for it in explained if not it.is_derived]
        others = [it for it in explained if it.is_derived]
        parts = [element("p", RULE, "quiet")] * bool(others)
        parts += [element("p", cut_short_text(self.report), "quiet")] * self.report.is_cut_short()
        parts += [element("h3", "Where contradictions begin")] * bool(others)
        level = 4 if others else 3
        parts += [self.entry(it, level, at < OPEN_AT_FIRST) for at, it in enumerate(first)]
        parts += [element("h3", "What comes from these")] * bool(others)
        return parts + [self.entry(it, level) for it in others]

    def inconsistent(self):
        """Why nothing can meet all axioms."""
        (one,) = self.report.explained
        return [element("p", "Nothing can meet all of the axioms, so every statement follows from them."),
                *self.explanation(one, 3)]

    def classes(self):
        """The hierarchy."""
        branches = forest(self.report.taxonomy, self.names)
        thing = self.names.shown(self.report.taxonomy.thing)
        parts = [wrapped("p", f"Everything is in {', '.join(map(self.names.placed, thing))}.")] * bool(thing)
        if not branches:
            return [*parts, element("p", "There are no other classes.")]
        return [*parts, fold_buttons("tree"), *tree_parts(branches, self.names)]

    def individuals(self):
        """Each individual with its most specific classes."""
        if not has_types(self.report):
            return [element("p", "The classes of the individuals were not decided within the time.")]
        types = dict(self.report.realization.types)
        rows = []
        for one in self.names.shown(types):
            classes = types_text(types[one], self.names)
            rows.append(f"<tr data-entry><th scope='row'>{self.names.placed(one)}</th><td>{classes}</td></tr>")
        shown = table(["individual", "most specific classes"], rows, "Individuals")
        return [details(counted(len(rows), "individual"), shown, len(rows) <= OPEN_ROWS)]

    def added(self):
        """What the full form of a translation adds: statements, each to be opened for its reason where there is one."""
        added = self.report.added
        rows = []
        for statement in added.statements:
            text, lines = escape(statement_text(statement, added.names)), added.reasons.get(statement, [])
            reason = "".join(element("li", it) for it in lines)
            rows.append(f"<li>{details(text, f'<ul>{reason}</ul>') if lines else text}</li>")
        return [element("p", added_text(added)), *[f"<ul>{''.join(rows)}</ul>"] * bool(rows)]

    def sections(self):
        """The parts of the page, each with its place and its heading."""
        report = self.report
        if report.is_inconsistent:
            return [("contradiction", "Why it is contradictory", self.inconsistent())]
        if report.is_undecided:
            return []
        count = len(report.explained)
        heading = f"Contradictory classes ({count:,})" if count else "Contradictory classes"
        found = [("contradictory", heading, self.contradictory()), ("classes", "Classes", self.classes())]
        if report.realization is not None:
            found.append(("individuals", "Individuals", self.individuals()))
        if report.added is not None:
            found.append(("added", ADDED, self.added()))
        return found

    def head(self):
        """What stands above the parts."""
        parts = [element("h1", verdict_of(self.report))]
        parts += [element("p", it) for it in caveat_behind(self.report)]
        counts = self.given.ontology.counts(self.names)
        shown = [f"file {self.given.file}"] * bool(self.given.file)
        shown += [counted(number, what) for what, number in counts.items() if number]
        parts.append(element("p", " · ".join([*shown, f"made {made_at()}"]), "quiet"))
        return [*parts, note_box(self.given.caveat.lines), *self.read_box()]

    def read_box(self):
        facts = [*self.facts(), element("p", CHECKED_APART, "quiet")]
        return [details(element("h2", "What was read"), "".join(facts))]

    def page(self):
        title, sections, parts = title_of(self.report), self.sections(), []
        for place, heading, inner in sections:
            parts += [f'<section data-part aria-labelledby="{place}">', f'<h2 id="{place}">{escape(heading)}</h2>']
            parts += [*inner, "</section>"]
        links = [(place, heading) for place, heading, _ in sections]
        searched = "a class or an individual" if self.places else ""
        return whole_page(title, self.head(), parts, bar(links, searched))


def ways_heading(repairs):
    """The heading of the repairs, which are folded."""
    return f"{ways_text(len(repairs.sets))[0].upper()}{ways_text(len(repairs.sets))[1:]}"


def page_of_report(report):
    """The whole page of a report."""
    return ReportPage(report).page()
