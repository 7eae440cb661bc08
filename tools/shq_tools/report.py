"""All that a report says of an ontology, gathered by questions to the program."""
import time
from dataclasses import dataclass, field
from functools import partial

from shq_tools.answers import Plain, Realization, SetList, Taxonomy, answer
from shq_tools.approximation.command import translated
from shq_tools.approximation.for_people import caveat_of, names_of, originals_of
from shq_tools.asker import Deadline
from shq_tools.caveats import NO_CAVEAT, Caveat
from shq_tools.cut import blanked
from shq_tools.documents import walked
from shq_tools.fuller import FEW_SECONDS, TOO_SLOW, Added, Fuller, may_add
from shq_tools.names import Names, labels_in, labels_of
from shq_tools.ontology_facts import Ontology, ontology_in
from shq_tools.profile import NOTES, counted, lines_text
from shq_tools.sources import Source
from shq_tools.survey import by_keyword, survey
from shq_tools.terms import BOTTOM, TOP
from shq_tools.told import links_between
from shq_tools.trees_of_classes import shown_types

ALL_FALSE = "SubClassOf(owl:Thing owl:Nothing)"
# One question may take so much of the time that there is for all reasons and repairs.
MOST_OF_THE_TIME = 0.25


@dataclass
class Given:
    """An ontology as the program is asked about it: its bytes, the ontology in them, and the names of things; of the
    file its name, how many axioms it has, and what of it is not said: rows with the construct, how often it stands
    there, where, and a note. Of a translation of which the full form may say more, `fuller` makes what asks an asker
    about that. The rest is as in a `Reading`.
    """

    data: bytes
    ontology: Ontology
    names: Names
    file: str = ""
    axiom_count: int = 0
    not_said: list = field(default_factory=list)
    originals: dict = field(default_factory=dict)
    caveat: Caveat = NO_CAVEAT
    fuller: object = None


@dataclass
class Explained:
    """A statement with its reasons and its repairs, as far as they were found, or None where they were not asked for;
    and the links of a contradictory class to others.
    """

    query: tuple
    reasons: SetList = None
    repairs: SetList = None
    links: list = field(default_factory=list)
    iri: str = ""
    is_derived: bool = False

    def used_links(self):
        """The links that stand in a reason, where all reasons are known, else all of them."""
        if self.reasons is None or self.reasons.is_partial:
            return self.links
        used = {number for one in self.reasons.sets for number in one}
        return [it for it in self.links if it.axiom.number in used]


@dataclass
class Report:
    """What was given, the answers to `classify` and `realize` (None where there are no individuals), and what is
    contradictory: classes, those first whose contradiction comes from no other one, or the ontology as a whole. What
    the full form of a translation adds, or None where there is nothing to be had from it.
    """

    given: Given
    taxonomy: object
    realization: object
    explained: list
    seconds: float
    added: Added = None

    @property
    def is_undecided(self):
        return isinstance(self.taxonomy, Plain) and self.taxonomy.lines == ["undecided"]

    @property
    def refusal(self):
        """Why the program did not classify the ontology, where that is no want of time, or nothing."""
        return self.taxonomy.lines[0] if isinstance(self.taxonomy, Plain) and not self.is_undecided else ""

    @property
    def is_inconsistent(self):
        return isinstance(self.taxonomy, Taxonomy) and not self.taxonomy.is_consistent

    @property
    def is_contradictory(self):
        return bool(self.explained or self.contradictions_added)

    @property
    def contradictions_added(self):
        """The statements of the full form alone that something is contradictory."""
        return self.added.contradictions() if self.added else []

    def is_cut_short(self):
        """Whether some reasons or repairs were not found within the time."""
        found = [it for one in self.explained for it in (one.reasons, one.repairs)]
        return any(it is None or it.is_partial for it in found)


def left_out_caveat(count, whole):
    """What answers are worth where some axioms were left out."""
    lines = (
        f"{counted(count, 'axiom')} of {whole:,} {'is' if count == 1 else 'are'} outside of the language and "
        f"{'was' if count == 1 else 'were'} left out.",
        "What follows from the rest follows from the whole ontology too. What does not follow from the rest may still "
        "follow from the whole one.",
    )
    return Caveat(lines) if count else NO_CAVEAT


def left_out_rows(looked):
    """What was left out: the construct, how often, where, and a note where one is needed."""
    return [(what, len(lines), lines_text(lines), NOTES.get(what, "")) for what, lines in by_keyword(looked).items()]


def given_of(data, file="", language=""):
    """The ontology of a file, without what is outside of the language. Raises `Refused` where the program would refuse
    what is left.
    """
    read, looked = survey(data)
    outside = [it for it in looked if it.outside]
    labels = labels_of(read.axiom_items, read.prefixes)
    if outside:
        pieces = [(it.item.start, it.item.end) for it in outside]
        size = len(read.text[: read.end].encode("utf-8"))
        data = blanked(read.text[: read.end], pieces).encode("utf-8") + data[size:]
        ontology = ontology_in(data)
    else:
        axioms, listed = walked(read)
        ontology = Ontology(read.prefixes, {it.number: it for it in axioms}, *map(list, listed.values()))
    whole, left_out = sum(it.is_axiom for it in looked), sum(it.is_axiom for it in outside)
    names = names_of(ontology, labels, language)
    caveat = left_out_caveat(left_out, whole)
    return Given(data, ontology, names, file, whole, left_out_rows(looked), caveat=caveat)


def given_of_translation(data, strength, file="", language=""):
    """The translation of a file. Raises `Refused` where the program would refuse it."""
    found = translated(data, strength)
    ontology = ontology_in(found.data)
    names = names_of(ontology, labels_in(found.data), language)
    told = {"originals": originals_of(found, names), "caveat": caveat_of(found)}
    if may_add(found):
        told["fuller"] = partial(Fuller, data, file, language)
    return Given(found.data, ontology, names, file, len(found.sources), **told)


def answered(future):
    """The answer that was asked for, or that it is undecided where there is none."""
    return answer(future.result().ended.output.decode("utf-8", "replace") or "undecided\n")


def list_of(future):
    """The list that was asked for, or None where no run had ended in time."""
    if not future.result().budget:
        return None
    found = answered(future)
    return found if isinstance(found, SetList) else None


def statement_on(iri):
    """The statement that a class has no member."""
    return f"SubClassOf(<{iri}> owl:Nothing)"


def whole_first(links):
    """Some classes by their links to others, those first that come from no other: a class has no link, or its links
    never lead to one without. The second part are those that do.
    """
    back = {it: [] for it in links}
    for iri, those in links.items():
        for link in those:
            back[link.target].append(iri)
    left = [it for it in links if not links[it]]
    reached = set(left)
    derived = set()
    while left:
        new = [it for it in back[left.pop()] if it not in reached]
        reached.update(new)
        derived.update(new)
        left += new
    return [it for it in links if it not in derived], [it for it in links if it in derived]


class Reporter:
    """Gathers a report by an asker: within its seconds the taxonomy and the types, and within as many more reasons and
    repairs.
    """

    def __init__(self, given, asker):
        self.given = given
        self.asker = asker
        self.source = Source(given.file, given.data)

    def explained(self, statements):
        """Reasons and repairs of some statements, each with its query, in this order as far as the time goes."""
        seconds = self.asker.seconds
        deadline, most = Deadline(seconds), seconds * MOST_OF_THE_TIME
        asked = []
        for statement, _ in statements:
            jobs = ((job, statement) for job in ("explain", "repair"))
            asked.append([self.asker.later(words, self.source, deadline, most) for words in jobs])
        return [Explained(query, *map(list_of, jobs)) for (_, query), jobs in zip(statements, asked)]

    def contradictory(self, taxonomy):
        """The contradictory classes, explained, those first whose contradiction comes from no other one."""
        names = self.given.names
        links = links_between(self.given.ontology.axioms.values(), names.shown(taxonomy.nothing))
        first, others = whole_first(links)
        iris = [*first, *others]
        found = self.explained([(statement_on(it), (("name", it), BOTTOM, None)) for it in iris])
        for iri, one in zip(iris, found):
            one.iri, one.links = iri, links[iri]
        used = {one.iri: one.used_links() for one in found}
        derived = set(whole_first(used)[1])
        for one in found:
            one.is_derived, one.links = one.iri in derived, used[one.iri]
        return sorted(found, key=lambda it: it.is_derived)

    def report(self):
        begun, deadline = time.monotonic(), Deadline(self.asker.seconds)
        has_individuals = bool(self.given.ontology.individuals)
        classified = self.asker.later(("classify",), self.source, deadline)
        realized = self.asker.later(("realize",), self.source, deadline) if has_individuals else None
        taxonomy = answered(classified)
        is_quick = time.monotonic() - begun < FEW_SECONDS
        explained = []
        if isinstance(taxonomy, Taxonomy) and not taxonomy.is_consistent:
            explained = self.explained([(ALL_FALSE, (TOP, BOTTOM, None))])
        elif isinstance(taxonomy, Taxonomy):
            explained = self.contradictory(taxonomy)
        realization = answered(realized) if realized else None
        realization = realization if isinstance(realization, (Realization, Plain)) else None
        if isinstance(realization, Realization) and isinstance(taxonomy, Taxonomy):
            realization = shown_types(realization, taxonomy, self.given.names.shown)
        added = self.added(taxonomy, realization, is_quick)
        is_ended = self.asker.signals.got is not None
        seconds = max(1, round(time.monotonic() - begun)) if is_ended else self.asker.seconds
        return Report(self.given, taxonomy, realization, explained, seconds, added)

    def added(self, taxonomy, realization, is_quick):
        """What the full form of a translation adds, behind all else, where it may be had."""
        if self.given.fuller is None or not isinstance(taxonomy, Taxonomy) or not taxonomy.is_consistent:
            return None
        if not is_quick:
            return Added(unknown=TOO_SLOW)
        return self.given.fuller(self.asker).added(taxonomy, realization)


def report_on(given, asker):
    """The report on an ontology. Where a signal ends it, it has what was known then, and the seconds up to then."""
    return Reporter(given, asker).report()
