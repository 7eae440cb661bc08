"""What translations lose of random ontologies, by the kind of what these have besides SHQ, and of generated ones.

What follows from a file is asked of Konclude, and what follows from its translations of the program. Konclude is asked
of these too: where it finds more there than the program, whose answers are proved, nothing is counted as lost.
`python3 -m tests.lost_by_kind COUNT [NAME..]`, in tools/, prints the table of docs/APPROXIMATION.md, of so many each.
"""
import os
import sys
from concurrent.futures import ThreadPoolExecutor
from dataclasses import dataclass, field

from shq_tools.answers import Plain, answer
from shq_tools.approximation.new_names import is_new
from shq_tools.approximation.text import approximation
from shq_tools.approximation.translation import Strength
from shq_tools.cut import cut
from shq_tools.differences import pairs_of, said_of
from tests import owl_domains, owl_kinds
from tests.konclude import NOTHING, THING, NoAnswer, pairs, types
from tests.program import run_program

# Konclude answers a small ontology in a tenth of a second, or ends, or never answers.
PATIENCE = {"trials": 1, "limit": 20}
# The program takes about a second for this.
BUDGET = ("budget", "3000000")
INCONSISTENT = {(THING, NOTHING)}
WAYS = ("by cutting", "light", "full")


def plain(found):
    """The pairs of names of a file that say something: of a contradictory class one, that it is."""
    contradictory = {one for one, other in found if other == NOTHING}
    special = {THING, NOTHING}
    kept = {it for it in found if it[0] not in contradictory | special and it[1] != THING}
    kept = {it for it in kept if not is_new(it[0]) and not is_new(it[1])}
    return kept | {(it, NOTHING) for it in contradictory - special if not is_new(it)}


def by_konclude(data):
    """The pairs of a class and one above it, and of an individual and its class, by Konclude. Raises `NoAnswer`."""
    found = pairs(data, **PATIENCE)
    return INCONSISTENT if (THING, NOTHING) in found else plain(found | types(data, **PATIENCE))


def by_program(data):
    """The same by the program. Raises `NoAnswer` where its budget is not enough."""
    taxonomy, realization = (answer(run_program([job, *BUDGET], data)[0]) for job in ("classify", "realize"))
    if Plain in (type(taxonomy), type(realization)):
        raise NoAnswer
    if not taxonomy.is_consistent:
        return INCONSISTENT
    said = said_of(taxonomy, realization)
    return plain(pairs_of(said.superclasses) | pairs_of(said.types) | {(it, NOTHING) for it in said.contradictory})


def lost_and_added(whole, part):
    """The pairs that a part lacks, and those that it has too many. A contradictory class is below all others."""
    def contradictory(found):
        return {one for one, other in found if other == NOTHING}

    if part == INCONSISTENT:
        return set(), part - whole
    if whole == INCONSISTENT:
        return whole, set()
    lost = {it for it in whole - part if it[0] not in contradictory(part)}
    return lost, {it for it in part - whole if it[0] not in contradictory(whole)}


@dataclass
class Judged:
    """What follows from an ontology by Konclude, and in each way what follows by the program from what is left of it,
    and by Konclude; and whether a translation is said to lose nothing.
    """

    whole: set
    parts: list
    by_konclude: list
    are_exact: list

    @property
    def is_misjudged(self):
        """Whether Konclude finds more in a translation than the program, whose answers are proved."""
        return any(lost_and_added(one, other)[0] for one, other in zip(self.by_konclude, self.parts))

    @property
    def is_inconsistent(self):
        return self.whole == INCONSISTENT


def judged(data):
    """What follows from an ontology and from its translations, or None where there is no answer in time."""
    translations = [approximation(data, it) for it in (Strength.LIGHT, Strength.FULL)]
    texts = [cut(data)[0], *(it.data for it in translations)]
    are_exact = [False, *(it.losses.is_exact for it in translations)]
    try:
        whole, *others = map(by_konclude, [data, *texts])
        return Judged(whole, list(map(by_program, texts)), others, are_exact)
    except NoAnswer:
        return None


@dataclass
class Count:
    """How many ontologies of a kind were asked about, and the pairs that they have, and lose in each way."""

    ontologies: int = 0
    unanswered: int = 0
    misjudged: int = 0
    pairs: int = 0
    lost: dict = field(default_factory=lambda: dict.fromkeys(WAYS, 0))
    # of ontologies without a model: how many there are, and of how many it is lost that they have none
    inconsistent: int = 0
    not_seen: dict = field(default_factory=lambda: dict.fromkeys(WAYS, 0))
    # pairs that the whole file does not have, and pairs that are lost where nothing is said to be lost, with the seeds
    wrong: list = field(default_factory=list)

    def add(self, found, seed):
        """Counts what is lost of an ontology, where Konclude judged it well."""
        if found is None:
            self.unanswered += 1
            return
        compared = [lost_and_added(found.whole, it) for it in found.parts]
        self.wrong += [(seed, way, "too many", sorted(added)) for way, (_, added) in zip(WAYS, compared) if added]
        if found.is_misjudged:
            self.misjudged += 1
            return
        self.ontologies += 1
        self.inconsistent += found.is_inconsistent
        self.pairs += len(found.whole - INCONSISTENT)
        for way, (lost, _), is_exact in zip(WAYS, compared, found.are_exact):
            self.count_lost(way, lost, found.is_inconsistent)
            if lost and is_exact:
                self.wrong.append((seed, way, "said to lose nothing", sorted(lost)))

    def count_lost(self, way, lost, is_inconsistent):
        if is_inconsistent:
            self.not_seen[way] += bool(lost)
        else:
            self.lost[way] += len(lost)


def count_of(make, kind, seeds):
    """The count of random or generated ontologies of a kind, made by `make(kind, seed)`; several are asked at once."""
    found = Count()
    with ThreadPoolExecutor(os.cpu_count()) as pool:
        for seed, one in zip(seeds, pool.map(lambda it: judged(make(kind, it).encode("utf-8")), seeds)):
            found.add(one, seed)
    return found


def row(kind, found):
    """A line of the table."""
    of_pairs = " | ".join(f"{found.lost[it]:,}" for it in WAYS)
    of_models = " | ".join(f"{found.not_seen[it]}" for it in WAYS)
    return f"| {kind} | {found.ontologies} | {found.pairs:,} | {of_pairs} | {found.inconsistent} | {of_models} |"


# What makes the ontologies of a kind, and of a domain.
MAKERS = dict.fromkeys(owl_kinds.KINDS, owl_kinds.ontology)
MAKERS.update(dict.fromkeys(owl_domains.DOMAINS, owl_domains.ontology))


def main(count, names):
    """Prints the lines of the table for some kinds and domains, or for all."""
    for name in names or MAKERS:
        counted = count_of(MAKERS[name], name, range(int(count)))
        print(row(name, counted), flush=True)
        unused = f"{counted.unanswered} without an answer, {counted.misjudged} misjudged"
        print(f"{name}: {unused}", *counted.wrong, sep="\n", file=sys.stderr, flush=True)


if __name__ == "__main__":
    main(sys.argv[1], sys.argv[2:])
