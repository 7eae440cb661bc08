"""Whether the second checker says what the program says, of random certificates and audits, whole and damaged."""
import re
from collections import Counter
from dataclasses import dataclass, field

from tests.generated import damaged, document, of_seed, question
from tests.program import by_checker, by_program

BUDGET = ("budget", "2000")
# A job that prints what another job checks.
JOBS = {"entails": "check", "evidence": "audit"}


@dataclass
class Agreement:
    """How often both said the same, by what was said, and where they did not."""

    counts: Counter = field(default_factory=Counter)
    lost: list = field(default_factory=list)

    def compare(self, kind, seed, job, text, behind, axiom):
        """Asks both, and notes what they say."""
        wanted = by_program([job, axiom], text + behind)
        found = by_checker(job, text, behind, axiom)
        said = wanted[0].decode("utf-8").rstrip("\n")
        self.counts[kind, job, re.sub(" [0-9]+$", "", said)] += 1
        if wanted != found:
            self.lost.append((seed, kind, job, axiom, text, behind, wanted, found))

    def of_kind(self, kind):
        return sum(count for (one, _, _), count in self.counts.items() if one == kind)


def compare_on(seed, agreement):
    """Compares both on what the program prints for a random document and question, and on that with a damage."""
    dice = of_seed(seed)
    text, axiom = document(dice), question(dice)
    job = "evidence" if dice.random() < 0.3 else "entails"
    printed, status = by_program([job, axiom, *BUDGET], text)
    if status != 0:
        if status in (3, 4, 5):
            agreement.compare("refused", seed, JOBS[job], text, b"", axiom)
        return
    agreement.compare("whole", seed, JOBS[job], text, printed, axiom)
    agreement.compare("damaged", seed, JOBS[job], text, damaged(dice, printed), axiom)
