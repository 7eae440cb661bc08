"""The full form of a translation behind the light one: what it adds to a report."""
from dataclasses import dataclass, field

from shq_tools.answers import Plain, Realization, answer
from shq_tools.approximation.command import translated
from shq_tools.approximation.for_people import names_of, originals_of
from shq_tools.approximation.losses import Loss
from shq_tools.approximation.translation import Strength
from shq_tools.asker import Deadline
from shq_tools.differences import came, first_ones, said_of, without_new_names
from shq_tools.messages import seconds_text
from shq_tools.names import Names, labels_in
from shq_tools.ontology_facts import ontology_in
from shq_tools.shown_reasons import reason_lines, smallest_reason
from shq_tools.sources import Source
from shq_tools.tokens import Refused
from shq_tools.wording import refusal_text

# The full form is tried where the light one was classified within so many seconds.
FEW_SECONDS = 10
TOO_SLOW = f"The full form of the translation was not tried, since the light one took over {FEW_SECONDS} seconds."
# Of so many statements a reason is shown.
MOST_REASONS = 20
# What the light form loses and the full one has.
HAD_IN_FULL = frozenset({Loss.CHAIN, Loss.INVERSE})


def may_add(found):
    """Whether the full form may say more than this translation."""
    return not HAD_IN_FULL.isdisjoint(found.losses.lines)


@dataclass
class Added:
    """What the full form adds: statements, the lines of a reason for each of the first ones, the names in them, and how
    many more follow from these. Or why it is not known.
    """

    statements: list = field(default_factory=list)
    reasons: dict = field(default_factory=dict)
    names: Names = field(default_factory=Names)
    left_out: int = 0
    unknown: str = ""

    def contradictions(self):
        """The statements that something is contradictory."""
        return [it for it in self.statements if it.kind in ("inconsistent", "contradictory")]


class Fuller:
    """Asks an asker about the full form of a translated file, and compares it with what is known of the light one."""

    def __init__(self, data, file, language, asker):
        self.data, self.file, self.language = data, file, language
        self.asker = asker
        self.deadline = Deadline(asker.seconds)

    def added(self, taxonomy, realization):
        """What the full form adds to the hierarchy, and to the types where these are known."""
        found = translated(self.data, Strength.FULL)
        try:
            ontology = ontology_in(found.data)
        except Refused as fault:
            return Added(unknown=f"The full form of the translation is not read: {refusal_text(str(fault))}")
        source = Source(self.file, found.data, translation=found)
        has_types = isinstance(realization, Realization)
        jobs = ("classify", "realize") if has_types else ("classify",)
        answers = [it.result() for it in [self.asker.later((job,), source, self.deadline) for job in jobs]]
        full = [answer(it.ended.output.decode("utf-8", "replace") or "undecided\n") for it in answers]
        if any(isinstance(it, Plain) for it in full):
            return Added(unknown=self.unanswered(full))
        names = names_of(ontology, labels_in(found.data), self.language)
        said = said_of(full[0], full[1] if has_types else None)
        new = without_new_names(came(said_of(taxonomy, realization if has_types else None), said), names)
        first = first_ones(new, said)
        reasons = self.reasons(first[:MOST_REASONS], source, names)
        return Added(first, reasons, names, len(new) - len(first))

    def unanswered(self, answers):
        """Why the full form is not compared: it was refused, or the time was over."""
        refusals = [it.lines[0] for it in answers if isinstance(it, Plain) and it.lines != ["undecided"]]
        if refusals:
            return f"The full form of the translation is not read: {refusal_text(refusals[0])}"
        return f"The full form of the translation was not classified within {seconds_text(self.asker.seconds)}."

    def reasons(self, statements, source, names):
        """The lines of a reason for each of the statements for which one is found in time."""
        def reason(statement):
            return smallest_reason(self.asker, statement.question(), source, 0, 0) if self.deadline.left() else None

        originals = originals_of(source.translation, names)
        found = zip(statements, self.asker.all(reason, statements))
        return {statement: reason_lines(axioms, names, originals) for statement, axioms in found if axioms}
