"""What was done to an ontology before the reasoner was asked, and what its answers are worth for the whole of it."""
from dataclasses import dataclass

# The verdicts that what was left out may change: what does not follow from a part may still follow from the whole.
OF_A_PART = frozenset({"not entailed", "satisfiable", "consistent", "instances", "repairs", "no contradictory class"})


@dataclass(frozen=True)
class Caveat:
    """A note on the ontology that was read, for whoever reads an answer to it.

    Hand one to `Reading(.., caveat=..)`, or to `Report(.., caveat=..)`: texts and pages show its `lines` at the top. If
    a verdict is one of `qualifies`, they put `says` directly behind it. Verdicts are `entailed`, `not entailed`,
    `satisfiable`, `unsatisfiable`, `consistent`, `inconsistent`, `contradictory classes`, `no contradictory class`,
    `justifications`, `repairs` and `instances`.
    """

    lines: tuple
    qualifies: frozenset = OF_A_PART
    says: str = "This holds of what was read; the whole ontology may say more."

    def behind(self, verdict):
        """What stands behind a verdict, as a list of at most one sentence."""
        return [self.says] if verdict in self.qualifies else []


NO_CAVEAT = Caveat((), frozenset())
