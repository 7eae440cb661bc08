"""The sentences of a report, for a page and for a pull request."""
from shq_tools.differences import statement_text
from shq_tools.messages import seconds_text
from shq_tools.reading import Reading
from shq_tools.wording import counted, verdict

# Of longer lists the first ones are shown.
MOST_SETS = 25
# Classes whose contradiction comes from others are told apart by this rule.
RULE = (
    "First come the classes whose contradiction comes from no other one. A class comes from another contradictory "
    "class where an axiom makes each of its members a member of that class, or leads from it to one, and that axiom "
    "stands in one of its reasons."
)
NO_CLASS = "No class is contradictory: each can have a member."
NO_CLASS_IN_LIGHT = "By the light form of the translation no class is contradictory."
ANY_ONE = "Without any one of these axioms there is no contradiction."
NOT_ASKED = "There was no time to ask for its reasons."


def reading_for(given, answer, query=None):
    """An answer with all that is known of the ontology."""
    how = {"file": given.file, "originals": given.originals, "caveat": given.caveat}
    return Reading(answer, given.names, given.ontology, query, is_asked=query is not None, **how)


def verdict_of(report):
    """What a report says in one sentence."""
    if report.is_undecided:
        return f"Not decided within {seconds_text(report.seconds)}."
    if report.contradictions_added:
        return verdict_with_added(report)
    return reading_for(report.given, report.taxonomy).heading()


def verdict_with_added(report):
    """The same where the full form of a translation finds more contradictory."""
    found = report.contradictions_added
    if found[0].kind == "inconsistent":
        return "By the full form of the translation the ontology is contradictory as a whole."
    count = len(found) + len(report.given.names.shown(report.taxonomy.nothing))
    classes = report.given.ontology.counts(report.given.names)["class"]
    alone = "" if count == len(found) == 1 else f"{len(found):,} of them "
    return (
        f"{count:,} of {counted(classes, 'class')} {'is' if count == 1 else 'are'} contradictory, "
        f"{alone}by the full form of the translation alone."
    )


def title_of(report):
    """The same with the file, in one line."""
    said = verdict_of(report).rstrip(".")
    return f"{report.given.file}: {said[0].lower()}{said[1:]}" if report.given.file else said


def facts_of(report):
    """What there is, as pairs of a word and a number."""
    counts = report.given.ontology.counts(report.given.names)
    whole = report.given.axiom_count
    rows = [("axioms in the file", whole), ("axioms that the reasoner read", counts["axiom"])]
    rows += [("classes", counts["class"]), ("roles", counts["role"]), ("individuals", counts["individual"])]
    return rows


def caveat_behind(report):
    """What the verdict on the whole is worth, as sentences."""
    return [*report.given.caveat.behind(verdict(report.taxonomy)), *contradictions_added(report)]


def contradictions_added(report):
    """What the full form of a translation finds contradictory besides, as sentences."""
    found = [statement_text(it, report.added.names) for it in report.contradictions_added]
    return [f"By the full form of the translation more is contradictory: {'; '.join(found)}."] if found else []


def no_class_text(report):
    """That no class is contradictory, where that is not said of the light form of a translation alone."""
    return NO_CLASS_IN_LIGHT if report.contradictions_added else NO_CLASS


ADDED = "What the full form adds"


def added_text(added):
    """What the full form of a translation adds, in a sentence or two."""
    if added.unknown:
        return added.unknown
    if not added.statements:
        return "The full form of the translation adds nothing: no superclass, no contradictory class, no type."
    more = f" {added.left_out:,} that follow from these are left out." if added.left_out else ""
    return (
        f"By the full form of the translation {counted(len(added.statements), 'statement')} more "
        f"follow{'s' if len(added.statements) == 1 else ''} from the whole file.{more} The rest of this page is on the "
        "light form."
    )


def is_plain_choice(one):
    """Whether there is one reason, of which each axiom may go by itself."""
    if one.reasons is None or one.repairs is None or one.reasons.is_partial or one.repairs.is_partial:
        return False
    return len(one.reasons.sets) == 1 and [[it] for it in one.reasons.sets[0]] == one.repairs.sets


CHECKED_APART = (
    "To have both lists of a class checked by a second, small program: "
    "./shq evidence STATEMENT FILE > AUDIT, and then second/audit FILE AUDIT STATEMENT."
)


def command_for(job, report, iri):
    """The command that prints a whole list."""
    return f"./shq {job} 'SubClassOf(<{iri}> owl:Nothing)' {report.given.file or 'FILE'}"


def cut_short_text(report):
    """That some lists are not whole, and what to do."""
    return (
        f"Some reasons or ways to stop a contradiction were not found within {seconds_text(report.seconds)}; the "
        f"places say so. --seconds allows more."
    )


def found_text(one):
    """How many reasons and repairs there are, as far as it is known."""
    parts = []
    for found, what in ((one.reasons, "reason"), (one.repairs, "way to stop it")):
        if found is not None:
            count = counted(len(found.sets), what) if what == "reason" else ways_text(len(found.sets))
            parts.append(f"{count} so far" if found.is_partial else count)
    return ", ".join(parts) or "not explained"


def ways_text(count):
    return "1 way to stop it" if count == 1 else f"{count:,} ways to stop it"
