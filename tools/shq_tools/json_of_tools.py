"""What `verify` and `diff` tell, as one object of JSON of the form of `docs/answer.schema.json`."""
import sys

from shq_tools.approximation.new_names import meaning_text
from shq_tools.functional import axiom_text
from shq_tools.json_view import head_of, iris_in, is_complete, model_of, text_of, translation_of
from shq_tools.statuses import Status
from shq_tools.words import Asked


def print_object(value):
    """Prints an object."""
    sys.stdout.write(text_of(value))
    sys.stdout.flush()


def axioms_of(axioms):
    return [{"number": it.number, "line": it.line, "text": axiom_text(it, meaning_text)} for it in axioms]


def head(job, file, source, status):
    """What an object begins with."""
    found = {**head_of(Asked((job,), file), status), "translation": translation_of(source)}
    return {**found, "complete": is_complete(status)}


def unasked(fault, status):
    """That nothing was asked, and why."""
    verdict = "bad words" if status == Status.BAD_WORDS else "not asked"
    return {"verdict": verdict, "message": str(fault)}


def iris_of(values):
    """The IRIs that stand in some objects."""
    for one in values:
        yield from iris_in({"axioms": one.get("axioms", ()), "model": one.get("model", {})})
        yield from (one[key] for key in ("about", "class") if key in one)


def names_in(values, names):
    """The labels of the things in some objects that have one, and what new names of a translation mean."""
    iris = sorted(set(iris_of(values)))
    return {it: names.of(it) for it in iris if it in names.labels or names.has_own_form(it)}


def why_of(why):
    """Why something is so, where that is known."""
    if why.model is not None:
        return {"model": model_of(why.model)["model"]}
    return {} if why.axioms is None else {"axioms": axioms_of(why.axioms), "smallest": why.is_smallest}


def check_of(result):
    """What came of a check."""
    check, put = result.check, result.put
    asked = {"job": check.job, "asked": put.text, "added": list(put.added)}
    outcome = "holds" if result.is_ok else "fails" if result.is_failure else "unknown"
    said = {"line": check.number, "text": check.line, **asked, "wanted": check.wanted, "verdict": result.verdict}
    return {**said, "outcome": outcome, **why_of(result.why)}


def object_of_checks(task, status, fault=None):
    """What came of the checks of a file, or why nothing was asked."""
    found = head("verify", task.file, task.source, status)
    if fault is not None:
        return {**found, **unasked(fault, status)}
    checks = list(map(check_of, task.results))
    complete = all(it["outcome"] != "unknown" for it in checks)
    is_whole = len(checks) == task.count
    told = {"complete": complete and is_whole, "verdict": "checked", "checks": checks}
    return {**found, **told, "names": names_in(checks, task.names)}


def changes_of(changes):
    """What came, or what went."""
    found = []
    for one in changes.statements:
        told = {"kind": one.kind, "text": one.question()}
        told.update({"about": one.about} if one.about else {})
        told.update({"class": one.other} if one.other else {})
        reason = changes.reasons.get(one)
        found.append(told if reason is None else {**told, "axioms": axioms_of(reason)})
    return found


def object_of_changes(task, status, fault=None):
    """What follows from one of two files alone, or why that is not known."""
    found = {**head("diff", task.new, task.source, status), "old": task.old}
    if fault is not None:
        return {**found, **unasked(fault, status)}
    came, went = changes_of(task.came), changes_of(task.went)
    told = {"came": came, "went": went, "left_out": task.came.left_out + task.went.left_out}
    return {**found, "verdict": "compared", **told, "names": names_in([*came, *went], task.names)}
