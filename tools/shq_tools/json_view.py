"""An answer as one object of JSON, whose form is written down in `docs/answer.schema.json`.

What a translation made new stands in no list, and in an axiom there stands what it means. A certificate stays as it
is, since it is checked so.
"""
import json
import re

from shq_tools.answers import Instances, Model, Realization, Reasons, Refutation, SetList, Taxonomy, Unread, answer
from shq_tools.approximation.display import shown_names
from shq_tools.approximation.new_names import meaning_text, not_new
from shq_tools.approximation.summary import lines_of
from shq_tools.commands import command_in
from shq_tools.functional import axiom_text
from shq_tools.names import Names, labels_in
from shq_tools.statuses import Status, status_name
from shq_tools.tokens import Refused
from shq_tools.trees_of_classes import shown_alone
from shq_tools.words import Asked

REFUSED = re.compile(r"(bad text|outside|limit) (\S+)(?: (?:line (\d+)|query))?")
REJECTED = re.compile(r"rejected (\S+)(?: (\S+))?")
CERTIFIED = ("entailed", "not entailed", "satisfiable", "unsatisfiable")


def axioms_of(found):
    """The axioms below a list: number, line and text."""
    return [{"number": it.number, "line": it.line, "text": axiom_text(it.axiom, meaning_text)} for it in found.values()]


def sets_of(found):
    return {
        "verdict": found.kind,
        "complete": not found.is_partial,
        "sets": found.sets,
        "axioms": axioms_of(found.axioms),
    }


def groups_of(found):
    groups = shown_alone(found, not_new).groups
    classes = {it.names[0]: not_new(it.names) for it in groups}
    return [{"classes": classes[it.names[0]], "below": [classes[one][0] for one in it.parents if one]} for it in groups]


def taxonomy_of(found):
    if not found.is_consistent:
        return {"verdict": "inconsistent"}
    return {
        "verdict": "consistent",
        "contradictory": not_new(found.nothing),
        "everything": not_new(found.thing),
        "groups": groups_of(found),
    }


def reasons_of(found):
    axioms = {}
    for _, listed in found.instances:
        axioms.update(listed.axioms)
    members = [{"individual": one, "sets": listed.sets} for one, listed in found.instances if not_new([one])]
    return {"verdict": "instances", "instances": members, "axioms": axioms_of(dict(sorted(axioms.items())))}


def model_of(found):
    roles = {name: list(map(list, found.roles[name])) for name in not_new(found.roles)}
    classes, individuals = ({it: those[it] for it in not_new(those)} for those in (found.classes, found.individuals))
    model = {"size": found.size, "classes": classes, "roles": roles, "individuals": individuals}
    return {"verdict": found.verdict, "model": model}


def types_of(found):
    types = [{"individual": one, "classes": not_new(classes)} for one, classes in found.types if not_new([one])]
    return {"verdict": "consistent", "types": types}


def plain_of(lines):
    """An answer of a few words."""
    refused = REFUSED.fullmatch(lines[0])
    if refused:
        where = int(refused[3]) if refused[3] else "question" if lines[0].endswith(" query") else "text"
        return {"verdict": "refused", "refused": {"why": refused[1], "what": refused[2], "where": where}}
    rejected = REJECTED.fullmatch(lines[0])
    if rejected:
        at = rejected[2] if rejected[2] is None else int(rejected[2])
        return {"verdict": "rejected", "rejected": {"what": rejected[1], "number": at}}
    return {"verdict": lines[0]}


def audit_of(lines):
    """The list of an audit, as text, and how many reasons and repairs it has."""
    counts = {word: int(number) for word, number in (it.split(" ") for it in lines if is_count(it))}
    return {"verdict": "audit", **counts}


def is_count(line):
    return re.fullmatch(r"(justifications|repairs) \d+", line) is not None


def counts_of(lines):
    """The numbers of a workload."""
    return {"verdict": "counted", "counts": {word: int(number) for word, number in (it.split(" ") for it in lines)}}


BY_KIND = {
    SetList: sets_of,
    Taxonomy: taxonomy_of,
    Realization: types_of,
    Instances: lambda found: {"verdict": "instances", "individuals": not_new(found.names)},
    Reasons: reasons_of,
    Model: model_of,
    Refutation: lambda found: {"verdict": found.verdict, "used": found.axioms},
}


def read(job, text):
    """What an answer says, by its kind. Raises `Unread`."""
    lines = text.rstrip("\n").split("\n")
    if job == "why" and not text:
        return reasons_of(Reasons([]))
    if job == "workload" and len(lines) > 1:
        return counts_of(lines)
    if job == "evidence" and lines[0] == "audit":
        return {**audit_of(lines), "certificate": text}
    found = answer(text)
    told = BY_KIND.get(type(found), lambda it: plain_of(it.lines))(found)
    return {**told, "certificate": text} if told["verdict"] in CERTIFIED else told


def iris_in(told):
    """The IRIs of a told answer: those in texts, and those that stand alone."""
    texts = " ".join([told.get("certificate", ""), *(it["text"] for it in told.get("axioms", ()))])
    return set(re.findall(r"<([^<>\s]*)>", texts)) | set(bare_iris(told))


def bare_iris(told):
    """The IRIs that stand in a told answer without brackets."""
    found = [*told.get("contradictory", ()), *told.get("everything", ()), *told.get("individuals", ())]
    for group in told.get("groups", ()):
        found += group["classes"]
    for one in [*told.get("types", ()), *told.get("instances", ())]:
        found += [one["individual"], *one.get("classes", ())]
    model = told.get("model", {})
    return [*found, *model.get("classes", ()), *model.get("roles", ()), *model.get("individuals", ())]


def labels_of(data):
    """The labels of an ontology, or none where it is damaged or has none."""
    try:
        return labels_in(data) if b"label" in data else {}
    except Refused:
        return {}


def names_of(told, source, language):
    """The labels of the things in a told answer, where there are any, and what new names of a translation mean."""
    labels, iris = labels_of(source.data), sorted(iris_in(told))
    names = Names(labels, language)
    return {**{iri: names.of(iri) for iri in iris if iri in labels}, **shown_names(iris, names)}


def translation_of(source):
    """What was made of the file before it was asked about, or None."""
    found = source.translation if source else None
    return {"exact": found.losses.is_exact, "notes": lines_of(found)} if found else None


def head_of(question, status):
    """What was asked, and how it ended."""
    has_question = question.command is not None and question.command.operands and len(question.words) > 1
    asked = question.words[1] if has_question else None
    return {
        "job": question.words[0] if question.words else "",
        "question": asked if question.written is None else question.written,
        "asked": asked,
        "added": list(question.added),
        "file": question.file,
        "status": {"number": int(status), "name": status_name(status)},
    }


def is_complete(status):
    """Whether nothing was left open for want of steps, seconds or memory."""
    return status not in (Status.UNDECIDED, Status.NO_MEMORY)


def of_words(given, message, status):
    """The object for words by which nothing is asked."""
    command = command_in(given)
    job = command.name if command else next((it for it in given if not it.startswith("-")), "")
    head = head_of(Asked((job,)), status)
    verdict = "bad words" if status == Status.BAD_WORDS else "not asked"
    return {**head, "complete": is_complete(status), "verdict": verdict, "message": message}


def object_of(question, source, output, status, **more):
    """The object of an answer."""
    head = head_of(question, status)
    try:
        told = read(head["job"], output)
    except Unread as fault:
        told = {"verdict": "unread", "message": str(fault)}
    names = names_of(told, source, question.options.get("--language", "")) if source else {}
    head |= {"translation": translation_of(source), "complete": is_complete(status)}
    return {**head, **told, "names": names, **more}


def text_of(value):
    """An object as text. Bytes of a word that are no UTF-8 are written as escapes of JSON."""
    return json.dumps(value, ensure_ascii=False, indent=1).encode("utf-8", "backslashreplace").decode("utf-8") + "\n"
