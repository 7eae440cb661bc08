"""What an answer says, in a sentence."""
from shq_tools.answers import Audit, Instances, Model, Plain, Realization, Reasons, Refutation, SetList, Taxonomy

BAD_TEXT = {
    "utf8": "a byte that is not part of UTF-8",
    "token": "a character that belongs to nothing, or a string or IRI that does not end",
    "balance": "a bracket without its partner",
    "shape": "something that is not what has to stand there",
    "prefix": "a prefix that is not declared",
    "clash": "a prefix that is declared twice, with two IRIs",
}
PLAIN = {
    "undecided": "Not decided: the time or the steps that were allowed are spent.",
    "accepted entailed": "The certificate is right: the statement follows.",
    "accepted not entailed": "The certificate is right: the statement does not follow.",
    "rejected query": "The certificate is wrong: in its world the statement holds.",
    "no memory": "There was not enough memory.",
    "bad words": "The words of the command are wrong; ./shq --help lists them.",
    "read fault": "The ontology could not be read.",
    "limit text": "The ontology is longer than 16,777,216 bytes.",
    "accepted audit": "The audit is right: its lists are exactly all reasons and all ways to stop the statement.",
    "rejected transversal": "The audit is wrong: its ways to stop the statement do not fit its reasons.",
}
# The answers to lines of a script that have no numbers.
SCRIPTED = {"bad line": "This is no line of a script.", "no": "It does not follow."}
CONSISTENT = "The ontology is consistent."
AS_A_WHOLE = "The ontology as a whole is consistent: there can be a world in which all of its axioms hold."
ONE_EACH = "Removing any one of these axioms stops it:"
CONTRADICTORY = "The ontology is contradictory as a whole: nothing can meet all of its axioms."
VERDICTS = {
    "entailed": "The statement follows.",
    "unsatisfiable": "The class can have no member.",
    "not entailed": "The statement does not follow.",
    "satisfiable": "The class can have a member.",
}


def plural(what):
    return f"{what}es" if what.endswith(("s", "sh")) else f"{what}s"


def counted(number, what):
    return f"{number:,} {what if number == 1 else plural(what)}"


def place_text(words):
    """Where an ontology or a statement is refused."""
    return "The statement" if words == ["query"] else f"Line {words[-1]} of the ontology"


def refusal_text(line):
    """A refusal for people."""
    words = line.split(" ")
    if line.startswith("bad text ") and words[2] in BAD_TEXT:
        return f"{place_text(words[3:])} is damaged: {BAD_TEXT[words[2]]}."
    if line.startswith("outside ") and len(words) > 2:
        what = "counts a role that has a transitive role below it" if words[1] == "not-simple" else f"has {words[1]}"
        more = "(./shq profile lists all such places)"
        return f"{place_text(words[2:])} {what}, which is outside of the language {more}."
    if line.startswith("limit ") and len(words) > 2:
        return f"{place_text(words[2:])} passes the limit on {words[1]}."
    if line.startswith("rejected line "):
        return f"The certificate is wrong: its line {words[-1]} is the first at fault."
    if line.startswith("rejected axiom "):
        return f"The certificate is wrong: its world does not meet axiom {words[-1]}."
    if line.startswith(("rejected justification ", "rejected repair ")):
        what = "reason" if words[1] == "justification" else "way to stop the statement"
        return f"The audit is wrong: its {what} {words[-1]} is the first that is not shown."
    return line


def scripted_text(line):
    """An answer to a line of a script, for people, or the line itself where it is no such answer."""
    head, *words = line.split(" ")
    if head == "yes":
        return f"It follows from {axiom_list(words)}."
    if head in ("axiom", "removed"):
        return f"Axiom {words[0]} is {'in' if head == 'axiom' else 'out'} from here on."
    return SCRIPTED.get(line) or PLAIN.get(line) or refusal_text(line)


def axiom_list(numbers):
    """Axioms by their numbers, as words of an answer."""
    if numbers in ([], ["empty"]):
        return "no axiom at all"
    return f"axiom {numbers[0]}" if len(numbers) == 1 else f"axioms {', '.join(numbers[:-1])} and {numbers[-1]}"


def plain_lines(answer):
    """The lines of an answer of a few words, for people."""
    if answer.lines[0].startswith("workload "):
        return answer.lines
    return list(map(scripted_text, answer.lines))


def list_heading(answer):
    """What a list of justifications or repairs says."""
    count, is_reasons = len(answer.sets), answer.kind == "justifications"
    if answer.is_partial:
        what = "reason" if is_reasons else "repair"
        found = f"{counted(count, what)} found so far; there may be more."
        return f"The time or the steps that were allowed are spent. {found}"
    if answer.sets == [[]]:
        return "It follows from no axiom at all." if is_reasons else "It does not follow, so nothing has to be removed."
    if not count and is_reasons:
        return "It does not follow: there is no reason."
    if not count:
        return "It follows from no axiom at all, so nothing stops it."
    if is_reasons:
        return f"It follows. There {'is' if count == 1 else 'are'} {counted(count, 'reason')}:"
    return f"It follows. There {'is' if count == 1 else 'are'} {counted(count, 'way')} to stop it:"


def audit_heading(answer):
    """What an audit says, which has the certificates of its lists with it."""
    if [] in answer.justifications:
        return "It follows from no axiom at all."
    if not answer.justifications:
        return "It does not follow."
    reasons, repairs = counted(len(answer.justifications), "reason"), counted(len(answer.repairs), "way")
    return f"It follows. There are {reasons} and {repairs} to stop it, each with a certificate."


def set_heading(kind, number):
    if kind == "justifications":
        return f"Reason {number}"
    return f"Repair {number}: remove"


def family_heading(numbers):
    """What comes before the axioms that some reasons share."""
    return f"Shared by {reason_numbers(numbers)}"


def reason_numbers(numbers):
    """Reasons by their numbers, three or more in a row by the first and the last."""
    runs = []
    for number in numbers:
        if runs and runs[-1][1] == number - 1:
            runs[-1][1] = number
        else:
            runs.append([number, number])
    texts = []
    for one, other in runs:
        texts += [f"{one} to {other}"] if other - one > 1 else [str(it) for it in range(one, other + 1)]
    return "reasons " + (f"{', '.join(texts[:-1])} and {texts[-1]}" if len(texts) > 1 else texts[0])


def rest_heading(number):
    """What comes before the axioms that a reason has besides the shared ones."""
    return f"Reason {number}: these, and besides"


def shown_mark(answer):
    """What is said of a thing of a world for whose sake it is shown."""
    return "a member of the class" if answer.verdict == "satisfiable" else "it shows that the statement fails"


def exceptions_text(answer, numbers):
    """The same of some things, in a sentence."""
    things = f"thing {', '.join(map(str, numbers))}"
    if answer.verdict == "satisfiable":
        return f"In the class: {things}."
    return f"The statement fails for {things}."


def unrelated_text(count):
    """What is said of the things of a world that have nothing to do with the statement."""
    return f"{counted(count, 'other thing')} that no role connects with {'it' if count == 1 else 'them'}"


def members_text(count):
    """How many individuals are in the class expression that was asked about."""
    if not count:
        return "No individual is in the class."
    return f"{counted(count, 'individual')} {'is' if count == 1 else 'are'} in the class:"


def reason_heading(name, number, one):
    """What comes before a reason why an individual is in a class expression."""
    return f"{name}, reason {number}" if one else f"{name}, by no axiom at all"


def taxonomy_heading(answer, names):
    """What a taxonomy says of the ontology as a whole."""
    if not answer.is_consistent:
        return CONTRADICTORY
    bad = len(names.shown(answer.nothing))
    count = bad + len(names.shown(answer.thing)) + sum(len(names.shown(it.names)) for it in answer.groups)
    if bad:
        return f"{bad:,} of {counted(count, 'class')} {'is' if bad == 1 else 'are'} contradictory."
    if count < 2:
        return CONSISTENT
    return f"{CONSISTENT[:-1]}, and none of its {count:,} classes is contradictory."


def verdict(answer):
    """The word for what an answer says, as a `Caveat` has it, or nothing."""
    if isinstance(answer, Taxonomy):
        if not answer.is_consistent:
            return "inconsistent"
        return "contradictory classes" if answer.nothing else "no contradictory class"
    if isinstance(answer, Realization):
        return "consistent"
    if isinstance(answer, (Instances, Reasons)):
        return "instances"
    if isinstance(answer, Audit):
        return "justifications" if answer.justifications else "not entailed"
    if isinstance(answer, SetList):
        return "not entailed" if says_that_it_does_not_follow(answer) else answer.kind
    return "" if isinstance(answer, Plain) else answer.verdict


def says_that_it_does_not_follow(answer):
    """Whether a list says that the statement does not follow."""
    if answer.is_partial:
        return False
    return not answer.sets if answer.kind == "justifications" else answer.sets == [[]]


def heading(answer, names):
    """The sentence that an answer begins with."""
    if isinstance(answer, Plain):
        return plain_lines(answer)[0]
    if isinstance(answer, SetList):
        return list_heading(answer)
    if isinstance(answer, Taxonomy):
        return taxonomy_heading(answer, names)
    if isinstance(answer, Realization):
        return CONSISTENT
    if isinstance(answer, Audit):
        return audit_heading(answer)
    if isinstance(answer, Instances):
        return members_text(len(names.shown(answer.names)))
    if isinstance(answer, Reasons):
        return members_text(len(answer.instances))
    return VERDICTS[answer.verdict]


def ending(answer):
    """The sentence that ends a refutation or comes before a model."""
    if isinstance(answer, Refutation):
        return "So there is no such thing."
    if isinstance(answer, Model):
        of = counted(answer.size, "thing")
        return f"Here is a world of {of} in which every axiom holds."
    return ""


def types_text(classes, names):
    """The most specific classes of an individual. Those that lists do not show stand behind the others, since what is
    above them is not known here.
    """
    shown = names.shown(classes)
    others = sorted(set(classes) - set(shown), key=names.order)
    return ", ".join(map(names.of, [*shown, *others])) or "in no named class"


def left_out_text(story):
    """How many steps of a refutation are not told."""
    steps = f"{counted(story.left_out, 'step')} of the certificate that no contradiction needs"
    return f"({steps} {'is' if story.left_out == 1 else 'are'} left out.)"
