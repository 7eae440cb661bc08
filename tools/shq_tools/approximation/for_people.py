"""A translation as people read it: its new names, the axioms of the file behind its own, what an answer is worth."""
import re
from collections import Counter

from shq_tools.approximation.display import owl_axiom_text, shown_names
from shq_tools.approximation.new_names import is_new
from shq_tools.approximation.summary import lines_of
from shq_tools.caveats import NO_CAVEAT, Caveat
from shq_tools.names import Names

OF_THE_TRANSLATION = "This holds of the translation alone: the whole file may say more."
SEEN_TO_BE_TRANSLATED = Caveat(
    ("This answer has names that --approximate makes, so it is to a translation of a file. With --approximate and "
     "--labels FILE, read tells what that leaves out.",),
    says=OF_THE_TRANSLATION,
)


def names_of(ontology, labels, language=""):
    """The names of an ontology. A new one is shown as what it means, and no list has it."""
    new = [it for it in ontology.names if is_new(it)]
    plain = Names(labels, language, [it for it in ontology.names if not is_new(it)])
    shown = shown_names(new, plain)
    return Names(labels, language, ontology.names, shown, shown) if shown else plain


def new_forms(text, names):
    """What the new names mean that stand in an answer, by their IRIs."""
    return shown_names(set(filter(is_new, re.findall(r"<([^<>\s]*)>", text))), names)


def caveat_of(found):
    """What to say of an answer to a translation."""
    if found.losses.is_exact:
        return NO_CAVEAT
    return Caveat(tuple(lines_of(found)), says=OF_THE_TRANSLATION)


def originals_of(found, names):
    """By line, the axiom of the file in place of which others stand. A line with several axioms has none."""
    count = Counter(it.axiom.line for it in found.sources)
    changed = [it.axiom for it in found.sources if it.written and count[it.axiom.line] == 1]
    return {it.line: owl_axiom_text(it, names) for it in changed}
