"""The lines of certificates and audits, as docs/CERTIFICATES.md has them."""
import re
from itertools import dropwhile

from checker.interpretations import Interpretation
from checker.refutations import Refutation
from checker.syntax import ascend, need

NUMBER, NUMBERS_END, BLANK = re.compile("0|[1-9][0-9]{0,9}"), 4_294_967_296, re.compile("[ \t\r\n]*")
# What stands behind the name of a rule or a kind of concept: N a number, C a concept, R a role, A a class; the last one
# any number of times where a * follows, and at least once where a + does.
RULES = {"start": "", "fact": "NN", "and": "NC", "or": "NC", "all": "NNC", "carry": "NNRC", "row": "NNNN*",
         "range": "NNN", "some": "NNC", "least": "NNC", "choose": "NC", "pair": "NN", "differ": "NN", "bottom": "N",
         "clash": "NC", "most": "NCN+"}  # fmt: skip
CONCEPTS = {"top": "", "bottom": "", "name": "A", "not": "A", "and": "CC+", "or": "CC+", "some": "RC", "all": "RC",
            "least": "NRC", "most": "NRC"}  # fmt: skip
COUNTS = {"least": range(2, 102), "most": range(1, 101)}
LISTS = {"A": "classes", "R": "roles", "class": "classes", "role": "roles", "individual": "individuals"}


def number(word):
    """A number below 2 to the 32, without leading zeros."""
    need(NUMBER.fullmatch(word) and int(word) < NUMBERS_END)
    return int(word)


class Lines:
    """The lines behind a document; `at` is the number of the last line that was taken."""

    def __init__(self, data, reader):
        lines = data.decode("utf-8", "surrogateescape").removesuffix("\n").split("\n")
        self.lines, self.reader, self.at = list(dropwhile(BLANK.fullmatch, lines)), reader, 0

    def words(self):
        """Takes a line, and returns its words."""
        self.at += 1
        need(self.at <= len(self.lines))
        words = self.lines[self.at - 1].removesuffix("\r").split(" ")
        need("" not in words)
        return words

    def take(self, *front, count=None):
        """Takes a line with these words in front, and returns the others, which are numbers."""
        words = self.words()
        need(tuple(words[: len(front)]) == front and count in (None, len(words) - len(front)))
        return [number(it) for it in words[len(front) :]]

    def axioms(self, word):
        found = self.take(word)
        need(ascend([0, *found, len(self.reader.axioms) + 1]))
        return found

    def entries(self, word, take):
        """Takes a list of sets of axioms in their order, each with what shows it, and no more than can follow."""
        (announced,), count, found = self.take(word, count=1), len(self.reader.axioms), []
        need(announced <= 2 ** min(count, 32))
        for left in reversed(range(announced)):
            axioms = self.axioms("set")
            later = sum(2 ** min(count - it, 32) - 1 for it in (*axioms, max(axioms, default=0)))
            need((not found or found[-1][0] < axioms) and left <= later)
            found.append((axioms, take()))
        return found

    def finish(self):
        while self.at < len(self.lines):
            self.at += 1
            need(BLANK.fullmatch(self.lines[self.at - 1]))

    def name(self, word, kind):
        """The number of a name that the document or the query lists."""
        found = self.reader.names[LISTS[kind]].get(word[1:-1])
        need(word[0] + word[-1] == "<>" and found is not None)
        return found

    def model(self):
        (size,), found = self.take("model", count=1), {"class": {}, "role": {}, "individual": {}}
        need(size)
        for kind, *rest in iter(self.words, ["end"]):
            need(kind in found and len(rest) > 1 and (len(rest) == 2 or kind != "individual"))
            name, tuples = self.name(rest[0], kind), [[number(it) for it in one.split(",")] for one in rest[1:]]
            need(name not in found[kind] and ascend(tuples))
            need(all(len(it) == (2 if kind == "role" else 1) and max(it) < size for it in tuples))
            found[kind][name] = tuples if kind == "role" else [it for (it,) in tuples]
        return Interpretation(self.reader, size, *found.values())

    def refutation(self):
        self.take("refutation", count=0)
        axioms, given, seen, rules = self.axioms("axioms"), [], set(), []
        for word, *rest in iter(self.words, ["end"]):
            if word == "concept":
                need(not rules and len(rest) > 1 and number(rest[0]) == len(given) + 1 and rest[1] in CONCEPTS)
                given.append(self.concept(rest[1], *self.operands(CONCEPTS[rest[1]], rest[2:], given)))
                need(given[-1] not in seen)
                seen.add(given[-1])
            else:
                need(word in RULES)
                rules.append((self.at, word, self.operands(RULES[word], rest, given)))
        return Refutation(self.reader, axioms, rules, self.at)

    def operands(self, form, words, given):
        """What the words of a line stand for, by a form."""
        kinds = form.rstrip("*+")
        need(len(words) >= len(kinds) - form.endswith("*") and (form != kinds or len(words) == len(kinds)))
        return [self.operand(*it, given) for it in zip(kinds.ljust(len(words), kinds[-1:] or "N"), words)]

    def operand(self, kind, word, given):
        found = self.name(word, kind) if kind in LISTS else number(word)
        need(kind != "C" or 1 <= found <= len(given))
        return given[found - 1] if kind == "C" else found

    def concept(self, kind, *rest):
        """The number of a concept, which is in normal form."""
        parts = {self.reader.concepts.shapes[it][0] for it in rest} if kind in ("and", "or") else set()
        need(not parts & {"top", "bottom", kind} and (kind not in COUNTS or rest[0] in COUNTS[kind]))
        return self.reader.concepts.number((kind, *rest))
