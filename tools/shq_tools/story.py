"""A refutation, told step by step.

The lines are followed with the facts of each branch, so that each sentence says what a line adds. Each individual of
the ontology is a thing, in the order in which they are listed. What is supposed of the thing in question is told by
what the lines need and no line adds, since the certificate itself does not have it. Only the steps that lead to a
contradiction are told: a search makes others too.
"""
from dataclasses import dataclass, field

from shq_tools.answers import Unread, number_of
from shq_tools.manchester import class_text, name_text
from shq_tools.normal_forms import complement, facts, normal, row
from shq_tools.story_domains import with_domains_told
from shq_tools.terms import BOTTOM, TOP


@dataclass
class Case:
    """One of the cases into which a step leads: what is supposed in it, and its steps."""

    title: str
    steps: list = field(default_factory=list)


@dataclass(eq=False)
class Step:
    """A sentence, by the line of the certificate, and the cases behind it. The last one of a case is a contradiction.

    `because` has the steps that it stands on, `supposes` what it needs of one thing that no step adds, `axiom` the
    axiom that it uses, `roles` those along which it goes, and `carried` the one that is transitive. A step that takes
    an intersection apart `is_silent`: it says the same once more.

    `whole` is the class expression that a step takes apart, `things` those that it speaks of, and `other` the one to
    which a role leads there. A step by the domain of a role has that role as its `domain`.
    """

    line: int
    text: str = ""
    cases: list = field(default_factory=list)
    is_contradiction: bool = False
    because: list = field(default_factory=list)
    supposes: list = field(default_factory=list)
    axiom: int = None
    roles: tuple = ()
    carried: tuple = ()
    is_silent: bool = False
    whole: tuple = None
    things: tuple = ()
    other: int = None
    domain: str = ""


@dataclass
class Story:
    """What is supposed, the steps that are told, and how many are not.

    Then the axioms that the told steps use, the roles along which they go, those that are transitive there, and whether
    every line had what it needs. Last, the things one of which is in question, where something is supposed of one.
    """

    supposed: list
    steps: list
    left_out: int
    axioms: set
    roles: set
    carried: set
    is_sound: bool
    asked: tuple = ()


class Branch:
    """What is known in a branch: which things are in which classes by which steps, and which things are the same.

    `made` has the steps that made things, and `told` those by which two things are the same or different, or a role
    leads from one to the other.
    """

    def __init__(self):
        self.classes = {0: {TOP: None}}
        self.leader = {0: 0}
        self.made = {}
        self.told = []

    def copy(self):
        new = Branch()
        new.classes = {thing: dict(them) for thing, them in self.classes.items()}
        new.leader, new.made, new.told = dict(self.leader), dict(self.made), list(self.told)
        return new

    def of(self, thing):
        """The least thing that is the same as this one."""
        return self.leader.setdefault(thing, thing)

    def same_as(self, thing):
        """All things that are the same as this one."""
        return {it for it in self.leader if self.of(it) == self.of(thing)}

    def has(self, thing, expression):
        return expression == TOP or expression in self.classes.get(self.of(thing), ())

    def origin(self, thing, expression):
        """The step that put a thing into a class, or None."""
        return self.classes.get(self.of(thing), {}).get(expression)

    def put(self, thing, expression, step):
        self.classes.setdefault(self.of(thing), {}).setdefault(expression, step)

    def tells_of(self, *things):
        """The steps that tell how these things are related, among themselves or with what is the same as one."""
        leaders = {self.of(it) for it in things}
        return [step for one, other, step in self.told if {self.of(one), self.of(other)} <= leaders]

    def join(self, one, other):
        low, high = sorted((self.of(one), self.of(other)))
        for thing, leader in self.leader.items():
            if leader == high:
                self.leader[thing] = low
        for expression, step in self.classes.pop(high, {}).items():
            self.put(low, expression, step)


def list_text(words):
    """Words as a list: `a`, `a and b`, `a, b and c`."""
    words = list(words)
    return " and ".join(filter(None, [", ".join(words[:-1]), *words[-1:]]))


def is_plain(expression):
    """Whether a class expression is a name, or says something of names alone."""
    if expression[0] in ("and", "or"):
        return all(map(is_plain, expression[1]))
    return expression[0] in ("top", "bottom", "name") or expression[0] == "not" and is_plain(expression[1])


def all_steps(steps):
    """All steps, those of the cases too."""
    left = list(reversed(steps))
    while left:
        step = left.pop()
        yield step
        for case in reversed(step.cases):
            left += reversed(case.steps)


def needed_steps(steps):
    """The contradictions, the splits into cases, and all that these stand on."""
    needed = {step for step in all_steps(steps) if step.is_contradiction or step.cases}
    left = list(needed)
    while left:
        new = [it for it in left.pop().because if it not in needed]
        needed.update(new)
        left += new
    return needed


def keep(steps, needed):
    """Leaves out the steps that are not needed, in the cases too."""
    lists = [steps]
    while lists:
        here = lists.pop()
        here[:] = [it for it in here if it in needed]
        lists += [case.steps for step in here for case in step.cases]


class Teller:
    """Follows the lines of a refutation."""

    def __init__(self, refutation, axioms, names, individuals=()):
        self.refutation = refutation
        self.axioms = axioms
        self.names = names
        self.individuals = list(individuals)
        self.is_sound = True
        self.asked = None

    def concept(self, word):
        number = number_of(word)
        if number not in self.refutation.concepts:
            raise Unread(f"concept {number} is not there")
        return self.refutation.concepts[number]

    def being(self, *expressions):
        """What something is that is in these classes."""
        members = [it for one in expressions for it in (one[1] if one[0] == "and" else (one,))]
        texts = [(it, class_text(it, self.names)) for it in members]
        return list_text(text if is_plain(it) else f"in ({text})" for it, text in texts)

    def thing(self, number):
        """What a thing is called: an individual by its name."""
        number = int(number)
        return name_text(self.individuals[number], self.names) if number < len(self.individuals) else f"thing {number}"

    def is_text(self, thing, *expressions):
        return f"{self.thing(thing)} is {self.being(*expressions)}"

    def which_is(self, expression, how):
        """A clause that says in which class something is; none where every thing is in it."""
        return "" if expression == TOP else f", {how} {self.being(expression)}"

    def need(self, branch, step, thing, expression):
        """Notes on what a step stands, and what it supposes of the thing in question where no step before it adds
        that.
        """
        step.because += branch.tells_of(thing)
        if not branch.has(thing, expression):
            same = branch.same_as(thing)
            self.asked = same if self.asked is None else self.asked & same
            self.is_sound = self.is_sound and bool(self.asked)
            step.supposes.append(expression)
            return
        step.because += filter(None, [branch.origin(thing, expression)])

    def know(self, branch, step, *things):
        """Notes that a step speaks of these things, which other steps made, and of how they are related."""
        step.because += [branch.made[it] for it in things if it in branch.made] + branch.tells_of(*things)

    def steps(self):
        """All steps of the refutation."""
        first = self.refutation.lines[0] if self.refutation.lines else None
        if first is None or first.rule != "start":
            raise Unread("the refutation does not begin with the line start")
        steps = []
        open_cases = [(Branch(), steps)]
        for line in self.refutation.lines[1:]:
            if not open_cases:
                raise Unread(f"line {line.number} stands behind the last case")
            branch, here = open_cases.pop()
            step = Step(line.number)
            here.append(step)
            branches = self.step(line, branch, step)
            lists = [case.steps for case in step.cases] or [here]
            open_cases += reversed(list(zip(branches, lists)))
        self.is_sound = self.is_sound and not open_cases
        return steps

    def tell(self):
        """The story, without the steps that are not needed."""
        steps = self.steps()
        found = list(all_steps(steps))
        # the line start puts one thing into two classes: the left one of the statement, and what the right one leaves
        self.is_sound = self.is_sound and len({it for step in found for it in step.supposes}) <= 2
        needed = needed_steps(steps)
        keep(steps, needed)
        told = list(all_steps(steps))
        keep(steps, {it for it in told if not it.is_silent})
        supposed = list(dict.fromkeys(it for step in told for it in step.supposes))
        axioms = {step.axiom for step in told if step.axiom is not None}
        roles = {it for step in told for it in step.roles}
        carried = {it for step in told for it in step.carried}
        left_out, asked = len(found) - len(told), tuple(sorted(self.asked or ()))
        at_once = with_domains_told(self, steps)
        keep(steps, {it for it in all_steps(steps) if it not in at_once})
        return Story(supposed, steps, left_out, axioms, roles, carried, self.is_sound, asked)

    def step(self, line, branch, step):
        """Tells a line, and returns the branches behind it."""
        tells = getattr(self, f"tell_{line.rule}", None)
        if tells is None:
            raise Unread(f"line {line.number} is no rule line")
        return tells(branch, step, *line.words)

    def adds(self, branch, step, text, facts):
        """A step that adds that some things are in some classes."""
        step.text = text
        for thing, expression in facts:
            branch.put(thing, expression, step)
        return [branch]

    def splits(self, branch, step, text, cases):
        """A step into cases, each with its title and a call that changes its branch."""
        step.text = text
        step.cases = [Case(title) for title, _ in cases]
        branches = [branch.copy() for _ in cases]
        for inner, (_, change) in zip(branches, cases):
            change(inner)
        return branches

    def closes(self, step, text):
        text = f"T{text[1:]}" if text.startswith("thing") else text
        step.text, step.is_contradiction = f"{text}: a contradiction.", True
        return []

    def puts(self, thing, expression, step):
        return lambda branch: branch.put(thing, expression, step)

    def tell_and(self, branch, step, thing, concept):
        whole = self.concept(concept)
        self.need(branch, step, int(thing), whole)
        step.is_silent = True
        return self.adds(branch, step, f"So {self.is_text(thing, *whole[1])}.", [(int(thing), it) for it in whole[1]])

    def tell_or(self, branch, step, thing, concept):
        whole = self.concept(concept)
        self.need(branch, step, int(thing), whole)
        step.whole = whole
        cases = [(self.is_text(thing, it), self.puts(int(thing), it, step)) for it in whole[1]]
        return self.splits(branch, step, f"Now {self.is_text(thing, whole)}: {len(cases)} cases.", cases)

    def tell_all(self, branch, step, thing, other, concept):
        whole = self.concept(concept)
        self.need(branch, step, int(thing), whole)
        self.know(branch, step, int(thing), int(other))
        step.roles, step.other = (whole[1],), int(other)
        why = f"Since {self.is_text(thing, whole)}, and {self.thing(other)} is one of these"
        return self.adds(branch, step, f"{why}, {self.is_text(other, whole[2])}.", [(int(other), whole[2])])

    def tell_carry(self, branch, step, thing, other, role, concept):
        whole, role = self.concept(concept), role[1:-1]
        self.need(branch, step, int(thing), whole)
        self.know(branch, step, int(thing), int(other))
        step.roles, step.carried = (whole[1], role), (role,)
        carried = ("all", role, whole[2])
        why = f"Since {self.is_text(thing, whole)}, and {name_text(role, self.names)} is transitive"
        return self.adds(branch, step, f"{why}, {self.is_text(other, carried)}.", [(int(other), carried)])

    def unknown_axiom(self, branch, step, axiom, thing):
        step.text = f"Axiom {axiom} says more of {self.thing(thing)}."
        return [branch]

    def tell_row(self, branch, step, thing, axiom, part, *positions):
        step.axiom = int(axiom)
        if step.axiom not in self.axioms:
            return self.unknown_axiom(branch, step, axiom, thing)
        axiom_used = self.axioms[step.axiom]
        step.things = (int(thing),)
        step.domain = axiom_used.items[0] if axiom_used.keyword == "ObjectPropertyDomain" else ""
        needed, added = row(axiom_used, int(part), list(map(int, positions)))
        self.know(branch, step, int(thing))
        for expression in needed:
            self.need(branch, step, int(thing), expression)
        since = f"{self.is_text(thing, *needed)}, so it" if needed else self.thing(thing)
        return self.adds(branch, step, f"By axiom {axiom}: {since} is {self.being(added)}.", [(int(thing), added)])

    def tell_range(self, branch, step, thing, other, axiom):
        step.axiom = int(axiom)
        if step.axiom not in self.axioms:
            return self.unknown_axiom(branch, step, axiom, other)
        self.know(branch, step, int(thing), int(other))
        role, filler = self.axioms[step.axiom].items
        step.roles, filler = (role,), normal(filler)
        leads = f"{name_text(role, self.names)} leads from {self.thing(thing)} to {self.thing(other)}"
        text = f"By axiom {axiom}: {leads}, so {self.is_text(other, filler)}."
        return self.adds(branch, step, text, [(int(other), filler)])

    def tell_some(self, branch, step, thing, other, concept):
        whole = self.concept(concept)
        self.need(branch, step, int(thing), whole)
        branch.made[int(other)] = step
        leads = f"{name_text(whole[1], self.names)} leads from it to a thing {other}"
        text = f"Since {self.is_text(thing, whole)}, {leads}{self.which_is(whole[2], 'which is')}."
        return self.adds(branch, step, text, [(int(other), whole[2])])

    def tell_least(self, branch, step, thing, other, concept):
        whole = self.concept(concept)
        self.need(branch, step, int(thing), whole)
        others = range(int(other), int(other) + whole[1])
        branch.made.update(dict.fromkeys(others, step))
        leads = f"{name_text(whole[2], self.names)} leads from it to {whole[1]} different things"
        things = f"{others[0]} to {others[-1]}{self.which_is(whole[3], 'each of which is')}"
        text = f"Since {self.is_text(thing, whole)}, {leads}, {things}."
        return self.adds(branch, step, text, [(it, whole[3]) for it in others])

    def tell_choose(self, branch, step, thing, concept):
        chosen = self.concept(concept)
        self.know(branch, step, int(thing))
        both = (chosen, complement(chosen))
        cases = [(self.is_text(thing, it), self.puts(int(thing), it, step)) for it in both]
        return self.splits(branch, step, f"Either {self.is_text(thing, chosen)}, or it is not.", cases)

    def tell_pair(self, branch, step, one, other):
        self.know(branch, step, int(one), int(other))
        both = self.both(one, other)
        cases = [
            (f"{both} are the same", lambda inner: inner.join(int(one), int(other))),
            (f"{both} are different", lambda inner: None),
        ]
        return self.splits(branch, step, f"Either {both} are the same, or they are different.", cases)

    def both(self, one, other):
        """Two things by their names, or by their numbers where neither has one."""
        if min(int(one), int(other)) >= len(self.individuals):
            return f"things {one} and {other}"
        return f"{self.thing(one)} and {self.thing(other)}"

    def tell_fact(self, branch, step, axiom, place):
        step.axiom = int(axiom)
        if step.axiom not in self.axioms:
            step.text = f"Axiom {axiom} says something of individuals."
            return [branch]
        kind, *operands = facts(self.axioms[step.axiom])[int(place) - 1]
        return getattr(self, f"tell_{kind}_fact")(branch, step, *operands)

    def number(self, individual):
        """The thing that an individual is."""
        if individual not in self.individuals:
            raise Unread(f"{individual} is no individual of the ontology")
        return self.individuals.index(individual)

    def tell_is_fact(self, branch, step, individual, expression):
        thing = self.number(individual)
        text = f"By axiom {step.axiom}: {self.is_text(thing, expression)}."
        return self.adds(branch, step, text, [(thing, expression)])

    def tell_leads_fact(self, branch, step, role, one, other):
        step.roles = (role,)
        one, other = self.number(one), self.number(other)
        leads = f"{name_text(role, self.names)} leads from {self.thing(one)} to {self.thing(other)}"
        step.text = f"By axiom {step.axiom}: {leads}."
        branch.told.append((one, other, step))
        return [branch]

    def tell_same_fact(self, branch, step, one, other):
        one, other = self.number(one), self.number(other)
        step.text = f"By axiom {step.axiom}: {self.both(one, other)} are the same."
        branch.join(one, other)
        branch.told.append((one, other, step))
        return [branch]

    def tell_apart_fact(self, branch, step, one, other):
        one, other = self.number(one), self.number(other)
        step.text = f"By axiom {step.axiom}: {self.both(one, other)} are different."
        branch.told.append((one, other, step))
        return [branch]

    def tell_differ(self, branch, step, one, other):
        self.know(branch, step, int(one), int(other))
        return self.closes(step, f"{self.both(one, other)} are the same, and are different")

    def tell_bottom(self, branch, step, thing):
        self.need(branch, step, int(thing), BOTTOM)
        return self.closes(step, self.is_text(thing, BOTTOM))

    def tell_clash(self, branch, step, thing, concept):
        name = self.concept(concept)
        self.need(branch, step, int(thing), name)
        self.need(branch, step, int(thing), complement(name))
        text = class_text(name, self.names)
        return self.closes(step, f"{self.thing(thing)} is {text}, and is not {text}")

    def tell_most(self, branch, step, thing, concept, *others):
        whole = self.concept(concept)
        self.need(branch, step, int(thing), whole)
        for other in map(int, others):
            self.need(branch, step, other, whole[3])
        self.know(branch, step, int(thing), *map(int, others))
        step.roles = (whole[2],)
        found = f"{self.all_of(others)} are {len(others)} different ones"
        return self.closes(step, f"{self.is_text(thing, whole)}, but {found}")

    def all_of(self, numbers):
        """Some things by their names, or by their numbers where none has one."""
        if min(map(int, numbers)) >= len(self.individuals):
            return f"things {list_text(numbers)}"
        return list_text(map(self.thing, numbers))


def damage_as_unread(call):
    """Calls, and raises `Unread` for a line that is damaged."""
    try:
        return call()
    except (IndexError, TypeError, ValueError) as fault:
        raise Unread("the refutation is damaged") from fault


def story_of(refutation, axioms, names, individuals=()):
    """The story of a refutation over these axioms, by their numbers, and the individuals of their ontology in order.
    Raises `Unread` where a line is no rule line.
    """
    return damage_as_unread(Teller(refutation, axioms, names, individuals).tell)


def all_told(refutation, names):
    """All steps of a refutation whose axioms are not known. Raises `Unread` where a line is no rule line."""
    return damage_as_unread(Teller(refutation, {}, names).steps)
