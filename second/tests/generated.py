"""Random documents and questions, and certificates with one thing damaged."""
import random

HEAD = "Prefix(:=<http://e.org/>)\nOntology(<http://e.org/o>\n"
WAYS = ["drop line", "repeat line", "move line", "word", "drop word", "add word", "number", "number", "number"]
CLASSES, ROLES, INDIVIDUALS = [":A", ":B", ":C", ":D", ":E"], [":r", ":s", ":t"], [":a", ":b", ":c"]


def expression(dice, depth):
    """A random class expression."""
    if depth == 0 or dice.random() < 0.4:
        return dice.choice(CLASSES * 3 + ["owl:Thing", "owl:Nothing"])
    role, inner = dice.choice(ROLES), expression(dice, depth - 1)
    number = dice.choice([0, 1, 1, 2, 2, 3])
    return dice.choice(
        [
            f"ObjectIntersectionOf({inner} {expression(dice, depth - 1)})",
            f"ObjectUnionOf({inner} {expression(dice, depth - 1)})",
            f"ObjectComplementOf({inner})",
            f"ObjectSomeValuesFrom({role} {inner})",
            f"ObjectSomeValuesFrom({role} {inner})",
            f"ObjectAllValuesFrom({role} {inner})",
            f"ObjectMinCardinality({number} {role} {inner})",
            f"ObjectMaxCardinality({number} {role} {inner})",
            f"ObjectExactCardinality({number} {role} {inner})",
            f"ObjectMaxCardinality({number} {role})",
        ]
    )


def axiom(dice):
    """A random axiom."""
    one, other = expression(dice, 2), expression(dice, 2)
    several = " ".join(dice.sample(CLASSES, dice.randint(2, 4)))
    roles, people = dice.sample(ROLES, 2), dice.sample(INDIVIDUALS, 2)
    rare = [
        f"EquivalentClasses({one} {other})",
        f"DisjointClasses({several})",
        f"DisjointUnion({dice.choice(CLASSES)} {several})",
        f"SubObjectPropertyOf({' '.join(roles)})",
        f"EquivalentObjectProperties({' '.join(roles)})",
        f"ObjectPropertyDomain({roles[0]} {one})",
        f"ObjectPropertyRange({roles[0]} {one})",
        f"FunctionalObjectProperty({roles[0]})",
        f"TransitiveObjectProperty({roles[0]})",
        f"SameIndividual({' '.join(people)})",
        f"DifferentIndividuals({' '.join(INDIVIDUALS)})",
    ]
    often = [f"SubClassOf({dice.choice(CLASSES)} {one})", f"SubClassOf({one} {other})"]
    facts = [f"ClassAssertion({one} {people[0]})", f"ObjectPropertyAssertion({roles[0]} {' '.join(people)})"]
    return dice.choice(rare + 6 * often + 3 * facts)


def document(dice):
    """A random document."""
    return (HEAD + "".join(axiom(dice) + "\n" for _ in range(dice.randint(1, 9))) + ")\n").encode("utf-8")


def question(dice):
    """A random question."""
    if dice.random() < 0.25:
        return f"ClassAssertion({expression(dice, 1)} {dice.choice(INDIVIDUALS)})"
    return f"SubClassOf({expression(dice, 1)} {expression(dice, 1)})"


def other_number(dice, word):
    """Another number than the one that a word is."""
    return str(max(0, int(word) + dice.choice([-2, -1, 1, 1, 2, 7])))


def damaged(dice, text):
    """A text with one line, word or number changed."""
    lines = text.decode("utf-8").splitlines()
    at = dice.randrange(len(lines))
    words = lines[at].split(" ")
    place = dice.randrange(len(words))
    numbers = [number for number, word in enumerate(words) if word.isdigit()]
    way = dice.choice(WAYS)
    if way == "drop line":
        del lines[at]
    elif way == "repeat line":
        lines.insert(dice.randrange(len(lines) + 1), lines[at])
    elif way == "move line":
        lines.insert(dice.randrange(len(lines)), lines.pop(at))
    elif way == "drop word":
        del words[place]
    elif way == "add word":
        words.insert(place, dice.choice(dice.choice(lines).split(" ")))
    elif way == "word" or not numbers:
        words[place] = dice.choice(dice.choice(lines).split(" "))
    else:
        place = dice.choice(numbers)
        words[place] = other_number(dice, words[place])
    if way not in ("drop line", "repeat line", "move line"):
        lines[at] = " ".join(words)
    return "".join(it + "\n" for it in lines).encode("utf-8")


def of_seed(seed):
    """The random choices of a seed."""
    return random.Random(seed)
