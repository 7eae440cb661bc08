"""How long a translation takes, measured by a simple loop over the same text, since machines differ and are busy."""
import gc
import re
import time
import unittest
from functools import partial

from shq_tools.approximation.text import approximation
from shq_tools.approximation.translation import Strength
from tests.owl_grammar import document

# The axioms of an editor's file, with annotations. One line in three is outside of the language of the reasoner.
LINES = [
    "SubClassOf(:Concept_{a} :Concept_{b})",
    'AnnotationAssertion(rdfs:label :Concept_{a} "the concept of the number {a}, and what an editor says of it"@en)',
    "SubClassOf(:Concept_{a} ObjectHasValue(:relation_{c} :thing_{d}))",
    "SubClassOf(:Concept_{b} ObjectIntersectionOf(:Concept_{a} ObjectSomeValuesFrom(:relation_{c} :Concept_{d})))",
    'AnnotationAssertion(rdfs:comment :Concept_{b} "a longer text, with (brackets) and a \\"quotation\\" of {b}")',
    "EquivalentClasses(:Concept_{a} ObjectSomeValuesFrom(ObjectInverseOf(:relation_{c}) :Concept_{b}))",
    "SubClassOf(:Concept_{d} ObjectAllValuesFrom(:relation_{c} ObjectUnionOf(:Concept_{a} :Concept_{b})))",
    "ObjectPropertyAssertion(:relation_{c} :thing_{a} :thing_{d})",
    'SubClassOf(:Concept_{a} DataHasValue(:value_{c} "{d}"^^xsd:integer))',
]
# A translation takes 10 to 12 times as long as the loop. Where the loop takes 0.18 seconds for 5 MB, this is 3 seconds.
MOST_LOOPS = 17
# Four times the text takes four times as long, or somewhat more; with a quadratic step it would be sixteen times.
MOST_GROWTH = 9
WORD = re.compile(r"[^\s()]+|[()]")


def text_of(count):
    """An ontology with so many axioms, of about 80 bytes each."""
    return document([
        LINES[it % len(LINES)].format(a=it * 7 % 4001, b=it * 11 % 3989, c=it * 13 % 61, d=it * 17 % 1999)
        for it in range(count)
    ])


def loop_over(text):
    """Counts the words of a text, one by one."""
    counts = {}
    for match in WORD.finditer(text):
        word = match[0]
        counts[word] = counts.get(word, 0) + 1
    return counts


def seconds(step, given, trials=3):
    """The least processor time of some trials. Garbage is not looked for, as in the commands."""
    found = []
    for _ in range(trials):
        gc.collect()
        gc.disable()
        try:
            begun = time.process_time()
            step(given)
            found.append(time.process_time() - begun)
        finally:
            gc.enable()
    return min(found)


class Speed(unittest.TestCase):
    def test_a_translation_takes_as_long_as_some_simple_loops(self):
        text = text_of(9_000)
        self.assertGreater(len(text), 600_000)
        loops = seconds(approximation, text.encode("utf-8")) / seconds(loop_over, text)
        self.assertLess(loops, MOST_LOOPS)

    def test_the_time_grows_as_the_text_does(self):
        short, long = (text_of(count).encode("utf-8") for count in (2_250, 9_000))
        for strength in Strength:
            with self.subTest(strength=strength):
                step = partial(approximation, strength=strength)
                self.assertLess(seconds(step, long) / seconds(step, short), MOST_GROWTH)


if __name__ == "__main__":
    unittest.main()
