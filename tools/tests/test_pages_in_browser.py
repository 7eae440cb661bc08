"""Pages in a real browser: search, folding, links, copying, paper, narrow windows, and accessibility, by rules of this
folder and by those of axe, which Chromium's developer tools have.

The reports are those of three examples: one with a contradictory class, one with individuals, and one that is
contradictory as a whole; then a larger one, and the pages of single answers.
"""
import tempfile
import unittest
from pathlib import Path

from shq_tools.asker import Asker
from shq_tools.places import EXAMPLES
from tests.browser import Browser, needs_browser
from tests.program import needs_program
from tests.test_answers import CASES, CASES_ONTOLOGY, E, FACTS, FACTS_ONTOLOGY, INSTANCES, LISTS, MODEL, REALIZATION
from tests.test_answers import REASONS, SCRIPTED, TAXONOMY, shown
from tests.test_report import CHAIN_ANSWERS, report
from shq_tools.report import given_of, report_on
from shq_tools.report_page import page_of_report

RULES = (Path(__file__).parent / "accessibility.js").read_text(encoding="utf-8")
SHOWN_ENTRIES = """Array.from(document.querySelectorAll("[data-entry]")).filter((it) => it.checkVisibility()).map(
(it) => (it.querySelector(":scope > details > summary, :scope > summary, th") || it).textContent.trim())"""
WINDOWS = ({}, {"is_dark": True, "width": 390, "height": 800})


def report_of(path, change=lambda data: data):
    """The page of a report on an example."""
    with Asker() as asker:
        return page_of_report(report_on(given_of(change(path.read_bytes()), path.name), asker))


def without_line(number):
    """Takes a line out of a text."""
    return lambda data: b"\n".join(line for at, line in enumerate(data.split(b"\n"), 1) if at != number)


class InBrowser(unittest.TestCase):
    """Opens pages in one browser, and ends each test with a look at what went wrong in them."""

    @classmethod
    def setUpClass(cls):
        cls.room = tempfile.TemporaryDirectory(prefix="shq-pages-")
        cls.browser = Browser()
        cls.axe = cls.browser.axe()
        cls.pages = {name: cls.kept(name, page) for name, page in cls.made().items()}

    @classmethod
    def tearDownClass(cls):
        cls.browser.close()
        cls.room.cleanup()

    @classmethod
    def kept(cls, name, page):
        path = Path(cls.room.name) / f"{name}.html"
        path.write_text(page, encoding="utf-8")
        return path

    def opened(self, name, **how):
        """A page in a tab; at the end nothing has gone wrong there, and nothing was asked for but the page."""
        tab = self.browser.page(self.pages[name], **how)
        self.addCleanup(self.close, tab, self.pages[name])
        return tab

    def close(self, tab, path):
        tab.value("0")
        self.assertEqual(tab.complaints(), [])
        self.assertEqual([it.partition("#")[0] for it in tab.requests()], [path.as_uri()])
        tab.close()

    def meets_all_rules(self, name, windows=WINDOWS):
        """Whether a page breaks no rule of the list, and none of axe where the browser has it."""
        for how in windows:
            with self.subTest(name=name, how=how):
                tab = self.opened(name, **how)
                self.assertEqual(tab.value(RULES), [])
                self.assertEqual(tab.breaks_by_axe(self.axe) if self.axe else [], [])


@needs_browser
@needs_program
class Reports(InBrowser):
    @classmethod
    def made(cls):
        ward = EXAMPLES / "ward" / "ontology.ofn"
        return {
            "contradiction": report_of(EXAMPLES / "contradiction" / "ontology.ofn"),
            "ward": report_of(ward, without_line(13)),
            "inconsistent": report_of(ward),
        }

    def test_rules(self):
        for name in self.pages:
            self.meets_all_rules(name)

    def test_a_page_that_breaks_rules_is_found(self):
        if not self.axe:
            self.skipTest("this browser does not have axe, so pages are tried by the rules of this folder alone")
        tab = self.opened("contradiction")
        tab.value("document.querySelector('main').append(document.createElement('img'))")
        tab.value("document.querySelector('h1').style.color = '#bbb'")
        broken = {it.partition(":")[0] for it in tab.breaks_by_axe(self.axe)}
        self.assertEqual(broken, {"image-alt", "color-contrast"})
        self.assertEqual({it.partition(" ")[0].rstrip(":") for it in tab.value(RULES)}, {"pictures", "contrast"})

    def test_search(self):
        tab = self.opened("contradiction")
        everything = tab.value(SHOWN_ENTRIES)
        self.assertIn("CentrifugalPump", everything)
        tab.type_into("#search", "seal")
        self.assertEqual(tab.value(SHOWN_ENTRIES), ["Seal", "BearingSeal", "ShaftSeal"])
        self.assertEqual(tab.value("document.getElementById('found').textContent"), "3 found")
        # what is searched for stays with what it stands in; an IRI is found too
        tab.type_into("#search", "pumps#bearing")
        self.assertEqual(tab.value(SHOWN_ENTRIES), ["Seal", "BearingSeal"])
        self.assertFalse(tab.value("document.getElementById('contradictory').checkVisibility()"))
        tab.type_into("#search", "nothing like this")
        self.assertEqual(tab.value(SHOWN_ENTRIES), [])
        tab.type_into("#search", "")
        self.assertEqual(tab.value(SHOWN_ENTRIES), everything)

    def test_search_finds_individuals(self):
        tab = self.opened("ward")
        tab.type_into("#search", "PUMP")
        self.assertEqual(tab.value(SHOWN_ENTRIES), ["InfusionDevice", "SyringePump", "device_231", "pump_4"])

    def test_folding(self):
        tab = self.opened("contradiction")
        tree = "Array.from(document.querySelectorAll('#tree details')).map((it) => it.open)"
        tab.click("[data-fold=close]")
        self.assertEqual(tab.value(tree), [False, False])
        tab.click("[data-fold=open]")
        self.assertEqual(tab.value(tree), [True, True])
        tab.click("#tree summary")
        self.assertEqual(tab.value(tree), [False, True])

    def test_links_open_what_they_lead_to(self):
        tab = self.opened("contradiction")
        tab.click("[data-fold=close]")
        place = tab.value("document.querySelector(\"#tree [title$='#ShaftSeal']\").id")
        self.assertFalse(tab.value(f"document.getElementById('{place}').checkVisibility()"))
        tab.click(f"li a[href='#{place}']")
        self.assertTrue(tab.value(f"document.getElementById('{place}').checkVisibility()"))
        self.assertTrue(tab.value(f"""(() => {{ const box = document.getElementById('{place}').getBoundingClientRect();
            return box.top >= 0 && box.bottom <= window.innerHeight; }})()"""))
        # the second time the address stays as it is
        tab.click("[data-fold=close]")
        tab.click(f"li a[href='#{place}']")
        self.assertTrue(tab.value(f"document.getElementById('{place}').checkVisibility()"))

    def test_a_link_ends_a_search_that_hides_its_place(self):
        tab = self.opened("contradiction")
        tab.type_into("#search", "MagneticPump")
        place = tab.value("document.querySelector(\"#tree [title$='#ShaftSeal']\").id")
        tab.click(f"li a[href='#{place}']")
        self.assertTrue(tab.value(f"document.getElementById('{place}').checkVisibility()"))

    def test_iris_and_statements(self):
        tab = self.opened("contradiction")
        self.assertEqual(tab.value("document.querySelector('#tree [id]').title"), "http://example.org/pumps#Pump")
        self.browser.call("Browser.grantPermissions", permissions=["clipboardReadWrite", "clipboardSanitizedWrite"])
        tab.value("window.copies = []; navigator.clipboard.writeText = (it) => { copies.push(it); return Promise.resolve(); }")
        tab.click("ol li button.copy")
        self.assertEqual(tab.value("copies"), ["MagneticPump SubClassOf CentrifugalPump"])
        self.assertEqual(tab.value("document.querySelector('ol li button.copy').textContent"), "copied")

    def test_the_keyboard_is_enough(self):
        tab = self.opened("contradiction")
        reached = []
        for _ in range(12):
            for kind in ("rawKeyDown", "keyUp"):
                tab.call("Input.dispatchKeyEvent", type=kind, key="Tab", code="Tab", windowsVirtualKeyCode=9)
            outline = "getComputedStyle(document.activeElement).outlineStyle"
            reached.append(tab.value(f"[document.activeElement.tagName, {outline}]"))
        kinds = {it[0] for it in reached}
        self.assertTrue({"A", "INPUT", "SUMMARY", "BUTTON"} <= kinds, kinds)
        self.assertEqual({it[1] for it in reached if it[0] != "BODY"}, {"solid"})

    def test_it_can_be_read_without_its_script(self):
        tab = self.opened("contradiction", has_script=False)
        snapshot = tab.call("DOMSnapshot.captureSnapshot", computedStyles=[])
        texts = [snapshot["strings"][at] for at in snapshot["documents"][0]["layout"]["text"] if at >= 0]
        self.assertTrue(any("ShaftSeal" in it for it in texts))
        self.assertFalse(any("open all" in it or it == "Search" for it in texts))

    def test_on_paper_everything_is_open(self):
        tab = self.opened("contradiction")
        tab.click("[data-fold=close]")
        tab.value("window.dispatchEvent(new Event('beforeprint'))")
        tab.call("Emulation.setEmulatedMedia", media="print")
        self.assertEqual(tab.value("document.querySelectorAll('details:not([open])').length"), 0)
        self.assertFalse(tab.value("document.querySelector('nav').checkVisibility()"))
        self.assertEqual(tab.value("Array.from(document.querySelectorAll('button')).some((it) => it.checkVisibility())"), False)
        tab.value("window.dispatchEvent(new Event('afterprint'))")
        self.assertEqual(tab.value("document.querySelectorAll('#tree details:not([open])').length"), 2)


@needs_browser
class LargeReports(InBrowser):
    @classmethod
    def made(cls):
        classes = [f"<{E}C{at}>" for at in range(3000)]
        axioms = [f"SubClassOf({one} {classes[at // 4]})" for at, one in enumerate(classes[1:])]
        tree = [f"class {one} under {classes[at // 4]}" for at, one in enumerate(classes[1:])]
        answer = "\n".join(["consistent", "nothing", "thing", f"class {classes[0]} under owl:Thing", *tree, ""])
        return {
            "large": report(data="Ontology(\n" + "\n".join(axioms) + "\n)\n", answers={"classify": answer})[0],
            "chain": report(answers=CHAIN_ANSWERS)[0],
        }

    def test_three_thousand_classes_are_searched_in_no_time(self):
        tab = self.opened("large")
        tab.type_into("#search", "c2999")
        above = [2999]
        while above[0]:
            above.insert(0, (above[0] - 1) // 4)
        self.assertEqual(tab.value(SHOWN_ENTRIES), [f"C{it}" for it in above])
        took = tab.value("""(() => { const begun = performance.now(); const field = document.getElementById("search");
            field.value = "c1"; field.dispatchEvent(new Event("input")); return new Promise((done) => setTimeout(() =>
            requestAnimationFrame(() => done(performance.now() - begun)), 100)); })()""")
        self.assertLess(took, 5_000)

    def test_rules(self):
        self.meets_all_rules("chain", WINDOWS[:1])


@needs_browser
class SingleAnswers(InBrowser):
    @classmethod
    def made(cls):
        texts = {"lists": LISTS, "taxonomy": TAXONOMY, "realization": REALIZATION, "reasons": REASONS}
        texts |= {"instances": INSTANCES, "scripted": SCRIPTED, "undecided": "undecided\n", "model": MODEL}
        pages = {name: shown(text, b"", "--html")[0] for name, text in texts.items()}
        pages["cases"] = shown(CASES, CASES_ONTOLOGY, "--html")[0]
        pages["facts"] = shown(FACTS, FACTS_ONTOLOGY, "--html", "--query", "ClassAssertion(:B :k)")[0]
        pages["told"] = shown(MODEL, b"", "--html", "--query", f"<{E}A>")[0]
        return pages

    def test_rules(self):
        for name in self.pages:
            self.meets_all_rules(name)
