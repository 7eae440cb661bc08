"""The workflow of `examples/corpus`, run by Snakemake where that is there."""
import html
import re
import shutil
import subprocess
import tempfile
import unittest
from html.parser import HTMLParser
from pathlib import Path

from shq_tools.places import EXAMPLES
from tests.program import needs_program

FOLDER = EXAMPLES / "corpus"
VOID = {"meta"}
CONFIG = """files:
  pumps: {examples}/contradiction/ontology.ofn
  ward: {examples}/ward/ontology.ofn
  damaged: {examples}/refused/damaged.ofn
  counted: {examples}/refused/counted.ofn
seconds: 60
"""


class Balance(HTMLParser):
    """Notes the elements that are open, and those that end where they do not stand."""

    def __init__(self):
        super().__init__()
        self.open, self.faults, self.ids = [], [], []

    def handle_starttag(self, tag, attrs):
        self.open += [] if tag in VOID else [tag]
        self.ids += [value for name, value in attrs if name == "id"]

    def handle_endtag(self, tag):
        if not self.open or self.open.pop() != tag:
            self.faults.append(tag)


def text_of(page):
    return html.unescape(re.sub("<[^>]*>", "", page))


@needs_program
@unittest.skipUnless(shutil.which("snakemake"), "snakemake is not here")
class Corpus(unittest.TestCase):
    def test_every_file_has_its_part_of_the_page(self):
        with tempfile.TemporaryDirectory() as room:
            config = Path(room) / "config.yaml"
            config.write_text(CONFIG.format(examples=EXAMPLES), encoding="utf-8")
            command = ["snakemake", "-s", FOLDER / "Snakefile", "-j", "2", "--directory", room, "--configfile", config]
            environment = {
                "XDG_CACHE_HOME": room,
                "HOME": room,
                "PATH": f"{Path(shutil.which('python3')).parent}:/usr/bin:/bin",
            }
            ran = subprocess.run(command, env=environment, capture_output=True, check=False)
            self.assertEqual(ran.returncode, 0, ran.stderr.decode()[-2000:])
            out = Path(room) / "corpus-out"
            page = (out / "index.html").read_text(encoding="utf-8")
            made = sorted(str(it.relative_to(out)) for it in out.rglob("reasons/*.json"))
        self.assertEqual(made, ["pumps/reasons/0.json", "ward/reasons/0.json"])
        balance = Balance()
        balance.feed(page)
        self.assertEqual((balance.open, balance.faults), ([], []))
        self.assertEqual(balance.ids, ["counted", "damaged", "pumps", "ward"])
        text = text_of(page)
        self.assertIn("not read: bad text balance, line 6", text)
        self.assertIn("not read: outside not-simple, line 4", text)
        self.assertIn("MagneticPump: reasons: 1", text)
        self.assertIn("owl:Thing: reasons: 1", text)
        self.assertIn("line 7: SubClassOf(ShaftSeal Seal)", text)

    def test_the_whole_corpus_can_be_planned(self):
        with tempfile.TemporaryDirectory() as room:
            command = ["snakemake", "-s", FOLDER / "Snakefile", "-n", "-q", "--directory", room]
            ran = subprocess.run(command, capture_output=True, check=False)
        self.assertEqual(ran.returncode, 0, ran.stderr.decode()[-2000:])
