"""The second checker says what the program says: of the cases, the examples, and random certificates and audits."""
import re
import unittest

from tests.agreement import Agreement, compare_on
from tests.cases import TOP, runs
from tests.program import by_checker, by_command, by_program, needs_program

EXAMPLES = TOP / "examples"
REFUSED = ("BadText", "Outside", "Limit")
# How many random questions are asked in the gate; second/agree asks more.
RANDOM_QUESTIONS = 40


class Cases(unittest.TestCase):
    def test_certificates_and_audits(self):
        count = 0
        for run in runs():
            if run.words[:1] in (("check",), ("audit",)) and len(run.words) == 2:
                count += 1
                with self.subTest(case=run.name):
                    said, _ = by_checker(run.words[0], run.document, run.behind, run.words[1])
                    self.assertEqual(said.decode("utf-8").rstrip("\n"), run.said.split("; ")[0])
        self.assertGreater(count, 340)

    def test_refused_documents(self):
        """Documents that other jobs refuse are refused alike, but for what stands behind their last bracket."""
        count, behind_it = 0, 0
        for run in runs():
            said = run.said.split("; ")[0]
            if run.status in REFUSED and re.search(" line [0-9]+$", said) and run.words[0] not in ("check", "audit"):
                # a document without its last bracket ends where the input does
                behind = run.behind if "balance" in said else b""
                found = by_checker("check", run.document, behind, "SubClassOf(owl:Thing owl:Thing)")[0].decode("utf-8")
                if found == "rejected line 1\n" and said.startswith("bad text shape"):
                    behind_it += 1
                    continue
                count += 1
                with self.subTest(case=run.name):
                    self.assertEqual(found, said + "\n")
        self.assertGreater(count, 80)
        self.assertLess(behind_it, 6)


class Examples(unittest.TestCase):
    def read(self, folder, name):
        return (EXAMPLES / folder / name).read_bytes()

    def query(self, folder, name):
        return self.read(folder, f"{name}.txt").decode("utf-8").rstrip("\n")

    def test_certificates_and_audits(self):
        """What examples/run-all wants of the program is what the commands answer."""
        wanted = (EXAMPLES / "run-all").read_text("utf-8")
        found = re.findall(r"(?m)^(check|audit) (\S+) (\S+) '([^']+)'(?: ([a-z-]+))?$", wanted)
        self.assertGreaterEqual(len(found), 11)
        for job, folder, behind, said, query in found:
            with self.subTest(folder=folder, behind=behind):
                axiom = self.query(folder, query or "query")
                files = self.read(folder, "ontology.ofn"), self.read(folder, f"{behind}.txt")
                status = 0 if said.startswith("accepted") else 1
                self.assertEqual(by_command(job, *files, axiom), (said.encode("utf-8") + b"\n", status))

    def test_each_certificate_and_audit_is_among_them(self):
        """Each file of the examples that begins like a certificate or an audit is one that examples/run-all judges."""
        judged = re.findall(r"(?m)^(?:check|audit) (\S+) (\S+) '", (EXAMPLES / "run-all").read_text("utf-8"))
        begins = re.compile(r"((not )?entailed|(un)?satisfiable|audit)\n")
        found = [it for it in EXAMPLES.rglob("*.txt") if begins.match(it.read_text("utf-8"))]
        self.assertGreater(len(found), 10)
        self.assertEqual({(it.parent.name, it.stem) for it in found} - set(judged), set())

    def test_refused_documents(self):
        for name, said in re.findall(r"(?m)^refuse (\S+) '([^']+)'$", (EXAMPLES / "run-all").read_text("utf-8")):
            with self.subTest(name=name):
                data = self.read("refused", f"{name}.ofn")
                found, status = by_command("check", data, b"", "SubClassOf(:Child :Person)")
                self.assertEqual(found.decode("utf-8").rstrip("\n"), said)
                self.assertEqual(status, {"bad": 3, "outside": 4, "limit": 5}[said.split()[0]])

    @needs_program
    def test_what_the_program_prints(self):
        for folder, query in re.findall(r"(?m)^certify (\S+) (\S+)$", (EXAMPLES / "run-all").read_text("utf-8")):
            text, axiom = self.read(folder, "ontology.ofn"), self.query(folder, query)
            for job, checked in (("entails", "check"), ("evidence", "audit")):
                with self.subTest(folder=folder, query=query, job=job):
                    printed, status = by_program([job, axiom], text)
                    self.assertEqual(status, 0)
                    self.assertTrue(by_checker(checked, text, printed, axiom)[0].startswith(b"accepted "))


@needs_program
class Random(unittest.TestCase):
    def test_certificates_and_audits_whole_and_damaged(self):
        agreement = Agreement()
        for seed in range(RANDOM_QUESTIONS):
            compare_on(seed, agreement)
        self.assertEqual(agreement.lost, [])
        self.assertGreater(agreement.of_kind("whole"), RANDOM_QUESTIONS // 2)
        self.assertGreater(sum(n for (kind, _, said), n in agreement.counts.items() if said == "rejected line"), 5)
