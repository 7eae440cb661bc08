"""Files of other syntaxes, and compressed ones, as every command meets them.

`syntaxes` has one small ontology in each syntax, written by hand. The conversion itself is tried where the OWL API is
installed; what stands around it, with a `java` that only seems to be one.
"""
import contextlib
import gzip
import os
import re
import signal
import subprocess
import sys
import tempfile
import time
import unittest
from pathlib import Path

from shq_tools.commands import COMMANDS
from shq_tools.converting import CLASS_PATH, class_path
from shq_tools.documents import axioms_of, document
from shq_tools.places import TOOLS
from shq_tools.syntaxes import SYNTAXES, Unopened, opened, syntax_of
from tests.fakes import run, shq
from tests.program import needs_program

SAMPLES = Path(__file__).parent / "syntaxes"
ENDINGS = {
    "RDF/XML": "rdf",
    "OWL/XML": "owx",
    "OBO": "obo",
    "JSON-LD": "jsonld",
    "Manchester syntax": "omn",
    "Turtle": "ttl",
    "N-Triples": "nt",
}
MARK = b"\xef\xbb\xbf"
OTHER_BEGINNINGS = {
    "RDF/XML": '<?xml version="1.0"?>\n<!DOCTYPE rdf:RDF [ <!ENTITY owl "http://www.w3.org/2002/07/owl#" > ]>\n'
               '<!-- <Ontology> -->\n<rdf:RDF xmlns="x">\n  <owl:Ontology rdf:about="y"/>',
    "OWL/XML": '<Ontology\n xmlns="http://www.w3.org/2002/07/owl#">',
    "Turtle": "# a comment\n<http://e.org/o> a <http://www.w3.org/2002/07/owl#Ontology> .\n",
    "Manchester syntax": "Ontology: <http://e.org/o>\n",
    "OBO": "! a comment\n[Term]\nid: E:1\n",
    "JSON-LD": '[ { "@id": "http://e.org/A" } ]',
    "N-Triples": "# a comment\n_:b <http://e.org/r> <http://e.org/B> .\n",
}
FUNCTIONAL = "Ontology(SubClassOf(<http://e.org/#Pump> <http://e.org/#Device>))"
NOT_THERE = {"JEZUNDWA_JARS": "/nowhere"}
# The words behind the name of each command that reads an ontology. SAMPLE stands for its file.
STATEMENT = "SubClassOf(<http://e.org/#Pump> <http://e.org/#Device>)"
WORDS = {
    **dict.fromkeys(("check", "audit", "entails", "explain", "repair", "evidence"), (STATEMENT, "SAMPLE")),
    **dict.fromkeys(("sat", "instances", "why"), ("<http://e.org/#Pump>", "SAMPLE")),
    **dict.fromkeys(("classify", "realize", "session"), ("SAMPLE",)),
    **dict.fromkeys(("profile", "cut", "approximate", "convert", "report"), ("SAMPLE",)),
    "verify": ("SAMPLE", "/dev/null"),
    "diff": ("SAMPLE", "SAMPLE"),
    "read": ("--labels", "SAMPLE"),
}


def sample(name):
    """The bytes of the sample in a syntax."""
    return (SAMPLES / f"pumps.{ENDINGS[name]}").read_bytes()


def words_on(name, file):
    """The words of a command on a file."""
    return [name, *(file if it == "SAMPLE" else it for it in WORDS[name])]


class Beginnings(unittest.TestCase):
    def test_each_syntax_has_a_sample(self):
        self.assertEqual({it.name for it in SYNTAXES}, set(ENDINGS))
        self.assertEqual(set(COMMANDS) - {"workload"}, set(WORDS))

    def test_beginnings(self):
        for name, text in OTHER_BEGINNINGS.items():
            for data in (sample(name), text.encode("utf-8")):
                for mark in (b"", MARK, b"\n \n"):
                    if not (mark.isspace() and data.startswith(b"<?xml")):
                        with self.subTest(name=name, data=data[:30], mark=mark):
                            self.assertEqual(syntax_of(mark + data).name, name)

    def test_a_file_that_is_cut_off_is_recognized(self):
        for name in ENDINGS:
            with self.subTest(name=name):
                data = sample(name)
                self.assertEqual(syntax_of(data[: len(data) // 2]).name, name)

    def test_functional_syntax(self):
        for text in (FUNCTIONAL, "Ontology()", "# Prefix: x\n\n  Ontology (\n", "\ufeffPrefix(:=<x>)"):
            self.assertIsNone(syntax_of(text.encode("utf-8")))

    def test_what_is_none(self):
        for data in (b"", b"\n", MARK, b"Dear all,\n", b"\x89PNG\r\n", b"<html>", b"id,name\n", b"Prefix", b"<http:"):
            self.assertIsNone(syntax_of(data))


class Packed(unittest.TestCase):
    def test_gzip_is_opened(self):
        self.assertEqual(opened(gzip.compress(b"Ontology()")), b"Ontology()")
        self.assertEqual(opened(gzip.compress(b"Onto") + gzip.compress(b"logy()")), b"Ontology()")
        self.assertEqual(opened(gzip.compress(b"")), b"")

    def test_what_cannot_be_opened_is_told(self):
        archive = b"ontology.ofn".ljust(257, b"\0") + b"ustar\x0000"
        whole = gzip.compress(b"Ontology()")
        cases = {
            whole[:-4]: "gzip.*damaged",
            whole[:12]: "gzip.*damaged",
            whole + b"rest": "gzip.*damaged",
            whole[:-6] + b"\0\0" + whole[-4:]: "gzip.*damaged",
            b"\x1f\x8b": "gzip.*damaged",
            b"\x1f\x8b\x08\x00damaged": "gzip.*damaged",
            gzip.compress(whole): "gzip.*more than once",
            b"PK\x03\x04more": "ZIP.*unzip",
            gzip.compress(b"PK\x03\x04more"): "ZIP.*unzip",
            b"BZh9more": "bzip2",
            b"\xfd7zXZ\x00more": "xz",
            b"\x28\xb5\x2f\xfdmore": "zstd",
            archive: "archive.*tar",
            gzip.compress(archive): "archive.*tar",
            FUNCTIONAL.encode("utf-16"): "UTF-16.*iconv",
        }
        for data, said in cases.items():
            with self.subTest(data=data[:20]), self.assertRaisesRegex(Unopened, said):
                opened(data)

    def test_a_job_reads_gzip(self):
        output, _, status = shq("classify", "--budget", 7, data=gzip.compress(b"Ontology()"))
        self.assertEqual((output, status), ("words: classify budget 7\nOntology()", 0))

    def test_every_command_says_what_to_do(self):
        with tempfile.TemporaryDirectory() as room:
            path = Path(room, "pumps.zip")
            path.write_bytes(b"PK\x03\x04more")
            for name in WORDS:
                with self.subTest(name=name):
                    output, said, status = shq(*words_on(name, path), data=b"consistent\n")
                    self.assertEqual((output, status), ("", 3))
                    self.assertEqual(said.strip(), f"shq: {path} is compressed (ZIP); open it first, as by unzip")

    @needs_program
    def test_gzip_of_what_is_no_ontology(self):
        for text in (b"", b"Dear all,\n", bytes(range(1, 99))):
            for name in ("classify", "profile"):
                with self.subTest(text=text[:9], name=name):
                    plain, packed = (run([TOOLS / "ask", name], data=it) for it in (text, gzip.compress(text)))
                    self.assertEqual(packed, plain)
                    self.assertEqual(packed[2], 3)

    def test_a_text_beyond_the_limits_may_become_shorter(self):
        """More is read of standard input than the program reads, which gets one byte more than that."""
        blanks = b" " * (1 << 24)
        output, _, _ = shq("classify", "--budget", 7, data=blanks + b"Ontology()", program="#!/bin/sh\nwc -c\n")
        self.assertEqual(int(output), (1 << 24) + 1)
        output, _, _ = shq("convert", data=gzip.compress(b"Ontology(" + blanks + b")"))
        self.assertEqual(len(output), len("Ontology()") + (1 << 24))


class WithoutTheLibrary(unittest.TestCase):
    def test_each_syntax_is_told(self):
        for name in ENDINGS:
            with self.subTest(name=name):
                output, said, status = shq("classify", data=sample(name), **NOT_THERE)
                self.assertEqual((output, status), ("", 3))
                self.assertIn(f"shq: the file is in {name}. Convert it first: robot convert --input FILE", said)
                self.assertIn("or an editor's Save as", said)
                self.assertIn("install Debian's libowlapi-java and default-jdk-headless", said)

    def test_every_command_says_so(self):
        path = SAMPLES / "pumps.ttl"
        for name in WORDS:
            with self.subTest(name=name):
                output, said, status = shq(*words_on(name, path), data=b"consistent\n", **NOT_THERE)
                self.assertEqual((output, status), ("", 3))
                self.assertIn(f"shq: {path} is in Turtle. Convert it first", said)

    def test_the_object_of_an_answer_says_so(self):
        output, _, status = shq("classify", "--json", data=sample("Turtle"), **NOT_THERE)
        self.assertEqual(status, 3)
        self.assertIn('"message": "the file is in Turtle. Convert it first', output)


# A compiler that makes an empty file, and a java that ends as FAULT says, or says which syntax its input is in, and
# prints a text of its own.
JAVAC = """#!/bin/sh
while [ "$1" != -d ]; do shift; done
: > "$2/Convert.class"
"""
JAVA = f"""#!/bin/sh
cat > /dev/null
for syntax in "$@"; do :; done
case "$FAULT" in
  killed) kill -KILL $$ ;;
  told) echo "warning" >&2; echo "line 7: no" >&2; exit 1 ;;
  slow) : > "$BEGUN"; exec sleep 60 ;;
esac
echo "# from $syntax"
echo "{FUNCTIONAL}"
"""


class AroundTheLibrary(unittest.TestCase):
    """What stands around the conversion, with a library that only seems to be there."""

    CONVERTED = f"# from Turtle\n{FUNCTIONAL}\n"

    def setUp(self):
        room = tempfile.TemporaryDirectory()
        self.addCleanup(room.cleanup)
        self.room = Path(room.name)
        for name, text in (("java", JAVA), ("javac", JAVAC)):
            (self.room / name).write_text(text, encoding="utf-8")
            (self.room / name).chmod(0o755)
        jars = re.search(r"^jars=\((.*?)\)$", CLASS_PATH.read_text(encoding="utf-8"), re.S | re.M)[1].split()
        for jar in jars:
            (self.room / f"{jar}.jar").touch()
        self.environment = {
            "PATH": f"{self.room}:{os.environ['PATH']}",
            "JEZUNDWA_JARS": str(self.room),
            "XDG_CACHE_HOME": str(self.room / "cache"),
        }

    def shq(self, *words, data=b"", **more):
        return shq(*words, data=data, **{**self.environment, **more})

    def ran(self, command, **how):
        """How a command of the shell ends, in which SHQ stands for ./shq."""
        text = command.replace("SHQ", f"{sys.executable} -B {TOOLS}/ask")
        environment = {**os.environ, **self.environment}
        return subprocess.run(["bash", "-c", text], env=environment, capture_output=True, check=False, **how)

    def test_every_job_gets_the_converted_text(self):
        path = SAMPLES / "pumps.ttl"
        for name, command in COMMANDS.items():
            if command.is_job and command.files:
                with self.subTest(name=name):
                    budget = ("--budget", 7) if command.has_budget else ()
                    program = "#!/bin/sh\ncat\n"
                    output, said, status = shq(*words_on(name, path), *budget, program=program, **self.environment)
                    self.assertEqual((output, status), (self.CONVERTED, 0))
                    self.assertIn(f"shq: {path} is in Turtle, and was converted by the OWL API; lines are those", said)

    def test_the_other_commands_get_it(self):
        path = SAMPLES / "pumps.ttl"
        for name in ("profile", "cut", "approximate", "convert"):
            with self.subTest(name=name):
                output, _, status = self.shq(*words_on(name, path))
                expected, _, _ = self.shq(name, data=self.CONVERTED.encode("utf-8"))
                self.assertEqual((output, status), (expected, 0))
        hierarchy = b"consistent\nnothing\nthing\nclass <http://e.org/#Pump> under owl:Thing\n"
        output, said, status = self.shq(*words_on("read", path), data=hierarchy)
        self.assertEqual(status, 0)
        self.assertIn("Pump", output)
        self.assertIn("is in Turtle", said)
        output, _, status = self.shq(*words_on("verify", path))
        self.assertEqual((output, status), ("", 0))

    def test_each_syntax_is_named_to_the_library(self):
        for name in ENDINGS:
            with self.subTest(name=name):
                output, said, status = self.shq("convert", data=MARK + sample(name))
                self.assertEqual((output, said, status), (f"# from {name}\n{FUNCTIONAL}\n", "", 0))

    def test_functional_syntax_is_written_as_it_is(self):
        for data in (FUNCTIONAL.encode(), MARK + FUNCTIONAL.encode(), b"Ontology(("):
            self.assertEqual(self.shq("convert", data=gzip.compress(data)), (data.decode(), "", 0))

    def test_what_is_in_no_syntax_is_not_converted(self):
        for data in (b"", b"Dear all,\n", b"\x89PNG\r\n", b"<html>"):
            with self.subTest(data=data):
                output, said, status = self.shq("convert", data=data)
                self.assertEqual((output, status), ("", 3))
                self.assertIn("the file begins in none of these syntaxes: functional-style syntax, OWL/XML", said)

    def test_what_the_library_says(self):
        for fault, expected in (("told", "line 7: no"), ("killed", "it says nothing")):
            for name in ("convert", "classify", "profile"):
                with self.subTest(fault=fault, name=name):
                    output, said, status = self.shq(name, data=sample("Turtle"), FAULT=fault)
                    self.assertEqual((output, status), ("", 3))
                    self.assertEqual(
                        said, f"shq: the file is in Turtle, and the OWL API cannot read it: {expected}\n")

    def test_files_that_cannot_be_read(self):
        for name in ("convert", "profile", "cut", "approximate", "report"):
            with self.subTest(name=name):
                ran = self.ran(f"SHQ {name} /no/such/file")
                self.assertEqual((ran.stdout, ran.returncode), (b"", 6))
                self.assertIn(b"/no/such/file: No such file", ran.stderr)
                ran = self.ran(f"SHQ {name} 0>/dev/null")
                self.assertEqual((ran.stdout, ran.returncode), (b"", 6))
                self.assertIn(b"standard input: Bad file descriptor", ran.stderr)
                ran = self.ran(f"SHQ {name} <&-")
                self.assertEqual((ran.stdout, ran.returncode), (b"", 6))
                self.assertIn(b"standard input: it is closed", ran.stderr)

    def test_a_full_disk_and_a_closed_pipe(self):
        path = SAMPLES / "pumps.ttl"
        for name in ("convert", "cut", "approximate", "profile"):
            with self.subTest(name=name):
                self.assertEqual(self.ran(f"SHQ {name} {path} > /dev/full").returncode, 7)
                self.assertEqual(self.ran(f"SHQ {name} {path} >&-").returncode, 7)
        broken = self.ran(f"{{ sleep 0.2; SHQ convert {path}; echo status $? >&2; }} | true")
        self.assertIn(b"status 7", broken.stderr)
        self.assertNotIn(b"Traceback", broken.stderr)

    def test_a_cache_that_cannot_be_written(self):
        output, said, status = self.shq("convert", data=sample("Turtle"), XDG_CACHE_HOME="/dev/null")
        self.assertEqual((output, status), ("", 3))
        self.assertIn("/dev/null/jezundwa: Not a directory", said)

    def test_an_interrupt_ends_it(self):
        begun = self.room / "begun"
        environment = {**os.environ, **self.environment, "FAULT": "slow", "BEGUN": str(begun)}
        command = [sys.executable, "-B", TOOLS / "ask", "convert", SAMPLES / "pumps.ttl"]
        with subprocess.Popen(command, env=environment, stderr=subprocess.PIPE) as child:
            while not begun.exists():
                time.sleep(0.05)
            child.send_signal(signal.SIGINT)
            said = child.stderr.read()
        self.assertEqual((child.returncode, said), (-signal.SIGINT, b""))


@unittest.skipUnless(class_path(), "Debian's libowlapi-java and default-jdk-headless are not installed")
class ByTheLibrary(unittest.TestCase):
    @classmethod
    def setUpClass(cls):
        room = tempfile.TemporaryDirectory()
        cls.addClassCleanup(room.cleanup)
        cls.environment = {"XDG_CACHE_HOME": room.name, "LC_ALL": "C"}

    def shq(self, *words, data=b""):
        return shq(*words, data=data, **self.environment)

    @staticmethod
    def expected(name):
        """The axioms of the samples, which in OBO has no individuals, and forms its names in its own way."""
        begin = "http://purl.obolibrary.org/obo/E_" if name == "OBO" else "http://e.org/#"
        pump, device, equipment = (("name", begin + it) for it in ("Pump", "Device", "Equipment"))
        inclusions = {("SubClassOf", pump, device), ("SubClassOf", device, equipment)}
        return inclusions if name == "OBO" else inclusions | {("ClassAssertion", pump, f"{begin}p1")}

    def test_each_syntax_becomes_the_same_axioms(self):
        for name in ENDINGS:
            with self.subTest(name=name):
                output, said, status = self.shq("convert", data=MARK + sample(name))
                self.assertEqual((said, status), ("", 0))
                found = {(it.keyword, *it.items) for it in axioms_of(document(output.encode("utf-8")))}
                self.assertEqual(found, self.expected(name))
                self.assertIn('"Gerät"', output)

    def test_a_file_that_is_cut_off_is_told(self):
        """In OBO that cannot be told from a shorter file."""
        for name in ENDINGS:
            with self.subTest(name=name):
                output, said, status = self.shq("convert", data=sample(name)[:-60])
                self.assertEqual(status, 0 if name == "OBO" else 3)
                if name != "OBO":
                    self.assertEqual(output, "")
                    self.assertRegex(said, rf"^shq: the file is in {name}, and the OWL API cannot read it: .*\S\n$")
                    if name != "N-Triples":
                        self.assertRegex(said, r"\bline:? \d")

    def test_nothing_is_fetched(self):
        import_nowhere = b"<http://e.org/pumps> owl:imports <http://nowhere.example/x> .\n"
        output, _, status = self.shq("convert", data=sample("Turtle") + import_nowhere)
        self.assertEqual(status, 0)
        self.assertIn("Import(<http://nowhere.example/x>)", output)
        entity = b'<?xml version="1.0"?>\n<!DOCTYPE rdf:RDF [ <!ENTITY x SYSTEM "file:///etc/passwd"> ]>\n'
        data = sample("RDF/XML").replace(b'<?xml version="1.0" encoding="UTF-8"?>\n', entity)
        output, _, _ = self.shq("convert", data=data.replace("Gerät".encode(), b"at &x;"))
        self.assertNotIn("root:", output)

    def test_relative_names_do_not_change(self):
        """A file that says no base has the same names whenever and wherever it is read."""
        data = sample("RDF/XML").replace(b' xml:base="http://e.org/"', b"")
        with tempfile.TemporaryDirectory() as room:
            path = Path(room, "here.rdf")
            path.write_bytes(data)
            named = self.shq("convert", path)
        self.assertEqual(named, self.shq("convert", data=data))
        self.assertIn("SubClassOf(<file:/ontology#Pump> <file:/ontology#Device>)", named[0])

    @needs_program
    def test_a_reason_in_a_file_of_another_syntax(self):
        path = SAMPLES / "pumps.owx"
        command = [TOOLS / "ask", "explain", "Pump SubClassOf Equipment", path]
        output, said, status = run(["env", *(f"{it}={value}" for it, value in self.environment.items()), *command])
        self.assertEqual(status, 0)
        self.assertEqual(output.splitlines()[:2], ["justifications 1", "1 2"])
        self.assertIn("is in OWL/XML, and was converted by the OWL API", said)


if __name__ == "__main__":
    unittest.main()
