"""The command `./shq`, with a program that only seems to be one, and with the program."""
import json
import os
import pty
import shutil
import subprocess
import sys
import tempfile
import time
import unittest
from pathlib import Path

from shq_tools.budgets import Known
from shq_tools.commands import COMMANDS, help_text, usage_for
from shq_tools.hints import hint_on_budget, hint_on_seconds
from shq_tools.places import EXAMPLES, TOOLS, TOP
from shq_tools.words import BadWords, asked
from tests.fakes import GROWING, HEAD, TOLD, command_of, shq
from tests.program import needs_program, run_program


class Words(unittest.TestCase):
    def test_what_is_asked(self):
        cases = {
            "classify": ("classify", None),
            "classify f.ofn": ("classify", "f.ofn"),
            "classify budget 5": ("classify budget 5", None),
            "classify budget 5 f.ofn": ("classify budget 5", "f.ofn"),
            "--budget 5 classify f.ofn": ("classify budget 5", "f.ofn"),
            "sat :A --budget=5": ("sat :A budget 5", None),
            "sat :A f.ofn --budget 5": ("sat :A budget 5", "f.ofn"),
            "explain --budget 5 X f.ofn": ("explain X budget 5", "f.ofn"),
            "check X f.txt": ("check X", "f.txt"),
            "audit X f.txt": ("audit X", "f.txt"),
            "evidence X budget 5 f.ofn": ("evidence X budget 5", "f.ofn"),
            "realize f.ofn": ("realize", "f.ofn"),
            "instances :A f.ofn": ("instances :A", "f.ofn"),
            "why :A budget 5 f.ofn": ("why :A budget 5", "f.ofn"),
            "session --budget 5 f.txt": ("session budget 5", "f.txt"),
            "sat :A --seconds 5 f.ofn": ("sat :A", "f.ofn"),
            "classify --other": ("classify --other", None),
            "workload 5 f.ofn": ("workload 5 f.ofn", None),
            "other word": ("other word", None),
            "explain": ("explain", None),
        }
        for given, (words, file) in cases.items():
            with self.subTest(given=given):
                question = asked(given.split())
                self.assertEqual((" ".join(question.words), question.file), (words, file))

    def test_values_of_options(self):
        self.assertEqual(asked(["sat", ":A", "--seconds=5"]).options, {"--seconds": "5"})
        self.assertEqual(asked(["sat", ":A", "--budget", "7"]).options, {"--budget": "7"})
        with self.assertRaises(BadWords):
            asked(["classify", "--budget"])

    def test_usage_lines(self):
        self.assertEqual(usage_for(("check",)), "usage: ./shq check AXIOM [FILE]")
        self.assertEqual(usage_for(("classify", "a", "b")), "usage: ./shq classify [budget STEPS] [FILE]")
        self.assertEqual(usage_for(("workload",)), "usage: ./shq workload N [budget STEPS]")
        self.assertEqual(usage_for(("why",)), "usage: ./shq why CLASS [budget STEPS] [FILE]")
        for words in ((), ("clasify",)):
            self.assertIn("classify|realize|instances|why|explain", usage_for(words))

    def test_usage_text_has_each_command(self):
        text = (TOOLS / "usage.txt").read_text(encoding="utf-8")
        for command in COMMANDS.values():
            with self.subTest(command=command.name):
                self.assertIn(f"./shq {command.name}", text.partition("\n\n")[0])

    def test_hints_on_budgets(self):
        def hint(given):
            return hint_on_budget(asked(given))

        self.assertIn("./shq sat :A --budget 50 f.ofn", hint(["sat", ":A", "--budget", "5", "f.ofn"]))
        self.assertIn("the 1,000 steps that were allowed are spent", hint(["classify", "--budget", "1000", "f.ofn"]))
        self.assertIn("the one step that was allowed is spent", hint(["classify", "--budget", "1", "f.ofn"]))
        most = hint(["explain", "SubClassOf(:A :B)", "budget", "4294967294"])
        self.assertIn("./shq explain 'SubClassOf(:A :B)' --budget 4294967295 < FILE", most)
        self.assertIn("no more can be allowed", hint(["classify", "budget", "4294967295"]))
        self.assertTrue(hint(["workload", "5", "budget", "10"]).endswith("./shq workload 5 --budget 100"))

    def test_hints_on_seconds(self):
        question = asked(["explain", "SubClassOf(:A :B)", "--seconds", "2"])
        hint = hint_on_seconds(question, Known(None, 8_000_000), 2)
        self.assertIn("undecided after 2 seconds, with a budget of 8,000,000 steps", hint)
        self.assertIn("./shq explain 'SubClassOf(:A :B)' --seconds 20 < FILE", hint)
        self.assertIn("undecided after 1 second, ", hint_on_seconds(question, Known(None, 0), 1))
        self.assertIn("no more can be allowed", hint_on_seconds(question, Known(None, 4_294_967_295), 2))


class Runs(unittest.TestCase):
    def test_output_and_status_are_those_of_the_program(self):
        for status in range(10):
            said, _, ended = shq("classify", "budget", "5", data=b"text\n", STATUS=status)
            self.assertEqual((said, ended), ("words: classify budget 5\ntext\n", status))

    def test_a_file_stands_in_for_standard_input(self):
        with tempfile.NamedTemporaryFile() as file:
            file.write(b"of the file\n")
            file.flush()
            said, complaint, _ = shq("classify", "--budget", "7", file.name, data=b"not read\n")
        self.assertEqual((said, complaint), ("words: classify budget 7\nof the file\n", ""))

    def test_a_file_that_cannot_be_read(self):
        for name, why in (("/not/there", "No such file"), ("/", "Is a directory")):
            for job in (["classify"], ["check", "X"], ["sat", ":A", "budget", "5"]):
                with self.subTest(name=name, job=job):
                    said, complaint, status = shq(*job, name)
                    self.assertEqual((said, status), ("read fault\n", 6))
                    self.assertIn(f"shq: {name}: {why}", complaint)

    def test_standard_input_that_is_closed(self):
        with command_of(TOLD, ["classify"]) as command:
            ran = subprocess.run(["sh", "-c", '"$@" <&-', "sh", *command], cwd=TOOLS, capture_output=True, check=False)
        self.assertEqual((ran.stdout, ran.returncode), (b"read fault\n", 6))
        self.assertIn(b"standard input", ran.stderr)

    def test_words_that_are_no_text(self):
        """A word or the name of a file may have any bytes."""
        ontology = (EXAMPLES / "contradiction" / "ontology.ofn").read_bytes()
        answering = HEAD + "cat >/dev/null\necho undecided\nexit 8\n"
        with tempfile.TemporaryDirectory() as room:
            name = f"{room}/f\udcff.ofn"
            with open(name, "wb") as file:
                file.write(ontology)
            for shape in ("--json", "--html", "--markdown"):
                for words in (["sat", ":A\udcff", name], ["classify", name], ["classify", f"{name}x"]):
                    with self.subTest(words=words, shape=shape):
                        said, complaint, status = shq(*words, shape, "--seconds", "1", program=answering)
                        self.assertNotIn("Traceback", complaint)
                        self.assertEqual(status, 6 if words[-1] != name else 8)
                        self.assertTrue(said)
            value = json.loads(shq("sat", ":A\udcff", "--json", data=ontology, program=answering)[0])
            self.assertEqual(value["question"], ":A\udcff")
            page, complaint, status = shq("report", name, program=answering)
        self.assertEqual((page[:15], status), ("<!DOCTYPE html>", 8))

    def test_hints_come_on_standard_error(self):
        self.assertIn("to allow more", shq("classify", "budget", "5", STATUS=8)[1])
        self.assertIn("usage: ./shq", shq("other", STATUS=2)[1])
        self.assertEqual(shq("classify")[1], "")

    def test_bad_words(self):
        cases = {
            "classify --budget": "--budget needs a value",
            "classify --seconds": "--seconds needs a value",
            "classify --seconds x": "--seconds needs a number above 0, and not x",
            "classify --seconds 0": "--seconds needs a number above 0",
            "classify --seconds nan": "--seconds needs a number above 0",
            "classify --seconds 5 --budget 5": "do not go together",
        }
        for words, complaint in cases.items():
            with self.subTest(words=words):
                said, told, status = shq(*words.split())
                self.assertEqual((said, status), ("bad words\n", 2))
                self.assertIn(complaint, told)
                self.assertIn("usage: ./shq classify", told)

    def test_words_that_are_mistyped(self):
        cases = {
            "clasify f.ofn": "there is no command clasify; is it classify that is meant?",
            "classify --sconds 5": "classify has no option --sconds; is it --seconds that is meant?",
            "--strict=x sat": "usage: ./shq sat",
            "zzz": "there is no command zzz\n",
        }
        for words, complaint in cases.items():
            with self.subTest(words=words):
                _, told, status = shq(*words.split(), STATUS=2)
                self.assertEqual(status, 2)
                self.assertIn(complaint, told)

    def test_a_signal_ends_it_as_it_ended_the_program(self):
        self.assertEqual(shq("repair", "X", "budget", "5")[2], -15)

    def test_help(self):
        whole = (TOOLS / "usage.txt").read_text(encoding="utf-8")
        for words in (["--help"], ["-h"], ["help"], ["help", "other"]):
            self.assertEqual(shq(*words), (whole, "", 0))
        for words in (["classify", "--help"], ["help", "cut"], ["read", "-h"]):
            said, complaint, status = shq(*words)
            command = next(COMMANDS[it] for it in words if it in COMMANDS)
            self.assertEqual((said, complaint, status), (help_text(command), "", 0))
        for command in COMMANDS.values():
            with self.subTest(command=command.name):
                said = help_text(command)
                self.assertIn(command.usage(), said)
                for option in command.options:
                    self.assertIn(option.usage(), said)

    def test_version(self):
        said, complaint, status = shq("--version")
        self.assertEqual((complaint, status), ("", 0))
        self.assertTrue(said.startswith("jezundwa "))


class StandardOutput(unittest.TestCase):
    """What is printed goes to a full disk, to a reader that has gone, or nowhere."""

    def ended(self, words, how, program=TOLD):
        with command_of(program, words) as command:
            ended = {"cwd": TOOLS, "input": b"", "capture_output": True, "check": False}
            ran = subprocess.run(["sh", "-c", how, "sh", *command], **ended)
        return ran.stderr.decode(), ran.returncode

    def test_a_full_disk(self):
        ontology = str(EXAMPLES / "contradiction" / "ontology.ofn")
        answering = HEAD + "cat >/dev/null\nprintf 'consistent\\nnothing\\nthing\\n'\n"
        with tempfile.NamedTemporaryFile() as answer, tempfile.NamedTemporaryFile() as checks:
            answer.write(b"undecided\n")
            answer.flush()
            checks.write(b"owl:Thing must be satisfiable\n")
            checks.flush()
            self.all_say_so(
                ["classify"],
                ["classify", "--json"],
                ["classify", "--html"],
                ["--help"],
                ["--version"],
                ["profile", ontology],
                ["cut", ontology],
                ["approximate", ontology],
                ["read", answer.name],
                ["read", "--html", answer.name],
                ["report", ontology],
                ["verify", ontology, checks.name],
                ["verify", "--json", ontology, checks.name],
                ["diff", "--json", ontology, ontology],
                program=answering,
            )

    def all_say_so(self, *commands, program):
        """Each of some commands says that the disk is full, and ends with the status for that."""
        for words in commands:
            with self.subTest(words=words):
                complaint, status = self.ended(words, '"$@" > /dev/full', program)
                self.assertIn("shq: standard output: No space left on device", complaint)
                self.assertNotIn("Traceback", complaint)
                self.assertEqual(status, 7)

    def test_a_closed_output(self):
        for words in (["classify"], ["profile", "/dev/null"]):
            with self.subTest(words=words):
                complaint, status = self.ended(words, '"$@" >&-')
                self.assertIn("shq: standard output", complaint)
                self.assertEqual(status, 7)

    def test_a_reader_that_has_gone(self):
        long = HEAD + "yes | head -n 100000\n"
        ontology = str(EXAMPLES / "hospital" / "devices.ofn")
        for words in (["classify"], ["cut", ontology], ["profile", ontology]):
            with self.subTest(words=words):
                how = '{ "$@"; echo "status $?" >&2; } | exec true'
                complaint, _ = self.ended(words, f"sleep 1 | {how}" if words == ["classify"] else how, long)
                self.assertIn("status 7", complaint)
                self.assertNotIn("Traceback", complaint)
                self.assertNotIn("Error", complaint)


class BySeconds(unittest.TestCase):
    def test_budgets_grow_until_one_suffices(self):
        self.assertEqual(shq("classify", data=b"text\n", program=GROWING, ENOUGH=1), ("budget: 1000000\ntext\n", "", 0))
        said, complaint, status = shq("classify", data=b"text\n", program=GROWING, ENOUGH=8_000_001)
        self.assertEqual((said, complaint, status), ("budget: 64000000\ntext\n", "", 0))

    def test_the_greatest_budget(self):
        said, complaint, status = shq("explain", "X", program=GROWING)
        self.assertEqual((said, status), ("budget: 4294967295\nundecided\n", 8))
        self.assertIn("no more can be allowed", complaint)

    def test_what_is_known_when_the_seconds_are_over(self):
        begun = time.monotonic()
        said, complaint, status = shq("explain", "X", "--seconds", "3", program=GROWING, ENDLESS=64_000_000)
        self.assertLess(time.monotonic() - begun, 20)
        self.assertEqual((said, status), ("budget: 8000000\nundecided\n", 8))
        self.assertIn("undecided after 3 seconds, with a budget of 8,000,000 steps", complaint)
        self.assertIn("./shq explain X --seconds 30 < FILE", complaint)

    def test_nothing_is_known(self):
        cases = {
            "explain X": "partial justifications 0\nundecided\n",
            "repair X": "partial repairs 0\nundecided\n",
            "classify": "undecided\n",
        }
        for words, answer in cases.items():
            said, complaint, status = shq(*words.split(), "--seconds", "0.5", program=GROWING, ENDLESS=1)
            self.assertEqual((said, status), (answer, 8))
            self.assertIn("before any run had ended", complaint)

    def test_a_budget_is_asked_once(self):
        for words in (["classify", "budget", "5"], ["classify", "--budget", "5"]):
            said, complaint, status = shq(*words, program=GROWING)
            self.assertEqual((said, status), ("budget: 5\nundecided\n", 8))
            self.assertIn("--budget 50", complaint)

    def test_what_is_known_when_it_is_ended_from_outside(self):
        with tempfile.TemporaryDirectory() as room, command_of(GROWING, ["explain", "X"]) as command:
            begun = Path(room) / "begun"
            how = {"stdin": subprocess.DEVNULL, "stdout": subprocess.PIPE, "stderr": subprocess.PIPE, "cwd": TOOLS}
            environment = {**os.environ, "ENDLESS": "8000000", "BEGUN": str(begun)}
            with subprocess.Popen(command, env=environment, **how) as started:
                while not begun.exists():
                    time.sleep(0.05)
                started.terminate()
                said, _ = started.communicate()
        self.assertEqual((said, started.returncode), (b"budget: 1000000\nundecided\n", -15))

    def test_jobs_without_a_budget_are_asked_as_they_are(self):
        self.assertEqual(shq("check", "X", data=b"text")[0], "words: check X\ntext")

    def test_workloads(self):
        self.assertEqual(shq("workload", "3", program=GROWING, ENOUGH=5_000_000)[0], "budget: 8000000\n")


class Terminal(unittest.TestCase):
    """The line with the seconds and the answer on one screen."""

    SLOW = HEAD + 'sleep 3\necho "words: $*"\n'

    def screen(self, words, how):
        """What a terminal shows, where a shell runs ./shq in this way."""
        screen, place = pty.openpty()
        with command_of(self.SLOW, words) as command:
            started = subprocess.Popen(
                ["sh", "-c", how, "sh", *command], cwd=TOOLS, stdin=subprocess.DEVNULL, stdout=place, stderr=place
            )
            os.close(place)
            seen = []
            while True:
                try:
                    data = os.read(screen, 1024)
                except OSError:
                    break
                if not data:
                    break
                seen.append(data)
            started.wait()
        os.close(screen)
        return b"".join(seen).decode()

    def test_seconds_are_wiped_before_the_answer(self):
        cases = (
            (["sat", ":A"], '"$@"', "sat :A budget 1000000"),
            (["sat", ":A", "budget", "5"], '"$@" | cat', "sat :A budget 5"),
        )
        for words, how, answer in cases:
            with self.subTest(words=words, how=how):
                text = self.screen(words, how)
                self.assertRegex(text, r"shq: \d seconds, budget 1,000,000" if how == '"$@"' else r"shq: \d seconds")
                self.assertTrue(text.endswith(f"\r\x1b[Kwords: {answer}\r\n"), text)


@needs_program
class WithProgram(unittest.TestCase):
    def test_answers_are_those_of_the_program(self):
        file = EXAMPLES / "contradiction" / "ontology.ofn"
        data = file.read_bytes()
        for words in (["classify"], ["sat", ":MagneticPump"], ["classify", "budget", "1"], ["bad"], [], [""]):
            with self.subTest(words=words):
                command = [sys.executable, TOOLS / "ask", *words]
                ran = subprocess.run(command, input=data, capture_output=True, check=False)
                self.assertEqual((ran.stdout.decode(), ran.returncode), run_program(words, data))

    def test_without_python(self):
        """`./shq` runs the jobs of the program, with files too, and says what it cannot do."""
        tools = ("bash", "cat", "dirname", "readlink", "find")
        file = EXAMPLES / "contradiction" / "ontology.ofn"
        data = file.read_bytes()
        cases = {
            "classify FILE": (run_program(["classify"], data), ""),
            "sat :MagneticPump FILE": (run_program(["sat", ":MagneticPump"], data), ""),
            "sat :MagneticPump budget 1 FILE": (("undecided\n", 8), ""),
            "classify": (run_program(["classify"], b""), ""),
            "workload 0": (("bad words\n", 2), ""),
            "classify /not/there": (("read fault\n", 6), "/not/there cannot be read"),
            "classify --seconds 5 FILE": (("", 127), "--seconds needs python3"),
            "profile FILE": (("", 127), "profile is no job of the program"),
        }
        with tempfile.TemporaryDirectory() as room:
            for name in tools:
                os.symlink(shutil.which(name), f"{room}/{name}")
            for words, (answer, complaint) in cases.items():
                with self.subTest(words=words):
                    given = [str(file) if it == "FILE" else it for it in words.split()]
                    how = {"input": b"", "capture_output": True, "check": False, "env": {"PATH": room}}
                    ran = subprocess.run([TOP / "shq", *given], **how)
                    self.assertEqual((ran.stdout.decode(), ran.returncode), answer)
                    self.assertIn(complaint, ran.stderr.decode())
