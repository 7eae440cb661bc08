"""What the README says first, and what the commands of the pages leave behind."""
import re
import shutil
import subprocess
import unittest

from shq_tools.commands import COMMANDS
from shq_tools.document_commands import commands_in
from shq_tools.documents import MOST_BYTES
from shq_tools.places import TOP
from shq_tools.walk import MOST_NUMBER, Limits

PAGES = ("README.md", "examples/README.md", "examples/TOUR.md")
FIRST_SCREEN = 30
WRITTEN = re.compile(r"(?:[^0-9&]>|-o|--junit) *([\w./-]+)")


def page(name):
    return (TOP / name).read_text(encoding="utf-8")


class FrontPage(unittest.TestCase):
    def test_the_limits_stand_on_the_first_screen(self):
        first = "\n".join(page("README.md").splitlines()[:FIRST_SCREEN])
        for what in ("axioms", "classes", "individuals", "roles"):
            self.assertIn(f"{Limits.MOST[what]:,} {what}", first)
        self.assertIn(f"{MOST_BYTES >> 20} MB", first)
        self.assertIn(f"numbers up to {MOST_NUMBER}", " ".join(first.split()))

    def test_other_tools_have_their_columns(self):
        self.assertIn("| to | Protégé | ROBOT | Konclude | here |", page("README.md"))

    def test_each_command_stands_on_a_page(self):
        text = page("README.md") + page("tools/usage.txt")
        for name in COMMANDS:
            self.assertIn(f"./shq {name}", text)

    @unittest.skipUnless(shutil.which("git") and (TOP / ".git").exists(), "this is no clone")
    def test_what_commands_write_is_ignored(self):
        """Each file that a command of a page writes is ignored by git, or is a part of the repository."""
        names = set()
        for name in PAGES:
            for commands in commands_in(page(name)):
                names |= {it for it in WRITTEN.findall(commands.text) if not it.startswith("/")}
        self.assertIn("devices.ofn", names)
        for name in names:
            ran = subprocess.run(["git", "check-ignore", "-q", name], cwd=TOP, check=False)
            self.assertEqual(ran.returncode, 0, f"{name} is not ignored")
