"""The manual page and the completions: made from the table of commands and the help text, used as shells use them."""
import os
import pty
import re
import select
import shutil
import subprocess
import tempfile
import time
import unittest
from pathlib import Path

from shq_tools.commands import COMMANDS, GENERAL_OPTIONS
from shq_tools.completions import bash_completion, zsh_completion
from shq_tools.manual import manual
from shq_tools.places import TOOLS

OPTIONS = {option.name for command in COMMANDS.values() for option in command.options}
# Prints what bash offers for a line, of which the last word is completed.
ASK_BASH = """source "$1"; shift
COMP_WORDS=("$@") COMP_CWORD=$(($# - 1))
_shq
printf '%s\\n' "${COMPREPLY[@]}"
"""


class Manual(unittest.TestCase):
    def page(self):
        if shutil.which("man") is None:
            self.skipTest("man is not here")
        with tempfile.NamedTemporaryFile("w", suffix=".1", encoding="utf-8") as file:
            file.write(manual("1.2.3", "2026-01-02"))
            file.flush()
            environment = {**os.environ, "MANWIDTH": "300", "LANG": "C.UTF-8", "LC_ALL": "C.UTF-8"}
            words = ["man", "--warnings", "-P", "cat", "-l", file.name]
            ran = subprocess.run(words, env=environment, capture_output=True, text=True, check=False)
        self.assertEqual((ran.returncode, ran.stderr), (0, ""))
        return re.sub(".\b", "", ran.stdout)

    def test_the_page_is_read_without_a_warning(self):
        page = self.page()
        for section in ("NAME", "SYNOPSIS", "DESCRIPTION", "OPTIONS", "EXIT STATUS"):
            self.assertRegex(page, f"(?m)^{section}$")
        self.assertIn("jezundwa 1.2.3", page)

    def test_it_says_what_the_help_text_says(self):
        """Each word of the help text stands in it, in the same order but for lines that are filled."""
        told = re.sub(r"\s+", "", self.page())
        for line in (TOOLS / "usage.txt").read_text(encoding="utf-8").replace("./shq", "shq").splitlines():
            words = re.sub(r"\s+", "", re.sub(r"^(usage: | {7})", "", line))
            if not words.startswith("Printsitsanswer"):
                self.assertIn(words, told, line)

    def test_each_command_and_option(self):
        page = self.page()
        for command in COMMANDS.values():
            self.assertRegex(page, rf"(?m)^ +shq {command.name}\b")
        for name in OPTIONS | {it.name for it in GENERAL_OPTIONS}:
            self.assertRegex(page, rf"(?m)^ +{name}")


class Bash(unittest.TestCase):
    def offered(self, *words):
        with tempfile.TemporaryDirectory() as room:
            Path(room, "completion").write_text(bash_completion(), encoding="utf-8")
            Path(room, "file.ofn").touch()
            command = ["bash", "--norc", "-c", ASK_BASH, "", f"{room}/completion", "shq", *words]
            ran = subprocess.run(command, cwd=room, capture_output=True, text=True, check=False)
        self.assertEqual((ran.returncode, ran.stderr), (0, ""))
        return ran.stdout.split()

    def test_commands(self):
        self.assertEqual(set(self.offered("")), {*COMMANDS, *(it.name for it in GENERAL_OPTIONS)})
        self.assertEqual(self.offered("clas"), ["classify"])
        self.assertEqual(self.offered("e"), ["entails", "explain", "evidence"])

    def test_options_of_each_command(self):
        for command in COMMANDS.values():
            wanted = {it.name for it in command.options} | {"--help"}
            self.assertEqual({it.partition("=")[0] for it in self.offered(command.name, "-")}, wanted, command.name)
        self.assertEqual(self.offered("read", "--la"), ["--labels", "--language"])

    def test_files(self):
        """They come where a file may stand, and not in the place of a statement."""
        self.assertEqual(self.offered("classify", "fi"), ["file.ofn"])
        self.assertEqual(self.offered("explain", "fi"), [])
        self.assertEqual(self.offered("explain", ":A", "fi"), ["file.ofn"])
        self.assertEqual(self.offered("read", "--labels", "fi"), ["file.ofn"])
        self.assertEqual(self.offered("classify", "--budget", "fi"), [])


@unittest.skipUnless(shutil.which("zsh"), "zsh is not here")
class Zsh(unittest.TestCase):
    """A zsh at a terminal, into which words and tabs are typed."""

    def typed(self, keys):
        """What the terminal shows after these keys."""
        with tempfile.TemporaryDirectory() as room:
            Path(room, "_shq").write_text(zsh_completion(), encoding="utf-8")
            Path(room, "file.ofn").touch()
            child, terminal = pty.fork()
            if child == 0:
                os.chdir(room)
                os.execvpe("zsh", ["zsh", "-f", "-i"], {**os.environ, "TERM": "dumb", "LANG": "C.UTF-8"})
            shown = b""

            def until(pattern, seconds=60):
                nonlocal shown
                end = time.monotonic() + seconds
                while not re.search(pattern, shown) and time.monotonic() < end:
                    if select.select([terminal], [], [], 1)[0]:
                        shown += os.read(terminal, 4096)

            setup = f"PS1=; fpath=({room} $fpath); autoload -U compinit; compinit -u -D; echo re''ady\n"
            os.write(terminal, setup.encode())
            until(rb"ready\r?\n")
            shown = b""
            for key in keys:
                os.write(terminal, key.encode())
                time.sleep(0.3)
            os.write(terminal, b"; echo do''ne\n")
            until(rb"done\r?\n")
            os.write(terminal, b"exit\n")
            os.close(terminal)
            os.waitpid(child, 0)
        return shown.decode("utf-8", "replace")

    def test_a_command_an_option_and_a_file(self):
        self.assertIn("classify", self.typed(["echo x; shq clas\t"]))
        self.assertIn("--language", self.typed(["echo x; shq read --lang\t"]))
        self.assertIn("file.ofn", self.typed(["echo x; shq classify fi\t"]))

    def test_it_is_zsh(self):
        ran = subprocess.run(["zsh", "-n"], input=zsh_completion(), text=True, capture_output=True, check=False)
        self.assertEqual((ran.returncode, ran.stderr), (0, ""))
