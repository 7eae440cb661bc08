"""The words of a command, taken apart."""
from dataclasses import dataclass, field

from shq_tools.commands import COMMANDS, command_in


class BadWords(Exception):
    """Words that are no command, with what is wrong with them."""


@dataclass(frozen=True)
class Asked:
    """What is asked of the program: its words with the budget, the file that it reads in place of standard input, the
    options by their names, the words as they were given, and the file with the script of a session. Where the question
    was put in another way: how it was written, and which axioms were put into the ontology for it, behind how many of
    its own.
    """

    words: tuple
    file: str = None
    options: dict = field(default_factory=dict)
    given: tuple = ()
    script: str = None
    written: str = None
    own_axioms: int = 0
    added: tuple = ()

    @property
    def command(self):
        """The command, or None where there is none of this name."""
        return COMMANDS.get(self.words[0]) if self.words else None

    @property
    def is_whole(self):
        """Whether the words are those of a job that reads an ontology."""
        command = self.command
        if command is None or not command.is_job or not command.files:
            return False
        return len(without_budget(self.words)) == 1 + len(command.operands)


def one_option(option, words, at):
    """The value of the option that stands at a place of the words, and how many words it takes."""
    name, sign, value = words[at].partition("=")
    if sign:
        if not option.value:
            raise BadWords(f"{name} has no value")
        return value, 1
    if not option.value or option.may_lack_value:
        return "", 1
    if at + 1 == len(words):
        raise BadWords(f"{name} needs a value: {option.usage()}")
    return words[at + 1], 2


def without_options(command, words):
    """The words without the command's options, and these by their names. Raises `BadWords`."""
    rest, found, at = [], {}, 0
    while at < len(words):
        name = words[at].partition("=")[0]
        option = command.option(name) if command and name.startswith("-") else None
        if option is None:
            rest.append(words[at])
            at += 1
            continue
        found[name], count = one_option(option, words, at)
        at += count
    return rest, found


def without_budget(words):
    """The words without `budget STEPS` at their end."""
    return words[:-2] if len(words) >= 3 and words[-2] == "budget" else words


def without_files(command, words):
    """The words without the names of files that stand last, and these."""
    if command is None or not command.is_job:
        return words, []
    count = 1 + len(command.operands)
    if words[count : count + 1] == ["budget"] and len(words) >= count + 2:
        count += 2
    files = words[count:]
    if len(files) > len(command.files) or any(it.startswith("-") and it != "-" for it in files):
        return words, []
    return words[:count], files


def asked(given):
    """What the words of a job ask. Raises `BadWords` where an option lacks its value."""
    command = command_in(given)
    words, options = without_options(command, list(given))
    words, files = without_files(command, words)
    if "--budget" in options:
        words = [*words, "budget", options["--budget"]]
    file, script = [*files, None, None][:2]
    return Asked(tuple(words), file, options, tuple(given), script)
