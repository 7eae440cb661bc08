"""`./shq convert`: a file of another syntax in functional-style syntax, by the OWL API; and every job takes such files.

The OWL API is a library in Java, in Debian's package libowlapi-java; `clients/owlapi/classpath` knows its jars.
`tools/java/Convert.java` calls it; it is compiled at its first use, and kept in the user's cache.
"""
import hashlib
import os
import shutil
import subprocess
import sys
import tempfile
from dataclasses import replace
from pathlib import Path

from shq_tools.messages import say
from shq_tools.output import written
from shq_tools.places import TOOLS, TOP
from shq_tools.preparing import Unprepared
from shq_tools.sources import source_of
from shq_tools.statuses import Status
from shq_tools.syntaxes import NAMES, Unopened, is_functional, opened, syntax_of

SOURCE = TOOLS / "java" / "Convert.java"
CLASS_PATH = TOP / "clients" / "owlapi" / "classpath"
USAGE = "usage: ./shq convert [FILE] > OFN"
BY_OTHERS = "robot convert --input FILE --output FILE.ofn, or an editor's Save as with OWL functional syntax"
BY_PACKAGES = "or install Debian's libowlapi-java and default-jdk-headless, and ./shq reads it as it is"
LINES = "lines are those of the text that ./shq convert writes"


class Unconverted(Exception):
    """A file that cannot be converted, with what to say of it behind its name."""


def ran(words, data=b""):
    return subprocess.run(words, input=data, capture_output=True, check=False)


def class_path():
    """The jars of the OWL API, or nothing where they, or what runs them, are not installed."""
    if shutil.which("java") is None or shutil.which("javac") is None:
        return ""
    found = ran([CLASS_PATH])
    return "" if found.returncode else os.fsdecode(found.stdout).strip()


def cache():
    """The folder of the compiled program. Another source has another folder."""
    root = os.environ.get("XDG_CACHE_HOME") or Path.home() / ".cache"
    return Path(root) / "jezundwa" / hashlib.sha256(SOURCE.read_bytes()).hexdigest()[:16]


def compiled(jars):
    """The folder of the program, compiled where it is not. Raises `Unconverted`."""
    folder = cache()
    if (folder / "Convert.class").exists():
        return folder
    try:
        folder.parent.mkdir(parents=True, exist_ok=True)
        room = tempfile.mkdtemp(dir=folder.parent)
    except OSError as error:
        raise Unconverted(f"{folder.parent}: {error.strerror}") from error
    found = ran(["javac", "-encoding", "UTF-8", "-cp", jars, "-d", room, str(SOURCE)])
    if found.returncode:
        shutil.rmtree(room, ignore_errors=True)
        raise Unconverted("the program that converts cannot be compiled: " + found.stderr.decode("utf-8", "replace"))
    try:
        os.rename(room, folder)
    except OSError:
        # somebody else compiled it in between
        shutil.rmtree(room, ignore_errors=True)
    return folder


def converted(data, syntax, jars):
    """The bytes of a file of a syntax in functional-style syntax. Raises `Unconverted`."""
    found = ran(["java", "-cp", f"{compiled(jars)}:{jars}", "Convert", syntax.name], data)
    if found.returncode:
        said = found.stderr.decode("utf-8", "replace").strip().splitlines() or ["it says nothing"]
        raise Unconverted(f"is in {syntax.name}, and the OWL API cannot read it: {said[-1]}")
    return found.stdout


def in_functional_syntax(data):
    """The bytes of a file that is compressed, or in another syntax, as the reasoner reads them, and what is said of it.
    Raises `Unopened` and `Unconverted`.
    """
    data = opened(data)
    syntax = syntax_of(data)
    if syntax is None:
        return data, ""
    jars = class_path()
    if not jars:
        raise Unconverted(f"is in {syntax.name}. Convert it first: {BY_OTHERS}; {BY_PACKAGES}")
    return converted(data, syntax, jars), f"is in {syntax.name}, and was converted by the OWL API; {LINES}"


def name_of(source):
    """What a source is called, at the begin of a sentence."""
    return source.name or "the file"


def readable(source):
    """The source in functional-style syntax, and what is said of it. Raises `Unprepared`."""
    try:
        data, note = in_functional_syntax(source.data)
    except (Unopened, Unconverted) as fault:
        raise Unprepared(f"{name_of(source)} {fault}", Status.BAD_TEXT) from fault
    return source if data is source.data else replace(source, data=data), note


def prepared(question, source, _):
    """The question as it is, on a file in functional-style syntax. Raises `Unprepared`."""
    found, note = readable(source)
    if note:
        say(f"{name_of(source)} {note}")
    return question, found


def ontology_data_of(words):
    """The bytes of the ontology that the words name, or of standard input, in functional-style syntax. Raises `OSError`
    and `Unprepared`.
    """
    return prepared(None, source_of(words[0] if words else None), "")[1].data


def main(words):
    """Writes a file in functional-style syntax, and returns 0. Raises `OSError` and `Unprepared`."""
    if len(words) > 1 or words[:1] == ["--help"]:
        print(USAGE, file=sys.stderr)
        return Status.BAD_WORDS
    source, _ = readable(source_of(words[0] if words else None))
    if not is_functional(source.data):
        raise Unprepared(f"{name_of(source)} begins in none of these syntaxes: {', '.join(NAMES)}", Status.BAD_TEXT)
    return Status.DONE if written(source.data) else Status.WRITE_FAULT
