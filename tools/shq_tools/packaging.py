"""Makes the two archives of a release from a proved program: a tar archive, and a package for Debian.

Both hold the same files, byte for byte the same whenever they are made from one record of the gate. The files are
those that the repository has, by the patterns below.
"""
import gzip
import hashlib
import io
import os
import re
import shutil
import subprocess
import tarfile
import tempfile
from dataclasses import dataclass
from pathlib import Path

from shq_tools import program
from shq_tools.completions import bash_completion, zsh_completion
from shq_tools.gate_record import NAME as RECORD_NAME
from shq_tools.gate_record import NOT_COMMITTED, NoRecord, record_of, said, sum_of, sum_of_sources
from shq_tools.manual import manual
from shq_tools.places import BUILT_PROGRAM, PROGRAM_CRATE, TOP
from shq_tools.versions import NAME, version

# What is packaged of the files that the repository has, and what of that is not.
PACKAGED = re.compile(r"shq|VERSION|[A-Z]+\.md|(tools|second|clients|examples|docs)/.*")
LEFT_OUT = re.compile(r"(tools|second|clients)/(.*/)?(tests?/.*|test)|(.*/)?\.[^/]*|second/agree|CONTRIBUTING\.md")
DOCUMENTS = re.compile(r"[A-Z]+\.md|PROOFS\.txt|SHA256SUMS|(examples|docs)/.*")
SUMS_NAME = "SHA256SUMS"
MAINTAINER = "Jezundwa maintainers <maintainers@users.noreply.jezundwa.example>"
NO_LICENCE = "The licence is left to the owner of Jezundwa: none is given with this version.\n"
SUMMARY = "Proved reasoner for OWL ontologies, with every reason"
DESCRIPTION = """ Jezundwa answers which classes of an ontology are contradictory, why a
 statement follows, and what may be removed to stop it. The program is
 written in Rattle, which builds only code that is proved to meet its
 contracts. The scripts around it are tested, and need Python.
"""


class NotPackaged(Exception):
    """Why there is no package."""


@dataclass(frozen=True)
class Entry:
    """A file of a package: its bytes, or where it is a link the place to which it leads, and whether it is run."""

    data: bytes = b""
    is_run: bool = False
    link: str = ""


def proofs_text(record):
    """What was proved, when, and how anyone can see it again."""
    return f"""What was proved of the program in this package

On {record.proved} the gate of the repository passed at commit
  {record.commit}
with the kit
  {record.kit}
and its last line was
  {record.gate}

That is: each contract of each crate was proved from nothing or, where nothing had changed, at an earlier time by the
same kit; each wrong body that must be refused was refused; and each test and each case passed. The gate built the
program in libexec/ from these sources:
  SHA-256 of the program  {record.program}
  SHA-256 of the sources  {record.sources}
What the contracts say is told in docs/THEOREMS.md, and what that rests on in docs/TRUST.md. To see it again, check the
commit out on a machine with the kit, and run .ci/run.

Not proved, but tested: the script shq, all of tools/, and the second checker in second/.
"""


def tracked_files():
    """The packaged files of the repository, as they are committed."""
    try:
        if said("git", "status", "--porcelain"):
            raise NotPackaged("files are changed and not committed, so a package could not be told by its commit")
        names = said("git", "ls-files", "-z").split("\0")
    except NoRecord as fault:
        raise NotPackaged(f"{fault}: the files of a package are those that git has") from fault
    return [it for it in names if PACKAGED.fullmatch(it) and not LEFT_OUT.fullmatch(it)]


def proved_record():
    """The record of the gate that made the program, where the sources are the same since."""
    if not BUILT_PROGRAM.exists():
        raise NotPackaged("the program is not built: run .ci/run")
    if program.is_stale():
        raise NotPackaged("a source is newer than the program: run .ci/run")
    try:
        record = record_of(BUILT_PROGRAM)
    except NoRecord as fault:
        raise NotPackaged(str(fault)) from fault
    if sum_of_sources() != record.sources:
        raise NotPackaged("the sources are not those from which the gate made the program: run .ci/run")
    if record.commit == NOT_COMMITTED:
        raise NotPackaged("the gate passed on sources that were not committed: commit them, and run .ci/run")
    return record


def entries(record):
    """All files of the package, by their places."""
    found = {it: Entry((TOP / it).read_bytes(), os.access(TOP / it, os.X_OK)) for it in tracked_files()}
    found[f"libexec/{PROGRAM_CRATE}"] = Entry(BUILT_PROGRAM.read_bytes(), True)
    found[f"libexec/{RECORD_NAME}"] = Entry(record.text().encode("utf-8"))
    found["PROOFS.txt"] = Entry(proofs_text(record).encode("utf-8"))
    found["share/man/man1/shq.1"] = Entry(manual(version(), record.proved[:10]).encode("utf-8"))
    found["share/bash-completion/completions/shq"] = Entry(bash_completion().encode("utf-8"))
    found["share/zsh/site-functions/_shq"] = Entry(zsh_completion().encode("utf-8"))
    return found


def with_sums(found):
    """The files with a list of their sums."""
    lines = [f"{hashlib.sha256(it.data).hexdigest()}  {name}\n" for name, it in sorted(found.items()) if not it.link]
    return {**found, SUMS_NAME: Entry("".join(lines).encode("utf-8"))}


def compressed(data):
    """The bytes, compressed the same way each time."""
    made = io.BytesIO()
    with gzip.GzipFile(filename="", fileobj=made, mode="wb", compresslevel=9, mtime=0) as file:
        file.write(data)
    return made.getvalue()


def tar_archive(found, top, seconds):
    """A tar archive of files below one folder, all of one time."""
    made = io.BytesIO()
    with tarfile.open(fileobj=made, mode="w", format=tarfile.GNU_FORMAT) as archive:
        for name, entry in sorted(found.items()):
            info = tarfile.TarInfo(f"{top}/{name}")
            info.size, info.mtime, info.mode = len(entry.data), seconds, 0o755 if entry.is_run else 0o644
            info.uname = info.gname = "root"
            if entry.link:
                info.type, info.linkname, info.mode = tarfile.SYMTYPE, entry.link, 0o777
            archive.addfile(info, io.BytesIO(entry.data))
    return compressed(made.getvalue())


def debian_places(found):
    """The same files at the places that Debian has for them."""
    placed = {"usr/bin/shq": Entry(link="../lib/jezundwa/shq")}
    for name, entry in found.items():
        if name == "share/man/man1/shq.1":
            placed["usr/share/man/man1/shq.1.gz"] = Entry(compressed(entry.data))
        elif name == "share/zsh/site-functions/_shq":
            placed["usr/share/zsh/vendor-completions/_shq"] = entry
        elif name.startswith("share/"):
            placed[f"usr/{name}"] = entry
        elif DOCUMENTS.fullmatch(name):
            placed[f"usr/share/doc/jezundwa/{name}"] = entry
        else:
            placed[f"usr/lib/jezundwa/{name}"] = entry
    placed["usr/share/doc/jezundwa/copyright"] = Entry(NO_LICENCE.encode("utf-8"))
    return placed


def control_text(placed):
    """What Debian is told of the package."""
    size = sum(len(it.data) for it in placed.values()) // 1024 + 1
    return (
        f"Package: {NAME}\nVersion: {version()}\nArchitecture: amd64\n"
        f"Maintainer: {MAINTAINER}\nInstalled-Size: {size}\n"
        "Depends: libc6\nRecommends: python3 (>= 3.9)\nSuggests: graphviz, libowlapi-java, default-jre-headless\n"
        f"Section: science\nPriority: optional\nDescription: {SUMMARY}\n{DESCRIPTION}"
    )


def write_tree(placed, top, seconds):
    """Writes files below a folder, all of one time."""
    for name, entry in placed.items():
        path = top / name
        path.parent.mkdir(parents=True, exist_ok=True)
        if entry.link:
            path.symlink_to(entry.link)
        else:
            path.write_bytes(entry.data)
            path.chmod(0o755 if entry.is_run else 0o644)
    for folder, inner, names in os.walk(top, topdown=False):
        for it in (*inner, *names):
            os.utime(Path(folder, it), (seconds, seconds), follow_symlinks=False)
        os.chmod(folder, 0o755)
        os.utime(folder, (seconds, seconds))


def debian_package(found, target, seconds):
    """Makes a package for Debian by dpkg-deb, and returns whether there is such a command."""
    if shutil.which("dpkg-deb") is None:
        return False
    placed = debian_places(found)
    with tempfile.TemporaryDirectory(prefix="shq-package-") as room:
        tree = Path(room) / "tree"
        write_tree({**placed, "DEBIAN/control": Entry(control_text(placed).encode("utf-8"))}, tree, seconds)
        environment = {**os.environ, "SOURCE_DATE_EPOCH": str(seconds)}
        words = ["dpkg-deb", "--root-owner-group", "-Zgzip", "-z9", "--build", str(tree), str(target)]
        subprocess.run(words, env=environment, stdout=subprocess.DEVNULL, check=True)
    return True


def package(folder):
    """Makes the archives in a folder, with a list of their sums, and returns their paths."""
    record = proved_record()
    found = with_sums(entries(record))
    folder.mkdir(parents=True, exist_ok=True)
    name = f"{NAME}-{version()}-x86_64-linux"
    archive = folder / f"{name}.tar.gz"
    archive.write_bytes(tar_archive({**found, "bin/shq": Entry(link="../shq")}, name, record.seconds))
    debian = folder / f"{NAME}_{version()}_amd64.deb"
    made = [archive, *[debian] * debian_package(found, debian, record.seconds)]
    (folder / SUMS_NAME).write_text("".join(f"{sum_of(it)}  {it.name}\n" for it in made), encoding="utf-8")
    return made
