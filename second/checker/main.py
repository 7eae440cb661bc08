"""The commands `check` and `audit`: what they answer, and the status with which they end."""
import os
import sys
from collections import defaultdict
from itertools import islice

from checker.certificates import Lines
from checker.documents import MOST_BYTES, Reader
from checker.syntax import Fault, need

ACCEPTED, REJECTED, BAD_WORDS, READ_FAULT, WRITE_FAULT, NO_MEMORY = 0, 1, 2, 6, 7, 9
REFUSED = {"bad": 3, "outside": 4, "limit": 5}
VERDICTS = {it: it for it in ("entailed", "not entailed")}
VERDICTS.update(satisfiable="not entailed", unsatisfiable="entailed")


def check(lines, query):
    """Takes a certificate, and returns what it says, and why it is rejected, or None."""
    verdict = VERDICTS.get(" ".join(lines.words()))
    need(verdict)
    shown = lines.refutation() if verdict == "entailed" else lines.model()
    lines.finish()
    return verdict, shown.fault(query)


def smallest_transversals(sets):
    """The smallest sets that meet each of some sets, each once (Murakami and Uno 2014)."""
    meeting = defaultdict(int)
    for at, one in enumerate(sets):
        for member in one:
            meeting[member] |= 1 << at
    # what is chosen, each with the sets that it alone meets; the sets that are missed; what may still be chosen
    waiting = [({}, (1 << len(sets)) - 1, set(meeting))]
    while waiting:
        alone, missed, allowed = waiting.pop()
        if not missed:
            yield tuple(sorted(alone))
            continue
        branching = min((allowed.intersection(one) for at, one in enumerate(sets) if missed >> at & 1), key=len)
        allowed = allowed - branching
        for member in branching:
            kept = {it: its & ~meeting[member] for it, its in alone.items()}
            if all(kept.values()):
                waiting.append(({**kept, member: missed & meeting[member]}, missed & ~meeting[member], set(allowed)))
            allowed.add(member)


def audit(lines, query):
    """Takes an audit, and returns that it is one, and why it is rejected, or None."""
    lines.take("audit", count=0)
    justifications = lines.entries("justifications", lines.refutation)
    repairs = lines.entries("repairs", lines.model)
    lines.take("end", "audit", count=0)
    lines.finish()
    by_least = defaultdict(list)
    for axioms, _ in justifications:
        by_least[min(axioms, default=None)].append(set(axioms))
    for at, (axioms, shown) in enumerate(justifications, 1):
        contains_another = any(it < {*axioms} for least in (None, *axioms) for it in by_least.get(least, ()))
        if contains_another or not {*shown.axioms} <= {*axioms} or shown.fault(query):
            return "audit", f"justification {at}"
    for at, (axioms, model) in enumerate(repairs, 1):
        if model.fault(query, set(axioms)):
            return "audit", f"repair {at}"
    found = islice(smallest_transversals([axioms for axioms, _ in justifications]), len(repairs) + 1)
    return "audit", None if set(found) == {tuple(axioms) for axioms, _ in repairs} else "transversal"


def answer(judge, data, axiom):
    """What is said of a document with a certificate or an audit behind it, and the status."""
    if len(data) > MOST_BYTES:
        return "limit text", REFUSED["limit"]
    reader, length = Reader(), None
    try:
        length = reader.document(data)
        query = reader.query(axiom)
    except Fault as fault:
        said, line = fault.args
        return f"{said} {f'line {line}' if length is None else 'query'}", REFUSED[said.split()[0]]
    lines = Lines(data[length:], reader)
    try:
        shown, fault = judge(lines, query)
    except Fault:
        fault = f"line {lines.at}"
    return (f"rejected {fault}", REJECTED) if fault else (f"accepted {shown}", ACCEPTED)


def answer_to(judge, document, rest, axiom):
    """The same for files: that of the document, and that of what stands behind it."""
    try:
        axiom.decode("utf-8")
        with open(document, "rb") as front, open(rest, "rb") as behind:
            return answer(judge, front.read() + behind.read(), axiom)
    except UnicodeDecodeError:
        return "bad words", BAD_WORDS
    except OSError as error:
        print(f"{os.fsdecode(error.filename)}: {error.strerror}", file=sys.stderr)
        return "read fault", READ_FAULT
    except MemoryError:
        return "no memory", NO_MEMORY


def main(judge):
    """Prints the answer to the words of the process, and ends it with the status."""
    words = [os.fsencode(it) for it in sys.argv[1:]]
    said, status = answer_to(judge, *words) if len(words) == 3 else ("bad words", BAD_WORDS)
    if status == BAD_WORDS:
        print(f"usage: second/{judge.__name__} DOCUMENT FILE AXIOM", file=sys.stderr)
    try:
        os.write(1, f"{said}\n".encode())
    except OSError:
        status = WRITE_FAULT
    sys.exit(status)
