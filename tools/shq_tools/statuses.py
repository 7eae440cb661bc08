"""The numbers with which `./shq` ends, by name.

0 to 9 are those of the program. The others are of the scripts around it: 10 for a question about a name that the file
does not have, where that is not let pass; 127 where there is no program. A script that compares or checks ends with 1
where something differs or fails.
"""
from enum import IntEnum


class Status(IntEnum):
    """How a run ended."""

    DONE = 0
    FAILED = 1
    BAD_WORDS = 2
    BAD_TEXT = 3
    OUTSIDE = 4
    LIMIT = 5
    READ_FAULT = 6
    WRITE_FAULT = 7
    UNDECIDED = 8
    NO_MEMORY = 9
    UNKNOWN_NAME = 10
    NOT_BUILT = 127


# How an answer begins that has no status of success, longer ones first.
BEGINNINGS = {
    "rejected ": Status.FAILED,
    "bad words": Status.BAD_WORDS,
    "bad text ": Status.BAD_TEXT,
    "outside ": Status.OUTSIDE,
    "limit ": Status.LIMIT,
    "read fault": Status.READ_FAULT,
    "no memory": Status.NO_MEMORY,
}


def status_of(answer):
    """The status with which the program printed an answer, by the answer's own text.

    The answers to a script are not told apart by it: a line of them may begin in the same way.
    """
    lines = answer.rstrip("\n").split("\n")
    if lines[-1] == "undecided":
        return Status.UNDECIDED
    for begins, status in BEGINNINGS.items():
        if lines[0].startswith(begins) and len(lines) == 1:
            return status
    return Status.DONE


def status_name(number):
    """The name of a status in small letters, as `bad text`."""
    return Status(number).name.lower().replace("_", " ")
