"""What `./shq --version` prints: the version, and by which kit and when the program was proved."""
from shq_tools.gate_record import NoRecord, record_of
from shq_tools.places import TOP

NAME = "jezundwa"


def version():
    """The number of the version."""
    try:
        return (TOP / "VERSION").read_text(encoding="utf-8").strip()
    except OSError:
        return "without a version"


def version_text():
    """The version, and what the record of the gate says where it is that of the program."""
    lines = [f"{NAME} {version()}"]
    try:
        record = record_of()
        lines += [f"kit: {record.kit}", f"proved: {record.proved}", f"gate: {record.gate}", f"commit: {record.commit}"]
    except (NoRecord, OSError):
        lines.append("proved: there is no record of a gate that passed and made this program")
    return "".join(it + "\n" for it in lines)
