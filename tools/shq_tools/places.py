"""Where things stand in the repository, or in a package, which has the program in a folder of its own."""
from pathlib import Path

TOP = Path(__file__).resolve().parent.parent.parent
TOOLS = TOP / "tools"
CRATES = TOP / "crates"
CRATE_LIST = TOP / "crates.txt"
PROGRAM_CRATE = "ontology_cli"
BUILT_PROGRAM = CRATES / PROGRAM_CRATE / "out" / PROGRAM_CRATE
PACKAGED_PROGRAM = TOP / "libexec" / PROGRAM_CRATE
PROGRAM = PACKAGED_PROGRAM if PACKAGED_PROGRAM.exists() else BUILT_PROGRAM
EXAMPLES = TOP / "examples"
