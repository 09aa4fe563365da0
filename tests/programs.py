"""Where the repository's programs stand: `rt run` in a crate's folder proves the crate, builds its program into out/ there, and runs it."""
import pathlib

CRATES = pathlib.Path(__file__).resolve().parent.parent / "crates"


def program(name):
    return CRATES / name / "out" / name
