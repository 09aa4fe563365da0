"""The stored cases of crates/test_judge in parts: each call has one, which its own program writes and checks.

A part begins behind the line `# ==== CALL`, in what the program is given as in what it must print, and ends where the next begins.
"""
import pathlib
import sys

CRATE = pathlib.Path(__file__).resolve().parent.parent / "crates" / "test_judge"
CALLS = ("cover", "set", "day", "text")
MARK = b"# ==== "


def parts_of(data):
    """The bytes of each part by its call."""
    parts = {}
    for line in data.split(b"\n")[:-1]:
        if line.startswith(MARK):
            call = line[len(MARK):].decode("ascii")
            parts[call] = b""
        else:
            parts[call] += line + b"\n"
    return parts


def part(name, call):
    """The part of a call in the file stdin or stdout."""
    return parts_of((CRATE / name).read_bytes())[call]


def put_part(name, call, data):
    """Writes a call's part, and leaves the others as they are."""
    assert MARK not in data and data.endswith(b"\n"), call
    parts = {**parts_of((CRATE / name).read_bytes()), call: data}
    (CRATE / name).write_bytes(b"".join(MARK + one.encode("ascii") + b"\n" + parts[one] for one in CALLS))


def store(call, given, wanted, check):
    """Writes what a call is given and what it must print, or only says whether it is stored."""
    for name, data in (("stdin", given), ("stdout", wanted)):
        if not check:
            put_part(name, call, data)
        elif part(name, call) != data:
            sys.exit(f"the part {call} of crates/{CRATE.name}/{name} is not what is made here")
