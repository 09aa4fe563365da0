#!/usr/bin/env python3
"""Measures the stack that the program cover needs on sheets that ask the most of its search.

    python3 tests/stack_cover.py [NAME..]       all sheets, or those that are named

It runs the built program `cover` (tests/programs.py). Each sheet has 40 rows, of views whose three atoms have all twelve
variables, and is judged with less and less stack (what `ulimit -s` sets), down to the least that works. It prints that, in
KiB, with the made-up values at the start of the search and the processor time of a run (as a multiple of that of the first
sheet that is run), and fails where more than 256 KiB are needed or the verdict is another than the one that is due.

    made-up     as many made-up values as a sheet can have, and a choice of 33 rows for each first column
    forced      a view with one row for each other column forces every value there: one level of the search after the other
    choices     the same with two rows for each: every level leaves a choice open
    contrary    the same as forced, with a fact that no log may have, so that all levels are left again
    key of one, key of two
                choices by a club's table, in which the first column of a seat or the first two settle the others
    sessions    seats of six rowers in two boats and four sessions, where rower and session settle boat and seat

The last three once took so long that nobody saw them end, so a run that takes longer than ten seconds fails too.
"""
import resource
import subprocess
import sys
import tempfile

import table_cases
from cover_cases import MADE_UP, NO_LOG, NOT_COVERED, OWN, is_case, law_by, most_general, page, parts_of
from programs import program
from sheet_cases import MOST_WORDS, read

PROGRAM = program("cover")
MOST_KIB = 256
PAGE_KIB = 4
TOP_KIB = 1024
SECONDS = 10
MOST_LOOKED_AT = 40                                         # facts

ATOMS = "Seat(a,b,c,d), Seat(e,f,g,h), Seat(i,j,k,l)"
NEVER = "(): Pause(1)"


def rows(values):
    return " = " + " ".join(f"({value})" for value in values)


def column(name, values):
    """The view of a column of all seats, with its rows."""
    return f"({name}): {ATOMS}" + rows(values)


FORCED = [column("a", range(1, 38))] + [column(name, [50]) for name in "bcd"]

CHOICES = page(f"(): {ATOMS}", NEVER, column("a", range(1, 35)), *[column(name, [50, 51]) for name in "bcd"])


def seats_settled_by(columns):
    """A club's table: the library's own relations, but with a key for seats."""
    seat = 9 - 1
    return table_cases.table([*table_cases.OWN[:seat], (4, columns, 0), *table_cases.OWN[seat + 1:]])


def pairs(head, atoms, values):
    return f"{head}: {atoms} = " + " ".join(f"({first},{second})" for first, second in values)


MET = "Seat(a,s,b,i), Seat(c,s,b,j), Seat(a,t,d,k), Seat(c,t,d,l)"
TAKEN = {41: [2, 4], 42: [3, 8], 43: [1, 3, 4, 5], 44: [2, 4, 5, 6, 7, 8]}
BOATS = [51, 52]
SAME_SEAT = [(101, 103), (101, 105), (103, 104), (103, 106)]
SESSIONS = page(f"(a,c): {MET}", f"(a,c): {MET}, Seat(105,t,d,m)",
                pairs("(s,i)", "Seat(a,s,b,i)", [(session, seat) for session, seats in TAKEN.items() for seat in seats]),
                pairs("(b,d)", "Seat(a,s,b,i), Seat(a,t,d,j)", [(boat, other) for boat in BOATS for other in BOATS]),
                pairs("(s,b)", "Seat(a,s,b,i)", [(session, boat) for session in TAKEN for boat in BOATS if (session, boat) != (42, 52)]),
                pairs("(a,c)", "Seat(a,s,b,i), Seat(c,t,b,i)",
                      sorted([(rower, rower) for rower in range(101, 107)] + SAME_SEAT + [(second, first) for first, second in SAME_SEAT])))

# Name, verdict, sheet, and a club's table where there is one.
SHEETS = {
    "made-up": (NOT_COVERED, page(f"(): {ATOMS}", NEVER, *[f"(): {ATOMS} = ()"] * 7, column("a", range(1, 34))), None),
    "forced": (NOT_COVERED, page(f"(): {ATOMS}", NEVER, *FORCED), None),
    "choices": (NOT_COVERED, CHOICES, None),
    "contrary": (NO_LOG, page(f"(): {ATOMS}", NEVER, *FORCED, "(): Seat(37,50,50,50)"), None),
    "key of one": (NOT_COVERED, CHOICES, seats_settled_by(1)),
    "key of two": (NOT_COVERED, CHOICES, seats_settled_by(2)),
    "sessions": (NOT_COVERED, SESSIONS, seats_settled_by(2)),
}


def made_up_values(sheet, law):
    number, _, lines = read(sheet, MOST_WORDS, law.columns)
    assert number == 0
    parts = parts_of(lines, law)
    log, _ = most_general(parts, True)
    return len({value for _, values in log for value in values if value >= MADE_UP})


def run(program, sheet, kib):
    """What the program, with its arguments, prints with so much stack, or None where it does not end well."""
    limit = kib * 1024
    done = subprocess.run(program, input=sheet, capture_output=True, timeout=SECONDS, env={},
                          preexec_fn=lambda: resource.setrlimit(resource.RLIMIT_STACK, (limit, limit)))
    return done.stdout if done.returncode == 0 else None


def processor_time():
    """Seconds of the processes that have ended so far."""
    used = resource.getrusage(resource.RUSAGE_CHILDREN)
    return used.ru_utime + used.ru_stime


def works(program, sheet, kib, whole):
    try:
        return run(program, sheet, kib) == whole
    except (OSError, subprocess.SubprocessError):
        return False                                        # too little to start at all


def least_stack(program, sheet, whole):
    """The least stack in KiB, by pages, with which the program prints the same."""
    low, high = 0, TOP_KIB // PAGE_KIB                      # low fails, high works
    while high - low > 1:
        middle = (low + high) // 2
        low, high = (low, middle) if works(program, sheet, middle * PAGE_KIB, whole) else (middle, high)
    return high * PAGE_KIB


def is_shown_to_fail(sheet, law, whole):
    """Whether the facts that are printed are a case; more than a page has are not looked at."""
    lines = [[int(line[at:at + 8]) for at in range(0, len(line), 8)] for line in whole.decode().splitlines()]
    log = frozenset((relation, tuple(values)) for kind, relation, *values in (line for line in lines if line[0] == 7))
    return len(log) > MOST_LOOKED_AT or is_case(parts_of(read(sheet, MOST_WORDS, law.columns)[2], law), log)


def measured(name, program, first):
    """Judges a sheet, and says whether all is well and what its time was."""
    verdict, sheet, table = SHEETS[name]
    law = OWN if table is None else law_by(table)
    start = processor_time()
    try:
        whole = run(program, sheet, TOP_KIB)
    except subprocess.TimeoutExpired:
        print(f"{name:<10} more than {SECONDS} s", flush=True)
        return False, first
    seconds = max(processor_time() - start, 0.001)
    first = first or seconds
    if whole is None:
        print(f"{name:<10} more than {TOP_KIB} KiB", flush=True)
        return False, first
    printed = int(whole[:8])
    least = least_stack(program, sheet, whole)
    print(f"{name:<10} {made_up_values(sheet, law)} made-up values  verdict {printed}  {least:>4} KiB  {seconds / first:.2f} times the first", flush=True)
    if printed != verdict:
        print(f"    the verdict that is due is {verdict}")
    shown = printed != NOT_COVERED or is_shown_to_fail(sheet, law, whole)
    if not shown:
        print("    the facts are no case")
    return printed == verdict and least <= MOST_KIB and shown, first


def main():
    good, first = True, None
    for name in sys.argv[1:] or SHEETS:
        with tempfile.NamedTemporaryFile() as file:
            file.write(SHEETS[name][2] or b"")
            file.flush()
            well, first = measured(name, [PROGRAM] + [file.name] * (SHEETS[name][2] is not None), first)
            good = good and well
    sys.exit(0 if good else 1)


if __name__ == "__main__":
    main()
