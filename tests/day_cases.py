#!/usr/bin/env python3
"""Cases for the judgement of a set with its page, with the results they must give.

This is an independent account of the page: it is written from the description in words alone, and shares nothing with the
library. Each set is judged by tests/set_cases.py, which was made in the same way. The stored results
(the part day of crates/test_judge/stdout, crates/day/stdout) come from here and not from the library.

    python3 tests/day_cases.py            writes the part day of stdin and stdout of crates/test_judge; args, data and stdout of crates/day
    python3 tests/day_cases.py --check    only says whether these are what it would write
    python3 tests/day_cases.py --run      runs the built program `day` (tests/programs.py) on files that cannot be taken, and looks at what it says

Run it at the repository's root. It draws no chance from outside: each run writes the same bytes.
"""
import collections
import pathlib
import subprocess
import sys
import tempfile

import stored_parts
import table_cases
from cover_cases import LENT_WORDS, NO_ROOM, page
from evaluate_cases import raised_lines
from programs import program
from set_cases import (CLUB_CASE, CLUB_COVERED, CLUB_NO_LOG, CLUB_NO_RELATION, COVERED_ONE, LAST_CASE, MOST_SHEETS, NO_LIST, NO_LOG_ONE, NO_RELATION, ONE_ROWER,
                       OTHER_LENGTH, OUT_OF_RANGE, ROWS_DESCEND, SETTLED, SEVENTH_ATOM, SMALL, TOO_LONG, TWO_RATES, TWO_TICKS, UNCLOSED, UNSAFE, WORKED, WRONG_ENDS,
                       ends_of, judged_alone, judged_set, refused, some_set, some_sheet, some_table, written)
from sheet_cases import BROKEN_TABLES, CLUB, FULL_TABLE, LACTATE, MOST_WORDS, OWN_TABLE, Dice, noted, read, sheet_of

# --- The page -------------------------------------------------------------------------------------------------------

PAGE_ROOM = 569


def line_of(*numbers):
    return b"".join(b"%8d" % number for number in numbers) + b"\n"


def page_of(sheets):
    """A line for each sheet, and the closing line."""
    lines = [line_of(place, one.verdict, one.number, len(one.facts)) for place, one in enumerate(sheets, 1)]
    had = [sum(one.verdict == verdict for one in sheets) for verdict in (0, 1, 2, 9)]
    return b"".join(lines) + line_of(*had, sum(len(one.facts) for one in sheets))


def judged_day(data, ends, words, room, table=None):
    """The number, how many sheets were judged, and the page."""
    number, sheets = judged_set(data, ends, words, table)
    if number == 0 and room < PAGE_ROOM:
        number = NO_ROOM
    return (number, 0, b"") if number else (0, len(sheets), page_of(sheets))


# --- The cases ------------------------------------------------------------------------------------------------------

PROGRAM = pathlib.Path("crates/day")

# What the program has room for.
HELD_WORDS = MOST_SHEETS * LENT_WORDS + 64
HELD_PAGE = PAGE_ROOM + 64
HELD_ENDS = MOST_SHEETS + 3
HELD_BYTES = 8704
HELD_LINE = 8192

given, wanted, names = [], [], set()
tally = collections.Counter()


def heading(text):
    given.append("# " + text)
    wanted.append("# " + text)


def keep(name, data, ends, want, words=None, room=PAGE_ROOM, table=None):
    """A set by its bytes and ends. What is wanted is the number, or the page, its fields by single blanks and its lines by " / "."""
    words = LENT_WORDS * len(ends) if words is None else words
    assert name not in names and "|" not in name and words <= HELD_WORDS and room <= HELD_PAGE and len(ends) <= HELD_ENDS and len(data) <= HELD_BYTES, name
    names.add(name)
    number, count, paper = judged_day(data, ends, words, room, table)
    got = number if number else " / ".join(" ".join(line.split()) for line in paper.decode().splitlines())
    if want is not None and got != want:
        sys.exit(f"the page is {got} and not {want}: {name}")
    given.append(f"day {name}|{' '.join(map(str, [words, room] + ends))}|{written(data, table)}")
    wanted.append(f"{name}: {number} 0 {count} {len(paper)} =|{paper.decode().replace(chr(10), '/')}{'~' * (room - len(paper))}")
    tally[(f"refused by {number}" if number else f"{count} sheets") + " by a table" * (table is not None)] += 1


def taken(name, sheets, want, words=None, room=PAGE_ROOM, table=None):
    """A set of sheets, with ends that are right."""
    keep(name, b"".join(sheets), ends_of(sheets), want, words, room, table)


# A sheet whose only case has 252 facts, as many as a case can have: 126 beats and noises that have nothing in common, and their signals.
CHAINS = " ".join(f"({at},{100 + at},{200 + at},{300 + at})" for at in range(40))
LARGEST = page(f"(): {', '.join(f'Beat(1,{900 + at})' for at in range(6))}", "(): Pause(1)", f"(a,b,c,d): Beat(a,b), Noise(b,c), Beat(c,d) = {CHAINS}")
REFUSALS = {1: TOO_LONG, 2: UNCLOSED, 3: NO_LIST, 4: NO_RELATION, 5: OUT_OF_RANGE, 6: SEVENTH_ATOM, 7: OTHER_LENGTH, 8: UNSAFE, 9: ROWS_DESCEND}


def pages():
    heading("pages")
    keep("no sheets", b"", [], "0 0 0 0 0")
    keep("no sheets, with words and bytes to spare", b"", [], "0 0 0 0 0", LENT_WORDS, HELD_PAGE)
    taken("one sheet with a case", [WORKED], "1 1 0 2 / 0 1 0 0 2")
    taken("one sheet that is covered", [COVERED_ONE], "1 0 0 0 / 1 0 0 0 0")
    taken("one sheet without a log", [NO_LOG_ONE], "1 2 0 0 / 0 0 1 0 0")
    taken("one sheet that is refused", [NO_RELATION], "1 9 4 0 / 0 0 0 1 0")
    taken("one of each", [COVERED_ONE, WORKED, NO_LOG_ONE, UNSAFE], "1 0 0 0 / 2 1 0 2 / 3 2 0 0 / 4 9 8 0 / 1 1 1 1 2")
    taken("one of each, the other way round", [UNSAFE, NO_LOG_ONE, WORKED, COVERED_ONE], "1 9 8 0 / 2 2 0 0 / 3 1 0 2 / 4 0 0 0 / 1 1 1 1 2")
    taken("facts of several cases", [WORKED, SMALL, TWO_TICKS, WORKED], "1 1 0 2 / 2 0 0 0 / 3 1 0 4 / 4 1 0 2 / 1 3 0 0 8")
    taken("the last sheet without facts", [WORKED, WORKED, SMALL], "1 1 0 2 / 2 1 0 2 / 3 0 0 0 / 1 2 0 0 4")
    taken("the largest case", [LARGEST], "1 1 0 252 / 0 1 0 0 252")
    taken("the largest case between others", [WORKED, LARGEST, NO_LIST], "1 1 0 2 / 2 1 0 252 / 3 9 3 0 / 0 2 0 1 254")
    sixteen = " / ".join(f"{place} 9 3 0" for place in range(1, 17))
    keep("sixteen refused sheets, all without bytes", b"", [0] * 16, sixteen + " / 0 0 0 16 0")
    taken("sixteen refused sheets", [NO_LIST] * 16, sixteen + " / 0 0 0 16 0")
    taken("sixteen covered sheets", [SMALL] * 16, " / ".join(f"{place} 0 0 0" for place in range(1, 17)) + " / 16 0 0 0 0")
    taken("sixteen cases", [TWO_TICKS] * 16, " / ".join(f"{place} 1 0 4" for place in range(1, 17)) + " / 0 16 0 0 64")
    for number, sheet in REFUSALS.items():
        taken(f"a sheet that is refused by {number}, beside one that is not", [SMALL, sheet], f"1 0 0 0 / 2 9 {number} 0 / 1 0 0 1 0")
    high = [sheet_of(raised_lines(read(sheet, MOST_WORDS)[2], 9_999_990)) for sheet in (WORKED, COVERED_ONE, NO_LOG_ONE)]
    taken("constants of seven digits", high, "1 1 0 2 / 2 0 0 0 / 3 2 0 0 / 1 1 1 0 2")
    taken("keys, each verdict", [ONE_ROWER, SETTLED, TWO_RATES], "1 0 0 0 / 2 1 0 2 / 3 2 0 0 / 1 1 1 0 2")


def rooms():
    heading("lent bytes: 569 are enough for every set, and 568 for none")
    for room, number in ((569, None), (570, None), (HELD_PAGE, None), (568, NO_ROOM), (41, NO_ROOM), (0, NO_ROOM)):
        keep(f"no sheets, {room} bytes", b"", [], number if number else "0 0 0 0 0", None, room)
        taken(f"one sheet, {room} bytes", [WORKED], number if number else "1 1 0 2 / 0 1 0 0 2", None, room)
        taken(f"sixteen sheets, {room} bytes", [SMALL] * 16, number, None, room)
        taken(f"sixteen refused sheets, {room} bytes", [NO_LIST] * 16, number, None, room)
    heading("lent words, and both")
    taken("one word short", [WORKED], NO_ROOM, LENT_WORDS - 1)
    taken("one word short and one byte short", [WORKED], NO_ROOM, LENT_WORDS - 1, 568)
    taken("one word short of sixteen stretches", [SMALL] * 16, NO_ROOM, 16 * LENT_WORDS - 1)
    taken("more words than wanted", [WORKED, SMALL], "1 1 0 2 / 2 0 0 0 / 1 1 0 0 2", 2 * LENT_WORDS + 64)
    heading("14 comes first")
    for room in (569, 568, 0):
        keep(f"seventeen sheets, {room} bytes", b"", [0] * 17, WRONG_ENDS, HELD_WORDS, room)
        keep(f"a last end that is short, {room} bytes", WORKED, [len(WORKED) - 1], WRONG_ENDS, LENT_WORDS, room)
        keep(f"an end that falls back, {room} bytes", WORKED, [len(WORKED), 3, len(WORKED)], WRONG_ENDS, 0, room)
        keep(f"no sheets, with a byte, {room} bytes", b"\n", [], WRONG_ENDS, LENT_WORDS, room)


def club():
    heading("pages by a club's table")
    taken("club: each verdict", [CLUB_COVERED, CLUB_CASE, CLUB_NO_LOG, CLUB_NO_RELATION], "1 0 0 0 / 2 1 0 3 / 3 2 0 0 / 4 9 4 0 / 1 1 1 1 3", table=CLUB)
    taken("club: the ten's sheets beside the club's", [WORKED, CLUB_CASE, NO_LOG_ONE, CLUB_COVERED, TWO_TICKS],
          "1 1 0 2 / 2 1 0 3 / 3 2 0 0 / 4 0 0 0 / 5 1 0 4 / 1 3 1 0 9", table=CLUB)
    taken("club: sixteen cases", [CLUB_CASE] * 16, " / ".join(f"{place} 1 0 3" for place in range(1, 17)) + " / 0 16 0 0 48", table=CLUB)
    taken("club: without its table", [CLUB_COVERED, WORKED, CLUB_CASE], "1 9 4 0 / 2 1 0 2 / 3 9 4 0 / 0 1 0 2 2")
    taken("club: by the own ten in bytes", [CLUB_COVERED, WORKED, CLUB_CASE], "1 9 4 0 / 2 1 0 2 / 3 9 4 0 / 0 1 0 2 2", table=OWN_TABLE)
    for number, sheet in REFUSALS.items():
        taken(f"club: a sheet that is refused by {number}", [CLUB_COVERED, sheet], f"1 0 0 0 / 2 9 {number} 0 / 1 0 0 1 0", table=CLUB)
    taken("relation 32 of 32", [LAST_CASE, LAST_CASE], "1 1 0 3 / 2 1 0 3 / 0 2 0 0 6", table=FULL_TABLE)
    keep("club: no sheets", b"", [], "0 0 0 0 0", table=CLUB)
    taken("club: bytes and words to spare", [CLUB_CASE], "1 1 0 3 / 0 1 0 0 3", LENT_WORDS + 64, HELD_PAGE, CLUB)
    taken("club: one byte short", [CLUB_CASE], NO_ROOM, None, 568, CLUB)
    taken("club: one word short", [CLUB_CASE], NO_ROOM, LENT_WORDS - 1, 569, CLUB)


def tables_sent_back():
    heading("a table that is sent back: 14 first, then 13, then 15 on each line of the page")
    for table, line in BROKEN_TABLES:
        name = f"a table sent back at line {line}"
        sheets = [WORKED, b"", TWO_TICKS, UNCLOSED]
        taken(f"{name}: four sheets", sheets, "1 9 15 0 / 2 9 15 0 / 3 9 15 0 / 4 9 15 0 / 0 0 0 4 0", table=table)
        taken(f"{name}: one sheet", [WORKED], "1 9 15 0 / 0 0 0 1 0", LENT_WORDS + 64, HELD_PAGE, table)
        keep(f"{name}: no sheets", b"", [], "0 0 0 0 0", table=table)
        taken(f"{name}: one byte short", sheets, NO_ROOM, None, 568, table)
        taken(f"{name}: one word short", sheets, NO_ROOM, 4 * LENT_WORDS - 1, 569, table)
        taken(f"{name}: no words and no bytes", [WORKED], NO_ROOM, 0, 0, table)
        keep(f"{name}: seventeen sheets", b"", [0] * 17, WRONG_ENDS, HELD_WORDS, 569, table)
        keep(f"{name}: a last end that is short, and no bytes", WORKED, [len(WORKED) - 1], WRONG_ENDS, LENT_WORDS, 0, table)
        keep(f"{name}: an end that falls back, and no words", WORKED, [len(WORKED), 3, len(WORKED)], WRONG_ENDS, 0, 569, table)
    table, _ = BROKEN_TABLES[1]
    sixteen = " / ".join(f"{place} 9 15 0" for place in range(1, 17)) + " / 0 0 0 16 0"
    keep("a table sent back and sixteen sheets without bytes", b"", [0] * 16, sixteen, table=table)
    taken("a table sent back and sixteen sheets", [SMALL, WORKED] * 8, sixteen, table=table)
    for number, sheet in REFUSALS.items():
        taken(f"a table sent back beside a sheet by {number}", [sheet, SMALL], "1 9 15 0 / 2 9 15 0 / 0 0 0 2 0", table=table)


def generated_by_tables():
    """Sets of small sheets by small tables, both drawn; some tables have a field changed."""
    heading("generated: pages by tables")
    dice = Dice(82)
    for at in range(1, 21):
        table, pool = some_table(dice, 8, 400)
        sheets = some_set(dice, pool, 2 + dice.below(MOST_SHEETS - 1), table)
        if dice.below(5) == 0:
            place = dice.below(len(table) // 33) * 33 + 8
            table = table[:place] + b"%8d" % dice.below(6) + table[place + 8:]
        if len(written(b"".join(sheets), table)) < 7000 and judged_set(b"".join(sheets), ends_of(sheets), HELD_WORDS, table)[1].count(None) == 0:
            taken(f"set by a table {at}", sheets, None, None, dice.one((569, 569, 569, 600, 568)), table)


def generated():
    """Sets of small sheets; some have one end moved, or too little room."""
    heading("generated")
    dice, pool = Dice(21), []
    while len(pool) < 40:
        sheet = sheet_of(some_sheet(dice))
        if len(sheet) < 400 and judged_alone(sheet) is not None:
            pool.append(sheet)
    for at in range(1, 41):
        sheets = some_set(dice, pool, 1 + dice.below(MOST_SHEETS))
        marks = ends_of(sheets)
        if marks and dice.below(8) == 0:
            place = dice.below(len(marks))
            marks[place] = max(0, marks[place] + dice.one((-1, 1, -40, 40)))
        words = max(0, LENT_WORDS * len(sheets) - dice.one((0, 0, 0, 0, 0, 0, 0, 1)))
        room = dice.one((569, 569, 569, 569, 600, 568))
        if len(noted(b"".join(sheets))) < 6000 and judged_set(b"".join(sheets), marks, words)[1].count(None) == 0:
            keep(f"set {at}", b"".join(sheets), marks, None, words, room)


# --- The program ----------------------------------------------------------------------------------------------------

SIGNALS_TEXT = b"# all signals, and a list of all beats\nq(s,t): Sig(s,t)\nl(s,t): Beat(s,t)\n\nv(s,t): Sig(s,t) = (7,1); (7,2)\n"
STRAPS_TEXT = b"q(s): Sig(s,t)\nl(9999998): Sig(9999998,t)\nv(s): Sig(s,t) = 9999998; 9999999\nv(t): Sig(s,t) = 1234567\n"
LACTATE_TEXT = (b"# levels of lactate, and a list of those that were tested again\n"
                b"q(r,l): R11(r,t,l)\nl(r,l): R12(r,t,l)\nv(r,t,l): R11(r,t,l) = (7,1,42)\nv(r,t): R12(r,t,l) = (7,1)\n")

# The club's table that the program is given, with the first two of its relations.
TABLE_NAME = "lactate.table"
TABLE = table_cases.table(table_cases.OWN + LACTATE[:2])

# A file for each of the program's other arguments, and the sheet that it stands for.
FILES = [
    ("signals.sheet", WORKED, WORKED),
    ("straps.text", STRAPS_TEXT, page("(s): Sig(s,t)", "(9999998): Sig(9999998,t)", "(s): Sig(s,t) = (9999998) (9999999)", "(t): Sig(s,t) = (1234567)")),
    ("covered.sheet", COVERED_ONE, COVERED_ONE),
    ("unclosed.sheet", UNCLOSED, UNCLOSED),
    ("signals.text", SIGNALS_TEXT, WORKED),
    ("contrary.sheet", NO_LOG_ONE, NO_LOG_ONE),
    ("lactate.text", LACTATE_TEXT, page("(r,l): R11(r,t,l)", "(r,l): R12(r,t,l)", "(r,t,l): R11(r,t,l) = (7,1,42)", "(r,t): R12(r,t,l) = (7,1)")),
]
NAMES = [name for name, _, _ in FILES]


def program_files():
    """What the program is run on, and what it must print."""
    files = {PROGRAM / "data" / name: data for name, data, _ in FILES}
    files[PROGRAM / "data" / TABLE_NAME] = TABLE
    files[PROGRAM / "args"] = "".join(word + "\n" for word in ["-t", TABLE_NAME, *NAMES]).encode()
    files[PROGRAM / "stdout"] = page_of([judged_alone(sheet, TABLE) for _, _, sheet in FILES])
    return files


def ran(folder, *names):
    done = subprocess.run([program("day"), *names], cwd=folder, capture_output=True, check=True)
    return done.stdout, done.stderr.decode()


def run():
    with tempfile.TemporaryDirectory() as folder:
        for name, data, _ in FILES:
            (pathlib.Path(folder) / name).write_bytes(data)
        (pathlib.Path(folder) / "broken.text").write_bytes(b"q(s): Strop(s)\n")
        (pathlib.Path(folder) / "long.sheet").write_bytes(b" " * 100_000)
        (pathlib.Path(folder) / TABLE_NAME).write_bytes(TABLE)
        worked, none = judged_alone(WORKED), judged_alone(b"")
        assert ran(folder, "-t", TABLE_NAME, *NAMES) == (page_of([judged_alone(sheet, TABLE) for _, _, sheet in FILES]), "")
        # without the table the last text has no sheet
        own = [judged_alone(sheet) for _, _, sheet in FILES[:-1]]
        assert ran(folder, *NAMES[:-1]) == (page_of(own), "")
        out, said = ran(folder, *NAMES)
        assert out == page_of([*own, refused(2)]) and said.count("\n") == 1 and said.startswith("lactate.text: refused: cause 4 at line 2"), (out, said)
        assert ran(folder) == (page_of([]), "")
        assert ran(folder, *["signals.text"] * 16) == (page_of([worked] * 16), "")
        assert ran(folder, *["signals.text"] * 17) == (line_of(9, WRONG_ENDS, 0), "")
        out, said = ran(folder, "signals.sheet", "no such file", "signals.text")
        assert out == page_of([worked, none, worked]) and said.count("\n") == 1 and said.startswith("no such file: "), (out, said)
        out, said = ran(folder, "broken.text", "signals.sheet", "long.sheet")
        assert out == page_of([refused(2), worked, refused(1)]) and said.startswith("broken.text: line 1: expected a relation"), (out, said)
    print("the program `day` says what it should")


def main():
    if sys.argv[1:] == ["--run"]:
        run()
        return
    pages()
    rooms()
    generated()
    club()
    tables_sent_back()
    generated_by_tables()
    texts = ["".join(line + "\n" for line in lines).encode("ascii") for lines in (given, wanted)]
    assert all(0 < len(line) < HELD_LINE and ("|" in line) != line.startswith("#") for line in given)
    for kind, count in sorted(tally.items()):
        print(f"{kind:<25} {count:>4}")
    print(f"{sum(tally.values())} cases, {len(texts[0])} bytes of input, {len(texts[1])} bytes of output")
    check = "--check" in sys.argv[1:]
    stored_parts.store("day", *texts, check)
    for path, text in program_files().items():
        if check:
            if path.read_bytes() != text:
                sys.exit(f"{path} is not what is made here")
        else:
            path.parent.mkdir(exist_ok=True)
            path.write_bytes(text)


if __name__ == "__main__":
    main()
