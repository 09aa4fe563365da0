#!/usr/bin/env python3
"""Cases for the judgement of a page's whole set of sheets, with the results it must give.

This is an independent account of a set: it is written from the description in words alone, and shares nothing with the
library. Each sheet is judged by tests/cover_cases.py, which was made in the same way. The stored results
(the part set of crates/test_judge/stdout) come from here and not from the library.

    python3 tests/set_cases.py            writes the part set of stdin and stdout of crates/test_judge
    python3 tests/set_cases.py --check    only says whether that part is what it would write

Run it at the repository's root. It draws no chance from outside: each run writes the same bytes.

A case that is handed over is free but for what is said of it. So a sheet that is not covered stands in a set only where
there is one spare-free case, whose facts are then stored.
"""
import collections
import sys

import stored_parts
import table_cases
from cover_cases import (LENT_WORDS, NO_ROOM, NOT_COVERED, OWN, REFUSED, facts_in, judged, law_by, law_of, lawful, page, parts_of, some_relations, some_sheet, told)
from evaluate_cases import fact, raised_lines, shown_answers
from sheet_cases import BROKEN_TABLES, CLUB, FULL_TABLE, MOST_WORDS, OWN_TABLE, WRONG_TABLE, Dice, field_of, lines_in, noted, read, read_by, sheet_of

# --- Judging a set --------------------------------------------------------------------------------------------------

MOST_SHEETS = 16
WRONG_ENDS = 14

# What is returned for a sheet.
Judgement = collections.namedtuple("Judgement", "verdict number line missing facts")


def refused(number, line=0):
    return Judgement(REFUSED, number, line, (0,) * 4, [])


def judged_alone(sheet, table=None, most=4000):
    """What a sheet gets with words enough, by the own table or another; None where it has a case and that is not the only one."""
    number, line, lines = read(sheet, MOST_WORDS) if table is None else read_by(table, sheet, MOST_WORDS)
    if number:
        return refused(number, line)
    parts = parts_of(lines, OWN if table is None else law_by(table))
    found = judged(parts, most)
    if found.number != NOT_COVERED:
        return Judgement(found.number, 0, 0, (0,) * 4, [])
    shown, missing, facts = told(parts, found)
    if shown != 2:
        return None
    return Judgement(NOT_COVERED, 0, 0, missing + (0,) * (4 - len(missing)), facts)


def refusal_of(count, ends, room):
    """The number by which a set of so many bytes is sent back, with so many lent words; 0 where it is taken."""
    too_many = len(ends) > MOST_SHEETS
    falls_back = any(end < before for before, end in zip(ends, ends[1:]))
    if too_many or falls_back or (ends[-1] if ends else 0) != count:
        return WRONG_ENDS
    return NO_ROOM if room < LENT_WORDS * len(ends) else 0


def judged_set(data, ends, room, table=None):
    """The number, and the judgement of each sheet of a set that is taken. A table that is sent back is each sheet's matter, not the set's."""
    number = refusal_of(len(data), ends, room)
    if number:
        return number, []
    return 0, [judged_alone(data[start:end], table) for start, end in zip([0] + ends, ends)]


# --- The cases ------------------------------------------------------------------------------------------------------

# What the program has room for.
HELD_WORDS = MOST_SHEETS * LENT_WORDS + 64
HELD_ENDS = MOST_SHEETS + 3
HELD_BYTES = 8704
HELD_LINE = 8192

given, wanted, names = [], [], set()
tally = collections.Counter()


def heading(text):
    given.append("# " + text)
    wanted.append("# " + text)


def shown(judgement):
    """A sheet's part of a printed line. Both marks hold."""
    facts = shown_answers([fact(relation, *values) for relation, values in judgement.facts])
    numbers = (judgement.verdict, judgement.number, judgement.line, *judgement.missing)
    return "|" + " ".join(map(str, numbers)) + f" {len(judgement.facts)}|{facts}=="


def keep(name, data, ends, want, room=None, table=None):
    """A set by its bytes and ends. What is wanted is the number, or the verdict of each sheet and the numbers of those refused."""
    room = LENT_WORDS * len(ends) if room is None else room
    assert name not in names and "|" not in name and room <= HELD_WORDS and len(ends) <= HELD_ENDS and len(data) <= HELD_BYTES, name
    names.add(name)
    number, sheets = judged_set(data, ends, room, table)
    got = number if number else [(one.verdict, one.number) if one.number else one.verdict for one in sheets]
    if want is not None and got != want:
        sys.exit(f"the judge gives {got} and not {want}: {name}")
    given.append(f"set {name}|{' '.join(map(str, [room] + ends))}|{written(data, table)}")
    wanted.append(f"{name}: {number} 0 {len(sheets)} ==" + "".join(map(shown, sheets)))
    tally[(f"refused by {number}" if number else f"{len(sheets)} sheets") + " by a table" * (table is not None)] += 1


def written(data, table):
    """The bytes of a set as a case writes them, and its table as one field more where it has one."""
    text = noted(data)
    return text if table is None else field_of(text, table)


def ends_of(sheets):
    return [len(b"".join(sheets[:at + 1])) for at in range(len(sheets))]


def taken(name, sheets, want, room=None, table=None):
    """A set of sheets, with ends that are right."""
    keep(name, b"".join(sheets), ends_of(sheets), want, room, table)


WORKED = sheet_of(lines_in("1 -1 -2 / 4 4 -1 -2 / 2 -1 -2 / 4 5 -1 -2 / 3 -1 -2 / 4 4 -1 -2 / 5 7 1 / 5 7 2"))
COVERED_ONE = page("(s): Sig(s,t)", "(7): Sig(7,t)", "(s): Sig(s,t) = (7)")
NO_LOG_ONE = page("(s): Sig(s,t)", "(s): Sig(s,t)", "(): Beat(s,t) = ()", "(s,t): Beat(s,t)")
TWO_TICKS = page("(): Beat(7,1), Noise(7,2)", "(): Pause(1)", "(t): Beat(7,t), Noise(7,t)")
SMALL = page("(): Pause(1)", "(): Pause(1)")

# A sheet for each refusal of a sheet.
TOO_LONG = b" " * 8193
UNCLOSED = WORKED[:-1]
NO_LIST = sheet_of(lines_in("1 -1 -2 / 4 4 -1 -2"))
NO_RELATION = sheet_of(lines_in("1 / 4 11 1 / 2 / 4 10 1"))
OUT_OF_RANGE = sheet_of(lines_in("1 -13 / 4 10 -13 / 2 -1 / 4 10 -1"))
SEVENTH_ATOM = sheet_of(lines_in("1" + " / 4 10 1" * 7 + " / 2 / 4 10 1"))
OTHER_LENGTH = sheet_of(lines_in("1 -1 / 4 10 -1 / 2 / 4 10 1"))
UNSAFE = sheet_of(lines_in("1 -1 / 4 10 -2 / 2 -1 / 4 10 -1"))
ROWS_DESCEND = sheet_of(lines_in("1 / 4 10 1 / 2 / 4 10 1 / 3 -1 / 4 10 -1 / 5 2 / 5 1"))


def counts():
    heading("how many sheets")
    keep("no sheets", b"", [], [])
    keep("no sheets, with words to spare", b"", [], [], LENT_WORDS)
    taken("one sheet", [WORKED], [1])
    taken("two sheets", [WORKED, COVERED_ONE], [1, 0])
    taken("sixteen sheets", [SMALL] * 16, [0] * 16)
    taken("sixteen sheets, the last with a case", [SMALL] * 15 + [WORKED], [0] * 15 + [1])
    taken("sixteen sheets, the first with a case", [WORKED] + [SMALL] * 15, [1] + [0] * 15)
    taken("seventeen sheets", [SMALL] * 17, WRONG_ENDS, HELD_WORDS)
    keep("seventeen sheets without bytes", b"", [0] * 17, WRONG_ENDS, HELD_WORDS)
    keep("sixteen sheets without bytes", b"", [0] * 16, [(9, 3)] * 16)
    keep("nineteen sheets without bytes, no words", b"", [0] * 19, WRONG_ENDS, 0)


def ends():
    heading("ends")
    two, both = ends_of([WORKED, COVERED_ONE]), WORKED + COVERED_ONE
    keep("equal ends: a sheet without bytes at the start", WORKED, [0, len(WORKED)], [(9, 3), 1])
    keep("equal ends: a sheet without bytes between", both, [two[0], two[0], two[1]], [1, (9, 3), 0])
    keep("equal ends: sheets without bytes at the end", WORKED, [len(WORKED)] * 3, [1, (9, 3), (9, 3)])
    keep("an end that falls back", both, [two[1], two[0]], WRONG_ENDS)
    keep("an end that falls back by one", both, [two[0], two[0] - 1, two[1]], WRONG_ENDS)
    keep("an end that falls back to 0", both, [two[0], 0, two[1]], WRONG_ENDS)
    keep("the last end falls back, to the byte count", both, [two[0], two[1] + 1, two[1]], WRONG_ENDS)
    keep("a last end one below the byte count", both, [two[0], two[1] - 1], WRONG_ENDS)
    keep("a last end one above the byte count", both, [two[0], two[1] + 1], WRONG_ENDS)
    keep("a last end far above the byte count", both, [two[0], 2_000_000_000], WRONG_ENDS)
    keep("the last sheet left out", both, [two[0]], WRONG_ENDS)
    keep("no sheets, with bytes", WORKED, [], WRONG_ENDS, LENT_WORDS)
    keep("no sheets, with a byte", b"\n", [], WRONG_ENDS, LENT_WORDS)
    keep("a sheet, without bytes", b"", [1], WRONG_ENDS)
    keep("an end within a line", both, [two[0] - 8, two[1]], [(9, 2), (9, 2)])
    keep("an end within a sheet, after a line", both, [26, two[0], two[1]], [(9, 2), (9, 2), 0])
    keep("an end after a whole line", both, [25, two[0], two[1]], [(9, 3), (9, 3), 0])


def rooms():
    heading("lent words")
    taken("one word short", [WORKED], NO_ROOM, LENT_WORDS - 1)
    taken("no words", [WORKED], NO_ROOM, 0)
    taken("one word short of two stretches", [WORKED, COVERED_ONE], NO_ROOM, 2 * LENT_WORDS - 1)
    taken("words for one of two", [COVERED_ONE, WORKED], NO_ROOM, LENT_WORDS)
    taken("one word short of sixteen stretches", [SMALL] * 16, NO_ROOM, 16 * LENT_WORDS - 1)
    taken("one word more than two stretches", [WORKED, WORKED], [1, 1], 2 * LENT_WORDS + 1)
    taken("a stretch of 640 words", [WORKED], NO_ROOM, 640)
    taken("more words than sixteen stretches", [SMALL] * 16, [0] * 16, HELD_WORDS)
    taken("words short for sheets that are all refused", [NO_LIST, UNCLOSED], NO_ROOM, 2 * LENT_WORDS - 1)
    keep("ends before words: no words and a last end that is short", WORKED, [len(WORKED) - 1], WRONG_ENDS, 0)
    keep("ends before words: no words and an end that falls back", WORKED, [len(WORKED), 3, len(WORKED)], WRONG_ENDS, 0)
    keep("ends before words: no words and seventeen sheets", b"", [0] * 17, WRONG_ENDS, 0)


def mixed():
    heading("verdicts and refusals side by side")
    taken("one of each verdict", [COVERED_ONE, WORKED, NO_LOG_ONE], [0, 1, 2])
    taken("one of each verdict, the other way round", [NO_LOG_ONE, WORKED, COVERED_ONE], [2, 1, 0])
    taken("each verdict with each refusal of its own between",
          [COVERED_ONE, UNCLOSED, WORKED, NO_LIST, NO_LOG_ONE, NO_RELATION, TWO_TICKS, OUT_OF_RANGE, COVERED_ONE, SEVENTH_ATOM, WORKED, OTHER_LENGTH,
           NO_LOG_ONE, UNSAFE, ROWS_DESCEND, WORKED],
          [0, (9, 2), 1, (9, 3), 2, (9, 4), 1, (9, 5), 0, (9, 6), 1, (9, 7), 2, (9, 8), (9, 9), 1])
    taken("a sheet over 8,192 bytes beside others", [WORKED, TOO_LONG, SMALL], [1, (9, 1), 0])
    taken("a bad sheet first", [NO_RELATION, WORKED, COVERED_ONE], [(9, 4), 1, 0])
    taken("a bad sheet last", [WORKED, COVERED_ONE, NO_RELATION], [1, 0, (9, 4)])
    taken("bad sheets alone", [NO_LIST, UNCLOSED, UNSAFE], [(9, 3), (9, 2), (9, 8)])
    taken("the same sheet four times", [WORKED] * 4, [1] * 4)
    taken("two cases side by side", [WORKED, TWO_TICKS], [1, 1])
    assert judged_alone(TWO_TICKS).facts == facts_in("Sig(7,1) Sig(7,2) Beat(7,1) Noise(7,2)")


def seven_digits():
    heading("sheets whose every constant has seven digits, beside others")
    for least in (1_000_000, 9_999_990):
        sheets = [sheet_of(raised_lines(read(sheet, MOST_WORDS)[2], least)) for sheet in (WORKED, COVERED_ONE, NO_LOG_ONE, TWO_TICKS)]
        taken(f"one of each verdict, constants from {least:,}", sheets, [1, 0, 2, 1])
        taken(f"constants from {least:,} and small ones", [WORKED, sheets[0], OUT_OF_RANGE, sheets[1], TWO_TICKS, sheets[3]], [1, 1, (9, 5), 0, 1, 1])
    last, past = (sheet_of(lines_in(f"1 / 4 10 {value} / 2 / 4 10 1")) for value in (9_999_999, 10_000_000))
    taken("constant 9,999,999 beside 10,000,000", [last, past, last], [1, (9, 5), 1])


def several_lists():
    heading("sheets with several lists beside others")
    crews, lists = "(r): Rower(r,k)", ["(r): Rower(r,1)", "(r): Rower(r,2)"]
    both = page(crews, lists, "(r,k): Rower(r,k) = (10,1) (11,2)")
    one = page(crews, lists[:1], "(r,k): Rower(r,k) = (10,1) (11,2)")
    hole = page(crews, lists, "(r,k): Rower(r,k) = (10,1) (11,2) (12,3)")
    none = page(crews, lists, "(r,k): Rower(r,k) = (10,1)", "(): Rower(r,k)")
    fifth = page("(): Pause(1)", ["(): Pause(1)"] * 5)
    late = page("(): Pause(1)", "(): Pause(1)", "(): Pause(1)") + sheet_of(lines_in("2 / 4 10 1"))
    longer = page("(): Pause(1)", ["(): Pause(1)", "(1): Pause(1)"])
    taken("one list and two", [one, both], [1, 0])
    taken("two lists, each verdict", [both, hole, none], [0, 1, 2])
    taken("several lists beside one", [WORKED, hole, COVERED_ONE, both, TWO_TICKS, none, one], [1, 1, 0, 0, 1, 2, 1])
    taken("a fifth list beside four", [fifth, page("(): Pause(1)", ["(): Pause(2)"] * 4), fifth, both], [(9, 6), 1, (9, 6), 0])
    taken("a list after a view, and one of another length", [hole, late, longer, hole], [1, (9, 3), (9, 7), 1])
    taken("sixteen sheets with two lists", [both, hole] * 5 + [none, one] * 3, [0, 1] * 5 + [2, 1] * 3)
    assert judged_alone(hole).missing[0] == 12 and judged_alone(one).missing[0] == 11


# Sheets whose verdicts rest on the keys of Pulse and Worn.
TWO_RATES = page("(): Pause(1)", "(): Pause(2)", "(r): Pulse(7,1,r) = (90) (91)")
ONE_ROWER = page("(a,b): Worn(s,t,a), Worn(s,t,b)", "(a,a): Worn(s,t,a)")
SETTLED = page("(r): Pulse(7,1,r), Strap(r)", "(r): Pause(r)", "(s): Pulse(s,1,90) = (7)")


def keys():
    heading("sheets with keys beside others")
    taken("two rates in one sheet, and one in each of two", [TWO_RATES, SETTLED, page("(r): Pulse(7,1,r)", "(r): Pause(r)", "(r): Pulse(7,1,r) = (91)")], [2, 1, 1])
    taken("keys, each verdict", [ONE_ROWER, SETTLED, TWO_RATES], [0, 1, 2])
    taken("keys between others", [WORKED, TWO_RATES, NO_LIST, ONE_ROWER, TWO_TICKS, SETTLED], [1, 2, (9, 3), 0, 1, 1])
    assert judged_alone(SETTLED).facts == facts_in("Strap(90) Pulse(7,1,90)") and judged_alone(SETTLED).missing[0] == 90


# Sheets of a club with lactate meters.
LEVELS, RETESTS = "(r,s,v): Lactate(r,s,v)", "(r,s,v): Retest(r,s,v)"
CLUB_COVERED = page(RETESTS, LEVELS)
CLUB_CASE = page(LEVELS, RETESTS, LEVELS + " = (7,1,90) (7,2,91)", RETESTS + " = (7,1,90)")
CLUB_NO_LOG = page("(): Ill(1)", "(): Ill(1)", "(v): Retest(7,1,v) = (90) (91)")
CLUB_NO_RELATION = page("(): Ill(1)", "(): R19(1)")
LAST_CASE = page("(): R32(1,1,1,1), R30(1,1)", "(): R29(1)")


def club():
    heading("sets by a club's table")
    taken("club: each verdict", [CLUB_COVERED, CLUB_CASE, CLUB_NO_LOG], [0, 1, 2], table=CLUB)
    taken("club: each verdict, the other way round", [CLUB_NO_LOG, CLUB_CASE, CLUB_COVERED], [2, 1, 0], table=CLUB)
    taken("club: the ten's sheets beside the club's", [WORKED, CLUB_COVERED, COVERED_ONE, CLUB_CASE, NO_LOG_ONE, TWO_TICKS, CLUB_NO_LOG, SETTLED, TWO_RATES],
          [1, 0, 0, 1, 2, 1, 2, 1, 2], table=CLUB)
    taken("club: refusals between", [CLUB_CASE, UNCLOSED, NO_LIST, CLUB_NO_RELATION, CLUB_COVERED, NO_RELATION, OUT_OF_RANGE, SEVENTH_ATOM, OTHER_LENGTH, UNSAFE, ROWS_DESCEND,
                                     CLUB_NO_LOG],
          [1, (9, 2), (9, 3), (9, 4), 0, (9, 4), (9, 5), (9, 6), (9, 7), (9, 8), (9, 9), 2], table=CLUB)
    taken("club: a sheet over 8,192 bytes", [CLUB_COVERED, TOO_LONG], [0, (9, 1)], table=CLUB)
    taken("club: sixteen sheets", [CLUB_CASE, CLUB_COVERED, CLUB_NO_LOG, SMALL] * 4, [1, 0, 2, 0] * 4, table=CLUB)
    taken("club: without its table", [CLUB_COVERED, WORKED, CLUB_CASE, CLUB_NO_LOG], [(9, 4), 1, (9, 4), (9, 4)])
    taken("club: by the own ten in bytes", [CLUB_COVERED, WORKED, CLUB_CASE, CLUB_NO_LOG], [(9, 4), 1, (9, 4), (9, 4)], table=OWN_TABLE)
    taken("club: by a table without keys and parents", [CLUB_NO_LOG, page(RETESTS, LEVELS, RETESTS + " = (7,1,90) (7,1,91)", LEVELS)], [0, 1],
          table=table_cases.table([(columns, 0, 0) for columns, _, _ in table_cases.read(CLUB)[0]]))
    taken("club: no sheets", [], [], table=CLUB)
    taken("club: words to spare", [CLUB_CASE, CLUB_CASE], [1, 1], 2 * LENT_WORDS + 64, CLUB)
    taken("relation 32 of 32", [LAST_CASE, page("(a,b,c,d): R32(a,b,c,d)", "(a,b,c,d): R16(a,b,c,d)"), page("(): R1(1)", "(): R1(1)", "(c,d): R32(1,2,c,d) = (3,4) (5,4)")],
          [1, 0, 2], table=FULL_TABLE)
    one = table_cases.table([(2, 1, 0)])
    taken("a table of one line", [page("(a,b): R1(a,b)", "(a,7): R1(a,7)", "(a,b): R1(a,b) = (1,7) (2,8)"), page("(a,b): R1(x,a), R1(x,b)", "(a,a): R1(x,a)"),
                                  page("(): R1(1,1)", "(): R1(1,1)", "(b): R1(3,b) = (7) (8)"), WORKED], [1, 0, 2, (9, 4)], table=one)
    assert judged_alone(CLUB_CASE, CLUB).facts == facts_in("Lactate(7,1,90) Lactate(7,2,91) Retest(7,1,90)")
    assert judged_alone(LAST_CASE, FULL_TABLE).facts == facts_in("R16(1,1,1,1) R30(1,1) R32(1,1,1,1)")


def tables_sent_back():
    heading("a table that is sent back: 14 first, then 13, then 15 for each sheet")
    for table, line in BROKEN_TABLES:
        name = f"a table sent back at line {line}"
        sheets = [WORKED, UNCLOSED, b"", NO_RELATION, CLUB_COVERED]
        assert all(one == refused(WRONG_TABLE, line) for one in judged_set(b"".join(sheets), ends_of(sheets), 5 * LENT_WORDS, table)[1])
        taken(f"{name}: five sheets", sheets, [(9, WRONG_TABLE)] * 5, table=table)
        taken(f"{name}: one sheet", [WORKED], [(9, WRONG_TABLE)], HELD_WORDS, table)
        taken(f"{name}: no sheets", [], [], table=table)
        taken(f"{name}: words short", sheets, NO_ROOM, 5 * LENT_WORDS - 1, table)
        taken(f"{name}: no words", [WORKED], NO_ROOM, 0, table)
        keep(f"{name}: a last end that is short", WORKED, [len(WORKED) - 1], WRONG_ENDS, None, table)
        keep(f"{name}: an end that falls back, and no words", WORKED, [len(WORKED), 3, len(WORKED)], WRONG_ENDS, 0, table)
        keep(f"{name}: seventeen sheets", b"", [0] * 17, WRONG_ENDS, HELD_WORDS, table)
    table, line = BROKEN_TABLES[1]
    for number, sheet in ((1, TOO_LONG), (2, UNCLOSED), (3, NO_LIST), (4, NO_RELATION), (5, OUT_OF_RANGE), (6, SEVENTH_ATOM), (7, OTHER_LENGTH), (8, UNSAFE), (9, ROWS_DESCEND)):
        taken(f"a table sent back beside a sheet by {number}", [sheet, SMALL], [(9, WRONG_TABLE)] * 2, table=table)
    keep("a table sent back and sixteen sheets without bytes", b"", [0] * 16, [(9, WRONG_TABLE)] * 16, None, table)


def some_set(dice, pool, count, table=None):
    sheets = []
    for _ in range(count):
        sheet = dice.one(pool)
        if dice.below(6) == 0:
            data = bytearray(sheet)
            data[dice.below(len(data))] = dice.one(b"0123456789 -\n\x00")
            sheet = bytes(data)
        if dice.below(8) == 0:
            sheet = b""
        if judged_alone(sheet, table) is not None:
            sheets.append(sheet)
    return sheets


def some_table(dice, count, longest):
    """A small table, and so many sheets for it of which it is known what they get."""
    while True:
        relations = some_relations(dice)
        law, table, pool = law_of(relations), table_cases.table(relations), []
        often = sorted(set(law.keys) | set(law.parents) | set(law.parents.values()) | {len(relations)})
        for _ in range(3 * count):
            sheet = sheet_of(some_sheet(dice, 1 + dice.below(2), often, law, lawful))
            if len(sheet) < longest and judged_alone(sheet, table, 1000) is not None:
                pool.append(sheet)
        if len(pool) >= count and len({judged_alone(sheet, table, 1000).verdict for sheet in pool}) > 2:
            return table, pool


def generated(title, name, dice, count, most_lists, longest):
    """Sets of small sheets; some have one end moved."""
    heading(title)
    pool = []
    while len(pool) < 40:
        sheet = sheet_of(some_sheet(dice, 1 + dice.below(most_lists) if most_lists > 1 else 1))
        if len(sheet) < longest and judged_alone(sheet) is not None:
            pool.append(sheet)
    for at in range(1, count + 1):
        sheets = some_set(dice, pool, 1 + dice.below(MOST_SHEETS))
        marks = ends_of(sheets)
        room = LENT_WORDS * len(sheets) + dice.one((0, 0, 0, 1, 63)) - dice.one((0, 0, 0, 0, 1))
        if marks and dice.below(4) == 0:
            place = dice.below(len(marks))
            marks[place] = max(0, marks[place] + dice.one((-1, 1, -40, 40)))
        if len(noted(b"".join(sheets))) < 6000 and judged_set(b"".join(sheets), marks, room)[1].count(None) == 0:
            keep(f"{name} {at}", b"".join(sheets), marks, None, max(0, room))


def generated_by_tables(dice, count):
    """Sets of small sheets by small tables, both drawn; some tables have a field changed, and some sets one end moved."""
    heading("generated: sets by tables")
    for at in range(1, count + 1):
        table, pool = some_table(dice, 8, 400)
        sheets = some_set(dice, pool, 2 + dice.below(MOST_SHEETS - 1), table)
        marks = ends_of(sheets)
        if dice.below(5) == 0:
            place = dice.below(len(marks))
            marks[place] = max(0, marks[place] + dice.one((-1, 1, -25, 25)))
        if dice.below(5) == 0:
            place = dice.below(len(table) // 33) * 33 + 8
            table = table[:place] + b"%8d" % dice.below(6) + table[place + 8:]
        room = LENT_WORDS * len(sheets) + dice.one((0, 0, 0, 1, 63)) - dice.one((0, 0, 0, 0, 0, 1))
        if len(written(b"".join(sheets), table)) < 7000 and judged_set(b"".join(sheets), marks, room, table)[1].count(None) == 0:
            keep(f"set by a table {at}", b"".join(sheets), marks, None, max(0, room), table)


def main():
    counts()
    ends()
    rooms()
    mixed()
    seven_digits()
    generated("generated", "set", Dice(16), 30, 1, 400)
    several_lists()
    generated("generated: sheets with one to four lists", "set with lists", Dice(20), 20, 4, 500)
    keys()
    club()
    tables_sent_back()
    generated_by_tables(Dice(81), 30)
    texts = ["".join(line + "\n" for line in lines).encode("ascii") for lines in (given, wanted)]
    assert all(0 < len(line) < HELD_LINE and ("|" in line) != line.startswith("#") for line in given)
    for kind, count in sorted(tally.items()):
        print(f"{kind:<25} {count:>4}")
    print(f"{sum(tally.values())} cases, {len(texts[0])} bytes of input, {len(texts[1])} bytes of output")
    stored_parts.store("set", *texts, "--check" in sys.argv[1:])


if __name__ == "__main__":
    main()
