#!/usr/bin/env python3
"""Cases for the calls that read a sheet, write one and hand back a line, with the results they must give.

This is an independent reading of the format: it is written from the format's description in words alone, and shares
nothing with the library. A club's table of relations it reads with tests/table_cases.py, which was made in the same way. The stored
results (crates/test_sheet/stdout) come from it and not from the library.

    python3 tests/sheet_cases.py            writes crates/test_sheet/stdin and crates/test_sheet/stdout
    python3 tests/sheet_cases.py --check    only says whether those two files are what it would write

Run it at the repository's root. It draws no chance from outside: each run writes the same bytes.

A case is one line of stdin, its result the same line of stdout (the program's src/main.rt says how they are written).
Beside every case that is written by hand stands what the description says of it, as (number, line), and the reading below has
to agree with that before anything is stored.
"""
import collections
import pathlib
import sys

import table_cases

# --- The format -----------------------------------------------------------------------------------------------------

# The library's own relations by number, and how many columns each has.
COLUMNS = {
    1: 2,   # Rower
    2: 1,   # Strap
    3: 3,   # Worn
    4: 2,   # Sig
    5: 2,   # Beat
    6: 2,   # Noise
    7: 3,   # Pulse
    8: 2,   # Coach
    9: 4,   # Seat
    10: 1,  # Pause
}

MOST_BYTES = 8192           # of a sheet that is read
MOST_WORDS = 749            # of a number form, and what reading must be lent
LENT_BYTES = 5243           # what writing must be lent
MOST_ATOMS = {1: 6, 2: 6, 3: 3}
MOST_LISTS = 4
MOST_VIEWS = 8
MOST_ROWS = 40
MOST_CONSTANT = 9_999_999

WRONG_TABLE = 15

# The numbers that eight bytes can hold.
WIDEST = 99_999_999
LOWEST = -9_999_999

Block = collections.namedtuple("Block", "kind line head atoms rows")


def number_of(field):
    """The number that eight bytes are, or None where they are no field."""
    text = field.lstrip(b" ")
    digits = text[1:] if text[:1] == b"-" else text
    if not digits or any(byte not in b"0123456789" for byte in digits):
        return None
    if digits[0] == ord("0") and text != b"0":
        return None                                         # a leading zero, or -0
    return int(text)


def fields_of(line):
    """The numbers of a line's bytes, or None where they are refused by 2."""
    if len(line) % 8 or not 8 <= len(line) <= 48:
        return None
    fields = [number_of(line[at:at + 8]) for at in range(0, len(line), 8)]
    return None if None in fields else fields


def fields_in(words):
    """The numbers of a line's seven words, or None where they are refused by 2."""
    count, rest = words[0], words[1:]
    if not 1 <= count <= 6:
        return None
    if any(rest[count:]) or any(not LOWEST <= number <= WIDEST for number in rest[:count]):
        return None
    return rest[:count]


def in_place(kind, before, blocks):
    """Whether a line of this kind may follow the line of kind `before` (0 at the first line), after these blocks."""
    if kind == 1:
        return before == 0
    if kind == 2:
        return bool(blocks) and blocks[-1].kind in (1, 2)
    if kind == 3:
        return any(block.kind == 2 for block in blocks)
    if kind == 4:
        return before in (1, 2, 3, 4)
    return bool(blocks) and blocks[-1].kind == 3 and before in (4, 5)


def judge_line(fields, before, blocks, columns=COLUMNS):
    """The first of 2, 3, 4, 5, 6, 7 and 9 that holds of a line after these blocks, and 0 where none does; by the columns of relations."""
    if fields is None:
        return 2
    kind, count = fields[0], len(fields)
    if not 1 <= kind <= 5 or not in_place(kind, before, blocks):
        return 3
    if not (3 <= count <= 6 if kind == 4 else 1 <= count <= 5):
        return 3
    terms = fields[1:]
    if kind == 4:
        relation, terms = fields[1], fields[2:]
        if columns.get(relation) != len(terms):
            return 4
    least = 0 if kind == 5 else -12
    if any(not least <= term <= MOST_CONSTANT for term in terms):
        return 5
    if kind == 2 and sum(block.kind == 2 for block in blocks) == MOST_LISTS:
        return 6
    if kind == 3 and sum(block.kind == 3 for block in blocks) == MOST_VIEWS:
        return 6
    if kind == 4 and len(blocks[-1].atoms) == MOST_ATOMS[blocks[-1].kind]:
        return 6
    if kind == 5 and sum(len(block.rows) for block in blocks) == MOST_ROWS:
        return 6
    if kind == 2 and len(terms) != len(blocks[0].head):
        return 7
    if kind == 5 and len(terms) != len(blocks[-1].head):
        return 7
    if kind == 5 and blocks[-1].rows and not blocks[-1].rows[-1] < terms:
        return 9
    return 0


def judge(lines, columns=COLUMNS):
    """(number, line) of what a sheet is sent back for by its lines, and (0, 0) where it is taken."""
    blocks, before = [], 0
    for at, fields in enumerate(lines, 1):
        number = judge_line(fields, before, blocks, columns)
        if number:
            return number, at
        before = fields[0]
        if before == 4:
            blocks[-1].atoms.append(fields[2:])
        elif before == 5:
            blocks[-1].rows.append(fields[1:])
        else:
            blocks.append(Block(before, at, fields[1:], [], []))
    if not any(block.kind == 2 for block in blocks):
        return 3, 0                                         # the question is missing, or a list
    for block in blocks:
        held = {term for atom in block.atoms for term in atom}
        if not block.atoms or any(term < 0 and term not in held for term in block.head):
            return 8, block.line
    return 0, 0


def closed_lines(sheet):
    """The lines that are closed by byte 10, without it, and what follows the last byte 10."""
    *lines, rest = sheet.split(b"\n")
    return lines, rest


def read(sheet, room, columns=COLUMNS):
    """(number, line, lines of numbers) of reading a sheet into so many lent words, by the columns of relations."""
    if len(sheet) > MOST_BYTES:
        return 1, 0, []
    closed, rest = closed_lines(sheet)
    lines = [fields_of(line) for line in closed] + ([None] if rest else [])
    number, line = judge(lines, columns)
    if number == 0 and room < MOST_WORDS:
        number = 13
    return number, line, [] if number else lines


def write(words, room, columns=COLUMNS):
    """(number, line, bytes) of writing a number form into so many lent bytes, by the own relations or others."""
    if len(words) > MOST_WORDS:
        return 1, 0, b""
    if len(words) % 7:
        return 2, 0, b""
    lines = [fields_in(words[at:at + 7]) for at in range(0, len(words), 7)]
    number, line = judge(lines, columns)
    if number == 0 and room < LENT_BYTES:
        number = 13
    return number, line, b"" if number else sheet_of(lines)


def columns_by(table):
    """The columns of each relation of a club's table and None, or None and the line that the table is sent back with."""
    relations, line = table_cases.read(table)
    return (None, line) if relations is None else ({number: relation[0] for number, relation in enumerate(relations, 1)}, None)


def read_by(table, sheet, room):
    """The same as reading, by a club's table, which is looked at first."""
    columns, line = columns_by(table)
    return (WRONG_TABLE, line, []) if columns is None else read(sheet, room, columns)


def write_by(table, words, room):
    """The same as writing, by a club's table, which is looked at first."""
    columns, line = columns_by(table)
    return (WRONG_TABLE, line, b"") if columns is None else write(words, room, columns)


def line_of(sheet, number):
    """The bytes of a closed line, and none where there is no such line."""
    closed, _ = closed_lines(sheet)
    return closed[number - 1] if 1 <= number <= len(closed) else b""


def sheet_of(lines):
    """The bytes of lines of numbers."""
    return b"".join(b"".join(b"%8d" % number for number in line) + b"\n" for line in lines)


def words_of(lines):
    """The number form of lines of numbers. A line of more than six has its count and its first six."""
    return [word for line in lines for word in [len(line)] + (line + [0] * 6)[:6]]


# --- The cases ------------------------------------------------------------------------------------------------------

STDIN = pathlib.Path("crates/test_sheet/stdin")
STDOUT = pathlib.Path("crates/test_sheet/stdout")

# What the program has room for.
ROOM = {"r": MOST_WORDS + 64, "w": LENT_BYTES + 64}
HELD_BYTES = 8704
HELD_TABLE = 2048
HELD_WORDS = MOST_WORDS + 64
HELD_LINE = 4096

given, wanted = [], []
tally = collections.Counter()


def shown(data):
    """Bytes as they are printed: "/" for byte 10, "\\" and two hexadecimal digits for what is not plain."""
    return "".join("/" if byte == 10 else chr(byte) if 32 <= byte <= 126 and byte not in b",;/\\" else "\\%02x" % byte
                   for byte in data)


def noted(data):
    """Bytes as a case writes them: the same, with "," for seven blanks and ";" for six."""
    return shown(data).replace(" " * 7, ",").replace(" " * 6, ";")


def shown_words(words):
    """Words as they are printed: "/" after each line of seven, a blank after any other."""
    return "".join("%d%s" % (word, " " if at % 7 else "/") for at, word in enumerate(words, 1))


def noted_words(words):
    """Words as a case writes them: by single blanks, and "/" after each line of seven, whose last zeros are left out."""
    lines = []
    for at in range(0, len(words), 7):
        line = words[at:at + 7]
        whole = len(line) == 7
        while whole and len(line) > 1 and line[-1] == 0:
            line = line[:-1]
        lines.append(" ".join(map(str, line)) + "/" * whole)
    return "".join(lines)


def field_of(data, table):
    """What a case has written so far, and its table as one field more."""
    assert "|" not in data and b"|" not in table and len(table) <= HELD_TABLE
    return f"{data}|{noted(table)}"


def add(call, number, data, result, cause, table=None):
    """Keeps a case, and counts it by its call and cause. One with a table has a field more, and its call is a large letter."""
    if table is not None:
        call, data = call.upper(), field_of(data, table)
    given.append(f"{call} {number}|{data}")
    wanted.append(result)
    tally[call, cause] += 1


def heading(text):
    given.append("# " + text)
    wanted.append("# " + text)


def agree(want, number, line, what):
    """Stops where what stands beside the case and the reading above differ."""
    if want is not None and want != (number, line):
        sys.exit(f"the reading gives {(number, line)} and not {want}: {what}")


def read_case(sheet, want=None, room=MOST_WORDS, table=None):
    assert room <= ROOM["r"] and len(sheet) <= HELD_BYTES
    number, line, lines = read(sheet, room) if table is None else read_by(table, sheet, room)
    agree(want, number, line, sheet)
    add("r", room, noted(sheet), f"{number} {line} {len(lines)} =|{shown_words(words_of(lines))}", number, table)


def write_case(words, want=None, room=LENT_BYTES, table=None):
    assert room <= ROOM["w"] and len(words) <= HELD_WORDS
    number, line, sheet = write(words, room) if table is None else write_by(table, words, room)
    agree(want, number, line, words)
    add("w", room, noted_words(words), f"{number} {line} {len(sheet)} =|{shown(sheet)}", number, table)


def line_case(sheet, number, want=None):
    assert len(sheet) <= HELD_BYTES
    line = line_of(sheet, number)
    if want is not None and want != line:
        sys.exit(f"the reading gives {line} and not {want}: line {number} of {sheet}")
    add("l", number, noted(sheet), f"{len(line)}|{shown(line)}", "some" if line else "none")


def round_case(sheet, room=LENT_BYTES, table=None):
    """A sheet that is taken: what is read is written again."""
    assert len(sheet) <= HELD_BYTES and room <= ROOM["w"]
    refused, line, lines = read(sheet, MOST_WORDS) if table is None else read_by(table, sheet, MOST_WORDS)
    number, place, written = write(words_of(lines), room) if table is None else write_by(table, words_of(lines), room)
    assert (refused, number, written) == (0, 0, sheet), sheet
    add("b", room, noted(sheet), f"0 0 {len(lines)} =|{shown_words(words_of(lines))}0 0 {len(sheet)} =|{shown(sheet)}", 0, table)


def lines_in(text):
    """Lines of numbers from a sheet in short: fields by single spaces, lines by " / "."""
    return [[int(field) for field in line.split()] for line in text.split(" / ")] if text else []


def sheet(text):
    return sheet_of(lines_in(text))


def words(text):
    return words_of(lines_in(text))


def both(text, want, table=None):
    """The same sheet as bytes and as words: the two forms are sent back for the same things."""
    read_case(sheet(text), want, table=table)
    write_case(words(text), want, table=table)


def joined(*parts):
    return " / ".join(part for part in parts if part)


TAKEN = (0, 0)

# Sheets from which the cases are made.
LEAST = "1 / 4 2 1 / 2 / 4 2 1"
VIEW = joined(LEAST, "3 / 4 2 1")
ROWS = joined(LEAST, "3 -1 / 4 2 -1 / 5 7 / 5 9")
SIGNALS = "1 -1 -2 / 4 4 -1 -2 / 2 -1 -2 / 4 5 -1 -2 / 3 -1 -2 / 4 4 -1 -2 / 5 7 1 / 5 7 2"
PLAIN = "1 / 4 2 1"                                         # a question
VIEW_OF_ONE = "3 1 / 4 2 1"                                 # a view of one column
FORTY = " / ".join(f"5 {row}" for row in range(1, 41))      # forty rows for it


def full(lists, head, atom, rows):
    """A sheet of 6 atoms in the question and in each list, and 8 views of 3 atoms and 5 rows each: of 107 lines with four lists, 86 with one."""
    view = [[3] + head] + [atom] * 3 + rows
    return [[1] + head] + [atom] * 6 + ([[2] + head] + [atom] * 6) * lists + view * 8


NARROW = [5], [4, 2, 1], [[5, row] for row in range(1, 6)]
WIDE = [-1, -2, -3, -4], [4, 9, -1, -2, -3, -4], [[5, row] + [9_999_999] * 3 for row in range(9_999_995, 10_000_000)]
FULL = full(4, *NARROW)
LARGEST = full(4, *WIDE)
FULL_OF_ONE = full(1, *NARROW)
LARGEST_OF_ONE = full(1, *WIDE)


def worked_sheets():
    heading("a worked sheet and judged examples: all are taken")
    for text in [
        SIGNALS,
        "1 -1 -2 / 4 4 -1 -2 / 2 -1 -2 / 4 5 -1 -2 / 3 -1 -2 / 4 4 -1 -2",
        "1 -1 -2 / 4 4 -1 -2 / 2 -1 -2 / 4 5 -1 -2 / 3 -1 -2 / 4 4 -1 -2 / 5 7 1 / 3 -1 -2 / 4 5 -1 -2 / 5 7 1",
        "1 -1 / 4 4 -1 -2 / 2 7 / 4 4 7 -2 / 3 -1 / 4 4 -1 -2 / 5 7",
        "1 -1 / 4 4 -1 -2 / 2 7 / 4 4 7 -2 / 3 -1 / 4 4 -1 -2 / 5 7 / 5 8",
        joined(LEAST, "3 / 4 5 -1 -2 / 5 / 3 -1 -2 / 4 5 -1 -2"),
        "1 -1 / 4 2 -1 / 4 10 -2 / 2 -1 / 4 2 -1 / 3 / 4 2 -1 / 4 10 -1",
        "1 / 4 5 7 1 / 4 6 7 2 / 2 / 4 10 1 / 3 -1 / 4 5 7 -1 / 4 6 7 -1",
        "1 / 4 5 7 1 / 4 6 7 1 / 2 / 4 10 1 / 3 -1 / 4 5 7 -1 / 4 6 7 -1",
    ]:
        both(text, TAKEN)
    read_case(b"", (3, 0))
    write_case([], (3, 0))


def sizes():
    heading("1: over 8,192 bytes, over 749 words")
    tail = sheet(joined(SIGNALS, "5 7 2"))                    # 9 at line 9
    read_case(tail + b" " * (8192 - len(tail)), (9, 9))
    read_case(tail + b" " * (8193 - len(tail)), (1, 0), room=0)
    words_749 = words_of(FULL)
    assert len(words_749) == 749
    write_case(words_749, TAKEN)
    write_case(words_749 + words("5 9"), (1, 0))            # by its lines it would be 6 at line 108
    write_case(words_749 + [0], (1, 0))
    write_case(words_749 + [0] * 6, (1, 0), room=0)
    write_case([0] * 756, (1, 0))
    words_602 = words_of(FULL_OF_ONE)                       # what a sheet with one list can have
    assert len(words_602) == 602
    write_case(words_602, TAKEN)
    write_case(words_602 + words("5 9"), (6, 87))
    write_case(words_602 + [0], (2, 0))
    write_case([0] * 609, (2, 1))
    write_case([0] * 749, (2, 1))
    heading("2, line 0: the word count is no multiple of 7")
    write_case(words_749[:748], (2, 0))
    write_case(words_749[:743], (2, 0), room=0)
    write_case(words_602[:601], (2, 0))
    write_case(words_602[:596], (2, 0), room=0)
    for count in (1, 6, 8, 13, 15, 27):
        write_case(words(LEAST)[:count], (2, 0))
    write_case([0], (2, 0))
    write_case([9] * 8, (2, 0))
    write_case(words(LEAST) + [0], (2, 0))
    write_case(words("3 / 4 2 1") + [1], (2, 0))
    heading("any multiple of 7 up to 749 goes on to the lines")
    for count, want in ((7, (3, 0)), (14, (3, 0)), (21, (8, 3)), (28, TAKEN)):
        write_case(words(LEAST)[:count], want)
    for count, want in ((28, (3, 0)), (35, (3, 0)), (588, TAKEN), (595, TAKEN)):
        write_case(words_602[:count], want)
    for count, want in ((49, (3, 0)), (56, (8, 8)), (98, TAKEN), (105, (8, 15)), (147, TAKEN), (154, (8, 22)), (196, TAKEN), (203, (8, 29)),
                        (245, TAKEN), (735, TAKEN), (742, TAKEN)):
        write_case(words_749[:count], want)
    heading("the largest sheets with one list: 86 lines, 602 words")
    read_case(sheet_of(FULL_OF_ONE), TAKEN)
    read_case(sheet_of(LARGEST_OF_ONE), TAKEN)
    write_case(words_of(LARGEST_OF_ONE), TAKEN)
    round_case(sheet_of(LARGEST_OF_ONE))
    round_case(sheet_of(FULL_OF_ONE))
    heading("the largest sheets: 107 lines, 749 words")
    assert len(FULL) == len(LARGEST) == 107
    read_case(sheet_of(FULL), TAKEN)
    read_case(sheet_of(LARGEST), TAKEN)
    write_case(words_of(LARGEST), TAKEN)
    round_case(sheet_of(LARGEST))
    round_case(sheet_of(FULL))
    heading("one line more than the largest sheets have, and many more lines")
    for largest, at in ((FULL_OF_ONE, 87), (FULL, 108)):
        for line, number in (("5 9", 6), ("5 -1", 5), ("3 1", 6), ("4 2 1", 3), ("9", 3), ("2 5", 3)):
            read_case(sheet_of(largest) + sheet(line), (number, at))
    read_case(sheet(joined(LEAST, VIEW_OF_ONE)) + sheet("5 1") * 470, (9, 8))
    read_case(sheet("4 2 1") * 320, (3, 1))
    read_case(b"\n" * 300, (2, 1))


def line_lengths():
    heading("2: a line's length is not 8 to 48 by eights")
    for length in (0, 1, 7, 9, 15, 17, 23, 25, 47, 49, 55, 56, 57, 64):
        line = (b"       1" * 8)[-length:] if length else b""
        read_case(line + b"\n", (2, 1))
        read_case(sheet(PLAIN) + line + b"\n" + sheet("2 / 4 2 1"), (2, 3))
    read_case(b"\n" + sheet(LEAST), (2, 1))
    read_case(sheet(LEAST) + b"\n", (2, 5))
    read_case(sheet(PLAIN) + b"\n" + sheet("2 / 4 2 1"), (2, 3))
    read_case(sheet(LEAST).replace(b"\n", b"\r\n"), (2, 1))
    read_case(sheet(LEAST).replace(b"\n", b" \n"), (2, 1))
    read_case(sheet(LEAST).replace(b"\n", b"\n\n"), (2, 2))
    heading("lengths of 8 to 48 are taken")
    read_case(sheet("1 / 4 2 1 / 2 / 4 4 1 1 / 4 3 1 1 1 / 4 9 1 1 1 1"), TAKEN)
    heading("2: the last line is not closed")
    read_case(sheet(LEAST)[:-1], (2, 4))
    read_case(sheet(LEAST) + b" ", (2, 5))
    read_case(sheet(LEAST) + b"       3", (2, 5))
    read_case(sheet(LEAST) + b"x", (2, 5))
    read_case(b"       1", (2, 1))
    read_case(b" ", (2, 1))
    read_case(b"x", (2, 1))
    read_case(sheet("1 / 9 / 2 / 4 2 1")[:-1], (3, 2))      # an earlier line goes first
    read_case(sheet("1") + b"       9", (2, 2))
    read_case(sheet_of(FULL_OF_ONE) + b"       9", (2, 87))
    read_case(sheet_of(FULL) + b"       9", (2, 108))


# Eight bytes that are no field.
BROKEN = [
    b"        ", b"       -", b"-       ", b"      -0", b"      00", b"      01", b"     -01", b"00000001", b"-0000001",
    b"00000000", b"      +1", b"     + 1", b"     1 1", b"1       ", b"      1 ", b"     1  ", b"\t      1", b"      1\t",
    b"     - 5", b"-      5", b"     5 -", b"      5-", b"     --1", b"    1-1 ", b"     1-1", b"       a", b"      1a",
    b"      a1", b"     0x1", b"     1e3", b"     1.0", b"   1,000", b"       \x00", b"\x00      1", b"       \xff",
    b"\xff      1", b"\xa0      1", b"       /", b"       :", b"      1/", b"      1:", b"!!!!!!!1", b"       \x0b",
    b"       \r", b"      1\r", b"       \xb2", b"      _1", b"     1_0", b"       \x1f", b"       \x7f",
]


def malformed():
    heading("2: malformed fields, as a term and as a kind")
    for field in BROKEN:
        assert len(field) == 8
        read_case(sheet("1") + b"       4       2" + field + b"\n" + sheet("2 / 4 2 1"), (2, 2))
        read_case(field + b"\n" + sheet("4 2 1 / 2 / 4 2 1"), (2, 1))
    heading("byte 10 inside a field closes the line there")
    for field, want in ((b"   \n   1", (2, 2)), (b"      1\n", (2, 2)), (b"\n      1", (3, 2))):
        read_case(sheet("1") + b"       4       2" + field + b"\n" + sheet("2 / 4 2 1"), want)
        read_case(field + b"\n" + sheet("4 2 1 / 2 / 4 2 1"), (2, 1))
    read_case(sheet("1") + b"       4       2       1\n       1\n" + sheet("2 / 4 2 1"), (3, 3))
    heading("2: each field of a line is looked at")
    fields = [b"       4", b"       9", b"       1", b"       2", b"       3", b"       4"]
    for at in range(6):
        line = b"".join(fields[:at] + [b"      0x"] + fields[at + 1:]) + b"\n"
        read_case(sheet("1") + line + sheet("2 / 4 2 1"), (2, 2))
    for good in range(5):
        line = b"       5" + b"       1" * good + b"       -\n"
        read_case(sheet(joined(LEAST, VIEW_OF_ONE)) + line, (2, 7))
    heading("well formed at every width")
    for number in (0, 9, 10, 99, 100, 999, 1000, 9999, 10_000, 99_999, 100_000, 999_999, 1_000_000, 9_999_999):
        read_case(sheet(f"1 / 4 2 {number} / 2 / 4 2 1"), TAKEN)
    heading("the widest numbers are well formed, and are refused by their place")
    for number in (WIDEST, LOWEST, 10_000_000, -1_000_000):
        both(f"{number} / 4 2 1 / 2 / 4 2 1", (3, 1))
        both(f"1 / {number} 2 1 / 2 / 4 2 1", (3, 2))
        both(f"1 / 4 {number} 1 / 2 / 4 2 1", (4, 2))
        both(f"1 / 4 2 {number} / 2 / 4 2 1", (5, 2))
        both(f"1 {number} / 4 2 1 / 2 1 / 4 2 1", (5, 1))
        both(joined(LEAST, VIEW_OF_ONE, f"5 {number}"), (5, 7))


def word_forms():
    heading("2: field count not 1 to 6")
    for count in (0, 7, 8, -1, -7, 256, 2**31 - 1, -2**31):
        write_case([count] + [0] * 6, (2, 1))
        write_case([count, 1, 0, 0, 0, 0, 0] + words(LEAST)[7:], (2, 1))
        write_case(words(PLAIN) + [count, 2, 0, 0, 0, 0, 0] + words("4 2 1"), (2, 3))
    write_case([0] * 7, (2, 1))
    write_case([0] * 602, (2, 1))
    write_case(words(LEAST) + [0] * 7, (2, 5))
    heading("2: an unused word is not 0")
    for at in range(4, 7):
        for value in (1, -1, 4, 100_000_000, -2**31):
            line = [3, 4, 2, 1, 0, 0, 0]
            line[at] = value
            write_case(words("1") + line + words("2 / 4 2 1"), (2, 2))
    for at in range(2, 7):
        line = [1, 1, 0, 0, 0, 0, 0]
        line[at] = 1
        write_case(line + words("4 2 1 / 2 / 4 2 1"), (2, 1))
    write_case(words("1") + [2, 4, 2, 1, 0, 0, 0] + words("2 / 4 2 1"), (2, 2))
    write_case(words("1") + [5, 4, 9, 1, 2, 3, 4] + words("2 / 4 2 1"), (2, 2))
    heading("a field that is 0 is used where the count says so")
    write_case(words("1") + [4, 4, 2, 1, 0, 0, 0] + words("2 / 4 2 1"), (4, 2))
    write_case(words("1") + [4, 4, 4, 1, 0, 0, 0] + words("2 / 4 2 1"), TAKEN)
    write_case(words("1") + [6, 4, 9, 0, 0, 0, 0] + words("2 / 4 2 1"), TAKEN)
    write_case([2, 1, 0, 0, 0, 0, 0] + words("4 2 1") + [2, 2, 0, 0, 0, 0, 0] + words("4 2 1"), TAKEN)
    write_case([2, 1, 0, 0, 0, 0, 0] + words("4 2 1 / 2 / 4 2 1"), (7, 3))
    write_case(words("1") + [3, 0, 0, 0, 0, 0, 0] + words("2 / 4 2 1"), (3, 2))
    heading("2: a number of more than eight bytes")
    for value in (100_000_000, -10_000_000, 2**31 - 1, -2**31, 999_999_999, -100_000_000):
        for at in range(1, 7):
            line = [6, 4, 9, 1, 2, 3, 4]
            line[at] = value
            write_case(words("1") + line + words("2 / 4 2 1"), (2, 2))
    for value in (100_000_000, -10_000_000):
        write_case([1, value, 0, 0, 0, 0, 0], (2, 1))
        write_case(words(joined(LEAST, VIEW_OF_ONE, f"5 {value}")), (2, 7))


# After each beginning, what the sheet comes to when it ends with a line of kind 1 to 5.
PLACES = [
    ("at line 1", "", {1: (3, 0)}),
    ("after the question's head", "1", {2: (8, 1), 4: (3, 0)}),
    ("after the question's atom", PLAIN, {2: (8, 3), 4: (3, 0)}),
    ("after the list's head", joined(PLAIN, "2"), {2: (8, 3), 3: (8, 3), 4: TAKEN}),
    ("after the list's atom", LEAST, {2: (8, 5), 3: (8, 5), 4: TAKEN}),
    ("after the second list's head", joined(LEAST, "2"), {2: (8, 5), 3: (8, 5), 4: TAKEN}),
    ("after the second list's atom", joined(LEAST, "2 / 4 2 1"), {2: (8, 7), 3: (8, 7), 4: TAKEN}),
    ("after the third list's atom", joined(LEAST, *["2 / 4 2 1"] * 2), {2: (8, 9), 3: (8, 9), 4: TAKEN}),
    ("after the fourth list's head", joined(LEAST, *["2 / 4 2 1"] * 2, "2"), {2: (6, 10), 3: (8, 9), 4: TAKEN}),
    ("after the fourth list's atom", joined(LEAST, *["2 / 4 2 1"] * 3), {2: (6, 11), 3: (8, 11), 4: TAKEN}),
    ("after a view's atom behind two lists", joined(LEAST, "2 / 4 2 1 / 3 / 4 2 1"), {3: (8, 9), 4: TAKEN, 5: TAKEN}),
    ("after a view's head", joined(LEAST, "3"), {3: (8, 5), 4: TAKEN}),
    ("after a view's atom", VIEW, {3: (8, 7), 4: TAKEN, 5: TAKEN}),
    ("after a row", joined(LEAST, VIEW_OF_ONE, "5 7"), {3: (8, 8), 5: TAKEN}),
    ("after a later view's head", joined(LEAST, VIEW_OF_ONE, "5 7 / 3"), {3: (8, 8), 4: TAKEN}),
]


def kinds():
    for place, begin, results in PLACES:
        heading(f"3: kinds {place}")
        at = len(lines_in(begin)) + 1
        for kind in (1, 2, 3, 4, 5, 0, 6, 7, -1, -4, LOWEST, WIDEST):
            line = {4: "4 2 1", 5: "5 8" if begin.endswith("5 7") else "5"}.get(kind, str(kind))
            both(joined(begin, line), results.get(kind, (3, at)))
    heading("3: kinds that are no kind, with the fields of one that is")
    for kind in (0, 6, -1, -4, 44):
        both(joined(PLAIN, f"{kind} 2 1", "2 / 4 2 1"), (3, 3))
    heading("3: out of place with the rest of the sheet behind it")
    both("2 / 4 2 1 / 1 / 4 2 1", (3, 1))
    both("3 / 4 2 1 / 1 / 4 2 1 / 2 / 4 2 1", (3, 1))
    both("4 2 1 / 1 / 4 2 1 / 2 / 4 2 1", (3, 1))
    both("5 / 1 / 4 2 1 / 2 / 4 2 1", (3, 1))
    both("1 / 1 / 4 2 1 / 2 / 4 2 1", (3, 2))
    both("1 / 4 2 1 / 1 / 4 2 1 / 2 / 4 2 1", (3, 3))
    both("1 / 4 2 1 / 3 / 4 2 1 / 2 / 4 2 1", (3, 3))
    both("1 / 4 2 1 / 5 / 2 / 4 2 1", (3, 3))
    both("1 / 4 2 1 / 2 / 4 2 1 / 2 / 4 2 1", TAKEN)
    both("1 / 4 2 1 / 2 / 5 / 4 2 1", (3, 4))
    both(joined(VIEW, "2 / 4 2 1"), (3, 7))
    both(joined(VIEW, "1 / 4 2 1"), (3, 7))
    both(joined(LEAST, "3 1 / 5 7 / 4 2 1"), (3, 6))
    both(joined(LEAST, VIEW_OF_ONE, "5 7 / 4 2 1"), (3, 8))
    both(joined(LEAST, VIEW_OF_ONE, "5 7 / 4 2 1 / 5 8"), (3, 8))
    both(joined(LEAST, VIEW_OF_ONE, "3 1 / 5 7"), (3, 8))
    heading("3: impossible field counts")
    both("1 / 4 / 2 / 4 2 1", (3, 2))
    both("1 / 4 2 / 2 / 4 2 1", (3, 2))
    both("1 / 4 10 / 2 / 4 2 1", (3, 2))
    both("1 / 4 0 / 2 / 4 2 1", (3, 2))
    both("1 1 2 3 4 5 / 4 2 1 / 2 / 4 2 1", (3, 1))
    both("1 / 4 2 1 / 2 1 2 3 4 5 / 4 2 1", (3, 3))
    both(joined(LEAST, "3 1 2 3 4 5 / 4 2 1"), (3, 5))
    both(joined(LEAST, "3 1 2 3 4 / 4 2 1 / 5 1 2 3 4 5"), (3, 7))
    both(joined(LEAST, "3 1 2 3 4 / 4 2 1 / 5 1 2 3 4"), TAKEN)
    heading("3, line 0: the question or the list is missing")
    both("1", (3, 0))
    both("1 -1", (3, 0))
    both("1 / 4 2 1", (3, 0))
    both("1 -1 / 4 2 -2", (3, 0))
    both("1 / 4 2 1 / 4 9 1 2 3 4", (3, 0))
    heading("heads of 0 to 4 columns")
    for count in range(5):
        head = " ".join(str(-1 - at) for at in range(count))
        row = " ".join("7" for _ in range(count))
        atom = "4 9 -1 -2 -3 -4"
        both(joined(f"1 {head}", atom, f"2 {head}", "4 9 -4 -3 -2 -1", f"3 {head}", atom, f"5 {row}"), TAKEN)


def relations():
    heading("4: each relation with 1 to 4 columns")
    for relation in list(range(-1, 13)) + [256 + 2, 65536 + 4]:
        for count in range(1, 5):
            terms = " ".join("1" for _ in range(count))
            both(f"1 / 4 {relation} {terms} / 2 / 4 2 1", TAKEN if COLUMNS.get(relation) == count else (4, 2))
    heading("4: in the list and in a view, and not in a later atom only")
    both(joined(PLAIN, "2 / 4 11 1"), (4, 4))
    both(joined(PLAIN, "2 / 4 2 1 / 4 0 1"), (4, 5))
    both(joined(LEAST, "3 / 4 4 1"), (4, 6))
    both(joined(LEAST, "3 / 4 2 1 / 4 9 1 1 1"), (4, 7))
    both(joined(VIEW, "3 / 4 10 1 / 4 10 1 / 4 10 1 1"), (4, 10))


def terms():
    heading("5: terms at the ends of the range, in each place")
    begin = ["1 1", "4 2 1", "2 1", "4 2 1", "3 1", "4 2 1", "5 1"]
    places = {"heads": [(1, 2), (3, 4), (5, 6)], "atoms": [(2,), (4,), (6,)], "row": [(7,)]}
    for place, spots in places.items():
        for spot in spots:
            for value in (-13, -12, -1, 0, 999_999, 1_000_000, 9_999_999, 10_000_000):
                lines = list(begin)
                for at in spot:
                    lines[at - 1] = lines[at - 1][:-1] + str(value)
                fits = 0 <= value <= 9_999_999 or place != "row" and -12 <= value < 0
                both(joined(*lines), TAKEN if fits else (5, spot[0]))
    for value in (-14, -100, -256 - 1, 10_000_001, 16_777_216 + 1):
        both(joined(f"1 / 4 2 {value} / 2 / 4 2 1"), (5, 2))
        both(joined(LEAST, VIEW_OF_ONE, f"5 {value}"), (5, 7))
    heading("5: in each column")
    for at in range(4):
        for value in (-13, 10_000_000):
            columns = [1, 2, 3, 4]
            columns[at] = value
            row = " ".join(map(str, columns))
            both(f"1 {row} / 4 2 1 / 2 1 1 1 1 / 4 2 1", (5, 1))
            both(f"1 / 4 9 {row} / 2 / 4 2 1", (5, 2))
            both(joined(LEAST, "3 1 1 1 1 / 4 2 1", f"5 {row}"), (5, 7))
    heading("5: a variable in a row")
    for value in (-1, -12):
        for row in (f"{value} 9", f"9 {value}"):
            both(joined(LEAST, "3 -1 -1 / 4 2 -1", f"5 {row}"), (5, 7))
    both(joined(ROWS, "5 -1"), (5, 9))
    heading("all twelve variables")
    both("1 -1 -5 -9 -12 / 4 9 -1 -2 -3 -4 / 4 9 -5 -6 -7 -8 / 4 9 -9 -10 -11 -12 / 2 -12 -1 -12 -1 / 4 4 -12 -1", TAKEN)


def too_many():
    six = joined(*["4 2 1"] * 6)
    three = joined(*["4 2 1"] * 3)
    heading("6: the seventh atom of question or list, the fourth of a view")
    both(joined("1", six, "2 / 4 2 1"), TAKEN)
    both(joined("1", six, "4 2 1", "2 / 4 2 1"), (6, 8))
    both(joined(PLAIN, "2", six), TAKEN)
    both(joined(PLAIN, "2", six, "4 2 1"), (6, 10))
    both(joined("1", six, "2", six), TAKEN)
    both(joined("1", six, "2", six, "4 2 1"), (6, 15))
    both(joined(LEAST, "3", three), TAKEN)
    both(joined(LEAST, "3", three, "4 2 1"), (6, 9))
    both(joined(LEAST, "3", three, "5", "3", three), TAKEN)
    both(joined(LEAST, "3", three, "5", "3", three, "4 2 1"), (6, 14))
    both(joined("1", six, "2", six, "3", three), TAKEN)
    heading("6: the ninth view")
    views = ["3 / 4 2 1"] * 8
    both(joined(LEAST, *views), TAKEN)
    both(joined(LEAST, *views, "3"), (6, 21))
    both(joined(LEAST, *views, "3 / 4 2 1"), (6, 21))
    both(joined(LEAST, *views, "5"), TAKEN)
    both(joined(LEAST, *["3"] * 8), (8, 5))
    both(joined(LEAST, *["3"] * 9), (6, 13))
    heading("6: row 41, in one view and over several")
    forty = joined(LEAST, VIEW_OF_ONE, FORTY)
    both(forty, TAKEN)
    both(joined(forty, "5 41"), (6, 47))
    both(joined(forty, "5 40"), (6, 47))                    # not ascending: 6 goes before 9
    both(joined(forty, "5 41 1"), (6, 47))                  # too long: 6 goes before 7
    both(joined(forty, "5"), (6, 47))
    both(joined(forty, "5 -1"), (5, 47))                    # a variable: 5 goes before 6
    both(joined(forty, "5 10000000"), (5, 47))
    both(joined(forty, "4 2 1"), (3, 47))
    both(joined(forty, "3 1 / 4 2 1"), TAKEN)
    both(joined(forty, "3 1 / 4 2 1 / 5 1"), (6, 49))
    twenty = " / ".join(f"5 {row}" for row in range(20))
    write_case(words(joined(LEAST, VIEW_OF_ONE, twenty, VIEW_OF_ONE, twenty)), TAKEN)
    write_case(words(joined(LEAST, VIEW_OF_ONE, twenty, VIEW_OF_ONE, twenty, "5 20")), (6, 49))
    write_case(words(joined(LEAST, VIEW_OF_ONE, "3 1 / 4 2 1", FORTY, VIEW_OF_ONE)), TAKEN)
    write_case(words_of(FULL_OF_ONE[:-1]) + words("4 2 1"), (3, 86))
    write_case(words_of(FULL[:-1]) + words("4 2 1"), (3, 107))


def head_lengths():
    heading("7: the list's head and the question's")
    for asked in range(5):
        for listed in range(5):
            both(joined("1" + " 1" * asked, "4 2 1", "2" + " 2" * listed, "4 2 1"), TAKEN if asked == listed else (7, 3))
    heading("7: a row and its view's head")
    for columns in range(5):
        for values in range(5):
            both(joined(LEAST, "3" + " 1" * columns, "4 2 1", "5" + " 7" * values), TAKEN if columns == values else (7, 7))
    heading("7: a row is as long as its own view's head, and a view's head as long as it likes")
    both(joined(LEAST, "3 1 1 / 4 2 1 / 5 7 7 / 3 1 / 4 2 1 / 5 7"), TAKEN)
    both(joined(LEAST, "3 1 1 / 4 2 1 / 5 7 7 / 3 1 / 4 2 1 / 5 7 7"), (7, 10))
    both(joined(LEAST, "3 1 1 / 4 2 1 / 5 7 7 / 5 7 8 9"), (7, 8))
    both("1 1 1 / 4 2 1 / 2 1 1 / 4 2 1 / 3 1 / 4 2 1 / 5 1", TAKEN)
    both("1 -1 / 4 2 -1 / 2 / 4 2 1", (7, 3))
    both("1 / 4 2 1 / 2 -1 / 4 2 -1", (7, 3))


def heads():
    heading("8: a block without atoms")
    both("1 / 2 / 4 2 1", (8, 1))
    both("1 / 4 2 1 / 2", (8, 3))
    both("1 / 2", (8, 1))
    both("1 / 4 2 1 / 2 / 3 / 4 2 1", (8, 3))
    both(joined(LEAST, "3"), (8, 5))
    both(joined(LEAST, "3 / 3 / 4 2 1"), (8, 5))
    both(joined(VIEW, "3"), (8, 7))
    both(joined(VIEW, "5 / 3"), (8, 8))
    both(joined(VIEW, "3 / 3 / 4 2 1"), (8, 7))
    both("1 / 2 / 3", (8, 1))
    both("1 / 2 / 3 / 3", (8, 1))
    both("1 7 / 2 7 / 4 2 1", (8, 1))
    heading("8: a variable that only the head has")
    both("1 -1 / 4 2 -2 / 2 -1 / 4 2 -1", (8, 1))
    both("1 -1 / 4 2 -1 / 2 -1 / 4 2 -2", (8, 3))
    both("1 -1 / 4 2 1 / 2 1 / 4 2 -1", (8, 1))
    both("1 -1 / 4 2 -1 / 2 -2 / 4 2 1 / 3 / 4 2 -2", (8, 3))
    both(joined(LEAST, "3 -1 / 4 2 -2"), (8, 5))
    both(joined(LEAST, "3 -1 / 4 2 -2 / 5 7"), (8, 5))
    both(joined(VIEW, "3 -1 / 4 2 -2"), (8, 7))
    both(joined(LEAST, "3 -1 / 4 2 1 / 3 / 4 2 -1"), (8, 5))
    both("1 -12 / 4 2 -1 / 2 -12 / 4 2 -12", (8, 1))
    both("1 -1 / 4 2 1 / 2 -1 / 4 2 1", (8, 1))
    both("1 -2 / 4 2 2 / 2 -2 / 4 2 -2", (8, 1))            # the relation's number, and the constant 2
    for at in range(4):
        head = [-1, -1, -1, -1]
        head[at] = -2
        row = " ".join(map(str, head))
        both(f"1 {row} / 4 2 -1 / 2 {row} / 4 4 -1 -2", (8, 1))
        both(f"1 {row} / 4 4 -1 -2 / 2 {row} / 4 2 -1", (8, 3))
    heading("a head variable in any column of any atom, a head of constants, a variable twice")
    for at in range(4):
        atom = [1, 1, 1, 1]
        atom[at] = -7
        row = " ".join(map(str, atom))
        both(f"1 -7 / 4 9 {row} / 2 7 / 4 2 1", TAKEN)
        both(f"1 -7 / 4 2 1 / 4 2 -1 / 4 9 {row} / 2 7 / 4 2 1", TAKEN)
    both("1 5 / 4 2 -1 / 2 6 / 4 2 1", TAKEN)
    both("1 -1 -1 / 4 2 -1 / 2 -1 -1 / 4 2 -1", TAKEN)
    both("1 -1 -2 / 4 2 -1 / 4 2 -2 / 2 -2 -1 / 4 2 -1 / 4 2 -2", TAKEN)
    both("1 0 / 4 2 -1 / 2 0 / 4 2 1", TAKEN)
    heading("8: the first head of several")
    both("1 -1 / 4 2 1 / 2 -1 / 3 -1 / 4 2 1", (8, 1))
    both("1 -1 / 2 -1 / 4 2 1", (8, 1))
    both("1 1 / 4 2 1 / 2 -1 / 3 -1 / 4 2 1", (8, 3))
    both(joined(LEAST, "3 -1 / 4 2 1 / 3 / 3"), (8, 5))
    both(joined(LEAST, "3 / 3 -1 / 4 2 1"), (8, 5))


def ascending():
    heading("9: rows ascend strictly, column by column from the first")
    pairs = [
        ("7", "7", 9), ("7", "6", 9), ("7", "8", 0), ("9", "10", 0), ("10", "9", 9), ("2", "10", 0), ("100", "99", 9),
        ("0", "0", 9), ("0", "1", 0), ("1", "0", 9), ("0", "999999", 0), ("999999", "0", 9), ("999999", "999999", 9),
        ("999999", "1000000", 0), ("1000000", "999999", 9), ("9999998", "9999999", 0), ("9999999", "9999998", 9), ("9999999", "9999999", 9),
        ("7 1", "7 1", 9), ("7 1", "7 2", 0), ("7 2", "7 1", 9), ("7 9", "8 1", 0), ("8 1", "7 9", 9), ("7 1", "6 2", 9),
        ("1 2 3", "1 2 4", 0), ("1 2 3", "1 2 3", 9), ("1 2 3", "1 1 9", 9), ("1 2 3", "1 3 0", 0),
        ("1 2 3 4", "1 2 3 5", 0), ("1 2 3 4", "1 2 3 4", 9), ("1 2 3 4", "1 2 3 3", 9), ("1 2 3 4", "1 2 4 0", 0),
        ("1 2 3 4", "1 2 2 9", 9), ("1 2 3 4", "1 3 0 0", 0), ("1 2 3 4", "1 1 9 9", 9), ("1 2 3 4", "2 0 0 0", 0),
        ("1 2 3 4", "0 9 9 9", 9), ("0 0 0 0", "0 0 0 1", 0), ("0 0 0 0", "0 0 0 0", 9), ("65536 1", "1 2", 9),
    ]
    for first, second, number in pairs:
        head = "3" + " 1" * len(first.split())
        both(joined(LEAST, head, "4 2 1", f"5 {first} / 5 {second}"), (9, 8) if number else TAKEN)
    both(joined(VIEW, "5"), TAKEN)
    both(joined(VIEW, "5 / 5"), (9, 8))
    both(joined(VIEW, "5 / 3 / 4 2 1 / 5"), TAKEN)
    both(joined(LEAST, VIEW_OF_ONE, "5 1 / 5 3 / 5 2"), (9, 9))
    both(joined(LEAST, VIEW_OF_ONE, "5 1 / 5 3 / 5 3"), (9, 9))
    both(joined(LEAST, VIEW_OF_ONE, "5 1 / 5 3 / 5 1 / 5 4"), (9, 9))
    both(joined(LEAST, VIEW_OF_ONE, "5 5 / 5 6", VIEW_OF_ONE, "5 1 / 5 2"), TAKEN)
    both(joined(LEAST, VIEW_OF_ONE, "5 5 / 5 6", VIEW_OF_ONE, "5 6"), TAKEN)
    both(joined(LEAST, VIEW_OF_ONE, "5 5", VIEW_OF_ONE, "5 6 / 5 6"), (9, 11))


# One sheet for each number that its lines can be sent back by, with its line.
BAD = {
    2: ("1 / 4 2 1 / 2 / 4 2 1", 2), 3: ("1 / 4 2 1 / 2 / 4 2 1 / 5", 5), 4: ("1 / 4 11 1 / 2 / 4 2 1", 2),
    5: ("1 / 4 2 -13 / 2 / 4 2 1", 2), 6: (joined("1", *["4 2 1"] * 7, "2 / 4 2 1"), 8), 7: ("1 / 4 2 1 / 2 1 / 4 2 1", 3),
    8: ("1 / 4 2 1 / 2", 3), 9: (joined(VIEW, "5 / 5"), 8),
}


def bad_forms(number):
    """Of the sheet for a number: its bytes, its words and its line. Refusal 2 has a malformed field, and a wrong field count."""
    text, line = BAD[number]
    page, form = sheet(text), words(text)
    if number == 2:
        page, form = page.replace(b"2       1\n", b"2      01\n", 1), form[:7] + [9] + form[8:]
    return page, form, line


def lent():
    heading("13: reading is lent 749 words or more, whatever the sheet needs")
    for room in (0, 1, 6, 7, 27, 28, 29, 600, 601, 602, 704, 747, 748):
        read_case(sheet(LEAST), (13, 0), room)
    for room in (749, 750, 756, 800, 813):
        read_case(sheet(LEAST), TAKEN, room)
        read_case(sheet(SIGNALS), TAKEN, room)
    for largest in (FULL, LARGEST, FULL_OF_ONE):
        read_case(sheet_of(largest), (13, 0), 748)
    heading("13: writing is lent 5,243 bytes or more")
    for room in (0, 1, 8, 67, 68, 69, 4096, 4213, 4214, 4352, 5242):
        write_case(words(LEAST), (13, 0), room)
    for room in (5243, 5244, 5300, 5307):
        write_case(words(LEAST), TAKEN, room)
        write_case(words(SIGNALS), TAKEN, room)
    for largest in (FULL, LARGEST, FULL_OF_ONE):
        write_case(words_of(largest), (13, 0), 5242)
    heading("13 comes last")
    for number in BAD:
        for words_lent, bytes_lent in ((0, 0), (748, 5242), (749, 5243), (813, 5307)):
            page, form, line = bad_forms(number)
            read_case(page, (number, line), words_lent)
            write_case(form, (number, line), bytes_lent)
    for room in (0, 748):
        read_case(b"", (3, 0), room)
        read_case(sheet("1 -1"), (3, 0), room)
    for room in (0, 5242):
        write_case([], (3, 0), room)
        write_case(words("1 -1"), (3, 0), room)
        write_case([1], (2, 0), room)


def several_lists():
    more = "2 / 4 2 1"
    heading("two, three and four lists, with and without views and rows")
    for lists in (1, 2, 3, 4):
        both(joined(PLAIN, *[more] * lists), TAKEN)
        both(joined(PLAIN, *[more] * lists, "3 -1 / 4 2 -1 / 5 7 / 5 9 / 3 / 4 4 1 2"), TAKEN)
        both(joined("1 -1 -2 / 4 4 -1 -2", *[f"2 {at} -2 / 4 5 {at} -2 / 4 6 {at} -1" for at in range(lists)], "3 -1 / 4 2 -1 / 5 7"), TAKEN)
        round_case(sheet(joined("1 -1 / 4 1 -1 -2", *[f"2 -1 / 4 1 -1 {at}" for at in range(lists)], "3 -1 / 4 1 -2 -1", *[f"5 {at}" for at in range(lists)])))
    heading("6: the fifth list")
    four = joined(PLAIN, *[more] * 4)
    both(joined(four, "2"), (6, 11))
    both(joined(four, more), (6, 11))
    both(joined(four, more, more), (6, 11))
    both(joined(PLAIN, *["2"] * 4), (8, 3))
    both(joined(PLAIN, *["2"] * 5), (6, 7))
    both(joined("1", *["2"] * 5), (6, 6))
    both(joined("1 -1 / 4 2 1", *[more.replace("2 /", "2 -1 /")] * 5), (6, 11))     # its heads' causes come later
    both(joined(four, "4 2 1 / 4 2 1 / 4 2 1 / 4 2 1 / 4 2 1 / 4 2 1"), (6, 16))   # the fourth's seventh atom
    heading("a fifth list: 3 and 5 before 6, 6 before 7")
    for line, number in (("2 1 2 3 4 5", 3), ("2 -13", 5), ("2 10000000", 5), ("2 1 -13", 5), ("2 1", 6), ("2 -1", 6), ("2 1 2 3 4", 6)):
        both(joined(four, line), (number, 11))
    read_case(sheet(four) + b"       2      0x\n", (2, 11))
    write_case(words(four) + [2, 2, 100_000_000, 0, 0, 0, 0], (2, 11))
    heading("3: a list after a view")
    for lists in (1, 2, 3, 4):
        begin = joined(PLAIN, *[more] * lists, "3 1 / 4 2 1")
        at = len(lines_in(begin)) + 1
        for line in ("2", more, "2 1", "2 -13", "2 1 2 3 4 5"):
            both(joined(begin, line), (3, at))
            both(joined(begin, "5 7", line), (3, at + 1))
        both(joined(PLAIN, *[more] * lists, "3 1", more), (3, at - 1))
    heading("3: a row in a list, an atom after a list's head only, the question again")
    both(joined(LEAST, more, "5"), (3, 7))
    both(joined(LEAST, "2 / 5"), (3, 6))
    both(joined(LEAST, more, "1 / 4 2 1"), (3, 7))
    heading("7: each list's head is as long as the question's")
    for asked in range(5):
        for place in range(2, 5):
            for listed in range(5):
                text = joined("1" + " 1" * asked, "4 2 1", *["2" + " 2" * asked + " / 4 2 1"] * (place - 1), "2" + " 3" * listed, "4 2 1")
                both(text, TAKEN if asked == listed else (7, 1 + 2 * place))
    both("1 1 / 4 2 1 / 2 1 / 4 2 1 / 2 / 4 2 1 / 2 / 4 2 1", (7, 5))
    both("1 1 / 4 2 1 / 2 / 4 2 1 / 2 1 / 4 2 1", (7, 3))
    heading("8: the heads of several lists, in their order")
    both(joined(LEAST, "2"), (8, 5))
    both(joined(LEAST, "2 / 3 / 4 2 1"), (8, 5))
    both(joined(LEAST, "2", more), (8, 5))
    both(joined(PLAIN, "2", more), (8, 3))
    both(joined(LEAST, more, "2 / 3"), (8, 7))
    both("1 -1 / 4 2 -1 / 2 -1 / 4 2 -1 / 2 -1 / 4 2 -2", (8, 5))
    both("1 -1 / 4 2 -1 / 2 -1 / 4 2 -2 / 2 -1 / 4 2 -2", (8, 3))
    both("1 -1 / 4 2 -1 / 2 -1 / 4 2 -1 / 2 -2 / 4 2 -2 / 2 7 / 4 2 -1 / 2 -3 / 4 2 -2", (8, 9))
    both("1 -1 / 4 2 -1 / 2 -1 / 4 2 -1 / 2 -2 / 4 2 -1 / 3 -2 / 4 2 -2", (8, 5))        # a variable of another block
    both(joined("1 -1 / 4 2 -1 / 2 -1 / 4 2 -1", "2 -1", *["4 2 1"] * 5, "4 2 -1"), TAKEN)
    heading("6: each list has its own six atoms")
    six = joined(*["4 2 1"] * 6)
    both(joined("1", six, *["2", six] * 4), TAKEN)
    for place in range(1, 5):
        both(joined("1", six, *["2", six] * place, "4 2 1"), (6, 8 + 7 * place))
        both(joined(PLAIN, *[more] * (place - 1), "2", six, "4 2 1"), (6, 2 * place + 8))


def within_a_line():
    heading("two causes in one line: 2 to 7 and then 9, the first that holds")
    six = joined("1", *["4 2 1"] * 6)
    nine = joined(LEAST, *["3 / 4 2 1"] * 8)
    two = joined(LEAST, "3 1 1 / 4 2 1 / 5 7 7")
    forty = joined(LEAST, VIEW_OF_ONE, FORTY)
    broken = b"      0x\n"
    for before, line in [
        ("1", "9 2"), ("1", "5 1"), ("1", "4"), ("1", "4 2"),                       # 3
        ("1", "4 11"), ("1", "4 2 1 1"),                                            # 4
        ("1", "4 4 -13"), (two, "5 -1"),                                            # 5
        (six, "4 2"), (nine, "3"), (nine, "3 1 1"),                                 # 6
        (PLAIN, "2"), (two, "5 8"), (two, "5 8 8"),                                 # 7
        (two, "5 7"), (two, "5 6"), (two, "5 7 6"),                                 # 9
    ]:
        read_case(sheet(before) + sheet(line)[:-1] + broken + sheet("2 / 4 2 1"), (2, len(lines_in(before)) + 1))
    read_case(sheet(forty) + b"       5" + broken, (2, 47))
    for before, line, number in [
        (two, "4 11 1", 3), (two, "4 2 1 1", 3), (PLAIN, "1 10000000", 3), (PLAIN, "3 -13", 3), ("1", "5 -1", 3),
        (joined(LEAST, "3 / 4 2 1 / 4 2 1 / 4 2 1 / 5"), "4 2 1", 3), (six, "4 2", 3), (six, "4", 3),
        (nine, "3 1 2 3 4 5", 3), (nine, "2", 3), (nine, "1", 3), (LEAST, "2 1", 7), (LEAST, "2 -13", 5),
        (joined(LEAST, "3 1"), "5", 3), (joined(LEAST, "3 1"), "5 7 7", 3), (two, "5 8 8 8 8 8", 3), (two, "5 -1 1 1 1 1", 3),
        (two, "5 7 7 7 7 7", 3), (two, "4 2 -13", 3), (two, "6 6 6", 3), (nine, "0", 3),
        ("1", "4 11 10000000", 4), ("1", "4 0 -13", 4), ("1", "4 2 -13 -13", 4), ("1", "4 9 10000000", 4),
        (six, "4 0 1", 4), (six, "4 2 1 1", 4), (six, "4 11 -13", 4), (joined(LEAST, "3", *["4 2 1"] * 3), "4 4 1", 4),
        (six, "4 2 -13", 5), (six, "4 2 10000000", 5), (nine, "3 10000000", 5), (nine, "3 -13", 5),
        (joined(LEAST, "3", *["4 2 1"] * 3), "4 2 -13", 5), (PLAIN, "2 -13", 5), (PLAIN, "2 1 10000000", 5),
        (two, "5 -1", 5), (two, "5 -1 8", 5), (two, "5 -1 8 9", 5), (two, "5 8 -1", 5), (two, "5 6 10000000", 5),
        (two, "5 10000000", 5), (two, "5 7 -12", 5),
        (two, "5 7", 7), (two, "5 6", 7), (two, "5", 7), (two, "5 7 7 7", 7), (two, "5 6 9 9", 7), (two, "5 7 6 9", 7),
        (two, "5 7 6", 9), (two, "5 7 7", 9), (two, "5 6 8", 9),
    ]:
        both(joined(before, line), (number, len(lines_in(before)) + 1))


def across_lines():
    heading("a cause in an early line and one in a late line: the early line decides")
    base = lines_in(joined(SIGNALS, "3 -1 / 4 2 -1 / 5 3 / 5 4"))
    early = {
        2: (2, [[4, 4, -1, "bad"]]), 3: (2, [[5, 1, 1]]), 4: (2, [[4, 11, -1, -2]]), 5: (2, [[4, 4, -1, -13]]),
        6: (2, [[4, 4, -1, -2]] * 7), 7: (3, [[2, -1]]), 9: (8, [[5, 7, 1]]),
    }
    late = {
        2: (12, [[5, "bad"]]), 3: (12, [[4, 2, -1]]), 4: (10, [[4, 2, -1, -1]]), 5: (12, [[5, -4]]),
        6: (10, [[4, 2, -1]] * 4), 7: (12, [[5, 4, 4]]), 9: (12, [[5, 3]]),
    }

    def page(lines):
        """The bytes of lines in which "bad" stands for a malformed field, and the words, with one that is too wide."""
        text = sheet_of([[-7_777_777 if field == "bad" else field for field in line] for line in lines])
        form = words_of([[100_000_000 if field == "bad" else field for field in line] for line in lines])
        return text.replace(b"-7777777", b"      0x"), form

    for first, (at, put) in early.items():
        where = at + len(put) - 1
        for second, (later, later_put) in late.items():
            lines = base[:later - 1] + later_put + base[later:]
            lines = lines[:at - 1] + put + lines[at:]
            text, form = page(lines)
            read_case(text, (first, where))
            write_case(form, (first, where))
    heading("a head's cause in line 1 and one in a late line: the late line decides")
    for second, (later, put) in late.items():
        for first in ([[1, -1, -3], [4, 4, -1, -2]], [[1, -1, -2]]):
            lines = first + base[2:later - 1] + put + base[later:]
            text, form = page(lines)
            where = later + len(put) - 1 - (2 - len(first))
            read_case(text, (second, where))
            write_case(form, (second, where))
    heading("a missing list goes before a head's cause, and a late line before the missing list")
    both("1 -1 / 4 2 1", (3, 0))
    both("1 -1 / 4 2 -13", (5, 2))
    both("1 -1 / 9", (3, 2))
    both("1 -1 / 4 11 1", (4, 2))
    read_case(sheet("1 -1") + b"       4\n" + b"       -\n", (3, 2))
    read_case(sheet("1 -1") + b"       -\n", (2, 2))
    read_case(sheet("1 -1") + b"       4", (2, 2))
    both(joined("1 -1", *["4 2 1"] * 7), (6, 8))
    heading("a list head of another length before a malformed field one line below")
    read_case(sheet("1 -1 / 4 2 -1 / 2") + b"       4       2      0x\n", (7, 3))
    write_case(words("1 -1 / 4 2 -1 / 2") + [9] * 7, (7, 3))


def lines_handed_back():
    heading("lines: 0, each line, the next, very large numbers")
    numbers = (0, 1, 2, 3, 4, 5, 6, 255, 256, 257, 2**31, 2**32, 2**32 + 1, 2**63, 2**63 + 1, 2**64 - 2, 2**64 - 1)
    for number in numbers:
        line_case(sheet(LEAST), number, sheet(LEAST).split(b"\n")[number - 1] if 1 <= number <= 4 else b"")
    for number in range(10):
        line_case(sheet(SIGNALS), number)
    heading("lines of any bytes")
    for text, expected in [
        (b"", [b""]), (b"\n", [b""]), (b"\n\n", [b"", b""]), (b"a", [b""]), (b"a\n", [b"a"]), (b"a\nb", [b"a", b""]),
        (b"a\nb\n", [b"a", b"b"]), (b"\na\n", [b"", b"a"]), (b"\n\na\n", [b"", b"", b"a"]), (b"a\n\nb\n", [b"a", b"", b"b"]),
        (b"a\n\n\nbc\nd", [b"a", b"", b"", b"bc", b""]), (b"no byte ten at all", [b""]),
        (bytes(range(256)), [bytes(range(10)), b""]), (bytes(range(255, -1, -1)), [bytes(range(255, 10, -1)), b""]),
        (b"\x00\n\xff\n\r\n", [b"\x00", b"\xff", b"\r"]), (b"x" * 300 + b"\n" + b"y" * 9 + b"\n", [b"x" * 300, b"y" * 9]),
        (b" \n  \n   \n    ", [b" ", b"  ", b"   ", b""]), (b"\n" * 300 + b"z\n", [b""]),
    ]:
        for number in range(len(expected) + 2):
            line_case(text, number, expected[number - 1] if 1 <= number <= len(expected) else b"")
    many = b"\n" * 300 + b"z\n"
    for number in (44, 45, 300, 301, 302):
        line_case(many, number, b"z" if number == 301 else b"")
    heading("lines of a sheet over 8,192 bytes")
    line_case(b" " * 8190 + b"\nlate\n", 2, b"late")


# --- By a club's table ----------------------------------------------------------------------------------------------

# A club with lactate meters: columns, key and parent of each relation that it has after the library's own ten.
LACTATE = [
    (3, 2, 0),      # 11 Lactate(rower, step, level): one level for a rower at a step
    (3, 0, 11),     # 12 Retest: each row is one of Lactate
    (3, 1, 11),     # 13 Peak: the same, and one for a rower
    (2, 1, 0),      # 14 Meter(meter, strip): one strip for a meter
    (4, 3, 0),      # 15 Drop(rower, session, finger, level): one level for a rower, a session and a finger
    (4, 1, 15),     # 16 Last: each row is one of Drop, and one for a rower
    (1, 0, 0),      # 17 Fasted(rower)
    (1, 0, 17),     # 18 Ill(rower): each is one of Fasted
]

# As many relations as a table may have, with columns, keys and parents of all kinds. The last has four columns, a key of two and a parent, whose key is of three.
MOST = [(columns, (number // 5) % columns, number - 16 if number > 16 and number % 3 else 0) for number in range(1, 33) for columns in [4 - (32 - number) % 4]]
assert MOST[31] == (4, 2, 16) and MOST[15] == (4, 3, 0)

OWN_TABLE = table_cases.table(table_cases.OWN)
CLUB = table_cases.table(table_cases.OWN + LACTATE)
FULL_TABLE = table_cases.table(MOST)

# The own ten with other columns each: 5 less what they were.
TURNED = table_cases.table([(5 - columns, 0, 0) for columns, _, _ in table_cases.OWN])

# Tables that are sent back, with the line.
BROKEN_TABLES = [
    (b"", 0),
    (table_cases.changed(table_cases.OWN, 1, 2, 2, 0, 0), 1),                               # its number
    (table_cases.changed(table_cases.OWN + LACTATE, 13, 13, 3, 1, 12), 13),                 # its parent has one
    (CLUB[:-1], 18),
    (table_cases.table(MOST + [(1, 0, 0)]), 33),
]


def tables_first():
    heading("15: a table is looked at before everything else")
    for table, at in BROKEN_TABLES:
        for room in (0, MOST_WORDS, ROOM["r"]):
            read_case(sheet(SIGNALS), (WRONG_TABLE, at), room, table)
        for room in (0, LENT_BYTES, ROOM["w"]):
            write_case(words(SIGNALS), (WRONG_TABLE, at), room, table)
        read_case(b" " * 8193, (WRONG_TABLE, at), 0, table)
        read_case(b"", (WRONG_TABLE, at), 0, table)
        write_case([], (WRONG_TABLE, at), 0, table)
        write_case([0] * 756, (WRONG_TABLE, at), 0, table)
        write_case([1], (WRONG_TABLE, at), 0, table)
        for number in BAD:
            page, form, _ = bad_forms(number)
            read_case(page, (WRONG_TABLE, at), table=table)
            write_case(form, (WRONG_TABLE, at), table=table)
    heading("a table that passes, and then the sheet's causes, and 13 last")
    for table in (OWN_TABLE, CLUB):
        read_case(b" " * 8193, (1, 0), 0, table)
        write_case([0] * 756, (1, 0), 0, table)
        write_case([1], (2, 0), 0, table)
        for number in BAD:
            page, form, line = bad_forms(number)
            read_case(page, (number, line), 748, table)
            write_case(form, (number, line), 5242, table)
        for room in (0, 748):
            read_case(sheet(SIGNALS), (13, 0), room, table)
        for room in (0, 5242):
            write_case(words(SIGNALS), (13, 0), room, table)
        for room in (749, 750, 813):
            read_case(sheet(SIGNALS), TAKEN, room, table)
        for room in (5243, 5244, 5307):
            write_case(words(SIGNALS), TAKEN, room, table)
    lactate = "1 -1 / 4 11 -1 -2 -3 / 2 -1 / 4 13 -1 -2 -3 / 3 -1 / 4 16 -1 -2 -3 -4 / 5 7"
    for room in (748, 749, 813):
        read_case(sheet(lactate), TAKEN if room > 748 else (13, 0), room, CLUB)
    for room in (5242, 5243, 5307):
        write_case(words(lactate), TAKEN if room > 5242 else (13, 0), room, CLUB)


def ones(count):
    return " ".join(["1"] * count)


def relations_of_tables():
    heading("4: a table of one relation")
    for columns in range(1, 5):
        table = table_cases.table([(columns, columns - 1, 0)])
        for relation in (0, 1, 2, 4, 10):
            for count in range(1, 5):
                both(f"1 / 4 {relation} {ones(count)} / 2 / 4 1 {ones(columns)}", TAKEN if (relation, count) == (1, columns) else (4, 2), table)
    heading("4: the relations of a club with lactate meters")
    for relation in range(10, 20):
        for count in range(1, 5):
            fits = relation <= 18 and (table_cases.OWN + LACTATE)[relation - 1][0] == count
            read_case(sheet(f"1 / 4 {relation} {ones(count)} / 2 / 4 2 1"), TAKEN if fits else (4, 2), table=CLUB)
            if fits:
                write_case(words(f"1 / 4 {relation} {ones(count)} / 2 / 4 2 1"), TAKEN, table=CLUB)
                write_case(words(f"1 / 4 {relation} {ones(count % 4 + 1)} / 2 / 4 2 1"), (4, 2), table=CLUB)
    heading("4: as many relations as a table may have")
    for relation, (columns, _, _) in enumerate(MOST, 1):
        other = columns % 4 + 1
        read_case(sheet(f"1 / 4 {relation} {ones(columns)} / 2 / 4 1 1"), TAKEN, table=FULL_TABLE)
        if relation > 22:
            write_case(words(f"1 / 4 {relation} {ones(other)} / 2 / 4 1 1"), (4, 2), table=FULL_TABLE)
    for relation in (0, 33, 34, 64, 99, 256 + 32, -32):
        read_case(sheet(f"1 / 4 {relation} {ones(4)} / 2 / 4 1 1"), (4, 2), table=FULL_TABLE)
    for relation in (31, 32):
        columns = MOST[relation - 1][0]
        both(f"1 / 4 {relation} {ones(columns)} / 2 / 4 1 1", TAKEN if relation < 32 else (4, 2), table_cases.table(MOST[:31]))
    heading("4: the own relations with other columns, both ways")
    for relation, columns in COLUMNS.items():
        for text, own in ((f"1 / 4 {relation} {ones(columns)} / 2 / 4 10 1", TAKEN), (f"1 / 4 {relation} {ones(5 - columns)} / 2 / 4 10 1 1 1 1", (4, 2))):
            both(text, own)
            both(text, own, OWN_TABLE)
            both(text, (4, 2) if own == TAKEN else TAKEN, TURNED)
    heading("4: in the list, in a view and in a later atom, by a table")
    both("1 / 4 11 1 1 1 / 2 / 4 19 1", (4, 4), CLUB)
    both("1 / 4 11 1 1 1 / 2 / 4 18 1 / 4 14 1", (4, 5), CLUB)
    both("1 / 4 11 1 1 1 / 2 / 4 18 1 / 3 / 4 16 1 1 1", (4, 6), CLUB)
    both("1 / 4 11 1 1 1 / 2 / 4 18 1 / 3 / 4 16 1 1 1 1 / 4 15 1 1 1 1 / 4 12 1 1", (4, 8), CLUB)
    heading("4 after 2 and 3 and before 5, 6 and 7, by a table")
    six = joined("1", *["4 11 1 1 1"] * 6)
    read_case(sheet("1") + b"       4      19      0x\n" + sheet("2 / 4 2 1"), (2, 2), table=CLUB)
    write_case(words("1") + [3, 4, 19, 100_000_000, 0, 0, 0] + words("2 / 4 2 1"), (2, 2), table=CLUB)
    both("1 / 4 19 / 2 / 4 2 1", (3, 2), CLUB)
    both("4 19 1 / 2 / 4 2 1", (3, 1), CLUB)
    both("1 / 4 19 -13 / 2 / 4 2 1", (4, 2), CLUB)
    both("1 / 4 18 -13 / 2 / 4 2 1", (5, 2), CLUB)
    both(joined(six, "4 19 1"), (4, 8), CLUB)
    both(joined(six, "4 18 1 1"), (4, 8), CLUB)
    both(joined(six, "4 18 1"), (6, 8), CLUB)
    heading("8 by the columns of a table")
    both("1 -4 / 4 16 -1 -2 -3 -4 / 2 -4 / 4 15 -1 -2 -3 -4", TAKEN, CLUB)
    both("1 -4 / 4 16 -1 -2 -3 -4 / 2 -4 / 4 11 -1 -2 -3", (8, 3), CLUB)


def tables_and_back():
    heading("relations 11 to 32, read and written again")
    for relation in range(11, 33):
        terms = " ".join(str(-1 - at) for at in range(MOST[relation - 1][0]))
        round_case(sheet(f"1 -1 / 4 {relation} {terms} / 2 -1 / 4 {relation} {terms} / 3 -1 / 4 {relation} {terms} / 5 {relation} / 5 9999999"), table=FULL_TABLE)
    heading("all 32 relations in one sheet")
    atoms = [[4, relation] + [7] * columns for relation, (columns, _, _) in enumerate(MOST, 1)]
    lines = [[1]] + atoms[:6]
    for at in (6, 12, 18, 24):
        lines += [[2]] + atoms[at:at + 6]
    lines += [[3]] + atoms[30:] + [[5]]
    round_case(sheet_of(lines), table=FULL_TABLE)
    read_case(sheet_of(lines), TAKEN, table=FULL_TABLE)
    write_case(words_of(lines), TAKEN, table=FULL_TABLE)
    heading("the largest sheets, of relation 32")
    head, atom, rows = WIDE
    largest = full(4, head, [4, 32] + atom[2:], rows)
    assert MOST[31][0] == 4 and len(largest) == 107 and len(sheet_of(largest)) == len(sheet_of(LARGEST))
    round_case(sheet_of(largest), ROOM["w"], FULL_TABLE)
    read_case(sheet_of(largest), (13, 0), 748, FULL_TABLE)
    write_case(words_of(largest), (13, 0), 5242, FULL_TABLE)
    heading("by the library's own table in bytes it is as without")
    for text in (LEAST, VIEW, ROWS, SIGNALS):
        round_case(sheet(text), table=OWN_TABLE)
        both(text, TAKEN, OWN_TABLE)


# --- Generated cases ------------------------------------------------------------------------------------------------


class Dice:
    """Numbers that look drawn by chance and are the same in each run."""

    def __init__(self, seed):
        self.state = seed

    def below(self, count):
        self.state = (self.state * 6364136223846793005 + 1442695040888963407) % 2**64
        return (self.state >> 33) % count

    def one(self, items):
        return items[self.below(len(items))]


CONSTANTS = (0, 1, 2, 7, 7, 8, 10, 42, 500, 9999, 1_000_000, 9_999_998, 9_999_999)

# Constants of seven digits, the most that there are.
SEVEN_DIGITS = (1_000_000, 1_000_001, 1_234_567, 4_194_304, 7_654_321, 8_388_608, 9_999_998, 9_999_999)


def some_atoms(dice, count, constants, relations):
    """Atoms of a block, over few variables, of relations with these columns."""
    names = [-1 - dice.below(12) for _ in range(1 + dice.below(4))]
    atoms = []
    for _ in range(count):
        relation = 1 + dice.below(len(relations))
        terms = [dice.one(names) if dice.below(3) else dice.one(constants) for _ in range(relations[relation])]
        atoms.append([4, relation] + terms)
    return atoms


def some_block(dice, kind, columns, count, constants, relations):
    """A head and atoms: each head variable stands in an atom."""
    atoms = some_atoms(dice, count, constants, relations)
    held = [term for atom in atoms for term in atom[2:] if term < 0]
    head = [dice.one(held) if held and dice.below(4) else dice.one(constants) for _ in range(columns)]
    return [[kind] + head] + atoms


def some_sheet(dice, size, constants=CONSTANTS, lists=1, relations=COLUMNS):
    """Lines of a sheet that is taken, with so many lists: small at size 1, up to every limit at size 6."""
    most = {1: 2, 2: 3, 6: 6}[size]
    columns = dice.below(5)
    lines = some_block(dice, 1, columns, 1 + dice.below(most), constants, relations)
    for _ in range(lists):
        lines += some_block(dice, 2, columns, 1 + dice.below(most), constants, relations)
    left = MOST_ROWS
    for _ in range(dice.below({1: 2, 2: 4, 6: 9}[size])):
        columns = dice.below(5)
        lines += some_block(dice, 3, columns, 1 + dice.below(min(most, 3)), constants, relations)
        rows = {tuple(dice.one(constants) for _ in range(columns)) for _ in range(dice.below({1: 3, 2: 5, 6: 9}[size]))}
        rows = sorted(rows)[:left]
        left -= len(rows)
        lines += [[5] + list(row) for row in rows]
    return lines


ODD_FIELDS = (-9_999_999, -14, -13, -12, -1, 0, 1, 2, 3, 4, 5, 6, 7, 9, 10, 11, 12, 9_999_999, 10_000_000, 99_999_999)


def damaged_lines(dice, lines):
    """The same lines with one thing changed: a field, a field more or less, a line gone, twice, moved or put in."""
    lines = [list(line) for line in lines]
    at = dice.below(len(lines))
    line = lines[at]
    way = dice.below(10)
    if way < 4:
        line[dice.below(len(line))] = dice.one(ODD_FIELDS)
    elif way == 4:
        line.append(dice.one(ODD_FIELDS))
    elif way == 5 and len(line) > 1:
        line.pop(1 + dice.below(len(line) - 1))
    elif way == 6:
        del lines[at]
    elif way == 7:
        lines.insert(at, list(line))
    elif way == 8:
        other = dice.below(len(lines))
        lines[at], lines[other] = lines[other], lines[at]
    else:
        lines.insert(at, dice.one([[1], [2], [3, 1], [4, 2, 1], [5, 7], [5], [4, 11, 1], [9], [3], [4, 2, -12]]))
    return lines


def damaged_bytes(dice, text):
    """The same bytes with one of them changed, left out or put in."""
    at = dice.below(len(text))
    byte = bytes([dice.one(b"  0123456789--\n\n\x00\xffa+\t")])
    way = dice.below(8)
    if way == 0:
        return text[:at] + text[at + 1:]
    if way == 1:
        return text[:at] + byte + text[at:]
    return text[:at] + byte + text[at + 1:]


def random_lines(dice):
    """A few lines that often, but not always, come in a sheet's order."""
    lines, before = [], 0
    for _ in range(1 + dice.below(9)):
        usual = {0: [1], 1: [4, 4, 2], 2: [4, 4, 3], 3: [4, 4, 3], 4: [4, 2, 3, 5, 5], 5: [5, 5, 3]}[before]
        kind = dice.one(usual) if dice.below(9) else dice.below(7)
        if kind == 4:
            relation = 1 + dice.below(10) if dice.below(15) else dice.below(13)
            count = COLUMNS.get(relation, 1) if dice.below(15) else 1 + dice.below(4)
            terms = [dice.one((-1, -1, -2, 1, 7)) for _ in range(count)]
            if not dice.below(12):
                terms[0] = dice.one((-13, 10_000_000))
            line = [4, relation] + terms
        elif kind == 5:
            line = [5] + [dice.below(12) for _ in range(dice.one((1, 1, 1, 2, 0)))]
        else:
            line = [kind] + [dice.one((-1, -1, 1, -2)) for _ in range(dice.one((1, 1, 1, 1, 2, 0)))]
        lines.append(line)
        before = kind if 1 <= kind <= 5 else 1
    return lines


def spread(make, keep, count, most):
    """Makes cases until `count` are kept, at most `most` of each number that the sheet is sent back by."""
    kept = collections.Counter()
    for _ in range(100 * count):
        case = make()
        number = keep(case, False)
        if kept[number] < most:
            kept[number] += 1
            keep(case, True)
        if sum(kept.values()) == count:
            return
    raise AssertionError("too few cases of their kind")


def keep_read(text, really):
    if really:
        read_case(text)
    return read(text, MOST_WORDS)[0]


def keep_write(form, really):
    if really:
        write_case(form)
    return write(form, LENT_BYTES)[0]


def generated():
    dice = Dice(1)
    heading("generated: sheets that are taken, read and written again")
    for at in range(60):
        lines = some_sheet(dice, 6 if at % 20 == 0 else 2 if at % 4 == 0 else 1)
        round_case(sheet_of(lines), dice.one((5243, 5307)))
    heading("generated: the same, in a call each")
    for _ in range(12):
        lines = some_sheet(dice, 1)
        read_case(sheet_of(lines), TAKEN, dice.one((749, 750, 813)))
        write_case(words_of(lines), TAKEN, dice.one((5243, 5244, 5307)))
    heading("generated: damaged in one byte")
    spread(lambda: damaged_bytes(dice, sheet_of(some_sheet(dice, 1))), keep_read, 110, 40)
    heading("generated: damaged in one line")
    spread(lambda: sheet_of(damaged_lines(dice, some_sheet(dice, 1))), keep_read, 90, 16)
    heading("generated: damaged in two lines")
    spread(lambda: sheet_of(damaged_lines(dice, damaged_lines(dice, some_sheet(dice, 1)))), keep_read, 60, 10)
    heading("generated: the number form damaged in one line")
    spread(lambda: words_of(damaged_lines(dice, some_sheet(dice, 1))), keep_write, 120, 20)
    heading("generated: the number form damaged in one word")

    def one_word():
        form = words_of(some_sheet(dice, 1))
        form[dice.below(len(form))] = dice.one(ODD_FIELDS + (100_000_000, -10_000_000, 2**31 - 1, -2**31))
        return form

    spread(one_word, keep_write, 110, 40)
    heading("generated: small sheets of lines drawn by chance")
    spread(lambda: sheet_of(random_lines(dice)), keep_read, 90, 18)
    spread(lambda: words_of(random_lines(dice)), keep_write, 90, 18)
    heading("generated: lines of bytes drawn by chance")
    for _ in range(60):
        text = bytes(dice.one(b"\n\n\n 1x\x00\xff\r-") for _ in range(dice.below(40)))
        line_case(text, dice.below(text.count(b"\n") + 2))
    heading("generated: every constant has seven digits")
    for at in range(20):
        lines = some_sheet(dice, 6 if at % 10 == 0 else 2, SEVEN_DIGITS)
        assert all(term < 0 or len(str(term)) == 7 for line in lines for term in line[1 + (line[0] == 4):])
        round_case(sheet_of(lines))
    spread(lambda: sheet_of(damaged_lines(dice, some_sheet(dice, 1, SEVEN_DIGITS))), keep_read, 30, 10)
    spread(lambda: words_of(damaged_lines(dice, some_sheet(dice, 1, SEVEN_DIGITS))), keep_write, 30, 10)


def generated_lists():
    """The same with one to four lists, drawn by dice of their own."""
    dice = Dice(20)

    def drawn(size):
        return some_sheet(dice, size, lists=1 + dice.below(4))

    heading("generated: sheets with several lists, read and written again")
    for at in range(40):
        round_case(sheet_of(some_sheet(dice, 6 if at % 20 == 0 else 2 if at % 4 == 0 else 1, lists=2 + at % 3)), dice.one((5243, 5307)))
    heading("generated: one to four lists, damaged in one byte")
    spread(lambda: damaged_bytes(dice, sheet_of(drawn(1))), keep_read, 40, 14)
    heading("generated: one to four lists, damaged in one line")
    spread(lambda: sheet_of(damaged_lines(dice, drawn(1))), keep_read, 80, 14)
    spread(lambda: words_of(damaged_lines(dice, drawn(1))), keep_write, 80, 14)
    heading("generated: one to four lists, damaged in two lines")
    spread(lambda: sheet_of(damaged_lines(dice, damaged_lines(dice, drawn(1)))), keep_read, 50, 8)
    heading("generated: one list more than there may be, or another in its place")

    def one_list_more():
        lines = some_sheet(dice, 1, lists=1 + dice.below(4))
        heads = [at for at, line in enumerate(lines) if line[0] == 2]
        at = dice.one(heads + [len(lines)])
        length = len(lines[0]) - 1 if dice.below(4) else dice.below(5)
        terms = [dice.one((1, 7, -1, -1, -13)) if dice.below(6) == 0 else 7 for _ in range(length)]
        return lines[:at] + [[2] + terms, [4, 2, -1]][:1 + (dice.below(4) > 0)] + lines[at:]

    spread(lambda: sheet_of(one_list_more()), keep_read, 50, 12)
    spread(lambda: words_of(one_list_more()), keep_write, 50, 12)


def some_table(dice, count):
    """So many relations of a table that passes."""
    relations = []
    for _ in range(count):
        columns = 1 + dice.below(4)
        parents = [place for place, (its, _, parent) in enumerate(relations, 1) if its == columns and parent == 0]
        parent = dice.one(parents) if parents and dice.below(2) else 0
        relations.append((columns, dice.below(columns), parent))
    return relations


def generated_tables():
    """Sheets by tables, both drawn by dice of their own."""
    dice = Dice(80)

    def drawn(size):
        table = table_cases.table(some_table(dice, dice.one((1, 2, 3, 5, 8, 12))))
        return table, some_sheet(dice, size, lists=1 + dice.below(2), relations=columns_by(table)[0])

    def keep_read_by(case, really):
        if really:
            read_case(case[1], table=case[0])
        return read_by(*case, MOST_WORDS)[0]

    def keep_write_by(case, really):
        if really:
            write_case(case[1], table=case[0])
        return write_by(*case, LENT_BYTES)[0]

    def one_field():
        """A table with a field of one line changed: often it still passes."""
        table, lines = drawn(1)
        at = dice.below(len(table) // 33 * 4) * 8
        at += at // 32
        return table[:at] + b"%8d" % dice.below(5) + table[at + 8:], sheet_of(lines)

    heading("generated: sheets by tables, read and written again")
    for at in range(36):
        table, lines = drawn(6 if at % 18 == 0 else 2 if at % 4 == 0 else 1)
        round_case(sheet_of(lines), dice.one((5243, 5307)), table)
    heading("generated: sheets by tables, damaged in one line")

    def one_line(form):
        table, lines = drawn(1)
        return table, form(damaged_lines(dice, lines))

    spread(lambda: one_line(sheet_of), keep_read_by, 60, 12)
    spread(lambda: one_line(words_of), keep_write_by, 60, 12)
    heading("generated: sheets by tables that they were not made for")

    def another():
        return table_cases.table(some_table(dice, dice.one((1, 2, 3, 5, 8, 12)))), drawn(1)[1]

    spread(lambda: (lambda table, lines: (table, sheet_of(lines)))(*another()), keep_read_by, 30, 20)
    spread(lambda: (lambda table, lines: (table, words_of(lines)))(*another()), keep_write_by, 30, 20)
    heading("generated: tables with one field changed")
    spread(one_field, keep_read_by, 60, 25)


def main():
    worked_sheets()
    sizes()
    line_lengths()
    malformed()
    word_forms()
    kinds()
    relations()
    terms()
    too_many()
    head_lengths()
    heads()
    ascending()
    lent()
    several_lists()
    within_a_line()
    across_lines()
    lines_handed_back()
    generated()
    generated_lists()
    tables_first()
    relations_of_tables()
    tables_and_back()
    generated_tables()
    texts = ["".join(line + "\n" for line in lines).encode("ascii") for lines in (given, wanted)]
    assert all(0 < len(line) < HELD_LINE and ("|" in line) != line.startswith("#") for line in given)
    calls = {"r": "read", "w": "write", "l": "line", "b": "round trip"}
    for (call, cause), count in sorted(tally.items(), key=lambda item: (item[0][0], str(item[0][1]).rjust(4))):
        print(f"{calls[call.lower()] + ' by a table' * call.isupper():>21} {cause:>4} {count:>5}")
    print(f"{sum(tally.values())} cases, {len(texts[0])} bytes of input, {len(texts[1])} bytes of output")
    for path, text in zip((STDIN, STDOUT), texts):
        if "--check" in sys.argv[1:]:
            if path.read_bytes() != text:
                sys.exit(f"{path} is not what is made here")
        else:
            path.write_bytes(text)


if __name__ == "__main__":
    main()
