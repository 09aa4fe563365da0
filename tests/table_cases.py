#!/usr/bin/env python3
"""Cases for the call that reads a club's table of relations, with the results it must give.

This is an independent reading of tables: it is written from their description in words alone, and shares nothing with the library.
The stored results (crates/test_table/stdout) come from it and not from the library.

    python3 tests/table_cases.py            writes crates/test_table/stdin and crates/test_table/stdout
    python3 tests/table_cases.py --check    only says whether those two files are what it would write

Run it at the repository's root. It draws no chance from outside: each run writes the same bytes.

A case is one line of stdin, its result the same line of stdout (the program's src/main.rt says how they are written). Beside every case
that is written by hand stands the line that the description names for it, None where the table is taken, and the reading below has to
agree with that before anything is stored.
"""
import pathlib
import random
import sys

# --- Tables ---------------------------------------------------------------------------------------------------------

MOST_LINES = 32
MOST_COLUMNS = 4
CAUSE = 15

# Columns, key and parent of the library's own relations.
OWN = [(2, 0, 0), (1, 0, 0), (3, 2, 0), (2, 0, 0), (2, 0, 4), (2, 0, 4), (3, 2, 0), (2, 0, 0), (4, 0, 0), (1, 0, 0)]


def number_of(field):
    """The number that eight bytes are, or None where they are no field."""
    text = field.lstrip(b" ")
    digits = text[1:] if text[:1] == b"-" else text
    if not digits or not digits.isdigit():
        return None
    if digits[:1] == b"0" and text != b"0":
        return None
    return int(text)


def breaks(line, before):
    """Whether a line's bytes break the rules, behind the relations before it."""
    if len(line) != 32:
        return True
    fields = [number_of(line[at:at + 8]) for at in range(0, 32, 8)]
    if None in fields:
        return True
    number, columns, key, parent = fields
    if number != len(before) + 1 or not 1 <= columns <= MOST_COLUMNS or not 0 <= key < columns:
        return True
    if parent == 0:
        return False
    if not 1 <= parent < number:
        return True
    its_columns, _, its_parent = before[parent - 1]
    return its_columns != columns or its_parent != 0


def read(table):
    """The relations and None, or None and the line that the table is sent back with."""
    if not table:
        return None, 0
    lines = table.split(b"\n")
    unclosed = lines.pop()
    relations = []
    for place, line in enumerate(lines, 1):
        if place > MOST_LINES or breaks(line, relations):
            return None, place
        relations.append(tuple(number_of(line[at:at + 8]) for at in (8, 16, 24)))
    if unclosed:
        return None, len(lines) + 1
    return relations, None


# --- Cases ----------------------------------------------------------------------------------------------------------

def line(*fields):
    return b"".join(b"%8d" % field for field in fields) + b"\n"


def table(relations):
    return b"".join(line(n, *relation) for n, relation in enumerate(relations, 1))


def changed(relations, place, *fields):
    """The table with other fields in the line at a place, from 1."""
    lines = [line(n, *relation) for n, relation in enumerate(relations, 1)]
    lines[place - 1] = line(*fields)
    return b"".join(lines)


def shown(raw):
    """Bytes as a case writes them: 7 and 6 blanks and byte 10 have signs of their own."""
    out, at = [], 0
    while at < len(raw):
        blanks = len(raw[at:]) - len(raw[at:].lstrip(b" "))
        if blanks >= 6:
            out.append("," if blanks >= 7 else ";")
            at += 7 if blanks >= 7 else 6
        else:
            byte = raw[at]
            if byte == 10:
                out.append("/")
            elif byte in b",;/\\" or not 32 <= byte < 127:
                out.append("\\%02x" % byte)
            else:
                out.append(chr(byte))
            at += 1
    return "".join(out)


def result(raw):
    relations, at = read(raw)
    if relations is None:
        return f"{CAUSE} {at} 0 =|"
    return f"0 0 {len(relations)} =|" + "".join("%d %d %d/" % relation for relation in relations)


class Cases:
    def __init__(self):
        self.stdin, self.stdout = [], []

    def heading(self, text):
        self.stdin.append("# " + text)
        self.stdout.append("# " + text)

    def case(self, raw, wanted):
        """A case by hand: the line named, or None where it is taken."""
        _, at = read(raw)
        if at != wanted:
            sys.exit(f"{raw!r}: the description says {wanted}, the reading {at}")
        self.drawn(raw)

    def drawn(self, raw):
        self.stdin.append("t|" + shown(raw))
        self.stdout.append(result(raw))

    def own(self):
        self.stdin.append("o|")
        self.stdout.append(result(table(OWN)) + table(OWN).decode().replace("\n", "/"))


def by_hand(cases):
    cases.heading("the library's own table, from its call and from here")
    cases.own()
    cases.case(table(OWN), None)

    cases.heading("no line, one line, 32 and 33")
    cases.case(b"", 0)
    for columns in range(1, 5):
        for key in range(columns):
            cases.case(table([(columns, key, 0)]), None)
    cases.case(table([(1, 0, 0)] * 32), None)
    cases.case(table([(1, 0, 0)] * 33), 33)
    cases.case(table([(1, 0, 0)] * 40), 33)
    cases.case(table([(1, 0, 0)] * 32) + b"x", 33)
    cases.case(table([(1, 0, 0)] * 32) + b"\n", 33)
    cases.case(changed([(1, 0, 0)] * 33, 32, 32, 5, 0, 0), 32)
    cases.case(changed([(1, 0, 0)] * 33, 1, 2, 1, 0, 0), 1)
    cases.case(table([(4, 3, 0)] + [(4, 3, 1)] * 31), None)

    cases.heading("each rule broken alone, at each place")
    for place in range(1, 11):
        columns, key, parent = OWN[place - 1]
        for number in (0, place - 1, place + 1, -place, 10 * place, 99999999):
            if number != place:
                cases.case(changed(OWN, place, number, columns, key, parent), place)
        for wrong in (0, 5, -1, -columns, 44, 99999999):
            cases.case(changed(OWN, place, place, wrong, 0, 0), place)
        for wrong in (columns, columns + 1, -1, 99999999, -9999999):
            cases.case(changed(OWN, place, place, columns, wrong, parent), place)
        for wrong in (place, place + 1, -1, -4, 33, 99999999, -9999999):
            cases.case(changed(OWN, place, place, columns, key, wrong), place)
        for fields in ([place, columns, key], [place, columns, key, parent, 0], [place, columns, key, parent, 0, 0], [place]):
            cases.case(changed(OWN, place, *fields), place)

    cases.heading("parents")
    cases.case(table([(2, 0, 0), (2, 0, 1)]), None)
    cases.case(table([(2, 1, 0), (2, 0, 1), (2, 1, 1)]), None)
    cases.case(table([(2, 0, 0), (2, 0, 1), (2, 0, 2)]), 3)
    cases.case(table([(2, 0, 0), (2, 0, 1), (2, 0, 1), (2, 0, 3)]), 4)
    cases.case(table([(2, 0, 0), (3, 0, 1)]), 2)
    cases.case(table([(3, 0, 0), (2, 0, 1)]), 2)
    cases.case(table([(2, 0, 1)]), 1)
    cases.case(table([(2, 0, 2), (2, 0, 0)]), 1)
    cases.case(table([(2, 0, 0), (2, 0, 2)]), 2)
    cases.case(table([(2, 0, 0), (2, 0, 3), (2, 0, 0)]), 2)
    cases.case(table([(1, 0, 0)] * 31 + [(1, 0, 31)]), None)
    cases.case(table([(1, 0, 0)] * 31 + [(1, 0, 32)]), 32)

    cases.heading("malformed and unclosed lines")
    good = table(OWN)
    cases.case(good[:-1], 10)
    cases.case(good + b" ", 11)
    cases.case(good + good[:32], 11)
    cases.case(b"\n", 1)
    cases.case(good + b"\n", 11)
    cases.case(b"\n" + good, 1)
    cases.case(b"x", 1)
    cases.case(good[:32], 1)
    for place in range(10):
        at = place * 33
        cases.case(good[:at] + good[at + 1:], place + 1)                   # a byte too few
        cases.case(good[:at] + b" " + good[at:], place + 1)                # a byte too many
        cases.case(good[:at + 32] + b"\r" + good[at + 32:], place + 1)     # another line end
        for field in range(4):
            for bad in (b"       x", b"      +1", b"      01", b"      -0", b"       -", b"        ", b"      1 ", b"1       ", b"\0\0\0\0\0\0\0\x31"):
                here = at + field * 8
                cases.case(good[:here] + bad + good[here + 8:], place + 1)
    cases.case(good.replace(b"\n", b"\r\n"), 1)
    cases.case(good.replace(b"\n", b"\0"), 1)


def by_chance(cases, count):
    """Tables that are right up to a place, with small fields there and behind it."""
    cases.heading("drawn")
    chance = random.Random(8)
    for _ in range(count):
        relations = []
        for n in range(1, chance.choice((1, 2, 3, 5, 8, 13, 32, 33)) + 1):
            columns = chance.randint(1, 4)
            parents = [p for p in range(1, n) if relations[p - 1][0] == columns and relations[p - 1][2] == 0]
            parent = chance.choice(parents) if parents and chance.random() < 0.5 else 0
            relations.append((columns, chance.randrange(columns), parent))
        raw = table(relations)
        if chance.random() < 0.7:
            place = chance.randint(1, len(relations))
            columns, key, parent = relations[place - 1]
            what = chance.randrange(4)
            fields = [place, columns, key, parent]
            fields[what] = chance.choice((fields[what] + chance.choice((-1, 1)), chance.randint(-1, 5), chance.randint(0, place)))
            raw = changed(relations, place, *fields)
        cases.drawn(raw)


def main():
    cases = Cases()
    by_hand(cases)
    by_chance(cases, 300)
    folder = pathlib.Path("crates/test_table")
    wanted = {"stdin": "\n".join(cases.stdin) + "\n", "stdout": "\n".join(cases.stdout) + "\n"}
    if sys.argv[1:] == ["--check"]:
        for name, text in wanted.items():
            if (folder / name).read_text() != text:
                sys.exit(f"{folder / name} is not what the cases say")
        print(f"{len(cases.stdin)} lines, as stored")
        return
    for name, text in wanted.items():
        (folder / name).write_text(text)


if __name__ == "__main__":
    main()
