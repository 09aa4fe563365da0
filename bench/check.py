#!/usr/bin/env python3
"""Compares the judge of this package with the one in tests/cover_cases.py, which shares nothing with it.

    python3 bench/check.py [COUNT] [SEED] [PROGRAM]
    python3 bench/check.py --sheets FOLDER [COUNT] [SECONDS]

Run it at the repository's root, after `cargo build --release --offline` in bench/. It takes COUNT generated sheets (4,000
unless said), half of them of Worn and Pulse, as many damaged ones, and the stored cases. Verdicts and refusals have to be the
same with each strategy of the search; each case handed over has to be a case, without facts to spare, in order, with its least
missing answer. PROGRAM, if given, is a program like crates/cover/out/cover, and is asked beside it.

With --sheets it takes the files of a folder, as `bench sheets` writes them, COUNT of them in even steps (all unless said), and the best
strategy alone. The other judge is slow: what it does not judge, or whose case is not looked at, in SECONDS (2 unless said) is counted so.
"""
import pathlib
import signal
import subprocess
import sys

sys.path.insert(0, str(pathlib.Path(__file__).resolve().parent.parent / "tests"))

import stored_parts  # noqa: E402
from cover_cases import (COLUMNS, KEYED, MADE_UP, Dice, answers_in_steps, blocks_of, constants_of, has_no_fact_to_spare, is_case, judged_by_search,  # noqa: E402
                         lacking, most_general, obeying, parts_of, some_block, some_sheet)
from evaluate_cases import raised_lines  # noqa: E402
from sheet_cases import MOST_WORDS, read, sheet_of  # noqa: E402

BENCH = pathlib.Path(__file__).resolve().parent / "target/release/bench"
STRATEGIES = 11


def wider_sheet(dice, often=range(1, 11)):
    """Lines of a sheet with more views, rows and relations than some_sheet has."""
    relations = [dice.one(often) for _ in range(1 + dice.below(4))]
    top = 1 + dice.below(4)
    columns = dice.below(5)
    lines = some_block(dice, 1, columns, 1 + dice.below(4), relations, top) + some_block(dice, 2, columns, 1 + dice.below(4), relations, top)
    log = obeying([(relation, tuple(1 + dice.below(top) for _ in range(COLUMNS[relation])))
                   for relation in (dice.one(relations) for _ in range(1 + dice.below(6)))])
    for _ in range(dice.below(6)):
        columns = dice.below(5)
        block = some_block(dice, 3, columns, 1 + dice.below(3), relations, top)
        rows = answers_in_steps(blocks_of(block)[0], log)
        if dice.below(6) == 0:
            rows = {tuple(1 + dice.below(top) for _ in range(columns)) for _ in range(dice.below(4))}
        if len(rows) > 6:
            rows = set()
        lines += block + [[5] + list(row) for row in sorted(rows)]
    return lines


def damaged(dice, sheet):
    """The sheet with a byte, a field or a line changed, dropped or doubled."""
    data = bytearray(sheet)
    way = dice.below(6)
    if way == 0:
        data[dice.below(len(data))] = dice.one(b"0123456789 -\n\x00")
    elif way == 1:
        del data[dice.below(len(data))]
    elif way == 2:
        at = dice.below(len(data) // 8) * 8
        data[at:at + 8] = b"%8d" % dice.one((-13, -12, -1, 0, 1, 2, 3, 4, 5, 6, 10, 11, 9_999_999, 10_000_000, 99_999_999))
    else:
        lines = bytes(data).split(b"\n")[:-1]
        at, to = dice.below(len(lines)), dice.below(len(lines))
        if way == 3:
            del lines[at]
        elif way == 4:
            lines[at], lines[to] = lines[to], lines[at]
        else:
            lines[at:at] = [lines[to]] * dice.one((1, 1, 6, 41))
        data = b"".join(line + b"\n" for line in lines)
    return bytes(data)


def stored():
    """The sheets of the stored cases for the judgement."""
    for line in stored_parts.part("stdin", "cover").decode("ascii").splitlines():
        if not line.startswith("#"):
            sheet = line.split("|")[2].replace(",", " " * 7).replace(";", " " * 6).replace("/", "\n").encode("ascii")
            if "\\" not in line:
                yield sheet


def fields_printed(out):
    """The numbers of printed lines. A field is eight bytes, and a made-up value leaves no blank before it."""
    return [[int(line[at:at + 8]) for at in range(0, len(line), 8)] for line in out.splitlines()]


def printed(sheets, strategy):
    """What the package's program prints for each sheet, as lists of numbers."""
    given = b"".join(b"%d\n" % len(sheet) + sheet for sheet in sheets)
    out = subprocess.run([BENCH, "batch", str(strategy)], input=given, capture_output=True, check=True).stdout
    while out:
        first, _, out = out.partition(b"\n")
        size = int(first.split()[0])
        yield fields_printed(out[:size])
        out = out[size:]


def asked(program, sheet):
    out = subprocess.run([program], input=sheet, capture_output=True, check=True, timeout=60).stdout
    return fields_printed(out)


def fault(parts, number, lines):
    """What is wrong with a verdict that was printed, or None."""
    if lines[0][0] != number:
        return f"verdict {lines[0]} and not {number}"
    if number != 1:
        return None if lines == [[number]] else "more than a verdict"
    facts = [tuple(line[1:]) for line in lines[2:]]
    log = frozenset((fact[0], fact[1:]) for fact in facts)
    start = most_general(parts, True)[0]
    allowed = set(constants_of(parts))
    if lines[0] != [1, len(facts)] or facts != sorted(set(facts)) or any(line[0] != 7 for line in lines[2:]):
        return "the facts' form"
    if any(len(fact) - 1 != COLUMNS[fact[0]] for fact in facts) or len(facts) > len(start):
        return "the facts' columns or count"
    if any(value not in allowed and not MADE_UP <= value < MADE_UP + 1000 for fact in facts for value in fact[1:]):
        return "the facts' values"
    if not is_case(parts, log):
        return "no case"
    if not has_no_fact_to_spare(parts, log):
        return "a fact to spare"
    if tuple(lines[1]) != (6, *lacking(parts, log)[0]):
        return "the missing answer"
    return None


class TooLong(Exception):
    pass


def ring(*_):
    raise TooLong


def done_in(seconds, what, *given):
    """Whether something came to an end in this time, and its result."""
    signal.signal(signal.SIGALRM, ring)
    signal.setitimer(signal.ITIMER_REAL, seconds)
    try:
        return True, what(*given)
    except (TooLong, RecursionError):
        return False, None
    finally:
        signal.setitimer(signal.ITIMER_REAL, 0)


def check_folder(folder, count=None, seconds=2):
    """Compares the verdicts of sheets in files, and looks at the cases."""
    paths = sorted(path for path in pathlib.Path(folder).iterdir() if path.name != "verdicts.txt")
    paths = paths[::max(1, len(paths) // int(count))][:int(count)] if count else paths
    sheets = [path.read_bytes() for path in paths]
    faults, tally, seconds = 0, {}, float(seconds)
    for path, sheet, got in zip(paths, sheets, printed(sheets, STRATEGIES - 1), strict=True):
        number, line, lines = read(sheet, MOST_WORDS)
        if number:
            sys.exit(f"{path.name} is sent back by {number} in line {line}")
        parts = parts_of(lines)
        verdict = got[0][0]
        judged, found = done_in(seconds, judged_by_search, parts)
        key = str(found[0]) if judged else f"not judged there, {verdict} here"
        if judged and found[0] != verdict:
            looked, wrong = True, f"verdict {verdict} and not {found[0]}"
        else:
            # A case speaks for itself.
            looked, wrong = done_in(seconds, fault, parts, verdict, got)
        if wrong:
            faults += 1
            print(f"{path.name}: {wrong}")
        key += "" if looked else ", its case not looked at"
        tally[key] = tally.get(key, 0) + 1
    print(f"{len(sheets)} sheets, {faults} faults; " + ", ".join(f"{key}: {n}" for key, n in sorted(tally.items())))
    sys.exit(faults > 0)


def main():
    if sys.argv[1:2] == ["--sheets"]:
        check_folder(*sys.argv[2:])
    count, seed = (int(word) for word in (sys.argv[1:3] + ["4000", "1"][len(sys.argv[1:3]):]))
    program = sys.argv[3] if len(sys.argv) > 3 else None
    dice = Dice(seed)
    sheets = list(stored())
    while len(sheets) < count:
        way = some_sheet if dice.below(2) else wider_sheet
        lines = way(dice, often=KEYED) if dice.below(2) else way(dice)
        sheet = sheet_of(raised_lines(lines, dice.one((0, 0, 1_000_000, 9_999_990))))
        sheets.append(sheet)
        sheets.append(damaged(dice, sheet))
    tally = {}
    wanted = []
    for sheet in sheets:
        number, line, lines = read(sheet, MOST_WORDS)
        parts = None if number else parts_of(lines)
        wanted.append((parts, [[9, number, line]] if number else judged_by_search(parts)[0]))
        key = f"9 {number}" if number else str(wanted[-1][1])
        tally[key] = tally.get(key, 0) + 1
    faults = 0
    judges = [(f"strategy {strategy}", printed(sheets, strategy)) for strategy in range(STRATEGIES)]
    if program:
        judges.append((program, (asked(program, sheet) for sheet in sheets)))
    for name, answers in judges:
        for sheet, (parts, want), got in zip(sheets, wanted, answers, strict=True):
            wrong = (None if got == want else f"{got} and not {want}") if parts is None else fault(parts, want, got)
            if wrong:
                faults += 1
                print(f"{name}: {wrong}\n{sheet.decode('latin-1')}")
                if faults > 5:
                    sys.exit(1)
    print(f"{len(sheets)} sheets, {len(judges)} judges, {faults} faults; " + ", ".join(f"{key}: {n}" for key, n in sorted(tally.items())))
    sys.exit(faults > 0)


if __name__ == "__main__":
    main()
