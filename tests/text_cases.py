#!/usr/bin/env python3
"""The part text of the stored cases of crates/test_judge: texts and sheets, with what is to be said of each.

usage: text_cases.py            writes the part text of stdin and stdout of crates/test_judge
       text_cases.py --check    says whether that part is this
       text_cases.py --run      runs the built programs (tests/programs.py) on made-up sheets, and compares them with a writer and a
                                reader of its own

What is expected was worked out by hand from the description in words, and not taken from the program; a reader of texts of its own, written from
the same description, has to agree with it. Each log that stands in it is the only one that may be handed over for its sheet. Which values beyond the sheet's a log has is free: --run looks at a few that need some, and
asks of them only what has to hold (FREE_VALUES).
"""
import random
import re
import subprocess
import sys

import stored_parts
from programs import program

RELATIONS = "a relation: Rower, Strap, Worn, Sig, Beat, Noise, Pulse, Coach, Seat or Pause"
CAUSES = {
    1: "the sheet is too long",
    2: "a line or a field is malformed",
    3: "a line is out of place, or the question or a list is missing",
    4: "no such relation, or not its columns",
    5: "a term is out of range, or a row has a variable",
    6: "more atoms, lists, views or rows than fit",
    7: "a head or a row has the wrong length",
    8: "a block has no atoms, or a variable of its head is in none",
    9: "a row is not above the one before it",
}
QL = "q(s): Strap(s)/l(s): Strap(s)/"
QL_BACK = "q(a): Strap(a)/l(a): Strap(a)/"


LIST = "l, a saved list"
VIEW = "v, a view, or behind a list l, one more list"


def field(n):
    return "%8d" % n


def lines(*rows):
    """A sheet, with "/" for the end of a line."""
    return "".join("".join(field(n) for n in row) + "/" for row in rows)


def expected(line, what):
    return f"line {line}: expected {what}"


def refused(cause, line=0, text=0):
    at = f" at line {line}" if line else ""
    of = f" of the sheet, line {text} of the text" if text else ""
    return f"refused: cause {cause}{at}{of}: {CAUSES[cause]}"


SERIALS = "q(9999999,s,t): Sig(s,t)/l(1000000,s,t): Beat(s,t)/"
SERIALS_BACK = "q(9999999,a,b): Sig(a,b)/l(1000000,a,b): Beat(a,b)/"
CREWS = "q(r): Rower(r,k)/l(r): Rower(r,1)/"
CREWS_BACK = "q(a): Rower(a,b)/l(a): Rower(a,1)/"
PAPER = "q(s,t): Sig(s,t)/l(s,t): Beat(s,t)/"
PAPER_BACK = "q(a,b): Sig(a,b)/l(a,b): Beat(a,b)/"
MANY = "q(): Rower(1,2), Strap(3), Worn(4,5,6), Sig(7,8), Beat(9,10), Noise(11,12)/"
REST = "l(): Pulse(1,2,3), Coach(4,5), Seat(6,7,8,9), Pause(10)/"
SHEET = lines((1, -1, -2), (4, 4, -1, -2), (2, -1, -2), (4, 5, -1, -2), (3, -1, -2), (4, 4, -1, -2), (5, 7, 1), (5, 7, 2))
TWELVE = "q(): Worn(a,b,c), Worn(d,e,f), Worn(g,h,i), Worn(j,k,l)"

# heading, or name, what is given, what is said, and the text of its sheet where it is a text that has one
CASES = [
    "# the judged examples",
    ("whole", PAPER + "v(s,t): Sig(s,t) = (7,1); (7,2)/", "not covered: (7,1) is missing. Log: Sig(7,1), Sig(7,2)",
     PAPER_BACK + "v(a,b): Sig(a,b) = (7,1); (7,2)/"),
    ("no rows", PAPER + "v(s,t): Sig(s,t) =/", "covered", PAPER_BACK + "v(a,b): Sig(a,b) =/"),
    ("both views", PAPER + "v(s,t): Sig(s,t) = (7,1)/v(s,t): Beat(s,t) = (7,1)/", "covered",
     PAPER_BACK + "v(a,b): Sig(a,b) = (7,1)/v(a,b): Beat(a,b) = (7,1)/"),
    ("head constant", "q(s): Sig(s,t)/l(7): Sig(7,t)/v(s): Sig(s,t) = 7/", "covered", "q(a): Sig(a,b)/l(7): Sig(7,a)/v(a): Sig(a,b) = 7/"),
    # without the second view the ticks would be free
    ("two rows", "q(s): Sig(s,t)/l(7): Sig(7,t)/v(s): Sig(s,t) = 7; 8/v(t): Sig(s,t) = 1/", "not covered: (8) is missing. Log: Sig(7,1), Sig(8,1)",
     "q(a): Sig(a,b)/l(7): Sig(7,a)/v(a): Sig(a,b) = 7; 8/v(a): Sig(b,a) = 1/"),
    ("no log", QL + "v(): Beat(s,t) = ()/v(s,t): Beat(s,t) =/", "no log gives these rows",
     QL_BACK + "v(): Beat(a,b) = ()/v(a,b): Beat(a,b) =/"),
    ("004 example 5", "q(a): Strap(a), Pause(b)/l(a): Strap(a)/v(): Strap(a), Pause(a) =/", "covered",
     "q(a): Strap(a), Pause(b)/l(a): Strap(a)/v(): Strap(a), Pause(a) =/"),
    ("empty head", "q(): Beat(7,1), Noise(7,2)/l(): Pause(1)/v(t): Beat(7,t), Noise(7,t) =/",
     "not covered: () is missing. Log: Sig(7,1), Sig(7,2), Beat(7,1), Noise(7,2)", "q(): Beat(7,1), Noise(7,2)/l(): Pause(1)/v(a): Beat(7,a), Noise(7,a) =/"),
    ("empty head, same tick", "q(): Beat(7,1), Noise(7,1)/l(): Pause(1)/v(t): Beat(7,t), Noise(7,t) =/", "covered",
     "q(): Beat(7,1), Noise(7,1)/l(): Pause(1)/v(a): Beat(7,a), Noise(7,a) =/"),
    ("a beat beside no signals", QL + "v(s,t): Beat(s,t) = (7,1)/v(s,t): Sig(s,t) =/", "no log gives these rows",
     QL_BACK + "v(a,b): Beat(a,b) = (7,1)/v(a,b): Sig(a,b) =/"),
    "# every relation by its name",
    ("first six", MANY + REST, "not covered: () is missing. Log: Rower(1,2), Strap(3), Worn(4,5,6), Sig(7,8), "
     "Sig(9,10), Sig(11,12), Beat(9,10), Noise(11,12)", MANY + REST),
    ("last four", "q" + REST[1:] + "l(): Strap(1)/", "not covered: () is missing. Log: Pulse(1,2,3), Coach(4,5), Seat(6,7,8,9), Pause(10)",
     "q" + REST[1:] + "l(): Strap(1)/"),
    ("four columns", "q(a,b,c,d): Seat(a,b,c,d)/l(a,b,c,d): Seat(a,b,c,d), Pause(b)/v(a,b,c,d): Seat(a,b,c,d) = (1,2,3,4)/v(p): Pause(p) =/",
     "not covered: (1,2,3,4) is missing. Log: Seat(1,2,3,4)",
     "q(a,b,c,d): Seat(a,b,c,d)/l(a,b,c,d): Seat(a,b,c,d), Pause(b)/v(a,b,c,d): Seat(a,b,c,d) = (1,2,3,4)/v(a): Pause(a) =/"),
    "# what may be written otherwise",
    ("bare rows", PAPER + "v(s,t): Sig(s,t) = 7,1; 7,2/", "not covered: (7,1) is missing. Log: Sig(7,1), Sig(7,2)",
     PAPER_BACK + "v(a,b): Sig(a,b) = (7,1); (7,2)/"),
    ("one column in brackets", QL + "v(s): Strap(s) = (7); 8/", "covered", QL_BACK + "v(a): Strap(a) = 7; 8/"),
    ("words", "q(strap,tick): Sig(strap,tick)/l(s1,t2): Sig(s1,t2)/", "covered", "q(a,b): Sig(a,b)/l(a,b): Sig(a,b)/"),
    ("by first place", "q(): Sig(t,s), Beat(s,t)/l(): Sig(s,s)/v(t): Sig(s,t) =/", "covered",
     "q(): Sig(a,b), Beat(b,a)/l(): Sig(a,a)/v(a): Sig(b,a) =/"),
    ("blanks", "  q ( s ) :\tStrap ( s )  \r/l(s):Strap(s)/ v(s) : Strap(s)=7 ;8", "covered", QL_BACK + "v(a): Strap(a) = 7; 8/"),
    ("comments", "# a list/" + "//  # another: q(/q(s): Strap(s)//l(s): Strap(s)/#", "covered", QL_BACK),
    ("digits", "q(007): Strap(007)/l(7): Strap(7)/", "covered", "q(7): Strap(7)/l(7): Strap(7)/"),
    ("six digits", "q(999999): Strap(999999)/l(0): Strap(0)/v(s): Strap(s) = 999999/", "not covered: (999999) is missing. Log: Strap(999999)",
     "q(999999): Strap(999999)/l(0): Strap(0)/v(a): Strap(a) = 999999/"),
    ("least of seven digits", "q(1000000): Strap(1000000)/l(0): Strap(0)/v(s): Strap(s) = 1000000/",
     "not covered: (1000000) is missing. Log: Strap(1000000)", "q(1000000): Strap(1000000)/l(0): Strap(0)/v(a): Strap(a) = 1000000/"),
    ("largest constant", "q(9999999): Strap(9999999)/l(0): Strap(0)/v(s): Strap(s) = 9999999/",
     "not covered: (9999999) is missing. Log: Strap(9999999)", "q(9999999): Strap(9999999)/l(0): Strap(0)/v(a): Strap(a) = 9999999/"),
    ("seven digits, not covered", SERIALS + "v(s,t): Sig(s,t) = (9999998,1000000); 9999998,1000001/",
     "not covered: (9999999,9999998,1000000) is missing. Log: Sig(9999998,1000000), Sig(9999998,1000001)",
     SERIALS_BACK + "v(a,b): Sig(a,b) = (9999998,1000000); (9999998,1000001)/"),
    ("seven digits, covered", SERIALS + "v(s): Sig(s,t) =/", "covered", SERIALS_BACK + "v(a): Sig(a,b) =/"),
    ("seven digits, no log", SERIALS + "v(1234567): Sig(s,t) = 7654321/", "no log gives these rows",
     SERIALS_BACK + "v(1234567): Sig(a,b) = 7654321/"),
    ("twelve variables", TWELVE + "/l(): " + TWELVE[5:] + "/", "covered", TWELVE + "/l(): " + TWELVE[5:] + "/"),
    "# several lists",
    ("two crews", CREWS + "l(r): Rower(r,2)/v(r,k): Rower(r,k) = (10,1); (11,2)/", "covered",
     CREWS_BACK + "l(a): Rower(a,2)/v(a,b): Rower(a,b) = (10,1); (11,2)/"),
    ("two crews, one list", CREWS + "v(r,k): Rower(r,k) = (10,1); (11,2)/", "not covered: (11) is missing. Log: Rower(10,1), Rower(11,2)",
     CREWS_BACK + "v(a,b): Rower(a,b) = (10,1); (11,2)/"),
    ("a third crew", CREWS + "l(r): Rower(r,2)/v(r,k): Rower(r,k) = (10,1); (11,2); (12,3)/",
     "not covered: (12) is missing. Log: Rower(10,1), Rower(11,2), Rower(12,3)", CREWS_BACK + "l(a): Rower(a,2)/v(a,b): Rower(a,b) = (10,1); (11,2); (12,3)/"),
    ("two crews by name of their number", CREWS + "l(r): Rower(r,2)/v(k): Rower(r,k) = 1; 2/", "covered", CREWS_BACK + "l(a): Rower(a,2)/v(a): Rower(b,a) = 1; 2/"),
    ("four lists with a hole", "q(s): Strap(s)/l(7): Strap(7)/l(8): Strap(8)/l(10): Strap(10)/l(11): Strap(11)/v(s): Strap(s) = 7; 8; 9; 10; 11/",
     "not covered: (9) is missing. Log: Strap(7), Strap(8), Strap(9), Strap(10), Strap(11)",
     "q(a): Strap(a)/l(7): Strap(7)/l(8): Strap(8)/l(10): Strap(10)/l(11): Strap(11)/v(a): Strap(a) = 7; 8; 9; 10; 11/"),
    ("lists without views", "q(s,t): Beat(s,t)/l(x,y): Noise(x,y)/l(x,y): Sig(x,y)/", "covered", "q(a,b): Beat(a,b)/l(a,b): Noise(a,b)/l(a,b): Sig(a,b)/"),
    ("lists with blanks and comments", "q(s): Strap(s)/ l (s) : Strap(s), Pause(s)/# one more/// l(t):Strap ( t )/", "covered",
     "q(a): Strap(a)/l(a): Strap(a), Pause(a)/l(a): Strap(a)/"),
    ("no log and three lists", QL + "l(s): Pause(s)/l(1): Strap(1)/v(s): Strap(s) = 7/v(): Strap(s) =/", "no log gives these rows",
     QL_BACK + "l(a): Pause(a)/l(1): Strap(1)/v(a): Strap(a) = 7/v(): Strap(a) =/"),
    "# what is expected",
    ("question", "l(s): Strap(s)/", expected(1, "q, the question")),
    ("question's letter", "question(s): Strap(s)/", expected(1, "q, the question")),
    ("list", "q(s): Strap(s)//# views/v(s): Strap(s) =/", expected(4, LIST)),
    ("view", QL + "w(s): Strap(s) =/", expected(3, VIEW)),
    ("after a second list", QL + "l(s): Pause(s)/q(s): Strap(s)/", expected(4, VIEW)),
    ("a list after a view", QL + "v(s): Strap(s) =/l(s): Strap(s)/", expected(4, VIEW)),
    ("a list after two lists and a view", QL + "l(s): Pause(s)/v(s): Strap(s) = 7//l(s): Strap(s)/", expected(6, VIEW)),
    ("rows of a second list", QL + "l(s): Pause(s) = 7/", expected(3, ", or the end of the line")),
    ("bracket of a head", "q s: Strap(s)/", expected(1, "(")),
    ("bracket of an atom", "q(s): Strap s/", expected(1, "(")),
    ("head", "q(,s): Strap(s)/", expected(1, "a variable, a number or )")),
    ("row in brackets", QL + "v(s): Strap(s) = (;/", expected(3, "a variable, a number or )")),
    ("term of a head", "q(s,): Strap(s)/", expected(1, "a variable or a number")),
    ("term of an atom", "q(s): Strap()/", expected(1, "a variable or a number")),
    ("minus", "q(s): Strap(-1)/", expected(1, "a variable or a number")),
    ("comma", "q(s t): Sig(s,t)/", expected(1, ", or )")),
    ("word after a number", "q(s): Strap(7s)/", expected(1, ", or )")),
    ("open atom", "q(s): Strap(s", expected(1, ", or )")),
    ("colon", "q(s) Strap(s)/", expected(1, ":")),
    ("relation", "q(s): Strop(s)/", expected(1, RELATIONS)),
    ("longer name", "q(s): Straps(s)/", expected(1, RELATIONS)),
    ("shorter name", "q(s): Si(s)/", expected(1, RELATIONS)),
    ("a relation of the ten by its number", "q(s): R4(s,t)/", expected(1, RELATIONS)),
    ("R and no number", "q(s): R(s)/", expected(1, RELATIONS)),
    ("R and more than a number", "q(s): R11a(s)/", expected(1, RELATIONS)),
    ("a relation beyond every field", "q(s): R100000000(s)/", expected(1, RELATIONS)),
    ("five columns beyond the ten", "q(a): R11(a,b,c,d,e)/", expected(1, "at most four columns")),
    ("no column beyond the ten", "q(): R11()/", expected(1, "a variable or a number")),
    ("a list's letter and more", QL + "lx(s): Strap(s)/", expected(3, VIEW)),
    ("no atoms", "q(s):/", expected(1, RELATIONS)),
    ("no atom after a comma", "q(s): Strap(s),/", expected(1, RELATIONS)),
    ("one column", "q(s): Strap(s,t)/", expected(1, "one column in Strap")),
    ("two columns", "q(s): Strap(s)/l(s): Sig(s)/", expected(2, "two columns in Sig")),
    ("three columns", "q(s): Worn(s,t)/", expected(1, "three columns in Worn")),
    ("four columns wanted", "q(s): Seat(s,t,u,v,w)/", expected(1, "four columns in Seat")),
    ("long head", "q(a,b,c,d,e): Strap(a)/", expected(1, "at most four columns")),
    ("long row", QL + "v(s): Strap(s) = 1,2,3,4,5/", expected(3, "at most four columns")),
    ("end of an atom", "q(s): Strap(s) Strap(s)/", expected(1, ", or the end of the line")),
    ("rows of a list", "q(s): Strap(s)/l(s): Strap(s) = 7/", expected(2, ", or the end of the line")),
    ("rows", QL + "v(s): Strap(s)/", expected(3, ", or = and the rows")),
    ("first row", QL + "v(s): Strap(s) = ;/", expected(3, "a row or the end of the line")),
    ("variable for a row", QL + "v(s): Strap(s) = s/", expected(3, "a row or the end of the line")),
    ("row", QL + "v(s): Strap(s) = 7;/", expected(3, "a row")),
    ("bare row", QL + "v(s): Strap(s) = 7 8/", expected(3, ", or ; or the end of the line")),
    ("end of a row", QL + "v(s): Strap(s) = (7) (8)/", expected(3, "; or the end of the line")),
    "# what the library refuses of a text",
    ("a relation beyond the ten", "q(s,t): R11(s,t)/l(s,t): Sig(s,t)/", refused(4, 2, 1)),
    ("a relation far beyond the ten", QL + "v(s): Strap(s), R99999999(s,1,2,3) =/", refused(4, 7, 3)),
    ("no list", "q(s): Strap(s)/", refused(3)),
    ("only a comment", "# nothing", refused(3)),
    ("constant", "# too large/q(10000000): Strap(s)/l(0): Strap(s)/", refused(5, 1, 2)),
    ("constant in an atom", "q(9999999): Strap(s), Pause(10000000)/l(0): Strap(s)/", refused(5, 3, 1)),
    ("constant in a row", QL + "v(s): Strap(s) = 9999999; 10000000/", refused(5, 8, 3)),
    ("long number", "q(s): Strap(s), Strap(123456789012)/l(0): Strap(s)/", refused(5, 3, 1)),
    ("variable in a row", QL + "v(s): Strap(s) = (s)/", refused(5, 7, 3)),
    ("thirteen variables", TWELVE + ", Strap(m)/l(): Strap(s)/", refused(5, 6, 1)),
    ("seven atoms", "q(s): " + ", ".join(["Strap(s)"] * 7) + "/l(s): Strap(s)/", refused(6, 8, 1)),
    ("four atoms in a view", QL + "v(s): " + ", ".join(["Strap(s)"] * 4) + " =/", refused(6, 9, 3)),
    ("nine views", QL + "v(s): Strap(s) =/" * 9, refused(6, 21, 11)),
    ("row 41", QL + "v(s): Strap(s) = " + "; ".join(str(n) for n in range(41)) + "/", refused(6, 47, 3)),
    ("ninety rows", QL + "v(s): Strap(s) = " + "; ".join(str(n) for n in range(90)) + "/", refused(6, 47, 3)),
    ("too long", QL + "v(s): Strap(s) = " + "; ".join(str(n) for n in range(110)) + "/", refused(1)),
    ("list's length", "q(s): Strap(s)/l(): Strap(s)/", refused(7, 3, 2)),
    ("second list's length", QL + "l(s,t): Sig(s,t)/", refused(7, 5, 3)),
    ("five lists", "q(s): Strap(s)/" + "l(s): Strap(s)/" * 5, refused(6, 11, 6)),
    ("five lists, the last of another length", "q(s): Strap(s)/" + "l(s): Strap(s)/" * 4 + "/l(): Strap(s)/", refused(6, 11, 7)),
    ("five lists, the last with a constant too large", "q(s): Strap(s)/" + "l(s): Strap(s)/" * 4 + "l(10000000): Strap(s)/", refused(5, 11, 6)),
    ("seven atoms in the fourth list", "q(s): Strap(s)/" + "l(s): Strap(s)/" * 3 + "l(s): " + ", ".join(["Strap(s)"] * 7) + "/", refused(6, 16, 5)),
    ("row's length", QL + "v(s): Strap(s) = (7,1)/", refused(7, 7, 3)),
    ("head variable", "q(s): Strap(t)/l(s): Strap(s)/", refused(8, 1, 1)),
    ("head variable of a second list", QL + "l(t): Strap(s)/", refused(8, 5, 3)),
    ("head variable of a view", QL + "v(t): Strap(s) =/", refused(8, 5, 3)),
    ("order", QL + "v(s): Strap(s) = 8; 7/", refused(9, 8, 3)),
    "# sheets",
    ("sheet", SHEET, "not covered: (7,1) is missing. Log: Sig(7,1), Sig(7,2)"),
    ("empty sheet", "", refused(3)),
    ("no sheet", "      1x/", refused(2, 1)),
    ("relation 11", lines((1, -1), (4, 11, -1)), refused(4, 2)),
    ("sheet with two lists", lines((1, -1), (4, 1, -1, -2), (2, -1), (4, 1, -1, 1), (2, -1), (4, 1, -1, 2), (3, -1, -2), (4, 1, -1, -2), (5, 10, 1), (5, 11, 3)),
     "not covered: (11) is missing. Log: Rower(10,1), Rower(11,3)"),
    ("sheet with five lists", lines((1,), (4, 2, 1), *[(2,), (4, 2, 1)] * 5), refused(6, 11)),
    ("sheet with a list after a view", lines((1,), (4, 2, 1), (2,), (4, 2, 1), (3,), (4, 2, 1), (2,), (4, 2, 1)), refused(3, 7)),
    ("sheet's order", lines((1, -1), (4, 2, -1), (2, -1), (4, 2, -1), (3, -1), (4, 2, -1), (5, 8), (5, 8)), refused(9, 8)),
]


def stored():
    given, said = [], []
    for case in CASES:
        if isinstance(case, str):
            given.append(case)
            said.append(case)
            continue
        name, text, words = case[:3]
        given.append(f"text {name}|{text}")
        said.append(f"{name}|{words}")
        if len(case) == 4:
            said.append(case[3].rstrip("/").replace("/", "\n"))
            said.append("=")
    return "".join(l + "\n" for l in given), "".join(l + "\n" for l in said)


# ---- a reader of texts, line by line from the description: the blocks of a text, or the line and what was expected there

COUNTED = {1: "one column", 2: "two columns", 3: "three columns", 4: "four columns"}
MOST_TEXT, MOST_COLUMNS, MOST_NAMES = 65536, 4, 12
LARGEST = 99_999_999


class NotUnderstood(Exception):
    """The line, and what was expected there."""


class LineReader:
    """The tokens of one line. None stands for its end."""

    def __init__(self, number, tokens):
        self.number, self.tokens, self.names = number, tokens, []

    def fail(self, what):
        raise NotUnderstood(expected(self.number, what))

    def next(self):
        return self.tokens.pop(0) if self.tokens else None

    def has(self, *wanted):
        return (self.tokens[0] if self.tokens else None) in wanted

    def term(self, what):
        token = self.next()
        if token and token.isdigit():
            return min(int(token), LARGEST)
        if token and "a" <= token[0] <= "z":
            if token not in self.names and len(self.names) < MOST_NAMES:
                self.names.append(token)
            return -1 - (self.names.index(token) if token in self.names else MOST_NAMES)
        self.fail(what)

    def more(self, terms, most, too_many):
        """The terms behind the first, each after a comma."""
        while self.has(","):
            self.next()
            if len(terms) == most:
                self.fail(too_many)
            terms.append(self.term("a variable or a number"))
        return terms

    def closed(self, terms):
        if self.next() != ")":
            self.fail(", or )")
        return terms

    def free(self):
        """What stands in a head's or a row's brackets, behind the first."""
        if self.has(")"):
            self.next()
            return []
        return self.closed(self.more([self.term("a variable, a number or )")], MOST_COLUMNS, "at most four columns"))

    def atom(self):
        token = self.next() or ""
        far = re.fullmatch("R([0-9]+)", token)
        if token in NAMES:
            relation = NAMES.index(token) + 1
            most = COLUMNS[relation - 1]
            wrong = f"{COUNTED[most]} in {token}"
        elif far and len(NAMES) < int(far[1]) <= LARGEST:
            relation, most, wrong = int(far[1]), MOST_COLUMNS, "at most four columns"
        else:
            self.fail(RELATIONS)
        if self.next() != "(":
            self.fail("(")
        terms = self.closed(self.more([self.term("a variable or a number")], most, wrong))
        if token in NAMES and len(terms) < most:
            self.fail(wrong)
        return relation, terms

    def row(self, what):
        if self.has("("):
            self.next()
            row, after = self.free(), "; or the end of the line"
        elif self.tokens and self.tokens[0].isdigit():
            row, after = self.more([self.term(what)], MOST_COLUMNS, "at most four columns"), ", or ; or the end of the line"
        else:
            self.fail(what)
        if not self.has(";", None):
            self.fail(after)
        return row

    def block(self, kind):
        if self.next() != "(":
            self.fail("(")
        head = self.free()
        if self.next() != ":":
            self.fail(":")
        atoms, rows = [self.atom()], []
        while self.has(","):
            self.next()
            atoms.append(self.atom())
        if kind < 3:
            if self.next():
                self.fail(", or the end of the line")
        elif self.next() != "=":
            self.fail(", or = and the rows")
        elif not self.has(None):
            rows.append(self.row("a row or the end of the line"))
            while self.next():
                rows.append(self.row("a row"))
        return kind, head, atoms, rows


def read_text(data):
    """The blocks of a text, each with its line."""
    if len(data) > MOST_TEXT:
        raise NotUnderstood(expected(1, f"at most {MOST_TEXT} bytes"))
    blocks = []
    for number, line in enumerate(data.decode("latin-1").split("\n"), 1):
        tokens = re.findall("[A-Za-z][A-Za-z0-9]*|[0-9]+|[^ \t\r]", line)
        if not tokens or tokens[0] == "#":
            continue
        reader = LineReader(number, tokens)
        letter, last = reader.next(), blocks[-1][1][0] if blocks else 0
        kind = [1, 2, 2 if letter == "l" else 3, 3][last]
        if letter != "qlv"[kind - 1]:
            reader.fail(["q, the question", LIST, VIEW][kind - 1])
        blocks.append((number, reader.block(kind)))
    return blocks


def line_of_text(blocks, line):
    """The line of the text in which a line of the number form begins; 0 for none."""
    begun = [number for number, (_, _, atoms, rows) in blocks for _ in range(1 + len(atoms) + len(rows))]
    return begun[line - 1] if line else 0


def agrees(name, text, words, back):
    """Whether the reader finds in a text what the stored case says of it."""
    try:
        blocks = read_text(text.replace("/", "\n").encode("latin-1"))
    except NotUnderstood as why:
        assert str(why) == words, (name, why, words)
        return
    assert not words.startswith("line "), (name, words)
    cause = re.match(r"refused: cause (\d+)(?: at line (\d+) of the sheet, line (\d+) of the text)?:", words)
    if cause and cause[2]:
        assert line_of_text(blocks, int(cause[2])) == int(cause[3]), (name, words)
    if back:
        assert text_of([b for _, b in blocks], "abcdefghijkl").decode() == back.replace("/", "\n"), (name, back)


def agree():
    for case in CASES:
        if not isinstance(case, str) and re.match(r"[ \t\r]*[A-Za-z#/]", case[1]):
            agrees(case[0], case[1], case[2], case[3] if len(case) == 4 else None)


# Texts whose logs need values that are made up, and what is said of them, whichever values those are: the groups are values, and the same
# value where the same group stands.
FREE_VALUES = [
    ("q(s): Sig(s,t)/l(7): Sig(7,t)/v(s): Sig(s,t) = 7; 8/", r"not covered: \(8\) is missing\. Log: Sig\(7,(\d+)\), Sig\(8,(\d+)\)"),
    ("q(s,t): Sig(s,t), Beat(s,t)/l(s,t): Noise(s,t)/", r"not covered: \((\d+),(\d+)\) is missing\. Log: Sig\(\1,\2\), Beat\(\1,\2\)"),
    ("q(r): Seat(r,4,b,b)/l(r): Seat(r,s,b,1), Pause(s)/v(): Pause(s) = ()/",
     r"not covered: \((\d+)\) is missing\. Log: Seat\(\1,4,(\d+),\2\), Pause\((\d+)\)"),
    ("q(s): Sig(s,t)/l(9999998): Sig(9999998,t)/v(s): Sig(s,t) = 9999998; 9999999/",
     r"not covered: \(9999999\) is missing\. Log: Sig\(9999998,(\d+)\), Sig\(9999999,(\d+)\)"),
]
LEAST_MADE_UP, MOST_MADE_UP = 10_000_000, 10_000_999

NAMES = ["Rower", "Strap", "Worn", "Sig", "Beat", "Noise", "Pulse", "Coach", "Seat", "Pause"]
COLUMNS = [2, 1, 3, 2, 2, 2, 3, 2, 4, 1]
VERDICTS = ("covered", "no log gives these rows", "not covered: ", "refused: ", "line ")


def ran(name, data):
    r = subprocess.run([program(name)], input=data, capture_output=True, check=True)
    return r.stdout, r.stderr


def made_block(rng, kind, columns, constants):
    """A block whose head's variables are in its atoms; a term is a constant, or a variable's number below 0."""
    atoms = []
    for _ in range(rng.randint(1, 2)):
        r = rng.randint(1, 10)
        atoms.append((r, [rng.choice([-1, -2, -3, *constants[:2]]) for _ in range(COLUMNS[r - 1])]))
    terms = [t for _, ts in atoms for t in ts]
    head = [rng.choice(terms) for _ in range(columns)]
    numbers = {}
    for t in head + terms:
        if t < 0:
            numbers.setdefault(t, -1 - len(numbers))
    number = lambda ts: [numbers.get(t, t) for t in ts]
    rows = set()
    if kind == 3:
        for _ in range(rng.randint(0, 3)):
            rows.add(tuple(rng.choice(constants) for _ in range(columns)))
    return kind, number(head), [(r, number(ts)) for r, ts in atoms], sorted(rows)


def made_sheet(rng):
    """A sheet; of three, one has no constant but of seven digits."""
    constants = rng.choice([(7, 8, 9, 0, 9999999), (7, 8, 9, 0, 999999), (9999998, 1000000, 9999999, 1234567)])
    columns = rng.randint(0, 4)
    kinds = [1] + [2] * rng.choice([1, 1, 2, 3, 4]) + [3] * rng.randint(0, 3)
    return [made_block(rng, k, columns if k < 3 else rng.randint(0, 4), constants) for k in kinds]


def bytes_of(sheet):
    out = []
    for kind, head, atoms, rows in sheet:
        out.append((kind, *head))
        out.extend((4, r, *ts) for r, ts in atoms)
        out.extend((5, *row) for row in rows)
    return lines(*out).replace("/", "\n").encode()


def text_of(sheet, letters, blank=lambda: "", bare=lambda row: len(row) == 1):
    """The text of a sheet, with a name for each variable; the blanks and the brackets of rows may differ."""
    out = []
    for kind, head, atoms, rows in sheet:
        term = lambda t: letters[-1 - t] if t < 0 else str(t)
        closed = lambda ts: "(" + blank() + ",".join(blank() + term(t) for t in ts) + blank() + ")"
        line = "qlv"[kind - 1] + blank() + closed(head) + ": "
        line += ", ".join(NAMES[r - 1] + blank() + closed(ts) for r, ts in atoms)
        if kind == 3:
            shown = [",".join(map(str, row)) if row and bare(row) else closed(row) for row in rows]
            line += " =" + "".join(" " + row + ";" for row in shown)[:-1]
        out.append(line + blank())
    return "".join(l + "\n" for l in out).encode()


def words_of(fields):
    """The words for what the program `cover` prints."""
    rows = [[int(l[at : at + 8]) for at in range(0, len(l), 8)] for l in fields.decode().splitlines()]
    if rows[0][0] == 9:
        return refused(*rows[0][1:])
    if rows[0][0] != 1:
        return {0: "covered", 2: "no log gives these rows"}[rows[0][0]]
    show = lambda ts: "(" + ",".join(map(str, ts)) + ")"
    facts = ", ".join(NAMES[r[1] - 1] + show(r[2:]) for r in rows[2:])
    return f"not covered: {show(rows[1][1:])} is missing. Log: {facts}"


def damaged(rng, text):
    text = bytearray(text)
    for _ in range(rng.randint(1, 3)):
        at = rng.randrange(len(text))
        text[at : at + rng.randint(0, 2)] = rng.choice([b"", b"(", b")", b",", b";", b"=", b":", b"7", b"s", b"Sig", b"\n", b"#", b"\0", b"\xff"])
    return bytes(text)


def is_fields(line):
    return len(line) % 8 == 0 and all("%8d" % int(line[at : at + 8]) == line[at : at + 8] for at in range(0, len(line), 8))


def free_values():
    """The texts whose logs need made-up values: what is said fits, each value stands in the text or is one that may be made up, and `cover`
    prints the same in fields of eight bytes, which made-up values fill."""
    for text, form in FREE_VALUES:
        said = ran("cover_text", text.replace("/", "\n").encode())[0].decode()
        fields = ran("cover", ran("sheet_of_text", text.replace("/", "\n").encode())[0])[0]
        assert all(is_fields(line) for line in fields.decode().splitlines()), fields
        assert words_of(fields) + "\n" == said and str(LEAST_MADE_UP)[:5] in fields.decode(), (fields, said)
        fits = re.fullmatch(form + r"\n", said)
        assert fits, (text, said)
        allowed = {int(number) for number in re.findall(r"\d+", text)}
        assert all(int(v) in allowed or LEAST_MADE_UP <= int(v) <= MOST_MADE_UP for v in fits.groups()), (text, said)


def run():
    free_values()
    rng = random.Random(7)
    seen = {}
    for n in range(300):
        sheet = made_sheet(rng)
        data = bytes_of(sheet)
        plain = text_of(sheet, "abcdefghijkl")
        other = text_of(sheet, ["s", "t1", "crew"], lambda: rng.choice(["", " ", "\t"]), lambda row: rng.random() < 0.5)
        for text in (plain, other):
            assert ran("sheet_of_text", text) == (data, b""), (text, data)
        assert ran("text_of_sheet", data) == (plain, b""), (data, plain)
        words = words_of(ran("cover", data)[0]) + "\n"
        for given in (data, other):
            assert ran("cover_text", given)[0].decode() == words, (given, words)
        bad = damaged(rng, other)
        said = ran("cover_text", bad)[0].decode()
        assert said.startswith(VERDICTS) and said.endswith("\n"), (bad, said)
        made, why = ran("sheet_of_text", bad)
        assert (why == b"") == (ran("cover", made)[0][:8] != b"       9"), (bad, made, why)
        try:
            blocks = [b for _, b in read_text(bad)]
            assert made == bytes_of(blocks) if made else why.startswith(b"refused: "), (bad, made, why)
        except NotUnderstood as what:
            assert (made, why.decode()) == (b"", f"{what}\n"), (bad, made, why, what)
        for s in (words, said):
            seen[next(v for v in VERDICTS if s.startswith(v))] = seen.get(next(v for v in VERDICTS if s.startswith(v)), 0) + 1
    # the longest sheet: every limit met, and every term seven digits long
    four = [9999999] * 4
    views = [(3, four, [(9, four)] * 3, [(9999999, 9999999, 9999999, 9999950 + 5 * v + n) for n in range(5)]) for v in range(8)]
    longest = [(1, four, [(9, four)] * 6, [])] + [(2, four, [(9, four)] * 6, [])] * 4 + views
    data, plain = bytes_of(longest), text_of(longest, "")
    assert ran("text_of_sheet", data) == (plain, b"") and ran("sheet_of_text", plain) == (data, b"")
    long = b"#" * 65537
    assert ran("cover_text", long)[0] == b"line 1: expected at most 65536 bytes\n"
    assert ran("cover_text", long[:65536])[0].startswith(b"refused: cause 3:")
    print(f"the longest text has {len(plain)} bytes")
    print(f"{len(FREE_VALUES)} texts whose logs need made-up values")
    print("300 sheets and 300 damaged texts:", ", ".join(f"{v.strip()} {k}" for v, k in sorted(seen.items())))


def main():
    agree()
    given, said = (text.encode() for text in stored())
    if sys.argv[1:] == ["--check"]:
        stored_parts.store("text", given, said, True)
        print(f"{sum(not isinstance(c, str) for c in CASES)} cases, as stored")
    elif sys.argv[1:] == ["--run"]:
        run()
    elif not sys.argv[1:]:
        stored_parts.store("text", given, said, False)
    else:
        sys.exit(__doc__)


main()
