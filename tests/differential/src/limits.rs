//! Every limit met and exceeded by one, of sheets and of tables, and what tables ask of logs. What has to come back is written here by
//! hand, and both the library and this implementation are held to it.

use crate::compare;
use crate::large;
use crate::library::{self, Given, Lent};
use crate::meaning;
use crate::random::Random;
use crate::sheet;
use crate::table::{by_table, Table};

type Lines = Vec<Vec<i64>>;

/// A refusal's number and line, or 0 and 0.
type Told = (usize, usize);

fn repeated(line: &[i64], times: usize) -> Lines {
    vec![line.to_vec(); times]
}

/// Rows of one column, from 1 on.
fn rows(from: i64, times: usize) -> Lines {
    (from..from + times as i64).map(|n| vec![5, n]).collect()
}

/// A question and a list of these atoms, and what follows.
fn sheet_of(question: usize, list: usize, rest: Lines) -> Lines {
    let atom = [4, 2, -1];
    [vec![vec![1]], repeated(&atom, question), vec![vec![2]], repeated(&atom, list), rest].concat()
}

fn views(times: usize) -> Lines {
    vec![vec![vec![3, -1], vec![4, 10, -1]]; times].concat()
}

/// A question over one atom, with this head and these terms.
fn asking(head: &[i64], atom: &[i64]) -> Lines {
    let list: Vec<i64> = std::iter::once(2).chain(head[1..].iter().map(|t| if *t < 0 { 7 } else { *t })).collect();
    vec![head.to_vec(), atom.to_vec(), list, vec![4, 2, -1]]
}

/// As many lines as a sheet may have.
fn full() -> Lines {
    let seat = [4, 9, 1, 1, 1, 1];
    let list = [vec![vec![2, 1, 2, 3, 4]], repeated(&seat, 6)].concat();
    let mut lines = [vec![vec![1, 1, 2, 3, 4]], repeated(&seat, 6), vec![list; 4].concat()].concat();
    lines.extend([vec![vec![3, -1, -2, -3, -4]], repeated(&[4, 9, -1, -2, -3, -4], 3)].concat());
    lines.extend((1..=40).map(|n| vec![5, n, 1, 1, 1]));
    for n in 1..8 {
        lines.extend([vec![vec![3, -1]], repeated(&[4, 5, -1, n], 3)].concat());
    }
    lines
}

/// A limit of sheets: its name, a sheet that meets it and one beyond, and what comes back of each.
fn sheets() -> Vec<(&'static str, Lines, Told, Lines, Told)> {
    let view = |atoms: usize| [vec![vec![3, -1]], repeated(&[4, 10, -1], atoms)].concat();
    let listed = |count: usize| sheet_of(1, 1, [view(1), rows(1, count)].concat());
    let spread = |count: usize| sheet_of(1, 1, [view(1), rows(1, 20), view(1), rows(5, count - 20)].concat());
    let row = |value: i64| sheet_of(1, 1, [view(1), vec![vec![5, value]]].concat());
    let two = |second: i64| sheet_of(1, 1, [view(1), vec![vec![5, 7], vec![5, second]]].concat());
    let lists = |times: usize| vec![vec![vec![2], vec![4, 2, -1]]; times].concat();
    let seat = |times: usize| repeated(&[4, 9, 1, 1, 1, 1], times);
    let in_atom = |term: i64| asking(&[1], &[4, 2, term]);
    let ok = (0, 0);
    vec![
        ("atoms of the question", sheet_of(6, 1, vec![]), ok, sheet_of(7, 1, vec![]), (6, 8)),
        ("atoms of the list", sheet_of(1, 6, vec![]), ok, sheet_of(1, 7, vec![]), (6, 10)),
        ("atoms of a view", sheet_of(1, 1, view(3)), ok, sheet_of(1, 1, view(4)), (6, 9)),
        ("an atom at least, question", sheet_of(1, 1, vec![]), ok, sheet_of(0, 1, vec![]), (8, 1)),
        ("an atom at least, list", sheet_of(1, 1, vec![]), ok, sheet_of(1, 0, vec![]), (8, 3)),
        ("an atom at least, view", sheet_of(1, 1, view(1)), ok, sheet_of(1, 1, view(0)), (8, 5)),
        ("an atom before a row", row(7), ok, sheet_of(1, 1, vec![vec![3, 7], vec![5, 7]]), (3, 6)),
        ("views", sheet_of(1, 1, views(8)), ok, sheet_of(1, 1, views(9)), (6, 21)),
        ("rows of one view", listed(40), ok, listed(41), (6, 47)),
        ("rows of two views", spread(40), ok, spread(41), (6, 49)),
        ("lines", full(), ok, [full(), vec![vec![4, 5, -1, 7]]].concat(), (6, 108)),
        ("columns of the question's head", asking(&[1, 7, 7, 7, 7], &[4, 2, -1]), ok, asking(&[1, 7, 7, 7, 7, 7], &[4, 2, -1]), (3, 1)),
        (
            "columns of the list's head",
            asking(&[1, 7, 7, 7, 7], &[4, 2, -1]),
            ok,
            vec![vec![1, 7, 7, 7, 7], vec![4, 2, -1], vec![2, 7, 7, 7, 7, 7], vec![4, 2, -1]],
            (3, 3),
        ),
        (
            "the list's head as long as the question's",
            asking(&[1, 7], &[4, 2, -1]),
            ok,
            vec![vec![1, 7], vec![4, 2, -1], vec![2, 7, 7]],
            (7, 3),
        ),
        (
            "columns of a view's head",
            sheet_of(1, 1, vec![vec![3, 7, 7, 7, 7], vec![4, 2, -1]]),
            ok,
            sheet_of(1, 1, vec![vec![3, 7, 7, 7, 7, 7], vec![4, 2, -1]]),
            (3, 5),
        ),
        ("columns of a row", row(7), ok, sheet_of(1, 1, [view(1), vec![vec![5, 7, 7]]].concat()), (7, 7)),
        (
            "fields of a row",
            sheet_of(1, 1, vec![vec![3, 7, 7, 7, 7], vec![4, 2, -1], vec![5, 7, 7, 7, 7]]),
            ok,
            sheet_of(1, 1, vec![vec![3, 7, 7, 7, 7], vec![4, 2, -1], vec![5, 7, 7, 7, 7, 7]]),
            (3, 7),
        ),
        ("fields of a line", asking(&[1], &[4, 9, -1, -1, -1, -1]), ok, asking(&[1], &[4, 9, -1, -1, -1, -1, -1]), (2, 2)),
        ("fields of an atom", in_atom(-1), ok, asking(&[1], &[4, 2]), (3, 2)),
        ("columns of a relation", in_atom(-1), ok, asking(&[1], &[4, 2, -1, -1]), (4, 2)),
        ("the last relation", asking(&[1], &[4, 10, -1]), ok, asking(&[1], &[4, 11, -1]), (4, 2)),
        ("the first relation", asking(&[1], &[4, 1, -1, -1]), ok, asking(&[1], &[4, 0, -1, -1]), (4, 2)),
        ("the last kind", row(7), ok, sheet_of(1, 1, [view(1), vec![vec![6, 7]]].concat()), (3, 7)),
        ("the first kind", sheet_of(1, 1, vec![]), ok, [vec![vec![0]], sheet_of(1, 1, vec![])].concat(), (3, 1)),
        ("the greatest constant in a head", asking(&[1, 9_999_999], &[4, 2, -1]), ok, asking(&[1, 10_000_000], &[4, 2, -1]), (5, 1)),
        ("the greatest constant in an atom", in_atom(9_999_999), ok, in_atom(10_000_000), (5, 2)),
        ("the greatest constant in a row", row(9_999_999), ok, row(10_000_000), (5, 7)),
        ("the least constant in a row", row(0), ok, row(-1), (5, 7)),
        ("the last variable in an atom", in_atom(-12), ok, in_atom(-13), (5, 2)),
        ("the last variable in a head", asking(&[1, -12], &[4, 2, -12]), ok, asking(&[1, -13], &[4, 2, -12]), (5, 1)),
        ("a head's variable in an atom", asking(&[1, -2], &[4, 1, -1, -2]), ok, asking(&[1, -3], &[4, 1, -1, -2]), (8, 1)),
        ("the widest number", in_atom(99_999_999), (5, 2), in_atom(100_000_000), (2, 2)),
        ("the widest negative number", in_atom(-9_999_999), (5, 2), in_atom(-10_000_000), (2, 2)),
        ("a row above the one before", two(8), ok, two(7), (9, 8)),
        ("question and list", sheet_of(1, 1, vec![]), ok, vec![vec![1], vec![4, 2, -1]], (3, 0)),
        ("lists", sheet_of(1, 1, lists(3)), ok, sheet_of(1, 1, lists(4)), (6, 11)),
        (
            "lists, the fifth with a term out of range",
            sheet_of(1, 1, lists(3)),
            ok,
            sheet_of(1, 1, [lists(3), vec![vec![2, -13]]].concat()),
            (5, 11),
        ),
        (
            "lists, the fifth of another length",
            sheet_of(1, 1, lists(3)),
            ok,
            sheet_of(1, 1, [lists(3), vec![vec![2, 7]]].concat()),
            (6, 11),
        ),
        ("lists before views", sheet_of(1, 1, [lists(2), views(1)].concat()), ok, sheet_of(1, 1, [views(1), lists(1)].concat()), (3, 7)),
        (
            "atoms of the fourth list",
            sheet_of(1, 1, [lists(3), seat(5)].concat()),
            ok,
            sheet_of(1, 1, [lists(3), seat(6)].concat()),
            (6, 16),
        ),
        ("an atom at least, fourth list", sheet_of(1, 1, lists(3)), ok, sheet_of(1, 1, [lists(2), vec![vec![2]]].concat()), (8, 9)),
        (
            "the third list's head as long as the question's",
            sheet_of(1, 1, lists(2)),
            ok,
            sheet_of(1, 1, [lists(1), vec![vec![2, 7]]].concat()),
            (7, 7),
        ),
        ("once a question", sheet_of(1, 1, vec![]), ok, sheet_of(1, 1, vec![vec![1]]), (3, 5)),
    ]
}

/// A check that failed, told by its name.
fn hold(name: &str, side: &str, call: &str, expected: Told, library: Told, here: Told, failed: &mut Vec<String>) {
    if library != expected || here != expected {
        failed.push(format!("{name}, {side}, {call}: expected {expected:?}, library {library:?}, here {here:?}"));
    }
}

fn told<T>(taken: sheet::Taken<T>) -> Told {
    taken.map_or_else(|r| (r.number, r.line), |_| (0, 0))
}

fn ended(e: library::Ended) -> Told {
    (e.number, e.line)
}

struct Lender(Random);

impl Lender {
    fn words(&mut self, length: usize) -> Lent<i32> {
        Lent::new(length, &mut self.0, |n| n as i32)
    }

    fn bytes(&mut self, length: usize) -> Lent<u8> {
        Lent::new(length, &mut self.0, |n| n as u8)
    }
}

/// The table that is passed, and what is asked of a sheet: what comes back of each call.
struct Calls<'a> {
    table: Given<'a>,
    name: &'a str,
    side: &'a str,
}

impl Calls<'_> {
    /// The table's bytes, or those of the own one where none is passed.
    fn bytes(&self) -> Vec<u8> {
        self.table.map_or(Table::own().bytes(), |table| table.to_vec())
    }

    /// Holds reading, writing, evaluating and judging a sheet to what is expected of its bytes, and of its words.
    fn hold(&self, bytes: &[u8], words: &[i32], expected: Told, expected_words: Told, lender: &mut Lender, failed: &mut Vec<String>) {
        let (own, name, side) = (&self.bytes(), self.name, self.side);
        let read = library::read(self.table, bytes, &mut lender.words(749));
        hold(name, side, "read", expected, ended(read), told(by_table(own, |t| sheet::read(t, bytes, 749))), failed);
        let write = library::write(self.table, words, &mut lender.bytes(5243));
        hold(name, side, "write", expected_words, ended(write), told(by_table(own, |t| sheet::write(t, words, 5243))), failed);
        let evaluate = library::evaluate(self.table, bytes, 1, &[], &mut lender.words(0));
        let here = told(by_table(own, |t| meaning::evaluate(t, bytes, 1, &[], 0)));
        hold(name, side, "evaluate", expected, ended(evaluate), here, failed);
        let judge = library::judge(self.table, bytes, &mut lender.words(1_260));
        hold(name, side, "judge", expected, (judge.number, judge.line), told(by_table(own, |t| sheet::of_bytes(t, bytes))), failed);
    }
}

/// A table of relations by their columns, keys and parents.
fn table_of(relations: &[[i64; 3]]) -> Lines {
    relations.iter().enumerate().map(|(at, relation)| [&[at as i64 + 1], &relation[..]].concat()).collect()
}

/// So many relations of one column.
fn plain_table(count: usize) -> Lines {
    table_of(&vec![[1, 0, 0]; count])
}

/// Tables, and the line that each is sent back with; nothing where it is taken.
fn tables() -> Vec<(&'static str, Vec<u8>, Option<usize>)> {
    let own = Table::own().lines();
    let with = |line: usize, fields: &[i64]| {
        let mut lines = own.clone();
        lines[line - 1] = fields.to_vec();
        lines
    };
    let right = |name, lines: Lines| (name, sheet::bytes_of(&lines), None);
    let wrong = |name, lines: Lines, line| (name, sheet::bytes_of(&lines), Some(line));
    let raw = |name, bytes: &[u8], line| (name, bytes.to_vec(), Some(line));
    let own_bytes = sheet::bytes_of(&own);
    let written = |from: usize, field: &str| {
        let mut bytes = own_bytes.clone();
        bytes[from..from + 8].copy_from_slice(field.as_bytes());
        bytes
    };
    vec![
        right("the own ten", own.clone()),
        raw("no line", b"", 0),
        right("one relation", plain_table(1)),
        right("32 relations", plain_table(32)),
        wrong("33 relations", plain_table(33), 33),
        wrong("34 relations", plain_table(34), 33),
        wrong("33 relations, the fifth wrong", [plain_table(4), vec![vec![5, 0, 0, 0]], plain_table(33)[5..].to_vec()].concat(), 5),
        raw("a 33rd line that is malformed", &[sheet::bytes_of(&plain_table(32)), vec![10]].concat(), 33),
        raw("a 33rd line that is not closed", &[sheet::bytes_of(&plain_table(32)), vec![32]].concat(), 33),
        wrong("relations from 0", with(1, &[0, 2, 0, 0]), 1),
        wrong("relations from 2", own[1..].to_vec(), 1),
        wrong("a number twice", with(4, &[3, 2, 0, 0]), 4),
        wrong("a number left out", with(4, &[5, 2, 0, 0]), 4),
        right("the fewest columns", with(10, &[10, 1, 0, 0])),
        wrong("no columns", with(10, &[10, 0, 0, 0]), 10),
        wrong("fewer than no columns", with(10, &[10, -1, 0, 0]), 10),
        right("the most columns", with(10, &[10, 4, 0, 0])),
        wrong("a column too many", with(10, &[10, 5, 0, 0]), 10),
        right("the longest key", with(10, &[10, 4, 3, 0])),
        wrong("a key of all columns", with(10, &[10, 4, 4, 0]), 10),
        wrong("a key of the only column", with(10, &[10, 1, 1, 0]), 10),
        right("the longest key of two columns", with(10, &[10, 2, 1, 0])),
        wrong("a key of both columns", with(10, &[10, 2, 2, 0]), 10),
        wrong("a key of fewer than no columns", with(10, &[10, 2, -1, 0]), 10),
        right("a parent with a key", with(10, &[10, 3, 0, 7])),
        right("a parent with a key, and a key", with(10, &[10, 3, 1, 7])),
        right("the first as parent", with(10, &[10, 2, 0, 1])),
        right("the one before as parent", with(9, &[9, 2, 1, 8])),
        wrong("itself as parent", with(10, &[10, 1, 0, 10]), 10),
        wrong("the first as its own parent", with(1, &[1, 2, 0, 1]), 1),
        wrong("the next as parent", with(4, &[4, 2, 0, 8]), 4),
        wrong("a parent that is not there", with(10, &[10, 1, 0, 11]), 10),
        wrong("a parent below the first", with(10, &[10, 1, 0, -2]), 10),
        wrong("a parent of fewer columns", with(10, &[10, 3, 0, 4]), 10),
        wrong("a parent of more columns", with(10, &[10, 1, 0, 4]), 10),
        wrong("a parent with a parent", with(10, &[10, 2, 0, 5]), 10),
        wrong("a relation that is owed rows gets a parent", with(4, &[4, 2, 0, 1]), 5),
        wrong("three fields", with(2, &[2, 1, 0]), 2),
        wrong("five fields", with(2, &[2, 1, 0, 0, 0]), 2),
        wrong("six fields", with(2, &[2, 1, 0, 0, 0, 0]), 2),
        wrong("an empty line", with(2, &[]), 2),
        raw("an empty line at the end", &[&own_bytes[..], &[10]].concat(), 11),
        raw("a byte at the end", &[&own_bytes[..], &[32]].concat(), 11),
        raw("the last line not closed", &own_bytes[..329], 10),
        raw("the last line cut", &own_bytes[..328], 10),
        raw("a key of -0", &written(16, "      -0"), 1),
        raw("a number of 01", &written(0, "      01"), 1),
        raw("columns of +2", &written(8, "      +2"), 1),
        raw("a parent of blanks", &written(24, "        "), 1),
        wrong("two lines wrong", [with(4, &[4, 5, 0, 0])[..9].to_vec(), vec![vec![10, 1, 1, 0]]].concat(), 4),
    ]
}

/// Sheets and facts by tables: a table, an atom of the question, a fact, and whether each is taken.
fn by_tables() -> Vec<(&'static str, Lines, Vec<i64>, bool, [i32; 5], bool)> {
    let last = [plain_table(31), vec![vec![32, 4, 3, 0]]].concat();
    let two = table_of(&[[2, 1, 0]]);
    vec![
        ("the 32nd relation", last.clone(), vec![4, 32, -1, -1, -1, -1], true, [32, 1, 2, 3, 4], true),
        ("a 33rd relation", last.clone(), vec![4, 33, -1], false, [33, 1, 0, 0, 0], false),
        ("a column too few", last.clone(), vec![4, 32, -1, -1, -1], false, [31, 1, 0, 0, 0], true),
        ("one column where the own ten have two", last.clone(), vec![4, 1, -1], true, [1, 7, 0, 0, 0], true),
        ("two columns as the own ten have", last.clone(), vec![4, 1, -1, -1], false, [1, 7, 1, 0, 0], false),
        ("a relation past the tenth", last, vec![4, 11, -1], true, [11, 7, 0, 0, 0], true),
        ("the only relation", two.clone(), vec![4, 1, -1, -2], true, [1, 7, 1, 0, 0], true),
        ("a relation that the own ten have", two.clone(), vec![4, 2, -1], false, [2, 7, 0, 0, 0], false),
        ("no relation", two, vec![4, 0, -1], false, [0, 0, 0, 0, 0], false),
    ]
}

/// Verdicts by tables: the table, the sheet, its verdict, and how many facts a case has.
fn judged() -> Vec<(&'static str, Lines, Lines, usize, usize)> {
    // A view of all of a relation of two columns, with rows.
    let pairs = |relation: i64, rows: &[[i64; 2]]| {
        let rows = rows.iter().map(|row| vec![5, row[0], row[1]]).collect::<Lines>();
        [vec![vec![3, -1, -2], vec![4, relation, -1, -2]], rows].concat()
    };
    let fours = |relation: i64, rows: &[[i64; 4]]| {
        let rows = rows.iter().map(|row| [&[5], &row[..]].concat()).collect::<Lines>();
        [vec![vec![3, -1, -2, -3, -4], vec![4, relation, -1, -2, -3, -4]], rows].concat()
    };
    // Whether there is a row of the first relation, covered by itself: 0 wherever a log agrees.
    let any = || vec![vec![1], vec![4, 1, -1, -2], vec![2], vec![4, 1, -1, -2]];
    // What the first has beside 7, and the second as the list.
    let beside = || vec![vec![1, -1], vec![4, 1, 7, -1], vec![2, -1], vec![4, 2, 7, -1]];
    let whole = || vec![vec![1, -1, -2], vec![4, 1, -1, -2], vec![2, -1, -2], vec![4, 2, -1, -2]];
    let keyed = table_of(&[[2, 1, 0], [2, 0, 1]]);
    let owing = table_of(&[[2, 0, 0], [2, 0, 1]]);
    let alone = table_of(&[[2, 1, 0], [2, 0, 0]]);
    let three = table_of(&[[2, 1, 0], [2, 0, 1], [2, 0, 1]]);
    let four = table_of(&[[4, 0, 0], [4, 3, 1]]);
    let last = [plain_table(31), vec![vec![32, 1, 0, 31]]].concat();
    let ones = |one: i64, other: i64| vec![vec![1, -1], vec![4, one, -1], vec![2, -1], vec![4, other, -1]];
    let four_any = || vec![vec![1], vec![4, 1, -1, -2, -3, -4], vec![2], vec![4, 1, -1, -2, -3, -4]];
    let four_last = || vec![vec![1, -1], vec![4, 1, 1, 2, 3, -1], vec![2, -1], vec![4, 2, 1, 2, 3, -1]];
    vec![
        ("rows that are owed break the parent's key", keyed.clone(), [any(), pairs(2, &[[7, 1], [7, 2]])].concat(), 2, 0),
        ("rows that are owed obey the parent's key", keyed.clone(), [any(), pairs(2, &[[7, 1], [8, 1]])].concat(), 0, 0),
        ("the same rows without the parent's key", owing.clone(), [any(), pairs(2, &[[7, 1], [7, 2]])].concat(), 0, 0),
        ("the same rows without the parent", alone.clone(), [any(), pairs(2, &[[7, 1], [7, 2]])].concat(), 0, 0),
        ("the parent's row is settled by the one that is owed", keyed.clone(), [beside(), pairs(2, &[[7, 1]])].concat(), 0, 0),
        ("no key to settle it", owing.clone(), [beside(), pairs(2, &[[7, 1]])].concat(), 1, 3),
        ("no row that is owed to settle it", alone.clone(), [beside(), pairs(2, &[[7, 1]])].concat(), 1, 2),
        ("a row of the parent beside two that are owed", keyed.clone(), [whole(), pairs(2, &[[7, 1], [8, 2]])].concat(), 1, 5),
        ("the parent without the row", owing.clone(), [any(), pairs(2, &[[7, 1]]), pairs(1, &[])].concat(), 2, 0),
        ("no parent to have the row", alone, [any(), pairs(2, &[[7, 1]]), pairs(1, &[])].concat(), 0, 0),
        ("a row beyond its own parent's", owing, [any(), pairs(1, &[[7, 1]]), pairs(2, &[[7, 2]])].concat(), 2, 0),
        ("two that owe one parent break its key", three.clone(), [any(), pairs(2, &[[7, 1]]), pairs(3, &[[7, 2]])].concat(), 2, 0),
        ("two that owe one parent obey its key", three, [any(), pairs(2, &[[7, 1]]), pairs(3, &[[8, 2]])].concat(), 0, 0),
        ("three columns settle the fourth", four.clone(), [four_any(), fours(2, &[[1, 2, 3, 4], [1, 2, 3, 5]])].concat(), 2, 0),
        ("rows alike in two of three key columns", four.clone(), [four_any(), fours(2, &[[1, 2, 3, 4], [1, 2, 4, 4]])].concat(), 0, 0),
        ("a key is not the parent's", four, [four_last(), fours(1, &[[1, 2, 3, 4], [1, 2, 3, 5]])].concat(), 1, 2),
        ("the 32nd owes the 31st", last.clone(), ones(32, 31), 0, 0),
        ("the 31st owes nothing", last, [ones(31, 32), vec![vec![3, -1], vec![4, 32, -1], vec![5, 5]]].concat(), 1, 3),
    ]
}

/// The limits of tables, and what tables ask of logs.
fn all_of_tables(lender: &mut Lender, failed: &mut Vec<String>) -> usize {
    let mut count = 0;
    for (lent, number) in [(330, 0), (329, 13), (0, 13), (400, 0)] {
        let mut out = lender.bytes(lent);
        let told = library::own_table(&mut out);
        let front = if number == 0 { Table::own().bytes() } else { vec![] };
        if (told.number, told.line, told.count) != (number, 0, front.len()) || !out.is(&front) {
            failed.push(format!("the own table in {lent} bytes: {told:?}, {}", out.after().escape_ascii()));
        }
        count += 1;
    }
    for (name, bytes, line) in tables() {
        // Without a question a sheet is sent back by 3; a table that is none comes before that, before a sheet too long, and before room.
        let expected = line.map_or((3, 0), |line| (15, line));
        let calls = Calls { table: Some(&bytes), name, side: "a table" };
        calls.hold(&[], &[], expected, expected, lender, failed);
        let long = line.map_or((1, 0), |line| (15, line));
        let read = library::read(Some(&bytes), &[32; 8_193], &mut lender.words(0));
        let here = by_table(&bytes, |table| sheet::read(table, &[32; 8_193], 0));
        hold(name, "and a sheet too long", "read", long, ended(read), told(here), failed);
        let write = library::write(Some(&bytes), &[0; 750], &mut lender.bytes(0));
        let here = by_table(&bytes, |table| sheet::write(table, &[0; 750], 0));
        hold(name, "and words too many", "write", long, ended(write), told(here), failed);
        count += 1;
    }
    for (name, table, atom, taken, fact, given) in by_tables() {
        let bytes = sheet::bytes_of(&table);
        let first = [vec![4, 1], vec![-1; table[0][1] as usize]].concat();
        let lines = vec![vec![1], atom, vec![2], first.clone()];
        let expected = if taken { (0, 0) } else { (4, 2) };
        let calls = Calls { table: Some(&bytes), name, side: "an atom" };
        calls.hold(&sheet::bytes_of(&lines), &sheet::words_of(&lines), expected, expected, lender, failed);
        let plain = sheet::bytes_of(&[vec![1], first.clone(), vec![2], first]);
        let expected = if given { (0, 0) } else { (11, 0) };
        let evaluate = library::evaluate(Some(&bytes), &plain, 1, &fact, &mut lender.words(4));
        let here = by_table(&bytes, |table| meaning::evaluate(table, &plain, 1, &fact, 4));
        hold(name, "a fact", "evaluate", expected, ended(evaluate), told(here), failed);
        count += 1;
    }
    // Facts that break the key and lack the rows that they owe are taken all the same.
    let (table, facts) = (sheet::bytes_of(&table_of(&[[2, 1, 0], [2, 1, 1]])), [[2, 7, 1, 0, 0], [2, 7, 2, 0, 0]].concat());
    let asked = sheet::bytes_of(&[vec![1, -1, -2], vec![4, 2, -1, -2], vec![2, 7, 7], vec![4, 1, -1, -2]]);
    let mut out = lender.words(8);
    let evaluate = library::evaluate(Some(&table), &asked, 1, &facts, &mut out);
    if evaluate != (library::Ended { number: 0, line: 0, count: 2 }) || !out.is(&[7, 1, 0, 0, 7, 2, 0, 0]) {
        failed.push(format!("facts against a table's laws: {evaluate:?}, {:?}", out.after()));
    }
    for (name, table, lines, verdict, facts) in judged() {
        let (table, bytes) = (sheet::bytes_of(&table), sheet::bytes_of(&lines));
        let mut out = lender.words(1_260);
        let told = library::judge(Some(&table), &bytes, &mut out);
        let found = compare::check_judgement(&table, &bytes, &told, &out, |sheet| {
            let here = (large::verdict(sheet, 100_000)?, meaning::verdict(sheet, true, 3_000_000));
            if here == (Some(verdict), Some(verdict)) {
                Ok(vec![verdict])
            } else {
                Err(format!("here {here:?}, expected {verdict}"))
            }
        });
        if found.is_err() || told.count != facts {
            failed.push(format!("{name}: {told:?}, {facts} facts expected, {found:?}"));
        }
        count += 1;
    }
    count + 1
}

/// All limits: how many there are, and those that do not hold.
pub fn all() -> (usize, Vec<String>) {
    let (mut failed, mut count, mut lender) = (Vec::new(), 0, Lender(Random::new(0, 0, 0)));
    let own = Table::own();
    let own_bytes = own.bytes();
    for (name, within, met, beyond, exceeded) in sheets() {
        count += 1;
        for (side, lines, expected) in [("met", within, met), ("exceeded", beyond, exceeded)] {
            // More than 107 lines are too many words already.
            let expected_words = if lines.len() > 107 { (1, 0) } else { expected };
            for table in [None, Some(&own_bytes[..])] {
                let calls = Calls { table, name, side };
                calls.hold(&sheet::bytes_of(&lines), &sheet::words_of(&lines), expected, expected_words, &mut lender, &mut failed);
            }
        }
    }
    count += all_of_tables(&mut lender, &mut failed);
    let plain = sheet::bytes_of(&sheet_of(1, 1, views(8)));
    let evaluations: Vec<(&str, usize, Vec<i32>, usize, usize)> = {
        let strap = |n: i32| [2, n, 0, 0, 0];
        let straps = |count: i32| (0..count).flat_map(strap).collect::<Vec<i32>>();
        let one = |relation: i32, value: i32, unused: i32| vec![relation, value, 0, unused, 0];
        vec![
            ("facts", 1, straps(256), 4, 0),
            ("facts", 1, straps(257), 4, 12),
            ("fact words by fives", 1, straps(1), 4, 0),
            ("fact words by fives", 1, straps(2)[..6].to_vec(), 4, 11),
            ("facts' words, first by fives, then their number", 1, straps(258)[..1_286].to_vec(), 4, 11),
            ("a fact's greatest value", 1, one(2, 10_000_999, 0), 4, 0),
            ("a fact's greatest value", 1, one(2, 10_001_000, 0), 4, 11),
            ("a fact's least value", 1, one(2, 0, 0), 4, 0),
            ("a fact's least value", 1, one(2, -1, 0), 4, 11),
            ("a fact's last relation", 1, one(10, 1, 0), 4, 0),
            ("a fact's last relation", 1, one(11, 1, 0), 4, 11),
            ("a fact's first relation", 1, one(1, 1, 0), 4, 0),
            ("a fact's first relation", 1, one(0, 1, 0), 4, 11),
            ("a fact's unused word", 1, one(2, 1, 1), 4, 11),
            ("facts ascend", 1, [strap(1), strap(2)].concat(), 4, 0),
            ("facts ascend", 1, [strap(2), strap(2)].concat(), 4, 12),
            ("facts that a key allows one of", 1, [[7, 7, 1, 90, 0], [7, 7, 1, 91, 0]].concat(), 0, 0),
            ("the last block", 10, straps(1), 4, 0),
            ("the last block", 11, straps(1), 4, 10),
            ("the first block", 1, straps(1), 4, 0),
            ("the first block", 0, straps(1), 4, 10),
            ("words for the answers", 1, straps(3), 4, 0),
            ("words for the answers", 1, straps(3), 3, 13),
            ("words for no answer", 1, vec![], 0, 0),
        ]
    };
    for (name, block, facts, lent, number) in evaluations {
        count += 1;
        let evaluate = library::evaluate(None, &plain, block, &facts, &mut lender.words(lent));
        let here = told(meaning::evaluate(&own, &plain, block, &facts, lent));
        hold(name, "", "evaluate", (number, 0), ended(evaluate), here, &mut failed);
    }
    // With four lists and eight views the last block is 13.
    let blocks = sheet::bytes_of(&full());
    for (block, number) in [(1, 0), (5, 0), (6, 0), (13, 0), (14, 10), (0, 10)] {
        count += 1;
        let evaluate = library::evaluate(None, &blocks, block, &[], &mut lender.words(0));
        let here = told(meaning::evaluate(&own, &blocks, block, &[], 0));
        hold("blocks of four lists", "", "evaluate", (number, 0), ended(evaluate), here, &mut failed);
    }
    for (lent, number) in [(749, 0), (748, 13)] {
        let read = library::read(None, &plain, &mut lender.words(lent));
        hold("words for read", "", "read", (number, 0), ended(read), told(sheet::read(&own, &plain, lent)), &mut failed);
    }
    let words = sheet::words_of(&sheet_of(1, 1, views(8)));
    for (lent, number) in [(5243, 0), (5242, 13)] {
        let write = library::write(None, &words, &mut lender.bytes(lent));
        hold("bytes for write", "", "write", (number, 0), ended(write), told(sheet::write(&own, &words, lent)), &mut failed);
    }
    for (lent, number) in [(1_260, 0), (1_259, 13)] {
        let judge = library::judge(None, &plain, &mut lender.words(lent));
        hold("words for judge", "", "judge", (number, 0), (judge.number, judge.line), (number, 0), &mut failed);
    }
    // Words by sevens, and no more than 749 of them.
    let whole = sheet::words_of(&full());
    for (length, number) in [(749, 0), (748, 2), (750, 1), (756, 1)] {
        let mut words = whole.clone();
        words.resize(length, 0);
        let write = library::write(None, &words, &mut lender.bytes(5243));
        hold("words of a form", "", "write", (number, 0), ended(write), told(sheet::write(&own, &words, 5243)), &mut failed);
    }
    // Bytes: a sheet, then lines without fields.
    for (length, expected) in [(8192, (2, 21)), (8193, (1, 0))] {
        let mut bytes = plain.clone();
        bytes.resize(length, 10);
        let read = library::read(None, &bytes, &mut lender.words(749));
        hold("bytes of a sheet", "", "read", expected, ended(read), told(sheet::read(&own, &bytes, 749)), &mut failed);
    }
    (count + 5, failed)
}
