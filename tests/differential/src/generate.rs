//! Inputs: sheets that are right, at the limits, damaged or random; facts likewise; small sheets to judge. All are drawn by a table of
//! relations; by the own ten they are what they were before there were other tables, number by number.

use crate::clubs;
use crate::large;
use crate::meaning::{answers, owed, Fact, MADE_UP, MOST_VALUE};
use crate::random::Random;
use crate::sheet::{blocks, bytes_of, Sheet, MOST_CONSTANT};
use crate::table::Table;
use std::collections::{BTreeMap, BTreeSet};
use std::sync::atomic::{AtomicBool, Ordering};

pub type Lines = Vec<Vec<i64>>;

/// The least number of seven digits.
const LEAST_OF_SEVEN: i64 = 1_000_000;

/// What blocks are drawn from.
pub struct Stock<'a> {
    pub table: &'a Table,
    pub relations: Vec<usize>,
    pub constants: Vec<i64>,
    pub variables: usize,
    /// How often, in a hundred, a term is a constant.
    pub fixed: usize,
}

impl<'a> Stock<'a> {
    /// A few relations and constants, so that blocks meet.
    pub fn few(random: &mut Random, table: &'a Table) -> Stock<'a> {
        let pool = [0, 1, 2, 7, 8, 42, MOST_CONSTANT];
        let count = random.between(1, 3);
        Stock {
            table,
            relations: some_relations(random, table, count),
            constants: (0..random.between(1, 3)).map(|_| random.pick(&pool)).collect(),
            variables: random.between(1, 5),
            fixed: random.pick(&[0, 15, 15, 40]),
        }
    }

    pub fn wide(random: &mut Random, table: &'a Table) -> Stock<'a> {
        Stock {
            table,
            relations: (1..=table.last()).collect(),
            constants: (0..12).map(|_| any(random)).chain([0, MOST_CONSTANT]).collect(),
            variables: 12,
            fixed: random.pick(&[5, 30, 80]),
        }
    }

    fn constant(&self, random: &mut Random) -> i64 {
        random.pick(&self.constants)
    }
}

/// A relation, its parent and those that owe the same rows; the relation is one of the favoured, where there are any.
pub fn family(random: &mut Random, table: &Table, favoured: &[usize]) -> Vec<usize> {
    let one = if favoured.is_empty() { random.between(1, table.last()) } else { random.pick(favoured) };
    let root = table.parent(one).unwrap_or(one);
    let mut others: Vec<usize> = std::iter::once(root).chain(table.owing(root)).filter(|other| *other != one).collect();
    // The parent first, mostly, and few of the others.
    if random.percent(30) {
        others.reverse();
    }
    others.truncate(random.between(1, 3));
    [vec![one], others].concat()
}

/// The relations of a table that have to do with another: they owe rows, or are owed some.
fn related(table: &Table) -> Vec<usize> {
    (1..=table.last()).filter(|relation| table.parent(*relation).is_some() || table.owing(*relation).next().is_some()).collect()
}

/// So many relations of a table. Of the own ten each is drawn by itself. Of a larger table a relation and its parent would seldom meet so;
/// they come from a family, and from a few others.
fn some_relations(random: &mut Random, table: &Table, count: usize) -> Vec<usize> {
    if table.is_own() {
        return (0..count).map(|_| random.between(1, table.last())).collect();
    }
    let favoured = if random.percent(60) { related(table) } else { vec![] };
    let mut pool = family(random, table, &favoured);
    pool.extend((0..random.below(3)).map(|_| random.between(1, table.last())));
    (0..count).map(|_| random.pick(&pool)).collect()
}

/// An atom's line.
pub fn atom(random: &mut Random, stock: &Stock) -> Vec<i64> {
    let relation = random.pick(&stock.relations);
    let mut line = vec![4, relation as i64];
    for _ in 0..stock.table.columns(relation) {
        line.push(if random.percent(stock.fixed) { stock.constant(random) } else { -(random.between(1, stock.variables) as i64) });
    }
    line
}

/// Atoms of a relation whose first columns settle the others often begin alike: as an earlier one does, or with the first constant, as in
/// other blocks.
pub fn share_keys(random: &mut Random, stock: &Stock, atoms: &mut Lines) {
    for at in 0..atoms.len() {
        let Some(key) = stock.table.key(atoms[at][1] as usize) else { continue };
        let earlier: Vec<Vec<i64>> = atoms[..at].iter().filter(|line| line[1] == atoms[at][1]).cloned().collect();
        match random.below(10) {
            0..=3 if !earlier.is_empty() => {
                let from = random.pick(&earlier);
                atoms[at][2..2 + key].copy_from_slice(&from[2..2 + key]);
            }
            4..=6 => atoms[at][2..2 + key].fill(stock.constants[0]),
            _ => {}
        }
    }
}

/// A head's line over atoms, safe unless it is too long for any.
pub fn head(random: &mut Random, stock: &Stock, kind: i64, columns: usize, atoms: &Lines) -> Vec<i64> {
    let variables: Vec<i64> = atoms.iter().flat_map(|a| a[2..].iter().copied()).filter(|t| *t < 0).collect();
    let mut line = vec![kind];
    for _ in 0..columns {
        line.push(if variables.is_empty() || random.percent(8) { stock.constant(random) } else { random.pick(&variables) });
    }
    line
}

/// A block's lines, rows not included.
fn block(random: &mut Random, stock: &Stock, kind: i64, columns: usize, count: usize) -> Lines {
    let mut atoms: Lines = (0..count).map(|_| atom(random, stock)).collect();
    share_keys(random, stock, &mut atoms);
    let mut lines = vec![head(random, stock, kind, columns, &atoms)];
    lines.extend(atoms);
    lines
}

/// Up to `count` rows of these columns, ascending.
fn rows(random: &mut Random, stock: &Stock, columns: usize, count: usize) -> Lines {
    let mut rows: Lines = Vec::new();
    for _ in 0..4 * count {
        if rows.len() < count {
            let row: Vec<i64> = std::iter::once(5)
                .chain((0..columns).map(|_| if random.percent(60) { stock.constant(random) } else { any(random) }))
                .collect();
            if !rows.contains(&row) {
                rows.push(row);
            }
        }
    }
    rows.sort();
    rows
}

/// Sizes of a sheet's parts: atoms of the question and of each list, then for each view its columns, atoms and rows.
struct Sizes {
    columns: usize,
    question: usize,
    lists: Vec<usize>,
    views: Vec<(usize, usize, usize)>,
}

fn built(random: &mut Random, stock: &Stock, sizes: &Sizes) -> Lines {
    let mut lines = block(random, stock, 1, sizes.columns, sizes.question);
    for atoms in &sizes.lists {
        lines.extend(block(random, stock, 2, sizes.columns, *atoms));
    }
    for &(columns, atoms, count) in &sizes.views {
        lines.extend(block(random, stock, 3, columns, atoms));
        lines.extend(rows(random, stock, columns, count));
    }
    lines
}

/// Any constant.
pub fn any(random: &mut Random) -> i64 {
    random.below(MOST_CONSTANT as usize + 1) as i64
}

/// Where a line's terms begin.
fn terms_at(line: &[i64]) -> usize {
    if line[0] == 4 {
        2
    } else {
        1
    }
}

/// The same sheet and log with other numbers of seven digits for its constants, in the same order.
fn with_seven_digits(random: &mut Random, table: &Table, lines: &Lines, log: &[Fact]) -> (Lines, Vec<Fact>) {
    let values = log.iter().flat_map(|f| f[1..=table.columns(f[0] as usize)].iter().map(|v| *v as i64));
    let old: BTreeSet<i64> = lines.iter().flat_map(|l| l[terms_at(l)..].iter().copied()).filter(|t| *t >= 0).chain(values).collect();
    let mut new: BTreeSet<i64> = match random.below(3) {
        0 => (LEAST_OF_SEVEN..).take(old.len()).collect(),
        1 => (0..=MOST_CONSTANT).rev().take(old.len()).collect(),
        _ => BTreeSet::new(),
    };
    while new.len() < old.len() {
        new.insert(random.between(LEAST_OF_SEVEN as usize, MOST_CONSTANT as usize) as i64);
    }
    let to: BTreeMap<i64, i64> = old.into_iter().zip(new).collect();
    let raised = |t: &i64| to.get(t).copied().unwrap_or(*t);
    let lines = lines.iter().map(|l| l[..terms_at(l)].iter().copied().chain(l[terms_at(l)..].iter().map(raised)).collect()).collect();
    let mut log = log.to_vec();
    for fact in &mut log {
        let columns = table.columns(fact[0] as usize);
        fact[1..=columns].iter_mut().for_each(|v| *v = raised(&(*v as i64)) as i32);
    }
    (lines, log)
}

/// A sheet and a log as they are drawn; one in four has constants of seven digits alone.
pub fn at_times_seven_digits(
    random: &mut Random,
    table: &Table,
    draw: impl FnOnce(&mut Random, &Table) -> (Lines, Vec<Fact>),
) -> (Lines, Vec<Fact>) {
    let (lines, log) = draw(random, table);
    if random.percent(25) {
        with_seven_digits(random, table, &lines, &log)
    } else {
        (lines, log)
    }
}

/// A small sheet to judge; one in four has constants of seven digits alone.
pub fn small_or_seven_digits(random: &mut Random, table: &Table) -> Lines {
    at_times_seven_digits(random, table, |random, table| (small(random, table), vec![])).0
}

/// A sheet within the limits; one in four has constants of seven digits alone.
pub fn right(random: &mut Random, table: &Table) -> Lines {
    at_times_seven_digits(random, table, |random, table| (within(random, table), vec![])).0
}

fn within(random: &mut Random, table: &Table) -> Lines {
    let stock = if random.percent(50) { Stock::few(random, table) } else { Stock::wide(random, table) };
    let (views, mut left) = (random.below(9), 40);
    let sizes = Sizes {
        columns: random.below(5),
        question: random.between(1, 6),
        lists: (0..random.pick(&[1, 1, 1, 2, 3, 4])).map(|_| random.between(1, 6)).collect(),
        views: (0..views)
            .map(|_| {
                let count = random.pick(&[0, 1, 2, 3, 5, 12]).min(left);
                left -= count;
                (random.below(5), random.between(1, 3), count)
            })
            .collect(),
    };
    built(random, &stock, &sizes)
}

/// A sheet whose parts meet their limits exactly, or exceed one of them by one.
pub fn at_limits(random: &mut Random, table: &Table) -> Lines {
    let stock = Stock::wide(random, table);
    let over = random.below(20);
    let more = |which: usize| (over == which) as usize;
    let views = random.pick(&[8, 8, 8, 1]) + more(0);
    let mut left = random.pick(&[40, 40, 39]) + more(1);
    let lists = if over == 15 { 5 } else { random.pick(&[4, 4, 1]) };
    let mut sizes = Sizes { columns: 4 + more(2), question: 6 + more(3), lists: vec![6; lists], views: vec![] };
    *sizes.lists.last_mut().unwrap() += more(4);
    let over_view = random.below(views);
    for view in 0..views {
        let last = view + 1 == views;
        let count = if last { left } else { random.below(left.min(9) + 1) };
        left -= count;
        let here = (view == over_view) as usize;
        sizes.views.push((4 + here * more(5), 3 + here * more(6), count));
    }
    let mut lines = built(random, &stock, &sizes);
    // A term at the edge of its range, or one beyond.
    if (7..14).contains(&over) {
        let value = random.pick(&[0, 999_999, 1_000_000, 9_999_999, 10_000_000, -1, -12, -13, 99_999_999, -9_999_999]);
        let at = random.below(lines.len());
        let fields = lines[at].len();
        if fields > 1 {
            lines[at][random.between(1, fields - 1)] = value;
        }
    }
    if over == 14 {
        let at = random.below(lines.len());
        lines[at].resize(6 + random.below(2), 0);
    }
    // A fifth list may have other causes besides, and a list may come too late.
    if over == 15 && random.percent(50) {
        let at = lines.iter().rposition(|line| line[0] == 2).unwrap();
        lines[at].push(random.pick(&[7, -13, 10_000_000]));
    }
    if over == 16 {
        let list = block(random, &stock, 2, sizes.columns, 2);
        let at = if random.percent(50) { lines.len() } else { lines.iter().position(|line| line[0] == 3).unwrap() + 4 };
        lines.splice(at..at, list);
    }
    lines
}

const FIELDS: [i64; 32] = [
    0, 1, 2, 3, 4, 5, 6, 7, 9, 10, 11, -1, -2, -3, -11, -12, -13, 42, 999_999, 1_000_000, 9_999_998, 9_999_999, 10_000_000, 10_000_001,
    10_001_000, 99_999_999, -999_999, -9_999_999, 100, 40, 8, -100,
];

/// Lines that are none of a sheet, mostly well-formed.
pub fn random_lines(random: &mut Random) -> Lines {
    let count = random.below(12);
    (0..count).map(|_| (0..random.between(1, 6)).map(|_| random.pick(&FIELDS)).collect()).collect()
}

/// One thing changed in the lines: a field, or a line removed, doubled, swapped or moved.
pub fn damage_lines(random: &mut Random, lines: &mut Lines) {
    if lines.is_empty() {
        return;
    }
    let at = random.below(lines.len());
    let place = random.below(lines[at].len());
    match random.below(13) {
        0 => {
            lines.remove(at);
        }
        10 => lines.truncate(at),
        1 => {
            let line = lines[at].clone();
            lines.insert(random.between(at, lines.len()), line);
        }
        2 => {
            let other = random.below(lines.len());
            lines.swap(at, other);
        }
        3 if at + 1 < lines.len() => lines.swap(at, at + 1),
        4 => {
            lines[at].insert(place, random.pick(&FIELDS));
        }
        5 if lines[at].len() > 1 => {
            lines[at].remove(place);
        }
        6 => {
            let kind = random.between(0, 6) as i64;
            lines[at][0] = kind;
        }
        7 => lines[at][place] += random.pick(&[1, -1, 10_000_000, 10]),
        8 => {
            let fields = random.pick(&[1, 1, 2, 5, 6, 7]);
            lines[at].resize(fields, -1);
        }
        9 => {
            let line: Vec<i64> = (0..random.between(1, 6)).map(|_| random.pick(&FIELDS)).collect();
            lines.insert(at, line);
        }
        _ => lines[at][place] = random.pick(&FIELDS),
    }
}

/// More causes on the line that is refused already, or on any: its fields changed, added or taken away, or those of the line before.
fn damage_line(random: &mut Random, table: &Table, lines: &mut Lines) {
    let last = table.last() as i64;
    let refused = blocks(table, &lines.iter().cloned().map(Some).collect::<Vec<_>>()).err().map_or(0, |r| r.line);
    let at = if refused > 0 && random.percent(80) { refused - 1 } else { random.below(lines.len()) };
    for _ in 0..random.between(1, 4) {
        let place = random.below(lines[at].len());
        match random.below(8) {
            0 if lines[at].len() > 1 => {
                lines[at].pop();
            }
            1 => lines[at].push(random.pick(&FIELDS)),
            2 if at > 0 => lines[at] = lines[at - 1].clone(),
            3 if lines[at].len() > 1 => lines[at][1] = random.pick(&[0, 1, last + 1, -1, last - 1, 10_000_000]),
            4 | 5 => lines[at][place] = random.pick(&[10_000_000, -13, -1, 0]),
            _ => lines[at][place] = random.pick(&FIELDS),
        }
    }
}

/// Blocks without atoms and heads with variables of no atom, several at once; sometimes a damaged line too.
fn damage_heads(random: &mut Random, lines: &mut Lines) {
    for _ in 0..random.between(1, 3) {
        let heads: Vec<usize> = (0..lines.len()).filter(|at| lines[*at][0] <= 3).collect();
        let at = random.pick(&heads);
        let mut end = at + 1;
        while end < lines.len() && lines[end][0] > 3 {
            end += 1;
        }
        match random.below(3) {
            0 => {
                lines.drain(at + 1..end);
            }
            _ if lines[at].len() > 1 => {
                let place = random.between(1, lines[at].len() - 1);
                lines[at][place] = -(random.between(1, 12) as i64);
            }
            _ => {}
        }
    }
    if random.percent(15) {
        damage_lines(random, lines);
    }
}

const BYTES: [u8; 20] = [32, 32, 10, 10, 45, 43, 48, 48, 49, 50, 53, 57, 58, 47, 9, 13, 0, 255, 11, 128];

/// One byte changed, removed or inserted, or the end cut off.
pub fn damage_bytes(random: &mut Random, bytes: &mut Vec<u8>) {
    if bytes.is_empty() {
        return;
    }
    let at = random.below(bytes.len());
    let byte = if random.percent(80) { random.pick(&BYTES) } else { random.below(256) as u8 };
    match random.below(12) {
        0 => {
            bytes.remove(at);
        }
        1 => bytes.insert(at, byte),
        2 => bytes.truncate(at),
        3 => {
            bytes.pop();
        }
        4 => bytes.push(byte),
        5 => bytes[0] = byte,
        // A field by itself: a wrong way to write a number.
        6 | 7 => {
            let from = at / 8 * 8;
            let ways = [
                "      -0", "      01", "        ", "       -", "      +1", "-0000001", "00000001", "  -     ", "1       ", "     1 2",
                "      1 ", "     - 1", "    --1 ", "00000000", "-9999999", "99999999", "      1e", "     -01", "10000000", " 9999999",
                "     -12", "     -13",
            ];
            let way = random.pick(&ways);
            let start = bytes[..at].iter().rposition(|b| *b == 10).map_or(0, |end| end + 1);
            let from = if random.percent(80) { start + (at - start) / 8 * 8 } else { from };
            if from + 8 <= bytes.len() {
                bytes[from..from + 8].copy_from_slice(way.as_bytes());
            }
        }
        _ => bytes[at] = byte,
    }
}

/// Bytes of any kind, up to a length.
pub fn random_bytes(random: &mut Random, most: usize) -> Vec<u8> {
    let length = random.pick(&[0, 1, 8, 9, 49, 100, most.min(300), most]);
    let length = if random.percent(50) { random.below(length + 1) } else { length };
    let way = random.below(3);
    (0..length)
        .map(|_| match way {
            0 => random.below(256) as u8,
            1 => random.pick(&BYTES),
            _ => random.pick(b"       1234567890-\n"),
        })
        .collect()
}

/// Lines of a sheet and the name of what they are.
pub fn lines(random: &mut Random, table: &Table) -> (&'static str, Lines) {
    // Of another table's sheets some name a relation that the table lacks, as it may be one of the own ten.
    if !table.is_own() && random.percent(8) {
        let mut lines = right(random, table);
        clubs::misname(random, table, &mut lines);
        return ("a relation misnamed", lines);
    }
    match random.below(20) {
        0..=4 => ("right", right(random, table)),
        5..=8 => ("at the limits", at_limits(random, table)),
        9..=11 => {
            let mut lines = if random.percent(40) { right(random, table) } else { at_limits(random, table) };
            damage_line(random, table, &mut lines);
            ("several causes in a line", lines)
        }
        12 => {
            let mut lines = right(random, table);
            damage_heads(random, &mut lines);
            ("heads damaged", lines)
        }
        13..=18 => {
            let mut lines = if random.percent(75) { right(random, table) } else { at_limits(random, table) };
            for _ in 0..random.pick(&[1, 1, 1, 2, 3]) {
                damage_lines(random, &mut lines);
            }
            ("a line or field damaged", lines)
        }
        _ => ("random lines", random_lines(random)),
    }
}

/// A sheet's bytes and the name of what they are.
pub fn sheet(random: &mut Random, table: &Table) -> (&'static str, Vec<u8>) {
    match random.below(20) {
        0..=12 => {
            let (name, lines) = lines(random, table);
            (name, bytes_of(&lines))
        }
        13..=16 => {
            let mut bytes = bytes_of(&if random.percent(75) { right(random, table) } else { at_limits(random, table) });
            for _ in 0..random.pick(&[1, 1, 1, 2, 3]) {
                damage_bytes(random, &mut bytes);
            }
            ("a byte damaged", bytes)
        }
        17 => {
            // As long as a sheet's bytes may be, or one more: by a sheet said again, or by bytes of one kind.
            let mut bytes = bytes_of(&right(random, table));
            let fill = random.pick(&[10u8, 32, 48, 255]);
            let again = random.percent(50);
            let length = random.pick(&[8191, 8192, 8192, 8193, 8193, 8194, 9000, 5243, 5244]);
            for at in bytes.len()..length {
                bytes.push(if again { bytes[at % bytes.len()] } else { fill });
            }
            bytes.truncate(length);
            ("bytes at the limit", bytes)
        }
        18 => ("random bytes", random_bytes(random, 600)),
        _ => ("random bytes", random_bytes(random, 60)),
    }
}

/// A number form and the name of what it is.
pub fn form(random: &mut Random, table: &Table) -> (&'static str, Vec<i32>) {
    let wide = [100_000_000, -10_000_000, 99_999_999, -9_999_999, i32::MAX, i32::MIN, 0, 1, -1, 7, 6, 9_999_999, 10_000_000, -12, -13];
    match random.below(20) {
        0..=11 => {
            let (name, lines) = lines(random, table);
            let mut words = crate::sheet::words_of(&lines);
            for (at, line) in lines.iter().enumerate() {
                if line.len() > 6 && random.percent(50) {
                    words[at * 7] = 6;
                }
            }
            (name, words)
        }
        12..=15 => {
            let mut words = crate::sheet::words_of(&right(random, table));
            for _ in 0..random.pick(&[1, 1, 2]) {
                let at = random.below(words.len());
                match random.below(6) {
                    0 => words[at / 7 * 7] = random.pick(&[0, 7, -1, 1, 6, i32::MAX, i32::MIN]),
                    1 => words[at / 7 * 7 + 6] = random.pick(&wide),
                    2 => words[at / 7 * 7] += random.pick(&[1, -1]),
                    _ => words[at] = random.pick(&wide),
                }
            }
            ("a word damaged", words)
        }
        16 | 17 => {
            let mut words = crate::sheet::words_of(&if random.percent(50) { right(random, table) } else { at_limits(random, table) });
            let length = random.pick(&[
                words.len() - 1,
                words.len() + 1,
                words.len() - 6,
                words.len() + 6,
                602,
                609,
                748,
                749,
                750,
                756,
                755,
                742,
                1498,
            ]);
            words.resize(length, random.pick(&[0, 0, 1]));
            ("words at the limit", words)
        }
        18 => {
            let length = random.below(120);
            ("random words", (0..length).map(|_| random.pick(&wide)).collect())
        }
        _ => {
            let length = random.below(30);
            ("random words", (0..length).map(|_| random.next() as i32).collect())
        }
    }
}

/// The blocks of lines that are right.
pub fn taken(table: &Table, lines: &Lines) -> Option<Sheet> {
    blocks(table, &lines.iter().cloned().map(Some).collect::<Vec<_>>()).ok()
}

/// Facts for a sheet, ascending: of its relations, with its constants and a few more values.
pub fn facts(random: &mut Random, table: &Table, relations: &[usize], values: &[i64], count: usize) -> Vec<Fact> {
    let mut all: Vec<Fact> = Vec::new();
    for _ in 0..count {
        let relation = if random.percent(90) { random.pick(relations) } else { random.between(1, table.last()) };
        let mut fact = [0; 5];
        fact[0] = relation as i32;
        for word in &mut fact[1..=table.columns(relation)] {
            *word = random.pick(values) as i32;
        }
        if let Some(key) = table.key(relation).filter(|_| random.percent(30)) {
            fact[1..=key].fill(values[0] as i32);
        }
        all.push(fact);
    }
    all.sort();
    all.dedup();
    all
}

/// The facts without those that a key forbids beside earlier ones, in their own relation or, as rows that are owed, in its parent. What
/// has all that it owes still has it: a row that goes for its key takes those with it that owe it.
pub fn obeying(table: &Table, mut log: Vec<Fact>) -> Vec<Fact> {
    let mut first: BTreeMap<Vec<i32>, Fact> = BTreeMap::new();
    log.retain(|fact| {
        let keyed: Vec<(Vec<i32>, Fact)> = std::iter::once(*fact)
            .chain(owed(table, fact))
            .filter_map(|row| table.key(row[0] as usize).map(|key| (row[..=key].to_vec(), row)))
            .collect();
        let obeys = keyed.iter().all(|(key, row)| first.get(key).is_none_or(|there| there == row));
        if obeys {
            first.extend(keyed);
        }
        obeys
    });
    log
}

/// The facts with the rows that they owe.
pub fn closed(table: &Table, log: Vec<Fact>) -> Vec<Fact> {
    closed_but_for(table, log, &[])
}

/// The facts with the rows that they owe to other relations than these.
fn closed_but_for(table: &Table, mut log: Vec<Fact>, relations: &[usize]) -> Vec<Fact> {
    let owed: Vec<Fact> = log.iter().filter_map(|fact| owed(table, fact)).filter(|row| !relations.contains(&(row[0] as usize))).collect();
    log.extend(owed);
    log.sort();
    log.dedup();
    log
}

/// A sheet, a block number and fact words to evaluate, and the name of what they are.
pub fn evaluation(random: &mut Random, table: &Table) -> (&'static str, Vec<u8>, usize, Vec<i32>) {
    if random.percent(12) {
        let (_, bytes) = sheet(random, table);
        let words = (0..random.below(12)).map(|_| random.below(4) as i32).collect();
        let number = random.below(5);
        if crate::sheet::of_bytes(table, &bytes).is_err() {
            return ("a sheet of any kind", bytes, number, words);
        }
    }
    loop {
        let lines = right(random, table);
        let Some(sheet) = taken(table, &lines) else { continue };
        let any = random.between(1, sheet.blocks.len());
        let number = random.pick(&[1, 2, 3, any, any]).min(sheet.blocks.len());
        let block = &sheet.blocks[number - 1];
        let relations: Vec<usize> = block.atoms.iter().map(|a| a.relation).collect();
        let mut values: Vec<i64> = block.atoms.iter().flat_map(|a| a.terms.iter().copied()).filter(|t| *t >= 0).collect();
        values.extend([1, 2, 7]);
        values.truncate(random.pick(&[3, 4, 6]));
        if random.percent(30) {
            values.extend([0, MOST_CONSTANT, MADE_UP as i64, MOST_VALUE as i64]);
        }
        let count = random.pick(&[0, 1, 3, 6, 12, 20, 40]);
        let mut log = facts(random, table, &relations, &values, count);
        // What a few valuations make of the atoms, so that there are answers.
        for _ in 0..random.pick(&[0, 1, 1, 2, 4]) {
            let valuation: Vec<i64> = (0..13).map(|_| random.pick(&values)).collect();
            for atom in &block.atoms {
                let mut fact = [0; 5];
                fact[0] = atom.relation as i32;
                for (word, term) in fact[1..].iter_mut().zip(&atom.terms) {
                    *word = if *term < 0 { valuation[-*term as usize] } else { *term } as i32;
                }
                log.push(fact);
            }
        }
        log.sort();
        log.dedup();
        let many = random.percent(6);
        if many {
            // As many facts as may be, or one more.
            let length = random.pick(&[255, 256, 256, 257, 257, 258]);
            while log.len() < length {
                let relation = random.between(1, table.last());
                let mut fact = [0; 5];
                fact[0] = relation as i32;
                for word in &mut fact[1..=table.columns(relation)] {
                    *word = random.below(MOST_VALUE as usize + 1) as i32;
                }
                log.push(fact);
                log.sort();
                log.dedup();
            }
        }
        // Nested loops take this many turns at most.
        let turns: f64 = relations.iter().map(|r| log.iter().filter(|f| f[0] as usize == *r).count().max(1) as f64).product();
        if turns > 20_000.0 {
            continue;
        }
        let mut words: Vec<i32> = log.concat();
        let name = if random.percent(30) {
            damage_facts(random, table, &mut words);
            if random.percent(20) {
                damage_facts(random, table, &mut words);
            }
            "facts damaged"
        } else if many {
            "facts at the limit"
        } else {
            "right facts"
        };
        let number = if random.percent(6) { random.pick(&[0, sheet.blocks.len() + 1, 11, 14, usize::MAX, 1 << 32 | 1]) } else { number };
        return (name, bytes_of(&lines), number, words);
    }
}

fn damage_facts(random: &mut Random, table: &Table, words: &mut Vec<i32>) {
    let (count, last) = (words.len() / 5, table.last() as i32);
    let values = [MOST_VALUE, MOST_VALUE + 1, -1, 0, i32::MAX, i32::MIN, MADE_UP, 1];
    if count == 0 || random.percent(10) {
        let more = random.pick(&[1, 2, 3, 4, 5]);
        words.extend((0..more).map(|_| random.pick(&[0, 1, last + 1, -1])));
        return;
    }
    let at = random.below(count) * 5;
    match random.below(10) {
        9 => words.resize(random.pick(&[640, 641, 1_280, 1_281, 1_285, 1_286, 5_000, 5_001]), 1),
        0 => words.truncate(words.len() - random.between(1, 4)),
        1 => {
            let other = random.below(count) * 5;
            for word in 0..5 {
                words.swap(at + word, other + word);
            }
        }
        2 => {
            let fact: Vec<i32> = words[at..at + 5].to_vec();
            words.splice(at..at, fact);
        }
        3 => words[at] = random.pick(&[0, last + 1, -1, i32::MAX, i32::MIN, last, 1]),
        4 => words[at + random.between(1, 4)] = random.pick(&values),
        5 => words[at + 1] = random.pick(&values),
        6 => words[at + 4] = random.pick(&[1, -1, 0]),
        7 => {
            let fact: Vec<i32> = words[at..at + 5].to_vec();
            words.extend(fact);
        }
        _ => {
            words.remove(at + random.below(5));
        }
    }
}

/// How a sheet to judge comes to its verdict here.
#[derive(Clone, Copy, Debug, PartialEq, Eq)]
pub enum Known {
    /// By all valuations of the tableau.
    Searched,
    /// By the only log that matters: views of all columns list every relation that a block names.
    Pinned,
    /// By a log that agrees, from which the rows were drawn; it is a case, or there is none known.
    Planted(bool),
    /// By the search for large sheets alone.
    Large,
}

/// The question's lines with little changed, as the list.
pub fn list_like(random: &mut Random, stock: &Stock, question: &Lines) -> Lines {
    let mut list = question.clone();
    list[0][0] = 2;
    match random.below(5) {
        0 if list.len() > 2 => {
            let at = random.between(1, list.len() - 1);
            list.remove(at);
        }
        1 => {
            let at = random.between(1, list.len() - 1);
            let place = random.between(2, list[at].len() - 1);
            list[at][place] = -(random.between(1, 6) as i64);
        }
        2 => {
            let at = random.between(1, list.len() - 1);
            let place = random.between(2, list[at].len() - 1);
            list[at][place] = stock.constant(random);
        }
        3 if list.len() < 7 => list.push(atom(random, stock)),
        _ => {}
    }
    list
}

/// The question's lines with a constant for one of its variables, as a list: of several such, each has a part of the question's answers.
pub fn part(random: &mut Random, constants: &[i64], question: &Lines) -> Lines {
    let mut list = question.clone();
    list[0][0] = 2;
    let variables: Vec<i64> = question[1..].iter().flat_map(|a| a[2..].iter().copied()).filter(|t| *t < 0).collect();
    if !variables.is_empty() {
        let (from, to) = (random.pick(&variables), random.pick(constants));
        for line in &mut list {
            let start = terms_at(line);
            line[start..].iter_mut().filter(|t| **t == from).for_each(|t| *t = to);
        }
    }
    list
}

/// One to four lists for a question: like it, a part of it, or drawn by themselves.
fn lists(random: &mut Random, stock: &Stock, question: &Lines) -> Lines {
    let mut lines = Lines::new();
    for _ in 0..random.pick(&[1, 1, 1, 2, 2, 3, 4]) {
        lines.extend(match random.below(10) {
            0..=3 => list_like(random, stock, question),
            4..=6 => part(random, &stock.constants, question),
            _ => {
                let count = random.pick(&[1, 1, 2, 3]);
                block(random, stock, 2, question[0].len() - 1, count)
            }
        });
    }
    lines
}

/// A view's lines behind a question and a list, as a sheet.
pub fn with_view(table: &Table, view: &Lines) -> Lines {
    let first = [vec![4, 1], vec![-1; table.columns(1)]].concat();
    [vec![vec![1], first.clone(), vec![2], first], view.clone()].concat()
}

/// The answers of a block on a log as rows' lines.
fn given_rows(table: &Table, lines: &Lines, log: &[Fact]) -> Option<Lines> {
    let sheet = taken(table, &with_view(table, lines))?;
    let view = &sheet.views()[0];
    Some(answers(view, log).iter().map(|a| std::iter::once(5).chain(a[..view.head.len()].iter().copied()).collect()).collect())
}

/// Set where larger sheets are to be searched.
pub static DEEP: AtomicBool = AtomicBool::new(false);

pub fn deep() -> bool {
    DEEP.load(Ordering::Relaxed)
}

/// A small sheet to judge, with few variables in all. Its valuations are so many that they can be tried.
pub fn small(random: &mut Random, table: &Table) -> Lines {
    let keyed = random.percent(20);
    small_of(random, table, keyed)
}

/// A small sheet, of relations with keys (Worn and Pulse, by the own ten) or of any, that mostly is as it is wanted.
fn small_that(random: &mut Random, table: &Table, keyed: bool, wanted: impl Fn(&Sheet) -> bool) -> Lines {
    for _ in 0..200 {
        let lines = small_of(random, table, keyed);
        if wanted(&taken(table, &lines).unwrap()) {
            return lines;
        }
    }
    small(random, table)
}

/// Whether the verdict would be another one by a table that asks less.
fn rests_on_more_than(sheet: &Sheet, less: &Table) -> bool {
    let with = large::verdict(sheet, LAW_STEPS).ok().flatten();
    with.is_some() && with != large::verdict_by(sheet, less.clone(), LAW_STEPS).ok().flatten()
}

/// Whether there is a case that has rows which are owed, and which a key holds of.
fn has_owing_case(sheet: &Sheet) -> bool {
    let there = sheet.views().iter().filter(|view| !view.rows.is_empty()).chain([sheet.question()]);
    let owes = |relation: usize| sheet.table.parent(relation).is_some() && sheet.table.settling(relation).is_some();
    there.flat_map(|block| &block.atoms).any(|atom| owes(atom.relation)) && large::verdict(sheet, LAW_STEPS) == Ok(Some(1))
}

/// A small sheet whose verdict mostly rests on what the table asks of logs: keys, and by another table than the own ten parents too, or
/// the keys of parents alone; or one whose case has keys and parents together.
pub fn resting_on_laws(random: &mut Random, table: &Table) -> (&'static str, Lines) {
    let (keys, parents, of_parents) = (table.without_keys(), table.without_parents(), table.without_keys_of_parents());
    if table.is_own() {
        return ("small, resting on keys", small_that(random, table, true, |sheet| rests_on_more_than(sheet, &keys)));
    }
    let together = (1..=table.last()).any(|relation| table.parent(relation).is_some() && table.settling(relation).is_some());
    match random.below(4) {
        0 if keys != *table => ("small, resting on keys", small_that(random, table, true, |sheet| rests_on_more_than(sheet, &keys))),
        1 if parents != *table => {
            ("small, resting on parents", small_that(random, table, false, |sheet| rests_on_more_than(sheet, &parents)))
        }
        2 if of_parents != *table => {
            ("small, resting on keys of parents", small_that(random, table, true, |sheet| rests_on_more_than(sheet, &of_parents)))
        }
        3 if together => ("small, a case with keys and parents", small_that(random, table, true, has_owing_case)),
        _ => ("small", small(random, table)),
    }
}

/// The steps of `large` for a sheet that is only looked for.
const LAW_STEPS: u64 = 20_000;

/// The relations that a small sheet is drawn from, where it is not those of any stock. Of another table than the own ten they are a
/// family, and sometimes one more; those of tiny sheets have one column or two, so that all logs can be tried.
fn pool(random: &mut Random, table: &Table, keyed: bool, tiny: bool) -> Vec<usize> {
    if table.is_own() {
        let pool: &[usize] = match (tiny, keyed) {
            (true, _) => &[2, 10],
            (false, true) => &[3, 7, 3, 7, 7, 5, 2],
            (false, false) => &[2, 10, 4, 5, 6, 1, 8, 4, 5, 7, 3],
        };
        return pool.to_vec();
    }
    let all = 1..=table.last();
    let favoured: Vec<usize> = match (tiny, keyed) {
        (true, _) => {
            let narrow: Vec<usize> = all.filter(|relation| table.columns(*relation) < 3).collect();
            if narrow.is_empty() {
                return vec![];
            }
            // Those with one column are the fewest to try; those with two can have keys.
            let least = narrow.iter().map(|relation| table.columns(*relation)).min().unwrap();
            let widest = if random.percent(50) { least } else { 2 };
            narrow.into_iter().filter(|relation| table.columns(*relation) <= widest).collect()
        }
        (false, true) => all.filter(|relation| table.settling(*relation).is_some()).collect(),
        (false, false) => related(table),
    };
    let mut pool = family(random, table, &favoured);
    if !tiny {
        // The one that was favoured most often, and at times a stranger.
        pool.insert(0, pool[0]);
        if random.percent(50) {
            pool.push(random.between(1, table.last()));
        }
    }
    pool
}

fn small_of(random: &mut Random, table: &Table, keyed: bool) -> Lines {
    let (least, most) = random.pick(&[(0, 400), (0, 400), (50, 400), (400, 5_000), (400, 5_000), (5_000, 60_000)]);
    let (least, most) = if deep() { (50_000, 5_000_000) } else { (least, most) };
    let tiny = !keyed && most == 400 && random.percent(25);
    loop {
        let mut stock = Stock::few(random, table);
        let narrow = if tiny { pool(random, table, false, true) } else { vec![] };
        if !narrow.is_empty() {
            stock.relations = narrow;
            stock.relations.truncate(random.between(1, 2));
            stock.constants.truncate(2);
        } else if keyed || random.percent(80) {
            let pool = pool(random, table, keyed, false);
            stock.relations = (0..random.between(1, 3)).map(|_| random.pick(&pool)).collect();
        }
        stock.variables = random.between(1, 4);
        if tiny && !table.is_own() && random.percent(50) {
            // Two columns over more than two values have too many logs.
            stock.variables = 1;
            stock.constants.truncate(1);
        }
        let columns = random.pick(&[0, 0, 1, 1, 1, 2, 2, 3, 4]);
        let question_atoms = random.pick(&[1, 1, 2, 2, 3, 4]);
        let question = block(random, &stock, 1, columns, question_atoms);
        let mut lines = question.clone();
        lines.extend(lists(random, &stock, &question));
        let mut values = stock.constants.clone();
        values.push(random.pick(&[3, 7, 9]));
        let count = random.between(0, 5);
        let log = facts(random, table, &stock.relations, &values, count);
        let log = if random.percent(85) { closed(table, log) } else { log };
        let log = if random.percent(85) { obeying(table, log) } else { log };
        let planted = random.percent(75);
        for _ in 0..random.pick(&[0, 1, 1, 2, 2, 3, 4]) {
            let mut view_columns = random.pick(&[0, 1, 1, 2, 2, 3, 4]);
            let view = if random.percent(35) {
                // Some of the question's atoms, so that the question meets the rows.
                let from = random.between(1, question.len() - 1);
                let to = random.between(from, (question.len() - 1).min(from + 2));
                let atoms = question[from..=to].to_vec();
                view_columns = view_columns.min(2);
                let mut view = vec![head(random, &stock, 3, view_columns, &atoms)];
                view.extend(atoms);
                view
            } else {
                let atoms = random.pick(&[1, 1, 1, 2, 2, 3]);
                block(random, &stock, 3, view_columns, atoms)
            };
            let mut listed = match given_rows(table, &view, &log) {
                Some(listed) if planted => listed,
                _ => {
                    let count = random.below(3);
                    rows(random, &stock, view_columns, count)
                }
            };
            // A row more or less than the log gives.
            if random.percent(12) && !listed.is_empty() {
                listed.remove(random.below(listed.len()));
            }
            if random.percent(8) {
                listed.extend(rows(random, &stock, view_columns, 1));
                listed.sort();
                listed.dedup();
            }
            lines.extend(view);
            lines.extend(listed);
        }
        let Some(sheet) = taken(table, &lines) else { continue };
        let cost = crate::meaning::cost(&sheet);
        if sheet.views().iter().map(|v| v.rows.len()).sum::<usize>() <= 10 && (least..=most).contains(&cost) {
            return lines;
        }
    }
}

/// A sheet whose views list all relations that its blocks name, whole. Some have as many rows as may be.
pub fn pinned(random: &mut Random, table: &Table) -> (Lines, Vec<Fact>) {
    loop {
        let count = random.between(1, 4);
        let mut relations = some_relations(random, table, count);
        relations.sort();
        relations.dedup();
        let mut stock = Stock::few(random, table);
        stock.relations = relations.clone();
        let mut values = stock.constants.clone();
        values.extend([3, 5, 9]);
        let count = random.pick(&[0, 2, 4, 8, 12, 20]);
        let log: Vec<Fact> =
            facts(random, table, &relations, &values, count).into_iter().filter(|f| relations.contains(&(f[0] as usize))).collect();
        // Where a parent is listed, as signals are, rows that are owed to it may be missing: then no log agrees.
        let owed_rows = relations.iter().any(|relation| table.owing(*relation).next().is_some());
        let log = closed_but_for(table, log, if owed_rows && random.percent(30) { &relations } else { &[] });
        // Rows that a key allows one of are at times listed together: then none does either.
        let log = if random.percent(20) { log } else { obeying(table, log) };
        let columns = random.pick(&[0, 1, 1, 2, 3]);
        let atoms = random.pick(&[1, 1, 2, 2, 3]);
        let question = block(random, &stock, 1, columns, atoms);
        let lists = lists(random, &stock, &question);
        let mut lines = question;
        lines.extend(lists);
        for relation in &relations {
            let columns = table.columns(*relation);
            let terms = (1..=columns).map(|c| -(c as i64));
            lines.push(std::iter::once(3).chain(terms.clone()).collect());
            lines.push([4, *relation as i64].into_iter().chain(terms).collect());
            for fact in log.iter().filter(|f| f[0] as usize == *relation) {
                lines.push(std::iter::once(5).chain(fact[1..=columns].iter().map(|v| *v as i64)).collect());
            }
        }
        if random.percent(40) {
            let view_columns = random.below(3);
            let atoms = random.between(1, 2);
            let view = block(random, &stock, 3, view_columns, atoms);
            let Some(mut listed) = given_rows(table, &view, &log) else { continue };
            if random.percent(20) && !listed.is_empty() {
                listed.remove(random.below(listed.len()));
            }
            lines.extend(view);
            lines.extend(listed);
        }
        if taken(table, &lines).is_some() {
            return (lines, log);
        }
    }
}

/// A sheet whose rows are what a log gives its views, and that log. It is larger than what is searched here.
pub fn planted(random: &mut Random, table: &Table) -> (Lines, Vec<Fact>) {
    loop {
        let mut stock = Stock::few(random, table);
        let count = random.between(2, 5);
        stock.relations = some_relations(random, table, count);
        stock.variables = random.between(2, 6);
        let mut values = stock.constants.clone();
        values.extend([3, 4, 5, 6, 9]);
        let count = random.between(3, 12);
        let log = obeying(table, closed(table, facts(random, table, &stock.relations, &values, count)));
        let columns = random.pick(&[0, 1, 1, 2]);
        let atoms = random.between(1, 4);
        let question = block(random, &stock, 1, columns, atoms);
        let lists = lists(random, &stock, &question);
        let mut lines = question;
        lines.extend(lists);
        for _ in 0..random.between(1, 6) {
            let view_columns = random.between(1, 4);
            let atoms = random.pick(&[1, 1, 1, 2, 2, 3]);
            let view = block(random, &stock, 3, view_columns, atoms);
            let Some(listed) = given_rows(table, &view, &log) else { continue };
            if listed.len() <= 8 {
                lines.extend(view);
                lines.extend(listed);
            }
        }
        if taken(table, &lines).is_some() {
            return (lines, log);
        }
    }
}
