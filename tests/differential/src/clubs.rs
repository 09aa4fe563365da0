//! Tables to load: right ones of every size, which often have keys and parents together, and broken ones, most of them by one rule
//! alone; and what a sheet meets of its table.

use crate::generate::{damage_bytes, random_bytes, right, Lines};
use crate::random::Random;
use crate::sheet::{bytes_of, Sheet};
use crate::slips;
use crate::table::{self, Relation, Table, COLUMNS, RELATIONS};

/// What a call goes by, and what its sheets and facts are drawn by.
pub struct Club {
    pub name: &'static str,
    /// The bytes of the table; those of the own ten where the call has none.
    pub bytes: Vec<u8>,
    by_table: bool,
    /// The table that sheets and facts are drawn by: mostly the one that is loaded, or what a broken one was before.
    pub table: Table,
    /// Whether it is another than the one that is loaded, so that relations are lacking or have other columns, keys and parents.
    pub strange: bool,
}

impl Club {
    /// A call without a table.
    pub fn own() -> Club {
        Club { name: "none", bytes: Table::own().bytes(), by_table: false, table: Table::own(), strange: false }
    }

    /// The table that is passed, if one is.
    pub fn given(&self) -> Option<&[u8]> {
        self.by_table.then_some(&self.bytes[..])
    }

    /// A table to load, right or broken.
    pub fn drawn(random: &mut Random) -> Club {
        let (name, table) = drawn(random);
        if random.percent(22) {
            let (name, bytes) = loop {
                let way = random.below(BROKEN.len());
                if let Some(bytes) = broken(random, &table, way) {
                    break (BROKEN[way], bytes);
                }
            };
            // What was changed at random may still be a table; then it is mostly the one to draw by.
            return match table::of_bytes(&bytes) {
                Ok(other) if other == table => Club { name: "changed, and the same", bytes, by_table: true, table, strange: false },
                Ok(other) if random.percent(70) && !slips::any() => {
                    Club { name: "changed, and right", bytes, by_table: true, table: other, strange: false }
                }
                _ => Club { name, bytes, by_table: true, table, strange: true },
            };
        }
        let bytes = table.bytes();
        if random.percent(7) {
            let other = if random.percent(40) { Table::own() } else { drawn(random).1 };
            return Club { name: "another than sheets are drawn by", bytes, by_table: true, strange: other != table, table: other };
        }
        Club { name, bytes, by_table: true, table, strange: false }
    }
}

/// A relation that may stand behind others. Half of those that can have a parent have one, whatever keys the two have.
fn relation(random: &mut Random, before: &[Relation]) -> Relation {
    let columns = random.pick(&[1, 2, 2, 2, 3, 3, 4]);
    let parents: Vec<usize> = (0..before.len()).filter(|at| before[*at].columns == columns && before[*at].parent == 0).collect();
    let parent = if parents.is_empty() || random.percent(50) { 0 } else { 1 + random.pick(&parents) };
    let key = if random.percent(60) { random.below(columns) } else { 0 };
    Relation { columns, key, parent }
}

/// The table with more relations behind its own, up to a number.
fn grown(random: &mut Random, table: &Table, to: usize) -> Table {
    let mut relations = table.relations.clone();
    while relations.len() < to {
        let next = relation(random, &relations);
        relations.push(next);
    }
    Table { relations }
}

/// The own ten with some of them drawn anew; one whose parent is no longer right for it has none.
fn changed(random: &mut Random) -> Table {
    let (often, mut relations) = (random.pick(&[10, 30, 60]), Vec::new());
    for mut next in Table::own().relations {
        if random.percent(often) {
            next = relation(random, &relations);
        }
        let fits = |parent: &Relation| parent.columns == next.columns && parent.parent == 0;
        if next.parent > 0 && !fits(&relations[next.parent - 1]) {
            next.parent = 0;
        }
        relations.push(next);
    }
    Table { relations }
}

fn drawn(random: &mut Random) -> (&'static str, Table) {
    let none = Table { relations: vec![] };
    match random.below(20) {
        0 => ("the own ten", Table::own()),
        1..=3 => {
            let to = random.pick(&[11, 12, 14, 20, RELATIONS]);
            ("the own ten and more", grown(random, &Table::own(), to))
        }
        4..=7 => ("the own ten changed", changed(random)),
        8 => {
            let to = random.pick(&[12, RELATIONS]);
            let table = changed(random);
            ("the own ten changed and more", grown(random, &table, to))
        }
        9 => ("one relation", grown(random, &none, 1)),
        10..=13 => {
            let to = random.between(2, 6);
            ("a few relations", grown(random, &none, to))
        }
        14..=16 => ("32 relations", grown(random, &none, RELATIONS)),
        _ => {
            let to = random.between(7, RELATIONS - 1);
            ("some relations", grown(random, &none, to))
        }
    }
}

/// How a table is broken: by one rule alone in the first of these, then by what may leave a right one.
pub const BROKEN: [&str; 16] = [
    "empty",
    "a 33rd line",
    "a number out of order",
    "columns not 1 to 4",
    "a key not below the columns",
    "a parent that is not before",
    "a parent of other columns",
    "a parent with a parent",
    "not four fields",
    "a malformed field",
    "an unclosed line",
    "an empty line",
    "lines moved",
    "a field changed",
    "bytes damaged",
    "no table at all",
];

/// Wrong ways to write a number that a field of a table could be.
const MALFORMED: [&str; 12] = [
    "      -0",
    "      01",
    "        ",
    "       -",
    "      +1",
    "00000001",
    "1       ",
    "      1 ",
    "     1 2",
    "00000000",
    "      1e",
    "       \t",
];

/// A right table's bytes broken in one way; nothing where this table cannot be.
fn broken(random: &mut Random, table: &Table, way: usize) -> Option<Vec<u8>> {
    let mut lines = table.lines();
    let at = if random.percent(25) { lines.len() - 1 } else { random.below(lines.len()) };
    let (number, columns) = (at as i64 + 1, lines[at][1]);
    // Two places of which the second would do as the parent of the first but for one thing.
    let pairs = |wanted: &dyn Fn(usize, usize, bool, bool) -> bool| -> Vec<(usize, i64)> {
        let like = |one: usize, other: usize| table.relations[one].columns == table.relations[other].columns;
        let fits = |one: usize, other: usize| wanted(one, other, like(one, other), table.relations[other].parent > 0);
        let others = |one: usize| (0..table.last()).filter(move |other| fits(one, *other)).map(move |other| (one, other as i64 + 1));
        (0..table.last()).flat_map(others).collect()
    };
    match way {
        0 => return Some(vec![]),
        1 => {
            lines = grown(random, table, RELATIONS + 1).lines();
            let next = relation(random, &table.relations);
            lines[RELATIONS] = vec![33, next.columns as i64, next.key as i64, 0];
            let mut bytes = bytes_of(&lines);
            match random.below(5) {
                0 => bytes.truncate(33 * RELATIONS + random.between(1, 32)),
                1 => damage_bytes(random, &mut bytes),
                2 => bytes.extend_from_within(33 * RELATIONS..),
                3 => bytes = bytes.repeat(random.between(2, 20)),
                _ => {}
            }
            return Some(bytes);
        }
        2 => lines[at][0] = other_than(random, number, &[number - 1, number + 1, 0, 1, -number, 10 * number, 33, 99_999_999]),
        3 => lines[at][1..].copy_from_slice(&[random.pick(&[0, 5, 5, 6, -1, -columns, 44, 99_999_999]), 0, 0]),
        4 => lines[at][2] = random.pick(&[columns, columns, columns + 1, 4, -1, 99_999_999, -9_999_999]).max(-9_999_999),
        5 if random.percent(50) => lines[at][3] = random.pick(&[number, table.last() as i64 + 1, 33, -1, -number, 99_999_999]),
        5..=7 => {
            let parents = match way {
                5 => pairs(&|one, other, like, owes| other > one && like && !owes),
                6 => pairs(&|one, other, like, owes| other < one && !like && !owes),
                _ => pairs(&|one, other, like, owes| other < one && like && owes),
            };
            if parents.is_empty() {
                return None;
            }
            let (one, parent) = random.pick(&parents);
            lines[one][3] = parent;
        }
        8 => lines[at].resize(random.pick(&[1, 2, 3, 3, 5, 5, 6, 7]), 0),
        9 => {
            let mut bytes = bytes_of(&lines);
            let place = 33 * at + 8 * random.below(4);
            bytes[place..place + 8].copy_from_slice(random.pick(&MALFORMED).as_bytes());
            return Some(bytes);
        }
        10 => {
            let mut bytes = bytes_of(&lines);
            match random.below(3) {
                0 => drop(bytes.pop()),
                1 => bytes.truncate(bytes.len() - random.between(1, 32)),
                _ => bytes.extend_from_slice(random.pick(&["      11", " ", "x", "       1       1       0       0"]).as_bytes()),
            }
            return Some(bytes);
        }
        11 => lines.insert(random.between(0, lines.len()), vec![]),
        12 => match random.below(3) {
            0 => drop(lines.remove(at)),
            1 => lines.insert(at, lines[at].clone()),
            _ => {
                let other = random.below(lines.len());
                lines.swap(at, other);
            }
        },
        13 => {
            let (place, last) = (random.below(4), lines.len());
            lines[at][place] = match random.below(3) {
                0 => lines[at][place] + random.pick(&[-1, 1]),
                1 => random.between(0, 5) as i64,
                _ => random.between(0, last) as i64,
            };
        }
        14 => {
            let mut bytes = bytes_of(&lines);
            for _ in 0..random.pick(&[1, 1, 2, 3]) {
                damage_bytes(random, &mut bytes);
            }
            return Some(bytes);
        }
        _ => {
            let table = Table::own();
            return Some(if random.percent(30) { bytes_of(&right(random, &table)) } else { random_bytes(random, 2_000) });
        }
    }
    Some(bytes_of(&lines))
}

/// One of these that is another.
fn other_than(random: &mut Random, one: i64, from: &[i64]) -> i64 {
    let others: Vec<i64> = from.iter().copied().filter(|n| *n != one).collect();
    random.pick(&others)
}

/// One atom of another relation than the table has, or of one with other columns.
pub fn misname(random: &mut Random, table: &Table, lines: &mut Lines) {
    let atoms: Vec<usize> = (0..lines.len()).filter(|at| lines[*at][0] == 4 && lines[*at].len() > 1).collect();
    if atoms.is_empty() {
        return;
    }
    let (at, last) = (random.pick(&atoms), table.last() as i64);
    let any = random.between(1, RELATIONS) as i64;
    lines[at][1] = random.pick(&[last + 1, last + 1, last, 0, RELATIONS as i64, RELATIONS as i64 + 1, 10, 11, any, -1]);
}

/// What is counted of sheets and their tables, each with each verdict.
pub const COUNTED: [&str; 14] = [
    "table of 1 relation",
    "table of 32 relations",
    "names the 32nd relation",
    "names a relation past the tenth",
    "names a relation unlike the own ten's of its number",
    "names a relation with a key of 1 column",
    "names a relation with a key of 2 columns",
    "names a relation with a key of 3 columns",
    "names a relation of 4 columns with a key",
    "names a relation that owes rows",
    "names a relation that owes rows to one with a key",
    "names a relation with a key that owes rows",
    "names a relation with a key that owes rows to one with another",
    "names two relations that owe one parent rows",
];

/// What of that a sheet meets.
pub fn met(sheet: &Sheet) -> Vec<&'static str> {
    let (table, named, own) = (&sheet.table, sheet.relations(), Table::own());
    let key = |relation: usize| table.key(relation);
    let parents_key = |relation: usize| table.parent(relation).and_then(|parent| table.key(parent));
    let any = |holds: &dyn Fn(usize) -> bool| named.iter().any(|relation| holds(*relation));
    let unlike = |relation: usize| relation <= own.last() && table.relations[relation - 1] != own.relations[relation - 1];
    let beside = |relation: usize| any(&|other| other != relation && table.parent(other) == table.parent(relation));
    let holds = [
        table.last() == 1,
        table.last() == RELATIONS,
        any(&|relation| relation == RELATIONS),
        any(&|relation| relation > own.last()),
        any(&unlike),
        any(&|relation| key(relation) == Some(1)),
        any(&|relation| key(relation) == Some(2)),
        any(&|relation| key(relation) == Some(3)),
        any(&|relation| table.columns(relation) == COLUMNS && key(relation).is_some()),
        any(&|relation| table.parent(relation).is_some()),
        any(&|relation| parents_key(relation).is_some()),
        any(&|relation| table.parent(relation).is_some() && key(relation).is_some()),
        any(&|relation| parents_key(relation).is_some() && key(relation).is_some() && key(relation) != parents_key(relation)),
        any(&|relation| table.parent(relation).is_some() && beside(relation)),
    ];
    COUNTED.into_iter().zip(holds).filter(|(_, holds)| *holds).map(|(name, _)| name).collect()
}
