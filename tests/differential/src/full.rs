//! Sheets to judge up to every limit, many of them exactly at one, and which limits a sheet meets.

use crate::generate::{any, atom, closed, facts, family, head, list_like, obeying, part, share_keys, taken, with_view, Lines, Stock};
use crate::large::{answers, Steps};
use crate::meaning::Fact;
use crate::random::Random;
use crate::sheet::{Block, Sheet, MOST_CONSTANT};
use crate::table::Table;

const LISTS: usize = 4;
const VIEWS: usize = 8;
const ROWS: usize = 40;
const ASKED: usize = 6;
const VIEWED: usize = 3;
const VARIABLES: usize = 12;
const COLUMNS_ASKED: usize = 4;

/// The limits that are counted, and five or six of them at once.
pub const LIMITS: [&str; 11] = [
    "4 lists",
    "8 views",
    "40 rows",
    "40 rows in one view",
    "6 atoms in the question",
    "6 atoms in every list",
    "3 atoms in every view",
    "4 columns in question and list",
    "8 views, 40 rows, 6 and 6 atoms, 3 in every view",
    "107 lines",
    "12 variables in a block",
];

fn variables(block: &Block) -> usize {
    let mut all: Vec<i64> = block.atoms.iter().flat_map(|a| a.terms.iter().copied()).filter(|t| *t < 0).collect();
    all.sort();
    all.dedup();
    all.len()
}

/// The limits that a sheet meets.
pub fn met(sheet: &Sheet) -> Vec<&'static str> {
    let views = sheet.views();
    let rows = |view: &Block| view.rows.len();
    let eight = views.len() == VIEWS;
    let forty = views.iter().map(rows).sum::<usize>() == ROWS;
    let four = sheet.lists().len() == LISTS;
    let (question, list) = (sheet.question().atoms.len() == ASKED, sheet.lists().iter().all(|list| list.atoms.len() == ASKED));
    let three = !views.is_empty() && views.iter().all(|view| view.atoms.len() == VIEWED);
    let holds = [
        four,
        eight,
        forty,
        views.iter().map(rows).max() == Some(ROWS),
        question,
        list,
        three,
        sheet.question().head.len() == COLUMNS_ASKED,
        eight && forty && question && list && three,
        four && eight && forty && question && list && three,
        sheet.blocks.iter().any(|block| variables(block) == VARIABLES),
    ];
    LIMITS.into_iter().zip(holds).filter(|(_, holds)| *holds).map(|(name, _)| name).collect()
}

/// A block whose atoms mostly share variables with those before them.
fn linked(random: &mut Random, stock: &Stock, kind: i64, columns: usize, count: usize) -> Lines {
    let mut atoms: Lines = Vec::new();
    for _ in 0..count {
        let mut line = atom(random, stock);
        let before: Vec<i64> = atoms.iter().flat_map(|a| a[2..].iter().copied()).filter(|t| *t < 0).collect();
        if !before.is_empty() && random.percent(85) {
            let place = random.between(2, line.len() - 1);
            line[place] = random.pick(&before);
        }
        atoms.push(line);
    }
    share_keys(random, stock, &mut atoms);
    [vec![head(random, stock, kind, columns, &atoms)], atoms].concat()
}

/// Gives the places of variables as many variables as a block may have, one after the other.
fn spread(atoms: &mut Lines) {
    let places = atoms.iter_mut().flat_map(|line| line[2..].iter_mut()).filter(|term| **term < 0);
    places.enumerate().for_each(|(at, term)| *term = -(1 + (at % VARIABLES) as i64));
}

/// The answers of a view's lines on a log as rows' lines, where they are at most so many.
fn rows_on(table: &Table, view: &Lines, log: &[Fact], most: usize) -> Option<Lines> {
    let sheet = taken(table, &with_view(table, view))?;
    let view = &sheet.views()[0];
    let found = answers(table, view, log, &Steps::new(20_000))?;
    let row = |a: [i64; 4]| std::iter::once(5).chain(a[..view.head.len()].iter().copied()).collect();
    (found.len() <= most).then(|| found.into_iter().map(row).collect())
}

/// A view that lists a relation whole, in one atom or in three that the same fact meets.
fn whole_view(random: &mut Random, table: &Table, relation: usize, atoms: usize) -> Lines {
    let columns = table.columns(relation);
    let own: Vec<i64> = (1..=columns as i64).map(|c| -c).collect();
    let mut lines = vec![[vec![3], own.clone()].concat(), [vec![4, relation as i64], own.clone()].concat()];
    for more in 1..atoms {
        let mut terms = own.clone();
        for term in terms.iter_mut().filter(|_| random.percent(50)) {
            *term -= (columns * more) as i64;
        }
        lines.push([vec![4, relation as i64], terms].concat());
    }
    lines
}

/// So many rows of so many columns, of a few values and of any, no two of them alike in the first so many.
fn some_rows(random: &mut Random, columns: usize, key: usize, count: usize, values: &[i64]) -> Lines {
    let mut rows: Lines = Vec::new();
    while rows.len() < count {
        let often = if columns < 3 { 50 } else { 10 };
        let row: Vec<i64> =
            std::iter::once(5).chain((0..columns).map(|_| if random.percent(often) { any(random) } else { random.pick(values) })).collect();
        if !rows.iter().any(|other| other[..=key] == row[..=key]) {
            rows.push(row);
        }
    }
    rows.sort();
    rows
}

fn shuffle(random: &mut Random, relations: &mut [usize]) {
    let last = relations.len() - 1;
    (0..=last).for_each(|at| relations.swap(at, random.between(at, last)));
}

/// How many of something: as many as may be, or fewer.
fn size(random: &mut Random, full: bool, often: usize, least: usize, most: usize) -> usize {
    if full || random.percent(often) {
        most
    } else {
        random.between(least, most)
    }
}

/// A sheet whose rows are what a log gives its views, but for a few. One view lists a relation whole, and fills the rows up.
fn drawn(random: &mut Random, table: &Table) -> Option<Lines> {
    let full = random.percent(30);
    let views = size(random, full, 50, 2, VIEWS);
    let mut left = size(random, full, 60, 8, ROWS);
    let mut relations: Vec<usize> = (1..=table.last()).collect();
    shuffle(random, &mut relations);
    if !table.is_own() && random.percent(80) {
        // A relation and its parent, which would seldom be drawn together.
        let first = family(random, table, &[]);
        relations.sort_by_key(|relation| !first.contains(relation));
        let last = relations.len() - 1;
        relations.swap(last, random.pick(&[0, 1, last, last, last]).min(last));
    }
    let filling = relations.pop().unwrap();
    let free = relations.pop().unwrap_or(filling);
    relations.truncate(random.between(2, 5));
    if relations.is_empty() {
        relations.push(free);
    }
    let mut values: Vec<i64> = (1..=random.between(2, 9) as i64).collect();
    values.extend([0, MOST_CONSTANT].into_iter().filter(|_| random.percent(30)));
    let stock = Stock {
        table,
        relations: relations.clone(),
        constants: values.clone(),
        variables: random.between(3, 12),
        fixed: random.pick(&[5, 15, 30]),
    };
    let count = random.between(4, 24);
    let log = facts(random, table, &relations, &values, count);
    let log = if random.percent(90) { closed(table, log) } else { log };
    let log = if random.percent(90) { obeying(table, log) } else { log };
    let (mut shown, mut atoms) = (Lines::new(), Lines::new());
    for _ in 0..views - 1 {
        let mut tries = 0;
        let (view, listed) = loop {
            tries += 1;
            let columns = random.pick(&[0, 1, 1, 2, 2, 3, 4]);
            let count = if full { VIEWED } else { random.between(1, VIEWED) };
            let view = linked(random, &stock, 3, columns, count);
            match rows_on(table, &view, &log, left.min(10)) {
                Some(listed) => break (view, listed),
                None if tries > 40 => return None,
                None => {}
            }
        };
        let mut listed = listed;
        if random.percent(7) && !listed.is_empty() {
            listed.remove(random.below(listed.len()));
        }
        left -= listed.len();
        atoms.extend(view[1..].to_vec());
        shown.extend(view);
        shown.extend(listed);
    }
    let count = if full { VIEWED } else { random.pick(&[1, VIEWED]) };
    shown.extend(whole_view(random, table, filling, count));
    let columns = table.columns(filling);
    let key = table.settling(filling).filter(|_| random.percent(90)).unwrap_or(columns);
    shown.extend(some_rows(random, columns, key, left, &values));
    // The question asks for what the views show, for the relation that is listed whole, and for one that no view shows.
    let mut asked = Lines::new();
    let mut wide = Stock { relations: relations.clone(), ..stock };
    wide.relations.extend([filling, free, free]);
    for _ in 0..size(random, full, 60, 1, ASKED) {
        if !atoms.is_empty() && random.percent(50) {
            asked.push(random.pick(&atoms));
        } else {
            asked.extend(linked(random, &wide, 1, 0, 1).split_off(1));
        }
    }
    if random.percent(20) {
        spread(&mut asked);
    }
    let columns = if random.percent(15) { COLUMNS_ASKED } else { random.pick(&[0, 1, 1, 2]) };
    let question = [vec![head(random, &wide, 1, columns, &asked)], asked].concat();
    let wanted = size(random, full, 50, 1, ASKED);
    let mut lists = Lines::new();
    for _ in 0..if full { random.pick(&[1, LISTS]) } else { random.pick(&[1, 1, 2, 3, LISTS]) } {
        let mut list = match random.below(4) {
            0 => linked(random, &wide, 2, columns, wanted),
            1 => part(random, &values, &question),
            _ => list_like(random, &wide, &question),
        };
        // The list wants more than the question, so that rows decide.
        if list.len() < 1 + ASKED && random.percent(60) {
            list.push(random.pick(&atoms));
        }
        while full && list.len() < 1 + ASKED {
            let again = random.between(1, list.len() - 1);
            list.push(if random.percent(70) { list[again].clone() } else { random.pick(&atoms) });
        }
        lists.extend(list);
    }
    let lines = [question, lists, shown].concat();
    taken(table, &lines).map(|_| lines)
}

/// A sheet with listed rows of three facts each that no other row gives, and a question of six more: cases of 126 facts, and of 252 where
/// all owe a row each, as beats and noise do. Rows are told apart by the first two columns; where one settles the other there is no such
/// sheet.
fn largest(random: &mut Random, table: &Table) -> Option<Lines> {
    let all = 1..=table.last();
    let (wide, narrow): (Vec<usize>, Vec<usize>) = all.partition(|relation| table.columns(*relation) > 1);
    let mut relations: Vec<usize> = wide.into_iter().filter(|relation| table.settling(*relation) != Some(1)).collect();
    if relations.is_empty() {
        return None;
    }
    let owed: Vec<usize> = relations.iter().copied().filter(|relation| table.parent(*relation).is_some()).collect();
    let owing = random.percent(40) && !owed.is_empty();
    shuffle(random, &mut relations);
    let others = if relations.len() > VIEWED { relations.split_off(VIEWED) } else { relations.clone() };
    let mut rest: Vec<usize> = others.into_iter().chain(narrow).cycle().take(10).collect();
    if owing {
        relations = owed.iter().copied().cycle().take(VIEWED).collect();
        rest = owed.into_iter().cycle().take(ASKED).collect();
    }
    // Atoms of one relation in a view have numbers of their own.
    let apart = owing || relations.len() < VIEWED;
    relations = relations.into_iter().cycle().take(VIEWED).collect();
    let mut next = 0;
    let mut term = |random: &mut Random, often: usize| {
        next += 1;
        if next <= 12 && random.percent(often) {
            -(next as i64)
        } else {
            random.below(20) as i64
        }
    };
    let asked: Lines = rest[..ASKED]
        .iter()
        .map(|r| [4, *r as i64].into_iter().chain((0..table.columns(*r)).map(|_| term(random, 60))).collect())
        .collect();
    let question = [vec![vec![1]], asked].concat();
    let mut lines = question.clone();
    for _ in 0..random.pick(&[1, 1, 2, LISTS]) {
        let mut list = question.clone();
        list[0][0] = 2;
        // The list wants a number that the question does not, or no more than the question.
        let at = random.between(1, ASKED);
        if random.percent(85) {
            let place = random.between(2, list[at].len() - 1);
            list[at][place] = 500 + random.below(5) as i64;
        }
        lines.extend(list);
    }
    let (mut left, mut shift) = (ROWS, 1);
    for view in 0..VIEWS {
        let count = if view + 1 == VIEWS { left } else { random.below(left.min(11) + 1) };
        left -= count;
        shift += if random.percent(8) { 0 } else { 1 };
        let atom = |(at, relation): (usize, &usize)| {
            let more = (2..table.columns(*relation)).map(|column| -((2 + 4 * at + column) as i64));
            let own = if apart { 1_000 * at as i64 } else { 0 };
            [4, *relation as i64, -1, 100 + shift + own].into_iter().chain(more).map(|t| t.max(-12)).collect()
        };
        lines.push(vec![3, -1]);
        lines.extend(relations.iter().enumerate().map(atom).collect::<Lines>());
        lines.extend(some_rows(random, 1, 1, count, &[1, 2, 3, 4, 5, 6, 7, 8]));
    }
    Some(lines)
}

/// A sheet to judge, up to the limits, and the name of what it is.
pub fn sheet(random: &mut Random, table: &Table) -> (&'static str, Lines) {
    if random.percent(12) {
        if let Some(lines) = largest(random, table) {
            return ("up to the limits, large cases", lines);
        }
    }
    loop {
        if let Some(lines) = drawn(random, table) {
            return ("up to the limits", lines);
        }
    }
}
