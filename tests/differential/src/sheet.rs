//! Sheets: bytes or words taken apart into lines, the lines into blocks, and back. Written from the format's description alone.

use crate::slips::{is, Slip};
use crate::table::Table;

/// Constants are 0 to this.
pub const MOST_CONSTANT: i64 = 9_999_999;

#[derive(Clone, Copy, Debug, PartialEq, Eq)]
pub struct Refusal {
    pub number: usize,
    pub line: usize,
}

pub type Taken<T> = Result<T, Refusal>;

pub fn refuse<T>(number: usize, line: usize) -> Taken<T> {
    Err(Refusal { number, line })
}

#[derive(Clone, Debug)]
pub struct Atom {
    pub relation: usize,
    pub terms: Vec<i64>,
}

/// A head, its atoms and, for a view, its listed rows. Kind and line are the head's.
#[derive(Clone, Debug)]
pub struct Block {
    pub kind: i64,
    pub line: usize,
    pub head: Vec<i64>,
    pub atoms: Vec<Atom>,
    pub rows: Vec<Vec<i64>>,
}

/// The question, the lists, then the views; and the table that they were taken by, which says which logs count.
#[derive(Clone, Debug)]
pub struct Sheet {
    pub table: Table,
    pub blocks: Vec<Block>,
}

impl Sheet {
    pub fn question(&self) -> &Block {
        &self.blocks[0]
    }

    /// How many blocks come before the views.
    pub fn first_view(&self) -> usize {
        self.blocks.iter().filter(|b| b.kind < 3).count()
    }

    pub fn lists(&self) -> &[Block] {
        &self.blocks[1..self.first_view()]
    }

    pub fn views(&self) -> &[Block] {
        &self.blocks[self.first_view()..]
    }

    pub fn without_views(&self) -> Sheet {
        Sheet { table: self.table.clone(), blocks: self.blocks[..self.first_view()].to_vec() }
    }

    /// The same blocks by another table, which has their relations with the same columns.
    pub fn by(&self, table: Table) -> Sheet {
        Sheet { table, blocks: self.blocks.clone() }
    }

    /// The relations that atoms name, ascending.
    pub fn relations(&self) -> Vec<usize> {
        let mut all: Vec<usize> = self.blocks.iter().flat_map(|b| b.atoms.iter().map(|a| a.relation)).collect();
        all.sort();
        all.dedup();
        all
    }

    /// The constants that stand in heads, atoms and rows, ascending.
    pub fn constants(&self) -> Vec<i64> {
        let mut all = Vec::new();
        for block in &self.blocks {
            all.extend(block.head.iter().chain(block.atoms.iter().flat_map(|a| &a.terms)).chain(block.rows.iter().flatten()));
        }
        all.retain(|t| *t >= 0);
        all.sort();
        all.dedup();
        all
    }
}

/// A line's fields, or nothing where the line is malformed.
pub type Fields = Option<Vec<i64>>;

/// A field is the number that would be printed in exactly these eight bytes.
fn field(bytes: &[u8]) -> Option<i64> {
    let text = std::str::from_utf8(bytes).ok()?;
    let number = text.trim_start_matches(' ').parse::<i64>().ok()?;
    let same = format!("{number:>8}").as_bytes() == bytes;
    (same || is(Slip::MinusZeroTaken) && text.ends_with(" -0")).then_some(number)
}

fn fields(line: &[u8]) -> Fields {
    if line.is_empty() || line.len() % 8 != 0 || line.len() > 48 {
        return None;
    }
    line.chunks(8).map(field).collect()
}

/// The lines of a sheet. What follows the last byte 10 is one more line, a malformed one, unless nothing follows.
pub fn lines_of_bytes(sheet: &[u8]) -> Vec<Fields> {
    let mut parts: Vec<&[u8]> = sheet.split(|b| *b == 10).collect();
    let rest = parts.pop().unwrap();
    let mut lines: Vec<Fields> = parts.into_iter().map(fields).collect();
    if !rest.is_empty() {
        lines.push(if is(Slip::UnclosedLastLineTaken) { fields(rest) } else { None });
    }
    lines
}

pub fn lines_of_words(words: &[i32]) -> Vec<Fields> {
    let line = |line: &[i32]| {
        let count = usize::try_from(line[0]).ok().filter(|n| (1..=6).contains(n))?;
        let used = line[1..=count].iter().map(|w| *w as i64).collect::<Vec<i64>>();
        let fits = |w: &i64| (-9_999_999..=99_999_999).contains(w) || is(Slip::WideNumberTaken);
        let clean = line[1 + count..].iter().all(|w| *w == 0) || is(Slip::UnusedWordUnasked);
        (clean && used.iter().all(fits)).then_some(used)
    };
    words.chunks(7).map(line).collect()
}

fn term_in_range(term: i64) -> bool {
    let top = if is(Slip::ConstantOneTooHigh) { MOST_CONSTANT + 1 } else { MOST_CONSTANT };
    let last = if is(Slip::VariableThirteen) { -13 } else { -12 };
    (last..=top).contains(&term)
}

/// The blocks that lines make up by a table. Causes are asked for line by line, each line's in their order; then for the whole.
pub fn blocks(table: &Table, lines: &[Fields]) -> Taken<Sheet> {
    let mut blocks: Vec<Block> = Vec::new();
    let mut before = 0;
    for (at, fields) in lines.iter().enumerate() {
        let line = at + 1;
        let Some(fields) = fields else { return refuse(2, line) };
        let (kind, rest) = (fields[0], &fields[1..]);
        // 3: the kind, its place, its field count.
        let in_place = match kind {
            1 => line == 1,
            2 => blocks.last().is_some_and(|b| b.kind < 3),
            3 => blocks.iter().any(|b| b.kind == 2),
            4 => (1..=4).contains(&before),
            5 => {
                blocks.last().is_some_and(|b| b.kind == 3)
                    && (before == 4 || before == 5 || before == 3 && is(Slip::RowAfterViewHeadLeftTo8))
            }
            _ => false,
        };
        let counted = if kind == 4 { (3..=6).contains(&fields.len()) } else { fields.len() <= 5 };
        if !in_place || !counted {
            return refuse(3, line);
        }
        // 4 and 5: an atom's relation, then its terms; the other kinds have terms alone.
        let terms = if kind == 4 { &rest[1..] } else { rest };
        let relation_wrong = kind == 4 && !(table.has(rest[0]) && table.columns(rest[0] as usize) == terms.len());
        let term_wrong = terms.iter().any(|t| !term_in_range(*t) || kind == 5 && *t < 0);
        if is(Slip::TermsBeforeRelation) && term_wrong {
            return refuse(5, line);
        }
        if relation_wrong {
            return refuse(4, line);
        }
        if term_wrong {
            return refuse(5, line);
        }
        // 6: one too many.
        let most_atoms = if blocks.last().is_some_and(|b| b.kind == 3) { 3 } else { 6 };
        let most_lists = if is(Slip::FifthListTaken) { 5 } else { 4 };
        let of_kind = |kind: i64| blocks.iter().filter(|b| b.kind == kind).count();
        let rows: usize = blocks.iter().map(|b| b.rows.len()).sum();
        let most_rows = if is(Slip::ThirtyNineRows) { 39 } else { 40 };
        let too_many = match kind {
            2 => of_kind(2) == most_lists,
            3 => of_kind(3) == 8,
            4 => blocks.last().unwrap().atoms.len() == most_atoms,
            5 => rows == most_rows,
            _ => false,
        };
        if too_many {
            return refuse(6, line);
        }
        // 7: lengths.
        let length_wrong = match kind {
            2 => terms.len() != blocks[0].head.len() && !is(Slip::HeadsOfEqualLengthUnasked),
            5 => terms.len() != blocks.last().unwrap().head.len(),
            _ => false,
        };
        if length_wrong {
            return refuse(7, line);
        }
        // 9: a row above the one before in its view.
        if kind == 5 {
            let above = |last: &Vec<i64>| terms > &last[..] || terms == &last[..] && is(Slip::EqualRowsTaken);
            if !blocks.last().unwrap().rows.last().is_none_or(above) {
                return refuse(9, line);
            }
        }
        match kind {
            4 => blocks.last_mut().unwrap().atoms.push(Atom { relation: rest[0] as usize, terms: terms.to_vec() }),
            5 => blocks.last_mut().unwrap().rows.push(terms.to_vec()),
            _ => blocks.push(Block { kind, line, head: terms.to_vec(), atoms: vec![], rows: vec![] }),
        }
        before = kind;
    }
    if !blocks.iter().any(|b| b.kind == 2) {
        return refuse(3, 0);
    }
    for block in &blocks {
        let safe = |t: &i64| *t >= 0 || block.atoms.iter().any(|a| a.terms.contains(t));
        if block.atoms.is_empty() || !block.head.iter().all(safe) {
            return refuse(8, block.line);
        }
    }
    Ok(Sheet { table: table.clone(), blocks })
}

/// The table that a sheet's relations are asked for in.
fn asked_in(table: &Table) -> Table {
    if is(Slip::RelationsByOwnTen) {
        Table::own()
    } else {
        table.clone()
    }
}

/// A sheet's bytes taken whole: its lines and its blocks.
pub fn of_bytes(table: &Table, sheet: &[u8]) -> Taken<(Vec<Vec<i64>>, Sheet)> {
    if sheet.len() > 8192 {
        return refuse(1, 0);
    }
    let lines = lines_of_bytes(sheet);
    let taken = blocks(&asked_in(table), &lines)?;
    Ok((lines.into_iter().flatten().collect(), taken))
}

pub fn of_words(table: &Table, words: &[i32]) -> Taken<Vec<Vec<i64>>> {
    if words.len() > 749 {
        return refuse(1, 0);
    }
    if words.len() % 7 != 0 {
        return refuse(2, 0);
    }
    let lines = lines_of_words(words);
    blocks(&asked_in(table), &lines)?;
    Ok(lines.into_iter().flatten().collect())
}

pub fn bytes_of(lines: &[Vec<i64>]) -> Vec<u8> {
    let mut bytes = String::new();
    for line in lines {
        for field in line {
            bytes += &format!("{field:>8}");
        }
        bytes.push('\n');
    }
    bytes.into_bytes()
}

pub fn words_of(lines: &[Vec<i64>]) -> Vec<i32> {
    let mut words = Vec::new();
    for line in lines {
        words.push(line.len() as i32);
        words.extend((0..6).map(|at| line.get(at).copied().unwrap_or(0) as i32));
    }
    words
}

/// What reading does: the number form, or a refusal.
pub fn read(table: &Table, sheet: &[u8], lent: usize) -> Taken<Vec<i32>> {
    let (lines, _) = of_bytes(table, sheet)?;
    if lent < 749 {
        return refuse(13, 0);
    }
    Ok(words_of(&lines))
}

/// What writing does: the bytes, or a refusal.
pub fn write(table: &Table, words: &[i32], lent: usize) -> Taken<Vec<u8>> {
    let lines = of_words(table, words)?;
    if lent < 5243 {
        return refuse(13, 0);
    }
    Ok(bytes_of(&lines))
}

/// Where line `number` stands: its start and length; (0, 0) for a line that is not there or is not closed.
pub fn line(sheet: &[u8], number: usize) -> (usize, usize) {
    let mut ends: Vec<usize> = (0..sheet.len()).filter(|at| sheet[*at] == 10).collect();
    if is(Slip::UnclosedLineHandedBack) && ends.last().map_or(0, |end| end + 1) < sheet.len() {
        ends.push(sheet.len());
    }
    let number = if is(Slip::LineNumberedFromZero) { number.saturating_add(1) } else { number };
    if number == 0 || number > ends.len() {
        return (0, 0);
    }
    let start = if number == 1 { 0 } else { ends[number - 2] + 1 };
    (start, ends[number - 1] - start)
}
