//! Sheets: bytes to blocks, with what a sheet is sent back for, and blocks to bytes.

/// Columns of the relations 1 to 10; there is no relation 0.
pub const COLUMNS: [usize; 11] = [0, 2, 1, 3, 2, 2, 2, 3, 2, 4, 1];
/// The relation that must have each row of a relation as well: beats and noise are signals.
pub fn owed_to(relation: usize) -> Option<usize> {
    (relation == 5 || relation == 6).then_some(4)
}

/// How many first columns of a relation settle the others: strap and session a rower, strap and tick a rate.
pub fn key_of(relation: usize) -> Option<usize> {
    (relation == 3 || relation == 7).then_some(2)
}

pub const NAMES: [&str; 11] = ["", "Rower", "Strap", "Worn", "Sig", "Beat", "Noise", "Pulse", "Coach", "Seat", "Pause"];

const MOST_BYTES: usize = 8192;
pub const MOST_CONSTANT: i32 = 9_999_999;
const MOST_VARIABLE: i32 = 12;
const MOST_ATOMS: usize = 6;
const MOST_VIEW_ATOMS: usize = 3;
pub const MOST_LISTS: usize = 4;
pub const MOST_VIEWS: usize = 8;
pub const MOST_ROWS: usize = 40;

#[derive(Clone, Debug, PartialEq, Eq)]
pub struct Atom {
    pub relation: usize,
    pub terms: Vec<i32>,
}

#[derive(Clone, Debug, PartialEq, Eq)]
pub struct Block {
    pub head: Vec<i32>,
    pub atoms: Vec<Atom>,
}

#[derive(Clone, Debug, PartialEq, Eq)]
pub struct View {
    pub block: Block,
    pub rows: Vec<Vec<i32>>,
}

#[derive(Clone, Debug, PartialEq, Eq)]
pub struct Sheet {
    pub question: Block,
    pub lists: Vec<Block>,
    pub views: Vec<View>,
}

impl Sheet {
    /// The same sheet with every constant so much higher.
    pub fn raised(mut self, by: i32) -> Sheet {
        let views = self.views.iter_mut();
        let (blocks, rows): (Vec<_>, Vec<_>) = views.map(|v| (&mut v.block, &mut v.rows)).unzip();
        let of = |b: &mut Block| b.head.iter_mut().chain(b.atoms.iter_mut().flat_map(|a| a.terms.iter_mut())).for_each(|t| raise(t, by));
        std::iter::once(&mut self.question).chain(&mut self.lists).chain(blocks).for_each(of);
        rows.into_iter().flatten().flatten().for_each(|t| raise(t, by));
        self
    }
}

fn raise(term: &mut i32, by: i32) {
    if *term >= 0 {
        *term += by;
    }
}

/// The number and the line for which a sheet is sent back.
#[derive(Clone, Copy, Debug, PartialEq, Eq)]
pub struct Refusal {
    pub number: usize,
    pub line: usize,
}

/// The number that eight bytes are: blanks, a sign, digits without leading zero.
fn field(bytes: &[u8]) -> Option<i32> {
    let start = bytes.iter().position(|&b| b != b' ')?;
    let digits = &bytes[start + (bytes[start] == b'-') as usize..];
    let negative = bytes[start] == b'-';
    let zero = digits.first() == Some(&b'0');
    if digits.is_empty() || !digits.iter().all(u8::is_ascii_digit) || zero && (negative || digits.len() > 1) {
        return None;
    }
    let value = digits.iter().fold(0, |n, &d| n * 10 + (d - b'0') as i32);
    Some(if negative { -value } else { value })
}

/// A line's fields, without its byte 10.
pub fn fields(line: &[u8]) -> Option<Vec<i32>> {
    if line.len() % 8 != 0 || line.is_empty() || line.len() > 48 {
        return None;
    }
    line.chunks(8).map(field).collect()
}

/// What has been read so far: blocks with the lines of their heads, how many of them are lists, and the kind of the last line.
#[derive(Default)]
struct Reader {
    blocks: Vec<(Block, usize)>,
    lists: usize,
    rows: Vec<Vec<Vec<i32>>>,
    last: i32,
}

impl Reader {
    /// Takes a line, or gives the number for which it is sent back.
    fn take(&mut self, fields: &[i32], line: usize) -> Result<(), usize> {
        let (kind, rest) = (fields[0], &fields[1..]);
        let count = self.blocks.len();
        let in_view = count > 1 + self.lists;
        let in_place = match kind {
            1 => count == 0,
            2 => count > 0 && !in_view,
            3 => self.lists > 0,
            4 => (1..=4).contains(&self.last),
            5 => in_view && (self.last == 4 || self.last == 5),
            _ => false,
        };
        let counts = if kind == 4 { 3..=6 } else { 1..=5 };
        if !in_place || !counts.contains(&fields.len()) {
            return Err(3);
        }
        let relation = if kind == 4 { rest[0] } else { 0 };
        if kind == 4 && (!(1..=10).contains(&relation) || COLUMNS[relation as usize] != rest.len() - 1) {
            return Err(4);
        }
        let terms = if kind == 4 { &rest[1..] } else { rest };
        let least = if kind == 5 { 0 } else { -MOST_VARIABLE };
        if !terms.iter().all(|t| (least..=MOST_CONSTANT).contains(t)) {
            return Err(5);
        }
        let too_many = match kind {
            2 => self.lists == MOST_LISTS,
            3 => count - 1 - self.lists == MOST_VIEWS,
            4 => self.blocks[count - 1].0.atoms.len() == if in_view { MOST_VIEW_ATOMS } else { MOST_ATOMS },
            5 => self.rows.iter().map(Vec::len).sum::<usize>() == MOST_ROWS,
            _ => false,
        };
        if too_many {
            return Err(6);
        }
        let wanted = match kind {
            2 => self.blocks[0].0.head.len(),
            5 => self.blocks[count - 1].0.head.len(),
            _ => terms.len(),
        };
        if terms.len() != wanted {
            return Err(7);
        }
        match kind {
            4 => self.blocks[count - 1].0.atoms.push(Atom { relation: relation as usize, terms: terms.to_vec() }),
            5 => {
                let rows = &mut self.rows[count - 1];
                if rows.last().is_some_and(|row| row.as_slice() >= terms) {
                    return Err(9);
                }
                rows.push(terms.to_vec());
            }
            _ => {
                self.blocks.push((Block { head: terms.to_vec(), atoms: Vec::new() }, line));
                self.rows.push(Vec::new());
                self.lists += (kind == 2) as usize;
            }
        }
        self.last = kind;
        Ok(())
    }
}

/// A sheet's blocks, or why it is sent back.
pub fn read(bytes: &[u8]) -> Result<Sheet, Refusal> {
    let refused = |number, line| Err(Refusal { number, line });
    if bytes.len() > MOST_BYTES {
        return refused(1, 0);
    }
    let mut reader = Reader::default();
    for (at, line) in bytes.split_inclusive(|&b| b == 10).enumerate() {
        let Some(fields) = line.strip_suffix(&[10]).and_then(fields) else {
            return refused(2, at + 1);
        };
        if let Err(number) = reader.take(&fields, at + 1) {
            return refused(number, at + 1);
        }
    }
    if reader.lists == 0 {
        return refused(3, 0);
    }
    for (block, line) in &reader.blocks {
        let held = |t: &i32| block.atoms.iter().any(|a| a.terms.contains(t));
        if block.atoms.is_empty() || !block.head.iter().all(|t| *t >= 0 || held(t)) {
            return refused(8, *line);
        }
    }
    let mut blocks = reader.blocks.into_iter().map(|(block, _)| block);
    let question = blocks.next().unwrap();
    let lists: Vec<Block> = blocks.by_ref().take(reader.lists).collect();
    let views = blocks.zip(reader.rows.into_iter().skip(1 + reader.lists)).map(|(block, rows)| View { block, rows }).collect();
    Ok(Sheet { question, lists, views })
}

fn put_line(out: &mut Vec<u8>, kind: i32, fields: &[i32]) {
    for number in std::iter::once(&kind).chain(fields) {
        out.extend(format!("{number:>8}").bytes());
    }
    out.push(10);
}

fn put_block(out: &mut Vec<u8>, kind: i32, block: &Block) {
    put_line(out, kind, &block.head);
    for atom in &block.atoms {
        let mut fields = vec![atom.relation as i32];
        fields.extend(&atom.terms);
        put_line(out, 4, &fields);
    }
}

/// The bytes of a sheet.
pub fn write(sheet: &Sheet) -> Vec<u8> {
    let mut out = Vec::new();
    put_block(&mut out, 1, &sheet.question);
    for list in &sheet.lists {
        put_block(&mut out, 2, list);
    }
    for view in &sheet.views {
        put_block(&mut out, 3, &view.block);
        for row in &view.rows {
            put_line(&mut out, 5, row);
        }
    }
    out
}

/// A block in short, "(s,7): Sig(s,t), Pause(7)": words that start with a letter are variables.
pub fn block(text: &str) -> Block {
    let (head, body) = text.split_once(':').expect("a head and its atoms");
    let mut known: Vec<String> = Vec::new();
    let mut terms = |list: &str| -> Vec<i32> {
        let inner = list.trim().trim_start_matches('(').trim_end_matches(')');
        let words = inner.split(',').map(str::trim).filter(|w| !w.is_empty());
        words
            .map(|w| {
                w.parse().unwrap_or_else(|_| {
                    let at = known.iter().position(|k| k == w).unwrap_or_else(|| {
                        known.push(w.to_string());
                        known.len() - 1
                    });
                    -1 - at as i32
                })
            })
            .collect()
    };
    let head = terms(head);
    let atoms = body.split_inclusive(')').map(|atom| {
        let (name, list) = atom.split_once('(').expect("an atom");
        let name = name.trim_start_matches([',', ' ']);
        let relation = NAMES.iter().position(|n| *n == name).expect("a relation");
        Atom { relation, terms: terms(list) }
    });
    Block { head, atoms: atoms.collect() }
}

/// A view in short and its rows, which are put in order, each once.
pub fn view(text: &str, mut rows: Vec<Vec<i32>>) -> View {
    rows.sort();
    rows.dedup();
    View { block: block(text), rows }
}

/// A sheet of blocks in short, with one list.
pub fn page(question: &str, saved: &str, views: Vec<View>) -> Sheet {
    page_of(question, &[saved.to_string()], views)
}

/// The same with several lists.
pub fn page_of(question: &str, lists: &[String], views: Vec<View>) -> Sheet {
    Sheet { question: block(question), lists: lists.iter().map(|list| block(list)).collect(), views }
}
