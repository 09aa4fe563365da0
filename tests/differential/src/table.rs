//! Tables of relations: their bytes taken apart into relations, each with its columns, its key and its parent. Written from the
//! description of a table alone; the ten relations that a call without a table goes by are a table like any other here.

use crate::sheet::{bytes_of, lines_of_bytes, refuse, Taken};
use crate::slips::{is, Slip};

/// The relations of a table, and the columns of one, at most.
pub const RELATIONS: usize = 32;
pub const COLUMNS: usize = 4;

/// A relation's columns, how many first ones settle the others, and the relation that must have its rows as well; 0 for no key and for
/// no parent.
#[derive(Clone, Copy, Debug, PartialEq, Eq)]
pub struct Relation {
    pub columns: usize,
    pub key: usize,
    pub parent: usize,
}

/// Relations by their numbers, from 1.
#[derive(Clone, Debug, PartialEq, Eq)]
pub struct Table {
    pub relations: Vec<Relation>,
}

/// The library's own ten: strap and session settle the rower, strap and tick the rate; each beat and each noise is a signal.
const OWN: [(usize, usize, usize); 10] =
    [(2, 0, 0), (1, 0, 0), (3, 2, 0), (2, 0, 0), (2, 0, 4), (2, 0, 4), (3, 2, 0), (2, 0, 0), (4, 0, 0), (1, 0, 0)];

impl Table {
    pub fn own() -> Table {
        Table { relations: OWN.iter().map(|(columns, key, parent)| Relation { columns: *columns, key: *key, parent: *parent }).collect() }
    }

    pub fn is_own(&self) -> bool {
        *self == Table::own()
    }

    /// The number of the last relation, which is how many there are.
    pub fn last(&self) -> usize {
        self.relations.len()
    }

    /// Whether there is a relation of this number.
    pub fn has(&self, number: i64) -> bool {
        (1..=self.last() as i64).contains(&number)
    }

    fn of(&self, number: usize) -> Relation {
        self.relations[number - 1]
    }

    pub fn columns(&self, number: usize) -> usize {
        self.of(number).columns
    }

    /// How many first columns of a relation settle the others.
    pub fn key(&self, number: usize) -> Option<usize> {
        Some(self.of(number).key).filter(|key| *key > 0)
    }

    /// The relation that must have a relation's rows as well.
    pub fn parent(&self, number: usize) -> Option<usize> {
        Some(self.of(number).parent).filter(|parent| *parent > 0)
    }

    /// The relations whose rows a relation must have.
    pub fn owing(&self, number: usize) -> impl Iterator<Item = usize> + '_ {
        (1..=self.last()).filter(move |other| self.parent(*other) == Some(number))
    }

    /// How many first columns settle the others in the end: a parent has the rows too, so its key holds among them.
    pub fn settling(&self, number: usize) -> Option<usize> {
        self.key(number).into_iter().chain(self.parent(number).and_then(|parent| self.key(parent))).min()
    }

    /// The same relations with something else asked of them.
    fn with(&self, change: impl Fn(usize, &mut Relation)) -> Table {
        let mut table = self.clone();
        table.relations.iter_mut().enumerate().for_each(|(at, relation)| change(at + 1, relation));
        table
    }

    pub fn without_keys(&self) -> Table {
        self.with(|_, relation| relation.key = 0)
    }

    pub fn without_parents(&self) -> Table {
        self.with(|_, relation| relation.parent = 0)
    }

    /// No key is asked of relations that others owe rows.
    pub fn without_keys_of_parents(&self) -> Table {
        self.with(|number, relation| {
            if self.owing(number).next().is_some() {
                relation.key = 0;
            }
        })
    }

    /// The table's lines, as fields.
    pub fn lines(&self) -> Vec<Vec<i64>> {
        let line = |(at, r): (usize, &Relation)| [at + 1, r.columns, r.key, r.parent].map(|field| field as i64).to_vec();
        self.relations.iter().enumerate().map(line).collect()
    }

    pub fn bytes(&self) -> Vec<u8> {
        bytes_of(&self.lines())
    }

    /// The relation that a line of these fields adds, where it may stand behind those that are there.
    fn next(&self, fields: &[i64]) -> Option<Relation> {
        let [number, columns, key, parent]: [i64; 4] = fields.try_into().ok()?;
        let in_order = number == self.last() as i64 + 1 || is(Slip::RelationNumberUnasked);
        let most = if is(Slip::FiveColumnsTaken) { COLUMNS + 1 } else { COLUMNS };
        let columned = (1..=most as i64).contains(&columns);
        let keyed = (0..columns + is(Slip::KeyOfAllColumnsTaken) as i64).contains(&key);
        // A parent is one of the relations before, and owes nothing itself.
        let may_have = |to: Relation| {
            (to.columns as i64 == columns || is(Slip::ParentOfOtherColumnsTaken)) && (to.parent == 0 || is(Slip::ParentWithParentTaken))
        };
        let itself = parent == number && is(Slip::ParentItselfTaken);
        let owing = parent == 0 || itself || self.has(parent) && may_have(self.of(parent as usize));
        let relation = Relation { columns: columns as usize, key: key as usize, parent: parent as usize };
        (in_order && columned && keyed && owing).then_some(relation)
    }

    /// The table with what a slip makes of it.
    fn slipped(self) -> Table {
        let own = Table::own();
        let own_key = |number: usize| if number <= own.last() { own.of(number).key } else { 0 };
        let last_owing = (1..=self.last()).rev().find(|number| self.parent(*number).is_some());
        if is(Slip::KeysOfParentsForgotten) {
            return self.without_keys_of_parents();
        }
        self.with(|number, relation| {
            if is(Slip::OwnTensKeys) {
                relation.key = own_key(number).min(relation.columns - 1);
            }
            if is(Slip::EveryKeyOfTwoColumns) && relation.key > 0 {
                relation.key = 2.min(relation.columns - 1);
            }
            if is(Slip::ParentForgotten) && last_owing == Some(number) || is(Slip::LawsOfFirstTenAlone) && number > own.last() {
                relation.parent = 0;
            }
            if is(Slip::KeyBesideParentForgotten) && relation.parent > 0 || is(Slip::LawsOfFirstTenAlone) && number > own.last() {
                relation.key = 0;
            }
        })
    }
}

/// A table's bytes taken whole, or sent back by 15 with the first line that breaks a rule: 0 where there is none.
pub fn of_bytes(bytes: &[u8]) -> Taken<Table> {
    let lines = lines_of_bytes(bytes);
    if lines.is_empty() && !is(Slip::EmptyTableIsTheOwn) {
        return refuse(15, 0);
    }
    let most = if is(Slip::ThirtyThreeRelationsTaken) { RELATIONS + 1 } else { RELATIONS };
    let mut table = Table { relations: vec![] };
    for (at, fields) in lines.iter().enumerate() {
        let line = if is(Slip::TableLinesFromZero) { at } else { at + 1 };
        match fields.as_ref().and_then(|fields| table.next(fields)).filter(|_| at < most) {
            Some(relation) => table.relations.push(relation),
            None => return refuse(15, line),
        }
    }
    Ok(if table.last() == 0 { Table::own() } else { table.slipped() })
}

/// What a call does by a table's bytes: the table is asked for before anything else.
pub fn by_table<T>(bytes: &[u8], call: impl Fn(&Table) -> Taken<T>) -> Taken<T> {
    match of_bytes(bytes) {
        Err(refusal) if is(Slip::TableAfterSheet) => call(&Table::own()).and(Err(refusal)),
        Err(refusal) => Err(refusal),
        Ok(table) => call(&table),
    }
}
