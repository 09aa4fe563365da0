//! The library's calls. What is lent lies between guards and is filled with a pattern, so that each write that should not be is seen;
//! inputs are compared with a copy afterwards. Where a call is given a table's bytes, it is the call by a table, and otherwise the one
//! without.

use crate::meaning::Judgement;
use crate::random::Random;

mod c {
    #[repr(C)]
    pub struct Ended {
        pub number: usize,
        pub line: usize,
        pub count: usize,
    }

    #[repr(C)]
    pub struct Stretch {
        pub start: usize,
        pub length: usize,
    }

    #[repr(C)]
    pub struct Outcome {
        pub verdict: usize,
        pub number: usize,
        pub line: usize,
        pub count: usize,
        pub missing: [usize; 4],
    }

    #[repr(C)]
    pub struct SetOutcome {
        pub number: usize,
        pub line: usize,
        pub count: usize,
        pub sheets: [Outcome; super::SHEETS],
    }

    #[repr(C)]
    pub struct DayOutcome {
        pub set: SetOutcome,
        pub bytes: usize,
    }

    extern "C" {
        pub fn figdawesa_read(sheet: *const u8, sheet_bytes: usize, out: *mut i32, out_words: usize) -> Ended;
        pub fn figdawesa_write(words: *const i32, word_count: usize, out: *mut u8, out_bytes: usize) -> Ended;
        pub fn figdawesa_line(sheet: *const u8, sheet_bytes: usize, number: usize) -> Stretch;
        pub fn figdawesa_evaluate(
            sheet: *const u8,
            sheet_bytes: usize,
            block: usize,
            facts: *const i32,
            fact_words: usize,
            out: *mut i32,
            out_words: usize,
        ) -> Ended;
        pub fn figdawesa_judge(sheet: *const u8, sheet_bytes: usize, out: *mut i32, out_words: usize) -> Outcome;
        pub fn figdawesa_judge_set(
            bytes: *const u8,
            byte_count: usize,
            ends: *const usize,
            sheets: usize,
            out: *mut i32,
            out_words: usize,
        ) -> SetOutcome;
        pub fn figdawesa_judge_day(
            bytes: *const u8,
            byte_count: usize,
            ends: *const usize,
            sheets: usize,
            out: *mut i32,
            out_words: usize,
            page: *mut u8,
            page_bytes: usize,
        ) -> DayOutcome;
        pub fn figdawesa_own_table(out: *mut u8, out_bytes: usize) -> Ended;
        pub fn figdawesa_read_by_table(
            table: *const u8,
            table_bytes: usize,
            sheet: *const u8,
            sheet_bytes: usize,
            out: *mut i32,
            out_words: usize,
        ) -> Ended;
        pub fn figdawesa_write_by_table(
            table: *const u8,
            table_bytes: usize,
            words: *const i32,
            word_count: usize,
            out: *mut u8,
            out_bytes: usize,
        ) -> Ended;
        pub fn figdawesa_evaluate_by_table(
            table: *const u8,
            table_bytes: usize,
            sheet: *const u8,
            sheet_bytes: usize,
            block: usize,
            facts: *const i32,
            fact_words: usize,
            out: *mut i32,
            out_words: usize,
        ) -> Ended;
        pub fn figdawesa_judge_by_table(
            table: *const u8,
            table_bytes: usize,
            sheet: *const u8,
            sheet_bytes: usize,
            out: *mut i32,
            out_words: usize,
        ) -> Outcome;
        pub fn figdawesa_judge_set_by_table(
            table: *const u8,
            table_bytes: usize,
            bytes: *const u8,
            byte_count: usize,
            ends: *const usize,
            sheets: usize,
            out: *mut i32,
            out_words: usize,
        ) -> SetOutcome;
        pub fn figdawesa_judge_day_by_table(
            table: *const u8,
            table_bytes: usize,
            bytes: *const u8,
            byte_count: usize,
            ends: *const usize,
            sheets: usize,
            out: *mut i32,
            out_words: usize,
            page: *mut u8,
            page_bytes: usize,
        ) -> DayOutcome;
    }
}

/// How a call ended, and what the lent words or bytes are afterwards.
#[derive(Clone, Debug, PartialEq, Eq)]
pub struct Ended {
    pub number: usize,
    pub line: usize,
    pub count: usize,
}

/// The sheets of a set, at most, and the places of its judgements.
pub const SHEETS: usize = 16;

/// The judgements of a set.
#[derive(Debug, PartialEq, Eq)]
pub struct Set {
    pub number: usize,
    pub line: usize,
    pub count: usize,
    pub sheets: Vec<Judgement>,
}

const GUARD: usize = 16;

/// Something lent, with guards on both sides.
pub struct Lent<T> {
    all: Vec<T>,
    before: Vec<T>,
    null: bool,
}

impl<T: Copy + PartialEq> Lent<T> {
    pub fn new(length: usize, random: &mut Random, make: fn(u64) -> T) -> Lent<T> {
        let all: Vec<T> = (0..length + 2 * GUARD).map(|_| make(random.next())).collect();
        Lent { before: all.clone(), all, null: length == 0 && random.percent(50) }
    }

    pub fn length(&self) -> usize {
        self.all.len() - 2 * GUARD
    }

    /// Where the lent part begins; for an empty one sometimes a null pointer.
    fn pointer(&mut self) -> *mut T {
        if self.null {
            std::ptr::null_mut()
        } else {
            self.all[GUARD..].as_mut_ptr()
        }
    }

    pub fn after(&self) -> &[T] {
        &self.all[GUARD..GUARD + self.length()]
    }

    /// Whether the front is as expected and all else, guards too, as it was.
    pub fn is(&self, front: &[T]) -> bool {
        let end = GUARD + front.len();
        front.len() <= self.length()
            && &self.all[GUARD..end] == front
            && self.all[..GUARD] == self.before[..GUARD]
            && self.all[end..] == self.before[end..]
    }

    /// Whether all from an element on, guards too, is as it was.
    pub fn is_kept_from(&self, from: usize) -> bool {
        self.all[..GUARD] == self.before[..GUARD] && self.all[GUARD + from..] == self.before[GUARD + from..]
    }

    /// A part of what was lent as if it had been lent alone.
    pub fn stretch(&self, from: usize, length: usize) -> Lent<T> {
        let part = |all: &[T]| [&self.before[..GUARD], &all[GUARD + from..GUARD + from + length], &self.before[..GUARD]].concat();
        Lent { all: part(&self.all), before: part(&self.before), null: false }
    }

    /// Whether another call left all as this one did, guards too.
    pub fn is_left_as(&self, other: &Lent<T>) -> bool {
        self.all == other.all
    }

    /// The same before any call.
    pub fn as_it_was(&self) -> Lent<T> {
        Lent { all: self.before.clone(), before: self.before.clone(), null: false }
    }

    /// Overwrites a lent element, to show that this is seen.
    pub fn spoil(&mut self, at: usize, value: T) {
        self.all[GUARD + at] = value;
    }
}

fn pointer<T>(from: &[T]) -> *const T {
    if from.is_empty() {
        std::ptr::null()
    } else {
        from.as_ptr()
    }
}

/// Runs a call and sees to it that its inputs stay.
fn kept<A: Clone + PartialEq, R>(input: &[A], call: impl FnOnce() -> R) -> R {
    let before = input.to_vec();
    let result = call();
    assert!(before == input, "a call changed its input");
    result
}

/// The bytes of a table, where the call goes by one.
pub type Given<'a> = Option<&'a [u8]>;

fn ended(e: c::Ended) -> Ended {
    Ended { number: e.number, line: e.line, count: e.count }
}

// SAFETY, for each call: every pointer is valid for the length that goes with it, and what is lent is shared with nothing.

/// The library's own table.
pub fn own_table(out: &mut Lent<u8>) -> Ended {
    let bytes = out.length();
    ended(unsafe { c::figdawesa_own_table(out.pointer(), bytes) })
}

pub fn read(table: Given, sheet: &[u8], out: &mut Lent<i32>) -> Ended {
    let (words, given, count) = (out.length(), pointer(sheet), sheet.len());
    ended(kept(sheet, || match table {
        None => unsafe { c::figdawesa_read(given, count, out.pointer(), words) },
        Some(t) => kept(t, || unsafe { c::figdawesa_read_by_table(pointer(t), t.len(), given, count, out.pointer(), words) }),
    }))
}

pub fn write(table: Given, words: &[i32], out: &mut Lent<u8>) -> Ended {
    let (bytes, given, count) = (out.length(), pointer(words), words.len());
    ended(kept(words, || match table {
        None => unsafe { c::figdawesa_write(given, count, out.pointer(), bytes) },
        Some(t) => kept(t, || unsafe { c::figdawesa_write_by_table(pointer(t), t.len(), given, count, out.pointer(), bytes) }),
    }))
}

pub fn line(sheet: &[u8], number: usize) -> (usize, usize) {
    let part = kept(sheet, || unsafe { c::figdawesa_line(pointer(sheet), sheet.len(), number) });
    (part.start, part.length)
}

pub fn evaluate(table: Given, sheet: &[u8], block: usize, facts: &[i32], out: &mut Lent<i32>) -> Ended {
    let words = out.length();
    let (given, count, log, length) = (pointer(sheet), sheet.len(), pointer(facts), facts.len());
    let call = || match table {
        None => unsafe { c::figdawesa_evaluate(given, count, block, log, length, out.pointer(), words) },
        Some(t) => kept(t, || unsafe {
            c::figdawesa_evaluate_by_table(pointer(t), t.len(), given, count, block, log, length, out.pointer(), words)
        }),
    };
    ended(kept(sheet, || kept(facts, call)))
}

fn judgement(o: &c::Outcome) -> Judgement {
    Judgement { verdict: o.verdict, number: o.number, line: o.line, count: o.count, missing: o.missing }
}

pub fn judge(table: Given, sheet: &[u8], out: &mut Lent<i32>) -> Judgement {
    let (words, given, count) = (out.length(), pointer(sheet), sheet.len());
    judgement(&kept(sheet, || match table {
        None => unsafe { c::figdawesa_judge(given, count, out.pointer(), words) },
        Some(t) => kept(t, || unsafe { c::figdawesa_judge_by_table(pointer(t), t.len(), given, count, out.pointer(), words) }),
    }))
}

pub fn judge_set(table: Given, bytes: &[u8], ends: &[usize], out: &mut Lent<i32>) -> Set {
    let words = out.length();
    let (given, count, marks, sheets) = (pointer(bytes), bytes.len(), pointer(ends), ends.len());
    let call = || match table {
        None => unsafe { c::figdawesa_judge_set(given, count, marks, sheets, out.pointer(), words) },
        Some(t) => {
            kept(t, || unsafe { c::figdawesa_judge_set_by_table(pointer(t), t.len(), given, count, marks, sheets, out.pointer(), words) })
        }
    };
    set(kept(bytes, || kept(ends, call)))
}

fn set(set: c::SetOutcome) -> Set {
    Set { number: set.number, line: set.line, count: set.count, sheets: set.sheets.iter().map(judgement).collect() }
}

/// The judgements of a set, and how many bytes its page has.
pub fn judge_day(table: Given, bytes: &[u8], ends: &[usize], out: &mut Lent<i32>, page: &mut Lent<u8>) -> (Set, usize) {
    let (words, room) = (out.length(), page.length());
    let (given, count, marks, sheets) = (pointer(bytes), bytes.len(), pointer(ends), ends.len());
    let call = || match table {
        None => unsafe { c::figdawesa_judge_day(given, count, marks, sheets, out.pointer(), words, page.pointer(), room) },
        Some(t) => kept(t, || unsafe {
            let (own, length) = (pointer(t), t.len());
            c::figdawesa_judge_day_by_table(own, length, given, count, marks, sheets, out.pointer(), words, page.pointer(), room)
        }),
    };
    let day = kept(bytes, || kept(ends, call));
    (set(day.set), day.bytes)
}
