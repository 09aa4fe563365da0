//! Whether saved lists cover a question, judged from the rows of lists alone, for one sheet or a page's whole set, with the page to print
//! for it; sheets read and written, their lines, and evaluation; sheets as texts, and what comes of them in words. All go by the
//! library's own table of relations; those with a name in `by_table` go by a club's, whose bytes come first.
//!
//! Each function is a call of the proved library, over slices that the caller lends. `docs/PROMISES.md` says what is proved of it. Every
//! input is answered: what cannot be taken is [`Refused`], and then nothing lent is changed. Otherwise the results stand at the front
//! of what was lent, and are handed back as that part; what follows them is as it was.
//!
//! What no proof covers is this file: the declarations of the calls in C's form, and that each is passed a slice's own pointer and length.
use std::error::Error;
use std::fmt;

/// A sheet's bytes, at most.
pub const SHEET_BYTES: usize = 8192;
/// The words that [`read`] wants, and the number form's words, at most.
pub const READ_WORDS: usize = 749;
/// The bytes that [`write`] wants.
pub const WRITE_BYTES: usize = 5243;
/// The words that [`judge`] wants, and [`judge_set`] and [`judge_day`] for each sheet.
pub const JUDGE_WORDS: usize = 1260;
/// The sheets of a set, at most.
pub const SHEETS: usize = 16;
/// The bytes that [`judge_day`] wants for the page.
pub const PAGE_BYTES: usize = 569;
/// The bytes that [`text_of`] and [`answer`] want.
pub const TEXT_BYTES: usize = 16384;
/// The facts given to [`evaluate`], at most.
pub const FACTS: usize = 256;
/// A line in the number form: how many fields it has, and the fields, filled up with 0 to six.
pub const LINE_WORDS: usize = 7;
/// A fact: its relation and its values, filled up with 0 to four.
pub const FACT_WORDS: usize = 5;
/// An answer: its values, filled up with 0 to four.
pub const ANSWER_WORDS: usize = 4;

/// A table's bytes, at most: 32 lines of 33.
pub const TABLE_BYTES: usize = 1056;
/// The own table's bytes, and those that [`own_table`] wants.
pub const OWN_TABLE_BYTES: usize = 330;
/// The relations of a table, at most.
pub const MOST_RELATIONS: usize = 32;

/// The own table's relations, their names and columns, from relation 1 on.
pub const RELATIONS: [(&str, usize); 10] = [
    ("Rower", 2),
    ("Strap", 1),
    ("Worn", 3),
    ("Sig", 2),
    ("Beat", 2),
    ("Noise", 2),
    ("Pulse", 3),
    ("Coach", 2),
    ("Seat", 4),
    ("Pause", 1),
];

/// The calls as C has them, declared as in `include/figdawesa.h`.
mod c {
    #[repr(C)]
    pub struct Ended {
        pub number: usize,
        pub line: usize,
        pub count: usize,
    }

    #[repr(C)]
    pub struct Stretch {
        pub start: usize,
        pub length: usize,
    }

    #[repr(C)]
    pub struct Outcome {
        pub verdict: usize,
        pub number: usize,
        pub line: usize,
        pub count: usize,
        pub missing: [usize; 4],
    }

    #[repr(C)]
    pub struct SetOutcome {
        pub number: usize,
        pub line: usize,
        pub count: usize,
        pub sheets: [Outcome; super::SHEETS],
    }

    #[repr(C)]
    pub struct DayOutcome {
        pub set: SetOutcome,
        pub bytes: usize,
    }

    #[repr(C)]
    pub struct TextOutcome {
        pub expected: usize,
        pub relation: usize,
        pub number: usize,
        pub line: usize,
        pub text_line: usize,
        pub bytes: usize,
    }

    extern "C" {
        pub fn figdawesa_sheet_of(text: *const u8, text_bytes: usize, out: *mut u8, out_bytes: usize) -> TextOutcome;
        pub fn figdawesa_text_of(sheet: *const u8, sheet_bytes: usize, out: *mut u8, out_bytes: usize) -> Ended;
        pub fn figdawesa_answer(given: *const u8, given_bytes: usize, out: *mut u8, out_bytes: usize) -> usize;
        pub fn figdawesa_read(sheet: *const u8, sheet_bytes: usize, out: *mut i32, out_words: usize) -> Ended;
        pub fn figdawesa_write(words: *const i32, word_count: usize, out: *mut u8, out_bytes: usize) -> Ended;
        pub fn figdawesa_line(sheet: *const u8, sheet_bytes: usize, number: usize) -> Stretch;
        pub fn figdawesa_evaluate(
            sheet: *const u8,
            sheet_bytes: usize,
            block: usize,
            facts: *const i32,
            fact_words: usize,
            out: *mut i32,
            out_words: usize,
        ) -> Ended;
        pub fn figdawesa_judge(sheet: *const u8, sheet_bytes: usize, out: *mut i32, out_words: usize) -> Outcome;
        pub fn figdawesa_judge_set(
            bytes: *const u8,
            byte_count: usize,
            ends: *const usize,
            sheets: usize,
            out: *mut i32,
            out_words: usize,
        ) -> SetOutcome;
        pub fn figdawesa_judge_day(
            bytes: *const u8,
            byte_count: usize,
            ends: *const usize,
            sheets: usize,
            out: *mut i32,
            out_words: usize,
            page: *mut u8,
            page_bytes: usize,
        ) -> DayOutcome;
        pub fn figdawesa_own_table(out: *mut u8, out_bytes: usize) -> Ended;
        pub fn figdawesa_read_by_table(
            table: *const u8,
            table_bytes: usize,
            sheet: *const u8,
            sheet_bytes: usize,
            out: *mut i32,
            out_words: usize,
        ) -> Ended;
        pub fn figdawesa_write_by_table(
            table: *const u8,
            table_bytes: usize,
            words: *const i32,
            word_count: usize,
            out: *mut u8,
            out_bytes: usize,
        ) -> Ended;
        pub fn figdawesa_evaluate_by_table(
            table: *const u8,
            table_bytes: usize,
            sheet: *const u8,
            sheet_bytes: usize,
            block: usize,
            facts: *const i32,
            fact_words: usize,
            out: *mut i32,
            out_words: usize,
        ) -> Ended;
        pub fn figdawesa_judge_by_table(
            table: *const u8,
            table_bytes: usize,
            sheet: *const u8,
            sheet_bytes: usize,
            out: *mut i32,
            out_words: usize,
        ) -> Outcome;
        pub fn figdawesa_judge_set_by_table(
            table: *const u8,
            table_bytes: usize,
            bytes: *const u8,
            byte_count: usize,
            ends: *const usize,
            sheets: usize,
            out: *mut i32,
            out_words: usize,
        ) -> SetOutcome;
        pub fn figdawesa_judge_day_by_table(
            table: *const u8,
            table_bytes: usize,
            bytes: *const u8,
            byte_count: usize,
            ends: *const usize,
            sheets: usize,
            out: *mut i32,
            out_words: usize,
            page: *mut u8,
            page_bytes: usize,
        ) -> DayOutcome;
        pub fn figdawesa_sheet_of_by_table(
            table: *const u8,
            table_bytes: usize,
            text: *const u8,
            text_bytes: usize,
            out: *mut u8,
            out_bytes: usize,
        ) -> TextOutcome;
        pub fn figdawesa_text_of_by_table(
            table: *const u8,
            table_bytes: usize,
            sheet: *const u8,
            sheet_bytes: usize,
            out: *mut u8,
            out_bytes: usize,
        ) -> Ended;
        pub fn figdawesa_answer_by_table(
            table: *const u8,
            table_bytes: usize,
            given: *const u8,
            given_bytes: usize,
            out: *mut u8,
            out_bytes: usize,
        ) -> usize;
    }
}

/// Why something is sent back, by its number.
#[derive(Clone, Copy, Debug, PartialEq, Eq, Hash)]
pub enum Cause {
    /// A sheet over 8,192 bytes, a number form over 749 words.
    TooLong = 1,
    /// A line or a field that is malformed, an unclosed last line, words not by sevens.
    Malformed = 2,
    /// A kind that is none, or out of place, or with a wrong field count; a question or a list that is missing.
    Misplaced = 3,
    /// No such relation, or its columns not met.
    WrongColumns = 4,
    /// A term out of range, a variable in a row.
    OutOfRange = 5,
    /// More atoms, lists, views or rows than there may be.
    TooMany = 6,
    /// A list's head unlike the question's in length, or a row unlike its head.
    WrongLength = 7,
    /// A block without atoms, or with a variable that only its head has.
    UnsafeHead = 8,
    /// A row that is not above the one before.
    NotAbove = 9,
    /// No such block.
    NoBlock = 10,
    /// Fact words not by fives; a fact that is none by its relation, values or filling.
    WrongFact = 11,
    /// More than 256 facts, or facts that do not ascend.
    FactOrder = 12,
    /// What was lent is too short.
    NoRoom = 13,
    /// More than 16 sheets, an end below the one before, a last end that is not the byte count.
    WrongEnds = 14,
    /// A line that no table has there, unclosed or a 33rd; a table without bytes.
    WrongTable = 15,
}

impl Cause {
    /// Every cause, by its number from 1 on.
    pub const ALL: [Cause; 15] = [
        Cause::TooLong,
        Cause::Malformed,
        Cause::Misplaced,
        Cause::WrongColumns,
        Cause::OutOfRange,
        Cause::TooMany,
        Cause::WrongLength,
        Cause::UnsafeHead,
        Cause::NotAbove,
        Cause::NoBlock,
        Cause::WrongFact,
        Cause::FactOrder,
        Cause::NoRoom,
        Cause::WrongEnds,
        Cause::WrongTable,
    ];

    pub fn number(self) -> usize {
        self as usize
    }

    fn text(self) -> &'static str {
        match self {
            Cause::TooLong => "too long",
            Cause::Malformed => "malformed",
            Cause::Misplaced => "out of place, or a question or a list is missing",
            Cause::WrongColumns => "no such relation, or not its columns",
            Cause::OutOfRange => "a term out of range",
            Cause::TooMany => "more atoms, lists, views or rows than there may be",
            Cause::WrongLength => "lengths differ",
            Cause::UnsafeHead => "a block without atoms, or a head variable in none of them",
            Cause::NotAbove => "a row that is not above the one before",
            Cause::NoBlock => "no such block",
            Cause::WrongFact => "a malformed fact",
            Cause::FactOrder => "too many facts, or not ascending",
            Cause::NoRoom => "too little room",
            Cause::WrongEnds => "too many sheets, or ends that do not part the bytes",
            Cause::WrongTable => "a line of the table that is not right, or a table without lines",
        }
    }
}

/// What is sent back: the cause, and the line, counted from 1, or 0 where none is named. By 15 it is a line of the table.
#[derive(Clone, Copy, Debug, PartialEq, Eq, Hash)]
pub struct Refused {
    pub cause: Cause,
    pub line: usize,
}

impl fmt::Display for Refused {
    fn fmt(&self, f: &mut fmt::Formatter<'_>) -> fmt::Result {
        write!(f, "refused by {} in line {}: {}", self.cause.number(), self.line, self.cause.text())
    }
}

impl Error for Refused {}

/// The refusal with this number.
fn refused(number: usize, line: usize) -> Refused {
    match number.checked_sub(1).and_then(|at| Cause::ALL.get(at)) {
        Some(&cause) => Refused { cause, line },
        None => unreachable!("no refusal has the number {number}"),
    }
}

/// The count of a call that refused nothing.
fn counted(ended: c::Ended) -> Result<usize, Refused> {
    match ended.number {
        0 => Ok(ended.count),
        number => Err(refused(number, ended.line)),
    }
}

/// What is judged of a sheet that is not refused.
#[derive(Clone, Copy, Debug, PartialEq, Eq)]
pub enum Verdict<'a> {
    /// Some log gives exactly the listed rows, and each such log gives some list each answer that it gives the question.
    Covered,
    /// The facts are a log that gives exactly the listed rows, and gives the question the missing answer and no list.
    NotCovered {
        /// The least missing answer: unused numbers are 0.
        missing: [usize; ANSWER_WORDS],
        /// Five words for each fact, ascending. No fact can be spared.
        facts: &'a [i32],
    },
    /// No log gives exactly the listed rows.
    NoLog,
}

/// A sheet's bytes to its number form, seven words for each line.
///
/// Refused by 1 to 9, and then by 13 where fewer than [`READ_WORDS`] are lent, however short the sheet is.
pub fn read<'a>(sheet: &[u8], out: &'a mut [i32]) -> Result<&'a [i32], Refused> {
    // SAFETY: both pointers are valid for their lengths, and the lent one is not shared.
    let ended = unsafe { c::figdawesa_read(sheet.as_ptr(), sheet.len(), out.as_mut_ptr(), out.len()) };
    Ok(&out[..counted(ended)? * LINE_WORDS])
}

/// The same by a table's bytes. Refused by 15 first.
pub fn read_by_table<'a>(table: &[u8], sheet: &[u8], out: &'a mut [i32]) -> Result<&'a [i32], Refused> {
    // SAFETY: each pointer is valid for its length, and the lent one is not shared.
    let ended = unsafe {
        c::figdawesa_read_by_table(
            table.as_ptr(),
            table.len(),
            sheet.as_ptr(),
            sheet.len(),
            out.as_mut_ptr(),
            out.len(),
        )
    };
    Ok(&out[..counted(ended)? * LINE_WORDS])
}

/// A number form to its sheet's bytes.
///
/// Refused by 1 to 9, and then by 13 where fewer than [`WRITE_BYTES`] are lent, however short the form is.
pub fn write<'a>(words: &[i32], out: &'a mut [u8]) -> Result<&'a [u8], Refused> {
    // SAFETY: both pointers are valid for their lengths, and the lent one is not shared.
    let ended = unsafe { c::figdawesa_write(words.as_ptr(), words.len(), out.as_mut_ptr(), out.len()) };
    Ok(&out[..counted(ended)?])
}

/// The same by a table's bytes. Refused by 15 first.
pub fn write_by_table<'a>(table: &[u8], words: &[i32], out: &'a mut [u8]) -> Result<&'a [u8], Refused> {
    // SAFETY: each pointer is valid for its length, and the lent one is not shared.
    let ended = unsafe {
        c::figdawesa_write_by_table(
            table.as_ptr(),
            table.len(),
            words.as_ptr(),
            words.len(),
            out.as_mut_ptr(),
            out.len(),
        )
    };
    Ok(&out[..counted(ended)?])
}

/// The bytes of the library's own table.
///
/// Refused by 13 where fewer than [`OWN_TABLE_BYTES`] are lent.
pub fn own_table(out: &mut [u8]) -> Result<&[u8], Refused> {
    // SAFETY: the pointer is valid for its length, and is not shared.
    let ended = unsafe { c::figdawesa_own_table(out.as_mut_ptr(), out.len()) };
    Ok(&out[..counted(ended)?])
}

/// A line's own bytes, counted from 1, without the byte 10 that closes it; none for a line that is not there or is not closed.
pub fn line(sheet: &[u8], number: usize) -> &[u8] {
    // SAFETY: the pointer is valid for its length.
    let part = unsafe { c::figdawesa_line(sheet.as_ptr(), sheet.len(), number) };
    &sheet[part.start..part.start + part.length]
}

/// The answers that facts give a block, four words for each, ascending, each once: 1 the question, then the lists, then the views.
///
/// Facts ascend, each once, with values from 0 to 10,000,999. Refused by 1 to 9, then by 10, then by 11 and 12, and then by 13 exactly
/// where the answers do not fit.
pub fn evaluate<'a>(sheet: &[u8], block: usize, facts: &[i32], out: &'a mut [i32]) -> Result<&'a [i32], Refused> {
    // SAFETY: each pointer is valid for its length, and the lent one is not shared.
    let ended = unsafe {
        c::figdawesa_evaluate(
            sheet.as_ptr(),
            sheet.len(),
            block,
            facts.as_ptr(),
            facts.len(),
            out.as_mut_ptr(),
            out.len(),
        )
    };
    Ok(&out[..counted(ended)? * ANSWER_WORDS])
}

/// The same by a table's bytes. Refused by 15 first.
pub fn evaluate_by_table<'a>(table: &[u8], sheet: &[u8], block: usize, facts: &[i32], out: &'a mut [i32]) -> Result<&'a [i32], Refused> {
    // SAFETY: each pointer is valid for its length, and the lent one is not shared.
    let ended = unsafe {
        c::figdawesa_evaluate_by_table(
            table.as_ptr(),
            table.len(),
            sheet.as_ptr(),
            sheet.len(),
            block,
            facts.as_ptr(),
            facts.len(),
            out.as_mut_ptr(),
            out.len(),
        )
    };
    Ok(&out[..counted(ended)? * ANSWER_WORDS])
}

/// A judgement as C has it, with the words that were lent for it.
fn judged(outcome: c::Outcome, lent: &[i32]) -> Result<Verdict<'_>, Refused> {
    match outcome.verdict {
        0 => Ok(Verdict::Covered),
        1 => Ok(Verdict::NotCovered {
            missing: outcome.missing,
            facts: &lent[..outcome.count * FACT_WORDS],
        }),
        2 => Ok(Verdict::NoLog),
        9 => Err(refused(outcome.number, outcome.line)),
        verdict => unreachable!("no verdict has the number {verdict}"),
    }
}

/// Whether the sheet's lists, one to four, together cover its question.
///
/// Refused by 1 to 9, and then by 13 where fewer than [`JUDGE_WORDS`] are lent, whatever the verdict would be.
pub fn judge<'a>(sheet: &[u8], out: &'a mut [i32]) -> Result<Verdict<'a>, Refused> {
    // SAFETY: both pointers are valid for their lengths, and the lent one is not shared.
    let outcome = unsafe { c::figdawesa_judge(sheet.as_ptr(), sheet.len(), out.as_mut_ptr(), out.len()) };
    judged(outcome, out)
}

/// The same by a table's bytes; only logs count that its keys and parents allow. Refused by 15 first.
pub fn judge_by_table<'a>(table: &[u8], sheet: &[u8], out: &'a mut [i32]) -> Result<Verdict<'a>, Refused> {
    // SAFETY: each pointer is valid for its length, and the lent one is not shared.
    let outcome = unsafe {
        c::figdawesa_judge_by_table(
            table.as_ptr(),
            table.len(),
            sheet.as_ptr(),
            sheet.len(),
            out.as_mut_ptr(),
            out.len(),
        )
    };
    judged(outcome, out)
}

/// The judgements of a set, in the sheets' order.
pub type Judged<'a> = Vec<Result<Verdict<'a>, Refused>>;

/// The judgement of each sheet of a page's set, in their order: the sheets stand one after the other in `bytes`, and `ends` says where each
/// ends. Each gets what [`judge`] gives it alone, a refusal included, and its facts stand in [`JUDGE_WORDS`] words of its own: those from its
/// place, counted from 0, times [`JUDGE_WORDS`].
///
/// The whole set is refused by 14, and then by 13 where fewer than [`JUDGE_WORDS`] are lent for each sheet.
pub fn judge_set<'a>(bytes: &[u8], ends: &[usize], out: &'a mut [i32]) -> Result<Judged<'a>, Refused> {
    // SAFETY: each pointer is valid for its length, and the lent one is not shared.
    let set = unsafe { c::figdawesa_judge_set(bytes.as_ptr(), bytes.len(), ends.as_ptr(), ends.len(), out.as_mut_ptr(), out.len()) };
    set_judged(set, out)
}

/// The same by a table's bytes. Where the table is refused, each sheet of a set that is taken is refused by 15.
pub fn judge_set_by_table<'a>(table: &[u8], bytes: &[u8], ends: &[usize], out: &'a mut [i32]) -> Result<Judged<'a>, Refused> {
    // SAFETY: each pointer is valid for its length, and the lent one is not shared.
    let set = unsafe {
        c::figdawesa_judge_set_by_table(
            table.as_ptr(),
            table.len(),
            bytes.as_ptr(),
            bytes.len(),
            ends.as_ptr(),
            ends.len(),
            out.as_mut_ptr(),
            out.len(),
        )
    };
    set_judged(set, out)
}

/// The judgements of a set as C has them, with the words that were lent for it.
fn set_judged(set: c::SetOutcome, lent: &[i32]) -> Result<Judged<'_>, Refused> {
    if set.number != 0 {
        return Err(refused(set.number, set.line));
    }
    let stretches = lent.chunks(JUDGE_WORDS);
    Ok(set
        .sheets
        .into_iter()
        .take(set.count)
        .zip(stretches)
        .map(|(outcome, lent)| judged(outcome, lent))
        .collect())
}

/// A set's judgements, and the page to print for it.
pub type Day<'a> = (Judged<'a>, &'a [u8]);

/// The judgement of each sheet as [`judge_set`] gives it, and the page to print for the set: a line for each sheet, with its place from 1, its
/// verdict or 9, its refusal's number or 0, and its fact count; and a closing line, with how many had 0, 1, 2 and 9, and the sum of the fact
/// counts. Fields have eight bytes, as in a sheet, and byte 10 closes a line.
///
/// Refused by 14, and then by 13 where fewer than [`JUDGE_WORDS`] words are lent for each sheet, or fewer than [`PAGE_BYTES`] bytes for the
/// page, however many sheets there are.
pub fn judge_day<'a>(bytes: &[u8], ends: &[usize], out: &'a mut [i32], page: &'a mut [u8]) -> Result<Day<'a>, Refused> {
    // SAFETY: each pointer is valid for its length, and the lent ones are not shared.
    let day = unsafe {
        c::figdawesa_judge_day(
            bytes.as_ptr(),
            bytes.len(),
            ends.as_ptr(),
            ends.len(),
            out.as_mut_ptr(),
            out.len(),
            page.as_mut_ptr(),
            page.len(),
        )
    };
    Ok((set_judged(day.set, out)?, &page[..day.bytes]))
}

/// The same by a table's bytes. Where the table is refused, each sheet of a set that is taken is refused by 15, and the page is written.
pub fn judge_day_by_table<'a>(
    table: &[u8],
    bytes: &[u8],
    ends: &[usize],
    out: &'a mut [i32],
    page: &'a mut [u8],
) -> Result<Day<'a>, Refused> {
    // SAFETY: each pointer is valid for its length, and the lent ones are not shared.
    let day = unsafe {
        c::figdawesa_judge_day_by_table(
            table.as_ptr(),
            table.len(),
            bytes.as_ptr(),
            bytes.len(),
            ends.as_ptr(),
            ends.len(),
            out.as_mut_ptr(),
            out.len(),
            page.as_mut_ptr(),
            page.len(),
        )
    };
    Ok((set_judged(day.set, out)?, &page[..day.bytes]))
}

/// Why a text has no sheet.
#[derive(Clone, Copy, Debug, PartialEq, Eq, Hash)]
pub enum NoSheet {
    /// In this line of the text something else was expected, by one of the numbers that the README lists; in a relation, 0 where none is meant.
    Expected { line: usize, what: usize, relation: usize },
    /// Its sheet is refused, or the table; the line of the text in which the sheet's refused line begins, 0 where none is named.
    Refused { refused: Refused, line: usize },
}

/// A text's sheet.
///
/// What is expected comes first; a sheet is refused as [`write`] refuses it, by 13 where fewer than [`WRITE_BYTES`] are lent.
pub fn sheet_of<'a>(text: &[u8], out: &'a mut [u8]) -> Result<&'a [u8], NoSheet> {
    // SAFETY: both pointers are valid for their lengths, and the lent one is not shared.
    let outcome = unsafe { c::figdawesa_sheet_of(text.as_ptr(), text.len(), out.as_mut_ptr(), out.len()) };
    made(outcome, out)
}

/// The same by a table's bytes. Refused by 15 before the text is looked at.
pub fn sheet_of_by_table<'a>(table: &[u8], text: &[u8], out: &'a mut [u8]) -> Result<&'a [u8], NoSheet> {
    // SAFETY: each pointer is valid for its length, and the lent one is not shared.
    let outcome =
        unsafe { c::figdawesa_sheet_of_by_table(table.as_ptr(), table.len(), text.as_ptr(), text.len(), out.as_mut_ptr(), out.len()) };
    made(outcome, out)
}

/// What became of a text as C has it, with the bytes that were lent for its sheet.
fn made(outcome: c::TextOutcome, lent: &[u8]) -> Result<&[u8], NoSheet> {
    match (outcome.expected, outcome.number) {
        (0, 0) => Ok(&lent[..outcome.bytes]),
        (0, number) => Err(NoSheet::Refused {
            refused: refused(number, outcome.line),
            line: outcome.text_line,
        }),
        (what, _) => Err(NoSheet::Expected {
            line: outcome.text_line,
            what,
            relation: outcome.relation,
        }),
    }
}

/// A sheet's text.
///
/// Refused by 1 to 9, and then by 13 where fewer than [`TEXT_BYTES`] are lent.
pub fn text_of<'a>(sheet: &[u8], out: &'a mut [u8]) -> Result<&'a [u8], Refused> {
    // SAFETY: both pointers are valid for their lengths, and the lent one is not shared.
    let ended = unsafe { c::figdawesa_text_of(sheet.as_ptr(), sheet.len(), out.as_mut_ptr(), out.len()) };
    Ok(&out[..counted(ended)?])
}

/// The same by a table's bytes. Refused by 15 first.
pub fn text_of_by_table<'a>(table: &[u8], sheet: &[u8], out: &'a mut [u8]) -> Result<&'a [u8], Refused> {
    // SAFETY: each pointer is valid for its length, and the lent one is not shared.
    let ended = unsafe {
        c::figdawesa_text_of_by_table(
            table.as_ptr(),
            table.len(),
            sheet.as_ptr(),
            sheet.len(),
            out.as_mut_ptr(),
            out.len(),
        )
    };
    Ok(&out[..counted(ended)?])
}

/// What comes of a sheet or a text, in words; nothing where fewer than [`TEXT_BYTES`] are lent.
pub fn answer<'a>(given: &[u8], out: &'a mut [u8]) -> &'a [u8] {
    // SAFETY: both pointers are valid for their lengths, and the lent one is not shared.
    let bytes = unsafe { c::figdawesa_answer(given.as_ptr(), given.len(), out.as_mut_ptr(), out.len()) };
    &out[..bytes]
}

/// The same by a table's bytes; that a table is refused is said in words too.
pub fn answer_by_table<'a>(table: &[u8], given: &[u8], out: &'a mut [u8]) -> &'a [u8] {
    // SAFETY: each pointer is valid for its length, and the lent one is not shared.
    let bytes = unsafe {
        c::figdawesa_answer_by_table(
            table.as_ptr(),
            table.len(),
            given.as_ptr(),
            given.len(),
            out.as_mut_ptr(),
            out.len(),
        )
    };
    &out[..bytes]
}
