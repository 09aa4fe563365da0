//! One input of a call: made, given to the library and to this implementation, and compared.

use crate::clubs::{self, Club};
use crate::full;
use crate::generate::{self, Known};
use crate::large;
use crate::library::{self, Lent};
use crate::meaning::{self, Judgement};
use crate::random::Random;
use crate::sets;
use crate::sheet::{self, Taken};
use crate::slips::{self, is, Slip};
use crate::table::{by_table, Table};
use std::time::{Duration, Instant};

/// The words that a verdict wants.
const JUDGE_WORDS: usize = 1_260;

/// The calls, first those without a table.
pub const CALLS: [&str; 11] = [
    "read",
    "write",
    "line",
    "evaluate",
    "judge",
    "judge_set",
    "read_by_table",
    "write_by_table",
    "evaluate_by_table",
    "judge_by_table",
    "judge_set_by_table",
];

/// The places of the calls that come with a verdict for each sheet.
pub const JUDGE: usize = 4;
pub const JUDGE_BY_TABLE: usize = 9;

pub fn is_by_table(call: usize) -> bool {
    CALLS[call].ends_with("_by_table")
}

/// What came of one input.
pub struct Outcome {
    /// What kind of input it was.
    pub input: &'static str,
    /// What kind of table was loaded; nothing for calls without one.
    pub table: &'static str,
    /// How the library answered.
    pub result: String,
    /// How the verdict was known here; nothing for the other calls.
    pub known: &'static str,
    /// What makes a verdict hard to come by without the rows or without values that are made up.
    pub notes: Vec<&'static str>,
    /// The limits that a sheet meets whose verdict was compared, and that verdict.
    pub limits: Vec<(&'static str, usize)>,
    /// The input and both answers, where they differ or are asked for.
    pub shown: Option<String>,
    pub differs: bool,
    pub took: Duration,
}

pub fn one(call: usize, seed: u64, index: u64, show: bool) -> Outcome {
    let (mut random, club) = start(call, seed, index);
    let mut outcome = match CALLS[call].trim_end_matches("_by_table") {
        "read" => read(&mut random, &club, show),
        "write" => write(&mut random, &club, show),
        "line" => line(&mut random, show),
        "evaluate" => evaluate(&mut random, &club, show),
        "judge" => judge(&mut random, &club, show),
        _ => sets::judge_set(&mut random, &club, show),
    };
    if is_by_table(call) {
        outcome.table = club.name;
        outcome.shown = outcome.shown.map(|shown| format!("table b\"{}\"\n{shown}", club.bytes.escape_ascii()));
    }
    outcome
}

/// The draws for an input, and the table that it goes by, which is drawn first.
fn start(call: usize, seed: u64, index: u64) -> (Random, Club) {
    let mut random = Random::new(seed, call as u64 + 1, index);
    let club = if is_by_table(call) { Club::drawn(&mut random) } else { Club::own() };
    (random, club)
}

/// A length to lend where `wanted` is asked for: mostly that, or one less, or more.
pub fn lent(random: &mut Random, wanted: usize) -> usize {
    match random.below(20) {
        0 => wanted.saturating_sub(1),
        1 => 0,
        2 => random.below(wanted + 1),
        3..=6 => wanted + random.below(60),
        7 => wanted + 1,
        _ => wanted,
    }
}

pub fn word(drawn: u64) -> i32 {
    drawn as i32
}

fn byte(drawn: u64) -> u8 {
    drawn as u8
}

pub fn named(number: usize) -> String {
    if number == 0 {
        "done".into()
    } else {
        format!("refused by {number}")
    }
}

/// Compares how a call ended and what it left in what was lent. Each of the counted is `per` elements.
fn ended<T: Copy + PartialEq + std::fmt::Debug>(
    input: (&'static str, &dyn Fn() -> String),
    told: library::Ended,
    out: &Lent<T>,
    ours: Taken<Vec<T>>,
    per: usize,
    show: bool,
) -> Outcome {
    let (number, line, front) = match ours {
        Ok(front) => (0, 0, front),
        Err(refusal) => (refusal.number, refusal.line, vec![]),
    };
    let per = if is(Slip::LinesCountedAsBytes) { 9 } else { per };
    let same = (told.number, told.line, told.count) == (number, line, front.len() / per) && out.is(&front);
    let text = || {
        format!(
            "{}\nlent {}\nlibrary: number {} line {} count {}{}\nhere:    number {number} line {line} count {}",
            input.1(),
            out.length(),
            told.number,
            told.line,
            told.count,
            if out.is(&front) { "" } else { ", what was lent is not as expected" },
            front.len() / per,
        ) + &if out.is(&front) { String::new() } else { format!("\nlent afterwards {:?}\nexpected front {front:?}", out.after()) }
    };
    Outcome {
        input: input.0,
        table: "",
        result: named(told.number),
        known: "",
        notes: vec![],
        limits: vec![],
        shown: (show || !same).then(text),
        differs: !same,
        took: Duration::ZERO,
    }
}

/// A call without a table ends as the same call does by the bytes of the own one, and leaves what was lent as that one does. Nothing is
/// asked where the call went by a table already.
pub fn same_by_own<T: Copy + PartialEq, R: PartialEq>(
    club: &Club,
    told: &R,
    out: &Lent<T>,
    call: impl FnOnce(library::Given, &mut Lent<T>) -> R,
) -> bool {
    if club.given().is_some() {
        return true;
    }
    let mut again = out.as_it_was();
    call(Some(&club.bytes), &mut again) == *told && again.is_left_as(out)
}

/// The outcome, different where the call by the own table's bytes did something else.
fn and_by_own(mut outcome: Outcome, same: bool, text: &dyn Fn() -> String) -> Outcome {
    if !same {
        outcome.differs = true;
        outcome.shown = Some(format!("by the own table's bytes the call does something else\n{}", text()));
    }
    outcome
}

fn read(random: &mut Random, club: &Club, show: bool) -> Outcome {
    let (name, bytes) = generate::sheet(random, &club.table);
    let mut out = Lent::new(lent(random, 749), random, word);
    let told = library::read(club.given(), &bytes, &mut out);
    let same = same_by_own(club, &told, &out, |own, out| library::read(own, &bytes, out));
    let ours = by_table(&club.bytes, |table| sheet::read(table, &bytes, out.length()));
    let text = || format!("sheet b\"{}\"", bytes.escape_ascii());
    and_by_own(ended((name, &text), told, &out, ours, 7, show), same, &text)
}

fn write(random: &mut Random, club: &Club, show: bool) -> Outcome {
    let (name, words) = generate::form(random, &club.table);
    let mut out = Lent::new(lent(random, 5243), random, byte);
    let told = library::write(club.given(), &words, &mut out);
    let same = same_by_own(club, &told, &out, |own, out| library::write(own, &words, out));
    let ours = by_table(&club.bytes, |table| sheet::write(table, &words, out.length()));
    let text = || format!("words {words:?}");
    and_by_own(ended((name, &text), told, &out, ours, 1, show), same, &text)
}

fn line(random: &mut Random, show: bool) -> Outcome {
    let (name, bytes) = match random.below(10) {
        0..=4 => generate::sheet(random, &Table::own()),
        5..=8 => ("random bytes", generate::random_bytes(random, 400)),
        _ => ("more bytes than a sheet's", generate::random_bytes(random, 9_000)),
    };
    let closed = bytes.iter().filter(|b| **b == 10).count();
    let number = match random.below(12) {
        0 => 0,
        1 => closed + 1,
        2 => closed + 2,
        3 => closed,
        4 => random.pick(&[usize::MAX, 1 << 32, 1 << 63, 108]),
        _ => random.between(1, closed.max(1)),
    };
    let told = library::line(&bytes, number);
    let ours = sheet::line(&bytes, number);
    let same = told == ours;
    let text = || format!("line {number} of b\"{}\"\nlibrary: {told:?}\nhere:    {ours:?}", bytes.escape_ascii());
    let result = match told {
        (0, 0) if number == 0 || number > closed => "no such line",
        (_, 0) => "an empty line",
        _ => "a line",
    };
    Outcome {
        input: name,
        table: "",
        result: result.into(),
        known: "",
        notes: vec![],
        limits: vec![],
        shown: (show || !same).then(text),
        differs: !same,
        took: Duration::ZERO,
    }
}

fn evaluate(random: &mut Random, club: &Club, show: bool) -> Outcome {
    let (name, bytes, block, facts) = generate::evaluation(random, &club.table);
    let given = |room: usize| by_table(&club.bytes, |table| meaning::evaluate(table, &bytes, block, &facts, room));
    let wanted = given(usize::MAX).map_or(4, |found| found.len());
    let mut out = Lent::new(lent(random, wanted), random, word);
    let told = library::evaluate(club.given(), &bytes, block, &facts, &mut out);
    let same = same_by_own(club, &told, &out, |own, out| library::evaluate(own, &bytes, block, &facts, out));
    let ours = given(out.length());
    let text = || format!("sheet b\"{}\"\nblock {block}\nfacts {facts:?}", bytes.escape_ascii());
    let apart = given(usize::MAX).ok().filter(|_| !slips::any()).is_some_and(|found| {
        let other = by_table(&club.bytes, |table| {
            let (sheet, log) = (sheet::of_bytes(table, &bytes)?.1, meaning::given(table, &facts)?);
            Ok(large::answers(table, &sheet.blocks[block - 1], &log, &large::Steps::new(EVALUATION_STEPS)))
        });
        other.unwrap().is_some_and(|other| other.into_iter().flatten().map(|v| v as i32).collect::<Vec<i32>>() != found)
    });
    let mut outcome = and_by_own(ended((name, &text), told, &out, ours, 4, show), same, &text);
    if apart {
        outcome.differs = true;
        outcome.shown = Some(format!("the ways here differ\n{}", text()));
    }
    if outcome.result == "done" {
        outcome.result = if wanted == 0 { "done, no answer".into() } else { "done, answers".into() };
    }
    outcome
}

/// The steps of `large` for a verdict that nothing else gives, and where it is only held to another way.
const VERDICT_STEPS: u64 = 3_000_000;
const SECOND_STEPS: u64 = 100_000;
const EVALUATION_STEPS: u64 = 1_000_000;

/// A sheet to judge, by what kind it is, how its verdict is known, and the log that it is known by.
pub type Drawn = (&'static str, Vec<u8>, Known, Vec<meaning::Fact>);

/// A sheet for a table. What is known by a log is known by the table that it was drawn by alone.
pub fn to_judge(random: &mut Random, club: &Club) -> Drawn {
    let (name, bytes, known, log) = drawn_by(random, &club.table);
    if club.strange {
        (name, bytes, Known::Large, vec![])
    } else {
        (name, bytes, known, log)
    }
}

fn drawn_by(random: &mut Random, table: &Table) -> Drawn {
    if random.percent(25) {
        let (name, bytes) = generate::sheet(random, table);
        return (name, bytes, Known::Large, vec![]);
    }
    match random.below(100) {
        0..=7 => {
            let (lines, log) = generate::at_times_seven_digits(random, table, generate::pinned);
            ("all relations listed whole", sheet::bytes_of(&lines), Known::Pinned, log)
        }
        8..=11 => {
            let (lines, log) = generate::at_times_seven_digits(random, table, generate::planted);
            let case = generate::taken(table, &lines).is_some_and(|s| meaning::is_case(&s, &log));
            ("rows of a log", sheet::bytes_of(&lines), Known::Planted(case), log)
        }
        12..=17 => {
            let mut lines = generate::small_or_seven_digits(random, table);
            generate::damage_lines(random, &mut lines);
            match generate::taken(table, &lines) {
                Some(s) if meaning::cost(&s) > 60_000 && !generate::deep() => {
                    ("small", sheet::bytes_of(&generate::small_or_seven_digits(random, table)), Known::Searched, vec![])
                }
                _ => ("small, damaged", sheet::bytes_of(&lines), Known::Searched, vec![]),
            }
        }
        18..=29 => {
            let (name, lines) = full::sheet(random, table);
            let (lines, _) = generate::at_times_seven_digits(random, table, |_, _| (lines, vec![]));
            (name, sheet::bytes_of(&lines), Known::Large, vec![])
        }
        // By another table than the own ten more rests on what it asks of logs.
        way if way < 37 || way < 52 && !table.is_own() => {
            let mut name = "";
            let (lines, _) = generate::at_times_seven_digits(random, table, |random, table| {
                let (kind, lines) = generate::resting_on_laws(random, table);
                name = kind;
                (lines, vec![])
            });
            (name, sheet::bytes_of(&lines), Known::Searched, vec![])
        }
        _ => ("small", sheet::bytes_of(&generate::small_or_seven_digits(random, table)), Known::Searched, vec![]),
    }
}

/// The verdicts that are right here, and how they are known. Where no slip is on, `large` has to come to the same verdict.
pub fn verdicts(sheet: &sheet::Sheet, known: Known, log: &[meaning::Fact]) -> Result<(Vec<usize>, &'static str), String> {
    let (right, how) = plain_verdicts(sheet, known, log)?;
    if !slips::any() && right.len() == 1 {
        only_grows(sheet, right[0])?;
    }
    if slips::any() || known == Known::Large {
        return Ok((right, how));
    }
    match large::verdict(sheet, SECOND_STEPS)? {
        Some(verdict) if !right.contains(&verdict) => {
            Err(format!("the ways here differ: {right:?} {how}, {verdict} by the search for large sheets"))
        }
        Some(verdict) if right.len() > 1 => Ok((vec![verdict], BY_SEARCH)),
        _ => Ok((right, how)),
    }
}

/// Keys leave fewer logs, and so do parents: what is covered without them is covered or has no log, and what has none without them has
/// none.
fn only_grows(sheet: &sheet::Sheet, verdict: usize) -> Result<(), String> {
    for (law, table) in [("keys", sheet.table.without_keys()), ("parents", sheet.table.without_parents())] {
        match large::verdict_by(sheet, table, SECOND_STEPS)? {
            Some(0) if verdict == 1 => return Err(format!("the ways here differ: 0 without {law} and 1 with them")),
            Some(2) if verdict != 2 => return Err(format!("the ways here differ: 2 without {law} and {verdict} with them")),
            _ => {}
        }
    }
    Ok(())
}

const BY_SEARCH: &str = "by the search for large sheets";
const BY_ALL_LOGS: &str = "by all logs and all valuations";
const UNKNOWN: &str = "not known";

fn plain_verdicts(sheet: &sheet::Sheet, known: Known, log: &[meaning::Fact]) -> Result<(Vec<usize>, &'static str), String> {
    match known {
        Known::Large => Ok(large::verdict(sheet, VERDICT_STEPS)?.map_or((vec![0, 1, 2], UNKNOWN), |v| (vec![v], BY_SEARCH))),
        Known::Pinned if !meaning::agrees(sheet, log) => Ok((vec![2], "by the only log")),
        Known::Pinned => Ok((vec![!meaning::missing(sheet, log).is_empty() as usize], "by the only log")),
        Known::Planted(true) => Ok((vec![1], "by a planted case")),
        Known::Planted(false) => match meaning::verdict(sheet, true, if generate::deep() { 300_000 } else { 3_000 }) {
            Some(2) => Err("no log here, where a log agrees".into()),
            Some(verdict) => Ok((vec![verdict], "by valuations, cut")),
            None => Ok((vec![0, 1], "only that a log agrees")),
        },
        Known::Searched => {
            let cost = meaning::cost(sheet);
            if cost > 400 {
                let found = meaning::verdict(sheet, true, 3_000_000);
                return Ok(found.map_or((vec![0, 1, 2], UNKNOWN), |v| (vec![v], "by valuations, cut")));
            }
            // Small enough for more ways, which have to agree.
            let plain = meaning::verdict(sheet, false, u64::MAX).unwrap();
            let cut = meaning::verdict(sheet, true, u64::MAX).unwrap();
            let all = meaning::verdict_of_all_logs(sheet, if sheet.table.is_own() { 10 } else { 12 });
            if plain != cut || all.is_some_and(|v| v != plain) {
                return Err(format!("the ways here differ: {plain} by valuations, {cut} with cuts, {all:?} by all logs"));
            }
            Ok((vec![plain], if all.is_some() { BY_ALL_LOGS } else { "by all valuations" }))
        }
    }
}

fn judge(random: &mut Random, club: &Club, show: bool) -> Outcome {
    let length = if random.percent(50) { JUDGE_WORDS } else { lent(random, JUDGE_WORDS) };
    let (name, bytes, known, log) = to_judge(random, club);
    let mut out = Lent::new(length, random, word);
    let start = Instant::now();
    let told = library::judge(club.given(), &bytes, &mut out);
    let took = start.elapsed();
    let same = same_by_own(club, &told, &out, |own, out| library::judge(own, &bytes, out));
    let (mut how, mut notes, mut limits) = ("", vec![], vec![]);
    let mut found = check_judgement(&club.bytes, &bytes, &told, &out, |taken| {
        let (right, way) = verdicts(taken, known, &log)?;
        how = way;
        if right.len() == 1 {
            limits = [full::met(taken), if club.given().is_some() { clubs::met(taken) } else { vec![] }].concat();
        }
        let alone = taken.without_views();
        let one = |at: usize| sheet::Sheet {
            table: taken.table.clone(),
            blocks: [&taken.blocks[..1], &taken.lists()[at..=at], taken.views()].concat(),
        };
        if told.verdict == 0 && taken.lists().len() > 1 {
            let each: Result<Vec<_>, String> = (0..taken.lists().len()).map(|at| large::verdict(&one(at), SECOND_STEPS)).collect();
            if each?.into_iter().all(|verdict| verdict == Some(1)) {
                notes.push("0 that is 1 with each list alone");
            }
        }
        if told.verdict == 1 && taken.lists().len() > 1 {
            notes.push("1 with several lists");
        }
        if told.verdict == 0 && large::verdict(&alone, SECOND_STEPS)? == Some(1) {
            notes.push("0 that is 1 without the views");
        }
        for (table, covered, none) in [
            (taken.table.without_keys(), "0 that is 1 without keys", "2 that is 0 or 1 without keys"),
            (taken.table.without_parents(), "0 that is 1 without parents", "2 that is 0 or 1 without parents"),
            (taken.table.without_keys_of_parents(), "0 that is 1 without parents' keys", "2 that is 0 or 1 without parents' keys"),
        ] {
            let less = if table == taken.table { None } else { large::verdict_by(taken, table, SECOND_STEPS)? };
            match (told.verdict, less) {
                (0, Some(1)) => notes.push(covered),
                (2, Some(0 | 1)) => notes.push(none),
                _ => {}
            }
        }
        if how == BY_ALL_LOGS {
            let (named, table) = (taken.relations(), &taken.table);
            if named.iter().any(|relation| table.settling(*relation).is_some()) {
                notes.push("known by all logs, with keys");
            }
            if named.iter().any(|relation| table.parent(*relation).is_some()) {
                notes.push("known by all logs, with parents");
            }
        }
        if told.verdict == 1 {
            let in_case = |holds: &dyn Fn(usize) -> bool| out.after().chunks(5).take(told.count).any(|fact| holds(fact[0] as usize));
            let table = &taken.table;
            let there = |relation: usize| table.has(relation as i64);
            if in_case(&|relation| there(relation) && table.parent(relation).is_some()) {
                notes.push("1 with rows that are owed in the case");
            }
            if in_case(&|relation| there(relation) && table.parent(relation).is_some_and(|parent| table.key(parent).is_some())) {
                notes.push("1 with rows that are owed to a key in the case");
            }
        }
        if told.verdict == 1 && out.after().chunks(5).take(told.count).any(|f| f[1..].iter().any(|v| *v >= meaning::MADE_UP)) {
            notes.push("1 with values that are made up");
        }
        if told.verdict == 1 && taken.views().iter().any(|v| !v.rows.is_empty()) {
            notes.push("1 with listed rows");
        }
        if told.verdict == 1 && told.count >= 100 {
            notes.push(if told.count == 252 { "1 with 252 facts" } else { "1 with 100 to 251 facts" });
        }
        Ok(right)
    });
    if found.as_ref().is_err_and(|why| why == meaning::UNCHECKED) {
        notes.push("1 with a case too large to be checked");
        limits.clear();
        found = Ok(());
    }
    if found.is_ok() && !same {
        found = Err("by the own table's bytes the call does something else".into());
    }
    if found.is_err() {
        limits.clear();
    }
    let limits = limits.into_iter().map(|name| (name, told.verdict)).collect();
    let text = || {
        let facts: Vec<&[i32]> = out.after().chunks(5).take(told.count.min(130)).collect();
        let found = found.as_ref().err().map_or("the same", |e| e);
        format!("sheet b\"{}\"\nlent {length}\nlibrary: {told:?}\nfacts {facts:?}\nfound: {found}", bytes.escape_ascii())
    };
    let result = if told.verdict == 9 { named(told.number) } else { format!("verdict {}", told.verdict) };
    Outcome {
        input: name,
        table: "",
        result,
        known: how,
        notes,
        limits,
        shown: (show || found.is_err()).then(text),
        differs: found.is_err(),
        took,
    }
}

/// Whether a judgement of a sheet by a table's bytes is right, with what it left in the lent words.
pub fn check_judgement(
    table: &[u8],
    bytes: &[u8],
    told: &Judgement,
    out: &Lent<i32>,
    mut right: impl FnMut(&sheet::Sheet) -> Result<Vec<usize>, String>,
) -> Result<(), String> {
    let taken = by_table(table, |table| {
        let (_, taken) = sheet::of_bytes(table, bytes)?;
        if out.length() < JUDGE_WORDS {
            sheet::refuse(13, 0)
        } else {
            Ok(taken)
        }
    });
    let taken = match taken {
        Err(refusal) if *told != Judgement::refused(refusal) => return Err(format!("expected {:?}", Judgement::refused(refusal))),
        Err(_) if !out.is(&[]) => return Err("a refusal changed what was lent".into()),
        Err(_) => return Ok(()),
        Ok(taken) => taken,
    };
    let taken = forgotten(taken);
    let right = right(&taken)?;
    if !right.contains(&told.verdict) {
        return Err(format!("expected a verdict of {right:?}"));
    }
    if told.verdict == 1 {
        meaning::check_case(&taken, told, out.after())?;
        return if out.is(&out.after()[..told.count * 5]) { Ok(()) } else { Err("words behind the facts are changed".into()) };
    }
    if *told != Judgement::plain(told.verdict) {
        return Err("numbers that should be 0".into());
    }
    if out.is(&[]) {
        Ok(())
    } else {
        Err("lent words are changed".into())
    }
}

/// The sheet without what a slip forgets of it at a limit.
fn forgotten(mut sheet: sheet::Sheet) -> sheet::Sheet {
    let cut = |block: &mut sheet::Block, most: usize| {
        let mut less = block.clone();
        less.atoms.truncate(most);
        let safe = less.head.iter().all(|t| *t >= 0 || less.atoms.iter().any(|a| a.terms.contains(t)));
        if safe {
            *block = less;
        }
    };
    if is(Slip::EighthViewForgotten) {
        let most = sheet.first_view() + 7;
        sheet.blocks.truncate(most);
    }
    if is(Slip::FortiethRowForgotten) && sheet.views().iter().map(|v| v.rows.len()).sum::<usize>() == 40 {
        sheet.blocks.iter_mut().rev().find(|b| !b.rows.is_empty()).unwrap().rows.pop();
    }
    if is(Slip::SixthAskedAtomForgotten) {
        cut(&mut sheet.blocks[0], 5);
    }
    if is(Slip::SixthListAtomForgotten) {
        let end = sheet.first_view();
        sheet.blocks[1..end].iter_mut().for_each(|list| cut(list, 5));
    }
    if is(Slip::ThirdViewAtomForgotten) {
        let from = sheet.first_view();
        sheet.blocks[from..].iter_mut().for_each(|view| cut(view, 2));
    }
    sheet
}

pub const TAMPERINGS: [&str; 12] = [
    "a fact dropped",
    "a fact added",
    "count one more",
    "count one less",
    "missing answer changed",
    "two facts swapped",
    "a fact doubled",
    "a value that is not allowed",
    "a word behind the facts",
    "verdict kept with count and missing answer 0",
    "a row that is owed dropped",
    "a row added against a key",
];

/// Spoils a right judgement of "not covered" in one way; whether that is found. Nothing where the input does not have that verdict, or
/// the case no such fact.
pub fn tampered(call: usize, seed: u64, index: u64, way: usize) -> Option<bool> {
    let (mut random, club) = start(call, seed, index);
    let length = if random.percent(50) { JUDGE_WORDS } else { lent(&mut random, JUDGE_WORDS) };
    let (_, bytes, _, _) = to_judge(&mut random, &club);
    let mut out = Lent::new(length, &mut random, word);
    let mut told = library::judge(club.given(), &bytes, &mut out);
    if told.verdict != 1 || told.count < 2 || told.count > 252 {
        return None;
    }
    let mut words = out.after()[..told.count * 5].to_vec();
    let table = crate::table::of_bytes(&club.bytes).unwrap();
    let facts: Vec<meaning::Fact> = words.chunks(5).map(|f| f.try_into().unwrap()).collect();
    let at = random.below(told.count) * 5;
    match way {
        0 => {
            words.drain(at..at + 5);
            told.count -= 1;
        }
        1 => {
            let relation = if table.is_own() { random.pick(&[2, 10]) } else { random.between(1, table.last()) };
            let mut fact = [relation as i32, 0, 0, 0, 0];
            fact[1..=table.columns(relation)].fill(meaning::MADE_UP + 777);
            words = with_fact(facts, fact);
            told.count += 1;
        }
        2 => told.count += 1,
        3 => told.count -= 1,
        4 => told.missing[random.below(4)] += 1,
        5 => {
            let other = (at + 5) % words.len();
            for word in 0..5 {
                words.swap(at + word, other + word);
            }
        }
        6 => {
            let fact = words[at..at + 5].to_vec();
            words.splice(at..at, fact);
            told.count += 1;
        }
        7 => words[at + 1] = random.pick(&[meaning::MOST_VALUE + 1, 5_000_001, -1]),
        8 => out.spoil(words.len() + 3, 0x5a5a_5a5a),
        9 => {
            told.count = 0;
            told.missing = [0; 4];
        }
        10 => {
            let owed = facts.iter().find_map(|fact| meaning::owed(&table, fact))?;
            words = facts.into_iter().filter(|fact| *fact != owed).collect::<Vec<_>>().concat();
            told.count -= 1;
        }
        _ => {
            let mut fact = *facts.iter().find(|fact| table.key(fact[0] as usize).is_some())?;
            fact[table.columns(fact[0] as usize)] = meaning::MADE_UP + 777;
            words = with_fact(facts, fact);
            told.count += 1;
        }
    }
    if words.len() > out.length() {
        return None;
    }
    for (place, word) in words.into_iter().enumerate() {
        out.spoil(place, word);
    }
    let found = check_judgement(&club.bytes, &bytes, &told, &out, |_| Ok(vec![1]));
    (!found.as_ref().is_err_and(|why| why == meaning::UNCHECKED)).then_some(found.is_err())
}

/// The words of facts with one more, ascending.
fn with_fact(mut facts: Vec<meaning::Fact>, fact: meaning::Fact) -> Vec<i32> {
    facts.push(fact);
    facts.sort();
    facts.concat()
}
