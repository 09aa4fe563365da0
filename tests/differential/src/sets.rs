//! A page's whole set of sheets: one input of the call, given to the library and judged here, sheet by sheet.

use crate::clubs::Club;
use crate::compare::{self, Outcome};
use crate::generate::Known;
use crate::library::{self, Lent, Set, SHEETS};
use crate::meaning::{self, Judgement};
use crate::random::Random;
use crate::sheet;
use crate::slips::{is, Slip};
use crate::table::{self, Table};
use std::time::Instant;

const STRETCH: usize = 1_260;

/// The bytes that a page wants.
const PAGE: usize = 569;

/// How many sheets: few, so that a run of many sets ends, and sometimes as many as there may be and one more.
fn how_many(random: &mut Random) -> usize {
    match random.below(40) {
        0 => 0,
        1 => SHEETS,
        2 => SHEETS + 1,
        3..=6 => random.between(4, SHEETS - 1),
        _ => random.between(1, 3),
    }
}

/// Ends that are right, or have one moved, dropped, doubled or swapped.
fn ends_of(random: &mut Random, sheets: &[Vec<u8>]) -> (&'static str, Vec<usize>) {
    let mut ends: Vec<usize> = sheets.iter().scan(0, |end, sheet| Some(*end + sheet.len()).inspect(|e| *end = *e)).collect();
    if random.percent(70) {
        return ("right ends", ends);
    }
    let at = random.below(ends.len());
    match random.below(6) {
        0 if !ends.is_empty() => ends[at] = ends[at].wrapping_add_signed(random.pick(&[-1, 1, -8, 8, -25, 25])),
        1 if !ends.is_empty() => ends[at] = random.pick(&[0, 1, usize::MAX, 1 << 32]),
        2 if !ends.is_empty() => drop(ends.remove(at)),
        3 if !ends.is_empty() => ends.insert(at, ends[at]),
        4 if ends.len() > 1 => ends.swap(at, (at + 1) % sheets.len()),
        _ => ends.push(ends.last().map_or(0, |end| end.wrapping_add_signed(random.pick(&[-1, 0, 1])))),
    }
    ("ends changed", ends)
}

/// The number by which a set is sent back, 0 where it is taken. A table that is none is no cause: each sheet is then sent back for it.
fn refusal(table: &[u8], count: usize, ends: &[usize], room: usize) -> usize {
    let most = if is(Slip::SeventeenSheetsTaken) { SHEETS + 1 } else { SHEETS };
    let falls_back = ends.windows(2).any(|pair| pair[1] < pair[0] || is(Slip::EqualEndsFallBack) && pair[1] == pair[0]);
    let off = !is(Slip::LastEndUnasked) && ends.last().copied().unwrap_or(0) != count;
    let wrong = ends.len() > most || falls_back || off;
    let short = room < STRETCH * ends.len();
    let sent = wrong || short;
    if (is(Slip::SetSentBackByTable) && !sent || is(Slip::TableBeforeEnds) && sent) && table::of_bytes(table).is_err() {
        return 15;
    }
    match (wrong, short) {
        (true, true) if is(Slip::RoomBeforeEnds) => 13,
        (true, _) => 14,
        (false, true) => 13,
        (false, false) => 0,
    }
}

/// What stands at a place that no sheet has.
fn unjudged(number: usize) -> Judgement {
    Judgement { number, ..Judgement::plain(9) }
}

/// Whether the judgement of one sheet of a set is right, and what it gets alone.
fn check_sheet(club: &Club, bytes: &[u8], told: &Judgement, stretch: &Lent<i32>, drawn: &[compare::Drawn]) -> Result<(), String> {
    // Where an end was moved, the sheet is none of those that were drawn.
    let (known, log) = drawn.iter().find(|d| d.1 == bytes).map_or((Known::Large, &[][..]), |d| (d.2, &d.3[..]));
    let right = |taken: &sheet::Sheet| compare::verdicts(taken, known, log).map(|(right, _)| right);
    let found = compare::check_judgement(&club.bytes, bytes, told, stretch, right);
    match found {
        Err(why) if why != meaning::UNCHECKED => return Err(why),
        _ => (),
    }
    let mut alone = stretch.as_it_was();
    let same = library::judge(club.given(), bytes, &mut alone) == *told && alone.after() == stretch.after();
    if same {
        Ok(())
    } else {
        Err("not what the sheet gets alone".into())
    }
}

fn check_set(club: &Club, bytes: &[u8], ends: &[usize], told: &Set, out: &Lent<i32>, drawn: &[compare::Drawn]) -> Result<(), String> {
    let number = refusal(&club.bytes, bytes.len(), ends, out.length());
    let count = if number == 0 { ends.len() } else { 0 };
    if (told.number, told.line, told.count) != (number, 0, count) {
        return Err(format!("expected number {number}, line 0, count {count}"));
    }
    if told.sheets[count.min(SHEETS)..].iter().any(|place| *place != unjudged(number)) {
        return Err("a place without a sheet".into());
    }
    if !out.is_kept_from(count * STRETCH) {
        return Err("words past the last stretch are changed, or those around what was lent".into());
    }
    let starts = [0].into_iter().chain(ends.iter().copied());
    for (place, (start, end)) in starts.zip(ends).take(count).enumerate() {
        let sheet = &bytes[start..*end];
        check_sheet(club, sheet, &told.sheets[place], &out.stretch(place * STRETCH, STRETCH), drawn)
            .map_err(|why| format!("the sheet at place {place}: {why}"))?;
    }
    Ok(())
}

/// The page for these judgements.
fn page_of(sheets: &[Judgement]) -> Vec<u8> {
    let line = |fields: &[usize]| fields.iter().map(|n| format!("{n:>8}")).collect::<String>() + "\n";
    let had = |verdict| sheets.iter().filter(|j| j.verdict == verdict).count();
    let lines = sheets.iter().enumerate().map(|(at, j)| line(&[at + 1, j.verdict, j.number, j.count]));
    let last = line(&[had(0), had(1), had(2), had(9), sheets.iter().map(|j| j.count).sum()]);
    (lines.collect::<String>() + &last).into_bytes()
}

/// Whether the set with a page gets what it got without, and the page; or neither, where too few bytes are lent.
fn check_day(random: &mut Random, club: &Club, bytes: &[u8], ends: &[usize], told: &Set, out: &Lent<i32>) -> Result<(), String> {
    let mut page = Lent::new(random.pick(&[PAGE, PAGE, PAGE, PAGE + 9, PAGE - 1, 41, 0]), random, |n| n as u8);
    let mut words = out.as_it_was();
    let judged = library::judge_day(club.given(), bytes, ends, &mut words, &mut page);
    let mut again = page.as_it_was();
    let same = compare::same_by_own(club, &judged, &words, |own, words| library::judge_day(own, bytes, ends, words, &mut again));
    if !same || club.given().is_none() && !again.is_left_as(&page) {
        return Err("a page by the own table's bytes is another".into());
    }
    let (day, count) = judged;
    let short = page.length() < PAGE && told.number == 0;
    let right = if short {
        let sent = (day.number, day.line, day.count, count) == (13, 0, 0, 0);
        sent && day.sheets.iter().all(|place| *place == unjudged(13)) && words.is(&[]) && page.is(&[])
    } else {
        let paper = if told.number == 0 { page_of(&told.sheets[..told.count]) } else { vec![] };
        let same = (day.number, day.line, day.count, &day.sheets) == (told.number, told.line, told.count, &told.sheets);
        same && words.after() == out.after() && words.is_kept_from(told.count * STRETCH) && page.is(&paper) && count == paper.len()
    };
    if right {
        Ok(())
    } else {
        Err(format!("with {} bytes for a page: {day:?}, {count} bytes, page \"{}\"", page.length(), page.after().escape_ascii()))
    }
}

pub fn judge_set(random: &mut Random, club: &Club, show: bool) -> Outcome {
    let drawn: Vec<compare::Drawn> = (0..how_many(random)).map(|_| compare::to_judge(random, club)).collect();
    let sheets: Vec<Vec<u8>> = drawn.iter().map(|d| if random.percent(4) { vec![] } else { d.1.clone() }).collect();
    let bytes = sheets.concat();
    let (name, ends) = ends_of(random, &sheets);
    let length = if random.percent(60) { STRETCH * ends.len() } else { compare::lent(random, STRETCH * ends.len()) };
    let mut out = Lent::new(length, random, compare::word);
    let start = Instant::now();
    let told = library::judge_set(club.given(), &bytes, &ends, &mut out);
    let took = start.elapsed();
    let same = compare::same_by_own(club, &told, &out, |own, out| library::judge_set(own, &bytes, &ends, out));
    let found = check_set(club, &bytes, &ends, &told, &out, &drawn)
        .and_then(|_| check_day(random, club, &bytes, &ends, &told, &out))
        .and(if same { Ok(()) } else { Err("by the own table's bytes the call does something else".into()) });
    let text = || {
        let found = found.as_ref().err().map_or("the same", |e| e);
        format!("bytes b\"{}\"\nends {ends:?}\nlent {length}\nlibrary: {told:?}\nfound: {found}", bytes.escape_ascii())
    };
    let several = [0, 1, SHEETS].contains(&told.count);
    let by_15 = told.count > 0 && told.sheets[..told.count.min(SHEETS)].iter().all(|sheet| sheet.number == 15);
    let result = match told.number {
        0 if by_15 => "done, each sheet refused by 15".into(),
        0 if several => format!("done, sheets {}", told.count),
        0 => "done".into(),
        number => compare::named(number),
    };
    Outcome {
        input: name,
        table: "",
        result,
        known: "",
        notes: vec![],
        limits: vec![],
        shown: (show || found.is_err()).then(text),
        differs: found.is_err(),
        took,
    }
}

/// Sets at the edges, held to answers written by hand: how many, and which differ. Each is judged without a table, by the own one, and by
/// two that are none, for which each sheet is sent back and the set is not.
pub fn edges(random: &mut Random) -> (usize, Vec<String>) {
    let empty = |n: usize| vec![0; n];
    let cases: [(usize, Vec<usize>, usize, usize); 14] = [
        (0, vec![], 0, 0),
        (1, vec![], STRETCH, 14),
        (0, vec![0], STRETCH - 1, 13),
        (0, vec![0], STRETCH, 0),
        (0, vec![1], STRETCH, 14),
        (1, vec![0], STRETCH, 14),
        (2, vec![2, 1, 2], 3 * STRETCH, 14),
        (2, vec![1, 3], 2 * STRETCH, 14),
        (2, vec![3, 2], 2 * STRETCH, 14),
        (0, empty(16), 16 * STRETCH, 0),
        (0, empty(16), 16 * STRETCH - 1, 13),
        (0, empty(17), 17 * STRETCH, 14),
        (0, empty(17), 0, 14),
        (1, vec![2], 0, 14),
    ];
    let own = Table::own().bytes();
    let tables: [(Option<&[u8]>, usize, usize); 4] = [(None, 3, 0), (Some(&own), 3, 0), (Some(&[]), 15, 0), (Some(&own[..329]), 15, 10)];
    let mut failed = vec![];
    for (by, (table, cause, line)) in tables.iter().enumerate() {
        for (at, (count, ends, room, number)) in cases.iter().enumerate() {
            let bytes = vec![10; *count];
            let mut out = Lent::new(*room, random, compare::word);
            let told = library::judge_set(*table, &bytes, ends, &mut out);
            let judged = if *number == 0 { ends.len() } else { 0 };
            let alone = Judgement::refused(sheet::Refusal { number: *cause, line: *line });
            let right = (0..SHEETS).all(|k| told.sheets[k] == if k < judged { alone.clone() } else { unjudged(*number) });
            if (told.number, told.line, told.count) != (*number, 0, judged) || !right || !out.is(&[]) {
                failed.push(format!("set at an edge, {at}, table {by}: {told:?}"));
            }
        }
    }
    (tables.len() * cases.len(), failed)
}
