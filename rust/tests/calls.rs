//! Calls every function of the crate, to see that its declarations are those of the archive and that what it hands back is the right part.
use figdawesa::*;

const QUESTION: &str = "       1      -1      -2\n       4       4      -1      -2\n";
const LIST: &str = "       2      -1      -2\n       4       5      -1      -2\n";
const VIEW: &str = "       3      -1      -2\n       4       4      -1      -2\n";
const ROWS: &str = "       5       7       1\n       5       7       2\n";
const SIGNALS: &str = "       4       4      -1      -2\n";
const NO_SUCH_RELATION: &str = "       3      -1      -2\n       4      11      -1      -2\n";
/// A view with no columns has its one row, and another says that there are no beats.
const CONTRARY: &str = "       3\n       4       5      -1      -2\n       5\n       3      -1      -2\n       4       5      -1      -2\n";
const MARK: i32 = 119;

fn sheet(parts: &[&str]) -> Vec<u8> {
    parts.concat().into_bytes()
}

fn whole() -> Vec<u8> {
    sheet(&[QUESTION, LIST, VIEW, ROWS])
}

fn refused<T>(cause: Cause, line: usize) -> Result<T, Refused> {
    Err(Refused { cause, line })
}

#[test]
fn reads_and_writes() {
    let mut words = [MARK; READ_WORDS];
    let form = read(&whole(), &mut words).unwrap().to_vec();
    assert_eq!(form.len(), 8 * LINE_WORDS);
    assert_eq!(form[..LINE_WORDS], [3, 1, -1, -2, 0, 0, 0]);
    assert!(words[form.len()..].iter().all(|&word| word == MARK));
    let mut bytes = [0; WRITE_BYTES];
    assert_eq!(write(&form, &mut bytes), Ok(&whole()[..]));
    assert_eq!(write(&form, &mut bytes[1..]), refused(Cause::NoRoom, 0));
    assert_eq!(write(&form[1..], &mut bytes), refused(Cause::Malformed, 0));
}

#[test]
fn sends_sheets_back() {
    let mut words = [MARK; READ_WORDS];
    let unclosed = &whole()[..whole().len() - 1];
    assert_eq!(read(unclosed, &mut words), refused(Cause::Malformed, 8));
    assert_eq!(read(&[0; SHEET_BYTES + 1], &mut words), refused(Cause::TooLong, 0));
    assert_eq!(read(&[], &mut words), refused(Cause::Misplaced, 0));
    assert_eq!(read(&[0; SHEET_BYTES], &mut words), refused(Cause::Malformed, 1));
    assert_eq!(read(&whole(), &mut words[1..]), refused(Cause::NoRoom, 0));
    assert_eq!(read(&whole(), &mut []), refused(Cause::NoRoom, 0));
    let variable = "       3      -1     -13\n";
    let shorter = "       2      -1\n       4       5      -1      -2\n";
    let unbound = "       1      -3      -2\n";
    let descending = "       5       7       2\n       5       7       1\n";
    for (parts, cause, line) in [
        (&[QUESTION, LIST, "       6\n"][..], Cause::Misplaced, 5),
        (&[QUESTION, LIST, NO_SUCH_RELATION], Cause::WrongColumns, 6),
        (&[QUESTION, LIST, variable, SIGNALS], Cause::OutOfRange, 5),
        (&[QUESTION, &SIGNALS.repeat(6), LIST], Cause::TooMany, 8),
        (&[QUESTION, shorter], Cause::WrongLength, 3),
        (&[unbound, SIGNALS, LIST], Cause::UnsafeHead, 1),
        (&[QUESTION, LIST, VIEW, descending], Cause::NotAbove, 8),
    ] {
        assert_eq!(read(&sheet(parts), &mut words), refused(cause, line));
    }
    assert!(words.iter().all(|&word| word == MARK));
}

#[test]
fn hands_back_lines() {
    let sheet = whole();
    assert_eq!(line(&sheet, 1), &QUESTION.as_bytes()[..24]);
    assert_eq!(line(&sheet, 8), b"       5       7       2");
    assert_eq!(line(&sheet, 6), line(&sheet, 2));
    assert_eq!(line(&sheet, 6).as_ptr(), sheet[141..].as_ptr());
    assert_eq!(line(&sheet, 0), b"");
    assert_eq!(line(&sheet, 9), b"");
    assert_eq!(line(&sheet, usize::MAX), b"");
    assert_eq!(line(&[], 1), b"");
}

#[test]
fn evaluates() {
    let facts = [4, 7, 1, 0, 0, 4, 7, 2, 0, 0, 5, 8, 3, 0, 0];
    let mut room = [MARK; 12];
    assert_eq!(evaluate(&whole(), 1, &facts, &mut room[..8]), Ok(&[7, 1, 0, 0, 7, 2, 0, 0][..]));
    assert_eq!(evaluate(&whole(), 2, &facts, &mut room[8..]), Ok(&[8, 3, 0, 0][..]));
    assert_eq!(evaluate(&whole(), 3, &[], &mut []), Ok(&[][..]));
    assert_eq!(evaluate(&whole(), 3, &facts, &mut room[..7]), refused(Cause::NoRoom, 0));
    assert_eq!(evaluate(&whole(), 4, &facts, &mut room), refused(Cause::NoBlock, 0));
    assert_eq!(evaluate(&whole(), 1, &facts[..14], &mut room), refused(Cause::WrongFact, 0));
    assert_eq!(
        evaluate(&whole(), 1, &[facts, facts].concat(), &mut room),
        refused(Cause::FactOrder, 0)
    );
    assert_eq!(room, [7, 1, 0, 0, 7, 2, 0, 0, 8, 3, 0, 0]);
}

#[test]
fn judges() {
    let mut room = [MARK; JUDGE_WORDS];
    let case = Verdict::NotCovered {
        missing: [7, 1, 0, 0],
        facts: &[4, 7, 1, 0, 0, 4, 7, 2, 0, 0],
    };
    assert_eq!(judge(&sheet(&[QUESTION, LIST, VIEW]), &mut room), Ok(Verdict::Covered));
    assert_eq!(judge(&sheet(&[QUESTION, LIST, CONTRARY]), &mut room), Ok(Verdict::NoLog));
    assert_eq!(
        judge(&sheet(&[QUESTION, LIST, NO_SUCH_RELATION]), &mut room),
        refused(Cause::WrongColumns, 6)
    );
    assert_eq!(judge(&whole(), &mut room[1..]), refused(Cause::NoRoom, 0));
    assert!(room.iter().all(|&word| word == MARK));
    assert_eq!(judge(&whole(), &mut room), Ok(case));
    assert!(room[10..].iter().all(|&word| word == MARK));
}

#[test]
fn takes_serials_of_seven_digits() {
    let rows = sheet(&[QUESTION, LIST, VIEW, "       5 9999998 1000000\n       5 9999998 9999999\n"]);
    let past = sheet(&[QUESTION, LIST, VIEW, "       5 9999999 9999999\n       510000000       1\n"]);
    let made = sheet(&[
        "       1      -1\n       4       4      -1      -2\n       2 9999998\n       4       4 9999998      -2\n",
        "       3      -1\n       4       4      -1      -2\n       5 9999998\n       5 9999999\n",
    ]);
    let mut words = [MARK; READ_WORDS];
    let form = read(&rows, &mut words).unwrap().to_vec();
    assert_eq!(form[6 * LINE_WORDS..7 * LINE_WORDS], [3, 5, 9_999_998, 1_000_000, 0, 0, 0]);
    let mut bytes = [0; WRITE_BYTES];
    assert_eq!(write(&form, &mut bytes), Ok(&rows[..]));
    assert_eq!(read(&past, &mut words), refused(Cause::OutOfRange, 8));
    let mut room = [MARK; JUDGE_WORDS];
    let (last, beyond) = ([4, 10_000_000, 10_000_999, 0, 0], [4, 10_000_000, 10_001_000, 0, 0]);
    assert_eq!(evaluate(&rows, 1, &last, &mut room), Ok(&last[1..]));
    assert_eq!(evaluate(&rows, 1, &beyond, &mut room), refused(Cause::WrongFact, 0));
    let facts = &[4, 9_999_998, 1_000_000, 0, 0, 4, 9_999_998, 9_999_999, 0, 0][..];
    let missing = [9_999_998, 1_000_000, 0, 0];
    assert_eq!(judge(&rows, &mut room), Ok(Verdict::NotCovered { missing, facts }));
    let Ok(Verdict::NotCovered { missing, facts }) = judge(&made, &mut room) else {
        panic!("a case is there");
    };
    assert_eq!((missing, facts[1], facts[6]), ([9_999_999, 0, 0, 0], 9_999_998, 9_999_999));
    assert!([facts[2], facts[7]].iter().all(|value| (10_000_000..=10_000_999).contains(value)));
}

#[test]
fn judges_sets() {
    let bad = sheet(&[QUESTION, LIST, NO_SUCH_RELATION]);
    let sheets = [
        whole(),
        bad,
        vec![],
        sheet(&[QUESTION, LIST, VIEW]),
        sheet(&[QUESTION, LIST, CONTRARY]),
        whole(),
    ];
    let bytes = sheets.concat();
    let ends: Vec<usize> = (1..=sheets.len()).map(|n| sheets[..n].concat().len()).collect();
    let case = Verdict::NotCovered {
        missing: [7, 1, 0, 0],
        facts: &[4, 7, 1, 0, 0, 4, 7, 2, 0, 0],
    };
    let mut room = [MARK; 6 * JUDGE_WORDS + 1];
    assert_eq!(
        judge_set(&bytes, &ends, &mut room[..6 * JUDGE_WORDS - 1]),
        refused(Cause::NoRoom, 0)
    );
    assert_eq!(judge_set(&bytes, &ends[..5], &mut room), refused(Cause::WrongEnds, 0));
    assert_eq!(
        judge_set(&bytes, &[ends[1], ends[0], ends[5]], &mut []),
        refused(Cause::WrongEnds, 0)
    );
    assert_eq!(judge_set(&bytes[1..], &ends, &mut room), refused(Cause::WrongEnds, 0));
    assert_eq!(judge_set(&[], &[0; SHEETS + 1], &mut room), refused(Cause::WrongEnds, 0));
    assert_eq!(judge_set(&bytes, &[], &mut room), refused(Cause::WrongEnds, 0));
    assert_eq!(judge_set(&[], &[], &mut []), Ok(vec![]));
    assert_eq!(judge_set(&[], &[0; 6], &mut room), Ok(vec![refused(Cause::Misplaced, 0); 6]));
    assert!(room.iter().all(|&word| word == MARK));
    assert_eq!(
        judge_set(&bytes, &ends, &mut room),
        Ok(vec![
            Ok(case),
            refused(Cause::WrongColumns, 6),
            refused(Cause::Misplaced, 0),
            Ok(Verdict::Covered),
            Ok(Verdict::NoLog),
            Ok(case)
        ])
    );
    assert!(room[10..5 * JUDGE_WORDS].iter().all(|&word| word == MARK));
    assert!(room[5 * JUDGE_WORDS + 10..].iter().all(|&word| word == MARK));
}

#[test]
fn judges_days() {
    let sheets = [
        whole(),
        sheet(&[QUESTION, LIST, NO_SUCH_RELATION]),
        sheet(&[QUESTION, LIST, VIEW]),
        sheet(&[QUESTION, LIST, CONTRARY]),
    ];
    let bytes = sheets.concat();
    let ends: Vec<usize> = (1..=sheets.len()).map(|n| sheets[..n].concat().len()).collect();
    let mut room = [MARK; 4 * JUDGE_WORDS];
    let mut page = [b'~'; PAGE_BYTES + 1];
    let short = &mut [b'~'; PAGE_BYTES - 1];
    assert_eq!(judge_day(&bytes, &ends, &mut room, short), refused(Cause::NoRoom, 0));
    assert_eq!(judge_day(&[], &[], &mut [], short), refused(Cause::NoRoom, 0));
    assert_eq!(judge_day(&bytes[1..], &ends, &mut room, short), refused(Cause::WrongEnds, 0));
    assert_eq!(judge_day(&bytes, &ends, &mut room[1..], &mut page), refused(Cause::NoRoom, 0));
    assert!(room.iter().all(|&word| word == MARK) && page.iter().chain(&*short).all(|&byte| byte == b'~'));
    let none = "       0       0       0       0       0\n";
    assert_eq!(judge_day(&[], &[], &mut [], &mut page), Ok((vec![], none.as_bytes())));
    let lines = [
        "       1       1       0       2\n",
        "       2       9       4       0\n",
        "       3       0       0       0\n",
        "       4       2       0       0\n",
        "       1       1       1       1       2\n",
    ];
    let mut alone = [MARK; 4 * JUDGE_WORDS];
    let set = judge_set(&bytes, &ends, &mut alone).unwrap();
    assert_eq!(judge_day(&bytes, &ends, &mut room, &mut page), Ok((set, lines.concat().as_bytes())));
    assert_eq!(room, alone);
    assert!(page[4 * 33 + 41..].iter().all(|&byte| byte == b'~'));
}

#[test]
fn texts() {
    let text = "q(s,t): Sig(s,t)\nl(s,t): Beat(s,t)\nv(s,t): Sig(s,t) = (7,1); (7,2)\n";
    let mut bytes = [b'~'; WRITE_BYTES];
    assert_eq!(sheet_of(text.as_bytes(), &mut bytes), Ok(&whole()[..]));
    assert!(bytes[whole().len()..].iter().all(|&byte| byte == b'~'));
    let no_room = Refused {
        cause: Cause::NoRoom,
        line: 0,
    };
    assert_eq!(
        sheet_of(text.as_bytes(), &mut bytes[1..]),
        Err(NoSheet::Refused { refused: no_room, line: 0 })
    );
    let descending = text.replace("(7,1); (7,2)", "(7,2); (7,1)");
    let not_above = Refused {
        cause: Cause::NotAbove,
        line: 8,
    };
    assert_eq!(
        sheet_of(descending.as_bytes(), &mut bytes),
        Err(NoSheet::Refused {
            refused: not_above,
            line: 3
        })
    );
    assert!(matches!(
        sheet_of(b"q(s,t): Sig(s)\n", &mut bytes),
        Err(NoSheet::Expected { line: 1, relation: 4, .. })
    ));
    let mut room = [b'~'; TEXT_BYTES + 1];
    let back = text_of(&whole(), &mut room).unwrap().to_vec();
    let mut again = [0; WRITE_BYTES];
    assert_eq!(sheet_of(&back, &mut again), Ok(&whole()[..]));
    assert_eq!(text_of(&whole(), &mut room[2..]), refused(Cause::NoRoom, 0));
    let said = "not covered: (7,1) is missing. Log: Sig(7,1), Sig(7,2)\n";
    assert_eq!(answer(text.as_bytes(), &mut room), said.as_bytes());
    assert_eq!(answer(&whole(), &mut room), said.as_bytes());
    assert_eq!(answer(text.as_bytes(), &mut room[2..]), b"");
}

/// The library's own table, by hand.
const OWN: &str = "       1       2       0       0
       2       1       0       0
       3       3       2       0
       4       2       0       0
       5       2       0       4
       6       2       0       4
       7       3       2       0
       8       2       0       0
       9       4       0       0
      10       1       0       0
";
/// What a club with lactate meters has beyond the ten: 11 has a rower's lactate at a minute, with one value for both, and 12 those that were
/// checked, each of which is in 11.
const LACTATE: &str = "      11       3       2       0\n      12       3       0      11\n";
/// The same two without key and parent.
const LOOSE: &str = "      11       3       0       0\n      12       3       0       0\n";
/// A club that has only these two.
const SMALL: &str = "       1       3       2       0\n       2       3       0       1\n";
/// The second relation's key has all its columns.
const BROKEN: &str = "       1       3       2       0\n       2       3       3       0\n";

/// Whose lactate was measured when, of which all is listed, and a list of what was checked.
const MEASURED: &str = "       1      -1      -2
       4      11      -1      -2      -3
       2      -1      -2
       4      12      -1      -2      -3
       3      -1      -2      -3
       4      11      -1      -2      -3
       5       7       1       4
";
/// The values of rower 7 at minute 1, two of which are listed, and a list of those that were checked.
const TWICE: &str = "       1      -1
       4      11       7       1      -1
       2      -1
       4      12       7       1      -1
       3      -1
       4      11       7       1      -1
       5       4
       5       5
";
/// All that was checked, which is listed, and a list of all that was measured.
const CHECKED: &str = "       1      -1      -2      -3
       4      12      -1      -2      -3
       2      -1      -2      -3
       4      11      -1      -2      -3
       3      -1      -2      -3
       4      12      -1      -2      -3
       5       7       1       4
";
/// The same with a list of all that was worn.
const WORN: &str = "       1      -1      -2      -3
       4      12      -1      -2      -3
       2      -1      -2      -3
       4       3      -1      -2      -3
       3      -1      -2      -3
       4      12      -1      -2      -3
       5       7       1       4
";
const MEASURED_TEXT: &str = "q(a,b): R11(a,b,c)\nl(a,b): R12(a,b,c)\nv(a,b,c): R11(a,b,c) = (7,1,4)\n";
const MEASURED_CASE: Verdict = Verdict::NotCovered {
    missing: [7, 1, 0, 0],
    facts: &[11, 7, 1, 4, 0],
};

/// The club's table, or the loose one: both have twelve lines.
fn twelve(two: &str) -> Vec<u8> {
    sheet(&[OWN, two])
}

/// A table of as many relations, each with two columns.
fn relations(count: usize) -> Vec<u8> {
    (1..=count)
        .flat_map(|n| format!("{n:8}       2       0       0\n").into_bytes())
        .collect()
}

fn ends_of(sheets: &[Vec<u8>]) -> Vec<usize> {
    (1..=sheets.len()).map(|n| sheets[..n].concat().len()).collect()
}

#[test]
fn writes_its_own_table() {
    let mut bytes = [b'~'; OWN_TABLE_BYTES + 1];
    assert_eq!(own_table(&mut bytes[2..]), refused(Cause::NoRoom, 0));
    assert_eq!(own_table(&mut []), refused(Cause::NoRoom, 0));
    assert_eq!(bytes, [b'~'; OWN_TABLE_BYTES + 1]);
    assert_eq!(own_table(&mut bytes), Ok(OWN.as_bytes()));
    assert_eq!(bytes[OWN_TABLE_BYTES], b'~');
    assert_eq!(own_table(&mut bytes[1..]), Ok(OWN.as_bytes()));
    for (line, (_, columns)) in OWN.lines().zip(RELATIONS) {
        assert_eq!(line[8..16].trim().parse(), Ok(columns));
    }
}

#[test]
fn sends_tables_back() {
    let mut words = [MARK; READ_WORDS];
    assert_eq!(relations(MOST_RELATIONS).len(), TABLE_BYTES);
    for (table, line) in [
        (vec![], 0),
        (relations(MOST_RELATIONS + 1), 33),
        ([relations(MOST_RELATIONS), vec![b'x']].concat(), 33),
        (relations(2)[..65].to_vec(), 2),
        (b"\n".to_vec(), 1),
        (b"       1       2       0\n".to_vec(), 1),
        (b"       1       2       0      +0\n".to_vec(), 1),
        (b"       0       2       0       0\n".to_vec(), 1),
        (b"       1       0       0       0\n".to_vec(), 1),
        (b"       1       5       0       0\n".to_vec(), 1),
        (b"       1       2      -1       0\n".to_vec(), 1),
        (b"       1       2       0       1\n".to_vec(), 1),
        (BROKEN.into(), 2),
        (sheet(&[SMALL, "       4       3       0       0\n"]), 3),
        (sheet(&[SMALL, "       3       2       0       1\n"]), 3),
        (sheet(&[SMALL, "       3       3       0       2\n"]), 3),
        (sheet(&[SMALL, "       3       3       0       4\n"]), 3),
    ] {
        assert_eq!(read_by_table(&table, &whole(), &mut words), refused(Cause::WrongTable, line));
    }
    assert!(words.iter().all(|&word| word == MARK));
    assert_eq!(
        read_by_table(&relations(MOST_RELATIONS), &whole(), &mut words).map(<[i32]>::len),
        Ok(56)
    );
}

#[test]
fn reads_and_writes_by_tables() {
    let club = twelve(LACTATE);
    let mut words = [MARK; READ_WORDS];
    let mut bytes = [b'~'; WRITE_BYTES];
    let form = [
        [3, 1, -1, -2, 0, 0, 0],
        [5, 4, 11, -1, -2, -3, 0],
        [3, 2, -1, -2, 0, 0, 0],
        [5, 4, 12, -1, -2, -3, 0],
        [4, 3, -1, -2, -3, 0, 0],
        [5, 4, 11, -1, -2, -3, 0],
        [4, 5, 7, 1, 4, 0, 0],
    ]
    .concat();
    for (table, cause, line) in [
        (BROKEN.as_bytes(), Cause::WrongTable, 2),
        (&club[..363], Cause::WrongColumns, 4),
        (OWN.as_bytes(), Cause::WrongColumns, 2),
        (SMALL.as_bytes(), Cause::WrongColumns, 2),
    ] {
        assert_eq!(read_by_table(table, MEASURED.as_bytes(), &mut words), refused(cause, line));
        assert_eq!(write_by_table(table, &form, &mut bytes), refused(cause, line));
    }
    assert_eq!(
        read_by_table(&club, &sheet(&[QUESTION, LIST, NO_SUCH_RELATION]), &mut words),
        refused(Cause::WrongColumns, 6)
    );
    assert_eq!(
        read_by_table(BROKEN.as_bytes(), &[0; SHEET_BYTES + 1], &mut []),
        refused(Cause::WrongTable, 2)
    );
    assert_eq!(
        write_by_table(BROKEN.as_bytes(), &[0; READ_WORDS + 1], &mut []),
        refused(Cause::WrongTable, 2)
    );
    assert_eq!(
        read_by_table(&club, MEASURED.as_bytes(), &mut words[1..]),
        refused(Cause::NoRoom, 0)
    );
    assert_eq!(write_by_table(&club, &form, &mut bytes[1..]), refused(Cause::NoRoom, 0));
    assert!(words.iter().all(|&word| word == MARK) && bytes.iter().all(|&byte| byte == b'~'));
    assert_eq!(read_by_table(&club, MEASURED.as_bytes(), &mut words), Ok(&form[..]));
    assert_eq!(write_by_table(&club, &form, &mut bytes), Ok(MEASURED.as_bytes()));
    assert!(words[form.len()..].iter().all(|&word| word == MARK) && bytes[MEASURED.len()..].iter().all(|&byte| byte == b'~'));
}

/// Keys and parents are not asked for.
#[test]
fn evaluates_by_tables() {
    let club = twelve(LACTATE);
    let facts = [11, 7, 1, 4, 0, 11, 7, 1, 5, 0, 12, 8, 2, 3, 0];
    let mut room = [MARK; 12];
    let measured = MEASURED.as_bytes();
    assert_eq!(
        evaluate_by_table(BROKEN.as_bytes(), measured, 1, &facts, &mut room),
        refused(Cause::WrongTable, 2)
    );
    assert_eq!(
        evaluate_by_table(BROKEN.as_bytes(), &[], 9, &[1], &mut []),
        refused(Cause::WrongTable, 2)
    );
    assert_eq!(
        evaluate_by_table(OWN.as_bytes(), &whole(), 1, &facts, &mut room),
        refused(Cause::WrongFact, 0)
    );
    assert_eq!(
        evaluate_by_table(&club, measured, 1, &[13, 7, 1, 4, 0], &mut room),
        refused(Cause::WrongFact, 0)
    );
    assert_eq!(
        evaluate_by_table(&club, measured, 1, &[12, 7, 1, 4, 1], &mut room),
        refused(Cause::WrongFact, 0)
    );
    assert_eq!(
        evaluate_by_table(&club, measured, 3, &facts, &mut room[..7]),
        refused(Cause::NoRoom, 0)
    );
    assert_eq!(evaluate_by_table(&club, measured, 4, &facts, &mut room), refused(Cause::NoBlock, 0));
    assert_eq!(room, [MARK; 12]);
    assert_eq!(
        evaluate_by_table(&club, measured, 3, &facts, &mut room),
        Ok(&[7, 1, 4, 0, 7, 1, 5, 0][..])
    );
    assert_eq!(evaluate_by_table(&club, measured, 1, &facts, &mut room[8..]), Ok(&[7, 1, 0, 0][..]));
    assert_eq!(evaluate_by_table(&club, measured, 2, &facts, &mut room[..4]), Ok(&[8, 2, 0, 0][..]));
    assert_eq!(room, [8, 2, 0, 0, 7, 1, 5, 0, 7, 1, 0, 0]);
}

#[test]
fn judges_by_tables() {
    let (club, loose) = (twelve(LACTATE), twelve(LOOSE));
    let mut room = [MARK; JUDGE_WORDS];
    assert_eq!(
        judge_by_table(BROKEN.as_bytes(), MEASURED.as_bytes(), &mut room),
        refused(Cause::WrongTable, 2)
    );
    assert_eq!(judge_by_table(&[], &[], &mut []), refused(Cause::WrongTable, 0));
    assert_eq!(
        judge_by_table(OWN.as_bytes(), MEASURED.as_bytes(), &mut room),
        refused(Cause::WrongColumns, 2)
    );
    assert_eq!(
        judge_by_table(&club, MEASURED.as_bytes(), &mut room[1..]),
        refused(Cause::NoRoom, 0)
    );
    assert_eq!(judge_by_table(&club, TWICE.as_bytes(), &mut room), Ok(Verdict::NoLog));
    assert_eq!(judge_by_table(&club, CHECKED.as_bytes(), &mut room), Ok(Verdict::Covered));
    assert!(room.iter().all(|&word| word == MARK));
    assert_eq!(judge_by_table(&club, MEASURED.as_bytes(), &mut room), Ok(MEASURED_CASE));
    assert!(room[5..].iter().all(|&word| word == MARK));
    let small = MEASURED
        .replace("      11      -1", "       1      -1")
        .replace("      12      -1", "       2      -1");
    let case = Verdict::NotCovered {
        missing: [7, 1, 0, 0],
        facts: &[1, 7, 1, 4, 0],
    };
    assert_eq!(judge_by_table(SMALL.as_bytes(), small.as_bytes(), &mut room), Ok(case));
    let case = Verdict::NotCovered {
        missing: [7, 1, 4, 0],
        facts: &[11, 7, 1, 4, 0, 12, 7, 1, 4, 0],
    };
    assert_eq!(judge_by_table(&club, WORN.as_bytes(), &mut room), Ok(case));
    let case = Verdict::NotCovered {
        missing: [4, 0, 0, 0],
        facts: &[11, 7, 1, 4, 0, 11, 7, 1, 5, 0],
    };
    assert_eq!(judge_by_table(&loose, TWICE.as_bytes(), &mut room), Ok(case));
    let case = Verdict::NotCovered {
        missing: [7, 1, 4, 0],
        facts: &[12, 7, 1, 4, 0],
    };
    assert_eq!(judge_by_table(&loose, CHECKED.as_bytes(), &mut room), Ok(case));
    assert!(room[10..].iter().all(|&word| word == MARK));
}

#[test]
fn judges_sets_and_days_by_tables() {
    let club = twelve(LACTATE);
    let thirteen = sheet(&[QUESTION, LIST, "       3      -1      -2\n       4      13      -1      -2\n"]);
    let sheets = [CHECKED.into(), thirteen, MEASURED.into(), TWICE.into()];
    let (bytes, ends) = (sheets.concat(), ends_of(&sheets));
    let mut room = [MARK; 4 * JUDGE_WORDS];
    let mut page = [b'~'; PAGE_BYTES];
    for table in [&club[..], BROKEN.as_bytes()] {
        assert_eq!(judge_set_by_table(table, &bytes[1..], &ends, &mut []), refused(Cause::WrongEnds, 0));
        assert_eq!(judge_set_by_table(table, &bytes, &ends, &mut room[1..]), refused(Cause::NoRoom, 0));
        assert_eq!(
            judge_day_by_table(table, &bytes[1..], &ends, &mut room, &mut page),
            refused(Cause::WrongEnds, 0)
        );
        assert_eq!(
            judge_day_by_table(table, &bytes, &ends, &mut room, &mut page[1..]),
            refused(Cause::NoRoom, 0)
        );
        assert_eq!(judge_set_by_table(table, &[], &[], &mut []), Ok(vec![]));
    }
    assert_eq!(page, [b'~'; PAGE_BYTES]);
    let all_refused = vec![refused(Cause::WrongTable, 2); 4];
    assert_eq!(
        judge_set_by_table(BROKEN.as_bytes(), &bytes, &ends, &mut room),
        Ok(all_refused.clone())
    );
    let lines = [
        "       1       9      15       0\n",
        "       2       9      15       0\n",
        "       3       9      15       0\n",
        "       4       9      15       0\n",
        "       0       0       0       4       0\n",
    ];
    assert_eq!(
        judge_day_by_table(BROKEN.as_bytes(), &bytes, &ends, &mut room, &mut page),
        Ok((all_refused, lines.concat().as_bytes()))
    );
    assert!(room.iter().all(|&word| word == MARK));
    let judged = vec![
        Ok(Verdict::Covered),
        refused(Cause::WrongColumns, 6),
        Ok(MEASURED_CASE),
        Ok(Verdict::NoLog),
    ];
    assert_eq!(judge_set_by_table(&club, &bytes, &ends, &mut room), Ok(judged.clone()));
    let lines = [
        "       1       0       0       0\n",
        "       2       9       4       0\n",
        "       3       1       0       1\n",
        "       4       2       0       0\n",
        "       1       1       1       1       1\n",
    ];
    assert_eq!(
        judge_day_by_table(&club, &bytes, &ends, &mut room, &mut page),
        Ok((judged, lines.concat().as_bytes()))
    );
    assert!(page[4 * 33 + 41..].iter().all(|&byte| byte == b'~'));
    let facts = 2 * JUDGE_WORDS;
    assert_eq!(room[facts..facts + 5], [11, 7, 1, 4, 0]);
    assert!(room[..facts].iter().chain(&room[facts + 5..]).all(|&word| word == MARK));
}

#[test]
fn texts_by_tables() {
    let club = twelve(LACTATE);
    let text = MEASURED_TEXT.as_bytes();
    let mut bytes = [b'~'; WRITE_BYTES];
    let mut room = [b'~'; TEXT_BYTES];
    let no_sheet = |cause, line, text_line| {
        Err(NoSheet::Refused {
            refused: Refused { cause, line },
            line: text_line,
        })
    };
    for given in [text, b"q("] {
        assert_eq!(
            sheet_of_by_table(BROKEN.as_bytes(), given, &mut bytes),
            no_sheet(Cause::WrongTable, 2, 0)
        );
        assert_eq!(sheet_of_by_table(&[], given, &mut []), no_sheet(Cause::WrongTable, 0, 0));
    }
    assert_eq!(
        sheet_of_by_table(OWN.as_bytes(), text, &mut bytes),
        no_sheet(Cause::WrongColumns, 2, 1)
    );
    assert_eq!(sheet_of_by_table(&club, text, &mut bytes[1..]), no_sheet(Cause::NoRoom, 0, 0));
    assert_eq!(
        text_of_by_table(BROKEN.as_bytes(), MEASURED.as_bytes(), &mut room),
        refused(Cause::WrongTable, 2)
    );
    assert_eq!(text_of_by_table(BROKEN.as_bytes(), &[], &mut []), refused(Cause::WrongTable, 2));
    assert_eq!(
        text_of_by_table(OWN.as_bytes(), MEASURED.as_bytes(), &mut room),
        refused(Cause::WrongColumns, 2)
    );
    assert_eq!(
        text_of_by_table(&club, MEASURED.as_bytes(), &mut room[1..]),
        refused(Cause::NoRoom, 0)
    );
    assert_eq!(answer_by_table(&club, text, &mut room[1..]), b"");
    assert_eq!(answer_by_table(BROKEN.as_bytes(), text, &mut room[1..]), b"");
    assert!(bytes.iter().chain(&room).all(|&byte| byte == b'~'));
    assert_eq!(sheet_of_by_table(&club, text, &mut bytes), Ok(MEASURED.as_bytes()));
    assert!(bytes[MEASURED.len()..].iter().all(|&byte| byte == b'~'));
    assert_eq!(text_of_by_table(&club, MEASURED.as_bytes(), &mut room), Ok(text));
    assert!(room[text.len()..].iter().all(|&byte| byte == b'~'));
    for given in [text, MEASURED.as_bytes()] {
        for (table, said) in [
            (&club[..], "not covered: (7,1) is missing. Log: R11(7,1,4)\n"),
            (
                BROKEN.as_bytes(),
                "refused: cause 15 at line 2: a line of the table is not right, or the table has none\n",
            ),
            (b"", "refused: cause 15: a line of the table is not right, or the table has none\n"),
        ] {
            room = [b'~'; TEXT_BYTES];
            assert_eq!(answer_by_table(table, given, &mut room), said.as_bytes());
            assert!(room[said.len()..].iter().all(|&byte| byte == b'~'));
        }
    }
}

/// With the own table's bytes each call does what it does without them: in what it hands back and in what was lent.
#[test]
fn own_table_is_the_table_of_the_other_calls() {
    let table = OWN.as_bytes();
    let facts = [4, 7, 1, 0, 0, 4, 7, 2, 0, 0, 5, 8, 3, 0, 0];
    let sheets = [
        whole(),
        sheet(&[QUESTION, LIST, NO_SUCH_RELATION]),
        sheet(&[QUESTION, LIST, VIEW]),
        sheet(&[QUESTION, LIST, CONTRARY]),
        MEASURED.into(),
        vec![],
    ];
    for sheet in &sheets {
        let (mut first, mut second) = ([MARK; JUDGE_WORDS], [MARK; JUDGE_WORDS]);
        let (mut texts, mut others) = ([b'~'; TEXT_BYTES], [b'~'; TEXT_BYTES]);
        assert_eq!(judge(sheet, &mut first), judge_by_table(table, sheet, &mut second));
        assert_eq!(first, second);
        assert_eq!(
            evaluate(sheet, 1, &facts, &mut first),
            evaluate_by_table(table, sheet, 1, &facts, &mut second)
        );
        assert_eq!(first, second);
        let form = read(sheet, &mut first).map(<[i32]>::to_vec);
        assert_eq!(form.as_deref(), read_by_table(table, sheet, &mut second).as_deref());
        assert_eq!(first, second);
        let form = form.unwrap_or(vec![MARK; LINE_WORDS]);
        assert_eq!(write(&form, &mut texts), write_by_table(table, &form, &mut others));
        assert_eq!(texts, others);
        assert_eq!(answer(sheet, &mut texts), answer_by_table(table, sheet, &mut others));
        assert_eq!(texts, others);
        let text = text_of(sheet, &mut texts).map(<[u8]>::to_vec);
        assert_eq!(text.as_deref(), text_of_by_table(table, sheet, &mut others).as_deref());
        assert_eq!(texts, others);
        let text = text.unwrap_or(MEASURED_TEXT.into());
        assert_eq!(sheet_of(&text, &mut texts), sheet_of_by_table(table, &text, &mut others));
        assert_eq!(texts, others);
    }
    let (bytes, ends) = (sheets.concat(), ends_of(&sheets));
    let (mut first, mut second) = ([MARK; 6 * JUDGE_WORDS], [MARK; 6 * JUDGE_WORDS]);
    let (mut page, mut other) = ([b'~'; PAGE_BYTES], [b'~'; PAGE_BYTES]);
    assert_eq!(
        judge_set(&bytes, &ends, &mut first),
        judge_set_by_table(table, &bytes, &ends, &mut second)
    );
    assert_eq!(first, second);
    assert_eq!(
        judge_day(&bytes, &ends, &mut first, &mut page),
        judge_day_by_table(table, &bytes, &ends, &mut second, &mut other)
    );
    assert_eq!((first, page), (second, other));
}

#[test]
fn causes_have_their_numbers() {
    for (at, cause) in Cause::ALL.iter().enumerate() {
        assert_eq!(cause.number(), at + 1);
    }
    assert_eq!(
        Refused {
            cause: Cause::NoRoom,
            line: 0
        }
        .to_string(),
        "refused by 13 in line 0: too little room"
    );
}
