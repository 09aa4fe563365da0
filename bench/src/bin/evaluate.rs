//! The benchmark of evaluation: queries over facts through the proved library and through SQLite.
//!
//!     cargo run --release --offline --bin evaluate             the benchmark; it ends with 1 where answers differ, or a target is missed
//!     cargo run --release --offline --bin evaluate -- hop      queries whose names start so
//!
//! SQLite holds the facts in memory, with a primary key and an index for each column and each pair of columns, and runs a statement that is
//! prepared beforehand. The library is given the sheet's bytes and the facts' words, and reads both in each call. Of each the fastest of some
//! runs counts, taken in turns in one process. Where SQLite's library was not found when this was built, its part is left out, and said so.

use std::time::{Duration, Instant};

/// The facts that a call takes, at most: as `FIGDAWESA_FACTS` of include/figdawesa.h.
const MOST_FACTS: usize = facts_of(include_str!("../../../include/figdawesa.h"));
/// Sizes that are measured; those above the limit are passed over.
const SIZES: [usize; 3] = [16, 128, 256];
/// So long each query is run again and again for its fastest time.
const RUNS: Duration = Duration::from_millis(30);
/// So many runs are taken one after the other; what takes longer than `RUNS` is run once.
const TURNS: usize = 8;
/// SQLite's time by the library's: at least this on each query, and in the middle.
const EACH: f64 = 1.0;
const MEDIAN: f64 = 10.0;
/// What the chain of six atoms may take.
const CHAIN: Duration = Duration::from_millis(10);
/// Room for so many answers is lent.
const ROOM: usize = 20_000;

/// The number behind the name in the header.
const fn facts_of(header: &str) -> usize {
    let text = header.as_bytes();
    let name = b"#define FIGDAWESA_FACTS ";
    let mut at = 0;
    loop {
        let mut same = 0;
        while same < name.len() && text[at + same] == name[same] {
            same += 1;
        }
        if same == name.len() {
            break;
        }
        at += 1;
    }
    let mut digit = at + name.len();
    let mut number = 0;
    while text[digit].is_ascii_digit() {
        number = number * 10 + (text[digit] - b'0') as usize;
        digit += 1;
    }
    number
}

type Fact = [i32; 5];

/// A query: its name, the facts by how many there are, the head and the atoms. A term below 0 is a variable.
struct Query {
    name: &'static str,
    facts: fn(usize) -> Vec<Fact>,
    head: &'static [i32],
    atoms: &'static [&'static [i32]],
}

const QUERIES: &[Query] = &[
    Query { name: "scan: all signals", facts: ticks, head: &[-1, -2], atoms: &[&[4, -1, -2]] },
    Query { name: "scan: straps", facts: ticks, head: &[-1], atoms: &[&[4, -1, -2]] },
    Query { name: "scan: ticks", facts: ticks, head: &[-2], atoms: &[&[4, -1, -2]] },
    Query { name: "scan: seats", facts: seats, head: &[-1, -2, -3, -4], atoms: &[&[9, -1, -2, -3, -4]] },
    Query { name: "join on a first column", facts: ticks, head: &[-1, -2, -3], atoms: &[&[4, -1, -2], &[5, -1, -3]] },
    Query { name: "join on a second column", facts: ticks, head: &[-1, -3], atoms: &[&[4, -1, -2], &[5, -3, -2]] },
    Query { name: "join on two columns", facts: ticks, head: &[-1, -2], atoms: &[&[4, -1, -2], &[5, -1, -2]] },
    Query { name: "join on two columns, pairs", facts: seats, head: &[-1, -4], atoms: &[&[9, -1, -2, -3, -5], &[9, -4, -2, -3, -6]] },
    Query { name: "hop", facts: ring, head: &[-1, -3], atoms: &[&[4, -1, -2], &[4, -2, -3]] },
    Query { name: "hop: two over ticks", facts: ticks, head: &[-1, -5], atoms: &[&[4, -1, -2], &[5, -3, -2], &[4, -3, -4], &[5, -5, -4]] },
    Query { name: "hop: three", facts: ring, head: &[-1, -4], atoms: &[&[4, -1, -2], &[4, -2, -3], &[4, -3, -4]] },
    Query { name: "hop: a chain of six", facts: both_ways, head: &[-1, -7], atoms: &[&[4, -1, -2], &[4, -2, -3], &[4, -3, -4], &[4, -4, -5], &[4, -5, -6], &[4, -6, -7]] },
    Query { name: "star of three", facts: ticks, head: &[-1], atoms: &[&[4, -1, -2], &[5, -1, -3], &[4, -1, -4]] },
    Query { name: "star of three, all rays", facts: stars, head: &[-1, -2, -3, -4], atoms: &[&[4, -1, -2], &[5, -1, -3], &[6, -1, -4]] },
    Query { name: "star over seats", facts: seats, head: &[-1, -2], atoms: &[&[9, -1, -2, -3, -4], &[3, -5, -2, -1]] },
    Query { name: "cycle of three", facts: ring, head: &[-1], atoms: &[&[4, -1, -2], &[4, -2, -3], &[4, -3, -1]] },
    Query { name: "cycle of four", facts: ticks, head: &[-1, -3], atoms: &[&[4, -1, -2], &[5, -3, -2], &[4, -3, -4], &[5, -1, -4]] },
    Query { name: "cycle of five, none", facts: both_ways, head: &[], atoms: &[&[4, -1, -2], &[4, -2, -3], &[4, -3, -4], &[4, -4, -5], &[4, -5, -1]] },
    Query { name: "empty: no such relation", facts: ticks, head: &[-1, -2], atoms: &[&[4, -1, -2], &[6, -1, -2]] },
    Query { name: "empty: nothing shared", facts: apart, head: &[-1], atoms: &[&[4, -1, -2], &[5, -3, -2]] },
    Query { name: "constant in the first column", facts: ticks, head: &[-1], atoms: &[&[4, 3, -1]] },
    Query { name: "constant in the second column", facts: ticks, head: &[-1], atoms: &[&[4, -1, 5]] },
    Query { name: "constants in a join", facts: ticks, head: &[-1, -2], atoms: &[&[4, 1, -1], &[5, -2, -1]] },
    Query { name: "a fact", facts: ticks, head: &[], atoms: &[&[4, 1, 1]] },
    Query { name: "two apart", facts: straps, head: &[-1], atoms: &[&[2, -1], &[2, -2]] },
];

/// Half signals and half beats of straps, by ticks that are shared in part.
fn ticks(n: usize) -> Vec<Fact> {
    let half = n / 2;
    let wide = width(half);
    let rows = |relation, by: usize| (0..half).map(move |k| [relation, (k / wide) as i32, ((k % wide) * by + k / wide) as i32, 0, 0]);
    rows(4, 1).chain(rows(5, 2)).collect()
}

/// Seats of rowers in sessions, and straps that they wear there.
fn seats(n: usize) -> Vec<Fact> {
    let half = n / 2;
    let seat = (0..half).map(|k| [9, (k / 4) as i32, (k % 4) as i32, (k / 8 % 3) as i32, (k % 8) as i32]);
    let worn = (0..half).map(|k| [3, (k % 7) as i32, (k % 4) as i32, (k / 4) as i32, 0]);
    seat.chain(worn).collect()
}

/// Signals, beats and noise of a few straps.
fn stars(n: usize) -> Vec<Fact> {
    (4..7).flat_map(|relation| (0..n / 3).map(move |k| [relation, (k / 3) as i32, (k % 3 * 7) as i32 + relation, 0, 0])).collect()
}

/// A ring, each of it with those two and five further on.
fn ring(n: usize) -> Vec<Fact> {
    let size = n / 2;
    (0..size).flat_map(|k| [2, 5].map(|by| [4, k as i32, ((k + by) % size) as i32, 0, 0])).collect()
}

/// Two sets, each of one with each of the other, both ways.
fn both_ways(n: usize) -> Vec<Fact> {
    let side = width(n / 2);
    let rows = |a: usize, b: usize| (0..side * side).map(move |k| [4, (a + k / side) as i32, (b + k % side) as i32, 0, 0]);
    rows(0, side).chain(rows(side, 0)).collect()
}

/// Signals and beats at ticks of their own.
fn apart(n: usize) -> Vec<Fact> {
    (0..n).map(|k| [4 + (k % 2) as i32, (k / 16) as i32, k as i32, 0, 0]).collect()
}

fn straps(n: usize) -> Vec<Fact> {
    (0..n).map(|k| [2, k as i32, 0, 0, 0]).collect()
}

/// The largest number whose square is not above n.
fn width(n: usize) -> usize {
    (1..).take_while(|k| k * k <= n).last().unwrap_or(1)
}

impl Query {
    /// A sheet whose question is the query.
    fn sheet(&self) -> Vec<u8> {
        let mut lines: Vec<Vec<i32>> = vec![[&[1], self.head].concat()];
        lines.extend(self.atoms.iter().map(|a| [&[4], *a].concat()));
        lines.push([vec![2], vec![0; self.head.len()]].concat());
        lines.push(vec![4, 2, -1]);
        lines.iter().flat_map(|l| l.iter().flat_map(|f| format!("{f:8}").into_bytes()).chain([b'\n'])).collect()
    }

    /// The statement with the same answers, ascending.
    fn sql(&self) -> String {
        let mut names: Vec<(i32, String)> = Vec::new();
        let mut tests = Vec::new();
        for (j, atom) in self.atoms.iter().enumerate() {
            for (c, &term) in atom[1..].iter().enumerate() {
                let column = format!("t{j}.c{c}");
                match names.iter().find(|(t, _)| *t == term) {
                    _ if term >= 0 => tests.push(format!("{column} = {term}")),
                    Some((_, first)) => tests.push(format!("{column} = {first}")),
                    None => names.push((term, column)),
                }
            }
        }
        let value = |t: &i32| if *t < 0 { names.iter().find(|(n, _)| n == t).unwrap().1.clone() } else { t.to_string() };
        let tables: Vec<String> = self.atoms.iter().enumerate().map(|(j, a)| format!("r{} t{j}", a[0])).collect();
        let tests = if tests.is_empty() { String::new() } else { format!(" WHERE {}", tests.join(" AND ")) };
        let from = format!("FROM {}{tests}", tables.join(", "));
        if self.head.is_empty() {
            return format!("SELECT 1 {from} LIMIT 1");
        }
        let head: Vec<String> = self.head.iter().map(value).collect();
        let order: Vec<String> = (1..=head.len()).map(|k| k.to_string()).collect();
        format!("SELECT DISTINCT {} {from} ORDER BY {}", head.join(", "), order.join(", "))
    }
}

/// How a call of the library ended.
#[repr(C)]
struct Ended {
    number: usize,
    line: usize,
    count: usize,
}

/// The answers of the sheet's question by the library: how many, in the lent words.
#[cfg(evaluates)]
fn library(sheet: &[u8], facts: &[i32], out: &mut [i32]) -> usize {
    extern "C" {
        fn figdawesa_evaluate(sheet: *const u8, bytes: usize, block: usize, facts: *const i32, words: usize, out: *mut i32, room: usize) -> Ended;
    }
    let ended = unsafe { figdawesa_evaluate(sheet.as_ptr(), sheet.len(), 1, facts.as_ptr(), facts.len(), out.as_mut_ptr(), out.len()) };
    assert!(ended.number == 0, "refused by {} in line {}", ended.number, ended.line);
    ended.count
}

#[cfg(not(evaluates))]
fn library(_: &[u8], _: &[i32], _: &mut [i32]) -> usize {
    eprintln!("the library is not linked: run `rt lib` in crates/figdawesa first");
    std::process::exit(2)
}

#[cfg(sqlite)]
mod sqlite {
    use super::Fact;
    use std::ffi::{c_char, c_int, c_void, CStr, CString};
    use std::ptr::null_mut;

    extern "C" {
        fn sqlite3_open(name: *const c_char, db: *mut *mut c_void) -> c_int;
        fn sqlite3_exec(db: *mut c_void, sql: *const c_char, each: *mut c_void, with: *mut c_void, error: *mut *mut c_char) -> c_int;
        fn sqlite3_prepare_v2(db: *mut c_void, sql: *const c_char, bytes: c_int, statement: *mut *mut c_void, rest: *mut *const c_char) -> c_int;
        fn sqlite3_step(statement: *mut c_void) -> c_int;
        fn sqlite3_column_int(statement: *mut c_void, column: c_int) -> c_int;
        fn sqlite3_reset(statement: *mut c_void) -> c_int;
        fn sqlite3_finalize(statement: *mut c_void) -> c_int;
        fn sqlite3_close(db: *mut c_void) -> c_int;
        fn sqlite3_errmsg(db: *mut c_void) -> *const c_char;
        fn sqlite3_libversion() -> *const c_char;
    }

    const ROW: c_int = 100;

    pub fn version() -> String {
        unsafe { CStr::from_ptr(sqlite3_libversion()) }.to_string_lossy().into_owned()
    }

    /// Facts in memory, and a prepared statement over them.
    pub struct Prepared {
        db: *mut c_void,
        statement: *mut c_void,
        columns: usize,
    }

    impl Prepared {
        pub fn new(facts: &[Fact], sql: &str, columns: usize) -> Prepared {
            let mut db = null_mut();
            assert!(unsafe { sqlite3_open(c":memory:".as_ptr(), &mut db) } == 0);
            for relation in 1..=10 {
                execute(db, &format!("CREATE TABLE r{relation} (c0 INT, c1 INT, c2 INT, c3 INT, PRIMARY KEY (c0, c1, c2, c3)) WITHOUT ROWID"));
                for a in 0..4 {
                    execute(db, &format!("CREATE INDEX i{relation}_{a} ON r{relation} (c{a})"));
                    for b in 0..4 {
                        if a != b {
                            execute(db, &format!("CREATE INDEX i{relation}_{a}_{b} ON r{relation} (c{a}, c{b})"));
                        }
                    }
                }
            }
            for f in facts {
                execute(db, &format!("INSERT INTO r{} VALUES ({}, {}, {}, {})", f[0], f[1], f[2], f[3], f[4]));
            }
            execute(db, "ANALYZE");
            let mut statement = null_mut();
            let text = CString::new(sql).unwrap();
            let code = unsafe { sqlite3_prepare_v2(db, text.as_ptr(), -1, &mut statement, null_mut()) };
            assert!(code == 0, "{}", unsafe { CStr::from_ptr(sqlite3_errmsg(db)) }.to_string_lossy());
            Prepared { db, statement, columns }
        }

        /// How many answers there are; each in its four words.
        pub fn answers(&mut self, out: &mut [i32]) -> usize {
            let mut count = 0;
            while unsafe { sqlite3_step(self.statement) } == ROW {
                for c in 0..4 {
                    out[count * 4 + c] = if c < self.columns { unsafe { sqlite3_column_int(self.statement, c as c_int) } } else { 0 };
                }
                count += 1;
            }
            unsafe { sqlite3_reset(self.statement) };
            count
        }
    }

    impl Drop for Prepared {
        fn drop(&mut self) {
            unsafe {
                sqlite3_finalize(self.statement);
                sqlite3_close(self.db);
            }
        }
    }

    fn execute(db: *mut c_void, sql: &str) {
        let text = CString::new(sql).unwrap();
        let code = unsafe { sqlite3_exec(db, text.as_ptr(), null_mut(), null_mut(), null_mut()) };
        assert!(code == 0, "{sql}: {}", unsafe { CStr::from_ptr(sqlite3_errmsg(db)) }.to_string_lossy());
    }
}

#[cfg(not(sqlite))]
mod sqlite {
    use super::Fact;

    pub fn version() -> String {
        "not found when this was built: its part is left out".to_string()
    }

    pub struct Prepared;

    impl Prepared {
        pub fn new(_: &[Fact], _: &str, _: usize) -> Prepared {
            Prepared
        }

        pub fn answers(&mut self, _: &mut [i32]) -> usize {
            0
        }
    }
}

/// The time of one run.
fn time(run: &mut impl FnMut()) -> Duration {
    let start = Instant::now();
    run();
    start.elapsed()
}

/// The fastest of some runs of each, taken in turns.
fn fastest(mut a: impl FnMut(), mut b: impl FnMut()) -> (Duration, Duration) {
    let (mut first, mut second) = (time(&mut a), time(&mut b));
    let end = Instant::now() + RUNS;
    while Instant::now() < end {
        for _ in 0..TURNS {
            first = first.min(time(&mut a));
        }
        for _ in 0..TURNS {
            if second < RUNS {
                second = second.min(time(&mut b));
            }
        }
    }
    (first, second)
}

fn micros(d: Duration) -> f64 {
    d.as_secs_f64() * 1e6
}

fn main() {
    let only = std::env::args().nth(1).unwrap_or_default();
    let both = cfg!(sqlite);
    println!("SQLite {}", sqlite::version());
    println!("{:34} {:>5} {:>7} {:>10} {:>10} {:>7}", "query", "facts", "answers", "library us", "SQLite us", "ratio");
    let mut ratios = Vec::new();
    let mut faults = Vec::new();
    for size in SIZES.into_iter().filter(|s| *s <= MOST_FACTS) {
        for query in QUERIES.iter().filter(|q| q.name.starts_with(&only)) {
            let mut facts = (query.facts)(size);
            facts.sort();
            facts.dedup();
            let words: Vec<i32> = facts.concat();
            let sheet = query.sheet();
            let mut prepared = sqlite::Prepared::new(&facts, &query.sql(), query.head.len());
            let (mut ours, mut theirs) = (vec![0; ROOM * 4], vec![0; ROOM * 4]);
            let count = library(&sheet, &words, &mut ours);
            let name = format!("{} ({size})", query.name);
            if both {
                let other = prepared.answers(&mut theirs);
                if count != other || ours[..count * 4] != theirs[..count * 4] {
                    faults.push(format!("{name}: {count} answers, and SQLite has {other}, or others"));
                }
            }
            let (library_time, sqlite_time) = fastest(
                || {
                    library(&sheet, &words, &mut ours);
                },
                || {
                    prepared.answers(&mut theirs);
                },
            );
            if query.name.ends_with("chain of six") && library_time > CHAIN {
                faults.push(format!("{name}: {:.0} us, over {:.0}", micros(library_time), micros(CHAIN)));
            }
            let ratio = micros(sqlite_time) / micros(library_time);
            let shown = if both { format!("{:10.2} {ratio:7.2}", micros(sqlite_time)) } else { format!("{:>10} {:>7}", "-", "-") };
            println!("{:34} {:5} {count:7} {:10.2} {shown}", query.name, facts.len(), micros(library_time));
            if both {
                ratios.push((ratio, name));
            }
        }
    }
    ratios.sort_by(|a, b| a.0.total_cmp(&b.0));
    for (ratio, name) in ratios.iter().filter(|r| r.0 < EACH) {
        faults.push(format!("{name}: behind SQLite, {ratio:.2}"));
    }
    if let Some((median, _)) = ratios.get(ratios.len() / 2) {
        println!("SQLite's time by the library's: least {:.2}, median {median:.2}, most {:.2}", ratios[0].0, ratios[ratios.len() - 1].0);
        if *median < MEDIAN {
            faults.push(format!("the median is {median:.2}, below {MEDIAN}"));
        }
    }
    for fault in &faults {
        println!("missed: {fault}");
    }
    std::process::exit(i32::from(!faults.is_empty()));
}
