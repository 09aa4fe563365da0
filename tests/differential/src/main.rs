//! Compares the library, through its calls for C, with an implementation of its own of all that the library is described to do.
//!
//!     cargo run --release --offline -- [COUNT [SEED]]              COUNT inputs of each call, 100,000 with seed 1 where nothing is said
//!     cargo run --release --offline -- COUNT SEED --call CALL      inputs of one call
//!     cargo run --release --offline -- COUNT SEED --only CALL N    input N of a call, with both answers
//!     cargo run --release --offline -- [COUNT [SEED]] --deep       judge alone, by a table and without, on sheets that take longer here
//!     cargo run --release --offline -- --slip                      mistakes put into this implementation, and into results: all are found
//!     cargo run --release --offline -- --slip NAME                 one of those mistakes, with the first inputs that differ
//!
//! It ends with 1 where something differs, or a mistake is not found; from a number of inputs on also where an answer, a broken table, or a
//! limit with a verdict, was never met. How often each limit was met is printed last.

mod clubs;
mod compare;
mod full;
mod generate;
mod large;
mod library;
mod limits;
mod meaning;
mod random;
mod sets;
mod sheet;
mod slips;
mod table;

use compare::{is_by_table, Outcome, CALLS, JUDGE, JUDGE_BY_TABLE};
use std::collections::BTreeMap;
use std::sync::atomic::{AtomicU64, Ordering};
use std::time::{Duration, Instant};

const THREADS: u64 = 2;

/// The answers that a run of this size has to have met, for each call. Calls by a table have to have met those of the call without one, and
/// 15, and tables that are broken in each way.
const MET: [&[&str]; 6] = [
    &[
        "done",
        "refused by 1",
        "refused by 2",
        "refused by 3",
        "refused by 4",
        "refused by 5",
        "refused by 6",
        "refused by 7",
        "refused by 8",
        "refused by 9",
        "refused by 13",
    ],
    &[
        "done",
        "refused by 1",
        "refused by 2",
        "refused by 3",
        "refused by 4",
        "refused by 5",
        "refused by 6",
        "refused by 7",
        "refused by 8",
        "refused by 9",
        "refused by 13",
    ],
    &["a line", "an empty line", "no such line"],
    &[
        "done, answers",
        "done, no answer",
        "refused by 1",
        "refused by 2",
        "refused by 3",
        "refused by 4",
        "refused by 5",
        "refused by 6",
        "refused by 7",
        "refused by 8",
        "refused by 9",
        "refused by 10",
        "refused by 11",
        "refused by 12",
        "refused by 13",
    ],
    &[
        "verdict 0",
        "verdict 1",
        "verdict 2",
        "refused by 1",
        "refused by 2",
        "refused by 3",
        "refused by 4",
        "refused by 5",
        "refused by 6",
        "refused by 7",
        "refused by 8",
        "refused by 9",
        "refused by 13",
    ],
    &["done, sheets 0", "done, sheets 1", "done, sheets 16", "done", "refused by 13", "refused by 14"],
];

#[derive(Default)]
struct Tally {
    inputs: BTreeMap<&'static str, usize>,
    results: BTreeMap<String, usize>,
    tables: BTreeMap<&'static str, usize>,
    known: BTreeMap<String, usize>,
    notes: BTreeMap<&'static str, usize>,
    limits: BTreeMap<&'static str, [usize; 3]>,
    differences: Vec<(u64, String)>,
    differing: usize,
    slowest: (Duration, u64),
}

impl Tally {
    fn add(&mut self, index: u64, outcome: Outcome) {
        *self.inputs.entry(outcome.input).or_default() += 1;
        if !outcome.table.is_empty() {
            *self.tables.entry(outcome.table).or_default() += 1;
        }
        if !outcome.known.is_empty() {
            *self.known.entry(format!("{} {}", outcome.result, outcome.known)).or_default() += 1;
        }
        outcome.notes.into_iter().for_each(|note| *self.notes.entry(note).or_default() += 1);
        outcome.limits.into_iter().for_each(|(limit, verdict)| self.limits.entry(limit).or_default()[verdict] += 1);
        *self.results.entry(outcome.result).or_default() += 1;
        self.slowest = self.slowest.max((outcome.took, index));
        self.differing += outcome.differs as usize;
        if outcome.differs && self.differences.len() < 3 {
            self.differences.push((index, outcome.shown.unwrap()));
        }
    }

    fn join(&mut self, other: Tally) {
        other.inputs.into_iter().for_each(|(name, n)| *self.inputs.entry(name).or_default() += n);
        other.results.into_iter().for_each(|(name, n)| *self.results.entry(name).or_default() += n);
        other.tables.into_iter().for_each(|(name, n)| *self.tables.entry(name).or_default() += n);
        other.known.into_iter().for_each(|(name, n)| *self.known.entry(name).or_default() += n);
        other.notes.into_iter().for_each(|(name, n)| *self.notes.entry(name).or_default() += n);
        for (name, counts) in other.limits {
            self.limits.entry(name).or_default().iter_mut().zip(counts).for_each(|(one, more)| *one += more);
        }
        self.differences.extend(other.differences);
        self.differences.sort();
        self.differing += other.differing;
        self.slowest = self.slowest.max(other.slowest);
    }
}

/// Compares inputs 0 to count - 1 of a call. Says which input takes more than ten seconds.
fn run(call: usize, count: u64, seed: u64) -> Tally {
    let places: Vec<AtomicU64> = (0..THREADS).map(|_| AtomicU64::new(0)).collect();
    let work = |thread: u64| {
        let mut tally = Tally::default();
        for index in (thread..count).step_by(THREADS as usize) {
            places[thread as usize].store(index, Ordering::Relaxed);
            tally.add(index, compare::one(call, seed, index, false));
        }
        places[thread as usize].store(u64::MAX, Ordering::Relaxed);
        tally
    };
    std::thread::scope(|scope| {
        let watch = scope.spawn(|| {
            let mut seen = vec![(u64::MAX, 0); places.len()];
            loop {
                let now: Vec<u64> = places.iter().map(|p| p.load(Ordering::Relaxed)).collect();
                if now.iter().all(|index| *index == u64::MAX) {
                    return;
                }
                for (at, index) in now.into_iter().enumerate() {
                    seen[at] = (index, if seen[at].0 == index { seen[at].1 + 1 } else { 0 });
                    if seen[at].1 == 500 && index != u64::MAX {
                        println!("{}, input {index}: more than ten seconds, in the library or here", CALLS[call]);
                    }
                }
                std::thread::sleep(Duration::from_millis(20));
            }
        });
        let work = &work;
        let threads: Vec<_> = (0..THREADS).map(|thread| scope.spawn(move || work(thread))).collect();
        let mut all = Tally::default();
        threads.into_iter().for_each(|thread| all.join(thread.join().unwrap()));
        watch.join().unwrap();
        all
    })
}

fn list<K: std::fmt::Display>(counts: &BTreeMap<K, usize>) -> String {
    counts.iter().map(|(name, n)| format!("{name}: {n}")).collect::<Vec<_>>().join(", ")
}

/// Prints how often a sheet that meets one of these limits had each verdict, here as in the library; whether all were met.
fn limits_met(tally: &Tally, names: &[&'static str]) -> bool {
    let mut all = true;
    for name in names {
        let [covered, case, none] = tally.limits.get(name).copied().unwrap_or_default();
        println!("           {name}: {} (verdict 0: {covered}, 1: {case}, 2: {none})", covered + case + none);
        all &= covered > 0 && case > 0 && none > 0;
    }
    all
}

/// Prints the limits of sheets and, by a table, what is counted of tables. By a table the latter have to be met, in a run of this size, and
/// without one the former.
fn all_limits_met(tally: &Tally, call: usize, count: u64) -> bool {
    println!("  limits   of sheets whose verdict was compared");
    let of_sheets = limits_met(tally, &full::LIMITS);
    let met = if is_by_table(call) { limits_met(tally, &clubs::COUNTED) } else { of_sheets };
    if !met {
        println!("  not met: each limit with each verdict");
    }
    met || count < LIMITS_FROM || generate::deep()
}

/// Runs of judge with this many inputs have to meet each limit with each verdict.
const LIMITS_FROM: u64 = 10_000;

/// What a run of a call that is large enough has to have met and has not.
fn unmet(tally: &Tally, call: usize) -> Vec<&'static str> {
    let plain = CALLS.iter().position(|name| *name == CALLS[call].trim_end_matches("_by_table")).unwrap();
    let mut answers = MET[plain].to_vec();
    let mut unmet = vec![];
    if is_by_table(call) {
        answers.push(if CALLS[plain] == "judge_set" { "done, each sheet refused by 15" } else { "refused by 15" });
        unmet.extend(clubs::BROKEN.into_iter().filter(|name| !tally.tables.contains_key(name)));
    }
    unmet.extend(answers.into_iter().filter(|name| !tally.results.contains_key(*name)));
    unmet
}

/// One call; whether nothing differs and, in a run that is large enough, every kind of answer was met.
fn compared(call: usize, count: u64, seed: u64) -> bool {
    let start = Instant::now();
    let tally = run(call, count, seed);
    println!("{}: {count} inputs, seed {seed}, {:.1} s", CALLS[call], start.elapsed().as_secs_f64());
    println!("  inputs   {}", list(&tally.inputs));
    if is_by_table(call) {
        println!("  tables   {}", list(&tally.tables));
    }
    println!("  answers  {}", list(&tally.results));
    if call == JUDGE || call == JUDGE_BY_TABLE {
        println!("  known    {}", list(&tally.known));
        println!("  of them  {}", list(&tally.notes));
        println!("  slowest  {:.1} ms, input {}", tally.slowest.0.as_secs_f64() * 1e3, tally.slowest.1);
    }
    let mut good = tally.differing == 0;
    if call == JUDGE || call == JUDGE_BY_TABLE {
        good &= all_limits_met(&tally, call, count);
    }
    for name in unmet(&tally, call) {
        println!("  not met: {name}");
        good &= count < 100_000;
    }
    if tally.differing == 0 {
        println!("  no difference");
    } else {
        println!("  {} inputs differ. The first:", tally.differing);
    }
    for (index, shown) in tally.differences.iter().take(3) {
        let deep = if generate::deep() { "--deep " } else { "" };
        println!("{}, input {index}, seed {seed} (-- {count} {seed} {deep}--only {} {index})\n{shown}\n", CALLS[call], CALLS[call]);
    }
    good
}

/// The limits, then all calls.
fn all(count: u64, seed: u64) -> bool {
    let (mut limits, mut failed) = limits::all();
    let (edges, differing) = sets::edges(&mut random::Random::new(seed, 0, 1));
    limits += edges;
    failed.extend(differing);
    println!("limits: {limits} checks, {}", if failed.is_empty() { "no difference".into() } else { failed.join("\n  ") });
    (0..CALLS.len()).fold(failed.is_empty(), |good, call| compared(call, count, seed) && good)
}

/// Each slip by itself, and each way to spoil a result; whether all are found.
fn slipped(count: u64, seed: u64) -> bool {
    let mut good = true;
    for (slip, call) in slips::ALL {
        slips::set(slip);
        let tally = run(call, count, seed);
        println!("{slip:?} in {}: {} of {count} inputs differ", CALLS[call], tally.differing);
        good &= tally.differing > 0;
    }
    slips::set(slips::Slip::None);
    for call in [JUDGE, JUDGE_BY_TABLE] {
        for (way, name) in compare::TAMPERINGS.iter().enumerate() {
            let found: Vec<bool> = (0..count).filter_map(|index| compare::tampered(call, seed, index, way)).collect();
            let missed = found.iter().filter(|found| !**found).count();
            println!("result of {} spoiled, {name}: {} tried, {missed} not found", CALLS[call], found.len());
            good &= !found.is_empty() && missed == 0;
        }
    }
    println!("{}", if good { "every slip is found" } else { "a slip is not found" });
    good
}

fn main() {
    let words: Vec<String> = std::env::args().skip(1).collect();
    let numbers: Vec<u64> = words.iter().map_while(|w| w.parse().ok()).collect();
    let (count, seed) = (numbers.first().copied(), numbers.get(1).copied().unwrap_or(1));
    let mut options: Vec<&str> = words[numbers.len()..].iter().map(|w| w.as_str()).collect();
    if options.first() == Some(&"--deep") {
        generate::DEEP.store(true, Ordering::Relaxed);
        options.remove(0);
    }
    let good = match options[..] {
        [] if generate::deep() => compared(JUDGE, count.unwrap_or(2_000), seed) & compared(JUDGE_BY_TABLE, count.unwrap_or(2_000), seed),
        [] => all(count.unwrap_or(100_000), seed),
        ["--slip"] => slipped(count.unwrap_or(10_000), seed),
        ["--slip", name] if slips::ALL.iter().any(|(slip, _)| format!("{slip:?}") == name) => {
            let (slip, call) = slips::ALL.into_iter().find(|(slip, _)| format!("{slip:?}") == name).unwrap();
            slips::set(slip);
            compared(call, count.unwrap_or(20_000), seed)
        }
        ["--call", call] if CALLS.contains(&call) => {
            compared(CALLS.iter().position(|c| *c == call).unwrap(), count.unwrap_or(100_000), seed)
        }
        ["--only", call, index] if CALLS.contains(&call) && index.parse::<u64>().is_ok() => {
            let outcome = compare::one(CALLS.iter().position(|c| *c == call).unwrap(), seed, index.parse().unwrap(), true);
            if !outcome.table.is_empty() {
                println!("table: {}", outcome.table);
            }
            println!("{}\n{}, {}", outcome.input, outcome.result, outcome.known);
            println!("{}\n{}", outcome.shown.unwrap(), if outcome.differs { "different" } else { "no difference" });
            !outcome.differs
        }
        _ => {
            eprintln!(
                "usage: [COUNT [SEED]] [--slip [NAME] | --deep] [--call CALL | --only CALL N], where CALL is one of {}",
                CALLS.join(", ")
            );
            std::process::exit(2);
        }
    };
    std::process::exit(if good { 0 } else { 1 });
}
