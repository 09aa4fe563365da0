//! The proved library: called in this process where its archive is linked, otherwise the program cover is run.
//!
//! Either way a run is a process of its own with a time limit and 256 KiB of stack, so that neither a hang nor an overflow stops
//! the benchmark.

use std::io::{BufRead, BufReader, Read, Write};
use std::path::PathBuf;
use std::process::{Command, Stdio};
use std::sync::mpsc;
use std::time::{Duration, Instant};

pub const STACK: usize = 256 * 1024;

/// How a run of the library ended.
pub enum Run {
    /// What the program cover prints or would print, the time of one judgement, and the bytes of stack that it used (0: not known).
    Done(String, Duration, usize),
    /// It did not end in the time that it was given.
    Hang(Duration),
    /// It stopped without an answer, as it does when the stack is not enough.
    Crash,
}

/// What the library says of a sheet: verdict, number, line, count, and the missing answer's four numbers.
#[repr(C)]
#[derive(Default)]
pub struct Outcome {
    verdict: usize,
    number: usize,
    line: usize,
    count: usize,
    missing: [usize; 4],
}

/// Judges a sheet in this process; the words are lent. The only place that knows how the library is called to judge.
#[cfg(judges)]
pub fn library_judge(sheet: &[u8], words: &mut [i32]) -> Outcome {
    extern "C" {
        fn figdawesa_judge(sheet: *const u8, sheet_bytes: usize, out: *mut i32, out_words: usize) -> Outcome;
    }
    unsafe { figdawesa_judge(sheet.as_ptr(), sheet.len(), words.as_mut_ptr(), words.len()) }
}

#[cfg(not(judges))]
pub fn library_judge(_: &[u8], _: &mut [i32]) -> Outcome {
    unreachable!("the library is not linked")
}

/// The sheets of a set, at most.
pub const SHEETS: usize = 16;
const STRETCH: usize = 1_260;

/// The judgements of a set.
#[cfg(sets)]
#[repr(C)]
struct SetOutcome {
    number: usize,
    line: usize,
    count: usize,
    sheets: [Outcome; SHEETS],
}

/// What judging sheets as a set and one by one took, each the fastest of some runs, and the stack of the set.
pub struct SetTimes {
    pub set: Duration,
    pub alone: Duration,
    pub stack: usize,
}

/// Judges sheets as a set and one by one, in turns, in a thread of little stack; None where the library has no such call.
#[cfg(sets)]
pub fn set_times(sheets: &[Vec<u8>], time: Duration) -> Option<SetTimes> {
    extern "C" {
        fn figdawesa_judge_set(bytes: *const u8, byte_count: usize, ends: *const usize, sheets: usize, out: *mut i32, out_words: usize) -> SetOutcome;
    }
    let bytes = sheets.concat();
    let ends: Vec<usize> = sheets.iter().scan(0, |end, s| Some(*end + s.len()).inspect(|e| *end = *e)).collect();
    let mut words = vec![0i32; STRETCH * sheets.len()];
    let times = move || {
        let mut set = || unsafe { figdawesa_judge_set(bytes.as_ptr(), bytes.len(), ends.as_ptr(), ends.len(), words.as_mut_ptr(), words.len()) };
        paint();
        let told = set();
        let stack = used();
        assert_eq!((told.number, told.line, told.count), (0, 0, ends.len()), "a set that is refused");
        let (start, mut best, mut count) = (Instant::now(), [Duration::MAX; 2], 0);
        let mut own = vec![0i32; STRETCH * ends.len()];
        while !is_enough(count, start.elapsed(), time) {
            let one = Instant::now();
            std::hint::black_box(set());
            best[0] = best[0].min(one.elapsed());
            let one = Instant::now();
            let mut from = 0;
            let mut outcomes: [Outcome; SHEETS] = Default::default();
            for (place, end) in ends.iter().enumerate() {
                outcomes[place] = library_judge(&bytes[from..*end], &mut own[place * STRETCH..(place + 1) * STRETCH]);
                from = *end;
            }
            std::hint::black_box(&outcomes);
            best[1] = best[1].min(one.elapsed());
            count += 1;
        }
        SetTimes { set: best[0], alone: best[1], stack }
    };
    let sheets = sheets.len();
    assert!(0 < sheets && sheets <= SHEETS);
    Some(std::thread::Builder::new().stack_size(STACK).spawn(times).unwrap().join().unwrap())
}

#[cfg(not(sets))]
pub fn set_times(_: &[Vec<u8>], _: Duration) -> Option<SetTimes> {
    None
}

/// What the program cover prints for an outcome.
fn printed(sheet: &[u8], outcome: &Outcome, words: &[i32]) -> String {
    let line = |numbers: &[i64]| numbers.iter().map(|n| format!("{n:>8}")).collect::<String>() + "\n";
    match outcome.verdict {
        9 => line(&[9, outcome.number as i64, outcome.line as i64]),
        1 => {
            let columns = crate::sheet::read(sheet).map_or(0, |s| s.question.head.len());
            let mut out = line(&[1, outcome.count as i64]);
            let mut six = vec![6];
            six.extend(outcome.missing[..columns].iter().map(|n| *n as i64));
            out += &line(&six);
            for fact in words.chunks(5).take(outcome.count) {
                let mut seven = vec![7];
                let columns = crate::sheet::COLUMNS.get(fact[0] as usize).map_or(0, |c| *c);
                seven.extend(fact[..1 + columns].iter().map(|n| *n as i64));
                out += &line(&seven);
            }
            out
        }
        verdict => line(&[verdict as i64]),
    }
}

/// MB/s of reading and of writing a sheet; None where the library is not linked.
#[cfg(reads)]
pub fn speeds(sheet: &[u8]) -> Option<(f64, f64)> {
    #[repr(C)]
    struct Ended {
        number: usize,
        line: usize,
        count: usize,
    }
    extern "C" {
        fn figdawesa_read(sheet: *const u8, sheet_bytes: usize, out: *mut i32, out_words: usize) -> Ended;
        fn figdawesa_write(words: *const i32, word_count: usize, out: *mut u8, out_bytes: usize) -> Ended;
    }
    let (mut words, mut bytes) = ([0i32; 749], [0u8; 5243]);
    let lines = sheet.iter().filter(|b| **b == 10).count();
    let speed = |run: &mut dyn FnMut() -> Ended, count: usize| {
        let ended = run();
        assert_eq!((ended.number, ended.line, ended.count), (0, 0, count));
        let (start, mut runs) = (Instant::now(), 0);
        while start.elapsed() < Duration::from_millis(300) {
            for _ in 0..100 {
                run();
            }
            runs += 100;
        }
        (runs * sheet.len()) as f64 / start.elapsed().as_secs_f64() / 1e6
    };
    let read = speed(&mut || unsafe { figdawesa_read(sheet.as_ptr(), sheet.len(), words.as_mut_ptr(), words.len()) }, lines);
    let write = speed(&mut || unsafe { figdawesa_write(words.as_ptr(), 7 * lines, bytes.as_mut_ptr(), bytes.len()) }, sheet.len());
    assert_eq!(&bytes[..sheet.len()], sheet, "what was read is written again");
    Some((read, write))
}

#[cfg(not(reads))]
pub fn speeds(_: &[u8]) -> Option<(f64, f64)> {
    None
}

pub fn is_linked() -> bool {
    cfg!(judges)
}

/// So much of the stack is painted before a judgement; the rest is for the thread itself.
const PAINTED: usize = 240 * 1024;
const PAINT: u8 = 0xA5;

#[inline(never)]
fn paint() {
    let mut room = std::mem::MaybeUninit::<[u8; PAINTED]>::uninit();
    unsafe { std::ptr::write_bytes(room.as_mut_ptr().cast::<u8>(), PAINT, PAINTED) };
    std::hint::black_box(&room);
}

/// The bytes of the painted stack that have been used since, by pages. A large frame is probed by a word in each page, so a page with so
/// few bytes changed counts as clean.
#[inline(never)]
fn used() -> usize {
    const PAGE: usize = 4096;
    let room = std::mem::MaybeUninit::<[u8; PAINTED]>::uninit();
    let bytes = std::hint::black_box(room.as_ptr().cast::<u8>());
    let changed = |page: usize| (page * PAGE..(page + 1) * PAGE).filter(|i| unsafe { std::ptr::read_volatile(bytes.add(*i)) } != PAINT).count();
    PAINTED - PAGE * (0..PAINTED / PAGE).take_while(|page| changed(*page) <= 16).count()
}

/// Whether a sheet has been judged often enough for its fastest time: for so long, and five times unless that takes too long.
pub fn is_enough(count: usize, elapsed: Duration, runs: Duration) -> bool {
    elapsed > runs && (count >= 5 || elapsed > Duration::from_millis(50))
}

/// The first judgement's stack, the time of the fastest of some, and what the program cover would print.
fn timed(sheet: &[u8], time: Duration) -> (usize, Duration, String) {
    let mut words = [0i32; STRETCH];
    paint();
    let start = Instant::now();
    let mut outcome = library_judge(sheet, &mut words);
    let (mut best, mut count) = (start.elapsed(), 1);
    let stack = used();
    while !is_enough(count, start.elapsed(), time) {
        let one = Instant::now();
        outcome = library_judge(sheet, &mut words);
        best = best.min(one.elapsed());
        count += 1;
    }
    (stack, best, printed(sheet, &outcome, &words))
}

/// What runs of the library in this process print of each sheet that is given, after a line with its length: a line with the bytes of the
/// answer, the nanoseconds and the stack, and the answer. The first word is the microseconds for each.
pub fn run_here(words: &[String]) {
    let time = Duration::from_micros(words[0].parse().unwrap());
    let mut data = Vec::new();
    std::io::stdin().read_to_end(&mut data).unwrap();
    let judged = move || {
        let mut rest = &data[..];
        while let Some(at) = rest.iter().position(|b| *b == 10) {
            let length: usize = std::str::from_utf8(&rest[..at]).unwrap().parse().unwrap();
            let (stack, best, text) = timed(&rest[at + 1..at + 1 + length], time);
            print!("{} {} {stack}\n{text}", text.len(), best.as_nanos());
            std::io::stdout().flush().unwrap();
            rest = &rest[at + 1 + length..];
        }
    };
    std::thread::Builder::new().stack_size(STACK).spawn(judged).unwrap().join().unwrap();
}

/// The program cover: what COVER names, or the one that is built in its crate's folder.
pub fn program() -> PathBuf {
    let root = PathBuf::from(env!("CARGO_MANIFEST_DIR")).join("..");
    std::env::var("COVER").map_or(root.join("crates/cover/out/cover"), PathBuf::from)
}

/// Runs the library on a sheet. Without the linked library the time is that of a process, and `floor` is taken off.
pub fn run(sheet: &[u8], limit: Duration, floor: Duration) -> Run {
    if is_linked() {
        return run_many(&[sheet], limit, Duration::from_millis(20)).remove(0);
    }
    let start = Instant::now();
    let mut child = Command::new("/bin/sh")
        .arg("-c")
        .arg(format!("ulimit -s {}; exec \"$0\"", STACK / 1024))
        .arg(program())
        .env_clear()
        .stdin(Stdio::piped())
        .stdout(Stdio::piped())
        .stderr(Stdio::null())
        .spawn()
        .expect("a process");
    let (mut stdin, mut stdout) = (child.stdin.take().unwrap(), child.stdout.take().unwrap());
    let _ = stdin.write_all(sheet);
    drop(stdin);
    let (tell, told) = mpsc::channel();
    std::thread::spawn(move || {
        let mut text = String::new();
        let _ = stdout.read_to_string(&mut text);
        let _ = tell.send((text, start.elapsed()));
    });
    let Ok((text, time)) = told.recv_timeout(limit) else {
        let _ = child.kill();
        let _ = child.wait();
        return Run::Hang(limit);
    };
    if !child.wait().is_ok_and(|status| status.success()) || text.is_empty() {
        return Run::Crash;
    }
    Run::Done(text, time.saturating_sub(floor), 0)
}

/// An answer as run_here prints it; None where there is none any more.
fn next_answer(from: &mut impl BufRead) -> Option<Run> {
    let mut line = String::new();
    from.read_line(&mut line).ok()?;
    let numbers: Vec<u64> = line.split_whitespace().filter_map(|w| w.parse().ok()).collect();
    let [length, nanos, stack] = numbers[..] else { return None };
    let mut text = vec![0; length as usize];
    from.read_exact(&mut text).ok()?;
    Some(Run::Done(String::from_utf8(text).ok()?, Duration::from_nanos(nanos), stack as usize))
}

/// Runs the linked library on many sheets in one process, each for some time; after a hang or a crash another process goes on.
pub fn run_many(sheets: &[&[u8]], limit: Duration, time: Duration) -> Vec<Run> {
    let mut runs = Vec::new();
    while runs.len() < sheets.len() {
        let mut child = Command::new(std::env::current_exe().unwrap())
            .args(["library", &time.as_micros().to_string()])
            .stdin(Stdio::piped())
            .stdout(Stdio::piped())
            .stderr(Stdio::null())
            .spawn()
            .expect("a process");
        let mut stdin = child.stdin.take().unwrap();
        for sheet in &sheets[runs.len()..] {
            let _ = stdin.write_all(format!("{}\n", sheet.len()).as_bytes());
            let _ = stdin.write_all(sheet);
        }
        drop(stdin);
        let mut stdout = BufReader::new(child.stdout.take().unwrap());
        let (tell, told) = mpsc::channel();
        std::thread::spawn(move || while next_answer(&mut stdout).is_some_and(|run| tell.send(run).is_ok()) {});
        while runs.len() < sheets.len() {
            let run = told.recv_timeout(limit).unwrap_or_else(|how| match how {
                mpsc::RecvTimeoutError::Timeout => Run::Hang(limit),
                mpsc::RecvTimeoutError::Disconnected => Run::Crash,
            });
            let goes_on = matches!(run, Run::Done(..));
            runs.push(run);
            if !goes_on {
                break;
            }
        }
        let _ = child.kill();
        let _ = child.wait();
    }
    runs
}

/// The time of a process that has next to nothing to judge.
pub fn floor(sheet: &[u8]) -> Duration {
    let once = || match run(sheet, Duration::from_secs(5), Duration::ZERO) {
        Run::Done(_, time, _) => time,
        _ => panic!("{} does not run", program().display()),
    };
    if is_linked() { Duration::ZERO } else { (0..20).map(|_| once()).min().unwrap() }
}
