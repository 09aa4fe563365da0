//! The benchmark: pages and hard sheets through a search of its own and through the proved library.
//!
//!     cargo run --release                     the benchmark; it ends with 1 where an answer is wrong, or a target is missed or could not
//!                                             be measured
//!     cargo run --release -- --strategy both  with another strategy of the search (see judge.rs), --limit 5: seconds for a run
//!                                             of the library, --only FAMILY: families that start so
//!     cargo run --release -- strategies       states looked at by each strategy, up to 100,000
//!     cargo run --release -- sets             what sets of pages take, by their sheets one by one
//!     cargo run --release -- judge < SHEET    what the program cover would print, by this search
//!     cargo run --release -- sheets DIR       writes every sheet to a file; a family behind it: those that start so

mod families;
mod joins;
mod judge;
mod library;
mod natural;
mod sheet;
mod stored;

use families::Sample;
use judge::{Effort, Limit, Strategy, Verdict, STRATEGIES};
use library::Run;
use std::io::{Read, Write};
use std::time::{Duration, Instant};

const PAGE_LIMIT: Duration = Duration::from_micros(500);
const MEDIAN_LIMIT: Duration = Duration::from_micros(20);
const HARD_LIMIT: Duration = Duration::from_millis(300);
const LARGEST_LIMIT: Duration = Duration::from_millis(1);
/// What the middle one of all ratios to this search may be, and each of those of sheets that take longer than some time.
const MEDIAN_RATIO: f64 = 1.5;
const MOST_RATIO: f64 = 10.0;
const LONG: Duration = Duration::from_millis(1);
const MOST_STACK: usize = 256;
/// The time of a process is not known better than this.
const PROCESS: Duration = Duration::from_millis(5);
const MB_PER_S: f64 = 100.0;
/// What a set of pages may take by the time of its sheets one by one, and how many sets of natural pages are judged.
const SET_RATIO: f64 = 1.05;
const NATURAL_SETS: usize = 60;
/// So long a sheet is judged again and again for its fastest time, and one of thousands.
const RUNS: Duration = Duration::from_millis(20);
const SHORT_RUNS: Duration = Duration::from_micros(500);
/// So many are named of thousands.
const FEW: usize = 8;

/// What came out for a sheet.
struct Line {
    sample: Sample,
    verdict: Verdict,
    effort: Effort,
    own: Duration,
    /// The time by a strategy that is cut down to nearly the library's own, where that came to an end.
    cut_down: Option<Duration>,
    library: Run,
    fault: Option<String>,
}

impl Line {
    fn library_time(&self) -> Option<Duration> {
        match &self.library {
            Run::Done(_, time, _) => Some(*time),
            _ => None,
        }
    }

    /// The time of this search, where it came to an end.
    fn own_time(&self) -> Option<Duration> {
        (self.verdict != Verdict::GaveUp).then_some(self.own)
    }

    /// The time of the library by a time of this search; none where one of them is not known.
    fn ratio_to(&self, own: Option<Duration>) -> Option<f64> {
        let (time, own) = (self.library_time()?, own?);
        (library::is_linked() || time > PROCESS).then(|| time.as_secs_f64() / own.as_secs_f64())
    }

    fn ratio(&self) -> Option<f64> {
        self.ratio_to(self.own_time())
    }

    /// The ratio where the library takes long; of a run that did not end it is at least this.
    fn long_ratio(&self) -> Option<f64> {
        match self.library {
            Run::Hang(limit) => Some(limit.as_secs_f64() / self.own_time()?.as_secs_f64()),
            _ => self.ratio().filter(|_| self.library_time().is_some_and(|time| time > LONG)),
        }
    }

    /// Why there is no ratio.
    fn lacks_ratio(&self) -> &'static str {
        match self.library {
            Run::Hang(_) => "the library did not end",
            Run::Crash => "the library crashed",
            _ if self.own_time().is_none() => "this search gave up",
            _ => "too short for the time of a process",
        }
    }

    /// Whether the library's answer was looked at whole: a verdict needs this search's or one that is known, a case speaks for itself.
    fn is_checked(&self) -> bool {
        match &self.library {
            Run::Done(text, _, _) => self.own_time().is_some() || self.sample.verdict.is_some() || text.trim_start().starts_with('1'),
            _ => false,
        }
    }

    fn name(&self) -> String {
        format!("{} {}", self.sample.family, self.sample.size)
    }

    /// The stack that the library used, in KiB.
    fn stack(&self) -> usize {
        match &self.library {
            Run::Done(_, _, stack) => stack.div_ceil(1024),
            _ => 0,
        }
    }

    fn is_within(&self, limit: Duration) -> bool {
        self.library_time().is_some_and(|time| time < limit)
    }

    /// The time of the library in words.
    fn told_time(&self) -> String {
        match &self.library {
            Run::Done(_, time, _) if !library::is_linked() && *time < PROCESS => format!("<{}", shown(PROCESS)),
            Run::Done(_, time, _) => shown(*time),
            Run::Hang(_) => "HANGS".into(),
            Run::Crash => "CRASHES".into(),
        }
    }

    fn print(&self) {
        let verdict = judge::printed(&self.verdict);
        let verdict = if self.verdict == Verdict::GaveUp { "?" } else { verdict.split_whitespace().next().unwrap() };
        let library = self.told_time();
        let ratio = |r: Option<f64>| r.map_or("-".into(), |r| format!("{r:.2}"));
        let (ratio, less) = (ratio(self.ratio()), ratio(self.ratio_to(self.cut_down)));
        let own = if self.verdict == Verdict::GaveUp { format!(">{}", shown(self.own)) } else { shown(self.own) };
        let (nodes, probes) = (self.effort.nodes, self.effort.probes);
        let (family, size) = (self.sample.family, &self.sample.size);
        let cut_down = self.cut_down.map_or("-".into(), shown);
        let stack = self.stack();
        println!("{family:<30} {size:<32} {verdict:>7} {nodes:>8} {probes:>8} {own:>10} {cut_down:>10} {library:>10} {ratio:>8} {less:>8} {stack:>6}");
        if let Some(fault) = &self.fault {
            println!("    WRONG: {fault}");
        }
    }
}

fn shown(time: Duration) -> String {
    match time.as_secs_f64() {
        s if s >= 1.0 => format!("{s:.2} s"),
        s if s >= 1e-3 => format!("{:.2} ms", s * 1e3),
        s => format!("{:.1} us", s * 1e6),
    }
}

/// The best strategy of this search, which the target is about, and the one that is cut down to what the library does.
const BEST: &str = "all";
const CUT_DOWN: &str = "library";

fn strategy_of(name: &str) -> Strategy {
    STRATEGIES.iter().find(|s| s.0 == name).expect("a strategy").1
}

/// The verdict and the fastest of some runs.
fn own(bytes: &[u8], strategy: Strategy, most: Duration, runs: Duration) -> (Verdict, Effort, Duration) {
    let limit = Limit { nodes: usize::MAX / 2, time: most };
    let (start, mut best, mut count) = (Instant::now(), Duration::MAX, 0);
    loop {
        let one = Instant::now();
        let (verdict, effort) = judge::judge_by(bytes, strategy, Some(limit));
        best = best.min(one.elapsed());
        count += 1;
        if library::is_enough(count, start.elapsed(), runs) {
            return (verdict, effort, best);
        }
    }
}

/// The number of a verdict; none where the search gave up.
fn number(verdict: &Verdict) -> Option<u8> {
    match verdict {
        Verdict::Covered => Some(0),
        Verdict::NotCovered { .. } => Some(1),
        Verdict::NoLog => Some(2),
        Verdict::Refused(_) => Some(9),
        Verdict::GaveUp => None,
    }
}

/// What is wrong with a verdict where another one is known beforehand.
fn against_known(sample: &Sample, verdict: &Verdict, who: &str) -> Option<String> {
    let (known, given) = (sample.verdict?, number(verdict)?);
    (known != given).then(|| format!("{who} says {given} where {known} is known"))
}

/// What is wrong with the library's answer.
fn library_fault(sample: &Sample, bytes: &[u8], verdict: &Verdict, library: &Run) -> Option<String> {
    let Run::Done(text, _, _) = library else { return None };
    match judge::parse(text) {
        Some(other) => against_known(sample, &other, "the library").or_else(|| judge::fault(bytes, verdict, &other)),
        None => Some("an answer of another form".into()),
    }
}

fn measure(sample: Sample, strategy: Strategy, limit: Duration, floor: Duration) -> Line {
    let bytes = families::bytes(&sample);
    let (by_less, _, time) = own(&bytes, strategy_of(CUT_DOWN), Duration::from_millis(300), RUNS);
    let cut_down = (by_less != Verdict::GaveUp).then_some(time);
    let (verdict, effort, own) = own(&bytes, strategy, Duration::from_secs(5), RUNS);
    let apart = cut_down.and_then(|_| judge::fault(&bytes, &verdict, &by_less)).map(|fault| format!("this search's strategies differ: {fault}"));
    let library = library::run(&bytes, limit, floor);
    let fault = against_known(&sample, &verdict, "this search").or(apart).or_else(|| library_fault(&sample, &bytes, &verdict, &library));
    Line { sample, verdict, effort, own, cut_down, library, fault }
}

/// The same for thousands of sheets, in less time for each: the library judges them in one process. What comes near the limit for pages is
/// measured again by itself, for longer.
fn measure_many(samples: Vec<Sample>, strategy: Strategy, limit: Duration, floor: Duration) -> Vec<Line> {
    let bytes: Vec<Vec<u8>> = samples.iter().map(families::bytes).collect();
    let sheets: Vec<&[u8]> = bytes.iter().map(Vec::as_slice).collect();
    let runs = if library::is_linked() {
        library::run_many(&sheets, limit, SHORT_RUNS)
    } else {
        sheets.iter().map(|s| library::run(s, limit, floor)).collect()
    };
    let mut lines = Vec::new();
    for ((sample, bytes), mut library) in samples.into_iter().zip(&bytes).zip(runs) {
        let (verdict, effort, mut time) = own(bytes, strategy, Duration::from_secs(5), SHORT_RUNS);
        if library::is_linked() && matches!(library, Run::Done(_, time, _) if time > PAGE_LIMIT / 2 && time < 4 * PAGE_LIMIT) {
            time = time.min(own(bytes, strategy, Duration::from_secs(5), RUNS).2);
            library = library::run(bytes, limit, floor);
        }
        let fault = against_known(&sample, &verdict, "this search").or_else(|| library_fault(&sample, bytes, &verdict, &library));
        lines.push(Line { sample, verdict, effort, own: time, cut_down: None, library, fault });
    }
    lines
}

/// The middle one and the last one of ascending times; a run that did not end comes after all.
fn middle_and_worst(lines: &[&Line]) -> (Option<Duration>, Option<Duration>) {
    let mut times: Vec<Duration> = lines.iter().map(|l| l.library_time().unwrap_or(Duration::MAX)).collect();
    times.sort();
    let ended = |time: Duration| (time < Duration::MAX).then_some(time);
    (ended(times[times.len() / 2]), ended(times[times.len() - 1]))
}

fn or_hangs(time: Option<Duration>) -> String {
    time.map_or("does not end".into(), shown)
}

fn tell(what: &str, is_met: bool, how: String) -> bool {
    println!("{}  {what}: {how}", if is_met { "met   " } else { "MISSED" });
    is_met
}

/// The sheets' names behind a colon, where there are any, with what `more` says of each; of natural pages the first few.
fn names(lines: &[&Line], more: impl Fn(&Line) -> String) -> String {
    let is_many = |l: &&&Line| l.sample.family == natural::FAMILY;
    let count = lines.iter().filter(is_many).count();
    let kept = lines.iter().filter(|l| !is_many(l)).chain(lines.iter().filter(is_many).take(FEW));
    let mut shown: Vec<String> = kept.map(|l| format!("{}{}", l.name(), more(l))).collect();
    if count > FEW {
        shown.push(format!("and {} more of {}", count - FEW, natural::FAMILY));
    }
    if shown.is_empty() { String::new() } else { format!(": {}", shown.join("; ")) }
}

/// The slowest of the library first, those that did not end before all.
fn slowest_first<'a>(lines: impl Iterator<Item = &'a Line>) -> Vec<&'a Line> {
    let mut lines: Vec<&Line> = lines.collect();
    lines.sort_by_key(|l| std::cmp::Reverse(l.library_time().unwrap_or(Duration::MAX)));
    lines
}

fn with_time(line: &Line) -> String {
    format!(" ({})", line.told_time())
}

/// A target that is asked for and could not be measured: not met.
fn untold(what: &str, why: &str) -> bool {
    println!("UNKNOWN {what}: not measured, {why}");
    false
}

const NOT_LINKED: &str = "the library is not linked";

/// The middle one of numbers; none where there are none.
fn middle(mut numbers: Vec<f64>) -> Option<f64> {
    numbers.sort_by(f64::total_cmp);
    numbers.get(numbers.len() / 2).copied()
}

fn told_middle(numbers: Vec<f64>) -> String {
    let count = numbers.len();
    middle(numbers).map_or("none".into(), |m| format!("{m:.2} ({count} sheets)"))
}

/// The middle one of all ratios, those of sheets that take long, and the sheets that have none. A run that did not end counts as one
/// that takes longer than any other.
fn ratio_targets(lines: &[Line], strategy: &str) -> bool {
    let what = "median ratio to this search with its best strategy at most 1.5";
    let what_each = "ratio at most 10 on every sheet that takes the library over 1 ms";
    let ratio = |l: &Line| l.ratio().or(matches!(l.library, Run::Hang(_) | Run::Crash).then_some(f64::INFINITY));
    let ratios = |of: &dyn Fn(&Line) -> bool| lines.iter().filter(|l| of(l)).filter_map(ratio).collect::<Vec<f64>>();
    let how = told_middle(ratios(&|_| true));
    let met = if strategy != BEST {
        println!("        the time by that of the strategy {strategy}, which is not the best one: {how}");
        untold(what, "another strategy is run") & untold(what_each, "another strategy is run")
    } else {
        let median = if library::is_linked() { middle(ratios(&|_| true)) } else { None };
        let met = match median {
            Some(m) => tell(what, m <= MEDIAN_RATIO, how),
            None => untold(what, NOT_LINKED),
        };
        let mut far: Vec<&Line> = lines.iter().filter(|l| l.long_ratio().is_some_and(|r| r > MOST_RATIO)).collect();
        far.sort_by(|a, b| b.long_ratio().unwrap().total_cmp(&a.long_ratio().unwrap()));
        let long = lines.iter().filter(|l| l.long_ratio().is_some()).count();
        let more = |l: &Line| format!(" ({}{:.1})", if l.library_time().is_none() { "over " } else { "" }, l.long_ratio().unwrap());
        met & tell(what_each, far.is_empty(), format!("{} of {long} over it{}", far.len(), names(&far, more)))
    };
    let (natural, pages) = (|l: &Line| l.sample.family == natural::FAMILY, |l: &Line| l.sample.is_page() && l.sample.family != natural::FAMILY);
    println!("        the median of natural pages: {}; of other pages: {}", told_middle(ratios(&natural)), told_middle(ratios(&pages)));
    println!("        the median of hard sheets: {}", told_middle(ratios(&|l| !l.sample.is_page())));
    let lacking: Vec<&Line> = lines.iter().filter(|l| l.ratio().is_none()).collect();
    println!("        without a ratio: {} of {} sheets{}", lacking.len(), lines.len(), names(&lacking, |l| format!(" ({})", l.lacks_ratio())));
    let less = lines.iter().filter_map(|l| l.ratio_to(l.cut_down)).collect();
    println!("        not a target, the median by the time of this search cut down to nearly the library's strategy: {}", told_middle(less));
    met
}

fn page_targets(pages: &[&Line]) -> bool {
    let (median, worst) = middle_and_worst(pages);
    let over = slowest_first(pages.iter().copied().filter(|l| !l.is_within(PAGE_LIMIT)));
    let what = "every page under 0.5 ms";
    let mut all = if library::is_linked() || !over.iter().all(|l| l.is_within(PROCESS)) {
        tell(what, over.is_empty(), format!("{} of {} over it, worst {}{}", over.len(), pages.len(), or_hangs(worst), names(&over, with_time)))
    } else {
        untold(what, NOT_LINKED)
    };
    let own = pages.iter().filter(|l| l.own >= PAGE_LIMIT).count();
    println!("        this search itself takes longer on {own} of them");
    let what = "median of the pages under 20 us";
    all &= match median {
        Some(time) if !library::is_linked() && time <= PROCESS => untold(what, NOT_LINKED),
        time => tell(what, time.is_some_and(|t| t < MEDIAN_LIMIT), or_hangs(time)),
    };
    all
}

/// What sets of pages take, by what their sheets take one by one, and the stack of these sets and of one with a sheet that needs much of it.
fn set_targets(deep: Option<&Sample>) -> bool {
    let bytes = |samples: Vec<Sample>| samples.iter().map(families::bytes).collect::<Vec<Vec<u8>>>();
    let (pages, mut natural) = (bytes(families::pages()), bytes(natural::pages()));
    natural.truncate(NATURAL_SETS * library::SHEETS);
    let sets = pages.chunks(library::SHEETS).chain(natural.chunks(library::SHEETS));
    let times: Option<Vec<library::SetTimes>> = sets.map(|sheets| library::set_times(sheets, RUNS)).collect();
    let what = "a set of pages at most 1.05 of its sheets one by one";
    let Some(times) = times else { return untold(what, NOT_LINKED) };
    let ratio = |t: &library::SetTimes| t.set.as_secs_f64() / t.alone.as_secs_f64();
    let (set, alone): (Duration, Duration) = (times.iter().map(|t| t.set).sum(), times.iter().map(|t| t.alone).sum());
    let all = set.as_secs_f64() / alone.as_secs_f64();
    let worst = times.iter().map(ratio).fold(0.0, f64::max);
    let deepest = deep.and_then(|sample| library::set_times(&[families::bytes(sample)], SHORT_RUNS));
    let stack = times.iter().chain(&deepest).map(|t| t.stack.div_ceil(1024)).max().unwrap_or(0);
    let how = format!("{all:.3} of all, median {:.3}, worst {worst:.3} ({} sets)", middle(times.iter().map(ratio).collect()).unwrap(), times.len());
    tell(what, all <= SET_RATIO, how) & tell("at most 256 KiB of stack for a set", stack <= MOST_STACK, format!("the most is {stack} KiB"))
}

fn targets(lines: &[Line], strategy: &str, largest: &[u8]) -> bool {
    let pages: Vec<&Line> = lines.iter().filter(|l| l.sample.is_page()).collect();
    let hard: Vec<&Line> = lines.iter().filter(|l| !l.sample.is_page()).collect();
    let mut all = true;
    if !pages.is_empty() {
        all &= page_targets(&pages);
        let ended = lines.iter().filter(|l| matches!(l.library, Run::Done(..)));
        all &= set_targets(ended.max_by_key(|l| l.stack()).map(|l| &l.sample));
    }
    if !hard.is_empty() {
        let over = |excused: bool| slowest_first(hard.iter().copied().filter(move |l| l.sample.excused == excused && !l.is_within(HARD_LIMIT)));
        let (slow, excused) = (over(false), over(true));
        all &= tell("every hard sheet under 0.3 s", slow.is_empty(), format!("{} of {} over it{}", slow.len(), hard.len(), names(&slow, with_time)));
        println!("        not asked of pigeons whose holes are told apart: {} over it{}", excused.len(), names(&excused, with_time));
    }
    all &= ratio_targets(lines, strategy);
    let cases: Vec<&Line> = hard.iter().copied().filter(|l| l.sample.family == "largest case").collect();
    if !cases.is_empty() {
        let (_, worst) = middle_and_worst(&cases);
        let what = "the largest cases, judged whole, under 1 ms";
        all &= if library::is_linked() { tell(what, worst.is_some_and(|t| t < LARGEST_LIMIT), or_hangs(worst)) } else { untold(what, NOT_LINKED) };
    }
    let deep: Vec<&Line> = lines.iter().filter(|l| matches!(l.library, Run::Crash) || l.stack() > MOST_STACK).collect();
    let most = lines.iter().max_by_key(|l| l.stack()).map_or(String::new(), |l| format!("; the most is {} KiB ({})", l.stack(), l.name()));
    let unended = lines.iter().filter(|l| matches!(l.library, Run::Hang(_))).count();
    let how = format!("{} crash or need more{}{most}", deep.len(), names(&deep, with_time));
    all &= tell("at most 256 KiB of stack on every sheet", deep.is_empty(), how);
    if unended > 0 {
        println!("        not known of those that did not end: {unended}");
    }
    match library::speeds(largest) {
        Some((read, write)) => {
            all &= tell("read at 100 MB/s", read >= MB_PER_S, format!("{read:.0} MB/s"));
            all &= tell("write at 100 MB/s", write >= MB_PER_S, format!("{write:.0} MB/s"));
        }
        None => all &= untold("read and write at 100 MB/s", NOT_LINKED),
    }
    let wrong: Vec<&Line> = lines.iter().filter(|l| l.fault.is_some()).collect();
    let known = lines.iter().filter(|l| l.sample.verdict.is_some()).count();
    let how = format!("{} wrong{}; {known} verdicts were known beforehand", wrong.len(), names(&wrong, |_| String::new()));
    all &= tell("no wrong answer", wrong.is_empty(), how);
    let unchecked: Vec<&Line> = lines.iter().filter(|l| !l.is_checked()).collect();
    println!("        answers that could not be compared: {} of {}{}", unchecked.len(), lines.len(), names(&unchecked, |_| String::new()));
    all
}

/// What came out for pages: the slowest few, and the middle and worst of all.
fn print_pages(what: &str, pages: &[&Line]) {
    if pages.is_empty() {
        return;
    }
    let over = slowest_first(pages.iter().copied().filter(|l| !l.is_within(PAGE_LIMIT)));
    let shown_lines = over.iter().take(FEW).chain(over.iter().skip(FEW).filter(|l| l.fault.is_some()));
    shown_lines.for_each(|l| l.print());
    pages.iter().filter(|l| l.fault.is_some() && l.is_within(PAGE_LIMIT)).for_each(|l| l.print());
    let mut own: Vec<Duration> = pages.iter().map(|l| l.own).collect();
    let mut nodes: Vec<usize> = pages.iter().map(|l| l.effort.nodes).collect();
    own.sort();
    nodes.sort();
    let (median, worst) = middle_and_worst(pages);
    let verdicts = |wanted: u8| pages.iter().filter(|l| number(&l.verdict) == Some(wanted)).count();
    println!("\n{} {what}: {} covered, {} not covered, {} without a log", pages.len(), verdicts(0), verdicts(1), verdicts(2));
    println!("    nodes: median {}, worst {}", nodes[nodes.len() / 2], nodes[nodes.len() - 1]);
    let slow = own.iter().filter(|t| **t >= PAGE_LIMIT).count();
    println!("    this search: median {}, worst {}, {slow} over {}", shown(own[own.len() / 2]), shown(own[own.len() - 1]), shown(PAGE_LIMIT));
    if library::is_linked() {
        println!("    the library: median {}, worst {}, {} over {}", or_hangs(median), or_hangs(worst), over.len(), shown(PAGE_LIMIT));
    }
    println!();
}

/// The whole benchmark; whether every answer is right and every target met.
fn benchmark(options: &[String]) -> bool {
    let option = |name: &str| options.iter().position(|o| o == name).and_then(|at| options.get(at + 1));
    let name = option("--strategy").map_or("all", |s| s.as_str());
    let strategy = strategy_of(name);
    let limit = Duration::from_secs_f64(option("--limit").map_or(2.0, |s| s.parse().expect("seconds")));
    let only = option("--only").cloned().unwrap_or_default();
    let stored = match stored::sheets() {
        Ok(sheets) => sheets,
        Err(error) => {
            println!("ERROR {error}");
            return false;
        }
    };
    let wanted = |samples: Vec<Sample>| samples.into_iter().filter(|s| s.family.starts_with(&only)).collect::<Vec<Sample>>();
    let (pages, natural, hard) = (wanted(families::pages()), wanted(natural::pages()), wanted(families::hard().into_iter().chain(stored).collect()));
    if pages.is_empty() && natural.is_empty() && hard.is_empty() {
        println!("no family starts so: {only}");
        return false;
    }
    let floor = library::floor(&sheet::write(&sheet::page("(): Strap(1)", "(): Strap(1)", vec![])));
    println!("this search: strategy {name}; the library: {}", if library::is_linked() { "linked, fastest of the runs in 20 ms (of a natural page in 0.5 ms)".into() } else {
        format!("the program {}, one run, less {} for a process: no times below 5 ms", library::program().display(), shown(floor))
    });
    println!("{:<30} {:<32} {:>7} {:>8} {:>8} {:>10} {:>10} {:>10} {:>8} {:>8} {:>6}", "family", "size", "verdict", "nodes", "ahead", "this", "cut down", "library", "ratio", "to less", "KiB");
    let mut lines: Vec<Line> = pages.into_iter().map(|sample| measure(sample, strategy, limit, floor)).collect();
    print_pages("pages", &lines.iter().collect::<Vec<&Line>>());
    let many = measure_many(natural, strategy, limit, floor);
    print_pages("natural pages", &many.iter().collect::<Vec<&Line>>());
    lines.extend(many);
    for sample in hard {
        let line = measure(sample, strategy, limit, floor);
        line.print();
        lines.push(line);
    }
    println!();
    let largest = families::hard().iter().map(families::bytes).max_by_key(Vec::len).unwrap();
    let met = targets(&lines, name, &largest);
    println!("{}", if met { "all targets are met" } else { "not all targets are met" });
    met
}

/// States looked at by each strategy: of the pages how many take over 20,000, and the worst below that.
fn page_strategies() {
    let limit = Limit { nodes: 20_000, time: Duration::from_secs(5) };
    let pages: Vec<Vec<u8>> = families::pages().iter().map(families::bytes).collect();
    for (name, strategy) in STRATEGIES {
        let (mut over, mut worst, mut ahead) = (0, 0, 0);
        for page in &pages {
            let (verdict, effort) = judge::judge_by(page, strategy, Some(limit));
            over += (verdict == Verdict::GaveUp) as usize;
            worst = worst.max(if verdict == Verdict::GaveUp { 0 } else { effort.nodes });
            ahead = ahead.max(effort.probes);
        }
        println!("{} pages, {name:<8} {over:>4} over 20,000, worst of the others {worst:>6}, most looks ahead {ahead:>6}", pages.len());
    }
    println!();
}

/// States looked at by each strategy.
fn strategies(only: &str) {
    if only.is_empty() || only == "pages" {
        page_strategies();
    }
    let limit = Limit { nodes: 100_000, time: Duration::from_secs(1) };
    print!("{:<30} {:<32}", "family", "size");
    STRATEGIES.iter().for_each(|(name, _)| print!(" {name:>8}"));
    println!("    ahead  verdict  time of the last");
    let stored = stored::sheets().expect("the stored sheets");
    for sample in families::hard().into_iter().chain(stored).filter(|s| s.family.starts_with(only)) {
        let bytes = families::bytes(&sample);
        print!("{:<30} {:<32}", sample.family, sample.size);
        let mut known: Option<Verdict> = None;
        for (at, (_, strategy)) in STRATEGIES.iter().enumerate() {
            let start = Instant::now();
            let (verdict, effort) = judge::judge_by(&bytes, *strategy, Some(limit));
            let time = start.elapsed();
            let more = if verdict == Verdict::GaveUp { ">" } else { "" };
            print!(" {:>8}", format!("{more}{}", effort.nodes));
            std::io::stdout().flush().unwrap();
            if verdict != Verdict::GaveUp {
                let first = known.get_or_insert_with(|| verdict.clone());
                assert_eq!(judge::fault(&bytes, first, &verdict), None);
            }
            if at + 1 == STRATEGIES.len() {
                let text = judge::printed(&verdict);
                println!(" {:>8}  {:>7}  {}", effort.probes, text.split_whitespace().next().unwrap(), shown(time));
            }
        }
    }
}

fn given() -> Vec<u8> {
    let mut data = Vec::new();
    std::io::stdin().read_to_end(&mut data).unwrap();
    data
}

/// Judges many sheets, each after a line with its length; before each answer its length, and states looked at.
fn batch(strategy: Strategy) {
    let data = given();
    let (mut rest, mut out) = (&data[..], String::new());
    while let Some(at) = rest.iter().position(|b| *b == 10) {
        let length: usize = std::str::from_utf8(&rest[..at]).unwrap().parse().unwrap();
        let (verdict, effort) = judge::judge_by(&rest[at + 1..at + 1 + length], strategy, None);
        let text = judge::printed(&verdict);
        out += &format!("{} {} {}\n{text}", text.len(), effort.nodes, effort.probes);
        rest = &rest[at + 1 + length..];
    }
    print!("{out}");
}

fn main() {
    let words: Vec<String> = std::env::args().skip(1).collect();
    match words.first().map(String::as_str) {
        Some("strategies") => strategies(words.get(1).map_or("", String::as_str)),
        Some("sets") => std::process::exit(if set_targets(families::hard().iter().find(|s| s.family == "forced step by step")) { 0 } else { 1 }),
        Some("judge") => print!("{}", judge::printed(&judge::judge(&given()).0)),
        Some("batch") => batch(STRATEGIES[words[1].parse::<usize>().unwrap()].1),
        Some("library") => library::run_here(&words[1..]),
        Some("sheets") => {
            let only = words.get(2).map_or("", String::as_str);
            let stored = stored::sheets().expect("the stored sheets");
            let samples = families::pages().into_iter().chain(natural::pages()).chain(families::hard()).chain(stored);
            for sample in samples.filter(|s| s.family.starts_with(only)) {
                let name = format!("{} {}", sample.family, sample.size).replace([' ', ',', ':'], "_");
                std::fs::write(std::path::Path::new(&words[1]).join(name), families::bytes(&sample)).unwrap();
            }
        }
        _ => std::process::exit(if benchmark(&words) { 0 } else { 1 }),
    }
}
