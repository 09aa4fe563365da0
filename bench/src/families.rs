//! Sheets to measure by: pages as clubs have them, and families that are built to be hard, each with a size.

use crate::joins::{Body, Facts, Join, Value};
use crate::natural;
use crate::sheet::{key_of, owed_to, self, page, page_of, view, Atom, Block, Sheet, View, COLUMNS, MOST_CONSTANT, MOST_ROWS, MOST_VIEWS};
use std::collections::BTreeSet;

/// Numbers that look drawn by chance and are the same in each run.
pub struct Dice(u64);

impl Dice {
    pub fn new(seed: u64) -> Dice {
        Dice(seed)
    }
    pub fn below(&mut self, count: usize) -> usize {
        self.0 = self.0.wrapping_mul(6364136223846793005).wrapping_add(1442695040888963407);
        ((self.0 >> 33) % count as u64) as usize
    }
    pub fn one<T: Copy>(&mut self, items: &[T]) -> T {
        items[self.below(items.len())]
    }
}

/// A sheet with its family and size. The time for hard sheets is not asked of one that is excused. The verdict is there where it is
/// known without a search of either kind.
pub struct Sample {
    pub family: &'static str,
    pub size: String,
    pub sheet: Sheet,
    pub excused: bool,
    pub verdict: Option<u8>,
}

impl Sample {
    pub fn new(family: &'static str, size: String, sheet: Sheet) -> Sample {
        Sample { family, size, sheet, excused: false, verdict: None }
    }
    pub fn is_page(&self) -> bool {
        self.family.starts_with("pages")
    }
}

type Rows = Vec<Vec<i32>>;

/// Facts: relations with their values.
pub type Log = Vec<(usize, Vec<i32>)>;

const COVERED: u8 = 0;
const NOT_COVERED: u8 = 1;
const NO_LOG: u8 = 2;

fn single(values: impl IntoIterator<Item = i32>) -> Rows {
    values.into_iter().map(|v| vec![v]).collect()
}

/// All rows with a value of each list.
fn product(lists: &[&[i32]]) -> Rows {
    lists.iter().fold(vec![Vec::new()], |rows, list| {
        rows.iter().flat_map(|row| list.iter().map(move |v| row.iter().copied().chain([*v]).collect())).collect()
    })
}

/// Pairs of different numbers from 1 to n.
fn unequal(n: i32) -> Rows {
    (1..=n).flat_map(|a| (1..=n).filter(move |b| *b != a).map(move |b| vec![a, b])).collect()
}

const NEVER: &str = "(): Pause(1)";

// --- Choices --------------------------------------------------------------------------------------------------------

/// n signals whose tick is one of two, and nothing else is asked of them.
fn free(n: i32, ticks: i32) -> Vec<View> {
    vec![view("(a): Sig(a,b)", single(1..=n)), view("(b): Sig(a,b)", single(1..=ticks))]
}

const FOUR_JOINED: &str = "(): Coach(a,b), Coach(a,c), Coach(a,d), Coach(b,c), Coach(b,d), Coach(c,d)";

/// n free choices of two; then four coaches that are all joined and have three colours. Covered.
fn choices_first(n: i32) -> Sheet {
    let mut views = free(n, 2);
    views.push(view("(x,y): Coach(x,y)", unequal(3)));
    page(FOUR_JOINED, NEVER, views)
}

/// n seats with three free choices of two each; then the same: more choices than the library tells apart. Covered.
fn choices_wide(n: i32) -> Sheet {
    let mut views = vec![view("(a): Seat(a,b,c,d)", single(1..=n))];
    views.extend(["b", "c", "d"].map(|column| view(&format!("({column}): Seat(a,b,c,d)"), single([1, 2]))));
    views.push(view("(x,y): Coach(x,y)", unequal(3)));
    page(FOUR_JOINED, NEVER, views)
}

/// A contradiction that takes two choices of two, before n free choices of three. Covered.
fn choices_after(n: i32) -> Sheet {
    let mut views = free(n, 3);
    views.push(view("(x,y): Coach(x,y)", unequal(2)));
    page("(): Coach(a,b), Coach(b,c), Coach(c,a)", NEVER, views)
}

/// n choices of two; whatever two (or three) of them are, the list covers, and only when these are made.
fn covered_late(n: i32, three: bool, last: bool) -> Sheet {
    let mut views = free(n, 2);
    let at = |k: i32| if last { n - k } else { 1 + k };
    let saved = if three {
        views.push(view("(x,y,z): Seat(x,y,z,0)", product(&[&[1, 2], &[1, 2], &[1, 2]])));
        format!("(): Sig({},x), Sig({},y), Sig({},z), Seat(x,y,z,0)", at(0), at(1), at(2))
    } else {
        views.push(view("(x,y): Worn(x,y,z)", product(&[&[1, 2], &[1, 2]])));
        format!("(): Sig({},x), Sig({},y), Worn(x,y,z)", at(0), at(1))
    };
    page(NEVER, &saved, views)
}

// --- Chains ---------------------------------------------------------------------------------------------------------

/// n pulses in a row, each with a rate that the one before allows; the first and last rates are fixed.
fn chain(n: i32, steps: Rows, last: i32) -> Sheet {
    let views = vec![
        view("(a,b): Pulse(a,b,r)", (1..=n).map(|i| vec![i, i + 1]).collect()),
        view("(r,s): Pulse(a,b,r), Pulse(b,c,s)", steps),
        view("(r): Pulse(1,2,r)", single([1])),
        view(&format!("(r): Pulse({n},{},r)", n + 1), single([last])),
    ];
    page("(): Strap(1)", NEVER, views)
}

/// Each rate forces the next, and the last one is another (or, if `fits`, the one it has to be).
fn forced_chain(n: i32, fits: bool) -> Sheet {
    let last = (n - 1) % 3 + 1;
    chain(n, vec![vec![1, 2], vec![2, 3], vec![3, 1]], if fits { last } else { last % 3 + 1 })
}

/// Each rate allows two, odd ones after even ones; the last one has the wrong parity.
fn parity_chain(n: i32) -> Sheet {
    chain(n, unequal(4).into_iter().filter(|p| (p[0] + p[1]) % 2 == 1).collect(), 1 + n % 2)
}

// --- Colourings -----------------------------------------------------------------------------------------------------

type Graph = Vec<(i32, i32)>;

fn complete(n: i32) -> Graph {
    (1..=n).flat_map(|a| (a + 1..=n).map(move |b| (a, b))).collect()
}

fn wheel(n: i32) -> Graph {
    (1..=n).flat_map(|i| [(i, i % n + 1), (0, i)]).collect()
}

fn petersen() -> Graph {
    (0..5).flat_map(|i| [(i, (i + 1) % 5), (i, i + 5), (i + 5, (i + 2) % 5 + 5)]).collect()
}

/// Eleven vertices, no triangle, and not to be coloured with three.
fn groetzsch() -> Graph {
    (0..5).flat_map(|i| [(i, (i + 1) % 5), (i + 5, (i + 1) % 5), (i + 5, (i + 4) % 5), (i + 5, 10)]).collect()
}

fn random_graph(dice: &mut Dice, vertices: usize, edges: usize) -> Graph {
    let mut graph = BTreeSet::new();
    while graph.len() < edges {
        let (a, b) = (dice.below(vertices) as i32, dice.below(vertices) as i32);
        if a != b {
            graph.insert((a.min(b), a.max(b)));
        }
    }
    graph.into_iter().collect()
}

/// Each edge is a row whose ends have colours of their own: two made-up values an edge, and two for each pair of colours.
fn coloured_edges(graph: &Graph, colours: i32) -> Sheet {
    let body = "Noise(a,b), Rower(a,c), Rower(b,d)";
    let edges = graph.iter().map(|(a, b)| vec![*a, *b]).collect();
    page("(): Strap(1)", NEVER, vec![view(&format!("(a,b): {body}"), edges), view(&format!("(c,d): {body}"), unequal(colours))])
}

/// Each vertex is a row; edges are listed by themselves.
fn coloured_vertices(graph: &Graph, colours: i32) -> Sheet {
    let vertices: BTreeSet<i32> = graph.iter().flat_map(|(a, b)| [*a, *b]).collect();
    let edges = graph.iter().map(|(a, b)| vec![*a, *b]).collect();
    page(
        "(): Strap(1)",
        NEVER,
        vec![
            view("(a,b): Noise(a,b)", edges),
            view("(a): Rower(a,c)", single(vertices)),
            view("(c,d): Noise(a,b), Rower(a,c), Rower(b,d)", unequal(colours)),
        ],
    )
}

// --- Pigeons --------------------------------------------------------------------------------------------------------

/// Pigeons into holes; a hole has one, two or three columns.
fn pigeons(pigeons: i32, holes: i32, columns: usize) -> Sheet {
    let (names, relation) = [("x", "Sig"), ("x,y", "Worn"), ("x,y,z", "Seat")][columns - 1];
    let listed = (1..=holes).map(|h| (0..columns as i32).map(|c| h + 100 * c).collect()).collect();
    page(
        "(): Strap(1)",
        NEVER,
        vec![
            view(&format!("(a,b): {relation}(a,{names}), {relation}(b,{names})"), (1..=pigeons).map(|p| vec![p, p]).collect()),
            view(&format!("({names}): {relation}(a,{names})"), listed),
        ],
    )
}

// --- Quantified formulas --------------------------------------------------------------------------------------------

/// The question's log guesses a colour of two for each of n points; the list refutes it by a triple of one colour.
fn triples(points: i32, triples: Rows) -> Sheet {
    page(
        NEVER,
        "(): Seat(i,j,k,0), Rower(i,c), Rower(j,c), Rower(k,c)",
        vec![view("(i,j,k): Seat(i,j,k,0)", triples), view("(i): Rower(i,c)", single(1..=points)), view("(c): Rower(i,c)", single([1, 2]))],
    )
}

fn fano() -> Rows {
    (0..7).map(|i| vec![i + 1, (i + 1) % 7 + 1, (i + 3) % 7 + 1]).collect()
}

fn random_triples(dice: &mut Dice, points: usize, count: usize) -> Rows {
    let mut rows = BTreeSet::new();
    while rows.len() < count {
        let mut row: Vec<i32> = (0..3).map(|_| 1 + dice.below(points) as i32).collect();
        row.sort();
        if row[0] < row[1] && row[1] < row[2] {
            rows.insert(row);
        }
    }
    rows.into_iter().collect()
}

/// For all guesses of n values from 1 to m there is something: the list looks for two guesses and two values of its own that
/// three tables allow.
fn for_all_exists(dice: &mut Dice, guesses: i32, values: usize, rows: usize) -> Sheet {
    let mut table = |columns: usize, count: usize| {
        let mut rows = BTreeSet::new();
        while rows.len() < count {
            rows.insert((0..columns).map(|_| 1 + dice.below(values) as i32).collect::<Vec<i32>>());
        }
        rows.into_iter().collect::<Rows>()
    };
    page(
        NEVER,
        "(): Rower(i,a), Rower(j,b), Noise(i,j), Seat(a,b,y,0), Coach(y,z), Beat(z,a)",
        vec![
            view("(i): Rower(i,c)", single(1..=guesses)),
            view("(c): Rower(i,c)", single(1..=values as i32)),
            view("(i,j): Noise(i,j)", (1..guesses).map(|i| vec![i, i + 1]).collect()),
            view("(a,b,y): Seat(a,b,y,0)", table(3, rows)),
            view("(y,z): Coach(y,z)", table(2, rows / 2)),
            view("(z,a): Beat(z,a)", table(2, rows / 2)),
        ],
    )
}

// --- Products -------------------------------------------------------------------------------------------------------

/// Five unconnected atoms and a sixth that fails, over n signals. Not covered.
fn product_list(n: i32) -> Sheet {
    let rows = (1..=n).map(|i| vec![i, i + 100]).collect();
    page("(): Strap(1)", "(): Sig(a,b), Sig(c,d), Sig(e,f), Sig(g,h), Sig(i,j), Pause(k)", vec![view("(a,b): Sig(a,b)", rows)])
}

/// Three unconnected pairs of atoms, the last of which fails. Not covered.
fn product_pairs(n: i32) -> Sheet {
    let there = (1..=n).map(|i| vec![i, i + 100]).collect();
    let back = (1..=n).map(|i| vec![i + 100, i % n + 1]).collect();
    page(
        "(): Strap(1)",
        "(): Sig(a,b), Coach(b,c), Sig(d,e), Coach(e,f), Sig(g,h), Coach(h,g)",
        vec![view("(a,b): Sig(a,b)", there), view("(a,b): Coach(a,b)", back)],
    )
}

/// Six unconnected atoms in the list over n seats of made-up values, each seat with choices of its own. Not covered.
fn product_open(n: i32) -> Sheet {
    page(
        "(): Strap(1)",
        "(): Seat(a,1,b,c), Seat(d,2,e,f), Seat(g,1,h,i), Seat(j,2,k,l), Seat(1,1,1,1), Strap(2)",
        vec![view("(r): Seat(r,s,b,x)", single(1..=n)), view("(s): Seat(r,s,b,x)", single([1, 2])), view("(b): Seat(r,s,b,x)", single([1, 2]))],
    )
}

/// A view of three unconnected atoms with all rows of a product. Not covered.
fn product_view() -> Sheet {
    page("(): Strap(1)", NEVER, vec![view("(a,b,c): Strap(a), Pulse(b,x,y), Sig(c,d)", product(&[&[1, 2, 3], &[1, 2, 3], &[1, 2, 3, 4]]))])
}

/// A view of three unconnected atoms over n seats of made-up values: the cube of n rows at the start. Not covered.
fn product_view_open(n: i32) -> Sheet {
    page(
        "(): Strap(1)",
        NEVER,
        vec![
            view("(r): Seat(r,s,b,x)", single(1..=n)),
            view("(s,b,x): Seat(a,s,c,d), Seat(e,f,b,g), Seat(h,i,j,x)", product(&[&[1, 2], &[1, 2], &[1, 2]])),
        ],
    )
}

/// A view of three unconnected atoms without columns, that is not to be given, over many facts; a pair in it fails.
fn product_view_none(n: i32) -> Sheet {
    let rows = (1..=n).map(|i| vec![i, i + 100]).collect();
    page("(): Strap(1)", NEVER, vec![view("(a,b): Sig(a,b)", rows), view("(): Sig(a,b), Sig(c,d), Sig(e,e)", vec![])])
}

/// A question with four unconnected columns over n straps, of which the list lacks the last one alone. Not covered.
fn product_question(n: i32) -> Sheet {
    page(
        "(a,b,c,d): Strap(a), Strap(b), Strap(c), Strap(d)",
        "(a,b,c,d): Coach(a,x), Strap(b), Strap(c), Strap(d)",
        vec![view("(a): Strap(a)", single(1..=n)), view("(a): Coach(a,x)", single(1..n))],
    )
}

/// The same over 40 straps with coaches: the list lacks the question's own strap alone.
fn product_question_wide(n: i32) -> Sheet {
    page(
        "(a,b,c,d): Strap(a), Strap(b), Strap(c), Strap(d)",
        "(a,b,c,d): Coach(a,x), Strap(b), Strap(c), Strap(d)",
        vec![view("(a): Strap(a), Coach(a,x)", single(1..=n))],
    )
}

/// A view of three atoms that are joined by one session, over n seats of made-up boats: a cube of rows again. Not covered.
fn product_joined(n: i32) -> Sheet {
    page(
        "(): Strap(1)",
        NEVER,
        vec![
            view("(r): Seat(r,s,b,x)", single(1..=n)),
            view("(s): Seat(r,s,b,x)", single([7])),
            view("(b,c,d): Seat(p,s,b,x), Seat(q,s,c,y), Seat(r,s,d,z)", product(&[&[1, 2], &[1, 2], &[1, 2]])),
        ],
    )
}

// --- The largest case -----------------------------------------------------------------------------------------------

fn largest() -> Sheet {
    let rows = (0..40).map(|i| (0..4).map(|c| i + 100 * c).collect()).collect();
    let pulses: Vec<String> = (0..6).map(|i| format!("Pulse(1,{i},2)")).collect();
    page(&format!("(): {}", pulses.join(", ")), NEVER, vec![view("(a,b,c,d): Rower(a,b), Sig(b,c), Coach(c,d)", rows)])
}

/// Each fact owes another one.
fn largest_owing() -> Sheet {
    let rows = (0..40).map(|i| (0..4).map(|c| i + 100 * c).collect()).collect();
    let asked: Vec<String> = (0..6).map(|i| format!("{}({},{})", ["Beat", "Noise"][i % 2], 400 + i, 500 + i)).collect();
    page(&format!("(): {}", asked.join(", ")), NEVER, vec![view("(a,b,c,d): Beat(a,b), Noise(b,c), Beat(c,d)", rows)])
}

fn largest_owing_made_up() -> Sheet {
    let rows = (0..40).map(|i| vec![i, i + 100]).collect();
    let asked: Vec<String> = (1..=6).map(|i| format!("{}(a,{i})", ["Beat", "Noise"][i % 2])).collect();
    page(&format!("(): {}", asked.join(", ")), NEVER, vec![view("(a,d): Beat(a,b), Noise(b,c), Beat(c,d)", rows)])
}

fn largest_made_up() -> Sheet {
    let rows = (0..40).map(|i| (0..3).map(|c| i + 100 * c).collect()).collect();
    let seats: Vec<String> = (1..=6).map(|i| format!("Seat(a,b,c,{i})")).collect();
    page(&format!("(): {}", seats.join(", ")), NEVER, vec![view("(a,b,c): Worn(a,b,d), Pulse(b,c,d), Coach(c,d)", rows)])
}

/// As many made-up values as there can be, and one view forces each of them.
fn largest_forced() -> Sheet {
    let atoms = "Seat(a,b,c,d), Seat(e,f,g,h), Seat(i,j,k,l)";
    let column = |name: &str, values: Rows| view(&format!("({name}): {atoms}"), values);
    let views = vec![column("a", single(1..=37)), column("b", single([50])), column("c", single([50])), column("d", single([50]))];
    page(&format!("(): {atoms}"), NEVER, views)
}

// --- Pairs of rowers in one boat ------------------------------------------------------------------------------------

const PAIR: &str = "Seat(r,s,b,x), Seat(q,s,b,y)";

/// Crews that row together: all pairs of each, and all sessions and boats, as many as there are crews and some more.
fn pairs_views(crews: i32, rowers: i32, more: i32, dropped: usize) -> Vec<View> {
    let mut rows: Rows = (0..crews)
        .flat_map(|c| (1..=rowers).flat_map(move |r| (1..=rowers).map(move |q| vec![10 * c + r, 10 * c + q])))
        .collect();
    for at in 0..dropped {
        rows.remove(rows.len() - 2 - at);
    }
    let boats = (1..=crews + more).map(|i| vec![i, 100 + i]).collect();
    vec![view(&format!("(r,q): {PAIR}"), rows), view("(s,b): Seat(r,s,b,x)", boats)]
}

const PAIR_QUESTIONS: [(&str, &str); 3] = [
    ("(s): Seat(r,s,b,x)", "(s): Pause(s)"),
    ("(r,q): Seat(r,s,b,x), Seat(q,s,b,y)", "(r,q): Seat(r,s,b,x), Seat(q,s,c,y)"),
    ("(r,s): Seat(r,s,b,x), Seat(q,s,b,y)", "(r,s): Seat(r,s,b,x), Seat(q,s,b,y), Seat(r,t,c,z), Pause(t)"),
];

fn pairs(crews: i32, rowers: i32, more: i32, dropped: usize, question: usize) -> Sheet {
    let (q, l) = PAIR_QUESTIONS[question];
    page(q, l, pairs_views(crews, rowers, more, dropped))
}

// --- Pigeons, told apart --------------------------------------------------------------------------------------------

const TOLD_APART: &str = "pigeons, told apart";

/// Pigeons into holes, each of which has a coach of its own in another view, so that no hole is like another.
fn pigeons_told_apart(pigeons: i32, holes: i32) -> Sheet {
    page(
        "(): Strap(1)",
        NEVER,
        vec![
            view("(a,b): Beat(a,x), Beat(b,x)", (1..=pigeons).map(|p| vec![p, p]).collect()),
            view("(x): Beat(a,x)", single(901..=900 + holes)),
            view("(x,y): Coach(x,y)", (1..=holes).map(|h| vec![900 + h, h]).collect()),
        ],
    )
}

// --- Wide atoms -----------------------------------------------------------------------------------------------------

/// What may not be along an edge from a to b, in one session: the numbers of boats (c, d) or of seats (x, y) that are alike.
const ALIKE: [(&str, &[&str]); 4] = [
    ("boat and seat", &["(): Sig(a,b), Seat(a,s,c,x), Seat(b,s,y,c)"]),
    ("boats", &["(): Sig(a,b), Seat(a,s,c,x), Seat(b,s,c,y)"]),
    ("boats, seats", &["(): Sig(a,b), Seat(a,s,c,x), Seat(b,s,c,y)", "(): Sig(a,b), Seat(a,s,c,x), Seat(b,s,d,x)"]),
    ("boats, boat and seat", &["(): Sig(a,b), Seat(a,s,c,x), Seat(b,s,c,y)", "(): Sig(a,b), Seat(a,s,c,x), Seat(b,s,y,c)"]),
];

/// Rowers with a seat in each of three sessions, from so many numbers of boats and seats; no seat has its boat's number, and along the
/// edges some are not alike.
fn wide(graph: &Graph, numbers: i32, alike: usize) -> Sheet {
    let rowers: BTreeSet<i32> = graph.iter().flat_map(|(a, b)| [*a, *b]).collect();
    let mut views = vec![
        view("(a): Seat(a,0,c,x), Seat(a,1,d,y), Seat(a,2,e,z)", single(rowers)),
        view("(c): Seat(a,s,c,x)", single(901..=900 + numbers)),
        view("(x): Seat(a,s,c,x)", single(901..=900 + numbers)),
        view("(a,b): Sig(a,b)", graph.iter().map(|(a, b)| vec![*a, *b]).collect()),
        view("(): Seat(a,s,c,c)", vec![]),
    ];
    views.extend(ALIKE[alike].1.iter().map(|text| view(text, vec![])));
    page("(): Strap(1)", NEVER, views)
}

// --- Many choices ---------------------------------------------------------------------------------------------------

/// n rowers with a seat in each of three sessions, boat and seat one of two: six choices each.
fn six_each(n: i32) -> Vec<View> {
    vec![
        view("(a): Seat(a,0,c,x), Seat(a,1,d,y), Seat(a,2,e,z)", single(1..=n)),
        view("(c): Seat(a,s,c,x)", single([501, 502])),
        view("(x): Seat(a,s,c,x)", single([1, 2])),
    ]
}

/// Six choices for each of n rowers; then four coaches that are all joined and have three colours. Covered.
fn many_then_elsewhere(n: i32) -> Sheet {
    let mut views = six_each(n);
    views.push(view("(x,y): Coach(x,y)", unequal(3)));
    page(FOUR_JOINED, NEVER, views)
}

/// A ring of rowers, the first or the last ones.
fn ring(n: i32, length: i32, last: bool) -> Rows {
    let at = |i: i32| if last { n - i % length } else { 1 + i % length };
    (0..length).map(|i| vec![at(i), at(i + 1)]).collect()
}

/// Six choices for each of n rowers; along a ring of an odd number of them no boats of session 1 are alike. No log, or covered where the
/// list and not a view says so.
fn many_with_ring(n: i32, length: i32, last: bool, listed: bool) -> Sheet {
    let mut views = six_each(n);
    views.push(view("(a,b): Beat(a,b)", ring(n, length, last)));
    let alike = "(): Beat(a,b), Seat(a,1,c,x), Seat(b,1,c,y)";
    if listed {
        return page("(): Strap(1)", alike, views);
    }
    views.push(view(alike, vec![]));
    page("(): Strap(1)", NEVER, views)
}

// --- Longer chains of parity ----------------------------------------------------------------------------------------

const ODD_AND_EVEN: [[i32; 2]; 8] = [[1, 2], [1, 4], [2, 1], [2, 3], [3, 2], [3, 4], [4, 1], [4, 3]];

/// Odd rates follow even ones, of three in all.
fn three_rates(n: i32, fits: bool) -> Sheet {
    let steps = unequal(3).into_iter().filter(|p| (p[0] + p[1]) % 2 == 1).collect();
    chain(n, steps, if fits { 2 - n % 2 } else { 1 + n % 2 })
}

/// Two links a row, a pulse and a strap worn, the place between them made up. Along the chain odd rates of pulses come before even ones
/// that are worn, and the other way about is listed too and has no place: no log.
fn two_links(rows: i32, rates: i32) -> Sheet {
    let steps = || ODD_AND_EVEN.iter().filter(|p| p[0] <= rates && p[1] <= rates).map(|p| p.to_vec()).collect::<Rows>();
    let views = vec![
        view("(a,d): Pulse(a,b,r), Worn(b,d,s)", (1..=rows).map(|i| vec![i, i + 1]).collect()),
        view("(r,s): Pulse(a,b,r), Worn(b,c,s)", steps()),
        view("(r,s): Worn(a,b,r), Pulse(b,c,s)", steps()),
        view("(r): Pulse(1,b,r)", single([1])),
        view(&format!("(r): Worn(a,{},r)", rows + 1), single([2])),
    ];
    page("(): Strap(1)", NEVER, views)
}

/// Every three pulses on end lead from a place to the next one, so those that start between two places have nowhere to be: no log.
fn three_on_end(rows: i32) -> Sheet {
    let views = vec![
        view("(a,d): Pulse(a,b,r), Pulse(b,c,s), Pulse(c,d,t)", (1..=rows).map(|i| vec![i, i + 1]).collect()),
        view("(r,s): Pulse(a,b,r), Pulse(b,c,s)", ODD_AND_EVEN.map(|p| p.to_vec()).to_vec()),
        view("(r): Pulse(1,b,r)", single([1])),
    ];
    page("(): Strap(1)", NEVER, views)
}

/// A ring of n pulses; odd rates follow even ones all the way round. Eight steps are listed, and fewer pulses than eight, with a rate
/// each, do not give them.
fn parity_ring(n: i32) -> Sheet {
    let views = vec![
        view("(a,b): Pulse(a,b,r)", (1..=n).map(|i| vec![i, i % n + 1]).collect()),
        view("(r,s): Pulse(a,b,r), Pulse(b,c,s)", ODD_AND_EVEN.map(|p| p.to_vec()).to_vec()),
    ];
    page("(): Strap(1)", NEVER, views)
}

/// The sum of n bits taken twice, in two orders: each link is a seat that holds the sum so far, a bit and the next sum. The two sums come
/// out the same, or, where it does not fit, they may not.
fn parity_twice(order: &[i32], fits: bool) -> Sheet {
    let n = order.len() as i32;
    let same = order.iter().enumerate().map(|(at, bit)| vec![1 + bit, n + 1 + at as i32]).collect();
    let next = (1..2 * n).filter(|a| *a != n).map(|a| vec![a, a + 1]).collect();
    let alike = || vec![vec![0, 0], vec![1, 1]];
    let views = vec![
        view("(a): Seat(a,u,v,w)", single(1..=2 * n)),
        view("(u,v,w): Seat(a,u,v,w)", vec![vec![0, 0, 0], vec![0, 1, 1], vec![1, 0, 1], vec![1, 1, 0]]),
        view("(a,b): Beat(a,b)", next),
        view("(a,b): Noise(a,b)", same),
        view("(w,u): Beat(a,b), Seat(a,x,y,w), Seat(b,u,z,t)", alike()),
        view("(v,y): Noise(a,b), Seat(a,u,v,w), Seat(b,x,y,z)", alike()),
        view(&format!("(u): Seat(1,u,v,w), Seat({},u,x,y)", n + 1), single([0])),
        view(&format!("(): Seat({n},u,v,w), Seat({},x,y,w)", 2 * n), if fits { vec![vec![]] } else { vec![] }),
    ];
    page("(): Strap(1)", NEVER, views)
}

// --- Exact cover ----------------------------------------------------------------------------------------------------

/// Whether some of these triples hold each x from 1 to m once, and each y and each z of theirs at most once.
fn has_exact_cover(m: i32, triples: &Rows, taken: &mut Vec<Vec<i32>>) -> bool {
    let x = 1 + taken.len() as i32;
    x > m
        || triples.iter().filter(|t| t[0] == x).any(|t| {
            if taken.iter().any(|u| u[1] == t[1] || u[2] == t[2]) {
                return false;
            }
            taken.push(t.clone());
            let found = has_exact_cover(m, triples, taken);
            taken.pop();
            found
        })
}

/// So many triples of x from 1, y from 101 and z from 201, m of each, that hold each of them; with an exact cover by m of them or without.
fn some_triples(dice: &mut Dice, m: i32, count: usize, fits: bool) -> Rows {
    loop {
        let mut triples = BTreeSet::new();
        if fits {
            let mut left: [Vec<i32>; 2] = [(101..=100 + m).collect(), (201..=200 + m).collect()];
            for x in 1..=m {
                let [y, z] = &mut left;
                triples.insert(vec![x, y.remove(dice.below(y.len())), z.remove(dice.below(z.len()))]);
            }
        }
        while triples.len() < count {
            triples.insert((0..3).map(|c| 100 * c + 1 + dice.below(m as usize) as i32).collect::<Vec<i32>>());
        }
        let all = (0..3).all(|c| triples.iter().map(|t| t[c]).collect::<BTreeSet<i32>>().len() == m as usize);
        let triples: Rows = triples.into_iter().collect();
        if all && has_exact_cover(m, &triples, &mut Vec::new()) == fits {
            return triples;
        }
    }
}

/// Of the listed triples those in session 1 hold each x, y and z once.
fn exact_cover(m: i32, triples: &Rows) -> Sheet {
    let twice = |first: i32| (first..first + m).map(|i| vec![i, i]).collect::<Rows>();
    page(
        "(): Strap(1)",
        NEVER,
        vec![
            view("(x,y,z): Seat(s,x,y,z)", triples.clone()),
            view("(x,w): Seat(1,x,y,z), Seat(1,w,y,v)", twice(1)),
            view("(y,w): Seat(1,x,y,z), Seat(1,x,w,v)", twice(101)),
            view("(z,w): Seat(1,x,y,z), Seat(1,x,v,w)", twice(201)),
        ],
    )
}

/// Whether points can be chosen so that of each triple one is chosen and no more; the first ones are chosen already.
fn one_of_three(points: i32, triples: &Rows, chosen: &mut Vec<bool>) -> bool {
    let there = |p: i32| chosen.get(p as usize - 1).copied();
    let is_open = |t: &Vec<i32>| {
        let known: Vec<bool> = t.iter().filter_map(|p| there(*p)).collect();
        let count = known.iter().filter(|c| **c).count();
        count <= 1 && (known.len() < 3 || count == 1)
    };
    if !triples.iter().all(is_open) {
        return false;
    }
    if chosen.len() == points as usize {
        return true;
    }
    for bit in [false, true] {
        chosen.push(bit);
        let found = one_of_three(points, triples, chosen);
        chosen.pop();
        if found {
            return true;
        }
    }
    false
}

/// n triples of n points, each of which is in three of them.
fn three_each(dice: &mut Dice, n: usize) -> Rows {
    loop {
        let mut ends: Vec<i32> = (0..3 * n).map(|i| 1 + (i / 3) as i32).collect();
        for i in (1..ends.len()).rev() {
            ends.swap(i, dice.below(i + 1));
        }
        let rows: BTreeSet<Vec<i32>> = ends
            .chunks(3)
            .map(|c| {
                let mut row = c.to_vec();
                row.sort();
                row
            })
            .collect();
        if rows.len() == n && rows.iter().all(|r| r[0] < r[1] && r[1] < r[2]) {
            return rows.into_iter().collect();
        }
    }
}

/// Each point is there (1) or not (0); of each listed triple no two are there, and the list finds one of which none is there.
fn cover_by_points(points: i32, triples: &Rows) -> Sheet {
    let both = |one: &str, other: &str| view(&format!("(): Seat(i,j,k,0), Rower({one},1), Rower({other},1)"), vec![]);
    page(
        "(): Strap(1)",
        "(): Seat(i,j,k,0), Rower(i,0), Rower(j,0), Rower(k,0)",
        vec![
            view("(i,j,k): Seat(i,j,k,0)", triples.clone()),
            view("(i): Rower(i,c)", single(1..=points)),
            view("(c): Rower(i,c)", single([0, 1])),
            both("i", "j"),
            both("i", "k"),
            both("j", "k"),
        ],
    )
}

// --- Keys -----------------------------------------------------------------------------------------------------------

/// How two walks end: apart, which cannot be; together, with a case; with a list that has the other walk's end; and after they
/// started apart.
const WALKS: [(&str, u8); 4] = [("ends apart", NO_LOG), ("ends together", NOT_COVERED), ("covered", COVERED), ("starts apart", NOT_COVERED)];

/// Two walks of n steps from one rower: each strap's rower is settled by the one before, and the keys make the walks one, step by step.
fn two_walks(n: i32, way: usize) -> Sheet {
    let steps: Rows = (1..=n).map(|k| vec![k, k + 1]).collect();
    let last = n + 1;
    let mut views: Vec<View> =
        [1, 2].map(|session| view(&format!("(k,m): Worn(k,{session},y), Pulse(y,1,z), Worn(m,{session},z)"), steps.clone())).into();
    views.push(match way {
        3 => view("(x,y): Worn(1,1,x), Worn(1,2,y)", vec![vec![907, 908]]),
        _ => view("(x): Worn(1,1,x), Worn(1,2,x)", single([907])),
    });
    let end = format!("(): Worn({last},1,x), Worn({last},2,x)");
    match way {
        0 => views.push(view(&end, vec![])),
        1 => views.push(view(&end, vec![vec![]])),
        _ => {}
    }
    let (question, saved) = (format!("(): Worn({last},1,x), Strap(x)"), format!("(): Worn({last},2,x), Strap(x)"));
    if way < 2 {
        page(&question, NEVER, views)
    } else {
        page(&question, &saved, views)
    }
}

/// Rates lead from each of n straps to the next one; n walkers go two steps each, and the question five, which lead it to the list's end.
fn walkers(n: i32, fits: bool) -> Sheet {
    let views = vec![
        view("(s,r): Pulse(s,1,r)", (1..=n).map(|s| vec![s, s + 1]).collect()),
        view("(x): Pulse(x,1,a), Pulse(a,1,b), Rower(b,x)", single(1..n)),
    ];
    let end = if fits { 6 } else { 7 };
    page("(): Pulse(1,1,a), Pulse(a,1,b), Pulse(b,1,c), Pulse(c,1,d), Pulse(d,1,e), Strap(e)", &format!("(): Strap({end})"), views)
}

/// n straps in n sessions, each worn by one of the rowers, no rower with two straps in a session or with a strap twice: a Latin square,
/// and none where rowers are too few.
fn square(n: i32, rowers: i32) -> Sheet {
    let alike = |n: i32| (1..=n).map(|k| vec![k, k]).collect::<Rows>();
    let views = vec![
        view("(p,s): Worn(p,s,r)", product(&[&(1..=n).collect::<Vec<i32>>(), &(1..=n).collect::<Vec<i32>>()])),
        view("(r): Worn(p,s,r)", single(101..=100 + rowers)),
        view("(p,q): Worn(p,s,r), Worn(q,s,r)", alike(n)),
        view("(s,t): Worn(p,s,r), Worn(p,t,r)", alike(n)),
    ];
    page("(): Strap(1)", NEVER, views)
}

/// Who wore each strap with whom, at one time or another: straps and sessions are listed, and pairs of rowers, as a log gives them.
fn pairs_by_strap(dice: &mut Dice, straps: i32, sessions: i32, rowers: usize) -> Sheet {
    loop {
        let mut log: Log = Vec::new();
        for session in 1..=sessions {
            let mut free: Vec<i32> = (101..101 + rowers as i32).collect();
            for strap in 1..=straps {
                log.push((3, vec![strap, session, free.remove(dice.below(free.len()))]));
            }
        }
        let blocks = ["(p,s): Worn(p,s,r)", "(r,q): Worn(p,s,r), Worn(p,t,q)"].map(sheet::block);
        let views: Vec<View> = blocks.into_iter().map(|block| View { rows: rows_of(&block, &log, MOST_ROWS), block }).collect();
        if views.iter().map(|v| v.rows.len()).sum::<usize>() <= MOST_ROWS {
            return page("(r,s): Worn(p,s,r)", "(r,s): Worn(p,s,r), Worn(p,t,q), Pause(t)", views);
        }
    }
}

// --- Pages ----------------------------------------------------------------------------------------------------------

/// What stands in each column of each relation: rower, crew, strap, session, tick, rate, coach, boat, seat.
pub const KINDS: [&[usize]; 11] =
    [&[], &[0, 1], &[2], &[2, 3, 0], &[2, 4], &[2, 4], &[2, 4], &[2, 4, 5], &[6, 1], &[0, 3, 7, 8], &[3]];

/// How many of each kind a page's log has, and the first number of each.
const MOST_OF: [usize; 9] = [6, 2, 4, 3, 4, 3, 2, 2, 4];
const FIRST_OF: [i32; 9] = [1, 20, 30, 40, 50, 120, 60, 70, 80];

fn some_value(dice: &mut Dice, kind: usize) -> i32 {
    FIRST_OF[kind] + dice.below(MOST_OF[kind]) as i32
}

/// Atoms that are joined by columns of the same kind, now and then with a constant, and a head of some of their variables.
fn some_block(dice: &mut Dice, most: usize, relations: &[usize], columns: Option<&[usize]>) -> Option<(Block, Vec<usize>)> {
    let mut names: Vec<usize> = Vec::new();
    let mut atoms = Vec::new();
    for at in 0..1 + dice.below(most) {
        let relation = dice.one(relations);
        let mut joined = at == 0;
        let mut terms = Vec::new();
        for kind in KINDS[relation] {
            let alike: Vec<usize> = (0..names.len()).filter(|n| names[*n] == *kind).collect();
            if dice.below(9) == 0 {
                terms.push(some_value(dice, *kind));
            } else if !alike.is_empty() && dice.below(4) > 0 {
                terms.push(-1 - dice.one(&alike) as i32);
                joined = true;
            } else if names.len() < 12 {
                names.push(*kind);
                terms.push(-(names.len() as i32));
            } else {
                return None;
            }
        }
        if joined || dice.below(12) == 0 {
            atoms.push(Atom { relation, terms });
        }
    }
    let held: Vec<usize> = (0..names.len()).filter(|n| atoms.iter().any(|a: &Atom| a.terms.contains(&(-1 - *n as i32)))).collect();
    let mut head = Vec::new();
    let mut kinds = Vec::new();
    match columns {
        Some(columns) => {
            for kind in columns {
                let alike: Vec<usize> = held.iter().copied().filter(|n| names[*n] == *kind).collect();
                if alike.is_empty() {
                    return None;
                }
                head.push(-1 - dice.one(&alike) as i32);
            }
        }
        None => {
            for n in held {
                if head.len() < 4 && dice.below(2) == 0 {
                    head.push(-1 - n as i32);
                    kinds.push(names[n]);
                }
            }
        }
    }
    (!atoms.is_empty()).then_some((Block { head, atoms }, kinds))
}

/// The rows that facts give a block, ascending, at most so many and one more.
pub fn rows_of(block: &Block, log: &Log, most: usize) -> Rows {
    let value_of = |v: i32| v as Value;
    let mut facts = Facts::new(200);
    for (relation, values) in log {
        let mut terms = [0; 4];
        for c in 0..values.len() {
            terms[c] = values[c] as Value;
        }
        facts.push(*relation, terms);
    }
    let body = Body::new(block, &value_of);
    let mut rows = BTreeSet::new();
    let _ = Join::new(&facts, &body).each(body.all(), &mut |join| {
        rows.insert((0..block.head.len()).map(|c| join.head_value(c) as i32).collect::<Vec<i32>>());
        rows.len() <= most
    });
    rows.into_iter().collect()
}

/// A page: a log that nobody sees, views with the rows that it gives them, a question and a list.
fn some_page(dice: &mut Dice) -> Sheet {
    let relations: Vec<usize> = (1..=10).filter(|_| dice.below(3) > 0).collect();
    let relations = if relations.is_empty() { vec![9] } else { relations };
    let mut log = BTreeSet::new();
    for _ in 0..6 + dice.below(20) {
        let relation = dice.one(&relations);
        log.insert((relation, KINDS[relation].iter().map(|k| some_value(dice, *k)).collect::<Vec<i32>>()));
    }
    // Only logs count that obey the keys and have the rows they owe.
    let mut begun = BTreeSet::new();
    log.retain(|(r, row): &(usize, Vec<i32>)| key_of(*r).map_or(true, |key| begun.insert((*r, row[..key].to_vec()))));
    let owed: Vec<(usize, Vec<i32>)> = log.iter().filter_map(|(r, row)| owed_to(*r).map(|other| (other, row.clone()))).collect();
    let log: Log = log.into_iter().chain(owed).collect::<BTreeSet<_>>().into_iter().collect();
    let (question, kinds) = loop {
        let most = 1 + dice.below(4);
        if let Some(found) = some_block(dice, most, &relations, None) {
            break found;
        }
    };
    // A list is often the question with an atom less or more.
    let mut saved = question.clone();
    if dice.below(2) == 0 {
        for _ in 0..200 {
            if let Some((block, _)) = some_block(dice, 3, &relations, Some(&kinds)) {
                saved = block;
                break;
            }
        }
    } else if dice.below(2) == 0 && saved.atoms.len() > 1 {
        let dropped = saved.atoms.pop().unwrap();
        let held = |t: &i32| *t >= 0 || saved.atoms.iter().any(|a| a.terms.contains(t));
        if !saved.head.iter().all(held) {
            saved.atoms.push(dropped);
        }
    }
    if dice.below(2) == 0 && saved.atoms.len() < 6 {
        let atom = dice.one(&(0..saved.atoms.len()).collect::<Vec<usize>>());
        let mut more = saved.atoms[atom].clone();
        let column = dice.below(COLUMNS[more.relation]);
        more.terms[column] = some_value(dice, KINDS[more.relation][column]);
        saved.atoms.push(more);
    }
    let mut views: Vec<View> = Vec::new();
    let mut left = MOST_ROWS;
    for _ in 0..20 {
        if views.len() == MOST_VIEWS || views.len() > 2 && dice.below(8) == 0 {
            break;
        }
        let Some((block, _)) = some_block(dice, 3, &relations, None) else { continue };
        let mut rows = rows_of(&block, &log, left);
        if rows.len() <= left {
            if dice.below(40) == 0 && !rows.is_empty() {
                rows.remove(dice.below(rows.len()));
            }
            left -= rows.len();
            views.push(View { block, rows });
        }
    }
    Sheet { question, lists: vec![saved], views }
}

pub const PAGES: usize = 200;

/// The same sheet, every fourth with constants of seven digits alone.
pub fn with_serials(sheet: Sheet, at: usize) -> Sheet {
    match at % 8 {
        3 => sheet.raised(1_000_000),
        7 => sheet.raised(MOST_CONSTANT - 999),
        _ => sheet,
    }
}

/// The pages, among them crews whose pairs are listed.
pub fn pages() -> Vec<Sample> {
    let mut dice = Dice::new(2026);
    let crews: [(i32, i32, i32); 10] =
        [(1, 6, 0), (1, 6, 3), (2, 4, 0), (2, 4, 2), (3, 3, 0), (4, 3, 0), (5, 2, 0), (8, 2, 0), (2, 3, 1), (1, 5, 8)];
    let mut samples = Vec::new();
    for at in 0..PAGES {
        let sheet = if at % 10 == 9 {
            let (crew, rowers, more) = crews[at / 10 % 10];
            let question = at / 10 % 3;
            pairs(crew, rowers, more, (at % 50 == 49) as usize, question)
        } else {
            some_page(&mut dice)
        };
        let sheet = with_serials(sheet, at);
        samples.push(Sample::new(if at % 10 == 9 { "pages, pairs" } else { "pages" }, format!("{}", at + 1), sheet));
    }
    samples.extend(natural::strap_pages());
    samples
}

/// The families that are built to be hard.
pub fn hard() -> Vec<Sample> {
    let mut samples = Vec::new();
    let mut add = |family: &'static str, size: String, sheet: Sheet| {
        samples.push(Sample::new(family, size, sheet));
    };
    for n in [8, 14, 20, 32] {
        add("choices, then a contradiction", format!("{n}"), choices_first(n));
    }
    for n in [20, 28] {
        add("choices, then a contradiction", format!("{n}, three each"), choices_wide(n));
    }
    for n in [8, 20, 33] {
        add("a contradiction, then choices", format!("{n}"), choices_after(n));
    }
    for n in [10, 16, 24, 34] {
        add("covered late, by two", format!("{n}"), covered_late(n, false, true));
        add("covered late, by two, first", format!("{n}"), covered_late(n, false, false));
    }
    for n in [16, 30] {
        add("covered late, by three", format!("{n}"), covered_late(n, true, true));
        add("covered late, by three, first", format!("{n}"), covered_late(n, true, false));
    }
    for n in [12, 35] {
        add("chain, forced, wrong end", format!("{n}"), forced_chain(n, false));
        add("chain, forced", format!("{n}"), forced_chain(n, true));
    }
    for n in [8, 12, 16, 20, 30] {
        add("chain, parity", format!("{n}"), parity_chain(n));
    }
    let mut dice = Dice::new(7);
    let graphs: Vec<(String, Graph)> = vec![
        ("K4".into(), complete(4)),
        ("wheel 5".into(), wheel(5)),
        ("wheel 9".into(), wheel(9)),
        ("Petersen".into(), petersen()),
        ("Groetzsch".into(), groetzsch()),
        ("12, 23".into(), random_graph(&mut dice, 12, 23)),
        ("12, 27".into(), random_graph(&mut dice, 12, 27)),
    ];
    for (name, graph) in &graphs {
        let made_up = 2 * graph.len() + 12;
        add("colouring, edges", format!("{name}: {made_up} made up"), coloured_edges(graph, 3));
    }
    for (name, graph) in &graphs {
        let vertices: BTreeSet<i32> = graph.iter().flat_map(|(a, b)| [*a, *b]).collect();
        if vertices.len() + graph.len() + 6 <= MOST_ROWS {
            add("colouring, vertices", name.clone(), coloured_vertices(graph, 3));
        }
    }
    for columns in 1..=3 {
        let family = ["pigeons", "pigeons, holes of pairs", "pigeons, holes of triples"][columns - 1];
        for (p, h) in [(4, 3), (6, 5), (7, 6), (8, 7), (8, 8)] {
            add(family, format!("{p} into {h}"), pigeons(p, h, columns));
        }
    }
    add("triples of one colour", "Fano".into(), triples(7, fano()));
    for (points, count) in [(9, 20), (11, 24), (12, 26), (13, 25)] {
        let rows = random_triples(&mut dice, points, count);
        add("triples of one colour", format!("{points}, {count}"), triples(points as i32, rows));
    }
    for (guesses, values, rows) in [(4, 3, 8), (6, 3, 12), (8, 3, 10), (9, 3, 9), (12, 2, 6)] {
        for at in 1..=2 {
            add("for all, exists", format!("{guesses}, {values}, {rows}, {at}"), for_all_exists(&mut dice, guesses, values, rows));
        }
    }
    for n in [10, 36, 40] {
        add("product, list", format!("{n}"), product_list(n));
    }
    for n in [10, 20] {
        add("product, list of pairs", format!("{n}"), product_pairs(n));
    }
    for n in [10, 36] {
        add("product, list over choices", format!("{n}"), product_open(n));
    }
    add("product, view", "36".into(), product_view());
    for n in [4, 16, 32] {
        add("product, view over choices", format!("{n}"), product_view_open(n));
    }
    for n in [10, 40] {
        add("product, view not given", format!("{n}"), product_view_none(n));
    }
    for n in [5, 10, 20] {
        add("product, question", format!("{n}"), product_question(n));
    }
    for n in [10, 20, 40] {
        add("product, question, wide", format!("{n}"), product_question_wide(n));
    }
    for n in [8, 16, 31] {
        add("product, joined view", format!("{n}"), product_joined(n));
    }
    add("largest case", "126 facts".into(), largest());
    add("largest case", "126 facts, made up".into(), largest_made_up());
    add("largest case", "252 facts".into(), largest_owing());
    add("largest case", "252 facts, made up".into(), largest_owing_made_up());
    add("forced step by step", "452 made up".into(), largest_forced());
    for (crews, rowers, more, dropped) in [(2, 4, 0, 0), (2, 4, 2, 0), (4, 3, 0, 0), (8, 2, 0, 0), (1, 6, 3, 0)] {
        for question in 0..3 {
            add("pairs in one boat", format!("{crews}x{rowers}+{more}-{dropped}, {question}"), pairs(crews, rowers, more, dropped, question));
        }
    }
    for (crews, rowers) in [(3, 3), (4, 2), (5, 2), (6, 2), (7, 2)] {
        add("pairs, a boat too few", format!("{crews}x{rowers}-1"), pairs(crews, rowers, -1, 0, 0));
    }
    for (p, h) in [(9, 8), (10, 9)] {
        for columns in 1..=3 {
            let family = ["pigeons", "pigeons, holes of pairs", "pigeons, holes of triples"][columns - 1];
            samples.push(Sample::new(family, format!("{p} into {h}"), pigeons(p, h, columns)));
        }
    }
    samples.extend(wides(&mut dice));
    samples.extend(known());
    samples
}

/// Numbers from 1, a row each.
fn singles(count: i32) -> Vec<Vec<i32>> {
    (1..=count).map(|n| vec![n]).collect()
}

/// Rowers of so many crews, a list for each, or of one crew more: the lists cover together, and no list alone.
fn crew_lists(crews: i32, rowers: i32, hole: bool) -> Sheet {
    let lists: Vec<String> = (1..=crews).map(|crew| format!("(r): Rower(r,{crew})")).collect();
    let views = vec![view("(r): Rower(r,k)", singles(rowers)), view("(k): Rower(r,k)", singles(crews + hole as i32))];
    page_of("(r): Rower(r,k)", &lists, views)
}

/// The tick of one strap among many, which is one of so many that have a list each, or of one more.
fn tick_lists(ticks: i32, straps: i32, hole: bool) -> Sheet {
    let lists: Vec<String> = (1..=ticks).map(|tick| format!("(): Sig(7,{tick})")).collect();
    let views = vec![view("(s): Sig(s,t)", singles(straps)), view("(t): Sig(s,t)", singles(ticks + hole as i32))];
    page_of("(): Sig(7,t)", &lists, views)
}

/// The families of which each verdict is known beforehand.
fn known() -> Vec<Sample> {
    let mut samples = Vec::new();
    let mut add = |family: &'static str, size: String, verdict: u8, sheet: Sheet| {
        samples.push(Sample { verdict: Some(verdict), excused: family == TOLD_APART, ..Sample::new(family, size, sheet) });
    };
    for (p, h) in [(5, 4), (6, 5), (7, 6), (8, 7), (8, 8)] {
        add(TOLD_APART, format!("{p} into {h}"), if p > h { NO_LOG } else { NOT_COVERED }, pigeons_told_apart(p, h));
    }
    for n in [10, 11, 16, 21, 22, 26, 30] {
        let choices = 6 * n;
        add("many choices, then elsewhere", format!("{choices}"), COVERED, many_then_elsewhere(n));
    }
    for n in [11, 16, 22, 28, 31] {
        for length in [3, 5] {
            for last in [false, true] {
                let size = format!("{}, {length} {}", 6 * n, if last { "last" } else { "first" });
                add("many choices, an odd ring", size.clone(), NO_LOG, many_with_ring(n, length, last, false));
                add("many choices, covered by one", size, COVERED, many_with_ring(n, length, last, true));
            }
        }
    }
    for n in (3..=30).filter(|n| ![8, 12, 16, 20, 30].contains(n)) {
        add("chain, parity", format!("{n}"), NO_LOG, parity_chain(n));
    }
    for n in [6, 9, 14, 21, 28, 33, 34] {
        add("chain, parity, three rates", format!("{n}"), NOT_COVERED, three_rates(n, true));
        add("chain, parity, three rates", format!("{n}, wrong end"), NO_LOG, three_rates(n, false));
    }
    for (rows, rates) in [(3, 4), (6, 4), (11, 4), (16, 4), (22, 4), (10, 3), (20, 3), (30, 3)] {
        add("chain, parity, two links", format!("{}, {rates} rates", 2 * rows), NO_LOG, two_links(rows, rates));
    }
    for rows in [2, 5, 10] {
        add("chain, parity, three on end", format!("{}", 3 * rows), NO_LOG, three_on_end(rows));
    }
    for n in [5, 6, 9, 10, 15, 16, 21, 22, 31, 32] {
        add("chain, parity, ring", format!("{n}"), if n % 2 == 1 || n < 8 { NO_LOG } else { NOT_COVERED }, parity_ring(n));
    }
    for lists in 2..=4 {
        for hole in [false, true] {
            let (size, verdict) = (format!("{lists}{}", if hole { ", one more" } else { "" }), if hole { NOT_COVERED } else { COVERED });
            add("a list for each crew", size.clone(), verdict, crew_lists(lists, 35, hole));
            add("a list for each tick", size, verdict, tick_lists(lists, 35, hole));
        }
    }
    for n in [4, 9, 19] {
        for (way, (name, verdict)) in WALKS.iter().enumerate() {
            add("keys, two walks", format!("{n}, {name}"), *verdict, two_walks(n, way));
        }
    }
    for n in [6, 12, 20] {
        add("keys, walkers", format!("{n}"), COVERED, walkers(n, true));
        add("keys, walkers", format!("{n}, another end"), NOT_COVERED, walkers(n, false));
    }
    for n in 3..=5 {
        add("keys, a square", format!("{n}"), NOT_COVERED, square(n, n));
        add("keys, a square", format!("{n}, a rower too few"), NO_LOG, square(n, n - 1));
    }
    let mut dice = Dice::new(70);
    for (straps, sessions, rowers) in [(2, 3, 5), (3, 3, 5), (3, 3, 6)] {
        for at in 1..=3 {
            add("keys, pairs by strap", format!("{straps}x{sessions}, {rowers}, {at}"), NOT_COVERED, pairs_by_strap(&mut dice, straps, sessions, rowers));
        }
    }
    let mut dice = Dice::new(11);
    for n in 3..=6 {
        let mut order: Vec<i32> = (0..n).collect();
        for fits in [false, true] {
            for i in (1..order.len()).rev() {
                order.swap(i, dice.below(i + 1));
            }
            let size = format!("{n} bits{}", if fits { "" } else { ", other end" });
            add("chain, parity, taken twice", size, if fits { NOT_COVERED } else { NO_LOG }, parity_twice(&order, fits));
        }
    }
    for (m, count) in [(3, 8), (4, 10), (4, 16), (5, 15), (5, 25), (6, 18), (6, 22), (7, 19), (8, 16)] {
        for fits in [true, false] {
            let triples = some_triples(&mut dice, m, count, fits);
            let size = format!("{m}, {count}{}", if fits { "" } else { ", none" });
            add("exact cover, triples", size, if fits { NOT_COVERED } else { NO_LOG }, exact_cover(m, &triples));
        }
    }
    for n in [9, 12, 15, 16, 18, 19] {
        for at in 1..=3 {
            let triples = three_each(&mut dice, n);
            let fits = one_of_three(n as i32, &triples, &mut Vec::new());
            let size = format!("{n}, {at}{}", if fits { "" } else { ", none" });
            add("exact cover, points", size, if fits { NOT_COVERED } else { COVERED }, cover_by_points(n as i32, &triples));
        }
    }
    samples
}

/// Rowers with wide atoms, and edges among them.
fn wides(dice: &mut Dice) -> Vec<Sample> {
    let mut samples = Vec::new();
    for (rowers, edges, numbers) in [(5, 7, 3), (7, 10, 3), (9, 15, 3), (10, 20, 3), (12, 22, 3), (14, 20, 3), (10, 22, 4), (8, 20, 4)] {
        for (alike, (name, _)) in ALIKE.iter().enumerate() {
            let graph = random_graph(dice, rowers, edges);
            samples.push(Sample::new("wide atoms", format!("{rowers}, {edges}, {numbers}, {name}"), wide(&graph, numbers, alike)));
        }
    }
    samples
}

/// The bytes of a sample; it has to be a sheet that is taken.
pub fn bytes(sample: &Sample) -> Vec<u8> {
    let bytes = sheet::write(&sample.sheet);
    assert_eq!(sheet::read(&bytes).as_ref(), Ok(&sample.sheet), "{} {}", sample.family, sample.size);
    bytes
}
