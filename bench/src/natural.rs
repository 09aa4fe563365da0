//! Pages as clubs have them, with many views: a log of rowers, straps, sessions and boats that nobody sees, lists that it gives, and
//! a question with its saved list.

use crate::families::{rows_of, with_serials, Dice, Log, Sample, KINDS};
use crate::sheet::{block, Atom, Block, Sheet, View, MOST_ROWS, MOST_VIEWS};
use std::collections::{BTreeMap, BTreeSet};

/// So many of these pages are judged.
pub const PAGES: usize = 6_000;

pub const FAMILY: &str = "pages, natural";

/// The letters behind $ for a number of the log of each kind: rower, crew, strap, session, tick, rate, coach, boat, seat.
const LETTERS: [&str; 9] = ["$r", "$k", "$p", "$s", "$t", "$v", "$o", "$b", "$x"];
const FIRST: [i32; 9] = [101, 21, 31, 41, 1, 120, 61, 51, 1];

/// Lists of who sat where.
const SEATS: [&str; 24] = [
    "(r,q): Seat(r,s,b,x), Seat(q,s,b,y)",
    "(r,q): Seat(r,s,b,x), Seat(q,s,c,y)",
    "(r,q): Seat(r,s,b,x), Seat(q,t,b,y)",
    "(r,q): Seat(r,s,b,x), Seat(q,t,b,x)",
    "(r,q): Seat(r,s,b,x), Seat(q,s,c,x)",
    "(r,q): Seat(r,$s,b,x), Seat(q,$s,b,y)",
    "(r,q): Seat(r,s,$b,x), Seat(q,s,$b,y)",
    "(s,b): Seat(r,s,b,x)",
    "(b,x): Seat(r,s,b,x)",
    "(s,x): Seat(r,s,b,x)",
    "(r,s): Seat(r,s,b,x)",
    "(r,b): Seat(r,s,b,x)",
    "(r,x): Seat(r,s,b,x)",
    "(r): Seat(r,s,b,x)",
    "(s): Seat(r,s,b,x)",
    "(b): Seat(r,s,b,x)",
    "(s,b,x): Seat(r,s,b,x)",
    "(r,s,b): Seat(r,s,b,x)",
    "(r): Seat(r,$s,b,x)",
    "(r): Seat(r,s,$b,x)",
    "(r,b): Seat(r,$s,b,x)",
    "(b,c): Seat(r,s,b,x), Seat(r,t,c,y)",
    "(s,t): Seat(r,s,b,x), Seat(r,t,b,y)",
    "(r,q,u): Seat(r,s,b,x), Seat(q,s,b,y), Seat(u,s,b,z)",
];

/// Lists of who wore which strap, by themselves and with seats.
const STRAPS: [&str; 15] = [
    "(p,r): Worn(p,s,r)",
    "(p,s): Worn(p,s,r)",
    "(s,r): Worn(p,s,r)",
    "(p): Worn(p,s,r)",
    "(p,s,r): Worn(p,s,r)",
    "(r,q): Worn(p,s,r), Worn(p,t,q)",
    "(r,q): Worn(p,s,r), Worn(o,s,q)",
    "(p,o): Worn(p,s,r), Worn(o,s,q)",
    "(r): Worn($p,s,r)",
    "(r): Worn(p,$s,r)",
    "(r,b): Worn(p,s,r), Seat(r,s,b,x)",
    "(p,b): Worn(p,s,r), Seat(r,s,b,x)",
    "(p,x): Worn(p,s,r), Seat(r,s,b,x)",
    "(p,o): Worn(p,s,r), Seat(r,s,b,x), Worn(o,s,r)",
    "(s): Worn(p,s,r), Pause(s)",
];

/// Lists of rates at ticks, of signals and of beats.
const RATES: [&str; 21] = [
    "(p,t): Pulse(p,t,v)",
    "(p,v): Pulse(p,t,v)",
    "(t,v): Pulse(p,t,v)",
    "(v): Pulse(p,t,v)",
    "(p,t,v): Pulse(p,t,v)",
    "(r,v): Worn(p,s,r), Pulse(p,t,v)",
    "(s,v): Worn(p,s,r), Pulse(p,t,v)",
    "(r): Worn(p,s,r), Pulse(p,t,$v)",
    "(b,v): Seat(r,s,b,x), Worn(p,s,r), Pulse(p,t,v)",
    "(x,v): Seat(r,s,b,x), Worn(p,s,r), Pulse(p,t,v)",
    "(v,w): Pulse(p,t,v), Pulse(o,t,w)",
    "(p,o): Pulse(p,t,v), Pulse(o,t,v)",
    "(t,u): Pulse(p,t,v), Pulse(p,u,v)",
    "(p,t): Sig(p,t)",
    "(p): Sig(p,t), Beat(p,t)",
    "(p,t): Beat(p,t)",
    "(t): Beat(p,t), Pulse(p,t,v)",
    "(r,t): Worn(p,s,r), Beat(p,t)",
    "(p): Sig(p,t), Noise(p,t)",
    "(): Beat(p,t), Noise(p,t)",
    "(p,v): Beat(p,t), Pulse(p,t,v)",
];

/// Lists of crews, coaches and pauses.
const CREWS: [&str; 13] = [
    "(r,k): Rower(r,k)",
    "(k): Rower(r,k)",
    "(r,q): Rower(r,k), Rower(q,k)",
    "(k,b): Rower(r,k), Seat(r,s,b,x)",
    "(k,s): Rower(r,k), Seat(r,s,b,x)",
    "(o,k): Coach(o,k)",
    "(o,r): Coach(o,k), Rower(r,k)",
    "(o,b): Coach(o,k), Rower(r,k), Seat(r,s,b,x)",
    "(o,s): Coach(o,k), Rower(r,k), Seat(r,s,b,x)",
    "(s): Pause(s)",
    "(r): Seat(r,s,b,x), Pause(s)",
    "(p): Strap(p)",
    "(p): Strap(p), Worn(p,s,r)",
];

/// What is asked for beyond the lists, and what lists save beyond the question.
const ASKED: [&str; 42] = [
    "(r): Seat(r,s,b,x)",
    "(r): Seat(r,$s,b,x)",
    "(r): Seat(r,s,$b,x)",
    "(r): Seat(r,s,b,$x)",
    "(r): Seat(r,s,b,x), Seat(r,t,c,x)",
    "(r): Seat(r,s,b,x), Pause(s)",
    "(r): Seat(r,s,b,x), Rower(r,k), Coach(o,k)",
    "(r): Worn(p,s,r)",
    "(r): Worn(p,s,r), Seat(r,s,b,x)",
    "(r): Worn(p,s,r), Pulse(p,t,$v)",
    "(r): Worn(p,s,r), Pulse(p,t,$v), Seat(r,s,b,x), Rower(r,k)",
    "(r): Worn(p,s,r), Pulse(p,t,$v), Seat(r,s,b,x), Rower(r,k), Coach(o,k)",
    "(r): Rower(r,k)",
    "(r): Rower(r,$k)",
    "(r,q): Seat(r,s,b,x), Seat(q,s,b,y)",
    "(r,q): Seat(r,s,b,x), Seat(q,s,c,y)",
    "(r,q): Seat(r,s,b,x), Seat(q,t,b,x)",
    "(r,q): Seat(r,s,b,x), Seat(q,s,b,y), Rower(r,k), Rower(q,k)",
    "(r,q): Seat(r,s,b,x), Seat(q,s,b,y), Seat(r,t,c,z), Seat(q,t,c,w)",
    "(r,q): Worn(p,s,r), Worn(p,t,q)",
    "(r,q): Worn(p,s,r), Worn(o,s,q)",
    "(r,q): Worn(p,s,r), Pulse(p,t,v), Worn(o,s,q), Pulse(o,t,v)",
    "(r,q,u): Seat(r,s,b,x), Seat(q,s,b,y), Seat(u,s,b,z)",
    "(r,q,u): Seat(r,s,b,x), Seat(q,s,b,y), Seat(q,t,c,z), Seat(u,t,c,w)",
    "(r,s): Seat(r,s,b,x)",
    "(r,s): Worn(p,s,r)",
    "(r,s): Seat(r,s,b,x), Worn(p,s,r), Beat(p,t)",
    "(r,b): Seat(r,s,b,x)",
    "(r,b): Seat(r,s,b,x), Worn(p,s,r)",
    "(s,b): Seat(r,s,b,x)",
    "(s,b): Seat(r,s,b,x), Seat(q,s,b,y), Rower(r,$k), Rower(q,$k)",
    "(b): Seat(r,s,b,x)",
    "(b): Seat(r,s,b,x), Worn(p,s,r), Pulse(p,t,$v)",
    "(b): Seat($r,s,b,x)",
    "(p): Worn(p,s,r)",
    "(p): Pulse(p,t,$v)",
    "(p,t): Pulse(p,t,v)",
    "(p,t): Beat(p,t)",
    "(p,t): Sig(p,t), Beat(p,t)",
    "(): Pause(s), Worn($p,s,r)",
    "(): Seat($r,s,b,x), Seat($r,t,b,y), Pause(s)",
    "(): Worn(p,s,$r), Pulse(p,t,$v)",
];

/// A club's log, and the numbers of each kind that it has.
struct Club {
    numbers: [Vec<i32>; 9],
    log: Log,
}

fn some_club(dice: &mut Dice) -> Club {
    let counts = [
        2 + dice.below(5),
        1 + dice.below(2),
        1 + dice.below(4),
        1 + dice.below(4),
        1 + dice.below(4),
        2 + dice.below(2),
        1 + dice.below(2),
        1 + dice.below(3),
        8,
    ];
    let numbers: [Vec<i32>; 9] = std::array::from_fn(|kind| (0..counts[kind] as i32).map(|i| FIRST[kind] + i).collect());
    let mut log: BTreeSet<(usize, Vec<i32>)> = BTreeSet::new();
    let [rowers, crews, straps, sessions, ticks, rates, coaches, boats, _] = &numbers;
    for session in sessions {
        let mut seats: BTreeMap<i32, Vec<i32>> = boats.iter().map(|b| (*b, numbers[8].clone())).collect();
        let mut free = straps.clone();
        for rower in rowers {
            if dice.below(3) == 0 {
                continue;
            }
            let boat = dice.one(boats);
            let left = seats.get_mut(&boat).unwrap();
            let seat = left.remove(dice.below(left.len()));
            log.insert((9, vec![*rower, *session, boat, seat]));
            if !free.is_empty() && dice.below(4) > 0 {
                let strap = free.remove(dice.below(free.len()));
                log.insert((3, vec![strap, *session, *rower]));
            }
        }
        if dice.below(5) == 0 {
            log.insert((10, vec![*session]));
        }
    }
    for strap in straps {
        log.insert((2, vec![*strap]));
        for tick in ticks {
            if dice.below(2) == 0 {
                continue;
            }
            log.insert((4, vec![*strap, *tick]));
            match dice.below(4) {
                0 => log.insert((6, vec![*strap, *tick])),
                1 => log.insert((5, vec![*strap, *tick])),
                _ => log.insert((7, vec![*strap, *tick, dice.one(rates)])),
            };
        }
    }
    for rower in rowers {
        log.insert((1, vec![*rower, dice.one(crews)]));
    }
    for coach in coaches {
        log.insert((8, vec![*coach, dice.one(crews)]));
    }
    // A log of more facts than rows are counted from is drawn again.
    if log.len() > 128 {
        return some_club(dice);
    }
    Club { numbers, log: log.into_iter().collect() }
}

/// A block of its text, with numbers of the log for what stands behind $.
fn filled(dice: &mut Dice, club: &Club, text: &str) -> Block {
    let mut text = text.to_string();
    for (kind, letter) in LETTERS.iter().enumerate() {
        if text.contains(letter) {
            text = text.replace(letter, &dice.one(&club.numbers[kind]).to_string());
        }
    }
    block(&text)
}

/// The kind of each variable of a block's head.
fn kinds(block: &Block) -> Vec<usize> {
    let kind_of = |term: &i32| {
        let place = block.atoms.iter().find_map(|a| a.terms.iter().position(|t| t == term).map(|c| KINDS[a.relation][c]));
        place.expect("a head's variable in an atom")
    };
    block.head.iter().map(kind_of).collect()
}

/// The list: another block with such a head, or the question with an atom less or more, or with a number for one of its variables.
fn some_list(dice: &mut Dice, club: &Club, question: &Block) -> Block {
    let wanted = kinds(question);
    let mut saved = question.clone();
    match dice.below(8) {
        0..=2 => {
            let alike: Vec<Block> = ASKED.iter().map(|text| filled(dice, club, text)).filter(|b| kinds(b) == wanted).collect();
            if !alike.is_empty() {
                saved = alike[dice.below(alike.len())].clone();
            }
        }
        3 => {
            let dropped = dice.below(saved.atoms.len());
            saved.atoms.remove(dropped);
            if saved.atoms.is_empty() || saved.head.iter().any(|t| !saved.atoms.iter().any(|a| a.terms.contains(t))) {
                saved = question.clone();
            }
        }
        4 | 5 => {
            let mut more: Atom = saved.atoms[dice.below(saved.atoms.len())].clone();
            let column = dice.below(more.terms.len());
            more.terms[column] = dice.one(&club.numbers[KINDS[more.relation][column]]);
            if saved.atoms.len() < 6 {
                saved.atoms.push(more);
            }
        }
        6 => {
            let inner: Vec<(i32, usize)> = saved
                .atoms
                .iter()
                .flat_map(|a| a.terms.iter().enumerate().map(|(c, t)| (*t, KINDS[a.relation][c])))
                .filter(|(t, _)| *t < 0 && !saved.head.contains(t))
                .collect();
            if !inner.is_empty() {
                let (name, kind) = dice.one(&inner);
                let number = dice.one(&club.numbers[kind]);
                saved.atoms.iter_mut().flat_map(|a| &mut a.terms).filter(|t| **t == name).for_each(|t| *t = number);
            }
        }
        _ => {}
    }
    saved
}

fn some_page(dice: &mut Dice) -> Sheet {
    let club = some_club(dice);
    let texts: Vec<&str> = match dice.below(6) {
        0 => SEATS.to_vec(),
        1 | 2 => [&SEATS[..], &STRAPS].concat(),
        3 => [&STRAPS[..], &RATES].concat(),
        4 => [&SEATS[..], &CREWS].concat(),
        _ => [&SEATS[..], &STRAPS, &RATES, &CREWS].concat(),
    };
    let wanted = [3, 3, 4, 4, 5, 5, 6, 6, 7, 8][dice.below(10)];
    let (mut views, mut left): (Vec<View>, usize) = (Vec::new(), MOST_ROWS);
    for _ in 0..40 {
        let text = texts[dice.below(texts.len())];
        let block = filled(dice, &club, text);
        if views.len() == wanted || views.iter().any(|v| v.block == block) {
            continue;
        }
        let rows = rows_of(&block, &club.log, left);
        if rows.len() <= left && (!rows.is_empty() || dice.below(4) == 0) {
            left -= rows.len();
            views.push(View { block, rows });
        }
    }
    assert!(views.len() <= MOST_VIEWS);
    let question = if dice.below(4) == 0 && !views.is_empty() {
        views[dice.below(views.len())].block.clone()
    } else {
        let text = dice.one(&ASKED);
        filled(dice, &club, text)
    };
    let saved = some_list(dice, &club, &question);
    // Now and then a row was forgotten, or mistyped, or belongs to another day.
    let given: Vec<usize> = (0..views.len()).filter(|v| !views[*v].rows.is_empty() && !views[*v].block.head.is_empty()).collect();
    if dice.below(8) == 0 && !given.is_empty() {
        let view = &mut views[dice.one(&given)];
        let mut row = view.rows.remove(dice.below(view.rows.len()));
        let column = dice.below(row.len());
        if dice.below(2) == 0 {
            row[column] = dice.one(&club.numbers[kinds(&view.block)[column]]);
            view.rows.push(row);
            view.rows.sort();
            view.rows.dedup();
        }
    }
    Sheet { question, lists: vec![saved], views }
}

/// So many pages about straps and rates are judged, each of eight views and 32 to 40 rows, every second one of 40.
const STRAP_PAGES: usize = 200;

fn strap_page(dice: &mut Dice, most_left: usize) -> Sheet {
    let texts = [&STRAPS[..], &RATES].concat();
    let asked: Vec<&str> = ASKED.into_iter().filter(|text| text.contains("Worn") || text.contains("Pulse")).collect();
    loop {
        let club = some_club(dice);
        let (mut views, mut left): (Vec<View>, usize) = (Vec::new(), MOST_ROWS);
        for _ in 0..60 {
            let text = texts[dice.below(texts.len())];
            let block = filled(dice, &club, text);
            if views.len() == MOST_VIEWS || views.iter().any(|v| v.block == block) {
                continue;
            }
            let rows = rows_of(&block, &club.log, left);
            if rows.len() <= left && !rows.is_empty() {
                left -= rows.len();
                views.push(View { block, rows });
            }
        }
        if views.len() == MOST_VIEWS && left <= most_left {
            let text = dice.one(&asked);
            let question = filled(dice, &club, text);
            let saved = some_list(dice, &club, &question);
            return Sheet { question, lists: vec![saved], views };
        }
    }
}

/// Pages about who wore which strap, and rates at ticks.
pub fn strap_pages() -> Vec<Sample> {
    let mut dice = Dice::new(7_003);
    (1..=STRAP_PAGES).map(|at| Sample::new("pages, straps", at.to_string(), with_serials(strap_page(&mut dice, if at % 2 == 0 { 0 } else { 8 }), at))).collect()
}

/// The natural pages.
pub fn pages() -> Vec<Sample> {
    let mut dice = Dice::new(1_869);
    (1..=PAGES).map(|at| Sample::new(FAMILY, at.to_string(), with_serials(some_page(&mut dice), at))).collect()
}
