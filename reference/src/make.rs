//! Makes the cases of each kind: first those whose answers are known, then random ones, about three readable setups to
//! two damaged ones where refusals are what the kind is about.

use crate::cases::{self, Case};
use crate::certificates;
use crate::damage;
use crate::frame;
use crate::graphs;
use crate::known::{self, Known};
use crate::random::Random;
use crate::services;
use crate::setups::{self, Bounds};

#[derive(Clone, Copy, PartialEq, Eq, Debug)]
pub enum Kind {
    Verdict,
    Check,
    Write,
    Dead,
    Program,
    Read,
}

impl Kind {
    pub fn services(self) -> &'static [u8] {
        match self {
            Kind::Verdict => &[cases::VERDICT],
            Kind::Check => &[cases::CHECK],
            Kind::Write => &[cases::WRITE],
            Kind::Dead => &[cases::DEAD],
            Kind::Program => &[cases::PROGRAM],
            Kind::Read => &[cases::READ_IMAGE, cases::READ_TABLE],
        }
    }
}

pub const KINDS: [(&str, Kind); 6] = [
    ("verdict", Kind::Verdict),
    ("check", Kind::Check),
    ("write", Kind::Write),
    ("dead", Kind::Dead),
    ("program", Kind::Program),
    ("read", Kind::Read),
];

/// Work that one case may cost, as counted by `setups::cost`.
const USUAL: u64 = 600_000;
const SELDOM: u64 = 5_000_000;
/// Work that one certificate may cost: its bytes times the work for the operands.
const WRITING: u64 = 20_000_000;
/// The largest buffer that is lent.
pub const MOST_ROOM: u64 = 40_000;

/// Case number `index` of a seed is the same however many cases are made.
pub fn make(kind: Kind, seed: u64, count: u64) -> Vec<Case> {
    let mut list: Vec<Case> = known_cases(kind).into_iter().map(|known| known.case).collect();
    list.truncate(count as usize);
    for index in list.len() as u64..count {
        let rng = &mut Random::new(seed, kind as u64, index);
        list.push(match kind {
            Kind::Verdict => verdict(rng, index),
            Kind::Check => check(rng),
            Kind::Write => write(rng),
            Kind::Dead => dead(rng),
            Kind::Program => program(rng),
            Kind::Read => read(rng),
        });
    }
    list
}

fn known_cases(kind: Kind) -> Vec<Known> {
    match kind {
        Kind::Verdict => known::verdicts(),
        Kind::Check => known::checks(),
        Kind::Write => known::writings(),
        Kind::Dead => known::reports(),
        Kind::Program => known::lines(),
        // The verdict's cases have the damaged images and tables.
        Kind::Read => {
            let mut list = known::verdicts();
            for (index, known) in list.iter_mut().enumerate() {
                known.case.service = if index % 3 == 0 { cases::READ_IMAGE } else { cases::READ_TABLE };
            }
            list
        }
    }
}

/// One damage, sometimes two, aimed at refusals from `first` to `last`.
fn spoiled(rng: &mut Random, case: &mut Case, first: usize, last: usize) {
    if rng.chance(8) {
        damage::any_byte(rng, case);
        return;
    }
    let rounds = if rng.chance(25) { 2 } else { 1 };
    for _ in 0..rounds {
        let aim = rng.between(first, last) as u64;
        damage::spoil(rng, case, aim);
    }
}

fn verdict(rng: &mut Random, index: u64) -> Case {
    if index % 7001 == 1234 {
        return Case { service: cases::VERDICT, ..setups::dearest(rng) };
    }
    let cost = if rng.chance(1) { SELDOM } else { USUAL };
    let mut case = setups::readable(rng, &Bounds { stages: (1, 64), cost, goals: setups::ALL });
    if rng.chance(40) {
        spoiled(rng, &mut case, 1, 13);
    }
    Case { service: cases::VERDICT, ..case }
}

fn check(rng: &mut Random) -> Case {
    let stages = rng.pick(&[(1, 4), (1, 8), (4, 8), (5, 12), (5, 12), (1, 64)]);
    let mut case = provable(rng, stages);
    case.certificate = certificates::some(rng, &case);
    if rng.chance(4) {
        spoiled(rng, &mut case, 1, 13);
    }
    Case { service: cases::CHECK, ..case }
}

/// A readable setup to prove, half of the time one with a proof that is long for its size.
fn provable(rng: &mut Random, stages: (usize, usize)) -> Case {
    let bounds = Bounds { stages, cost: 100_000, goals: setups::WALKS };
    if rng.chance(50) {
        setups::with_long_proof(rng, &bounds)
    } else {
        setups::readable(rng, &bounds)
    }
}

fn write(rng: &mut Random) -> Case {
    let (mut case, most) = writable(rng, MOST_ROOM);
    case.room = most;
    let length = services::write(&case).ok().map(|(_, certificate)| certificate.len() as u64);
    case.room = match (length, rng.below(10)) {
        (Some(length), 0 | 1) => length - 1,
        (Some(length), 2 | 3) => length,
        (Some(length), 4) => length + 1,
        (Some(length), 5) => rng.below(length as usize) as u64,
        (Some(length), 6) => length + rng.below(300) as u64,
        (_, 7) => rng.pick(&[0, 1, 7, 8, 9, 16]),
        (Some(length), 8) => (2 * length).max(2_000),
        _ => rng.below(most as usize + 1) as u64,
    };
    case.room = case.room.min(most);
    if rng.chance(8) {
        spoiled(rng, &mut case, 1, 13);
    }
    Case { service: cases::WRITE, ..case }
}

/// A setup to write a certificate for, mostly a random one, now and then one of a length near the limit; and the room
/// up to which writing it stays cheap.
fn writable(rng: &mut Random, limit: u64) -> (Case, u64) {
    let stages = match rng.below(200) {
        0 => {
            let (image, table) = known::long_setup();
            return (Case { goal: 7, image, table, ..Case::default() }, limit);
        }
        1 => {
            let (length, side) = (limit as usize - 4 + rng.below(8), rng.below(2));
            return (setups::of_length(rng, length, side), limit);
        }
        2..=5 => {
            let (length, side) = (rng.between(9, 5_000), rng.below(2));
            return (setups::of_length(rng, length, side), limit);
        }
        6..=15 => (1, 64),
        _ => rng.pick(&[(1, 4), (1, 8), (4, 8), (5, 12), (5, 12)]),
    };
    let case = provable(rng, stages);
    let most = match services::read(&case.image, &case.table, case.goal, case.start) {
        Ok((graph, formula)) => WRITING / setups::inner_cost(&formula, graph.n as u64),
        Err(_) => limit,
    };
    (case, most.min(limit))
}

fn dead(rng: &mut Random) -> Case {
    let n = graphs::stages(rng, 1, 64);
    let p = graphs::predicates(rng);
    let mut draft = graphs::draft(rng, n, p);
    if !draft.predicates.is_empty() && rng.chance(75) {
        // Few stages fire, so that some stages miss them.
        let percent = rng.pick(&[0, 3, 5, 10, 20, 50, 100]);
        draft.predicates[0] = (1, vec![graphs::some_of(rng, n, percent)]);
    }
    let mut case = Case { service: cases::DEAD, image: draft.bytes(), ..Case::default() };
    if rng.chance(40) {
        spoiled(rng, &mut case, 1, 5);
    }
    case
}

fn program(rng: &mut Random) -> Case {
    let mut case = loop {
        let (case, most) = writable(rng, frame::PROGRAM_ROOM);
        if most == frame::PROGRAM_ROOM {
            break case;
        }
    };
    if rng.chance(30) {
        spoiled(rng, &mut case, 1, 13);
    }
    let mut input = frame::join(&case.image, &case.table, case.goal as u8, case.start as u8);
    if rng.chance(25) {
        spoil_frame(rng, &mut input, &case);
    }
    Case { service: cases::PROGRAM, image: input, ..Case::default() }
}

fn spoil_frame(rng: &mut Random, input: &mut Vec<u8>, case: &Case) {
    match rng.below(8) {
        0 => input.truncate(rng.below(input.len())),
        1 => input.truncate(rng.below(8)),
        2 => input.truncate(input.len() - 1),
        3 => input.extend(vec![0; rng.pick(&[1, 2, 3, 100])]),
        4 | 5 => {
            // One of the two lengths says another number.
            let second = 2 + case.image.len();
            let at = rng.pick(&[0, 1, second, second + 1]);
            input[at] = damage::other_byte(rng, input[at]);
        }
        _ => {
            // Of shape, but of a size near the limit or past it: the image is filled up with zeros.
            let total = rng.pick(&[16_383, 16_384, 16_384, 16_385, 16_385, 16_386, 20_000, 65_000]);
            let mut image = case.image.clone();
            image.resize(total - 6 - case.table.len(), 0);
            *input = frame::join(&image, &case.table, case.goal as u8, case.start as u8);
        }
    }
}

fn read(rng: &mut Random) -> Case {
    let mut case = setups::readable(rng, &Bounds { stages: (1, 64), cost: USUAL, goals: setups::ALL });
    let service = if rng.chance(40) { cases::READ_IMAGE } else { cases::READ_TABLE };
    if rng.chance(75) {
        spoiled(rng, &mut case, 1, if service == cases::READ_IMAGE { 5 } else { 10 });
    }
    Case { service, goal: 0, start: 0, ..case }
}
