//! Readable setups: an image, a table, a goal and a start that no refusal meets, with yes and no about equally often.

use crate::by_tables::Tables;
use crate::bytes;
use crate::cases::Case;
use crate::formula::{Env, Formula, Mode};
use crate::formulas::{lay_out, Grower, Tree};
use crate::graphs::{self, Draft};
use crate::random::Random;
use crate::services;

/// What a setup may be: bounds that keep the work on one case small for whoever answers it, and the goals to pick from.
pub struct Bounds {
    /// The fewest and the most stages.
    pub stages: (usize, usize),
    pub cost: u64,
    pub goals: &'static [u8],
}

/// Every kind of goal, the modalities more often than the rest.
pub const ALL: &[u8] =
    &[0, 1, 2, 2, 3, 3, 4, 4, 5, 5, 6, 6, 6, 7, 7, 7, 8, 8, 8, 8, 9, 9, 9, 9, 10, 10, 10, 10, 11, 11, 11, 11];
/// Every kind still, but goals with a proof worth looking at nearly always.
pub const WALKS: &[u8] = &[
    0, 1, 2, 3, 4, 4, 4, 5, 5, 5, 6, 6, 6, 7, 7, 7, 8, 8, 8, 8, 8, 9, 9, 9, 9, 9, 10, 10, 10, 10, 10, 11, 11, 11, 11,
    11,
];

/// Roughly the work of an evaluator that remembers nothing: each modality asks for its operands at every stage and then
/// goes round the graph.
pub fn cost(formula: &Formula, n: u64) -> u64 {
    let operands: u64 = formula.operands().iter().map(|operand| cost(operand, n)).sum();
    match formula {
        Formula::Constant(_) | Formula::Atom(_) => 1,
        Formula::And(_, _) | Formula::Or(_, _) => operands + 1,
        Formula::Modal(_) => n * operands + n * n,
    }
}

/// The work for the operands alone: what a writer may have to do again at each step.
pub fn inner_cost(formula: &Formula, n: u64) -> u64 {
    match formula {
        Formula::Modal(_) => formula.operands().iter().map(|operand| cost(operand, n)).max().unwrap_or(1),
        _ => formula.operands().iter().map(|operand| inner_cost(operand, n)).max().unwrap_or(1),
    }
}

/// A random readable setup with a goal of a random kind. The service is not yet set.
pub fn readable(rng: &mut Random, bounds: &Bounds) -> Case {
    let kind = rng.pick(bounds.goals);
    let mut nesting = rng.pick(&[1, 1, 1, 1, 2, 2, 2, 3, 3, 4]);
    let (least, most) = bounds.stages;
    let deep = if bounds.cost > 1_000_000 { 20 } else { 12 };
    let n = graphs::stages(rng, least, if nesting > 2 { most.min(deep) } else { most });
    let p = if kind == 2 || kind == 3 { graphs::predicates(rng).max(1) } else { graphs::predicates(rng) };
    let mut draft = graphs::draft(rng, n, p);
    let wanted = if kind < 2 { kind == 0 } else { rng.chance(50) };
    let easy = kind < 4 || rng.chance(20);
    let mut tries = 0;
    loop {
        tries += 1;
        if tries % 3 == 0 {
            draft = graphs::draft(rng, n, p);
        }
        let mut case = with_goal(rng, &draft, kind, nesting);
        let (graph, formula) = match services::read(&case.image, &case.table, case.goal, case.start) {
            Ok(read) => read,
            Err(number) => unreachable!("a readable setup was refused with {number}"),
        };
        if cost(&formula, n as u64) > bounds.cost && tries < 12 {
            nesting = (nesting - 1).max(1);
            continue;
        }
        let mut tables = Tables::new(&graph);
        let mut starts = Vec::new();
        for start in 0..n {
            let env = [start, 0, 0, 0];
            if tables.holds(&formula, &env) == wanted && (easy || tries > 12 || !at_once(&mut tables, &formula, &env)) {
                starts.push(start as u64);
            }
        }
        if !starts.is_empty() {
            case.start = rng.pick(&starts);
        }
        if !starts.is_empty() || tries > 18 {
            return case;
        }
    }
}

/// Of several readable setups the one with the longest certificate, those past 2,500 bytes left aside.
pub fn with_long_proof(rng: &mut Random, bounds: &Bounds) -> Case {
    let mut longest = (0, readable(rng, bounds));
    for _ in 0..3 {
        let case = Case { room: 2_500, ..readable(rng, bounds) };
        let length = services::write(&case).map_or(0, |(_, certificate)| certificate.len());
        if length > longest.0 {
            longest = (length, case);
        }
    }
    Case { room: 0, ..longest.1 }
}

/// Whether the first stage alone settles the formula, so that no path has to be followed.
fn at_once(tables: &mut Tables, formula: &Formula, env: &Env) -> bool {
    let modal = match formula {
        Formula::Constant(_) | Formula::Atom(_) => return true,
        Formula::And(a, b) | Formula::Or(a, b) => return at_once(tables, a, env) && at_once(tables, b, env),
        Formula::Modal(modal) => modal,
    };
    let stage = modal.at.value(env);
    let sheet = tables.sheet(modal, env);
    match modal.mode {
        Mode::Ax | Mode::Ex => false,
        Mode::Af => sheet.a[stage],
        Mode::Eg => !sheet.a[stage],
        Mode::Ar => sheet.a[stage] || !sheet.b[stage],
        Mode::Eu => !sheet.a[stage] || sheet.b[stage],
    }
}

/// A table around a goal of this kind, over this graph.
pub fn with_goal(rng: &mut Random, draft: &Draft, kind: u8, nesting: usize) -> Case {
    let arities = draft.arities();
    let n = draft.next.len();
    let mut trees = Vec::new();
    while trees.is_empty() {
        let spare = rng.between(0, 14);
        trees.push(Grower { rng, n, arities: &arities, spare }.of_kind(kind, nesting, &[0]));
        trees.retain(|tree| tree.size() <= 64);
    }
    let entries = match rng.below(100) {
        0..=39 => 0,
        40..=92 => rng.between(1, 24),
        _ => 64,
    };
    while trees.iter().map(Tree::size).sum::<usize>() < entries {
        // Trees beside the goal may have any variable free.
        let nesting = rng.pick(&[0, 0, 1, 2, 3, 4]);
        let scope = [rng.below(4) as u8, rng.below(4) as u8];
        trees.push(Grower { rng, n, arities: &arities, spare: 3 }.tree(nesting, &scope));
        if trees.iter().map(Tree::size).sum::<usize>() > 64 {
            trees.pop();
            trees.push(Tree::constant(true));
        }
    }
    let (records, tops) = lay_out(rng, &trees);
    Case {
        goal: tops[0] as u64,
        start: rng.below(n) as u64,
        image: draft.bytes(),
        table: bytes::table(&records),
        ..Case::default()
    }
}

/// The dearest setup there is: 64 stages and a chain of four modalities, each speaking of the ones outside it.
pub fn dearest(rng: &mut Random) -> Case {
    let draft = graphs::draft(rng, 64, 4);
    loop {
        let kind = rng.between(6, 11) as u8;
        let case = with_goal(rng, &draft, kind, 4);
        if let Ok((_, formula)) = services::read(&case.image, &case.table, case.goal, case.start) {
            if cost(&formula, 64) < 1_300_000_000 {
                return case;
            }
        }
    }
}

/// A setup whose certificate has exactly `length` bytes, from 9 up to 45,000 or so; side 0 or side 1.
///
/// Stage k leads to the stages 0 to k, so that AX over `true` at stage k takes k + 2 bytes, and so on inwards.
pub fn of_length(rng: &mut Random, length: usize, side: usize) -> Case {
    let yes = side == 0;
    let (all, and) = if yes { (6, 4) } else { (7, 5) };
    let ax = |t: usize, a: Tree| Tree::over(all, 1, t as u8, a);
    let mut pieces = Vec::new();
    let mut left = length - 8;
    if left > 29_190 {
        // 1 + 64 * (1 + 7 * (1 + 64)) bytes and one for the `and`.
        pieces.push(ax(63, ax(6, ax(63, Tree::constant(yes)))));
        left -= 29_186;
    }
    while left > 65 {
        let degree = ((left - 4) / 65).min(64);
        if degree == 0 {
            pieces.push(ax(1, Tree::constant(yes)));
            left -= 4;
        } else {
            pieces.push(ax(degree - 1, ax(63, Tree::constant(yes))));
            left -= 2 + 65 * degree;
        }
    }
    let last = if left == 1 { Tree::constant(yes) } else { ax(left - 2, Tree::constant(yes)) };
    let tree = pieces.into_iter().fold(last, |tree, piece| Tree::both(and, piece, tree));
    let (records, tops) = lay_out(rng, &[tree]);
    let next: Vec<u64> = (0..64).map(|stage| u64::MAX >> (63 - stage)).collect();
    let start = rng.below(64) as u64;
    Case {
        goal: tops[0] as u64,
        start,
        image: bytes::image(&next, &[]),
        table: bytes::table(&records),
        ..Case::default()
    }
}
