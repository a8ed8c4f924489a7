//! Certificates to be checked: ours, random ones, ones with a slip, and all of them changed in many ways.

use crate::by_tables::Tables;
use crate::bytes::header;
use crate::cases::Case;
use crate::damage::{front, other_byte};
use crate::formula::Formula;
use crate::image::Graph;
use crate::prover::{self, Slip, SLIPS};
use crate::random::Random;
use crate::rules::{self, Fault, Step};
use crate::services;
use crate::writer;

/// A certificate for a readable setup, right or wrong.
pub fn some(rng: &mut Random, case: &Case) -> Vec<u8> {
    let (graph, formula) = match services::read(&case.image, &case.table, case.goal, case.start) {
        Ok(read) => read,
        Err(_) => return Vec::new(),
    };
    let env = [case.start as usize, 0, 0, 0];
    let side = u8::from(!Tables::new(&graph).holds(&formula, &env));
    let proved = if side == 0 { formula.clone() } else { formula.dual() };
    let choice = rng.below(100);
    let slip = if choice < 20 { rng.pick(&SLIPS) } else { Slip::None };
    // A slip may walk in circles for as long as it is let.
    let most = if slip == Slip::None && rng.chance(2) { 30_000 } else { 2_500 };
    let mut certificate = if choice < 70 {
        with_steps(rng, &graph, &proved, case, side, most, slip)
    } else if choice < 92 {
        ours(&graph, &formula, case, most)
    } else {
        other_goal(rng, &graph, case, most)
    };
    match rng.below(100) {
        0..=39 => {}
        40..=45 => spoil_header(rng, &mut certificate, case),
        46..=47 => {
            spoil_header(rng, &mut certificate, case);
            spoil_header(rng, &mut certificate, case);
        }
        48..=61 => cut_or_add(rng, &mut certificate),
        62..=92 => {
            let read = |certificate: &[u8]| rules::steps(&graph, &proved, env, certificate);
            change_step(rng, &mut certificate, read, graph.n);
        }
        _ => change_bytes(rng, &mut certificate),
    }
    certificate
}

/// A random proof; ours where none was found within the bytes allowed.
fn with_steps(
    rng: &mut Random,
    graph: &Graph,
    proved: &Formula,
    case: &Case,
    side: u8,
    most: usize,
    slip: Slip,
) -> Vec<u8> {
    let env = [case.start as usize, 0, 0, 0];
    let mut bytes = header(side, case.goal as u8, case.start as u8);
    match prover::steps(rng, graph, proved, &env, most, slip) {
        Some(steps) => bytes.extend(steps),
        None if slip == Slip::None => {
            let formula = if side == 0 { proved.clone() } else { proved.dual() };
            return ours(graph, &formula, case, most);
        }
        None => return with_steps(rng, graph, proved, case, side, most, Slip::None),
    }
    bytes
}

/// Our certificate, or a header alone where it is too long to be of use.
fn ours(graph: &Graph, formula: &Formula, case: &Case, most: usize) -> Vec<u8> {
    match writer::write(graph, formula, case.goal, case.start, most as u64) {
        Ok((_, certificate)) => certificate,
        Err(_) => header(0, case.goal as u8, case.start as u8),
    }
}

/// The certificate of another entry or another start, under its own header or under this goal's.
fn other_goal(rng: &mut Random, graph: &Graph, case: &Case, most: usize) -> Vec<u8> {
    let entries = case.table[5] as usize;
    let goal = if rng.chance(50) { case.goal } else { rng.below(entries) as u64 };
    let start = if rng.chance(30) { case.start } else { rng.below(graph.n) as u64 };
    let other = Case { goal, start, ..case.clone() };
    let mut bytes = match services::read(&other.image, &other.table, goal, start) {
        Ok((_, formula)) => ours(graph, &formula, &other, most),
        Err(_) => header(0, goal as u8, start as u8),
    };
    if rng.chance(60) {
        bytes[6] = case.goal as u8;
        bytes[7] = case.start as u8;
    }
    bytes
}

fn spoil_header(rng: &mut Random, certificate: &mut Vec<u8>, case: &Case) {
    if certificate.len() < 8 {
        return;
    }
    match rng.below(6) {
        0 => front(rng, certificate, 8),
        1 => certificate[5] = rng.pick(&[2, 3, 128, 255]),
        2 => certificate[5] ^= 1,
        3 => certificate[6] = other_byte(rng, case.goal as u8),
        4 => certificate[7] = other_byte(rng, case.start as u8),
        _ => {
            let at = rng.below(8);
            certificate[at] = other_byte(rng, certificate[at]);
        }
    }
}

fn cut_or_add(rng: &mut Random, certificate: &mut Vec<u8>) {
    match rng.below(6) {
        0 | 1 => {
            certificate.pop();
        }
        2 => certificate.truncate(rng.between(8, certificate.len().max(8))),
        3 => certificate.truncate(rng.below(9)),
        4 => certificate.push(rng.below(18) as u8),
        _ => certificate.extend(vec![0; rng.pick(&[1, 2, 8])]),
    }
}

/// Changes one step with knowledge of where its code and its chosen byte stand.
fn change_step(
    rng: &mut Random,
    certificate: &mut Vec<u8>,
    read: impl Fn(&[u8]) -> Result<Vec<Step>, Fault>,
    n: usize,
) {
    let steps = read(certificate).unwrap_or_default();
    if steps.is_empty() {
        return change_bytes(rng, certificate);
    }
    let any = &steps[rng.below(steps.len())];
    let choosing: Vec<&Step> = steps.iter().filter(|step| step.chosen.is_some()).collect();
    let with_sibling: Vec<&Step> = steps.iter().filter(|step| sibling(step.code) != step.code).collect();
    match rng.below(8) {
        // Another successor, or no successor at all.
        0..=2 if !choosing.is_empty() => {
            let at = rng.pick(&choosing).place + 1;
            for _ in 0..rng.pick(&[1, 8]) {
                certificate[at] = rng.below(n) as u8;
                let is_successor = read(certificate).err().map_or(true, |fault| fault.condition != "successor");
                if is_successor {
                    return;
                }
            }
            if rng.chance(20) {
                certificate[at] = rng.pick(&[n as u8, 63, 64, 128, 255]);
            }
        }
        // Another rule for the same formula, its premises left as they were.
        0..=4 if !with_sibling.is_empty() => {
            let step = rng.pick(&with_sibling);
            certificate[step.place] = sibling(step.code);
        }
        // A step done twice, which puts its stage on the walk.
        5 | 6 => {
            let width = if any.chosen.is_some() { 2 } else { 1 };
            let copy = certificate[any.place..any.place + width].to_vec();
            certificate.splice(any.place..any.place, copy);
        }
        7 => {
            certificate.remove(any.place);
        }
        _ => certificate[any.place] = rng.below(18) as u8,
    }
}

/// The next code of the same formula; the code itself where the formula has no other.
fn sibling(code: u8) -> u8 {
    match code {
        4 => 5,
        5 => 4,
        8 => 9,
        9 => 8,
        10 => 11,
        11 => 10,
        12 => 13,
        13 => 14,
        14 => 12,
        15 => 16,
        16 => 15,
        other => other,
    }
}

fn change_bytes(rng: &mut Random, certificate: &mut Vec<u8>) {
    if certificate.len() <= 8 {
        certificate.push(rng.below(18) as u8);
        return;
    }
    let at = rng.between(8, certificate.len() - 1);
    match rng.below(4) {
        0 => certificate[at] = other_byte(rng, certificate[at]),
        1 => certificate[at] = rng.below(18) as u8,
        2 => {
            certificate.remove(at);
        }
        _ => certificate.insert(at, rng.below(18) as u8),
    }
}
