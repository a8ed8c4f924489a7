//! The dead-end report: refusals 1 to 5 and 15, then the stages from which no path reaches predicate 0.

use crate::image::{self, Graph, Relation};

/// The members, ascending.
pub fn dead_ends(image: &[u8]) -> Result<Vec<usize>, u64> {
    let graph = image::read(image)?;
    match graph.relations.first() {
        Some(Relation::One(fired)) => Ok((0..graph.n).filter(|&stage| !reaches(&graph, fired, stage)).collect()),
        _ => Err(15),
    }
}

/// Looks forward from one stage, the stage itself counted.
fn reaches(graph: &Graph, fired: &[bool], stage: usize) -> bool {
    let mut met = vec![false; graph.n];
    let mut waiting = vec![stage];
    while let Some(here) = waiting.pop() {
        if fired[here] {
            return true;
        }
        if !met[here] {
            met[here] = true;
            waiting.extend(&graph.next[here]);
        }
    }
    false
}

/// The set as stored: 8 bytes, stage 0 the low bit of the last.
pub fn set_bytes(members: &[usize]) -> [u8; 8] {
    let mut bytes = [0; 8];
    for member in members {
        bytes[7 - member / 8] |= 1 << (member % 8);
    }
    bytes
}
