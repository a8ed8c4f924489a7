//! The four services as one writes them plainly in Rust: read into vectors and enums, then recursion over the entries. Sets of stages are
//! 64-bit numbers, stage k being the bit worth 2^k.
#![forbid(unsafe_code)]

mod check;
mod graph;
mod table;
mod verdict;
mod write;

use crate::{Refusal, Side};
use check::Reader;
use graph::{Graph, Predicate};
use table::{Env, Formula, Table};
use write::{Counter, Filler};

pub fn verdict(image: &[u8], table: &[u8], goal: u64, start: u64) -> Result<Side, Refusal> {
    let question = Question::read(image, table, goal, start)?;
    Ok(question.side())
}

pub fn check(image: &[u8], table: &[u8], certificate: &[u8], goal: u64, start: u64) -> Result<Side, Refusal> {
    let question = Question::read(image, table, goal, start)?;
    if certificate.len() < 8 || !certificate.starts_with(b"ZSC\x00\x01") || certificate[5] > 1 {
        return Err(Refusal::CertificateMark);
    }
    if u64::from(certificate[6]) != goal || u64::from(certificate[7]) != start {
        return Err(Refusal::OtherQuestion);
    }
    let side = if certificate[5] == 0 { Side::Goal } else { Side::Dual };
    let question = question.of_side(side);
    let mut reader = Reader { rest: &certificate[8..] };
    question.check_formula(&mut reader, question.goal, question.env)?;
    if reader.rest.is_empty() {
        Ok(side)
    } else {
        Err(Refusal::Remaining)
    }
}

pub fn write(image: &[u8], table: &[u8], goal: u64, start: u64, buffer: &mut [u8]) -> Result<(Side, usize), Refusal> {
    let question = Question::read(image, table, goal, start)?;
    let side = question.side();
    let header = [b'Z', b'S', b'C', 0, 1, side as u8, goal as u8, start as u8];
    let question = question.of_side(side);
    question.write_certificate(&header, &mut Counter { left: buffer.len() })?;
    let mut filler = Filler { buffer, length: 0 };
    question.write_certificate(&header, &mut filler)?;
    Ok((side, filler.length))
}

pub fn dead_ends(image: &[u8]) -> Result<u64, Refusal> {
    let graph = Graph::read(image)?;
    match graph.predicates.first() {
        Some(&Predicate::Unary(fired)) => Ok(graph.all & !graph.eu(graph.all, fired)),
        _ => Err(Refusal::NotFired),
    }
}

/// A graph, a table, and a goal with the start as variable 0.
struct Question {
    graph: Graph,
    table: Table,
    goal: u8,
    env: Env,
}

impl Question {
    fn read(image: &[u8], table: &[u8], goal: u64, start: u64) -> Result<Question, Refusal> {
        let graph = Graph::read(image)?;
        let table = Table::read(table, &graph)?;
        if goal >= table.formulas.len() as u64 {
            return Err(Refusal::Goal);
        }
        if start >= graph.successors.len() as u64 {
            return Err(Refusal::Start);
        }
        if table.free[goal as usize] & !1 != 0 {
            return Err(Refusal::FreeVariable);
        }
        Ok(Question { graph, table, goal: goal as u8, env: Env([start as u8, 0, 0, 0]) })
    }

    fn formula(&self, entry: u8) -> Formula {
        self.table.formulas[entry as usize]
    }

    /// The same question, about the dual formulas where the side is the dual.
    fn of_side(mut self, side: Side) -> Question {
        if side == Side::Dual {
            self.table.formulas.iter_mut().for_each(|f| *f = f.dual());
        }
        self
    }
}
