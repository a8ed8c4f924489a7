//! The formula table: its reader with refusals 6 to 10, and the goal with 11 to 13.
//! Each number is a pass of its own over the whole table, so that a lower number is never missed for a higher one.

use crate::formula::{Atom, Formula, Modal, Mode, Term};
use crate::image::{Graph, Relation};

pub struct Table {
    /// kind, a, b, x, y, t
    pub records: Vec<[u8; 6]>,
    /// Which predicates have arity 2: an atom's record alone does not tell stage 0 from an unused field.
    binary: Vec<bool>,
}

pub fn read(graph: &Graph, bytes: &[u8]) -> Result<Table, u64> {
    if bytes.len() < 6 || &bytes[..5] != b"ZSF\x00\x01" {
        return Err(6);
    }
    let m = bytes[5] as usize;
    if m == 0 || m > 64 || bytes.len() != 6 + 6 * m {
        return Err(7);
    }
    let records: Vec<[u8; 6]> = bytes[6..].chunks(6).map(|r| [r[0], r[1], r[2], r[3], r[4], r[5]]).collect();
    if !records.iter().enumerate().all(|(own, record)| allowed(record, own, graph)) {
        return Err(8);
    }
    let mut used: Vec<usize> = records.iter().flat_map(operands).collect();
    used.sort_unstable();
    if used.windows(2).any(|pair| pair[0] == pair[1]) {
        return Err(9);
    }
    // Operands have lower numbers, so one pass upwards knows them when it needs them.
    let mut depth: Vec<usize> = Vec::new();
    for record in &records {
        let below = operands(record).iter().map(|&operand| depth[operand]).max().unwrap_or(0);
        depth.push(below + usize::from(record[0] >= 6));
    }
    if depth.iter().any(|&d| d > 4) {
        return Err(10);
    }
    let binary = graph.relations.iter().map(|relation| matches!(relation, Relation::Two(_))).collect();
    Ok(Table { records, binary })
}

/// The goal's tree, or 11, 12 or 13. The goal and the start are wide numbers: a caller's 258 is not 2.
pub fn goal(graph: &Graph, table: &Table, goal: u64, start: u64) -> Result<Formula, u64> {
    if goal >= table.records.len() as u64 {
        return Err(11);
    }
    if start >= graph.n as u64 {
        return Err(12);
    }
    let formula = table.formula(goal as usize);
    if formula.free()[1..].contains(&true) {
        return Err(13);
    }
    Ok(formula)
}

impl Table {
    pub fn formula(&self, entry: usize) -> Formula {
        let [kind, a, b, x, y, t] = self.records[entry];
        let operand = |number: u8| self.formula(number as usize);
        match kind {
            0 | 1 => Formula::Constant(kind == 0),
            2 | 3 => {
                let second = if self.binary[a as usize] { Some(term(b)) } else { None };
                Formula::Atom(Atom { positive: kind == 2, relation: a as usize, first: term(t), second })
            }
            4 => Formula::And(Box::new(operand(a)), Box::new(operand(b))),
            5 => Formula::Or(Box::new(operand(a)), Box::new(operand(b))),
            _ => {
                let mode = [Mode::Ax, Mode::Ex, Mode::Af, Mode::Eg, Mode::Ar, Mode::Eu][kind as usize - 6];
                let second = if kind >= 10 { Some((y as usize, operand(b))) } else { None };
                Formula::Modal(Box::new(Modal::new(entry, mode, (x as usize, operand(a)), second, term(t))))
            }
        }
    }
}

fn term(value: u8) -> Term {
    if value < 64 {
        Term::Stage(value as usize)
    } else {
        Term::Variable(value as usize - 64)
    }
}

/// The entries that a record has as operands. The field a of an atom is a predicate and no operand.
pub fn operands(record: &[u8; 6]) -> Vec<usize> {
    match record[0] {
        4 | 5 | 10 | 11 => vec![record[1] as usize, record[2] as usize],
        6..=9 => vec![record[1] as usize],
        _ => Vec::new(),
    }
}

/// Whether a record keeps the rules of its kind (refusal 8).
fn allowed(record: &[u8; 6], own: usize, graph: &Graph) -> bool {
    let [kind, a, b, x, y, t] = *record;
    let lower = |number: u8| (number as usize) < own;
    let is_term = |value: u8| (value as usize) < graph.n || (64..=67).contains(&value);
    match kind {
        0 | 1 => record[1..] == [0; 5],
        2 | 3 => {
            let second = match graph.relations.get(a as usize) {
                None => false,
                Some(Relation::One(_)) => b == 0,
                Some(Relation::Two(_)) => is_term(b),
            };
            second && x == 0 && y == 0 && is_term(t)
        }
        4 | 5 => lower(a) && lower(b) && x == 0 && y == 0 && t == 0,
        6..=9 => lower(a) && b == 0 && x <= 3 && y == 0 && is_term(t),
        10 | 11 => lower(a) && lower(b) && x <= 3 && y <= 3 && is_term(t),
        _ => false,
    }
}
