//! Formulas, and the reading of a formula table.

use super::graph::{Graph, Predicate};
use crate::Refusal;
use Formula::*;

const VARIABLES: usize = 4;
const MOST_NESTING: u32 = 4;

#[derive(Clone, Copy, PartialEq)]
pub enum Term {
    Stage(u8),
    Variable(u8),
}

impl Term {
    pub fn read(byte: u8, n: usize) -> Option<Term> {
        match byte {
            64..=67 => Some(Term::Variable(byte - 64)),
            _ if (byte as usize) < n => Some(Term::Stage(byte)),
            _ => None,
        }
    }

    /// The variable it reads, as a set of variables.
    pub fn variables(self) -> u8 {
        match self {
            Term::Stage(_) => 0,
            Term::Variable(v) => 1 << v,
        }
    }
}

/// The present stages of the four variables.
#[derive(Clone, Copy)]
pub struct Env(pub [u8; VARIABLES]);

impl Env {
    pub fn stage(self, term: Term) -> usize {
        match term {
            Term::Stage(s) => s as usize,
            Term::Variable(v) => self.0[v as usize] as usize,
        }
    }

    pub fn with(mut self, variable: u8, stage: usize) -> Env {
        self.0[variable as usize] = stage as u8;
        self
    }
}

#[derive(Clone, Copy)]
pub struct Atom {
    pub predicate: u8,
    pub first: Term,
    pub second: Option<Term>,
}

/// An operand entry of a modality, with the variable bound in it.
#[derive(Clone, Copy)]
pub struct Bound {
    pub entry: u8,
    pub variable: u8,
}

#[derive(Clone, Copy)]
pub enum Formula {
    True,
    False,
    Is(Atom),
    IsNot(Atom),
    And(u8, u8),
    Or(u8, u8),
    Ax(Bound, Term),
    Ex(Bound, Term),
    Af(Bound, Term),
    Eg(Bound, Term),
    Ar(Bound, Bound, Term),
    Eu(Bound, Bound, Term),
}

impl Formula {
    /// The record of entry `number`, or nothing where it breaks its kind's rules.
    pub fn read(record: &[u8], number: usize, graph: &Graph) -> Option<Formula> {
        let (kind, a, b, x, y, t) = (record[0], record[1], record[2], record[3], record[4], record[5]);
        let term = |byte| Term::read(byte, graph.successors.len());
        let operand = |entry: u8| ((entry as usize) < number).then_some(entry);
        let bound = |entry, variable: u8| {
            let entry = operand(entry)?;
            (usize::from(variable) < VARIABLES).then_some(Bound { entry, variable })
        };
        let zero = |fields: &[u8]| fields.iter().all(|&f| f == 0).then_some(());
        match kind {
            0 | 1 => {
                zero(&[a, b, x, y, t])?;
                Some(if kind == 0 { True } else { False })
            }
            2 | 3 => {
                zero(&[x, y])?;
                let second = match graph.predicates.get(a as usize)? {
                    Predicate::Unary(_) => zero(&[b]).map(|_| None)?,
                    Predicate::Binary(_) => Some(term(b)?),
                };
                let atom = Atom { predicate: a, first: term(t)?, second };
                Some(if kind == 2 { Is(atom) } else { IsNot(atom) })
            }
            4 | 5 => {
                zero(&[x, y, t])?;
                let (a, b) = (operand(a)?, operand(b)?);
                Some(if kind == 4 { And(a, b) } else { Or(a, b) })
            }
            6..=9 => {
                zero(&[b, y])?;
                let modality = [Ax, Ex, Af, Eg][usize::from(kind - 6)];
                Some(modality(bound(a, x)?, term(t)?))
            }
            10 => Some(Ar(bound(a, x)?, bound(b, y)?, term(t)?)),
            11 => Some(Eu(bound(a, x)?, bound(b, y)?, term(t)?)),
            _ => None,
        }
    }

    pub fn dual(self) -> Formula {
        match self {
            True => False,
            False => True,
            Is(atom) => IsNot(atom),
            IsNot(atom) => Is(atom),
            And(a, b) => Or(a, b),
            Or(a, b) => And(a, b),
            Ax(a, t) => Ex(a, t),
            Ex(a, t) => Ax(a, t),
            Af(a, t) => Eg(a, t),
            Eg(a, t) => Af(a, t),
            Ar(a, b, t) => Eu(a, b, t),
            Eu(a, b, t) => Ar(a, b, t),
        }
    }

    pub fn operands(self) -> impl Iterator<Item = u8> {
        let (a, b) = match self {
            True | False | Is(_) | IsNot(_) => (None, None),
            And(a, b) | Or(a, b) => (Some(a), Some(b)),
            Ax(a, _) | Ex(a, _) | Af(a, _) | Eg(a, _) => (Some(a.entry), None),
            Ar(a, b, _) | Eu(a, b, _) => (Some(a.entry), Some(b.entry)),
        };
        a.into_iter().chain(b)
    }

    pub fn is_modality(self) -> bool {
        matches!(self, Ax(..) | Ex(..) | Af(..) | Eg(..) | Ar(..) | Eu(..))
    }

    /// The variables read in the operands and not bound by this formula, given those free in each entry below.
    pub fn read_in_operands(self, free: &[u8]) -> u8 {
        let inside = |bound: Bound| free[bound.entry as usize] & !(1 << bound.variable);
        match self {
            True | False | Is(_) | IsNot(_) => 0,
            And(a, b) | Or(a, b) => free[a as usize] | free[b as usize],
            Ax(a, _) | Ex(a, _) | Af(a, _) | Eg(a, _) => inside(a),
            Ar(a, b, _) | Eu(a, b, _) => inside(a) | inside(b),
        }
    }

    /// The variables read by the formula's own terms.
    pub fn read_here(self) -> u8 {
        match self {
            True | False | And(..) | Or(..) => 0,
            Is(atom) | IsNot(atom) => atom.first.variables() | atom.second.map_or(0, Term::variables),
            Ax(_, t) | Ex(_, t) | Af(_, t) | Eg(_, t) | Ar(_, _, t) | Eu(_, _, t) => t.variables(),
        }
    }
}

/// The formulas of a table, and the variables free in each.
pub struct Table {
    pub formulas: Vec<Formula>,
    pub free: Vec<u8>,
}

impl Table {
    pub fn read(table: &[u8], graph: &Graph) -> Result<Table, Refusal> {
        if table.len() < 6 || !table.starts_with(b"ZSF\x00\x01") {
            return Err(Refusal::TableMark);
        }
        let m = table[5] as usize;
        if !(1..=64).contains(&m) || table.len() != 6 + 6 * m {
            return Err(Refusal::TableLength);
        }
        let records = table[6..].chunks_exact(6).enumerate();
        let formulas: Option<Vec<Formula>> = records.map(|(e, record)| Formula::read(record, e, graph)).collect();
        let formulas = formulas.ok_or(Refusal::Record)?;
        let mut met = vec![false; m];
        for operand in formulas.iter().flat_map(|f| f.operands()) {
            if std::mem::replace(&mut met[operand as usize], true) {
                return Err(Refusal::OperandTwice);
            }
        }
        let mut nesting: Vec<u32> = Vec::with_capacity(m);
        for f in &formulas {
            let below = f.operands().map(|operand| nesting[operand as usize]).max().unwrap_or(0);
            nesting.push(below + u32::from(f.is_modality()));
        }
        if nesting.iter().any(|&depth| depth > MOST_NESTING) {
            return Err(Refusal::Nesting);
        }
        let mut free: Vec<u8> = Vec::with_capacity(m);
        for f in &formulas {
            free.push(f.read_here() | f.read_in_operands(&free));
        }
        Ok(Table { formulas, free })
    }
}
