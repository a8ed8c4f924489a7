//! Formulas as trees: values of terms, free variables, nesting, the dual, and a text to read them by.

use crate::image::Graph;
use std::fmt;

/// The present stages of variables 0 to 3.
pub type Env = [usize; 4];

/// The environment with one variable bound anew; the outer value is hidden, not lost.
pub fn bind(env: &Env, variable: usize, stage: usize) -> Env {
    let mut inner = *env;
    inner[variable] = stage;
    inner
}

#[derive(Clone, Copy, PartialEq, Eq, Debug)]
pub enum Term {
    Stage(usize),
    Variable(usize),
}

impl Term {
    pub fn value(self, env: &Env) -> usize {
        match self {
            Term::Stage(stage) => stage,
            Term::Variable(variable) => env[variable],
        }
    }
}

#[derive(Clone, Copy, PartialEq, Eq, Debug)]
pub enum Mode {
    Ax,
    Ex,
    Af,
    Eg,
    Ar,
    Eu,
}

#[derive(Clone, Debug)]
pub struct Atom {
    pub positive: bool,
    pub relation: usize,
    pub first: Term,
    pub second: Option<Term>,
}

impl Atom {
    pub fn holds(&self, graph: &Graph, env: &Env) -> bool {
        let second = self.second.map(|term| term.value(env));
        graph.related(self.relation, self.first.value(env), second) == self.positive
    }
}

#[derive(Clone, Debug)]
pub struct Modal {
    /// The entry of the table it came from: a name for it within its tree.
    pub entry: usize,
    pub mode: Mode,
    /// Bound in `a` only.
    pub x: usize,
    pub a: Formula,
    /// Bound in `b` only; `b` is there for AR and EU.
    pub y: usize,
    pub b: Option<Formula>,
    /// Read outside the binding.
    pub at: Term,
    /// The variables that the operands take from outside.
    pub outer: [bool; 4],
}

#[derive(Clone, Debug)]
pub enum Formula {
    Constant(bool),
    Atom(Atom),
    And(Box<Formula>, Box<Formula>),
    Or(Box<Formula>, Box<Formula>),
    Modal(Box<Modal>),
}

impl Formula {
    pub fn free(&self) -> [bool; 4] {
        let mut free = [false; 4];
        match self {
            Formula::Constant(_) => {}
            Formula::Atom(atom) => {
                note(&mut free, atom.first);
                if let Some(second) = atom.second {
                    note(&mut free, second);
                }
            }
            Formula::And(a, b) | Formula::Or(a, b) => free = either(a.free(), b.free()),
            Formula::Modal(modal) => {
                free = modal.outer;
                note(&mut free, modal.at);
            }
        }
        free
    }

    /// How many modalities nest along the longest way down.
    pub fn nesting(&self) -> usize {
        match self {
            Formula::Constant(_) | Formula::Atom(_) => 0,
            Formula::And(a, b) | Formula::Or(a, b) => a.nesting().max(b.nesting()),
            Formula::Modal(modal) => 1 + modal.operands().iter().map(|f| f.nesting()).max().unwrap_or(0),
        }
    }

    pub fn dual(&self) -> Formula {
        match self {
            Formula::Constant(value) => Formula::Constant(!value),
            Formula::Atom(atom) => Formula::Atom(Atom { positive: !atom.positive, ..atom.clone() }),
            Formula::And(a, b) => Formula::Or(Box::new(a.dual()), Box::new(b.dual())),
            Formula::Or(a, b) => Formula::And(Box::new(a.dual()), Box::new(b.dual())),
            Formula::Modal(modal) => {
                let mode = match modal.mode {
                    Mode::Ax => Mode::Ex,
                    Mode::Ex => Mode::Ax,
                    Mode::Af => Mode::Eg,
                    Mode::Eg => Mode::Af,
                    Mode::Ar => Mode::Eu,
                    Mode::Eu => Mode::Ar,
                };
                let b = modal.b.as_ref().map(|b| b.dual());
                Formula::Modal(Box::new(Modal { mode, a: modal.a.dual(), b, ..**modal }))
            }
        }
    }

    /// The kind as stored: 0 true to 11 EU.
    pub fn kind(&self) -> usize {
        match self {
            Formula::Constant(value) => usize::from(!value),
            Formula::Atom(atom) => 3 - usize::from(atom.positive),
            Formula::And(_, _) => 4,
            Formula::Or(_, _) => 5,
            Formula::Modal(modal) => match modal.mode {
                Mode::Ax => 6,
                Mode::Ex => 7,
                Mode::Af => 8,
                Mode::Eg => 9,
                Mode::Ar => 10,
                Mode::Eu => 11,
            },
        }
    }

    pub fn operands(&self) -> Vec<&Formula> {
        match self {
            Formula::Constant(_) | Formula::Atom(_) => Vec::new(),
            Formula::And(a, b) | Formula::Or(a, b) => vec![a, b],
            Formula::Modal(modal) => modal.operands(),
        }
    }
}

impl Modal {
    pub fn new(
        entry: usize,
        mode: Mode,
        (x, a): (usize, Formula),
        second: Option<(usize, Formula)>,
        at: Term,
    ) -> Modal {
        let mut outer = a.free();
        outer[x] = false;
        let mut y = 0;
        let mut b = None;
        if let Some((variable, formula)) = second {
            let mut free = formula.free();
            free[variable] = false;
            outer = either(outer, free);
            y = variable;
            b = Some(formula);
        }
        Modal { entry, mode, x, a, y, b, at, outer }
    }

    pub fn operands(&self) -> Vec<&Formula> {
        std::iter::once(&self.a).chain(self.b.iter()).collect()
    }
}

fn note(free: &mut [bool; 4], term: Term) {
    if let Term::Variable(variable) = term {
        free[variable] = true;
    }
}

fn either(left: [bool; 4], right: [bool; 4]) -> [bool; 4] {
    [left[0] || right[0], left[1] || right[1], left[2] || right[2], left[3] || right[3]]
}

impl fmt::Display for Term {
    fn fmt(&self, out: &mut fmt::Formatter<'_>) -> fmt::Result {
        match self {
            Term::Stage(stage) => write!(out, "{stage}"),
            Term::Variable(variable) => write!(out, "x{variable}"),
        }
    }
}

impl fmt::Display for Formula {
    fn fmt(&self, out: &mut fmt::Formatter<'_>) -> fmt::Result {
        match self {
            Formula::Constant(value) => write!(out, "{value}"),
            Formula::Atom(atom) => {
                let sign = if atom.positive { "" } else { "not " };
                write!(out, "{sign}P{}({}", atom.relation, atom.first)?;
                if let Some(second) = atom.second {
                    write!(out, ", {second}")?;
                }
                write!(out, ")")
            }
            Formula::And(a, b) => write!(out, "({a} and {b})"),
            Formula::Or(a, b) => write!(out, "({a} or {b})"),
            Formula::Modal(modal) => {
                let name = ["AX", "EX", "AF", "EG", "AR", "EU"][self.kind() - 6];
                write!(out, "{name} x{} ({})", modal.x, modal.a)?;
                if let Some(b) = &modal.b {
                    write!(out, " x{} ({b})", modal.y)?;
                }
                write!(out, " @ {}", modal.at)
            }
        }
    }
}
