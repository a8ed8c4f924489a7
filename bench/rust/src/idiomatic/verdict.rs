//! The verdict, over sets of stages with the four variables' stages carried along.

use super::graph::{has, Members, Predicate};
use super::table::{Atom, Bound, Env, Formula::*, Term};
use super::Question;
use crate::Side;

impl Question {
    pub fn side(&self) -> Side {
        if self.holds(self.goal, self.env) {
            Side::Goal
        } else {
            Side::Dual
        }
    }

    pub fn atom_holds(&self, atom: Atom, env: Env) -> bool {
        let first = env.stage(atom.first);
        match (&self.graph.predicates[atom.predicate as usize], atom.second) {
            (Predicate::Unary(set), _) => has(*set, first),
            (Predicate::Binary(sets), Some(second)) => has(sets[first], env.stage(second)),
            (Predicate::Binary(_), None) => false,
        }
    }

    pub fn holds(&self, entry: u8, env: Env) -> bool {
        match self.formula(entry) {
            True => true,
            False => false,
            Is(atom) => self.atom_holds(atom, env),
            IsNot(atom) => !self.atom_holds(atom, env),
            And(a, b) => self.holds(a, env) && self.holds(b, env),
            Or(a, b) => self.holds(a, env) || self.holds(b, env),
            Ax(a, t) => self.successors(t, env).all(|c| self.holds(a.entry, env.with(a.variable, c))),
            Ex(a, t) => self.successors(t, env).any(|c| self.holds(a.entry, env.with(a.variable, c))),
            Af(_, t) | Eg(_, t) | Ar(_, _, t) | Eu(_, _, t) => has(self.modal_set(entry, env), env.stage(t)),
        }
    }

    pub fn successors(&self, t: Term, env: Env) -> Members {
        Members(self.graph.successors[env.stage(t)])
    }

    /// The stages at which a modality holds, whatever its term.
    fn modal_set(&self, entry: u8, env: Env) -> u64 {
        let set = |operand: Bound| self.stages(operand, env);
        match self.formula(entry) {
            Ax(a, _) => self.graph.ax(set(a)),
            Ex(a, _) => self.graph.ex(set(a)),
            Af(a, _) => self.graph.af(set(a)),
            Eg(a, _) => self.graph.eg(set(a)),
            Ar(a, b, _) => self.graph.ar(set(a), set(b)),
            Eu(a, b, _) => self.graph.eu(set(a), set(b)),
            True | False | Is(_) | IsNot(_) | And(..) | Or(..) => unreachable!("not a modality"),
        }
    }

    /// The stages at which an operand holds, its variable standing there.
    pub fn stages(&self, operand: Bound, env: Env) -> u64 {
        let Bound { entry, variable } = operand;
        if self.table.free[entry as usize] & 1 << variable == 0 {
            return if self.holds(entry, env) { self.graph.all } else { 0 };
        }
        match self.formula(entry) {
            Is(atom) => self.atom_stages(atom, variable, env),
            IsNot(atom) => self.graph.all & !self.atom_stages(atom, variable, env),
            And(a, b) => {
                self.stages(Bound { entry: a, variable }, env) & self.stages(Bound { entry: b, variable }, env)
            }
            Or(a, b) => self.stages(Bound { entry: a, variable }, env) | self.stages(Bound { entry: b, variable }, env),
            // One set serves every stage where a modality reads the variable in its term alone.
            f if f.is_modality() && f.read_in_operands(&self.table.free) & 1 << variable == 0 => {
                self.modal_set(entry, env)
            }
            _ => self.each_stage(|s| self.holds(entry, env.with(variable, s))),
        }
    }

    fn atom_stages(&self, atom: Atom, variable: u8, env: Env) -> u64 {
        let here = Term::Variable(variable);
        match (&self.graph.predicates[atom.predicate as usize], atom.first == here, atom.second == Some(here)) {
            (Predicate::Unary(set), true, _) => *set,
            (Predicate::Binary(sets), false, true) => sets[env.stage(atom.first)],
            _ => self.each_stage(|s| self.atom_holds(atom, env.with(variable, s))),
        }
    }

    fn each_stage(&self, test: impl Fn(usize) -> bool) -> u64 {
        Members(self.graph.all).filter(|&s| test(s)).fold(0, |set, s| set | 1 << s)
    }
}
