//! The checking of a certificate's steps: formula steps and walk steps call each other.

use super::graph::{has, Members};
use super::table::{Bound, Env, Formula::*};
use super::Question;
use crate::Refusal;

/// The steps that are still to be read.
pub struct Reader<'a> {
    pub rest: &'a [u8],
}

impl Reader<'_> {
    fn byte(&mut self) -> Result<u8, Refusal> {
        let (&first, rest) = self.rest.split_first().ok_or(Refusal::Missing)?;
        self.rest = rest;
        Ok(first)
    }
}

fn needs(condition: bool) -> Result<(), Refusal> {
    if condition {
        Ok(())
    } else {
        Err(Refusal::Condition)
    }
}

impl Question {
    pub fn check_formula(&self, reader: &mut Reader, entry: u8, env: Env) -> Result<(), Refusal> {
        let formula = self.formula(entry);
        if let Af(_, t) | Eg(_, t) | Ar(_, _, t) | Eu(_, _, t) = formula {
            return self.check_walk(reader, entry, env, env.stage(t), 0);
        }
        match (reader.byte()?, formula) {
            (0, True) => Ok(()),
            (1, Is(atom)) => needs(self.atom_holds(atom, env)),
            (2, IsNot(atom)) => needs(!self.atom_holds(atom, env)),
            (3, And(a, b)) => {
                self.check_formula(reader, a, env)?;
                self.check_formula(reader, b, env)
            }
            (4, Or(a, _)) => self.check_formula(reader, a, env),
            (5, Or(_, b)) => self.check_formula(reader, b, env),
            (6, Ax(a, t)) => self.successors(t, env).try_for_each(|c| self.check_operand(reader, a, env, c)),
            (7, Ex(a, t)) => {
                let c = self.chosen(reader, env.stage(t), true)?;
                self.check_operand(reader, a, env, c)
            }
            _ => Err(Refusal::Code),
        }
    }

    fn check_operand(&self, reader: &mut Reader, operand: Bound, env: Env, stage: usize) -> Result<(), Refusal> {
        self.check_formula(reader, operand.entry, env.with(operand.variable, stage))
    }

    /// Reads a chosen successor of the stage; `allowed` is the step's other condition.
    fn chosen(&self, reader: &mut Reader, stage: usize, allowed: bool) -> Result<usize, Refusal> {
        let c = reader.byte()? as usize;
        needs(allowed && c < 64 && has(self.graph.successors[stage], c))?;
        Ok(c)
    }

    /// A step of an AF, EG, AR or EU at a stage, with the walk so far.
    fn check_walk(&self, reader: &mut Reader, entry: u8, env: Env, stage: usize, walk: u64) -> Result<(), Refusal> {
        let on_walk = has(walk, stage);
        let longer = walk | 1 << stage;
        match (reader.byte()?, self.formula(entry)) {
            (8, Af(a, _)) => {
                needs(!on_walk)?;
                self.check_operand(reader, a, env, stage)
            }
            (9, Af(..)) => {
                needs(!on_walk)?;
                self.check_walk_on(reader, entry, env, stage, longer)
            }
            (10, Eg(a, _)) => {
                let c = self.chosen(reader, stage, !on_walk)?;
                self.check_operand(reader, a, env, stage)?;
                self.check_walk(reader, entry, env, c, longer)
            }
            (11, Eg(..)) | (14, Ar(..)) => needs(on_walk),
            (12, Ar(a, b, _)) => {
                needs(!on_walk)?;
                self.check_operand(reader, a, env, stage)?;
                self.check_operand(reader, b, env, stage)
            }
            (13, Ar(_, b, _)) => {
                needs(!on_walk)?;
                self.check_operand(reader, b, env, stage)?;
                self.check_walk_on(reader, entry, env, stage, longer)
            }
            (15, Eu(_, b, _)) => {
                needs(!on_walk)?;
                self.check_operand(reader, b, env, stage)
            }
            (16, Eu(a, _, _)) => {
                let c = self.chosen(reader, stage, !on_walk)?;
                self.check_operand(reader, a, env, stage)?;
                self.check_walk(reader, entry, env, c, longer)
            }
            _ => Err(Refusal::Code),
        }
    }

    /// The same modality at each successor.
    fn check_walk_on(&self, reader: &mut Reader, entry: u8, env: Env, stage: usize, walk: u64) -> Result<(), Refusal> {
        Members(self.graph.successors[stage]).try_for_each(|c| self.check_walk(reader, entry, env, c, walk))
    }
}
