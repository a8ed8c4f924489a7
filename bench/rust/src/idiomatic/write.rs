//! The certificate we write: its length is counted first, and no further than the buffer reaches; then it is written.

use super::graph::{has, Members};
use super::table::{Bound, Env, Formula::*};
use super::Question;
use crate::Refusal;

/// Where the bytes of a certificate go.
pub trait Sink {
    fn put(&mut self, byte: u8) -> Result<(), Refusal>;
}

pub struct Counter {
    pub left: usize,
}

impl Sink for Counter {
    fn put(&mut self, _: u8) -> Result<(), Refusal> {
        self.left = self.left.checked_sub(1).ok_or(Refusal::TooLong)?;
        Ok(())
    }
}

pub struct Filler<'a> {
    pub buffer: &'a mut [u8],
    pub length: usize,
}

impl Sink for Filler<'_> {
    fn put(&mut self, byte: u8) -> Result<(), Refusal> {
        *self.buffer.get_mut(self.length).ok_or(Refusal::TooLong)? = byte;
        self.length += 1;
        Ok(())
    }
}

fn lowest(set: u64) -> usize {
    set.trailing_zeros() as usize
}

impl Question {
    pub fn write_certificate(&self, header: &[u8], sink: &mut impl Sink) -> Result<(), Refusal> {
        header.iter().try_for_each(|&byte| sink.put(byte))?;
        self.prove(sink, self.goal, self.env)
    }

    /// The proof of a formula that holds.
    fn prove(&self, sink: &mut impl Sink, entry: u8, env: Env) -> Result<(), Refusal> {
        match self.formula(entry) {
            True => sink.put(0),
            False => unreachable!("false never holds"),
            Is(_) => sink.put(1),
            IsNot(_) => sink.put(2),
            And(a, b) => {
                sink.put(3)?;
                self.prove(sink, a, env)?;
                self.prove(sink, b, env)
            }
            Or(a, _) if self.holds(a, env) => {
                sink.put(4)?;
                self.prove(sink, a, env)
            }
            Or(_, b) => {
                sink.put(5)?;
                self.prove(sink, b, env)
            }
            Ax(a, t) => {
                sink.put(6)?;
                self.successors(t, env).try_for_each(|c| self.prove_operand(sink, a, env, c))
            }
            Ex(a, t) => {
                let mut successors = self.successors(t, env);
                let c = successors.find(|&c| self.holds(a.entry, env.with(a.variable, c))).expect("EX holds");
                sink.put(7)?;
                sink.put(c as u8)?;
                self.prove_operand(sink, a, env, c)
            }
            Af(a, t) => self.prove_af(sink, a, env, self.stages(a, env), env.stage(t)),
            Eg(a, t) => self.prove_eg(sink, a, env, env.stage(t)),
            Ar(a, b, t) => self.prove_ar(sink, (a, b), env, self.stages(a, env), env.stage(t), 0),
            Eu(a, b, t) => self.prove_eu(sink, (a, b), env, env.stage(t)),
        }
    }

    fn prove_operand(&self, sink: &mut impl Sink, operand: Bound, env: Env, stage: usize) -> Result<(), Refusal> {
        self.prove(sink, operand.entry, env.with(operand.variable, stage))
    }

    fn prove_af(&self, sink: &mut impl Sink, a: Bound, env: Env, with_a: u64, stage: usize) -> Result<(), Refusal> {
        if has(with_a, stage) {
            sink.put(8)?;
            return self.prove_operand(sink, a, env, stage);
        }
        sink.put(9)?;
        Members(self.graph.successors[stage]).try_for_each(|c| self.prove_af(sink, a, env, with_a, c))
    }

    fn prove_eg(&self, sink: &mut impl Sink, a: Bound, env: Env, start: usize) -> Result<(), Refusal> {
        let holds = self.graph.eg(self.stages(a, env));
        let (mut stage, mut walk) = (start, 0);
        while !has(walk, stage) {
            let c = lowest(self.graph.successors[stage] & holds);
            sink.put(10)?;
            sink.put(c as u8)?;
            self.prove_operand(sink, a, env, stage)?;
            walk |= 1 << stage;
            stage = c;
        }
        sink.put(11)
    }

    fn prove_ar(
        &self,
        sink: &mut impl Sink,
        (a, b): (Bound, Bound),
        env: Env,
        with_a: u64,
        stage: usize,
        walk: u64,
    ) -> Result<(), Refusal> {
        if has(walk, stage) {
            return sink.put(14);
        }
        if has(with_a, stage) {
            sink.put(12)?;
            self.prove_operand(sink, a, env, stage)?;
            return self.prove_operand(sink, b, env, stage);
        }
        sink.put(13)?;
        self.prove_operand(sink, b, env, stage)?;
        let walk = walk | 1 << stage;
        Members(self.graph.successors[stage]).try_for_each(|c| self.prove_ar(sink, (a, b), env, with_a, c, walk))
    }

    fn prove_eu(&self, sink: &mut impl Sink, (a, b): (Bound, Bound), env: Env, start: usize) -> Result<(), Refusal> {
        let layers = self.graph.layers(self.stages(a, env), self.stages(b, env));
        let mut stage = start;
        while !has(layers[0], stage) {
            let next = self.graph.successors[stage];
            let nearest = layers.iter().find(|&layer| layer & next != 0).expect("EU holds");
            let c = lowest(nearest & next);
            sink.put(16)?;
            sink.put(c as u8)?;
            self.prove_operand(sink, a, env, stage)?;
            stage = c;
        }
        sink.put(15)?;
        self.prove_operand(sink, b, env, stage)
    }
}
