//! The certificate we write, by the clauses under that name, and its refusal 14.
//!
//! Bytes are put down one after another until the lent room is used up; one byte more and the writing stops, so that a
//! certificate too long for any machine costs no more than the room. The recursion is bounded: at most 64 entries deep
//! with at most four walks of 64 stages between them.

use crate::by_tables::{Sheet, Tables};
use crate::bytes::header;
use crate::formula::{bind, Env, Formula, Modal, Mode};
use crate::image::Graph;

const TOO_LONG: u64 = 14;

/// The side that holds and its whole certificate, or 14 when it has more bytes than `room`.
pub fn write(graph: &Graph, formula: &Formula, goal: u64, start: u64, room: u64) -> Result<(u8, Vec<u8>), u64> {
    let env = [start as usize, 0, 0, 0];
    let side = u8::from(!Tables::new(graph).holds(formula, &env));
    let proved = if side == 0 { formula.clone() } else { formula.dual() };
    let mut writer = Writer { graph, tables: Tables::new(graph), out: Vec::new(), room };
    for byte in header(side, goal as u8, start as u8) {
        writer.put(byte)?;
    }
    writer.formula(&proved, &env)?;
    Ok((side, writer.out))
}

struct Writer<'g> {
    graph: &'g Graph,
    tables: Tables<'g>,
    out: Vec<u8>,
    room: u64,
}

/// The modality in hand, its truth at every stage, and what the variables outside it stand at.
struct InHand<'m> {
    modal: &'m Modal,
    sheet: &'m Sheet,
    env: &'m Env,
}

impl<'g> Writer<'g> {
    fn put(&mut self, byte: u8) -> Result<(), u64> {
        if self.out.len() as u64 >= self.room {
            return Err(TOO_LONG);
        }
        self.out.push(byte);
        Ok(())
    }

    /// Proves a formula that holds.
    fn formula(&mut self, formula: &Formula, env: &Env) -> Result<(), u64> {
        match formula {
            Formula::Constant(true) => self.put(0),
            Formula::Constant(false) => unreachable!("only what holds is proved"),
            Formula::Atom(atom) => self.put(if atom.positive { 1 } else { 2 }),
            Formula::And(a, b) => {
                self.put(3)?;
                self.formula(a, env)?;
                self.formula(b, env)
            }
            Formula::Or(a, b) => {
                let left = self.tables.holds(a, env);
                self.put(if left { 4 } else { 5 })?;
                self.formula(if left { a } else { b }, env)
            }
            Formula::Modal(modal) => {
                let sheet = self.tables.sheet(modal, env);
                self.modal(&InHand { modal, sheet: &sheet, env }, modal.at.value(env), &mut Vec::new())
            }
        }
    }

    fn modal(&mut self, it: &InHand, stage: usize, walk: &mut Vec<usize>) -> Result<(), u64> {
        let next = &self.graph.next[stage];
        let sheet = it.sheet;
        match it.modal.mode {
            Mode::Ax => {
                self.put(6)?;
                next.iter().try_for_each(|&c| self.a_at(it, c))
            }
            Mode::Ex => {
                let lowest = choose(next, |c| sheet.a[c]);
                self.put(7)?;
                self.put(lowest as u8)?;
                self.a_at(it, lowest)
            }
            Mode::Af if sheet.a[stage] => {
                self.put(8)?;
                self.a_at(it, stage)
            }
            Mode::Af => {
                self.put(9)?;
                self.everywhere(it, stage, walk)
            }
            Mode::Eg if walk.contains(&stage) => self.put(11),
            Mode::Eg => {
                let lowest = choose(next, |c| sheet.truth[c]);
                self.put(10)?;
                self.one_on(it, stage, lowest, walk)
            }
            Mode::Ar if walk.contains(&stage) => self.put(14),
            Mode::Ar if sheet.a[stage] => {
                self.put(12)?;
                self.a_at(it, stage)?;
                self.b_at(it, stage)
            }
            Mode::Ar => {
                self.put(13)?;
                self.b_at(it, stage)?;
                self.everywhere(it, stage, walk)
            }
            Mode::Eu if sheet.b[stage] => {
                self.put(15)?;
                self.b_at(it, stage)
            }
            Mode::Eu => {
                let fewest = next.iter().filter_map(|&c| sheet.steps[c]).min();
                let nearest = choose(next, |c| sheet.steps[c] == fewest);
                self.put(16)?;
                self.one_on(it, stage, nearest, walk)
            }
        }
    }

    fn a_at(&mut self, it: &InHand, stage: usize) -> Result<(), u64> {
        self.formula(&it.modal.a, &bind(it.env, it.modal.x, stage))
    }

    fn b_at(&mut self, it: &InHand, stage: usize) -> Result<(), u64> {
        match &it.modal.b {
            Some(b) => self.formula(b, &bind(it.env, it.modal.y, stage)),
            None => unreachable!("AR and EU have a second entry"),
        }
    }

    /// The modality again at each successor, the stage being on the walk meanwhile.
    fn everywhere(&mut self, it: &InHand, stage: usize, walk: &mut Vec<usize>) -> Result<(), u64> {
        walk.push(stage);
        for &successor in &self.graph.next[stage] {
            self.modal(it, successor, walk)?;
        }
        walk.pop();
        Ok(())
    }

    /// The chosen byte, a here, and the modality again at the chosen successor.
    fn one_on(&mut self, it: &InHand, stage: usize, chosen: usize, walk: &mut Vec<usize>) -> Result<(), u64> {
        self.put(chosen as u8)?;
        self.a_at(it, stage)?;
        walk.push(stage);
        self.modal(it, chosen, walk)?;
        walk.pop();
        Ok(())
    }
}

/// The lowest successor with the property; what holds has one.
fn choose(next: &[usize], property: impl Fn(usize) -> bool) -> usize {
    match next.iter().find(|&&c| property(c)) {
        Some(&c) => c,
        None => unreachable!("a formula that holds has such a successor"),
    }
}
