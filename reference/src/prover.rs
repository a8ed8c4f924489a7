//! Random proofs: any rule that can be carried through, not the one that our certificate takes. On demand with a slip
//! of the kind a careless checker would let pass.

use crate::by_tables::{Sheet, Tables};
use crate::formula::{bind, Env, Formula, Modal, Mode};
use crate::image::Graph;
use crate::random::Random;

#[derive(Clone, Copy, PartialEq, Eq, Debug)]
pub enum Slip {
    None,
    /// Merges on a stage that a sibling branch stood on.
    Sibling,
    /// An inner modality starts with the outer one's walk.
    OuterWalk,
    /// Steps back on its own walk and goes on from there.
    Revisit,
    /// Proves one successor where all are asked for.
    OneSuccessor,
    /// Carries x of AR or EU into b.
    Leak,
    /// Takes a rule now and then without asking whether its premises hold.
    Blind,
}

pub const SLIPS: [Slip; 8] = [
    Slip::Sibling,
    Slip::OuterWalk,
    Slip::Revisit,
    Slip::Revisit,
    Slip::OneSuccessor,
    Slip::Leak,
    Slip::Blind,
    Slip::Blind,
];

/// The steps of a proof of a formula that holds; nothing where they would pass `most` bytes or the slip leads nowhere.
pub fn steps(
    rng: &mut Random,
    graph: &Graph,
    formula: &Formula,
    env: &Env,
    most: usize,
    slip: Slip,
) -> Option<Vec<u8>> {
    let mut prover = Prover { rng, graph, tables: Tables::new(graph), out: Vec::new(), most, slip };
    prover.formula(formula, env, &[])?;
    Some(prover.out)
}

struct Prover<'p> {
    rng: &'p mut Random,
    graph: &'p Graph,
    tables: Tables<'p>,
    out: Vec<u8>,
    most: usize,
    slip: Slip,
}

/// A modality in hand: its operands' values and the environment outside it.
struct Hand<'h> {
    modal: &'h Modal,
    sheet: &'h Sheet,
    env: &'h Env,
}

impl<'p> Prover<'p> {
    fn put(&mut self, byte: usize) -> Option<()> {
        if self.out.len() >= self.most {
            return None;
        }
        self.out.push(byte as u8);
        Some(())
    }

    fn blind(&mut self) -> bool {
        self.slip == Slip::Blind && self.rng.chance(20)
    }

    fn formula(&mut self, formula: &Formula, env: &Env, outer: &[usize]) -> Option<()> {
        match formula {
            Formula::Constant(_) => self.put(0),
            Formula::Atom(atom) => self.put(if atom.positive { 1 } else { 2 }),
            Formula::And(a, b) => {
                self.put(3)?;
                self.formula(a, env, outer)?;
                self.formula(b, env, outer)
            }
            Formula::Or(a, b) => {
                let (left, right) = (self.tables.holds(a, env), self.tables.holds(b, env));
                let take_left = if left == right || self.blind() { self.rng.chance(50) } else { left };
                self.put(if take_left { 4 } else { 5 })?;
                self.formula(if take_left { a } else { b }, env, outer)
            }
            Formula::Modal(modal) => {
                let sheet = self.tables.sheet(modal, env);
                let hand = Hand { modal, sheet: &sheet, env };
                let mut walk = if self.slip == Slip::OuterWalk { outer.to_vec() } else { Vec::new() };
                self.modal(&hand, modal.at.value(env), &mut walk)
            }
        }
    }

    fn modal(&mut self, hand: &Hand, stage: usize, walk: &mut Vec<usize>) -> Option<()> {
        let graph = self.graph;
        let next = &graph.next[stage];
        match hand.modal.mode {
            Mode::Ax => {
                self.put(6)?;
                for &successor in self.asked(next) {
                    self.a_at(hand, successor, walk)?;
                }
                Some(())
            }
            Mode::Ex => {
                let blind = self.blind();
                let chosen = self.one_of(next, |c| blind || hand.sheet.a[c])?;
                self.put(7)?;
                self.put(chosen)?;
                self.a_at(hand, chosen, walk)
            }
            Mode::Af => self.af(hand, stage, walk),
            Mode::Eg => self.eg(hand, stage, walk),
            Mode::Ar => self.ar(hand, stage, walk),
            Mode::Eu => self.eu(hand, stage, walk),
        }
    }

    fn af(&mut self, hand: &Hand, stage: usize, walk: &mut Vec<usize>) -> Option<()> {
        let graph = self.graph;
        let next = &graph.next[stage];
        let provable = inevitable(graph, &hand.sheet.a, &with(walk, stage));
        let careless = self.slip == Slip::Revisit && self.rng.chance(if walk.contains(&stage) { 30 } else { 60 });
        let later = next.iter().all(|&c| provable[c] || careless && hand.sheet.a[c]);
        let now = hand.sheet.a[stage] || self.blind();
        if now && (!later || self.rng.chance(60)) {
            self.put(8)?;
            return self.a_at(hand, stage, walk);
        }
        if !later {
            return None;
        }
        self.put(9)?;
        self.everywhere(hand, stage, walk)
    }

    fn eg(&mut self, hand: &Hand, stage: usize, walk: &mut Vec<usize>) -> Option<()> {
        let graph = self.graph;
        if walk.contains(&stage) && !(self.slip == Slip::Revisit && self.rng.chance(50)) {
            return self.put(11);
        }
        let chosen = self.one_of(&graph.next[stage], |c| hand.sheet.truth[c])?;
        self.put(10)?;
        self.one_on(hand, (stage, chosen), walk)
    }

    fn ar(&mut self, hand: &Hand, stage: usize, walk: &mut Vec<usize>) -> Option<()> {
        let graph = self.graph;
        if walk.contains(&stage) && !(self.slip == Slip::Revisit && self.rng.chance(40)) {
            return self.put(14);
        }
        let on = graph.next[stage].iter().all(|&c| hand.sheet.truth[c]);
        let release = hand.sheet.a[stage] || self.blind();
        if release && (!on || self.rng.chance(60)) {
            self.put(12)?;
            self.a_at(hand, stage, walk)?;
            return self.b_at(hand, stage, walk);
        }
        self.put(13)?;
        self.b_at(hand, stage, walk)?;
        self.everywhere(hand, stage, walk)
    }

    fn eu(&mut self, hand: &Hand, stage: usize, walk: &mut Vec<usize>) -> Option<()> {
        let graph = self.graph;
        let next = &graph.next[stage];
        let within = reachable(graph, &hand.sheet.a, &hand.sheet.b, &with(walk, stage));
        let back = self.slip == Slip::Revisit && self.rng.chance(40);
        let chosen =
            if hand.sheet.a[stage] { self.one_of(next, |c| within[c] || back && hand.sheet.truth[c]) } else { None };
        let now = hand.sheet.b[stage] || self.blind();
        match chosen {
            Some(chosen) if !now || self.rng.chance(50) => {
                self.put(16)?;
                self.one_on(hand, (stage, chosen), walk)
            }
            _ if now => {
                self.put(15)?;
                self.b_at(hand, stage, walk)
            }
            _ => None,
        }
    }

    fn a_at(&mut self, hand: &Hand, stage: usize, walk: &[usize]) -> Option<()> {
        self.formula(&hand.modal.a, &bind(hand.env, hand.modal.x, stage), &with(walk, stage))
    }

    fn b_at(&mut self, hand: &Hand, stage: usize, walk: &[usize]) -> Option<()> {
        let mut env = bind(hand.env, hand.modal.y, stage);
        if self.slip == Slip::Leak {
            env = bind(&env, hand.modal.x, stage);
        }
        let b = hand.modal.b.as_ref()?;
        if self.slip == Slip::Leak && !self.tables.holds(b, &env) {
            return None;
        }
        self.formula(b, &env, &with(walk, stage))
    }

    fn everywhere(&mut self, hand: &Hand, stage: usize, walk: &mut Vec<usize>) -> Option<()> {
        let graph = self.graph;
        let before = walk.len();
        walk.push(stage);
        for &successor in self.asked(&graph.next[stage]) {
            self.modal(hand, successor, walk)?;
        }
        // With the slip, what one branch stood on stays for its siblings.
        if self.slip != Slip::Sibling {
            walk.truncate(before);
        }
        Some(())
    }

    fn one_on(&mut self, hand: &Hand, (stage, chosen): (usize, usize), walk: &mut Vec<usize>) -> Option<()> {
        self.put(chosen)?;
        self.a_at(hand, stage, walk)?;
        walk.push(stage);
        self.modal(hand, chosen, walk)?;
        walk.pop();
        Some(())
    }

    fn asked<'n>(&self, next: &'n [usize]) -> &'n [usize] {
        if self.slip == Slip::OneSuccessor {
            &next[..1]
        } else {
            next
        }
    }

    fn one_of(&mut self, next: &[usize], property: impl Fn(usize) -> bool) -> Option<usize> {
        let able: Vec<usize> = next.iter().copied().filter(|&c| property(c)).collect();
        if able.is_empty() {
            None
        } else {
            Some(self.rng.pick(&able))
        }
    }
}

fn with(walk: &[usize], stage: usize) -> Vec<usize> {
    let mut longer = walk.to_vec();
    longer.push(stage);
    longer
}

/// Where AF can be proved without standing on the walk: rounds of adding stages until nothing changes.
fn inevitable(graph: &Graph, a: &[bool], walk: &[usize]) -> Vec<bool> {
    let mut sure: Vec<bool> = (0..graph.n).map(|stage| a[stage] && !walk.contains(&stage)).collect();
    loop {
        let more: Vec<usize> = (0..graph.n)
            .filter(|&stage| !sure[stage] && !walk.contains(&stage) && graph.next[stage].iter().all(|&c| sure[c]))
            .collect();
        if more.is_empty() {
            return sure;
        }
        more.iter().for_each(|&stage| sure[stage] = true);
    }
}

/// Where EU can be proved without standing on the walk.
fn reachable(graph: &Graph, a: &[bool], b: &[bool], walk: &[usize]) -> Vec<bool> {
    let mut sure: Vec<bool> = (0..graph.n).map(|stage| b[stage] && !walk.contains(&stage)).collect();
    loop {
        let more: Vec<usize> = (0..graph.n)
            .filter(|&stage| {
                !sure[stage] && a[stage] && !walk.contains(&stage) && graph.next[stage].iter().any(|&c| sure[c])
            })
            .collect();
        if more.is_empty() {
            return sure;
        }
        more.iter().for_each(|&stage| sure[stage] = true);
    }
}
