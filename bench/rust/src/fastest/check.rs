//! The checking of a certificate's steps. Each step is read once. A walk is a loop, with the successors still to be proved on a stack; so
//! is a formula without modalities, with the second halves of its "and"s on another. Where an atom holds is worked out once for a walk.

use super::read::{bit, has, lowest, Entry, Question, ENTRIES, STAGES, UNARY, VARIABLE};
use super::sets::{bind, stage};
use crate::Refusal;

/// Successors that are still to be proved, with the walk that leads to them. No walk has more than 64 stages.
struct Stack {
    frames: [(u64, u64); STAGES],
    top: usize,
}

impl Stack {
    fn new() -> Stack {
        Stack { frames: [(0, 0); STAGES], top: 0 }
    }

    /// The lowest of the successors, with the walk to it; the others stay on the stack.
    #[inline(always)]
    fn on(&mut self, next: u64, walk: u64) -> (usize, u64) {
        let left = next & (next - 1);
        if left != 0 {
            self.frames[self.top & (STAGES - 1)] = (left, walk);
            self.top += 1;
        }
        (lowest(next), walk)
    }

    /// The next stage to be proved, with the walk to it.
    #[inline(always)]
    fn back(&mut self) -> Option<(usize, u64)> {
        let frame = &mut self.frames[self.top.checked_sub(1)? & (STAGES - 1)];
        let (left, walk) = *frame;
        frame.0 = left & (left - 1);
        self.top -= usize::from(frame.0 == 0);
        Some((lowest(left), walk))
    }
}

/// How an entry is proved.
#[derive(Clone, Copy, PartialEq)]
enum Sort {
    /// By its code alone, where its set has the stage of the bound variable.
    Leaf,
    /// An atom that reads the bound variable first of two: tested when it is come to.
    Atom,
    And,
    Or,
    Never,
    Modality,
}

#[derive(Clone, Copy)]
struct Node {
    sort: Sort,
    code: u8,
    a: u8,
    b: u8,
    set: u64,
}

/// An operand of a modality, and the variable bound in it.
#[derive(Clone, Copy)]
struct Operand {
    number: usize,
    x: u8,
    root: Node,
}

pub struct Checker<'a> {
    question: &'a Question<'a>,
    bytes: &'a [u8],
    /// 1 where the dual is proved: a dual has the neighbouring kind.
    flip: u8,
    nodes: [Node; ENTRIES],
    /// The operands whose nodes serve for good, as they read no variable but the bound one.
    lasting: u64,
    seconds: [u8; ENTRIES],
    waiting: usize,
    why: Refusal,
}

impl<'a> Checker<'a> {
    pub fn new(question: &'a Question<'a>, bytes: &'a [u8], flip: u8) -> Checker<'a> {
        Checker {
            question,
            bytes,
            flip,
            nodes: [Node { sort: Sort::Never, code: 0, a: 0, b: 0, set: 0 }; ENTRIES],
            lasting: 0,
            seconds: [0; ENTRIES],
            waiting: 0,
            why: Refusal::Missing,
        }
    }

    /// The proof of the goal, from a place on; where it ends.
    pub fn goal(&mut self, goal: usize, start: usize, at: usize) -> Option<usize> {
        let operand = self.operand(goal as u8, 0, 0);
        self.proved(&operand, 0, start, at)
    }

    /// Why a step was refused. Where nothing was noted, a byte was missing.
    pub fn refusal(&self) -> Refusal {
        self.why
    }

    #[cold]
    fn refuse(&mut self, why: Refusal) -> Option<usize> {
        self.why = why;
        None
    }

    fn successors(&self, s: usize) -> u64 {
        self.question.image.successors[s & 63]
    }

    fn operand(&mut self, number: u8, x: u8, env: u32) -> Operand {
        let number = number as usize & (ENTRIES - 1);
        if !has(self.lasting, number) {
            self.prepare(number, x, env);
            if self.question.entry(number).free & !(1 << x) == 0 {
                self.lasting |= bit(number);
            }
        }
        Operand { number, x, root: self.nodes[number] }
    }

    /// Prepares the nodes of an entry and of the entries below it, down to the next modalities.
    fn prepare(&mut self, number: usize, x: u8, env: u32) {
        let entry = self.question.entry(number);
        let all = self.question.image.all;
        let kind = entry.kind ^ self.flip;
        let (sort, code, set) = match kind {
            0 => (Sort::Leaf, 0, all),
            1 => (Sort::Never, 0, 0),
            2 | 3 => match self.atom_set(entry, x, env) {
                Some(set) => (Sort::Leaf, kind - 1, if kind == 2 { set } else { !set }),
                None => (Sort::Atom, kind - 1, 0),
            },
            4 | 5 => {
                self.prepare(entry.a as usize, x, env);
                self.prepare(entry.b as usize, x, env);
                (if kind == 4 { Sort::And } else { Sort::Or }, 0, 0)
            }
            _ => (Sort::Modality, 0, 0),
        };
        self.nodes[number & (ENTRIES - 1)] = Node { sort, code, a: entry.a, b: entry.b, set };
    }

    /// The stages at which an atom holds, but where that takes a look at every stage.
    fn atom_set(&self, entry: &Entry, x: u8, env: u32) -> Option<u64> {
        let (image, begin, variable) = (&self.question.image, entry.begin as usize, VARIABLE + x);
        let all_or_none = |holds: bool| if holds { u64::MAX } else { 0 };
        if entry.b == UNARY {
            let set = image.predicate_set(begin);
            return Some(if entry.t == variable { set } else { all_or_none(has(set, stage(entry.t, env))) });
        }
        if entry.t == variable {
            return None;
        }
        let set = image.predicate_set(begin + stage(entry.t, env));
        Some(if entry.b == variable { set } else { all_or_none(has(set, stage(entry.b, env))) })
    }

    /// The proof of an operand at a stage. "Or"s down to a leaf or a modality are read here; `tree` reads everything.
    #[inline(always)]
    fn proved(&mut self, operand: &Operand, env: u32, s: usize, at: usize) -> Option<usize> {
        let (mut number, mut node, mut place) = (operand.number, &operand.root, at);
        while let Sort::Or = node.sort {
            number = match *self.bytes.get(place)? {
                4 => node.a as usize,
                5 => node.b as usize,
                _ => return self.refuse(Refusal::Code),
            };
            place += 1;
            node = &self.nodes[number & (ENTRIES - 1)];
        }
        match node.sort {
            Sort::Leaf => {}
            Sort::Modality => return self.modality(number, bind(env, operand.x, s), place),
            _ => return self.tree(operand, env, s, at),
        }
        if *self.bytes.get(place)? != node.code {
            return self.refuse(Refusal::Code);
        }
        if !has(node.set, s) {
            return self.refuse(Refusal::Condition);
        }
        Some(place + 1)
    }

    #[inline(never)]
    fn tree(&mut self, operand: &Operand, env: u32, s: usize, at: usize) -> Option<usize> {
        let (bytes, base, env) = (self.bytes, self.waiting, bind(env, operand.x, s));
        let (mut number, mut at) = (operand.number, at);
        loop {
            let node = self.nodes[number & (ENTRIES - 1)];
            if node.sort == Sort::Modality {
                at = self.modality(number, env, at)?;
            } else {
                let code = *bytes.get(at)?;
                at += 1;
                match node.sort {
                    Sort::Or if code == 4 || code == 5 => {
                        number = if code == 4 { node.a } else { node.b } as usize;
                        continue;
                    }
                    Sort::And if code == 3 => {
                        self.seconds[self.waiting & (ENTRIES - 1)] = node.b;
                        self.waiting += 1;
                        number = node.a as usize;
                        continue;
                    }
                    Sort::Leaf if code == node.code => {
                        if !has(node.set, s) {
                            return self.refuse(Refusal::Condition);
                        }
                    }
                    Sort::Atom if code == node.code => {
                        if !self.atom_holds(number, env) {
                            return self.refuse(Refusal::Condition);
                        }
                    }
                    _ => return self.refuse(Refusal::Code),
                }
            }
            if self.waiting == base {
                return Some(at);
            }
            self.waiting -= 1;
            number = self.seconds[self.waiting & (ENTRIES - 1)] as usize;
        }
    }

    fn atom_holds(&self, number: usize, env: u32) -> bool {
        let entry = self.question.entry(number);
        let row = self.question.image.predicate_set(entry.begin as usize + stage(entry.t, env));
        has(row, stage(entry.b, env)) == (entry.kind ^ self.flip == 2)
    }

    #[inline(never)]
    fn modality(&mut self, number: usize, env: u32, at: usize) -> Option<usize> {
        let entry = self.question.entry(number);
        match entry.kind ^ self.flip {
            6 => self.ax(entry, env, at),
            7 => self.ex(entry, env, at),
            8 => self.af(entry, env, at),
            9 => self.eg(entry, env, at),
            10 => self.ar(entry, env, at),
            _ => self.eu(entry, env, at),
        }
    }

    fn ax(&mut self, entry: &Entry, env: u32, at: usize) -> Option<usize> {
        if *self.bytes.get(at)? != 6 {
            return self.refuse(Refusal::Code);
        }
        let a = self.operand(entry.a, entry.x, env);
        let (mut left, mut at) = (self.successors(stage(entry.t, env)), at + 1);
        if a.root.sort == Sort::Leaf && left & !a.root.set == 0 {
            let end = at + left.count_ones() as usize;
            let codes = self.bytes.get(at..end);
            if codes.map_or(false, |codes| codes.iter().fold(0, |other, &c| other | (c ^ a.root.code)) == 0) {
                return Some(end);
            }
        }
        while left != 0 {
            at = self.proved(&a, env, lowest(left), at)?;
            left &= left - 1;
        }
        Some(at)
    }

    fn ex(&mut self, entry: &Entry, env: u32, at: usize) -> Option<usize> {
        if *self.bytes.get(at)? != 7 {
            return self.refuse(Refusal::Code);
        }
        let c = *self.bytes.get(at + 1)? as usize;
        if c >= 64 || !has(self.successors(stage(entry.t, env)), c) {
            return self.refuse(Refusal::Condition);
        }
        let a = self.operand(entry.a, entry.x, env);
        self.proved(&a, env, c, at + 2)
    }

    fn af(&mut self, entry: &Entry, env: u32, at: usize) -> Option<usize> {
        let a = self.operand(entry.a, entry.x, env);
        let (bytes, mut stack) = (self.bytes, Stack::new());
        let (mut here, mut at) = ((stage(entry.t, env), 0), at);
        loop {
            let (s, walk) = here;
            let code = *bytes.get(at)?;
            if code & !1 != 8 {
                return self.refuse(Refusal::Code);
            }
            if has(walk, s) {
                return self.refuse(Refusal::Condition);
            }
            at += 1;
            if code == 9 {
                here = stack.on(self.successors(s), walk | bit(s));
                continue;
            }
            at = self.proved(&a, env, s, at)?;
            match stack.back() {
                Some(next) => here = next,
                None => return Some(at),
            }
        }
    }

    fn ar(&mut self, entry: &Entry, env: u32, at: usize) -> Option<usize> {
        let (a, b) = (self.operand(entry.a, entry.x, env), self.operand(entry.b, entry.y, env));
        let (bytes, mut stack) = (self.bytes, Stack::new());
        let (mut here, mut at) = ((stage(entry.t, env), 0), at);
        loop {
            let (s, walk) = here;
            let code = *bytes.get(at)?;
            if !(12..=14).contains(&code) {
                return self.refuse(Refusal::Code);
            }
            if has(walk, s) != (code == 14) {
                return self.refuse(Refusal::Condition);
            }
            at += 1;
            if code == 13 {
                at = self.proved(&b, env, s, at)?;
                here = stack.on(self.successors(s), walk | bit(s));
                continue;
            }
            if code == 12 {
                at = self.proved(&a, env, s, at)?;
                at = self.proved(&b, env, s, at)?;
            }
            match stack.back() {
                Some(next) => here = next,
                None => return Some(at),
            }
        }
    }

    fn eg(&mut self, entry: &Entry, env: u32, at: usize) -> Option<usize> {
        let a = self.operand(entry.a, entry.x, env);
        let (bytes, mut s, mut walk, mut at) = (self.bytes, stage(entry.t, env), 0, at);
        loop {
            match *bytes.get(at)? {
                10 => {
                    let c = *bytes.get(at + 1)? as usize;
                    if has(walk, s) || c >= 64 || !has(self.successors(s), c) {
                        return self.refuse(Refusal::Condition);
                    }
                    at = self.proved(&a, env, s, at + 2)?;
                    walk |= bit(s);
                    s = c;
                }
                11 if has(walk, s) => return Some(at + 1),
                11 => return self.refuse(Refusal::Condition),
                _ => return self.refuse(Refusal::Code),
            }
        }
    }

    fn eu(&mut self, entry: &Entry, env: u32, at: usize) -> Option<usize> {
        let (a, b) = (self.operand(entry.a, entry.x, env), self.operand(entry.b, entry.y, env));
        let (bytes, mut s, mut walk, mut at) = (self.bytes, stage(entry.t, env), 0, at);
        loop {
            match *bytes.get(at)? {
                15 if has(walk, s) => return self.refuse(Refusal::Condition),
                15 => return self.proved(&b, env, s, at + 1),
                16 => {
                    let c = *bytes.get(at + 1)? as usize;
                    if has(walk, s) || c >= 64 || !has(self.successors(s), c) {
                        return self.refuse(Refusal::Condition);
                    }
                    at = self.proved(&a, env, s, at + 2)?;
                    walk |= bit(s);
                    s = c;
                }
                _ => return self.refuse(Refusal::Code),
            }
        }
    }
}
