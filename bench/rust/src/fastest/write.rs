//! The certificate we write, written once, into memory of its own that ends where the buffer would. A proof that is come to again is copied.

use super::read::{bit, has, lowest, Entry, Question, ENTRIES, STAGES};
use super::sets::{bind, stage, Sets};

/// Where a proof begins and ends in what is written.
type Part = (usize, usize);

/// What is kept of a modality, for the values of the variables that its operands read.
struct Kept {
    values: u32,
    /// Where a holds (AF, AR), EG holds, or b holds (EU).
    set: u64,
    /// The stages at which its proof was written, and where.
    proved: u64,
    parts: [Part; STAGES],
    /// The same of the proofs of b; and of the proof at each stage the stages that it came to, and those of them that were on the walk (AR).
    b_proved: u64,
    b_parts: [Part; STAGES],
    met: [u64; STAGES],
    met_on_walk: [u64; STAGES],
    /// How far each stage is from b, and the stages 0, 1, 2 .. steps from it (EU).
    distance: [u8; STAGES],
    layers: [u64; STAGES],
}

pub struct Writer<'a> {
    question: &'a Question<'a>,
    sets: Sets<'a>,
    flip: u8,
    out: Vec<u8>,
    length: usize,
    kept: Vec<Kept>,
    slots: [Option<u8>; ENTRIES],
}

impl<'a> Writer<'a> {
    pub fn new(question: &'a Question<'a>, sets: Sets<'a>, flip: u8, room: usize) -> Writer<'a> {
        let (out, slots) = (vec![0; room], [None; ENTRIES]);
        Writer { question, sets, flip, out, length: 0, kept: Vec::new(), slots }
    }

    pub fn bytes(&self) -> &[u8] {
        &self.out[..self.length]
    }

    pub fn header(&mut self, header: &[u8]) -> Option<()> {
        header.iter().try_for_each(|&byte| self.put(byte))
    }

    fn put(&mut self, byte: u8) -> Option<()> {
        *self.out.get_mut(self.length)? = byte;
        self.length += 1;
        Some(())
    }

    fn copy(&mut self, (begin, end): Part) -> Option<()> {
        let after = self.length + (end - begin);
        if after > self.out.len() {
            return None;
        }
        self.out.copy_within(begin..end, self.length);
        self.length = after;
        Some(())
    }

    fn successors(&self, s: usize) -> u64 {
        self.question.image.successors[s & 63]
    }

    /// The code of a formula that is proved by one step without a choice.
    fn leaf_code(&self, number: u8) -> Option<u8> {
        match self.question.entry(number as usize).kind ^ self.flip {
            0 => Some(0),
            2 => Some(1),
            3 => Some(2),
            _ => None,
        }
    }

    pub fn formula(&mut self, number: usize, env: u32) -> Option<()> {
        let entry = self.question.entry(number);
        match entry.kind ^ self.flip {
            0 => self.put(0),
            2 => self.put(1),
            3 => self.put(2),
            4 => {
                self.put(3)?;
                self.formula(entry.a as usize, env)?;
                self.formula(entry.b as usize, env)
            }
            5 if self.sets.holds(entry.a as usize, env) => {
                self.put(4)?;
                self.formula(entry.a as usize, env)
            }
            5 => {
                self.put(5)?;
                self.formula(entry.b as usize, env)
            }
            _ => self.modality(number, entry, env),
        }
    }

    fn modality(&mut self, number: usize, entry: &Entry, env: u32) -> Option<()> {
        let slot = self.slot(number, entry, env);
        let (s, begin, kind) = (stage(entry.t, env), self.length, entry.kind ^ self.flip);
        if kind == 10 {
            return self.ar(slot, entry, env, s, 0).map(|_| ());
        }
        if has(self.kept[slot].proved, s) {
            return self.copy(self.kept[slot].parts[s]);
        }
        match kind {
            6 => self.ax(entry, env, s)?,
            7 => self.ex(entry, env, s)?,
            8 => self.af(slot, entry, env, s)?,
            9 => self.eg(slot, entry, env, s)?,
            _ => self.eu(slot, entry, env, s)?,
        }
        self.note(slot, s, begin);
        Some(())
    }

    fn note(&mut self, slot: usize, s: usize, begin: usize) {
        let kept = &mut self.kept[slot];
        kept.proved |= bit(s);
        kept.parts[s & 63] = (begin, self.length);
    }

    /// Where a modality's kept things are; they are worked out anew when a variable that its operands read has another stage.
    fn slot(&mut self, number: usize, entry: &Entry, env: u32) -> usize {
        let read = (0..4).filter(|x| entry.inner >> x & 1 == 1).fold(0, |read, x| read | 255 << (8 * x));
        let values = env & read;
        let slot = match self.slots[number & (ENTRIES - 1)] {
            Some(slot) if self.kept[slot as usize].values == values => return slot as usize,
            Some(slot) => slot as usize,
            None => {
                let slot = self.kept.len();
                self.slots[number & (ENTRIES - 1)] = Some(slot as u8);
                self.kept.push(Kept {
                    values,
                    set: 0,
                    proved: 0,
                    parts: [(0, 0); STAGES],
                    b_proved: 0,
                    b_parts: [(0, 0); STAGES],
                    met: [0; STAGES],
                    met_on_walk: [0; STAGES],
                    distance: [0; STAGES],
                    layers: [0; STAGES],
                });
                slot
            }
        };
        let all = self.question.image.all;
        let set = match entry.kind ^ self.flip {
            8 | 10 => self.sets.stages(entry.a as usize, entry.x, env, all),
            9 => self.sets.modality_set(number, entry, env),
            11 => self.distances(slot, entry, env),
            _ => 0,
        };
        let kept = &mut self.kept[slot];
        kept.values = values;
        kept.set = set;
        kept.proved = 0;
        kept.b_proved = 0;
        slot
    }

    fn distances(&mut self, slot: usize, entry: &Entry, env: u32) -> u64 {
        let all = self.question.image.all;
        let a = self.sets.stages(entry.a as usize, entry.x, env, all);
        let b = self.sets.stages(entry.b as usize, entry.y, env, all);
        let graph = self.sets.graph();
        let kept = &mut self.kept[slot];
        let (mut met, mut layer) = (b, b);
        for distance in 0..STAGES {
            kept.layers[distance] = layer;
            let mut left = layer;
            while left != 0 {
                kept.distance[lowest(left)] = distance as u8;
                left &= left - 1;
            }
            layer = graph.before(layer) & a & !met;
            met |= layer;
            if layer == 0 {
                break;
            }
        }
        b
    }

    fn ax(&mut self, entry: &Entry, env: u32, s: usize) -> Option<()> {
        self.put(6)?;
        let mut left = self.successors(s);
        if let Some(code) = self.leaf_code(entry.a) {
            let end = self.length + left.count_ones() as usize;
            self.out.get_mut(self.length..end)?.fill(code);
            self.length = end;
            return Some(());
        }
        while left != 0 {
            self.formula(entry.a as usize, bind(env, entry.x, lowest(left)))?;
            left &= left - 1;
        }
        Some(())
    }

    fn ex(&mut self, entry: &Entry, env: u32, s: usize) -> Option<()> {
        let mut left = self.successors(s);
        while left & (left - 1) != 0 && !self.sets.holds(entry.a as usize, bind(env, entry.x, lowest(left))) {
            left &= left - 1;
        }
        self.put(7)?;
        self.put(lowest(left) as u8)?;
        self.formula(entry.a as usize, bind(env, entry.x, lowest(left)))
    }

    fn af(&mut self, slot: usize, entry: &Entry, env: u32, s: usize) -> Option<()> {
        if has(self.kept[slot].proved, s) {
            return self.copy(self.kept[slot].parts[s & 63]);
        }
        let begin = self.length;
        if has(self.kept[slot].set, s) {
            self.put(8)?;
            self.formula(entry.a as usize, bind(env, entry.x, s))?;
        } else {
            self.put(9)?;
            let mut left = self.successors(s);
            while left != 0 {
                self.af(slot, entry, env, lowest(left))?;
                left &= left - 1;
            }
        }
        self.note(slot, s, begin);
        Some(())
    }

    fn eg(&mut self, slot: usize, entry: &Entry, env: u32, s: usize) -> Option<()> {
        let (mut s, mut walk) = (s, 0);
        while !has(walk, s) {
            let c = lowest(self.successors(s) & self.kept[slot].set);
            self.put(10)?;
            self.put(c as u8)?;
            self.formula(entry.a as usize, bind(env, entry.x, s))?;
            walk |= bit(s);
            s = c;
        }
        self.put(11)
    }

    /// Gives the stages that it came to. A proof can be copied where the same of them are on the walk.
    fn ar(&mut self, slot: usize, entry: &Entry, env: u32, s: usize, walk: u64) -> Option<u64> {
        if has(walk, s) {
            self.put(14)?;
            return Some(bit(s));
        }
        let kept = &self.kept[slot];
        let (known, begin) = (kept.met[s & 63], self.length);
        if has(kept.proved, s) && walk & known == kept.met_on_walk[s & 63] {
            self.copy(kept.parts[s & 63])?;
            return Some(known);
        }
        let mut met = bit(s);
        if has(kept.set, s) {
            self.put(12)?;
            self.formula(entry.a as usize, bind(env, entry.x, s))?;
            self.ar_b(slot, entry, env, s)?;
        } else {
            self.put(13)?;
            self.ar_b(slot, entry, env, s)?;
            let mut left = self.successors(s);
            while left != 0 {
                met |= self.ar(slot, entry, env, lowest(left), walk | bit(s))?;
                left &= left - 1;
            }
        }
        self.note(slot, s, begin);
        self.kept[slot].met[s & 63] = met;
        self.kept[slot].met_on_walk[s & 63] = walk & met;
        Some(met)
    }

    fn ar_b(&mut self, slot: usize, entry: &Entry, env: u32, s: usize) -> Option<()> {
        if has(self.kept[slot].b_proved, s) {
            return self.copy(self.kept[slot].b_parts[s & 63]);
        }
        let begin = self.length;
        self.formula(entry.b as usize, bind(env, entry.y, s))?;
        let kept = &mut self.kept[slot];
        kept.b_proved |= bit(s);
        kept.b_parts[s & 63] = (begin, self.length);
        Some(())
    }

    fn eu(&mut self, slot: usize, entry: &Entry, env: u32, s: usize) -> Option<()> {
        let mut s = s;
        while !has(self.kept[slot].set, s) {
            let kept = &self.kept[slot];
            let nearer = kept.layers[(kept.distance[s & 63] as usize).wrapping_sub(1) & 63];
            let c = lowest(self.successors(s) & nearer);
            self.put(16)?;
            self.put(c as u8)?;
            self.formula(entry.a as usize, bind(env, entry.x, s))?;
            s = c;
        }
        self.put(15)?;
        self.formula(entry.b as usize, bind(env, entry.y, s))
    }
}
