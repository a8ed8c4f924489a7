//! One pass over the image and one over the table.

use crate::Refusal;

pub const STAGES: usize = 64;
pub const ENTRIES: usize = 64;
pub const VARIABLE: u8 = 64;

pub fn has(set: u64, stage: usize) -> bool {
    set >> (stage & 63) & 1 == 1
}

pub fn bit(stage: usize) -> u64 {
    1 << (stage & 63)
}

pub fn lowest(set: u64) -> usize {
    (set.trailing_zeros() & 63) as usize
}

fn word(bytes: &[u8]) -> [u8; 8] {
    bytes.try_into().expect("8 bytes")
}

/// A graph with its successor sets decoded; the predicates' sets stay bytes, which are read where a set is wanted. Filled in place: a copy
/// of it would cost more than a small question.
pub struct Image<'a> {
    pub n: usize,
    pub all: u64,
    pub successors: [u64; STAGES],
    arities: &'a [u8],
    predicates: &'a [u8],
}

impl<'a> Image<'a> {
    pub fn empty() -> Image<'a> {
        Image { n: 0, all: 0, successors: [0; STAGES], arities: &[], predicates: &[] }
    }

    pub fn read(&mut self, image: &'a [u8]) -> Result<(), Refusal> {
        if image.len() < 7 || image[..5] != *b"ZSM\x00\x01" {
            return Err(Refusal::ImageMark);
        }
        let (n, p) = (image[5] as usize, image[6] as usize);
        if n == 0 || n > STAGES || p > 16 {
            return Err(Refusal::ImageRange);
        }
        let arities = image.get(7..7 + p).ok_or(Refusal::ImageLength)?;
        let mut count = n;
        for &arity in arities {
            count += match arity {
                1 => 1,
                2 => n,
                _ => return Err(Refusal::ImageLength),
            };
        }
        let bytes = &image[7 + p..];
        if bytes.len() != 8 * count {
            return Err(Refusal::ImageLength);
        }
        let (rows, predicates) = bytes.split_at(8 * n);
        let (mut union, mut without) = (0, false);
        for (set, row) in self.successors.iter_mut().zip(rows.chunks_exact(8)) {
            *set = u64::from_be_bytes(word(row));
            union |= *set;
            without |= *set == 0;
        }
        // The order of bytes does not matter for a union.
        let others = predicates.chunks_exact(8).fold(0, |union, set| union | u64::from_ne_bytes(word(set)));
        let all = u64::MAX >> (STAGES - n);
        if (union | u64::from_be(others)) & !all != 0 {
            return Err(Refusal::HighBit);
        }
        if without {
            return Err(Refusal::NoSuccessor);
        }
        self.n = n;
        self.all = all;
        self.arities = arities;
        self.predicates = predicates;
        Ok(())
    }

    /// Set number `index` of the predicates' sets.
    pub fn predicate_set(&self, index: usize) -> u64 {
        self.predicates.get(8 * index..8 * index + 8).map_or(0, |set| u64::from_be_bytes(word(set)))
    }

    pub fn unary_first(&self) -> Option<u64> {
        (self.arities.first() == Some(&1)).then(|| self.predicate_set(0))
    }

    /// Where the sets of a predicate begin, and whether it is of arity 2.
    fn predicate(&self, predicate: u8) -> Option<(u16, bool)> {
        let arity = *self.arities.get(predicate as usize)?;
        let before = self.arities[..predicate as usize].iter();
        let begin = before.map(|&arity| if arity == 1 { 1 } else { self.n as u16 }).sum();
        Some((begin, arity == 2))
    }

    fn is_term(&self, term: u8) -> bool {
        (term as usize) < self.n || (VARIABLE..VARIABLE + 4).contains(&term)
    }
}

/// The variable that a term reads, as a set of variables.
fn reads(term: u8) -> u8 {
    if term < VARIABLE {
        0
    } else {
        1 << (term & 3)
    }
}

/// A record of the table, and what is known of its entry. For an atom `begin` is where its predicate's sets begin, and `b` is at `UNARY`
/// where it has one term.
#[derive(Clone, Copy, Default)]
pub struct Entry {
    pub kind: u8,
    pub a: u8,
    pub b: u8,
    pub x: u8,
    pub y: u8,
    pub t: u8,
    pub begin: u16,
    /// Modalities that nest in it.
    pub nesting: u8,
    /// Variables free in it.
    pub free: u8,
    /// Variables free in the operands, outside what the modality binds in them.
    pub inner: u8,
    /// Variables read inside a modality: where one of these is bound, each stage has to be looked at by itself.
    pub each: u8,
}

pub const UNARY: u8 = 255;

pub struct Question<'a> {
    pub image: Image<'a>,
    pub entries: [Entry; ENTRIES],
}

impl<'a> Question<'a> {
    pub fn empty() -> Question<'a> {
        Question { image: Image::empty(), entries: [Entry::default(); ENTRIES] }
    }

    pub fn read(&mut self, image: &'a [u8], table: &[u8], goal: u64, start: u64) -> Result<(), Refusal> {
        self.image.read(image)?;
        let m = self.read_table(table)?;
        if goal >= m as u64 {
            return Err(Refusal::Goal);
        }
        if start >= self.image.n as u64 {
            return Err(Refusal::Start);
        }
        if self.entry(goal as usize).free & !1 != 0 {
            return Err(Refusal::FreeVariable);
        }
        Ok(())
    }

    pub fn entry(&self, number: usize) -> &Entry {
        &self.entries[number & (ENTRIES - 1)]
    }

    fn read_table(&mut self, table: &[u8]) -> Result<usize, Refusal> {
        if table.len() < 6 || table[..5] != *b"ZSF\x00\x01" {
            return Err(Refusal::TableMark);
        }
        let m = table[5] as usize;
        if m == 0 || m > ENTRIES || table.len() != 6 + 6 * m {
            return Err(Refusal::TableLength);
        }
        let (mut met, mut twice, mut deepest) = (0, 0, 0);
        for (number, r) in table[6..].chunks_exact(6).enumerate() {
            let (entry, operands) = self.read_record([r[0], r[1], r[2], r[3], r[4], r[5]], number)?;
            twice |= operands & met;
            twice |= u64::from(matches!(entry.kind, 4 | 5 | 10 | 11) && entry.a == entry.b);
            met |= operands;
            deepest = deepest.max(entry.nesting);
            self.entries[number & (ENTRIES - 1)] = entry;
        }
        if twice != 0 {
            return Err(Refusal::OperandTwice);
        }
        if deepest > 4 {
            return Err(Refusal::Nesting);
        }
        Ok(m)
    }

    /// An entry, and the set of its operands.
    fn read_record(&self, record: [u8; 6], number: usize) -> Result<(Entry, u64), Refusal> {
        let [kind, a, b, x, y, t] = record;
        let mut entry = Entry { kind, a, b, x, y, t, ..Entry::default() };
        let (below_a, below_b) = (self.entry(a as usize), self.entry(b as usize));
        let lower = |operand: u8| (operand as usize) < number;
        let (fits, operands) = match kind {
            0 | 1 => (a | b | x | y | t == 0, 0),
            2 | 3 => {
                let (begin, binary) = self.image.predicate(a).ok_or(Refusal::Record)?;
                entry.begin = begin;
                entry.free = reads(t) | if binary { reads(b) } else { 0 };
                entry.b = if binary { b } else { UNARY };
                (x | y == 0 && self.image.is_term(t) && if binary { self.image.is_term(b) } else { b == 0 }, 0)
            }
            4 | 5 => {
                entry.nesting = below_a.nesting.max(below_b.nesting);
                entry.free = below_a.free | below_b.free;
                entry.each = below_a.each | below_b.each;
                (x | y | t == 0 && lower(a) && lower(b), bit(a as usize) | bit(b as usize))
            }
            6..=9 => {
                entry.nesting = below_a.nesting + 1;
                entry.inner = below_a.free & !(1 << (x & 3));
                (b | y == 0 && x < 4 && lower(a) && self.image.is_term(t), bit(a as usize))
            }
            10 | 11 => {
                entry.nesting = below_a.nesting.max(below_b.nesting) + 1;
                entry.inner = below_a.free & !(1 << (x & 3)) | below_b.free & !(1 << (y & 3));
                let fits = x < 4 && y < 4 && lower(a) && lower(b) && self.image.is_term(t);
                (fits, bit(a as usize) | bit(b as usize))
            }
            _ => (false, 0),
        };
        if !fits {
            return Err(Refusal::Record);
        }
        if kind >= 6 {
            entry.free = entry.inner | reads(t);
            entry.each = entry.inner;
        }
        Ok((entry, operands))
    }
}
