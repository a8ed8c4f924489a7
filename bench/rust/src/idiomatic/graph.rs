//! Sets of stages, and the graph of a stage image.

use crate::Refusal;

pub fn has(set: u64, stage: usize) -> bool {
    set >> stage & 1 == 1
}

/// The members of a set, ascending.
pub struct Members(pub u64);

impl Iterator for Members {
    type Item = usize;

    fn next(&mut self) -> Option<usize> {
        if self.0 == 0 {
            return None;
        }
        let lowest = self.0.trailing_zeros() as usize;
        self.0 &= self.0 - 1;
        Some(lowest)
    }
}

pub enum Predicate {
    Unary(u64),
    Binary(Vec<u64>),
}

pub struct Graph {
    pub all: u64,
    pub successors: Vec<u64>,
    pub predicates: Vec<Predicate>,
}

impl Graph {
    pub fn read(image: &[u8]) -> Result<Graph, Refusal> {
        if image.len() < 7 || !image.starts_with(b"ZSM\x00\x01") {
            return Err(Refusal::ImageMark);
        }
        let (n, p) = (image[5] as usize, image[6] as usize);
        if !(1..=64).contains(&n) || p > 16 {
            return Err(Refusal::ImageRange);
        }
        let arities = image.get(7..7 + p).ok_or(Refusal::ImageLength)?;
        if arities.iter().any(|arity| !matches!(arity, 1 | 2)) {
            return Err(Refusal::ImageLength);
        }
        let count: usize = n + arities.iter().map(|&arity| if arity == 1 { 1 } else { n }).sum::<usize>();
        let bytes = &image[7 + p..];
        if bytes.len() != 8 * count {
            return Err(Refusal::ImageLength);
        }
        let sets: Vec<u64> = bytes.chunks_exact(8).map(|b| u64::from_be_bytes(b.try_into().unwrap())).collect();
        let all = u64::MAX >> (64 - n);
        if sets.iter().any(|set| set & !all != 0) {
            return Err(Refusal::HighBit);
        }
        let (successors, mut rest) = sets.split_at(n);
        if successors.contains(&0) {
            return Err(Refusal::NoSuccessor);
        }
        let mut predicates = Vec::with_capacity(p);
        for arity in arities {
            let (own, others) = rest.split_at(if *arity == 1 { 1 } else { n });
            predicates.push(if *arity == 1 { Predicate::Unary(own[0]) } else { Predicate::Binary(own.to_vec()) });
            rest = others;
        }
        Ok(Graph { all, successors: successors.to_vec(), predicates })
    }

    /// The stages whose successor sets pass the test.
    fn where_successors(&self, test: impl Fn(u64) -> bool) -> u64 {
        self.successors.iter().enumerate().fold(0, |set, (s, &next)| set | u64::from(test(next)) << s)
    }

    pub fn ax(&self, a: u64) -> u64 {
        self.where_successors(|next| next & !a == 0)
    }

    pub fn ex(&self, a: u64) -> u64 {
        self.where_successors(|next| next & a != 0)
    }

    pub fn af(&self, a: u64) -> u64 {
        fixpoint(a, |set| set | self.ax(set))
    }

    pub fn eg(&self, a: u64) -> u64 {
        fixpoint(a, |set| set & self.ex(set))
    }

    pub fn ar(&self, a: u64, b: u64) -> u64 {
        fixpoint(b, |set| b & (a | self.ax(set)))
    }

    pub fn eu(&self, a: u64, b: u64) -> u64 {
        fixpoint(b, |set| set | a & self.ex(set))
    }

    /// The stages 0, 1, 2 .. steps from b along stages with a.
    pub fn layers(&self, a: u64, b: u64) -> Vec<u64> {
        let (mut layers, mut met, mut layer) = (Vec::new(), b, b);
        while layer != 0 {
            layers.push(layer);
            layer = a & self.ex(layer) & !met;
            met |= layer;
        }
        layers
    }
}

fn fixpoint(mut set: u64, step: impl Fn(u64) -> u64) -> u64 {
    loop {
        let next = step(set);
        if next == set {
            return set;
        }
        set = next;
    }
}
