//! Random stage graphs of many shapes, with predicates that are neither always true nor always false for the most part.

use crate::bytes;
use crate::random::Random;

pub struct Draft {
    pub next: Vec<u64>,
    pub predicates: Vec<(u8, Vec<u64>)>,
}

impl Draft {
    pub fn bytes(&self) -> Vec<u8> {
        bytes::image(&self.next, &self.predicates)
    }

    pub fn arities(&self) -> Vec<u8> {
        self.predicates.iter().map(|predicate| predicate.0).collect()
    }
}

/// A number of stages from `least` to `most`: often small, sometimes the least or the most there is.
pub fn stages(rng: &mut Random, least: usize, most: usize) -> usize {
    let n = match rng.below(100) {
        0..=4 => 1,
        5..=29 => rng.between(2, 4),
        30..=59 => rng.between(5, 8),
        60..=79 => rng.between(9, 16),
        80..=88 => rng.between(17, 40),
        89..=93 => rng.between(41, 63),
        _ => 64,
    };
    if least <= n && n <= most {
        n
    } else {
        rng.between(least, most)
    }
}

pub fn predicates(rng: &mut Random) -> usize {
    match rng.below(100) {
        0..=4 => 0,
        5..=69 => rng.between(1, 3),
        70..=92 => rng.between(4, 15),
        _ => 16,
    }
}

pub fn draft(rng: &mut Random, n: usize, p: usize) -> Draft {
    let next = successors(rng, n);
    let predicates = (0..p)
        .map(|_| {
            let arity = if rng.chance(65) { 1 } else { 2 };
            let percent = rng.pick(&[0, 10, 25, 40, 50, 50, 50, 60, 75, 90, 100]);
            let rows = if arity == 1 { 1 } else { n };
            (arity, (0..rows).map(|_| some_of(rng, n, percent)).collect())
        })
        .collect();
    Draft { next, predicates }
}

/// A set in which each stage is with the given chance.
pub fn some_of(rng: &mut Random, n: usize, percent: usize) -> u64 {
    (0..n).filter(|_| rng.chance(percent)).fold(0, |set, stage| set | 1 << stage)
}

fn successors(rng: &mut Random, n: usize) -> Vec<u64> {
    let shape = rng.below(9);
    let percent = rng.pick(&[10, 20, 35, 50, 70, 90]);
    let mut next: Vec<u64> = Vec::new();
    for stage in 0..n {
        let step = 1 << ((stage + 1) % n);
        let last = 1 << stage.max(n - 1);
        let set = match shape {
            // A few random successors.
            0..=2 => (0..rng.between(1, 2 + shape)).fold(0, |set, _| set | 1 << rng.below(n)),
            3 => some_of(rng, n, percent),
            4 => some_of(rng, n, 100),
            // A ring with a chord here and there.
            5 => step | if rng.chance(25) { 1 << rng.below(n) } else { 0 },
            // A ladder: two ways at each rung, an end that stays.
            6 => (1 << (stage / 2 * 2 + 2).min(n - 1)) | (1 << (stage / 2 * 2 + 3).min(n - 1)),
            // Forward only, to an end that stays; few ways back.
            7 if stage + 1 < n => {
                let back = if rng.chance(8) { 1 << rng.below(stage + 1) } else { 0 };
                back | 1 << rng.between(stage + 1, n - 1) | 1 << rng.between(stage + 1, n - 1)
            }
            7 => last,
            // Staying or going one on.
            _ => match rng.below(3) {
                0 => step,
                1 => 1 << stage,
                _ => step | 1 << stage,
            },
        };
        next.push(if set == 0 { 1 << rng.below(n) } else { set });
    }
    next
}
