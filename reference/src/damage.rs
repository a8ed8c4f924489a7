//! Damage done to a readable setup, aimed at one refusal each. What comes of it is for the readers to say: a damage may
//! miss its aim, and two together show which number comes first.

use crate::cases::Case;
use crate::image;
use crate::random::Random;
use crate::services;
use crate::table::{self, operands};

/// Damages the image (aim 1 to 5), the table (6 to 10), the goal or the start (11 to 13).
pub fn spoil(rng: &mut Random, case: &mut Case, aim: u64) {
    match aim {
        1 => front(rng, &mut case.image, 7),
        2 => stage_count(rng, &mut case.image),
        3 => lengths(rng, &mut case.image),
        4 => high_bit(rng, &mut case.image),
        5 => no_successor(rng, &mut case.image),
        6 => front(rng, &mut case.table, 6),
        7 => entry_count(rng, &mut case.table),
        8 => record(rng, case),
        9 => operand_twice(rng, &mut case.table),
        10 => nest_deeper(rng, case),
        11 => case.goal = wide(rng, case.goal, u64::from(byte_at(&case.table, 5))),
        12 => case.start = wide(rng, case.start, u64::from(byte_at(&case.image, 5))),
        _ => free_variable(rng, case),
    }
}

/// One byte anywhere in the image or the table becomes another.
pub fn any_byte(rng: &mut Random, case: &mut Case) {
    let part = if rng.chance(50) { &mut case.image } else { &mut case.table };
    if !part.is_empty() {
        let at = rng.below(part.len());
        part[at] = other_byte(rng, part[at]);
    }
}

pub fn other_byte(rng: &mut Random, byte: u8) -> u8 {
    if rng.chance(50) {
        byte ^ (1 << rng.below(8))
    } else {
        byte.wrapping_add(rng.between(1, 255) as u8)
    }
}

fn byte_at(bytes: &[u8], at: usize) -> u8 {
    bytes.get(at).copied().unwrap_or(0)
}

fn set_byte(bytes: &mut [u8], at: usize, value: u8) {
    if let Some(byte) = bytes.get_mut(at) {
        *byte = value;
    }
}

/// Too short, a wrong mark or a wrong version.
pub fn front(rng: &mut Random, bytes: &mut Vec<u8>, least: usize) {
    match rng.below(4) {
        0 => bytes.truncate(rng.below(least)),
        1 => {
            let at = rng.below(3);
            let value = other_byte(rng, byte_at(bytes, at));
            set_byte(bytes, at, value);
        }
        _ => {
            let version = rng.pick(&[[0, 0], [0, 2], [1, 0], [1, 1], [255, 255], [0, 3], [128, 1]]);
            set_byte(bytes, 3, version[0]);
            set_byte(bytes, 4, version[1]);
        }
    }
}

fn stage_count(rng: &mut Random, image: &mut [u8]) {
    if rng.chance(50) {
        set_byte(image, 5, rng.pick(&[0, 65, 66, 128, 255]));
    } else {
        set_byte(image, 6, rng.pick(&[17, 18, 64, 255]));
    }
}

fn lengths(rng: &mut Random, image: &mut Vec<u8>) {
    let (n, p) = (byte_at(image, 5), byte_at(image, 6));
    match rng.below(8) {
        0 => image.truncate(image.len().saturating_sub(rng.pick(&[1, 1, 2, 7, 8, 16]))),
        1 => image.extend(vec![0; rng.pick(&[1, 1, 2, 7, 8, 512])]),
        2 if p > 0 => set_byte(image, 7 + rng.below(p as usize), rng.pick(&[0, 3, 4, 255])),
        3 if p > 0 => {
            let at = 7 + rng.below(p as usize);
            let swapped = 3_u8.wrapping_sub(byte_at(image, at));
            set_byte(image, at, swapped);
        }
        4 => image.truncate(7 + rng.below(p as usize + 1)),
        5 => set_byte(image, 5, if rng.chance(50) && n > 1 { n - 1 } else { n.saturating_add(1).min(64) }),
        6 => set_byte(image, 6, if rng.chance(50) && p > 0 { p - 1 } else { p.saturating_add(1).min(16) }),
        _ => {
            let most = image.len().max(8);
            image.truncate(rng.between(7, most - 1));
        }
    }
}

/// Where set number `set` begins.
fn set_place(image: &[u8], set: usize) -> usize {
    7 + byte_at(image, 6) as usize + 8 * set
}

fn high_bit(rng: &mut Random, image: &mut [u8]) {
    let n = byte_at(image, 5) as usize;
    let sets = image.len().saturating_sub(set_place(image, 0)) / 8;
    if n < 64 && sets > 0 {
        let bit = if rng.chance(50) { n } else { rng.between(n, 63) };
        let set = if rng.chance(30) { sets - 1 } else { rng.below(sets) };
        let at = set_place(image, set) + 7 - bit / 8;
        let value = byte_at(image, at) | 1 << (bit % 8);
        set_byte(image, at, value);
    }
}

fn no_successor(rng: &mut Random, image: &mut [u8]) {
    let n = (byte_at(image, 5) as usize).max(1);
    let at = set_place(image, rng.below(n));
    for offset in 0..8 {
        set_byte(image, at + offset, 0);
    }
}

fn entry_count(rng: &mut Random, table: &mut Vec<u8>) {
    let m = byte_at(table, 5);
    match rng.below(5) {
        0 => set_byte(table, 5, rng.pick(&[0, 65, 66, 255])),
        1 => set_byte(table, 5, if rng.chance(50) { m.wrapping_add(1) } else { m.wrapping_sub(1) }),
        2 => table.extend(vec![0; rng.pick(&[1, 5, 6, 12])]),
        3 => table.truncate(table.len().saturating_sub(rng.pick(&[1, 1, 5, 6]))),
        _ => {
            let most = table.len().max(7);
            table.truncate(rng.between(6, most - 1));
        }
    }
}

fn records(table: &[u8]) -> usize {
    table.len().saturating_sub(6) / 6
}

/// Breaks the rules of one record's kind: first which field of which sort of record, so that rare ones have their turn,
/// then one such record, then a value that the field may not have.
fn record(rng: &mut Random, case: &mut Case) {
    let mut faults: Vec<(usize, usize, Vec<u8>)> = Vec::new();
    for own in 0..records(&case.table) {
        for field in 0..6 {
            let (sort, bad) = bad_values(case, own, field);
            if !bad.is_empty() {
                faults.push((6 * sort + field, 6 + 6 * own + field, bad));
            }
        }
    }
    if faults.is_empty() {
        return;
    }
    let mut classes: Vec<usize> = faults.iter().map(|fault| fault.0).collect();
    classes.sort_unstable();
    classes.dedup();
    let class = rng.pick(&classes);
    faults.retain(|fault| fault.0 == class);
    let (_, at, bad) = &faults[rng.below(faults.len())];
    let value = match rng.below(4) {
        0 | 1 => bad[0],
        2 if bad.contains(&68) => 68,
        _ => rng.pick(bad),
    };
    case.table[*at] = value;
}

/// The sort of a record, and the values that its field may not have.
fn bad_values(case: &Case, own: usize, field: usize) -> (usize, Vec<u8>) {
    let at = 6 + 6 * own;
    let (kind, predicate) = (case.table[at], case.table[at + 1] as usize);
    let (n, p) = (byte_at(&case.image, 5), byte_at(&case.image, 6));
    let arity = byte_at(&case.image, 7 + predicate);
    let sort = match kind {
        0 | 1 => 0,
        2 | 3 if arity == 1 => 1,
        2 | 3 => 2,
        4 | 5 => 3,
        6..=9 => 4,
        _ => 5,
    };
    let is_bad = |value: u8| match (sort, field) {
        (_, 0) => value > 11,
        (1 | 2, 1) => value >= p,
        (3..=5, 1) | (3 | 5, 2) => value as usize >= own,
        (4 | 5, 3) | (5, 4) => value > 3,
        (2, 2) | (1 | 2 | 4 | 5, 5) => value >= n && !(64..=67).contains(&value),
        _ => value != 0,
    };
    (sort, (0..=255).filter(|&value| is_bad(value)).collect())
}

/// Puts a record at the end, if the table is whole and has room for it.
fn append(table: &mut Vec<u8>, record: [u8; 6]) -> bool {
    let count = records(table);
    let room = count < 64 && table.len() == 6 + 6 * count && byte_at(table, 5) as usize == count;
    if room {
        table.extend_from_slice(&record);
        table[5] += 1;
    }
    room
}

fn operand_twice(rng: &mut Random, table: &mut Vec<u8>) {
    let mut slots: Vec<(usize, usize)> = Vec::new();
    for own in 0..records(table) {
        let at = 6 + 6 * own;
        let fields = [table[at], 0, 0, 0, 0, 0];
        slots.extend((0..operands(&fields).len()).map(|place| (own, at + 1 + place)));
    }
    for _ in 0..8 {
        if slots.len() < 2 {
            break;
        }
        let (from, to) = (rng.pick(&slots), rng.pick(&slots));
        if from != to && (table[from.1] as usize) < to.0 {
            table[to.1] = table[from.1];
            return;
        }
    }
    let first = records(table) as u8;
    if append(table, [rng.below(2) as u8, 0, 0, 0, 0, 0]) {
        append(table, [rng.pick(&[4, 5]), first, first, 0, 0, 0]);
    }
}

/// Five modalities over each other, beside the goal or as the goal.
fn nest_deeper(rng: &mut Random, case: &mut Case) {
    if records(&case.table) > 57 {
        return;
    }
    let wrap = rng.chance(40) && !is_operand(case);
    if !wrap && !append(&mut case.table, [0; 6]) {
        return;
    }
    let mut below = if wrap { case.goal as u8 } else { (records(&case.table) - 1) as u8 };
    for _ in 0..5 {
        let bound = rng.below(4) as u8;
        let kind = rng.between(6, 9) as u8;
        if !append(&mut case.table, [kind, below, 0, bound, 0, 64]) {
            return;
        }
        below = (records(&case.table) - 1) as u8;
    }
    if wrap || rng.chance(30) {
        case.goal = u64::from(below);
    }
    // The deepest entry need not be the last.
    if rng.chance(50) {
        append(&mut case.table, [1, 0, 0, 0, 0, 0]);
    }
}

fn is_operand(case: &Case) -> bool {
    case.table.get(6..).unwrap_or(&[]).chunks_exact(6).any(|r| {
        let record = [r[0], r[1], r[2], r[3], r[4], r[5]];
        operands(&record).contains(&(case.goal as usize))
    })
}

/// A number at or past its limit, some of them such that their low byte is the right one.
fn wide(rng: &mut Random, right: u64, limit: u64) -> u64 {
    match rng.below(7) {
        0 | 1 => limit,
        2 => limit + 1 + rng.below(8) as u64,
        3 => right.wrapping_add(256 * rng.between(1, 255) as u64),
        4 => right.wrapping_add(1 << rng.between(8, 63)),
        5 => rng.pick(&[255, 256, u64::MAX, 1 << 63, u64::from(u32::MAX)]),
        _ => rng.word(),
    }
}

/// Takes a goal in which variable 1, 2 or 3 is free, or frees one.
fn free_variable(rng: &mut Random, case: &mut Case) {
    let graph = match image::read(&case.image) {
        Ok(graph) => graph,
        Err(_) => return,
    };
    let whole = match table::read(&graph, &case.table) {
        Ok(whole) => whole,
        Err(_) => return,
    };
    let open: Vec<usize> =
        (0..whole.records.len()).filter(|&entry| whole.formula(entry).free()[1..].contains(&true)).collect();
    if !open.is_empty() && rng.chance(60) {
        case.goal = rng.pick(&open) as u64;
        return;
    }
    for _ in 0..20 {
        let own = rng.below(whole.records.len());
        let field = rng.pick(&[2, 5]);
        let mut tried = case.clone();
        tried.table[6 + 6 * own + field] = 65 + rng.below(3) as u8;
        if services::read(&tried.image, &tried.table, tried.goal, tried.start).err() == Some(13) {
            *case = tried;
            return;
        }
    }
}
