//! Cases whose answers are known beforehand: the marked cases of the document and inputs that tell two readings of its
//! words apart. They stand at the front of every file of cases, and the tests run them all.

use crate::bytes::{header, hex, image, table};
use crate::cases::{Answer, Case, CHECK, DEAD, PROGRAM, VERDICT, WRITE};
use crate::frame;
use crate::services::FILL;

pub struct Known {
    pub name: &'static str,
    pub case: Case,
    pub answer: Answer,
    /// For checking: where the fault is.
    pub place: Option<usize>,
}

const YES: u64 = 128;
const NO: u64 = 129;

const TRUE: [u8; 6] = [0; 6];
const FALSE: [u8; 6] = [1, 0, 0, 0, 0, 0];
/// P0 of variable 0, of variable 1.
const P0_X0: [u8; 6] = [2, 0, 0, 0, 0, 64];
const P0_X1: [u8; 6] = [2, 0, 0, 0, 0, 65];

pub fn example_image() -> Vec<u8> {
    hex("5A534D0001030101 0000000000000003 0000000000000005 0000000000000004 0000000000000004")
}

pub fn example_table() -> Vec<u8> {
    hex("5A5346000105 020000000041 000000000000 0B0100020140 020000000041 080300010040")
}

type Verdict = (&'static str, Vec<u8>, Vec<u8>, u64, u64, u64);

pub fn verdicts() -> Vec<Known> {
    let mut list: Vec<Verdict> = Vec::new();
    let (e, t) = (example_image(), example_table());
    let mut example = |name, goal, start, result| list.push((name, e.clone(), t.clone(), goal, start, result));
    example("marked 1", 2, 0, YES);
    example("marked 2", 4, 0, NO);
    example("marked 3", 4, 2, YES);
    example("marked 4", 1, 1, YES);
    example("marked 5: variable 1 is free", 0, 0, 13);
    example("marked 6: no such entry", 5, 0, 11);
    example("marked 7: no such stage", 2, 3, 12);
    example("goal 258 is not goal 2", 258, 0, 11);
    example("start 256 is not start 0", 2, 256, 12);
    example("goal past 32 bits", (1 << 32) + 2, 0, 11);
    example("start past 32 bits", 2, 1 << 32, 12);
    example("largest goal and start", u64::MAX, u64::MAX, 11);
    example("11 before 12", 5, 3, 11);
    example("12 before 13", 0, 3, 12);
    example("start of a closed goal", 1, 3, 12);
    list.extend(damaged_images());
    list.extend(tables_of_records());
    list.extend(bindings());
    list.into_iter()
        .map(|(name, image, table, goal, start, result)| {
            let case = Case { service: VERDICT, goal, start, image, table, ..Case::default() };
            Known { name, case, answer: Answer { result, bytes: Vec::new() }, place: None }
        })
        .collect()
}

fn damaged_images() -> Vec<Verdict> {
    let t = example_table();
    let change = |at: usize, value: u8| {
        let mut bytes = example_image();
        bytes[at] = value;
        bytes
    };
    let mut both = change(23, 0);
    both[39] |= 8;
    let with = |name, image: Vec<u8>, result| (name, image, t.clone(), 2, 0, result);
    vec![
        with("39 bytes", example_image()[..39].to_vec(), 3),
        with("41 bytes", [example_image(), vec![0]].concat(), 3),
        with("stage 1 without successor", change(23, 0), 5),
        with("and bit 3 in a predicate", both, 4),
        with("empty image", Vec::new(), 1),
        with("n = 0 and p = 0 in 7 bytes", hex("5A534D00010000"), 2),
        with("n = 1 and p = 1 in 7 bytes", hex("5A534D00010101"), 3),
        with("n = 65 of any length", change(5, 65), 2),
        with("p = 17", change(6, 17), 2),
        with("arity 0", change(7, 0), 3),
        with("arity 3", change(7, 3), 3),
        with("version 256", hex("5A534D0100030101"), 1),
    ]
}

/// A chain of AX over true: entry 0, then `depth` modalities.
fn chain(depth: u8) -> Vec<[u8; 6]> {
    let mut records = vec![TRUE];
    records.extend((0..depth).map(|below| [6, below, 0, 1, 0, 64]));
    records
}

fn tables_of_records() -> Vec<Verdict> {
    let with =
        |name, records: &[[u8; 6]], goal, start, result| (name, example_image(), table(records), goal, start, result);
    let mut doubled = chain(5);
    doubled.push([4, 5, 5, 0, 0, 0]);
    let mut other_version = example_table();
    other_version[3..5].copy_from_slice(&[1, 0]);
    let pair = image(&[1, 2], &[(2, vec![2, 0])]);
    vec![
        with("an operand twice and a kind 12: 8 first", &[TRUE, [4, 0, 0, 0, 0, 0], [12, 0, 0, 0, 0, 0]], 0, 0, 8),
        with("e and e", &[TRUE, [4, 0, 0, 0, 0, 0]], 0, 0, 9),
        with("nesting 5 and an operand twice: 9 first", &doubled, 0, 0, 9),
        with("nesting 5 outside the goal", &chain(5), 0, 0, 10),
        with("nesting 4", &chain(4), 4, 0, YES),
        with("a predicate is no operand", &[TRUE, P0_X0, [4, 0, 1, 0, 0, 0]], 2, 2, YES),
        with("arity 1 with a second term", &[[2, 0, 1, 0, 0, 64]], 0, 2, 8),
        with("predicate 1 of 1", &[[2, 1, 0, 0, 0, 64]], 0, 2, 8),
        with("term 3 of 3 stages", &[[2, 0, 0, 0, 0, 3]], 0, 2, 8),
        with("term 63", &[[2, 0, 0, 0, 0, 63]], 0, 2, 8),
        with("term 68", &[[2, 0, 0, 0, 0, 68]], 0, 2, 8),
        with("own number as operand", &[[6, 0, 0, 1, 0, 64]], 0, 0, 8),
        with("no records", &[], 0, 0, 7),
        with("65 records", &[TRUE; 65], 0, 0, 7),
        with("64 records", &[TRUE; 64], 63, 0, YES),
        ("version 256 of the table", example_image(), other_version, 2, 0, 6),
        ("first term, then second", pair.clone(), table(&[[2, 0, 1, 0, 0, 64]]), 0, 0, YES),
        ("second term, then first", pair, table(&[[2, 0, 64, 0, 0, 1]]), 0, 0, NO),
    ]
}

fn bindings() -> Vec<Verdict> {
    let line = image(&[2, 4, 4], &[(1, vec![4])]);
    let leak = hex("5A53460001040000000000000200000000410B0001010241060200010040");
    let af_x0 = table(&[P0_X0, [8, 0, 0, 0, 0, 64]]);
    // AX x0 (AX x0 (P0(x0)) @ x0) @ x0 on 0 to 1 to 2: the inner x0 hides the outer one.
    let hidden = table(&[P0_X0, [6, 0, 0, 0, 0, 64], [6, 1, 0, 0, 0, 64]]);
    // EX x1 (P0(x1)) @ x0 and P0(x1): the second x1 is free, the first is not.
    let outside = table(&[P0_X1, [7, 0, 0, 1, 0, 64], P0_X1, [4, 1, 2, 0, 0, 0]]);
    // EU x1 (P0(x2)) x2 (P0(x2)): x2 is bound in b only, so it is free in a.
    let only_b = table(&[[2, 0, 0, 0, 0, 66], [2, 0, 0, 0, 0, 66], [11, 0, 1, 1, 2, 64]]);
    vec![
        ("x of EU is not carried into b", example_image(), leak, 3, 0, NO),
        ("AF x0 (P0(x0)) @ x0 round the loop", example_image(), af_x0.clone(), 1, 0, NO),
        ("AF x0 (P0(x0)) @ x0 on a line", line.clone(), af_x0, 1, 0, YES),
        ("a rebound variable", line, hidden, 2, 0, YES),
        ("free beside a binding", example_image(), outside, 3, 0, 13),
        ("y is bound in b only", example_image(), only_b, 2, 0, 13),
    ]
}

/// Checks over the example graph and table: side, goal, start, steps, result, place of the fault.
type Steps = (&'static str, u8, u8, u8, &'static str, u64, usize);

pub fn checks() -> Vec<Known> {
    let example: &[Steps] = &[
        ("marked 1 is accepted", 0, 2, 0, "1001001002000F01", YES, 0),
        ("marked 2 is accepted", 1, 4, 0, "0A00020B", NO, 0),
        ("marked 3 is accepted", 0, 4, 2, "0801", YES, 0),
        ("marked 4 is accepted", 0, 1, 1, "00", YES, 0),
        ("marked 9: first choice 2", 0, 2, 0, "1002001002000F01", 24, 8),
        ("marked 10: one byte short", 0, 2, 0, "1001001002000F", 22, 15),
        ("marked 10: one byte more", 0, 2, 0, "1001001002000F0100", 25, 16),
        ("marked 11: merge at once", 1, 4, 0, "0B", 24, 8),
        ("marked 12: stage 0 twice", 0, 2, 0, "1000001001001002000F01", 24, 11),
        ("marked 13: the other side", 0, 4, 0, "0A00020B", 23, 8),
        ("AF now on the walk", 0, 4, 2, "090801", 24, 9),
        ("EU now on the walk", 0, 2, 2, "1002000F01", 24, 11),
        ("EG on the walk goes on", 1, 4, 0, "0A00020A00020B", 24, 11),
        ("a chosen byte is missing before 24", 0, 2, 0, "10000010", 22, 12),
        ("a chosen byte past every stage", 0, 2, 0, "10FF", 24, 8),
        ("a chosen byte of 64", 0, 2, 0, "1040", 24, 8),
        ("23 before the chosen byte", 0, 4, 0, "0A", 23, 8),
        ("no steps", 0, 2, 0, "", 22, 8),
        ("false in hand, any code", 1, 1, 0, "00", 23, 8),
        ("false in hand, no code", 1, 1, 0, "", 22, 8),
        ("code 17", 0, 2, 0, "11", 23, 8),
        ("code 255", 0, 2, 0, "FF", 23, 8),
        ("side 2 and another goal: 20 first", 2, 3, 0, "00", 20, 0),
        ("another goal", 0, 4, 0, "00", 21, 0),
        ("another start", 0, 2, 1, "00", 21, 0),
        ("dual of P has code 2", 1, 4, 0, "0A00010B", 23, 10),
        ("dual of P where P holds", 1, 4, 0, "0A01020A02020A02020B", 24, 16),
    ];
    let (e, t) = (example_image(), example_table());
    let mut list = Vec::new();
    for &(name, side, goal, start, steps, result, place) in example {
        let (asked_goal, asked_start) = if result == 20 || result == 21 { (2, 0) } else { (goal, start) };
        let certificate = [header(side, goal, start), hex(steps)].concat();
        list.push(check(name, (&e, &t), (asked_goal, asked_start), certificate, (result, place)));
    }
    let version = hex("5A53430100 00 02 00 1001001002000F01");
    list.push(check("version 256 of the certificate", (&e, &t), (2, 0), version, (20, 0)));
    list.push(check("seven bytes", (&e, &t), (2, 0), header(0, 2, 0)[..7].to_vec(), (20, 0)));
    list.extend(walks());
    list
}

fn walks() -> Vec<Known> {
    let fork = image(&[6, 2, 2], &[]);
    let release = table(&[FALSE, TRUE, [10, 0, 1, 1, 1, 64]]);
    let diamond = image(&[6, 8, 8, 8], &[(1, vec![8])]);
    let finally = table(&[P0_X1, [8, 0, 0, 1, 0, 64]]);
    let ring = image(&[1], &[]);
    let inner = table(&[TRUE, [9, 0, 0, 2, 0, 65], [9, 1, 0, 1, 0, 64]]);
    let on = |steps: &str, goal: u8| [header(0, goal, 0), hex(steps)].concat();
    vec![
        check("merge on a sibling's walk", (&fork, &release), (2, 0), on("0D000D000E0D000E", 2), (24, 15)),
        check("each branch its own walk", (&fork, &release), (2, 0), on("0D000D000E0D000D000E", 2), (YES, 0)),
        check("AF over a diamond", (&diamond, &finally), (1, 0), on("09090801090801", 1), (YES, 0)),
        check("an inner walk starts empty", (&ring, &inner), (2, 0), on("0A000B0B", 2), (24, 10)),
        check("inner and outer EG", (&ring, &inner), (2, 0), on("0A000A00000B0B", 2), (YES, 0)),
    ]
}

fn check(
    name: &'static str,
    setup: (&[u8], &[u8]),
    asked: (u8, u8),
    certificate: Vec<u8>,
    found: (u64, usize),
) -> Known {
    let case = Case {
        service: CHECK,
        goal: u64::from(asked.0),
        start: u64::from(asked.1),
        image: setup.0.to_vec(),
        table: setup.1.to_vec(),
        certificate,
        ..Case::default()
    };
    Known { name, case, answer: Answer { result: found.0, bytes: Vec::new() }, place: Some(found.1) }
}

pub fn writings() -> Vec<Known> {
    let e = (example_image(), example_table());
    let fork = (image(&[6, 2, 2], &[]), table(&[FALSE, TRUE, [10, 0, 1, 1, 1, 64]]));
    let ring = (image(&[1], &[]), table(&[TRUE, [9, 0, 0, 2, 0, 65], [9, 1, 0, 1, 0, 64]]));
    let ways = image(&[6, 16, 8, 8, 8], &[(1, vec![8])]);
    let nearest = (ways, table(&[TRUE, P0_X1, [11, 0, 1, 2, 1, 64]]));
    let long = long_setup();
    vec![
        write("marked 1", &e, (2, 0), 16, Some("5A534300010002001001001002000F01")),
        write("marked 2", &e, (4, 0), 12, Some("5A534300010104000A00020B")),
        write("marked 3", &e, (4, 2), 64, Some("5A534300010004020801")),
        write("marked 4", &e, (1, 1), 9, Some("5A5343000100010100")),
        write("marked 8: 15 bytes", &e, (2, 0), 15, None),
        write("20 bytes keep their last four", &e, (2, 0), 20, Some("5A534300010002001001001002000F01")),
        write("no room at all", &e, (2, 0), 0, None),
        write("AR on a fork", &fork, (2, 0), 100, Some("5A534300010002000D000D000E0D000D000E")),
        write("EG in EG", &ring, (2, 0), 15, Some("5A534300010002000A000A00000B0B")),
        write("EU by the fewest steps", &nearest, (2, 0), 16, Some("5A534300010002001002001003000F01")),
        write("past every machine number", &long, (7, 0), 32_768, None),
        write("past every machine number, more room", &long, (7, 0), 40_000, None),
        write("past every machine number, no room", &long, (7, 0), 0, None),
    ]
}

/// AF x1 (P0(x1) and AF x2 (P0(x2) and AF x3 (P0(x3)) @ x0) @ x0) @ x0, stages 2i and 2i+1 leading to the next two.
pub fn long_setup() -> (Vec<u8>, Vec<u8>) {
    let next: Vec<u64> = (0..64_u64).map(|stage| 3 << (stage / 2 * 2 + 2).min(62)).collect();
    let records = [
        [2, 0, 0, 0, 0, 67],
        [8, 0, 0, 3, 0, 64],
        [2, 0, 0, 0, 0, 66],
        [4, 2, 1, 0, 0, 0],
        [8, 3, 0, 2, 0, 64],
        P0_X1,
        [4, 5, 4, 0, 0, 0],
        [8, 6, 0, 1, 0, 64],
    ];
    (image(&next, &[(1, vec![3 << 62])]), table(&records))
}

fn write(
    name: &'static str,
    setup: &(Vec<u8>, Vec<u8>),
    asked: (u64, u64),
    room: u64,
    certificate: Option<&str>,
) -> Known {
    let (image, table) = setup.clone();
    let case = Case { service: WRITE, goal: asked.0, start: asked.1, room, image, table, ..Case::default() };
    let mut bytes = vec![0; 8];
    let mut result = 14;
    let mut buffer = vec![FILL; room as usize];
    if let Some(text) = certificate {
        let wanted = hex(text);
        result = 128 + u64::from(wanted[5]);
        bytes[7] = wanted.len() as u8;
        buffer[..wanted.len()].copy_from_slice(&wanted);
    }
    bytes.append(&mut buffer);
    Known { name, case, answer: Answer { result, bytes }, place: None }
}

pub fn reports() -> Vec<Known> {
    let part = image(&[1, 4, 4], &[(1, vec![4])]);
    let list: Vec<(&str, Vec<u8>, u64, u64)> = vec![
        ("the example has none", example_image(), 128, 0),
        ("a loop beside", part, 129, 1),
        ("nothing fires", image(&[1; 64], &[(1, vec![0])]), 192, u64::MAX),
        ("everything fires", image(&[1; 64], &[(1, vec![u64::MAX])]), 128, 0),
        ("no predicate", image(&[1], &[]), 15, 0),
        ("predicate 0 of arity 2", image(&[1], &[(2, vec![1]), (1, vec![1])]), 15, 0),
        ("5 before 15", image(&[1, 0], &[]), 5, 0),
        ("an empty image", Vec::new(), 1, 0),
    ];
    list.into_iter()
        .map(|(name, image, result, set)| {
            let case = Case { service: DEAD, image, ..Case::default() };
            Known { name, case, answer: Answer { result, bytes: set.to_be_bytes().to_vec() }, place: None }
        })
        .collect()
}

pub fn lines() -> Vec<Known> {
    let (e, t) = (example_image(), example_table());
    let whole = frame::join(&e, &t, 2, 0);
    let long = long_setup();
    let filled = |total: usize| frame::join(&vec![0; total - 6 - t.len()], &t, 2, 0);
    let list: Vec<(&str, Vec<u8>, &str)> = vec![
        ("marked 1", whole.clone(), "yes 16 5A534300010002001001001002000F01\n"),
        ("marked 2", frame::join(&e, &t, 4, 0), "no 12 5A534300010104000A00020B\n"),
        ("marked 3", frame::join(&e, &t, 4, 2), "yes 10 5A534300010004020801\n"),
        ("marked 5", frame::join(&e, &t, 0, 0), "refused 13\n"),
        ("nothing", Vec::new(), "refused 16\n"),
        ("two empty parts", vec![0; 6], "refused 1\n"),
        ("one byte short", whole[..whole.len() - 1].to_vec(), "refused 16\n"),
        ("one byte more", [whole, vec![0]].concat(), "refused 16\n"),
        ("exactly at the limit", filled(16_384), "refused 1\n"),
        ("one over the limit", filled(16_385), "refused 16\n"),
        ("a certificate past the buffer", frame::join(&long.0, &long.1, 7, 0), "refused 14\n"),
    ];
    list.into_iter()
        .map(|(name, image, line)| {
            let case = Case { service: PROGRAM, image, ..Case::default() };
            Known { name, case, answer: Answer { result: 0, bytes: line.as_bytes().to_vec() }, place: None }
        })
        .collect()
}
