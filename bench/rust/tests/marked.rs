//! Document 01's marked cases, asked of both versions.

use rivals::{fastest, idiomatic, Refusal, Side};

const IMAGE: [u8; 40] = [
    0x5A, 0x53, 0x4D, 0, 1, 3, 1, 1, 0, 0, 0, 0, 0, 0, 0, 3, 0, 0, 0, 0, 0, 0, 0, 5, 0, 0, 0, 0, 0, 0, 0, 4, 0, 0, 0,
    0, 0, 0, 0, 4,
];
const TABLE: [u8; 36] = [
    0x5A, 0x53, 0x46, 0, 1, 5, 2, 0, 0, 0, 0, 0x41, 0, 0, 0, 0, 0, 0, 0x0B, 1, 0, 2, 1, 0x40, 2, 0, 0, 0, 0, 0x41, 8,
    3, 0, 1, 0, 0x40,
];

type Written = Result<(Side, Vec<u8>), Refusal>;

/// What a version writes into a buffer of so many bytes, and that it leaves the rest alone.
fn written(version: usize, goal: u64, start: u64, room: usize) -> Written {
    let write = [idiomatic::write, fastest::write][version];
    let mut buffer = vec![0xAA; room];
    let answer = write(&IMAGE, &TABLE, goal, start, &mut buffer);
    let length = answer.map_or(0, |(_, length)| length);
    assert!(buffer[length..].iter().all(|&byte| byte == 0xAA));
    answer.map(|(side, length)| (side, buffer[..length].to_vec()))
}

fn checked(version: usize, certificate: &[u8], goal: u64, start: u64) -> Result<Side, Refusal> {
    [idiomatic::check, fastest::check][version](&IMAGE, &TABLE, certificate, goal, start)
}

fn certificate(side: u8, goal: u8, start: u8, steps: &[u8]) -> Vec<u8> {
    [&[0x5A, 0x53, 0x43, 0, 1, side, goal, start], steps].concat()
}

/// The steps of case 1.
const FIRES: [u8; 8] = [0x10, 1, 0, 0x10, 2, 0, 0x0F, 1];

#[test]
fn what_is_written() {
    for version in [0, 1] {
        let write = |goal, start| written(version, goal, start, 32_768);
        assert_eq!(write(2, 0), Ok((Side::Goal, certificate(0, 2, 0, &FIRES))), "case 1");
        assert_eq!(write(4, 0), Ok((Side::Dual, certificate(1, 4, 0, &[0x0A, 0, 2, 0x0B]))), "case 2");
        assert_eq!(write(4, 2), Ok((Side::Goal, certificate(0, 4, 2, &[8, 1]))), "case 3");
        assert_eq!(write(1, 1), Ok((Side::Goal, certificate(0, 1, 1, &[0]))), "case 4");
        assert_eq!(write(0, 0), Err(Refusal::FreeVariable), "case 5");
        assert_eq!(write(5, 0), Err(Refusal::Goal), "case 6");
        assert_eq!(write(2, 3), Err(Refusal::Start), "case 7");
        assert_eq!(written(version, 2, 0, 15), Err(Refusal::TooLong), "case 8, 15 bytes");
        assert!(written(version, 2, 0, 16).is_ok(), "case 8, 16 bytes");
        for (goal, start) in [(2, 0), (4, 0), (4, 2), (1, 1)] {
            let (side, bytes) = write(goal, start).unwrap();
            assert_eq!(checked(version, &bytes, goal, start), Ok(side), "ours is accepted");
        }
    }
}

#[test]
fn what_is_refused() {
    for version in [0, 1] {
        let check = |side, goal, steps: &[u8]| checked(version, &certificate(side, goal, 0, steps), u64::from(goal), 0);
        let mut other = FIRES;
        other[1] = 2;
        assert_eq!(check(0, 2, &other), Err(Refusal::Condition), "case 9");
        assert_eq!(check(0, 2, &FIRES[..7]), Err(Refusal::Missing), "case 10, one byte short");
        assert_eq!(check(0, 2, &[&FIRES[..], &[0]].concat()), Err(Refusal::Remaining), "case 10, one byte more");
        assert_eq!(check(1, 4, &[0x0B]), Err(Refusal::Condition), "case 11");
        assert_eq!(check(0, 2, &[&[0x10, 0, 0], &FIRES[..]].concat()), Err(Refusal::Condition), "case 12");
        assert_eq!(check(0, 4, &[0x0A, 0, 2, 0x0B]), Err(Refusal::Code), "case 13");
    }
}

#[test]
fn dead_ends_of_the_example() {
    for dead_ends in [idiomatic::dead_ends, fastest::dead_ends] {
        assert_eq!(dead_ends(&IMAGE), Ok(0));
        assert_eq!(dead_ends(&IMAGE[..39]), Err(Refusal::ImageLength));
        let mut image = IMAGE;
        image[23] = 0;
        assert_eq!(dead_ends(&image), Err(Refusal::NoSuccessor));
        image[39] |= 8;
        assert_eq!(dead_ends(&image), Err(Refusal::HighBit));
    }
}
