//! Every case whose answer is known beforehand.

use reference::known::{self, Known};
use reference::services;

fn all(list: Vec<Known>) {
    for known in list {
        let answer = services::answer(&known.case);
        assert_eq!(answer.result, known.answer.result, "{}", known.name);
        assert_eq!(answer.bytes, known.answer.bytes, "{}", known.name);
        if let Some(place) = known.place {
            let found = match services::check(&known.case) {
                Ok(_) => 0,
                Err(fault) => fault.place,
            };
            assert_eq!(found, place, "{}", known.name);
        }
    }
}

#[test]
fn verdicts() {
    all(known::verdicts());
}

#[test]
fn checks() {
    all(known::checks());
}

#[test]
fn writings() {
    all(known::writings());
}

#[test]
fn reports() {
    all(known::reports());
}

#[test]
fn lines() {
    all(known::lines());
}
