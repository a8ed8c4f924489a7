//! How often things came up in a file of cases, and what has to come up for each kind.

use crate::make::Kind;
use std::collections::BTreeMap;

#[derive(Default)]
pub struct Coverage {
    counts: BTreeMap<String, u64>,
}

impl Coverage {
    pub fn note(&mut self, what: impl Into<String>) {
        *self.counts.entry(what.into()).or_insert(0) += 1;
    }

    fn count(&self, what: &str) -> u64 {
        self.counts.get(what).copied().unwrap_or(0)
    }

    pub fn print(&self) {
        for (what, count) in &self.counts {
            println!("{what:<40} {count:>9}");
        }
    }

    /// What did not come up, or not often enough. The refusals that a kind is about come up 200 times in 50,000 cases.
    pub fn missing(&self, kind: Kind, cases: u64) -> Vec<String> {
        let often = (200 * cases / 50_000).clamp(1, 200);
        let once = once(kind).into_iter().map(|what| (what, 1));
        once.chain(many_times(kind).into_iter().map(|what| (what, often)))
            .filter(|(what, least)| self.count(what) < *least)
            .map(|(what, least)| format!("{what}: {} times, wanted {least}", self.count(&what)))
            .collect()
    }
}

/// Everything that has to come up for a kind.
pub fn wanted(kind: Kind) -> Vec<String> {
    [once(kind), many_times(kind)].concat()
}

fn refusals(numbers: &[u64]) -> Vec<String> {
    numbers.iter().map(|number| format!("refusal {number:02}")).collect()
}

fn many_times(kind: Kind) -> Vec<String> {
    let mut list = Vec::new();
    match kind {
        Kind::Check => {
            list.extend(refusals(&[20, 21, 22, 23, 24, 25]));
            for condition in ["atom", "successor", "merge off the walk", "stage on the walk"] {
                list.push(format!("refusal 24: {condition}"));
            }
            for side in 0..2 {
                list.push(format!("accepted side {side}"));
            }
        }
        Kind::Write => list.extend(refusals(&[14])),
        Kind::Program => list.extend(refusals(&[16])),
        _ => {}
    }
    list
}

/// Each kind of goal, with the verdicts that it can have.
fn goals() -> Vec<String> {
    let both = ["P", "not P", "and", "or", "AX", "EX", "AF", "EG", "AR", "EU"];
    let mut list = vec!["goal true yes".to_string(), "goal false no".to_string()];
    list.extend(both.iter().flat_map(|name| ["yes", "no"].map(|word| format!("goal {name} {word}"))));
    list
}

/// Each of the seventeen codes.
fn codes(what: &str) -> Vec<String> {
    (0..17).map(|code| format!("{what} with code {code:02}")).collect()
}

fn once(kind: Kind) -> Vec<String> {
    let names: &[&str] = match kind {
        Kind::Verdict => &[
            "nesting 1",
            "nesting 2",
            "nesting 3",
            "nesting 4",
            "n = 1",
            "n = 64",
            "p = 0",
            "p = 16",
            "m = 1",
            "m = 64",
            "atom of arity 1",
            "atom of arity 2",
            "rebound variable",
            "stage term in an atom",
            "stage term of a modality",
            "paths agree",
        ],
        Kind::Check => &["accepted, ours", "accepted, not ours", "paths agree"],
        Kind::Write => &[
            "answer yes",
            "answer no",
            "room 0",
            "room far too short",
            "room one short",
            "room exact",
            "room one more",
            "room to spare",
            "length above 32768",
            "length past every room",
        ],
        Kind::Dead => &["dead ends 0", "dead ends 1", "dead ends 2 to 63", "dead ends 64", "n = 1", "n = 64"],
        Kind::Program => &[
            "answer yes",
            "answer no",
            "input of 0 bytes, without a length",
            "input without a length",
            "input with half a length",
            "input short of a part",
            "input short of goal or start",
            "input with a byte too many",
            "input of 16384 bytes, of its shape",
            "input of 16385 bytes, of its shape",
            "length 32764 to 32768",
        ],
        Kind::Read => &["readable image", "readable image and table", "n = 1", "n = 64", "p = 0", "p = 16"],
    };
    let mut list: Vec<String> = names.iter().map(|name| name.to_string()).collect();
    let to_13: Vec<u64> = (1..=13).collect();
    list.extend(match kind {
        Kind::Verdict => [goals(), refusals(&to_13)].concat(),
        Kind::Check => [goals(), codes("accepted"), refusals(&to_13)].concat(),
        Kind::Write => [goals(), codes("written"), refusals(&to_13)].concat(),
        Kind::Dead => refusals(&[1, 2, 3, 4, 5, 15]),
        Kind::Program => [refusals(&to_13), refusals(&[14])].concat(),
        Kind::Read => refusals(&to_13[..10]),
    });
    list
}
