//! The command line. See README.md.

use reference::bytes::{from_hex, to_hex};
use reference::cases::{self, Case};
use reference::make::{self, Kind, KINDS};
use reference::{frame, image, judge, report, services};
use std::fs;
use std::process::exit;

const USAGE: &str = "reference make KIND SEED COUNT FILE
reference judge KIND CASES ANSWERS
reference judge-any KIND CASES ANSWERS
reference self KIND CASES ANSWERS
reference answer HEXIMAGE HEXTABLE GOAL START [HEXCERTIFICATE]
KIND is verdict, check, write, dead, program or read";

fn main() {
    let arguments: Vec<String> = std::env::args().skip(1).collect();
    let words: Vec<&str> = arguments.iter().map(String::as_str).collect();
    let result = match words.as_slice() {
        ["make", kind, seed, count, file] => make_cases(kind, seed, count, file),
        ["judge", kind, case_file, answer_file] => judge_answers(judge::judge, kind, case_file, answer_file),
        ["judge-any", kind, case_file, answer_file] => judge_answers(judge::judge_any, kind, case_file, answer_file),
        ["self", kind, case_file, answer_file] => own_answers(kind, case_file, answer_file),
        ["answer", image, table, goal, start] => by_hand(image, table, goal, start, None),
        ["answer", image, table, goal, start, certificate] => by_hand(image, table, goal, start, Some(certificate)),
        _ => Err(USAGE.to_string()),
    };
    match result {
        Ok(true) => {}
        Ok(false) => exit(1),
        Err(words) => {
            eprintln!("{words}");
            exit(1);
        }
    }
}

fn kind_of(name: &str) -> Result<Kind, String> {
    let found = KINDS.iter().find(|known| known.0 == name);
    found.map(|known| known.1).ok_or_else(|| format!("no kind is called {name}\n{USAGE}"))
}

fn number(text: &str) -> Result<u64, String> {
    text.parse().map_err(|_| format!("{text} is not a number"))
}

fn load(file: &str) -> Result<Vec<u8>, String> {
    fs::read(file).map_err(|error| format!("{file}: {error}"))
}

fn save(file: &str, bytes: &[u8]) -> Result<bool, String> {
    fs::write(file, bytes).map_err(|error| format!("{file}: {error}"))?;
    Ok(true)
}

fn make_cases(kind: &str, seed: &str, count: &str, file: &str) -> Result<bool, String> {
    let mut bytes = Vec::new();
    for case in make::make(kind_of(kind)?, number(seed)?, number(count)?) {
        case.put(&mut bytes);
    }
    save(file, &bytes)
}

type Judge = fn(Kind, &str, &[u8], &[u8]) -> Result<bool, String>;

fn judge_answers(judge: Judge, kind: &str, case_file: &str, answer_file: &str) -> Result<bool, String> {
    judge(kind_of(kind)?, kind, &load(case_file)?, &load(answer_file)?)
}

/// This program's own answers, to try the judging itself.
fn own_answers(kind: &str, case_file: &str, answer_file: &str) -> Result<bool, String> {
    kind_of(kind)?;
    let mut bytes = Vec::new();
    for case in cases::read_cases(&load(case_file)?)? {
        services::answer(&case).put(&mut bytes);
    }
    save(answer_file, &bytes)
}

fn by_hand(image: &str, table: &str, goal: &str, start: &str, certificate: Option<&str>) -> Result<bool, String> {
    let hex = |text: &str| from_hex(text).ok_or_else(|| format!("{text} is not hexadecimal"));
    let case = Case {
        goal: number(goal)?,
        start: number(start)?,
        room: frame::PROGRAM_ROOM,
        image: hex(image)?,
        table: hex(table)?,
        certificate: hex(certificate.unwrap_or(""))?,
        ..Case::default()
    };
    if let Ok(graph) = image::read(&case.image) {
        for (stage, next) in graph.next.iter().enumerate() {
            println!("stage {stage} leads to {next:?}");
        }
    }
    match services::read(&case.image, &case.table, case.goal, case.start) {
        Ok((_, formula)) => println!("goal: {formula}"),
        Err(number) => println!("refused {number}"),
    }
    print!("{}", frame::line(&services::write(&case)));
    match report::dead_ends(&case.image) {
        Ok(members) => println!("dead ends: {} {members:?} {}", members.len(), to_hex(&report::set_bytes(&members))),
        Err(number) => println!("dead ends: refused {number}"),
    }
    if certificate.is_some() {
        match services::check(&case) {
            Ok(side) => println!("check: accepted, side {side}"),
            Err(fault) => println!("check: refused {} at {}", fault.number, fault.place),
        }
    }
    Ok(true)
}
