//! Looks at a case and its right answer: notes what came up, and holds this program's own methods against each other.

use crate::by_paths::Paths;
use crate::by_tables::Tables;
use crate::cases::{self, Answer, Case};
use crate::coverage::Coverage;
use crate::formula::{Formula, Term};
use crate::frame;
use crate::image::{self, Graph};
use crate::make::MOST_ROOM;
use crate::rules;
use crate::services;
use crate::writer;
use std::collections::BTreeSet;

const NAMES: [&str; 12] = ["true", "false", "P", "not P", "and", "or", "AX", "EX", "AF", "EG", "AR", "EU"];

/// How far the search for single paths goes before it gives up.
const PATH_STEPS: u64 = 60_000;

/// An error says how this program contradicts itself.
pub fn observe(seen: &mut Coverage, case: &Case, answer: &Answer) -> Result<(), String> {
    if case.service == cases::PROGRAM {
        return line(seen, case, answer);
    }
    if answer.result < 128 {
        seen.note(format!("refusal {:02}", answer.result));
        if answer.result == 14 {
            rooms(seen, case);
        }
        if answer.result == 24 {
            let condition = services::check(case).err().map_or("", |fault| fault.condition);
            seen.note(format!("refusal 24: {condition}"));
        }
        return Ok(());
    }
    let graph = image::read(&case.image).map_err(|number| format!("answered, but refused with {number}"))?;
    sizes(seen, &graph);
    match case.service {
        cases::DEAD => seen.note(band("dead ends", answer.result - 128)),
        cases::READ_IMAGE => seen.note("readable image"),
        cases::READ_TABLE => seen.note("readable image and table"),
        _ => return answered(seen, case, answer),
    }
    Ok(())
}

/// The program's line: the words of it, and the case inside where it was answered.
fn line(seen: &mut Coverage, case: &Case, answer: &Answer) -> Result<(), String> {
    let (length, shape) = (case.image.len(), shape(&case.image));
    seen.note(format!("input {shape}"));
    if [0, frame::MOST_INPUT, frame::MOST_INPUT + 1].contains(&length) {
        seen.note(format!("input of {length} bytes, {shape}"));
    }
    let text = String::from_utf8_lossy(&answer.bytes).into_owned();
    let words: Vec<&str> = text.split_whitespace().collect();
    if words[0] == "refused" {
        seen.note(format!("refusal {:0>2}", words[1]));
        return Ok(());
    }
    seen.note(band("length", words[1].parse().map_err(|_| "no length in the line".to_string())?));
    let input = frame::split(&case.image).map_err(|_| "answered, but not of shape".to_string())?;
    let (graph, formula) = services::read(input.image, input.table, input.goal, input.start)
        .map_err(|number| format!("answered, but refused with {number}"))?;
    sizes(seen, &graph);
    let holds = both_ways(seen, &graph, &formula, input.start)?;
    goal(seen, &formula, holds);
    if holds == (words[0] == "yes") {
        Ok(())
    } else {
        Err("the line's side does not hold".to_string())
    }
}

/// How far an input of the program is of its shape, whatever its length in all.
fn shape(input: &[u8]) -> &'static str {
    let mut rest = input;
    for _ in 0..2 {
        let length = match rest {
            [] => return "without a length",
            [_] => return "with half a length",
            [high, low, ..] => 2 + usize::from(*high) * 256 + usize::from(*low),
        };
        if rest.len() < length {
            return "short of a part";
        }
        rest = &rest[length..];
    }
    match rest.len() {
        0 | 1 => "short of goal or start",
        2 => "of its shape",
        3 => "with a byte too many",
        _ => "with bytes too many",
    }
}

/// A verdict, an accepted certificate or a written one.
fn answered(seen: &mut Coverage, case: &Case, answer: &Answer) -> Result<(), String> {
    let (graph, formula) = services::read(&case.image, &case.table, case.goal, case.start)
        .map_err(|number| format!("answered, but refused with {number}"))?;
    let holds = both_ways(seen, &graph, &formula, case.start)?;
    goal(seen, &formula, holds);
    seen.note(match case.table[5] {
        m @ 1 | m @ 64 => format!("m = {m}"),
        _ => "m 2 to 63".to_string(),
    });
    let side = u64::from(!holds);
    if answer.result != 128 + side {
        return Err(format!("answer {} though side {side} holds", answer.result));
    }
    if case.service == cases::CHECK {
        seen.note(format!("accepted side {side}"));
        codes(seen, "accepted", &graph, &formula, case.start, &case.certificate);
        let room = case.certificate.len() as u64;
        let ours = writer::write(&graph, &formula, case.goal, case.start, room);
        let same = ours.map_or(false, |(_, certificate)| certificate == case.certificate);
        seen.note(if same { "accepted, ours" } else { "accepted, not ours" });
    }
    if case.service == cases::WRITE {
        seen.note("written");
        rooms(seen, case);
        let (_, certificate) = services::write(case).map_err(|number| format!("written, but refused with {number}"))?;
        seen.note(band("length", certificate.len() as u64));
        let checked = rules::check(&graph, &formula, case.goal, case.start, &certificate);
        if checked.map(u64::from) != Ok(side) {
            return Err("our certificate is not accepted".to_string());
        }
        codes(seen, "written", &graph, &formula, case.start, &certificate);
    }
    Ok(())
}

/// The codes in an accepted certificate, each once.
fn codes(seen: &mut Coverage, what: &str, graph: &Graph, formula: &Formula, start: u64, certificate: &[u8]) {
    let proved = if certificate[5] == 0 { formula.clone() } else { formula.dual() };
    let steps = rules::steps(graph, &proved, [start as usize, 0, 0, 0], certificate).unwrap_or_default();
    let met: BTreeSet<u8> = steps.iter().map(|step| step.code).collect();
    met.into_iter().for_each(|code| seen.note(format!("{what} with code {code:02}")));
}

/// The truth by tables, by the dual, and where it can be afforded by the paths themselves.
fn both_ways(seen: &mut Coverage, graph: &Graph, formula: &Formula, start: u64) -> Result<bool, String> {
    let env = [start as usize, 0, 0, 0];
    let holds = Tables::new(graph).holds(formula, &env);
    if Tables::new(graph).holds(&formula.dual(), &env) == holds {
        return Err("formula and dual have the same truth".to_string());
    }
    if graph.n <= 8 {
        match Paths::new(graph, PATH_STEPS).holds(formula, &env) {
            None => seen.note("paths given up"),
            Some(found) if found == holds => seen.note("paths agree"),
            Some(found) => return Err(format!("by tables {holds}, by paths {found}")),
        }
    }
    Ok(holds)
}

fn sizes(seen: &mut Coverage, graph: &Graph) {
    seen.note(match graph.n {
        n @ 1 | n @ 64 => format!("n = {n}"),
        2..=8 => "n 2 to 8".to_string(),
        9..=16 => "n 9 to 16".to_string(),
        _ => "n 17 to 63".to_string(),
    });
    seen.note(match graph.relations.len() {
        p @ 0 | p @ 16 => format!("p = {p}"),
        _ => "p 1 to 15".to_string(),
    });
}

fn goal(seen: &mut Coverage, formula: &Formula, holds: bool) {
    let word = if holds { "yes" } else { "no" };
    seen.note(format!("answer {word}"));
    seen.note(format!("goal {} {word}", NAMES[formula.kind()]));
    seen.note(format!("nesting {}", formula.nesting()));
    let mut inside = Vec::new();
    look(formula, &mut Vec::new(), &mut inside);
    inside.sort();
    inside.dedup();
    inside.into_iter().for_each(|what| seen.note(what));
}

/// The kinds met in a tree, rebound variables and stage terms. `bound` holds the variables bound on the way down.
fn look(formula: &Formula, bound: &mut Vec<usize>, inside: &mut Vec<String>) {
    inside.push(format!("inside {}", NAMES[formula.kind()]));
    match formula {
        Formula::Constant(_) => {}
        Formula::Atom(atom) => {
            inside.push(format!("atom of arity {}", 1 + usize::from(atom.second.is_some())));
            if matches!(atom.first, Term::Stage(_)) || matches!(atom.second, Some(Term::Stage(_))) {
                inside.push("stage term in an atom".to_string());
            }
        }
        Formula::And(a, b) | Formula::Or(a, b) => {
            look(a, bound, inside);
            look(b, bound, inside);
        }
        Formula::Modal(modal) => {
            if matches!(modal.at, Term::Stage(_)) {
                inside.push("stage term of a modality".to_string());
            }
            for (operand, variable) in modal.operands().into_iter().zip([modal.x, modal.y]) {
                if bound.contains(&variable) {
                    inside.push("rebound variable".to_string());
                }
                bound.push(variable);
                look(operand, bound, inside);
                bound.pop();
            }
        }
    }
}

/// How the room compares with the certificate's length.
fn rooms(seen: &mut Coverage, case: &Case) {
    if case.room == 0 {
        seen.note("room 0");
    }
    let with_room = |room: u64| services::write(&Case { room, ..case.clone() });
    match with_room(case.room + 1) {
        Ok((_, certificate)) => {
            let length = certificate.len() as u64;
            seen.note(match (case.room + 1) - length {
                0 => "room one short",
                1 => "room exact",
                2 => "room one more",
                _ => "room to spare",
            });
        }
        Err(_) => {
            seen.note("room far too short");
            if with_room(MOST_ROOM).is_err() {
                seen.note("length past every room");
            }
        }
    }
}

fn band(what: &str, count: u64) -> String {
    match count {
        0 | 1 | 64 => format!("{what} {count}"),
        2..=63 => format!("{what} 2 to 63"),
        65..=999 => format!("{what} 65 to 999"),
        1_000..=32_763 => format!("{what} 1000 to 32763"),
        32_764..=32_768 => format!("{what} 32764 to 32768"),
        _ => format!("{what} above 32768"),
    }
}
