//! The checking of a certificate: refusals 20 to 25 with the place of the fault.
//!
//! What is still to be proved waits on a list, the next thing last. A step takes one thing off and puts its premises
//! on, so that a proof may be as deep as it likes.

use crate::formula::{bind, Env, Formula, Mode};
use crate::image::Graph;
use std::rc::Rc;

/// A refusal of a certificate. The place counts from the certificate's first byte: for 22 its length, for 25 the first
/// byte left over, for 23 and 24 the step's code byte, for 20 and 21 nothing.
#[derive(Debug, PartialEq, Eq)]
pub struct Fault {
    pub number: u64,
    pub place: usize,
    /// Which condition failed, for 24; for the tables of what came up, not an answer.
    pub condition: &'static str,
}

impl Fault {
    pub fn new(number: u64, place: usize) -> Fault {
        Fault { number, place, condition: "" }
    }
}

/// One step as read: where its code stands, the code, and the chosen stage where there is one.
pub struct Step {
    pub place: usize,
    pub code: u8,
    pub chosen: Option<u8>,
}

/// The stages stood on by one modality on the way down. Branches share their common beginning and nothing else.
#[derive(Clone)]
struct Walk(Option<Rc<(usize, Walk)>>);

impl Walk {
    fn has(&self, stage: usize) -> bool {
        match &self.0 {
            None => false,
            Some(link) => link.0 == stage || link.1.has(stage),
        }
    }

    fn with(&self, stage: usize) -> Walk {
        Walk(Some(Rc::new((stage, self.clone()))))
    }
}

struct Task<'f> {
    formula: &'f Formula,
    env: Env,
    /// The stage and the walk, for a modality handed on by a step of its own; nothing for a formula newly come to.
    on_the_way: Option<(usize, Walk)>,
}

impl<'f> Task<'f> {
    fn new(formula: &'f Formula, env: Env) -> Task<'f> {
        Task { formula, env, on_the_way: None }
    }
}

/// The accepted side, or the fault. The goal and the start are below 64 here, refusals 11 and 12 having come first.
pub fn check(graph: &Graph, formula: &Formula, goal: u64, start: u64, certificate: &[u8]) -> Result<u8, Fault> {
    if certificate.len() < 8 || &certificate[..5] != b"ZSC\x00\x01" || certificate[5] > 1 {
        return Err(Fault::new(20, 0));
    }
    if certificate[6] as u64 != goal || certificate[7] as u64 != start {
        return Err(Fault::new(21, 0));
    }
    let side = certificate[5];
    let env = [start as usize, 0, 0, 0];
    let result = match side {
        0 => steps(graph, formula, env, certificate),
        _ => steps(graph, &formula.dual(), env, certificate),
    };
    result.map(|_| side)
}

/// Reads the steps that stand after the header, or finds the fault in them.
pub fn steps(graph: &Graph, formula: &Formula, env: Env, certificate: &[u8]) -> Result<Vec<Step>, Fault> {
    let missing = Fault::new(22, certificate.len());
    let mut at = 8;
    let mut read = Vec::new();
    let mut waiting = vec![Task::new(formula, env)];
    while let Some(task) = waiting.pop() {
        let place = at;
        let code = match certificate.get(at) {
            None => return Err(missing),
            Some(&code) => code,
        };
        at += 1;
        if !codes_for(task.formula).contains(&code) {
            return Err(Fault::new(23, place));
        }
        let mut chosen = None;
        if [7, 10, 16].contains(&code) {
            chosen = certificate.get(at).copied();
            if chosen.is_none() {
                return Err(missing);
            }
            at += 1;
        }
        match premises(graph, &task, code, chosen.map(usize::from)) {
            Err(condition) => return Err(Fault { number: 24, place, condition }),
            Ok(list) => waiting.extend(list.into_iter().rev()),
        }
        read.push(Step { place, code, chosen });
    }
    if at < certificate.len() {
        return Err(Fault::new(25, at));
    }
    Ok(read)
}

fn codes_for(formula: &Formula) -> &'static [u8] {
    match formula {
        Formula::Constant(true) => &[0],
        Formula::Constant(false) => &[],
        Formula::Atom(atom) if atom.positive => &[1],
        Formula::Atom(_) => &[2],
        Formula::And(_, _) => &[3],
        Formula::Or(_, _) => &[4, 5],
        Formula::Modal(modal) => match modal.mode {
            Mode::Ax => &[6],
            Mode::Ex => &[7],
            Mode::Af => &[8, 9],
            Mode::Eg => &[10, 11],
            Mode::Ar => &[12, 13, 14],
            Mode::Eu => &[15, 16],
        },
    }
}

/// The premises in their order, or the rule's own condition that fails.
fn premises<'f>(
    graph: &Graph,
    task: &Task<'f>,
    code: u8,
    chosen: Option<usize>,
) -> Result<Vec<Task<'f>>, &'static str> {
    let env = task.env;
    let modal = match task.formula {
        Formula::Constant(_) => return Ok(Vec::new()),
        Formula::Atom(atom) => return if atom.holds(graph, &env) { Ok(Vec::new()) } else { Err("atom") },
        Formula::And(a, b) => return Ok(vec![Task::new(a, env), Task::new(b, env)]),
        Formula::Or(a, b) => return Ok(vec![Task::new(if code == 4 { a } else { b }, env)]),
        Formula::Modal(modal) => modal,
    };
    let (stage, walk) = match &task.on_the_way {
        Some((stage, walk)) => (*stage, walk.clone()),
        None => (modal.at.value(&env), Walk(None)),
    };
    let successors = &graph.next[stage];
    if let Some(c) = chosen {
        if !successors.contains(&c) {
            return Err("successor");
        }
    }
    // A merge needs a stage on the walk, every other rule of the four walking modalities a stage off it.
    let merge = code == 11 || code == 14;
    if walk.has(stage) != merge {
        return Err(if merge { "merge off the walk" } else { "stage on the walk" });
    }
    let a_at = |here: usize| Task::new(&modal.a, bind(&env, modal.x, here));
    let b_here = || modal.b.as_ref().map(|b| Task::new(b, bind(&env, modal.y, stage)));
    let on = |to: usize| Task { formula: task.formula, env, on_the_way: Some((to, walk.with(stage))) };
    let mut list = Vec::new();
    match code {
        6 => list.extend(successors.iter().map(|&c| a_at(c))),
        7 => list.extend(chosen.map(a_at)),
        8 => list.push(a_at(stage)),
        9 => list.extend(successors.iter().map(|&c| on(c))),
        10 | 16 => {
            list.push(a_at(stage));
            list.extend(chosen.map(on));
        }
        12 => {
            list.push(a_at(stage));
            list.extend(b_here());
        }
        13 => {
            list.extend(b_here());
            list.extend(successors.iter().map(|&c| on(c)));
        }
        15 => list.extend(b_here()),
        _ => {}
    }
    Ok(list)
}
