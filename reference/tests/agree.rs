//! This program against itself: two evaluators, the proof rules searched through, and its own certificates.

use reference::by_paths::Paths;
use reference::by_tables::Tables;
use reference::bytes::header;
use reference::cases::Case;
use reference::formula::{bind, Env, Formula, Modal, Mode};
use reference::image::Graph;
use reference::prover::{self, Slip};
use reference::random::Random;
use reference::rules;
use reference::services;
use reference::setups::{self, Bounds};
use reference::writer;

fn setup(stream: u64, index: u64, most: usize, cost: u64) -> (Case, Graph, Formula, Env) {
    let rng = &mut Random::new(7, stream, index);
    let case = setups::readable(rng, &Bounds { stages: (1, most), cost, goals: setups::ALL });
    let (graph, formula) = services::read(&case.image, &case.table, case.goal, case.start).unwrap();
    let env = [case.start as usize, 0, 0, 0];
    (case, graph, formula, env)
}

#[test]
fn tables_and_paths_agree() {
    let mut compared = 0;
    for index in 0..4000 {
        let (_, graph, formula, env) = setup(1, index, 7, 300_000);
        let holds = Tables::new(&graph).holds(&formula, &env);
        assert_ne!(holds, Tables::new(&graph).holds(&formula.dual(), &env), "case {index}: {formula}");
        if let Some(found) = Paths::new(&graph, 1_000_000).holds(&formula, &env) {
            assert_eq!(holds, found, "case {index}: {formula}");
            compared += 1;
        }
    }
    assert!(compared > 3900);
}

/// A goal with only variable 0 free does not depend on what the other variables stand at.
#[test]
fn other_variables_do_not_matter() {
    for index in 0..1000 {
        let (_, graph, formula, env) = setup(2, index, 12, 100_000);
        let holds = Tables::new(&graph).holds(&formula, &env);
        let other = [env[0], graph.n - 1, graph.n / 2, graph.n - 1];
        assert_eq!(holds, Tables::new(&graph).holds(&formula, &other), "case {index}: {formula}");
    }
}

#[test]
fn our_certificate_is_accepted_with_the_side_that_holds() {
    let mut written = 0;
    for index in 0..3000 {
        let (case, graph, formula, env) = setup(3, index, 10, 100_000);
        let holds = Tables::new(&graph).holds(&formula, &env);
        if let Ok((side, certificate)) = writer::write(&graph, &formula, case.goal, case.start, 20_000) {
            assert_eq!(side == 0, holds);
            assert_eq!(rules::check(&graph, &formula, case.goal, case.start, &certificate), Ok(side), "case {index}");
            let length = certificate.len() as u64;
            let again = writer::write(&graph, &formula, case.goal, case.start, length);
            assert_eq!(again, Ok((side, certificate)), "case {index}: exact room");
            let short = writer::write(&graph, &formula, case.goal, case.start, length - 1);
            assert_eq!(short, Err(14), "case {index}: one byte short");
            written += 1;
        }
    }
    assert!(written > 2500);
}

#[test]
fn random_proofs_are_accepted() {
    let mut other = 0;
    for index in 0..3000 {
        let (case, graph, formula, env) = setup(4, index, 8, 100_000);
        let side = u8::from(!Tables::new(&graph).holds(&formula, &env));
        let proved = if side == 0 { formula.clone() } else { formula.dual() };
        let rng = &mut Random::new(7, 5, index);
        if let Some(steps) = prover::steps(rng, &graph, &proved, &env, 3_000, Slip::None) {
            let certificate = [header(side, case.goal as u8, case.start as u8), steps].concat();
            assert_eq!(rules::check(&graph, &formula, case.goal, case.start, &certificate), Ok(side), "case {index}");
            let ours = writer::write(&graph, &formula, case.goal, case.start, 3_000);
            other += usize::from(ours.map_or(true, |(_, ours)| ours != certificate));
        }
    }
    assert!(other > 300);
}

#[test]
fn certificates_of_a_wanted_length() {
    for length in (9..300).chain([4_000, 29_190, 29_197, 29_198, 29_199, 29_200, 32_767, 32_768, 32_769, 40_000]) {
        for side in 0..2 {
            let case = Case { room: 50_000, ..setups::of_length(&mut Random::new(1, 1, 1), length, side) };
            let (written, certificate) = services::write(&case).unwrap();
            assert_eq!((usize::from(written), certificate.len()), (side, length));
        }
    }
}

/// Exactly one of a formula and its dual can be proved by the rules with their walks, and it is the one that holds.
#[test]
fn exactly_one_side_is_provable() {
    for index in 0..2000 {
        let (_, graph, formula, env) = setup(6, index, 4, 3_000);
        let holds = Tables::new(&graph).holds(&formula, &env);
        assert_eq!(provable(&graph, &formula, &env), holds, "case {index}: {formula}");
        assert_eq!(provable(&graph, &formula.dual(), &env), !holds, "case {index}: {formula}");
    }
}

fn provable(graph: &Graph, formula: &Formula, env: &Env) -> bool {
    match formula {
        Formula::Constant(value) => *value,
        Formula::Atom(atom) => atom.holds(graph, env),
        Formula::And(a, b) => provable(graph, a, env) && provable(graph, b, env),
        Formula::Or(a, b) => provable(graph, a, env) || provable(graph, b, env),
        Formula::Modal(modal) => by_some_rule(graph, modal, env, modal.at.value(env), &[]),
    }
}

/// Tries every rule that the table of steps has for the modality, with its condition on the walk.
fn by_some_rule(graph: &Graph, modal: &Modal, env: &Env, stage: usize, walk: &[usize]) -> bool {
    let next = &graph.next[stage];
    let a = |here: usize| provable(graph, &modal.a, &bind(env, modal.x, here));
    let b = || modal.b.iter().all(|b| provable(graph, b, &bind(env, modal.y, stage)));
    let longer = [walk, &[stage]].concat();
    let on = |&c: &usize| by_some_rule(graph, modal, env, c, &longer);
    let met = walk.contains(&stage);
    match modal.mode {
        Mode::Ax => next.iter().all(|&c| a(c)),
        Mode::Ex => next.iter().any(|&c| a(c)),
        Mode::Af => !met && (a(stage) || next.iter().all(on)),
        Mode::Eg => met || a(stage) && next.iter().any(on),
        Mode::Ar => met || b() && (a(stage) || next.iter().all(on)),
        Mode::Eu => !met && (b() || a(stage) && next.iter().any(on)),
    }
}
