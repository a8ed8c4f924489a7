//! The making of cases and the judging of answers.

use reference::cases::{read_answers, read_cases, Answer, Case};
use reference::coverage::{wanted, Coverage};
use reference::judge::{judge, judge_any};
use reference::make::{make, Kind, KINDS};
use reference::services;

fn stored(cases: &[Case]) -> Vec<u8> {
    let mut bytes = Vec::new();
    cases.iter().for_each(|case| case.put(&mut bytes));
    bytes
}

fn stored_answers(answers: &[Answer]) -> Vec<u8> {
    let mut bytes = Vec::new();
    answers.iter().for_each(|answer| answer.put(&mut bytes));
    bytes
}

#[test]
fn a_case_does_not_depend_on_how_many_are_made() {
    for (name, kind) in KINDS {
        let few = make(kind, 3, 120);
        let many = make(kind, 3, 160);
        assert!(few[..] == many[..120], "{name}");
        assert_eq!(read_cases(&stored(&few)).unwrap(), few, "{name}");
        assert!(few[100..] != make(kind, 4, 120)[100..], "{name}");
    }
}

#[test]
fn own_answers_are_judged_right_and_everything_comes_up() {
    for (name, kind) in KINDS {
        let cases = make(kind, 1, 4000);
        let answers: Vec<Answer> = cases.iter().map(services::answer).collect();
        let stored_form = stored_answers(&answers);
        assert_eq!(read_answers(&stored_form).unwrap(), answers);
        assert_eq!(judge(kind, name, &stored(&cases), &stored_form), Ok(true), "{name}");
    }
}

#[test]
fn a_wrong_answer_is_found() {
    let cases = make(Kind::Write, 1, 3000);
    let right: Vec<Answer> = cases.iter().map(services::answer).collect();
    let found = |answers: &[Answer]| judge(Kind::Write, "write", &stored(&cases), &stored_answers(answers));
    assert_eq!(found(&right), Ok(true));
    let mut wrong = right.clone();
    wrong[2000].result ^= 1;
    assert_eq!(found(&wrong), Ok(false), "a wrong result");
    // A byte changed behind the certificate, in the part of the buffer that must be left alone.
    let mut wrong = right.clone();
    let last = wrong[5].bytes.len() - 1;
    wrong[5].bytes[last] ^= 1;
    assert_eq!(found(&wrong), Ok(false), "a changed buffer");
    assert_eq!(found(&right[..2999]), Ok(false), "an answer too few");
    assert!(judge(Kind::Check, "check", &stored(&cases), &stored_answers(&right)).is_err(), "another kind");
}

#[test]
fn too_few_cases_do_not_pass() {
    let cases = make(Kind::Verdict, 1, 50);
    let answers: Vec<Answer> = cases.iter().map(services::answer).collect();
    assert_eq!(judge(Kind::Verdict, "verdict", &stored(&cases), &stored_answers(&answers)), Ok(false));
}

/// Whatever never came up is missed, and nothing else is.
#[test]
fn each_thing_that_has_to_come_up_is_missed() {
    for (name, kind) in KINDS {
        let everything = wanted(kind);
        for left_out in &everything {
            let mut seen = Coverage::default();
            everything.iter().filter(|what| *what != left_out).for_each(|what| seen.note(what.clone()));
            assert_eq!(seen.missing(kind, 1), [format!("{left_out}: 0 times, wanted 1")], "{name}");
        }
    }
    let codes = wanted(Kind::Check).into_iter().filter(|what| what.starts_with("accepted with code")).count();
    let refusals =
        wanted(Kind::Check).into_iter().filter(|what| what.starts_with("refusal") && !what.contains(':')).count();
    assert_eq!((codes, refusals), (17, 19));
}

/// Cases of any content are judged: a few of them will do, and a wrong answer among them is found.
#[test]
fn cases_from_elsewhere_are_judged() {
    let strange = |length: usize| (0..length).map(|place| (37 * place) as u8).collect::<Vec<u8>>();
    for (name, kind) in KINDS {
        let mut cases = make(kind, 1, 40);
        for (number, case) in cases.iter_mut().enumerate() {
            case.goal ^= 1 << number;
            case.start = u64::MAX - case.start;
            case.image.truncate(20 * number);
            case.table.extend(strange(number));
            case.certificate = strange(number * number);
        }
        let mut answers: Vec<Answer> = cases.iter().map(services::answer).collect();
        assert_eq!(judge_any(kind, name, &stored(&cases), &stored_answers(&answers)), Ok(true), "{name}");
        answers[20].result ^= 1;
        assert_eq!(judge_any(kind, name, &stored(&cases), &stored_answers(&answers)), Ok(false), "{name}");
    }
}
