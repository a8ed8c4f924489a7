//! Judges a file of answers: works out every answer anew, compares, and says what came up and what did not.

use crate::bytes::to_hex;
use crate::cases::{self, Answer, Case};
use crate::coverage::Coverage;
use crate::make::Kind;
use crate::observe::observe;
use crate::services;

/// After this many differences there is no need for more.
const MOST: usize = 10;

/// Whether all is well with the answers to cases that this program made: no difference, and everything came up that has
/// to. The last line says so in plain words.
pub fn judge(kind: Kind, name: &str, case_bytes: &[u8], answer_bytes: &[u8]) -> Result<bool, String> {
    judged(kind, name, case_bytes, answer_bytes, true)
}

/// The same for cases from elsewhere, of any content. Nothing has to come up in them.
pub fn judge_any(kind: Kind, name: &str, case_bytes: &[u8], answer_bytes: &[u8]) -> Result<bool, String> {
    judged(kind, name, case_bytes, answer_bytes, false)
}

fn judged(kind: Kind, name: &str, case_bytes: &[u8], answer_bytes: &[u8], all: bool) -> Result<bool, String> {
    let cases = cases::read_cases(case_bytes)?;
    let answers = cases::read_answers(answer_bytes)?;
    let mut coverage = Coverage::default();
    let mut differences = 0;
    if cases.len() != answers.len() {
        println!("{} cases, but {} answers", cases.len(), answers.len());
        differences += 1;
    }
    for (number, (case, came)) in cases.iter().zip(&answers).enumerate() {
        if !kind.services().contains(&case.service) {
            return Err(format!("case {number} is for service {}, which is none of {name}", case.service));
        }
        let expected = services::answer(case);
        if let Err(words) = observe(&mut coverage, case, &expected) {
            println!("case {number}: this program contradicts itself: {words}");
            print_case(case);
            differences += 1;
        }
        if *came != expected {
            let same = came.bytes.iter().zip(&expected.bytes).take_while(|(left, right)| left == right).count();
            println!("case {number}: expected {}", shown(&expected));
            println!("case {number}: came     {}, the first {same} bytes being the same", shown(came));
            print_case(case);
            differences += 1;
        }
        if differences >= MOST {
            println!("{name}: stopped at case {number} of {}, {differences} differences", cases.len());
            return Ok(false);
        }
    }
    coverage.print();
    let missing = if all { coverage.missing(kind, cases.len() as u64) } else { Vec::new() };
    for what in &missing {
        println!("did not come up enough: {what}");
    }
    let found = match differences {
        0 => "no difference".to_string(),
        1 => "1 difference".to_string(),
        _ => format!("{differences} differences"),
    };
    let short = match missing.len() {
        0 => String::new(),
        1 => ", but 1 thing did not come up enough".to_string(),
        count => format!(", but {count} things did not come up enough"),
    };
    println!("{name}: {} cases, {found}{short}", cases.len());
    Ok(differences == 0 && missing.is_empty())
}

/// An answer in one line; of a long buffer the front will do.
fn shown(answer: &Answer) -> String {
    let front = answer.bytes.len().min(120);
    let more = if front < answer.bytes.len() { ".." } else { "" };
    format!("result {}, {} bytes {}{more}", answer.result, answer.bytes.len(), to_hex(&answer.bytes[..front]))
}

fn print_case(case: &Case) {
    println!("  service {} goal {} start {} room {}", case.service, case.goal, case.start, case.room);
    println!("  image {}", to_hex(&case.image));
    println!("  table {}", to_hex(&case.table));
    println!("  certificate {}", to_hex(&case.certificate));
}
