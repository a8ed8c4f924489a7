//! What each service answers to a case, in the coding of the answer file: a refusal is its own number, an answer is 128
//! and more.

use crate::by_tables::Tables;
use crate::cases::{self, Answer, Case};
use crate::formula::Formula;
use crate::frame;
use crate::image::{self, Graph};
use crate::report;
use crate::rules::{self, Fault};
use crate::table;
use crate::writer;

/// What the lent buffer is filled with before the call.
pub const FILL: u8 = 0xAA;

/// The graph and the goal's tree, or a refusal from 1 to 13.
pub fn read(image: &[u8], table: &[u8], goal: u64, start: u64) -> Result<(Graph, Formula), u64> {
    let graph = image::read(image)?;
    let table = table::read(&graph, table)?;
    let formula = table::goal(&graph, &table, goal, start)?;
    Ok((graph, formula))
}

pub fn verdict(case: &Case) -> Result<bool, u64> {
    let (graph, formula) = read(&case.image, &case.table, case.goal, case.start)?;
    Ok(Tables::new(&graph).holds(&formula, &[case.start as usize, 0, 0, 0]))
}

pub fn check(case: &Case) -> Result<u8, Fault> {
    match read(&case.image, &case.table, case.goal, case.start) {
        Err(number) => Err(Fault::new(number, 0)),
        Ok((graph, formula)) => rules::check(&graph, &formula, case.goal, case.start, &case.certificate),
    }
}

pub fn write(case: &Case) -> Result<(u8, Vec<u8>), u64> {
    let (graph, formula) = read(&case.image, &case.table, case.goal, case.start)?;
    writer::write(&graph, &formula, case.goal, case.start, case.room)
}

pub fn program_line(input: &[u8]) -> String {
    frame::line(&program(input))
}

fn program(input: &[u8]) -> Result<(u8, Vec<u8>), u64> {
    let parts = frame::split(input)?;
    let (graph, formula) = read(parts.image, parts.table, parts.goal, parts.start)?;
    writer::write(&graph, &formula, parts.goal, parts.start, frame::PROGRAM_ROOM)
}

pub fn answer(case: &Case) -> Answer {
    match case.service {
        cases::VERDICT => plain(verdict(case).map(|yes| if yes { 128 } else { 129 })),
        cases::CHECK => plain(check(case).map(|side| 128 + u64::from(side)).map_err(|fault| fault.number)),
        cases::WRITE => written(write(case), case.room),
        cases::DEAD => match report::dead_ends(&case.image) {
            Ok(members) => Answer { result: 128 + members.len() as u64, bytes: report::set_bytes(&members).to_vec() },
            Err(number) => Answer { result: number, bytes: vec![0; 8] },
        },
        cases::PROGRAM => Answer { result: 0, bytes: program_line(&case.image).into_bytes() },
        cases::READ_IMAGE => plain(image::read(&case.image).map(|_| 128)),
        cases::READ_TABLE => {
            let tables = image::read(&case.image).and_then(|graph| table::read(&graph, &case.table));
            plain(tables.map(|_| 128))
        }
        other => panic!("no service has number {other}"),
    }
}

fn plain(result: Result<u64, u64>) -> Answer {
    let result = match result {
        Ok(number) | Err(number) => number,
    };
    Answer { result, bytes: Vec::new() }
}

/// The length written and the whole lent buffer afterwards: the certificate at its front, the rest as it was.
fn written(result: Result<(u8, Vec<u8>), u64>, room: u64) -> Answer {
    let mut buffer = vec![FILL; room as usize];
    let (number, length) = match result {
        Ok((side, certificate)) => {
            buffer[..certificate.len()].copy_from_slice(&certificate);
            (128 + u64::from(side), certificate.len() as u64)
        }
        Err(number) => (number, 0),
    };
    let mut bytes = length.to_be_bytes().to_vec();
    bytes.append(&mut buffer);
    Answer { result: number, bytes }
}
