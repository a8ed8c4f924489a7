//! The four services as quick as safe Rust was made to be here: arrays in place of vectors, one pass over each input, what is worked out
//! once is kept, and walks go by a small stack of their own. A set of stages is a 64-bit number, stage k being the bit worth 2^k.
#![forbid(unsafe_code)]

mod check;
mod read;
mod sets;
mod write;

use crate::{Refusal, Side};
use check::Checker;
use read::{Image, Question};
use sets::Sets;
use write::Writer;

pub fn verdict(image: &[u8], table: &[u8], goal: u64, start: u64) -> Result<Side, Refusal> {
    let mut question = Question::empty();
    question.read(image, table, goal, start)?;
    Ok(side_of(&question, goal, start))
}

fn side_of(question: &Question, goal: u64, start: u64) -> Side {
    if Sets::new(question, 0, goal).holds(goal as usize, start as u32) {
        Side::Goal
    } else {
        Side::Dual
    }
}

pub fn check(image: &[u8], table: &[u8], certificate: &[u8], goal: u64, start: u64) -> Result<Side, Refusal> {
    let mut question = Question::empty();
    question.read(image, table, goal, start)?;
    if certificate.len() < 8 || certificate[..5] != *b"ZSC\x00\x01" || certificate[5] > 1 {
        return Err(Refusal::CertificateMark);
    }
    if u64::from(certificate[6]) != goal || u64::from(certificate[7]) != start {
        return Err(Refusal::OtherQuestion);
    }
    let flip = certificate[5];
    let mut checker = Checker::new(&question, certificate, flip);
    match checker.goal(goal as usize, start as usize, 8) {
        Some(end) if end < certificate.len() => Err(Refusal::Remaining),
        Some(_) => Ok(if flip == 0 { Side::Goal } else { Side::Dual }),
        None => Err(checker.refusal()),
    }
}

pub fn write(image: &[u8], table: &[u8], goal: u64, start: u64, buffer: &mut [u8]) -> Result<(Side, usize), Refusal> {
    let mut question = Question::empty();
    question.read(image, table, goal, start)?;
    let side = side_of(&question, goal, start);
    let sets = Sets::new(&question, side as u8, goal);
    let mut writer = Writer::new(&question, sets, side as u8, buffer.len());
    let header = [b'Z', b'S', b'C', 0, 1, side as u8, goal as u8, start as u8];
    let written = writer.header(&header).and_then(|()| writer.formula(goal as usize, start as u32));
    written.ok_or(Refusal::TooLong)?;
    let bytes = writer.bytes();
    buffer[..bytes.len()].copy_from_slice(bytes);
    Ok((side, bytes.len()))
}

pub fn dead_ends(image: &[u8]) -> Result<u64, Refusal> {
    let mut graph = Image::empty();
    graph.read(image)?;
    let fired = graph.unary_first().ok_or(Refusal::NotFired)?;
    Ok(graph.all & !sets::reaching(&graph, fired))
}
