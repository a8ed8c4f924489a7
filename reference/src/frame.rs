//! The program: its framed input with refusal 16, and the one line it prints.

use crate::bytes::to_hex;

pub const MOST_INPUT: usize = 16_384;
pub const PROGRAM_ROOM: u64 = 32_768;

pub struct Input<'i> {
    pub image: &'i [u8],
    pub table: &'i [u8],
    pub goal: u64,
    pub start: u64,
}

/// A 16-bit length, the image, a 16-bit length, the table, the goal byte, the start byte, and nothing more.
pub fn split(input: &[u8]) -> Result<Input<'_>, u64> {
    if input.len() > MOST_INPUT {
        return Err(16);
    }
    let (image, rest) = counted(input).ok_or(16_u64)?;
    let (table, rest) = counted(rest).ok_or(16_u64)?;
    match rest {
        [goal, start] => Ok(Input { image, table, goal: u64::from(*goal), start: u64::from(*start) }),
        _ => Err(16),
    }
}

fn counted(bytes: &[u8]) -> Option<(&[u8], &[u8])> {
    let length = usize::from(*bytes.first()?) * 256 + usize::from(*bytes.get(1)?);
    let rest = &bytes[2..];
    if rest.len() < length {
        return None;
    }
    Some(rest.split_at(length))
}

/// The framed form of the four parts, as the program reads it.
pub fn join(image: &[u8], table: &[u8], goal: u8, start: u8) -> Vec<u8> {
    let mut bytes = Vec::new();
    for part in [image, table] {
        bytes.extend_from_slice(&(part.len() as u16).to_be_bytes());
        bytes.extend_from_slice(part);
    }
    bytes.extend_from_slice(&[goal, start]);
    bytes
}

pub fn line(result: &Result<(u8, Vec<u8>), u64>) -> String {
    match result {
        Ok((side, certificate)) => {
            let word = if *side == 0 { "yes" } else { "no" };
            format!("{word} {} {}\n", certificate.len(), to_hex(certificate))
        }
        Err(number) => format!("refused {number}\n"),
    }
}
