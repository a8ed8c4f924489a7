//! The files of cases and of answers. All numbers are big-endian.
//!
//! A case: u8 service, u64 goal, u64 start, u64 room, then image, table and certificate, each a u32 length and its
//! bytes. For the program the image is the whole framed input.
//! An answer: u64 result, u32 length and that many bytes.

pub const VERDICT: u8 = 1;
pub const CHECK: u8 = 2;
pub const WRITE: u8 = 3;
pub const DEAD: u8 = 4;
pub const PROGRAM: u8 = 5;
pub const READ_IMAGE: u8 = 6;
pub const READ_TABLE: u8 = 7;

#[derive(Clone, Default, PartialEq, Eq, Debug)]
pub struct Case {
    pub service: u8,
    pub goal: u64,
    pub start: u64,
    pub room: u64,
    pub image: Vec<u8>,
    pub table: Vec<u8>,
    pub certificate: Vec<u8>,
}

#[derive(Clone, PartialEq, Eq, Debug)]
pub struct Answer {
    pub result: u64,
    pub bytes: Vec<u8>,
}

impl Case {
    pub fn put(&self, out: &mut Vec<u8>) {
        out.push(self.service);
        for number in [self.goal, self.start, self.room] {
            out.extend_from_slice(&number.to_be_bytes());
        }
        for part in [&self.image, &self.table, &self.certificate] {
            put_counted(out, part);
        }
    }
}

impl Answer {
    pub fn put(&self, out: &mut Vec<u8>) {
        out.extend_from_slice(&self.result.to_be_bytes());
        put_counted(out, &self.bytes);
    }
}

fn put_counted(out: &mut Vec<u8>, part: &[u8]) {
    out.extend_from_slice(&(part.len() as u32).to_be_bytes());
    out.extend_from_slice(part);
}

pub fn read_cases(bytes: &[u8]) -> Result<Vec<Case>, String> {
    read_all(bytes, "case", take_case)
}

pub fn read_answers(bytes: &[u8]) -> Result<Vec<Answer>, String> {
    read_all(bytes, "answer", take_answer)
}

fn read_all<T>(bytes: &[u8], what: &str, take_one: fn(&mut &[u8]) -> Option<T>) -> Result<Vec<T>, String> {
    let mut left = bytes;
    let mut list = Vec::new();
    while !left.is_empty() {
        match take_one(&mut left) {
            Some(one) => list.push(one),
            None => return Err(format!("the file of {what}s breaks off in {what} {}", list.len())),
        }
    }
    Ok(list)
}

fn take_case(left: &mut &[u8]) -> Option<Case> {
    Some(Case {
        service: take(left, 1)?[0],
        goal: take_number(left, 8)?,
        start: take_number(left, 8)?,
        room: take_number(left, 8)?,
        image: take_counted(left)?,
        table: take_counted(left)?,
        certificate: take_counted(left)?,
    })
}

fn take_answer(left: &mut &[u8]) -> Option<Answer> {
    Some(Answer { result: take_number(left, 8)?, bytes: take_counted(left)? })
}

fn take<'b>(left: &mut &'b [u8], count: usize) -> Option<&'b [u8]> {
    if left.len() < count {
        return None;
    }
    let (front, rest) = left.split_at(count);
    *left = rest;
    Some(front)
}

fn take_number(left: &mut &[u8], width: usize) -> Option<u64> {
    Some(take(left, width)?.iter().fold(0, |number, byte| number * 256 + u64::from(*byte)))
}

fn take_counted(left: &mut &[u8]) -> Option<Vec<u8>> {
    let length = take_number(left, 4)?;
    Some(take(left, length as usize)?.to_vec())
}
