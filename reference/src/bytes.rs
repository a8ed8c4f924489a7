//! Bytes by hand: hexadecimal in and out, and the stored forms put together from their parts.

/// Reads hexadecimal; spaces may stand anywhere.
pub fn from_hex(text: &str) -> Option<Vec<u8>> {
    let digits: Option<Vec<u32>> = text.chars().filter(|c| !c.is_whitespace()).map(|c| c.to_digit(16)).collect();
    let digits = digits?;
    if digits.len() % 2 == 1 {
        return None;
    }
    Some(digits.chunks(2).map(|pair| (pair[0] * 16 + pair[1]) as u8).collect())
}

pub fn to_hex(bytes: &[u8]) -> String {
    const DIGITS: &[u8; 16] = b"0123456789ABCDEF";
    let mut text = String::with_capacity(2 * bytes.len());
    for byte in bytes {
        text.push(DIGITS[*byte as usize / 16] as char);
        text.push(DIGITS[*byte as usize % 16] as char);
    }
    text
}

/// Hexadecimal that stands in this program's own text.
pub fn hex(text: &str) -> Vec<u8> {
    from_hex(text).expect("hexadecimal in the program's own text")
}

/// A stage image from its successor sets and its predicates (arity and sets). Nothing is tested here.
pub fn image(next: &[u64], predicates: &[(u8, Vec<u64>)]) -> Vec<u8> {
    let mut bytes = b"ZSM\x00\x01".to_vec();
    bytes.push(next.len() as u8);
    bytes.push(predicates.len() as u8);
    bytes.extend(predicates.iter().map(|predicate| predicate.0));
    for set in next.iter().chain(predicates.iter().flat_map(|predicate| predicate.1.iter())) {
        bytes.extend_from_slice(&set.to_be_bytes());
    }
    bytes
}

/// A formula table from its records (kind, a, b, x, y, t). Nothing is tested here.
pub fn table(records: &[[u8; 6]]) -> Vec<u8> {
    let mut bytes = b"ZSF\x00\x01".to_vec();
    bytes.push(records.len() as u8);
    bytes.extend(records.iter().flat_map(|record| record.iter()));
    bytes
}

/// The first eight bytes of a certificate.
pub fn header(side: u8, goal: u8, start: u8) -> Vec<u8> {
    let mut bytes = b"ZSC\x00\x01".to_vec();
    bytes.extend_from_slice(&[side, goal, start]);
    bytes
}
