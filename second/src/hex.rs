//! Hexadecimal as frames spell it: digits 0-9 and A-F, an even number, big-endian.

pub const DIGITS: &[u8; 16] = b"0123456789ABCDEF";

/// Why a line's digits spell no bytes.
#[derive(Clone, Copy, Debug, PartialEq, Eq)]
pub enum Misspelt {
    Empty,
    /// The place, from 1, of the first byte that is no digit.
    BadDigit(usize),
    Odd,
}

fn value(digit: u8) -> Option<u8> {
    match digit {
        b'0'..=b'9' => Some(digit - b'0'),
        b'A'..=b'F' => Some(digit - b'A' + 10),
        _ => None,
    }
}

/// Puts the bytes that `digits` spell into `bytes`, in place of what was there. That they are odd is told only
/// where each of them is a digit.
pub fn decode(digits: &[u8], bytes: &mut Vec<u8>) -> Result<(), Misspelt> {
    bytes.clear();
    let mut high = None;
    for (place, &digit) in (1..).zip(digits) {
        let low = value(digit).ok_or(Misspelt::BadDigit(place))?;
        match high.take() {
            None => high = Some(low),
            Some(high) => bytes.push(high * 16 + low),
        }
    }
    match high {
        Some(_) => Err(Misspelt::Odd),
        None if digits.is_empty() => Err(Misspelt::Empty),
        None => Ok(()),
    }
}

/// Appends `number` as `width` bytes.
pub fn push(text: &mut Vec<u8>, number: usize, width: usize) {
    for place in (0..2 * width).rev() {
        text.push(DIGITS[(number >> (4 * place)) & 15]);
    }
}

/// The number that `bytes` make.
pub fn number(bytes: &[u8]) -> usize {
    bytes.iter().fold(0, |sum, &byte| sum * 256 + usize::from(byte))
}
