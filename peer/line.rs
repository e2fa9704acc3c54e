//! Lines: the one that is being read, and the bytes that a line stands for.

use crate::refusal::Refusal;

/// The most digits that a good line has.
const MOST_DIGITS: usize = 80;

/// One byte more than a good line has: enough to know that a line is too long.
const KEPT: usize = MOST_DIGITS + 1;

/// The front of a line whose end has not been read yet.
pub struct Line {
    kept: [u8; KEPT],
    len: usize,
}

impl Line {
    pub fn new() -> Self {
        Line { kept: [0; KEPT], len: 0 }
    }

    pub fn is_empty(&self) -> bool {
        self.len == 0
    }

    /// Adds what follows, as far as it is kept.
    pub fn push(&mut self, more: &[u8]) {
        let taken = more.len().min(KEPT - self.len);
        self.kept[self.len..self.len + taken].copy_from_slice(&more[..taken]);
        self.len += taken;
    }

    pub fn text(&self) -> &[u8] {
        &self.kept[..self.len]
    }

    pub fn clear(&mut self) {
        self.len = 0;
    }
}

/// The bytes that a good line stands for.
pub struct Bytes {
    bytes: [u8; MOST_DIGITS / 2],
    len: usize,
}

impl Bytes {
    pub fn of_line(text: &[u8]) -> Result<Self, Refusal> {
        if text.is_empty() || text.len() > MOST_DIGITS || text.len() % 2 != 0 {
            return Err(Refusal::BadLine);
        }
        let mut bytes = [0; MOST_DIGITS / 2];
        for (byte, pair) in bytes.iter_mut().zip(text.chunks_exact(2)) {
            let high = VALUES[usize::from(pair[0])];
            let low = VALUES[usize::from(pair[1])];
            if high == NO_DIGIT || low == NO_DIGIT {
                return Err(Refusal::BadLine);
            }
            *byte = high << 4 | low;
        }
        Ok(Bytes { bytes, len: text.len() / 2 })
    }

    pub fn as_slice(&self) -> &[u8] {
        &self.bytes[..self.len]
    }
}

const NO_DIGIT: u8 = 0xFF;

/// The value of each character as a digit.
const VALUES: [u8; 256] = {
    let mut values = [NO_DIGIT; 256];
    let digits = b"0123456789ABCDEF";
    let mut value = 0;
    while value < digits.len() {
        values[digits[value] as usize] = value as u8;
        value += 1;
    }
    values
};
