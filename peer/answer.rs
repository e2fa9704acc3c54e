//! Answers, and the lines that they are written as.

use crate::refusal::Refusal;

pub enum Answer {
    Done,
    Granted { serial: u32 },
    Settled { lost: u32 },
    Ticked { loss: u32, intake: u32 },
    Audited(Totals),
    Refused(Refusal),
}

/// What an audit tells.
pub struct Totals {
    pub received: u64,
    pub held: u64,
    pub open: u64,
    pub spent: u64,
    pub lost: u64,
    pub granted: u64,
    pub settled: u64,
}

/// The longest answer is that of an audit: one byte, seven totals of eight
/// bytes, each byte two digits, and the line feed.
const LONGEST: usize = 2 * (1 + 7 * 8) + 1;

/// An answer as text.
pub struct Text {
    text: [u8; LONGEST],
    len: usize,
}

impl Text {
    pub fn of_answer(answer: &Answer) -> Self {
        let mut text = Text { text: [0; LONGEST], len: 0 };
        match answer {
            Answer::Done => text.byte(0),
            Answer::Granted { serial } => {
                text.byte(0);
                text.four(*serial);
            }
            Answer::Settled { lost } => {
                text.byte(0);
                text.four(*lost);
            }
            Answer::Ticked { loss, intake } => {
                text.byte(0);
                text.four(*loss);
                text.four(*intake);
            }
            Answer::Audited(totals) => {
                text.byte(0);
                text.eight(totals.received);
                text.eight(totals.held);
                text.eight(totals.open);
                text.eight(totals.spent);
                text.eight(totals.lost);
                text.eight(totals.granted);
                text.eight(totals.settled);
            }
            Answer::Refused(refusal) => text.refusal(refusal),
        }
        text.line_feed();
        text
    }

    pub fn as_slice(&self) -> &[u8] {
        &self.text[..self.len]
    }

    fn refusal(&mut self, refusal: &Refusal) {
        self.byte(refusal.number());
        match *refusal {
            Refusal::LevelTooLow { task, reserve, deficit } => {
                self.byte(task);
                self.byte(reserve);
                self.four(deficit);
            }
            Refusal::StoreRefused { task, reserve, fault } => {
                self.byte(task);
                self.byte(reserve);
                self.byte(fault.height);
                self.byte(fault.kind);
                self.four(fault.deficit);
            }
            _ => {}
        }
    }

    fn byte(&mut self, byte: u8) {
        let digits = PAIRS[usize::from(byte)];
        self.text[self.len..self.len + 2].copy_from_slice(&digits);
        self.len += 2;
    }

    fn four(&mut self, number: u32) {
        for byte in number.to_be_bytes() {
            self.byte(byte);
        }
    }

    fn eight(&mut self, number: u64) {
        for byte in number.to_be_bytes() {
            self.byte(byte);
        }
    }

    fn line_feed(&mut self) {
        self.text[self.len] = b'\n';
        self.len += 1;
    }
}

/// The two digits of each byte.
const PAIRS: [[u8; 2]; 256] = {
    let digits = b"0123456789ABCDEF";
    let mut pairs = [[0; 2]; 256];
    let mut byte = 0;
    while byte < pairs.len() {
        pairs[byte] = [digits[byte / 16], digits[byte % 16]];
        byte += 1;
    }
    pairs
};
