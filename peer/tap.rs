//! The table of taps.

use crate::amount::TAPS;
use crate::refusal::Refusal;

#[derive(Clone, Copy)]
pub struct Tap {
    pub source: u8,
    pub sink: u8,
    n: u32,
    d: u32,
    remainder: u32,
}

impl Tap {
    /// A tap that moves n quanta in d ticks; d is not 0.
    pub fn new(source: u8, sink: u8, n: u32, d: u16) -> Self {
        Tap { source, sink, n, d: u32::from(d), remainder: 0 }
    }

    /// Lets a tick pass, and tells what is due at it.
    pub fn step(&mut self) -> u32 {
        let total = self.n + self.remainder;
        self.remainder = total % self.d;
        total / self.d
    }
}

/// A place for each number; an empty one is a tap that is not open.
pub struct Taps {
    rows: [Option<Tap>; TAPS],
    /// No tap is open from this number on.
    end: usize,
}

impl Taps {
    pub fn new() -> Self {
        Taps { rows: [None; TAPS], end: 0 }
    }

    /// The open tap of a number in range.
    pub fn get(&self, number: u8) -> Result<&Tap, Refusal> {
        self.rows[usize::from(number)].as_ref().ok_or(Refusal::Absent)
    }

    pub fn is_open(&self, number: u8) -> bool {
        self.rows[usize::from(number)].is_some()
    }

    pub fn any_at(&self, reserve: u8) -> bool {
        self.rows.iter().flatten().any(|tap| tap.source == reserve || tap.sink == reserve)
    }

    pub fn put(&mut self, number: u8, tap: Tap) {
        self.rows[usize::from(number)] = Some(tap);
        self.end = self.end.max(usize::from(number) + 1);
    }

    pub fn remove(&mut self, number: u8) {
        self.rows[usize::from(number)] = None;
        while self.end > 0 && self.rows[self.end - 1].is_none() {
            self.end -= 1;
        }
    }

    /// The open taps, by rising number.
    pub fn open_mut(&mut self) -> impl Iterator<Item = &mut Tap> {
        self.rows[..self.end].iter_mut().flatten()
    }
}
