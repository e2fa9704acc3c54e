//! The table of reserves.

use crate::amount::{G, RESERVES, ROOT};
use crate::refusal::Refusal;

#[derive(Clone, Copy)]
pub struct Reserve {
    pub owner: u8,
    pub parent: u8,
    pub limit: u32,
    pub level: u32,
}

impl Reserve {
    pub fn headroom(&self) -> u32 {
        self.limit - self.level
    }
}

/// A place for each number; an empty one is a reserve that is not open.
pub struct Reserves {
    rows: [Option<Reserve>; RESERVES],
}

impl Reserves {
    /// The root alone. Its own number stands as its parent and is never asked.
    pub fn new(level: u32) -> Self {
        let mut rows = [None; RESERVES];
        rows[usize::from(ROOT)] = Some(Reserve { owner: 0, parent: ROOT, limit: G, level });
        Reserves { rows }
    }

    /// The open reserve of a number in range.
    pub fn get(&self, number: u8) -> Result<&Reserve, Refusal> {
        self.rows[usize::from(number)].as_ref().ok_or(Refusal::Absent)
    }

    pub fn is_open(&self, number: u8) -> bool {
        self.rows[usize::from(number)].is_some()
    }

    pub fn is_parent(&self, number: u8) -> bool {
        self.rows.iter().flatten().any(|reserve| reserve.parent == number)
    }

    pub fn put(&mut self, number: u8, reserve: Reserve) {
        self.rows[usize::from(number)] = Some(reserve);
    }

    pub fn remove(&mut self, number: u8) {
        self.rows[usize::from(number)] = None;
    }

    pub fn take(&mut self, number: u8, amount: u32) {
        if let Some(reserve) = &mut self.rows[usize::from(number)] {
            reserve.level -= amount;
        }
    }

    pub fn give(&mut self, number: u8, amount: u32) {
        if let Some(reserve) = &mut self.rows[usize::from(number)] {
            reserve.level += amount;
        }
    }

    /// Gives to a reserve as far as its headroom allows, and the rest to the root.
    pub fn give_back(&mut self, number: u8, amount: u32) {
        let headroom = self.rows[usize::from(number)].map_or(0, |reserve| reserve.headroom());
        let fits = amount.min(headroom);
        self.give(number, fits);
        self.give(ROOT, amount - fits);
    }

    /// Takes a loss from the root first, then from 31 down to 1.
    pub fn bear_loss(&mut self, loss: u32) {
        let mut left = loss;
        let (root, others) = self.rows.split_at_mut(1);
        for reserve in root.iter_mut().chain(others.iter_mut().rev()).flatten() {
            if left == 0 {
                return;
            }
            let borne = left.min(reserve.level);
            reserve.level -= borne;
            left -= borne;
        }
    }

    /// Moves the due of a tap, as far as level and headroom allow.
    pub fn move_due(&mut self, source: u8, sink: u8, due: u32) {
        if let (Ok(from), Ok(to)) = (self.get(source), self.get(sink)) {
            let moved = due.min(from.level).min(to.headroom());
            self.take(source, moved);
            self.give(sink, moved);
        }
    }
}
