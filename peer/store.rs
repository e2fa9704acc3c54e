//! Stores: what holds the quanta of a node.

use crate::amount::{G, WHOLE};
use crate::frame::Build;
use crate::refusal::Refusal;

/// The lowest stage that had too little for a draw.
#[derive(Clone, Copy, Debug, PartialEq, Eq)]
pub struct Fault {
    pub height: u8,
    pub kind: u8,
    pub deficit: u32,
}

pub enum Store {
    Capacitor(Capacitor),
    Layered(Layered),
    Bank(Bank),
}

impl Store {
    pub fn build(build: &Build) -> Result<Self, Refusal> {
        Ok(match *build {
            Build::Capacitor { capacity } => Store::Capacitor(Capacitor::new(capacity)?),
            Build::Layered { capacity, floor, part } => {
                Store::Layered(Layered::new(Capacitor::new(capacity)?, floor, part)?)
            }
            Build::Bank { capacities } => Store::Bank(Bank::new(capacities)?),
        })
    }

    pub fn held(&self) -> u32 {
        match self {
            Store::Capacitor(capacitor) => capacitor.held,
            Store::Layered(layered) => layered.below.held,
            Store::Bank(bank) => bank.held(),
        }
    }

    /// Takes in what there is room for, and tells how much that was.
    pub fn charge(&mut self, amount: u32) -> u32 {
        match self {
            Store::Capacitor(capacitor) => capacitor.charge(amount),
            Store::Layered(layered) => layered.below.charge(amount),
            Store::Bank(bank) => bank.charge(amount),
        }
    }

    /// Gives the whole amount, or nothing and the fault.
    pub fn draw(&mut self, amount: u32) -> Result<(), Fault> {
        match self {
            Store::Capacitor(capacitor) => capacitor.draw(amount),
            Store::Layered(layered) => layered.draw(amount),
            Store::Bank(bank) => bank.draw(amount),
        }
    }

    /// Lets a tick pass, and tells what was lost.
    pub fn tick(&mut self) -> u32 {
        match self {
            Store::Capacitor(_) | Store::Bank(_) => 0,
            Store::Layered(layered) => layered.leak(),
        }
    }
}

pub struct Capacitor {
    held: u32,
    capacity: u32,
}

impl Capacitor {
    fn new(capacity: u32) -> Result<Self, Refusal> {
        if capacity > G {
            return Err(Refusal::OutOfRange);
        }
        Ok(Capacitor { held: 0, capacity })
    }

    fn charge(&mut self, amount: u32) -> u32 {
        let taken = amount.min(self.capacity - self.held);
        self.held += taken;
        taken
    }

    fn draw(&mut self, amount: u32) -> Result<(), Fault> {
        if amount > self.held {
            return Err(Fault { height: 0, kind: b'C', deficit: amount - self.held });
        }
        self.held -= amount;
        Ok(())
    }
}

/// A capacitor under a floor under leakage.
pub struct Layered {
    below: Capacitor,
    /// What the floor holds back from draws.
    floor: u32,
    /// What leaks at a tick, in ten-thousandths.
    part: u32,
    /// What the last tick left over of a whole quantum, in ten-thousandths.
    remainder: u32,
}

impl Layered {
    fn new(below: Capacitor, floor: u32, part: u16) -> Result<Self, Refusal> {
        let part = u32::from(part);
        if part > WHOLE {
            return Err(Refusal::OutOfRange);
        }
        Ok(Layered { below, floor, part, remainder: 0 })
    }

    /// A fault of the capacitor goes before one of the floor. Leakage has none.
    fn draw(&mut self, amount: u32) -> Result<(), Fault> {
        let available = self.below.held.saturating_sub(self.floor);
        if amount > available && amount <= self.below.held {
            return Err(Fault { height: 1, kind: b'R', deficit: amount - available });
        }
        self.below.draw(amount)
    }

    fn leak(&mut self) -> u32 {
        let total = u64::from(self.below.held) * u64::from(self.part) + u64::from(self.remainder);
        let whole = u64::from(WHOLE);
        self.remainder = (total % whole) as u32;
        // At most what is held, since the part is at most the whole and the
        // remainder below it.
        let lost = (total / whole) as u32;
        self.below.held -= lost;
        lost
    }
}

/// Three cells, filled from the first and emptied from the last.
pub struct Bank {
    cells: [Capacitor; 3],
}

impl Bank {
    fn new(capacities: [u32; 3]) -> Result<Self, Refusal> {
        let total: u64 = capacities.iter().map(|&capacity| u64::from(capacity)).sum();
        if total > u64::from(G) {
            return Err(Refusal::OutOfRange);
        }
        Ok(Bank { cells: capacities.map(|capacity| Capacitor { held: 0, capacity }) })
    }

    fn held(&self) -> u32 {
        self.cells.iter().map(|cell| cell.held).sum()
    }

    fn charge(&mut self, amount: u32) -> u32 {
        let mut left = amount;
        for cell in &mut self.cells {
            left -= cell.charge(left);
        }
        amount - left
    }

    fn draw(&mut self, amount: u32) -> Result<(), Fault> {
        let held = self.held();
        if amount > held {
            return Err(Fault { height: 0, kind: b'F', deficit: amount - held });
        }
        let mut left = amount;
        for cell in self.cells.iter_mut().rev() {
            let given = left.min(cell.held);
            cell.held -= given;
            left -= given;
        }
        Ok(())
    }
}
