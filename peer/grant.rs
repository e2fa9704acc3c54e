//! The table of open grants.

use crate::amount::GRANTS;
use crate::refusal::Refusal;

#[derive(Clone, Copy)]
pub struct Grant {
    pub serial: u32,
    pub reserve: u8,
    pub amount: u32,
}

/// The open grants stand in the first places, in no order that matters.
pub struct Grants {
    rows: [Grant; GRANTS],
    len: usize,
}

impl Grants {
    pub fn new() -> Self {
        Grants { rows: [Grant { serial: 0, reserve: 0, amount: 0 }; GRANTS], len: 0 }
    }

    pub fn is_full(&self) -> bool {
        self.len == GRANTS
    }

    pub fn any_of(&self, reserve: u8) -> bool {
        self.rows[..self.len].iter().any(|grant| grant.reserve == reserve)
    }

    /// The grant with a serial, and its place.
    pub fn find(&self, serial: u32) -> Result<(usize, Grant), Refusal> {
        let place = self.rows[..self.len].iter().position(|grant| grant.serial == serial);
        let place = place.ok_or(Refusal::NoSuchGrant)?;
        Ok((place, self.rows[place]))
    }

    /// Adds a grant; the table is not full.
    pub fn push(&mut self, grant: Grant) {
        self.rows[self.len] = grant;
        self.len += 1;
    }

    /// Removes the grant at a place; the last one moves there.
    pub fn remove(&mut self, place: usize) {
        self.len -= 1;
        self.rows[place] = self.rows[self.len];
    }
}
