//! Why a line is refused.

use crate::store::Fault;

#[derive(Clone, Copy, Debug, PartialEq, Eq)]
pub enum Refusal {
    BadLine,
    UnknownFrame,
    OutOfTurn,
    OutOfRange,
    Absent,
    AlreadyOpen,
    NoSuchGrant,
    NotOwner,
    SameEnds,
    AboveLimit,
    InUse,
    Overused,
    TooManyGrants,
    Exhausted,
    LevelTooLow { task: u8, reserve: u8, deficit: u32 },
    StoreRefused { task: u8, reserve: u8, fault: Fault },
}

impl Refusal {
    pub fn number(&self) -> u8 {
        match self {
            Refusal::BadLine => 2,
            Refusal::UnknownFrame => 3,
            Refusal::OutOfTurn => 4,
            Refusal::OutOfRange => 5,
            Refusal::Absent => 6,
            Refusal::AlreadyOpen => 7,
            Refusal::NoSuchGrant => 8,
            Refusal::NotOwner => 9,
            Refusal::SameEnds => 10,
            Refusal::AboveLimit => 11,
            Refusal::InUse => 12,
            Refusal::Overused => 13,
            Refusal::TooManyGrants => 14,
            Refusal::Exhausted => 15,
            Refusal::LevelTooLow { .. } => 16,
            Refusal::StoreRefused { .. } => 17,
        }
    }
}
