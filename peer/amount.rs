//! The bounds of the numbers that a node counts with.

/// The most that a capacity, a limit, a grant or a harvest may be. Also how
/// many ticks a node takes, and how many grants it gives.
pub const G: u32 = 1_000_000_000;

/// The parts of a whole: a leakage loses some ten-thousandths of what is held.
pub const WHOLE: u32 = 10_000;

/// The largest n of a rate n / d.
pub const MOST_QUANTA: u32 = 1_000_000;

pub const RESERVES: usize = 32;
pub const TAPS: usize = 96;
pub const GRANTS: usize = 64;

/// The reserve that is always open.
pub const ROOT: u8 = 0;
