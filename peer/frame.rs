//! Frames: what the bytes of a line ask for.

use crate::refusal::Refusal;

pub enum Frame {
    Build(Build),
    Call(Call),
}

/// A frame that builds a node.
pub enum Build {
    Capacitor { capacity: u32 },
    Layered { capacity: u32, floor: u32, part: u16 },
    Bank { capacities: [u32; 3] },
}

/// A frame that calls the node.
pub enum Call {
    Open { task: u8, parent: u8, number: u8, owner: u8, limit: u32, amount: u32 },
    Close { task: u8, number: u8 },
    Tap { task: u8, tap: u8, source: u8, sink: u8, n: u32, d: u16 },
    Shut { task: u8, tap: u8 },
    Grant { task: u8, reserve: u8, amount: u32 },
    Settle { task: u8, serial: u32, used: u32 },
    Tick { harvest: u32 },
    Audit,
}

impl Frame {
    pub fn of_bytes(bytes: &[u8]) -> Result<Self, Refusal> {
        let (&first, fields) = bytes.split_first().ok_or(Refusal::UnknownFrame)?;
        let frame = match (first, fields.len()) {
            (0x01, 12) => Frame::Call(Call::Open {
                task: fields[0],
                parent: fields[1],
                number: fields[2],
                owner: fields[3],
                limit: four(fields, 4),
                amount: four(fields, 8),
            }),
            (0x02, 2) => Frame::Call(Call::Close { task: fields[0], number: fields[1] }),
            (0x03, 10) => Frame::Call(Call::Tap {
                task: fields[0],
                tap: fields[1],
                source: fields[2],
                sink: fields[3],
                n: four(fields, 4),
                d: two(fields, 8),
            }),
            (0x05, 2) => Frame::Call(Call::Shut { task: fields[0], tap: fields[1] }),
            (0x06, 6) => Frame::Call(Call::Grant {
                task: fields[0],
                reserve: fields[1],
                amount: four(fields, 2),
            }),
            (0x07, 9) => Frame::Call(Call::Settle {
                task: fields[0],
                serial: four(fields, 1),
                used: four(fields, 5),
            }),
            (0x08, 4) => Frame::Call(Call::Tick { harvest: four(fields, 0) }),
            (0x09, 0) => Frame::Call(Call::Audit),
            (0x10, 4) => Frame::Build(Build::Capacitor { capacity: four(fields, 0) }),
            (0x11, 10) => Frame::Build(Build::Layered {
                capacity: four(fields, 0),
                floor: four(fields, 4),
                part: two(fields, 8),
            }),
            (0x12, 12) => Frame::Build(Build::Bank {
                capacities: [four(fields, 0), four(fields, 4), four(fields, 8)],
            }),
            _ => return Err(Refusal::UnknownFrame),
        };
        Ok(frame)
    }
}

/// The number in the four bytes from a place on, high byte first.
fn four(fields: &[u8], at: usize) -> u32 {
    u32::from_be_bytes([fields[at], fields[at + 1], fields[at + 2], fields[at + 3]])
}

/// The number in the two bytes from a place on, high byte first.
fn two(fields: &[u8], at: usize) -> u16 {
    u16::from_be_bytes([fields[at], fields[at + 1]])
}
