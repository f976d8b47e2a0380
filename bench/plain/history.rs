//! What the engine answers, and the entries of its history.

use crate::mem::{MarkKind, NoMemory, Segment};
use crate::transfer::Transfer;

#[derive(Clone, Copy, Debug, PartialEq, Eq)]
pub enum EngineFault {
    OutOfMemoryRange,
    Busy { ch: u8, cookie: u32 },
    NoChannel,
    CookiesSpent,
    StepsSpent,
    BadEvent,
    BadRange,
    NoMemory,
}

impl From<NoMemory> for EngineFault {
    fn from(_: NoMemory) -> Self {
        EngineFault::NoMemory
    }
}

#[derive(Clone, Copy, Debug, PartialEq, Eq)]
pub enum TransResult {
    NoError,
    ReadFailed,
    WriteFailed,
    Aborted,
}

#[derive(Clone, Copy, Debug, PartialEq, Eq)]
pub struct Outcome {
    pub result: TransResult,
    pub residue: u32,
}

#[derive(Clone, Copy, Debug, PartialEq, Eq)]
pub enum Turn {
    Nothing,
    Held { ch: u8, cookie: u32 },
    Started(u32),
    Moved,
    Waiting(u8),
    Paused,
    Halted,
    Finished { cookie: u32, outcome: Outcome },
}

#[derive(Clone, Copy, Debug, PartialEq, Eq)]
pub enum Status {
    Unknown,
    InProgress,
    Complete,
}

#[derive(Clone, Copy, Debug, PartialEq, Eq)]
pub enum Signaller {
    Channel(u8),
    Host,
}

/// One accepted call of the history, which is part of the product.
#[derive(Debug)]
#[allow(dead_code)] // kept for whoever holds the engine; dmasim prints only their number
pub enum Entry {
    Wrote { addr: u32, bytes: Box<[u8]> },
    ReadBack { addr: u32, bytes: Box<[u8]> },
    Submitted { ch: u8, transfer: Transfer, cookie: u32 },
    Issued { ch: u8 },
    Passed { ch: u8, event: u8 },
    Signalled { by: Signaller, event: u8 },
    Finished { ch: u8, result: TransResult, done: u32 },
    Terminated { ch: u8, done: u32, count: u32 },
    Marked { kind: MarkKind, segment: Segment },
    Unmarked,
}
