//! Why a call was refused.

mod codes;

pub use codes::{AssemblyFault, DisassemblyFault, Error};

use crate::sys::{self, BUSY, CODES, LINE_CODES, OFFSET_CODES, RUNNING, UNEXPLAINED};
use crate::{found, named, number_of};
use codes::{LINE_TEXTS, OFFSET_TEXTS, TEXTS};
use std::error;
use std::fmt;

impl Error {
    /// Returns the error of a code that has no place.
    pub(crate) fn of(code: i32) -> Error {
        named(&CODES, code)
    }

    /// Returns the error of a code of `dma330_assemble`.
    pub(crate) fn of_line(code: i32, line: usize) -> Error {
        found(&LINE_CODES, code).map_or_else(|| Error::of(code), |fault| Error::Assembly { line, fault })
    }

    /// Returns the error of a code of `dma330_disassemble`.
    pub(crate) fn of_offset(code: i32, offset: usize) -> Error {
        found(&OFFSET_CODES, code).map_or_else(|| Error::of(code), |fault| Error::Disassembly { offset, fault })
    }

    /// Returns the error of a code of a call that explains a program. `why` is the cause, its offset, and the number of
    /// instructions before it.
    pub(crate) fn of_explanation(code: i32, why: [u32; 3]) -> Error {
        let [cause, pc, steps] = why;
        match code {
            UNEXPLAINED => Error::Unexplained { cause: named(&sys::CAUSES, cause), pc, steps },
            _ => Error::of(code),
        }
    }

    /// Returns its number in `dma330.h`.
    ///
    /// ```
    /// assert_eq!(dma330::Error::NoChannel.code(), -5);
    /// ```
    pub fn code(self) -> i32 {
        match self {
            Error::Busy { .. } => BUSY,
            Error::Running { .. } => RUNNING,
            Error::Assembly { fault, .. } => number_of(&LINE_CODES, &fault),
            Error::Disassembly { fault, .. } => number_of(&OFFSET_CODES, &fault),
            Error::Unexplained { .. } => UNEXPLAINED,
            plain => number_of(&CODES, &plain),
        }
    }
}

// Writes what a table says of a name.
fn write_text<N: PartialEq>(f: &mut fmt::Formatter<'_>, texts: &[(N, &'static str)], name: N) -> fmt::Result {
    f.write_str(found(texts, name).expect("the table has it"))
}

impl fmt::Display for AssemblyFault {
    fn fmt(&self, f: &mut fmt::Formatter<'_>) -> fmt::Result {
        write_text(f, &LINE_TEXTS, *self)
    }
}

impl fmt::Display for DisassemblyFault {
    fn fmt(&self, f: &mut fmt::Formatter<'_>) -> fmt::Result {
        write_text(f, &OFFSET_TEXTS, *self)
    }
}

impl fmt::Display for Error {
    fn fmt(&self, f: &mut fmt::Formatter<'_>) -> fmt::Result {
        match self {
            Error::Busy { channel, cookie } => write!(f, "cookie {cookie} of channel {channel} runs, and conflicts"),
            Error::Running { channel, cookie } => write!(f, "cookie {cookie} of channel {channel} runs"),
            Error::Assembly { line, fault } => write!(f, "line {line}: {fault}"),
            Error::Disassembly { offset, fault } => write!(f, "offset {offset}: {fault}"),
            Error::Unexplained { cause, pc, .. } => write!(f, "the program isn't explained: offset {pc}: {cause}"),
            plain => write_text(f, &TEXTS, *plain),
        }
    }
}

impl error::Error for Error {}
