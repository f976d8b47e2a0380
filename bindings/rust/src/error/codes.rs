//! The codes of dma330.h as errors. `tools/declarations` writes this file: change the header's comments, not the file.

use crate::Cause;

/// Why a call was refused: of the causes that the call's documentation lists, the first that applies. A refused call
/// changes nothing, except for [`Device::restore`](crate::Device::restore) with `BadSave`.
///
/// ```
/// let busy = dma330::Error::Busy { channel: 1, cookie: 3 };
/// assert_eq!(busy.to_string(), "cookie 3 of channel 1 runs, and conflicts");
/// ```
#[derive(Clone, Copy, Debug, PartialEq, Eq, Hash)]
#[non_exhaustive]
pub enum Error {
    /// Out of memory: malloc or realloc returned NULL.
    NoMemory,
    /// The channel's number isn't below the number of channels.
    NoChannel,
    /// The channel has no program.
    NoProgram,
    /// A program has more than 8192 bytes.
    ProgramTooLong,
    /// The number of channels isn't 1 to 8.
    BadChannels,
    /// The size of a memory isn't 1 to 4294963200.
    SizeOutOfRange,
    /// More than 64 regions, or one begins before the end of the one before it (also if one of the two is empty), or
    /// one ends above 4294967296.
    BadRegions,
    /// No device can have this configuration, this bus, or this Start.
    BadConfig,
    /// An event is above 31.
    BadEvent,
    /// A range in which accesses are to fail is empty, or ends above 2^32.
    BadRange,
    /// A range or a segment ends above the memory's size.
    OutOfMemoryRange,
    /// A list has no segment.
    EmptyList,
    /// A list has more than 64 segments.
    TooManySegments,
    /// A segment has length 0.
    EmptySegment,
    /// A segment ends above 2^32.
    SegmentWraps,
    /// The lists have different numbers of bytes.
    TotalsDiffer,
    /// A list has more than 1048576 bytes.
    TooLong,
    /// Two destination segments share an address.
    DestinationsMeet,
    /// A source and a destination segment share an address.
    SourceMeetsDestination,
    /// The channel has used cookie 2147483647.
    CookiesSpent,
    /// An instruction is due, and the step count is 2^64 - 1.
    StepsSpent,
    /// The bytes are no save of a channel, or of any device.
    BadSave,
    /// The bytes begin as a save of another version, or of another configuration.
    OtherDevice,
    /// The call conflicts with a running transfer.
    Busy {
        /// Its channel, the lowest of several.
        channel: u8,
        /// Its cookie.
        cookie: u32,
    },
    /// A checkpoint was requested while a transfer runs.
    Running {
        /// Its channel, the lowest of several.
        channel: u8,
        /// Its cookie.
        cookie: u32,
    },
    /// A line of assembly text has a fault.
    Assembly {
        /// Its number, from 1.
        line: usize,
        /// Its fault.
        fault: AssemblyFault,
    },
    /// No instruction begins at a byte of a program.
    Disassembly {
        /// The byte's offset.
        offset: usize,
        /// Why none begins there.
        fault: DisassemblyFault,
    },
    /// A program isn't explained.
    Unexplained {
        /// Why.
        cause: Cause,
        /// The offset of the instruction that has the cause.
        pc: u32,
        /// How many instructions are executed before it.
        steps: u32,
    },
}

/// What is wrong with a line of assembly text.
#[derive(Clone, Copy, Debug, PartialEq, Eq, Hash)]
pub enum AssemblyFault {
    /// No instruction has this name.
    BadMnemonic,
    /// An operand is missing, of a wrong form, or one too many.
    BadOperand,
    /// A number is outside its range.
    NumberOutOfRange,
    /// A program has more than 8192 bytes.
    ProgramTooLong,
}

/// Why no instruction begins at a byte.
#[derive(Clone, Copy, Debug, PartialEq, Eq, Hash)]
pub enum DisassemblyFault {
    /// The bytes end within an instruction.
    CutInstruction,
    /// No instruction begins with this byte.
    UnknownInstruction,
    /// A field is outside its range.
    BadField,
}

/// What the header says of each code that is an error by itself.
pub const TEXTS: [(Error, &str); 23] = [
    (Error::NoMemory, "out of memory: malloc or realloc returned NULL"),
    (Error::NoChannel, "the channel's number isn't below the number of channels"),
    (Error::NoProgram, "the channel has no program"),
    (Error::ProgramTooLong, "a program has more than 8192 bytes"),
    (Error::BadChannels, "the number of channels isn't 1 to 8"),
    (Error::SizeOutOfRange, "the size of a memory isn't 1 to 4294963200"),
    (Error::BadRegions, "more than 64 regions, or one begins before the end of the one before it (also if one of the two is empty), or one ends above 4294967296"),
    (Error::BadConfig, "no device can have this configuration, this bus, or this Start"),
    (Error::BadEvent, "an event is above 31"),
    (Error::BadRange, "a range in which accesses are to fail is empty, or ends above 2^32"),
    (Error::OutOfMemoryRange, "a range or a segment ends above the memory's size"),
    (Error::EmptyList, "a list has no segment"),
    (Error::TooManySegments, "a list has more than 64 segments"),
    (Error::EmptySegment, "a segment has length 0"),
    (Error::SegmentWraps, "a segment ends above 2^32"),
    (Error::TotalsDiffer, "the lists have different numbers of bytes"),
    (Error::TooLong, "a list has more than 1048576 bytes"),
    (Error::DestinationsMeet, "two destination segments share an address"),
    (Error::SourceMeetsDestination, "a source and a destination segment share an address"),
    (Error::CookiesSpent, "the channel has used cookie 2147483647"),
    (Error::StepsSpent, "an instruction is due, and the step count is 2^64 - 1"),
    (Error::BadSave, "the bytes are no save of a channel, or of any device"),
    (Error::OtherDevice, "the bytes begin as a save of another version, or of another configuration"),
];

/// What it says of each code of a line.
pub const LINE_TEXTS: [(AssemblyFault, &str); 4] = [
    (AssemblyFault::BadMnemonic, "no instruction has this name"),
    (AssemblyFault::BadOperand, "an operand is missing, of a wrong form, or one too many"),
    (AssemblyFault::NumberOutOfRange, "a number is outside its range"),
    (AssemblyFault::ProgramTooLong, "a program has more than 8192 bytes"),
];

/// What it says of each code of an offset.
pub const OFFSET_TEXTS: [(DisassemblyFault, &str); 3] = [
    (DisassemblyFault::CutInstruction, "the bytes end within an instruction"),
    (DisassemblyFault::UnknownInstruction, "no instruction begins with this byte"),
    (DisassemblyFault::BadField, "a field is outside its range"),
];
