#![doc = include_str!("../README.md")]
#![deny(missing_docs, unsafe_code, clippy::undocumented_unsafe_blocks)]

#[allow(unsafe_code)]
mod calls;
mod channel;
mod device;
mod error;
mod explain;
mod sys;

pub use calls::Region;
pub use channel::{Channel, ChannelStep, ChannelSteps, Registers};
pub use device::{BusWidth, Device, DeviceConfig, DeviceRows, DeviceTurn, Revision};
pub use error::{AssemblyFault, DisassemblyFault, Error};
pub use explain::{explain, plan, plan_fill};
pub use explain::{Bus, Cause, Event, EventKind, Explanation, Repeated, Start};

use std::fmt;

/// The addresses from `addr` up to, and not including, `addr + len`.
#[repr(C)]
#[derive(Clone, Copy, Debug, Default, PartialEq, Eq, Hash)]
pub struct Segment {
    /// The first address.
    pub addr: u32,
    /// The number of addresses.
    pub len: u32,
}

impl Segment {
    /// Returns the segment of `len` addresses from `addr` on.
    pub const fn new(addr: u32, len: u32) -> Segment {
        Segment { addr, len }
    }
}

/// The event that a transfer waits for before it begins, and the event that it signals once all its bytes are stored:
/// each 0 to 31, or none.
#[derive(Clone, Copy, Debug, Default, PartialEq, Eq, Hash)]
pub struct Events {
    /// The event whose flag the transfer waits for, and then clears.
    pub wait: Option<u8>,
    /// The event whose flag the transfer sets.
    pub signal: Option<u8>,
}

/// How a transfer finished.
#[derive(Clone, Copy, Debug, PartialEq, Eq, Hash)]
pub enum TransferResult {
    /// All its bytes are stored.
    NoError,
    /// A load met an injected error.
    ReadFailed,
    /// A store met an injected error.
    WriteFailed,
    /// It was terminated.
    Aborted,
}

/// How a transfer finished, and the number of its bytes that were not stored.
#[derive(Clone, Copy, Debug, PartialEq, Eq, Hash)]
pub struct Outcome {
    /// How the transfer finished.
    pub result: TransferResult,
    /// The number of its bytes that were not stored.
    pub residue: u32,
}

/// What one step of a channel did.
#[derive(Clone, Copy, Debug, PartialEq, Eq, Hash)]
pub enum Step {
    /// The channel's next transfer began to run.
    Started {
        /// Its cookie.
        cookie: u32,
    },
    /// One instruction was executed.
    Moved,
    /// No transfer is issued and unfinished.
    Nothing,
    /// The next transfer can't start: it conflicts with a running one.
    Held {
        /// The channel of the running transfer, the lowest of several.
        channel: u8,
        /// Its cookie.
        cookie: u32,
    },
    /// The transfer waits for an event whose flag is clear.
    Waiting {
        /// The event.
        event: u8,
    },
    /// The channel is paused, until it is resumed or terminated.
    Paused,
    /// A failed transfer has halted the channel, until it is terminated.
    Halted,
    /// The transfer finished.
    Finished {
        /// Its cookie.
        cookie: u32,
        /// How it finished.
        outcome: Outcome,
    },
}

/// What some steps of a channel did.
#[derive(Clone, Copy, Debug, PartialEq, Eq, Hash)]
pub struct Steps {
    /// The number of steps taken, the last one included, whatever it did.
    pub taken: u32,
    /// What the last one did; `None` if no step was requested.
    pub last: Option<Step>,
}

/// The state of a cookie. One that isn't issued yet is in progress; one that failed or was aborted is complete.
#[derive(Clone, Copy, Debug, PartialEq, Eq, Hash)]
pub enum Status {
    /// It was never given.
    Unknown,
    /// It was given, and hasn't finished.
    InProgress,
    /// It has finished.
    Complete,
}

/// The transfer that runs on a channel.
#[derive(Clone, Copy, Debug, PartialEq, Eq, Hash)]
pub struct Running {
    /// Its cookie.
    pub cookie: u32,
    /// The number of its bytes that are stored so far.
    pub stored: u32,
}

/// The accesses to a range that fail.
#[derive(Clone, Copy, Debug, PartialEq, Eq, Hash)]
pub enum Access {
    /// Those that read it.
    Reads,
    /// Those that write it.
    Writes,
}

/// The manual's faults of a channel.
#[derive(Clone, Copy, Debug, PartialEq, Eq, Hash)]
#[allow(missing_docs)]
pub enum Fault {
    UndefInstr,
    OperandInvalid,
    MfifoErr,
    StDataUnavailable,
    InstrFetchErr,
    DataWriteErr,
    DataReadErr,
}

/// How a program that ran alone ended.
#[derive(Clone, Copy, Debug, PartialEq, Eq, Hash)]
pub enum RunEnd {
    /// It executed DMAEND.
    Ended {
        /// The number of executed instructions, DMAEND included.
        steps: u32,
    },
    /// It executed as many instructions as the limit, and none was DMAEND.
    OutOfSteps,
    /// It waits for an event whose flag is clear.
    Waiting {
        /// The event.
        event: u8,
    },
    /// An instruction failed.
    Fault {
        /// Its fault.
        fault: Fault,
        /// The offset of the instruction.
        pc: u32,
    },
}

// Fails for a number that the library never returns or writes.
fn unnamed(number: impl fmt::Display) -> ! {
    unreachable!("the library gave the number {number}")
}

// Returns the name of a number in a table, if it has one.
fn found<N: PartialEq, T: Copy>(names: &[(N, T)], number: N) -> Option<T> {
    names.iter().find(|(known, _)| *known == number).map(|(_, name)| *name)
}

// Returns the name of a number that the library returned or wrote.
fn named<N: PartialEq + Copy + fmt::Display, T: Copy>(names: &[(N, T)], number: N) -> T {
    found(names, number).unwrap_or_else(|| unnamed(number))
}

// Returns the number of a name.
fn number_of<N: Copy, T: PartialEq>(names: &[(N, T)], name: &T) -> N {
    names.iter().find(|(_, known)| known == name).expect("the table has it").0
}

// Returns a channel or an event, which the library writes as 32 bits.
fn small(number: u32) -> u8 {
    u8::try_from(number).unwrap_or_else(|_| unnamed(number))
}

fn event(event: Option<u8>) -> i32 {
    event.map_or(sys::NO_EVENT, i32::from)
}

fn outcome_of(result: u32, residue: u32) -> Outcome {
    Outcome { result: named(&sys::RESULT_CODES, result), residue }
}

fn step_of(report: &sys::RawReport) -> Option<Step> {
    let cookie = report.cookie;
    Some(match report.last {
        sys::NO_STEP => return None,
        sys::STARTED => Step::Started { cookie },
        sys::MOVED => Step::Moved,
        sys::NOTHING => Step::Nothing,
        sys::HELD => Step::Held { channel: small(report.channel), cookie },
        sys::WAITING => Step::Waiting { event: small(report.event) },
        sys::PAUSED => Step::Paused,
        sys::HALTED => Step::Halted,
        sys::FINISHED => Step::Finished { cookie, outcome: outcome_of(report.result, report.residue) },
        number => unnamed(number),
    })
}

/// A controller over a memory of its own. It is closed when it is dropped.
///
/// It is `Send`: the prover has checked this of the library's type inside it. So threads may share a controller
/// behind a `Mutex`, or one thread may own it and serve the requests of others (`examples/threads.rs`). It
/// is not `Sync`: calls that only read it take `&self`, and only one call at a time may use a controller.
///
/// ```
/// use dma330::{Controller, Error};
/// use std::{sync::Mutex, thread};
///
/// let shared = Mutex::new(Controller::open(0x1000, 2)?);
/// thread::scope(|scope| {
///     for channel in 0..2 {
///         let shared = &shared;
///         scope.spawn(move || shared.lock().unwrap().pause(channel));
///     }
/// });
/// # Ok::<(), Error>(())
/// ```
///
/// ```compile_fail
/// fn is_shared<T: Sync>() {}
/// is_shared::<dma330::Controller>();
/// ```
pub struct Controller {
    handle: calls::Handle,
}

impl Controller {
    /// Opens a controller with a memory of `size` zeros and with `channels` channels, 1 to 8.
    ///
    /// Fails with the first that applies of `BadChannels`, `SizeOutOfRange` and `NoMemory`.
    ///
    /// ```
    /// use dma330::{Controller, Error};
    /// assert!(Controller::open(0x1000, 8).is_ok());
    /// assert_eq!(Controller::open(0, 9).err(), Some(Error::BadChannels));
    /// ```
    pub fn open(size: u32, channels: u8) -> Result<Controller, Error> {
        Ok(Controller { handle: calls::Handle::open(size, channels)? })
    }

    /// Writes bytes into the memory from an address on.
    ///
    /// Fails with the first that applies of `OutOfMemoryRange`, `Busy` if a running transfer reads or writes one of the
    /// addresses, and `NoMemory`.
    pub fn write(&mut self, addr: u32, bytes: &[u8]) -> Result<(), Error> {
        self.handle.write(addr, bytes)
    }

    /// Reads `out.len()` bytes of the memory from an address on.
    ///
    /// Fails with the first that applies of `OutOfMemoryRange`, `Busy` if a running transfer writes one of the
    /// addresses, and `NoMemory`. A call that fails doesn't change `out`.
    pub fn read(&mut self, addr: u32, out: &mut [u8]) -> Result<(), Error> {
        self.handle.read(addr, out)
    }

    /// Queues a copy of the source list's bytes to the places of the destination list on a channel, and returns its
    /// cookie.
    ///
    /// The first cookie of a channel is 1. The copy doesn't start before [`Controller::issue`].
    ///
    /// Fails with the first that applies of `EmptyList`, `TooManySegments`, `EmptySegment`, `SegmentWraps`,
    /// `TotalsDiffer`, `TooLong`, `DestinationsMeet`, `SourceMeetsDestination`, `BadEvent`, each tested over both
    /// lists, `NoChannel`, `OutOfMemoryRange` and `CookiesSpent`; or with `NoMemory`.
    ///
    /// ```
    /// use dma330::{Controller, Error, Events, Segment};
    /// let mut controller = Controller::open(0x1000, 1)?;
    /// let from = [Segment::new(0x100, 2), Segment::new(0x180, 2)];
    /// assert_eq!(controller.submit(0, &from, &[Segment::new(0x200, 4)], Events::default()), Ok(1));
    /// let over_it = [Segment::new(0x181, 4)];
    /// assert_eq!(controller.submit(0, &from, &over_it, Events::default()), Err(Error::SourceMeetsDestination));
    /// # Ok::<(), Error>(())
    /// ```
    pub fn submit(&mut self, channel: u8, src: &[Segment], dst: &[Segment], events: Events) -> Result<u32, Error> {
        self.handle.submit(channel, src, dst, event(events.wait), event(events.signal))
    }

    /// Queues a fill on a channel: a copy of the byte at address `src` to every place of the destination list.
    ///
    /// It returns and fails as [`Controller::submit`] does, but never with `TotalsDiffer`.
    pub fn submit_fill(&mut self, channel: u8, src: u32, dst: &[Segment], events: Events) -> Result<u32, Error> {
        self.handle.submit_fill(channel, src, dst, event(events.wait), event(events.signal))
    }

    /// Allows all submitted transfers of a channel to start, and returns how many were not allowed before.
    ///
    /// Fails with `NoChannel` or `NoMemory`.
    pub fn issue(&mut self, channel: u8) -> Result<u32, Error> {
        self.handle.issue(channel)
    }

    /// Pauses a channel, paused or not: its steps do nothing until it is resumed or terminated.
    ///
    /// Fails with `NoChannel`.
    pub fn pause(&mut self, channel: u8) -> Result<(), Error> {
        self.handle.pause(channel)
    }

    /// Ends the pause of a channel.
    ///
    /// Fails with `NoChannel`.
    pub fn resume(&mut self, channel: u8) -> Result<(), Error> {
        self.handle.resume(channel)
    }

    /// Aborts all unfinished transfers of a channel, issued or not, ends its pause and its halt, and returns how many
    /// transfers it aborted. Stored bytes stay stored.
    ///
    /// Fails with `NoChannel` or `NoMemory`.
    pub fn terminate(&mut self, channel: u8) -> Result<u32, Error> {
        self.handle.terminate(channel)
    }

    /// Steps a channel up to `most` times, or until a step neither starts nor moves.
    ///
    /// Fails with the error of the first step: `NoChannel`, `StepsSpent` or `NoMemory`. If a later step fails, the call
    /// returns the steps before it, and the next call tries that step again and fails if the cause still applies.
    ///
    /// ```
    /// use dma330::{Controller, Events, Outcome, Segment, Step, Steps, TransferResult};
    /// let mut controller = Controller::open(0x3000, 1)?;
    /// let cookie = controller.submit(0, &[Segment::new(0x1000, 4)], &[Segment::new(0x2000, 4)], Events::default())?;
    /// assert_eq!(controller.step(0, 9)?, Steps { taken: 1, last: Some(Step::Nothing) });
    /// controller.issue(0)?;
    /// // a start, and some of the eight instructions of its program
    /// assert_eq!(controller.step(0, 3)?, Steps { taken: 3, last: Some(Step::Moved) });
    /// let outcome = Outcome { result: TransferResult::NoError, residue: 0 };
    /// assert_eq!(controller.step(0, 100)?, Steps { taken: 6, last: Some(Step::Finished { cookie, outcome }) });
    /// # Ok::<(), dma330::Error>(())
    /// ```
    pub fn step(&mut self, channel: u8, most: u32) -> Result<Steps, Error> {
        let report = self.handle.step(channel, most)?;
        Ok(Steps { taken: report.taken, last: step_of(&report) })
    }

    /// Returns the state of a cookie.
    pub fn status(&self, channel: u8, cookie: u32) -> Status {
        named(&sys::STATES, self.handle.status(channel, cookie))
    }

    /// Returns how a cookie finished; `None` if it hasn't, if it was never given, or if a checkpoint has forgotten its
    /// result.
    pub fn result(&self, channel: u8, cookie: u32) -> Option<Outcome> {
        let outcome = self.handle.result(channel, cookie)?;
        Some(outcome_of(outcome.result, outcome.residue))
    }

    /// Returns the transfer that runs on a channel; `None` if none runs, or if the channel doesn't exist.
    pub fn running(&self, channel: u8) -> Option<Running> {
        let running = self.handle.running(channel)?;
        Some(Running { cookie: running.cookie, stored: running.stored })
    }

    /// Returns the number of unfinished cookies of a channel; 0 if the channel doesn't exist.
    pub fn unfinished(&self, channel: u8) -> u32 {
        self.handle.unfinished(channel)
    }

    /// Returns the number of a channel's results that checkpoints have forgotten; 0 if the channel doesn't exist.
    pub fn forgotten(&self, channel: u8) -> u32 {
        self.handle.forgotten(channel)
    }

    /// Returns the number of steps that moved or finished, on all channels since the controller was opened.
    pub fn steps(&self) -> u64 {
        self.handle.steps()
    }

    /// Returns the number of entries of the history.
    ///
    /// ```
    /// use dma330::{Controller, Error};
    /// let mut controller = Controller::open(0x100, 1)?;
    /// controller.write(0x10, &[1, 2, 3])?;
    /// controller.read(0x10, &mut [0; 5])?;
    /// assert_eq!((controller.history_entries(), controller.history_bytes()), (2, 8));
    /// controller.checkpoint()?;
    /// assert_eq!((controller.history_entries(), controller.history_bytes()), (0, 0));
    /// # Ok::<(), Error>(())
    /// ```
    pub fn history_entries(&self) -> u64 {
        self.handle.history_entries()
    }

    /// Returns the number of bytes of writes and reads that the history keeps, in time proportional to its entries.
    pub fn history_bytes(&self) -> u64 {
        self.handle.history_bytes()
    }

    /// Returns the number of running transfers, on all channels.
    pub fn running_count(&self) -> u32 {
        self.handle.running_count()
    }

    /// Injects an error: bursts that read a range, or write it, by `access`, fail from then on. The range may lie inside
    /// the memory or not.
    ///
    /// Fails with `BadRange` or `NoMemory`.
    ///
    /// ```
    /// use dma330::{Access, Controller, Events, Segment, Step, TransferResult};
    /// let mut controller = Controller::open(0x400, 1)?;
    /// controller.inject_error(Access::Writes, Segment::new(0x202, 1))?;
    /// controller.submit(0, &[Segment::new(0x100, 4)], &[Segment::new(0x200, 4)], Events::default())?;
    /// controller.issue(0)?;
    /// let Some(Step::Finished { outcome, .. }) = controller.step(0, 100)?.last else { panic!() };
    /// assert_eq!((outcome.result, outcome.residue), (TransferResult::WriteFailed, 4));
    /// assert_eq!(controller.step(0, 1)?.last, Some(Step::Halted));
    /// # Ok::<(), dma330::Error>(())
    /// ```
    pub fn inject_error(&mut self, access: Access, range: Segment) -> Result<(), Error> {
        self.handle.inject_error(number_of(&sys::ACCESSES, &access), range)
    }

    /// Removes all injected errors.
    ///
    /// Fails with `NoMemory`.
    pub fn uninject_errors(&mut self) -> Result<(), Error> {
        self.handle.uninject_errors()
    }

    /// Sets the flag of an event. One transfer that waits for the event clears the flag and goes on.
    ///
    /// Fails with `BadEvent` or `NoMemory`.
    pub fn raise(&mut self, event: u8) -> Result<(), Error> {
        self.handle.raise(event)
    }

    /// Drops the history and the results of finished transfers, and frees their memory.
    ///
    /// Fails with `Running` if a transfer runs, or with `NoMemory`.
    pub fn checkpoint(&mut self) -> Result<(), Error> {
        self.handle.checkpoint()
    }
}

impl fmt::Debug for Controller {
    fn fmt(&self, f: &mut fmt::Formatter<'_>) -> fmt::Result {
        f.debug_struct("Controller").field("steps", &self.steps()).finish_non_exhaustive()
    }
}

/// Returns the version of the library.
///
/// ```
/// assert_eq!(dma330::version(), "dilkwafam 1.0");
/// ```
pub fn version() -> String {
    let mut out = vec![0; 64];
    loop {
        if let Some(len) = calls::version(&mut out) {
            return text_of(&out[..len]);
        }
        out.resize(2 * out.len(), 0);
    }
}

/// Runs a program's bytes alone over a memory, with all flags clear, for at most `limit` instructions.
///
/// Fails with the first that applies of `SizeOutOfRange`, for the memory's length, and `ProgramTooLong`; or with
/// `NoMemory`. A call that fails doesn't change the memory.
///
/// ```
/// use dma330::{assemble, run_program, Fault, RunEnd};
/// let program = assemble("DMASEV 3\nDMAWFE 3\nDMAEND\n")?;
/// assert_eq!(run_program(&program, &mut [0; 16], 100), Ok(RunEnd::Ended { steps: 3 }));
/// let fault = Fault::StDataUnavailable;
/// assert_eq!(run_program(&assemble("DMAST")?, &mut [0; 16], 100), Ok(RunEnd::Fault { fault, pc: 0 }));
/// # Ok::<(), dma330::Error>(())
/// ```
pub fn run_program(program: &[u8], memory: &mut [u8], limit: u32) -> Result<RunEnd, Error> {
    let end = calls::run_program(program, memory, limit)?;
    Ok(match end.end {
        sys::END_ENDED => RunEnd::Ended { steps: end.steps },
        sys::END_OUT_OF_STEPS => RunEnd::OutOfSteps,
        sys::END_WAITING => RunEnd::Waiting { event: small(end.event) },
        sys::END_FAULT => RunEnd::Fault { fault: named(&sys::FAULTS, end.fault), pc: end.pc },
        number => unnamed(number),
    })
}

// The most bytes of text for one byte of a program.
const MAX_TEXT: usize = 9;

/// Returns the bytes of the program with this text.
///
/// Fails with `Assembly` for the first line with a fault, or with `NoMemory`.
///
/// ```
/// use dma330::{assemble, AssemblyFault, Error};
/// let text = "DMALP 1 256\nDMALD\nDMAST\nDMALPEND 1 2\nDMAEND\n";
/// assert_eq!(assemble(text), Ok(vec![0x22, 0xFF, 0x04, 0x08, 0x3C, 0x02, 0x00]));
/// assert_eq!(assemble("DMALD\nDMALP 2 1"), Err(Error::Assembly { line: 2, fault: AssemblyFault::NumberOutOfRange }));
/// ```
pub fn assemble(text: &str) -> Result<Vec<u8>, Error> {
    let mut out = vec![0; sys::MAX_PROGRAM];
    let len = calls::assemble(text.as_bytes(), &mut out)?;
    out.truncate(len);
    Ok(out)
}

/// Returns the text of a program, a line for each instruction.
///
/// Fails with `Disassembly` for the first byte at which no instruction begins, or with `NoMemory`.
///
/// ```
/// use dma330::{disassemble, DisassemblyFault, Error};
/// assert_eq!(disassemble(&[0x36, 0x1A, 0x00]).as_deref(), Ok("DMAWFE 3 invalid\nDMAEND\n"));
/// let fault = DisassemblyFault::UnknownInstruction;
/// assert_eq!(disassemble(&[0x04, 0x28]), Err(Error::Disassembly { offset: 1, fault }));
/// ```
pub fn disassemble(program: &[u8]) -> Result<String, Error> {
    let mut out = vec![0; MAX_TEXT * program.len()];
    let len = calls::disassemble(program, &mut out)?;
    Ok(text_of(&out[..len]))
}

// The library writes ASCII.
fn text_of(bytes: &[u8]) -> String {
    bytes.iter().copied().map(char::from).collect()
}
