//! A channel without a controller, over memory and event flags of its caller.

use crate::{calls, event, named, number_of, small, sys, unnamed, Access, Error, Events, Fault, Region, Segment};
use std::fmt;

/// What the last of some steps of a [`Channel`] did.
#[derive(Clone, Copy, Debug, PartialEq, Eq, Hash)]
pub enum ChannelStep {
    /// No step was taken: `most` was 0, or 4294967295 instructions were executed since the load.
    NoStep,
    /// An instruction was executed.
    Moved,
    /// The program waits for an event whose flag is clear. Nothing has changed.
    Waiting {
        /// The event.
        event: u8,
    },
    /// The instruction was DMAEND: the program is gone.
    Ended,
    /// The instruction failed. Nothing has changed.
    Fault {
        /// Its fault.
        fault: Fault,
    },
    /// The instruction was DMASEV: the flag of an event is set.
    Signalled {
        /// The event.
        event: u8,
    },
}

/// What some steps of a [`Channel`] did.
#[derive(Clone, Copy, Debug, PartialEq, Eq, Hash)]
pub struct ChannelSteps {
    /// The number of steps taken, the last one included, whatever it did.
    pub taken: u32,
    /// What the last one did.
    pub last: ChannelStep,
    /// The offset of the next instruction in the program: for `Waiting` and `Fault` that of the instruction that waits
    /// or failed, for `Ended` that of the DMAEND.
    pub pc: u32,
    /// The range that the steps wrote: each byte in it, and no other byte of the regions. Its length is 0 if they wrote
    /// nothing.
    pub written: Segment,
}

/// The registers and counts of a [`Channel`], or of a channel of a [`Device`](crate::Device).
#[derive(Clone, Copy, Debug, Default, PartialEq, Eq, Hash)]
pub struct Registers {
    /// The offset of the next instruction in the program.
    pub pc: u32,
    /// The next source address.
    pub sar: u32,
    /// The next destination address.
    pub dar: u32,
    /// The control word.
    pub ccr: u32,
    /// Loop counter 0.
    pub lc0: u8,
    /// Loop counter 1.
    pub lc1: u8,
    /// Whether a program is loaded.
    pub is_loaded: bool,
    /// The number of instructions executed since the program was loaded, DMAEND included.
    pub taken: u32,
    /// The number of bytes stored since then.
    pub stored: u64,
}

pub(crate) fn registers_of(raw: sys::RawRegisters) -> Registers {
    let sys::RawRegisters { pc, sar, dar, ccr, lc0, lc1, is_loaded, taken, stored } = raw;
    Registers { pc, sar, dar, ccr, lc0, lc1, is_loaded: is_loaded != 0, taken, stored }
}

fn step_of(report: &sys::RawChannelReport) -> ChannelStep {
    let event = small(report.event);
    match report.last {
        sys::NO_STEP => ChannelStep::NoStep,
        sys::MOVED => ChannelStep::Moved,
        sys::WAITING => ChannelStep::Waiting { event },
        sys::ENDED => ChannelStep::Ended,
        sys::FAULT => ChannelStep::Fault { fault: named(&sys::FAULTS, report.fault) },
        sys::SIGNALLED => ChannelStep::Signalled { event },
        number => unnamed(number),
    }
}

/// A channel that runs a program over memory of its caller, as many steps at a time as the caller requests.
///
/// The channel borrows the memory for the time of a call, in up to 64 regions, so an emulator can step channels over
/// its guest's RAM. It keeps no copy of the memory. The flags of events 0 to 31 are the bits of a number of the caller.
/// The channel is closed when it is dropped.
///
/// ```
/// use dma330::{assemble, Channel, ChannelSteps, ChannelStep, Region, Segment};
///
/// let mut ram = vec![0; 0x1000];
/// ram[0x100..0x104].copy_from_slice(&[1, 2, 3, 4]);
/// let mut flags = 0;
/// let text = "DMAMOV SAR 0x80000100\nDMAMOV DAR 0x80000200\nDMAMOV CCR 0x00014005\nDMALD\nDMAST\nDMASEV 3\nDMAEND";
/// let mut channel = Channel::open()?;
/// channel.load_program(&assemble(text)?)?;
/// let steps = channel.step(&mut [Region::new(0x8000_0000, &mut ram)], &mut flags, 4)?;
/// assert_eq!(steps, ChannelSteps { taken: 4, last: ChannelStep::Moved, pc: 19, written: Segment::default() });
/// // the program is between its load and its store
/// ram[0x100] = 9;
/// let steps = channel.step(&mut [Region::new(0x8000_0000, &mut ram)], &mut flags, 100)?;
/// assert_eq!(steps.last, ChannelStep::Signalled { event: 3 });
/// assert_eq!((flags, &ram[0x200..0x204]), (1 << 3, &[1, 2, 3, 4][..]));
/// # Ok::<(), dma330::Error>(())
/// ```
///
/// Like a [`Controller`](crate::Controller), it may move from thread to thread, and is not `Sync`.
pub struct Channel {
    handle: calls::ChannelHandle,
}

impl Channel {
    /// Opens a channel without a program and without injected errors, with room for the longest program.
    ///
    /// Fails with `NoMemory`.
    pub fn open() -> Result<Channel, Error> {
        Ok(Channel { handle: calls::ChannelHandle::open()? })
    }

    /// Loads the program of a copy in place of the one before, sets registers and counts to 0, and empties the buffer.
    ///
    /// Fails with the first that applies of `EmptyList`, `TooManySegments`, `EmptySegment`, `SegmentWraps`,
    /// `TotalsDiffer`, `TooLong`, `DestinationsMeet`, `SourceMeetsDestination` and `BadEvent`, each tested over both
    /// lists; or with `NoMemory`.
    pub fn load_copy(&mut self, src: &[Segment], dst: &[Segment], events: Events) -> Result<(), Error> {
        self.handle.load_copy(src, dst, event(events.wait), event(events.signal))
    }

    /// Loads the program of a fill in the same way: it copies the byte at address `src` to every place of the
    /// destination list.
    ///
    /// Fails as [`Channel::load_copy`] does, but never with `TotalsDiffer`.
    pub fn load_fill(&mut self, src: u32, dst: &[Segment], events: Events) -> Result<(), Error> {
        self.handle.load_fill(src, dst, event(events.wait), event(events.signal))
    }

    /// Loads a program's bytes in the same way. They need not be instructions.
    ///
    /// Fails with `ProgramTooLong`.
    pub fn load_program(&mut self, program: &[u8]) -> Result<(), Error> {
        self.handle.load_program(program)
    }

    /// Loads the program that begins at an address of the memory in the same way.
    ///
    /// It has the bytes from that address up to the first address that no region has, 8192 at most, as they are now, so
    /// it may cross from one region into one that touches it. If no region has the address, the program has no bytes,
    /// and the first step fails with `InstrFetchErr`.
    ///
    /// Fails with `BadRegions`.
    pub fn load_from(&mut self, regions: &[Region<'_>], addr: u32) -> Result<(), Error> {
        self.handle.load_from(regions, addr)
    }

    /// Takes at most `most` steps. Ends after a step that doesn't move or that sets a flag, and before a store that
    /// neither overlaps nor touches the range written so far, or with which it would have all 2^32 addresses; the next
    /// call begins with that store.
    ///
    /// Bit `n` of `flags` is the flag of event `n`. A load outside the regions ends with the fault `DataReadErr`, a
    /// store outside them or in a read-only one with `DataWriteErr`.
    ///
    /// Fails with `BadRegions` or `NoProgram`.
    pub fn step(&mut self, regions: &mut [Region<'_>], flags: &mut u32, most: u32) -> Result<ChannelSteps, Error> {
        let report = self.handle.step(regions, flags, most)?;
        Ok(ChannelSteps { taken: report.taken, last: step_of(&report), pc: report.pc, written: report.written })
    }

    /// Drops the program, if one is loaded. Registers and counts stay.
    pub fn stop(&mut self) {
        self.handle.stop();
    }

    /// Returns the registers and counts.
    pub fn registers(&self) -> Registers {
        registers_of(self.handle.registers())
    }

    /// Injects an error: loads or stores of this channel in a range, by `access`, fail from then on. The range may lie
    /// inside the memory or not.
    ///
    /// Fails with `BadRange` or `NoMemory`.
    pub fn inject_error(&mut self, access: Access, range: Segment) -> Result<(), Error> {
        self.handle.inject_error(number_of(&sys::ACCESSES, &access), range)
    }

    /// Removes all injected errors of this channel.
    pub fn uninject_errors(&mut self) {
        self.handle.uninject_errors();
    }

    /// Returns the whole channel, except its injected errors, as bytes.
    ///
    /// ```
    /// use dma330::{Channel, Error};
    /// let mut channel = Channel::open()?;
    /// channel.load_program(&[0x18, 0x00])?;
    /// channel.step(&mut [], &mut 0, 1)?;
    /// let save = channel.save();
    /// let mut other = Channel::open()?;
    /// other.restore(&save)?;
    /// assert_eq!(other.registers(), channel.registers());
    /// assert_eq!(other.restore(&save[1..]), Err(Error::BadSave));
    /// # Ok::<(), Error>(())
    /// ```
    pub fn save(&self) -> Vec<u8> {
        let mut out = vec![0; 256];
        loop {
            if let Some(len) = self.handle.save(&mut out) {
                out.truncate(len);
                return out;
            }
            out.resize(2 * out.len(), 0);
        }
    }

    /// Makes the channel the one that was saved. The injected errors of this channel stay.
    ///
    /// Fails with `BadSave`.
    pub fn restore(&mut self, save: &[u8]) -> Result<(), Error> {
        self.handle.restore(save)
    }
}

impl fmt::Debug for Channel {
    fn fmt(&self, f: &mut fmt::Formatter<'_>) -> fmt::Result {
        f.debug_struct("Channel").field("registers", &self.registers()).finish_non_exhaustive()
    }
}
