//! What programs copy and set to 0, and the programs of transfers.

use crate::{calls, event, named, small, sys, BusWidth, Error, Events, Registers, Segment};
use std::fmt;

/// The data bus for which a program is explained or planned.
#[derive(Clone, Copy, Debug, Default, PartialEq, Eq, Hash)]
pub enum Bus {
    /// That of a [`Channel`](crate::Channel): it accepts beats of up to 128 bits, each whole at any address.
    #[default]
    Channel,
    /// That of a [`Device`](crate::Device) with this width: a wider beat is an invalid operand, and the first beat of a
    /// burst whose address rises ends at the next multiple of its size.
    Device(BusWidth),
}

impl BusWidth {
    // Returns the number of bits.
    pub(crate) fn bits(self) -> u32 {
        match self {
            BusWidth::Bits32 => 32,
            BusWidth::Bits64 => 64,
            BusWidth::Bits128 => 128,
        }
    }
}

impl Bus {
    // Returns its number in dma330.h.
    fn number(self) -> u32 {
        match self {
            Bus::Channel => 0,
            Bus::Device(width) => width.bits(),
        }
    }
}

/// The addresses from `addr` up to, and not including, `addr + len`, all of which are read `times` times, one round
/// after another.
#[repr(C)]
#[derive(Clone, Copy, Debug, Default, PartialEq, Eq, Hash)]
pub struct Repeated {
    /// The first address.
    pub addr: u32,
    /// The number of addresses. `addr + len` may be 2^32.
    pub len: u32,
    /// How many times they are read. Above 1 where a fixed address is read repeatedly, as by a fill.
    pub times: u32,
}

/// The registers with which a program begins, as far as they are known; `None` may be anything, as after another
/// program: a device's channel keeps its registers over a DMAGO. Of the default none is known.
#[derive(Clone, Copy, Debug, Default, PartialEq, Eq, Hash)]
pub struct Start {
    /// The next source address.
    pub sar: Option<u32>,
    /// The next destination address.
    pub dar: Option<u32>,
    /// The control word.
    pub ccr: Option<u32>,
    /// Loop counter 0.
    pub lc0: Option<u8>,
    /// Loop counter 1.
    pub lc1: Option<u8>,
}

/// All registers are known: those of a channel.
impl From<Registers> for Start {
    fn from(registers: Registers) -> Start {
        let Registers { sar, dar, ccr, lc0, lc1, .. } = registers;
        Start { sar: Some(sar), dar: Some(dar), ccr: Some(ccr), lc0: Some(lc0), lc1: Some(lc1) }
    }
}

impl Start {
    // Returns the struct of dma330.h.
    fn raw(self) -> sys::RawStart {
        let known = [
            (self.sar.is_some(), sys::KNOWN_SAR),
            (self.dar.is_some(), sys::KNOWN_DAR),
            (self.ccr.is_some(), sys::KNOWN_CCR),
            (self.lc0.is_some(), sys::KNOWN_LC0),
            (self.lc1.is_some(), sys::KNOWN_LC1),
        ];
        sys::RawStart {
            known: known.iter().filter(|(is_known, _)| *is_known).map(|(_, bit)| bit).sum(),
            sar: self.sar.unwrap_or_default(),
            dar: self.dar.unwrap_or_default(),
            ccr: self.ccr.unwrap_or_default(),
            lc0: self.lc0.unwrap_or_default(),
            lc1: self.lc1.unwrap_or_default(),
        }
    }
}

/// What an instruction with an event does.
#[derive(Clone, Copy, Debug, PartialEq, Eq, Hash)]
pub enum EventKind {
    /// It waits for the event: DMAWFE.
    Waits,
    /// It signals the event: DMASEV.
    Signals,
}

/// A DMAWFE or a DMASEV that a program executes.
#[derive(Clone, Copy, Debug, PartialEq, Eq, Hash)]
pub struct Event {
    /// Which of the two it is.
    pub kind: EventKind,
    /// The event.
    pub event: u8,
    /// The number of bytes that the program has copied before it.
    pub copied: u64,
    /// The number of bytes that it has set to 0 before it.
    pub cleared: u64,
}

/// What a program copies and sets to 0: byte number p that it reads is byte number p that it stores. No byte is stored
/// twice, set to 0 twice, or both, and none where one is read.
#[derive(Clone, Debug, PartialEq, Eq, Hash)]
pub struct Explanation {
    /// What it reads, in its order.
    pub src: Vec<Repeated>,
    /// Where it stores that, in its order.
    pub dst: Vec<Segment>,
    /// What it sets to 0, in its order.
    pub zeros: Vec<Segment>,
    /// The events that it waits for and signals, in its order.
    pub events: Vec<Event>,
    /// The number of bytes that it copies.
    pub copied: u64,
    /// The number of bytes that it sets to 0.
    pub cleared: u64,
    /// The number of instructions that it executes, DMAEND included.
    pub steps: u32,
}

/// Why a program isn't explained. Except for `StDataUnavailable`, a DMASTZ is a store too.
#[derive(Clone, Copy, Debug, PartialEq, Eq, Hash)]
#[non_exhaustive]
pub enum Cause {
    /// The instruction is undefined.
    UndefInstr,
    /// The bus doesn't accept the beats of a DMAMOV CCR, or a field is reserved.
    OperandInvalid,
    /// The buffer of 256 bytes has no room for a load.
    MfifoErr,
    /// The buffer has too few bytes for a store.
    StDataUnavailable,
    /// The program ends before its DMAEND, or a jump goes to before its start.
    InstrFetchErr,
    /// A load goes beyond address 4294967295.
    LoadsPast,
    /// A store goes beyond address 4294967295.
    StoresPast,
    /// A store's address doesn't rise.
    StoresFixed,
    /// A chip, and a device, drops bytes that are loaded and not stored at this DMAMOV, DMAADDH or DMAADNH: DAR moves
    /// to other byte lanes of the bus, begins or ceases to rise, or doesn't rise and the beats get another size. Not
    /// for [`Bus::Channel`].
    DropsBytes,
    /// At DMAEND loaded bytes aren't stored.
    BytesLeft,
    /// At DMAEND a byte was stored twice.
    StoresTwice,
    /// At DMAEND a byte was stored at an address that was read.
    StoresSource,
    /// No DMAEND is among the first `most` instructions.
    NoEnd,
    /// The instruction uses SAR, which isn't known, and which the program hasn't set.
    UnsetSar,
    /// The instruction uses DAR, which isn't known, and which the program hasn't set. While bytes are in the buffer, a
    /// DMAMOV DAR, DMAADDH or DMAADNH uses the old DAR, too: a chip, and a device, compares it with the new one, to find
    /// whether it drops the bytes. Not for [`Bus::Channel`].
    UnsetDar,
    /// The instruction uses CCR, which isn't known, and which the program hasn't set.
    UnsetCcr,
    /// A DMALPEND uses LC0, which isn't known, and which the program hasn't set.
    UnsetLc0,
    /// A DMALPEND uses LC1, which isn't known, and which the program hasn't set.
    UnsetLc1,
}

impl fmt::Display for Cause {
    fn fmt(&self, f: &mut fmt::Formatter<'_>) -> fmt::Result {
        f.write_str(match self {
            Cause::UndefInstr => "the instruction is undefined",
            Cause::OperandInvalid => "the bus doesn't accept the beats, or a field is reserved",
            Cause::MfifoErr => "the buffer has no room for the load",
            Cause::StDataUnavailable => "the buffer has too few bytes for the store",
            Cause::InstrFetchErr => "the program ends before its DMAEND, or the jump goes to before its start",
            Cause::LoadsPast => "the load goes beyond address 4294967295",
            Cause::StoresPast => "the store goes beyond address 4294967295",
            Cause::StoresFixed => "the store's address doesn't rise",
            Cause::DropsBytes => "a chip drops bytes that are loaded and not stored",
            Cause::BytesLeft => "loaded bytes aren't stored",
            Cause::StoresTwice => "a byte was stored twice",
            Cause::StoresSource => "a byte was stored at an address that was read",
            Cause::NoEnd => "no DMAEND is among the instructions that were allowed",
            Cause::UnsetSar => "the instruction uses SAR, which the program hasn't set",
            Cause::UnsetDar => "the instruction uses DAR, which the program hasn't set",
            Cause::UnsetCcr => "the instruction uses CCR, which the program hasn't set",
            Cause::UnsetLc0 => "the instruction uses LC0, which the program hasn't set",
            Cause::UnsetLc1 => "the instruction uses LC1, which the program hasn't set",
        })
    }
}

fn event_of(raw: &sys::RawEvent) -> Event {
    let kind = named(&sys::EVENT_KINDS, raw.kind);
    Event { kind, event: small(raw.event), copied: raw.copied, cleared: raw.cleared }
}

pub(crate) fn explanation_of(raw: calls::RawExplained) -> Result<Explanation, Error> {
    let mut events = Vec::new();
    events.try_reserve_exact(raw.events.len()).map_err(|_| Error::NoMemory)?;
    events.extend(raw.events.iter().map(event_of));
    let sys::RawExplanation { copied, cleared, steps, .. } = raw.explanation;
    Ok(Explanation { src: raw.src, dst: raw.dst, zeros: raw.zeros, events, copied, cleared, steps })
}

/// Returns what a program copies and sets to 0 on a bus, by one run without memory for at most `most` instructions. It
/// begins with the registers that are known, and what is found holds whatever the others are: an instruction that uses
/// one of them before the program sets it is refused.
///
/// The order and the addresses of a program's instructions are the same in each memory. So a channel that runs the
/// program does exactly this, if the regions have all these addresses, none that it writes is read-only, no error is
/// injected there, and nobody else writes there meanwhile.
///
/// Fails with `BadConfig` if no channel on the bus has a `ccr` that is known; with `ProgramTooLong`; with `Unexplained`
/// if the program does nothing of this kind in at most `most` instructions, or uses a register that isn't known; or with
/// `NoMemory`.
///
/// ```
/// use dma330::{assemble, explain, Bus, Cause, Error, Event, EventKind, Repeated, Segment, Start};
/// let text = "DMAMOV SAR 0x00001000\nDMAMOV DAR 0x00002000\nDMAMOV CCR 0x00014004\n\
///     DMALP 0 3\nDMALD\nDMAST\nDMALPEND 0 2\nDMASEV 7\nDMAEND\n";
/// let program = assemble(text)?;
/// let found = explain(&program, Bus::Channel, Start::default(), 1000)?;
/// assert_eq!(found.src, [Repeated { addr: 0x1000, len: 4, times: 3 }]);
/// assert_eq!(found.dst, [Segment::new(0x2000, 12)]);
/// assert_eq!(found.events, [Event { kind: EventKind::Signals, event: 7, copied: 12, cleared: 0 }]);
/// assert_eq!((found.copied, found.steps), (12, 15));
///
/// let error = explain(&program, Bus::Channel, Start::default(), 14).unwrap_err();
/// assert_eq!(error, Error::Unexplained { cause: Cause::NoEnd, pc: 26, steps: 14 });
/// # Ok::<(), Error>(())
/// ```
///
/// A device's channel keeps its registers over a DMAGO, so a driver's program may leave out a DMAMOV:
///
/// ```
/// use dma330::{explain, Bus, BusWidth, Cause, Error, Event, EventKind, Registers, Repeated, Segment, Start};
/// let bus = Bus::Device(BusWidth::Bits32);
/// let registers = Registers { sar: 0x1000, dar: 0x2000, ccr: 0x0001_4005, ..Registers::default() };
/// let program = [0x04, 0x08, 0x0C, 0x34, 7 << 3, 0x00]; // DMALD, DMAST, DMASTZ, DMASEV 7, DMAEND
/// let found = explain(&program, bus, registers.into(), 1000)?;
/// assert_eq!(found.src, [Repeated { addr: 0x1000, len: 4, times: 1 }]);
/// assert_eq!(found.dst, [Segment::new(0x2000, 4)]);
/// assert_eq!(found.zeros, [Segment::new(0x2004, 4)]);
/// assert_eq!(found.events, [Event { kind: EventKind::Signals, event: 7, copied: 4, cleared: 4 }]);
/// assert_eq!((found.copied, found.cleared, found.steps), (4, 4, 5));
///
/// let without_dar = Start { dar: None, ..registers.into() };
/// let error = explain(&program, bus, without_dar, 1000).unwrap_err();
/// assert_eq!(error, Error::Unexplained { cause: Cause::UnsetDar, pc: 1, steps: 1 });
/// # Ok::<(), Error>(())
/// ```
pub fn explain(program: &[u8], bus: Bus, start: Start, most: u32) -> Result<Explanation, Error> {
    calls::explain(program, bus.number(), &start.raw(), most).and_then(explanation_of)
}

// Returns the program that a call writes.
fn planned(call: impl Fn(&mut [u8]) -> Result<usize, Error>) -> Result<Vec<u8>, Error> {
    let mut out = vec![0; sys::MAX_PROGRAM];
    let len = call(&mut out)?;
    out.truncate(len);
    Ok(out)
}

/// Returns the program of a copy: for [`Bus::Channel`] the one that [`Channel::load_copy`](crate::Channel::load_copy)
/// loads, else one whose beats are no wider than the device's bus.
///
/// Fails as [`Channel::load_copy`](crate::Channel::load_copy) does.
///
/// ```
/// use dma330::{explain, plan, Bus, BusWidth, Error, Events, Repeated, Segment, Start};
/// let bus = Bus::Device(BusWidth::Bits32);
/// let (src, dst) = ([Segment::new(0x1000, 300)], [Segment::new(0x2000, 100), Segment::new(0x3000, 200)]);
/// let program = plan(&src, &dst, Events::default(), bus)?;
/// let found = explain(&program, bus, Start::default(), 1000)?;
/// assert_eq!(found.src, [Repeated { addr: 0x1000, len: 300, times: 1 }]);
/// assert_eq!(found.dst, dst);
/// assert_eq!(plan(&src, &src, Events::default(), bus), Err(Error::SourceMeetsDestination));
/// # Ok::<(), Error>(())
/// ```
pub fn plan(src: &[Segment], dst: &[Segment], events: Events, bus: Bus) -> Result<Vec<u8>, Error> {
    planned(|out| calls::plan(src, dst, event(events.wait), event(events.signal), bus.number(), out))
}

/// Returns the program of a fill, which copies the byte at address `src` to every place of the destination list, in the
/// same way.
///
/// Fails as [`plan`] does, but never with `TotalsDiffer`.
///
/// ```
/// use dma330::{explain, plan_fill, Bus, Events, Repeated, Segment, Start};
/// let program = plan_fill(0x1000, &[Segment::new(0x2000, 300)], Events::default(), Bus::Channel)?;
/// let found = explain(&program, Bus::Channel, Start::default(), 1000)?;
/// assert_eq!(found.src, [Repeated { addr: 0x1000, len: 1, times: 300 }]);
/// # Ok::<(), dma330::Error>(())
/// ```
pub fn plan_fill(src: u32, dst: &[Segment], events: Events, bus: Bus) -> Result<Vec<u8>, Error> {
    planned(|out| calls::plan_fill(src, dst, event(events.wait), event(events.signal), bus.number(), out))
}
