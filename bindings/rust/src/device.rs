//! The registers of a DMA-330 over memory of the caller.

use crate::channel::registers_of;
use crate::explain::explanation_of;
use crate::{calls, sys, Error, Explanation, Region, Registers, Segment};
use std::fmt;

/// The width of a [`Device`]'s data bus. A wider beat is an invalid operand.
#[derive(Clone, Copy, Debug, PartialEq, Eq, Hash)]
#[allow(missing_docs)]
pub enum BusWidth {
    Bits32,
    Bits64,
    Bits128,
}

/// The revision of a [`Device`], for instance r1p2. Linux's driver uses barriers only for r0p0.
#[derive(Clone, Copy, Debug, PartialEq, Eq, Hash)]
#[allow(missing_docs)]
pub enum Revision {
    R0p0,
    R1p0,
    R1p1,
    R1p2,
}

/// The choices of a chip's designer, which a guest's driver reads in CR0 to CRD and periph_id_2.
#[derive(Clone, Copy, Debug, PartialEq, Eq, Hash)]
pub struct DeviceConfig {
    /// The number of channels, 1 to 8.
    pub channels: u8,
    /// The number of events, 1 to 32. Each is an event or an interrupt, as INTEN says.
    pub events: u8,
    /// Whether the manager is in the non-secure state after a reset.
    pub nonsecure: bool,
    /// The width of the data bus.
    pub bus: BusWidth,
    /// The number of lines of the buffer, each as wide as the bus, 1 to 1,024. It only shows in CRD: each channel has
    /// 256 bytes of buffer for itself.
    pub lines: u16,
    /// The revision.
    pub revision: Revision,
}

/// What a turn of a channel of a [`Device`] did.
#[derive(Clone, Copy, Debug, PartialEq, Eq, Hash)]
pub struct DeviceTurn {
    /// The range that its steps wrote: each byte in it, also where the value stayed the same, and no other byte of the
    /// regions. Its length is 0 if they wrote nothing.
    pub written: Segment,
    /// The number of steps, the last one included, whatever it did: at most `most`, and one more after the DMASEV of an
    /// interrupt.
    pub taken: u64,
    /// Whether a line of [`Device::irqs`], or [`Device::irq_abort`], has changed.
    pub lines_changed: bool,
    /// What [`Device::can_step`] returns now.
    pub can_step: bool,
}

impl DeviceTurn {
    fn of(raw: sys::RawDeviceTurn) -> DeviceTurn {
        let sys::RawDeviceTurn { written, taken, lines_changed, can_step } = raw;
        DeviceTurn { written, taken, lines_changed: lines_changed != 0, can_step: can_step != 0 }
    }
}

/// What several turns of a channel of a [`Device`] did. No byte outside their ranges has changed.
#[derive(Clone, Copy, Debug, PartialEq, Eq, Hash)]
pub struct DeviceRows {
    /// What the first turn wrote, how many steps each turn took, and of all turns together whether a line has changed
    /// and whether a channel can step now.
    pub turn: DeviceTurn,
    /// The distance from the beginning of each turn's range to that of the next.
    pub pitch: u32,
    /// The number of turns, at least 1.
    pub count: u32,
    /// Each turn is what [`Device::step`] does with this `most`.
    pub steps: u32,
}

impl DeviceRows {
    /// Returns the range that each turn wrote, in order. A turn that wrote nothing has a range of length 0.
    pub fn ranges(self) -> impl Iterator<Item = Segment> {
        let first = self.turn.written;
        (0..self.count).map(move |k| Segment { addr: first.addr + k * self.pitch, ..first })
    }
}

/// The registers of a DMA-330 as a guest's driver sees them (ARM DDI 0424), over channels that run the guest's programs
/// in memory of the caller.
///
/// An emulator forwards the guest's accesses to [`Device::read`] and [`Device::write`], lets channels take turns while
/// [`Device::can_step`], and sets its interrupt lines after each write, reset and restore, and after each turn that
/// reports `lines_changed`. The device borrows the memory for the time of a call, and is closed when it is dropped.
///
/// ```
/// use dma330::{assemble, BusWidth, Device, DeviceConfig, Region, Revision};
///
/// let (bus, revision) = (BusWidth::Bits64, Revision::R1p2);
/// let config = DeviceConfig { channels: 4, events: 16, nonsecure: false, bus, lines: 64, revision };
/// let mut device = Device::open(config)?;
/// assert_eq!(device.read(0xE00), 3 << 4 | 15 << 17); // CR0
///
/// let mut ram = vec![0; 0x1000];
/// ram[0x100..0x104].copy_from_slice(&[1, 2, 3, 4]);
/// let text = "DMAMOV SAR 0x80000100\nDMAMOV DAR 0x80000200\nDMAMOV CCR 0x00014005\nDMALD\nDMAST\nDMASEV 3\nDMAEND";
/// let program = assemble(text)?;
/// ram[..program.len()].copy_from_slice(&program);
///
/// let mut lent = [Region::new(0x8000_0000, &mut ram)];
/// // INTEN; then DMAGO of channel 1, by DBGINST0, DBGINST1 and DBGCMD
/// for (offset, value) in [(0x020, 1 << 3), (0xD08, 0x01A0_0000), (0xD0C, 0x8000_0000), (0xD04, 0)] {
///     device.write(offset, value, &lent)?;
/// }
/// while device.can_step() {
///     let turn = device.step(1, 256, &mut lent)?;
///     assert_eq!(turn.lines_changed, device.irqs() == 1 << 3);
/// }
/// assert_eq!(device.read(0x108), 0); // CSR of channel 1: stopped
/// assert_eq!(ram[0x200..0x204], [1, 2, 3, 4]);
/// # Ok::<(), dma330::Error>(())
/// ```
///
/// Like a [`Controller`](crate::Controller), it may move from thread to thread, and is not `Sync`.
pub struct Device {
    handle: calls::DeviceHandle,
}

impl Device {
    /// Opens a device in its state after a reset. Of the other calls only [`Device::explain`] allocates memory in the
    /// library.
    ///
    /// Fails with `BadConfig` or `NoMemory`.
    pub fn open(config: DeviceConfig) -> Result<Device, Error> {
        let raw = sys::RawDeviceConfig {
            channels: config.channels.into(),
            events: config.events.into(),
            nonsecure: config.nonsecure.into(),
            bus: config.bus.bits(),
            lines: config.lines.into(),
            revision: config.revision as u32,
        };
        Ok(Device { handle: calls::DeviceHandle::open(&raw)? })
    }

    /// Puts the device into its state after a reset.
    pub fn reset(&mut self) {
        self.handle.reset();
    }

    /// Returns the register at an offset, for a read by the guest. An offset that has no register reads as 0.
    pub fn read(&self, offset: u32) -> u32 {
        self.handle.read(offset)
    }

    /// Writes the register at an offset, for the guest. A write to an offset without a register that can be written is
    /// ignored. A DMAGO reads its program from the memory, as [`Channel::load_from`](crate::Channel::load_from) does.
    ///
    /// Fails with `BadRegions`, which only a write to DBGCMD (0xD04) tests.
    pub fn write(&mut self, offset: u32, value: u32, regions: &[Region<'_>]) -> Result<(), Error> {
        self.handle.write(offset, value, regions)
    }

    /// Takes a turn of a channel: at most `most` steps, until one ends, waits, fails or executes a DMASEV, or before a
    /// store that neither overlaps nor touches the range written so far, or with which it would have all 2^32
    /// addresses. After the DMASEV of an interrupt it takes one more, but a store is left to the next turn, so that at
    /// the interrupt no more is copied than before its DMASEV. It does nothing for a channel that is stopped or
    /// faulting, or that the device doesn't have.
    ///
    /// So each address in the range was written, and lies in a region that isn't read-only, and no byte elsewhere has
    /// changed, whatever the guest's program is.
    ///
    /// Fails with `BadRegions`.
    pub fn step(&mut self, channel: u8, most: u32, regions: &mut [Region<'_>]) -> Result<DeviceTurn, Error> {
        self.handle.step(channel, most, regions).map(DeviceTurn::of)
    }

    /// Takes several turns of a channel, one for each row, where a loop copies the rows of a rectangle by pairs of DMALD
    /// and DMAST, then DMAADDH SAR or not, then DMAADDH DAR. Else it takes one turn, which may end early where rows
    /// begin. The result is that of `count` calls of [`Device::step`] with a `most` of `steps`; `count` times `steps` is
    /// at most `most`. Together they took `count` times `turn.taken` steps.
    ///
    /// Fails with `BadRegions`.
    pub fn step_rows(&mut self, channel: u8, most: u32, regions: &mut [Region<'_>]) -> Result<DeviceRows, Error> {
        let rows = self.handle.step_rows(channel, most, regions)?;
        Ok(DeviceRows { turn: DeviceTurn::of(rows.turn), pitch: rows.pitch, count: rows.count, steps: rows.steps })
    }

    /// Returns the registers and counts of a channel. If the channel has failed, they are those from before the
    /// instruction that failed. After each turn of a program that a DMAGO started and [`Device::explain`]
    /// explained before the first turn, `stored` bytes of its destinations and zeros are done, of each list the first
    /// ones, also if the channel then waits or is faulting, if nobody else writes what the program reads or writes.
    ///
    /// Fails with `NoChannel`.
    pub fn registers(&self, channel: u8) -> Result<Registers, Error> {
        self.handle.registers(channel).map(registers_of)
    }

    /// Returns what the program copies and sets to 0 that a DMAGO loaded into a channel, as [`explain`](crate::explain) does on the
    /// device's bus: from its first instruction on, but with the registers that the channel has now. A DMAGO keeps the
    /// registers, so ask before the channel's first turn. Later the answer is the same only if the program sets each
    /// register before it uses it. A channel has a program from the DMAGO until the DMAEND or a DMAKILL.
    ///
    /// Fails with `NoChannel`; with `NoProgram`; with `Unexplained` if the program is no copy in at most `most`
    /// instructions; or with `NoMemory`.
    ///
    /// ```
    /// use dma330::{plan, Bus, BusWidth, Device, DeviceConfig, Error, Events, Region, Revision, Segment};
    ///
    /// let (bus, revision) = (BusWidth::Bits64, Revision::R1p2);
    /// let config = DeviceConfig { channels: 4, events: 16, nonsecure: false, bus, lines: 64, revision };
    /// let mut device = Device::open(config)?;
    /// assert_eq!(device.explain(1, 1000), Err(Error::NoProgram));
    ///
    /// let (src, dst) = ([Segment::new(0x8000_0100, 64)], [Segment::new(0x8000_0200, 64)]);
    /// let mut ram = plan(&src, &dst, Events::default(), Bus::Device(bus))?;
    /// // DMAGO of channel 1, by DBGINST0, DBGINST1 and DBGCMD
    /// for (offset, value) in [(0xD08, 0x01A0_0000), (0xD0C, 0x8000_0000), (0xD04, 0)] {
    ///     device.write(offset, value, &[Region::new(0x8000_0000, &mut ram)])?;
    /// }
    /// let found = device.explain(1, 1000)?;
    /// assert_eq!((found.src[0].addr, found.dst, found.copied), (0x8000_0100, dst.to_vec(), 64));
    /// # Ok::<(), Error>(())
    /// ```
    pub fn explain(&self, channel: u8, most: u32) -> Result<Explanation, Error> {
        self.handle.explain(channel, most).and_then(explanation_of)
    }

    /// Returns the lines irq\[31:0\]. A high line stays high until the guest clears its interrupt.
    pub fn irqs(&self) -> u32 {
        self.handle.lines().0
    }

    /// Returns the line irq_abort, which is high until the guest kills each faulting thread.
    pub fn irq_abort(&self) -> bool {
        self.handle.lines().1
    }

    /// Returns whether any channel runs and doesn't wait for an event that is clear, or that INTEN makes an interrupt.
    /// If not, nothing happens until the guest's next write of a register, a reset or a restore: a turn changes
    /// nothing, and reports no byte and no line.
    pub fn can_step(&self) -> bool {
        self.handle.can_step()
    }

    /// Returns the whole device as bytes. The last 4 are a checksum of all before them.
    pub fn save(&self) -> Vec<u8> {
        let mut out = vec![0; sys::MAX_DEVICE_SAVE];
        let len = self.handle.save(&mut out).expect("no save is longer");
        out.truncate(len);
        out
    }

    /// Makes the device the one that was saved. Each save with a flipped bit is refused, and so is one whose values don't
    /// go together. A restore doesn't test whether a guest can bring a device into the saved state, so a forged one may
    /// be accepted.
    ///
    /// Fails with `OtherDevice` if the first 15 bytes are those of a save of another version or configuration; then
    /// nothing changes. Fails with `BadSave` if anything else is wrong; then the device is in its state after a reset.
    pub fn restore(&mut self, save: &[u8]) -> Result<(), Error> {
        self.handle.restore(save)
    }
}

impl fmt::Debug for Device {
    fn fmt(&self, f: &mut fmt::Formatter<'_>) -> fmt::Result {
        f.debug_struct("Device").field("irqs", &self.irqs()).field("irq_abort", &self.irq_abort()).finish_non_exhaustive()
    }
}
