//! The calls of channels and devices, which are lent the caller's memory. The head of `calls` says why they are sound.

use super::programs::RawExplained;
use super::{always_written, checked, written, written_unless, Region};
use crate::sys::*;
use crate::{Error, Segment};
use std::cell::UnsafeCell;
use std::ptr;

/// A channel that is open, and is closed when it is dropped.
pub struct ChannelHandle {
    raw: UnsafeCell<RawChannel>,
}

// SAFETY: Nothing else has the pointer to what the channel holds, whose type the prover has shown to be `Send`.
unsafe impl Send for ChannelHandle {}

impl ChannelHandle {
    pub fn open() -> Result<ChannelHandle, Error> {
        let closed = RawChannel { channel: ptr::null_mut(), is_open: 0 };
        let mut handle = ChannelHandle { raw: UnsafeCell::new(closed) };
        // SAFETY: The channel is zeroed, and nobody else has it.
        let code = unsafe { dma330_channel_open(handle.raw.get_mut()) };
        checked(code, handle)
    }

    pub fn load_copy(&mut self, src: &[Segment], dst: &[Segment], wait: i32, signal: i32) -> Result<(), Error> {
        let (from, to) = (src.as_ptr(), dst.as_ptr());
        let raw = self.raw.get_mut();
        // SAFETY: Nobody else uses the channel. The lists come with their lengths.
        checked(unsafe { dma330_channel_load_copy(raw, from, src.len(), to, dst.len(), wait, signal) }, ())
    }

    pub fn load_fill(&mut self, src: u32, dst: &[Segment], wait: i32, signal: i32) -> Result<(), Error> {
        let raw = self.raw.get_mut();
        // SAFETY: Nobody else uses the channel. The list comes with its length.
        checked(unsafe { dma330_channel_load_fill(raw, src, dst.as_ptr(), dst.len(), wait, signal) }, ())
    }

    pub fn load_program(&mut self, program: &[u8]) -> Result<(), Error> {
        // SAFETY: Nobody else uses the channel. The program comes with its length.
        checked(unsafe { dma330_channel_load_program(self.raw.get_mut(), program.as_ptr(), program.len()) }, ())
    }

    pub fn load_from(&mut self, regions: &[Region<'_>], addr: u32) -> Result<(), Error> {
        let (lent, count) = (regions.as_ptr(), regions.len());
        // SAFETY: Nobody else uses the channel. The list comes with its length, and its regions are only read.
        checked(unsafe { dma330_channel_load_from(self.raw.get_mut(), lent, count, addr) }, ())
    }

    pub fn step(&mut self, regions: &mut [Region<'_>], flags: &mut u32, most: u32) -> Result<RawChannelReport, Error> {
        let (lent, count) = (regions.as_ptr(), regions.len());
        // SAFETY: Nobody else uses the channel, the regions or `flags`. The list comes with its length.
        written(|report| unsafe { dma330_channel_step(self.raw.get_mut(), lent, count, flags, most, report) })
    }

    pub fn stop(&mut self) {
        // SAFETY: Nobody else uses the channel.
        let code = unsafe { dma330_channel_stop(self.raw.get_mut()) };
        assert_eq!(code, OK);
    }

    pub fn registers(&self) -> RawRegisters {
        // SAFETY: No other call uses the channel, and `registers` is a local.
        always_written(|registers| unsafe { dma330_channel_registers(self.raw.get(), registers) })
    }

    pub fn inject_error(&mut self, access: u32, range: Segment) -> Result<(), Error> {
        // SAFETY: Nobody else uses the channel.
        checked(unsafe { dma330_channel_inject_error(self.raw.get_mut(), access, range) }, ())
    }

    pub fn uninject_errors(&mut self) {
        // SAFETY: Nobody else uses the channel.
        let code = unsafe { dma330_channel_uninject_errors(self.raw.get_mut()) };
        assert_eq!(code, OK);
    }

    /// Writes a save of the channel, and returns its length; `None` if it doesn't fit.
    pub fn save(&self, out: &mut [u8]) -> Option<usize> {
        let (raw, bytes, room) = (self.raw.get(), out.as_mut_ptr(), out.len());
        // SAFETY: No other call uses the channel, and nobody else uses `out`, which comes with its length. `len` is a
        // local.
        written_unless(BUFFER_TOO_SMALL, |len| unsafe { dma330_channel_save(raw, bytes, room, len) })
    }

    pub fn restore(&mut self, save: &[u8]) -> Result<(), Error> {
        // SAFETY: Nobody else uses the channel. The save comes with its length.
        checked(unsafe { dma330_channel_restore(self.raw.get_mut(), save.as_ptr(), save.len()) }, ())
    }
}

impl Drop for ChannelHandle {
    fn drop(&mut self) {
        // SAFETY: Nobody else uses the channel. It may be one that an open has refused.
        unsafe { dma330_channel_close(self.raw.get_mut()) }
    }
}

/// A device that is open, and is closed when it is dropped.
pub struct DeviceHandle {
    raw: UnsafeCell<RawDevice>,
}

// SAFETY: Nothing else has the pointer to what the device holds, whose type the prover has shown to be `Send`.
unsafe impl Send for DeviceHandle {}

impl DeviceHandle {
    pub fn open(config: &RawDeviceConfig) -> Result<DeviceHandle, Error> {
        let closed = RawDevice { device: ptr::null_mut(), is_open: 0 };
        let mut handle = DeviceHandle { raw: UnsafeCell::new(closed) };
        // SAFETY: The device is zeroed, and nobody else has it. `config` is only read.
        let code = unsafe { dma330_device_open(handle.raw.get_mut(), config) };
        checked(code, handle)
    }

    pub fn reset(&mut self) {
        // SAFETY: Nobody else uses the device.
        let code = unsafe { dma330_device_reset(self.raw.get_mut()) };
        assert_eq!(code, OK);
    }

    pub fn read(&self, offset: u32) -> u32 {
        // SAFETY: No other call uses the device, and `value` is a local.
        always_written(|value| unsafe { dma330_device_read(self.raw.get(), offset, value) })
    }

    pub fn write(&mut self, offset: u32, value: u32, regions: &[Region<'_>]) -> Result<(), Error> {
        let (lent, count) = (regions.as_ptr(), regions.len());
        // SAFETY: Nobody else uses the device. The list comes with its length, and its regions are only read.
        checked(unsafe { dma330_device_write(self.raw.get_mut(), offset, value, lent, count) }, ())
    }

    pub fn step(&mut self, channel: u8, most: u32, regions: &mut [Region<'_>]) -> Result<RawDeviceTurn, Error> {
        let (lent, count) = (regions.as_ptr(), regions.len());
        // SAFETY: Nobody else uses the device or the regions. The list comes with its length, and `turn` is a local.
        written(|turn| unsafe { dma330_device_step(self.raw.get_mut(), channel, most, lent, count, turn) })
    }

    pub fn registers(&self, channel: u8) -> Result<RawRegisters, Error> {
        // SAFETY: No other call uses the device, and `registers` is a local.
        written(|registers| unsafe { dma330_device_registers(self.raw.get(), channel, registers) })
    }

    pub fn step_rows(&mut self, channel: u8, most: u32, regions: &mut [Region<'_>]) -> Result<RawDeviceRows, Error> {
        let (lent, count) = (regions.as_ptr(), regions.len());
        // SAFETY: Nobody else uses the device or the regions. The list comes with its length, and `rows` is a local.
        written(|rows| unsafe { dma330_device_step_rows(self.raw.get_mut(), channel, most, lent, count, rows) })
    }

    pub fn explain(&self, channel: u8, most: u32) -> Result<RawExplained, Error> {
        let raw = self.raw.get();
        // SAFETY: No other call uses the device, and nobody else uses the lists or `out`. The lists come with their
        // lengths.
        RawExplained::by(|(src, s), (dst, d), (zeros, z), (events, e), out| unsafe {
            dma330_device_explain(raw, channel, most, src, s, dst, d, zeros, z, events, e, out)
        })
    }

    /// Returns the lines irq\[31:0\], and whether irq_abort is high.
    pub fn lines(&self) -> (u32, bool) {
        let (mut irqs, mut irq_abort) = (0, 0);
        // SAFETY: No other call uses the device, and the numbers are locals.
        let code = unsafe { dma330_device_lines(self.raw.get(), &mut irqs, &mut irq_abort) };
        assert_eq!(code, OK);
        (irqs, irq_abort != 0)
    }

    pub fn can_step(&self) -> bool {
        // SAFETY: No other call uses the device, and `can_step` is a local.
        always_written(|can_step| unsafe { dma330_device_can_step(self.raw.get(), can_step) }) != 0
    }

    /// Writes a save of the device, and returns its length; `None` if it doesn't fit.
    pub fn save(&self, out: &mut [u8]) -> Option<usize> {
        let (raw, bytes, room) = (self.raw.get(), out.as_mut_ptr(), out.len());
        // SAFETY: No other call uses the device, and nobody else uses `out`, which comes with its length. `len` is a
        // local.
        written_unless(BUFFER_TOO_SMALL, |len| unsafe { dma330_device_save(raw, bytes, room, len) })
    }

    pub fn restore(&mut self, save: &[u8]) -> Result<(), Error> {
        // SAFETY: Nobody else uses the device. The save comes with its length.
        checked(unsafe { dma330_device_restore(self.raw.get_mut(), save.as_ptr(), save.len()) }, ())
    }
}

impl Drop for DeviceHandle {
    fn drop(&mut self) {
        // SAFETY: Nobody else uses the device. It may be one that an open has refused.
        unsafe { dma330_device_close(self.raw.get_mut()) }
    }
}
