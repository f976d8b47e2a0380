//! The calls that `sys` declares, for the rest of the crate; all its `unsafe` code is here and in the files of calls/.
//!
//! What the library requires of its caller (the head of dma330.h), and why each call below keeps it, where its comment is
//! short:
//!
//! - A controller is zeroed before it is opened, its members are never touched, and an open one is never copied:
//!   [`Handle`] starts with zeros, gives nobody access to its members, and is neither `Copy` nor `Clone`. After a
//!   move only the new owner can use it. The same is true of a channel and [`ChannelHandle`], and of a device and
//!   [`DeviceHandle`].
//! - One call at a time: calls that change something take `&mut self`. Calls that only read take `&self` of a type that
//!   isn't `Sync` (it is a cell), and no call of the library calls back. A handle may move to another thread, since the
//!   check of the library proves that the type it holds is `Send`, and Rust orders what one thread does with a value
//!   before what the next one does.
//! - Pointers are not null, and are aligned and valid for their counts: each comes from a reference, or from a slice
//!   that is passed with its length. A [`Region`] is made from a slice that nobody else uses while the region exists,
//!   or by [`Region::from_raw_parts`], whose caller ensures what its section Safety lists.
//! - Pointers of a call don't overlap unless both are only read, and nobody else uses what they point to: Rust's rules
//!   of `&mut` and `&` ensure this.
//! - The program must ensure the rest: one allocator behind `malloc`, no call from a signal handler or from the forked
//!   child of a process with threads, and 64 KiB of stack.

mod over_regions;
mod programs;

pub use over_regions::{ChannelHandle, DeviceHandle};
pub use programs::{assemble, disassemble, explain, plan, plan_fill, run_program, RawExplained};

use crate::sys::*;
use crate::{Error, Segment};
use std::cell::UnsafeCell;
use std::marker::PhantomData;
use std::ptr;

/// A part of the caller's memory, which a channel reads and writes while it is stepped: bytes, and the address of the
/// first.
///
/// ```
/// use dma330::Region;
/// let mut ram = vec![0; 0x1000];
/// let _region = Region::new(0x8000_0000, &mut ram);
/// ```
///
/// The region borrows the bytes until it is dropped.
///
/// ```compile_fail
/// let mut ram = vec![0; 0x1000];
/// let region = dma330::Region::new(0x8000_0000, &mut ram);
/// ram[0] = 1;
/// drop(region);
/// ```
#[repr(C)]
pub struct Region<'a> {
    addr: u32,
    bytes: *mut u8,
    len: usize,
    read_only: u32,
    lent: PhantomData<&'a mut [u8]>,
}

impl<'a> Region<'a> {
    /// Returns the region of these bytes, the first of which is at `addr`.
    pub fn new(addr: u32, bytes: &'a mut [u8]) -> Region<'a> {
        Region { addr, bytes: bytes.as_mut_ptr(), len: bytes.len(), read_only: 0, lent: PhantomData }
    }

    /// Returns the region of these bytes as ROM: loads and programs read it, and stores to it fail.
    pub fn read_only(addr: u32, bytes: &'a mut [u8]) -> Region<'a> {
        Region { read_only: 1, ..Region::new(addr, bytes) }
    }

    /// Returns the region of `len` bytes from a pointer on, the first of which is at `addr`, as ROM if `read_only`. It
    /// is for memory that no slice may borrow, since others use it during a call: a guest's processors, or threads.
    ///
    /// # Safety
    ///
    /// - The pointer isn't null, also if `len` is 0.
    /// - While the region exists, the bytes are mapped, and can be read and, unless `read_only`, written.
    /// - During a call with the region, no other region of the call has one of them, and whoever else uses them allows
    ///   for changes at any time, as a guest's processors do, and volatile and atomic accesses. A slice doesn't.
    ///
    /// The library copies the bytes by plain loads and stores, and does nothing else with them. `docs/DEVICES.md` has
    /// what both sides see ("Beside running processors").
    ///
    /// ```
    /// use dma330::{Channel, Region};
    /// let mut ram = vec![0x18, 0x00]; // DMANOP, DMAEND
    /// let mut channel = Channel::open()?;
    /// // SAFETY: `ram` outlives the region, and nobody else uses it.
    /// let region = unsafe { Region::from_raw_parts(0x8000_0000, ram.as_mut_ptr(), ram.len(), false) };
    /// channel.load_from(&[region], 0x8000_0000)?;
    /// assert_eq!(channel.step(&mut [], &mut 0, 100)?.taken, 2);
    /// # Ok::<(), dma330::Error>(())
    /// ```
    pub unsafe fn from_raw_parts(addr: u32, bytes: *mut u8, len: usize, read_only: bool) -> Region<'a> {
        Region { addr, bytes, len, read_only: read_only.into(), lent: PhantomData }
    }
}

// Returns the value, or the error of a code.
fn checked<T>(code: i32, value: T) -> Result<T, Error> {
    match code {
        OK => Ok(value),
        _ => Err(Error::of(code)),
    }
}

// Returns the value that a call writes, or the error of its code.
fn written<T: Default>(call: impl FnOnce(&mut T) -> i32) -> Result<T, Error> {
    let mut value = T::default();
    checked(call(&mut value), value)
}

// Returns the value that a call writes; `None` if the call returns the code `none`. It returns no other code.
fn written_unless<T: Default>(none: i32, call: impl FnOnce(&mut T) -> i32) -> Option<T> {
    let mut value = T::default();
    let code = call(&mut value);
    assert!(code == OK || code == none, "the library returned the code {code}");
    (code == OK).then_some(value)
}

// Returns the value that a call writes, which is never refused.
fn always_written<T: Default>(call: impl FnOnce(&mut T) -> i32) -> T {
    written_unless(OK, call).expect("it returned OK")
}

// Returns the error of a call's code, if any; the call may conflict with a running transfer.
fn unless_in_conflict(call: impl FnOnce(&mut RawConflict) -> i32) -> Result<(), Error> {
    let mut conflict = RawConflict::default();
    let code = call(&mut conflict);
    let (channel, cookie) = (conflict.channel as u8, conflict.cookie);
    match code {
        BUSY => Err(Error::Busy { channel, cookie }),
        RUNNING => Err(Error::Running { channel, cookie }),
        _ => checked(code, ()),
    }
}

/// A controller that is open, and is closed when it is dropped.
pub struct Handle {
    raw: UnsafeCell<RawController>,
}

// SAFETY: Nothing else has the pointer to what the controller holds, whose type the prover has shown to be `Send`.
unsafe impl Send for Handle {}

impl Handle {
    pub fn open(size: u32, channels: u8) -> Result<Handle, Error> {
        let closed = RawController { engine: ptr::null_mut(), is_open: 0 };
        let mut handle = Handle { raw: UnsafeCell::new(closed) };
        // SAFETY: The controller is zeroed, and nobody else has it.
        let code = unsafe { dma330_open(handle.raw.get_mut(), size, channels) };
        checked(code, handle)
    }

    pub fn write(&mut self, addr: u32, bytes: &[u8]) -> Result<(), Error> {
        let (from, len) = (bytes.as_ptr(), bytes.len());
        // SAFETY: Nobody else uses the controller. The bytes come with their number, and `conflict` is a local.
        unless_in_conflict(|conflict| unsafe { dma330_write(self.raw.get_mut(), addr, from, len, conflict) })
    }

    pub fn read(&mut self, addr: u32, out: &mut [u8]) -> Result<(), Error> {
        let (to, len) = (out.as_mut_ptr(), out.len());
        // SAFETY: Nobody else uses the controller or `out`, which comes with its length. `conflict` is a local.
        unless_in_conflict(|conflict| unsafe { dma330_read(self.raw.get_mut(), addr, to, len, conflict) })
    }

    pub fn submit(&mut self, channel: u8, src: &[Segment], dst: &[Segment], wait: i32, signal: i32) -> Result<u32, Error> {
        let (from, to) = (src.as_ptr(), dst.as_ptr());
        let raw = self.raw.get_mut();
        // SAFETY: Nobody else uses the controller. The lists come with their lengths, and `cookie` is a local.
        written(|cookie| unsafe { dma330_submit(raw, channel, from, src.len(), to, dst.len(), wait, signal, cookie) })
    }

    pub fn submit_fill(&mut self, channel: u8, src: u32, dst: &[Segment], wait: i32, signal: i32) -> Result<u32, Error> {
        let raw = self.raw.get_mut();
        // SAFETY: Nobody else uses the controller. The list comes with its length, and `cookie` is a local.
        written(|cookie| unsafe { dma330_submit_fill(raw, channel, src, dst.as_ptr(), dst.len(), wait, signal, cookie) })
    }

    pub fn issue(&mut self, channel: u8) -> Result<u32, Error> {
        // SAFETY: Nobody else uses the controller, and `count` is a local.
        written(|count| unsafe { dma330_issue(self.raw.get_mut(), channel, count) })
    }

    pub fn pause(&mut self, channel: u8) -> Result<(), Error> {
        // SAFETY: Nobody else uses the controller.
        checked(unsafe { dma330_pause(self.raw.get_mut(), channel) }, ())
    }

    pub fn resume(&mut self, channel: u8) -> Result<(), Error> {
        // SAFETY: Nobody else uses the controller.
        checked(unsafe { dma330_resume(self.raw.get_mut(), channel) }, ())
    }

    pub fn terminate(&mut self, channel: u8) -> Result<u32, Error> {
        // SAFETY: Nobody else uses the controller, and `count` is a local.
        written(|count| unsafe { dma330_terminate(self.raw.get_mut(), channel, count) })
    }

    pub fn step(&mut self, channel: u8, most: u32) -> Result<RawReport, Error> {
        // SAFETY: Nobody else uses the controller, and `report` is a local.
        written(|report| unsafe { dma330_step(self.raw.get_mut(), channel, most, report) })
    }

    pub fn status(&self, channel: u8, cookie: u32) -> i32 {
        // SAFETY: No other call uses the controller.
        unsafe { dma330_status(self.raw.get(), channel, cookie) }
    }

    pub fn result(&self, channel: u8, cookie: u32) -> Option<RawOutcome> {
        // SAFETY: No other call uses the controller, and `outcome` is a local.
        written_unless(NO_RESULT, |outcome| unsafe { dma330_result(self.raw.get(), channel, cookie, outcome) })
    }

    pub fn running(&self, channel: u8) -> Option<RawRun> {
        // SAFETY: No other call uses the controller, and `running` is a local.
        written_unless(NOT_RUNNING, |running| unsafe { dma330_running(self.raw.get(), channel, running) })
    }

    pub fn unfinished(&self, channel: u8) -> u32 {
        // SAFETY: No other call uses the controller, and `count` is a local.
        always_written(|count| unsafe { dma330_unfinished(self.raw.get(), channel, count) })
    }

    pub fn forgotten(&self, channel: u8) -> u32 {
        // SAFETY: No other call uses the controller, and `count` is a local.
        always_written(|count| unsafe { dma330_forgotten(self.raw.get(), channel, count) })
    }

    pub fn steps(&self) -> u64 {
        // SAFETY: No other call uses the controller, and `steps` is a local.
        always_written(|steps| unsafe { dma330_steps(self.raw.get(), steps) })
    }

    pub fn history_entries(&self) -> u64 {
        // SAFETY: No other call uses the controller, and `count` is a local.
        always_written(|count| unsafe { dma330_history_entries(self.raw.get(), count) })
    }

    pub fn history_bytes(&self) -> u64 {
        // SAFETY: No other call uses the controller, and `count` is a local.
        always_written(|count| unsafe { dma330_history_bytes(self.raw.get(), count) })
    }

    pub fn running_count(&self) -> u32 {
        // SAFETY: No other call uses the controller, and `count` is a local.
        always_written(|count| unsafe { dma330_running_count(self.raw.get(), count) })
    }

    pub fn inject_error(&mut self, access: u32, range: Segment) -> Result<(), Error> {
        // SAFETY: Nobody else uses the controller.
        checked(unsafe { dma330_inject_error(self.raw.get_mut(), access, range) }, ())
    }

    pub fn uninject_errors(&mut self) -> Result<(), Error> {
        // SAFETY: Nobody else uses the controller.
        checked(unsafe { dma330_uninject_errors(self.raw.get_mut()) }, ())
    }

    pub fn raise(&mut self, event: u8) -> Result<(), Error> {
        // SAFETY: Nobody else uses the controller.
        checked(unsafe { dma330_raise(self.raw.get_mut(), event) }, ())
    }

    pub fn checkpoint(&mut self) -> Result<(), Error> {
        // SAFETY: Nobody else uses the controller, and `conflict` is a local.
        unless_in_conflict(|conflict| unsafe { dma330_checkpoint(self.raw.get_mut(), conflict) })
    }
}

impl Drop for Handle {
    fn drop(&mut self) {
        // SAFETY: Nobody else uses the controller. It may be one that an open has refused.
        unsafe { dma330_close(self.raw.get_mut()) }
    }
}

/// Writes the version and a zero byte, and returns the version's length; `None` if they don't fit.
pub fn version(out: &mut [u8]) -> Option<usize> {
    let mut len = 0;
    // SAFETY: Nobody else uses `out`, which comes with its length, and `len` is a local.
    let code = unsafe { dma330_version(out.as_mut_ptr(), out.len(), &mut len) };
    (code == OK).then_some(len)
}
