//! The guest memory of a VMM of rust-vmm, a [`GuestMemoryMmap`], as the memory of a [`Device`] or a [`Channel`] of the
//! crate `dma330`.
//!
//! A [`LentMemory`] lends the memory for some calls. Each call marks what it wrote as dirty in the memory's bitmap, for
//! instance in an `AtomicBitmap`, for a migration or a display: each byte of the range that it reports, and nothing but
//! bytes of regions that it was lent for writing. `examples/vmm.rs` is a device of a small VMM.
//!
//! It is for version 0.10 of `vm-memory`, which Debian packs as `librust-vm-memory-dev`; `.cargo/config.toml` takes it
//! from there. It is a crate of its own, since with an optional dependency `dma330` couldn't be built offline without
//! that package.
//!
//! # What may run beside a call
//!
//! The guest's processors may run during a call, and other threads may use the memory by the safe functions of
//! `vm-memory`. No function of this crate is `unsafe`, for these reasons:
//!
//! - The bytes stay mapped while a `LentMemory` borrows the memory, and each mapping is used as its protection
//!   allows.
//! - Neither this crate nor `dma330` makes a reference to them: a [`Region`] has a pointer. `vm-memory` gives safe
//!   code none except to atomics. Where it makes a slice for the time of a copy, it allows for changes by others, as
//!   it must for a guest's processors. Whoever gets a slice by an `unsafe` function, such as `as_slice`, ensures that
//!   nobody uses it during a call.
//! - The library is machine code of its own, which the program's compiler neither sees nor changes. So its accesses
//!   are to other threads what a processor's are. They copy the bytes by plain loads and stores, and nothing else
//!   depends on them; a DMAGO copies a program before it decodes it. Each byte that is read is the one before or
//!   after another's write, and where two write a byte, one of the two remains.
//! - No two regions of a call have a byte of the process in common: of two that do, the one at the higher address is
//!   left out.
//!
//! The proofs of the library are about calls beside which nobody else uses the bytes. `docs/DEVICES.md` has what is
//! true otherwise ("Beside running processors"). If a page of a file is mapped twice, the library takes it for two
//! pages, as if somebody else wrote the one whenever a call writes the other, and only the one that a call writes is
//! marked as dirty.

#![deny(missing_docs, unsafe_code, clippy::undocumented_unsafe_blocks)]

use dma330::{Channel, ChannelSteps, Device, DeviceRows, DeviceTurn, Error, Region, Segment};
use libc::{PROT_READ, PROT_WRITE};
use std::ops::Range;
use vm_memory::bitmap::Bitmap;
use vm_memory::{Address, GuestMemory, GuestMemoryMmap, GuestMemoryRegion, GuestRegionMmap};

/// The most regions of a call.
const MAX_REGIONS: usize = 64;

/// A guest's memory, lent to calls on devices and channels.
///
/// What the memory has above address 0xFFFFFFFF isn't lent, nor is a mapping that can't be read. One that can't be
/// written is lent as ROM. A channel that uses an address that isn't lent fails, as at a hole.
///
/// ```
/// use dma330::{assemble, Channel, ChannelStep};
/// use dma330_vm_memory::LentMemory;
/// use vm_memory::bitmap::{AtomicBitmap, Bitmap};
/// use vm_memory::{Bytes, GuestAddress, GuestMemory, GuestMemoryMmap, GuestMemoryRegion};
///
/// let memory = GuestMemoryMmap::<AtomicBitmap>::from_ranges(&[(GuestAddress(0x8000_0000), 0x4000)]).unwrap();
/// let moves = "DMAMOV SAR 0x80000100\nDMAMOV DAR 0x80002200\nDMAMOV CCR 0x00014005";
/// let program = assemble(&format!("{moves}\nDMALD\nDMAST\nDMAEND"))?;
/// memory.write_slice(&program, GuestAddress(0x8000_0000)).unwrap();
/// memory.write_slice(&[1, 2, 3, 4], GuestAddress(0x8000_0100)).unwrap();
///
/// let mut lent = LentMemory::new(&memory)?;
/// let mut channel = Channel::open()?;
/// lent.load_from(&mut channel, 0x8000_0000);
/// assert_eq!(lent.step_channel(&mut channel, &mut 0, 100)?.last, ChannelStep::Ended);
///
/// assert_eq!(memory.read_obj::<[u8; 4]>(GuestAddress(0x8000_2200)).unwrap(), [1, 2, 3, 4]);
/// let bitmap = memory.find_region(GuestAddress(0x8000_0000)).unwrap().bitmap();
/// assert!(bitmap.dirty_at(0x2000) && !bitmap.dirty_at(0x3000));
/// # Ok::<(), dma330::Error>(())
/// ```
///
/// The memory can't go while it is lent.
///
/// ```compile_fail
/// use vm_memory::{GuestAddress, GuestMemoryMmap};
/// let memory = GuestMemoryMmap::<()>::from_ranges(&[(GuestAddress(0), 0x1000)]).unwrap();
/// let lent = dma330_vm_memory::LentMemory::new(&memory).unwrap();
/// drop(memory);
/// drop(lent);
/// ```
pub struct LentMemory<'a, B = ()> {
    regions: Vec<Region<'a>>,
    // The regions that a call may write, and the addresses at which each is lent.
    writable: Vec<(Range<u64>, &'a GuestRegionMmap<B>)>,
}

impl<'a, B: Bitmap + 'static> LentMemory<'a, B> {
    /// Lends a memory, so that calls can write each mapping that can be written.
    ///
    /// Fails with `BadRegions` if there are more than 64 regions to lend.
    pub fn new(memory: &'a GuestMemoryMmap<B>) -> Result<LentMemory<'a, B>, Error> {
        LentMemory::with_rom(memory, |_| false)
    }

    /// Lends a memory in the same way, but each region for which `is_rom` returns true as ROM: loads and programs read
    /// it, and stores to it are faults.
    ///
    /// Fails with `BadRegions` if there are more than 64 regions to lend.
    #[allow(unsafe_code)]
    pub fn with_rom(
        memory: &'a GuestMemoryMmap<B>,
        is_rom: impl Fn(&GuestRegionMmap<B>) -> bool,
    ) -> Result<LentMemory<'a, B>, Error> {
        let mut lent = LentMemory { regions: Vec::new(), writable: Vec::new() };
        let mut taken: Vec<Range<*mut u8>> = Vec::new();
        for region in memory.iter() {
            let (addr, len) = usable_part(region);
            let bytes = region.as_ptr()..region.as_ptr().wrapping_add(len);
            if len == 0 || taken.iter().any(|other| bytes.start < other.end && other.start < bytes.end) {
                continue;
            }
            if taken.len() == MAX_REGIONS {
                return Err(Error::BadRegions);
            }
            let read_only = is_rom(region) || region.prot() & PROT_WRITE == 0;
            // SAFETY: The bytes are mapped while the memory is borrowed, and their protection allows what the library
            // does. No other region has them. For references and accesses by others, see the head of this file.
            lent.regions.push(unsafe { Region::from_raw_parts(addr, bytes.start, len, read_only) });
            taken.push(bytes);
            if !read_only {
                lent.writable.push((addr.into()..u64::from(addr) + len as u64, region));
            }
        }
        Ok(lent)
    }

    /// Writes the register of a device at an offset, for the guest, as [`Device::write`] does.
    pub fn write(&self, device: &mut Device, offset: u32, value: u32) {
        device.write(offset, value, &self.regions).expect(USABLE);
    }

    /// Takes a turn of a device's channel, as [`Device::step`] does, and then marks each byte that it wrote as dirty, also
    /// where the value stayed the same, and no other.
    pub fn step(&mut self, device: &mut Device, channel: u8, most: u32) -> DeviceTurn {
        let turn = device.step(channel, most, &mut self.regions).expect(USABLE);
        self.mark(turn.written);
        turn
    }

    /// Takes several turns of a device's channel, as [`Device::step_rows`] does, and then marks each byte that they wrote
    /// as dirty, and no other.
    pub fn step_rows(&mut self, device: &mut Device, channel: u8, most: u32) -> DeviceRows {
        let rows = device.step_rows(channel, most, &mut self.regions).expect(USABLE);
        rows.ranges().for_each(|written| self.mark(written));
        rows
    }

    /// Loads the program that begins at an address of the memory, as [`Channel::load_from`] does.
    pub fn load_from(&self, channel: &mut Channel, addr: u32) {
        channel.load_from(&self.regions, addr).expect(USABLE);
    }

    /// Takes steps of a channel, as [`Channel::step`] does, and then marks each byte that they wrote as dirty, also where
    /// the value stayed the same, and no other.
    ///
    /// Fails with `NoProgram`.
    pub fn step_channel(&mut self, channel: &mut Channel, flags: &mut u32, most: u32) -> Result<ChannelSteps, Error> {
        let steps = channel.step(&mut self.regions, flags, most)?;
        self.mark(steps.written);
        Ok(steps)
    }

    // Marks a range as dirty in the bitmap of each region that has a part of it and that a call may write. By the
    // library's laws these regions have all of it; no other region is marked whatever the range is.
    fn mark(&self, written: Segment) {
        let (start, len) = (u64::from(written.addr), u64::from(written.len));
        for (lent, region) in &self.writable {
            let (from, to) = (start.max(lent.start), (start + len).min(lent.end));
            if from < to {
                region.bitmap().mark_dirty((from - lent.start) as usize, (to - from) as usize);
            }
        }
    }
}

// Why the library accepts the regions.
const USABLE: &str = "the regions are at most 64, and rise as those of the memory do";

// Returns the first address of a region, and the number of bytes from there on that can be lent.
fn usable_part<B: Bitmap>(region: &GuestRegionMmap<B>) -> (u32, usize) {
    let Ok(addr) = u32::try_from(region.start_addr().raw_value()) else {
        return (0, 0);
    };
    let room = if region.prot() & PROT_READ == 0 { 0 } else { (1 << 32) - u64::from(addr) };
    (addr, region.len().min(room) as usize)
}

#[cfg(test)]
mod tests {
    use super::*;
    use vm_memory::bitmap::AtomicBitmap;
    use vm_memory::GuestAddress;

    // No call reports such a range: it has gaps, ROM, and what isn't lent.
    #[test]
    fn only_what_may_be_written_is_marked() {
        let ranges = [(0x1000, 0x1000), (0x3000, 0x1000), (0x5000, 0x2000), (0xFFFF_F000, 0x2000)];
        let ranges = ranges.map(|(base, len)| (GuestAddress(base), len));
        let memory = GuestMemoryMmap::<AtomicBitmap>::from_ranges(&ranges).expect("the ranges rise");
        let is_rom = |region: &GuestRegionMmap<AtomicBitmap>| region.start_addr() == GuestAddress(0x3000);
        let lent = LentMemory::with_rom(&memory, is_rom).expect("it has four regions");
        lent.mark(Segment::new(0, u32::MAX));
        lent.mark(Segment::new(u32::MAX, u32::MAX));
        let dirty =
            |base: u64, offset| memory.find_region(GuestAddress(base)).expect("it is a region").bitmap().dirty_at(offset);
        assert_eq!([dirty(0x1000, 0), dirty(0x3000, 0), dirty(0x5000, 0), dirty(0x5000, 0x1000)], [true, false, true, true]);
        assert_eq!([dirty(0xFFFF_F000, 0), dirty(0xFFFF_F000, 0x1000)], [true, false]);
    }
}
