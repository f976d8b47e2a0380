//! Tests of `LentMemory`: what it lends of a guest's memory, and what it marks as dirty. What devices and channels do
//! with lent memory is tested by tests/c and by the crate `dma330`.

use dma330::{assemble, BusWidth, Channel, ChannelStep, Device, DeviceConfig, Error, Fault, Revision, Segment};
use dma330_vm_memory::LentMemory;
use std::thread;
use vm_memory::bitmap::{AtomicBitmap, Bitmap};
use vm_memory::mmap::MmapRegionBuilder;
use vm_memory::{
    Address, Bytes, GuestAddress, GuestMemory, GuestMemoryMmap, GuestMemoryRegion, GuestRegionMmap, MmapRegion,
};

type Ram = GuestMemoryMmap<AtomicBitmap>;

const PAGE: u64 = 4096;

// Bits of FTR, the fault type of a channel (ARM DDI 0424).
const INSTR_FETCH_ERR: u32 = 1 << 16;
const DATA_WRITE_ERR: u32 = 1 << 17;
const DATA_READ_ERR: u32 = 1 << 18;

const BUS: BusWidth = BusWidth::Bits128;
const CONFIG: DeviceConfig =
    DeviceConfig { channels: 2, events: 8, nonsecure: false, bus: BUS, lines: 32, revision: Revision::R1p2 };

fn ram_of(ranges: &[(u64, usize)]) -> Ram {
    let ranges: Vec<_> = ranges.iter().map(|(base, len)| (GuestAddress(*base), *len)).collect();
    Ram::from_ranges(&ranges).expect("the ranges rise")
}

fn region_of(base: u64, builder: MmapRegionBuilder<AtomicBitmap>) -> GuestRegionMmap<AtomicBitmap> {
    GuestRegionMmap::new(builder.build().expect("it is mapped"), GuestAddress(base)).expect("it ends below 2^64")
}

fn builder(len: usize, prot: i32) -> MmapRegionBuilder<AtomicBitmap> {
    MmapRegionBuilder::new_with_bitmap(len, AtomicBitmap::new(len, PAGE as usize)).with_mmap_prot(prot)
}

fn put<B: Bitmap + 'static>(memory: &GuestMemoryMmap<B>, addr: u64, bytes: &[u8]) {
    memory.write_slice(bytes, GuestAddress(addr)).expect("the memory has the addresses");
}

fn get<B: Bitmap + 'static>(memory: &GuestMemoryMmap<B>, addr: u64, len: usize) -> Vec<u8> {
    let mut bytes = vec![0; len];
    memory.read_slice(&mut bytes, GuestAddress(addr)).expect("the memory has the addresses");
    bytes
}

fn numbers(len: usize) -> Vec<u8> {
    (0..len).map(|n| (n % 251) as u8).collect()
}

fn clean(memory: &Ram) {
    memory.iter().for_each(|region| region.bitmap().reset());
}

// Returns the guest addresses of the dirty pages.
fn dirty_pages(memory: &Ram) -> Vec<u64> {
    let mut pages = Vec::new();
    for region in memory.iter() {
        let offsets = (0..region.len()).step_by(PAGE as usize);
        let dirty = offsets.filter(|offset| region.bitmap().dirty_at(*offset as usize));
        pages.extend(dirty.map(|offset| region.start_addr().raw_value() + offset));
    }
    pages
}

// Returns the program that copies bytes by a loop of `bursts` rounds.
fn copy(src: u32, dst: u32, ccr: u32, bursts: u32) -> Vec<u8> {
    let moves = format!("DMAMOV SAR {src:#010X}\nDMAMOV DAR {dst:#010X}\nDMAMOV CCR {ccr:#010X}\n");
    assemble(&(moves + &format!("DMALP 0 {bursts}\nDMALD\nDMAST\nDMALPEND 0 2\nDMAEND"))).expect("it is a program")
}

// CCR for bursts of 1 byte, and of 16 beats of 16 bytes, at rising addresses.
const BYTES: u32 = 0x0000_4001;
const BURSTS: u32 = 0x003E_40F9;

// Starts the program at an address on channel 1, and takes its turns. Returns the channel's FTR, 0 if it didn't fail.
fn run<B: Bitmap + 'static>(lent: &mut LentMemory<'_, B>, program: u32) -> u32 {
    let mut device = Device::open(CONFIG).expect("there is memory");
    for (offset, value) in [(0xD08, 0x01A0_0000), (0xD0C, program), (0xD04, 0)] {
        lent.write(&mut device, offset, value);
    }
    while device.can_step() {
        lent.step(&mut device, 1, 1000);
    }
    device.read(0x044)
}

// Puts a program at an address, runs it over memory that is clean before, and returns FTR.
fn run_clean(memory: &Ram, at: u32, program: &[u8]) -> u32 {
    put(memory, at.into(), program);
    clean(memory);
    run(&mut LentMemory::new(memory).expect("it has few regions"), at)
}

#[test]
fn a_device_copies_over_regions_and_marks_what_it_wrote() {
    let memory = ram_of(&[(0x8000_0000, 0x4000), (0x8000_4000, 0x4000), (0x8000_8000, 0x4000)]);
    let bytes = numbers(0x1A00);
    put(&memory, 0x8000_3000, &bytes);
    let program = copy(0x8000_3000, 0x8000_7800, BURSTS, 26);
    assert_eq!(run_clean(&memory, 0x8000_0000, &program), 0);
    assert_eq!(get(&memory, 0x8000_7800, 0x1A00), bytes);
    assert_eq!((get(&memory, 0x8000_7700, 0x100), get(&memory, 0x8000_9200, 0x100)), (vec![0; 0x100], vec![0; 0x100]));
    assert_eq!(dirty_pages(&memory), [0x8000_7000, 0x8000_8000, 0x8000_9000]);
}

#[test]
fn pages_beside_what_was_written_stay_clean() {
    let memory = ram_of(&[(0x1000, 0x4000), (0x5000, 0x1000)]);
    for (dst, page) in [(0x3000, 0x3000), (0x3FFF, 0x3000), (0x4FFF, 0x4000), (0x5000, 0x5000)] {
        assert_eq!(run_clean(&memory, 0x1000, &copy(0x2000, dst, BYTES, 1)), 0);
        assert_eq!(dirty_pages(&memory), [page]);
    }
    assert_eq!(run_clean(&memory, 0x1000, &copy(0x2000, 0x3000, BURSTS, 16)), 0);
    assert_eq!(dirty_pages(&memory), [0x3000]);
    assert_eq!(run_clean(&memory, 0x1000, &assemble("DMANOP\nDMAEND").expect("it is a program")), 0);
    assert_eq!(dirty_pages(&memory), [0; 0]);
}

#[test]
fn each_turn_marks_its_own_range() {
    let memory = ram_of(&[(0x1000, 0x4000)]);
    put(&memory, 0x1000, &copy(0x2000, 0x3F00, BURSTS, 2));
    clean(&memory);
    let mut lent = LentMemory::new(&memory).expect("it has a region");
    let mut device = Device::open(CONFIG).expect("there is memory");
    for (offset, value) in [(0xD08, 0x01A0_0000), (0xD0C, 0x1000), (0xD04, 0)] {
        lent.write(&mut device, offset, value);
    }
    // three moves, the loop's start, and a load
    assert_eq!(lent.step(&mut device, 1, 5).written, Segment::default());
    assert_eq!(dirty_pages(&memory), [0; 0]);
    assert_eq!(lent.step(&mut device, 1, 1).written, Segment::new(0x3F00, 0x100));
    assert_eq!(dirty_pages(&memory), [0x3000]);
    clean(&memory);
    assert_eq!(lent.step(&mut device, 1, 100).written, Segment::new(0x4000, 0x100));
    assert_eq!(dirty_pages(&memory), [0x4000]);
}

// After the DMASEV of an interrupt, a store that is far from the first belongs to the next turn.
#[test]
fn nothing_between_two_stores_is_marked() {
    let memory = ram_of(&[(0x1000, 0x3000), (0x8000, 0x1000), (0xFFFC_0000, 0x1000)]);
    let text = "DMAMOV SAR 0x00002000\nDMAMOV CCR 0x00014005\nDMAMOV DAR 0x00003000\nDMALD\nDMAST\n\
                DMAMOV DAR 0xFFFC0000\nDMALD\nDMASEV 3\nDMAST\nDMAEND";
    put(&memory, 0x1000, &assemble(text).expect("it is a program"));
    put(&memory, 0x2000, &numbers(8));
    clean(&memory);
    let lent = LentMemory::with_rom(&memory, |region| region.start_addr() == GuestAddress(0x8000));
    let (mut lent, mut device) = (lent.expect("it has three regions"), Device::open(CONFIG).expect("there is memory"));
    for (offset, value) in [(0x020, 1 << 3), (0xD08, 0x01A0_0000), (0xD0C, 0x1000), (0xD04, 0)] {
        lent.write(&mut device, offset, value);
    }
    assert_eq!(lent.step(&mut device, 1, 100).written, Segment::new(0x3000, 4));
    assert_eq!((device.irqs(), get(&memory, 0xFFFC_0000, 4)), (1 << 3, vec![0; 4]));
    assert_eq!(dirty_pages(&memory), [0x3000]);
    clean(&memory);
    assert_eq!(lent.step(&mut device, 1, 100).written, Segment::new(0xFFFC_0000, 4));
    assert_eq!((device.can_step(), get(&memory, 0xFFFC_0000, 4)), (false, vec![4, 5, 6, 7]));
    assert_eq!(dirty_pages(&memory), [0xFFFC_0000]);
}

#[test]
fn holes_are_faults() {
    let memory = ram_of(&[(0x1000, 0x1000), (0x3000, 0x1000)]);
    assert_eq!(run_clean(&memory, 0x1000, &copy(0x2000, 0x3000, BYTES, 1)), DATA_READ_ERR);
    assert_eq!(run_clean(&memory, 0x1000, &copy(0x3000, 0x2FFF, BYTES, 1)), DATA_WRITE_ERR);
    // bursts that begin in a region and end in a hole
    assert_eq!(run_clean(&memory, 0x1000, &copy(0x1F80, 0x3000, BURSTS, 1)), DATA_READ_ERR);
    assert_eq!(run_clean(&memory, 0x1000, &copy(0x3000, 0x3F80, BURSTS, 1)), DATA_WRITE_ERR);
    assert_eq!(run(&mut LentMemory::new(&memory).expect("it has two regions"), 0x2000), INSTR_FETCH_ERR);
    assert_eq!(dirty_pages(&memory), [0; 0]);
}

#[test]
fn memory_above_four_gibibytes_is_left_out() {
    let memory = ram_of(&[(0x1000, 0x1000), (0x1_0000_0000, 0x1000), (0x1_0000_2000, 0x1000), (0x7_0000_0000, 0x1000)]);
    put(&memory, 0x1_0000_2000, &[7; 0x1000]);
    assert_eq!(run_clean(&memory, 0x1000, &copy(0x2000, 0x1800, BYTES, 1)), DATA_READ_ERR);
    for dst in [0x0000_0000, 0x0000_2000, 0xFFFF_FFFF] {
        assert_eq!(run_clean(&memory, 0x1000, &copy(0x1000, dst, BYTES, 1)), DATA_WRITE_ERR);
    }
    assert_eq!(dirty_pages(&memory), [0; 0]);
    assert_eq!(get(&memory, 0x1_0000_2000, 0x1000), [7; 0x1000]);
}

#[test]
fn memory_up_to_four_gibibytes_is_lent() {
    for len in [0x1_0000, 0x3_0000] {
        let memory = ram_of(&[(0xFFFF_0000, len)]);
        put(&memory, 0xFFFF_8000, &[1, 2]);
        assert_eq!(run_clean(&memory, 0xFFFF_0000, &copy(0xFFFF_8000, 0xFFFF_FFFE, BYTES, 2)), 0);
        assert_eq!(get(&memory, 0xFFFF_FFFD, 3), [0, 1, 2]);
        assert_eq!(dirty_pages(&memory), [0xFFFF_F000]);
        assert_eq!(run_clean(&memory, 0xFFFF_0000, &copy(0xFFFF_FFFE, 0xFFFF_9000, BYTES, 2)), 0);
        assert_eq!(get(&memory, 0xFFFF_9000, 2), [1, 2]);
        assert_eq!(run_clean(&memory, 0xFFFF_0000, &copy(0xFFFF_8000, 0xFFFF_FF10, BURSTS, 1)), DATA_WRITE_ERR);
        assert_eq!(run_clean(&memory, 0xFFFF_0000, &copy(0xFFFF_FF10, 0xFFFF_9000, BURSTS, 1)), DATA_READ_ERR);
        assert_eq!(get(&memory, 0xFFFF_FFFD, 3), [0, 1, 2]);
    }
}

#[test]
fn more_than_64_regions_are_refused() {
    let ranges: Vec<(u64, usize)> = (0..65).map(|n| (0x10_0000 + n * 0x2000, 0x1000)).collect();
    assert_eq!(LentMemory::new(&ram_of(&ranges)).err(), Some(Error::BadRegions));
    // 64 of them, and others that can't be lent; calls refuse regions if one of them is lent twice
    let others = [(0x1_0000_0000, 0x1000), (0x2_0000_0000, 0x1000)];
    let memory = ram_of(&[&ranges[..64], &others[..]].concat());
    let (first, last) = (0x10_0000, 0x10_0000 + 63 * 0x2000);
    put(&memory, first + 0x800, &[5]);
    assert_eq!(run_clean(&memory, last as u32, &copy(0x10_0800, last as u32 + 0xFFF, BYTES, 1)), 0);
    assert_eq!((get(&memory, last + 0xFFF, 1), dirty_pages(&memory)), (vec![5], vec![last]));
}

#[test]
fn bytes_at_two_addresses_are_lent_at_the_lower_one() {
    let mapping = MmapRegion::<()>::new(0x3000).expect("it is mapped");
    let prot = libc::PROT_READ | libc::PROT_WRITE;
    // SAFETY: The mapping is unmapped after the memory.
    let part = |from, len| unsafe { builder(len, prot).with_raw_mmap_pointer(mapping.as_ptr().wrapping_add(from)) };
    let regions = vec![
        region_of(0x1000, part(0x1000, 0x1000)),
        region_of(0x4000, part(0, 0x2000)),
        region_of(0x6000, part(0, 0x1000)),
        region_of(0x8000, part(0, 0x3000)),
        region_of(0xC000, part(0x2000, 0x1000)),
        region_of(0xD000, part(0x2000, 0x1000)),
    ];
    let memory = Ram::from_regions(regions).expect("they rise");
    for (dst, fault) in [(0x1800, 0), (0x6800, 0), (0xC800, 0), (0x4000, DATA_WRITE_ERR), (0x5800, DATA_WRITE_ERR)] {
        assert_eq!(run_clean(&memory, 0x1000, &copy(0x1000, dst, BYTES, 1)), fault);
        assert_eq!(dirty_pages(&memory), if fault == 0 { vec![u64::from(dst) & !0xFFF] } else { vec![] });
    }
    for src in [0x4000, 0x5FFF, 0x8000, 0xAFFF, 0xD000] {
        assert_eq!(run_clean(&memory, 0x1000, &copy(src, 0x1800, BYTES, 1)), DATA_READ_ERR);
    }
}

#[test]
fn protected_mappings_are_rom_or_left_out() {
    let mut regions = vec![region_of(0x1000, builder(0x1000, libc::PROT_READ | libc::PROT_WRITE))];
    regions.push(region_of(0x2000, builder(0x1000, libc::PROT_READ)));
    regions.push(region_of(0x3000, builder(0x1000, libc::PROT_NONE)));
    regions.push(region_of(0x4000, builder(0x1000, libc::PROT_WRITE)));
    let memory = Ram::from_regions(regions).expect("they rise");
    put(&memory, 0x1800, &[1]);
    assert_eq!(run_clean(&memory, 0x1000, &copy(0x2000, 0x1800, BYTES, 1)), 0);
    assert_eq!(get(&memory, 0x1800, 1), [0]);
    for addr in [0x3000, 0x4000] {
        assert_eq!(run_clean(&memory, 0x1000, &copy(addr, 0x1800, BYTES, 1)), DATA_READ_ERR);
    }
    for addr in [0x2000, 0x3000, 0x4000] {
        assert_eq!(run_clean(&memory, 0x1000, &copy(0x1800, addr, BYTES, 1)), DATA_WRITE_ERR);
    }
    assert_eq!(dirty_pages(&memory), [0; 0]);
}

#[test]
fn a_caller_may_lend_regions_as_rom() {
    let memory = ram_of(&[(0x1000, 0x1000), (0x2000, 0x1000)]);
    put(&memory, 0x1800, &[1]);
    for (dst, fault, stored) in [(0x2800, 0, 1), (0x1900, DATA_WRITE_ERR, 0), (0x1FFF, DATA_WRITE_ERR, 0)] {
        put(&memory, 0x1000, &copy(0x1800, dst, BYTES, 1));
        let lent = LentMemory::with_rom(&memory, |region| region.start_addr() == GuestAddress(0x1000));
        assert_eq!(run(&mut lent.expect("it has two regions"), 0x1000), fault);
        assert_eq!(get(&memory, dst.into(), 1), [stored]);
    }
}

#[test]
fn channels_run_over_guest_memory() {
    let memory = ram_of(&[(0x1000, 0x1000), (0x2000, 0x1000), (0x8000, 0x1000)]);
    let bytes = numbers(0x100);
    put(&memory, 0x1000, &copy(0x1F80, 0x8400, BURSTS, 1));
    put(&memory, 0x1F80, &bytes);
    clean(&memory);
    let mut lent = LentMemory::new(&memory).expect("it has three regions");
    let mut channel = Channel::open().expect("there is memory");
    assert_eq!(lent.step_channel(&mut channel, &mut 0, 1).err(), Some(Error::NoProgram));
    lent.load_from(&mut channel, 0x1000);
    let steps = lent.step_channel(&mut channel, &mut 0, 100).expect("it has a program");
    assert_eq!((steps.last, steps.written), (ChannelStep::Ended, Segment::new(0x8400, 0x100)));
    assert_eq!((get(&memory, 0x8400, 0x100), dirty_pages(&memory)), (bytes, vec![0x8000]));
    lent.load_from(&mut channel, 0x3000);
    let steps = lent.step_channel(&mut channel, &mut 0, 100).expect("it has a program");
    assert_eq!(steps.last, ChannelStep::Fault { fault: Fault::InstrFetchErr });
}

#[test]
fn a_memory_without_bitmap_is_lent_as_well() {
    let memory = GuestMemoryMmap::<()>::from_ranges(&[(GuestAddress(0x1000), 0x1000)]).expect("the range is one");
    put(&memory, 0x1000, &copy(0x1800, 0x1900, BYTES, 3));
    put(&memory, 0x1800, &[1, 2, 3, 4]);
    assert_eq!(run(&mut LentMemory::new(&memory).expect("it has a region"), 0x1000), 0);
    assert_eq!(get(&memory, 0x1900, 4), [1, 2, 3, 0]);
}

#[test]
fn a_processor_may_write_what_is_copied() {
    let memory = ram_of(&[(0x1000, 0x1000), (0x1_0000, 0x1_0000), (0x8_0000, 0x1_0000)]);
    put(&memory, 0x1000, &copy(0x1_0000, 0x8_0000, BURSTS, 250));
    let len = 250 * 256;
    let copied = || {
        assert_eq!(run(&mut LentMemory::new(&memory).expect("it has three regions"), 0x1000), 0);
        get(&memory, 0x8_0000, len)
    };
    thread::scope(|scope| {
        let write_both = || [0x55, 0xAA].into_iter().for_each(|byte| put(&memory, 0x1_0000, &vec![byte; len]));
        let processor = scope.spawn(move || (0..20_000).for_each(|_| write_both()));
        while !processor.is_finished() {
            assert!(copied().iter().all(|byte| [0, 0x55, 0xAA].contains(byte)));
        }
    });
    assert_eq!(copied(), vec![0xAA; len]);
    assert_eq!(get(&memory, 0x8_0000 + len as u64, 256), [0; 256]);
}
