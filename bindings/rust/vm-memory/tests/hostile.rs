//! Guests that write anything anywhere, over memory of any form. Whatever they do, no call panics, and each marks as dirty
//! the bytes that its report has as written, and no others: all in memory that it was lent for writing, and among them
//! all that have changed.

use dma330::{BusWidth, Device, DeviceConfig, Error, Revision, Segment};
use dma330_vm_memory::LentMemory;
use std::collections::BTreeSet;
use vm_memory::bitmap::{AtomicBitmap, Bitmap};
use vm_memory::mmap::MmapRegionBuilder;
use vm_memory::{Address, Bytes, GuestAddress, GuestMemory, GuestMemoryMmap, GuestMemoryRegion, GuestRegionMmap};

type Ram = GuestMemoryMmap<AtomicBitmap>;

// Random numbers by Marsaglia's xorshift. The state is never 0.
struct Random(u32);

impl Random {
    fn below(&mut self, bound: u32) -> u32 {
        self.0 ^= self.0 << 13;
        self.0 ^= self.0 >> 17;
        self.0 ^= self.0 << 5;
        self.0 % bound
    }

    fn one_of<T: Copy>(&mut self, values: &[T]) -> T {
        values[self.below(values.len() as u32) as usize]
    }
}

// ---- memory ----

// A region: its first address, its length, and whether its mapping, or only the device, can't write it.
struct Part {
    base: u64,
    len: usize,
    is_protected: bool,
    is_rom: bool,
}

impl Part {
    fn end(&self) -> u64 {
        self.base + self.len as u64
    }

    // Returns the addresses at which the region is lent.
    fn lent(&self) -> std::ops::Range<u64> {
        self.base..self.end().min(u32::MAX.into())
    }

    fn can_be_written(&self, addr: u64) -> bool {
        self.lent().contains(&addr) && !self.is_protected && !self.is_rom
    }
}

// Returns the parts of a memory: some from each of four addresses on, of which the third ends above 4 GiB.
fn any_parts(random: &mut Random) -> Vec<Part> {
    let most = random.one_of(&[3, 8, 16, 40]);
    let mut parts = Vec::new();
    for first in [0, 0x8000_0000, 0xFFFF_F000, 0x1_8000_0000] {
        let mut base = first;
        for _ in 0..=random.below(most) {
            base += random.one_of(&[0, 0, 1, 3, 0x40]);
            let len = random.one_of(&[1, 2, 16, 0xFF, 0x333, 0x800]);
            let (is_protected, is_rom) = (random.below(12) == 0, random.below(12) == 0);
            parts.push(Part { base, len, is_protected, is_rom });
            base += len as u64;
        }
    }
    parts
}

// Returns the memory of some parts, with a bit of the bitmap for each byte.
fn memory_of(parts: &[Part]) -> Ram {
    let region_of = |part: &Part| {
        let bitmap = AtomicBitmap::new(part.len, 1);
        let prot = libc::PROT_READ | if part.is_protected { 0 } else { libc::PROT_WRITE };
        let mapping = MmapRegionBuilder::new_with_bitmap(part.len, bitmap).with_mmap_prot(prot).build();
        GuestRegionMmap::new(mapping.expect("it is mapped"), GuestAddress(part.base)).expect("it ends below 2^64")
    };
    Ram::from_regions(parts.iter().map(region_of).collect()).expect("they rise")
}

// Returns the bytes of each part.
fn bytes_of(memory: &Ram, parts: &[Part]) -> Vec<Vec<u8>> {
    let bytes_in = |part: &Part| {
        let mut bytes = vec![0; part.len];
        memory.read_slice(&mut bytes, GuestAddress(part.base)).expect("the memory has it");
        bytes
    };
    parts.iter().map(bytes_in).collect()
}

// Writes what lies in parts that the processor can write.
fn put(memory: &Ram, parts: &[Part], addr: u32, bytes: &[u8]) {
    for (addr, byte) in (u64::from(addr)..).zip(bytes) {
        if parts.iter().any(|part| !part.is_protected && part.base <= addr && addr < part.end()) {
            memory.write_obj(*byte, GuestAddress(addr)).expect("the memory has it");
        }
    }
}

// Returns the addresses of the dirty bytes.
fn dirty_bytes(memory: &Ram) -> BTreeSet<u64> {
    let mut dirty = BTreeSet::new();
    for region in memory.iter() {
        let base = region.start_addr().raw_value();
        dirty.extend((0..region.len()).filter(|at| region.bitmap().dirty_at(*at as usize)).map(|at| base + at));
    }
    dirty
}

// ---- the guest ----

// Returns an address in the memory, mostly in a larger part, or near a border, or any address.
fn any_address(random: &mut Random, parts: &[Part]) -> u32 {
    let mut any_part = || &parts[random.below(parts.len() as u32) as usize];
    let (part, larger) = (any_part(), [any_part(), any_part(), any_part()].into_iter().max_by_key(|part| part.len));
    match (random.below(8), larger) {
        (1..=6, Some(larger)) => (larger.base as u32).wrapping_add(random.below(larger.len as u32)),
        (7, _) => (part.end() as u32).wrapping_add(random.below(64)).wrapping_sub(48),
        _ => random.below(u32::MAX),
    }
}

// Returns a control word for short bursts at rising addresses, or at times any.
fn any_control(random: &mut Random) -> u32 {
    let (size, beats) = (random.below(3), random.one_of(&[0, 1, 3, 15]));
    match random.below(12) {
        0 => random.below(u32::MAX),
        _ => 1 | size << 1 | beats << 4 | 1 << 14 | size << 15 | beats << 18,
    }
}

fn put_move(code: &mut Vec<u8>, register: u8, value: u32) {
    code.extend([0xBC, register]);
    code.extend(value.to_le_bytes());
}

// Writes some instructions: mostly valid ones, among them stores behind a DMASEV, which may go to another place.
fn any_instructions(random: &mut Random, parts: &[Part], code: &mut Vec<u8>) {
    let (n, event) = (random.below(256) as u8, random.one_of(&[0, 0, 0, (random.0 % 33) as u8]) << 3);
    match random.below(16) {
        0 => put_move(code, 0, any_address(random, parts)),
        1 => put_move(code, 2, any_address(random, parts)),
        2 => put_move(code, 1, any_control(random)),
        3 => code.extend([0x20 | (n & 2), n >> 4]),
        4 => code.extend([0x38 | (n & 4), n >> 3]),
        5..=8 => {
            code.extend([0x04, 0x08]);
            put_move(code, 2, any_address(random, parts));
            code.extend([0x04, 0x34, event, 0x08]);
        }
        9 => code.extend([0x36, event]),
        10 => code.push(n),
        11 => code.push(if n < 32 { 0x00 } else { 0x18 }),
        _ => code.extend([0x04, 0x08]),
    }
}

fn any_program(random: &mut Random, parts: &[Part]) -> Vec<u8> {
    let mut code = Vec::new();
    if random.below(8) > 0 {
        put_move(&mut code, 0, any_address(random, parts));
        put_move(&mut code, 2, any_address(random, parts));
        put_move(&mut code, 1, any_control(random));
    }
    for _ in 0..random.below(12) {
        any_instructions(random, parts, &mut code);
    }
    code
}

fn any_config(random: &mut Random) -> DeviceConfig {
    let channels = 1 + random.below(8) as u8;
    let bus = random.one_of(&[BusWidth::Bits32, BusWidth::Bits64, BusWidth::Bits128]);
    let events = 1 + random.below(32) as u8;
    DeviceConfig { channels, events, nonsecure: false, bus, lines: channels.into(), revision: Revision::R1p2 }
}

// ---- the test ----

struct Machine<'a> {
    parts: &'a [Part],
    memory: &'a Ram,
    lent: LentMemory<'a, AtomicBitmap>,
    device: Device,
}

impl Machine<'_> {
    // Does what a guest can do: writes a program anywhere, and writes a register, or makes a thread execute anything, or
    // kills the manager and a channel and then starts that.
    fn act(&mut self, random: &mut Random, channel: u32) {
        let at = any_address(random, self.parts);
        put(self.memory, self.parts, at, &any_program(random, self.parts));
        let kill = 0x01_0001 | channel << 8;
        let writes = match random.below(8) {
            0 => vec![(random.below(0x1100), at)],
            1 => vec![(0x020, random.below(u32::MAX) | 1)],
            2 => vec![(0xD08, random.below(u32::MAX)), (0xD0C, at), (0xD04, 0)],
            3 => vec![(0xD08, kill), (0xD04, 0)],
            _ => [0x01_0000, kill, 0xA0_0000 | channel << 24]
                .into_iter()
                .flat_map(|instruction| [(0xD08, instruction), (0xD0C, at), (0xD04, 0)])
                .collect(),
        };
        writes.into_iter().for_each(|(offset, value)| self.lent.write(&mut self.device, offset, value));
    }

    // Takes a turn and checks what it did. Returns to how many parts it wrote.
    fn check_turn(&mut self, channel: u8, most: u32) -> usize {
        self.memory.iter().for_each(|region| region.bitmap().reset());
        let before = bytes_of(self.memory, self.parts);
        let written: Vec<Segment> = if most % 2 == 0 {
            self.lent.step_rows(&mut self.device, channel, most).ranges().collect()
        } else {
            vec![self.lent.step(&mut self.device, channel, most).written]
        };
        let dirty = dirty_bytes(self.memory);
        let addrs = |it: &Segment| u64::from(it.addr)..u64::from(it.addr) + u64::from(it.len);
        let is_written = written.iter().flat_map(addrs).all(|addr| dirty.contains(&addr));
        let count: usize = written.iter().map(|it| it.len as usize).sum();
        assert!(is_written && dirty.len() == count, "{written:?}, but {} bytes are dirty", dirty.len());
        assert!(dirty.iter().all(|addr| self.parts.iter().any(|part| part.can_be_written(*addr))), "{written:?}");
        for ((part, old), new) in self.parts.iter().zip(before).zip(bytes_of(self.memory, self.parts)) {
            let is_marked = |at: usize| dirty.contains(&(part.base + at as u64));
            assert!(old == new || (0..part.len).all(|at| old[at] == new[at] || is_marked(at)), "more than {written:?}");
        }
        self.parts.iter().filter(|part| dirty.range(part.base..part.end()).next().is_some()).count()
    }
}

// Returns how many turns wrote to a part, and how many to several.
fn outlives_anything(random: &mut Random) -> (usize, usize) {
    let parts = any_parts(random);
    let memory = memory_of(&parts);
    let is_rom = |region: &GuestRegionMmap<AtomicBitmap>| {
        parts.iter().any(|part| part.is_rom && part.base == region.start_addr().raw_value())
    };
    let is_lendable = parts.iter().filter(|part| !part.lent().is_empty()).count() <= 64;
    let lent = LentMemory::with_rom(&memory, is_rom);
    assert_eq!(lent.as_ref().err(), if is_lendable { None } else { Some(&Error::BadRegions) });
    let Ok(lent) = lent else { return (0, 0) };
    let config = any_config(random);
    let device = Device::open(config).expect("there is memory");
    let mut machine = Machine { parts: &parts, memory: &memory, lent, device };
    let (mut writing, mut crossing) = (0, 0);
    for _ in 0..60 {
        let channels = u32::from(config.channels) + random.one_of(&[0, 0, 0, 1]);
        let channel = random.below(channels);
        machine.act(random, channel);
        for _ in 0..1 + random.below(2) {
            let written = machine.check_turn(channel as u8, random.one_of(&[1, 7, 100, 100]));
            writing += usize::from(written > 0);
            crossing += usize::from(written > 1);
        }
    }
    (writing, crossing)
}

#[test]
fn no_guest_marks_what_it_may_not_write() {
    let (mut writing, mut crossing) = (0, 0);
    for seed in 1..=100u32 {
        let counts = outlives_anything(&mut Random(seed.wrapping_mul(0x9E37_79B1)));
        writing += counts.0;
        crossing += counts.1;
    }
    assert!(writing > 100 && crossing > 0, "{writing} turns wrote, {crossing} of them to several parts");
}
