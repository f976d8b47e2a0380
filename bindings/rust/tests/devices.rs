//! Tests of `Device`: tests/c has the tests of its registers. Here are those of the crate's own code: each call
//! gives what the library's does.

use dma330::{assemble, BusWidth, Device, DeviceConfig, DeviceRows, DeviceTurn, Error, Region, Revision, Segment};
use std::thread;

const RAM: u32 = 0x8000_0000;

const CONFIG: DeviceConfig =
    DeviceConfig { channels: 2, events: 8, nonsecure: false, bus: BusWidth::Bits128, lines: 32, revision: Revision::R1p2 };

// Starts a program at the start of RAM on channel 1.
fn start(device: &mut Device, ram: &mut [u8], text: &str) -> Result<(), Error> {
    let program = assemble(text)?;
    ram[..program.len()].copy_from_slice(&program);
    let lent = [Region::new(RAM, ram)];
    for (offset, value) in [(0xD08, 0x01A0_0000), (0xD0C, RAM), (0xD04, 0)] {
        device.write(offset, value, &lent)?;
    }
    Ok(())
}

const COPY: &str = "DMAMOV SAR 0x80000100\nDMAMOV DAR 0x80000200\nDMAMOV CCR 0x00014005\nDMALD\nDMAST\nDMASEV 3\nDMAEND";

#[test]
fn a_device_has_its_configuration() -> Result<(), Error> {
    let crd = |device: &Device| (device.read(0xE14) & 7, device.read(0xE14) >> 20);
    for (bus, code) in [(BusWidth::Bits32, 2), (BusWidth::Bits64, 3), (BusWidth::Bits128, 4)] {
        assert_eq!(crd(&Device::open(DeviceConfig { bus, ..CONFIG })?), (code, 31));
    }
    let revisions = [Revision::R0p0, Revision::R1p0, Revision::R1p1, Revision::R1p2];
    for (revision, code) in revisions.into_iter().zip(0..) {
        assert_eq!(Device::open(DeviceConfig { revision, ..CONFIG })?.read(0xFE8), code << 4 | 4);
    }
    let device = Device::open(DeviceConfig { nonsecure: true, ..CONFIG })?;
    assert_eq!((device.read(0xE00), device.read(0x000)), (1 << 2 | 1 << 4 | 7 << 17, 1 << 9));
    Ok(())
}

#[test]
fn any_number_of_lines_that_crd_has_room_for() -> Result<(), Error> {
    for lines in [1, 33, 512, 1024] {
        assert_eq!(Device::open(DeviceConfig { lines, ..CONFIG })?.read(0xE14) >> 20, u32::from(lines) - 1);
    }
    Ok(())
}

#[test]
fn no_device_is_outside_the_limits() {
    for config in [
        DeviceConfig { channels: 0, ..CONFIG },
        DeviceConfig { channels: 9, ..CONFIG },
        DeviceConfig { events: 33, ..CONFIG },
        DeviceConfig { lines: 0, ..CONFIG },
        DeviceConfig { lines: 1025, ..CONFIG },
    ] {
        assert_eq!(Device::open(config).err(), Some(Error::BadConfig), "{config:?}");
    }
}

#[test]
fn turns_report_what_they_did() -> Result<(), Error> {
    let mut ram = vec![7; 0x1000];
    let mut device = Device::open(CONFIG)?;
    device.write(0x020, 1 << 3, &[])?;
    start(&mut device, &mut ram, COPY)?;
    let mut lent = [Region::new(RAM, &mut ram)];
    let idle = DeviceTurn { written: Segment::default(), taken: 0, lines_changed: false, can_step: true };
    assert_eq!(device.step(0, 100, &mut lent)?, idle);
    assert_eq!(device.step(1, 4, &mut lent)?, DeviceTurn { taken: 4, ..idle });
    let written = Segment::new(RAM + 0x200, 4);
    assert_eq!(device.step(1, 100, &mut lent)?, DeviceTurn { written, taken: 3, lines_changed: true, can_step: false });
    assert_eq!((device.irqs(), device.irq_abort(), device.can_step()), (1 << 3, false, false));
    device.write(0x02C, 1 << 3, &lent)?;
    assert_eq!(device.irqs(), 0);
    start(&mut device, &mut ram, "DMAST")?;
    let turn = device.step(1, 1, &mut [Region::new(RAM, &mut ram)])?;
    assert_eq!((turn.lines_changed, device.irq_abort(), device.read(0x034)), (true, true, 1 << 1));
    device.reset();
    assert_eq!((device.irq_abort(), device.read(0x020), device.read(0x034)), (false, 0, 0));
    Ok(())
}

// The program stores to RAM, raises an interrupt, and stores to far RAM, behind ROM and addresses that aren't lent. Each
// turn's range has the bytes that were written in this turn, and no others: the second store is left to the next turn.
#[test]
fn a_turn_writes_each_byte_of_its_range() -> Result<(), Error> {
    const FAR: u32 = 0xFFFC_0000;
    let text = "DMAMOV SAR 0x80000100\nDMAMOV CCR 0x00014005\nDMAMOV DAR 0x80000FFC\nDMALD\nDMAST\n\
                DMAMOV DAR 0xFFFC0000\nDMALD\nDMASEV 3\nDMAST\nDMAEND";
    for most in 1..=12 {
        let (mut ram, mut rom, mut far) = (vec![7; 0x1000], vec![8; 0x1000], vec![9; 0x100]);
        ram[0x100..0x108].copy_from_slice(&[1, 2, 3, 4, 5, 6, 7, 8]);
        let mut device = Device::open(CONFIG)?;
        device.write(0x020, 1 << 3, &[])?;
        start(&mut device, &mut ram, text)?;
        let mut ranges = Vec::new();
        while device.can_step() {
            let kept = (ram.clone(), far.clone());
            let mut lent =
                [Region::new(RAM, &mut ram), Region::read_only(RAM + 0x1000, &mut rom), Region::new(FAR, &mut far)];
            let written = device.step(1, most, &mut lent)?.written;
            let is_in = |addr: u32| written.addr <= addr && addr - written.addr < written.len;
            assert!((0..0x1000).all(|n| (kept.0[n as usize] != ram[n as usize]) == is_in(RAM + n)), "{written:?}");
            assert!((0..0x100).all(|n| (kept.1[n as usize] != far[n as usize]) == is_in(FAR + n)), "{written:?}");
            ranges.extend(Some(written).filter(|range| range.len > 0));
        }
        assert_eq!(ranges, [Segment::new(RAM + 0xFFC, 4), Segment::new(FAR, 4)], "{most} steps a turn");
        assert_eq!((&ram[0xFFC..], &far[..4]), (&[1, 2, 3, 4][..], &[5, 6, 7, 8][..]));
        assert_eq!((device.read(0x108), device.irqs(), device.irq_abort()), (0, 1 << 3, false));
    }
    Ok(())
}

#[test]
fn regions_out_of_order_are_refused() -> Result<(), Error> {
    let (mut low, mut high) = ([0; 16], [0; 16]);
    let mut device = Device::open(CONFIG)?;
    let mut lent = [Region::new(RAM + 16, &mut high), Region::new(RAM, &mut low)];
    assert_eq!(device.write(0xD04, 0, &lent), Err(Error::BadRegions));
    assert_eq!(device.step(0, 1, &mut lent), Err(Error::BadRegions));
    assert_eq!(device.read(0x030), 0); // FSRD
    assert_eq!(device.write(0x020, 1, &lent), Ok(()));
    Ok(())
}

#[test]
fn a_saved_device_goes_on_elsewhere() -> Result<(), Error> {
    let mut ram = vec![7; 0x1000];
    ram[0x100..0x104].copy_from_slice(&[1, 2, 3, 4]);
    let mut device = Device::open(CONFIG)?;
    start(&mut device, &mut ram, COPY)?;
    device.step(1, 4, &mut [Region::new(RAM, &mut ram)])?;
    let save = device.save();
    let mut other = Device::open(CONFIG)?;
    other.restore(&save)?;
    assert_eq!(other.save(), save);
    let ended = thread::spawn(move || {
        while other.can_step() {
            other.step(1, 100, &mut [Region::new(RAM, &mut ram)])?;
        }
        Ok::<_, Error>((other.read(0x024), ram))
    });
    let (events, ram) = ended.join().expect("it has ended")?;
    assert_eq!((events, &ram[0x200..0x204]), (1 << 3, &[1, 2, 3, 4][..]));

    let mut stranger = Device::open(DeviceConfig { events: 9, ..CONFIG })?;
    assert_eq!(stranger.restore(&save), Err(Error::OtherDevice));
    device.write(0x020, 5, &[])?;
    assert_eq!(device.restore(&save[1..]), Err(Error::BadSave));
    assert_eq!((device.read(0x020), device.can_step()), (0, false));
    Ok(())
}

#[test]
fn rows_are_turns() -> Result<(), Error> {
    // The registers of COPY, and four rows of four bytes, with pitches of 8 in the source and 16 in the destination.
    let mut program = assemble(COPY)?;
    program.truncate(18);
    program.extend([0x20, 3, 0x04, 0x08, 0x54, 4, 0, 0x56, 12, 0, 0x38, 8, 0]);
    let mut ram: Vec<u8> = (0..=255).cycle().take(0x1000).collect();
    let mut device = Device::open(CONFIG)?;
    start(&mut device, &mut ram, "DMAEND")?;
    ram[..program.len()].copy_from_slice(&program);
    let mut lent = [Region::new(RAM, &mut ram)];
    device.step(1, 1, &mut lent)?;
    device.write(0xD04, 0, &lent)?;
    assert_eq!(device.step_rows(1, 1000, &mut lent)?.ranges().map(|range| range.len).collect::<Vec<u32>>(), [0]);
    let rows = device.step_rows(1, 1000, &mut lent)?;
    let written = Segment { addr: RAM + 0x200, len: 4 };
    let turn = DeviceTurn { written, taken: 5, lines_changed: false, can_step: true };
    assert_eq!(rows, DeviceRows { turn, pitch: 16, count: 3, steps: 5 });
    let addrs: Vec<u32> = rows.ranges().map(|range| range.addr).collect();
    assert_eq!(addrs, [RAM + 0x200, RAM + 0x210, RAM + 0x220]);
    let registers = device.registers(1)?;
    assert_eq!((registers.taken, registers.stored, registers.lc0), (4 + 3 * 5, 12, 0));
    assert_eq!(device.registers(2).err(), Some(Error::NoChannel));
    let end = device.step_rows(1, 1000, &mut lent)?;
    assert_eq!((end.turn.taken, end.turn.can_step), (5 + 1, false));
    assert_eq!((&ram[0x200..0x204], &ram[0x230..0x234]), (&[0, 1, 2, 3][..], &[24, 25, 26, 27][..]));
    Ok(())
}
