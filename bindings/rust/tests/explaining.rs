//! Explanations whose lists are longer than those of a first call, and of what DMASTZ sets to 0.

use dma330::{assemble, explain, Bus, BusWidth, Cause, Device, DeviceConfig, Error, Event, EventKind};
use dma330::{Region, Registers, Repeated, Revision, Segment, Start};

#[test]
fn long_lists_are_whole() -> Result<(), Error> {
    let places = |base: u32| (0..300).map(move |n| base + 32 * n);
    let copies = places(0x1000).zip(places(0x8000));
    let lines = copies.map(|(src, dst)| format!("DMAMOV SAR 0x{src:08X}\nDMAMOV DAR 0x{dst:08X}\nDMALD\nDMAST\n"));
    let text = format!("DMAMOV CCR 0x00014005\n{}{}DMAEND", lines.collect::<String>(), "DMASEV 7\n".repeat(100));
    let found = explain(&assemble(&text)?, Bus::Channel, Start::default(), 2000)?;
    assert!(found.src.into_iter().eq(places(0x1000).map(|addr| Repeated { addr, len: 4, times: 1 })));
    assert!(found.dst.into_iter().eq(places(0x8000).map(|addr| Segment::new(addr, 4))));
    assert_eq!(found.events, [Event { kind: EventKind::Signals, event: 7, copied: 1200, cleared: 0 }; 100]);
    assert_eq!((found.copied, found.cleared, found.steps), (1200, 0, 1302));
    Ok(())
}

// Returns the bytes of a program that sets 4 bytes to 0 at each of these addresses: a DMAMOV CCR, then a DMAMOV DAR and a
// DMASTZ for each.
fn clears(places: impl Iterator<Item = u32>) -> Vec<u8> {
    let mut program = vec![0xBC, 1, 0x05, 0x40, 0x01, 0x00];
    for place in places {
        program.extend([0xBC, 2]);
        program.extend(place.to_le_bytes());
        program.push(0x0C);
    }
    program
}

#[test]
fn long_lists_of_zeros_are_whole() -> Result<(), Error> {
    let places = (0..300).map(|n| 0x8000 + 32 * n);
    let bus = Bus::Device(BusWidth::Bits32);
    let program = [clears(places.clone()), [0x34, 7 << 3].repeat(100), vec![0x00]].concat();
    let found = explain(&program, bus, Start::default(), 2000)?;
    assert_eq!(Ok(found.clone()), explain(&program, bus, Registers::default().into(), 2000));
    assert!(found.zeros.into_iter().eq(places.map(|addr| Segment::new(addr, 4))));
    assert_eq!(found.events, [Event { kind: EventKind::Signals, event: 7, copied: 0, cleared: 1200 }; 100]);
    assert_eq!((found.src, found.dst), (vec![], vec![]));
    assert_eq!((found.copied, found.cleared, found.steps), (0, 1200, 702));
    Ok(())
}

#[test]
fn a_device_explains_zeros() -> Result<(), Error> {
    let (bus, revision) = (BusWidth::Bits64, Revision::R1p2);
    let config = DeviceConfig { channels: 1, events: 16, nonsecure: false, bus, lines: 64, revision };
    let mut device = Device::open(config)?;
    assert_eq!(device.explain(0, 100), Err(Error::NoProgram));
    let mut ram = [clears([0x9000, 0x9004].into_iter()), vec![0x00]].concat();
    // DMAGO of channel 0, by DBGINST0, DBGINST1 and DBGCMD
    for (offset, value) in [(0xD08, 0x00A0_0000), (0xD0C, 0x8000_0000), (0xD04, 0)] {
        device.write(offset, value, &[Region::new(0x8000_0000, &mut ram)])?;
    }
    let found = device.explain(0, 100)?;
    assert_eq!((found.zeros, found.copied, found.cleared, found.steps), (vec![Segment::new(0x9000, 8)], 0, 8, 6));
    Ok(())
}

// DMALD, DMAST and DMAEND use all registers but the loop counters.
#[test]
fn unknown_registers_are_refused() -> Result<(), Error> {
    let known = Start { sar: Some(0x1000), dar: Some(0x2000), ccr: Some(0x0001_4005), ..Start::default() };
    let found = |start| explain(&[0x04, 0x08, 0x00], Bus::Device(BusWidth::Bits32), start, 100);
    let refused = |cause, pc, steps| Err(Error::Unexplained { cause, pc, steps });
    assert_eq!(found(known)?.dst, [Segment::new(0x2000, 4)]);
    assert_eq!(found(Start { sar: None, ..known }), refused(Cause::UnsetSar, 0, 0));
    assert_eq!(found(Start { ccr: None, ..known }), refused(Cause::UnsetCcr, 0, 0));
    assert_eq!(found(Start { dar: None, ..known }), refused(Cause::UnsetDar, 1, 1));
    assert_eq!(found(Start { ccr: Some(1 << 28), ..known }), Err(Error::BadConfig));
    Ok(())
}
