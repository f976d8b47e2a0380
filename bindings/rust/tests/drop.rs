//! A dropped controller, channel or device is closed: its memory goes back to the heap.

use dma330::{BusWidth, Channel, Controller, Device, DeviceConfig, Error, Revision};
use std::fs;
use std::sync::Mutex;

const MIB: usize = 1 << 20;

/// Returns the size of this process's pages in memory, in KiB, as Linux counts them.
fn resident() -> usize {
    let status = fs::read_to_string("/proc/self/status").expect("Linux reports on a process");
    let line = status.lines().find(|line| line.starts_with("VmRSS:")).expect("its pages");
    line.split_whitespace().nth(1).and_then(|count| count.parse().ok()).expect("a number of KiB")
}

// Each controller holds a mebibyte in its memory, and another one in its history.
fn open_write_and_drop(times: usize) -> Result<(), Error> {
    let bytes = vec![7; MIB];
    for _ in 0..times {
        Controller::open(MIB as u32, 1)?.write(0, &bytes)?;
    }
    Ok(())
}

// Each test measures the whole process, so only one may run at a time.
static ALONE: Mutex<()> = Mutex::new(());

#[test]
fn a_dropped_controller_gives_its_memory_back() -> Result<(), Error> {
    let _alone = ALONE.lock();
    open_write_and_drop(4)?;
    let before = resident();
    open_write_and_drop(200)?;
    let grown = resident().saturating_sub(before);
    assert!(grown < 40 * MIB / 1024, "200 controllers were dropped, and {grown} KiB are held");
    Ok(())
}

// Each channel holds the longest program.
fn open_load_and_drop(times: usize) -> Result<(), Error> {
    for _ in 0..times {
        Channel::open()?.load_program(&[0x18; 8192])?;
    }
    Ok(())
}

#[test]
fn a_dropped_channel_gives_its_memory_back() -> Result<(), Error> {
    let _alone = ALONE.lock();
    open_load_and_drop(100)?;
    let before = resident();
    open_load_and_drop(50_000)?;
    let grown = resident().saturating_sub(before);
    assert!(grown < 40 * MIB / 1024, "50000 channels were dropped, and {grown} KiB are held");
    Ok(())
}

#[test]
fn a_dropped_device_gives_its_memory_back() -> Result<(), Error> {
    let _alone = ALONE.lock();
    let (bus, revision) = (BusWidth::Bits128, Revision::R1p2);
    let config = DeviceConfig { channels: 8, events: 32, nonsecure: false, bus, lines: 128, revision };
    let open_and_drop = |times| (0..times).try_for_each(|_| Device::open(config).map(drop));
    open_and_drop(100)?;
    let before = resident();
    open_and_drop(10_000)?;
    let grown = resident().saturating_sub(before);
    assert!(grown < 40 * MIB / 1024, "10000 devices were dropped, and {grown} KiB are held");
    Ok(())
}
