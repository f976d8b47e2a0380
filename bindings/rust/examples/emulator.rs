//! A copy from submit to finish, and then a device in the loop of an emulator: a guest's register writes submit copies,
//! the main loop steps them, and the guest polls for completion. It prints the text of examples/c/example.txt, as the
//! example in C does.

use dma330::{Controller, Error, Events, Segment, Status, Step, TransferResult};

fn print_memory(controller: &mut Controller, addr: u32, count: usize) -> Result<(), Error> {
    let mut bytes = vec![0; count];
    controller.read(addr, &mut bytes)?;
    let digits: String = bytes.iter().map(|byte| format!(" {byte:02X}")).collect();
    println!("read 0x{addr:08X}{digits}");
    Ok(())
}

fn copy_three_bytes() -> Result<(), Error> {
    let mut controller = Controller::open(64, 1)?;
    controller.write(0x10, &[0xAA, 0xBB, 0xCC])?;
    let cookie = controller.submit(0, &[Segment::new(0x10, 3)], &[Segment::new(0x20, 3)], Events::default())?;
    controller.issue(0)?;
    while controller.status(0, cookie) == Status::InProgress {
        controller.step(0, 5)?;
    }
    if let Some(outcome) = controller.result(0, cookie) {
        let result = if outcome.result == TransferResult::NoError { "NoError" } else { "with an error" };
        println!("copy finished {cookie} {result} residue {}", outcome.residue);
    }
    print_memory(&mut controller, 0x1F, 5)
}

// ---- a device: a controller behind registers, a block of them for each channel ----

const CHANNELS: u8 = 2;
const STEPS_OF_A_TURN: u32 = 4;

/// The registers of a channel. A write to START submits the copy that the others describe.
#[derive(Clone, Copy, Default)]
struct Registers {
    src: u32,
    dst: u32,
    len: u32,
    events: Events,
}

/// What a guest writes to a channel's registers.
#[derive(Clone, Copy)]
enum Write {
    Src(u32),
    Dst(u32),
    Len(u32),
    Wait(u8),
    Signal(u8),
    Start,
}

/// A channel as its guest sees it.
#[derive(Default)]
struct Channel {
    registers: Registers,
    /// The last cookie, 0 for none.
    cookie: u32,
    /// Why the last start failed, for the guest to read.
    error: Option<Error>,
    waits: bool,
}

struct Device {
    controller: Controller,
    channels: [Channel; CHANNELS as usize],
}

impl Device {
    fn new() -> Result<Device, Error> {
        Ok(Device { controller: Controller::open(0x400, CHANNELS)?, channels: Default::default() })
    }

    fn write(&mut self, number: u8, write: Write) {
        let channel = &mut self.channels[usize::from(number)];
        let registers = &mut channel.registers;
        match write {
            Write::Src(addr) => registers.src = addr,
            Write::Dst(addr) => registers.dst = addr,
            Write::Len(len) => registers.len = len,
            Write::Wait(event) => registers.events.wait = Some(event),
            Write::Signal(event) => registers.events.signal = Some(event),
            // A guest's mistake is not an error of the emulator: the device keeps it for the guest to read.
            Write::Start => match start(&mut self.controller, number, *registers) {
                Ok(cookie) => channel.cookie = cookie,
                Err(error) => channel.error = Some(error),
            },
        }
    }

    fn is_complete(&self, number: u8) -> bool {
        self.controller.status(number, self.channels[usize::from(number)].cookie) == Status::Complete
    }

    // Takes some steps of each channel: the device's part of a round of the main loop.
    fn turn(&mut self) -> Result<(), Error> {
        for (number, channel) in (0..).zip(&mut self.channels) {
            let last = self.controller.step(number, STEPS_OF_A_TURN)?.last;
            match last {
                Some(Step::Waiting { event }) if !channel.waits => println!("channel {number} waits for event {event}"),
                Some(Step::Finished { cookie, .. }) => println!("channel {number} finished cookie {cookie}"),
                _ => {}
            }
            channel.waits = matches!(last, Some(Step::Waiting { .. }));
        }
        Ok(())
    }
}

fn start(controller: &mut Controller, number: u8, registers: Registers) -> Result<u32, Error> {
    let Registers { src, dst, len, events } = registers;
    let cookie = controller.submit(number, &[Segment::new(src, len)], &[Segment::new(dst, len)], events)?;
    controller.issue(number)?;
    Ok(cookie)
}

// ---- a guest: a message goes to a mailbox, and a doorbell rings after it ----

enum Instruction {
    Store(u32, u8),
    Set(u8, Write),
    Poll(u8),
}

use Instruction::{Poll, Set, Store};

const GUEST: [Instruction; 14] = [
    Store(0x100, 0x0A),
    Store(0x101, 0x0B),
    Store(0x180, 0x01),
    // the doorbell is submitted first, and waits for event 3
    Set(1, Write::Src(0x180)),
    Set(1, Write::Dst(0x300)),
    Set(1, Write::Len(1)),
    Set(1, Write::Wait(3)),
    Set(1, Write::Start),
    // the message signals event 3 when all of its bytes are stored
    Set(0, Write::Src(0x100)),
    Set(0, Write::Dst(0x200)),
    Set(0, Write::Len(2)),
    Set(0, Write::Signal(3)),
    Set(0, Write::Start),
    Poll(1),
];

// Executes one instruction, and returns whether it is done.
fn execute(device: &mut Device, next: &Instruction) -> Result<bool, Error> {
    match *next {
        Store(addr, byte) => device.controller.write(addr, &[byte])?,
        Set(channel, write) => device.write(channel, write),
        Poll(channel) => return Ok(device.is_complete(channel)),
    }
    Ok(true)
}

fn main() -> Result<(), Error> {
    copy_three_bytes()?;
    let mut device = Device::new()?;
    for next in &GUEST {
        while !execute(&mut device, next)? {
            device.turn()?;
        }
        device.turn()?;
    }
    assert!(device.channels.iter().all(|channel| channel.error.is_none()));
    print_memory(&mut device.controller, 0x200, 2)?;
    print_memory(&mut device.controller, 0x300, 1)
}
