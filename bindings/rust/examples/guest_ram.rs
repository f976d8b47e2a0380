//! An emulator lends its guest's RAM to a DMA channel: the guest's driver puts a program into RAM, the channel runs it
//! from there a few steps at a time, and the guest's CPU goes on in the same RAM between the steps. DMASEV raises an
//! interrupt line.

use dma330::{assemble, Channel, ChannelStep, Error, Region};

const RAM_BASE: u32 = 0x8000_0000;
const RAM_SIZE: usize = 1 << 20;

// The addresses of the guest's program, of the message, and of the place that the message is copied to.
const PROGRAM: u32 = 0x8000_1000;
const MESSAGE: u32 = 0x8002_0000;
const MAILBOX: u32 = 0x8003_0000;

// The address of a counter, which the guest's CPU writes while the channel runs.
const COUNTER: u32 = 0x8004_0000;

// How many steps a channel takes in a round of the main loop.
const STEPS_OF_A_ROUND: u32 = 8;

/// 64 bursts of 16 bytes, and an event at the end.
const COPY: &str = "DMAMOV SAR 0x80020000
DMAMOV DAR 0x80030000
DMAMOV CCR 0x000D4035
DMALP 0 64
DMALD
DMAST
DMALPEND 0 2
DMASEV 7
DMAEND";

/// A machine: RAM, a channel that runs a program, event flags, and the interrupt line of each.
struct Machine {
    ram: Vec<u8>,
    channel: Channel,
    flags: u32,
    interrupts: u32,
}

impl Machine {
    fn new() -> Result<Machine, Error> {
        Ok(Machine { ram: vec![0; RAM_SIZE], channel: Channel::open()?, flags: 0, interrupts: 0 })
    }

    fn bytes(&mut self, addr: u32, len: usize) -> &mut [u8] {
        let at = (addr - RAM_BASE) as usize;
        &mut self.ram[at..at + len]
    }

    // Starts the channel at a program in RAM, for the guest. Without a program, the first step fails as on a
    // DMA-330.
    fn go(&mut self, addr: u32) -> Result<(), Error> {
        self.channel.load_from(&[Region::new(RAM_BASE, &mut self.ram)], addr)
    }

    // Takes the channel's steps of a round, and returns what the last one did.
    fn turn(&mut self) -> Result<ChannelStep, Error> {
        let regions = &mut [Region::new(RAM_BASE, &mut self.ram)];
        let steps = self.channel.step(regions, &mut self.flags, STEPS_OF_A_ROUND)?;
        if let ChannelStep::Signalled { event } = steps.last {
            // a DMA-330 has a line for each event that is set up to be an interrupt
            self.flags &= !(1 << event);
            self.interrupts |= 1 << event;
        }
        Ok(steps.last)
    }

    // Executes an instruction of the guest's CPU.
    fn execute(&mut self) {
        let counter = self.bytes(COUNTER, 4);
        let value = u32::from_le_bytes(counter.try_into().expect("four bytes"));
        counter.copy_from_slice(&(value + 1).to_le_bytes());
    }
}

fn main() -> Result<(), Error> {
    let mut machine = Machine::new()?;
    let program = assemble(COPY)?;
    let message: Vec<u8> = (0..1024u32).map(|n| (n % 251) as u8).collect();
    machine.bytes(PROGRAM, program.len()).copy_from_slice(&program);
    machine.bytes(MESSAGE, message.len()).copy_from_slice(&message);
    machine.go(PROGRAM)?;
    while machine.interrupts == 0 {
        machine.execute();
        if let ChannelStep::Fault { fault } = machine.turn()? {
            panic!("the guest's program fails: {fault:?}");
        }
    }
    assert_eq!(machine.turn()?, ChannelStep::Ended);
    assert_eq!(machine.interrupts, 1 << 7);
    assert_eq!(machine.bytes(MAILBOX, message.len()), message);
    // three moves, a loop of 64 rounds of three, the loop's start and DMASEV: 197 steps, eight in a round
    assert_eq!(machine.bytes(COUNTER, 4), 25u32.to_le_bytes());
    println!("interrupt of event 7 after {} instructions of the guest", machine.bytes(COUNTER, 1)[0]);
    Ok(())
}
