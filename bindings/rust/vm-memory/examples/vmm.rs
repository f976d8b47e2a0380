//! A small VMM with a DMA-330: registers by offset and bytes, RAM by `GuestMemoryMmap`, interrupts by a callback, and a
//! thread that lets channels take turns while the guest's processor runs. The guest's driver copies a message. A
//! migration has sent all pages before, and at the end finds those that it must send again.

use dma330::{assemble, BusWidth, Device, DeviceConfig, Revision};
use dma330_vm_memory::LentMemory;
use std::sync::mpsc::{channel, Receiver, Sender};
use std::sync::{Arc, Mutex};
use std::thread;
use vm_memory::bitmap::{AtomicBitmap, Bitmap};
use vm_memory::{Address, Bytes, GuestAddress, GuestMemory, GuestMemoryMmap, GuestMemoryRegion};

type Ram = GuestMemoryMmap<AtomicBitmap>;

const DMA_BASE: u64 = 0xF800_3000;
const CHANNELS: u8 = 8;

// Offsets of registers: interrupts are enabled, shown and cleared, and a DMAGO is executed by the debug registers.
const INTEN: u64 = 0x020;
const INTMIS: u64 = 0x028;
const INTCLR: u64 = 0x02C;
const DBGCMD: u64 = 0xD04;
const DBGINST0: u64 = 0xD08;
const DBGINST1: u64 = 0xD0C;

// Where the guest has its program, the message, the place to copy it to, which crosses two regions, and a counter.
const PROGRAM: GuestAddress = GuestAddress(0x8000_0000);
const MESSAGE: GuestAddress = GuestAddress(0x8000_2000);
const MAILBOX: GuestAddress = GuestAddress(0x8000_FA00);
const COUNTER: GuestAddress = GuestAddress(0x8001_8000);

/// 64 bursts of 64 bytes, and an interrupt at the end.
const COPY: &str = "DMAMOV SAR 0x80002000\nDMAMOV DAR 0x8000FA00\nDMAMOV CCR 0x003D40F5
DMALP 0 64\nDMALD\nDMAST\nDMALPEND 0 2\nDMASEV 5\nDMAEND";

/// A DMA-330 over the guest's RAM. Its accesses are those of the trait `MutDeviceMmio` of the crate vm-device, where an
/// address has a type of its own. The callback sets the levels of irq\[31:0\] and of irq_abort.
struct Dma {
    device: Device,
    ram: Arc<Ram>,
    set_lines: Box<dyn FnMut(u32, bool) + Send>,
}

impl Dma {
    /// Lets each channel take a turn, and returns whether one of them can go on.
    fn round(&mut self) -> bool {
        let mut lent = LentMemory::new(&self.ram).expect("RAM has few regions");
        for channel in 0..CHANNELS {
            if lent.step(&mut self.device, channel, 4096).lines_changed {
                (self.set_lines)(self.device.irqs(), self.device.irq_abort());
            }
        }
        self.device.can_step()
    }

    // Reads a register, which is a word. Anything else reads as zeros.
    fn mmio_read(&mut self, _base: u64, offset: u64, data: &mut [u8]) {
        match (u32::try_from(offset), data.len()) {
            (Ok(offset), 4) => data.copy_from_slice(&self.device.read(offset).to_le_bytes()),
            _ => data.fill(0),
        }
    }

    // Writes a register, which is a word. Other writes are ignored.
    fn mmio_write(&mut self, _base: u64, offset: u64, data: &[u8]) {
        let (Ok(offset), Ok(word)) = (u32::try_from(offset), data.try_into()) else { return };
        let lent = LentMemory::new(&self.ram).expect("RAM has few regions");
        lent.write(&mut self.device, offset, u32::from_le_bytes(word));
        (self.set_lines)(self.device.irqs(), self.device.irq_abort());
    }
}

/// The guest's processor. Its loads and stores of registers exit to the VMM, which wakes the device's thread after a
/// store.
struct Processor {
    ram: Arc<Ram>,
    dma: Arc<Mutex<Dma>>,
    wake: Sender<()>,
    lines: Receiver<(u32, bool)>,
}

impl Processor {
    fn load(&self, offset: u64) -> u32 {
        let mut data = [0; 4];
        self.dma.lock().expect("no panic").mmio_read(DMA_BASE, offset, &mut data);
        u32::from_le_bytes(data)
    }

    fn store(&self, offset: u64, value: u32) {
        self.dma.lock().expect("no panic").mmio_write(DMA_BASE, offset, &value.to_le_bytes());
        self.wake.send(()).expect("the device's thread waits");
    }

    // Counts in RAM, once or more, until the interrupt lines have these levels.
    fn wait_for(&self, irqs: u32) {
        loop {
            let count: u64 = self.ram.read_obj(COUNTER).expect("RAM");
            self.ram.write_obj(count + 1, COUNTER).expect("RAM");
            for (levels, irq_abort) in self.lines.try_iter() {
                assert!(!irq_abort, "a channel fails");
                if levels == irqs {
                    return;
                }
            }
        }
    }

    // The guest's driver: starts the program by a DMAGO of channel 1, waits for its interrupt, and clears it.
    fn copy(&self) {
        for (offset, value) in [(INTEN, 1 << 5), (DBGINST0, 0x01A0_0000), (DBGINST1, 0x8000_0000), (DBGCMD, 0)] {
            self.store(offset, value);
        }
        self.wait_for(1 << 5);
        assert_eq!(self.load(INTMIS), 1 << 5);
        self.store(INTCLR, 1 << 5);
        self.wait_for(0);
    }
}

fn dirty_pages(ram: &Ram) -> Vec<u64> {
    let mut pages = Vec::new();
    for region in ram.iter() {
        let offsets = (0..region.len()).step_by(4096);
        let dirty = offsets.filter(|offset| region.bitmap().dirty_at(*offset as usize));
        pages.extend(dirty.map(|offset| region.start_addr().raw_value() + offset));
    }
    pages
}

fn main() -> Result<(), Box<dyn std::error::Error>> {
    let ram = Arc::new(Ram::from_ranges(&[(PROGRAM, 0x1_0000), (GuestAddress(0x8001_0000), 0x1_0000)])?);
    let message: Vec<u8> = (0..4096u32).map(|n| (n % 251) as u8).collect();
    ram.write_slice(&assemble(COPY)?, PROGRAM)?;
    ram.write_slice(&message, MESSAGE)?;
    ram.iter().for_each(|region| region.bitmap().reset());

    let (bus, revision) = (BusWidth::Bits128, Revision::R1p2);
    let config = DeviceConfig { channels: CHANNELS, events: 32, nonsecure: false, bus, lines: 128, revision };
    let ((line, lines), (wake, wakes)) = (channel(), channel());
    let set_lines = Box::new(move |irqs, irq_abort| line.send((irqs, irq_abort)).unwrap_or_default());
    let dma = Arc::new(Mutex::new(Dma { device: Device::open(config)?, ram: ram.clone(), set_lines }));
    let processor = Processor { ram: ram.clone(), dma: dma.clone(), wake, lines };
    let guest = thread::spawn(move || processor.copy());
    for () in wakes {
        while dma.lock().expect("no panic").round() {
            // lets the processor take the lock
            thread::yield_now();
        }
    }
    guest.join().expect("the driver ends");

    let mut copied = vec![0; message.len()];
    ram.read_slice(&mut copied, MAILBOX)?;
    assert_eq!(copied, message);
    // the mailbox begins in the last page of the first region, and ends in the first page of the second
    assert_eq!(dirty_pages(&ram), [0x8000_F000, 0x8001_0000, 0x8001_8000]);
    println!("copied {} bytes; pages to be sent again: {:X?}", copied.len(), dirty_pages(&ram));
    Ok(())
}
