//! Runs the rows of channels.txt, as the test in C does: as they are, and with a call for each single step of a row of
//! `step`, where the channel is saved and restored as another one before each call.

mod words;

use dma330::{assemble, Access, Channel, ChannelStep, ChannelSteps, Error, Region, Segment};
use words::{answer, groups, hex, lower, nothing, Words};

const ROWS: &str = include_str!("../../../tests/c/channels.txt");

#[derive(Clone, Copy, PartialEq)]
enum Way {
    Plain,
    Saved,
}

/// A part of the caller's memory.
struct Part {
    addr: u32,
    bytes: Vec<u8>,
    is_rom: bool,
}

impl Part {
    fn region(&mut self) -> Region<'_> {
        if self.is_rom {
            Region::read_only(self.addr, &mut self.bytes)
        } else {
            Region::new(self.addr, &mut self.bytes)
        }
    }
}

/// Runs lines.
struct Runner {
    way: Way,
    channel: Option<Channel>,
    parts: Vec<Part>,
    flags: u32,
    errors: Vec<(Access, Segment)>,
    save: Vec<u8>,
}

fn steps_text(steps: ChannelSteps) -> String {
    let word = lower(steps.last);
    let rest = match steps.last {
        ChannelStep::Waiting { event } | ChannelStep::Signalled { event } => format!(" {event}"),
        ChannelStep::Fault { fault } => format!(" {fault:?}"),
        ChannelStep::NoStep | ChannelStep::Moved | ChannelStep::Ended => String::new(),
    };
    let written = steps.written;
    let range = if written.len > 0 { format!(" wrote 0x{:08X}+{}", written.addr, written.len) } else { String::new() };
    format!("{} {word}{rest} at {}{range}", steps.taken, steps.pc)
}

// Returns the smallest range that contains both.
fn joined(a: Segment, b: Segment) -> Segment {
    if a.len == 0 || b.len == 0 {
        return if a.len == 0 { b } else { a };
    }
    let addr = a.addr.min(b.addr);
    let last = (a.addr + (a.len - 1)).max(b.addr + (b.len - 1));
    Segment { addr, len: last - addr + 1 }
}

// Returns the regions of these parts.
fn regions(parts: &mut [Part]) -> Vec<Region<'_>> {
    parts.iter_mut().map(Part::region).collect()
}

impl Runner {
    fn new(way: Way) -> Runner {
        Runner { way, channel: None, parts: Vec::new(), flags: 0, errors: Vec::new(), save: Vec::new() }
    }

    fn channel(&mut self) -> &mut Channel {
        self.channel.as_mut().expect("the group opened a channel")
    }

    // Returns the bytes from an address to the end of its region.
    fn rest(&mut self, addr: u32) -> &mut [u8] {
        let has = |part: &&mut Part| addr >= part.addr && ((addr - part.addr) as usize) < part.bytes.len();
        let part = self.parts.iter_mut().find(has).expect("a region has the address");
        &mut part.bytes[(addr - part.addr) as usize..]
    }

    // Replaces the channel with another one that has its save and its injected errors.
    fn replace_channel(&mut self) -> Result<(), Error> {
        let mut next = Channel::open()?;
        next.restore(&self.channel().save())?;
        for (access, range) in &self.errors {
            next.inject_error(*access, *range)?;
        }
        assert_eq!(next.registers(), self.channel().registers());
        self.channel = Some(next);
        Ok(())
    }

    fn step(&mut self, most: u32) -> Result<ChannelSteps, Error> {
        if self.way == Way::Saved {
            self.replace_channel()?;
        }
        let Runner { channel: Some(channel), parts, flags, .. } = self else { panic!("the group opened a channel") };
        channel.step(&mut regions(parts), flags, most)
    }

    fn single_steps(&mut self, most: u32) -> Result<ChannelSteps, Error> {
        let mut taken = 0;
        let mut written = Segment::default();
        loop {
            let steps = self.step(most.min(1))?;
            taken += steps.taken;
            written = joined(written, steps.written);
            if steps.last == ChannelStep::NoStep && taken > 0 {
                return Ok(ChannelSteps { taken, last: ChannelStep::Moved, written, ..steps });
            }
            if steps.last != ChannelStep::Moved || taken == most {
                return Ok(ChannelSteps { taken, written, ..steps });
            }
        }
    }

    fn registers(&mut self) -> String {
        let r = self.channel().registers();
        let loaded = u8::from(r.is_loaded);
        let (pc, sar, dar, ccr) = (r.pc, r.sar, r.dar, r.ccr);
        let counts = format!("{} {} {loaded} {} {}", r.lc0, r.lc1, r.taken, r.stored);
        format!("{pc} 0x{sar:08X} 0x{dar:08X} 0x{ccr:08X} {counts}")
    }

    // Restores each beginning of the save, and the save with each byte changed. Returns the last answer other than
    // `BadSave`, or `BadSave`.
    fn restore_damaged(&mut self) -> Result<(), Error> {
        let mut answer = Err(Error::BadSave);
        for at in 0..self.save.len() {
            let mut changed = self.save.clone();
            changed[at] ^= 0x10;
            for damaged in [&self.save.clone()[..at], &changed] {
                match self.channel().restore(damaged) {
                    Err(Error::BadSave) => {}
                    other => answer = other,
                }
            }
        }
        answer
    }

    // Runs a line that is an act of the caller, and returns its answer; `None` if the line is a call.
    fn act(&mut self, line: &str, mut words: Words) -> Option<String> {
        match line {
            "regions" => {
                let zeros = |len: u32| vec![0; len as usize];
                let part = |segment: &Segment| Part { addr: segment.addr, bytes: zeros(segment.len), is_rom: false };
                self.parts = words.list().iter().map(part).collect();
            }
            "rom" => self.parts[words.number() as usize].is_rom = true,
            "poke" => {
                let (addr, bytes) = (words.number(), words.bytes());
                (0..).zip(bytes).for_each(|(n, byte)| self.rest(addr + n)[0] = byte);
            }
            "peek" => {
                let Segment { addr, len } = words.segment();
                return Some(hex(&(0..len).map(|n| self.rest(addr + n)[0]).collect::<Vec<u8>>()));
            }
            "equal" => {
                let (a, b, len) = (words.number(), words.number(), words.number() as usize);
                assert!(self.rest(a)[..len].to_vec() == self.rest(b)[..len], "{a} and {b} differ");
            }
            "raise" => self.flags |= 1 << words.number(),
            "saved" => return Some(hex(&self.save)),
            "flags" => return Some(format!("0x{:08X}", self.flags)),
            _ => return None,
        }
        Some(String::new())
    }

    // Makes a call, and returns its answer or its error.
    fn call(&mut self, call: &str, mut words: Words) -> Result<String, Error> {
        match call {
            "open" => {
                self.channel = Some(Channel::open()?);
                Ok(String::new())
            }
            "close" => {
                self.channel = None;
                self.errors.clear();
                Ok(String::new())
            }
            "step" if self.way == Way::Saved => self.single_steps(words.number()).map(steps_text),
            "step" | "call" => self.step(words.number()).map(steps_text),
            "registers" => Ok(self.registers()),
            "inject_error" => {
                let (access, range) = (words.access(), words.segment());
                self.channel().inject_error(access, range)?;
                self.errors.push((access, range));
                Ok(String::new())
            }
            "uninject_errors" => {
                self.errors.clear();
                self.channel().uninject_errors();
                Ok(String::new())
            }
            "save" => {
                self.save = self.channel().save();
                Ok(String::new())
            }
            "stop" => {
                self.channel().stop();
                Ok(String::new())
            }
            "restore" => {
                let save = self.save.clone();
                self.channel().restore(&save).map(nothing)
            }
            "restore_bytes" => self.channel().restore(&words.bytes()).map(nothing),
            "restore_damaged" => self.restore_damaged().map(nothing),
            _ => self.load(call, words).map(nothing),
        }
    }

    fn load(&mut self, call: &str, mut words: Words) -> Result<(), Error> {
        let Runner { channel: Some(channel), parts, .. } = self else { panic!("the group opened a channel") };
        match call {
            "load_copy" => {
                let src = words.list();
                let (dst, events) = words.to_list();
                channel.load_copy(&src, &dst, events)
            }
            "load_fill" => {
                let src = words.number();
                let (dst, events) = words.to_list();
                channel.load_fill(src, &dst, events)
            }
            "load_program" => channel.load_program(&words.bytes()),
            "load_text" => channel.load_program(&assemble(&words.text()).expect("a program")),
            "load_from" => channel.load_from(&regions(parts), words.number()),
            _ => panic!("no call: {call}"),
        }
    }

    fn carry_out(&mut self, line: &str) -> String {
        let (word, rest) = line.split_once(' ').unwrap_or((line, ""));
        answer(self.act(word, Words(rest)).map_or_else(|| self.call(word, Words(rest)), Ok))
    }
}

// Returns a message for each row that isn't answered as it says.
fn wrong_rows(way: Way) -> Vec<String> {
    let mut wrong = Vec::new();
    for (title, rows) in groups(ROWS) {
        let mut runner = Runner::new(way);
        for (line, wanted) in rows {
            let answer = runner.carry_out(line);
            if answer != wanted {
                wrong.push(format!("{title}: {line}: the answer is {answer}, not {wanted}"));
            }
        }
    }
    wrong
}

#[test]
fn every_row_has_its_answer() {
    assert!(groups(ROWS).len() > 15);
    assert_eq!(wrong_rows(Way::Plain), Vec::<String>::new());
}

#[test]
fn a_channel_that_is_saved_and_restored_at_each_step_has_the_same_answers() {
    assert_eq!(wrong_rows(Way::Saved), Vec::<String>::new());
}

#[test]
fn a_call_ends_before_a_store_apart_from_what_it_wrote() {
    let mut ram = vec![7; 0x1000];
    let mut step = |channel: &mut Channel, most| {
        let steps = channel.step(&mut [Region::new(0, &mut ram)], &mut 0, most).expect("it has a program");
        (steps.taken, steps.last, steps.written)
    };
    let mut channel = Channel::open().expect("there is memory");
    let ranges = [Segment::new(0x800, 0x180), Segment::new(0x700, 0x80)];
    channel.load_copy(&[Segment::new(0, 0x200)], &ranges, Default::default()).expect("it breaks no rule");
    assert_eq!(step(&mut channel, 1000).2, ranges[0]);
    let (taken, last, written) = step(&mut channel, 1000);
    assert_eq!((last, written), (ChannelStep::Ended, ranges[1]));
    assert!(taken > 1);
}
