//! Scripts of `run`: read and checked before any line is carried out.

use std::ops::Range;

use crate::engine::MAX_CHANNELS;
use crate::mem::{MarkKind, Memory, NoMemory, Segment};
use crate::transfer::{Transfer, TransferFault};
use crate::words::{
    LineFault, Words, are_printable, hex_words, is_plain_text, lines, number, segment, segment_front, small,
};

/// A part of one of the script's two lists.
#[derive(Clone, Copy)]
pub struct Span {
    start: u32,
    end: u32,
}

impl Span {
    pub fn range(self) -> Range<usize> {
        self.start as usize..self.end as usize
    }
}

#[derive(Clone, Copy)]
pub struct Lists {
    src: Span,
    dst: Span,
    wait: Option<u8>,
    signal: Option<u8>,
}

/// Lists whose events may still be too large for a script.
pub struct WideLists {
    src: Span,
    dst: Span,
    wait: Option<u32>,
    signal: Option<u32>,
}

impl WideLists {
    pub fn narrow(self) -> Result<Lists, LineFault> {
        Ok(Lists {
            src: self.src,
            dst: self.dst,
            wait: self.wait.map(small).transpose()?,
            signal: self.signal.map(small).transpose()?,
        })
    }
}

#[derive(Clone, Copy)]
pub enum Command {
    Write { addr: u32, bytes: Span },
    Read(Segment),
    Copy { lists: u32 },
    Submit { ch: u8, lists: u32 },
    Issue(u8),
    Pause(u8),
    Resume(u8),
    Terminate(u8),
    Step { ch: u8, count: u32 },
    Status { ch: u8, cookie: u32 },
    Result { ch: u8, cookie: u32 },
    Mark { kind: MarkKind, segment: Segment },
    Unmark,
    Raise(u8),
    Totals,
}

/// A checked script. The bytes, segments and lists of all lines are in one list each, so that a line is small.
#[derive(Default)]
pub struct Script {
    pub memory: Option<(u32, u8)>,
    pub commands: Vec<Command>,
    pub bytes: Vec<u8>,
    segments: Vec<Segment>,
    lists: Vec<Lists>,
}

const MAX_STEPS: u32 = 1_000_000;

impl Script {
    pub fn parse(data: &[u8]) -> Result<Script, (usize, LineFault)> {
        let mut script = Script::default();
        let is_clean = is_plain_text(data);
        for (number, line) in lines(data) {
            script.parse_line(line, is_clean).map_err(|fault| (number, fault))?;
        }
        if script.memory.is_none() {
            return Err((0, LineFault::First));
        }
        Ok(script)
    }

    fn parse_line(&mut self, line: &[u8], is_clean: bool) -> Result<(), LineFault> {
        let mut words = Words { rest: line };
        let name = match words.next() {
            None | Some([b'#', ..]) => return Ok(()),
            Some(name) => name,
        };
        if !is_clean && !are_printable(line) {
            return Err(LineFault::Byte);
        }
        if name == b"memory" {
            return self.parse_memory(words);
        }
        let parser = match name {
            b"write" => Self::parse_write,
            b"read" => Self::parse_read,
            b"copy" => Self::parse_copy,
            b"submit" => Self::parse_submit,
            b"issue" => |_: &mut Self, words: Words| Ok(Command::Issue(channel(words)?)),
            b"pause" => |_: &mut Self, words: Words| Ok(Command::Pause(channel(words)?)),
            b"resume" => |_: &mut Self, words: Words| Ok(Command::Resume(channel(words)?)),
            b"terminate" => |_: &mut Self, words: Words| Ok(Command::Terminate(channel(words)?)),
            b"step" => Self::parse_step,
            b"status" => Self::parse_status,
            b"result" => Self::parse_result,
            b"mark" => Self::parse_mark,
            b"unmark" => |_: &mut Self, words: Words| words.end().map(|()| Command::Unmark),
            b"raise" => |_: &mut Self, words: Words| Ok(Command::Raise(channel(words)?)),
            b"totals" => |_: &mut Self, words: Words| words.end().map(|()| Command::Totals),
            _ => return Err(LineFault::Command),
        };
        if self.memory.is_none() {
            return Err(LineFault::First);
        }
        let command = parser(self, words)?;
        self.commands.try_reserve(1).map_err(NoMemory::from)?;
        self.commands.push(command);
        Ok(())
    }

    fn parse_memory(&mut self, words: Words) -> Result<(), LineFault> {
        if self.memory.is_some() {
            return Err(LineFault::First);
        }
        let [size, channels] = words.exactly()?;
        let (size, channels) = (number(size)?, number(channels)?);
        if !(1..=Memory::MAX_SIZE).contains(&size) {
            return Err(LineFault::SizeOutOfRange);
        }
        match u8::try_from(channels) {
            Ok(channels @ 1..=MAX_CHANNELS) => self.memory = Some((size, channels)),
            _ => return Err(LineFault::BadChannels),
        }
        Ok(())
    }

    fn parse_write(&mut self, mut words: Words) -> Result<Command, LineFault> {
        let addr = words.need()?;
        words.skip_blanks();
        if words.rest.is_empty() {
            return Err(LineFault::Words);
        }
        let addr = number(addr)?;
        let start = self.bytes.len() as u32;
        hex_words(words.rest, &mut self.bytes)?;
        Ok(Command::Write { addr, bytes: Span { start, end: self.bytes.len() as u32 } })
    }

    fn parse_read(&mut self, words: Words) -> Result<Command, LineFault> {
        let [word] = words.exactly()?;
        Ok(Command::Read(segment(word)?))
    }

    fn parse_copy(&mut self, words: Words) -> Result<Command, LineFault> {
        let [src, to, dst] = words.exactly()?;
        if to != b"to" {
            return Err(LineFault::Words);
        }
        let (src, dst) = (self.list(src)?, self.list(dst)?);
        let lists = self.keep(Lists { src, dst, wait: None, signal: None })?;
        Ok(Command::Copy { lists })
    }

    fn parse_submit(&mut self, mut words: Words) -> Result<Command, LineFault> {
        let ch = words.need()?;
        let form = ListsForm::parse(words)?;
        let ch = number(ch)?;
        let lists = self.lists(form)?;
        let ch = small(ch)?;
        Ok(Command::Submit { ch, lists: self.keep(lists.narrow()?)? })
    }

    /// The place of lists that a line names.
    pub fn keep(&mut self, lists: Lists) -> Result<u32, NoMemory> {
        self.lists.try_reserve(1)?;
        self.lists.push(lists);
        Ok(self.lists.len() as u32 - 1)
    }

    fn parse_step(&mut self, mut words: Words) -> Result<Command, LineFault> {
        let ch = words.need()?;
        let count = words.next();
        words.end()?;
        let ch = number(ch)?;
        let count = count.map_or(Ok(1), number)?;
        let ch = small(ch)?;
        if !(1..=MAX_STEPS).contains(&count) {
            return Err(LineFault::Range);
        }
        Ok(Command::Step { ch, count })
    }

    fn parse_status(&mut self, words: Words) -> Result<Command, LineFault> {
        let (ch, cookie) = channel_and_cookie(words)?;
        Ok(Command::Status { ch, cookie })
    }

    fn parse_result(&mut self, words: Words) -> Result<Command, LineFault> {
        let (ch, cookie) = channel_and_cookie(words)?;
        Ok(Command::Result { ch, cookie })
    }

    fn parse_mark(&mut self, words: Words) -> Result<Command, LineFault> {
        let [kind, word] = words.exactly()?;
        let kind = match kind {
            b"read" => MarkKind::Reading,
            b"write" => MarkKind::Writing,
            _ => return Err(LineFault::Words),
        };
        Ok(Command::Mark { kind, segment: segment(word)? })
    }

    /// The numbers of a form; `WideLists::narrow` refuses events above 255.
    pub fn lists(&mut self, form: ListsForm) -> Result<WideLists, LineFault> {
        Ok(WideLists {
            src: self.list(form.src)?,
            dst: self.list(form.dst)?,
            wait: form.wait.map(number).transpose()?,
            signal: form.signal.map(number).transpose()?,
        })
    }

    fn list(&mut self, mut word: &[u8]) -> Result<Span, LineFault> {
        let start = self.segments.len() as u32;
        loop {
            let (segment, rest) = segment_front(word).ok_or(LineFault::Number)?;
            self.segments.try_reserve(1).map_err(NoMemory::from)?;
            self.segments.push(segment);
            match rest {
                [] => return Ok(Span { start, end: self.segments.len() as u32 }),
                [b',', rest @ ..] => word = rest,
                _ => return Err(LineFault::Number),
            }
        }
    }

    pub fn transfer(&self, lists: u32) -> Result<Transfer, TransferFault> {
        let Lists { src, dst, wait, signal } = self.lists[lists as usize];
        Transfer::new(&self.segments[src.range()], &self.segments[dst.range()], wait, signal)
    }
}

/// The words of `LIST to LIST [wait E] [signal E]`.
pub struct ListsForm<'a> {
    src: &'a [u8],
    dst: &'a [u8],
    wait: Option<&'a [u8]>,
    signal: Option<&'a [u8]>,
}

impl<'a> ListsForm<'a> {
    pub fn parse(mut words: Words<'a>) -> Result<Self, LineFault> {
        let src = words.need()?;
        words.fixed(b"to")?;
        let dst = words.need()?;
        let wait = words.option(b"wait")?;
        let signal = words.option(b"signal")?;
        words.end()?;
        Ok(ListsForm { src, dst, wait, signal })
    }
}

/// The one operand of a line: a channel or an event.
fn channel(words: Words) -> Result<u8, LineFault> {
    let [word] = words.exactly()?;
    small(number(word)?)
}

fn channel_and_cookie(words: Words) -> Result<(u8, u32), LineFault> {
    let [ch, cookie] = words.exactly()?;
    let (ch, cookie) = (number(ch)?, number(cookie)?);
    Ok((small(ch)?, cookie))
}
