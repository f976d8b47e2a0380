//! The words of the lines of scripts, rows.txt and channels.txt, and those of their answers.

// No test that includes this file uses all of it.
#![allow(dead_code)]

use dma330::{Access, Bus, BusWidth, Error, Events, Segment};
use std::fmt::Debug;

/// The words of a line that are not read yet.
pub struct Words<'a>(pub &'a str);

/// A copy or a fill.
pub struct Transfer {
    /// The list of sources, or the address of a fill's byte.
    pub src: Result<Vec<Segment>, u32>,
    pub dst: Vec<Segment>,
    pub events: Events,
}

impl<'a> Words<'a> {
    pub fn next(&mut self) -> &'a str {
        let line = self.0.trim_start_matches([' ', '\t']);
        let end = line.find([' ', '\t']).unwrap_or(line.len());
        self.0 = &line[end..];
        &line[..end]
    }

    pub fn number(&mut self) -> u32 {
        number(self.next())
    }

    pub fn channel(&mut self) -> u8 {
        small(self.number())
    }

    pub fn bus(&mut self) -> Bus {
        match self.next() {
            "0" => Bus::Channel,
            "32" => Bus::Device(BusWidth::Bits32),
            "64" => Bus::Device(BusWidth::Bits64),
            "128" => Bus::Device(BusWidth::Bits128),
            word => panic!("no bus: {word}"),
        }
    }

    pub fn access(&mut self) -> Access {
        match self.next() {
            "read" => Access::Reads,
            "write" => Access::Writes,
            word => panic!("no kind of access: {word}"),
        }
    }

    pub fn segment(&mut self) -> Segment {
        let (addr, len) = self.next().split_once('+').expect("a segment");
        Segment::new(number(addr), number(len))
    }

    pub fn list(&mut self) -> Vec<Segment> {
        match self.next() {
            "-" => Vec::new(),
            word => word.split(',').flat_map(segments).collect(),
        }
    }

    /// Reads a list and its events after the word `to`.
    pub fn to_list(&mut self) -> (Vec<Segment>, Events) {
        assert_eq!(self.next(), "to");
        (self.list(), self.events())
    }

    /// Reads LIST or `fill ADDR`, and then the destinations and the events.
    pub fn transfer(&mut self) -> Transfer {
        let mut after = Words(self.0);
        let src = if after.next() == "fill" {
            *self = after;
            Err(self.number())
        } else {
            Ok(self.list())
        };
        let (dst, events) = self.to_list();
        Transfer { src, dst, events }
    }

    /// Reads the bytes of all further words.
    pub fn bytes(&mut self) -> Vec<u8> {
        let mut bytes = Vec::new();
        loop {
            let word = self.next();
            match word.split_once('*') {
                Some(("mod251", count)) => bytes.extend((0..number(count)).map(|n| small(n % 251))),
                Some((pair, count)) => bytes.extend(vec![byte(pair); number(count) as usize]),
                None if word.is_empty() => return bytes,
                None if word == "-" => {}
                None => bytes.extend((0..word.len()).step_by(2).map(|at| byte(&word[at..at + 2]))),
            }
        }
    }

    pub fn text(&mut self) -> String {
        let rest = self.0.strip_prefix(' ').unwrap_or(self.0);
        match rest.split_once('*') {
            Some((word, count)) => format!("{word}\n").repeat(number(count) as usize),
            None => rest.replace(" / ", "\n"),
        }
    }

    pub fn events(&mut self) -> Events {
        let mut events = Events::default();
        loop {
            match self.next() {
                "wait" => events.wait = Some(small(self.number())),
                "signal" => events.signal = Some(small(self.number())),
                "" => return events,
                word => panic!("neither wait nor signal: {word}"),
            }
        }
    }
}

pub fn number(word: &str) -> u32 {
    let value = match word.strip_prefix("0x") {
        Some(digits) => u32::from_str_radix(digits, 16),
        None => word.parse(),
    };
    value.unwrap_or_else(|_| panic!("not a number: {word}"))
}

pub fn small(number: u32) -> u8 {
    u8::try_from(number).expect("at most 255")
}

fn byte(pair: &str) -> u8 {
    u8::from_str_radix(pair, 16).unwrap_or_else(|_| panic!("not a byte: {pair}"))
}

// Reads ADDR+LEN, or ADDR+LEN*N for N segments, each of which begins where the one before it ends.
fn segments(word: &str) -> Vec<Segment> {
    let (range, count) = word.split_once('*').unwrap_or((word, "1"));
    let Segment { addr, len } = Words(range).segment();
    (0..number(count)).map(|n| Segment::new(addr + n * len, len)).collect()
}

/// Returns a variant's name.
pub fn name(value: impl Debug) -> String {
    let debug = format!("{value:?}");
    debug.split([' ', '(']).next().unwrap_or_default().to_string()
}

/// Returns a variant's name in lower case, with `_` between its words.
pub fn lower(value: impl Debug) -> String {
    let mut lower = String::new();
    for letter in name(value).chars() {
        if letter.is_uppercase() && !lower.is_empty() {
            lower.push('_');
        }
        lower.push(letter.to_ascii_lowercase());
    }
    lower
}

/// Returns the answer of a call: what it writes, or `ok` if that is nothing, or its error and what it names.
pub fn answer(result: Result<String, Error>) -> String {
    match result {
        Ok(text) if text.is_empty() => "ok".into(),
        Ok(text) => text,
        Err(Error::Busy { channel, cookie }) => format!("refused Busy {channel} {cookie}"),
        Err(Error::Running { channel, cookie }) => format!("refused Running {channel} {cookie}"),
        Err(Error::Assembly { line, fault }) => format!("refused {fault:?} {line}"),
        Err(Error::Disassembly { offset, fault }) => format!("refused {fault:?} {offset}"),
        Err(Error::Unexplained { cause, pc, steps }) => format!("refused Unexplained {} {pc} {steps}", name(cause)),
        Err(plain) => format!("refused {plain:?}"),
    }
}

pub fn hex(bytes: &[u8]) -> String {
    match bytes {
        [first, rest @ ..] if rest.len() >= 16 && rest.iter().all(|byte| byte == first) => {
            format!("{first:02X}*{}", bytes.len())
        }
        _ => bytes.iter().map(|byte| format!("{byte:02X}")).collect(),
    }
}

pub fn nothing(_: ()) -> String {
    String::new()
}

/// A title, and its rows: lines and answers.
pub type Group = (&'static str, Vec<(&'static str, &'static str)>);

/// Returns the groups that the types of this crate can express.
pub fn groups(text: &'static str) -> Vec<Group> {
    let text = &text[text.find("\n== ").expect("a group")..];
    let groups = text.split("\n== ").skip(1).map(|group| group.split_once('\n').expect("a title"));
    let alone = |(title, _): &(&str, &str)| !title.ends_with("(C alone)");
    let rows = |rows: &'static str| rows.lines().filter(|row| !row.is_empty()).map(|row| row.rsplit_once(" = ").expect(row));
    groups.filter(alone).map(|(title, text)| (title, rows(text).collect())).collect()
}
