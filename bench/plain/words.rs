//! Lines, words and numbers of scripts, and the faults of a line.

use crate::mem::{NoMemory, Segment};
use crate::text::{HEX, Line, Lines, hex_pairs};

/// Output of one subcommand, and its exit status.
pub struct Printed {
    pub out: Vec<u8>,
    pub status: u8,
}

#[derive(Clone, Copy, Debug, PartialEq, Eq)]
pub enum LineFault {
    Byte,
    Command,
    First,
    Words,
    Number,
    Hex,
    Range,
    SizeOutOfRange,
    BadChannels,
    NoMemory,
}

impl From<NoMemory> for LineFault {
    fn from(_: NoMemory) -> Self {
        LineFault::NoMemory
    }
}

/// A fault as it is printed; out of memory prints nothing.
pub fn faulty(line: usize, fault: LineFault) -> Printed {
    let name: &str = match fault {
        LineFault::Byte => "Byte",
        LineFault::Command => "Command",
        LineFault::First => "First",
        LineFault::Words => "Words",
        LineFault::Number => "Number",
        LineFault::Hex => "Hex",
        LineFault::Range => "Range",
        LineFault::SizeOutOfRange => "SizeOutOfRange",
        LineFault::BadChannels => "BadChannels",
        LineFault::NoMemory => return Printed { out: Vec::new(), status: 3 },
    };
    Printed { out: format!("line {line}: {name}\n").into_bytes(), status: 1 }
}

/// The numbered lines of a script; a line feed's own carriage return is dropped.
pub fn lines(data: &[u8]) -> impl Iterator<Item = (usize, &[u8])> {
    Lines::of(data).map(|Line { number, text, is_ended }| {
        let text = if is_ended { text.strip_suffix(b"\r").unwrap_or(text) } else { text };
        (number, text)
    })
}

#[inline]
fn is_blank(byte: u8) -> bool {
    byte == b' ' || byte == b'\t'
}

/// The words of a line, from the left.
#[derive(Clone, Copy)]
pub struct Words<'a> {
    pub rest: &'a [u8],
}

impl<'a> Words<'a> {
    #[inline]
    pub fn skip_blanks(&mut self) {
        while let [first, rest @ ..] = self.rest
            && is_blank(*first)
        {
            self.rest = rest;
        }
    }

    #[inline]
    pub fn next(&mut self) -> Option<&'a [u8]> {
        self.skip_blanks();
        if self.rest.is_empty() {
            return None;
        }
        let end = self.rest.iter().position(|&b| is_blank(b)).unwrap_or(self.rest.len());
        let (word, rest) = self.rest.split_at(end);
        self.rest = rest;
        Some(word)
    }

    #[inline]
    pub fn need(&mut self) -> Result<&'a [u8], LineFault> {
        self.next().ok_or(LineFault::Words)
    }

    pub fn fixed(&mut self, word: &[u8]) -> Result<(), LineFault> {
        if self.need()? == word { Ok(()) } else { Err(LineFault::Words) }
    }

    /// The word after a fixed word, where that one is next.
    pub fn option(&mut self, name: &[u8]) -> Result<Option<&'a [u8]>, LineFault> {
        let mut ahead = *self;
        if ahead.next() != Some(name) {
            return Ok(None);
        }
        *self = ahead;
        self.need().map(Some)
    }

    pub fn end(mut self) -> Result<(), LineFault> {
        if self.next().is_none() { Ok(()) } else { Err(LineFault::Words) }
    }

    /// All words that are left, which must be `N`.
    pub fn exactly<const N: usize>(mut self) -> Result<[&'a [u8]; N], LineFault> {
        let mut words = [&[][..]; N];
        for word in &mut words {
            *word = self.need()?;
        }
        self.end()?;
        Ok(words)
    }
}

pub fn are_printable(bytes: &[u8]) -> bool {
    bytes.iter().fold(true, |ok, &b| ok & ((b.wrapping_sub(0x20) < 0x5F) | (b == b'\t')))
}

/// As `are_printable`, with line feeds: then no line has a faulty byte.
pub fn is_plain_text(bytes: &[u8]) -> bool {
    bytes.iter().fold(true, |ok, &b| ok & ((b.wrapping_sub(0x20) < 0x5F) | (b == b'\t') | (b == b'\n')))
}

/// The number at the front, and what follows it.
#[inline]
fn number_front(text: &[u8]) -> Option<(u32, &[u8])> {
    let (base, digits) = match text {
        [b'0', b'x', digits @ ..] => (16, digits),
        digits => (10, digits),
    };
    let mut value = 0u64;
    let mut count = 0;
    for &byte in digits {
        let digit = u64::from(HEX[usize::from(byte)]);
        if digit >= base {
            break;
        }
        value = value * base + digit;
        if value > u64::from(u32::MAX) {
            return None;
        }
        count += 1;
    }
    if count == 0 {
        return None;
    }
    Some((value as u32, &digits[count..]))
}

#[inline]
pub fn number(word: &[u8]) -> Result<u32, LineFault> {
    match number_front(word) {
        Some((value, [])) => Ok(value),
        _ => Err(LineFault::Number),
    }
}

#[inline]
pub fn segment_front(text: &[u8]) -> Option<(Segment, &[u8])> {
    let (addr, rest) = number_front(text)?;
    let (len, rest) = number_front(rest.strip_prefix(b"+")?)?;
    Some((Segment { addr, len }, rest))
}

pub fn segment(word: &[u8]) -> Result<Segment, LineFault> {
    match segment_front(word) {
        Some((segment, [])) => Ok(segment),
        _ => Err(LineFault::Number),
    }
}

pub fn small(value: u32) -> Result<u8, LineFault> {
    u8::try_from(value).map_err(|_| LineFault::Range)
}

/// One or more words of pairs of hexadecimal digits, joined.
pub fn hex_words(text: &[u8], bytes: &mut Vec<u8>) -> Result<(), LineFault> {
    bytes.try_reserve(text.len() / 2).map_err(NoMemory::from)?;
    hex_pairs(text, bytes, is_blank).map_err(|_| LineFault::Hex)
}
