//! The assembler and the disassembler.

use crate::insn::{Counter, DecodeFault, Insn, Reg, decode, encode};
use crate::mem::NoMemory;
use crate::text::{Line, Lines, hex_value, push_decimal, push_hex32};

#[derive(Clone, Copy, Debug, PartialEq, Eq)]
pub enum AsmCause {
    Mnemonic,
    Operand,
    Range,
    ProgramTooLong,
}

pub enum AsmFault {
    Line { line: usize, cause: AsmCause },
    NoMemory,
}

const MAX_PROGRAM: usize = 8_192;

pub fn assemble(text: &[u8]) -> Result<Vec<u8>, AsmFault> {
    let mut program = Vec::new();
    program.try_reserve_exact(MAX_PROGRAM + 6).map_err(|_| AsmFault::NoMemory)?;
    for Line { number, text: line, .. } in Lines::of(text) {
        if line.first() == Some(&b'#') || line.iter().all(|&b| b == b' ') {
            continue;
        }
        let fault = |cause| AsmFault::Line { line: number, cause };
        encode(assemble_line(line).map_err(fault)?, &mut program);
        if program.len() > MAX_PROGRAM {
            return Err(fault(AsmCause::ProgramTooLong));
        }
    }
    Ok(program)
}

/// The operands of a line, which must be `N`.
fn operands<'a, const N: usize>(mut words: impl Iterator<Item = &'a [u8]>) -> Result<[&'a [u8]; N], AsmCause> {
    let mut found = [&[][..]; N];
    for word in &mut found {
        *word = words.next().ok_or(AsmCause::Operand)?;
    }
    if words.next().is_some() {
        return Err(AsmCause::Operand);
    }
    Ok(found)
}

fn assemble_line(line: &[u8]) -> Result<Insn, AsmCause> {
    let mut words = line.split(|&b| b == b' ');
    let plain = |words, insn| operands::<0>(words).map(|_| insn);
    match words.next().unwrap_or_default() {
        b"DMAEND" => plain(words, Insn::End),
        b"DMALD" => plain(words, Insn::Ld),
        b"DMAST" => plain(words, Insn::St),
        b"DMARMB" => plain(words, Insn::Rmb),
        b"DMAWMB" => plain(words, Insn::Wmb),
        b"DMANOP" => plain(words, Insn::Nop),
        b"DMALP" => {
            let [counter, times] = operands(words)?.map(decimal);
            let (counter, times) = (counter?, times?);
            Ok(Insn::Lp { counter: loop_counter(counter)?, again: in_range(times.wrapping_sub(1), 255)? })
        }
        b"DMALPEND" => {
            let [counter, back] = operands(words)?.map(decimal);
            let (counter, back) = (counter?, back?);
            Ok(Insn::LpEnd { counter: loop_counter(counter)?, back: in_range(back, 255)? })
        }
        b"DMASEV" => {
            let [event] = operands(words)?;
            Ok(Insn::Sev(in_range(decimal(event)?, 31)?))
        }
        b"DMAWFE" => {
            let event = decimal(words.next().ok_or(AsmCause::Operand)?)?;
            let invalid = is_invalid(words)?;
            Ok(Insn::Wfe { event: in_range(event, 31)?, invalid })
        }
        b"DMAMOV" => {
            let [reg, value] = operands(words)?;
            Ok(Insn::Mov(register(reg)?, hex_word(value).ok_or(AsmCause::Operand)?))
        }
        _ => Err(AsmCause::Mnemonic),
    }
}

/// Whether the words after the event of DMAWFE are its flag; else there are none.
fn is_invalid<'a>(mut words: impl Iterator<Item = &'a [u8]>) -> Result<bool, AsmCause> {
    match (words.next(), words.next()) {
        (None, _) => Ok(false),
        (Some(b"invalid"), None) => Ok(true),
        _ => Err(AsmCause::Operand),
    }
}

fn register(word: &[u8]) -> Result<Reg, AsmCause> {
    match word {
        b"SAR" => Ok(Reg::Sar),
        b"CCR" => Ok(Reg::Ccr),
        b"DAR" => Ok(Reg::Dar),
        _ => Err(AsmCause::Operand),
    }
}

/// A decimal number without leading zeros; a large one stops at the largest.
fn decimal(word: &[u8]) -> Result<u32, AsmCause> {
    let well_formed = match word {
        [] => false,
        [b'0', rest @ ..] => rest.is_empty(),
        _ => word.iter().all(u8::is_ascii_digit),
    };
    if !well_formed {
        return Err(AsmCause::Operand);
    }
    // The largest is no number of times either: 0 and it wrap to values out of range.
    Ok(word.iter().fold(0u32, |value, &digit| value.saturating_mul(10).saturating_add(u32::from(digit - b'0'))))
}

fn in_range(value: u32, last: u8) -> Result<u8, AsmCause> {
    u8::try_from(value).ok().filter(|&value| value <= last).ok_or(AsmCause::Range)
}

fn loop_counter(value: u32) -> Result<Counter, AsmCause> {
    match value {
        0 => Ok(Counter::Lc0),
        1 => Ok(Counter::Lc1),
        _ => Err(AsmCause::Range),
    }
}

/// `0x` and eight capital digits.
fn hex_word(word: &[u8]) -> Option<u32> {
    let digits: &[u8; 8] = word.strip_prefix(b"0x")?.try_into().ok()?;
    digits.iter().try_fold(0, |value, &digit| {
        let is_capital = !digit.is_ascii_lowercase();
        hex_value(digit).filter(|_| is_capital).map(|d| value << 4 | u32::from(d))
    })
}

pub enum DisFault {
    At { offset: usize, fault: DecodeFault },
    NoMemory,
}

impl From<NoMemory> for DisFault {
    fn from(_: NoMemory) -> Self {
        DisFault::NoMemory
    }
}

pub fn disassemble(program: &[u8]) -> Result<Vec<u8>, DisFault> {
    const LONGEST_LINE: usize = 24;
    let mut text = Vec::new();
    let mut offset = 0;
    while offset < program.len() {
        let (insn, length) = decode(&program[offset..]).map_err(|fault| DisFault::At { offset, fault })?;
        text.try_reserve(LONGEST_LINE).map_err(NoMemory::from)?;
        push_insn(&mut text, insn);
        offset += length;
    }
    Ok(text)
}

fn push_insn(text: &mut Vec<u8>, insn: Insn) {
    match insn {
        Insn::End => return text.extend_from_slice(b"DMAEND\n"),
        Insn::Ld => return text.extend_from_slice(b"DMALD\n"),
        Insn::St => return text.extend_from_slice(b"DMAST\n"),
        Insn::Rmb => return text.extend_from_slice(b"DMARMB\n"),
        Insn::Wmb => return text.extend_from_slice(b"DMAWMB\n"),
        Insn::Nop => return text.extend_from_slice(b"DMANOP\n"),
        Insn::Lp { counter, again } => {
            text.extend_from_slice(b"DMALP ");
            text.extend_from_slice(&[b'0' + counter as u8, b' ']);
            push_decimal(text, u64::from(again) + 1);
        }
        Insn::LpEnd { counter, back } => {
            text.extend_from_slice(b"DMALPEND ");
            text.extend_from_slice(&[b'0' + counter as u8, b' ']);
            push_decimal(text, u64::from(back));
        }
        Insn::Sev(event) => {
            text.extend_from_slice(b"DMASEV ");
            push_decimal(text, u64::from(event));
        }
        Insn::Wfe { event, invalid } => {
            text.extend_from_slice(b"DMAWFE ");
            push_decimal(text, u64::from(event));
            if invalid {
                text.extend_from_slice(b" invalid");
            }
        }
        Insn::Mov(reg, value) => {
            text.extend_from_slice(match reg {
                Reg::Sar => b"DMAMOV SAR 0x",
                Reg::Ccr => b"DMAMOV CCR 0x",
                Reg::Dar => b"DMAMOV DAR 0x",
            });
            push_hex32(text, value);
        }
    }
    text.push(b'\n');
}
