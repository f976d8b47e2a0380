//! The channel control word, and the codes of instructions.

/// One side of the control word: the bursts of loads or of stores.
#[derive(Clone, Copy, Debug, PartialEq, Eq)]
pub struct Burst {
    pub increment: bool,
    /// Bytes a beat: 1, 2, 4, 8 or 16.
    pub size: u32,
    /// Bytes of the burst: size times beats.
    pub len: u32,
}

impl Burst {
    fn from_bits(increment: u32, size_code: u32, length_code: u32) -> Option<Burst> {
        if size_code > 4 {
            return None;
        }
        let size = 1 << size_code;
        Some(Burst { increment: increment == 1, size, len: size * (length_code + 1) })
    }

    /// The addresses that a burst at `addr` touches: their number.
    #[inline]
    pub fn reach(self) -> u32 {
        if self.increment { self.len } else { self.size }
    }
}

/// What the control word says of loads and stores; protection and cache have no effect.
#[derive(Clone, Copy, Debug, PartialEq, Eq)]
pub struct Control {
    pub src: Burst,
    pub dst: Burst,
}

impl Control {
    /// None for a reserved size, a swap or bit 31.
    pub fn from_bits(bits: u32) -> Option<Control> {
        if bits >> 28 != 0 {
            return None;
        }
        Some(Control {
            src: Burst::from_bits(bits & 1, bits >> 1 & 7, bits >> 4 & 15)?,
            dst: Burst::from_bits(bits >> 14 & 1, bits >> 15 & 7, bits >> 18 & 15)?,
        })
    }

    /// The word with both increments, both sizes `size` and both lengths `beats`.
    pub fn word(size: u32, beats: u32) -> u32 {
        let half = 1 | size.trailing_zeros() << 1 | (beats - 1) << 4;
        half | half << 14
    }
}

#[derive(Clone, Copy, Debug, PartialEq, Eq)]
pub enum Reg {
    Sar,
    Ccr,
    Dar,
}

#[derive(Clone, Copy, Debug, PartialEq, Eq)]
pub enum Counter {
    Lc0,
    Lc1,
}

#[derive(Clone, Copy, Debug, PartialEq, Eq)]
pub enum Insn {
    Mov(Reg, u32),
    Ld,
    St,
    Rmb,
    Wmb,
    Nop,
    End,
    /// `again` is the number of times less one.
    Lp {
        counter: Counter,
        again: u8,
    },
    LpEnd {
        counter: Counter,
        back: u8,
    },
    Sev(u8),
    Wfe {
        event: u8,
        invalid: bool,
    },
}

#[derive(Clone, Copy, Debug, PartialEq, Eq)]
pub enum DecodeFault {
    Cut,
    Unknown(u8),
    BadField,
}

/// Appends the one spelling of an instruction.
pub fn encode(insn: Insn, out: &mut Vec<u8>) {
    match insn {
        Insn::End => out.push(0x00),
        Insn::Ld => out.push(0x04),
        Insn::St => out.push(0x08),
        Insn::Rmb => out.push(0x12),
        Insn::Wmb => out.push(0x13),
        Insn::Nop => out.push(0x18),
        Insn::Lp { counter, again } => out.extend_from_slice(&[0x20 + 2 * counter as u8, again]),
        Insn::LpEnd { counter, back } => out.extend_from_slice(&[0x38 + 4 * counter as u8, back]),
        Insn::Sev(event) => out.extend_from_slice(&[0x34, event << 3]),
        Insn::Wfe { event, invalid } => {
            out.extend_from_slice(&[0x36, event << 3 | u8::from(invalid) << 1]);
        }
        Insn::Mov(reg, value) => {
            let [a, b, c, d] = value.to_le_bytes();
            out.extend_from_slice(&[0xBC, reg as u8, a, b, c, d]);
        }
    }
}

/// One instruction from the front of `bytes`, and its length.
#[inline(always)] // so that a channel's step is one branch on the first byte
pub fn decode(bytes: &[u8]) -> Result<(Insn, usize), DecodeFault> {
    Ok(match *bytes {
        [0x00, ..] => (Insn::End, 1),
        [0x04, ..] => (Insn::Ld, 1),
        [0x08, ..] => (Insn::St, 1),
        [0x12, ..] => (Insn::Rmb, 1),
        [0x13, ..] => (Insn::Wmb, 1),
        [0x18, ..] => (Insn::Nop, 1),
        [0x20, again, ..] => (Insn::Lp { counter: Counter::Lc0, again }, 2),
        [0x22, again, ..] => (Insn::Lp { counter: Counter::Lc1, again }, 2),
        [0x38, back, ..] => (Insn::LpEnd { counter: Counter::Lc0, back }, 2),
        [0x3C, back, ..] => (Insn::LpEnd { counter: Counter::Lc1, back }, 2),
        [0x34, field, ..] if field & 0b111 == 0 => (Insn::Sev(field >> 3), 2),
        [0x36, field, ..] if field & 0b101 == 0 => (Insn::Wfe { event: field >> 3, invalid: field & 2 != 0 }, 2),
        [0xBC, reg @ 0..=2, a, b, c, d, ..] => {
            let reg = [Reg::Sar, Reg::Ccr, Reg::Dar][usize::from(reg)];
            (Insn::Mov(reg, u32::from_le_bytes([a, b, c, d])), 6)
        }
        [0x34 | 0x36, _, ..] | [0xBC, _, _, _, _, _, ..] => return Err(DecodeFault::BadField),
        [] | [0x20 | 0x22 | 0x34 | 0x36 | 0x38 | 0x3C | 0xBC, ..] => return Err(DecodeFault::Cut),
        [first, ..] => return Err(DecodeFault::Unknown(first)),
    })
}
