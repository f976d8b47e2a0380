//! The program of a transfer.

use crate::insn::{Control, Counter, Insn, Reg, encode};
use crate::mem::Segment;
use crate::transfer::Transfer;

/// Appends a transfer's program; the answer is its cost in instructions executed.
pub fn compile(transfer: &Transfer, program: &mut Vec<u8>) -> u32 {
    let mut cost = 1;
    if let Some(event) = transfer.wait() {
        encode(Insn::Wfe { event, invalid: false }, program);
        cost += 1;
    }
    let (mut src, mut dst) = (transfer.src().iter().copied(), transfer.dst().iter().copied());
    let (mut from, mut to) = (src.next(), dst.next());
    while let (Some(s), Some(d)) = (from, to) {
        let len = s.len.min(d.len);
        cost += compile_piece(s.addr, d.addr, len, program);
        from = after(s, len).or_else(|| src.next());
        to = after(d, len).or_else(|| dst.next());
    }
    if let Some(event) = transfer.signal() {
        encode(Insn::Sev(event), program);
        cost += 1;
    }
    encode(Insn::End, program);
    cost
}

/// What is left of a segment after its first `len` bytes.
fn after(segment: Segment, len: u32) -> Option<Segment> {
    let left = segment.len - len;
    (left > 0).then(|| Segment { addr: segment.addr + len, len: left })
}

fn compile_piece(src: u32, dst: u32, len: u32, program: &mut Vec<u8>) -> u32 {
    const BODY: u32 = 4;
    let mut unit = 16;
    while (src | dst) % unit != 0 || unit > len {
        unit /= 2;
    }
    let (bursts, rest) = (len / (16 * unit), len % (16 * unit));
    let (beats, tail) = (rest / unit, rest % unit);
    let (rounds, single) = (bursts / 256, bursts % 256);

    encode(Insn::Mov(Reg::Sar, src), program);
    encode(Insn::Mov(Reg::Dar, dst), program);
    let mut cost = 2;
    if bursts > 0 {
        encode(Insn::Mov(Reg::Ccr, Control::word(unit, 16)), program);
        cost += 1;
        if rounds > 0 {
            encode(Insn::Lp { counter: Counter::Lc0, again: (rounds - 1) as u8 }, program);
            compile_loop(255, program);
            encode(Insn::LpEnd { counter: Counter::Lc0, back: 8 }, program);
            cost += 1 + rounds * (1 + 256 * (BODY + 1) + 1);
        }
        if single > 0 {
            compile_loop((single - 1) as u8, program);
            cost += 1 + single * (BODY + 1);
        }
    }
    for (size, count) in [(unit, beats), (1, tail)] {
        if count > 0 {
            encode(Insn::Mov(Reg::Ccr, Control::word(size, count)), program);
            compile_body(program);
            cost += 1 + BODY;
        }
    }
    cost
}

fn compile_loop(again: u8, program: &mut Vec<u8>) {
    encode(Insn::Lp { counter: Counter::Lc1, again }, program);
    compile_body(program);
    encode(Insn::LpEnd { counter: Counter::Lc1, back: 4 }, program);
}

fn compile_body(program: &mut Vec<u8>) {
    for insn in [Insn::Ld, Insn::Rmb, Insn::St, Insn::Wmb] {
        encode(insn, program);
    }
}
