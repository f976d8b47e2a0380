//! The calls about programs alone. The head of `calls` says why they are sound.

use super::written;
use crate::sys::*;
use crate::{Error, Repeated, Segment};

pub fn run_program(program: &[u8], memory: &mut [u8], limit: u32) -> Result<RawRunEnd, Error> {
    let (bytes, room) = (memory.as_mut_ptr(), memory.len());
    // SAFETY: Nobody else uses `memory`. It and the program come with their lengths, and `end` is a local.
    written(|end| unsafe { dma330_run_program(program.as_ptr(), program.len(), bytes, room, limit, end) })
}

/// Writes the bytes of the program with this text, and returns their number.
pub fn assemble(text: &[u8], out: &mut [u8]) -> Result<usize, Error> {
    let (mut len, mut place) = (0, 0);
    let (bytes, room) = (out.as_mut_ptr(), out.len());
    // SAFETY: Nobody else uses `out`. It and the text come with their lengths, and the numbers are locals.
    match unsafe { dma330_assemble(text.as_ptr(), text.len(), bytes, room, &mut len, &mut place) } {
        OK => Ok(len),
        code => Err(Error::of_line(code, place)),
    }
}

/// Writes the text of a program, and returns its length.
pub fn disassemble(program: &[u8], out: &mut [u8]) -> Result<usize, Error> {
    let (mut len, mut place) = (0, 0);
    let (text, room) = (out.as_mut_ptr(), out.len());
    // SAFETY: Nobody else uses `out`. It and the program come with their lengths, and the numbers are locals.
    match unsafe { dma330_disassemble(program.as_ptr(), program.len(), text, room, &mut len, &mut place) } {
        OK => Ok(len),
        code => Err(Error::of_offset(code, place)),
    }
}

/// What a call that explains a program writes.
pub struct RawExplained {
    pub src: Vec<Repeated>,
    pub dst: Vec<Segment>,
    pub zeros: Vec<Segment>,
    pub events: Vec<RawEvent>,
    pub explanation: RawExplanation,
}

// Returns a list of this length, or `NoMemory`: a guest's program determines how long the lists of an explanation are.
fn list_of<T: Clone + Default>(len: usize) -> Result<Vec<T>, Error> {
    let mut list = Vec::new();
    list.try_reserve_exact(len).map_err(|_| Error::NoMemory)?;
    list.resize(len, T::default());
    Ok(list)
}

// A list that a call fills: its first item, and how many it has room for.
type Room<T> = (*mut T, usize);

fn room<T>(list: &mut [T]) -> Room<T> {
    (list.as_mut_ptr(), list.len())
}

impl RawExplained {
    // Makes a call with lists of some room. If that is too small, as it is for few programs, repeats it, and so the run
    // of the program, with the room that the explanation has.
    pub(super) fn by<F>(call: F) -> Result<RawExplained, Error>
    where
        F: Fn(Room<Repeated>, Room<Segment>, Room<Segment>, Room<RawEvent>, &mut RawExplanation) -> i32,
    {
        let mut explanation =
            RawExplanation { src_len: 256, dst_len: 256, zeros_len: 256, events_len: 64, ..Default::default() };
        loop {
            let mut src = list_of::<Repeated>(explanation.src_len)?;
            let mut dst = list_of::<Segment>(explanation.dst_len)?;
            let mut zeros = list_of::<Segment>(explanation.zeros_len)?;
            let mut events = list_of::<RawEvent>(explanation.events_len)?;
            match call(room(&mut src), room(&mut dst), room(&mut zeros), room(&mut events), &mut explanation) {
                OK => {
                    src.truncate(explanation.src_len);
                    dst.truncate(explanation.dst_len);
                    zeros.truncate(explanation.zeros_len);
                    events.truncate(explanation.events_len);
                    return Ok(RawExplained { src, dst, zeros, events, explanation });
                }
                BUFFER_TOO_SMALL => {}
                code => {
                    let RawExplanation { cause, pc, steps, .. } = explanation;
                    return Err(Error::of_explanation(code, [cause, pc, steps]));
                }
            }
        }
    }
}

pub fn explain(program: &[u8], bus: u32, start: &RawStart, most: u32) -> Result<RawExplained, Error> {
    let (from, len) = (program.as_ptr(), program.len());
    // SAFETY: Nobody else uses the lists or `out`. Lists and program come with their lengths.
    RawExplained::by(|(src, s), (dst, d), (zeros, z), (events, e), out| unsafe {
        dma330_explain(from, len, bus, start, most, src, s, dst, d, zeros, z, events, e, out)
    })
}

/// Writes the program of a copy, and returns its length.
pub fn plan(src: &[Segment], dst: &[Segment], wait: i32, signal: i32, bus: u32, out: &mut [u8]) -> Result<usize, Error> {
    let (from, to) = (src.as_ptr(), dst.as_ptr());
    let (bytes, room) = (out.as_mut_ptr(), out.len());
    // SAFETY: Nobody else uses `out`. It and the lists come with their lengths, and `len` is a local.
    written(|len| unsafe { dma330_plan(from, src.len(), to, dst.len(), wait, signal, bus, bytes, room, len) })
}

/// Writes the program of a fill, and returns its length.
pub fn plan_fill(src: u32, dst: &[Segment], wait: i32, signal: i32, bus: u32, out: &mut [u8]) -> Result<usize, Error> {
    let (bytes, room) = (out.as_mut_ptr(), out.len());
    // SAFETY: Nobody else uses `out`. It and the list come with their lengths, and `len` is a local.
    written(|len| unsafe { dma330_plan_fill(src, dst.as_ptr(), dst.len(), wait, signal, bus, bytes, room, len) })
}
