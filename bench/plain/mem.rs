//! Memory, segments, marked ranges and event flags.

use std::collections::TryReserveError;

/// A growth was refused.
#[derive(Clone, Copy, Debug, PartialEq, Eq)]
pub struct NoMemory;

impl From<TryReserveError> for NoMemory {
    fn from(_: TryReserveError) -> Self {
        NoMemory
    }
}

/// An owned copy of `items`, of exactly their size.
pub fn try_boxed<T: Copy>(items: &[T]) -> Result<Box<[T]>, NoMemory> {
    let mut copy = Vec::new();
    copy.try_reserve_exact(items.len())?;
    copy.extend_from_slice(items);
    Ok(copy.into_boxed_slice())
}

/// The addresses from `addr` up to, not including, `addr + len`, without wrapping.
#[derive(Clone, Copy, Debug, PartialEq, Eq)]
pub struct Segment {
    pub addr: u32,
    pub len: u32,
}

impl Segment {
    const ADDRESS_END: u64 = 1 << 32;

    pub fn end(self) -> u64 {
        u64::from(self.addr) + u64::from(self.len)
    }

    pub fn wraps(self) -> bool {
        self.end() > Self::ADDRESS_END
    }

    /// The last address, where the segment is neither empty nor wraps.
    #[inline]
    pub fn last(self) -> u32 {
        self.addr.wrapping_add(self.len).wrapping_sub(1)
    }

    /// Whether both have an address in common; an empty segment meets nothing. None wraps.
    #[inline]
    pub fn meets(self, other: Segment) -> bool {
        (self.len > 0) & (other.len > 0) & (self.addr <= other.last()) & (other.addr <= self.last())
    }

    /// Whether it meets any of them. It tests all, so that the compiler tests four at a time.
    #[inline]
    pub fn meets_any(self, others: &[Segment]) -> bool {
        others.iter().fold(false, |met, &other| met | self.meets(other))
    }
}

/// Flat memory from address 0.
pub struct Memory {
    bytes: Vec<u8>,
}

impl Memory {
    pub const MAX_SIZE: u32 = 16_777_216;

    /// Zeros. The size was tested by the caller.
    pub fn new(size: u32) -> Memory {
        Memory { bytes: vec![0; size as usize] }
    }

    pub fn holds(&self, segment: Segment) -> bool {
        segment.end() <= self.bytes.len() as u64
    }

    #[inline]
    pub fn get(&self, segment: Segment) -> Option<&[u8]> {
        let start = segment.addr as usize;
        self.bytes.get(start..start + segment.len as usize)
    }

    #[inline]
    pub fn get_mut(&mut self, segment: Segment) -> Option<&mut [u8]> {
        let start = segment.addr as usize;
        self.bytes.get_mut(start..start + segment.len as usize)
    }
}

#[derive(Clone, Copy, Debug, PartialEq, Eq)]
pub enum MarkKind {
    Reading,
    Writing,
}

/// Ranges at which bursts fail.
#[derive(Default)]
pub struct Marks {
    reading: Vec<Segment>,
    writing: Vec<Segment>,
}

impl Marks {
    pub fn add(&mut self, kind: MarkKind, segment: Segment) -> Result<(), NoMemory> {
        let list = match kind {
            MarkKind::Reading => &mut self.reading,
            MarkKind::Writing => &mut self.writing,
        };
        list.try_reserve(1)?;
        list.push(segment);
        Ok(())
    }

    pub fn clear(&mut self) {
        self.reading.clear();
        self.writing.clear();
    }

    #[inline]
    pub fn hits(&self, kind: MarkKind, segment: Segment) -> bool {
        segment.meets_any(match kind {
            MarkKind::Reading => &self.reading,
            MarkKind::Writing => &self.writing,
        })
    }
}

/// 32 event flags.
#[derive(Default)]
pub struct Events(u32);

impl Events {
    pub const LAST: u8 = 31;

    pub fn is_set(&self, event: u8) -> bool {
        self.0 & (1 << event) != 0
    }

    pub fn set(&mut self, event: u8) {
        self.0 |= 1 << event;
    }

    pub fn clear(&mut self, event: u8) {
        self.0 &= !(1 << event);
    }
}
