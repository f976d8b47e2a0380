//! Transfers, and the rules that each one keeps.

use crate::mem::{Events, Memory, Segment};

/// The least range of addresses that holds all of a list.
#[derive(Clone, Copy, Debug)]
struct Hull {
    first: u32,
    last: u32,
}

impl Hull {
    fn of(list: &[Segment]) -> Hull {
        list.iter().fold(Hull { first: u32::MAX, last: 0 }, |hull, segment| Hull {
            first: hull.first.min(segment.addr),
            last: hull.last.max(segment.last()),
        })
    }

    #[inline]
    fn may_meet(self, segment: Segment) -> bool {
        (segment.addr <= self.last) & (self.first <= segment.last())
    }
}

#[derive(Clone, Copy, Debug, PartialEq, Eq)]
pub enum TransferFault {
    EmptyList,
    TooManySegments,
    EmptySegment,
    SegmentWraps,
    TotalsDiffer,
    TooLong,
    DestinationsMeet,
    SourceMeetsDestination,
    BadEvent,
    NoMemory,
}

impl TransferFault {
    pub fn name(self) -> &'static str {
        match self {
            TransferFault::EmptyList => "EmptyList",
            TransferFault::TooManySegments => "TooManySegments",
            TransferFault::EmptySegment => "EmptySegment",
            TransferFault::SegmentWraps => "SegmentWraps",
            TransferFault::TotalsDiffer => "TotalsDiffer",
            TransferFault::TooLong => "TooLong",
            TransferFault::DestinationsMeet => "DestinationsMeet",
            TransferFault::SourceMeetsDestination => "SourceMeetsDestination",
            TransferFault::BadEvent => "BadEvent",
            TransferFault::NoMemory => "NoMemory",
        }
    }
}

/// A scatter-gather copy: two lists of places without overlap.
#[derive(Debug)]
pub struct Transfer {
    /// The sources, then the destinations.
    segments: Box<[Segment]>,
    sources: u8,
    src_hull: Hull,
    dst_hull: Hull,
    len: u32,
    wait: Option<u8>,
    signal: Option<u8>,
}

impl Transfer {
    const MAX_SEGMENTS: usize = 64;
    const MAX_LEN: u64 = 1_048_576;

    /// The total length of each list, if both keep the rules.
    fn tested(src: &[Segment], dst: &[Segment]) -> Result<u32, TransferFault> {
        let either = |test: fn(&[Segment]) -> bool| test(src) || test(dst);
        let total = |list: &[Segment]| list.iter().map(|s| u64::from(s.len)).sum::<u64>();
        if either(|list| list.is_empty()) {
            return Err(TransferFault::EmptyList);
        }
        if either(|list| list.len() > Self::MAX_SEGMENTS) {
            return Err(TransferFault::TooManySegments);
        }
        if either(|list| list.iter().any(|s| s.len == 0)) {
            return Err(TransferFault::EmptySegment);
        }
        if either(|list| list.iter().any(|s| s.wraps())) {
            return Err(TransferFault::SegmentWraps);
        }
        let len = total(src);
        if len != total(dst) {
            return Err(TransferFault::TotalsDiffer);
        }
        if len > Self::MAX_LEN {
            return Err(TransferFault::TooLong);
        }
        if (1..dst.len()).any(|i| dst[i].meets_any(&dst[..i])) {
            return Err(TransferFault::DestinationsMeet);
        }
        if src.iter().any(|s| s.meets_any(dst)) {
            return Err(TransferFault::SourceMeetsDestination);
        }
        Ok(len as u32)
    }

    pub fn new(
        src: &[Segment],
        dst: &[Segment],
        wait: Option<u8>,
        signal: Option<u8>,
    ) -> Result<Transfer, TransferFault> {
        let len = Self::tested(src, dst)?;
        if [wait, signal].iter().flatten().any(|&event| event > Events::LAST) {
            return Err(TransferFault::BadEvent);
        }
        let mut segments = Vec::new();
        if segments.try_reserve_exact(src.len() + dst.len()).is_err() {
            return Err(TransferFault::NoMemory);
        }
        segments.extend_from_slice(src);
        segments.extend_from_slice(dst);
        Ok(Transfer {
            segments: segments.into_boxed_slice(),
            sources: src.len() as u8,
            src_hull: Hull::of(src),
            dst_hull: Hull::of(dst),
            len,
            wait,
            signal,
        })
    }

    pub fn src(&self) -> &[Segment] {
        &self.segments[..usize::from(self.sources)]
    }

    pub fn dst(&self) -> &[Segment] {
        &self.segments[usize::from(self.sources)..]
    }

    pub fn len(&self) -> u32 {
        self.len
    }

    pub fn wait(&self) -> Option<u8> {
        self.wait
    }

    pub fn signal(&self) -> Option<u8> {
        self.signal
    }

    pub fn lies_in(&self, memory: &Memory) -> bool {
        self.segments.iter().all(|&s| memory.holds(s))
    }

    /// A source or a destination meets the segment.
    pub fn touches(&self, segment: Segment) -> bool {
        self.reads(segment) || self.writes(segment)
    }

    /// A source meets the segment.
    fn reads(&self, segment: Segment) -> bool {
        self.src_hull.may_meet(segment) && segment.meets_any(self.src())
    }

    /// A destination meets the segment.
    pub fn writes(&self, segment: Segment) -> bool {
        self.dst_hull.may_meet(segment) && segment.meets_any(self.dst())
    }

    /// Its destinations meet no range of the other, its sources no destination of the other.
    pub fn is_free_of(&self, other: &Transfer) -> bool {
        !self.dst().iter().any(|&d| other.touches(d)) && !self.src().iter().any(|&s| other.writes(s))
    }
}
