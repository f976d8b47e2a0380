//! What dma330.h declares. `tools/declarations` writes this file: change the header, not the file.

use crate::{Access, AssemblyFault, Cause, DisassemblyFault, Error, EventKind, Fault};
use crate::{Region, Repeated, Segment, Status, TransferResult};
use std::ffi::c_void;
use std::mem::size_of;

pub const NO_EVENT: i32 = -1;
pub const MAX_PROGRAM: usize = 8192;
pub const MAX_DEVICE_SAVE: usize = 68204;
pub const OK: i32 = 0;
pub const NO_RESULT: i32 = -27;
pub const NOT_RUNNING: i32 = -26;
pub const BUFFER_TOO_SMALL: i32 = -4;
pub const BUSY: i32 = -24;
pub const RUNNING: i32 = -25;
pub const UNEXPLAINED: i32 = -38;
pub const NO_STEP: u32 = 0;
pub const MOVED: u32 = 1;
pub const WAITING: u32 = 2;
pub const ENDED: u32 = 3;
pub const FAULT: u32 = 4;
pub const SIGNALLED: u32 = 5;
pub const STARTED: u32 = 6;
pub const FINISHED: u32 = 7;
pub const NOTHING: u32 = 8;
pub const HELD: u32 = 9;
pub const PAUSED: u32 = 10;
pub const HALTED: u32 = 11;
pub const END_OUT_OF_STEPS: u32 = 0;
pub const END_ENDED: u32 = 1;
pub const END_WAITING: u32 = 2;
pub const END_FAULT: u32 = 3;
pub const KNOWN_SAR: u32 = 1;
pub const KNOWN_DAR: u32 = 2;
pub const KNOWN_CCR: u32 = 4;
pub const KNOWN_LC0: u32 = 8;
pub const KNOWN_LC1: u32 = 16;

pub const CODES: [(i32, Error); 23] = [
    (-3, Error::NoMemory),
    (-5, Error::NoChannel),
    (-6, Error::NoProgram),
    (-7, Error::ProgramTooLong),
    (-8, Error::BadChannels),
    (-9, Error::SizeOutOfRange),
    (-10, Error::BadRegions),
    (-11, Error::BadConfig),
    (-12, Error::BadEvent),
    (-14, Error::BadRange),
    (-15, Error::OutOfMemoryRange),
    (-16, Error::EmptyList),
    (-17, Error::TooManySegments),
    (-18, Error::EmptySegment),
    (-19, Error::SegmentWraps),
    (-20, Error::TotalsDiffer),
    (-21, Error::TooLong),
    (-22, Error::DestinationsMeet),
    (-23, Error::SourceMeetsDestination),
    (-28, Error::CookiesSpent),
    (-29, Error::StepsSpent),
    (-30, Error::BadSave),
    (-31, Error::OtherDevice),
];
pub const LINE_CODES: [(i32, AssemblyFault); 4] = [
    (-32, AssemblyFault::BadMnemonic),
    (-33, AssemblyFault::BadOperand),
    (-34, AssemblyFault::NumberOutOfRange),
    (-7, AssemblyFault::ProgramTooLong),
];
pub const OFFSET_CODES: [(i32, DisassemblyFault); 3] = [
    (-35, DisassemblyFault::CutInstruction),
    (-36, DisassemblyFault::UnknownInstruction),
    (-37, DisassemblyFault::BadField),
];
pub const STATES: [(i32, Status); 3] = [(0, Status::Unknown), (1, Status::InProgress), (2, Status::Complete)];
pub const RESULT_CODES: [(u32, TransferResult); 4] = [
    (0, TransferResult::NoError),
    (1, TransferResult::ReadFailed),
    (2, TransferResult::WriteFailed),
    (3, TransferResult::Aborted),
];
pub const ACCESSES: [(u32, Access); 2] = [(0, Access::Reads), (1, Access::Writes)];
pub const FAULTS: [(u32, Fault); 7] = [
    (1, Fault::UndefInstr),
    (2, Fault::OperandInvalid),
    (3, Fault::MfifoErr),
    (4, Fault::StDataUnavailable),
    (5, Fault::InstrFetchErr),
    (6, Fault::DataWriteErr),
    (7, Fault::DataReadErr),
];
pub const EVENT_KINDS: [(u32, EventKind); 2] = [(0, EventKind::Waits), (1, EventKind::Signals)];
pub const CAUSES: [(u32, Cause); 18] = [
    (1, Cause::UndefInstr),
    (2, Cause::OperandInvalid),
    (3, Cause::MfifoErr),
    (4, Cause::StDataUnavailable),
    (5, Cause::InstrFetchErr),
    (8, Cause::LoadsPast),
    (9, Cause::StoresPast),
    (10, Cause::StoresFixed),
    (11, Cause::DropsBytes),
    (12, Cause::BytesLeft),
    (13, Cause::StoresTwice),
    (14, Cause::StoresSource),
    (15, Cause::NoEnd),
    (16, Cause::UnsetSar),
    (17, Cause::UnsetDar),
    (18, Cause::UnsetCcr),
    (19, Cause::UnsetLc0),
    (20, Cause::UnsetLc1),
];

#[repr(C)]
#[allow(dead_code)]
pub struct RawController {
    pub engine: *mut c_void,
    pub is_open: u8,
}

#[repr(C)]
#[derive(Clone, Copy, Default)]
pub struct RawOutcome {
    pub result: u32,
    pub residue: u32,
}

#[repr(C)]
#[derive(Clone, Copy, Default)]
pub struct RawConflict {
    pub channel: u32,
    pub cookie: u32,
}

#[repr(C)]
#[derive(Clone, Copy, Default)]
pub struct RawRun {
    pub cookie: u32,
    pub stored: u32,
}

#[repr(C)]
#[derive(Clone, Copy, Default)]
pub struct RawReport {
    pub taken: u32,
    pub last: u32,
    pub channel: u32,
    pub cookie: u32,
    pub event: u32,
    pub result: u32,
    pub residue: u32,
}

#[repr(C)]
#[allow(dead_code)]
pub struct RawChannel {
    pub channel: *mut c_void,
    pub is_open: u8,
}

#[repr(C)]
#[derive(Clone, Copy, Default)]
pub struct RawChannelReport {
    pub taken: u32,
    pub last: u32,
    pub event: u32,
    pub fault: u32,
    pub pc: u32,
    pub written: Segment,
}

#[repr(C)]
#[derive(Clone, Copy, Default)]
pub struct RawRegisters {
    pub pc: u32,
    pub sar: u32,
    pub dar: u32,
    pub ccr: u32,
    pub lc0: u8,
    pub lc1: u8,
    pub is_loaded: u8,
    pub taken: u32,
    pub stored: u64,
}

#[repr(C)]
#[allow(dead_code)]
pub struct RawDevice {
    pub device: *mut c_void,
    pub is_open: u8,
}

#[repr(C)]
#[derive(Clone, Copy, Default)]
pub struct RawDeviceConfig {
    pub channels: u32,
    pub events: u32,
    pub nonsecure: u32,
    pub bus: u32,
    pub lines: u32,
    pub revision: u32,
}

#[repr(C)]
#[derive(Clone, Copy, Default)]
pub struct RawDeviceTurn {
    pub written: Segment,
    pub taken: u64,
    pub lines_changed: u32,
    pub can_step: u32,
}

#[repr(C)]
#[derive(Clone, Copy, Default)]
pub struct RawDeviceRows {
    pub turn: RawDeviceTurn,
    pub pitch: u32,
    pub count: u32,
    pub steps: u32,
}

#[repr(C)]
#[derive(Clone, Copy, Default)]
pub struct RawRunEnd {
    pub end: u32,
    pub steps: u32,
    pub event: u32,
    pub fault: u32,
    pub pc: u32,
}

#[repr(C)]
#[derive(Clone, Copy, Default)]
pub struct RawStart {
    pub known: u32,
    pub sar: u32,
    pub dar: u32,
    pub ccr: u32,
    pub lc0: u8,
    pub lc1: u8,
}

#[repr(C)]
#[derive(Clone, Copy, Default)]
pub struct RawEvent {
    pub kind: u32,
    pub event: u32,
    pub copied: u64,
    pub cleared: u64,
}

#[repr(C)]
#[derive(Clone, Copy, Default)]
pub struct RawExplanation {
    pub src_len: usize,
    pub dst_len: usize,
    pub zeros_len: usize,
    pub events_len: usize,
    pub copied: u64,
    pub cleared: u64,
    pub steps: u32,
    pub pc: u32,
    pub cause: u32,
    pub addr: u32,
}

const _: () = assert!(size_of::<RawController>() == 16);
const _: () = assert!(size_of::<Segment>() == 8);
const _: () = assert!(size_of::<RawOutcome>() == 8);
const _: () = assert!(size_of::<RawConflict>() == 8);
const _: () = assert!(size_of::<RawRun>() == 8);
const _: () = assert!(size_of::<RawReport>() == 28);
const _: () = assert!(size_of::<Region>() == 32);
const _: () = assert!(size_of::<RawChannel>() == 16);
const _: () = assert!(size_of::<RawChannelReport>() == 28);
const _: () = assert!(size_of::<RawRegisters>() == 32);
const _: () = assert!(size_of::<RawDevice>() == 16);
const _: () = assert!(size_of::<RawDeviceConfig>() == 24);
const _: () = assert!(size_of::<RawDeviceTurn>() == 24);
const _: () = assert!(size_of::<RawDeviceRows>() == 40);
const _: () = assert!(size_of::<RawRunEnd>() == 20);
const _: () = assert!(size_of::<Repeated>() == 12);
const _: () = assert!(size_of::<RawStart>() == 20);
const _: () = assert!(size_of::<RawEvent>() == 24);
const _: () = assert!(size_of::<RawExplanation>() == 64);

extern "C" {
    pub fn dma330_open(controller: *mut RawController, size: u32, channels: u8) -> i32;
    pub fn dma330_close(controller: *mut RawController);
    pub fn dma330_write(
        controller: *mut RawController,
        addr: u32,
        bytes: *const u8,
        len: usize,
        conflict: *mut RawConflict,
    ) -> i32;
    pub fn dma330_read(
        controller: *mut RawController,
        addr: u32,
        out: *mut u8,
        len: usize,
        conflict: *mut RawConflict,
    ) -> i32;
    pub fn dma330_submit(
        controller: *mut RawController,
        channel: u8,
        src: *const Segment,
        src_count: usize,
        dst: *const Segment,
        dst_count: usize,
        wait: i32,
        signal: i32,
        cookie: *mut u32,
    ) -> i32;
    pub fn dma330_submit_fill(
        controller: *mut RawController,
        channel: u8,
        src: u32,
        dst: *const Segment,
        dst_count: usize,
        wait: i32,
        signal: i32,
        cookie: *mut u32,
    ) -> i32;
    pub fn dma330_issue(controller: *mut RawController, channel: u8, count: *mut u32) -> i32;
    pub fn dma330_pause(controller: *mut RawController, channel: u8) -> i32;
    pub fn dma330_resume(controller: *mut RawController, channel: u8) -> i32;
    pub fn dma330_terminate(controller: *mut RawController, channel: u8, count: *mut u32) -> i32;
    pub fn dma330_step(controller: *mut RawController, channel: u8, most: u32, report: *mut RawReport) -> i32;
    pub fn dma330_status(controller: *mut RawController, channel: u8, cookie: u32) -> i32;
    pub fn dma330_result(controller: *mut RawController, channel: u8, cookie: u32, outcome: *mut RawOutcome) -> i32;
    pub fn dma330_running(controller: *mut RawController, channel: u8, running: *mut RawRun) -> i32;
    pub fn dma330_unfinished(controller: *mut RawController, channel: u8, count: *mut u32) -> i32;
    pub fn dma330_forgotten(controller: *mut RawController, channel: u8, count: *mut u32) -> i32;
    pub fn dma330_steps(controller: *mut RawController, steps: *mut u64) -> i32;
    pub fn dma330_history_entries(controller: *mut RawController, count: *mut u64) -> i32;
    pub fn dma330_history_bytes(controller: *mut RawController, count: *mut u64) -> i32;
    pub fn dma330_running_count(controller: *mut RawController, count: *mut u32) -> i32;
    pub fn dma330_inject_error(controller: *mut RawController, access: u32, range: Segment) -> i32;
    pub fn dma330_uninject_errors(controller: *mut RawController) -> i32;
    pub fn dma330_raise(controller: *mut RawController, event: u8) -> i32;
    pub fn dma330_checkpoint(controller: *mut RawController, conflict: *mut RawConflict) -> i32;
    pub fn dma330_channel_open(channel: *mut RawChannel) -> i32;
    pub fn dma330_channel_close(channel: *mut RawChannel);
    pub fn dma330_channel_load_copy(
        channel: *mut RawChannel,
        src: *const Segment,
        src_count: usize,
        dst: *const Segment,
        dst_count: usize,
        wait: i32,
        signal: i32,
    ) -> i32;
    pub fn dma330_channel_load_fill(
        channel: *mut RawChannel,
        src: u32,
        dst: *const Segment,
        dst_count: usize,
        wait: i32,
        signal: i32,
    ) -> i32;
    pub fn dma330_channel_load_program(channel: *mut RawChannel, program: *const u8, len: usize) -> i32;
    pub fn dma330_channel_load_from(
        channel: *mut RawChannel,
        regions: *const Region<'_>,
        region_count: usize,
        addr: u32,
    ) -> i32;
    pub fn dma330_channel_step(
        channel: *mut RawChannel,
        regions: *const Region<'_>,
        region_count: usize,
        flags: *mut u32,
        most: u32,
        report: *mut RawChannelReport,
    ) -> i32;
    pub fn dma330_channel_stop(channel: *mut RawChannel) -> i32;
    pub fn dma330_channel_registers(channel: *mut RawChannel, registers: *mut RawRegisters) -> i32;
    pub fn dma330_channel_inject_error(channel: *mut RawChannel, access: u32, range: Segment) -> i32;
    pub fn dma330_channel_uninject_errors(channel: *mut RawChannel) -> i32;
    pub fn dma330_channel_save(channel: *mut RawChannel, out: *mut u8, room: usize, len: *mut usize) -> i32;
    pub fn dma330_channel_restore(channel: *mut RawChannel, save: *const u8, len: usize) -> i32;
    pub fn dma330_device_open(device: *mut RawDevice, config: *const RawDeviceConfig) -> i32;
    pub fn dma330_device_close(device: *mut RawDevice);
    pub fn dma330_device_reset(device: *mut RawDevice) -> i32;
    pub fn dma330_device_read(device: *mut RawDevice, offset: u32, value: *mut u32) -> i32;
    pub fn dma330_device_write(
        device: *mut RawDevice,
        offset: u32,
        value: u32,
        regions: *const Region<'_>,
        region_count: usize,
    ) -> i32;
    pub fn dma330_device_step(
        device: *mut RawDevice,
        channel: u8,
        most: u32,
        regions: *const Region<'_>,
        region_count: usize,
        turn: *mut RawDeviceTurn,
    ) -> i32;
    pub fn dma330_device_step_rows(
        device: *mut RawDevice,
        channel: u8,
        most: u32,
        regions: *const Region<'_>,
        region_count: usize,
        rows: *mut RawDeviceRows,
    ) -> i32;
    pub fn dma330_device_explain(
        device: *mut RawDevice,
        channel: u8,
        most: u32,
        src: *mut Repeated,
        src_room: usize,
        dst: *mut Segment,
        dst_room: usize,
        zeros: *mut Segment,
        zeros_room: usize,
        events: *mut RawEvent,
        events_room: usize,
        explanation: *mut RawExplanation,
    ) -> i32;
    pub fn dma330_device_registers(device: *mut RawDevice, channel: u8, registers: *mut RawRegisters) -> i32;
    pub fn dma330_device_lines(device: *mut RawDevice, irqs: *mut u32, irq_abort: *mut u32) -> i32;
    pub fn dma330_device_can_step(device: *mut RawDevice, can_step: *mut u32) -> i32;
    pub fn dma330_device_save(device: *mut RawDevice, out: *mut u8, room: usize, len: *mut usize) -> i32;
    pub fn dma330_device_restore(device: *mut RawDevice, save: *const u8, len: usize) -> i32;
    pub fn dma330_version(out: *mut u8, room: usize, len: *mut usize) -> i32;
    pub fn dma330_run_program(
        program: *const u8,
        len: usize,
        memory: *mut u8,
        size: usize,
        limit: u32,
        end: *mut RawRunEnd,
    ) -> i32;
    pub fn dma330_explain(
        program: *const u8,
        len: usize,
        bus: u32,
        start: *const RawStart,
        most: u32,
        src: *mut Repeated,
        src_room: usize,
        dst: *mut Segment,
        dst_room: usize,
        zeros: *mut Segment,
        zeros_room: usize,
        events: *mut RawEvent,
        events_room: usize,
        explanation: *mut RawExplanation,
    ) -> i32;
    pub fn dma330_plan(
        src: *const Segment,
        src_count: usize,
        dst: *const Segment,
        dst_count: usize,
        wait: i32,
        signal: i32,
        bus: u32,
        out: *mut u8,
        room: usize,
        len: *mut usize,
    ) -> i32;
    pub fn dma330_plan_fill(
        src: u32,
        dst: *const Segment,
        dst_count: usize,
        wait: i32,
        signal: i32,
        bus: u32,
        out: *mut u8,
        room: usize,
        len: *mut usize,
    ) -> i32;
    pub fn dma330_assemble(
        text: *const u8,
        text_len: usize,
        out: *mut u8,
        room: usize,
        len: *mut usize,
        place: *mut usize,
    ) -> i32;
    pub fn dma330_disassemble(
        program: *const u8,
        len: usize,
        out: *mut u8,
        room: usize,
        text_len: *mut usize,
        place: *mut usize,
    ) -> i32;
}
