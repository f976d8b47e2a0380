"""What dma330.h declares, as three tables. `tools/declarations` writes this file: change the header, not the file.

A type is `u8`, `u32`, `u64`, `i32` or `size` for a number, the name of a struct, or one of these, `char` or `void`
after a `*`, for a pointer.
"""

VERSION = "1.0.0"
MAX_VERSION = 32

# Each struct: its name, and its members with their types.
STRUCTS_TABLE = """
controller engine:*void is_open:u8
segment addr:u32 len:u32
outcome result:u32 residue:u32
conflict channel:u32 cookie:u32
run cookie:u32 stored:u32
report taken:u32 last:u32 channel:u32 cookie:u32 event:u32 result:u32 residue:u32
region addr:u32 bytes:*u8 len:size read_only:u32
channel channel:*void is_open:u8
channel_report taken:u32 last:u32 event:u32 fault:u32 pc:u32 written:segment
registers pc:u32 sar:u32 dar:u32 ccr:u32 lc0:u8 lc1:u8 is_loaded:u8 taken:u32 stored:u64
device device:*void is_open:u8
device_config channels:u32 events:u32 nonsecure:u32 bus:u32 lines:u32 revision:u32
device_turn written:segment taken:u64 lines_changed:u32 can_step:u32
device_rows turn:device_turn pitch:u32 count:u32 steps:u32
run_end end:u32 steps:u32 event:u32 fault:u32 pc:u32
repeated addr:u32 len:u32 times:u32
start known:u32 sar:u32 dar:u32 ccr:u32 lc0:u8 lc1:u8
event kind:u32 event:u32 copied:u64 cleared:u64
explanation src_len:size dst_len:size zeros_len:size events_len:size copied:u64 cleared:u64 steps:u32 pc:u32 cause:u32 \
addr:u32
"""

# Each call: what it returns, its name, and the types of its arguments.
CALLS_TABLE = """
i32 open *controller u32 u8
void close *controller
i32 write *controller u32 *u8 size *conflict
i32 read *controller u32 *u8 size *conflict
i32 submit *controller u8 *segment size *segment size i32 i32 *u32
i32 submit_fill *controller u8 u32 *segment size i32 i32 *u32
i32 issue *controller u8 *u32
i32 pause *controller u8
i32 resume *controller u8
i32 terminate *controller u8 *u32
i32 step *controller u8 u32 *report
i32 status *controller u8 u32
i32 result *controller u8 u32 *outcome
i32 running *controller u8 *run
i32 unfinished *controller u8 *u32
i32 forgotten *controller u8 *u32
i32 steps *controller *u64
i32 history_entries *controller *u64
i32 history_bytes *controller *u64
i32 running_count *controller *u32
i32 inject_error *controller u32 segment
i32 uninject_errors *controller
i32 raise *controller u8
i32 checkpoint *controller *conflict
i32 channel_open *channel
void channel_close *channel
i32 channel_load_copy *channel *segment size *segment size i32 i32
i32 channel_load_fill *channel u32 *segment size i32 i32
i32 channel_load_program *channel *u8 size
i32 channel_load_from *channel *region size u32
i32 channel_step *channel *region size *u32 u32 *channel_report
i32 channel_stop *channel
i32 channel_registers *channel *registers
i32 channel_inject_error *channel u32 segment
i32 channel_uninject_errors *channel
i32 channel_save *channel *u8 size *size
i32 channel_restore *channel *u8 size
i32 device_open *device *device_config
void device_close *device
i32 device_reset *device
i32 device_read *device u32 *u32
i32 device_write *device u32 u32 *region size
i32 device_step *device u8 u32 *region size *device_turn
i32 device_step_rows *device u8 u32 *region size *device_rows
i32 device_explain *device u8 u32 *repeated size *segment size *segment size *event size *explanation
i32 device_registers *device u8 *registers
i32 device_lines *device *u32 *u32
i32 device_can_step *device *u32
i32 device_save *device *u8 size *size
i32 device_restore *device *u8 size
i32 version *char size *size
i32 run_program *u8 size *u8 size u32 *run_end
i32 explain *u8 size u32 *start u32 *repeated size *segment size *segment size *event size *explanation
i32 plan *segment size *segment size i32 i32 u32 *u8 size *size
i32 plan_fill u32 *segment size i32 i32 u32 *u8 size *size
i32 assemble *char size *u8 size *size *size
i32 disassemble *u8 size *char size *size *size
"""

# Each code that a call may return.
CODES_TABLE = """
OK=0 NOT_OPEN=-1 ALREADY_OPEN=-2 NO_MEMORY=-3 BUFFER_TOO_SMALL=-4 NO_CHANNEL=-5 NO_PROGRAM=-6 PROGRAM_TOO_LONG=-7
BAD_CHANNELS=-8 SIZE_OUT_OF_RANGE=-9 BAD_REGIONS=-10 BAD_CONFIG=-11 BAD_EVENT=-12 BAD_ACCESS=-13 BAD_RANGE=-14
OUT_OF_MEMORY_RANGE=-15 EMPTY_LIST=-16 TOO_MANY_SEGMENTS=-17 EMPTY_SEGMENT=-18 SEGMENT_WRAPS=-19 TOTALS_DIFFER=-20
TOO_LONG=-21 DESTINATIONS_MEET=-22 SOURCE_MEETS_DESTINATION=-23 BUSY=-24 RUNNING=-25 NOT_RUNNING=-26 NO_RESULT=-27
COOKIES_SPENT=-28 STEPS_SPENT=-29 BAD_SAVE=-30 OTHER_DEVICE=-31 BAD_MNEMONIC=-32 BAD_OPERAND=-33
NUMBER_OUT_OF_RANGE=-34 CUT_INSTRUCTION=-35 UNKNOWN_INSTRUCTION=-36 BAD_FIELD=-37 UNEXPLAINED=-38
"""
