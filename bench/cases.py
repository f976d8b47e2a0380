"""The inputs of the program that bench/measure times, and what each is compared with."""
import ctypes

MIB = 1 << 20


def script(size, channels, lines):
    return "\n".join(["memory %d %d" % (size, channels)] + lines + [""]).encode()


def segments(start, stride, count=64):
    return ",".join("%d+64" % (start + stride * i) for i in range(count))


def copies(count, offset):
    return script(4 * MIB, 1, ["copy %d+%d to %d+%d" % (offset, MIB, 2 * MIB + offset, MIB)] * count)


def copies_of_written(count, offset=0):
    # a write to each chunk of the source, which the other copies read as zeros
    lines = ["write %d 5A" % (16384 * i) for i in range(65)]
    return script(4 * MIB, 1, lines + ["copy %d+%d to %d+%d" % (offset, MIB, 2 * MIB + offset, MIB)] * count)


def fills(count):
    return script(4 * MIB, 1, ["fill 1 to %d+%d" % (2 * MIB + 1, MIB)] * count)


def step_lines(count):
    return script(4 * MIB, 1, ["submit 0 0+%d to %d+%d" % (MIB, 2 * MIB, MIB), "issue 0", "step 0 20518"] * count)


def lists(count):
    return script(MIB, 1, ["copy %s to %s" % (segments(0x10000, 0x100), segments(0x40000, 0x80))] * count)


def small(count, last=()):
    return script(0x1000, 1, ["submit 0 0x100+4 to 0x200+4", "issue 0", "step 0 9", *last] * count)


def eight_running():
    lines = []
    for ch in range(8):
        place = ch * 0x40000
        lines += ["submit %d %d+0x20000 to %d+0x20000" % (ch, place, place + 0x20000), "issue %d" % ch]
    return lines


def turns(count):
    return script(2 * MIB, 8, eight_running() + ["step %d" % (i % 8) for i in range(count)])


def seven_running():
    lines = []
    for ch in range(7):
        place = 0x20000 * ch
        lines += ["submit %d %s to %s" % (ch, segments(place, 0x100), segments(place + 0x10000, 0x100))]
        lines += ["issue %d" % ch, "step %d" % ch]
    return lines


def starts(count):
    transfer = "submit 7 %s to %s" % (segments(0xE0000, 0x100), segments(0xF0000, 0x100))
    return script(MIB, 8, seven_running() + [transfer, "issue 7", "step 7", "terminate 7"] * count)


def held(count):
    # only the last source of the front transfer shares addresses with a destination, that of the last running transfer
    sources = segments(0xF0000, 0x100, 63) + ",%d+64" % (6 * 0x20000 + 0x10000 + 63 * 0x100)
    front = "submit 7 %s to %s" % (sources, segments(0xE0000, 0x100))
    return script(MIB, 8, seven_running() + [front, "issue 7", "step 7 %d" % count])


def marks(count):
    lines = ["mark %s %d+1" % (("read", "write")[i % 2], 0x10000 + 8 * i) for i in range(count)]
    return script(MIB, 1, lines + ["copy 0+0x8000 to 0x8000+0x8000"] * 100)


def writes(count):
    return script(MIB, 1, ["write %d 00 11 22 33 44 55 66 77" % (i % 0xF0000) for i in range(count)])


def hex_bytes(count):
    line = " ".join([bytes(range(256)).hex(" ").upper()] * 16)
    return script(MIB, 1, ["write %d %s" % (0x100 * i, line) for i in range(count)])


def reads(count):
    return script(MIB, 1, ["read 0x%x+16" % i for i in range(count)])


def assembly():
    comment = "# " + "what the next instruction is there for, at some length " * 24
    lines = [comment + "\n" + insn for insn in ("DMAMOV SAR 0x00001000", "DMALD", "DMAST")] * 1000
    return "\n".join(lines).encode()


def memmove(count, offset):
    """Returns a function that moves the same bytes as `copies`."""
    memory = ctypes.create_string_buffer(4 * MIB + 64)
    base = (ctypes.addressof(memory) + 63) & ~63

    def work():
        for _ in range(count):
            ctypes.memmove(base + 2 * MIB + offset, base + offset, MIB)
    work.memory, work.word = memory, "memmove"
    return work


def memset(count):
    """Returns a function that sets as many bytes as `fills` does."""
    memory = ctypes.create_string_buffer(2 * MIB)

    def work():
        for _ in range(count):
            ctypes.memset(ctypes.addressof(memory) + 1, 0, MIB)
    work.word = "memset"
    return work


MOVED = b" NoError residue 0"
# The subcommand, its input, a text that a full run prints and how often, and the function to compare with (None: cat).
CASES = {
    "start": ("run", script(4 * MIB, 1, []), None, None),
    "copies": ("run", copies(100, 0), (MOVED, 100), memmove(100, 0)),
    "written": ("run", copies_of_written(100), (MOVED, 100), memmove(100, 0)),
    "odd": ("run", copies(20, 1), (MOVED, 20), memmove(20, 1)),
    "fills": ("run", fills(100), (MOVED, 100), memset(100)),
    "step_lines": ("run", step_lines(20), (MOVED, 20), memmove(20, 0)),
    "lists": ("run", lists(500), (MOVED, 500), None),
    "small1k": ("run", small(1_000), (MOVED, 1_000), None),
    "small20k": ("run", small(20_000), (MOVED, 20_000), None),
    "checkpoints": ("run", small(20_000, ["checkpoint"]), (MOVED, 20_000), None),
    "turns": ("run", turns(200_000), (MOVED, 8), None),
    "starts": ("run", starts(1_000), (b"started", 1_007), None),
    "held": ("run", held(1_000), (b"held 6 1 x1000", 1), None),
    "marks": ("run", marks(10_000), (MOVED, 100), None),
    "writes": ("run", writes(110_000), (b"ok\n", 110_000), None),
    "hex": ("run", hex_bytes(340), (b"ok\n", 340), None),
    "reads": ("run", reads(150_000), (b"read 0x", 150_000), None),
    "comment": ("run", b"memory 1 1\n#" + b" x" * (2 * MIB - 100), None, None),
    "asm": ("asm", assembly(), (b"BC 00 00 10", 1_000), None),
    "dis": ("dis", b"BC 00 00 10 00 00 04 08 " * 170_000, (b"DMAMOV ", 170_000), None),
}
# Lines of which the instructions are counted: the lines before them, and those that repeat.
PIECES = "copy %s to %s" % (segments(0x10000, 0x100), segments(0x40000, 0x80))
COUNTED = {
    "submit of 4 bytes, issue, step 0 9": ([], ["submit 0 0x100+4 to 0x200+4", "issue 0", "step 0 9"]),
    "step, 8 channels in turn": (eight_running(), ["step %d" % ch for ch in range(8)]),
    "read of 16 bytes": ([], ["read 0x100+16"]),
    "write of 16 bytes": ([], ["write 0x100" + 16 * " 5A"]),
    "pause": ([], ["pause 0"]),
    "copy of 4 bytes": ([], ["copy 0x100+4 to 0x200+4"]),
    "copy of 64 segments": ([], [PIECES]),
}
# Copies whose pages `bench/measure` maps apart, by a function of their number, and the offset of their addresses.
PAGES = {
    "written": (copies_of_written, 0),
    "odd": (lambda count: copies_of_written(count, 1), 1),
    "unwritten": (lambda count: copies(count, 0), 0),
}
# A page at the end of the largest memory, and a copy of its last bytes across the edge of two more.
LARGEST = script(4294963200, 1, ["write 0xFFFFEFFC 01 02 03 04", "copy 0xFFFFEFFC+4 to 0xFFE+4"])
