"""Programs: explanations, plans, texts."""
import unittest

import dma330
from dma330 import Cause, End, EventKind, Registers, Start

TEXT = """DMAMOV SAR 0x00001000
DMAMOV DAR 0x00002000
DMAMOV CCR 0x003E40F9
DMALP 0 4
DMALD
DMAST
DMALPEND 0 2
DMASEV 3
DMAEND
"""
# A row for each cause, as docs/EXPLANATIONS.md has an example of each: the bus, and the program.
MOVES = "BC 00 00 10 00 00 BC 02 00 20 00 00 "
WORDS = "BC 01 05 40 01 00 "
CAUSES = {Cause.UNDEF_INSTR: (64, "25 00"), Cause.OPERAND_INVALID: (64, "BC 01 F9 42 BE 00"),
          Cause.MFIFO_ERR: (128, MOVES + "BC 01 F9 42 BE 00 04 04 08 08 00"),
          Cause.ST_DATA_UNAVAILABLE: (64, MOVES + "BC 01 05 42 8D 00 04 08 00"),
          Cause.INSTR_FETCH_ERR: (64, MOVES), Cause.LOADS_PAST: (0, "BC 00 FC FF FF FF BC 01 07 C0 01 00 04 00"),
          Cause.STORES_PAST: (0, MOVES + "BC 02 FC FF FF FF BC 01 07 C0 01 00 04 08 00"),
          Cause.STORES_FIXED: (64, MOVES + "BC 01 05 00 00 00 04 08 00"),
          Cause.DROPS_BYTES: (64, MOVES + WORDS + "04 BC 02 02 20 00 00 08 00"),
          Cause.BYTES_LEFT: (64, MOVES + WORDS + "04 00"),
          Cause.STORES_TWICE: (64, MOVES + WORDS + "04 08 BC 02 00 20 00 00 04 08 00"),
          Cause.STORES_SOURCE: (64, "BC 00 00 10 00 00 BC 02 00 10 00 00 " + WORDS + "04 08 00"),
          Cause.NO_END: (64, "20 01 38 02"),
          Cause.UNSET_SAR: (64, WORDS + "04 00"), Cause.UNSET_CCR: (64, MOVES + "04 08 00"),
          Cause.UNSET_DAR: (64, "BC 00 00 10 00 00 " + WORDS + "04 BC 02 00 20 00 00 08 00"),
          Cause.UNSET_LC0: (64, "22 01 38 00 00"), Cause.UNSET_LC1: (64, "20 01 3C 00 00")}


class Programs(unittest.TestCase):
    def test_explain(self):
        program = dma330.assemble(TEXT)
        found = dma330.explain(program)
        self.assertEqual((found.src, found.dst, found.copied), ([(0x1000, 1024, 1)], [(0x2000, 1024)], 1024))
        self.assertEqual((found.events, found.steps), ([(EventKind.SIGNALS, 3, 1024, 0)], 18))
        with self.assertRaises(dma330.Unexplained) as caught:
            dma330.explain(program[:-1])
        error = caught.exception
        self.assertEqual((error.cause, error.pc, error.steps), (Cause.INSTR_FETCH_ERR, len(program) - 1, 17))
        self.assertEqual(str(error), "UNEXPLAINED, cause INSTR_FETCH_ERR, pc %d, steps 17, addr 0" % error.pc)
        self.assertRaises(dma330.BadConfig, dma330.explain, program, 16)
        self.assertRaises(dma330.ProgramTooLong, dma330.explain, bytes(8193))

    def test_causes(self):
        self.assertEqual({Cause.NONE, *CAUSES}, set(Cause))
        for cause, (bus, text) in CAUSES.items():
            with self.subTest(cause.name), self.assertRaises(dma330.Unexplained) as caught:
                dma330.explain(bytes.fromhex(text), bus, most=1000)
            self.assertEqual(caught.exception.cause, cause)

    def test_explain_from_registers(self):
        program = bytes([0x04, 0x08, 0x0C, 0x34, 7 << 3, 0x00])  # DMALD, DMAST, DMASTZ, DMASEV 7, DMAEND
        start = Registers(sar=0x1000, dar=0x2000, ccr=0x00014005)
        found = dma330.explain(program, 32, start)
        self.assertEqual((found.src, found.dst, found.zeros), ([(0x1000, 4, 1)], [(0x2000, 4)], [(0x2004, 4)]))
        self.assertEqual(found.events, [(EventKind.SIGNALS, 7, 4, 4)])
        self.assertEqual((found.copied, found.cleared, found.steps), (4, 4, 5))
        with self.assertRaises(dma330.Unexplained) as caught:
            dma330.explain(bytes([4, 8, 0]), 32, Registers(sar=0x1000, dar=0x1000, ccr=0x00014005))
        self.assertEqual((caught.exception.cause, caught.exception.addr), (Cause.STORES_SOURCE, 0x1000))
        self.assertRaises(dma330.BadConfig, dma330.explain, program, 32, Registers(ccr=0xFFFFFFFF))
        for lacks, cause, pc in (("sar", Cause.UNSET_SAR, 0), ("ccr", Cause.UNSET_CCR, 0), ("dar", Cause.UNSET_DAR, 1)):
            known = {"sar": 0x1000, "dar": 0x2000, "ccr": 0x00014005}
            del known[lacks]
            with self.subTest(lacks), self.assertRaises(dma330.Unexplained) as caught:
                dma330.explain(program, 32, Start(**known))
            self.assertEqual((caught.exception.cause, caught.exception.pc), (cause, pc))
        known = Start(sar=0x1000, dar=0x2000, ccr=0x00014005)
        self.assertEqual(dma330.explain(program, 32, known), found)

    def test_lists_longer_than_the_first_room(self):
        lists = [[(start + 0x200 * n, 8) for n in range(64)] for start in (0x10000, 0x40004)]
        found = dma330.explain(dma330.plan(*lists))
        self.assertEqual(([one[:2] for one in found.src], found.dst), (lists[0], lists[1]))
        # 256 bytes of DMASEVs, 100 times
        program = bytes([0x20, 99]) + b"\x34\x08" * 125 + bytes([0x38, 250, 0])
        found = dma330.explain(program)
        self.assertEqual(found.events, [(EventKind.SIGNALS, 1, 0, 0)] * 12500)

    def test_plans(self):
        for bus in (0, 32, 64, 128):
            with self.subTest(bus):
                found = dma330.explain(dma330.plan((0x1001, 300), [(0x2002, 100), (0x3003, 200)], 1, 2, bus), bus)
                self.assertEqual((found.src, found.dst), ([(0x1001, 300, 1)], [(0x2002, 100), (0x3003, 200)]))
                self.assertEqual(found.events, [(EventKind.WAITS, 1, 0, 0), (EventKind.SIGNALS, 2, 300, 0)])
                found = dma330.explain(dma330.plan_fill(0x1000, (0x2002, 300), bus=bus), bus)
                self.assertEqual((found.src, found.dst), ([(0x1000, 1, 300)], [(0x2002, 300)]))
        self.assertRaises(dma330.SourceMeetsDestination, dma330.plan, (0, 8), (4, 8))
        self.assertRaises(dma330.BadConfig, dma330.plan, (0, 8), (8, 8), bus=8)

    def test_texts(self):
        program = dma330.plan_fill(0x10, [(0x1000, 333), (0x3000, 17)], wait=1, signal=2, bus=32)
        self.assertEqual(dma330.assemble(dma330.disassemble(program)), program)
        self.assertEqual(dma330.assemble("DMALP 1 256\nDMALD\nDMAST\nDMALPEND 1 2\nDMAEND").hex(), "22ff04083c0200")
        self.assertEqual((dma330.disassemble(b""), dma330.assemble("")), ("", b""))
        rows = [(dma330.BadMnemonic, dma330.assemble, "DMALD\nDMAFOO\n", 2),
                (dma330.BadOperand, dma330.assemble, "DMALD 1", 1),
                (dma330.NumberOutOfRange, dma330.assemble, "DMALD\n\nDMASEV 32", 3),
                (dma330.ProgramTooLong, dma330.assemble, "DMALD\n" * 8193, 8193),
                (dma330.UnknownInstruction, dma330.disassemble, b"\x04\xFF", 1),
                (dma330.CutInstruction, dma330.disassemble, b"\x04\x08\xBC\x00", 2),
                (dma330.BadField, dma330.disassemble, b"\xBC\x03\0\0\0\0", 0)]
        for kind, call, text, place in rows:
            with self.subTest(kind.__name__), self.assertRaises(kind) as caught:
                call(text)
            self.assertEqual(caught.exception.place, place)

    def test_run_program(self):
        memory = bytearray(0x4000)
        memory[0x10] = 0x5A
        end = dma330.run_program(dma330.plan_fill(0x10, (0x1000, 333)), memory)
        self.assertEqual((end.end, end.fault), (End.ENDED, None))
        self.assertEqual(memory[0xFFF:0x114E], b"\0" + b"\x5A" * 333 + b"\0")
        end = dma330.run_program(b"\x18", memory)
        self.assertEqual((end.end, end.fault, end.pc), (End.FAULT, dma330.Fault.INSTR_FETCH_ERR, 1))
        self.assertEqual(dma330.run_program(b"\x36\x08\0", memory)[:3], (End.WAITING, 0, 1))
        self.assertEqual(dma330.run_program(b"\x18" * 9, memory, 3).end, End.OUT_OF_STEPS)
        self.assertRaises(dma330.SizeOutOfRange, dma330.run_program, b"\0", bytearray())
        self.assertRaises(TypeError, dma330.run_program, b"\0", b"\0")

    def test_version(self):
        self.assertRegex(dma330.version(), r"^dilkwafam 1\.[0-9]+$")


if __name__ == "__main__":
    unittest.main()
