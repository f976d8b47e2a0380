// Tests of memory: what targets answer about DMI, and what they take back.
#ifndef MEMORY_TESTS_H
#define MEMORY_TESTS_H

#include "bench.h"

struct memory_tests : bench_tests {
    using bench_tests::bench_tests;
    typedef tlm::tlm_generic_payload payload;
    typedef tlm::tlm_dmi dmi;
    enum { NO_READ = 1 << DMA330_FTR_DATA_READ_ERR, NO_WRITE = 1 << DMA330_FTR_DATA_WRITE_ERR,
           NO_PROGRAM = 1 << DMA330_FTR_INSTR_FETCH_ERR };
    static const dmi::dmi_access_e READ = dmi::DMI_ACCESS_READ, WRITE = dmi::DMI_ACCESS_WRITE;

    // Copies 128 bytes by a program at an address, whose bytes are in `bytes` from PROGRAM on. Returns FTR, or 0 if the
    // program has ended.
    std::uint32_t copy(std::uint32_t src, std::uint32_t dst, std::uint32_t at = PROGRAM)
    {
        b->put(PROGRAM, copies(src, dst, 1, 2));
        go(regs, 0, at);
        wait(steps(20));
        if (status(regs, 0) == DMA330_CSR_STOPPED)
            return 0;
        kill(regs, 0);
        return readl(regs + FTR);
    }

    // The bench's memory takes back all DMI pointers, and gives these answers from now on.
    void answer(std::function<bool(payload &access, dmi &to)> answers)
    {
        b->answers = answers;
        b->asked = 0;
        b->target->invalidate_direct_mem_ptr(0, ~std::uint64_t(0));
    }

    // From 0x8000 on `high` answers; below is RAM.
    void split(std::function<bool(payload &access, dmi &to)> high)
    {
        bench *it = b;
        answer([it, high](payload &access, dmi &to) {
            return access.get_address() < 0x8000 ? it->grant(to, 0, 0x8000, it->bytes.data()) : high(access, to);
        });
    }

    void rights()
    {
        use(0);
        expect(copy(SRC, DST) == 0 && b->asked == 2, "RAM, and one answer about all above it");
        expect(std::equal(&b->bytes[SRC], &b->bytes[SRC] + 128, &b->bytes[DST]), "the bytes are copied");
        expect(copy(0x12000, DST) == NO_READ && copy(SRC, 0xFFF0) == NO_WRITE, "beyond the memory");
        use(1);
        bench *it = b;
        split([it](payload &, dmi &to) { return it->grant(to, 0x8000, BYTES, &it->bytes[0x8000], READ); });
        expect(copy(SRC, DST) == NO_WRITE && copy(DST, SRC) == 0, "memory for reading alone is ROM");
        use(2);
        it = b;
        split([it](payload &, dmi &to) { return it->grant(to, 0x8000, BYTES, &it->bytes[0x8000], WRITE); });
        expect(copy(SRC, DST) == NO_WRITE && copy(DST, SRC) == NO_READ, "memory for writing alone isn't used");
        use(3);
        it = b;
        answer([it](payload &access, dmi &to) {
            return access.get_address() < BYTES &&
                   it->grant(to, 0, BYTES, it->bytes.data(), access.is_read() ? READ : WRITE);
        });
        expect(copy(SRC, DST) == 0, "a target that grants only what it is asked for");
        use(4);
        it = b;
        split([it](payload &, dmi &to) { return it->grant(to, 0x8000, BYTES, nullptr); });
        expect(copy(SRC, DST) == NO_WRITE && copy(DST, SRC) == NO_READ, "no pointer");
    }

    // Reading and writing are granted each for itself: in 0x8000 to 0x8FFF for the same bytes, from 0x9000 on for
    // others, and from 0xA000 on reading alone.
    void two_rights()
    {
        use(18);
        bench *it = b;
        split([it](payload &access, dmi &to) {
            const std::uint64_t at = access.get_address();
            if (access.is_read())
                return at < BYTES && it->grant(to, 0x8000, BYTES, &it->bytes[0x8000], READ);
            if (at >= 0xA000)
                return false;
            return at < 0x9000 ? it->grant(to, 0x8000, 0x9000, &it->bytes[0x8000], WRITE)
                               : it->grant(to, 0x9000, 0xA000, &it->bytes[0x1000], WRITE);
        });
        expect(copy(SRC, 0x8F80) == 0 && copy(0x8F80, SRC) == 0, "the same bytes are RAM");
        expect(copy(SRC, 0x8FC0) == NO_WRITE && copy(SRC, 0x9000) == NO_WRITE, "others are ROM");
        expect(copy(0x8FC0, SRC) == 0 && copy(0x9FC0, SRC) == 0, "which is read");
    }

    void odd_ranges()
    {
        const int warnings = sc_core::sc_report_handler::get_count(sc_core::SC_WARNING);
        const std::uint64_t last = ~std::uint64_t(0);
        const std::uint64_t odd[][2] = {{0x9000, 0x10000}, {0, 0x8000}, {0xFFFF, 0x8001}, {last, 1}};
        for (unsigned n = 0; n < 4; n++) {
            use(5 + n);
            bench *it = b;
            split([it, odd, n](payload &, dmi &to) { return it->grant(to, odd[n][0], odd[n][1], it->bytes.data()); });
            expect(copy(SRC, 0x5000) == 0 && copy(SRC, DST) == NO_WRITE, "an answer about other addresses");
            expect(b->asked < 5, "which ends the search");
        }
        expect(sc_core::sc_report_handler::get_count(sc_core::SC_WARNING) == warnings + 4, "each device warns once");
        use(9);
        bench *it = b;
        answer([it](payload &, dmi &to) { return it->grant(to, 0, 0, it->bytes.data()); });
        expect(copy(SRC, DST) == 0 && b->asked == 1, "an answer about all 64 bits");
        use(10);
        it = b;
        answer([it](payload &access, dmi &to) {
            const std::uint64_t at = access.get_address();
            return at < BYTES && it->grant(to, at, at + 1, &it->bytes[at]);
        });
        expect(copy(SRC, DST) == 0 && b->asked == 65536, "answers about one byte each");
        use(11);
        it = b;
        answer([it](payload &, dmi &to) { return it->grant(to, 0xFFFF0000, 0, it->bytes.data()); });
        b->dma.lend(0xFFFF0000, 0x10000);
        expect(copy(0xFFFF0000 | SRC, 0xFFFFFF80, 0xFFFF0000 | PROGRAM) == 0, "the last addresses");
        expect(copy(0xFFFF0000 | SRC, 0xFFFFFFC0, 0xFFFF0000 | PROGRAM) == NO_WRITE, "not beyond them");
    }

    // Every second part of 256 bytes is granted: of 128 parts, 64 are lent.
    void many_ranges()
    {
        use(12);
        bench *it = b;
        answer([it](payload &access, dmi &to) {
            const std::uint64_t from = access.get_address() & ~std::uint64_t(0xFF);
            it->grant(to, from, from + 256, from < BYTES ? &it->bytes[from] : nullptr);
            return from < BYTES && from % 512 == 0;
        });
        expect(copy(SRC, 0x7E00) == 0 && copy(SRC, 0x7F00) == NO_WRITE, "parts below the 64th");
        expect(copy(SRC, 0x8000) == NO_WRITE, "the 65th part");
    }

    void memory_at_two_addresses()
    {
        use(13);
        bench *it = b;
        answer([it](payload &access, dmi &to) { // twice the same bytes
            const std::uint64_t from = access.get_address() & ~std::uint64_t(0xFFFF);
            return from < 0x20000 && it->grant(to, from, from + 0x10000, it->bytes.data());
        });
        expect(copy(SRC, DST) == 0 && copy(SRC, 0x10000 | DST) == NO_WRITE, "RAM is lent at its lower address");
        use(14);
        it = b;
        answer([it](payload &access, dmi &to) {
            const bool is_low = access.get_address() < 0x10000;
            return access.get_address() < 0x20000 &&
                   (is_low ? it->grant(to, 0, 0x10000, it->bytes.data(), READ)
                           : it->grant(to, 0x10000, 0x20000, it->bytes.data()));
        });
        expect(copy(0x10000 | SRC, 0x10000 | DST, 0x10000 | PROGRAM) == 0, "or where it can be written");
        expect(copy(SRC, DST, PROGRAM) == NO_PROGRAM, "and then not as ROM");
        use(15);
        it = b;
        answer([it](payload &access, dmi &to) { // the lower half, and then all
            const std::uint64_t at = access.get_address();
            if (at < 0x8000)
                return it->grant(to, 0, 0x8000, it->bytes.data());
            return at >= 0x10000 && at < 0x20000 && it->grant(to, 0x10000, 0x20000, it->bytes.data());
        });
        b->dma.lend(0, 0x8000);
        b->dma.lend(0x10000, 0x10000);
        expect(copy(SRC, 0x18000) == 0 && copy(SRC, 0x14000) == NO_WRITE, "what isn't lent is, at the other address");
    }

    void windows()
    {
        use(16);
        const std::uint64_t all = ~std::uint64_t(0);
        b->dma.lend(0x8000, all); // (not by rising address, adjacent, overlapping, beyond the memory, empty)
        b->dma.lend(PROGRAM, 256);
        b->dma.lend(0x5080, 0x1000);
        b->dma.lend(0x4000, 0x100);
        b->dma.lend(0x4080, 0x1000);
        b->dma.lend(all, all);
        b->dma.lend(0x2000, 0);
        expect(copy(0x4000, 0x8000) == 0 && copy(0x40C0, 0x5040) == 0 && copy(0x5040, 0xFF80) == 0, "over the windows");
        expect(copy(0x6000, 0x8000) == 0 && copy(0x6040, 0x8000) == NO_READ, "up to the last byte");
        expect(copy(0x2000, 0x8000) == NO_READ && copy(0x4000, 0x3FC0) == NO_WRITE, "not between them");
        b->dma.lend(0x2000, 0x1000);
        expect(copy(0x2000, 0x8000) == 0, "a window that is named later");
    }

    void taking_back()
    {
        use(17);
        bench *it = b;
        answer([it](payload &, dmi &to) { // the first answer takes itself back
            if (it->asked == 1)
                it->target->invalidate_direct_mem_ptr(0, BYTES - 1);
            return it->grant(to, 0, 0, it->bytes.data());
        });
        expect(copy(SRC, DST) == 0 && b->asked == 2, "DMI is taken back by an answer");
        answer([it](payload &, dmi &to) { // and so does each
            it->target->invalidate_direct_mem_ptr(0, BYTES - 1);
            return it->grant(to, 0, 0, it->bytes.data());
        });
        expect(copy(SRC, DST) == NO_PROGRAM, "DMI is taken back by each answer");
        answer(nullptr);
        expect(copy(SRC, DST) == 0, "DMI is granted again");
        // in the middle of a copy of 100 bursts, which has 306 steps, the memory no longer grants its second half
        b->put(PROGRAM, copies(SRC, DST, 100, 0));
        go(regs, 1, PROGRAM);
        wait(steps(100));
        split([](payload &, dmi &) { return false; });
        wait(steps(300));
        expect(status(regs, 1) == DMA330_CSR_FAULTING && readl(regs + FTR + 4) == NO_WRITE, "DMI is taken back");
        kill(regs, 1);
    }

    void run_memory()
    {
        rights();
        two_rights();
        odd_ranges();
        many_ranges();
        memory_at_two_addresses();
        windows();
        taking_back();
    }
};

#endif
