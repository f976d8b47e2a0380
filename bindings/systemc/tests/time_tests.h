// Tests of times. What is expected is the number of the program's instructions, by hand, times that of a step.
#ifndef TIME_TESTS_H
#define TIME_TESTS_H

#include "bench.h"

struct time_tests : bench_tests {
    using bench_tests::bench_tests;

    void times_of_a_copy()
    {
        b->put(PROGRAM, copies(SRC, DST, 16, 0));
        const sc_time began = sc_core::sc_time_stamp();
        go(regs, 0, PROGRAM);
        expect_rise(0, began, 54, "a copy of 16 bursts: ");
        expect(std::equal(&b->bytes[SRC], &b->bytes[SRC] + 2048, &b->bytes[DST]), "its bytes are copied");
        clear_all();
    }

    // Two channels share the device: each has its turns between those of the other.
    void times_of_two(unsigned most)
    {
        b->put(PROGRAM, copies(SRC, DST, 16, 0));
        b->put(PROGRAM + 256, copies(SRC, DST + 2048, 16, 1));
        const sc_time began = sc_core::sc_time_stamp();
        go(regs, 2, PROGRAM);
        go(regs, 5, PROGRAM + 256);
        // by turns of 16 steps: 16 of each, three times, then 6 of each
        expect_rise(0, began, most == 16 ? 102 : 54, "the first of two channels: ");
        expect_rise(1, began, 108, "the second of two channels: ");
        clear_all();
    }

    // A wait takes a step when it begins and one when it passes.
    void times_of_a_wait(unsigned most)
    {
        b->put(PROGRAM, {DMA330_DMAWFE(3), DMA330_DMASEV(0), DMA330_DMAEND});
        b->put(PROGRAM + 256, {DMA330_DMANOP, DMA330_DMASEV(3), DMA330_DMAEND});
        go(regs, 0, PROGRAM);
        wait(steps(100));
        expect(status(regs, 0) == DMA330_CSR_WAITING_FOR_EVENT, "the channel waits");
        const sc_time began = sc_core::sc_time_stamp();
        go(regs, 1, PROGRAM + 256);
        expect_rise(0, began, most > 1 ? 5 : 6, "after DMANOP, DMASEV, DMAWFE, DMASEV, DMAEND: ");
        wait(sc_core::sc_get_time_resolution() * 2);
        expect(status(regs, 1) == DMA330_CSR_STOPPED, "the other channel ends");
        expect(most == 1 || since(began) == steps(6), "by the 6th step");
        clear_all();
    }

    // An access waits for the end of the turn, so it doesn't see what comes later.
    void times_of_polls(unsigned most)
    {
        b->put(PROGRAM, copies(SRC, DST, 16, 0));
        const sc_time began = sc_core::sc_time_stamp();
        go(regs, 0, PROGRAM);
        wait(1, SC_NS);
        const bool is_one = most >= 53;
        expect(status(regs, 0) == (is_one ? DMA330_CSR_STOPPED : DMA330_CSR_EXECUTING), "a poll within a turn");
        expect(since(began) == steps(is_one ? 54 : most), "it takes until the turn ends: " + since(began).to_string());
        expect_rise(0, began, 54, "the copy goes on: ");
        clear_all();
        writel(regs + DBGINST0, DMA330_DBGINST0_GO(0));
        writel(regs + DBGINST1, PROGRAM);
        const sc_time later = sc_core::sc_time_stamp();
        std::uint32_t zero = 0; // (a write with a delay is made after it)
        expect(access(tlm::TLM_WRITE_COMMAND, regs + DBGCMD, &zero, 4, steps(7)) == tlm::TLM_OK_RESPONSE, "DBGCMD");
        expect_rise(0, later, 61, "a copy that begins later: ");
        clear_all();
    }

    // A step that fails takes its time too.
    void times_of_a_fault()
    {
        b->put(PROGRAM, {DMA330_DMAMOV_SAR(SRC), DMA330_DMAMOV_DAR(BYTES), DMA330_DMALD, DMA330_DMAST});
        const sc_time began = sc_core::sc_time_stamp();
        go(regs, 7, PROGRAM);
        wait(sc_time(1, sc_core::SC_MS), b->abort.posedge_event());
        expect(b->abort.read() && since(began) == steps(4), "a store to no memory: " + since(began).to_string());
        kill(regs, 7);
        wait(1, SC_NS);
        expect(!b->abort.read() && status(regs, 7) == DMA330_CSR_STOPPED, "DMAKILL ends the abort");
    }

    // A program that signals three times, with 12 steps from one signal to the next.
    void times_of_signals(unsigned handler, unsigned most, unsigned rises)
    {
        program it = {DMA330_DMALP(0, 3)};
        it.insert(it.end(), 10, DMA330_DMANOP);
        it.insert(it.end(), {DMA330_DMASEV(0), DMA330_DMALPEND(0, 12), DMA330_DMAEND});
        b->put(PROGRAM, it);
        b->rises.clear();
        const sc_time began = sc_core::sc_time_stamp();
        go(regs, 0, PROGRAM);
        while (since(began) < steps(60)) {
            wait(steps(60), b->line[0].posedge_event());
            wait(steps(handler)); // (0 steps are no time)
            writel(regs + INTCLR, 1);
        }
        expect(b->rises.size() == rises && b->rises[0] == began + steps(13) && b->rises.back() == began + steps(37),
               "signals with a handler of " + std::to_string(handler) + " steps and turns of " + std::to_string(most));
        clear_all();
    }

    // Rows that lie apart, which a call takes at once: 6 + 5 * 20 instructions.
    void times_of_rows()
    {
        b->put(PROGRAM, {DMA330_DMAMOV_SAR(SRC), DMA330_DMAMOV_DAR(DST), DMA330_DMAMOV_CCR(DMA330_CCR_COPY(16, 8)),
                         DMA330_DMALP(0, 20), DMA330_DMALD, DMA330_DMAST, DMA330_DMAADDH_SAR(128),
                         DMA330_DMAADDH_DAR(384), DMA330_DMALPEND(0, 8), DMA330_DMASEV(0), DMA330_DMAEND});
        b->written.clear();
        const sc_time began = sc_core::sc_time_stamp();
        go(regs, 0, PROGRAM);
        expect_rise(0, began, 106, "20 rows: ");
        expect(b->written.size() == 20, "on_written gets each row");
        for (std::uint32_t n = 0; n < b->written.size(); n++) {
            expect(b->written[n].addr == DST + 512 * n && b->written[n].len == 128, "on_written gets a row's range");
            expect(std::memcmp(&b->bytes[DST + 512 * n], &b->bytes[SRC + 256 * n], 128) == 0, "a row is copied");
        }
        clear_all();
    }

    void run_times()
    {
        const unsigned turns[] = {1, 16, 53, 256, 4096};
        for (unsigned n = 0; n < 5; n++) {
            use(n);
            times_of_a_copy();
            times_of_a_wait(turns[n]);
            times_of_rows();
            times_of_a_fault();
            times_of_polls(turns[n]);
            times_of_signals(0, turns[n], 3);
        }
        use(1);
        times_of_two(16);
        use(3);
        times_of_two(256);
        // An INTCLR less than a turn before a DMASEV comes after it.
        use(4);
        times_of_signals(5, 4096, 2);
    }
};

#endif
