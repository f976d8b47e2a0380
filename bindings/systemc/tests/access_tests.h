// Tests of accesses and of a device's life: odd accesses, resets, saves, and programs that never end.
#ifndef ACCESS_TESTS_H
#define ACCESS_TESTS_H

#include "bench.h"

struct access_tests : bench_tests {
    using bench_tests::bench_tests;

    tlm::tlm_response_status odd_access(std::uint64_t offset, unsigned len, unsigned width, bool enables,
                                        tlm::tlm_command command = tlm::TLM_READ_COMMAND)
    {
        tlm::tlm_generic_payload it;
        sc_time delay = SC_ZERO_TIME;
        unsigned char data[8] = {0}, enabled[4] = {0xFF, 0xFF, 0xFF, 0xFF};
        it.set_command(command);
        it.set_address(regs + offset);
        it.set_data_ptr(data);
        it.set_data_length(len);
        it.set_streaming_width(width);
        if (enables) {
            it.set_byte_enable_ptr(enabled);
            it.set_byte_enable_length(4);
        }
        socket->b_transport(it, delay);
        return it.get_response_status();
    }

    void odd_accesses()
    {
        for (tlm::tlm_command it : {tlm::TLM_READ_COMMAND, tlm::TLM_WRITE_COMMAND, tlm::TLM_IGNORE_COMMAND}) {
            for (unsigned len : {0, 1, 2, 3, 8})
                expect(odd_access(INTEN, len, len, false, it) == tlm::TLM_BURST_ERROR_RESPONSE, "another length");
            for (unsigned offset : {INTEN + 1, INTEN + 2, INTEN + 3, 0xFFD, 0x1000})
                expect(odd_access(offset, 4, 4, false, it) == tlm::TLM_ADDRESS_ERROR_RESPONSE, "another address");
            expect(odd_access(INTEN, 4, 2, false, it) == tlm::TLM_BURST_ERROR_RESPONSE, "a streaming width");
            expect(odd_access(INTEN, 4, 4, true, it) == tlm::TLM_BYTE_ENABLE_ERROR_RESPONSE, "byte enables");
        }
        expect(odd_access(INTEN, 4, 4, false, tlm::TLM_IGNORE_COMMAND) == tlm::TLM_OK_RESPONSE, "an ignored command");
        expect(odd_access(0xFFC, 4, 4, false) == tlm::TLM_OK_RESPONSE, "the last register");
        expect(readl(regs + INTEN) == 3, "nothing is written");
        expect((readl(regs + CRD) & 7) == 3, "CRD has a bus of 64 bits");
    }

    unsigned debug_access(std::uint64_t offset, unsigned char *data, unsigned len, tlm::tlm_command command)
    {
        tlm::tlm_generic_payload it;
        it.set_command(command);
        it.set_address(regs + offset);
        it.set_data_ptr(data);
        it.set_data_length(len);
        return socket->transport_dbg(it);
    }

    void debug_accesses()
    {
        unsigned char all[0x1000] = {0};
        expect(debug_access(0, all, 0x1000, tlm::TLM_READ_COMMAND) == 0x1000, "a debug read of all registers");
        bool same = true;
        for (std::uint32_t at = 0; at < 0x1000; at += 4) {
            const std::uint32_t value = readl(regs + at);
            same = same && std::memcmp(&value, all + at, 4) == 0;
        }
        expect(same, "it reads what accesses read");
        unsigned char some[8] = {0};
        expect(debug_access(0xFFB, some, 8, tlm::TLM_READ_COMMAND) == 5 && std::memcmp(some, all + 0xFFB, 5) == 0,
               "a debug read beyond the end, not aligned");
        expect(debug_access(0x1000, some, 8, tlm::TLM_READ_COMMAND) == 0, "a debug read beyond the end");
        expect(debug_access(INTEN, some, 4, tlm::TLM_WRITE_COMMAND) == 0 && readl(regs + INTEN) == 3, "a debug write");
    }

    // Two processes write while a turn's time passes.
    void two_writers()
    {
        b->put(PROGRAM, copies(SRC, DST, 16, 0));
        const sc_time began = sc_core::sc_time_stamp();
        go(regs, 0, PROGRAM);
        for (unsigned n = 1; n < 3; n++)
            sc_core::sc_spawn([this, n, began] {
                wait(steps(10 * n));
                writel(regs + INTEN, 3 | 1u << (n + 2));
                expect(since(began) == steps(54), "a write of another process waits for the end of the turn");
            });
        expect_rise(0, began, 54, "two processes write meanwhile: ");
        wait(1, SC_NS);
        expect(readl(regs + INTEN) == 19, "the last one's value remains");
        clear_all();
        writel(regs + INTEN, 3);
    }

    void resets()
    {
        b->put(PROGRAM, copies(SRC, DST, 16, 0));
        go(regs, 0, PROGRAM);
        wait(steps(20));
        b->reset.write(true);
        wait(1, SC_NS);
        const sc_time began = sc_core::sc_time_stamp();
        expect(status(regs, 0) == DMA330_CSR_STOPPED && readl(regs + INTEN) == 0, "a reset stops the channel");
        writel(regs + INTEN, 7);
        go(regs, 0, PROGRAM);
        expect(since(began) == SC_ZERO_TIME && readl(regs + INTEN) == 0, "while reset is high, writes are ignored");
        wait(steps(100));
        expect(!b->line[0].read() && status(regs, 0) == DMA330_CSR_STOPPED, "no interrupt comes");
        b->reset.write(false);
        wait(1, SC_NS);
        use(0);
        const sc_time again = sc_core::sc_time_stamp();
        go(regs, 0, PROGRAM);
        expect_rise(0, again, 54, "after the reset: ");
        clear_all();
    }

    // A copy of 100 bursts is saved after 16 * 13 of its 306 steps, and ends twice.
    void saves()
    {
        use(1);
        const program it = copies(SRC, DST, 100, 0);
        b->put(PROGRAM, it);
        const sc_time began = sc_core::sc_time_stamp();
        go(regs, 0, PROGRAM);
        wait(steps(200));
        std::vector<std::uint8_t> save(DMA330_MAX_DEVICE_SAVE), bytes(b->bytes);
        std::size_t len = 0;
        expect(dma330_device_save(b->dma.device(), save.data(), save.size(), &len) == DMA330_OK, "a save");
        expect_rise(0, began, 306, "the copy that is saved: ");
        b->bytes.swap(bytes);
        b->target->invalidate_direct_mem_ptr(0, BYTES - 1);
        expect(dma330_device_restore(b->dma.device(), save.data(), len) == DMA330_OK, "a restore");
        b->dma.changed();
        wait(SC_ZERO_TIME);
        wait(SC_ZERO_TIME);
        expect(!b->line[0].read(), "the line falls");
        expect(!std::equal(&b->bytes[SRC], &b->bytes[SRC] + 12800, &b->bytes[DST]), "the copy isn't done");
        expect_rise(0, sc_core::sc_time_stamp(), 306 - 208, "the copy that is restored: ");
        expect(std::equal(&b->bytes[SRC], &b->bytes[SRC] + 12800, &b->bytes[DST]), "the copy is done");
        clear_all();
    }

    // Writes the Adler-32 checksum of `len` bytes after them.
    static void sum(std::uint8_t *bytes, std::size_t len)
    {
        std::uint32_t a = 1, b = 0;
        for (std::size_t n = 0; n < len; n++) {
            a = (a + bytes[n]) % 65521;
            b = (b + a) % 65521;
        }
        const std::uint32_t it = b << 16 | a;
        std::memcpy(bytes + len, &it, 4);
    }

    // A program that has executed 2^32 - 1 instructions fails, and no step leads to that. Where its save has the number of
    // the first channel's instructions is in dma330.h.
    void last_instruction()
    {
        enum { HEAD = 40, CHANNEL = HEAD + 20, EXECUTED = CHANNEL + 26 };
        use(2);
        b->put(PROGRAM, {DMA330_DMANOP, DMA330_DMALPEND_FOREVER(1)});
        go(regs, 0, PROGRAM);
        std::vector<std::uint8_t> save(DMA330_MAX_DEVICE_SAVE);
        std::size_t len = 0;
        expect(dma330_device_save(b->dma.device(), save.data(), save.size(), &len) == DMA330_OK, "a save");
        const std::uint32_t executed = 0xFFFFFFFE;
        std::uint32_t channel_len = 0;
        std::memcpy(&channel_len, &save[CHANNEL - 4], 4);
        std::memcpy(&save[EXECUTED], &executed, 4);
        sum(&save[CHANNEL], channel_len - 4);
        sum(save.data(), len - 4);
        expect(dma330_device_restore(b->dma.device(), save.data(), len) == DMA330_OK, "a restore");
        b->dma.changed();
        const sc_time began = sc_core::sc_time_stamp();
        wait(steps(300), b->abort.posedge_event());
        expect(b->abort.read() && since(began) <= steps(256 + 1), "irq_abort rises");
        expect(status(regs, 0) == DMA330_CSR_FAULTING && readl(regs + FTR) == 1u << DMA330_FTR_LOCKUP_ERR, "lockup_err");
        kill(regs, 0);
    }

    // All channels run programs that never end. Time passes, other devices work, and each access takes a turn at most.
    void endless(unsigned n, unsigned most, sc_time step)
    {
        use(n);
        b->put(PROGRAM, {DMA330_DMALP(0, 2), DMA330_DMALPEND(0, 2)}); // (back to the DMALP)
        b->put(PROGRAM + 16, {DMA330_DMANOP, DMA330_DMALPEND_FOREVER(1)});
        b->put(PROGRAM + 32, {DMA330_DMASEV(3), DMA330_DMALPEND_FOREVER(2)});
        b->put(PROGRAM + 48, {DMA330_DMASEV(4), DMA330_DMAWFE(4), DMA330_DMALPEND_FOREVER(4)});
        b->put(PROGRAM + 64, {DMA330_DMAMOV_DAR(DST), DMA330_DMASTZ, DMA330_DMALPEND_FOREVER(7)});
        for (unsigned channel = 0; channel < 8; channel++)
            go(regs, channel, PROGRAM + channel % 5 * 16);
        sc_time began = sc_core::sc_time_stamp();
        wait(step * 10000);
        expect(since(began) == step * 10000, "time passes");
        for (unsigned channel = 0; channel < 8; channel++) {
            began = sc_core::sc_time_stamp();
            expect(status(regs, channel) == DMA330_CSR_EXECUTING || channel % 5 == 3, "a program that never ends");
            expect(since(began) <= step * most, "an access takes at most a turn");
            kill(regs, channel);
            expect(status(regs, channel) == DMA330_CSR_STOPPED, "DMAKILL ends it");
        }
    }

    // A device without lines, reset and memory.
    void alone(std::uint64_t at)
    {
        regs = at;
        writel(regs + INTEN, 0xFF);
        debug(regs, DMA330_DBGINST0_SEV(5), 0);
        expect(readl(regs + RIS) == 1u << 5, "an interrupt without a line");
        go(regs, 0, 0);
        wait(steps(2));
        expect(status(regs, 0) == DMA330_CSR_FAULTING, "a channel without memory");
        expect(readl(regs + FTR) == 1u << DMA330_FTR_INSTR_FETCH_ERR, "its program isn't found");
    }

    void run_accesses(std::uint64_t regs_alone)
    {
        alone(regs_alone);
        use(0);
        odd_accesses();
        debug_accesses();
        two_writers();
        resets();
        saves();
        endless(2, 256, steps(1));
        endless(3, 1, sc_time::from_value(1));
        last_instruction();
        use(4); // (a device that is destroyed while a channel runs)
        b->put(PROGRAM, {DMA330_DMANOP, DMA330_DMALPEND_FOREVER(1)});
        go(regs, 0, PROGRAM);
    }
};

#endif
