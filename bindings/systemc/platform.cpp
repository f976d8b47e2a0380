// An example: a memory, a ROM, two DMA-330s and a driver on a bus.
//
//     c++ -std=c++17 -Iinclude -Ibindings/systemc bindings/systemc/platform.cpp out/libdma330.a -lsystemc
//     ./a.out [COPIES [MOST]]                    # (-std is that with which SystemC was built)
//
// The driver copies 1 MiB by programs of dma330_plan, on one device and on both. It also moves the memory in the middle
// of a copy, writes to the ROM, and resets the devices. The last line is 'N passed, M failed'. With COPIES it first
// measures as many copies of 1 MiB, with turns of at most MOST steps, by the processor's time.
#include "parts.h"

#include <cstdlib>
#include <ctime>

static const std::uint64_t RAM = 0x80000000, ROM = 0x00000000, DMA[2] = {0x10000000, 0x10001000};
enum { RAM_BYTES = 0x1000000, ROM_BYTES = 0x10000, MIB = 0x100000, STEP_NS = 10 };
enum { A = 0x80100000, B = A + MIB, C = B + MIB, D = C + MIB };

struct driver : initiator {
    sc_core::sc_vector<sc_core::sc_in<bool>> irq;
    sc_core::sc_in<bool> irq_abort;
    sc_core::sc_out<bool> reset;
    memory &ram;
    const int copies;
    std::uint64_t written = 0;

    driver(sc_core::sc_module_name name, memory &ram, int copies)
        : initiator(name), irq("irq", 2), irq_abort("irq_abort"), reset("reset"), ram(ram), copies(copies)
    {
        SC_HAS_PROCESS(driver);
        SC_THREAD(run);
    }

    // Writes the program of a copy to the first MiB of RAM, and starts it on channel 0 of device n. Returns the time
    // that its instructions take.
    sc_time copy(unsigned n, std::uint32_t src, std::uint32_t dst)
    {
        const dma330_segment from = {src, MIB}, to = {dst, MIB};
        std::uint8_t program[DMA330_MAX_PROGRAM];
        std::size_t len = 0;
        expect(dma330_plan(&from, 1, &to, 1, DMA330_NO_EVENT, 0, 64, program, sizeof program, &len) == DMA330_OK,
               "dma330_plan");
        const std::uint32_t at = std::uint32_t(RAM) + n * DMA330_MAX_PROGRAM;
        expect(access(tlm::TLM_WRITE_COMMAND, at, program, unsigned(len)) == tlm::TLM_OK_RESPONSE, "a program");
        while (readl(DMA[n] + DBGSTATUS) & 1)
            wait(100, SC_NS);
        go(DMA[n], 0, at);
        dma330_repeated reads;
        dma330_segment writes, zeros;
        dma330_event signal;
        const dma330_start any = DMA330_ANY_REGISTERS;
        dma330_explanation found = {};
        dma330_explain(program, len, 64, &any, 100000, &reads, 1, &writes, 1, &zeros, 1, &signal, 1, &found);
        return sc_time(found.steps * STEP_NS, SC_NS);
    }

    void wait_irq(unsigned n)
    {
        if (!irq[n].read())
            wait(irq[n].posedge_event());
        writel(DMA[n] + INTCLR, 1);
        wait(1, SC_NS);
        expect(!irq[n].read(), "INTCLR lowers the line");
    }

    void fill(std::uint32_t addr, unsigned seed)
    {
        for (std::uint32_t n = 0; n < MIB; n++)
            ram.bytes[addr - RAM + n] = std::uint8_t((n * 2654435761u + seed) >> 13);
    }

    bool same(std::uint32_t a, std::uint32_t b)
    {
        return std::memcmp(&ram.bytes[a - RAM], &ram.bytes[b - RAM], MIB) == 0;
    }

    void enable()
    {
        writel(DMA[0] + INTEN, 1);
        writel(DMA[1] + INTEN, 1);
    }

    void run_copies()
    {
        fill(A, 1);
        written = 0;
        const sc_time began = sc_core::sc_time_stamp();
        const sc_time takes = copy(0, A, B);
        wait(irq[0].posedge_event());
        expect(sc_core::sc_time_stamp() - began == takes, "the interrupt comes after the time of all instructions");
        wait_irq(0);
        expect(same(A, B), "1 MiB is copied");
        expect(written == MIB, "on_written gets all bytes, each once");
        std::printf("1 MiB takes %s of the simulation's time\n", takes.to_string().c_str());
        fill(A, 2);
        fill(C, 3);
        copy(0, A, B);
        copy(1, C, D);
        wait_irq(0);
        wait_irq(1);
        expect(same(A, B) && same(C, D), "two devices copy at once");
    }

    void move_the_memory()
    {
        fill(A, 4);
        const unsigned before = ram.granted;
        copy(0, A, B);
        wait(30, sc_core::SC_US);
        expect(!irq[0].read() && !same(A, B), "the copy isn't done");
        std::vector<std::uint8_t> old(ram.bytes);
        ram.bytes.swap(old);
        std::fill(old.begin(), old.end(), std::uint8_t(0xEE));
        ram.take_back();
        wait_irq(0);
        expect(same(A, B), "1 MiB is copied, most of it after the memory has moved");
        expect(ram.granted == before + 1, "DMI is asked for again, by the device that copies");
        expect(std::count(old.begin(), old.end(), 0xEE) == long(old.size()), "nothing is written by an old pointer");
    }

    void write_to_rom()
    {
        std::uint8_t program[] = {DMA330_DMAMOV_SAR(A), DMA330_DMAMOV_DAR(ROM + 0x40),
                                  DMA330_DMAMOV_CCR(DMA330_CCR_COPY(1, 8)), DMA330_DMALD, DMA330_DMAST, DMA330_DMAEND};
        access(tlm::TLM_WRITE_COMMAND, RAM, program, sizeof program);
        go(DMA[0], 0, std::uint32_t(RAM));
        if (!irq_abort.read())
            wait(irq_abort.posedge_event());
        expect(status(DMA[0], 0) == DMA330_CSR_FAULTING, "a store to the ROM fails");
        expect(readl(DMA[0] + FTR) == 1u << DMA330_FTR_DATA_WRITE_ERR, "by data_write_err");
        kill(DMA[0], 0);
        wait(1, SC_NS);
        expect(!irq_abort.read() && status(DMA[0], 0) == DMA330_CSR_STOPPED, "DMAKILL ends the abort");
    }

    void reset_all()
    {
        fill(A, 5);
        copy(1, A, B);
        wait(30, sc_core::SC_US);
        reset.write(true);
        wait(10, SC_NS);
        reset.write(false);
        wait(10, SC_NS);
        expect(status(DMA[1], 0) == DMA330_CSR_STOPPED && readl(DMA[1] + INTEN) == 0, "a reset stops the channel");
        wait(10, sc_core::SC_MS);
        expect(!same(A, B), "the copy isn't done");
        enable();
    }

    template <typename F> void measure(const char *what, int mib, F copy_once)
    {
        const std::clock_t began = std::clock();
        for (int n = 0; n < copies; n++)
            copy_once();
        const double took = double(std::clock() - began) / CLOCKS_PER_SEC;
        std::printf("%-30s %8.0f MB/s\n", what, copies * mib * 1.048576 / took);
    }

    void measure_all()
    {
        measure("one device", 1, [&] { copy(0, A, B); wait_irq(0); });
        measure("two devices", 2, [&] { copy(0, A, B); copy(1, C, D); wait_irq(0); wait_irq(1); });
        measure("memcpy", 1, [&] { std::memcpy(&ram.bytes[B - RAM], &ram.bytes[A - RAM], MIB); wait(1, SC_NS); });
        measure("b_transport of 128 bytes each", 1, [&] {
            std::uint8_t beats[128];
            for (std::uint32_t at = 0; at < MIB; at += sizeof beats) {
                access(tlm::TLM_READ_COMMAND, A + at, beats, sizeof beats);
                access(tlm::TLM_WRITE_COMMAND, B + at, beats, sizeof beats);
            }
        });
    }

    void run()
    {
        enable();
        if (copies > 0)
            measure_all();
        run_copies();
        move_the_memory();
        write_to_rom();
        reset_all();
        std::printf("%d passed, %d failed\n", passed, failed);
        sc_core::sc_stop();
    }
};

int sc_main(int argc, char *argv[])
{
    const dma330_device_config chip = {8, 32, 0, 64, 128, 3};
    const sc_time step(STEP_NS, SC_NS);
    const unsigned most = argc > 2 ? unsigned(std::atoi(argv[2])) : 256;
    memory ram("ram", RAM_BYTES, false), rom("rom", ROM_BYTES, true);
    bus system("bus");
    dma330_tlm dma0("dma0", chip, step, most), dma1("dma1", chip, step, most);
    driver cpu("cpu", ram, argc > 1 ? std::atoi(argv[1]) : 0);
    sc_core::sc_signal<bool> line0("line0"), line1("line1"), abort("abort"), reset("reset");

    cpu.socket.bind(system.in);
    dma0.mem.bind(system.in);
    dma1.mem.bind(system.in);
    system.add(ram.socket, RAM, RAM_BYTES);
    system.add(rom.socket, ROM, ROM_BYTES);
    system.add(dma0.regs, DMA[0], 0x1000);
    system.add(dma1.regs, DMA[1], 0x1000);
    dma0.irq[0].bind(line0);
    dma1.irq[0].bind(line1);
    dma0.irq_abort.bind(abort);
    dma0.reset.bind(reset);
    dma1.reset.bind(reset);
    cpu.irq[0].bind(line0);
    cpu.irq[1].bind(line1);
    cpu.irq_abort.bind(abort);
    cpu.reset.bind(reset);
    dma0.on_written = [&](std::uint32_t, std::uint32_t len) { cpu.written += len; };
    sc_core::sc_start();
    return cpu.failed > 0;
}
