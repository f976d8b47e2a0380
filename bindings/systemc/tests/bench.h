// A bench for the tests: a device, and a memory that answers as a test says.
#ifndef BENCH_H
#define BENCH_H

#include "../parts.h"

#include <memory>

typedef std::vector<std::uint8_t> program;
enum { STEP_NS = 10, BYTES = 0x10000, PROGRAM = 0, SRC = 0x4000, DST = 0x8000 };

// A device and its memory, which has 64 KiB from address 0 on.
struct bench : sc_core::sc_module {
    tlm_utils::simple_target_socket<bench> target;
    std::vector<std::uint8_t> bytes;
    std::function<bool(tlm::tlm_generic_payload &access, tlm::tlm_dmi &dmi)> answers;
    unsigned asked = 0;
    dma330_tlm dma;
    sc_core::sc_signal<bool> line[2], abort, reset;
    std::vector<sc_time> rises; // of line 0
    std::vector<dma330_segment> written;

    bench(sc_core::sc_module_name name, unsigned most, sc_time step)
        : sc_module(name), target("target"), bytes(BYTES), dma("dma", {8, 8, 0, 64, 128, 3}, step, most)
    {
        SC_HAS_PROCESS(bench);
        target.register_get_direct_mem_ptr(this, &bench::get_dmi);
        dma.mem.bind(target);
        dma.irq[0].bind(line[0]); // (the others stay unbound)
        dma.irq[1].bind(line[1]);
        dma.irq_abort.bind(abort);
        dma.reset.bind(reset);
        dma.on_written = [this](std::uint32_t addr, std::uint32_t len) { written.push_back({addr, len}); };
        for (unsigned n = 0; n < BYTES; n++)
            bytes[n] = std::uint8_t(n * 2654435761u >> 13);
        SC_METHOD(rise);
        sensitive << line[0].posedge_event();
        dont_initialize();
    }

    void rise() { rises.push_back(sc_core::sc_time_stamp()); }

    // Grants addresses from `from` up to `to`, to which the bytes at `at` belong.
    bool grant(tlm::tlm_dmi &dmi, std::uint64_t from, std::uint64_t to, std::uint8_t *at,
               tlm::tlm_dmi::dmi_access_e how = tlm::tlm_dmi::DMI_ACCESS_READ_WRITE)
    {
        dmi.set_start_address(from);
        dmi.set_end_address(to - 1);
        dmi.set_dmi_ptr(at);
        dmi.set_granted_access(how);
        return true;
    }

    bool get_dmi(tlm::tlm_generic_payload &access, tlm::tlm_dmi &dmi)
    {
        asked++;
        if (answers)
            return answers(access, dmi);
        if (access.get_address() < BYTES)
            return grant(dmi, 0, BYTES, bytes.data());
        dmi.set_start_address(BYTES);
        return false;
    }

    void put(std::uint32_t at, const program &it) { std::copy(it.begin(), it.end(), bytes.begin() + at); }
};

// Copies `bursts` of 128 bytes, and signals event `event`: 6 + 3 * bursts instructions.
static program copies(std::uint32_t src, std::uint32_t dst, unsigned bursts, unsigned event)
{
    return {DMA330_DMAMOV_SAR(src), DMA330_DMAMOV_DAR(dst), DMA330_DMAMOV_CCR(DMA330_CCR_COPY(16, 8)),
            DMA330_DMALP(0, bursts), DMA330_DMALD, DMA330_DMAST, DMA330_DMALPEND(0, 2), DMA330_DMASEV(event),
            DMA330_DMAEND};
}

// An initiator that tests the devices of many benches, one after another.
struct bench_tests : initiator {
    std::vector<std::unique_ptr<bench>> &benches;
    bench *b = nullptr;     // the bench of the test that runs
    std::uint64_t regs = 0; // where its registers are

    bench_tests(sc_core::sc_module_name name, std::vector<std::unique_ptr<bench>> &benches)
        : initiator(name), benches(benches)
    {
    }

    // Adds devices with turns of these sizes to a bus, which is bound to this initiator.
    void add(bus &to, const std::vector<unsigned> &turns, sc_time step)
    {
        if (benches.empty())
            socket.bind(to.in);
        for (unsigned most : turns) {
            const std::size_t n = benches.size();
            benches.emplace_back(new bench(sc_core::sc_gen_unique_name("bench"), most, step));
            to.add(benches[n]->dma.regs, n * 0x2000, 0x2000);
        }
    }

    // Goes on with bench n.
    void use(unsigned n)
    {
        b = benches[n].get();
        regs = n * 0x2000;
        writel(regs + INTEN, 3);
    }

    static sc_time steps(unsigned n) { return sc_time(n * STEP_NS, SC_NS); }

    sc_time since(sc_time began) { return sc_core::sc_time_stamp() - began; }

    void expect_rise(unsigned n, sc_time began, unsigned steps, const std::string &what)
    {
        if (!b->line[n].read())
            wait(sc_time(1, sc_core::SC_MS), b->line[n].posedge_event());
        expect(b->line[n].read() && since(began) == bench_tests::steps(steps), what + since(began).to_string());
    }

    void clear_all()
    {
        writel(regs + INTCLR, 3);
        wait(1, SC_NS);
        expect(!b->line[0].read() && !b->line[1].read(), "the lines fall");
    }
};

#endif
