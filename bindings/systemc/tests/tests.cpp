// Tests of dma330_tlm.h, each on a device of its own. The last line is 'N passed, M failed'.
#include "access_tests.h"
#include "memory_tests.h"
#include "time_tests.h"

typedef std::vector<std::unique_ptr<bench>> bench_list;
enum { ALONE = 0x100000 }; // the registers of a device that isn't in a bench

// Makes a device that can't be, and returns whether that is refused.
static bool is_refused(const dma330_device_config &config, sc_time step, unsigned most)
{
    try {
        dma330_tlm dma("refused", config, step, most);
    } catch (const sc_core::sc_report &report) {
        return report.get_severity() == sc_core::SC_ERROR;
    }
    return false;
}

struct all_tests : sc_core::sc_module {
    time_tests &times;
    memory_tests &memory;
    access_tests &access;

    all_tests(sc_core::sc_module_name name, time_tests &times, memory_tests &memory, access_tests &access)
        : sc_module(name), times(times), memory(memory), access(access)
    {
        SC_HAS_PROCESS(all_tests);
        SC_THREAD(run);
    }

    void run()
    {
        times.run_times();
        memory.run_memory();
        access.run_accesses(ALONE);
        wait(100, SC_NS);
        sc_core::sc_stop();
    }
};

int sc_main(int, char **)
{
    const dma330_device_config chip = {8, 8, 0, 64, 128, 3};
    const sc_time step(STEP_NS, SC_NS);
    bench_list for_times, for_memory, for_access;
    bus times_bus("times_bus"), memory_bus("memory_bus"), access_bus("access_bus");
    time_tests times("times", for_times);
    memory_tests memory("memory", for_memory);
    access_tests access("access", for_access);
    times.add(times_bus, {1, 16, 53, 256, 4096}, step);
    memory.add(memory_bus, std::vector<unsigned>(19, 256), step);
    access.add(access_bus, {4096, 16, 256}, step);
    access.add(access_bus, {1}, sc_time::from_value(1));
    access.add(access_bus, {256}, step);
    dma330_tlm alone("alone", chip, step);
    alone.mem.bind(memory_bus.in);
    access_bus.add(alone.regs, ALONE, 0x1000);
    all_tests all("all", times, memory, access);

    dma330_device_config odd = chip;
    odd.channels = 9;
    sc_core::sc_report_handler::set_actions(sc_core::SC_WARNING, sc_core::SC_DO_NOTHING);
    access.expect(is_refused(odd, step, 256), "9 channels");
    odd = chip;
    odd.events = 0xFFFFFFFF;
    access.expect(is_refused(odd, step, 256), "too many events");
    access.expect(is_refused(chip, SC_ZERO_TIME, 256), "a step of no time");
    access.expect(is_refused(chip, step, 0), "turns of no steps");
    access.expect(is_refused(chip, sc_time(1, sc_core::SC_SEC), 0xFFFFFFFF), "turns that are too long");

    sc_core::sc_start();
    const int failed = times.failed + memory.failed + access.failed;
    std::printf("%d passed, %d failed\n", times.passed + memory.passed + access.passed, failed);
    return failed > 0;
}
