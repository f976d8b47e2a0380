/* The test: runs of copies with all kinds of trouble, for one seed or several. HARNESS.md is about its use. */
#include "harness_inside.h"

#include <stdio.h>
#include <string.h>

enum { COPIES = 60 };

/* ---- runs ---- */

/* Lets time pass, and calls the driver's handlers. */
static void let_pass(void)
{
    pass();
    if (machine.tick - machine.last_timer < HARNESS_TIMER)
        return;
    machine.last_timer = machine.tick;
    machine.accesses_of_call = 0;
    machine.driver->handle_timer();
}

/* Expects that the machine is at rest, and that all bytes are right. */
static void expect_rest(void)
{
    uint32_t can_step = 1;

    expect(dma330_device_can_step(&machine.device, &can_step) == DMA330_OK && can_step == 0, "a channel still runs");
    if (high_lines() != 0)
        fail("a line is still high: %s", why_high());
    expect_bytes();
}

static bool any_copy_runs(void)
{
    bool any = false;

    for (uint32_t n = 0; n < HARNESS_MOST_COPIES; n++)
        any = any || machine.copies[n].runs;
    return any;
}

/* Makes copies while some kinds of trouble come, and prints how that went. */
static void run(const char *name, uint32_t kinds)
{
    uint32_t started = 0;
    char names[NAMES];

    machine.run = name;
    machine.kinds = kinds;
    machine.stops = machine.troubles = machine.budget = machine.kills = machine.faults = 0;
    for (uint32_t n = 0; started < COPIES || any_copy_runs(); n = (n + 1) % machine.driver->copies) {
        if (machine.copies[n].runs)
            watch_copy(n);
        else if (started < COPIES)
            start_copy(n, ++started);
        let_pass();
    }
    expect_rest();
    if (!is_brief)
        printf("%-15s %3lu troubles, %3lu kills, FTR %s, %lu copies right\n", name, (unsigned long)machine.troubles,
               (unsigned long)machine.kills, names_of_faults(machine.faults, names),
               (unsigned long)(COPIES - machine.stops));
}

/* Resets the driver, while some events are set. No copy is busy afterwards. */
static void reset(void)
{
    set_events();
    machine.run = "the driver's reset";
    machine.driver->reset();
    for (uint32_t n = 0; n < machine.driver->copies; n++)
        if (machine.driver->is_busy(n))
            fail("copy %lu is busy after `reset`", (unsigned long)n);
}

static void make_runs(void)
{
    bool has_stop = machine.driver->stop != NULL;

    reset();
    run("no trouble", 0);
    run("lost interrupts", LOST);
    run("slow channels", SLOW);
    run("failing bursts", GAP);
    run("failing stores", ROM);
    run("a shared line", SHARED);
    if (has_stop)
        run("stopped copies", STOPS);
    run("all of these", LOST | SLOW | GAP | ROM | SHARED | (has_stop ? STOPS : 0));
}

/* Tests a driver with a seed. Returns whether all is right. */
static bool passes(const harness_driver *driver, uint32_t seed)
{
    open_machine(driver, seed);
    if (setjmp(failing) == 0)
        make_runs();
    dma330_device_close(&machine.device);
    return !machine.has_failed;
}

/* ---- the command line ---- */

static struct {
    uint32_t first, last;
    const char *wave;
} options;

/* Reads a number, after which `end` follows. Returns the text after both, or NULL. */
static const char *number(const char *text, char end, uint32_t *value)
{
    const uint64_t most = 0xFFFFFFFF;
    uint64_t sum = 0;
    const char *at = text;

    for (; *at >= '0' && *at <= '9' && sum <= most; at++)
        sum = 10 * sum + (uint64_t)(*at - '0');
    *value = (uint32_t)sum;
    return at != text && sum <= most && *at == end ? at + 1 : NULL;
}

/* Reads an option and its operand. Returns NULL, or what is wrong. */
static const char *option(const char *name, const char *operand)
{
    const char *second;

    if (strcmp(name, "--seed") != 0 && strcmp(name, "--seeds") != 0 && strcmp(name, "--vcd") != 0)
        return "is no option; they are --seed N, --seeds A-B and --vcd FILE";
    if (operand == NULL)
        return "has no operand";
    if (strcmp(name, "--vcd") == 0) {
        options.wave = operand;
        return NULL;
    }
    if (strcmp(name, "--seed") == 0) {
        if (number(operand, '\0', &options.first) == NULL)
            return "takes a number from 0 to 4294967295";
        options.last = options.first;
        return NULL;
    }
    second = number(operand, '-', &options.first);
    if (second == NULL || number(second, '\0', &options.last) == NULL || options.first > options.last)
        return "takes two numbers from 0 to 4294967295 that rise, as 1-100";
    return NULL;
}

static bool are_options(int argc, char **argv)
{
    options.first = options.last = 1;
    for (int n = 1; n < argc; n += 2) {
        const char *wrong = option(argv[n], n + 1 < argc ? argv[n + 1] : NULL);
        if (wrong != NULL) {
            fprintf(stderr, "%s: %s %s\n", argv[0], argv[n], wrong);
            return false;
        }
    }
    if (options.wave != NULL && options.first != options.last)
        fprintf(stderr, "%s: --vcd takes one seed\n", argv[0]);
    return options.wave == NULL || options.first == options.last;
}

/* Returns which of a driver's numbers is outside its range, or NULL. */
static const char *wrong_number(const harness_driver *driver)
{
    uint32_t align = driver->align;

    if (driver->chip.channels < 1 || driver->chip.channels > MOST_CHANNELS)
        return "chip.channels isn't 1 to 8";
    if (driver->chip.events < 1 || driver->chip.events > EVENTS)
        return "chip.events isn't 1 to 32";
    if (driver->copies < 1 || driver->copies > HARNESS_MOST_COPIES)
        return "copies isn't 1 to 8";
    if (align < 1 || align > 256 || (align & (align - 1)) != 0)
        return "align isn't a power of two from 1 to 256";
    if (driver->longest < align || driver->longest > HARNESS_MOST_BYTES)
        return "longest isn't from align to 1048576";
    for (int n = 0; n < HARNESS_SIZES; n++)
        if (driver->sizes[n] > driver->longest)
            return "one of sizes is above longest";
    return NULL;
}

/* Tests a driver with several seeds, and prints how many failed. The first that fails explains itself. */
static int test_seeds(const harness_driver *driver)
{
    uint32_t failed = 0, first = 0;

    for (uint64_t seed = options.first; seed <= options.last; seed++) {
        is_brief = options.first != options.last;
        is_silent = failed > 0;
        if (passes(driver, (uint32_t)seed))
            continue;
        if (failed++ == 0)
            first = (uint32_t)seed;
    }
    if (options.first == options.last)
        return failed > 0;
    printf("%lu of %lu seeds failed", (unsigned long)failed, (unsigned long)(options.last - options.first) + 1);
    if (failed > 0)
        printf(", the first is %lu", (unsigned long)first);
    printf("\n");
    return failed > 0;
}

int harness_main(int argc, char **argv, const harness_driver *driver)
{
    const char *wrong = wrong_number(driver);
    int status;

    if (!are_options(argc, argv))
        return 2;
    if (wrong != NULL) {
        fprintf(stderr, "%s: the driver's %s\n", argv[0], wrong);
        return 2;
    }
    if (options.wave != NULL && !open_wave(options.wave, driver)) {
        fprintf(stderr, "%s: %s can't be opened\n", argv[0], options.wave);
        return 2;
    }
    status = test_seeds(driver);
    if (!close_wave()) {
        fprintf(stderr, "%s: %s can't be written\n", argv[0], options.wave);
        return 2;
    }
    return status;
}
