/* Explains programs as drivers write them, and runs them on a channel and on devices. Each must be explained as its
 * author means it. What is explained must run exactly so, also after bytes of the program were changed. A run of what
 * isn't explained must end at the cause.
 *
 *     drivers                 takes all programs, and changes of the seeds 1 to 2000
 *     drivers --seeds A-B     takes changes of these seeds alone, and prints how many have each cause
 *     drivers --time          prints how many nanoseconds an explanation takes for each instruction */
#include "drivers.h"
#include "guest.h"

#include <stdio.h>
#include <stdlib.h>
#include <string.h>
#include <time.h>

static program p;
static explained e;

static const uint32_t buses[] = {0, 32, 64, 128};

/* ---- programs that are meant ---- */

/* The program is explained on this bus as it is meant, for any registers, and runs so, whatever follows it. Only one whose
 * beats are too wide isn't explained. */
static void check_on_bus(uint32_t bus, const char *what, uint32_t n)
{
    uint32_t place, most = 1 + (n * 7 + bus) % 5000, len = p.len + n % 9;
    bool is_unset;

    explain(&e, p.bytes, len, bus, p.means.steps);
    expect(explain_for_any(&e, p.bytes, len, bus, p.means.steps, &is_unset), what, n);
    check(!is_unset, what, n);
    if (bus != 0 && 8 * p.widest > bus) {
        check(e.code == DMA330_UNEXPLAINED && e.cause == DMA330_CAUSE_OPERAND_INVALID && e.is.src_len == 0, what, n);
        return;
    }
    if (!is_meant(&e, &p.means) || !lend_ranges(&e.is, p.bytes, len, &place)) {
        check(false, what, n);
        return;
    }
    if (bus != 0)
        expect(explain_on_device(&e, place, bus, p.means.steps), what, n);
    expect(bus == 0 ? run_on_channel(&e, p.bytes, len, most) : run_on_device(&e, place, bus, most), what, n);
}

/* A long run is tried on a channel and on one device. */
static void check_program(const char *what, uint32_t n)
{
    for (uint32_t k = 0; k < sizeof buses / sizeof buses[0]; k++)
        if (p.means.steps < 2000000 || k == 0 || k == 1 + n % 3)
            check_on_bus(buses[k], what, n);
    explain(&e, p.bytes, p.len, 0, p.means.steps - 1);
    check(e.code == DMA330_UNEXPLAINED && e.cause == DMA330_CAUSE_NO_END && e.is.steps == p.means.steps - 1, what, n);
}

enum { KIB = 1024, MIB = KIB * KIB };

static const uint32_t from = 0x40000000, to = 0x50000000;

/* Copies as the DMA test of Linux asks for them: few bytes and many, at any addresses, on chips with each bus. */
static void linux_chooses(void)
{
    static const uint32_t sizes[] = {1, 2, 3, 4, 7, 8, 16, 63, 64, 100, 255, 256, 257, 1000, 4095, 4096, 4100, 65535, 65536,
                                     65540, 300000, MIB, MIB + 16, 7 * MIB - 64, 7 * MIB};
    static const uint32_t at[][2] = {{0, 0}, {16, 0}, {8, 24}, {4, 4}, {2, 6}, {1, 3}, {0, 5}};

    for (uint32_t n = 0; n < sizeof sizes / sizeof sizes[0]; n++)
        for (uint32_t k = 0; k < sizeof at / sizeof at[0]; k++) {
            const uint32_t copy[3] = {from + at[k][0], to + at[k][1], sizes[n]};
            uint32_t bus = 4u << (n + k) % 3, lines = n % 2 ? 16 : 2;

            if (sizes[n] >= MIB && (n + k) % 3 != 0)
                continue;
            write_linux(&p, linux_shape(bus, lines, copy[0], copy[1], copy[2]), k % 2 == 1, copy, n);
            check_program("Linux chooses", n * 10 + k);
        }
}

/* Copies in bursts of each shape: less than one, one, and numbers around those at which the loops change. */
static void linux_has_each_shape(shape s)
{
    static const uint32_t bursts[] = {0, 1, 2, 255, 256, 257, 511, 700};
    uint32_t each = s.beat * s.beats;

    for (uint32_t n = 0; n < sizeof bursts / sizeof bursts[0]; n++) {
        uint32_t rest = (n % 3 != 0 || bursts[n] == 0) && s.beats > 1 ? s.beat * (1 + n % (s.beats - 1)) : 0;
        const uint32_t copy[3] = {from + 2 * s.beat, to + 16 * n, bursts[n] * each + rest};

        write_linux(&p, s, n % 2 == 0, copy, 31 - n);
        if (copy[2] > 0)
            check_program("Linux", each * 10 + n);
    }
}

/* Copies at all remainders of both addresses by 16, with one load and with two before as many stores. */
static void vendor_aligns(shape s, uint32_t loads)
{
    for (uint32_t n = 0; n < 256; n += 1 + n % 5) {
        const uint32_t copy[3] = {from + n % 16, to + n / 16, 1 + n * n * 5 % 3001};

        begin_program(&p);
        add_vendor(&p, s, loads, copy);
        add_signal(&p, n % 32);
        end_program(&p);
        check_program(loads > 1 ? "a vendor's, in pairs" : "a vendor's", n);
    }
}

/* Several copies in one program, with a signal after each, and perhaps a wait before it. */
static void vendor_chains(uint32_t count, bool waits)
{
    begin_program(&p);
    for (uint32_t n = 0; n < count; n++) {
        const uint32_t copy[3] = {from + 0x1000 * (n * 7 % count), to + 0x2000 * n + n % 3, 100 + 37 * n};

        if (waits)
            add_wait(&p, n % 4);
        add_vendor(&p, (shape){8, 4}, 1, copy);
        add_signal(&p, waits ? 4 + n % 28 : n % 32);
    }
    end_program(&p);
    check_program(waits ? "a chain that waits" : "a chain", count);
}

/* Buffers that lie one after another are one range on both sides, whatever happens between them. */
static void vendor_goes_on(void)
{
    begin_program(&p);
    for (uint32_t n = 0; n < 20; n++) {
        const uint32_t copy[3] = {from + 0x200 * n, to + 0x200 * n, 0x200};

        add_vendor(&p, (shape){4, 16}, 1, copy);
        add_signal(&p, 3);
    }
    end_program(&p);
    check(p.means.src_len == 1 && p.means.dst_len == 1, "one range", 0);
    check_program("a chain of neighbours", 0);
}

/* A boot loader copies an image, clears memory by copies of one word, and does both in one program. */
static void boots(void)
{
    static const uint32_t sizes[] = {1, 3, 4, 64, 65, 4096, 65535, 65536, 65537, 200000, MIB, 2 * MIB + 5};

    for (uint32_t n = 0; n < sizeof sizes / sizeof sizes[0]; n++) {
        const shape s = {4u << n % 3, 16 >> n % 2};
        const uint32_t copy[3] = {from, to, sizes[n]}, fill[3] = {from, to + 4 * MIB, sizes[n]};

        begin_program(&p);
        add_boot(&p, s, copy);
        end_program(&p);
        check_program("a boot loader's copy", n);
        begin_program(&p);
        add_fill(&p, s, fill);
        end_program(&p);
        check_program("a fill", n);
        begin_program(&p);
        add_boot(&p, s, copy);
        add_fill(&p, s, fill);
        end_program(&p);
        check_program("a boot loader's copy and fill", n);
    }
}

/* A boot loader clears memory by DMASTZ, which only devices have: alone, and behind a copy and its signal. */
static void clears(void)
{
    static const uint32_t sizes[] = {1, 15, 16, 255, 256, 257, 1000, 4096, 65535, 65536, 65537, MIB, 2 * MIB + 5};

    for (uint32_t n = 0; n < sizeof sizes / sizeof sizes[0]; n++) {
        const shape s = {4u << n % 3, 16 >> n % 2};
        const uint32_t copy[3] = {from, to, 1 + sizes[n] % 1000};

        for (uint32_t k = 1; k < sizeof buses / sizeof buses[0]; k++) {
            begin_program(&p);
            add_zeros(&p, s, to + 16 * n, sizes[n]);
            add_signal(&p, n);
            end_program(&p);
            check_on_bus(buses[k], "zeros", n);
            begin_program(&p);
            add_zeros(&p, s, to + 4 * MIB, sizes[n]);
            add_boot(&p, s, copy);
            add_signal(&p, n);
            add_zeros(&p, s, to + 0x1000, 16 + 16 * n);
            end_program(&p);
            check_on_bus(buses[k], "zeros beside a copy", n);
        }
    }
}

/* Explains a program that the library made, and runs it, on a channel, and on the buses from its own on. */
static void check_plan(bool is_made, uint32_t bus, const char *what, uint32_t n)
{
    check(is_made, what, n);
    explain(&e, p.bytes, p.len, bus, 100000);
    p.means.steps = e.is.steps;
    for (size_t k = 0; k < sizeof buses / sizeof buses[0]; k++)
        if (k == 0 || 8 * p.widest <= buses[k])
            check_on_bus(buses[k], what, n);
}

/* A boot loader has its programs made for its chip: copies between lists, and fills. */
static void boots_by_plan(uint32_t n)
{
    const dma330_segment src[] = {{from + n, 1000}, {from + 0x1000, 1500 + 16 * n}, {from + 0x4000, 500}};
    const dma330_segment dst[] = {{to + n % 7, 700}, {to + 0x8000, 2300 + 16 * n}};
    int32_t wait = n % 3 ? (int32_t)n % 32 : DMA330_NO_EVENT, signal = n % 5 ? 31 : DMA330_NO_EVENT;
    uint32_t bus = buses[n % 4];

    check_plan(write_plan(&p, bus, src, 3, dst, 2, wait, signal), bus, "a plan", n);
    check_plan(write_plan_fill(&p, bus, from + n, dst[n % 2]), bus, "a plan of a fill", n);
}

/* The first and the last address may be read and stored. */
static void goes_to_the_ends(void)
{
    static const uint32_t copies[][3] = {{0, 0x100, 64}, {0x100, 0, 64}, {0u - 64, 0, 64}, {0, 0u - 64, 64}};

    for (uint32_t n = 0; n < 4; n++) {
        write_linux(&p, (shape){4, 4}, true, copies[n], 0);
        check_program("the ends", n);
        begin_program(&p);
        add_fill(&p, (shape){4, 16}, copies[n]);
        end_program(&p);
        check_program("a fill at the ends", n);
    }
}

static void check_drivers(void)
{
    linux_chooses();
    for (uint32_t beat = 1; beat <= 16; beat *= 2)
        for (uint32_t beats = 1; beats <= 16; beats++)
            linux_has_each_shape((shape){beat, beats});
    for (uint32_t beat = 1; beat <= 16; beat *= 4)
        for (uint32_t beats = 1; beats <= 8; beats += 7)
            for (uint32_t loads = 1; loads <= 2; loads++)
                vendor_aligns((shape){beat, beats}, loads);
    for (uint32_t count = 1; count <= 30; count += 29) {
        vendor_chains(count, false);
        vendor_chains(count, true);
    }
    vendor_goes_on();
    for (example n = ALIGNED; n < EXAMPLES; n++)
        for (uint32_t bus = 64; bus <= 128; bus += 64) {
            write_manual(&p, n, from, to);
            check_on_bus(bus, "the manual's", n);
        }
    boots();
    clears();
    for (uint32_t n = 0; n < 60; n++)
        boots_by_plan(n);
    goes_to_the_ends();
}

/* ---- time ---- */

static void print_time(shape s, const char *what)
{
    const uint32_t copy[3] = {from, to, 7 * MIB};
    double best = 1e9;

    write_linux(&p, s, false, copy, 0);
    for (int n = 0; n < 10; n++) {
        clock_t begin = clock();
        double each;

        explain(&e, p.bytes, p.len, 0, p.means.steps);
        each = (double)(clock() - begin) / CLOCKS_PER_SEC * 1e9 / p.means.steps;
        best = each < best ? each : best;
    }
    check(is_meant(&e, &p.means), what, 0);
    printf("7 MiB %s: %lu instructions, %.1f ns each\n", what, (unsigned long)p.means.steps, best);
}

int main(int words_count, char **words)
{
    char *end = words_count == 3 ? words[2] : NULL;
    unsigned long first = 1, last = 2000;

    if (words_count == 2 && strcmp(words[1], "--time") == 0) {
        print_time((shape){16, 16}, "in bursts of 256 bytes");
        print_time((shape){4, 16}, "in bursts of 64 bytes");
        print_time((shape){1, 1}, "in single bytes");
        return end_checks();
    }
    if (end != NULL && strcmp(words[1], "--seeds") == 0) {
        first = strtoul(end, &end, 10);
        last = *end == '-' ? strtoul(end + 1, &end, 10) : first;
    } else {
        check_drivers();
    }
    check_seeds((uint32_t)first, (uint32_t)last);
    if (end != NULL)
        print_causes();
    end_runs();
    return end_checks();
}
