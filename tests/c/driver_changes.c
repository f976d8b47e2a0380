#include "drivers.h"
#include "guest.h"

#include <stdio.h>
#include <string.h>

static explained e;

void expect(const char *wrong, const char *what, uint32_t n)
{
    if (wrong != NULL)
        printf("%s: ", wrong);
    check(wrong == NULL, what, n);
}

/* ---- changes ---- */

enum { MOST_STEPS = 20000 };

/* Small programs of each form, which a change easily makes to read or store other bytes, or the same ones twice. */
enum { LINUX = 4, VENDOR = 8, BOOT = 10, FILLS = 12, AT_THE_END = 14, ZEROS = 16, BASES = 18 };

static void write_base(program *p, uint32_t n)
{
    static const shape shapes[] = {{4, 4}, {8, 2}, {1, 16}, {16, 1}};
    const uint32_t from = 0x40000100, to = 0x50000080, high = 0u - 1280;
    const uint32_t copy[3] = {from, to, 1200}, odd[3] = {from + 3, to + 3, 301}, next[3] = {from + 0x4000, to + 1200, 77};

    begin_program(p);
    if (n < LINUX) {
        write_linux(p, shapes[n], n % 2 == 0, copy, n);
        return;
    }
    if (n < VENDOR) {
        if (n % 2 == 0)
            add_wait(p, 5);
        add_vendor(p, shapes[n % 4], 1 + n / 2 % 2, n == 5 ? odd : copy);
        add_signal(p, 6);
        add_vendor(p, shapes[n % 4], 1, next);
        add_signal(p, 7);
    } else if (n < FILLS) {
        if (n < BOOT)
            add_boot(p, shapes[n % 4], copy);
        add_fill(p, shapes[n % 4], (const uint32_t[]){from + 0x2040, to + 0x3000, 333});
    } else if (n < AT_THE_END) {
        add_boot(p, shapes[n % 4], (const uint32_t[]){n % 2 ? high : from, n % 2 ? to : high, 1200});
    } else {
        if (n >= ZEROS)
            add_vendor(p, shapes[n % 4], 1, copy);
        add_zeros(p, shapes[n % 4], to + 1200, 600);
        add_signal(p, 8);
        add_zeros(p, shapes[(n + 1) % 4], to + 0x4000, 333);
        add_signal(p, 9);
    }
    end_program(p);
}

/* Returns a random number by Marsaglia's xorshift. The seed is never 0. */
static uint32_t any(uint32_t *seed, uint32_t below)
{
    *seed ^= *seed << 13;
    *seed ^= *seed >> 17;
    *seed ^= *seed << 5;
    return *seed % below;
}

/* Changes a byte to any, by one bit, by one, or to one that is an instruction or a part of one. */
static void change_byte(uint8_t *byte, uint32_t *seed)
{
    static const uint8_t likely[] = {DMAEND, DMALD, DMAST, DMARMB, DMAWMB, DMANOP, DMALP, DMALP | 2, DMASEV, DMAWFE,
                                     DMALPEND, DMALPEND | 4, DMAMOV, 1, 2, 0xFF, DMASTZ, DMALPEND_FE, DMAADDH, DMAADNH};

    switch (any(seed, 4)) {
    case 0: *byte = (uint8_t)any(seed, 256); break;
    case 1: *byte ^= (uint8_t)(1 << any(seed, 8)); break;
    case 2: *byte = (uint8_t)(*byte + 2 * any(seed, 2) - 1); break;
    default: *byte = likely[any(seed, sizeof likely)]; break;
    }
}

/* Changes 1 to 4 bytes, mostly one. */
static void change(uint8_t *bytes, uint32_t len, uint32_t *seed)
{
    for (uint32_t count = any(seed, 2) ? 1 : 1 + any(seed, 4); count > 0; count--)
        change_byte(&bytes[any(seed, len)], seed);
}

/* How many changed programs are explained, how many have each cause, how many set bytes to 0, how many use a register
 * before they set it, and how many have too many ranges or bytes to be run. */
static unsigned long causes[DMA330_CAUSE_NO_END + 1], with_zeros, unset, too_large;

/* A program that isn't explained has a cause. The original's memory is lent. */
static void check_cause(const program *p, uint32_t bus, const explained *original, uint32_t n)
{
    bool is_cause = e.cause > DMA330_CAUSE_NONE && e.cause <= DMA330_CAUSE_NO_END;
    uint32_t place;

    check(e.code == DMA330_UNEXPLAINED && is_cause && strcmp(dma330_cause_name(e.cause), "?") != 0, "a cause", n);
    causes[is_cause ? e.cause : 0]++;
    if (!lend_ranges(&original->is, p->bytes, p->len, &place))
        check(false, "the original's memory", n);
    else if (bus == 0)
        expect(run_to_cause(&e, p->bytes, p->len), "a cause", n);
    else
        expect(explain_on_device(&e, place, bus, MOST_STEPS), "a cause", n);
}

static void check_changed(const program *p, uint32_t bus, const explained *original, uint32_t n)
{
    uint32_t place, most = 1 + n % 300;
    bool is_unset;

    explain(&e, p->bytes, p->len, bus, MOST_STEPS);
    expect(explain_for_any(&e, p->bytes, p->len, bus, MOST_STEPS, &is_unset), "a changed program", n);
    unset += is_unset;
    if (e.code != DMA330_OK && e.code != DMA330_BUFFER_TOO_SMALL) {
        check_cause(p, bus, original, n);
        return;
    }
    check(e.cause == DMA330_CAUSE_NONE && e.pc == 0, "no cause", n);
    causes[DMA330_CAUSE_NONE]++;
    with_zeros += e.is.zeros_len > 0;
    if (e.code == DMA330_BUFFER_TOO_SMALL || !lend_ranges(&e.is, p->bytes, p->len, &place)) {
        too_large++;
    } else if (bus == 0) {
        expect(run_on_channel(&e, p->bytes, p->len, most), "a changed program", n);
    } else {
        expect(explain_on_device(&e, place, bus, MOST_STEPS), "a changed program", n);
        expect(run_on_device(&e, place, bus, most), "a changed program", n);
    }
}

void check_seeds(uint32_t first, uint32_t last)
{
    static program bases[BASES], p;
    static explained originals[BASES];

    for (uint32_t k = 0; k < BASES; k++) {
        write_base(&bases[k], k);
        explain(&originals[k], bases[k].bytes, bases[k].len, k < AT_THE_END ? 0 : 128, bases[k].means.steps);
        check(is_meant(&originals[k], &bases[k].means), "an original", k);
    }
    for (uint32_t n = first; n <= last; n++)
        for (uint32_t k = 0; k < BASES; k++) {
            uint32_t seed = (n * BASES + k + 1) * 2654435761u;

            p = bases[k];
            change(p.bytes, p.len, &seed);
            check_changed(&p, 0, &originals[k], n);
            check_changed(&p, 32u << (n + k) % 3, &originals[k], n);
        }
}

void print_causes(void)
{
    for (uint32_t n = 0; n <= DMA330_CAUSE_NO_END; n++)
        if (causes[n] > 0)
            printf("%8lu %s\n", causes[n], n == 0 ? "explained" : dma330_cause_name(n));
    printf("%8lu explained with zeros\n", with_zeros);
    printf("%8lu use a register before they set it\n", unset);
    printf("%8lu explained, but not run: too many ranges or bytes\n", too_large);
}
