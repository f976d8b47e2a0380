/* Tests dma330_device with a guest that writes anything anywhere, over regions that change. The requirements are that
 * nothing breaks (sanitizers report nothing, no byte outside RAM is written, and the device works afterwards), that each
 * turn reports which lines changed, and as its range each byte that it wrote, and no other; and that a copy of the
 * device, made from a save, does the same from then on. */
#include "guest.h"

#include <string.h>

static machine m, other, before;

/* Returns a random number by Marsaglia's xorshift. The seed is never 0. */
static uint32_t any(uint32_t *seed, uint32_t below)
{
    *seed ^= *seed << 13;
    *seed ^= *seed >> 17;
    *seed ^= *seed << 5;
    return *seed % below;
}

/* Returns a place in RAM for a program. */
static uint32_t any_place(uint32_t *seed)
{
    static const uint32_t places[] = {LOW, LOW + 0x1000, NEXT - 0x400, NEXT_END - 0x400, FAR + 0x800, FAR_END - 0x400};

    return places[any(seed, 6)];
}

/* Returns an address in RAM, near a border of RAM, or any. */
static uint32_t any_address(uint32_t *seed)
{
    static const uint32_t borders[] = {LOW, NEXT, NEXT_END, FAR, FAR_END, 0};
    uint32_t n = any(seed, 16), far = any(seed, 600);

    return n < 6 ? borders[n] + far - 300 : n < 15 ? any_place(seed) + far : any(seed, 0xFFFFFFFF);
}

/* Returns a control word, most of whose fields are valid. */
static uint32_t any_control(uint32_t *seed)
{
    uint32_t word = any(seed, 0xFFFFFFFF), src_size = any(seed, 5), dst_size = any(seed, 5);

    return any(seed, 8) == 0 ? word : (word & 0x0FFC7FF1) | src_size << 1 | dst_size << 15;
}

/* Writes a loop of loads and stores. */
static uint32_t put_loop(uint32_t at, uint32_t times)
{
    at = put(&m, put(&m, put_two(&m, at, DMALP, times - 1), DMALD), DMAST);
    return put_two(&m, at, DMALPEND, 2);
}

/* Writes a loop that copies rows. */
static uint32_t put_rows(uint32_t at, uint32_t times, uint32_t half)
{
    at = put(&m, put(&m, put_two(&m, at, DMALP, times - 1), DMALD), DMAST);
    at = put(&m, put_two(&m, put(&m, put_two(&m, at, DMAADDH, half), 0), DMAADDH | 2, half), 0);
    return put_two(&m, at, DMALPEND, 8);
}

/* Writes an instruction that a channel may execute, or some, or at times another one. */
static uint32_t put_anything(uint32_t at, uint32_t *seed)
{
    static const uint8_t of_one[] = {DMALD, DMAST, DMARMB, DMAWMB};
    uint32_t kind = any(seed, 28), n = any(seed, 0x10000), bit = n >> 15, event = n % 4 == 0 ? n % 33 : 0;

    switch (kind) {
    case 0: case 1: return put_move(&m, at, TO_SAR, any_address(seed));
    case 2: case 3: case 4: return put_move(&m, at, TO_DAR, any_address(seed));
    case 5: return put_move(&m, at, TO_CCR, any_control(seed));
    case 6: case 7: return put_move(&m, at, TO_CCR, BURSTS_OF(n % 3));
    case 8: case 9: return put_loop(at, 1 + n % 16);
    case 10: return put_two(&m, at, DMALP | bit << 1, n % 256);
    case 11: return put_two(&m, at, DMALPEND | bit << 2, n % 40);
    case 12: case 13: return put(&m, put_two(&m, put(&m, at, DMALD), DMASEV, event << 3), DMAST);
    case 14: return put_two(&m, at, n % 8 == 0 ? DMAWFE : DMASEV, event << 3);
    case 15: return put(&m, at, n % 8 == 0 ? DMAEND : n % 8 == 1 ? n >> 8 : DMANOP);
    case 20: case 21: return put(&m, at, DMASTZ);
    case 22: return put(&m, put_two(&m, at, DMAADDH | bit << 1 | (n & 1) << 3, n >> 4), n >> 8);
    case 23: return n % 8 == 0 ? put_two(&m, at, DMALPEND_FE | (n & 16) >> 2, n >> 8 & 31) : at;
    case 24: return put_rows(at, 1 + n % 16, n >> 8 & 0x70);
    case 16: case 17: case 18: case 19: return put(&m, at, n % 4 == 0 ? of_one[kind - 16] : DMANOP);
    default: return put(&m, put(&m, at, DMALD), DMAST);
    }
}

/* Writes a program of less than 1,000 bytes, which most often begins with moves to addresses in RAM. */
static void write_program(uint32_t at, uint32_t *seed)
{
    if (any(seed, 4) != 0) {
        at = put_move(&m, at, TO_SAR, any_place(seed));
        at = put_move(&m, at, TO_DAR, any_place(seed) + 0x100);
    }
    for (uint32_t n = any(seed, 160); n > 0; n--)
        at = put_anything(at, seed);
}

/* The channel that was started last. */
static uint32_t started;

/* Starts a channel, mostly one that the device has and that is stopped, and mostly with a new program. */
static void start_anything(uint32_t *seed)
{
    uint32_t place = any_place(seed), channels = (get(&m, CR0) >> 4 & 7) + 1;

    started = any(seed, channels + (any(seed, 16) == 0));
    if (any(seed, 4) != 0)
        write_program(place, seed);
    if (any(seed, 4) != 0) {
        stop(&m, MANAGER);
        stop(&m, (int)started);
    }
    start(&m, started, place);
}

static void do_anything(uint32_t *seed)
{
    static const uint8_t codes[] = {DMAGO, DMAGO | 2, DMASEV, DMAKILL};
    uint32_t kind = any(seed, 16), n = any(seed, 0x10000), number = any_address(seed);
    int thread = (int)(n % 9) - 1;

    switch (kind) {
    case 0: write_program(any_place(seed), seed); break;
    case 3: set(&m, n % 0x1100, number); break;
    case 4: set(&m, n % 2 ? INTEN : INTCLR, number); break;
    case 5: get(&m, n % 0x1100); break;
    case 6: debug(&m, thread, n >> 8, n & 0xFF, number); break;
    case 7: debug(&m, MANAGER, codes[n % 4], n / 4 % 10, number); break;
    case 8: debug(&m, thread, codes[2 + n % 2], n / 2 % 33 << 3, number); break;
    default: start_anything(seed); break;
    }
}

/* ---- the requirements ---- */

/* A configuration, most of which a device can have. */
static dma330_device_config any_config(uint32_t *seed)
{
    uint32_t channels = 1 + any(seed, 8), events = 1 + any(seed, 32);
    dma330_device_config g = plain(channels, events, any(seed, 5) == 0);

    g.bus = 32u << any(seed, 3);
    g.lines = 1 + any(seed, 1024);
    g.revision = any(seed, 4);
    return g;
}

/* Makes a machine's device, RAM and regions those of another. */
static void copy(machine *to, machine *from)
{
    static uint8_t save[DMA330_MAX_DEVICE_SAVE];
    size_t len = 0;

    check(dma330_device_save(&from->device, save, sizeof save, &len) == DMA330_OK, "a save", 0);
    check(dma330_device_restore(&to->device, save, len) == DMA330_OK, "is restored", (uint32_t)len);
    memcpy(to->bytes, from->bytes, sizeof to->bytes);
    memcpy(to->regions, from->regions, sizeof to->regions);
    to->region_count = from->region_count;
    for (size_t n = 0; n < to->region_count; n++)
        to->regions[n].bytes = to->bytes + (from->regions[n].bytes - from->bytes);
}

/* Returns whether two machines have the same RAM and saves. First it compares some registers of a channel. */
static bool are_equal(machine *k, machine *l, uint32_t channel)
{
    static const uint32_t some[] = {CPC, CSR, SAR, DAR, LC0, LC1};
    static uint8_t saves[2][DMA330_MAX_DEVICE_SAVE];
    size_t len[2] = {0, 0};

    for (size_t n = 0; n < sizeof some / sizeof some[0]; n++) {
        uint32_t at = some[n] + channel * (some[n] < SAR ? 8 : 0x20);

        if (get(k, at) != get(l, at))
            return false;
    }
    dma330_device_save(&k->device, saves[0], sizeof saves[0], &len[0]);
    dma330_device_save(&l->device, saves[1], sizeof saves[1], &len[1]);
    return len[0] == len[1] && memcmp(saves[0], saves[1], len[0]) == 0 && memcmp(k->bytes, l->bytes, ALL_BYTES) == 0;
}

/* What turns of single steps have written: 1 for each byte of a machine's. */
static uint8_t marks[ALL_BYTES];

/* Takes turns of single steps of a channel, in a copy of what the device was before, and marks what they write. Returns
 * whether the copy is equal to the device after at most `most` turns. */
static bool follows(uint32_t channel, uint32_t most)
{
    bool is_equal;

    copy(&other, &before);
    memset(marks, 0, sizeof marks);
    for (is_equal = are_equal(&m, &other, channel); !is_equal && most > 0; most--) {
        turn(&other, channel, 1);
        for (uint32_t n = 0; n < other.written.len; n++)
            *byte_at(marks, other.written.addr + n) = 1;
        is_equal = are_equal(&m, &other, channel);
    }
    return is_equal;
}

/* Returns how many bytes are marked, or 0 if a byte of the range isn't. */
static uint32_t marked(dma330_segment range)
{
    uint32_t count = 0;

    for (uint32_t n = 0; n < range.len; n++)
        if (*byte_at(marks, range.addr + n) == 0)
            return 0;
    for (size_t n = 0; n < sizeof marks; n++)
        count += marks[n];
    return count;
}

/* A turn writes what single steps write. */
static void check_by_steps(uint32_t channel, uint32_t most)
{
    copy(&before, &m);
    turn(&m, channel, most);
    check(follows(channel, most), "single steps do the same", channel);
    check(marked(m.written) == m.written.len, "each byte is written", m.written.addr);
}

static uint32_t several_turns;

/* Both devices, one a copy of the other, are the same after the same turn, and after several turns. */
static void check_copy(uint32_t channel, uint32_t most)
{
    copy(&other, &m);
    turn(&m, channel, most);
    turn(&other, channel, most);
    check(are_same(&m, &other), "a copy of the device does the same", channel);
    several_turns += take_rows(&m, &other, channel, most);
}

/* Lends RAM in many parts, some of them empty or of a byte, with gaps, and with ROM. */
static void lend_parts(uint32_t *seed)
{
    dma330_region whole[REGIONS], part = {0, 0, 0, 0};

    lend(&m);
    memcpy(whole, m.regions, sizeof whole);
    m.region_count = 0;
    for (int n = 0; n < REGIONS; n++) {
        size_t at = 0;

        for (uint32_t left = any(seed, DMA330_MAX_REGIONS / REGIONS); left > 0 && at < whole[n].len; left--) {
            size_t most = whole[n].len - at;

            part.len = any(seed, 4) == 0 ? any(seed, 3) : left == 1 ? most : any(seed, 1500);
            part.len = part.len < most ? part.len : most;
            part.addr = whole[n].addr + (uint32_t)at;
            part.bytes = whole[n].bytes + at;
            part.read_only = any(seed, 6) == 0 ? any(seed, 0xFFFFFFFF) : 0;
            if (any(seed, 8) != 0)
                m.regions[m.region_count++] = part;
            at += part.len;
        }
    }
}

static void outlives_anything(uint32_t seed)
{
    dma330_device_config config = any_config(&seed);
    bool is_parted = seed % 2 == 0;
    uint32_t channel, most;

    set_up(&m, config);
    set_up(&other, config);
    set_up(&before, config);
    for (int n = 0; n < 400; n++) {
        if (is_parted && n % 20 == 0)
            lend_parts(&seed);
        do_anything(&seed);
        channel = any(&seed, 4) == 0 ? any(&seed, config.channels + 1) : started;
        most = any(&seed, 500);
        if (n % 16 == 0)
            check_copy(channel, most);
        else if (n % 16 == 8)
            check_by_steps(channel, most);
        else
            turn(&m, channel, most);
    }
    lend(&m);
    stop(&m, MANAGER);
    for (uint32_t n = 0; n < config.channels; n++)
        stop(&m, (int)n);
    set(&m, INTEN, 0xFFFFFFFF);
    set(&m, INTCLR, 0xFFFFFFFF);
    check(get(&m, INTMIS) == 0 && get(&m, FSRC) == 0 && get(&m, FSRD) == 0, "it is quiet", config.channels);
    check(irqs(&m) == 0 && !irq_abort(&m) && !can_step(&m), "its lines too", config.channels);
    check_work(&m, config.channels - 1, "it works after anything", config.channels);
    tear_down(&before);
    tear_down(&other);
    tear_down(&m);
}

int main(void)
{
    for (uint32_t seed = 1; seed <= 200; seed++)
        outlives_anything(seed * 2654435761u);
    check(several_turns > 0, "some calls take several turns", several_turns);
    return end_checks();
}
