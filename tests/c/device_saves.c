/* Tests the saves of dma330_device, whole and forged, and RAM that the guest's processor changes and the host moves
 * between turns. */
#include "guest.h"

#include <string.h>

static machine m, other;

/* ---- saves ---- */

typedef struct save {
    uint8_t bytes[DMA330_MAX_DEVICE_SAVE + 1];
    size_t len;
} save;

static void take(machine *from, save *to)
{
    to->len = 0;
    check(dma330_device_save(&from->device, to->bytes, DMA330_MAX_DEVICE_SAVE, &to->len) == DMA330_OK, "a save", 0);
    check(to->len > 0 && to->len <= DMA330_MAX_DEVICE_SAVE, "its length", (uint32_t)to->len);
}

/* Returns whether the device has this save. */
static bool has(machine *from, const save *wanted)
{
    static save found;

    take(from, &found);
    return found.len == wanted->len && memcmp(found.bytes, wanted->bytes, found.len) == 0;
}

/* The offsets in a save, and the length of its head (dma330.h). */
enum { VERSION = 7, CONFIG = 8, MANAGER_FAULTS = 15, EVENTS = 20, INTERRUPTS = 24, INTEN_AT = 28, HEAD = 40 };

/* ---- devices of other configurations ---- */

enum { OTHERS = 6 };

static dma330_device strangers[OTHERS];

static void open_strangers(dma330_device_config config)
{
    dma330_device_config g[OTHERS];

    for (int n = 0; n < OTHERS; n++)
        g[n] = config;
    g[0].channels++;
    g[1].events--;
    g[2].nonsecure = 1;
    g[3].bus = config.bus == 64 ? 128 : 64;
    g[4].lines--;
    g[5].revision = 0;
    for (int n = 0; n < OTHERS; n++) {
        memset(&strangers[n], 0, sizeof strangers[n]);
        check(open_device(&strangers[n], &g[n]) == DMA330_OK, "another configuration", (uint32_t)n);
        dma330_device_write(&strangers[n], INTEN, 5, m.regions, REGIONS);
    }
}

static void check_strangers(const save *from)
{
    uint32_t value;

    for (uint32_t n = 0; n < OTHERS; n++) {
        check(dma330_device_restore(&strangers[n], from->bytes, from->len) == DMA330_OTHER_DEVICE, "is refused", n);
        check(dma330_device_restore(&strangers[n], from->bytes, 15) == DMA330_OTHER_DEVICE, "so are 15 bytes", n);
        check(dma330_device_read(&strangers[n], INTEN, &value) == DMA330_OK && value == 5, "and changes nothing", n);
        check(dma330_device_restore(&strangers[n], from->bytes, 14) == DMA330_BAD_SAVE, "14 show no device", n);
        check(dma330_device_read(&strangers[n], INTEN, &value) == DMA330_OK && value == 0, "and reset it", n);
        dma330_device_write(&strangers[n], INTEN, 5, m.regions, REGIONS);
    }
}

static void close_strangers(void)
{
    for (int n = 0; n < OTHERS; n++)
        dma330_device_close(&strangers[n]);
}

/* ---- a save at each step ---- */

/* Three channels, of which one copies, one waits for it and then copies, and one fails. */
static void begin(machine *k, dma330_device_config config)
{
    set_up(k, config);
    put_copy(k, LOW, NO_EVENT, LOW + 0x400, FAR + 1, 2, 1);
    put_copy(k, LOW + 0x80, 1, FAR, NEXT, 1, 2);
    put_copy(k, LOW + 0x100, NO_EVENT, NEXT_END - 700, FAR + 0x1000, 2, 0);
    want_ram(k);
    want_copy(k, LOW + 0x400, FAR + 1, 2);
    want_copy(k, FAR, NEXT, 1);
    memcpy(byte_at(k->wanted, FAR + 0x1000), byte_at(k->wanted, NEXT_END - 700), 640);
    set(k, INTEN, 1 << 2);
    for (uint32_t n = 0; n < 3; n++)
        start(k, n, LOW + 0x80 * n);
}

static void go_to_the_end(machine *k, uint32_t step)
{
    run(k, 0);
    run(k, 2);
    check(!run(k, 1) && !can_step(k) && is_ram_wanted(k), "goes on to the end", step);
    check(irqs(k) == 1 << 2 && get(k, INT_EVENT_RIS) == 1 << 2, "its interrupt", step);
    check(get(k, FSRC) == 4 && get(k, FTR + 8) == 1 << 18 && irq_abort(k), "its fault", step);
}

static void restores_at_each_step(uint32_t bus)
{
    static save now;
    dma330_device_config config = plain(3, 8, false);
    uint32_t step = 0;

    config.bus = bus;
    begin(&m, config);
    set_up(&other, config);
    memcpy(other.wanted, m.wanted, sizeof m.wanted);
    open_strangers(config);
    for (bool goes_on = true; goes_on && step < 1000; step++) {
        take(&m, &now);
        memcpy(other.bytes, m.bytes, sizeof m.bytes);
        check(dma330_device_restore(&other.device, now.bytes, now.len) == DMA330_OK, "a save is restored", step);
        check(are_same(&m, &other) && has(&other, &now), "to the same device", step);
        check_strangers(&now);
        go_to_the_end(&other, step);
        goes_on = false;
        for (uint32_t n = 0; n < 3; n++)
            goes_on = turn(&m, n, 1) || goes_on;
    }
    check(step > 100 && step < 1000, "it has many steps", step);
    go_to_the_end(&m, step);
    close_strangers();
    tear_down(&other);
    tear_down(&m);
}

/* ---- RAM between turns ---- */

/* Channel 0's program as the DMAGO reads it, at LOW, and its buffer. */
static uint8_t program[0x40], buffer[64];

/* Does to the wanted bytes what the next instruction of channel 0 does to RAM: a DMALD takes a burst at SAR as it is now,
 * and a DMAST writes it at DAR. */
static void want_step(void)
{
    uint32_t code = program[get(&m, CPC) - LOW], sar = get(&m, SAR), dar = get(&m, DAR);

    for (uint32_t n = 0; n < 16u << (get(&m, CCR) >> 1) % 8; n++) {
        if (code == DMALD)
            buffer[n] = *byte_at(m.wanted, sar + n);
        if (code == DMAST)
            *byte_at(m.wanted, dar + n) = buffer[n];
    }
}

/* The processor writes some bytes anywhere in RAM, the program included, whose bytes the DMAGO has read. */
static void write_anywhere(uint32_t *seed)
{
    for (int n = 0; n < 40; n++) {
        *seed = *seed * 1664525 + 1013904223;
        *byte_at(m.bytes, LOW + *seed / 4 % 0x3000) = *byte_at(m.wanted, LOW + *seed / 4 % 0x3000) = (uint8_t)(*seed >> 24);
    }
}

/* Between two turns the processor writes to RAM, and the host moves all of it to another place. */
static void copies_what_is_there(uint32_t bus)
{
    static uint8_t places[2][ALL_BYTES];
    dma330_device_config config = plain(1, 8, false);
    uint32_t seed = bus, step;

    config.bus = bus;
    set_up(&m, config);
    put_copy(&m, LOW, NO_EVENT, LOW + 0x43, LOW + 0x1801, 2, 1);
    memcpy(program, byte_at(m.bytes, LOW), sizeof program);
    want_ram(&m);
    start(&m, 0, LOW);
    for (step = 0; get(&m, CSR) != 0 && step < 1000; step++) {
        dma330_device_turn t;

        want_step();
        memcpy(places[step % 2], m.bytes, sizeof m.bytes);
        memset(places[1 - step % 2], 0xEE, sizeof places[0]);
        for (int n = 0; n < REGIONS; n++)
            m.regions[n].bytes = places[step % 2] + (m.regions[n].bytes - (step == 0 ? m.bytes : places[1 - step % 2]));
        check(dma330_device_step(&m.device, 0, 1, m.regions, REGIONS, &t) == DMA330_OK, "a turn", step);
        memcpy(m.bytes, places[step % 2], sizeof m.bytes);
        check(is_ram_wanted(&m), "RAM after a turn", step);
        write_anywhere(&seed);
    }
    check(step > 300 && get(&m, DAR) == LOW + 0x1801 + 2 * 512 && get(&m, INT_EVENT_RIS) == 1 << 1, "it has ended", step);
    lend(&m);
    tear_down(&m);
}

/* ---- forged saves ---- */

static save good, bad, reset;

/* Restores bytes into a device that has `good`. What is restored has exactly these bytes as its save; bytes of another
 * device change nothing; and others leave the device as after a reset. Then anything may run. */
static int32_t forged(const save *bytes, uint32_t n)
{
    int32_t code;

    dma330_device_restore(&other.device, good.bytes, good.len);
    code = dma330_device_restore(&other.device, bytes->bytes, bytes->len);
    if (code == DMA330_OK)
        check(has(&other, bytes), "forged bytes are the device's save", n);
    else if (code == DMA330_OTHER_DEVICE)
        check(has(&other, &good), "bytes of another device change nothing", n);
    else
        check(code == DMA330_BAD_SAVE && has(&other, &reset), "bytes of no device reset it", n);
    for (uint32_t channel = 0; channel < 3; channel++)
        turn(&other, channel, 100);
    return code;
}

/* Writes the Adler-32 checksum of all bytes but the last four to those. */
static void seal_bytes(uint8_t *bytes, size_t len)
{
    uint32_t low = 1, high = 0;

    for (size_t n = 0; n < len - 4; n++) {
        low = (low + bytes[n]) % 65521;
        high = (high + low) % 65521;
    }
    for (size_t n = 0; n < 4; n++)
        bytes[len - 4 + n] = (uint8_t)((high << 16 | low) >> 8 * n);
}

static void seal(save *s)
{
    seal_bytes(s->bytes, s->len);
}

/* Returns a word of the good save. */
static uint32_t good_word(size_t at)
{
    return good.bytes[at] | (uint32_t)good.bytes[at + 1] << 8 | (uint32_t)good.bytes[at + 2] << 16 |
           (uint32_t)good.bytes[at + 3] << 24;
}

/* Puts another word into the bad save. */
static void put_word(size_t at, uint32_t word)
{
    for (int n = 0; n < 4; n++)
        bad.bytes[at + n] = (uint8_t)(word >> 8 * n);
}

/* A word of the save becomes another, and the checksum is right. */
static int32_t forged_word(size_t at, uint32_t word)
{
    bad = good;
    put_word(at, word);
    seal(&bad);
    return forged(&bad, (uint32_t)at);
}

/* Channel 0 has this status, FTR and CPC. */
static int32_t forged_thread(uint32_t csr, uint32_t ftr, uint32_t cpc)
{
    bad = good;
    put_word(HEAD, csr);
    put_word(HEAD + 4, ftr);
    put_word(HEAD + 12, cpc);
    seal(&bad);
    return forged(&bad, csr);
}

/* What a channel and the manager have goes together: CPC is the address of the next instruction, FTR and FTRD have a
 * fault exactly if there can be one, and no program of a guest has a cost. Channel 0 executes. */
static void refuses_forged_threads(void)
{
    enum { CHANNEL = HEAD + 20, HAS_COST = CHANNEL + 39, FTRD_AT = 16, UNDEF = 1, DBG = 1 << 30 };
    uint32_t cpc = good_word(HEAD + 12), base = good_word(HEAD + 8);

    check(good_word(HEAD) == 1 && good_word(HEAD + 4) == 0 && cpc > base, "channel 0 executes", cpc);
    check(forged_thread(1, 0, cpc) == DMA330_OK, "its own words", 0);
    check(forged_thread(1, 0, cpc + 1) == DMA330_BAD_SAVE, "CPC one too far", 0);
    check(forged_thread(1, 0, cpc - 1) == DMA330_BAD_SAVE, "CPC one too low", 0);
    check(forged_thread(1, 0, cpc - 2) == DMA330_BAD_SAVE, "CPC two less without a fault", 0);
    check(forged_word(HEAD + 8, base + 4) == DMA330_BAD_SAVE, "another address of the program", 0);
    check(forged_thread(1, 0xFFFFFFFF, cpc) == DMA330_BAD_SAVE, "faults while it executes", 0);
    check(forged_thread(15, 0, cpc) == DMA330_BAD_SAVE, "faulting without a fault", 0);
    check(forged_thread(15, UNDEF, cpc) == DMA330_OK, "faulting", 0);
    check(forged_thread(15, 2, cpc - 2) == DMA330_OK, "faulting, and CPC as after a DMASEV", 0);
    check(forged_thread(15, 2, cpc - 3) == DMA330_BAD_SAVE, "faulting elsewhere", 0);
    check(forged_word(FTRD_AT, 0xFFFFFFFF) == DMA330_BAD_SAVE, "a fault that no manager has", 0);
    check(forged_word(FTRD_AT, DBG | UNDEF) == DMA330_OK, "a fault from before a DMAKILL", 0);
    check(forged_word(MANAGER_FAULTS, 1) == DMA330_BAD_SAVE, "a faulting manager without a fault", 0);
    bad = good;
    bad.bytes[HAS_COST] = 1;
    seal_bytes(bad.bytes + CHANNEL, good_word(HEAD + 16));
    seal(&bad);
    check(forged(&bad, HAS_COST) == DMA330_BAD_SAVE, "a program with a cost", 0);
}

static void refuses_forged_words(void)
{
    static const size_t flags[] = {EVENTS, INTERRUPTS, INTEN_AT};

    for (int n = 0; n < 3; n++) {
        check(forged_word(flags[n], 0xFF) == DMA330_OK, "events of the device", (uint32_t)n);
        check(forged_word(flags[n], 0x100) == DMA330_BAD_SAVE, "an event that it doesn't have", (uint32_t)n);
        check(forged_word(flags[n], 0x80000000) == DMA330_BAD_SAVE, "the last event", (uint32_t)n);
    }
    check(forged_word(HEAD, 0) == DMA330_BAD_SAVE, "a stopped channel with a program", 0);
    check(forged_word(HEAD, 4 | 7 << 4) == DMA330_BAD_SAVE, "one that waits at another instruction", 0);
    check(forged_word(HEAD, 4 | 8 << 4) == DMA330_BAD_SAVE, "for an event that the device doesn't have", 0);
    check(forged_word(HEAD, 2) == DMA330_BAD_SAVE, "a status that no channel has", 0);
    check(forged_word(HEAD, 1 | 1 << 22) == DMA330_BAD_SAVE, "a bit that CSR doesn't have", 0);
    check(forged_word(HEAD + 16, 0xFFFFFFFF) == DMA330_BAD_SAVE, "a length past the end", 0);
    check(forged_word(MANAGER_FAULTS, good.bytes[MANAGER_FAULTS] ^ 2) == DMA330_BAD_SAVE, "a truth of 2 or 3", 0);
}

/* The save of a device on the widest bus, whose channel has beats of 2 to the power of `size` bytes at one end or at
 * both, becomes that of a bus of 2 to the power of `width` bytes. It is restored exactly if the beats fit. */
static void refuses_beats_wider_than_the_bus(void)
{
    enum { BUS = 11 };
    static const uint32_t ends[] = {1, 1 << 14, 1 | 1 << 14};
    dma330_device_config config = plain(1, 1, false);

    for (uint32_t row = 0; row < 5 * 3 * 3; row++) {
        uint32_t size = row % 5, width = row / 5 % 3 + 2, control = size * 2 * ends[row / 15];

        config.bus = 128;
        set_up(&m, config);
        put(&m, put_move(&m, LOW, TO_CCR, control), DMAEND);
        start(&m, 0, LOW);
        turn(&m, 0, 1);
        take(&m, &bad);
        check(get(&m, CCR) == control, "a control word", row);
        tear_down(&m);
        bad.bytes[BUS] = (uint8_t)width;
        seal(&bad);
        config.bus = 8u << width;
        set_up(&m, config);
        check(dma330_device_restore(&m.device, bad.bytes, bad.len) == (size <= width ? DMA330_OK : DMA330_BAD_SAVE),
              "beats of a forged save", row);
        check(get(&m, CCR) == (size <= width ? control : RESET_CCR), "its control word", row);
        tear_down(&m);
    }
}

/* Each byte becomes each of some others, each save is cut at each place, and each gets one more byte. */
static void restores_anything(void)
{
    static const uint8_t flips[] = {0x01, 0x80, 0xFF, 0x10};
    int32_t code;

    set_up(&other, plain(3, 8, false));
    take(&other, &reset);
    begin(&m, plain(3, 8, false));
    put_copy(&m, FAR_END - 60, NO_EVENT, LOW + 0x400, FAR + 1, 2, 1);
    for (uint32_t n = 0; n < 3; n++) {
        stop(&m, (int)n);
        start(&m, n, n == 1 ? NEXT_END : FAR_END - 60);
    }
    stop(&m, 2);
    turn(&m, 0, 9);
    turn(&m, 1, 1);
    take(&m, &good);
    check(forged(&good, 0) == DMA330_OK, "a good one", 0);
    refuses_forged_words();
    refuses_forged_threads();
    for (size_t at = 0; at < good.len; at++)
        for (size_t k = 0; k < sizeof flips; k++) {
            bad = good;
            bad.bytes[at] ^= flips[k];
            code = forged(&bad, (uint32_t)at);
            if (at < VERSION)
                check(code == DMA330_BAD_SAVE, "another kind of file", (uint32_t)at);
            else if (at < MANAGER_FAULTS)
                check(code == DMA330_OTHER_DEVICE, "another version or configuration", (uint32_t)at);
            else
                check(code == DMA330_BAD_SAVE, "a damaged save", (uint32_t)at);
        }
    bad = good;
    for (bad.len = 0; bad.len < good.len; bad.len++)
        check(forged(&bad, (uint32_t)bad.len) == DMA330_BAD_SAVE, "a cut save", (uint32_t)bad.len);
    bad.len = good.len + 1;
    check(forged(&bad, 0) == DMA330_BAD_SAVE, "a byte too many", 0);
    memset(&bad, 0, sizeof bad);
    bad.len = good.len;
    check(forged(&bad, 0) == DMA330_BAD_SAVE, "zeros", 0);
    dma330_device_reset(&other.device);
    check_work(&other, 0, "it works after forged saves", 0);
    tear_down(&other);
    tear_down(&m);
}

/* A buffer that is too small isn't written, nor is the length. */
static void needs_room(void)
{
    static uint8_t out[DMA330_MAX_DEVICE_SAVE];
    static save whole;
    dma330_device closed = DMA330_DEVICE_INIT;
    size_t len = 7;
    bool is_kept = true;

    begin(&m, plain(3, 8, false));
    turn(&m, 0, 9);
    take(&m, &whole);
    memset(out, 0xEE, sizeof out);
    for (size_t room = 0; room < whole.len; room += room < whole.len - 40 && room > 40 ? 97 : 1)
        is_kept = is_kept && dma330_device_save(&m.device, out, room, &len) == DMA330_BUFFER_TOO_SMALL;
    for (size_t n = 0; n < sizeof out; n++)
        is_kept = is_kept && out[n] == 0xEE;
    check(is_kept && len == 7, "too little room", 0);
    check(dma330_device_save(&m.device, out, whole.len, &len) == DMA330_OK && len == whole.len, "room for it", 0);
    check(memcmp(out, whole.bytes, len) == 0 && out[len] == 0xEE, "its bytes, and no more", 0);
    check(dma330_device_save(&closed, out, sizeof out, &len) == DMA330_NOT_OPEN, "a closed one has none", 0);
    check(dma330_device_restore(&closed, out, len) == DMA330_NOT_OPEN, "and takes none", 0);
    tear_down(&m);
}

/* A program that sets no CCR copies a byte at fixed addresses, since CCR is 0 in the kept save. */
static void goes_on_with_its_registers(void)
{
    uint32_t at = put_move(&m, put_move(&m, LOW, TO_SAR, LOW + 0x400), TO_DAR, NEXT + 0x800);

    put(&m, put(&m, put(&m, at, DMALD), DMAST), DMAEND);
    want_ram(&m);
    *byte_at(m.wanted, NEXT + 0x800) = *byte_at(m.bytes, LOW + 0x400);
    start(&m, 0, LOW);
    check(!run(&m, 0) && get(&m, CSR) == 0 && get(&m, CCR) == 0 && get(&m, SAR) == LOW + 0x400 &&
          get(&m, DAR) == NEXT + 0x800 && is_ram_wanted(&m), "a DMAGO after the kept save", 0);
    dma330_device_reset(&m.device);
}

/* A save of this layout, byte by byte as dma330.h says: INTEN and interrupt 0 are set, and the registers of its one channel
 * are 0. Later versions have to restore it. */
static void restores_this_layout(void)
{
    enum { CHANNEL_SAVE = 60, CHANNEL_CCR = CHANNEL_SAVE + 20, CHANNEL_LEN = 52 };
    static const uint8_t kept[] = {
        'd', 'm', 'a', '3', '3', '0', 1, 1,       /* the version */
        1, 1, 0, 4, 3, 16, 0,                     /* channels, events, non-secure, bus, revision, lines */
        0, 0, 0, 0, 0,                            /* the manager */
        0, 0, 0, 0, 1, 0, 0, 0, 1, 0, 0, 0,       /* events, interrupts, INTEN */
        0, 0, 0x34, 0, 0x78, 0x56, 0x34, 0x12,    /* DBGINST0, DBGINST1 */
        0, 0, 0, 0, 0, 0, 0, 0, 0, 0, 0, 0, 0, 0, 0, 0, /* CSR, FTR, the program's address, CPC */
        52, 0, 0, 0,
        'd', 'm', 'a', '3', '3', '0', 0, 1,
        0, 0, 0, 0, 0, 0, 0, 0, 0, 0, 0, 0, 0, 0, 0, 0, 0, 0, 0, 0,
        0, 0, 0, 0, 0, 0, 0, 0, 0, 0, 0, 0, 0, 0, 0, 0, 0, 0, 0, 0,
        0xCA, 0x01, 0x55, 0x52,                   /* Adler-32 of the 48 bytes before it */
        0x9D, 0x06, 0x5D, 0x99,                   /* and of all bytes before it */
    };
    static save wanted;

    memcpy(wanted.bytes, kept, wanted.len = sizeof kept);
    set_up(&m, plain(1, 1, false));
    check(dma330_device_restore(&m.device, kept, sizeof kept) == DMA330_OK, "a kept save", 0);
    check(get(&m, INTMIS) == 1 && get(&m, INTEN) == 1, "its interrupt", get(&m, INTMIS));
    goes_on_with_its_registers();
    check(dma330_device_restore(&m.device, kept, sizeof kept) == DMA330_OK, "once more", 0);
    check(has(&m, &wanted), "its save is the same", 0);
    check(dma330_device_restore(&m.device, kept, sizeof kept - 4) == DMA330_BAD_SAVE, "without its checksum", 0);
    dma330_device_reset(&m.device);
    set(&m, INTEN, 1);
    set(&m, DBGINST0, 0x00340000);
    set(&m, DBGCMD, 0);
    set(&m, DBGINST1, 0x12345678);
    for (int n = 0; n < 4; n++)
        wanted.bytes[CHANNEL_CCR + n] = (uint8_t)(RESET_CCR >> 8 * n);
    seal_bytes(wanted.bytes + CHANNEL_SAVE, CHANNEL_LEN);
    seal(&wanted);
    check(has(&m, &wanted), "the save of its registers", 0);
    tear_down(&m);
}

/* Starts the program at LOW, and makes it one that has executed all but one of 2^32 - 1 instructions. */
static void start_before_the_last(void)
{
    enum { EXECUTED = HEAD + 20 + 26, LEN = HEAD + 16 };
    uint32_t len = 0;

    start(&m, 0, LOW);
    take(&m, &bad);
    for (int n = 0; n < 4; n++) {
        len |= (uint32_t)bad.bytes[LEN + n] << 8 * n;
        bad.bytes[EXECUTED + n] = n > 0 ? 0xFF : 0xFE;
    }
    seal_bytes(bad.bytes + HEAD + 20, len);
    seal(&bad);
    check(dma330_device_restore(&m.device, bad.bytes, bad.len) == DMA330_OK, "one instruction before the last", 0);
}

/* Such a program executes that instruction, and then fails without a step, in the next turn. */
static void ends_after_the_last_instruction(void)
{
    dma330_device_turn t = {{1, 1}, 2, 3, 4};

    set_up(&m, plain(1, 1, false));
    put(&m, LOW, DMANOP);
    put(&m, LOW + 1, DMANOP);
    put(&m, LOW + 2, DMAEND);
    start_before_the_last();
    dma330_device_step(&m.device, 0, 1000, m.regions, REGIONS, &t);
    check(t.taken == 1 && t.lines_changed == 0 && t.can_step == 1 && get(&m, CSR) % 16 == 1, "the last one", 0);
    dma330_device_step(&m.device, 0, 1000, m.regions, REGIONS, &t);
    check(t.taken == 0 && t.lines_changed == 1 && t.can_step == 0 && get(&m, CSR) % 16 == 15, "no step after it", 0);
    check(get(&m, FTR) == 1u << DMA330_FTR_LOCKUP_ERR, "lockup_err", get(&m, FTR));
    tear_down(&m);
}

/* If the last instruction is the DMASEV of an interrupt, its turn fails, where it would take one step more. */
static void fails_after_the_last_interrupt(void)
{
    dma330_device_turn t = {{1, 1}, 2, 3, 4};

    set_up(&m, plain(1, 1, false));
    put(&m, put_two(&m, LOW, DMASEV, 0), DMAEND);
    set(&m, INTEN, 1);
    start_before_the_last();
    dma330_device_step(&m.device, 0, 1000, m.regions, REGIONS, &t);
    check(t.taken == 1 && t.can_step == 0 && irqs(&m) == 1 && irq_abort(&m), "the last interrupt", 0);
    check(get(&m, FTR) == 1u << DMA330_FTR_LOCKUP_ERR, "lockup_err right after it", get(&m, FTR));
    tear_down(&m);
}

int main(void)
{
    for (uint32_t bus = 32; bus <= 128; bus *= 2) {
        restores_at_each_step(bus);
        copies_what_is_there(bus);
    }
    refuses_beats_wider_than_the_bus();
    restores_anything();
    needs_room();
    restores_this_layout();
    ends_after_the_last_instruction();
    fails_after_the_last_interrupt();
    return end_checks();
}
