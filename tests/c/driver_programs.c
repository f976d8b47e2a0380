#include "drivers.h"
#include "guest.h"

#include <stdlib.h>
#include <string.h>

/* ---- instructions ---- */

static void add_byte(program *p, uint32_t byte)
{
    if (p->len == sizeof p->bytes)
        abort();
    p->bytes[p->len++] = (uint8_t)byte;
}

static void add(program *p, uint32_t code)
{
    add_byte(p, code);
    p->loops[p->depth].steps++;
}

static void add_two(program *p, uint32_t code, uint32_t operand)
{
    add(p, code);
    add_byte(p, operand);
}

static void add_move(program *p, uint32_t to, uint32_t value)
{
    add_two(p, DMAMOV, to);
    for (int n = 0; n < 4; n++)
        add_byte(p, value >> 8 * n);
}

static void begin_loop(program *p, uint32_t counter, uint32_t times)
{
    open_loop *loop = &p->loops[p->depth + 1];

    add_two(p, DMALP | counter << 1, times - 1);
    *loop = (open_loop){counter, times, p->len, 0};
    p->depth++;
}

static void end_loop(program *p)
{
    const open_loop *loop = &p->loops[p->depth--];
    uint32_t back = p->len - loop->begin;

    if (back > 255)
        abort();
    add_two(p, DMALPEND | loop->counter << 2, back);
    p->loops[p->depth].steps += loop->times * (loop->steps + 1) - 1;
}

/* Returns the half of a control word for one side. The protection bits are those of a driver that isn't secure. */
static uint32_t half_of(program *p, shape s, bool rises)
{
    uint32_t size = 0;

    while (1u << size < s.beat)
        size++;
    p->widest = s.beat > p->widest ? s.beat : p->widest;
    return 2u << 8 | (s.beats - 1) << 4 | size << 1 | (rises ? 1 : 0);
}

/* Adds a DMAMOV CCR. A source that doesn't rise is read at one address again and again. */
static void add_controls(program *p, shape src, bool rises, shape dst)
{
    uint32_t low = half_of(p, src, rises);

    add_move(p, TO_CCR, half_of(p, dst, true) << 14 | low);
}

static void add_control(program *p, shape s, bool rises)
{
    add_controls(p, s, rises, s);
}

/* Adds `loads` DMALDs, and then `stores` DMASTs. */
static void add_moves(program *p, uint32_t loads, uint32_t stores)
{
    for (uint32_t n = 0; n < loads + stores; n++)
        add(p, n < loads ? DMALD : DMAST);
}

/* ---- what a program means ---- */

/* Adds a range to a list, or lets the last one grow if this one continues it. */
static void means_range(dma330_segment *list, size_t *count, uint32_t addr, uint32_t len)
{
    dma330_segment *last = *count > 0 ? &list[*count - 1] : NULL;

    if (last != NULL && (uint64_t)last->addr + last->len == addr)
        last->len += len;
    else
        list[(*count)++] = (dma330_segment){addr, len};
}

/* Adds a range to the destinations, or to what is set to 0. */
static void means_store(meaning *m, uint32_t addr, uint32_t len)
{
    m->copied += len;
    means_range(m->dst, &m->dst_len, addr, len);
}

static void means_zeros(meaning *m, uint32_t addr, uint32_t len)
{
    m->cleared += len;
    means_range(m->zeros, &m->zeros_len, addr, len);
}

/* Adds a range to the sources, or lets the last one grow, or be read once more, if this one continues or repeats it. */
static void means_load(meaning *m, uint32_t addr, uint32_t len, uint32_t times)
{
    dma330_repeated *last = m->src_len > 0 ? &m->src[m->src_len - 1] : NULL;

    if (last != NULL && last->addr == addr && last->len == len)
        last->times += times;
    else if (last != NULL && last->times == 1 && times == 1 && (uint64_t)last->addr + last->len == addr)
        last->len += len;
    else
        m->src[m->src_len++] = (dma330_repeated){addr, len, times};
}

static void means_copy(meaning *m, const uint32_t copy[3])
{
    means_load(m, copy[0], copy[2], 1);
    means_store(m, copy[1], copy[2]);
}

static void means_moment(meaning *m, uint32_t kind, uint32_t event)
{
    m->events[m->events_len++] = (dma330_event){kind, event, m->copied, m->cleared};
}

void begin_program(program *p)
{
    memset(p, 0, sizeof *p);
    memset(p->bytes, 0xFF, sizeof p->bytes);
}

void end_program(program *p)
{
    add(p, DMAEND);
    p->means.steps = p->loops[0].steps;
}

void add_wait(program *p, uint32_t event)
{
    add_two(p, DMAWFE, event << 3);
    means_moment(&p->means, DMA330_WAITS, event);
}

void add_signal(program *p, uint32_t event)
{
    add_two(p, DMASEV, event << 3);
    means_moment(&p->means, DMA330_SIGNALS, event);
}

/* ---- Linux's form ---- */

shape linux_shape(uint32_t bus, uint32_t lines, uint32_t src, uint32_t dst, uint32_t len)
{
    shape s = {bus, lines < 16 ? lines : 16};

    while ((src | dst | len) % s.beat != 0)
        s.beat /= 2;
    if (s.beat < bus)
        s.beats = 1;
    return s;
}

static void add_linux_bodies(program *p, bool has_barriers, uint32_t count)
{
    for (; count > 0; count--) {
        add(p, DMALD);
        if (has_barriers)
            add(p, DMARMB);
        add(p, DMAST);
        if (has_barriers)
            add(p, DMAWMB);
    }
}

/* Adds one loop, or one in another, for as many of the bursts as it can move. Returns how many it moves. From 65,536
 * bursts on both loops have 256 rounds, and a body has as many bursts as a jump back allows. */
static uint32_t add_linux_loop(program *p, bool has_barriers, uint32_t bursts)
{
    uint32_t inner = bursts < 256 ? bursts : 256, outer = 1, bodies = 1;
    uint32_t room = (255u - 4 - 4) / (has_barriers ? 4 : 2);

    if (bursts >= 65536) {
        outer = 256;
        bodies = bursts / 65536 < room ? bursts / 65536 : room;
    } else if (bursts > 256) {
        outer = bursts / 256;
    }
    if (bursts > 256)
        begin_loop(p, 0, outer);
    if (bursts > 1)
        begin_loop(p, 1, inner);
    add_linux_bodies(p, has_barriers, bodies);
    while (p->depth > 0)
        end_loop(p);
    return outer * inner * bodies;
}

void write_linux(program *p, shape s, bool has_barriers, const uint32_t copy[3], uint32_t event)
{
    uint32_t bursts = copy[2] / (s.beat * s.beats), rest = copy[2] % (s.beat * s.beats) / s.beat;

    begin_program(p);
    add_control(p, s, true);
    add_move(p, TO_SAR, copy[0]);
    add_move(p, TO_DAR, copy[1]);
    while (bursts > 0)
        bursts -= add_linux_loop(p, has_barriers, bursts);
    if (rest > 0) {
        add_control(p, (shape){s.beat, rest}, true);
        add_linux_bodies(p, has_barriers, 1);
    }
    means_copy(&p->means, copy);
    add_signal(p, event);
    end_program(p);
}

/* ---- a vendor's form ---- */

/* Adds a body, or a loop of bodies, or one in another for more than 256. */
static void add_vendor_loops(program *p, uint32_t loads, uint32_t bodies)
{
    while (bodies > 0) {
        uint32_t outer = bodies / 256 < 256 ? bodies / 256 : 256, inner = bodies < 256 ? bodies : 256;

        if (bodies > 256)
            begin_loop(p, 1, outer);
        if (bodies > 1)
            begin_loop(p, 0, inner);
        bodies -= bodies > 256 ? outer * inner : inner;
        add_moves(p, loads, loads);
        while (p->depth > 0)
            end_loop(p);
    }
}

/* Adds bursts of one shape: `loads` at a time, then the rest of them singly. */
static void add_bursts(program *p, shape s, bool rises, uint32_t loads, uint32_t bursts)
{
    if (bursts == 0)
        return;
    add_control(p, s, rises);
    add_vendor_loops(p, loads, bursts / loads);
    add_vendor_loops(p, 1, bursts % loads);
}

void add_vendor(program *p, shape s, uint32_t loads, const uint32_t copy[3])
{
    static const shape single = {1, 1};
    uint32_t head, whole;

    if ((copy[0] ^ copy[1]) % s.beat != 0)
        s.beat = 1;
    head = (s.beat - copy[0] % s.beat) % s.beat;
    head = head < copy[2] ? head : copy[2];
    whole = (copy[2] - head) / (s.beat * s.beats);
    add_move(p, TO_SAR, copy[0]);
    add_move(p, TO_DAR, copy[1]);
    add_bursts(p, single, true, 1, head);
    add_bursts(p, s, true, loads, whole);
    add_bursts(p, single, true, 1, copy[2] - head - whole * s.beat * s.beats);
    means_copy(&p->means, copy);
}

/* ---- a boot loader's form ---- */

void add_boot(program *p, shape s, const uint32_t copy[3])
{
    enum { CHUNK = 65536 };

    for (uint32_t done = 0; done < copy[2]; done += CHUNK) {
        uint32_t left = copy[2] - done;
        const uint32_t chunk[3] = {copy[0] + done, copy[1] + done, left < CHUNK ? left : CHUNK};

        add_vendor(p, s, 1, chunk);
    }
}

void add_fill(program *p, shape s, const uint32_t copy[3])
{
    uint32_t whole = copy[2] / (s.beat * s.beats), rest = copy[2] % (s.beat * s.beats);

    add_move(p, TO_SAR, copy[0]);
    add_move(p, TO_DAR, copy[1]);
    add_bursts(p, s, false, 1, whole);
    add_bursts(p, (shape){1, 1}, false, 1, rest);
    if (whole > 0)
        means_load(&p->means, copy[0], s.beat, whole * s.beats);
    if (rest > 0)
        means_load(&p->means, copy[0], 1, rest);
    means_store(&p->means, copy[1], copy[2]);
}

/* Adds bursts of zeros of one shape, in a loop, or in one in another for more than 256. */
static void add_zero_bursts(program *p, shape s, uint32_t bursts)
{
    if (bursts > 0)
        add_control(p, s, true);
    while (bursts > 0) {
        uint32_t outer = bursts / 256 < 256 ? bursts / 256 : 256, inner = bursts < 256 ? bursts : 256;

        if (bursts > 256)
            begin_loop(p, 0, outer);
        begin_loop(p, 1, inner);
        bursts -= bursts > 256 ? outer * inner : inner;
        add(p, DMASTZ);
        while (p->depth > 0)
            end_loop(p);
    }
}

void add_zeros(program *p, shape s, uint32_t to, uint32_t len)
{
    uint32_t rest = len % (s.beat * s.beats);

    add_move(p, TO_DAR, to);
    add_zero_bursts(p, s, len / (s.beat * s.beats));
    add_zero_bursts(p, (shape){s.beat, 1}, rest / s.beat);
    add_zero_bursts(p, (shape){1, 1}, rest % s.beat);
    means_zeros(&p->means, to, len);
}

/* ---- the manual's form ---- */

static void add_loop(program *p, uint32_t times, uint32_t loads, uint32_t stores)
{
    begin_loop(p, 0, times);
    add_moves(p, loads, stores);
    end_loop(p);
}

/* The bursts of each example's first DMAMOV CCR, what is added to its addresses, and how many bytes it copies. */
static const struct {
    shape src, dst;
    uint32_t from, to, size;
} examples[EXAMPLES] = {
    {{8, 4}, {8, 4}, 0, 0, 512}, {{8, 1}, {8, 4}, 0, 0, 512}, {{8, 4}, {8, 1}, 0, 0, 512}, {{4, 4}, {4, 4}, 0, 4, 256},
    {{8, 4}, {8, 4}, 0, 4, 512}, {{8, 4}, {8, 4}, 4, 0, 512}, {{8, 5}, {8, 4}, 4, 0, 512}
};

/* Adds the moves of an example: after an unaligned first beat the rest comes at the end. */
static void add_example(program *p, example n)
{
    static const shape word = {4, 1}, three = {8, 3}, four = {8, 4};

    switch (n) {
    case DESTINATION_UNALIGNED:
        add_loop(p, 16, 1, 1);
        add_controls(p, four, true, word);
        add_moves(p, 0, 1);
        break;
    case SOURCE_UNALIGNED:
        add_moves(p, 1, 0);
        add_loop(p, 15, 1, 1);
        add_controls(p, word, true, four);
        add_moves(p, 1, 1);
        break;
    case FIRST_LOAD_LONGER:
        add_moves(p, 1, 1);
        add_control(p, four, true);
        add_loop(p, 14, 1, 1);
        add_controls(p, three, true, four);
        add_moves(p, 1, 0);
        add_controls(p, word, true, four);
        add_moves(p, 1, 1);
        break;
    default: add_loop(p, 16, n == LOADS_SHORTER ? 4 : 1, n == STORES_SHORTER ? 4 : 1); break;
    }
}

void write_manual(program *p, example n, uint32_t src, uint32_t dst)
{
    const uint32_t copy[3] = {src + examples[n].from, dst + examples[n].to, examples[n].size};

    begin_program(p);
    add_controls(p, examples[n].src, true, examples[n].dst);
    add_move(p, TO_SAR, copy[0]);
    add_move(p, TO_DAR, copy[1]);
    add_example(p, n);
    means_copy(&p->means, copy);
    end_program(p);
}

/* ---- programs that the library makes ---- */

/* Keeps how many bytes a program has, and which beats it may have. */
static bool has_made(program *p, int32_t code, size_t len, uint32_t bus)
{
    allocations_left = 0;
    p->len = (uint32_t)len;
    p->widest = bus == 0 ? 16 : bus / 8;
    return code == DMA330_OK;
}

bool write_plan(program *p, uint32_t bus, const dma330_segment *src, size_t src_len, const dma330_segment *dst,
                size_t dst_len, int32_t wait, int32_t signal)
{
    size_t len = 0;
    int32_t code;

    begin_program(p);
    if (wait >= 0)
        means_moment(&p->means, DMA330_WAITS, (uint32_t)wait);
    for (size_t n = 0; n < src_len; n++)
        means_load(&p->means, src[n].addr, src[n].len, 1);
    for (size_t n = 0; n < dst_len; n++)
        means_store(&p->means, dst[n].addr, dst[n].len);
    if (signal >= 0)
        means_moment(&p->means, DMA330_SIGNALS, (uint32_t)signal);
    allocations_left = 1000;
    code = dma330_plan(src, src_len, dst, dst_len, wait, signal, bus, p->bytes, sizeof p->bytes, &len);
    return has_made(p, code, len, bus);
}

bool write_plan_fill(program *p, uint32_t bus, uint32_t src, dma330_segment dst)
{
    size_t len = 0;
    int32_t code;

    begin_program(p);
    means_load(&p->means, src, 1, dst.len);
    means_store(&p->means, dst.addr, dst.len);
    allocations_left = 1000;
    code = dma330_plan_fill(src, &dst, 1, DMA330_NO_EVENT, DMA330_NO_EVENT, bus, p->bytes, sizeof p->bytes, &len);
    return has_made(p, code, len, bus);
}
