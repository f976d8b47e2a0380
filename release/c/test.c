/* Checks heap.c and os.c, or the kit's objects in their place, against the contracts in rattle/libc/src/heap.rt and
 * rattle/os/src/c.rt of the Rattle kit. Link it with tests/c/heap.c. It prints how many bytes each allocation asks
 * for, and what is returned for each argument; the last line is 'N passed, M failed'. */
#include "heap.h"

#include <errno.h>
#include <pthread.h>
#include <stdbool.h>
#include <stdint.h>
#include <stdio.h>
#include <string.h>

typedef struct tried {
    bool is_there;
    uint8_t *block;
} tried;

tried rattle_alloc(size_t size, size_t alignment);
tried rattle_realloc(uint8_t *block, size_t kept, size_t size, size_t alignment);
void rattle_dealloc(uint8_t *block);
size_t rattle_arg_count(void);
ptrdiff_t rattle_arg(size_t number, uint8_t *bytes, size_t room);
int32_t rattle_errno(void);
void rattle_set_errno(int32_t number);

static long passed, failed;
static int is_full;

int allocation_fails(void)
{
    return is_full;
}

static void check(int holds, const char *what, size_t first, size_t second)
{
    if (holds) {
        passed++;
        return;
    }
    failed++;
    printf("FAILED: %s, %zu %zu\n", what, first, second);
}

/* ---- the heap ---- */

/* Whether there is memory, aligned and of this many bytes. Prints what was asked for since `asked`. */
static void check_there(tried it, const char *what, size_t size, size_t alignment, size_t asked)
{
    uint8_t flag;
    memcpy(&flag, &it, 1);
    check(flag == 1 && it.block != NULL && (uintptr_t)it.block % alignment == 0, what, size, alignment);
    memset(it.block, 0xA5, size);
    printf("%s %zu %zu: asks for %zu\n", what, size, alignment, requested_bytes - asked);
}

static void check_none(tried it, const char *what, size_t size, size_t alignment)
{
    static uint8_t *nothing;
    uint8_t flag;
    memcpy(&flag, &it, 1);
    nothing = nothing != NULL ? nothing : it.block;
    check(flag == 0 && it.block != NULL && it.block == nothing, what, size, alignment);
}

static void allocate(size_t size, size_t alignment)
{
    const long live = live_blocks;
    const size_t asked = requested_bytes;
    tried it = rattle_alloc(size, alignment);
    check_there(it, "alloc", size, alignment, asked);
    check(live_blocks == live + 1, "one block more", size, alignment);
    rattle_dealloc(it.block);
    check(live_blocks == live, "dealloc", size, alignment);
    is_full = 1;
    check_none(rattle_alloc(size, alignment), "alloc without memory", size, alignment);
    is_full = 0;
}

static int is_counting(const uint8_t *bytes, size_t count)
{
    size_t n;
    for (n = 0; n < count && bytes[n] == n % 251; n++)
        ;
    return n == count;
}

/* Resizes a block of which the first `kept` bytes are written, without memory and then with it. */
static void resize(size_t from, size_t kept, size_t to, size_t alignment)
{
    const long live = live_blocks;
    tried it = rattle_alloc(from, alignment), other;
    size_t n, asked;
    for (n = 0; n < kept; n++)
        it.block[n] = (uint8_t)(n % 251);
    is_full = 1;
    check_none(rattle_realloc(it.block, kept, to, alignment), "realloc without memory", from, to);
    is_full = 0;
    check(is_counting(it.block, kept) && live_blocks == live + 1, "the block is as it was", from, to);
    asked = requested_bytes;
    other = rattle_realloc(it.block, kept, to, alignment);
    check(is_counting(other.block, kept) && live_blocks == live + 1, "the bytes are kept", from, to);
    check_there(other, "realloc", to, alignment, asked);
    rattle_dealloc(other.block);
    check(live_blocks == live, "dealloc", from, to);
}

static void check_heap(void)
{
    static const size_t counts[] = {0, 1, 3, 100, 65536};
    enum { COUNTS = sizeof counts / sizeof counts[0] };
    size_t alignment, from, to;
    for (alignment = 1; alignment <= 16; alignment *= 2)
        for (from = 0; from < COUNTS; from++) {
            allocate(counts[from] * alignment, alignment);
            for (to = 0; to < COUNTS; to++) {
                const size_t least = counts[from < to ? from : to] * alignment;
                resize(counts[from] * alignment, least, counts[to] * alignment, alignment);
                resize(counts[from] * alignment, least / 2 / alignment * alignment, counts[to] * alignment, alignment);
            }
        }
    check_none(rattle_alloc((size_t)1 << 62, 16), "alloc of too much", 62, 16);
}

/* ---- arguments and errno ---- */

/* Reads an argument into this much room; the bytes after it stay as they are. */
static void read_argument(size_t number, const char *word, size_t room)
{
    static uint8_t bytes[20000];
    const size_t length = strlen(word), written = length < room ? length : room;
    ptrdiff_t got;
    memset(bytes, 0xA5, sizeof bytes);
    got = rattle_arg(number, bytes, room);
    check(got == (length <= room ? (ptrdiff_t)length : -2), "arg", number, room);
    check(memcmp(bytes, word, written) == 0 && bytes[written] == 0xA5, "bytes of arg", number, room);
    if (number > 0)
        printf("arg %zu into %zu: %td\n", number, room, got);
}

static void check_arguments(size_t count, char **words)
{
    uint8_t byte;
    size_t n;
    check(rattle_arg_count() == count, "arg_count", count, 0);
    for (n = 0; n < count; n++) {
        const size_t length = strlen(words[n]);
        read_argument(n, words[n], 0);
        read_argument(n, words[n], length / 2);
        read_argument(n, words[n], length);
        read_argument(n, words[n], length + 1);
    }
    check(rattle_arg(count, &byte, 1) == -1, "arg after the last", count, 0);
    check(rattle_arg(SIZE_MAX, &byte, 1) == -1, "arg after the last", SIZE_MAX, 0);
}

static void *of_a_thread(void *unused)
{
    (void)unused;
    rattle_set_errno(ENOMEM);
    check(rattle_errno() == ENOMEM, "errno of a thread", 0, 0);
    return NULL;
}

static void check_errno(void)
{
    pthread_t thread;
    errno = ERANGE;
    check(rattle_errno() == ERANGE, "errno", 0, 0);
    rattle_set_errno(-5);
    check(errno == -5, "set_errno", 0, 0);
    check(pthread_create(&thread, NULL, of_a_thread, NULL) == 0 && pthread_join(thread, NULL) == 0, "a thread", 0, 0);
    check(rattle_errno() == -5, "errno beside a thread", 0, 0);
}

int main(int count, char **words)
{
    check_heap();
    check_arguments((size_t)count, words);
    check_errno();
    printf("%ld passed, %ld failed\n", passed, failed);
    return failed != 0;
}
