#include "heap.h"

#include <errno.h>
#include <stdlib.h>
#include <unistd.h>

#ifdef PRELOADED
#define OURS(name) name
#define REAL(name) __libc_##name
#else
#define OURS(name) __wrap_##name
#define REAL(name) __real_##name
void *OURS(malloc)(size_t size);
void *OURS(realloc)(void *block, size_t size);
void OURS(free)(void *block);
#endif

void *REAL(malloc)(size_t size);
void *REAL(realloc)(void *block, size_t size);
void REAL(free)(void *block);

long live_blocks;
size_t requested_bytes;

/* Counts the bytes of an allocation, and returns whether it fails. A preloaded program may have threads. */
static int is_refused(size_t size)
{
    __atomic_add_fetch(&requested_bytes, size, __ATOMIC_RELAXED);
    if (!allocation_fails())
        return 0;
    errno = ENOMEM;
    return 1;
}

static void add_blocks(long count)
{
    __atomic_add_fetch(&live_blocks, count, __ATOMIC_RELAXED);
}

void *OURS(malloc)(size_t size)
{
    void *made = is_refused(size) ? NULL : REAL(malloc)(size);
    add_blocks(made != NULL);
    return made;
}

void *OURS(realloc)(void *block, size_t size)
{
    void *made = is_refused(size) ? NULL : REAL(realloc)(block, size);
    add_blocks(made != NULL && block == NULL);
    return made;
}

void OURS(free)(void *block)
{
    add_blocks(-(block != NULL));
    REAL(free)(block);
}

#ifdef PRELOADED

/* The allocation whose number is the variable FAILING fails, and a line on standard error says so. */
int allocation_fails(void)
{
    static const char line[] = "allocation failed\n";
    static long allocations;
    const char *number = getenv("FAILING");
    long allocation = __atomic_add_fetch(&allocations, 1, __ATOMIC_SEQ_CST);
    if (!number || atol(number) != allocation)
        return 0;
    if (write(2, line, sizeof line - 1) < 0)
        _exit(99);
    return 1;
}

#endif
