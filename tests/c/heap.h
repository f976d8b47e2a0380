/* malloc, realloc and free, of which the first two fail when the program says so. Link a program that calls the library
 * with heap.c and -Wl,--wrap=malloc,--wrap=realloc,--wrap=free; tests/test_refuse_calls and tests/test_refuse_memory
 * preload heap.c, compiled with -DPRELOADED, into programs that are already built. */
#ifndef HEAP_H
#define HEAP_H

#include <stddef.h>

/* Returns whether the next allocation fails. The program defines it, unless heap.c is preloaded. */
int allocation_fails(void);

/* The number of allocated blocks, and the sum of the sizes that were requested. */
extern long live_blocks;
extern size_t requested_bytes;

#endif
