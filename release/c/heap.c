/* The heap of the library and of the programs, over the C library's malloc, realloc and free. The proofs assume the
 * contracts in rattle/libc/src/heap.rt of the Rattle kit, which has this only as an object for x86-64.
 *
 * The kit's clang compiles it for each processor, and has no headers. */
typedef __SIZE_TYPE__ size_t;

/* A contract asks for no more than this alignment, and for a size that is a multiple of it, or 0. */
_Static_assert(_Alignof(long double) == 16, "malloc aligns to 16, or to what divides the size");

void *malloc(size_t size);
void *realloc(void *block, size_t size);
void free(void *block);

/* Whether there is memory, and where; without memory `block` is the address of `nothing`. */
typedef struct tried {
    _Bool is_there;
    void *block;
} tried;

tried rattle_alloc(size_t size, size_t alignment);
tried rattle_realloc(void *block, size_t kept, size_t size, size_t alignment);
void rattle_dealloc(void *block);

static char nothing;

static tried answer(void *block)
{
    tried found = {block != 0, block != 0 ? block : &nothing};
    return found;
}

/* A block of no bytes is one of `alignment` bytes, since malloc(0) may return null. */
tried rattle_alloc(size_t size, size_t alignment)
{
    return answer(malloc(size != 0 ? size : alignment));
}

/* realloc keeps all bytes up to the smaller size, and the contract asks for the first `kept`. */
tried rattle_realloc(void *block, size_t kept, size_t size, size_t alignment)
{
    (void)kept;
    return answer(realloc(block, size != 0 ? size : alignment));
}

void rattle_dealloc(void *block)
{
    free(block);
}
