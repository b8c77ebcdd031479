/* Stands in for the kit's C archive that hands out memory, in programs and in the library. */
#include <stddef.h>
#include <stdlib.h>

/* What a request for memory gives: whether it was met, and the block. A block of no bytes is one of as many as its alignment. */
struct given {
    size_t is_met;
    void *block;
};

static struct given given(void *block)
{
    static char none;
    struct given it = {block != NULL, block ? block : &none};

    return it;
}

struct given rattle_alloc(size_t size, size_t alignment)
{
    return given(malloc(size ? size : alignment));
}

struct given rattle_realloc(void *block, size_t old_size, size_t size, size_t alignment)
{
    (void)old_size;
    return given(realloc(block, size ? size : alignment));
}

void rattle_dealloc(void *block)
{
    free(block);
}
