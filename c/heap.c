/* The allocator of hayro_ccitt_heap.h, on top of malloc, realloc and free. It compiles as C89 and as C++. */
#include "hayro_ccitt_heap.h"
#include <stdlib.h>

static rattle_tried tried_block(void *block)
{
    static union {
        long number;
        double real;
        long double most;
        void *pointer;
    } nowhere; /* aligned for any type */
    rattle_tried tried;
    tried.ok = block != NULL;
    tried.block = block ? block : &nowhere;
    return tried;
}

rattle_tried rattle_alloc(size_t size, size_t align)
{
    return tried_block(malloc(size ? size : align));
}

rattle_tried rattle_realloc(void *block, size_t kept, size_t size, size_t align)
{
    (void)kept;
    return tried_block(realloc(block, size ? size : align));
}

void rattle_dealloc(void *block)
{
    free(block);
}
