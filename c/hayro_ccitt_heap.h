/* hayro_ccitt_heap.h: the allocator of the library.
 *
 * The library defines these three functions by malloc, realloc and free. A program that defines all three itself replaces them,
 * whether it links with the static library or with the shared one. */
#ifndef HAYRO_CCITT_HEAP_H
#define HAYRO_CCITT_HEAP_H

#include <stddef.h>

#ifdef __cplusplus
extern "C" {
#endif

/* The result of an allocation. */
typedef struct {
    unsigned char ok; /* 1 if the allocation succeeded, else 0 */
    void *block;      /* the block; if it failed, any pointer that is not null */
} rattle_tried;

/* Allocates a block of `size` bytes, aligned to `align`, a power of two that is at most 16; of `align` bytes if `size` is 0. */
rattle_tried rattle_alloc(size_t size, size_t align);

/* Moves a block to one of `size` bytes, aligned to `align`, which begins with the first `kept` bytes of the old one. If that
 * fails, the old block stays allocated and keeps its bytes. */
rattle_tried rattle_realloc(void *block, size_t kept, size_t size, size_t align);

/* Frees a block that one of the other two returned. */
void rattle_dealloc(void *block);

#ifdef __cplusplus
}
#endif

#endif
