/* An allocator for libhayro_ccitt_c.a that counts: how many allocations were requested, of how many bytes in all and at most, and
   how many blocks are allocated. One request may be refused. */
#include <stdbool.h>
#include <stddef.h>
#include <stdint.h>
#include <stdlib.h>
#include <string.h>

typedef struct {
    bool ok;
    void *block;
} tried;

static uint64_t refused, requests, bytes, largest, blocks;

/* From now on the request with this number is refused, and no other; 0: none. */
void refuse_request(uint64_t number) { refused = number; requests = bytes = largest = 0; }
uint64_t requests_seen(void) { return requests; }
uint64_t bytes_asked(void) { return bytes; }
uint64_t largest_asked(void) { return largest; }
uint64_t blocks_held(void) { return blocks; }

static bool refuses(size_t size) {
    bytes += size;
    if (size > largest) largest = size;
    return ++requests == refused;
}

static tried tried_block(void *block) {
    static max_align_t nowhere;
    return block ? (tried){true, block} : (tried){false, &nowhere};
}

tried rattle_alloc(size_t size, size_t align) {
    void *block = refuses(size) ? NULL : malloc(size ? size : align);
    blocks += block != NULL;
    return tried_block(block);
}

/* The new block is another one, and has no byte of the old one but those that are to be kept. */
tried rattle_realloc(void *block, size_t kept, size_t size, size_t align) {
    void *moved = refuses(size) ? NULL : malloc(size ? size : align);
    if (!moved) return tried_block(NULL);
    memcpy(moved, block, kept);
    free(block);
    return tried_block(moved);
}

void rattle_dealloc(void *block) {
    blocks--;
    free(block);
}
