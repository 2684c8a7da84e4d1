/* What the drivers of the checks of the C library share: blocks between two pages that nothing may touch, a count of the blocks that
   the library holds, allocations that are refused, and `must`, which ends the program.

   A block ends where the page after it begins; with a variable FRONT it begins where the page before it ends. What is left of the
   block's own pages is filled, and looked at when it is taken back. A block of no bytes is in turn a null pointer
   and the address of the page after it.

   The library's blocks are counted in `malloc`, `realloc` and `free`, below the library's allocator. Under a sanitizer, which has
   these functions itself, they are counted by its hooks, and none is refused; with UNCOUNTED, for valgrind, they are neither. */
#ifndef LENT_H
#define LENT_H

#include <stdint.h>
#include <stdio.h>
#include <stdlib.h>
#include <string.h>
#include <sys/mman.h>

#define UNUSED __attribute__((unused)) /* by some of the drivers */

static void must(int holds, const char *what) {
    if (holds) return;
    printf("not so: %s\n", what);
    fflush(stdout);
    _Exit(1);
}

/* How many blocks are held, how many were requested since `refused_at` was set, and which request is refused: 0 for none. */
static long live;
static UNUSED long asked, refused_at;

#if defined(__SANITIZE_ADDRESS__)
extern int __sanitizer_install_malloc_and_free_hooks(void (*)(const volatile void *, size_t), void (*)(const volatile void *));
enum { IS_COUNTED = 1 };
static void taken(const volatile void *block, size_t size) {
    (void)size;
    live += block != NULL;
}
static void freed(const volatile void *block) { live -= block != NULL; }
__attribute__((constructor)) static void count(void) { __sanitizer_install_malloc_and_free_hooks(taken, freed); }
#elif defined(UNCOUNTED)
enum { IS_COUNTED = 0 };
#else
enum { IS_COUNTED = 1 };
extern void *__libc_malloc(size_t), *__libc_realloc(void *, size_t);
extern void __libc_free(void *);
static int refuses(void) { return ++asked == refused_at; }
void *malloc(size_t size) {
    void *block = refuses() ? NULL : __libc_malloc(size);
    live += block != NULL;
    return block;
}
void *realloc(void *old, size_t size) {
    void *block = refuses() ? NULL : __libc_realloc(old, size);
    live += !old && block;
    return block;
}
void free(void *block) {
    live -= block != NULL;
    __libc_free(block);
}
#endif

/* How many blocks the program itself holds, and whether the library holds none. */
static long held;
static UNUSED int is_freed(void) { return !IS_COUNTED || live == held; }

enum { PAGE = 4096, FILL = 0xA5, MOST = 64 };

static struct lent {
    uint8_t *pages, *block;
    size_t count, size;
} lent[MOST];

/* A block of this many bytes. */
static void *lend(size_t size) {
    static int is_null;
    size_t count = (size + PAGE - 1) / PAGE;
    struct lent *one = NULL;
    for (struct lent *it = lent; it < lent + MOST; it++)
        if (!it->block && it->pages && it->count == count) one = it;
    for (struct lent *it = lent; it < lent + MOST && !one; it++)
        if (!it->block && !it->pages) one = it;
    for (struct lent *it = lent; it < lent + MOST && !one; it++)
        if (!it->block) munmap(it->pages, (it->count + 2) * PAGE), it->pages = NULL, one = it;
    must(one != NULL, "few blocks at a time");
    if (!one->pages) {
        one->pages = mmap(NULL, (count + 2) * PAGE, PROT_NONE, MAP_PRIVATE | MAP_ANONYMOUS, -1, 0);
        must(one->pages != MAP_FAILED && (!count || !mprotect(one->pages + PAGE, count * PAGE, PROT_READ | PROT_WRITE)), "pages");
        one->count = count;
    }
    one->size = size;
    memset(one->pages + PAGE, FILL, count * PAGE);
    one->block = one->pages + PAGE + (getenv("FRONT") ? 0 : count * PAGE - size);
    if (size == 0 && (is_null = !is_null)) one->block = NULL;
    return one->block;
}

static int is_filled(const uint8_t *from, const uint8_t *to) {
    return from >= to || (*from == FILL && memcmp(from, from + 1, (size_t)(to - from) - 1) == 0);
}

/* Whether the bytes of a block after the first ones are as they were lent. */
static UNUSED int is_untouched_after(const void *block, size_t first, size_t size) {
    return is_filled((const uint8_t *)block + first, (const uint8_t *)block + size);
}

static void take_back(void *block) {
    struct lent *one = lent;
    if (!block) return;
    while (one < lent + MOST && one->block != block) one++;
    must(one < lent + MOST, "a block that was lent");
    must(is_filled(one->pages + PAGE, one->block) && is_filled(one->block + one->size, one->pages + PAGE * (one->count + 1)), "nothing is written around a block");
    one->block = NULL;
}

/* Whether two blocks have the same bytes; they may be null if there are none. */
static UNUSED int are_same(const void *one, const void *other, size_t size) { return size == 0 || memcmp(one, other, size) == 0; }

static UNUSED void copy(void *to, const void *from, size_t size) {
    if (size > 0) memcpy(to, from, size);
}

/* A block of the bytes that a text tells in hexadecimal, `-` for none, and how many they are. */
static UNUSED void *lend_bytes(const char *text, size_t *length) {
    *length = text[0] == '-' ? 0 : strlen(text) / 2;
    uint8_t *bytes = lend(*length);
    for (size_t k = 0; k < *length; k++) {
        char digits[3] = {text[2 * k], text[2 * k + 1], 0};
        bytes[k] = (uint8_t)strtoul(digits, NULL, 16);
    }
    return bytes;
}

#endif
