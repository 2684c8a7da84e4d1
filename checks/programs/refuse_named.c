/* Loaded before built tests, this refuses the allocation that a test names. A test names it by requesting 2^20 + N bytes: the
   N-th allocation from then on is refused, and no other. If it requests 2^20 bytes, none is refused from then on, and this
   request is itself refused if the named one was. At the end it says on standard error how many allocations were named and how
   many were refused. */
#define _GNU_SOURCE
#include <dlfcn.h>
#include <stdio.h>
#include <stdlib.h>
#include <unistd.h>

#define BASE ((size_t)1 << 20)
#define MOST 4096

static size_t awaited, named, refused;
static int was_met;

static int refuses(size_t size) {
    if (size == BASE) {
        const int met = was_met;
        awaited = 0;
        was_met = 0;
        return met;
    }
    if (size > BASE && size < BASE + MOST) {
        awaited = size - BASE;
        was_met = 0;
        named++;
        return 0;
    }
    if (awaited == 0 || --awaited > 0) return 0;
    was_met = 1;
    refused++;
    return 1;
}

__attribute__((destructor)) static void say_counts(void) {
    char text[64];
    int length = snprintf(text, sizeof text, "%zu named, %zu refused\n", named, refused);
    if (write(2, text, (size_t)length) < 0) _exit(99);
}

void *malloc(size_t size) {
    static void *(*real)(size_t);
    if (!real) real = dlsym(RTLD_NEXT, "malloc");
    return refuses(size) ? NULL : real(size);
}

void *realloc(void *block, size_t size) {
    static void *(*real)(void *, size_t);
    if (!real) real = dlsym(RTLD_NEXT, "realloc");
    return refuses(size) ? NULL : real(block, size);
}

int posix_memalign(void **block, size_t align, size_t size) {
    static int (*real)(void **, size_t, size_t);
    if (!real) real = dlsym(RTLD_NEXT, "posix_memalign");
    return refuses(size) ? 12 : real(block, align, size);
}

void *aligned_alloc(size_t align, size_t size) {
    static void *(*real)(size_t, size_t);
    if (!real) real = dlsym(RTLD_NEXT, "aligned_alloc");
    return refuses(size) ? NULL : real(align, size);
}
