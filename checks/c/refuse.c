/* Loaded before a program, this refuses its N-th allocation, N being the variable REFUSE, and says on standard
   error whether that many were requested. With a variable COUNT it says at the end how many were requested. */
#define _GNU_SOURCE
#include <dlfcn.h>
#include <stdio.h>
#include <stdlib.h>
#include <unistd.h>

static long wanted = -1, seen = 0;

static int refuses(void) {
    if (wanted < 0) {
        const char *text = getenv("REFUSE");
        wanted = text ? atol(text) : 0;
    }
    if (++seen != wanted) return 0;
    if (write(2, "refused\n", 8) < 0) _exit(99);
    return 1;
}

__attribute__((destructor)) static void say_count(void) {
    char text[32];
    if (!getenv("COUNT")) return;
    int length = snprintf(text, sizeof text, "%ld allocations\n", seen);
    if (write(2, text, (size_t)length) < 0) _exit(99);
}

void *malloc(size_t size) {
    static void *(*real)(size_t);
    if (!real) real = dlsym(RTLD_NEXT, "malloc");
    return refuses() ? NULL : real(size);
}

void *realloc(void *block, size_t size) {
    static void *(*real)(void *, size_t);
    if (!real) real = dlsym(RTLD_NEXT, "realloc");
    return refuses() ? NULL : real(block, size);
}

int posix_memalign(void **block, size_t align, size_t size) {
    static int (*real)(void **, size_t, size_t);
    if (!real) real = dlsym(RTLD_NEXT, "posix_memalign");
    return refuses() ? 12 : real(block, align, size);
}

void *aligned_alloc(size_t align, size_t size) {
    static void *(*real)(size_t, size_t);
    if (!real) real = dlsym(RTLD_NEXT, "aligned_alloc");
    return refuses() ? NULL : real(align, size);
}
