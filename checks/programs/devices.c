/* Loaded before a program, this changes how standard input and output behave. With READ_BYTES or WRITE_BYTES a call reads or
   writes at most that many bytes; with READ_FAILS or WRITE_FAILS the call with that number fails; with WRITE_TAKES_NONE the call
   with that number writes nothing. A device that is called again after that says so on standard error. With INTERRUPTED a call
   fails that many times before each other one as if a signal had interrupted it. With SIGNAL_EVERY a signal comes every so many
   microseconds; a read that it interrupts says r on standard error, and a write w. */
#define _GNU_SOURCE
#include <dlfcn.h>
#include <errno.h>
#include <signal.h>
#include <stdlib.h>
#include <sys/time.h>
#include <unistd.h>

typedef struct {
    long calls, interrupted;
    int has_failed;
} device;

static device input, output;

static long number(const char *name) {
    const char *text = getenv(name);
    return text ? atol(text) : 0;
}

static size_t at_most(size_t count, const char *name) {
    long most = number(name);
    return most > 0 && (size_t)most < count ? (size_t)most : count;
}

static ssize_t real_write(int file, const void *bytes, size_t count) {
    static ssize_t (*real)(int, const void *, size_t);
    if (!real) real = (ssize_t (*)(int, const void *, size_t))dlsym(RTLD_NEXT, "write");
    return real(file, bytes, count);
}

/* Whether this call is the one whose number the variable names. */
static int is_named(device *device, const char *name) {
    if (device->calls != number(name)) return 0;
    device->has_failed = 1;
    return 1;
}

static int is_interrupted(device *device) {
    if (device->interrupted++ < number("INTERRUPTED")) {
        errno = EINTR;
        return 1;
    }
    device->interrupted = 0;
    return 0;
}

static void on_signal(int signal) { (void)signal; }

__attribute__((constructor)) static void start_signals(void) {
    long every = number("SIGNAL_EVERY");
    struct sigaction action = {.sa_handler = on_signal}; /* without SA_RESTART */
    struct itimerval timer = {{0, every}, {0, every}};
    if (every && (sigaction(SIGALRM, &action, NULL) || setitimer(ITIMER_REAL, &timer, NULL))) _exit(98);
}

/* The result of a call, which says a letter if a signal interrupted it. */
static ssize_t said(ssize_t result, const char *letter) {
    if (result >= 0 || errno != EINTR) return result;
    if (real_write(2, letter, 1) != 1) _exit(97);
    errno = EINTR;
    return result;
}

static void count_call(device *device) {
    device->calls++;
    if (device->has_failed && real_write(2, "asked again\n", 12) < 0) _exit(99);
}

ssize_t read(int file, void *bytes, size_t count) {
    static ssize_t (*real)(int, void *, size_t);
    if (!real) real = (ssize_t (*)(int, void *, size_t))dlsym(RTLD_NEXT, "read");
    if (file != 0) return real(file, bytes, count);
    if (is_interrupted(&input)) return -1;
    count_call(&input);
    if (is_named(&input, "READ_FAILS")) {
        errno = EIO;
        return -1;
    }
    return said(real(file, bytes, at_most(count, "READ_BYTES")), "r");
}

ssize_t write(int file, const void *bytes, size_t count) {
    if (file != 1) return real_write(file, bytes, count);
    if (is_interrupted(&output)) return -1;
    count_call(&output);
    if (is_named(&output, "WRITE_FAILS")) {
        errno = EIO;
        return -1;
    }
    if (is_named(&output, "WRITE_TAKES_NONE")) return 0;
    return said(real_write(file, bytes, at_most(count, "WRITE_BYTES")), "w");
}

ssize_t __write(int file, const void *bytes, size_t count) { return write(file, bytes, count); }
