/* A library to preload (LD_PRELOAD): makes a chosen call to the C library fail, and counts calls. Ignores
 * writes to files other than standard output.
 *
 * FAULT_CALL  the call that fails: malloc, read, read-table (of a file named .txt), write or open
 * FAULT_AT    the number of the call, from 1
 * FAULT_AS    the error number; 0: the call transfers no byte; -1: it transfers one byte
 * FAULT_MOST  the maximum number of bytes per read or write, except for files named .txt
 * FAULT_COUNT the file to write the counts to, one name and number per line:
 *             calls   calls of FAULT_CALL
 *             takes   calls of malloc and realloc
 *             bytes   the bytes that these calls requested
 *             opens   opened files
 *             reads   reads
 *             ends    reads that transferred no byte
 *             late    reads of a file after a read of it that transferred no byte
 *             writes  writes
 *             start   bytes of the stack that were used before the first read of a file not named .txt
 *             stack   bytes of the stack that were used from then on */
#define _GNU_SOURCE
#include <dlfcn.h>
#include <errno.h>
#include <fcntl.h>
#include <stdarg.h>
#include <stdint.h>
#include <stdio.h>
#include <stdlib.h>
#include <string.h>
#include <unistd.h>

enum { FILES = 1024, WORDS = 1 << 15 }; /* (256 KB of the stack) */
static const uint64_t UNUSED = 0xa5a5a5a5a5a5a5a5;

static long calls, takes, opens, reads, ends, late, writes, at;
static size_t bytes;
static const char *call;
static int as, is_ready;
static size_t most = (size_t)-1;
static char is_table[FILES], has_ended[FILES];
static uintptr_t top, bottom;
static size_t start_stack;

static void *(*real_malloc)(size_t);
static void *(*real_realloc)(void *, size_t);
static ssize_t (*real_read)(int, void *, size_t);
static ssize_t (*real_write)(int, const void *, size_t);
static int (*real_open)(const char *, int, ...);

static void find_calls(void) {
    real_malloc = dlsym(RTLD_NEXT, "malloc");
    real_realloc = dlsym(RTLD_NEXT, "realloc");
    real_read = dlsym(RTLD_NEXT, "read");
    real_write = dlsym(RTLD_NEXT, "write");
    real_open = dlsym(RTLD_NEXT, "open");
}

static const char *word(const char *name, const char *otherwise) {
    const char *value = getenv(name);
    return value ? value : otherwise;
}

/* Fills the unused stack with a pattern, so that its later use can be measured. */
static __attribute__((noinline)) void mark_stack(void) {
    volatile uint64_t below[WORDS];
    for (size_t k = 0; k < WORDS; k++)
        below[k] = UNUSED;
    bottom = (uintptr_t)below;
}

static size_t used_stack(void) {
    volatile uint64_t *place = (volatile uint64_t *)bottom;
    while ((uintptr_t)place < top && *place == UNUSED)
        place++;
    return top - (uintptr_t)place;
}

__attribute__((constructor)) static void begin(void) {
    call = word("FAULT_CALL", "");
    at = atol(word("FAULT_AT", "0"));
    as = atoi(word("FAULT_AS", "0"));
    if (getenv("FAULT_MOST"))
        most = strtoul(getenv("FAULT_MOST"), 0, 10);
    find_calls();
    top = (uintptr_t)__builtin_frame_address(0);
    if (getenv("FAULT_COUNT"))
        mark_stack();
    is_ready = 1;
}

static int fails(const char *name) { return is_ready && !strcmp(call, name) && ++calls == at; }

static void count_memory(size_t size) {
    takes += is_ready;
    bytes += is_ready ? size : 0;
}

static void *without_memory(void) {
    errno = ENOMEM;
    return 0;
}

void *malloc(size_t size) {
    if (!real_malloc)
        find_calls();
    count_memory(size);
    return fails("malloc") ? without_memory() : real_malloc(size);
}

void *realloc(void *old, size_t size) {
    if (!real_realloc)
        find_calls();
    count_memory(size);
    return fails("malloc") ? without_memory() : real_realloc(old, size);
}

static size_t at_most(int file, size_t size) {
    return is_table[file & (FILES - 1)] || size < most ? size : most;
}

/* Fails as requested, or calls the C library's read. */
static ssize_t read_or_fail(int file, void *to, size_t size) {
    if (!real_read)
        find_calls();
    if (fails(is_table[file & (FILES - 1)] ? "read-table" : "read")) {
        if (as < 0)
            return real_read(file, to, size ? 1 : 0);
        errno = as;
        return as ? -1 : 0;
    }
    return real_read(file, to, at_most(file, size));
}

ssize_t read(int file, void *to, size_t size) {
    char *ended = &has_ended[file & (FILES - 1)];
    if (!start_stack && bottom && !is_table[file & (FILES - 1)]) {
        start_stack = used_stack();
        mark_stack();
    }
    reads++;
    late += *ended;
    ssize_t passed = read_or_fail(file, to, size);
    if (passed == 0) {
        *ended = 1;
        ends++;
    }
    return passed;
}

ssize_t write(int file, const void *from, size_t size) {
    if (!real_write)
        find_calls();
    if (file != 1)
        return real_write(file, from, size);
    writes++;
    if (fails("write")) {
        if (as < 0)
            return real_write(file, from, size ? 1 : 0);
        errno = as;
        return as ? -1 : 0;
    }
    return real_write(file, from, at_most(file, size));
}

int open(const char *path, int flags, ...) {
    va_list rest;
    va_start(rest, flags);
    int mode = va_arg(rest, int);
    va_end(rest);
    if (!real_open)
        find_calls();
    opens++;
    if (fails("open")) {
        errno = as;
        return -1;
    }
    int file = real_open(path, flags, mode);
    size_t len = strlen(path);
    if (file >= 0) {
        is_table[file & (FILES - 1)] = len > 4 && !strcmp(path + len - 4, ".txt");
        has_ended[file & (FILES - 1)] = 0;
    }
    return file;
}

__attribute__((destructor)) static void end(void) {
    const char *path = getenv("FAULT_COUNT");
    is_ready = 0;
    if (!path)
        return;
    size_t stack = used_stack();
    FILE *file = fopen(path, "w");
    if (file) {
        fprintf(file, "calls %ld\ntakes %ld\nbytes %zu\nopens %ld\nreads %ld\nends %ld\nlate %ld\nwrites %ld\nstart %zu\nstack %zu\n",
                calls, takes, bytes, opens, reads, ends, late, writes, start_stack, stack);
        fclose(file);
    }
}
