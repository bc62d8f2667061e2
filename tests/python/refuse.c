/* A library to preload (LD_PRELOAD): makes a chosen allocation of libhordguli.so.1 fail. */
#define _GNU_SOURCE
#include <dlfcn.h>
#include <stdlib.h>
#include <string.h>

static long left;

/* Makes only the `number`-th of the next allocations fail, or none if `number` is 0. */
void refuse(long number);
void refuse(long number) { left = number; }

/* Counts an allocation if its return address `caller` is in libhordguli, and returns whether it must fail. */
static int fails(const void *caller) {
    Dl_info info;
    if (left == 0 || dladdr(caller, &info) == 0 || info.dli_fname == NULL || strstr(info.dli_fname, "libhordguli.so") == NULL) return 0;
    return --left == 0;
}

void *malloc(size_t size) {
    static void *(*real)(size_t);
    if (real == NULL) real = (void *(*)(size_t))dlsym(RTLD_NEXT, "malloc");
    return fails(__builtin_return_address(0)) ? NULL : real(size);
}

void *realloc(void *block, size_t size) {
    static void *(*real)(void *, size_t);
    if (real == NULL) real = (void *(*)(void *, size_t))dlsym(RTLD_NEXT, "realloc");
    return fails(__builtin_return_address(0)) ? NULL : real(block, size);
}
