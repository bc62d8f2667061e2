/* Tests the C functions that proved code calls: those of c/kit, or those of Rattle's own kit, which must pass
 * the same checks. Link it with one of the two, and with --wrap for malloc, realloc and free. Usage:
 * SET=value EMPTY= kit ARGUMENT .., with any arguments. */
#include <errno.h>
#include <stdbool.h>
#include <stddef.h>
#include <stdint.h>
#include <stdio.h>
#include <stdlib.h>
#include <string.h>

typedef struct tried {
    bool ok;
    uint8_t *p;
} tried;

tried rattle_alloc(size_t n, size_t a);
tried rattle_realloc(uint8_t *p, size_t kept, size_t n, size_t a);
void rattle_dealloc(uint8_t *p);
ptrdiff_t rattle_arg(size_t i, uint8_t *buf, size_t length);
ptrdiff_t rattle_env(const uint8_t *name, uint8_t *buf, size_t length);
ptrdiff_t rattle_env_at(size_t i, uint8_t *buf, size_t length);
int32_t rattle_errno(void);
void rattle_set_errno(int32_t error);

extern char **environ;

static long passed, failed;

#define HOLDS(condition) holds((condition), __LINE__, #condition)
static void holds(bool is_so, int line, const char *what) {
    passed += is_so;
    failed += !is_so;
    if (!is_so) printf("tests/arm64/kit.c:%d: does not hold: %s\n", line, what);
}

/* The size that the last heap call requested, the number of allocated blocks, and whether heap calls fail. */
static size_t requested;
static long blocks;
static bool refuses;

void *__real_malloc(size_t);
void *__real_realloc(void *, size_t);
void __real_free(void *);
void *__wrap_malloc(size_t);
void *__wrap_realloc(void *, size_t);
void __wrap_free(void *);

void *__wrap_malloc(size_t size) {
    void *at = refuses ? NULL : __real_malloc(size);
    requested = size;
    blocks += at != NULL;
    return at;
}

void *__wrap_realloc(void *old, size_t size) {
    requested = size;
    return refuses ? NULL : __real_realloc(old, size);
}

void __wrap_free(void *at) {
    blocks -= at != NULL;
    __real_free(at);
}

static bool is_aligned(const uint8_t *p, size_t a) { return (uintptr_t)p % a == 0; }

static void fill(uint8_t *p, size_t n) {
    for (size_t k = 0; k < n; k++) p[k] = (uint8_t)(k * 7 + 1);
}

static bool is_filled(const uint8_t *p, size_t n) {
    for (size_t k = 0; k < n; k++)
        if (p[k] != (uint8_t)(k * 7 + 1)) return false;
    return true;
}

static const size_t sizes[] = {0, 1, 8, 24, 100, 4096, 65536, 1000003};
enum { SIZES = sizeof sizes / sizeof *sizes };

static void is_refused(tried result) {
    HOLDS(!result.ok);
    HOLDS(result.p != NULL);
}

static void blocks_are_made(size_t n, size_t a) {
    tried result = rattle_alloc(n, a);
    HOLDS(result.ok && result.p != NULL && blocks == 1);
    HOLDS(requested == (n == 0 ? a : n));
    HOLDS(is_aligned(result.p, a));
    fill(result.p, n);
    HOLDS(is_filled(result.p, n));
    rattle_dealloc(result.p);
    HOLDS(blocks == 0);
}

static void blocks_are_resized(size_t n, size_t more, size_t a) {
    size_t kept = n < more ? n : more;
    tried old = rattle_alloc(n, a), result;
    fill(old.p, n);
    refuses = true;
    is_refused(rattle_realloc(old.p, kept, more, a));
    refuses = false;
    HOLDS(is_filled(old.p, n) && blocks == 1);
    result = rattle_realloc(old.p, kept, more, a);
    HOLDS(result.ok && result.p != NULL && blocks == 1);
    HOLDS(requested == (more == 0 ? a : more));
    HOLDS(is_aligned(result.p, a) && is_filled(result.p, kept));
    fill(result.p, more);
    rattle_dealloc(result.p);
    HOLDS(blocks == 0);
}

static void heap(void) {
    for (size_t a = 1; a <= 16; a *= 2)
        for (size_t k = 0; k < SIZES; k++) {
            blocks_are_made(sizes[k], a);
            for (size_t other = 0; other < SIZES; other++) blocks_are_resized(sizes[k], sizes[other], a);
        }
    refuses = true;
    is_refused(rattle_alloc(0, 1));
    is_refused(rattle_alloc(24, 8));
    refuses = false;
    is_refused(rattle_alloc(PTRDIFF_MAX, 16)); /* 2^63 - 1, which malloc refuses */
    HOLDS(blocks == 0);
}

/* Checks a function that copies a text, with buffers that are too short, just long enough, and longer.
 * `asked` calls it. */
static void is_copied(ptrdiff_t (*asked)(const void *, uint8_t *, size_t), const void *which, const char *text) {
    enum { MOST = 300 };
    uint8_t buf[MOST];
    size_t length = strlen(text);
    for (size_t room = 0; room < MOST; room++) {
        size_t copied = room < length ? room : length;
        memset(buf, 0xA5, MOST);
        HOLDS(asked(which, buf, room) == (room < length ? -2 : (ptrdiff_t)length));
        HOLDS(memcmp(buf, text, copied) == 0);
        for (size_t k = copied; k < MOST; k++)
            if (buf[k] != 0xA5) HOLDS(!"the other bytes are unchanged");
    }
}

static ptrdiff_t ask_arg(const void *which, uint8_t *buf, size_t length) { return rattle_arg(*(const size_t *)which, buf, length); }
static ptrdiff_t ask_env(const void *which, uint8_t *buf, size_t length) { return rattle_env(which, buf, length); }
static ptrdiff_t ask_env_at(const void *which, uint8_t *buf, size_t length) { return rattle_env_at(*(const size_t *)which, buf, length); }

static void arguments(size_t count, char **words) {
    uint8_t buf[1] = {7};
    for (size_t k = 0; k < count; k++) is_copied(ask_arg, &k, words[k]);
    HOLDS(rattle_arg(count, buf, 1) == -1 && rattle_arg(count + 1, buf, 1) == -1);
    HOLDS(rattle_arg(SIZE_MAX, buf, 1) == -1 && buf[0] == 7);
}

static void environment(void) {
    size_t count = 0;
    uint8_t name[4096] = "SET", buf[1] = {7};
    is_copied(ask_env, name, "value");
    memcpy(name, "EMPTY", 6);
    is_copied(ask_env, name, "");
    memcpy(name, "ABSENT", 7);
    HOLDS(rattle_env(name, buf, 1) == -1 && buf[0] == 7);
    memset(name, 'A', sizeof name - 1); /* the longest name */
    HOLDS(rattle_env(name, buf, 1) == -1);
    for (; environ[count] != NULL; count++) is_copied(ask_env_at, &count, environ[count]);
    HOLDS(rattle_env_at(count, buf, 1) == -1 && rattle_env_at(count + 1, buf, 1) == -1);
    HOLDS(rattle_env_at(SIZE_MAX, buf, 1) == -1 && buf[0] == 7);
    environ = NULL;
    HOLDS(rattle_env_at(0, buf, 1) == -1 && buf[0] == 7);
}

static void errors(void) {
    static const int32_t numbers[] = {0, ENOENT, EINTR, ENAMETOOLONG, INT32_MAX, -1};
    for (size_t k = 0; k < sizeof numbers / sizeof *numbers; k++) {
        rattle_set_errno(numbers[k]);
        HOLDS(errno == numbers[k]);
        HOLDS(rattle_errno() == numbers[k]);
    }
    errno = ERANGE;
    HOLDS(rattle_errno() == ERANGE);
}

int main(int argc, char **argv) {
    heap();
    arguments((size_t)argc, argv);
    environment();
    errors();
    printf("%ld passed, %ld failed\n", passed, failed);
    return failed != 0;
}
