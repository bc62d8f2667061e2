/* Stands in for the kit's rattle_arg, rattle_env, rattle_env_at, rattle_errno and rattle_set_errno on ARM64: the kit
 * has them for x86-64 only. Proved code relies on the contracts below, which are those of the kit's crate `os`
 * (`src/c.rt` there). Nothing proves that these functions meet them. tests/arm64/kit runs the same checks on them and
 * on the kit's functions for x86-64. The libraries do not link this file. */
#include <errno.h>
#include <stddef.h>
#include <stdint.h>
#include <stdlib.h>

ptrdiff_t rattle_arg(size_t i, uint8_t *buf, size_t length);
ptrdiff_t rattle_env(const uint8_t *name, uint8_t *buf, size_t length);
ptrdiff_t rattle_env_at(size_t i, uint8_t *buf, size_t length);
int32_t rattle_errno(void);
void rattle_set_errno(int32_t error);

extern char **environ;

static size_t count;
static char **words;

/* glibc passes the arguments of main to constructors. */
__attribute__((constructor)) static void keep(int argc, char **argv) {
    count = (size_t)argc;
    words = argv;
}

static ptrdiff_t copied(const char *text, uint8_t *buf, size_t length) {
    size_t at = 0;
    if (text == NULL) return -1;
    for (; text[at] != '\0'; at++) {
        if (at == length) return -2;
        buf[at] = (uint8_t)text[at];
    }
    return (ptrdiff_t)at;
}

/* Copies argument i to the start of buf, without its final NUL. Argument 0 is the command's name.
 *
 *     returns    its length; -1 if there is no such argument; -2 if it does not fit; buf then holds its first length bytes
 *
 * Leaves the bytes of buf after the argument unchanged. */
ptrdiff_t rattle_arg(size_t i, uint8_t *buf, size_t length) {
    return copied(i < count ? words[i] : NULL, buf, length);
}

/* Copies the value of an environment variable to the start of buf, without its final NUL.
 *
 *     requires ended    name has 4,096 bytes, and the last one is NUL
 *     returns           the value's length; -1 if there is no such variable; -2 if it does not fit; buf then holds its first length bytes
 *
 * Leaves the bytes of buf after the value unchanged. */
ptrdiff_t rattle_env(const uint8_t *name, uint8_t *buf, size_t length) {
    return copied(getenv((const char *)name), buf, length);
}

/* Copies entry i of the environment, such as NAME=value, to the start of buf, without its final NUL.
 *
 *     returns    its length; -1 if there is no such entry; -2 if it does not fit; buf then holds its first length bytes
 *
 * Leaves the bytes of buf after the entry unchanged. */
ptrdiff_t rattle_env_at(size_t i, uint8_t *buf, size_t length) {
    char **entry = environ;
    if (entry == NULL) return -1;
    while (i > 0 && *entry != NULL) i--, entry++;
    return copied(*entry, buf, length);
}

/* Returns this thread's errno. */
int32_t rattle_errno(void) { return errno; }

/* Sets this thread's errno. */
void rattle_set_errno(int32_t error) { errno = error; }
