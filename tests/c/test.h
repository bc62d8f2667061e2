/* Checks, random numbers and UTF-8 for the tests of the C library. */
#ifndef HORDGULI_TEST_H
#define HORDGULI_TEST_H

#include <hordguli.h>
#include <stdint.h>
#include <stdio.h>
#include <stdlib.h>
#include <string.h>

static long passed, failed;

/* Counts a check as passed or failed, and reports the first 20 failures. */
#define HOLDS(condition) holds((condition), __FILE__, __LINE__, #condition)
static inline int holds(int is_so, const char *file, int line, const char *what) {
    if (is_so) {
        passed++;
    } else {
        if (failed < 20) fprintf(stderr, "%s:%d: does not hold: %s\n", file, line, what);
        failed++;
    }
    return is_so;
}

static inline int finish(const char *name) {
    printf("%s: %ld passed, %ld failed\n", name, passed, failed);
    return failed != 0;
}

/* Returns a pseudorandom number below a bound. */
static uint64_t seed = 88172645463325252u;
static inline size_t below(size_t bound) {
    seed ^= seed << 13;
    seed ^= seed >> 7;
    seed ^= seed << 17;
    return (size_t)(seed % bound);
}

/* Returns `block`, or ends the test if it is NULL. */
static inline void *sure(void *block) {
    if (block == NULL) {
        fprintf(stderr, "out of memory\n");
        exit(1);
    }
    return block;
}

/* Stores characters as UTF-8, and returns the number of bytes. */
static inline size_t encoded(const uint32_t *from, size_t count, char *into) {
    size_t at = 0;
    for (size_t k = 0; k < count; k++) {
        uint32_t c = from[k];
        int more = c < 0x80 ? 0 : c < 0x800 ? 1 : c < 0x10000 ? 2 : 3;
        static const unsigned char lead[] = {0, 0xC0, 0xE0, 0xF0};
        into[at++] = (char)(lead[more] | c >> 6 * more);
        while (more-- > 0) into[at++] = (char)(0x80 | (c >> 6 * more & 63));
    }
    return at;
}

/* Decodes valid, NUL-terminated UTF-8 to `into`, and returns the number of characters. */
static inline size_t decoded(const char *bytes, uint32_t *into) {
    size_t count = 0;
    for (const unsigned char *at = (const unsigned char *)bytes; *at != 0; at++) {
        if (*at < 0x80) into[count++] = *at;
        else if (*at < 0xC0) into[count - 1] = into[count - 1] << 6 | (*at & 63);
        else if (*at < 0xE0) into[count++] = *at & 31;
        else if (*at < 0xF0) into[count++] = *at & 15;
        else into[count++] = *at & 7;
    }
    return count;
}

/* Letters, digits and spaces of both directions, separators, brackets, isolates, embeddings, marks, wide characters, and
 * emoji of several characters. */
static const char *const text_pieces[] = {
    "a", "word ", " ", "1", "2,3", "$", "%", "(", ")", "[", "-", "\n", "\r\n", "\r", "\u2029", "\xC2\x85", "\t",
    "\u05d0", "\u05d1\u05b0", "\u0627\u0628 ", "\u0661", "\u0300", "\u200d", "\u2066", "\u2067", "\u2068", "\u2069",
    "\u202a", "\u202b", "\u202d", "\u202e", "\u202c", "\u4e00\u4e01", "\u3002", "\uac00", "\U0001f468\u200d\U0001f469",
    "\U0001f1e9\U0001f1ea", "\u00ad", "\u200b", "\u00a0", "the quick brown fox ", "\u05e9\u05dc\u05d5\u05dd \u05e2\u05d5\u05dc\u05dd ",
};
enum { TEXT_PIECES = sizeof text_pieces / sizeof *text_pieces };

#endif
