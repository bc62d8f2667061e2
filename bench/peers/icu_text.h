/* For the ICU4C programs: reads standard input as UTF-16, finds its paragraphs, and buffers output. */
#ifndef ICU_TEXT_H
#define ICU_TEXT_H
#include <stdio.h>
#include <stdlib.h>
#include <unicode/ubidi.h>
#include <unicode/ustring.h>

enum { OUT_SIZE = 1 << 16 };

static char out[OUT_SIZE];
static size_t out_length;

static void fail(const char *what) {
    fprintf(stderr, "icu: %s\n", what);
    exit(1);
}

static void check(UErrorCode status) {
    if (U_FAILURE(status)) fail(u_errorName(status));
}

static void *more(void *block, size_t size) {
    block = realloc(block, size);
    if (block == NULL) fail("out of memory");
    return block;
}

static void flush_out(void) {
    if (fwrite(out, 1, out_length, stdout) != out_length) fail("cannot write");
    out_length = 0;
}

static inline void put(char byte) {
    if (out_length == OUT_SIZE) flush_out();
    out[out_length++] = byte;
}

/* Reads and decodes standard input. Ends the program if it is not UTF-8. */
static UChar *read_text(int32_t *length) {
    UErrorCode status = U_ZERO_ERROR;
    size_t size = 0, room = 1 << 20;
    char *bytes = more(NULL, room);
    for (size_t got; (got = fread(bytes + size, 1, room - size, stdin)) > 0;) {
        size += got;
        if (size == room) bytes = more(bytes, room *= 2);
    }
    UChar *all = more(NULL, (size + 1) * sizeof(UChar));
    u_strFromUTF8(all, (int32_t)size + 1, length, bytes, (int32_t)size, &status);
    check(status);
    free(bytes);
    return all;
}

static inline UBool ends_paragraph(UChar c) {
    return c == 0x0A || c == 0x0D || (c >= 0x1C && c <= 0x1E) || c == 0x85 || c == 0x2029;
}

/* Returns the end of the paragraph that contains `to`. A paragraph ends after a character of class B, or
 * after CR LF. */
static inline int32_t paragraph_end(const UChar *all, int32_t to, int32_t length) {
    while (to < length && !ends_paragraph(all[to])) to++;
    if (to + 1 < length && all[to] == 0x0D && all[to + 1] == 0x0A) to++;
    return to < length ? to + 1 : to;
}

#endif
