/* Does only what every program that prints a text has to do, as a lower bound for the time. Reads standard
 * input in chunks of 64 KB, checks that it is UTF-8, and writes BYTES bytes to standard output. The program
 * copies the text line by line to a buffer of 64 KB, and writes the buffer when it is full. After BYTES
 * bytes, it stops copying. If the text has fewer bytes, it repeats the last chunk. Usage: bound BYTES. */
#include <stdint.h>
#include <stdio.h>
#include <stdlib.h>
#include <string.h>
#include <unistd.h>

/* The states of the UTF-8 check: between characters, or inside one, by the bytes that may follow */
enum { WRONG = 0, BETWEEN = 6, ONE = 12, TWO = 18, THREE = 24, AFTER_E0 = 30, AFTER_ED = 36, AFTER_F0 = 42, AFTER_F4 = 48 };
enum { SIZE = 1 << 16 };

static unsigned char in[SIZE], out[SIZE];
static size_t filled, left;
static uint64_t next_states[256]; /* for each byte, the next state after each `state`: the 6 bits from bit `state` on */

static void fail(const char *what) {
    fprintf(stderr, "bound: %s\n", what);
    exit(1);
}

static void add(int state, int first, int last, uint64_t next) {
    for (int byte = first; byte <= last; byte++) next_states[byte] |= next << state;
}

static void make_states(void) {
    add(BETWEEN, 0, 0x7F, BETWEEN);
    add(BETWEEN, 0xC2, 0xDF, ONE);
    add(BETWEEN, 0xE0, 0xE0, AFTER_E0);
    add(BETWEEN, 0xE1, 0xEC, TWO);
    add(BETWEEN, 0xED, 0xED, AFTER_ED);
    add(BETWEEN, 0xEE, 0xEF, TWO);
    add(BETWEEN, 0xF0, 0xF0, AFTER_F0);
    add(BETWEEN, 0xF1, 0xF3, THREE);
    add(BETWEEN, 0xF4, 0xF4, AFTER_F4);
    add(ONE, 0x80, 0xBF, BETWEEN);
    add(TWO, 0x80, 0xBF, ONE);
    add(THREE, 0x80, 0xBF, TWO);
    add(AFTER_E0, 0xA0, 0xBF, ONE);
    add(AFTER_ED, 0x80, 0x9F, ONE);
    add(AFTER_F0, 0x90, 0xBF, TWO);
    add(AFTER_F4, 0x80, 0x8F, TWO);
}

static uint64_t check(uint64_t state, size_t length) {
#pragma GCC unroll 8
    for (size_t k = 0; k < length; k++) state = next_states[in[k]] >> (state & 63);
    return state & 63;
}

static void flush_out(void) {
    for (size_t from = 0; from < filled;) {
        ssize_t wrote = write(1, out + from, filled - from);
        if (wrote < 0) fail("cannot write");
        from += (size_t)wrote;
    }
    filled = 0;
}

static void put(const unsigned char *bytes, size_t length) {
    if (length > left) length = left;
    if (length > SIZE - filled) flush_out();
    memcpy(out + filled, bytes, length);
    filled += length;
    left -= length;
}

static void put_lines(size_t length) {
    for (size_t from = 0; from < length && left > 0;) {
        const unsigned char *end = memchr(in + from, '\n', length - from);
        size_t to = end == NULL ? length : (size_t)(end - in) + 1;
        put(in + from, to - from);
        from = to;
    }
}

int main(int count, char **words) {
    uint64_t state = BETWEEN;
    size_t length = 0;
    ssize_t got;
    if (count != 2) fail("how many bytes?");
    left = strtoull(words[1], NULL, 10);
    make_states();
    while ((got = read(0, in, SIZE)) > 0) {
        length = (size_t)got;
        if ((state = check(state, length)) == WRONG) fail("not UTF-8");
        put_lines(length);
    }
    if (got < 0 || state != BETWEEN) fail("cannot read a whole text");
    while (left > 0 && length > 0) put_lines(length);
    flush_out();
    return 0;
}
