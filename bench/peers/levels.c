/* Measures how long hordguli_levels, FriBidi's library and ICU need to find the levels of each paragraph of standard
 * input. Prints nanoseconds per character, the minimum of five alternating runs. Also prints how many paragraphs have
 * the same levels in all three, except for spaces, which L1 changes in the results of FriBidi and ICU. Usage: levels
 * FOLDER, where FOLDER has the table files. */
#define _POSIX_C_SOURCE 200809L
#include <fribidi/fribidi.h>
#include <hordguli.h>
#include <stdio.h>
#include <stdlib.h>
#include <string.h>
#include <time.h>
#include <unicode/ubidi.h>

enum { RUNS = 5, PEERS = 3 };

static void fail(const char *what) {
    fprintf(stderr, "levels: %s\n", what);
    exit(1);
}

static void *sure(void *block) {
    if (block == NULL) fail("out of memory");
    return block;
}

static double now(void) {
    struct timespec time;
    clock_gettime(CLOCK_MONOTONIC, &time);
    return (double)time.tv_sec * 1e9 + (double)time.tv_nsec;
}

/* The text as code points and as UTF-16, and the starts of its paragraphs in both. */
static uint32_t *text;
static UChar *units;
static size_t *starts, *unit_starts, paragraphs, longest;

static void read_text(void) {
    size_t room = 1 << 24, size = 0, got, length = 0, unit = 0;
    unsigned char *bytes = sure(malloc(room));
    while ((got = fread(bytes + size, 1, room - size, stdin)) > 0)
        if ((size += got) == room) bytes = sure(realloc(bytes, room *= 2));
    text = sure(malloc((size + 1) * sizeof *text));
    units = sure(malloc((2 * size + 1) * sizeof *units));
    starts = sure(malloc((size + 2) * sizeof *starts));
    unit_starts = sure(malloc((size + 2) * sizeof *unit_starts));
    starts[0] = unit_starts[0] = 0;
    for (size_t at = 0; at < size;) {
        uint32_t c = bytes[at++];
        int more = c < 0x80 ? 0 : c < 0xE0 ? 1 : c < 0xF0 ? 2 : 3;
        c &= more == 0 ? 127u : more == 1 ? 31u : more == 2 ? 15u : 7u;
        while (more-- > 0) c = c << 6 | (bytes[at++] & 63u);
        text[length++] = c;
        if (c >= 0x10000) units[unit++] = (UChar)(0xD7C0 + (c >> 10));
        units[unit++] = c >= 0x10000 ? (UChar)(0xDC00 + (c & 0x3FF)) : (UChar)c;
        if (c != '\n' && at < size) continue;
        if (length - starts[paragraphs] > longest) longest = length - starts[paragraphs];
        starts[++paragraphs] = length;
        unit_starts[paragraphs] = unit;
    }
    free(bytes);
}

static hordguli_tables tables = HORDGULI_TABLES_INIT;
static FriBidiCharType *types;
static FriBidiBracketType *brackets;
static FriBidiLevel *found;
static UBiDi *bidi;

/* Finds the level of each character of a paragraph with the library `peer`. */
static void levels_by(int peer, size_t paragraph, uint8_t *levels) {
    const uint32_t *at = text + starts[paragraph];
    size_t length = starts[paragraph + 1] - starts[paragraph];
    if (peer == 0) {
        if (hordguli_levels(&tables, HORDGULI_WEAK_LTR, at, length, length, levels) != HORDGULI_OK) fail("hordguli");
    } else if (peer == 1) {
        FriBidiParType base = FRIBIDI_PAR_ON;
        fribidi_get_bidi_types(at, (FriBidiStrIndex)length, types);
        fribidi_get_bracket_types(at, (FriBidiStrIndex)length, types, brackets);
        if (!fribidi_get_par_embedding_levels_ex(types, brackets, (FriBidiStrIndex)length, &base, found)) fail("fribidi");
        for (size_t k = 0; k < length; k++) levels[k] = (uint8_t)found[k];
    } else {
        UErrorCode status = U_ZERO_ERROR;
        const UChar *unit = units + unit_starts[paragraph];
        const UBiDiLevel *of;
        size_t to = 0;
        int32_t count = (int32_t)(unit_starts[paragraph + 1] - unit_starts[paragraph]);
        ubidi_setPara(bidi, unit, count, UBIDI_DEFAULT_LTR, NULL, &status);
        of = ubidi_getLevels(bidi, &status);
        if (U_FAILURE(status)) fail(u_errorName(status));
        for (int32_t k = 0; k < count; k++)
            if ((unit[k] & 0xFC00) != 0xDC00) levels[to++] = of[k];
    }
}

static int is_same(size_t paragraph, uint8_t *const *levels) {
    for (size_t k = 0; k < starts[paragraph + 1] - starts[paragraph]; k++) {
        uint32_t c = text[starts[paragraph] + k];
        if (c != ' ' && c != '\n' && (levels[0][k] != levels[1][k] || levels[0][k] != levels[2][k])) return 0;
    }
    return 1;
}

int main(int count, char **words) {
    static const char *const names[PEERS] = {"hordguli_levels", "FriBidi", "ICU"};
    double least[PEERS] = {1e18, 1e18, 1e18};
    uint8_t *levels[PEERS];
    size_t same = 0;
    if (count != 2) fail("by which tables?");
    if (hordguli_tables_open_folder(&tables, words[1], NULL) != HORDGULI_OK) fail("no tables");
    read_text();
    for (int peer = 0; peer < PEERS; peer++) levels[peer] = sure(malloc(longest + 1));
    types = sure(malloc((longest + 1) * sizeof *types));
    brackets = sure(malloc((longest + 1) * sizeof *brackets));
    found = sure(malloc((longest + 1) * sizeof *found));
    bidi = sure(ubidi_open());
    for (int run = 0; run < RUNS; run++)
        for (int peer = 0; peer < PEERS; peer++) {
            double start = now(), took;
            for (size_t k = 0; k < paragraphs; k++) levels_by(peer, k, levels[peer]);
            took = now() - start;
            if (took < least[peer]) least[peer] = took;
        }
    for (int peer = 0; peer < PEERS; peer++)
        printf("levels by %s: %.1f ns a character, %.2f of hordguli_levels\n", names[peer],
               least[peer] / (double)starts[paragraphs], least[peer] / least[0]);
    for (size_t k = 0; k < paragraphs; k++) {
        for (int peer = 0; peer < PEERS; peer++) levels_by(peer, k, levels[peer]);
        same += (size_t)is_same(k, levels);
    }
    printf("levels: %zu of %zu paragraphs have the same by all three\n", same, paragraphs);
    return 0;
}
