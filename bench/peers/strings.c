/* Measures laying out one short string at a time, at 80 columns and with UTF-8 as input and output. Compares
 * hordguli_layout, a session that is edited, ICU's ubidi and ubrk (icu_print.h), ICU's ubidi alone, which
 * breaks no lines, and FriBidi's log2vis. Prints nanoseconds per string, the minimum of several alternating
 * runs, and their ratios. Also prints how many strings have the same lines with hordguli_layout and ICU.
 * With PEER, only calls that library (0 for hordguli_layout, 2 for ICU) for all strings of a kind, ROUNDS
 * times, so that another program can count its instructions. Usage: strings FOLDER [PEER CHARACTERS KIND
 * ROUNDS], where FOLDER has the table files. */
#define _POSIX_C_SOURCE 200809L
#include "icu_print.h"
#include "strings.h"
#include <fribidi/fribidi.h>
#include <hordguli.h>
#include <string.h>
#include <time.h>

enum { RUNS = 9, PEERS = 5 };

static double now(void) {
    struct timespec time;
    clock_gettime(CLOCK_MONOTONIC, &time);
    return (double)time.tv_sec * 1e9 + (double)time.tv_nsec;
}

static void sure_of(hordguli_status status) {
    if (status != HORDGULI_OK) fail(hordguli_status_text(status));
}

/* ---- Libraries ---- */

static hordguli_tables tables = HORDGULI_TABLES_INIT;
static hordguli_session session = HORDGULI_SESSION_INIT;
static char page[1 << 20];

static size_t by_layout(size_t k) {
    size_t written;
    sure_of(hordguli_layout(&tables, HORDGULI_WEAK_LTR, WIDTH, HORDGULI_PRINT_DEFAULT, strings[k], lengths[k], sizeof page, page, &written));
    return written;
}

static size_t by_session(size_t k) {
    hordguli_counts counts;
    size_t written;
    sure_of(hordguli_session_counts(&session, &counts));
    sure_of(hordguli_replace(&session, 0, counts.characters, strings[k], lengths[k], NULL));
    sure_of(hordguli_session_counts(&session, &counts));
    sure_of(hordguli_lines_utf8(&session, 0, counts.lines, HORDGULI_PRINT_DEFAULT, sizeof page, page, &written));
    return written;
}

static UChar units[BYTES], reordered[BYTES];

static size_t by_icu(size_t k) {
    UErrorCode status = U_ZERO_ERROR;
    int32_t length;
    u_strFromUTF8(units, BYTES, &length, strings[k], (int32_t)lengths[k], &status);
    check(status);
    out_length = 0;
    print_paragraph(units, length);
    return out_length;
}

static size_t by_ubidi(size_t k) {
    UErrorCode status = U_ZERO_ERROR;
    int32_t length, written;
    u_strFromUTF8(units, BYTES, &length, strings[k], (int32_t)lengths[k], &status);
    ubidi_setPara(para, units, length, UBIDI_DEFAULT_LTR, NULL, &status);
    length = ubidi_writeReordered(para, reordered, BYTES, UBIDI_DO_MIRRORING, &status);
    u_strToUTF8(page, sizeof page, &written, reordered, length, &status);
    check(status);
    return (size_t)written;
}

static size_t by_fribidi(size_t k) {
    static FriBidiChar logical[BYTES], shown[BYTES];
    FriBidiParType base = FRIBIDI_PAR_ON;
    FriBidiStrIndex length = fribidi_charset_to_unicode(FRIBIDI_CHAR_SET_UTF8, strings[k], (FriBidiStrIndex)lengths[k], logical);
    if (!fribidi_log2vis(logical, length, &base, shown, NULL, NULL, NULL)) fail("fribidi");
    return (size_t)fribidi_unicode_to_charset(FRIBIDI_CHAR_SET_UTF8, shown, length, page);
}

static size_t (*const peers[PEERS])(size_t) = {by_layout, by_session, by_icu, by_ubidi, by_fribidi};
static const char *const names[PEERS] = {"hordguli_layout", "a session", "ICU", "ICU without lines", "FriBidi without lines"};

static size_t same_lines(void) {
    size_t same = 0;
    for (size_t k = 0; k < STRINGS; k++) {
        size_t written = by_layout(k);
        same += written == by_icu(k) && memcmp(page, out, written) == 0;
    }
    return same;
}

int main(int count, char **words) {
    static const size_t sizes[] = {30, 300};
    volatile size_t sink = 0;
    if (count != 2 && count != 6) fail("which arguments?");
    sure_of(hordguli_tables_open_folder(&tables, words[1], NULL));
    sure_of(hordguli_session_open(&session, &tables, HORDGULI_WEAK_LTR, WIDTH, "", 0));
    open_icu();
    if (count == 6) {
        make((size_t)atoi(words[4]) % KINDS, (size_t)atoi(words[3]));
        for (int round = 0; round < atoi(words[5]); round++)
            for (size_t k = 0; k < STRINGS; k++) sink += peers[atoi(words[2]) % PEERS](k);
        return 0;
    }
    for (size_t size = 0; size < 2; size++)
        for (size_t kind = 0; kind < KINDS; kind++) {
            double least[PEERS] = {1e18, 1e18, 1e18, 1e18, 1e18};
            make(kind, sizes[size]);
            for (int run = 0; run < RUNS; run++)
                for (size_t peer = 0; peer < PEERS; peer++) {
                    double start = now(), took;
                    for (size_t k = 0; k < STRINGS; k++) sink += peers[peer](k);
                    took = (now() - start) / STRINGS;
                    if (took < least[peer]) least[peer] = took;
                }
            printf("%zu characters, %s:", sizes[size], kinds[kind]);
            for (size_t peer = 0; peer < PEERS; peer++) {
                printf(" %s %.0f ns", names[peer], least[peer]);
                if (peer > 0) printf(" (ratio %.2f)", least[0] / least[peer]);
                printf(peer + 1 < PEERS ? "," : "; ");
            }
            printf("%zu of %d strings have ICU's lines\n", same_lines(), STRINGS);
        }
    hordguli_session_close(&session);
    hordguli_tables_close(&tables);
    return 0;
}
