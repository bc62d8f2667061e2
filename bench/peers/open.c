/* Measures opening and closing a session on a string of 30 characters, and FriBidi's log2vis on the same
 * characters. Prints the processor time of both per string, the minimum of nine alternating runs, and their
 * ratio, and how many bytes of malloc a session keeps. With WHICH, only runs one of the two, on all strings of a kind, ROUNDS times, so that another
 * program can count its instructions. Usage: open FOLDER [WHICH KIND ROUNDS], where FOLDER has the table
 * files and WHICH is 0 for the session or 1 for log2vis. */
#define _POSIX_C_SOURCE 200809L
#include "strings.h"
#include <fribidi/fribidi.h>
#include <hordguli.h>
#include <malloc.h>
#include <stdio.h>
#include <stdlib.h>
#include <time.h>

enum { CHARACTERS = 30, RUNS = 9 };

static hordguli_tables tables = HORDGULI_TABLES_INIT;
static FriBidiChar characters[STRINGS][CHARACTERS];

static double now(void) {
    struct timespec time;
    clock_gettime(CLOCK_PROCESS_CPUTIME_ID, &time);
    return (double)time.tv_sec * 1e9 + (double)time.tv_nsec;
}

static void sure_of(int is_right, const char *what) {
    if (is_right) return;
    fprintf(stderr, "open: %s\n", what);
    exit(1);
}

static void make_characters(size_t kind) {
    make(kind, CHARACTERS);
    for (size_t k = 0; k < STRINGS; k++)
        sure_of(fribidi_charset_to_unicode(FRIBIDI_CHAR_SET_UTF8, strings[k], (FriBidiStrIndex)lengths[k], characters[k]) == CHARACTERS, "length");
}

static void open_session(size_t k) {
    hordguli_session session = HORDGULI_SESSION_INIT;
    hordguli_status status = hordguli_session_open(&session, &tables, HORDGULI_WEAK_LTR, 80, strings[k], lengths[k]);
    sure_of(status == HORDGULI_OK, hordguli_status_text(status));
    hordguli_session_close(&session);
}

static void log2vis(size_t k) {
    FriBidiChar visual[CHARACTERS];
    FriBidiParType base = FRIBIDI_PAR_ON;
    sure_of(fribidi_log2vis(characters[k], CHARACTERS, &base, visual, NULL, NULL, NULL) != 0, "log2vis");
}

/* Returns how many bytes a session on a string keeps, on average, as malloc counts them. */
static size_t kept(void) {
    static hordguli_session sessions[STRINGS];
    size_t before = mallinfo2().uordblks, after;
    for (size_t k = 0; k < STRINGS; k++)
        sure_of(hordguli_session_open(&sessions[k], &tables, HORDGULI_WEAK_LTR, 80, strings[k], lengths[k]) == HORDGULI_OK, "no session");
    after = mallinfo2().uordblks;
    for (size_t k = 0; k < STRINGS; k++) hordguli_session_close(&sessions[k]);
    return (after - before) / STRINGS;
}

static void call_all(int which) {
    for (size_t k = 0; k < STRINGS; k++) (which == 0 ? open_session : log2vis)(k);
}

int main(int count, char **words) {
    sure_of(count == 2 || count == 5, "which arguments?");
    sure_of(hordguli_tables_open_folder(&tables, words[1], NULL) == HORDGULI_OK, "no tables");
    if (count == 5) {
        make_characters(strtoul(words[3], NULL, 10) % KINDS);
        for (long round = 0; round < strtol(words[4], NULL, 10); round++) call_all(words[2][0] == '1');
    } else {
        for (size_t kind = 0; kind < KINDS; kind++) {
            double least[2] = {1e18, 1e18};
            make_characters(kind);
            for (int run = 0; run < 2 * RUNS; run++) {
                double start = now(), took;
                call_all(run % 2);
                took = (now() - start) / STRINGS;
                if (took < least[run % 2]) least[run % 2] = took;
            }
            printf("%d characters, %s: opening and closing a session %.0f ns, FriBidi's log2vis %.0f ns, ratio %.2f (goal 3)\n", CHARACTERS, kinds[kind],
                   least[0], least[1], least[0] / least[1]);
            size_t bytes = kept();
            printf("%d characters, %s: a session keeps %zu bytes, %zu besides 32 for each character (goal 1024)\n", CHARACTERS, kinds[kind], bytes,
                   bytes - 32 * (size_t)CHARACTERS);
        }
    }
    hordguli_tables_close(&tables);
    return 0;
}
