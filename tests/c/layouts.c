/* Compares hordguli_layout with the printed lines of a session, for random texts, options, widths and print flags. Usage:
 * layouts FOLDER TEXTS [CASES]. FOLDER has the table files. Writes some of the texts to the folder CASES,
 * each with arguments for the command and the output that the command must then print. To count allocations
 * and the memory that a handle keeps, define WRAPPED and link the test with the archive and with
 * --wrap=malloc, --wrap=realloc and --wrap=free. */
#include "test.h"

enum { MOST = 400, BYTES = 1 << 25, STORED = 300, KEPT = 5000000 };

#define OK(call) HOLDS((call) == HORDGULI_OK)

static hordguli_tables tables = HORDGULI_TABLES_INIT;
static char text[MOST * 16], page[BYTES], lines[BYTES];

/* Arguments for `hordguli_layout`, without the buffer */
typedef struct request {
    uint32_t options, width, print;
    const char *text;
    size_t length;
} request;

static hordguli_status lay_out(const request *r, size_t capacity, char *buffer, size_t *written) {
    return hordguli_layout(&tables, r->options, r->width, r->print, r->text, r->length, capacity, buffer, written);
}

/* Returns a random request, with a text of at most `most` pieces, most of which are of a few kinds. */
static request random_request(size_t most) {
    static const uint32_t prints[] = {HORDGULI_PRINT_DEFAULT, 1, 2, 16, 0};
    size_t pieces = below(most + 1), kinds = 1 + below(8), length = 0;
    const char *some[8];
    request r = {(uint32_t)below(128), 1 + (uint32_t)below(below(3) == 0 ? 8 : 90), 0, text, 0};
    if (below(50) == 0) r.width = 65535;
    if (below(3) == 0) r.options |= HORDGULI_TAB_WIDTH((uint32_t)below(16));
    if (below(3) == 0) r.options |= HORDGULI_LINE_SEPARATORS;
    r.print = below(2) == 0 ? prints[below(5)] : (uint32_t)below(128);
    for (size_t k = 0; k < kinds; k++) some[k] = text_pieces[below(TEXT_PIECES)];
    for (size_t k = 0; k < pieces; k++) {
        const char *piece = below(8) == 0 ? text_pieces[below(TEXT_PIECES)] : some[below(kinds)];
        memcpy(text + length, piece, strlen(piece));
        length += strlen(piece);
    }
    r.length = length;
    return r;
}

/* Stores in `lines` what a session on the text prints, and returns the number of bytes. */
static size_t session_lines(const request *r) {
    hordguli_session session = HORDGULI_SESSION_INIT;
    hordguli_counts counts;
    size_t length = 0;
    OK(hordguli_session_open(&session, &tables, r->options, r->width, r->text, r->length));
    OK(hordguli_session_counts(&session, &counts));
    OK(hordguli_lines_utf8(&session, 0, counts.lines, r->print, BYTES, lines, &length));
    hordguli_session_close(&session);
    return length;
}

/* Compares a layout with the lines of a session. Also tries a buffer that is one byte too small, and no
 * buffer. */
static void is_page_of_session(const request *r) {
    size_t wanted = session_lines(r), written = 77;
    memset(page, '?', wanted + 1);
    OK(lay_out(r, wanted, page, &written));
    HOLDS(written == wanted && memcmp(page, lines, wanted) == 0 && page[wanted] == '?');
    if (wanted == 0) return;
    memset(page, '?', wanted);
    written = 77;
    HOLDS(lay_out(r, wanted - 1, page, &written) == HORDGULI_NO_ROOM && written == wanted);
    HOLDS(page[0] == '?' && page[wanted - 1] == '?');
    written = 77;
    HOLDS(lay_out(r, 0, NULL, &written) == HORDGULI_NO_ROOM && written == wanted);
}

/* ---- The command ---- */

static void put_file(const char *folder, long number, const char *ending, const char *bytes, size_t length) {
    char path[400];
    FILE *to;
    snprintf(path, sizeof path, "%s/%ld.%s", folder, number, ending);
    to = sure(fopen(path, "wb"));
    HOLDS(fwrite(bytes, 1, length, to) == length && fclose(to) == 0);
}

static void store_case(const char *folder, long number, const request *r) {
    static const char *const bases[] = {"--wltr", "--wrtl", "--ltr", "--rtl"};
    char words[400];
    size_t written, used;
    OK(lay_out(r, BYTES, page, &written));
    used = (size_t)snprintf(words, sizeof words, "%s --width %u%s%s%s%s%s%s%s%s%s%s%s%s%s", bases[r->options % 4], (unsigned)r->width,
             r->options & HORDGULI_NOBREAK ? " --nobreak" : "", r->options & HORDGULI_REORDER_NSM ? " --reordernsm" : "",
             r->options & HORDGULI_WHOLE_NUMBERS ? " --whole-numbers" : "",
             r->options & HORDGULI_REORDER_CLUSTERS ? " --reorder-clusters" : "",
             r->options & HORDGULI_SHOW_SPACES ? " --show-spaces" : "",
             r->options & HORDGULI_LINE_SEPARATORS ? " --line-separators" : "",
             r->print & HORDGULI_PRINT_VISUAL ? "" : " --novisual", r->print & HORDGULI_PRINT_BASEDIR ? " --basedir" : "",
             r->print & HORDGULI_PRINT_LTOV ? " --ltov" : "", r->print & HORDGULI_PRINT_VTOL ? " --vtol" : "",
             r->print & HORDGULI_PRINT_LEVELS ? " --levels" : "", r->print & HORDGULI_PRINT_PADDED ? "" : " --nopad",
             r->print & HORDGULI_PRINT_MIRRORED ? "" : " --nomirror");
    if ((r->options >> 8 & 255) != 0) snprintf(words + used, sizeof words - used, " --tabs %u", (unsigned)(r->options >> 8 & 255));
    put_file(folder, number, "txt", r->text, r->length);
    put_file(folder, number, "args", words, strlen(words));
    put_file(folder, number, "out", page, written);
}

/* ---- Memory ---- */

#ifdef WRAPPED
#include <malloc.h>

void *__real_malloc(size_t size);
void *__real_realloc(void *block, size_t size);
void __real_free(void *block);
void *__wrap_malloc(size_t size);
void *__wrap_realloc(void *block, size_t size);
void __wrap_free(void *block);

static long allocations;
static size_t live; /* bytes */

void *__wrap_malloc(size_t size) {
    void *block = __real_malloc(size);
    allocations++;
    live += malloc_usable_size(block);
    return block;
}

void *__wrap_realloc(void *block, size_t size) {
    allocations++;
    live -= malloc_usable_size(block);
    block = __real_realloc(block, size);
    live += malloc_usable_size(block);
    return block;
}

void __wrap_free(void *block) {
    live -= malloc_usable_size(block);
    __real_free(block);
}

/* If calls are repeated, they allocate nothing. `line_separators` is 0 or HORDGULI_LINE_SEPARATORS, an option
 * of all calls. */
static void warm_calls_allocate_nothing(uint32_t line_separators) {
    uint64_t start = seed;
    for (int round = 0; round < 2; round++) {
        long before = allocations;
        size_t written;
        seed = start;
        for (int k = 0; k < 1000; k++) {
            request r = random_request(below(2) == 0 ? 60 : 8);
            /* (a handle keeps no buffer after a call that prints much) */
            if (r.width == 65535) r.width = 90;
            r.options = (r.options & ~HORDGULI_LINE_SEPARATORS) | line_separators;
            OK(lay_out(&r, BYTES, page, &written));
        }
        HOLDS(round == 0 || allocations == before);
    }
}

/* After each call, a handle keeps less than KEPT bytes. After a call with a long text, it keeps at most the
 * buffer for the lines. */
static void large_calls_keep_little(const char *folder) {
    static const char *const pieces[] = {
        "a", "a\n", "\n", "\u05d0", "\u05d0 (a) ", "(", "([{", "\u2067", "\u2068\u05d0\u2069", "\u2067\u2066", "\u202ba",
        "\u202ea\u202c", "1\u0661", "\u0301", "\u200d", "\u05d01 a,", "\U0001f468\u200d\U0001f469", "\u4e00", " ", "\t",
    };
    static const request forms[] = {{3, 1, 127, NULL, 0}, {3, 80, 127, NULL, 0}, {3, 65535, 16, NULL, 0}, {0, 9, 97, NULL, 0}};
    enum { SIZE = 1 << 17, ROOM = 1 << 24 };
    char *long_text = sure(malloc(SIZE)), *buffer = sure(malloc(ROOM));
    size_t most = 0, written;
    for (size_t k = 0; k < sizeof pieces / sizeof *pieces; k++) {
        size_t length = strlen(pieces[k]), whole = SIZE / length * length, half = 65536 / length * length;
        for (size_t at = 0; at < whole; at += length) memcpy(long_text + at, pieces[k], length);
        for (size_t form = 0; form < 8; form++) {
            hordguli_tables one = HORDGULI_TABLES_INIT;
            const request *f = &forms[form / 2];
            size_t empty;
            hordguli_status status;
            OK(hordguli_tables_open_folder(&one, folder, NULL));
            empty = live;
            status = hordguli_layout(&one, f->options, f->width, f->print, long_text, form % 2 == 0 ? half : whole, ROOM,
                                     buffer, &written);
            HOLDS(status == HORDGULI_OK || (status == HORDGULI_NO_ROOM && written > ROOM));
            if (live - empty > most) most = live - empty;
            /* (the buffer of a few lines may be kept) */
            HOLDS(form % 2 == 0 || live - empty <= 2 * written + 32);
            hordguli_tables_close(&one);
        }
    }
    printf("layouts: a handle keeps at most %zu bytes\n", most);
    HOLDS(most < KEPT);
    free(long_text);
    free(buffer);
}
#endif

int main(int count, char **words) {
    long texts;
    if (count != 3 && count != 4) return 2;
    texts = atol(words[2]);
    if (!OK(hordguli_tables_open_folder(&tables, words[1], NULL))) return finish("layouts");
    for (long k = 0; k < texts && failed < 20; k++) {
        request r = random_request(k % 100 == 0 ? MOST : 40);
        is_page_of_session(&r);
        if (count == 4 && k < STORED) store_case(words[3], k, &r);
    }
#ifdef WRAPPED
    warm_calls_allocate_nothing(0);
    warm_calls_allocate_nothing(HORDGULI_LINE_SEPARATORS);
    large_calls_keep_little(words[1]);
#endif
    hordguli_tables_close(&tables);
    return finish("layouts");
}
