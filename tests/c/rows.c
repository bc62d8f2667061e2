/* Compares `hordguli_row` and `hordguli_row_runs` with simple implementations of L1 to L4 (UAX #9), for random rows of
 * random paragraphs. Usage: rows FOLDER ROWS, where FOLDER has the table files. */
#include "test.h"

enum { MOST = 60, LETTERS = 56 };

#define OK(call) HOLDS((call) == HORDGULI_OK)

/* Letters, digits, marks, spaces, separators, brackets, embedding and isolate controls, and parts of grapheme
 * clusters. */
static const uint32_t letters[LETTERS] = {
    'a', 'b', ' ', ' ', '1', '2', ',', '$', '(', ')', '[', ']', '<', '\t', 0x5D0, 0x5D1, 0x5B0, 0x5B8, 0x627, 0x628,
    0x661, 0x64B, 0x300, 0x200D, 0x2066, 0x2067, 0x2068, 0x2069, 0x202A, 0x202B, 0x202D, 0x202E, 0x202C, 0x4E00,
    0x3008, 0x3009, 0x1F468, 0x1F469, 0xAD, 0x200B, 0x2028, 0x200F,
    0x200D, 0x1F3FD, 0xFE0F, 0x1F1E9, 0x1F1EA, 0x600, 0x903, 0x915, 0x94D, 0x1100, 0x1161, 0x11A8, '\r', '\n',
};

/* Returns a code for the Grapheme_Cluster_Break class of a character (UAX #29):
 *
 *     R CR, F LF, C Control, E Extend, J ZWJ, P Prepend, S SpacingMark
 *     1 2 3 L, V and T (Hangul), I Regional_Indicator, X Extended_Pictographic
 *     V virama, K consonant that a virama joins (GB9c), O any other */
static char cluster_class(uint32_t c) {
    static const struct { uint32_t c; char class; } known[] = {
        {'\r', 'R'}, {'\n', 'F'}, {'\t', 'C'}, {0xAD, 'C'}, {0x200B, 'C'}, {0x200F, 'C'}, {0x2028, 'C'}, {0x200D, 'J'},
        {0x5B0, 'E'}, {0x5B8, 'E'}, {0x64B, 'E'}, {0x300, 'E'}, {0x1F3FD, 'E'}, {0xFE0F, 'E'}, {0x94D, 'V'}, {0x915, 'K'},
        {0x903, 'S'}, {0x600, 'P'}, {0x1100, '1'}, {0x1161, '2'}, {0x11A8, '3'}, {0x1F1E9, 'I'}, {0x1F1EA, 'I'},
        {0x1F468, 'X'}, {0x1F469, 'X'},
    };
    for (size_t k = 0; k < sizeof known / sizeof *known; k++)
        if (known[k].c == c) return known[k].class;
    return (c >= 0x202A && c <= 0x202E) || (c >= 0x2066 && c <= 0x2069) ? 'C' : 'O';
}

/* Returns whether a character continues the grapheme cluster of the character before it. `classes` has the classes of
 * the characters up to and including it. */
static int continues_cluster(const char *classes, size_t k) {
    char last = k == 0 ? 'C' : classes[k - 1], next = classes[k];
    size_t at = k, indicators = 0;
    if (k == 0) return 0;
    if (last == 'R' && next == 'F') return 1;                                         /* GB3 */
    if (strchr("RFC", last) != NULL || strchr("RFC", next) != NULL) return 0;         /* GB4, GB5 */
    if (last == '1' && (next == '1' || next == '2')) return 1;                        /* GB6 */
    if (last == '2' && (next == '2' || next == '3')) return 1;                        /* GB7 */
    if (last == '3' && next == '3') return 1;                                         /* GB8 */
    if (strchr("EVJS", next) != NULL || last == 'P') return 1;                        /* GB9, GB9a, GB9b */
    if (next == 'K') {                                                                /* GB9c */
        while (at > 0 && strchr("EJ", classes[at - 1]) != NULL) at--;
        return at > 0 && classes[at - 1] == 'V';
    }
    if (next == 'X' && last == 'J') {                                                 /* GB11 */
        for (at = k - 1; at > 0 && strchr("EV", classes[at - 1]) != NULL;) at--;
        return at > 0 && classes[at - 1] == 'X';
    }
    while (at > 0 && classes[at - 1] == 'I') at--, indicators++;
    return next == 'I' && indicators % 2 == 1;                                        /* GB12, GB13 */
}

static hordguli_tables tables = HORDGULI_TABLES_INIT;

/* The expected results for a row. */
typedef struct row {
    uint8_t levels[MOST];
    uint32_t visual[MOST], ltov[MOST], vtol[MOST];
    hordguli_run runs[MOST];
    size_t run_count;
} row;

static int is_blank(unsigned bidi_class) {
    return bidi_class == HORDGULI_BIDI_CLASS_WS || bidi_class == HORDGULI_BIDI_CLASS_BN
           || (bidi_class >= HORDGULI_BIDI_CLASS_LRE && bidi_class <= HORDGULI_BIDI_CLASS_PDI);
}

static void reverse(uint32_t *items, size_t from, size_t to) {
    for (; from + 1 < to; from++, to--) {
        uint32_t item = items[from];
        items[from] = items[to - 1];
        items[to - 1] = item;
    }
}

/* L1: separators are reset, and so are blanks if only blanks are between them and a separator or the end of
 * the row. */
static void reset(row *r, const hordguli_character *records, const uint8_t *levels, uint32_t base, size_t count) {
    for (size_t k = 0; k < count; k++) {
        size_t to = k;
        while (to < count && is_blank(records[to].bidi_class)) to++;
        r->levels[k] = to == count || records[to].bidi_class == HORDGULI_BIDI_CLASS_S
                               || records[to].bidi_class == HORDGULI_BIDI_CLASS_B
                           ? (uint8_t)base
                           : levels[k];
    }
}

/* Reverses, in visual order, each maximal sequence of characters of one cluster at one odd level. */
static void order_clusters(row *r, const uint32_t *characters, size_t count) {
    char classes[MOST];
    for (size_t k = 0; k < count; k++) classes[k] = cluster_class(characters[k]);
    for (size_t from = 0, to; from < count; from = to) {
        to = from + 1; /* in logical order */
        while (to < count && r->levels[to] == r->levels[from] && continues_cluster(classes, to)) to++;
        if (r->levels[from] % 2 == 0) continue;
        for (size_t k = 0; k < count; k++) {
            if (r->vtol[k] != to - 1) continue;
            for (size_t j = 0; j < to - from; j++) HOLDS(r->vtol[k + j] == to - 1 - j); /* they are neighbours */
            reverse(r->vtol, k, k + (to - from));
            break;
        }
    }
}

/* L2, and L3 if it is requested. */
static void order(row *r, const hordguli_character *records, uint32_t options, size_t count) {
    for (size_t k = 0; k < count; k++) r->vtol[k] = (uint32_t)k;
    for (unsigned level = 126; level > 0; level--) {
        for (size_t from = 0, to; from < count; from = to + 1) {
            for (to = from; to < count && r->levels[to] >= level;) to++;
            /* the interval has the same characters as before the intervals of higher levels were reversed */
            reverse(r->vtol, from, to);
        }
    }
    for (size_t from = 0, to; (options & HORDGULI_REORDER_NSM) != 0 && from < count; from = to) {
        to = from + 1; /* in visual order, marks precede their base: from the last one to the base */
        while (to < count && r->levels[r->vtol[from]] % 2 == 1
               && records[r->vtol[to - 1]].bidi_class == HORDGULI_BIDI_CLASS_NSM && r->vtol[to] + 1 == r->vtol[to - 1]
               && r->levels[r->vtol[to]] == r->levels[r->vtol[from]])
            to++;
        if (records[r->vtol[to - 1]].bidi_class != HORDGULI_BIDI_CLASS_NSM) reverse(r->vtol, from, to);
    }
}

/* Stores the runs of a row, derived from its visual order without L3. */
static void find_runs(row *r, size_t count) {
    r->run_count = 0;
    for (size_t at = 0; at < count;) {
        hordguli_run run = {r->vtol[at], 1, r->levels[r->vtol[at]], 0};
        uint32_t step = run.level % 2 == 1 ? UINT32_MAX : 1;
        for (at++; at < count && r->vtol[at] == r->vtol[at - 1] + step && r->levels[r->vtol[at]] == run.level; at++) {
            run.length++;
            if (r->vtol[at] < run.start) run.start = r->vtol[at];
        }
        r->runs[r->run_count++] = run;
    }
}

static void plain_row(row *r, uint32_t options, uint32_t base, const uint32_t *characters, const uint8_t *levels,
                      size_t count) {
    hordguli_character records[MOST];
    OK(hordguli_properties(&tables, count, characters, records));
    reset(r, records, levels, base, count);
    order(r, records, 0, count);
    find_runs(r, count);
    order(r, records, (options & HORDGULI_REORDER_CLUSTERS) != 0 ? 0 : options, count);
    if ((options & HORDGULI_REORDER_CLUSTERS) != 0) order_clusters(r, characters, count);
    for (size_t k = 0; k < count; k++) {
        size_t place = r->vtol[k];
        r->ltov[place] = (uint32_t)k;
        r->visual[k] = r->levels[place] % 2 == 1 && records[place].mirror != 0 ? records[place].mirror
                                                                               : characters[place];
    }
}

static void same_row(uint32_t options, uint32_t base, const uint32_t *characters, const uint8_t *levels, size_t count) {
    row wanted, got;
    plain_row(&wanted, options, base, characters, levels, count);
    OK(hordguli_row(&tables, options, base, count, characters, levels, count, got.visual, got.levels, got.ltov,
                    got.vtol));
    OK(hordguli_row_runs(&tables, base, count, characters, levels, MOST, got.runs, &got.run_count));
    HOLDS(memcmp(got.levels, wanted.levels, count) == 0);
    HOLDS(memcmp(got.vtol, wanted.vtol, count * sizeof *got.vtol) == 0);
    HOLDS(memcmp(got.ltov, wanted.ltov, count * sizeof *got.ltov) == 0);
    HOLDS(memcmp(got.visual, wanted.visual, count * sizeof *got.visual) == 0);
    HOLDS(got.run_count == wanted.run_count);
    HOLDS(got.run_count != wanted.run_count || memcmp(got.runs, wanted.runs, got.run_count * sizeof *got.runs) == 0);
}

int main(int count, char **words) {
    if (count != 3) return 2;
    if (!OK(hordguli_tables_open_folder(&tables, words[1], NULL))) return finish("rows");
    for (long rows = atol(words[2]); rows > 0 && failed <= 20; rows--) {
        uint32_t characters[MOST], base = 77, direction = (uint32_t)below(4);
        uint8_t levels[MOST];
        size_t length = below(MOST + 1), kinds = 1 + below(LETTERS), from = below(length + 1);
        size_t to = from + below(length - from + 1);
        for (size_t k = 0; k < length; k++)
            characters[k] = letters[below(2) == 0 ? below(LETTERS) : ((size_t)rows + below(kinds)) % LETTERS];
        OK(hordguli_base(&tables, direction, characters, length, &base));
        OK(hordguli_levels(&tables, direction, characters, length, length, levels));
        if (below(20) == 0) /* levels that no paragraph has */
            for (size_t k = 0; k < length; k++) levels[k] = (uint8_t)below(127);
        same_row((uint32_t)below(2) * HORDGULI_REORDER_NSM | (uint32_t)below(2) * HORDGULI_REORDER_CLUSTERS, base,
                 characters + from, levels + from, to - from);
    }
    hordguli_tables_close(&tables);
    return finish("rows");
}
