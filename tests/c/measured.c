/* Tests measured sessions. Usage: measured FOLDER TEXTS SESSIONS, where FOLDER has the table files.
 *
 * - Checks examples of each rule.
 * - Edits and measures TEXTS random texts, and keeps a copy of their advances. Compares lines, columns,
 *   carets, hits, edges and selections with a reference implementation of the definitions in
 *   docs/reference.md. The reference works from break marks, levels, clusters and advances. An edit and the
 *   measurement after it may change only the lines in their damage.
 * - Edits SESSIONS sessions whose advances are the columns of their characters. Each session must return what a session
 *   that is not measured returns. */
#include "answers.h"
#include "carets.h"
#include "snapshot.h"

#define OK(call) HOLDS((call) == HORDGULI_OK)
#define IS(call, status) HOLDS((call) == HORDGULI_##status)

enum { PRINTED = MOST * 40, TAB_BITS = 0xFF00 };

static hordguli_tables tables = HORDGULI_TABLES_INIT;
static hordguli_session session = HORDGULI_SESSION_INIT;
static char bytes[BYTES];

/* ---- Rows ---- */

/* Opens the session on a text, and sets the advances of its characters. */
static void open_on(const char *content, uint32_t own_options, uint32_t own_width, const uint32_t *own_advances, size_t count) {
    hordguli_session_close(&session);
    OK(hordguli_session_open_measured(&session, &tables, own_options, own_width, content, strlen(content)));
    OK(hordguli_set_advances(&session, 0, count, own_advances, NULL));
}

#define NUMBERS(...) ((const uint32_t[]){__VA_ARGS__})
#define COUNT(...) (sizeof NUMBERS(__VA_ARGS__) / sizeof(uint32_t))
#define OPEN(content, options, width, ...) open_on(content, options, width, NUMBERS(__VA_ARGS__), COUNT(__VA_ARGS__))
#define MEASURE(pos, damage, ...) hordguli_set_advances(&session, pos, COUNT(__VA_ARGS__), NUMBERS(__VA_ARGS__), damage)

static int has_lines(size_t count) {
    hordguli_counts counts;
    return hordguli_session_counts(&session, &counts) == HORDGULI_OK && counts.lines == count;
}

static int has_width(size_t wanted) {
    hordguli_counts counts;
    return hordguli_session_counts(&session, &counts) == HORDGULI_OK && counts.width == wanted;
}

static int is_line(size_t line, size_t start, size_t shown, size_t columns) {
    hordguli_line_info info;
    return hordguli_line(&session, line, &info, 0, NULL, NULL, NULL, NULL, NULL) == HORDGULI_OK && info.start == start
           && info.shown == shown && info.columns == columns;
}

static int has_caret(size_t pos, size_t line, size_t column) {
    hordguli_caret caret;
    return hordguli_caret_at(&session, pos, &caret) == HORDGULI_OK && caret.line == line && caret.column == column;
}

static int has_hit(size_t line, size_t column, size_t pos, uint32_t trailing) {
    hordguli_hit hit;
    return hordguli_hit_at(&session, line, column, &hit) == HORDGULI_OK && hit.pos == pos && hit.trailing == trailing;
}

static int is_nearest(size_t line, size_t column, hordguli_edge wanted) {
    hordguli_edge edge;
    return hordguli_nearest_edge(&session, line, column, &edge) == HORDGULI_OK && is_edge(edge, wanted);
}

/* Returns whether a step to the right from the edge `from` leads to `wanted`. */
static int steps_right_to(hordguli_edge from, hordguli_edge wanted) {
    hordguli_edge next;
    uint32_t moved;
    return hordguli_step(&session, from, HORDGULI_RIGHT, &next, &moved) == HORDGULI_OK && moved == 1 && is_edge(next, wanted);
}

static int is_last(hordguli_edge from, uint32_t direction) {
    hordguli_edge next;
    uint32_t moved;
    return hordguli_step(&session, from, direction, &next, &moved) == HORDGULI_OK && moved == 0;
}

static int is_damage(const hordguli_damage *damage, size_t first_line, size_t old_lines, size_t new_lines, size_t first_paragraph,
                     size_t paragraphs) {
    return damage->first_line == first_line && damage->old_lines == old_lines && damage->new_lines == new_lines
           && damage->first_paragraph == first_paragraph && damage->old_paragraphs == paragraphs
           && damage->new_paragraphs == paragraphs;
}

static int prints(uint32_t print, const char *wanted) {
    char found[100];
    size_t size = 0;
    return hordguli_lines_utf8(&session, 0, 1, print, sizeof found, found, &size) == HORDGULI_OK && size == strlen(wanted)
           && memcmp(found, wanted, size) == 0;
}

static void other_sessions_are_not_measured(void) {
    hordguli_damage damage = {7, 7, 7, 7, 7, 7};
    hordguli_session_close(&session);
    OK(hordguli_session_open(&session, &tables, 0, 80, "ab", 2));
    IS(MEASURE(0, &damage, 10), NOT_MEASURED);
    IS(MEASURE(9, &damage, UINT32_MAX), NOT_MEASURED);
    IS(hordguli_set_advances(&session, 0, 0, NULL, &damage), NOT_MEASURED);
    IS(hordguli_set_measured_width(&session, 10, &damage), NOT_MEASURED);
    IS(hordguli_set_measured_width(&session, 0, &damage), NOT_MEASURED);
    HOLDS(is_damage(&damage, 7, 7, 7, 7, 7) && is_line(0, 0, 2, 2) && has_width(80));
}

static void widths_are_1_to_2147483647(void) {
    static const uint32_t wrong[] = {0, UINT32_C(1) << 31, UINT32_MAX};
    hordguli_damage damage = {7, 7, 7, 7, 7, 7};
    hordguli_session other = HORDGULI_SESSION_INIT;
    OPEN("ab", 0, 1, 1, 1);
    HOLDS(has_width(1) && has_lines(2));
    for (size_t k = 0; k < sizeof wrong / sizeof *wrong; k++) {
        IS(hordguli_set_measured_width(&session, wrong[k], &damage), WIDTH_OUT_OF_RANGE);
        IS(hordguli_session_open_measured(&other, &tables, 0, wrong[k], "ab", 2), WIDTH_OUT_OF_RANGE);
    }
    HOLDS(is_damage(&damage, 7, 7, 7, 7, 7) && has_width(1) && has_lines(2) && other.at == NULL);
    OK(hordguli_set_measured_width(&session, INT32_MAX, &damage));
    HOLDS(is_damage(&damage, 0, 2, 1, 0, 1) && has_width(INT32_MAX) && has_lines(1));
    IS(hordguli_set_width(&session, 65536, &damage), WIDTH_OUT_OF_RANGE);
    OK(hordguli_set_width(&session, 1, &damage));
    HOLDS(is_damage(&damage, 0, 1, 2, 0, 1) && has_width(1));
}

static void widths_may_be_above_65535(void) {
    OPEN("aaaaaa", 0, 100000, 30000, 30000, 30000, 30000, 30000, 30000);
    HOLDS(has_width(100000) && has_lines(2) && is_line(0, 0, 3, 90000) && is_line(1, 3, 3, 90000));
    HOLDS(has_caret(2, 0, 60000) && has_caret(6, 1, 90000) && has_hit(0, 65536, 2, 0) && has_hit(0, 90000, 2, 1));
    HOLDS(is_nearest(0, 74999, before(2)) && is_nearest(0, 75000, after(3)));
    OK(hordguli_set_measured_width(&session, 65536 + 60000, NULL));
    HOLDS(has_width(125536) && is_line(0, 0, 4, 120000));
    OPEN("aaa", 0, INT32_MAX, INT32_MAX, INT32_MAX, 1);
    HOLDS(has_lines(3) && is_line(0, 0, 1, INT32_MAX) && has_caret(2, 2, 0));
    OPEN("aaa", HORDGULI_NOBREAK, 1, INT32_MAX, INT32_MAX, 1); /* 2^32 - 1 columns */
    HOLDS(has_lines(1) && is_line(0, 0, 3, UINT32_MAX) && has_caret(3, 0, UINT32_MAX));
    HOLDS(has_hit(0, (size_t)UINT32_MAX - 1, 2, 0) && has_hit(0, (size_t)UINT32_MAX - 2, 1, 0));
}

static void a_join_above_the_limit_is_refused(void) {
    hordguli_damage damage = {7, 7, 7, 7, 7, 7};
    OPEN("aa\nb", 0, INT32_MAX, INT32_MAX, INT32_MAX, 1, 2); /* the first paragraph has 2^32 - 1 columns */
    IS(hordguli_delete(&session, 2, 1, &damage), PARAGRAPH_TOO_LONG);
    IS(hordguli_replace(&session, 2, 1, "x", 1, &damage), PARAGRAPH_TOO_LONG);
    HOLDS(is_damage(&damage, 7, 7, 7, 7, 7) && has_lines(3) && is_line(1, 1, 1, INT32_MAX) && is_line(2, 3, 1, 2));
    OK(hordguli_insert(&session, 1, "x", 1, &damage)); /* with advance 0 */
    OK(hordguli_delete(&session, 1, 1, &damage));
    OK(MEASURE(3, &damage, 1));
    OK(hordguli_delete(&session, 2, 1, &damage));
    HOLDS(has_lines(3) && is_line(1, 1, 1, INT32_MAX) && is_line(2, 2, 1, 1));
    IS(MEASURE(2, NULL, 2), PARAGRAPH_TOO_LONG);
    IS(MEASURE(0, NULL, UINT32_MAX, 0, 1), PARAGRAPH_TOO_LONG);
    HOLDS(has_lines(3) && is_line(0, 0, 1, INT32_MAX) && is_line(2, 2, 1, 1));
    OK(MEASURE(0, NULL, UINT32_MAX, 0, 0));
    HOLDS(is_line(0, 0, 1, UINT32_MAX));
}

static void an_empty_range_changes_nothing(void) {
    OPEN("ab\ncd", 0, 15, 10, 10, 0, 10, 10);
    for (size_t pos = 0; pos <= 5; pos++) {
        hordguli_damage damage = {7, 7, 7, 7, 7, 7};
        hordguli_work first = {0, 0, 0}, last = {0, 0, 0};
        OK(hordguli_session_work(&session, &first));
        OK(hordguli_set_advances(&session, pos, 0, NULL, &damage));
        OK(hordguli_session_work(&session, &last));
        HOLDS(damage.old_lines == 0 && damage.new_lines == 0 && damage.old_paragraphs == 0 && damage.new_paragraphs == 0);
        HOLDS(memcmp(&first, &last, sizeof first) == 0 && has_lines(4));
    }
    IS(hordguli_set_advances(&session, 6, 0, NULL, NULL), OUT_OF_RANGE);
}

static void a_range_touches_the_paragraphs_of_its_characters(void) {
    hordguli_damage damage;
    OPEN("ab\ncd\nef", 0, 10, 10, 10, 0, 10, 10, 0, 10, 10);
    HOLDS(has_lines(6));
    OK(MEASURE(1, &damage, 0, 0, 0)); /* `b`, a separator and `c` */
    HOLDS(is_damage(&damage, 0, 4, 2, 0, 2) && is_line(0, 0, 2, 10) && is_line(1, 3, 2, 10));
    OK(MEASURE(0, &damage, 10, 10, 0)); /* the first paragraph up to its end */
    HOLDS(is_damage(&damage, 0, 1, 2, 0, 1));
    OK(MEASURE(3, &damage, 10)); /* the first character of the second one */
    HOLDS(is_damage(&damage, 2, 1, 2, 1, 1));
    OK(MEASURE(5, &damage, 0, 0)); /* the second separator and `e` */
    HOLDS(is_damage(&damage, 2, 4, 3, 1, 2) && has_lines(5));
    IS(MEASURE(7, &damage, 1, 1), OUT_OF_RANGE);
    HOLDS(is_damage(&damage, 2, 4, 3, 1, 2));
}

static void advances_are_counted_in_no_other_work(void) {
    hordguli_work first, last;
    OPEN("ab cd\nef gh\nij", 0, 30, 10, 10, 10, 10, 10, 0, 10, 10, 10, 10, 10, 0, 10, 10);
    OK(hordguli_session_work(&session, &first));
    OK(MEASURE(7, NULL, 30));
    OK(hordguli_session_work(&session, &last));
    HOLDS(last.analysed == first.analysed && last.filled > first.filled && last.filled - first.filled <= 6);
}

static void without_advances_a_text_has_no_columns(void) {
    hordguli_span spans[2];
    size_t count = 7;
    OPEN("abc \u05d0\u05d1", 0, 1, 0, 0, 0, 0, 0, 0);
    HOLDS(has_lines(1) && is_line(0, 0, 6, 0));
    for (size_t pos = 0; pos <= 6; pos++) {
        HOLDS(is_last(before(pos), HORDGULI_LEFT) && is_last(before(pos), HORDGULI_RIGHT) && has_caret(pos, 0, 0));
        HOLDS(pos == 0 || (is_last(after(pos), HORDGULI_LEFT) && is_last(after(pos), HORDGULI_RIGHT)));
    }
    for (size_t k = 0; k < 3; k++) {
        static const size_t columns[] = {0, 1, SIZE_MAX};
        HOLDS(has_hit(0, columns[k], 0, 0) && is_nearest(0, columns[k], before(0)));
    }
    OK(hordguli_spans(&session, 0, 0, 6, 2, spans, &count));
    HOLDS(count == 0);
}

/* The first letter of `ffi` has the advance of the ligature. */
static void a_ligature_ends_a_line(void) {
    OPEN("ab ffi", 0, 60, 10, 10, 10, 30, 0, 0);
    HOLDS(has_lines(1) && is_line(0, 0, 6, 60));
    HOLDS(has_caret(3, 0, 30) && has_caret(4, 0, 60) && has_caret(5, 0, 60) && has_caret(6, 0, 60));
    HOLDS(has_hit(0, 59, 3, 0) && is_nearest(0, 44, before(3)) && is_nearest(0, 45, after(4)));
    HOLDS(steps_right_to(before(3), after(4)) && is_last(after(4), HORDGULI_RIGHT));
    OK(hordguli_set_measured_width(&session, 59, NULL));
    HOLDS(has_lines(2) && is_line(0, 0, 2, 20) && is_line(1, 3, 3, 30));
    OK(hordguli_set_measured_width(&session, 29, NULL)); /* the glyph does not fit: its cluster is that of `f` alone */
    HOLDS(has_lines(3) && is_line(1, 3, 1, 30) && is_line(2, 4, 2, 0));
    OK(MEASURE(3, NULL, 10, 10, 10));
    HOLDS(has_lines(3) && is_line(1, 3, 2, 20) && is_line(2, 5, 1, 10));
    OPEN("\u0628 \u0644\u0627", 0, 35, 10, 5, 20, 0); /* a lam with an alef, at the left end */
    HOLDS(has_lines(1) && is_line(0, 0, 4, 35) && has_caret(2, 0, 20) && has_caret(3, 0, 0) && has_hit(0, 0, 2, 0));
}

/* A space and a mark are one cluster, but there is a break opportunity between them. */
static void a_line_may_end_inside_a_cluster(void) {
    hordguli_cluster cluster = {0, 0};
    OPEN("aa \u0301bb", 0, 25, 10, 10, 10, 5, 10, 10);
    OK(hordguli_cluster_at(&session, 2, &cluster));
    HOLDS(cluster.start == 2 && cluster.end == 4);
    HOLDS(has_lines(2) && is_line(0, 0, 2, 20) && is_line(1, 3, 3, 25));
}

static void a_tab_moves_to_a_multiple_of_its_advance(void) {
    const uint32_t tab = HORDGULI_TAB_WIDTH(4);
    OPEN("a\tb", tab, 100, 10, 0, 10);
    HOLDS(is_line(0, 0, 3, 20) && has_caret(1, 0, 10) && has_caret(2, 0, 10) && prints(HORDGULI_PRINT_DEFAULT, "a\tb\n"));
    OK(MEASURE(1, NULL, 30));
    HOLDS(is_line(0, 0, 3, 40) && has_caret(1, 0, 10) && has_caret(2, 0, 30) && prints(HORDGULI_PRINT_DEFAULT, "a\tb\n"));
    OK(MEASURE(0, NULL, 30));
    HOLDS(is_line(0, 0, 3, 70) && has_caret(2, 0, 60));
    OPEN("\u05d0\t\u05d1", tab, 100, 10, 30, 10); /* stops are counted from the right edge */
    HOLDS(is_line(0, 0, 3, 40) && has_caret(0, 0, 40) && has_caret(1, 0, 30) && has_caret(2, 0, 10));
    OPEN("a\tb", 0, 100, 10, 30, 10); /* without tab stops */
    HOLDS(is_line(0, 0, 3, 50) && has_caret(2, 0, 40));
}

static void padding_is_for_the_caller(void) {
    hordguli_line_info info;
    OPEN("\u05d0\u05d1", 0, 100, 10, 15);
    OK(hordguli_line(&session, 0, &info, 0, NULL, NULL, NULL, NULL, NULL));
    HOLDS(info.columns == 25 && info.padding == 75 && info.base == 1);
    HOLDS(prints(HORDGULI_PRINT_DEFAULT, "\u05d1\u05d0\n") && prints(HORDGULI_PRINT_VISUAL, "\u05d1\u05d0\n"));
    OK(hordguli_set_measured_width(&session, 1, NULL));
    OK(hordguli_line(&session, 0, &info, 0, NULL, NULL, NULL, NULL, NULL));
    HOLDS(info.columns == 10 && info.padding == 0);
}

static void spaces_are_shown_up_to_the_exact_width(void) {
    static const struct {
        uint32_t width;
        size_t shown, columns;
    } rows[] = {{20, 2, 20}, {29, 2, 20}, {30, 3, 30}, {31, 3, 30}, {49, 4, 40}, {50, 5, 50}, {59, 5, 50}};
    OPEN("ab   cd", HORDGULI_SHOW_SPACES, 20, 10, 10, 10, 10, 10, 10, 10);
    for (size_t k = 0; k < sizeof rows / sizeof *rows; k++) {
        OK(hordguli_set_measured_width(&session, rows[k].width, NULL));
        HOLDS(is_line(0, 0, rows[k].shown, rows[k].columns) && is_line(1, 5, 2, 20));
    }
    OK(hordguli_set_measured_width(&session, 15, NULL));
    OK(MEASURE(0, NULL, 10, 5));
    HOLDS(is_line(0, 0, 2, 15));
    OK(MEASURE(2, NULL, 0, 0, 1)); /* two spaces without an advance, and one that does not fit */
    HOLDS(is_line(0, 0, 4, 15));
    OPEN("ab ", HORDGULI_SHOW_SPACES | HORDGULI_NOBREAK, 15, 10, 10, 0); /* a line that is wider than the width shows none */
    HOLDS(is_line(0, 0, 2, 20));
}

static void deleted_text_is_measured(void) {
    hordguli_damage edited, measured;
    OPEN("one two\nxy three", 0, 70, 10, 10, 10, 10, 10, 10, 10, 0, 10, 10, 10, 10, 10, 10, 10, 10);
    HOLDS(has_lines(3));
    OK(hordguli_delete(&session, 4, 4, &edited)); /* the paragraphs are joined: `one xy three` */
    HOLDS(edited.first_line == 0 && edited.old_lines == 3 && edited.new_lines == 2 && is_line(0, 0, 6, 60) && is_line(1, 7, 5, 50));
    OK(MEASURE(0, &measured, 5, 5, 5, 5, 5, 5, 5, 5, 5, 5, 5, 5));
    HOLDS(is_damage(&measured, 0, 2, 1, 0, 1) && has_lines(1) && is_line(0, 0, 12, 60));
    OK(hordguli_delete(&session, 0, 12, &edited));
    OK(hordguli_set_advances(&session, 0, 0, NULL, &measured));
    HOLDS(edited.old_lines == 1 && edited.new_lines == 0 && measured.new_lines == 0 && has_lines(0));
}

static void rows(void) {
    other_sessions_are_not_measured();
    widths_are_1_to_2147483647();
    widths_may_be_above_65535();
    a_join_above_the_limit_is_refused();
    an_empty_range_changes_nothing();
    a_range_touches_the_paragraphs_of_its_characters();
    advances_are_counted_in_no_other_work();
    without_advances_a_text_has_no_columns();
    a_ligature_ends_a_line();
    a_line_may_end_inside_a_cluster();
    a_tab_moves_to_a_multiple_of_its_advance();
    padding_is_for_the_caller();
    spaces_are_shown_up_to_the_exact_width();
    deleted_text_is_measured();
    hordguli_session_close(&session);
}

/* ---- Random texts and advances ---- */

static uint32_t width, scale, advances[MOST];

static size_t random_text(uint32_t *into, size_t most) {
    size_t kinds = 1 + below(6), wanted = below(most), count = 0;
    const char *some[6];
    for (size_t k = 0; k < kinds; k++) some[k] = below(12) == 0 ? "\u0644\u0627" : text_pieces[below(TEXT_PIECES)];
    while (count < wanted) {
        uint32_t piece[64];
        size_t more = decoded(some[below(kinds)], piece);
        if (count + more > most) break;
        memcpy(into + count, piece, more * sizeof *piece);
        count += more;
    }
    return count;
}

static uint32_t random_options(void) { return (uint32_t)below(128) | HORDGULI_TAB_WIDTH(below(3) == 0 ? 1 + below(255) : 0); }

/* Returns a random width, in most cases of up to 12 columns. A column has `scale` units. */
static uint32_t random_width(void) {
    size_t found = 1 + below(below(3) == 0 ? (size_t)scale * 60 : (size_t)scale * 12);
    return found > INT32_MAX ? INT32_MAX : (uint32_t)found;
}

/* Stores random advances, which can be all equal, large, or 0 for all or some characters (as in
 * ligatures). */
static void random_advances(uint32_t *into, size_t count) {
    size_t kind = below(7), equal = below(3 * (size_t)scale);
    for (size_t k = 0; k < count; k++) {
        into[k] = 1 + (uint32_t)below(2 * (size_t)scale);
        if (kind == 0) into[k] = 0;
        if (kind == 1) into[k] = (uint32_t)equal;
        if (kind == 2 && below(2) == 0) into[k] = 0;
        if (kind == 3 && below(30) == 0) into[k] = below(2) == 0 ? UINT32_MAX : (uint32_t)below(UINT32_MAX);
        if (kind == 4) into[k] = (uint32_t)below(UINT32_MAX / MOST);
        if (kind == 5) into[k] = scale;
    }
}

/* ---- The reference implementation ---- */

/* The break mark, level and properties of each character of the text */
static uint8_t marks[MOST], levels[MOST];
static hordguli_character properties[MOST];
static size_t order[MOST]; /* the shown characters of each line from its start on, from left to right */

static size_t end_of_paragraph(size_t start) {
    for (size_t k = start; k < length; k++)
        if (is_separator(text[k])) return text[k] == '\r' && k + 1 < length && text[k + 1] == '\n' ? k + 2 : k + 1;
    return length;
}

static int may_trail(size_t k) {
    uint32_t c = text[k];
    return c == ' ' || (c >= 0xA && c <= 0xD) || c == 0x85 || c == 0x2028 || c == 0x2029;
}

/* The columns of character `k`, if `columns` columns are before it on its line */
static size_t columns_at(size_t columns, size_t k) {
    if (text[k] != '\t' || (options & TAB_BITS) == 0) return advances[k];
    return advances[k] == 0 ? 0 : advances[k] - columns % advances[k];
}

static size_t columns_to(size_t start, size_t end) {
    size_t columns = 0;
    for (size_t k = start; k < end; k++) columns += columns_at(columns, k);
    return columns;
}

static size_t text_end(size_t start, size_t end) {
    while (end > start && may_trail(end - 1)) end--;
    return end;
}

static int fits(size_t start, size_t end) { return columns_to(start, text_end(start, end)) <= width; }

static int ends_cluster(size_t k) { return characters[k].end == k + 1; }

static size_t end_of_line(size_t start, size_t paragraph) {
    size_t by_break = 0, by_cluster = 0, must = start;
    while (must + 1 < paragraph && marks[must] != HORDGULI_BREAK_MUST) must++;
    if (options & HORDGULI_NOBREAK) return must + 1;
    for (size_t k = start; k <= must; k++) {
        if (!fits(start, k + 1)) continue;
        if (marks[k] != HORDGULI_BREAK_NEVER) by_break = k + 1;
        if (ends_cluster(k)) by_cluster = k + 1;
    }
    if (by_break != 0 || by_cluster != 0) return by_break != 0 ? by_break : by_cluster;
    for (size_t k = start; k <= must; k++)
        if (marks[k] != HORDGULI_BREAK_NEVER || ends_cluster(k)) return k + 1;
    return paragraph;
}

static size_t shown_end(size_t start, size_t end) {
    size_t shown = text_end(start, end);
    while ((options & HORDGULI_SHOW_SPACES) && shown < end && text[shown] == ' ' && columns_to(start, shown + 1) <= width) shown++;
    return shown;
}

/* L1: separators have the base level, and so has white space before them and at the end of the line. */
static void reset_levels(size_t start, size_t end, uint32_t base) {
    int is_reset = 1;
    for (size_t k = end; k-- > start;) {
        uint8_t of = properties[k].bidi_class;
        if (of == HORDGULI_BIDI_CLASS_S || of == HORDGULI_BIDI_CLASS_B) is_reset = 1;
        else if (of != HORDGULI_BIDI_CLASS_WS && of != HORDGULI_BIDI_CLASS_BN && of < HORDGULI_BIDI_CLASS_LRE) is_reset = 0;
        characters[k].level = is_reset ? base : levels[k];
    }
}

/* Orders the shown characters by L2, or as the session does if an option orders marks or clusters. */
static void put_in_order(size_t line) {
    size_t start = lines[line].start, end = start + lines[line].shown;
    uint32_t vtol[MOST];
    for (size_t k = start; k < end; k++) order[k] = k;
    for (uint32_t level = 126; level > 0; level--)
        for (size_t from = start, to; from < end; from = to) {
            for (to = from; to < end && characters[order[to]].level >= level;) to++;
            for (size_t k = 0; k < (to - from) / 2; k++) {
                size_t swapped = order[from + k];
                order[from + k] = order[to - 1 - k];
                order[to - 1 - k] = swapped;
            }
            if (to == from) to++;
        }
    if ((options & (HORDGULI_REORDER_NSM | HORDGULI_REORDER_CLUSTERS)) == 0) return;
    OK(hordguli_line(&session, line, &(hordguli_line_info){0}, MOST, NULL, NULL, NULL, vtol, NULL));
    for (size_t k = start; k < end; k++) order[k] = start + vtol[k - start];
}

static void lay_out_line(size_t start, size_t end, uint32_t base, int is_first) {
    hordguli_line_info *info = &lines[line_count];
    size_t own[MOST] = {0}, columns = 0, left = 0, shown = shown_end(start, end);
    for (size_t k = start; k < shown; k++) {
        own[k] = columns_at(columns, k);
        columns += own[k];
    }
    *info = (hordguli_line_info){start, end - start, shown - start, columns, base == 1 && columns < width ? width - columns : 0,
                                 base, (uint32_t)is_first};
    reset_levels(start, end, base);
    for (size_t k = start; k < end; k++) {
        character *c = &characters[k];
        c->line = line_count;
        c->is_shown = k < shown;
        if (!c->is_shown) c->level = base;
        c->run = k == start ? 0 : c[-1].run + (c->level != c[-1].level);
    }
    put_in_order(line_count);
    for (size_t k = start; k < shown; k++) {
        characters[order[k]].left = left;
        characters[order[k]].right = left += own[order[k]];
    }
    line_count++;
}

static void lay_out(void) {
    OK(hordguli_properties(&tables, length, text, properties));
    for (size_t pos = 0; pos < length;) {
        hordguli_cluster cluster = {0, 0};
        if (!OK(hordguli_cluster_at(&session, pos, &cluster)) || !HOLDS(cluster.start == pos && cluster.end > pos)) exit(1);
        for (; pos < cluster.end; pos++) characters[pos].cluster = cluster.start, characters[pos].end = cluster.end;
    }
    line_count = 0;
    for (size_t start = 0, paragraph; start < length; start = paragraph) {
        uint32_t base = 0;
        size_t count = (paragraph = end_of_paragraph(start)) - start;
        OK(hordguli_marks(&tables, options & HORDGULI_WHOLE_NUMBERS, text + start, count, count, marks + start));
        OK(hordguli_levels(&tables, options & 3, text + start, count, count, levels + start));
        OK(hordguli_base(&tables, options & 3, text + start, count, &base));
        for (size_t at = start, end; at < paragraph; at = end) {
            end = end_of_line(at, paragraph);
            lay_out_line(at, end, base, at == start);
        }
    }
    /* with HORDGULI_REORDER_NSM alone, a mark that has columns may be apart from its cluster, so no units are
     * computed */
    unit_count = 0;
    if ((options & HORDGULI_REORDER_NSM) == 0 || (options & HORDGULI_REORDER_CLUSTERS) != 0) find_units();
}

/* ---- Comparisons ---- */

static void lines_are_right(void) {
    hordguli_counts counts = {0, 0, 0, 0};
    OK(hordguli_session_counts(&session, &counts));
    HOLDS(counts.lines == line_count && counts.characters == length && counts.width == width);
    for (size_t line = 0; line < counts.lines && line < line_count; line++) {
        hordguli_line_info info, *wanted = &lines[line];
        uint8_t own_levels[MOST];
        uint32_t vtol[MOST];
        size_t widths[MOST];
        if (!OK(hordguli_line(&session, line, &info, MOST, NULL, own_levels, NULL, vtol, widths))) return;
        if (!HOLDS(memcmp(&info, wanted, sizeof info) == 0)) return;
        for (size_t k = 0; k < info.shown; k++) {
            const character *c = &characters[order[info.start + k]];
            HOLDS(info.start + vtol[k] == order[info.start + k] && widths[k] == c->right - c->left);
            HOLDS(own_levels[k] == characters[info.start + k].level);
        }
    }
}

/* The place of the caret for a position: at the leading edge of the character itself, not of its unit */
static hordguli_caret own_caret(size_t pos) {
    const character *c = &characters[pos];
    if (pos == length) return starts_next_line() ? (hordguli_caret){line_count, 0, options & 1, 0} : end_caret(line_count - 1);
    if (!c->is_shown) return end_caret(c->line);
    return (hordguli_caret){c->line, c->level % 2 == 0 ? c->left : c->right, c->level, 0};
}

static void carets_are_right(void) {
    for (size_t pos = 0; pos <= length; pos++) {
        hordguli_caret caret = {7, 7, 7, 7}, wanted = own_caret(pos);
        OK(hordguli_caret_at(&session, pos, &caret));
        HOLDS(memcmp(&caret, &wanted, sizeof caret) == 0);
    }
}

static void edges_are_right(void) {
    for (size_t k = 0; k < 2 * (length + 1); k++) {
        hordguli_edge edge = {k / 2, k % 2, 0};
        hordguli_caret caret = {7, 7, 7, 7}, wanted;
        if (!reference_caret(edge, &wanted)) continue;
        OK(hordguli_edge_caret(&session, edge, &caret));
        HOLDS(memcmp(&caret, &wanted, sizeof caret) == 0);
        for (uint32_t direction = 0; direction < 2; direction++) {
            hordguli_edge next = {7, 7, 7}, wanted_next = {7, 7, 7};
            uint32_t moved = 7, wanted_moved = (uint32_t)reference_step(wanted.line, wanted.column, direction, &wanted_next);
            OK(hordguli_step(&session, edge, direction, &next, &moved));
            HOLDS(moved == wanted_moved && memcmp(&next, &wanted_next, sizeof next) == 0);
        }
    }
}

static void column_is_right(size_t line, size_t column, int has_units) {
    hordguli_hit hit = {7, 7, 7}, wanted_hit = reference_hit(line, column);
    hordguli_edge edge = {7, 7, 7}, wanted_edge;
    OK(hordguli_hit_at(&session, line, column, &hit));
    HOLDS(memcmp(&hit, &wanted_hit, sizeof hit) == 0);
    if (!has_units) return;
    HOLDS(reference_edge_at(line, column, &wanted_edge));
    OK(hordguli_edge_at(&session, line, column, &edge));
    HOLDS(is_edge(edge, wanted_edge));
    HOLDS(reference_nearest_edge(line, column, &wanted_edge));
    OK(hordguli_nearest_edge(&session, line, column, &edge));
    HOLDS(is_edge(edge, wanted_edge));
}

/* Compares hits and edges at both ends, in the middle and at a random column of each character, and
 * selections. */
static void columns_are_right(int has_units) {
    for (size_t line = 0; line < line_count; line++) {
        const hordguli_line_info *info = &lines[line];
        hordguli_span spans[2][MOST];
        size_t from = below(length + 1), to = below(length + 2), count = 7;
        for (size_t pos = info->start; pos < info->start + info->shown; pos++) {
            const character *c = &characters[pos];
            if (!takes_columns(pos)) continue;
            column_is_right(line, c->left, has_units);
            column_is_right(line, c->right - 1, has_units);
            column_is_right(line, (c->left + c->right) / 2, has_units);
            column_is_right(line, c->left + below(c->right - c->left), has_units);
        }
        column_is_right(line, info->columns, has_units);
        column_is_right(line, SIZE_MAX, has_units);
        OK(hordguli_spans(&session, line, from, to, MOST, spans[0], &count));
        HOLDS(count == reference_spans(line, from, to, spans[1]) && memcmp(spans[0], spans[1], count * sizeof **spans) == 0);
    }
}

/* Checks that printed lines are not padded, and that their tabs are written unchanged. */
static void print_is_right(void) {
    static char expected[PRINTED], found[PRINTED];
    size_t size = 0, written = 0;
    uint32_t print = HORDGULI_PRINT_VISUAL | (below(2) ? HORDGULI_PRINT_PADDED : 0);
    for (size_t line = 0; line < line_count; line++) {
        for (size_t k = 0; k < lines[line].shown; k++) size += encoded(&text[order[lines[line].start + k]], 1, expected + size);
        expected[size++] = '\n';
    }
    OK(hordguli_lines_utf8(&session, 0, line_count, print, PRINTED, found, &written));
    HOLDS(written == size && memcmp(found, expected, size) == 0);
}

static void session_is_right(void) {
    int has_units;
    lay_out();
    has_units = (options & HORDGULI_REORDER_NSM) == 0 || (options & HORDGULI_REORDER_CLUSTERS) != 0;
    lines_are_right();
    if (failed > 0) return;
    carets_are_right();
    if (has_units) edges_are_right();
    columns_are_right(has_units);
    print_is_right();
}

/* ---- Random changes ---- */

static int are_too_wide(const uint32_t *own, size_t start, size_t end) {
    uint64_t sum = 0;
    for (size_t k = start; k < end; k++) sum += own[k];
    return sum > UINT32_MAX;
}

/* Whether the advances of any paragraph add up to more than 2^32 - 1 */
static int has_wide_paragraph(void) {
    for (size_t start = 0, end; start < length; start = end) {
        end = end_of_paragraph(start);
        if (are_too_wide(advances, start, end)) return 1;
    }
    return 0;
}

/* The text and the advances, to be restored after a refused call */
static uint32_t kept_text[MOST], kept_advances[MOST];
static size_t kept_length;

static void keep(void) {
    memcpy(kept_text, text, sizeof text);
    memcpy(kept_advances, advances, sizeof advances);
    kept_length = length;
}

/* Checks the status of a call. If the call was refused, restores the text and the advances, and returns 0. */
static int is_accepted(hordguli_status status) {
    int is_wide = has_wide_paragraph();
    HOLDS(status == (is_wide ? HORDGULI_PARAGRAPH_TOO_LONG : HORDGULI_OK));
    if (!is_wide) return 1;
    memcpy(text, kept_text, sizeof text);
    memcpy(advances, kept_advances, sizeof advances);
    length = kept_length;
    return 0;
}

/* Sets random advances in a range, in the session and in `advances`. Returns 0 if the call was refused. */
static int measure(size_t pos, size_t count, hordguli_damage *damage) {
    keep();
    random_advances(advances + pos, count);
    return is_accepted(hordguli_set_advances(&session, pos, count, advances + pos, damage));
}

/* Makes a random edit, in the session and in `text` and `advances`. Returns 0 if the edit was refused. */
static int edit(hordguli_damage *damage) {
    uint32_t piece[12];
    char piece_bytes[sizeof piece];
    size_t pos = below(length + 1), removed = below(2) == 0 ? 0 : below(length - pos < 12 ? length - pos + 1 : 12), added = 0, size;
    hordguli_status status;
    keep();
    if ((removed == 0 || below(2) == 0) && length - removed + 12 <= MOST) added = random_text(piece, 12);
    size = encoded(piece, added, piece_bytes);
    if (added == 0) status = hordguli_delete(&session, pos, removed, damage);
    else if (removed == 0) status = hordguli_insert(&session, pos, piece_bytes, size, damage);
    else status = hordguli_replace(&session, pos, removed, piece_bytes, size, damage);
    memmove(text + pos + added, text + pos + removed, (length - pos - removed) * sizeof *text);
    memmove(advances + pos + added, advances + pos + removed, (length - pos - removed) * sizeof *advances);
    memcpy(text + pos, piece, added * sizeof *text);
    memset(advances + pos, 0, added * sizeof *advances);
    length += added - removed;
    return is_accepted(status);
}

/* Stores where the new paragraphs of an edit start, and how many characters they have together. */
static void find_new(hordguli_session *of, const hordguli_damage *damage, size_t *start, size_t *count) {
    hordguli_paragraph_info info;
    *start = *count = 0;
    for (size_t k = 0; k < damage->new_paragraphs; k++) {
        if (!OK(hordguli_paragraph(of, damage->first_paragraph + k, &info, 0, NULL, NULL))) return;
        if (k == 0) *start = info.start;
        *count += info.length;
    }
}

/* Makes a random edit, and then sets the advances of all or part of its new paragraphs. */
static void edit_and_measure(const snapshot *then) {
    static snapshot between, now;
    hordguli_damage edited = {7, 7, 7, 7, 7, 7}, measured = {7, 7, 7, 7, 7, 7};
    size_t start, count;
    if (!edit(&edited)) return;
    take(&session, advances, &now);
    lines_were_replaced(then, &now, edited.first_line, edited.old_lines, edited.new_lines);
    changed_lines_are_right(&session, then, &now, &edited);
    if (below(4) == 0) session_is_right();
    find_new(&session, &edited, &start, &count);
    between = now;
    if (!measure(start, count, &measured)) return;
    take(&session, advances, &now);
    changed_lines_are_right(&session, &between, &now, &measured);
    HOLDS(count == 0 || (measured.first_line == edited.first_line && measured.old_lines == edited.new_lines));
    HOLDS(measured.old_paragraphs == edited.new_paragraphs && measured.new_paragraphs == edited.new_paragraphs);
    lines_were_replaced(then, &now, edited.first_line, edited.old_lines, measured.new_lines);
}

static void change(void) {
    static snapshot then, now;
    hordguli_damage damage = {7, 7, 7, 7, 7, 7};
    size_t pos = below(length + 1), count = below(length - pos + 1);
    take(&session, advances, &then);
    switch (below(6)) {
        case 0:
            width = random_width();
            if (width <= UINT16_MAX && below(2) == 0) OK(hordguli_set_width(&session, width, &damage));
            else OK(hordguli_set_measured_width(&session, width, &damage));
            take(&session, advances, &now);
            HOLDS(damage.first_line == 0 && damage.old_lines == then.count && damage.new_lines == now.count);
            changed_lines_are_right(&session, &then, &now, &damage);
            break;
        case 1:
            if (!measure(pos, count, &damage)) break;
            take(&session, advances, &now);
            if (count > 0) lines_were_replaced(&then, &now, damage.first_line, damage.old_lines, damage.new_lines);
            else HOLDS(damage.old_lines == 0 && damage.new_lines == 0 && memcmp(&then, &now, sizeof now) == 0);
            changed_lines_are_right(&session, &then, &now, &damage);
            break;
        default: edit_and_measure(&then);
    }
}

static void texts_are_right(long count) {
    static const uint32_t scales[] = {1, 2, 64, 1000, 1 << 16, 1 << 22, 1 << 25};
    for (long k = 0; k < count && failed == 0; k++) {
        scale = scales[below(sizeof scales / sizeof *scales)];
        options = random_options();
        width = random_width();
        length = random_text(text, below(8) == 0 ? MOST : 30);
        memset(advances, 0, sizeof advances);
        if (!OK(hordguli_session_open_measured(&session, &tables, options, width, bytes, encoded(text, length, bytes)))) return;
        measure(0, length, NULL);
        session_is_right();
        for (size_t changes = below(5); changes > 0 && failed == 0; changes--) {
            change();
            session_is_right();
        }
        hordguli_session_close(&session);
        if (failed == 0) continue;
        fprintf(stderr, "text %ld, options %u, width %u, characters and advances:", k, (unsigned)options, (unsigned)width);
        for (size_t pos = 0; pos < length; pos++) fprintf(stderr, " %04X %u", (unsigned)text[pos], (unsigned)advances[pos]);
        fprintf(stderr, "\n");
    }
}

/* ---- Sessions whose advances are columns ---- */

/* Sets the advances of new paragraphs to the columns of their characters. The advance of a tab is the tab width. */
static void measure_in_columns(hordguli_session *of, const hordguli_damage *edited, hordguli_damage *measured) {
    size_t start, count;
    find_new(of, edited, &start, &count);
    OK(hordguli_properties(&tables, count, text + start, properties));
    for (size_t k = 0; k < count; k++) advances[k] = text[start + k] == '\t' ? (options & TAB_BITS) >> 8 : properties[k].columns;
    OK(hordguli_set_advances(of, start, count, advances, measured));
}

/* Makes the same random change in both sessions, and checks that the damage is the same. */
static void change_both(hordguli_session *plain, hordguli_session *measured) {
    uint32_t piece[12];
    char piece_bytes[sizeof piece];
    size_t pos = below(length + 1), removed = below(2) == 0 ? 0 : below(length - pos < 12 ? length - pos + 1 : 12), added = 0, size;
    hordguli_damage damage = {7, 7, 7, 7, 7, 7}, edited = {7, 7, 7, 7, 7, 7}, then = {7, 7, 7, 7, 7, 7};
    if (below(5) == 0) {
        width = 1 + (uint32_t)below(below(3) == 0 ? 80 : 12);
        OK(hordguli_set_width(plain, width, &damage));
        OK(below(2) == 0 ? hordguli_set_width(measured, width, &edited) : hordguli_set_measured_width(measured, width, &edited));
        HOLDS(memcmp(&damage, &edited, sizeof damage) == 0);
        return;
    }
    if (length - removed + 12 <= MOST) added = random_text(piece, 12);
    size = encoded(piece, added, piece_bytes);
    OK(hordguli_replace(plain, pos, removed, piece_bytes, size, &damage));
    OK(hordguli_replace(measured, pos, removed, piece_bytes, size, &edited));
    memmove(text + pos + added, text + pos + removed, (length - pos - removed) * sizeof *text);
    memcpy(text + pos, piece, added * sizeof *text);
    length += added - removed;
    measure_in_columns(measured, &edited, &then);
    edited.new_lines = then.new_lines;
    HOLDS(memcmp(&damage, &edited, sizeof damage) == 0);
}

/* Both sessions print the same output, except for tabs and padding. */
static void prints_are_equal(hordguli_session *plain, hordguli_session *measured) {
    static char pages[2][PRINTED * 8];
    uint32_t print = (uint32_t)below(128);
    size_t sizes[2] = {0, 0};
    hordguli_counts counts;
    OK(hordguli_session_counts(plain, &counts));
    if (options & TAB_BITS) print &= ~HORDGULI_PRINT_VISUAL;
    OK(hordguli_lines_utf8(plain, 0, counts.lines, print & ~HORDGULI_PRINT_PADDED, sizeof pages[0], pages[0], &sizes[0]));
    OK(hordguli_lines_utf8(measured, 0, counts.lines, print, sizeof pages[1], pages[1], &sizes[1]));
    HOLDS(sizes[0] == sizes[1] && memcmp(pages[0], pages[1], sizes[0]) == 0);
}

static void sessions_are_equal(long count) {
    for (long k = 0; k < count && failed == 0; k++) {
        hordguli_session plain = HORDGULI_SESSION_INIT, measured = HORDGULI_SESSION_INIT;
        hordguli_counts counts = {0, 0, 0, 0};
        hordguli_damage opened = {0, 0, 0, 0, 0, 0};
        size_t changes = below(6), size;
        options = (uint32_t)below(128) | HORDGULI_TAB_WIDTH(below(2) == 0 ? 1 + below(16) : 0);
        width = 1 + (uint32_t)below(below(3) == 0 ? 80 : 12);
        length = random_text(text, below(8) == 0 ? MOST / 2 : 20);
        size = encoded(text, length, bytes);
        OK(hordguli_session_open(&plain, &tables, options, width, bytes, size));
        OK(hordguli_session_open_measured(&measured, &tables, options, width, bytes, size));
        OK(hordguli_session_counts(&plain, &counts));
        opened.new_paragraphs = counts.paragraphs;
        measure_in_columns(&measured, &opened, NULL);
        for (; changes > 0; changes--) change_both(&plain, &measured);
        answers_are_equal(&plain, &measured, length);
        prints_are_equal(&plain, &measured);
        hordguli_session_close(&plain);
        hordguli_session_close(&measured);
        if (failed == 0) continue;
        fprintf(stderr, "session %ld, options %u, width %u:", k, (unsigned)options, (unsigned)width);
        for (size_t pos = 0; pos < length; pos++) fprintf(stderr, " %04X", (unsigned)text[pos]);
        fprintf(stderr, "\n");
    }
}

int main(int count, char **words) {
    if (count != 4) return 2;
    if (!OK(hordguli_tables_open_folder(&tables, words[1], NULL))) return finish("measured");
    rows();
    texts_are_right(atol(words[2]));
    sessions_are_equal(atol(words[3]));
    hordguli_tables_close(&tables);
    return finish("measured");
}
