/* Tests tab stops. Usage: tabs FOLDER TEXTS, where FOLDER has the table files.
 *
 * Opens sessions on TEXTS random texts with tabs and spaces, changes their width and edits them, and compares
 * each line with a reference implementation of the definitions in docs/reference.md. The reference works from
 * break marks, clusters and widths. */
#include "test.h"

enum { MOST = 120, BYTES = MOST * 4, PRINTED = MOST * 300 };

#define OK(call) HOLDS((call) == HORDGULI_OK)

static hordguli_tables tables = HORDGULI_TABLES_INIT;
static uint32_t options, tab_width, width;
static uint32_t text[MOST];
static size_t length;
static char bytes[BYTES];

/* For each character of the text: its break mark, whether it ends a cluster, and its properties */
static uint8_t marks[MOST];
static int ends_cluster[MOST];
static hordguli_character properties[MOST];

/* ---- Random texts ---- */

static size_t random_text(uint32_t *into, size_t most) {
    size_t kinds = 1 + below(6), wanted = below(most), count = 0;
    const char *some[8] = {"\t", " "};
    for (size_t k = 2; k < 2 + kinds; k++) some[k] = text_pieces[below(TEXT_PIECES)];
    while (count < wanted) {
        uint32_t piece[64];
        size_t more = decoded(some[below(2 + kinds)], piece);
        if (count + more > most) break;
        memcpy(into + count, piece, more * sizeof *piece);
        count += more;
    }
    return count;
}

static uint32_t random_width(void) { return 1 + (uint32_t)below(below(3) == 0 ? 80 : 14); }

static uint32_t random_options(void) {
    static const uint32_t widths[] = {1, 2, 3, 4, 5, 8, 16, 254, 255};
    tab_width = below(3) == 0 ? 1 + (uint32_t)below(255) : widths[below(sizeof widths / sizeof *widths)];
    return (uint32_t)below(128) | HORDGULI_TAB_WIDTH(tab_width);
}

/* ---- The definitions ---- */

static int is_separator(uint32_t c) {
    return c == 0xA || c == 0xD || (c >= 0x1C && c <= 0x1E) || c == 0x85 || c == 0x2029;
}

static size_t end_of_paragraph(size_t start) {
    for (size_t k = start; k < length; k++)
        if (is_separator(text[k])) return text[k] == '\r' && k + 1 < length && text[k + 1] == '\n' ? k + 2 : k + 1;
    return length;
}

static int is_tab(size_t k) { return text[k] == '\t'; }

static int may_trail(size_t k) {
    uint32_t c = text[k];
    return c == ' ' || (c >= 0xA && c <= 0xD) || c == 0x85 || c == 0x2028 || c == 0x2029;
}

static size_t columns_to(size_t start, size_t end);

/* Returns the columns of the character at `k`, on a line that starts at `start`. */
static size_t columns_of(size_t start, size_t k) {
    return is_tab(k) ? tab_width - columns_to(start, k) % tab_width : properties[k].columns;
}

static size_t columns_to(size_t start, size_t end) {
    size_t columns = 0;
    for (size_t k = start; k < end; k++) columns = is_tab(k) ? (columns / tab_width + 1) * tab_width : columns + properties[k].columns;
    return columns;
}

static size_t text_end(size_t start, size_t end) {
    while (end > start && may_trail(end - 1)) end--;
    return end;
}

static int fits(size_t start, size_t end) { return columns_to(start, text_end(start, end)) <= width; }

static size_t end_of_line(size_t start, size_t paragraph) {
    size_t by_break = 0, by_cluster = 0, must = start;
    while (must + 1 < paragraph && marks[must] != HORDGULI_BREAK_MUST) must++;
    if (options & HORDGULI_NOBREAK) return must + 1;
    for (size_t k = start; k <= must; k++) {
        if (!fits(start, k + 1)) continue;
        if (marks[k] != HORDGULI_BREAK_NEVER) by_break = k + 1;
        if (ends_cluster[k]) by_cluster = k + 1;
    }
    if (by_break != 0 || by_cluster != 0) return by_break != 0 ? by_break : by_cluster;
    for (size_t k = start; k <= must; k++)
        if (marks[k] != HORDGULI_BREAK_NEVER || ends_cluster[k]) return k + 1;
    return paragraph;
}

static size_t shown_end(size_t start, size_t end) {
    size_t shown = text_end(start, end);
    while ((options & HORDGULI_SHOW_SPACES) && shown < end && text[shown] == ' ' && columns_to(start, shown + 1) <= width) shown++;
    return shown;
}

static void look_up(hordguli_session *session) {
    OK(hordguli_properties(&tables, length, text, properties));
    for (size_t start = 0, end; start < length; start = end) {
        end = end_of_paragraph(start);
        OK(hordguli_marks(&tables, options & HORDGULI_WHOLE_NUMBERS, text + start, end - start, end - start, marks + start));
    }
    for (size_t k = 0; k < length; k++) {
        hordguli_cluster cluster = {0, 0};
        OK(hordguli_cluster_at(session, k, &cluster));
        ends_cluster[k] = cluster.end == k + 1;
    }
}

/* ---- Comparisons ---- */

/* Stores the bytes that a line must print, and returns their number. */
static size_t printed(const hordguli_line_info *info, const uint32_t *visual, const uint32_t *vtol, const size_t *widths, uint32_t print,
                      char *into) {
    size_t size = 0, padding = info->base == 1 && info->columns < width ? width - info->columns : 0;
    if (print & HORDGULI_PRINT_PADDED)
        for (size_t k = 0; k < padding; k++) into[size++] = ' ';
    for (size_t place = 0; place < info->shown; place++) {
        size_t k = info->start + vtol[place];
        if (!is_tab(k)) size += encoded(print & HORDGULI_PRINT_MIRRORED ? &visual[place] : &text[k], 1, into + size);
        else
            for (size_t column = 0; column < widths[place]; column++) into[size++] = ' ';
    }
    into[size++] = '\n';
    return size;
}

static void line_is_right(hordguli_session *session, size_t line, size_t start, size_t end, uint32_t print) {
    static char expected[PRINTED], found[PRINTED];
    hordguli_line_info info;
    uint32_t visual[MOST], vtol[MOST];
    size_t widths[MOST], column = 0, size, written = 0;
    if (!OK(hordguli_line(session, line, &info, MOST, visual, NULL, NULL, vtol, widths))) return;
    if (!HOLDS(info.start == start && info.length == end - start && info.start + info.shown == shown_end(start, end))) return;
    HOLDS(info.columns == columns_to(start, start + info.shown));
    HOLDS(info.padding == (info.base == 1 && info.columns < width ? width - info.columns : 0));
    for (size_t place = 0; place < info.shown; place++) {
        size_t k = start + vtol[place];
        HOLDS(widths[place] == columns_of(start, k));
        /* A tab ends at a tab stop. The text before it determines its columns, even if marks have columns. */
        if (is_tab(k)) HOLDS((info.base == 0 ? column + widths[place] : info.columns - column) % tab_width == 0);
        column += widths[place];
    }
    HOLDS(column == info.columns);
    size = printed(&info, visual, vtol, widths, print, expected);
    OK(hordguli_lines_utf8(session, line, 1, print, PRINTED, found, &written));
    HOLDS(written == size && memcmp(found, expected, size) == 0);
}

static void lines_are_right(hordguli_session *session) {
    size_t line = 0;
    uint32_t print = HORDGULI_PRINT_VISUAL | (below(2) ? HORDGULI_PRINT_PADDED : 0) | (below(2) ? HORDGULI_PRINT_MIRRORED : 0);
    hordguli_counts counts;
    look_up(session);
    for (size_t start = 0, paragraph; start < length; start = paragraph) {
        paragraph = end_of_paragraph(start);
        for (size_t end; start < paragraph; start = end) {
            end = end_of_line(start, paragraph);
            line_is_right(session, line++, start, end, print);
        }
    }
    OK(hordguli_session_counts(session, &counts));
    HOLDS(counts.lines == line);
}

/* Checks that `hordguli_layout` stores the lines that a session prints. */
static void layout_is_right(hordguli_session *session) {
    static char expected[PRINTED], found[PRINTED];
    size_t size = 0, written = 0;
    uint32_t print = 1 + (uint32_t)below(127);
    hordguli_counts counts;
    OK(hordguli_session_counts(session, &counts));
    OK(hordguli_lines_utf8(session, 0, counts.lines, print, PRINTED, expected, &size));
    OK(hordguli_layout(&tables, options, width, print, bytes, encoded(text, length, bytes), PRINTED, found, &written));
    HOLDS(written == size && memcmp(found, expected, size) == 0);
}

static void change(hordguli_session *session) {
    uint32_t piece[10];
    char piece_bytes[sizeof piece];
    size_t pos = below(length + 1), removed = below(length - pos < 5 ? length - pos + 1 : 5), added = 0;
    if (below(2) == 0) {
        width = random_width();
        OK(hordguli_set_width(session, width, NULL));
        return;
    }
    if (length - removed + 10 <= MOST) added = random_text(piece, 10);
    OK(hordguli_replace(session, pos, removed, piece_bytes, encoded(piece, added, piece_bytes), NULL));
    memmove(text + pos + added, text + pos + removed, (length - pos - removed) * sizeof *text);
    memcpy(text + pos, piece, added * sizeof *text);
    length += added - removed;
}

static void texts_are_right(long count) {
    for (long k = 0; k < count && failed < 20; k++) {
        hordguli_session session = HORDGULI_SESSION_INIT;
        long failed_before = failed;
        options = random_options();
        width = random_width();
        length = random_text(text, below(8) == 0 ? MOST : 30);
        if (!OK(hordguli_session_open(&session, &tables, options, width, bytes, encoded(text, length, bytes)))) return;
        lines_are_right(&session);
        layout_is_right(&session);
        for (size_t changes = below(4); changes > 0; changes--) {
            change(&session);
            lines_are_right(&session);
        }
        hordguli_session_close(&session);
        if (failed == failed_before) continue;
        fprintf(stderr, "options %u, width %u:", (unsigned)options, (unsigned)width);
        for (size_t pos = 0; pos < length; pos++) fprintf(stderr, " %04X", (unsigned)text[pos]);
        fprintf(stderr, "\n");
    }
}

/* ---- Options ---- */

/* Bits 8 to 15 of options are the tab width. Only sessions and layouts accept them. */
static void options_are_right(void) {
    hordguli_session session = HORDGULI_SESSION_INIT;
    static const uint32_t unknown[] = {128, 128 | HORDGULI_TAB_WIDTH(4), HORDGULI_TAB_WIDTH(256), HORDGULI_TAB_WIDTH(65535),
                                       HORDGULI_TAB_WIDTH(65536), HORDGULI_TAB_WIDTH(65540), HORDGULI_TAB_WIDTH(196616), HORDGULI_TAB_WIDTH(-1),
                                       HORDGULI_TAB_WIDTH(255) + 65536};
    static const uint32_t a = 'a';
    uint32_t base, vtol[1];
    uint8_t levels[1], a_mark[1];
    char buffer[16];
    size_t written;
    for (size_t k = 0; k < sizeof unknown / sizeof *unknown; k++) {
        HOLDS(hordguli_session_open(&session, &tables, unknown[k], 80, "a", 1) == HORDGULI_UNKNOWN_OPTION);
        HOLDS(hordguli_layout(&tables, unknown[k], 80, 1, "a", 1, sizeof buffer, buffer, &written) == HORDGULI_UNKNOWN_OPTION);
    }
    for (uint32_t n = 1; n < 256; n++) {
        HOLDS(hordguli_base(&tables, HORDGULI_TAB_WIDTH(n), &a, 1, &base) == HORDGULI_UNKNOWN_OPTION);
        HOLDS(hordguli_levels(&tables, HORDGULI_TAB_WIDTH(n), &a, 1, 1, levels) == HORDGULI_UNKNOWN_OPTION);
        HOLDS(hordguli_marks(&tables, HORDGULI_TAB_WIDTH(n), &a, 1, 1, a_mark) == HORDGULI_UNKNOWN_OPTION);
        levels[0] = 0;
        HOLDS(hordguli_row(&tables, HORDGULI_TAB_WIDTH(n), 0, 1, &a, levels, 1, NULL, NULL, NULL, vtol) == HORDGULI_UNKNOWN_OPTION);
    }
    OK(hordguli_layout(&tables, HORDGULI_TAB_WIDTH(8), 80, HORDGULI_PRINT_DEFAULT, "a\tb", 3, sizeof buffer, buffer, &written));
    HOLDS(written == 10 && memcmp(buffer, "a       b\n", 10) == 0);
}

int main(int count, char **words) {
    if (count != 3) return 2;
    if (!OK(hordguli_tables_open_folder(&tables, words[1], NULL))) return finish("tabs");
    options_are_right();
    texts_are_right(atol(words[2]));
    hordguli_tables_close(&tables);
    return finish("tabs");
}
