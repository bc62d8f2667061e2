/* Tests carets, steps, hits, selections, words and offsets. Usage: edges FOLDER TEXTS SESSIONS, where FOLDER
 * has the table files.
 *
 * - Lays out TEXTS random texts, and compares each call with a reference implementation of its definition in
 *   the header. The reference works from the levels, order and widths that `hordguli_line` stores, and from
 *   grapheme clusters. With HORDGULI_SHOW_SPACES, each expected shown part is the one without this option,
 *   and as many of the spaces after it as fit.
 * - Opens SESSIONS sessions and edits them. Each call must then return the same results as in a new session
 *   on the same text. */
#include "answers.h"
#include "carets.h"

#define OK(call) HOLDS((call) == HORDGULI_OK)

static hordguli_tables tables = HORDGULI_TABLES_INIT;

/* ---- Random texts ---- */

/* Letters, digits and spaces of both directions, separators, brackets, isolates, embeddings, marks, wide characters, and
 * clusters of several characters, some of them at two levels. */
static const char *const pieces[] = {
    "a", "bc ", "Word", " ", "  ", "1", "2,3", "(", ")", "-", ".", "'", "_", "\n", "\r\n", "\r", "\t", "\v", "\f",
    "\x1c", "\xC2\x85", "\u2028", "\u2029", "\u05d0", "\u05d1\u05b8", "\u05e9\u05dc\u05d5\u05dd ",
    "\u0627\u0644\u0641 ", "\u0628", "\u0661", "\u0300", "\u05b8", "\u0600", "\u06dd", "\u070f", "\u0903", "\u0e33",
    "\u0915\u094d\u0937", "\u200d", "\u200c", "\u200b", "\u200f", "\u200e", "\u00ad", "\u00a0", "\ufe0f",
    "\U0001f468\u200d\U0001f469\u200d\U0001f467", "\U0001f44d\U0001f3fd", "\U0001f1e9\U0001f1ea", "\U0001f1e9",
    "\u2066", "\u2067", "\u2068", "\u2069", "\u202a", "\u202b", "\u202d", "\u202e", "\u202c", "\u6f22\u5b57",
    "\u30ab\u30bf", "\uac00", "\u1112\u1161\u11ab", "\u3002", "e\u0301", "\u20dd", "\u302a", "\U000110bd",
};
enum { PIECES = sizeof pieces / sizeof *pieces };

static char bytes[BYTES];

/* Fills an array with a random text of at most `most` characters, and returns its length. Most texts use few pieces, so
 * that these combine in many ways. */
static size_t random_text(uint32_t *into, size_t most) {
    size_t kinds = 1 + below(below(3) == 0 ? 30 : 6), wanted = below(most), count = 0;
    const char *some[30];
    for (size_t k = 0; k < kinds; k++) some[k] = pieces[below(PIECES)];
    while (count < wanted) {
        uint32_t piece[16];
        size_t more = decoded(some[below(kinds)], piece);
        if (count + more > most) break;
        memcpy(into + count, piece, more * sizeof *piece);
        count += more;
    }
    return count;
}

/* Half of the layouts have tab stops. */
static uint32_t random_options(void) { return (uint32_t)below(128) | HORDGULI_TAB_WIDTH(below(2) == 0 ? 1 + below(16) : 0); }

static uint32_t random_width(void) { return 1 + (uint32_t)below(below(3) == 0 ? 80 : 12); }

/* ---- The layout in the reference implementation ---- */

static void read_layout(hordguli_session *session) {
    hordguli_counts counts;
    OK(hordguli_session_counts(session, &counts));
    line_count = counts.lines;
    for (size_t line = 0; line < line_count; line++) {
        hordguli_line_info *info = &lines[line];
        uint8_t levels[MOST];
        uint32_t vtol[MOST];
        size_t widths[MOST], column = 0;
        OK(hordguli_line(session, line, info, MOST, NULL, levels, NULL, vtol, widths));
        for (size_t k = 0; k < info->length; k++) {
            character *c = &characters[info->start + k];
            c->line = line;
            c->is_shown = k < info->shown;
            c->level = c->is_shown ? levels[k] : info->base;
            c->run = k == 0 ? 0 : c[-1].run + (c->level != c[-1].level);
        }
        for (size_t k = 0; k < info->shown; k++) {
            character *c = &characters[info->start + vtol[k]];
            c->left = column;
            c->right = column += widths[k];
        }
        HOLDS(column == info->columns);
    }
    for (size_t pos = 0; pos < length;) {
        hordguli_cluster cluster = {0, 0};
        if (!OK(hordguli_cluster_at(session, pos, &cluster)) || !HOLDS(cluster.start == pos && cluster.end > pos)) exit(1);
        for (; pos < cluster.end; pos++) characters[pos].cluster = cluster.start, characters[pos].end = cluster.end;
    }
}

/* With HORDGULI_REORDER_CLUSTERS, the order is that of a session without ordering options, except that each maximal
 * sequence of characters of one cluster at one odd level is reversed once more. Lines, levels and columns stay the
 * same. */
static void clusters_are_ordered(hordguli_session *session, uint32_t width) {
    hordguli_session by_l2 = HORDGULI_SESSION_INIT;
    if ((options & HORDGULI_REORDER_CLUSTERS) == 0) return;
    if (!OK(hordguli_session_open(&by_l2, &tables, options & ~(HORDGULI_REORDER_CLUSTERS | HORDGULI_REORDER_NSM), width, bytes,
                                  encoded(text, length, bytes))))
        return;
    for (size_t line = 0; line < line_count; line++) {
        hordguli_line_info infos[2];
        uint8_t levels[2][MOST];
        uint32_t vtol[2][MOST], ltov[MOST];
        OK(hordguli_line(session, line, &infos[0], MOST, NULL, levels[0], ltov, vtol[0], NULL));
        OK(hordguli_line(&by_l2, line, &infos[1], MOST, NULL, levels[1], NULL, vtol[1], NULL));
        if (!HOLDS(memcmp(&infos[0], &infos[1], sizeof infos[0]) == 0)) break;
        HOLDS(memcmp(levels[0], levels[1], infos[0].shown) == 0);
        for (size_t from = 0, to; from < infos[1].shown; from = to) {
            const character *c = characters + infos[1].start;
            to = from + 1; /* a sequence, by L2 from its last character to its first one */
            while (to < infos[1].shown && vtol[1][to] + 1 == vtol[1][to - 1] && levels[1][vtol[1][to]] % 2 == 1
                   && levels[1][vtol[1][to]] == levels[1][vtol[1][from]]
                   && c[vtol[1][to]].cluster == c[vtol[1][from]].cluster)
                to++;
            for (size_t k = from; k < to; k++) {
                HOLDS(vtol[0][k] == vtol[1][from + to - 1 - k]);
                HOLDS(ltov[vtol[0][k]] == k);
            }
        }
    }
    hordguli_session_close(&by_l2);
}

/* Each column of a line is in exactly one unit. */
static void units_tile_lines(void) {
    for (size_t line = 0; line < line_count; line++) {
        size_t columns = 0;
        for (const unit *u = units; u < units + unit_count; u++) columns += u->line == line ? u->right - u->left : 0;
        HOLDS(columns == lines[line].columns);
        for (size_t column = 0; column < columns; column++) HOLDS(covering(line, column) != NULL);
    }
}

/* ---- Shown spaces ---- */

/* Compares the lines with those of a session without HORDGULI_SHOW_SPACES. They must start at the same
 * positions. With the option, each shown part has, in addition, as many of the spaces that follow it as fit.
 * Testing for U+0020 is enough, since no other character has the class SP in Unicode's tables. */
static void shown_spaces_are_right(uint32_t width) {
    hordguli_session session = HORDGULI_SESSION_INIT;
    hordguli_counts counts;
    size_t size = encoded(text, length, bytes);
    if (!OK(hordguli_session_open(&session, &tables, options - HORDGULI_SHOW_SPACES, width, bytes, size))) return;
    OK(hordguli_session_counts(&session, &counts));
    HOLDS(counts.lines == line_count);
    for (size_t line = 0; line < counts.lines && line < line_count; line++) {
        hordguli_line_info without, with = lines[line];
        uint8_t levels[MOST];
        size_t spaces = 0, tail;
        OK(hordguli_line(&session, line, &without, MOST, NULL, levels, NULL, NULL, NULL));
        HOLDS(with.start == without.start && with.length == without.length && with.base == without.base);
        tail = without.start + without.shown;
        while (tail + spaces < without.start + without.length && text[tail + spaces] == ' '
               && without.columns + spaces + 1 <= width)
            spaces++;
        HOLDS(with.shown == without.shown + spaces);
        HOLDS(with.columns == without.columns + spaces);
        HOLDS(with.padding == (with.base == 1 && with.columns < width ? width - with.columns : 0));
        for (size_t k = 0; k < with.shown; k++)
            HOLDS(characters[with.start + k].level == (k < without.shown ? levels[k] : with.base));
    }
    hordguli_session_close(&session);
}

/* ---- Each call, compared with its definition ---- */

static size_t reference_clusters(size_t line, size_t ends[MOST]) {
    size_t count = 0, start = lines[line].start, line_length = lines[line].length;
    for (size_t k = 1; k <= line_length; k++)
        if (k == line_length || characters[start + k].cluster == start + k) ends[count++] = k;
    return count;
}

/* Checks that an edge is not the edge after a character that ends a line: no call returns such an edge. */
static void is_inside_line(hordguli_edge edge) {
    HOLDS(edge.side == HORDGULI_BEFORE || (edge.pos > 0 && !ends_line(text[edge.pos - 1])));
}

static hordguli_caret caret_of(hordguli_session *session, hordguli_edge edge) {
    hordguli_caret caret = {0, 0, 0, 0};
    OK(hordguli_edge_caret(session, edge, &caret));
    return caret;
}

/* Whether a unit of the line begins or ends at a column or, if the line has no columns, the column is 0 */
static int is_boundary(size_t line, size_t column) {
    if (line == line_count || lines[line].columns == 0) return column == 0;
    for (const unit *u = units; u < units + unit_count; u++)
        if (u->line == line && (u->left == column || u->right == column)) return 1;
    return 0;
}

static void step_is_right(hordguli_session *session, hordguli_edge edge, hordguli_caret from, uint32_t direction) {
    hordguli_edge next = {7, 7, 7}, back = {7, 7, 7}, wanted = {7, 7, 7};
    uint32_t moved = 7, moved_back = 7;
    hordguli_caret to;
    OK(hordguli_step(session, edge, direction, &next, &moved));
    if (!HOLDS(moved == (uint32_t)reference_step(from.line, from.column, direction, &wanted))) return;
    if (moved == 0) {
        HOLDS(next.pos == 7 && next.side == 7 && next.zero == 7);
        return;
    }
    HOLDS(is_edge(next, wanted));
    is_inside_line(next);
    to = caret_of(session, next);
    HOLDS(to.line == from.line && is_boundary(to.line, to.column));
    HOLDS(direction == HORDGULI_RIGHT ? to.column > from.column : to.column < from.column);
    if (!is_boundary(from.line, from.column)) return;
    OK(hordguli_step(session, next, 1 - direction, &back, &moved_back));
    HOLDS(moved_back == 1 && caret_of(session, back).column == from.column);
}

static void carets_and_steps_are_right(hordguli_session *session) {
    for (size_t k = 0; k < 2 * (length + 2); k++) {
        hordguli_edge edge = {k / 2, k % 2, (uint32_t)below(3)}, next;
        hordguli_caret caret = {7, 7, 7, 7}, wanted;
        uint32_t moved;
        if (!reference_caret(edge, &wanted)) {
            HOLDS(hordguli_edge_caret(session, edge, &caret) == HORDGULI_OUT_OF_RANGE);
            HOLDS(hordguli_step(session, edge, HORDGULI_LEFT, &next, &moved) == HORDGULI_OUT_OF_RANGE);
            continue;
        }
        OK(hordguli_edge_caret(session, edge, &caret));
        HOLDS(memcmp(&caret, &wanted, sizeof caret) == 0);
        if (edge.side == HORDGULI_BEFORE) {
            /* the edge of the character itself, which is inside the unit if the unit is in logical order at
             * an odd level */
            const character *c = &characters[edge.pos];
            hordguli_caret own = wanted;
            if (edge.pos < length && c->is_shown && (options & HORDGULI_REORDER_CLUSTERS) != 0)
                own.column = c->level % 2 == 0 ? c->left : c->right;
            OK(hordguli_caret_at(session, edge.pos, &caret));
            HOLDS(memcmp(&caret, &own, sizeof caret) == 0);
        }
        step_is_right(session, edge, wanted, HORDGULI_LEFT);
        step_is_right(session, edge, wanted, HORDGULI_RIGHT);
    }
}

/* Repeated steps from one end of a line to the other reach each boundary once. */
static void steps_meet_each_boundary(hordguli_session *session, size_t line, uint32_t direction) {
    size_t columns = line < line_count ? lines[line].columns : 0, met = 0, boundaries = 0;
    hordguli_edge edge;
    hordguli_caret last = {0, 0, 0, 0};
    uint32_t moved = 1;
    for (size_t column = 0; column <= columns; column++) boundaries += (size_t)is_boundary(line, column);
    OK(hordguli_edge_at(session, line, direction == HORDGULI_RIGHT ? 0 : SIZE_MAX, &edge));
    for (; moved == 1 && met <= boundaries; met++) {
        hordguli_caret caret = caret_of(session, edge);
        HOLDS(caret.line == line && is_boundary(line, caret.column));
        HOLDS(met > 0 || caret.column == (direction == HORDGULI_RIGHT ? 0 : columns));
        HOLDS(met == 0 || (direction == HORDGULI_RIGHT ? caret.column > last.column : caret.column < last.column));
        last = caret;
        OK(hordguli_step(session, edge, direction, &edge, &moved));
    }
    HOLDS(met == boundaries && last.column == (direction == HORDGULI_RIGHT ? columns : 0));
}

static void lines_are_right(hordguli_session *session) {
    for (size_t line = 0; line <= line_count + 1; line++) {
        hordguli_edge found[2], wanted[2];
        size_t columns = line < line_count ? lines[line].columns : 0, ends[2][MOST], count = 77;
        for (size_t k = 0; k <= columns + 2; k++) {
            size_t column = k == columns + 2 ? SIZE_MAX : k;
            int is_there = reference_edge_at(line, column, &wanted[0]);
            hordguli_status status = hordguli_edge_at(session, line, column, &found[0]);
            if (!HOLDS(status == (is_there ? HORDGULI_OK : HORDGULI_OUT_OF_RANGE)) || !is_there) continue;
            HOLDS(is_edge(found[0], wanted[0]));
            is_inside_line(found[0]);
            HOLDS(reference_nearest_edge(line, column, &wanted[1]));
            OK(hordguli_nearest_edge(session, line, column, &found[1]));
            HOLDS(is_edge(found[1], wanted[1]));
            if (line < line_count) {
                hordguli_hit hit = {7, 7, 7}, wanted_hit = reference_hit(line, column);
                OK(hordguli_hit_at(session, line, column, &hit));
                HOLDS(memcmp(&hit, &wanted_hit, sizeof hit) == 0);
            }
        }
        if (!reference_line_edges(line, &wanted[0], &wanted[1])) {
            HOLDS(hordguli_line_edges(session, line, &found[0], &found[1]) == HORDGULI_OUT_OF_RANGE);
        } else if (OK(hordguli_line_edges(session, line, &found[0], &found[1]))) {
            HOLDS(is_edge(found[0], wanted[0]) && is_edge(found[1], wanted[1]));
            is_inside_line(found[1]);
            steps_meet_each_boundary(session, line, HORDGULI_RIGHT);
            steps_meet_each_boundary(session, line, HORDGULI_LEFT);
        }
        if (line >= line_count) {
            HOLDS(hordguli_line_clusters(session, line, MOST, ends[0], &count) == HORDGULI_OUT_OF_RANGE && count == 77);
            continue;
        }
        OK(hordguli_line_clusters(session, line, MOST, ends[0], &count));
        HOLDS(count == reference_clusters(line, ends[1]) && memcmp(ends[0], ends[1], count * sizeof **ends) == 0);
        for (int times = 0; times < 3; times++) {
            hordguli_span spans[2][MOST];
            size_t from = times == 0 ? 0 : below(length + 1), to = times == 0 ? SIZE_MAX : below(length + 2);
            OK(hordguli_spans(session, line, from, to, MOST, spans[0], &count));
            HOLDS(count == reference_spans(line, from, to, spans[1])
                  && memcmp(spans[0], spans[1], count * sizeof **spans) == 0);
        }
    }
}

/* ---- Words ---- */

/* Returns the class of a character for UAX #29: a Letter, a Digit, Katakana, a Space, an Ideograph or other character
 * that joins nothing, an Extending or format character, a Newline, a carriage Return or a line Feed; or '?' for
 * others. */
static char word_class(uint32_t c) {
    if (c == '\r') return 'R';
    if (c == '\n') return 'F';
    if (c == 0xB || c == 0xC || c == 0x85 || c == 0x2028 || c == 0x2029) return 'N';
    if (c == ' ') return 'S';
    if ((c >= '0' && c <= '9') || c == 0x661) return 'D';
    if ((c >= 'A' && c <= 'Z') || (c >= 'a' && c <= 'z')) return 'L';
    if ((c >= 0x5D0 && c <= 0x5EA) || (c >= 0x627 && c <= 0x644)) return 'L';
    if (c == 0x6F22 || c == 0x5B57 || c == '(' || c == ')' || c == '-' || c == 0x3002) return 'I';
    if (c == 0x30AB || c == 0x30BF) return 'K';
    if (c == 0x300 || c == 0x301 || c == 0x5B8 || c == 0x903 || c == 0x94D || c == 0x200C || c == 0x200D || c == 0xFE0F
        || c == 0x20DD || c == 0x302A || c == 0x1F3FD || c == 0x200E || c == 0x200F || c == 0xAD
        || (c >= 0x202A && c <= 0x202E) || (c >= 0x2066 && c <= 0x2069))
        return 'E';
    return '?';
}

/* Returns 1 if there is a word boundary between two characters, 0 if not, and -1 if that depends on other
 * characters. */
static int word_boundary(uint32_t a, uint32_t b) {
    char left = word_class(a), right = word_class(b);
    if (left == 'R' && right == 'F') return 0;                                 /* WB3 */
    if (strchr("RFN", left) != NULL || strchr("RFN", right) != NULL) return 1; /* WB3a, WB3b */
    if (right == 'E') return 0;                                                /* WB4 */
    if (left == '?' || right == '?' || left == 'E') return -1;
    if (left == right && left != 'I') return 0;                                /* WB3d, WB5, WB8, WB13 */
    return strchr("LD", left) == NULL || strchr("LD", right) == NULL;          /* WB9, WB10, WB999 */
}

static int starts_paragraph(size_t pos) {
    return pos == 0 || (is_separator(text[pos - 1]) && !(text[pos - 1] == '\r' && pos < length && text[pos] == '\n'));
}

static void words_are_right(hordguli_session *session) {
    hordguli_word word = {0, 0, 0, 0}, same;
    for (size_t pos = 0; pos < length; pos = word.end) {
        int has_letter = 0, may_have = 0;
        if (!OK(hordguli_word_at(session, pos, &word)) || !HOLDS(word.start == pos && word.end > pos && word.end <= length))
            return;
        HOLDS(word.kind <= 1 && word.zero == 0);
        for (size_t k = pos; k < word.end; k++) {
            OK(hordguli_word_at(session, k, &same));
            HOLDS(memcmp(&word, &same, sizeof word) == 0);
            HOLDS(k == pos || !starts_paragraph(k));
            if (k > 0 && !starts_paragraph(k)) {
                int boundary = word_boundary(text[k - 1], text[k]);
                HOLDS(boundary == -1 || boundary == (k == pos));
            }
            has_letter |= strchr("LDK", word_class(text[k])) != NULL || text[k] == 0x6F22 || text[k] == 0x5B57;
            may_have |= word_class(text[k]) == '?' || word_class(text[k]) == 'E'; /* such as a vowel sign */
        }
        HOLDS(may_have || word.kind == (uint32_t)has_letter);
        HOLDS(!has_letter || word.kind == 1);
    }
    HOLDS(hordguli_word_at(session, length, &word) == HORDGULI_OUT_OF_RANGE);
}

/* ---- Offsets ---- */

static void offsets_are_right(hordguli_session *session) {
    size_t byte = 0, code_unit = 0, found = 0;
    hordguli_position position;
    for (size_t pos = 0; pos <= length; pos++) {
        uint32_t c = pos < length ? text[pos] : 0;
        size_t byte_length = c < 0x80 ? 1 : c < 0x800 ? 2 : c < 0x10000 ? 3 : 4, code_units = c < 0x10000 ? 1 : 2;
        OK(hordguli_byte_of(session, pos, &found));
        HOLDS(found == byte);
        OK(hordguli_utf16_of(session, pos, &found));
        HOLDS(found == code_unit);
        for (size_t rest = 0; rest < byte_length; rest++) {
            OK(hordguli_position_of_byte(session, byte + rest, &position));
            HOLDS(position.pos == pos && position.rest == rest);
        }
        for (size_t rest = 0; rest < code_units; rest++) {
            OK(hordguli_position_of_utf16(session, code_unit + rest, &position));
            HOLDS(position.pos == pos && position.rest == rest);
        }
        byte += byte_length;
        code_unit += code_units;
    }
    HOLDS(hordguli_byte_of(session, length + 1, &found) == HORDGULI_OUT_OF_RANGE);
    HOLDS(hordguli_utf16_of(session, length + 1, &found) == HORDGULI_OUT_OF_RANGE);
    HOLDS(hordguli_position_of_byte(session, byte, &position) == HORDGULI_OUT_OF_RANGE);
    HOLDS(hordguli_position_of_utf16(session, code_unit, &position) == HORDGULI_OUT_OF_RANGE);
}

static void texts_are_right(long count) {
    for (long k = 0; k < count && failed < 20; k++) {
        hordguli_session session = HORDGULI_SESSION_INIT;
        long failed_before = failed;
        uint32_t width = random_width();
        options = random_options();
        length = random_text(text, below(8) == 0 ? MOST : 25);
        if (!OK(hordguli_session_open(&session, &tables, options, width, bytes, encoded(text, length, bytes)))) return;
        read_layout(&session);
        clusters_are_ordered(&session, width);
        find_units();
        units_tile_lines();
        if (options & HORDGULI_SHOW_SPACES) shown_spaces_are_right(width);
        carets_and_steps_are_right(&session);
        lines_are_right(&session);
        words_are_right(&session);
        offsets_are_right(&session);
        hordguli_session_close(&session);
        if (failed == failed_before) continue;
        fprintf(stderr, "options %u, width %u:", (unsigned)options, (unsigned)width);
        for (size_t pos = 0; pos < length; pos++) fprintf(stderr, " %04X", (unsigned)text[pos]);
        fprintf(stderr, "\n");
    }
}

/* ---- Sessions, compared with new ones ---- */

/* Makes a random edit, in the session and in `text`. Half of the edits pass NULL for `damage`. */
static void edit(hordguli_session *session, uint32_t *width) {
    hordguli_damage damage = {0}, *out = below(2) == 0 ? NULL : &damage;
    uint32_t piece[10];
    size_t pos = below(length + 1), removed = 0, added = 0, size;
    char piece_bytes[sizeof piece];
    if (below(6) == 0) {
        *width = random_width();
        OK(hordguli_set_width(session, *width, out));
        return;
    }
    if (below(2) == 0) removed = below(length - pos < 12 ? length - pos + 1 : 12);
    if ((removed == 0 || below(2) == 0) && length - removed + 10 <= MOST) added = random_text(piece, 10);
    size = encoded(piece, added, piece_bytes);
    if (added == 0) OK(hordguli_delete(session, pos, removed, out));
    else if (removed == 0) OK(hordguli_insert(session, pos, piece_bytes, size, out));
    else OK(hordguli_replace(session, pos, removed, piece_bytes, size, out));
    memmove(text + pos + added, text + pos + removed, (length - pos - removed) * sizeof *text);
    memcpy(text + pos, piece, added * sizeof *text);
    length += added - removed;
}

static void sessions_equal_new_ones(long count) {
    for (long k = 0; k < count && failed < 20; k++) {
        hordguli_session kept = HORDGULI_SESSION_INIT, anew = HORDGULI_SESSION_INIT;
        long failed_before = failed;
        uint32_t width = random_width();
        size_t edits = 1 + below(8), size;
        options = random_options();
        length = random_text(text, below(8) == 0 ? MOST / 2 : 20);
        if (!OK(hordguli_session_open(&kept, &tables, options, width, bytes, encoded(text, length, bytes)))) return;
        for (size_t times = 0; times < edits; times++) edit(&kept, &width);
        size = encoded(text, length, bytes);
        if (!OK(hordguli_session_open(&anew, &tables, options, width, bytes, size))) return;
        answers_are_equal(&kept, &anew, length);
        hordguli_session_close(&anew);
        hordguli_session_close(&kept);
        if (failed == failed_before) continue;
        fprintf(stderr, "options %u, width %u, after %zu edits:", (unsigned)options, (unsigned)width, edits);
        for (size_t pos = 0; pos < length; pos++) fprintf(stderr, " %04X", (unsigned)text[pos]);
        fprintf(stderr, "\n");
    }
}

int main(int count, char **words) {
    if (count != 4) return 2;
    if (!OK(hordguli_tables_open_folder(&tables, words[1], NULL))) return finish("edges");
    texts_are_right(atol(words[2]));
    sessions_equal_new_ones(atol(words[3]));
    hordguli_tables_close(&tables);
    return finish("edges");
}
