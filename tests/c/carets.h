/* A reference implementation of carets, edges, steps, hits and selections, as hordguli.h defines them. Before
 * using it, a test fills `text`, `options`, `lines` and `characters`, and calls `find_units`. */
#ifndef HORDGULI_CARETS_H
#define HORDGULI_CARETS_H

#include "test.h"

/* The maximum numbers of characters and of bytes in a text, and the index that stands for no unit */
enum { MOST = 120, BYTES = MOST * 4, NONE = MOST + 1 };

/* Where the layout puts a character, and its cluster and caret unit. `characters` is indexed by position. */
typedef struct character {
    size_t line;
    int is_shown;
    uint32_t level;
    size_t run;          /* of its line */
    size_t left, right;  /* columns, if it is shown */
    size_t cluster, end; /* the positions where its cluster starts and ends */
    size_t unit;         /* the index of the unit that has it, or NONE */
} character;

/* A caret unit: what one step of the caret passes */
typedef struct unit {
    size_t line, start, end; /* positions */
    size_t left, right;      /* columns */
    uint32_t level;
} unit;

static uint32_t options;
static uint32_t text[MOST];
static size_t length;
static character characters[MOST];
static hordguli_line_info lines[MOST];
static size_t line_count;
static unit units[MOST];
static size_t unit_count;

static inline int is_separator(uint32_t c) {
    return c == 0xA || c == 0xD || (c >= 0x1C && c <= 0x1E) || c == 0x85 || c == 0x2029;
}

/* Whether a character has bidi class B, or line breaking class BK, CR, LF or NL */
static inline int ends_line(uint32_t c) { return is_separator(c) || c == 0xB || c == 0xC || c == 0x2028; }

static inline int starts_next_line(void) { return length == 0 || is_separator(text[length - 1]); }

/* ---- Units ---- */

static inline int takes_columns(size_t pos) { return characters[pos].is_shown && characters[pos].right > characters[pos].left; }

/* Whether two characters are in the same cluster, on the same line */
static inline int are_together(size_t a, size_t b) {
    return characters[a].cluster == characters[b].cluster && characters[a].line == characters[b].line;
}

/* Whether a unit begins at a character: the character has columns, and no earlier character of its cluster
 * that has columns is in the same level run. */
static inline int begins_unit(size_t pos) {
    if (!takes_columns(pos)) return 0;
    for (size_t k = 0; k < pos; k++)
        if (takes_columns(k) && are_together(k, pos) && characters[k].run == characters[pos].run) return 0;
    return 1;
}

/* Returns the end of the unit that starts at `start`: where the next unit of its cluster begins, or else
 * where the shown part of the cluster ends. */
static inline size_t end_of_unit(size_t start) {
    size_t pos = start + 1;
    while (pos < length && are_together(start, pos) && characters[pos].is_shown && !begins_unit(pos)) pos++;
    return pos;
}

static inline void find_units(void) {
    unit_count = 0;
    for (size_t pos = 0; pos < length; pos++) characters[pos].unit = NONE;
    for (size_t pos = 0; pos < length; pos++) {
        unit *u = &units[unit_count];
        size_t columns = 0;
        if (!begins_unit(pos)) continue;
        *u = (unit){characters[pos].line, pos, end_of_unit(pos), SIZE_MAX, 0, characters[pos].level};
        for (size_t k = u->start; k < u->end; k++) {
            character *c = &characters[k];
            c->unit = unit_count;
            if (!takes_columns(k)) continue;
            if (c->left < u->left) u->left = c->left;
            if (c->right > u->right) u->right = c->right;
            columns += c->right - c->left;
            HOLDS(c->level == u->level);
        }
        HOLDS(u->right - u->left == columns);
        unit_count++;
    }
}

/* Returns the unit of a line that covers a column, or NULL. */
static inline const unit *covering(size_t line, size_t column) {
    for (const unit *u = units; u < units + unit_count; u++)
        if (u->line == line && u->left <= column && column < u->right) return u;
    return NULL;
}

/* ---- Carets and edges ---- */

static inline hordguli_edge before(size_t pos) { return (hordguli_edge){pos, HORDGULI_BEFORE, 0}; }
static inline hordguli_edge after(size_t pos) { return (hordguli_edge){pos, HORDGULI_AFTER, 0}; }

static inline int is_edge(hordguli_edge found, hordguli_edge wanted) {
    return found.pos == wanted.pos && found.side == wanted.side && found.zero == 0;
}

/* The edges at the left and the right end of a unit. At an even level, the unit starts at its left end. */
static inline hordguli_edge left_edge(const unit *u) { return u->level % 2 == 0 ? before(u->start) : after(u->end); }
static inline hordguli_edge right_edge(const unit *u) { return u->level % 2 == 0 ? after(u->end) : before(u->start); }

/* The caret at the end of a line, in its paragraph's direction */
static inline hordguli_caret end_caret(size_t line) {
    const hordguli_line_info *info = &lines[line];
    return (hordguli_caret){line, info->base == 0 ? info->columns : 0, info->base, 0};
}

/* The caret before (`is_after` 0) or after the character at `pos` */
static inline hordguli_caret caret_beside(size_t pos, int is_after) {
    const character *c = &characters[pos];
    const unit *u = c->unit == NONE ? NULL : &units[c->unit];
    size_t left = c->left, right = c->right;
    if (!c->is_shown) return end_caret(c->line);
    if (u != NULL && (is_after ? pos + 1 == u->end : pos == u->start)) {
        left = u->left, right = u->right;
        return (hordguli_caret){c->line, is_after == (u->level % 2 == 0) ? right : left, c->level, 0};
    }
    return (hordguli_caret){c->line, is_after == (c->level % 2 == 0) ? right : left, c->level, 0};
}

/* Stores the caret for an edge. Returns 0 if there is no such edge. */
static inline int reference_caret(hordguli_edge edge, hordguli_caret *caret) {
    if (edge.pos > length || (edge.side == HORDGULI_AFTER && edge.pos == 0)) return 0;
    if (edge.side == HORDGULI_AFTER) *caret = caret_beside(edge.pos - 1, 1);
    else if (edge.pos < length) *caret = caret_beside(edge.pos, 0);
    else if (starts_next_line()) *caret = (hordguli_caret){line_count, 0, options & 1, 0};
    else *caret = end_caret(line_count - 1);
    return 1;
}

/* Finds the nearest unit end to the left or right of a column. Stores the edge of the unit that the step crosses, not
 * that of the unit beyond. Returns 0 if there is no such end. */
static inline int reference_step(size_t line, size_t column, uint32_t direction, hordguli_edge *next) {
    const unit *nearest = NULL;
    for (const unit *u = units; u < units + unit_count; u++) {
        if (u->line != line) continue;
        if (direction == HORDGULI_RIGHT && u->right > column && (nearest == NULL || u->right < nearest->right)) nearest = u;
        if (direction == HORDGULI_LEFT && u->left < column && (nearest == NULL || u->left > nearest->left)) nearest = u;
    }
    if (nearest != NULL) *next = direction == HORDGULI_RIGHT ? right_edge(nearest) : left_edge(nearest);
    return nearest != NULL;
}

/* Stores the edge at a column of a line. Returns 0 if there is no such line. */
static inline int reference_edge_at(size_t line, size_t column, hordguli_edge *edge) {
    const unit *u;
    if (line == line_count && starts_next_line()) return *edge = before(length), 1;
    if (line >= line_count) return 0;
    if ((u = covering(line, column)) != NULL) return *edge = left_edge(u), 1;
    if (lines[line].columns > 0) return *edge = right_edge(covering(line, lines[line].columns - 1)), 1;
    return *edge = before(lines[line].start), 1;
}

/* Stores the nearer end of the unit that covers a column. If there is none, does the same as
 * `reference_edge_at`. */
static inline int reference_nearest_edge(size_t line, size_t column, hordguli_edge *edge) {
    const unit *u = line < line_count ? covering(line, column) : NULL;
    if (u == NULL) return reference_edge_at(line, column, edge);
    *edge = 2 * column < u->left + u->right ? left_edge(u) : right_edge(u);
    return 1;
}

static inline int reference_line_edges(size_t line, hordguli_edge *first, hordguli_edge *last) {
    size_t start, end, shown;
    if (line == line_count && starts_next_line()) return *first = *last = before(length), 1;
    if (line >= line_count) return 0;
    start = lines[line].start, end = start + lines[line].length, shown = start + lines[line].shown;
    *first = before(start);
    if (end - start >= 2 && text[end - 2] == '\r' && text[end - 1] == '\n') *last = before(end - 2);
    else if (ends_line(text[end - 1])) *last = before(end - 1);
    else if (line == line_count - 1) *last = before(length);
    else if (shown < end) *last = before(shown);
    else *last = after(end);
    return 1;
}

/* ---- Hits and selections ---- */

/* The hit at a column of a line: the character that covers the column or, to the right of the shown part, the
 * rightmost one that has columns. In a line without columns, it is the first character. */
static inline hordguli_hit reference_hit(size_t line, size_t column) {
    size_t start = lines[line].start, end = start + lines[line].length;
    for (size_t pos = start; pos < end; pos++) {
        const character *c = &characters[pos];
        if (!takes_columns(pos)) continue;
        if (c->left <= column && column < c->right) return (hordguli_hit){pos, 0, 0};
        if (column >= c->right && c->right == lines[line].columns) return (hordguli_hit){pos, c->level % 2 == 0, 0};
    }
    return (hordguli_hit){start, 0, 0};
}

static inline size_t reference_spans(size_t line, size_t from, size_t to, hordguli_span spans[MOST]) {
    size_t count = 0, at = 0;
    for (;;) { /* to the leftmost selected character from column `at` on */
        const character *next = NULL;
        for (size_t pos = from; pos < to && pos < length; pos++) {
            const character *c = &characters[pos];
            if (c->line == line && takes_columns(pos) && c->left >= at && (next == NULL || c->left < next->left)) next = c;
        }
        if (next == NULL) return count;
        if (count > 0 && spans[count - 1].right == next->left) spans[count - 1].right = next->right;
        else spans[count++] = (hordguli_span){next->left, next->right};
        at = next->right;
    }
}

#endif
