/* Makes the same calls on two sessions, and compares the results. */
#ifndef HORDGULI_ANSWERS_H
#define HORDGULI_ANSWERS_H

#include "test.h"

/* A call: its name, its arguments, and its results (the status and the output) as numbers */
typedef struct answer {
    const char *call;
    size_t arguments[3], results[4];
} answer;

/* The maximum numbers of answers for a session, and of elements that a call stores in an array */
enum { ANSWERS = 1 << 16, ELEMENTS = 512 };

static answer answers[2][ANSWERS];
static size_t answer_count;

static inline answer *add(answer *to, const char *call, size_t a, size_t b, size_t c) {
    answer *next = &to[answer_count];
    if (answer_count + 1 < ANSWERS) answer_count++;
    *next = (answer){call, {a, b, c}, {0, 0, 0, 0}};
    return next;
}

/* Adds an answer for each element of an array that a call has stored. */
static inline void add_elements(answer *to, const size_t *elements, size_t count) {
    for (size_t k = 0; k < count; k++) add(to, "an element", k, 0, 0)->results[0] = elements[k];
}

static inline void ask_position(hordguli_session *session, size_t pos, answer *to) {
    hordguli_place place = {0, 0, 0};
    hordguli_caret caret = {0, 0, 0, 0};
    hordguli_cluster cluster = {0, 0};
    hordguli_word word = {0, 0, 0, 0};
    answer *a = add(to, "place_of", pos, 0, 0);
    a->results[0] = (size_t)hordguli_place_of(session, pos, &place);
    a->results[1] = place.paragraph, a->results[2] = place.line, a->results[3] = place.offset;
    a = add(to, "caret_at", pos, 0, 0);
    a->results[0] = (size_t)hordguli_caret_at(session, pos, &caret);
    a->results[1] = caret.line, a->results[2] = caret.column, a->results[3] = caret.level;
    for (uint32_t side = 0; side < 2; side++) {
        caret = (hordguli_caret){0, 0, 0, 0};
        a = add(to, "edge_caret", pos, side, 0);
        a->results[0] = (size_t)hordguli_edge_caret(session, (hordguli_edge){pos, side, 0}, &caret);
        a->results[1] = caret.line, a->results[2] = caret.column, a->results[3] = caret.level;
        for (uint32_t direction = 0; direction < 2; direction++) {
            hordguli_edge next = {0, 0, 0};
            uint32_t moved = 0;
            a = add(to, "step", pos, side, direction);
            a->results[0] = (size_t)hordguli_step(session, (hordguli_edge){pos, side, 0}, direction, &next, &moved);
            a->results[1] = next.pos, a->results[2] = next.side, a->results[3] = moved;
        }
    }
    a = add(to, "cluster_at", pos, 0, 0);
    a->results[0] = (size_t)hordguli_cluster_at(session, pos, &cluster);
    a->results[1] = cluster.start, a->results[2] = cluster.end;
    a = add(to, "word_at", pos, 0, 0);
    a->results[0] = (size_t)hordguli_word_at(session, pos, &word);
    a->results[1] = word.start, a->results[2] = word.end, a->results[3] = word.kind;
    a = add(to, "byte_of", pos, 0, 0);
    a->results[0] = (size_t)hordguli_byte_of(session, pos, &a->results[1]);
    a = add(to, "utf16_of", pos, 0, 0);
    a->results[0] = (size_t)hordguli_utf16_of(session, pos, &a->results[1]);
}

/* Adds answers for the shown characters of a line, with their levels and maps, and for the runs of the
 * line. */
static inline void ask_shown(hordguli_session *session, size_t line, hordguli_line_info *info, answer *to) {
    static uint32_t visual[ELEMENTS], ltov[ELEMENTS], vtol[ELEMENTS];
    static uint8_t line_levels[ELEMENTS];
    static size_t columns[ELEMENTS];
    static hordguli_run runs[ELEMENTS];
    size_t count = 0;
    answer *a = add(to, "line", line, 0, 0);
    a->results[0] = (size_t)hordguli_line(session, line, info, ELEMENTS, visual, line_levels, ltov, vtol, columns);
    add_elements(to, (const size_t[]){info->start, info->length, info->shown, info->columns, info->padding, info->base, info->first}, 7);
    for (size_t k = 0; k < info->shown; k++)
        add_elements(to, (const size_t[]){visual[k], line_levels[k], ltov[k], vtol[k], columns[k]}, 5);
    add(to, "runs", line, 0, 0)->results[0] = (size_t)hordguli_runs(session, line, ELEMENTS, runs, &count);
    for (size_t k = 0; k < count; k++) add_elements(to, (const size_t[]){runs[k].start, runs[k].length, runs[k].level}, 3);
}

static inline void ask_column(hordguli_session *session, size_t line, size_t column, answer *to) {
    hordguli_hit hit = {0, 0, 0};
    hordguli_edge edge = {0, 0, 0};
    answer *a = add(to, "hit_at", line, column, 0);
    a->results[0] = (size_t)hordguli_hit_at(session, line, column, &hit);
    a->results[1] = hit.pos, a->results[2] = hit.trailing;
    a = add(to, "edge_at", line, column, 0);
    a->results[0] = (size_t)hordguli_edge_at(session, line, column, &edge);
    a->results[1] = edge.pos, a->results[2] = edge.side;
    a = add(to, "nearest_edge", line, column, 0);
    a->results[0] = (size_t)hordguli_nearest_edge(session, line, column, &edge);
    a->results[1] = edge.pos, a->results[2] = edge.side;
}

static inline void ask_line(hordguli_session *session, size_t line, size_t from, size_t to_pos, answer *to) {
    static hordguli_span spans[ELEMENTS];
    static size_t ends[ELEMENTS];
    hordguli_line_info info = {0, 0, 0, 0, 0, 0, 0};
    hordguli_edge edges[2] = {{0, 0, 0}, {0, 0, 0}};
    size_t count = 0;
    answer *a = add(to, "line_start", line, 0, 0);
    a->results[0] = (size_t)hordguli_line_start(session, line, &a->results[1]);
    ask_shown(session, line, &info, to);
    for (size_t k = 0; k <= info.columns + 1; k++) ask_column(session, line, k > info.columns ? SIZE_MAX : k, to);
    add(to, "line_edges", line, 0, 0)->results[0] = (size_t)hordguli_line_edges(session, line, &edges[0], &edges[1]);
    for (int k = 0; k < 2; k++) add_elements(to, (const size_t[]){edges[k].pos, edges[k].side}, 2);
    add(to, "line_clusters", line, 0, 0)->results[0] = (size_t)hordguli_line_clusters(session, line, ELEMENTS, ends, &count);
    add_elements(to, ends, count);
    count = 0;
    a = add(to, "spans", line, from, to_pos);
    a->results[0] = (size_t)hordguli_spans(session, line, from, to_pos, ELEMENTS, spans, &count);
    for (size_t k = 0; k < count; k++) add_elements(to, (const size_t[]){spans[k].left, spans[k].right}, 2);
}

static inline void ask_paragraph(hordguli_session *session, size_t paragraph, answer *to) {
    static uint8_t all_levels[ELEMENTS], all_marks[ELEMENTS];
    hordguli_paragraph_info info = {0, 0, 0, 0, 0, 0};
    answer *a = add(to, "paragraph", paragraph, 0, 0);
    a->results[0] = (size_t)hordguli_paragraph(session, paragraph, &info, ELEMENTS, all_levels, all_marks);
    add_elements(to, (const size_t[]){info.length, info.lines, info.base, info.start, info.first_line}, 5);
    for (size_t k = 0; k < info.length; k++) add_elements(to, (const size_t[]){all_levels[k], all_marks[k]}, 2);
}

static inline void ask_offset(hordguli_session *session, size_t offset, answer *to) {
    hordguli_position position = {0, 0};
    answer *a = add(to, "position_of_byte", offset, 0, 0);
    a->results[0] = (size_t)hordguli_position_of_byte(session, offset, &position);
    a->results[1] = position.pos, a->results[2] = position.rest;
    a = add(to, "position_of_utf16", offset, 0, 0);
    a->results[0] = (size_t)hordguli_position_of_utf16(session, offset, &position);
    a->results[1] = position.pos, a->results[2] = position.rest;
}

/* Makes the calls for each position, line, paragraph and offset, and for at least one of each past the
 * end. */
static inline void ask(hordguli_session *session, size_t from, size_t to_pos, answer *to) {
    hordguli_counts counts = {0, 0, 0, 0};
    size_t byte_count = 0;
    HOLDS(hordguli_session_counts(session, &counts) == HORDGULI_OK);
    HOLDS(hordguli_utf8_length(session, 0, counts.characters, &byte_count) == HORDGULI_OK);
    answer_count = 0;
    add_elements(to, (const size_t[]){counts.characters, counts.lines, counts.paragraphs, counts.width, byte_count}, 5);
    for (size_t pos = 0; pos <= counts.characters + 1; pos++) ask_position(session, pos, to);
    for (size_t line = 0; line <= counts.lines + 1; line++) ask_line(session, line, from, to_pos, to);
    for (size_t paragraph = 0; paragraph <= counts.paragraphs; paragraph++) ask_paragraph(session, paragraph, to);
    for (size_t offset = 0; offset <= byte_count + 1; offset++) ask_offset(session, offset, to);
}

/* Compares the results of the calls on two sessions, whose texts have `length` characters. */
static inline void answers_are_equal(hordguli_session *one, hordguli_session *other, size_t length) {
    size_t from = below(length + 1), to_pos = from + below(length + 1), count;
    ask(one, from, to_pos, answers[0]);
    count = answer_count;
    ask(other, from, to_pos, answers[1]);
    if (!HOLDS(count == answer_count && count + 1 < ANSWERS)) return;
    for (size_t k = 0; k < count; k++) {
        const answer *a = &answers[0][k], *b = &answers[1][k];
        if (HOLDS(memcmp(a->results, b->results, sizeof a->results) == 0)) continue;
        fprintf(stderr, "hordguli_%s, %zu %zu %zu\n", a->call, a->arguments[0], a->arguments[1], a->arguments[2]);
        return;
    }
}

#endif
