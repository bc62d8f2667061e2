/* Prints a checksum of all that the C library returns for random sessions. tests/rust/src/bin/answers.rs does
 * the same through the Rust crate. Both programs use the same pseudorandom numbers, so they must print the
 * same output. Usage: answers FIRST COUNT [print], for COUNT sessions from number FIRST on. With `print`,
 * prints each value too. */
#include <hordguli.h>
#include <stdio.h>
#include <stdlib.h>
#include <string.h>

enum { MOST = 256, BYTES = 1 << 18 };

/* Letters of both directions, digits, brackets, marks, spaces, tabs, separators, embeddings and isolates, wide characters, flags, parts of
 * emoji families, and characters that break differently in Unicode 17.0. */
static const uint32_t alphabet[] = {
    'a', 'b', 0x5D0, 0x5D1, 0x627, 0x628, '1', '2', 0x661, '(', ')', '[', ']', '+', ',', '.', '$', '-', ' ', ' ', ' ', '\t', 0x5B0, 0x301,
    0x200D, 0x1F468, 0x1F467, 0x2067, 0x2068, 0x2069, 0x202B, 0x202E, 0x202C, 0x4E00, 0x1D11E, 0x1F1E9, 0x1F1EA, '\n', '\r', 0x2028, 0x2029,
    0x85, 0, 0x201C, 0x2019, 0x5BE, 0xA9A7, 0x25CC,
};
enum { LETTERS = sizeof alphabet / sizeof *alphabet };

static uint64_t state, sum;
static int prints;
static hordguli_tables tables[2] = {HORDGULI_TABLES_INIT, HORDGULI_TABLES_INIT};
static hordguli_session session;
static hordguli_counts counts;

/* ---- Numbers and values ---- */

static size_t below(size_t bound) {
    state ^= state << 13;
    state ^= state >> 7;
    state ^= state << 17;
    return (size_t)(state % bound);
}

static void tell(const char *name, uint64_t value) {
    sum = (sum ^ value) * 0x100000001B3;
    if (prints) printf("%s %llu\n", name, (unsigned long long)value);
}

/* Adds the status of a call to the checksum, and returns whether the call has succeeded. */
static int succeeds(const char *name, hordguli_status status) {
    tell(name, (uint64_t)status);
    return status == HORDGULI_OK;
}

static void tell_bytes(const char *name, const char *bytes, size_t length) {
    tell(name, length);
    for (size_t k = 0; k < length; k++) tell(name, (unsigned char)bytes[k]);
}

#define TELL_ARRAY(name, array, count) \
    do { \
        tell(name, count); \
        for (size_t k_ = 0; k_ < (count); k_++) tell(name, (array)[k_]); \
    } while (0)

/* Stores a random text of `count` characters as UTF-8, and returns its length in bytes. */
static size_t random_text(size_t count, char *into) {
    size_t at = 0;
    while (count-- > 0) {
        uint32_t c = alphabet[below(LETTERS)];
        int more = c < 0x80 ? 0 : c < 0x800 ? 1 : c < 0x10000 ? 2 : 3;
        static const unsigned char lead[] = {0, 0xC0, 0xE0, 0xF0};
        into[at++] = (char)(lead[more] | c >> 6 * more);
        while (more-- > 0) into[at++] = (char)(0x80 | (c >> 6 * more & 63));
    }
    return at;
}

/* ---- Answers ---- */

static void tell_edge(hordguli_edge edge) {
    tell("edge.pos", edge.pos);
    tell("edge.side", edge.side);
}

static void tell_caret(hordguli_caret caret) {
    tell("caret.line", caret.line);
    tell("caret.column", caret.column);
    tell("caret.level", caret.level);
}

static void shown_answers(size_t line) {
    static uint32_t characters[MOST], ltov[MOST], vtol[MOST];
    static uint8_t levels[MOST];
    static size_t columns[MOST];
    hordguli_line_info info;
    hordguli_line(&session, line, &info, MOST, characters, levels, ltov, vtol, columns);
    tell("start", info.start);
    tell("length", info.length);
    tell("shown", info.shown);
    tell("columns", info.columns);
    tell("padding", info.padding);
    tell("base", info.base);
    tell("first", info.first);
    TELL_ARRAY("characters", characters, info.shown);
    TELL_ARRAY("levels", levels, info.shown);
    TELL_ARRAY("ltov", ltov, info.shown);
    TELL_ARRAY("vtol", vtol, info.shown);
    TELL_ARRAY("columns", columns, info.shown);
}

static void part_answers(size_t line) {
    static size_t ends[MOST];
    static hordguli_run runs[MOST];
    static hordguli_span spans[MOST];
    size_t count, from = below(counts.characters + 1), to = from + below(counts.characters + 1 - from);
    below(3);
    if (succeeds("runs", hordguli_runs(&session, line, MOST, runs, &count)))
        for (size_t k = 0; k < count; k++) {
            tell("run.start", runs[k].start);
            tell("run.length", runs[k].length);
            tell("run.level", runs[k].level);
        }
    if (succeeds("clusters", hordguli_line_clusters(&session, line, MOST, ends, &count))) TELL_ARRAY("end", ends, count);
    if (succeeds("spans", hordguli_spans(&session, line, from, to, MOST, spans, &count)))
        for (size_t k = 0; k < count; k++) {
            tell("span.left", spans[k].left);
            tell("span.right", spans[k].right);
        }
}

static void line_answers(size_t line) {
    hordguli_edge edge, last;
    hordguli_hit hit;
    size_t start;
    if (succeeds("line_start", hordguli_line_start(&session, line, &start))) {
        tell("start", start);
        shown_answers(line);
        part_answers(line);
    }
    if (succeeds("line_edges", hordguli_line_edges(&session, line, &edge, &last))) {
        tell_edge(edge);
        tell_edge(last);
    }
    for (size_t k = 0; k < 4; k++) {
        size_t column = k == 0 ? SIZE_MAX : below(24);
        if (succeeds("edge_at", hordguli_edge_at(&session, line, column, &edge))) tell_edge(edge);
        if (succeeds("nearest_edge", hordguli_nearest_edge(&session, line, column, &edge))) tell_edge(edge);
        if (succeeds("hit_at", hordguli_hit_at(&session, line, column, &hit))) {
            tell("hit.pos", hit.pos);
            tell("hit.trailing", hit.trailing);
        }
    }
}

static void paragraph_answers(size_t paragraph) {
    static uint8_t levels[MOST], marks[MOST];
    hordguli_paragraph_info info;
    if (!succeeds("paragraph", hordguli_paragraph(&session, paragraph, &info, MOST, levels, marks))) return;
    tell("start", info.start);
    tell("length", info.length);
    tell("first_line", info.first_line);
    tell("lines", info.lines);
    tell("base", info.base);
    TELL_ARRAY("levels", levels, info.length);
    TELL_ARRAY("marks", marks, info.length);
}

static void position_answers(size_t pos) {
    hordguli_place place;
    hordguli_caret caret;
    hordguli_cluster cluster;
    hordguli_word word;
    size_t offset;
    below(3);
    if (succeeds("place_of", hordguli_place_of(&session, pos, &place))) {
        tell("place.paragraph", place.paragraph);
        tell("place.line", place.line);
        tell("place.offset", place.offset);
    }
    if (succeeds("caret_at", hordguli_caret_at(&session, pos, &caret))) tell_caret(caret);
    if (succeeds("cluster_at", hordguli_cluster_at(&session, pos, &cluster))) {
        tell("cluster.start", cluster.start);
        tell("cluster.end", cluster.end);
    }
    if (succeeds("word_at", hordguli_word_at(&session, pos, &word))) {
        tell("word.start", word.start);
        tell("word.end", word.end);
        tell("word.kind", word.kind);
    }
    if (succeeds("byte_of", hordguli_byte_of(&session, pos, &offset))) tell("byte", offset);
    if (succeeds("utf16_of", hordguli_utf16_of(&session, pos, &offset))) tell("unit", offset);
    for (uint32_t side = HORDGULI_BEFORE; side <= HORDGULI_AFTER; side++) {
        hordguli_edge edge = {pos, side, 0}, next;
        uint32_t moved, direction = below(2) ? HORDGULI_RIGHT : HORDGULI_LEFT;
        if (succeeds("edge_caret", hordguli_edge_caret(&session, edge, &caret))) tell_caret(caret);
        if (succeeds("step", hordguli_step(&session, edge, direction, &next, &moved))) {
            tell("moved", moved);
            if (moved) tell_edge(next);
        }
    }
}

static void offset_answers(size_t offset) {
    hordguli_position position;
    if (succeeds("position_of_byte", hordguli_position_of_byte(&session, offset, &position))) {
        tell("pos", position.pos);
        tell("rest", position.rest);
    }
    if (succeeds("position_of_utf16", hordguli_position_of_utf16(&session, offset, &position))) {
        tell("pos", position.pos);
        tell("rest", position.rest);
    }
}

/* Adds a part of the text, and the printed bytes of some lines, to the checksum. */
static void text_answers(void) {
    static char bytes[BYTES];
    static uint32_t characters[MOST];
    size_t from = below(counts.characters + 1), count = below(counts.characters + 1 - from), length;
    size_t first = below(counts.lines + 1), lines = below(counts.lines + 1 - first);
    uint32_t print = 1 + (uint32_t)below(127);
    below(3);
    if (succeeds("text", hordguli_text(&session, from, count, BYTES, bytes, &length))) tell_bytes("byte", bytes, length);
    if (succeeds("text_utf32", hordguli_text_utf32(&session, from, count, MOST, characters, &length))) TELL_ARRAY("character", characters, length);
    if (succeeds("utf8_length", hordguli_utf8_length(&session, from, count, &length))) tell("length", length);
    if (succeeds("lines_utf8", hordguli_lines_utf8(&session, first, lines, print, BYTES, bytes, &length))) tell_bytes("byte", bytes, length);
}

/* Adds the reasons for the levels and break marks of a text to the checksum. */
static void reason_answers(hordguli_tables *chosen, uint32_t options, uint32_t direction, const uint32_t *characters, size_t count) {
    static hordguli_reason reasons[MOST];
    static hordguli_break_reason breaks[MOST];
    if (succeeds("reasons", hordguli_reasons(chosen, direction, characters, count, MOST, reasons)))
        for (size_t k = 0; k < count; k++) {
            tell("opener", reasons[k].opener);
            tell("matching", reasons[k].matching);
            tell("sequence", reasons[k].sequence);
            tell("partner", reasons[k].partner);
            tell("inside", reasons[k].inside);
            tell("left", reasons[k].left);
            tell("right", reasons[k].right);
            TELL_ARRAY("class_after", reasons[k].class_after, 11);
            tell("override_class", reasons[k].override_class);
            tell("embedding_level", reasons[k].embedding_level);
            tell("level", reasons[k].level);
            tell("sos", reasons[k].sos);
            tell("eos", reasons[k].eos);
            tell("bracket_case", reasons[k].bracket_case);
            tell("neutral", reasons[k].neutral);
        }
    if (succeeds("break_reasons", hordguli_break_reasons(chosen, options & HORDGULI_WHOLE_NUMBERS, characters, count, MOST, breaks)))
        for (size_t k = 0; k < count; k++) {
            tell("base", breaks[k].base);
            tell("behind_spaces", breaks[k].behind_spaces);
            tell("rule", breaks[k].rule);
            tell("letter", breaks[k].letter);
            tell("class_before", breaks[k].class_before);
            tell("class_after", breaks[k].class_after);
            tell("mark", breaks[k].mark);
        }
}

/* Makes the calls that need no session, for a text, and adds their results to the checksum. */
static void row_answers(hordguli_tables *chosen, uint32_t options, uint32_t direction, const uint32_t *characters, size_t count) {
    static uint32_t visual[MOST], ltov[MOST], vtol[MOST];
    static uint8_t levels[MOST], row_levels[MOST], marks[MOST];
    static hordguli_run runs[MOST];
    static hordguli_character records[MOST];
    uint32_t base = 0;
    size_t from = below(count + 1), length = below(count + 1 - from), run_count;
    if (succeeds("base", hordguli_base(chosen, direction, characters, count, &base))) tell("base", base);
    if (succeeds("levels", hordguli_levels(chosen, direction, characters, count, MOST, levels))) TELL_ARRAY("level", levels, count);
    if (succeeds("marks", hordguli_marks(chosen, options & HORDGULI_WHOLE_NUMBERS, characters, count, MOST, marks))) TELL_ARRAY("mark", marks, count);
    if (succeeds("row", hordguli_row(chosen, options & (HORDGULI_REORDER_NSM | HORDGULI_REORDER_CLUSTERS), base, length, characters + from,
                                     levels + from, MOST, visual, row_levels, ltov, vtol))) {
        TELL_ARRAY("visual", visual, length);
        TELL_ARRAY("level", row_levels, length);
        TELL_ARRAY("ltov", ltov, length);
        TELL_ARRAY("vtol", vtol, length);
    }
    if (succeeds("row_runs", hordguli_row_runs(chosen, base, length, characters + from, levels + from, MOST, runs, &run_count)))
        for (size_t k = 0; k < run_count; k++) {
            tell("run.start", runs[k].start);
            tell("run.length", runs[k].length);
            tell("run.level", runs[k].level);
        }
    if (succeeds("properties", hordguli_properties(chosen, count, characters, records)))
        for (size_t k = 0; k < count; k++) {
            tell("mirror", records[k].mirror);
            tell("pair", records[k].pair);
            tell("flags", records[k].flags);
            tell("bidi_class", records[k].bidi_class);
            tell("line_class", records[k].line_class);
            tell("columns", records[k].columns);
            tell("bracket", records[k].bracket);
        }
    reason_answers(chosen, options, direction, characters, count);
}

static void tell_damage(hordguli_status status, const hordguli_damage *damage) {
    if (!succeeds("edit", status)) return;
    tell("first_line", damage->first_line);
    tell("old_lines", damage->old_lines);
    tell("new_lines", damage->new_lines);
    tell("first_paragraph", damage->first_paragraph);
    tell("old_paragraphs", damage->old_paragraphs);
    tell("new_paragraphs", damage->new_paragraphs);
}

/* Stores `count` random advances, and returns `count`. */
static size_t random_advances(size_t count, uint32_t *into) {
    for (size_t k = 0; k < count; k++) into[k] = (uint32_t)below(5);
    return count;
}

static void edit(void) {
    char text[MOST];
    hordguli_damage damage;
    size_t kind = below(6), pos = below(counts.characters + 2), count = below(6), length = random_text(below(8), text);
    uint32_t width = (uint32_t)below(25), advances[8];
    size_t advance_count = random_advances(below(8), advances);
    hordguli_status status;
    below(3);
    switch (kind) {
        case 0: status = hordguli_insert(&session, pos, text, length, &damage); break;
        case 1: status = hordguli_delete(&session, pos, count, &damage); break;
        case 2: status = hordguli_replace(&session, pos, count, text, length, &damage); break;
        case 3: status = hordguli_set_measured_width(&session, width, &damage); break;
        case 4: status = hordguli_set_advances(&session, pos, advance_count, advances, &damage); break;
        default: status = hordguli_set_width(&session, width, &damage); break;
    }
    tell_damage(status, &damage);
    hordguli_session_counts(&session, &counts);
}

static void sizes(void) {
    hordguli_work work;
    hordguli_changed changed;
    tell("characters", counts.characters);
    tell("lines", counts.lines);
    tell("paragraphs", counts.paragraphs);
    tell("width", counts.width);
    if (succeeds("work", hordguli_session_work(&session, &work))) {
        tell("analysed", work.analysed);
        tell("filled", work.filled);
        tell("written", work.written);
    }
    if (succeeds("changed", hordguli_changed_lines(&session, &changed))) {
        tell("first_line", changed.first_line);
        tell("old_lines", changed.old_lines);
        tell("new_lines", changed.new_lines);
    }
}

static void session_answers(uint64_t number) {
    static const uint32_t directions[] = {HORDGULI_WEAK_LTR, HORDGULI_WEAK_RTL, HORDGULI_LTR, HORDGULI_RTL};
    static const uint32_t tabs[] = {0, 0, 4, 8};
    static char text[4 * MOST], page[BYTES];
    static uint32_t characters[MOST];
    static size_t offsets[MOST];
    static hordguli_script_run script_runs[MOST];
    size_t version, direction, length, all, written, damaged;
    uint32_t bits, options, tab, width, print;
    int is_measured;
    hordguli_status status;
    state = (number + 1) * 0x9E3779B97F4A7C15;
    sum = 0xCBF29CE484222325;
    version = below(2);
    direction = below(4);
    bits = (uint32_t)below(64);
    options = (bits & 31) << 2 | (bits & 32 ? HORDGULI_LINE_SEPARATORS : 0);
    tab = tabs[below(4)];
    options |= directions[direction] | HORDGULI_TAB_WIDTH(tab);
    width = 1 + (uint32_t)below(20);
    print = 1 + (uint32_t)below(127);
    length = random_text(below(30), text);
    session = (hordguli_session)HORDGULI_SESSION_INIT;
    if (succeeds("layout", hordguli_layout(&tables[version], options, width, print, text, length, BYTES, page, &written)))
        tell_bytes("byte", page, written);
    is_measured = below(3) == 0;
    if (is_measured) status = hordguli_session_open_measured(&session, &tables[version], options, width, text, length);
    else status = hordguli_session_open(&session, &tables[version], options, width, text, length);
    if (!succeeds("open", status)) return;
    hordguli_session_counts(&session, &counts);
    if (is_measured) {
        static uint32_t advances[MOST];
        hordguli_damage damage;
        random_advances(counts.characters, advances);
        tell_damage(hordguli_set_advances(&session, 0, counts.characters, advances, &damage), &damage);
        hordguli_session_counts(&session, &counts);
    }
    for (size_t edits = below(4); edits > 0; edits--) edit();
    sizes();
    text_answers();
    for (size_t line = 0; line < counts.lines + 2; line++) line_answers(line);
    for (size_t paragraph = 0; paragraph < counts.paragraphs + 1; paragraph++) paragraph_answers(paragraph);
    for (size_t pos = 0; pos < counts.characters + 2; pos++) position_answers(pos);
    hordguli_utf8_length(&session, 0, counts.characters, &all);
    for (size_t offset = 0; offset < all + 2; offset++) offset_answers(offset);
    sizes();
    hordguli_text_utf32(&session, 0, counts.characters, MOST, characters, &written);
    row_answers(&tables[version], options, directions[direction] | (options & HORDGULI_LINE_SEPARATORS), characters, counts.characters);
    if (succeeds("text_clusters", hordguli_clusters(counts.characters, characters, MOST, offsets, &all))) TELL_ARRAY("end", offsets, all);
    if (succeeds("script_runs", hordguli_script_runs(&tables[version], counts.characters, characters, MOST, script_runs, &all)))
        for (size_t k = 0; k < all; k++) {
            tell("run.start", script_runs[k].start);
            tell("run.length", script_runs[k].length);
            tell("run.script", script_runs[k].script);
        }
    hordguli_text(&session, 0, counts.characters, BYTES, page, &written);
    damaged = below(written + 1);
    if (damaged < written) page[damaged] = (char)(page[damaged] ^ 0x80);
    if (succeeds("count_utf8", hordguli_count_utf8(page, written, &all))) tell("count", all);
    hordguli_valid_utf8(page, written, &all);
    tell("valid", all);
    if (succeeds("decode", hordguli_decode(page, written, MOST, characters, offsets, &all))) {
        TELL_ARRAY("character", characters, all);
        TELL_ARRAY("offset", offsets, all);
    }
    hordguli_session_close(&session);
}

int main(int count, char **words) {
    uint64_t first, last;
    if (count < 3) return 2;
    prints = count > 3;
    first = strtoull(words[1], NULL, 10);
    last = first + strtoull(words[2], NULL, 10);
    if (hordguli_tables_open_builtin(&tables[0]) || hordguli_tables_open_builtin_version(&tables[1], HORDGULI_UNICODE_17_0)) return 1;
    for (uint64_t number = first; number < last; number++) {
        session_answers(number);
        printf("%llu %016llx\n", (unsigned long long)number, (unsigned long long)sum);
    }
    hordguli_tables_close(&tables[0]);
    hordguli_tables_close(&tables[1]);
    return 0;
}
