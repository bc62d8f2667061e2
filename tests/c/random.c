/* Makes random edits in a session. After each edit, the session must equal a new session on the whole text. Half of the
 * edits insert or delete characters next to one of the same kind, which must not analyse the paragraph again. Usage: random
 * FOLDER CHANGES [17.0], where FOLDER has the table files, by default of Unicode 15.0. */
#include "test.h"
#include "kinds.h"
#include "same_sessions.h"
#include "snapshot.h"

enum { MOST = 300, BYTES = SAME_ELEMENTS };

/* For a line whose characters are all shown, `hordguli_row` returns what the session returns. */
static void lines_are_rows(hordguli_session *session, hordguli_tables *tables, const hordguli_counts *counts,
                           uint32_t options) {
    static uint32_t shown[BYTES], characters[2][BYTES], ltov[2][BYTES], vtol[2][BYTES];
    static uint8_t all_levels[BYTES], levels[2][BYTES];
    static hordguli_run runs[2][MOST * 4];
    size_t start = 0, line = 0, of_length;
    for (size_t paragraph = 0; paragraph < counts->paragraphs; paragraph++) {
        hordguli_paragraph_info of;
        OK(hordguli_paragraph(session, paragraph, &of, BYTES, all_levels, NULL));
        OK(hordguli_text_utf32(session, of.start, of.length, BYTES, shown, &of_length));
        OK(hordguli_levels(tables, options & (3 | HORDGULI_LINE_SEPARATORS), shown, of.length, BYTES, levels[1]));
        HOLDS(of_length == of.length && memcmp(all_levels, levels[1], of.length) == 0);
        for (size_t end = line + of.lines; line < end; line++) {
            hordguli_line_info info;
            hordguli_cluster cluster = {0, 0};
            size_t run_counts[2], count, at;
            OK(hordguli_line(session, line, &info, BYTES, characters[0], levels[0], ltov[0], vtol[0], NULL));
            OK(hordguli_runs(session, line, MOST * 4, runs[0], &run_counts[0]));
            count = info.shown;
            at = info.start - start;
            OK(hordguli_text_utf32(session, info.start, count, BYTES, shown, &count));
            if (info.length != count) continue;
            OK(hordguli_cluster_at(session, info.start, &cluster));
            if (cluster.start != info.start) continue; /* a row without its context may have other clusters */
            OK(hordguli_row(tables, options & (HORDGULI_REORDER_NSM | HORDGULI_REORDER_CLUSTERS | HORDGULI_LINE_SEPARATORS),
                            of.base, count, shown, all_levels + at, BYTES, characters[1], levels[1], ltov[1], vtol[1]));
            OK(hordguli_row_runs(tables, of.base, count, shown, all_levels + at, MOST * 4, runs[1], &run_counts[1]));
            HOLDS(memcmp(characters[0], characters[1], count * sizeof **characters) == 0);
            HOLDS(memcmp(levels[0], levels[1], count) == 0);
            HOLDS(memcmp(ltov[0], ltov[1], count * sizeof **ltov) == 0);
            HOLDS(memcmp(vtol[0], vtol[1], count * sizeof **vtol) == 0);
            HOLDS(run_counts[0] == run_counts[1] && memcmp(runs[0], runs[1], run_counts[0] * sizeof **runs) == 0);
        }
        start += of.length;
    }
}

/* Calls without a session return the same characters, offsets and clusters as those on the session. */
static void text_alone_is_that_of_session(hordguli_session *session, const char *bytes, size_t size, size_t count) {
    static uint32_t characters[2][MOST * 4];
    static size_t offsets[MOST * 4], ends[MOST * 4];
    size_t counts[2] = {0, 0}, k = 0;
    OK(hordguli_decode(bytes, size, MOST * 4, characters[0], offsets, &counts[0]));
    OK(hordguli_text_utf32(session, 0, count, MOST * 4, characters[1], &counts[1]));
    HOLDS(counts[0] == count && counts[1] == count && memcmp(characters[0], characters[1], count * sizeof **characters) == 0);
    OK(hordguli_clusters(count, characters[0], MOST * 4, ends, &counts[0]));
    for (size_t pos = 0; pos < count; pos++) {
        hordguli_cluster cluster = {0, 0};
        size_t byte = 0;
        OK(hordguli_byte_of(session, pos, &byte));
        OK(hordguli_cluster_at(session, pos, &cluster));
        HOLDS(offsets[pos] == byte && k < counts[0] && ends[k] == cluster.end && cluster.start == (k == 0 ? 0 : ends[k - 1]));
        k += pos + 1 == cluster.end;
    }
    HOLDS(k == counts[0]);
}

/* The text that the session should have. */
static uint32_t text[MOST * 4];
static size_t length;

int main(int count, char **words) {
    hordguli_tables tables = HORDGULI_TABLES_INIT;
    hordguli_session kept = HORDGULI_SESSION_INIT;
    uint32_t width = 20, options = 0;
    long changes;
    if (count != 3 && count != 4) return 2;
    changes = atol(words[2]);
    if (!OK(hordguli_tables_open_folder_version(&tables, count == 4 ? HORDGULI_UNICODE_17_0 : HORDGULI_UNICODE_15_0, words[1], NULL))) return finish("random");
    for (long change = 0; change < changes; change++) {
        hordguli_session anew = HORDGULI_SESSION_INIT;
        hordguli_counts counts, others;
        hordguli_damage damage;
        static char bytes[MOST * 16], got[MOST * 16];
        static uint32_t got_characters[MOST * 4];
        size_t pos = below(length + 1), taken = 0, size, got_size, old_lines = 0, old_paragraphs = 0;
        uint32_t piece[64];
        size_t piece_length = 0;
        char piece_bytes[256];
        static snapshot then, now;
        hordguli_status status;
        hordguli_work work, worked;
        int is_run = length > 0 && length < MOST && below(2) == 0; /* whether only a run becomes longer or shorter */
        if (change % 500 == 0) { /* a session with other options */
            hordguli_session_close(&kept);
            options = (uint32_t)below(128) | (below(2) == 0 ? HORDGULI_LINE_SEPARATORS : 0);
            size = encoded(text, length, bytes);
            OK(hordguli_session_open(&kept, &tables, options, width, bytes, size));
        }
        OK(hordguli_session_counts(&kept, &counts));
        old_lines = counts.lines;
        old_paragraphs = counts.paragraphs;
        take(&kept, NULL, &then);
        OK(hordguli_session_work(&kept, &work));
        if (is_run) {
            size_t kind;
            pos = 1 + below(length);
            kind = kind_of(text[pos - 1]);
            piece_length = typed(kind, piece);
            taken = erased(kind, text + pos, length - pos);
            is_run = piece_length + taken > 0;
        } else {
            if (below(3) != 0 || length == 0) piece_length = decoded(text_pieces[below(TEXT_PIECES)], piece);
            if (length > 0 && (below(2) == 0 || length > MOST - 40)) taken = below(length - pos < 30 ? length - pos + 1 : 30);
        }
        size = encoded(piece, piece_length, piece_bytes);
        if (!is_run && below(12) == 0) {
            width = 1 + (uint32_t)below(below(2) == 0 ? 12 : 80);
            piece_length = taken = 0;
            status = hordguli_set_width(&kept, width, &damage);
        } else if (taken == 0) {
            status = hordguli_insert(&kept, pos, piece_bytes, size, &damage);
        } else if (piece_length == 0) {
            status = hordguli_delete(&kept, pos, taken, &damage);
        } else {
            status = hordguli_replace(&kept, pos, taken, piece_bytes, size, &damage);
        }
        OK(status);
        OK(hordguli_session_work(&kept, &worked));
        HOLDS(!is_run || worked.analysed == work.analysed);
        take(&kept, NULL, &now);
        lines_were_replaced(&then, &now, damage.first_line, damage.old_lines, damage.new_lines);
        changed_lines_are_right(&kept, &then, &now, &damage);
        memmove(text + pos + piece_length, text + pos + taken, (length - pos - taken) * sizeof *text);
        memcpy(text + pos, piece, piece_length * sizeof *text);
        length += piece_length - taken;
        size = encoded(text, length, bytes);
        OK(hordguli_session_open(&anew, &tables, options, width, bytes, size));
        OK(hordguli_session_counts(&kept, &counts));
        OK(hordguli_session_counts(&anew, &others));
        HOLDS(memcmp(&counts, &others, sizeof counts) == 0 && counts.characters == length && counts.width == width);
        HOLDS(old_lines - damage.old_lines + damage.new_lines == counts.lines);
        HOLDS(old_paragraphs - damage.old_paragraphs + damage.new_paragraphs == counts.paragraphs);
        OK(hordguli_text(&kept, 0, length, sizeof got, got, &got_size));
        HOLDS(got_size == size && memcmp(got, bytes, size) == 0);
        OK(hordguli_text_utf32(&kept, 0, length, MOST * 4, got_characters, &got_size));
        HOLDS(got_size == length && memcmp(got_characters, text, length * sizeof *text) == 0);
        OK(hordguli_utf8_length(&kept, 0, length, &got_size));
        HOLDS(got_size == size);
        OK(hordguli_count_utf8(bytes, size, &got_size));
        HOLDS(got_size == length);
        same_pages(&kept, &anew, &counts, HORDGULI_PRINT_DEFAULT);
        same_pages(&kept, &anew, &counts, (uint32_t)below(128));
        same_lines(&kept, &anew, &counts);
        lines_are_rows(&kept, &tables, &counts, options);
        same_places(&kept, &anew, &counts);
        if (change % 10 == 0) text_alone_is_that_of_session(&kept, bytes, size, length);
        hordguli_session_close(&anew);
        if (failed > 20) break;
    }
    hordguli_session_close(&kept);
    hordguli_tables_close(&tables);
    return finish("random");
}
