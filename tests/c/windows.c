/* Types and erases single characters in long paragraphs, each next to a character of the same kind. After each edit, the
 * session must have the lines of a new session on the whole text. Unless lines are ordered by clusters, most such edits fill
 * only the lines around them again. Usage: windows FOLDER EDITS [17.0], where FOLDER has the table files, by default of Unicode 15.0. */
#include "test.h"
#include "kinds.h"

enum { LENGTH = 3000, EDITS_OF_ONE = 200, BYTES = 1 << 19 };

#define OK(call) HOLDS((call) == HORDGULI_OK)

static uint32_t text[2 * LENGTH];
static size_t length;
static char bytes[BYTES];

/* Makes a text of words in one script or several, with spaces, and sometimes a combining mark or punctuation between them. */
static void make_text(void) {
    size_t only = below(2 * KINDS);
    length = 0;
    while (length < LENGTH) {
        size_t kind = only < KINDS - 1 ? only : below(KINDS - 1);
        for (size_t left = 1 + below(9); left > 0; left--) text[length++] = one_of_kind(kind);
        if (below(8) == 0) text[length++] = (const uint32_t[]){0x301, ',', '(', ')', '-', 0xAD, 0x200D, 0x1F468}[below(8)];
        if (below(6) != 0) text[length++] = ' ';
    }
    if (below(2) == 0) text[length++] = '\n';
}

/* Compares the lines of both sessions: where each starts, its width, and what is printed. */
static void have_the_same_lines(hordguli_session *kept, hordguli_session *anew) {
    static char pages[2][BYTES];
    hordguli_session *both[2] = {kept, anew};
    hordguli_counts counts[2];
    size_t sizes[2] = {0, 0};
    for (int k = 0; k < 2; k++) {
        OK(hordguli_session_counts(both[k], &counts[k]));
        OK(hordguli_lines_utf8(both[k], 0, counts[k].lines, HORDGULI_PRINT_DEFAULT, BYTES, pages[k], &sizes[k]));
    }
    HOLDS(memcmp(&counts[0], &counts[1], sizeof *counts) == 0);
    HOLDS(sizes[0] == sizes[1] && memcmp(pages[0], pages[1], sizes[0]) == 0);
    for (size_t line = 0; line < counts[0].lines && line < counts[1].lines; line++) {
        static uint8_t levels[2][LENGTH * 2];
        static uint32_t ltov[2][LENGTH * 2], vtol[2][LENGTH * 2];
        hordguli_line_info infos[2];
        for (int k = 0; k < 2; k++) OK(hordguli_line(both[k], line, &infos[k], 2 * LENGTH, NULL, levels[k], ltov[k], vtol[k], NULL));
        HOLDS(memcmp(&infos[0], &infos[1], sizeof *infos) == 0 && memcmp(levels[0], levels[1], infos[0].shown) == 0);
        HOLDS(memcmp(ltov[0], ltov[1], infos[0].shown * sizeof **ltov) == 0 && memcmp(vtol[0], vtol[1], infos[0].shown * sizeof **vtol) == 0);
    }
}

/* Inserts or deletes a character next to one of its kind. Returns whether it found a place for this. */
static int edit_at(hordguli_session *session, size_t pos) {
    hordguli_damage damage;
    size_t kind = pos > 0 ? kind_of(text[pos - 1]) : KINDS;
    if (kind == KINDS) return 0;
    if (below(2) == 0 && pos < length && kind_of(text[pos]) == kind) {
        memmove(text + pos, text + pos + 1, (length - pos - 1) * sizeof *text);
        length--;
        return OK(hordguli_delete(session, pos, 1, &damage));
    }
    memmove(text + pos + 1, text + pos, (length - pos) * sizeof *text);
    text[pos] = one_of_kind(kind);
    length++;
    return OK(hordguli_insert(session, pos, bytes, encoded(text + pos, 1, bytes), &damage));
}

int main(int count, char **words) {
    hordguli_tables tables = HORDGULI_TABLES_INIT;
    hordguli_session kept = HORDGULI_SESSION_INIT;
    long edits, edited = 0, whole = 0;
    if (count != 3 && count != 4) return 2;
    edits = atol(words[2]);
    if (!OK(hordguli_tables_open_folder_version(&tables, count == 4 ? HORDGULI_UNICODE_17_0 : HORDGULI_UNICODE_15_0, words[1], NULL))) return finish("windows");
    while (edited < edits && failed < 20) {
        uint32_t width = 1 + (uint32_t)below(60), options = (uint32_t)below(128) & ~(uint32_t)HORDGULI_NOBREAK;
        make_text();
        OK(hordguli_session_open(&kept, &tables, options, width, bytes, encoded(text, length, bytes)));
        for (int k = 0; k < EDITS_OF_ONE && edited < edits; k++) {
            hordguli_session anew = HORDGULI_SESSION_INIT;
            hordguli_work before, after;
            OK(hordguli_session_work(&kept, &before));
            if (!edit_at(&kept, below(length + 1))) continue;
            edited++;
            OK(hordguli_session_work(&kept, &after));
            HOLDS(after.analysed == before.analysed && after.filled - before.filled <= length && after.written - before.written <= length);
            whole += (options & HORDGULI_REORDER_CLUSTERS) == 0 && after.filled - before.filled > length / 2;
            OK(hordguli_session_open(&anew, &tables, options, width, bytes, encoded(text, length, bytes)));
            have_the_same_lines(&kept, &anew);
            hordguli_session_close(&anew);
        }
        hordguli_session_close(&kept);
    }
    HOLDS(whole < edited / 2);
    hordguli_tables_close(&tables);
    return finish("windows");
}
