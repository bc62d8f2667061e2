/* Tests the snippets of "Writing an editor" in docs/guide.md, which tests/docs/run writes to snippets.h. Usage:
 * editor FOLDER, where FOLDER has the table files. */
#include <hordguli.h>
#include <stdio.h>
#include <string.h>

#include "snippets.h"

static int failed;

static void holds(int is_so, int at, const char *what) {
    if (!is_so) printf("editor.c:%d: does not hold: %s\n", at, what);
    failed |= !is_so;
}
#define HOLDS(condition) holds((condition), __LINE__, #condition)
#define OK(call) HOLDS((call) == HORDGULI_OK)

static int is_at(size_t line, size_t column) {
    size_t found[2] = {77, 77};
    return locate_caret(&found[0], &found[1]) == HORDGULI_OK && found[0] == line && found[1] == column;
}

static int is_edge(size_t pos, uint32_t side) { return caret.pos == pos && caret.side == side; }

static char highlighted[100];

static void highlight(size_t left, size_t right) {
    sprintf(highlighted + strlen(highlighted), "%zu-%zu ", left, right);
}

/* Opens the session on another text, with the caret after the text's last character or, if this character
 * ends a line, at the start of the next line. */
static void open_text(hordguli_tables *tables, uint32_t options, uint32_t width, const char *text) {
    hordguli_counts all = {0};
    hordguli_session_close(&session);
    OK(hordguli_session_open(&session, tables, HORDGULI_SHOW_SPACES | options, width, text, strlen(text)));
    OK(hordguli_session_counts(&session, &all));
    OK(keep_edge(all.characters));
}

static void test_backspace(hordguli_tables *tables) {
    /* the caret stays in column 4, at the left end of the Hebrew letters */
    open_text(tables, 0, 20, "abc ");
    OK(type("\u05d0\u05d1\u05d2", 6));
    HOLDS(is_at(0, 4));
    for (size_t pos = 6; pos >= 4; pos--) {
        OK(press_backspace());
        HOLDS(is_edge(pos, HORDGULI_AFTER) && is_at(0, 4));
    }
    /* the caret stays at the end of a wrapped line */
    open_text(tables, 0, 10, "aaaaaaaa  cccc");
    caret = (hordguli_edge){0, HORDGULI_BEFORE, 0};
    OK(press_home_or_end(1));
    HOLDS(is_at(0, 10));
    OK(press_backspace());
    HOLDS(is_at(0, 9));
    /* Backspace deletes a whole cluster, and the caret is then at the start of the line */
    open_text(tables, 0, 20, "a\u2028e\u0301");
    OK(press_backspace());
    HOLDS(is_edge(2, HORDGULI_BEFORE));
    OK(press_backspace());
    OK(press_backspace());
    HOLDS(is_edge(0, HORDGULI_BEFORE) && is_at(0, 0));
    HOLDS(press_backspace() == HORDGULI_OUT_OF_RANGE);
    OK(type("", 0));
    HOLDS(is_edge(0, HORDGULI_BEFORE));
    open_text(tables, 0, 20, "a\r\nb");
    OK(press_backspace());
    HOLDS(is_edge(3, HORDGULI_BEFORE) && is_at(1, 0));
    OK(press_backspace());
    HOLDS(is_edge(1, HORDGULI_AFTER) && is_at(0, 1));
}

static void test_line_that_does_not_exist(hordguli_tables *tables) {
    open_text(tables, 0, 20, "\u05d0\n");
    HOLDS(is_at(1, 0));
    open_text(tables, HORDGULI_RTL, 20, "a\n");
    HOLDS(is_at(1, 20));
    open_text(tables, HORDGULI_WEAK_RTL, 20, "");
    HOLDS(is_at(0, 20));
}

int main(int count, char **words) {
    /* a line in which the direction changes, and a right-to-left line with padding */
    static const char text[] = "abc \u05d0\u05d1\u05d2 def\n\u05d0\u05d1 \u05d2\n";
    static const size_t stops[] = {1, 2, 3, 4, 5, 6, 7, 8, 9, 10, 11};
    hordguli_tables tables = HORDGULI_TABLES_INIT;
    if (count != 2) return 2;
    OK(hordguli_tables_open_folder(&tables, words[1], NULL));
    OK(hordguli_session_open(&session, &tables, 0, 20, text, strlen(text)));
    HOLDS(is_at(0, 0));
    for (size_t k = 0; k < sizeof stops / sizeof *stops; k++) {
        OK(press_arrow(HORDGULI_RIGHT));
        HOLDS(is_at(0, stops[k]));
    }
    OK(press_arrow(HORDGULI_RIGHT));
    HOLDS(is_at(1, 16) && is_edge(16, HORDGULI_AFTER));
    for (int k = 0; k < 4; k++) OK(press_arrow(HORDGULI_RIGHT));
    HOLDS(is_at(1, 20));
    OK(press_arrow(HORDGULI_RIGHT));
    HOLDS(is_at(2, 0) && is_edge(17, HORDGULI_BEFORE));
    HOLDS(press_arrow(HORDGULI_RIGHT) == HORDGULI_OUT_OF_RANGE);
    OK(press_arrow(HORDGULI_LEFT));
    HOLDS(is_at(1, 20));
    for (int k = 0; k < 5 + 11; k++) OK(press_arrow(HORDGULI_LEFT));
    HOLDS(is_at(0, 0));
    HOLDS(press_arrow(HORDGULI_LEFT) == HORDGULI_OUT_OF_RANGE);
    OK(click(1, 3)); /* in the padding */
    HOLDS(is_at(1, 16));
    OK(click(1, 18));
    HOLDS(is_at(1, 18));
    OK(press_home_or_end(0));
    HOLDS(is_at(1, 20) && is_edge(12, HORDGULI_BEFORE));
    OK(press_home_or_end(1));
    HOLDS(is_at(1, 16) && is_edge(16, HORDGULI_BEFORE));
    HOLDS(click(3, 0) == HORDGULI_OUT_OF_RANGE);
    OK(click(0, 2));
    anchor = caret;
    OK(go_to_end_of_word());
    HOLDS(is_edge(3, HORDGULI_AFTER));
    OK(go_to_end_of_word());
    HOLDS(is_edge(7, HORDGULI_AFTER) && is_at(0, 4));
    OK(draw_selection(0, highlight));
    HOLDS(strcmp(highlighted, "2-7 ") == 0);
    caret.pos = 5;
    highlighted[0] = '\0';
    OK(draw_selection(0, highlight));
    HOLDS(strcmp(highlighted, "2-4 6-7 ") == 0);
    OK(type("\u05d3x", 3));
    HOLDS(is_edge(7, HORDGULI_AFTER) && anchor.pos == 7);
    OK(type("\n", 1));
    HOLDS(is_edge(8, HORDGULI_BEFORE) && caret.side == HORDGULI_BEFORE);
    OK(click(3, 0));
    HOLDS(go_to_end_of_word() == HORDGULI_OUT_OF_RANGE);
    HOLDS(is_edge(20, HORDGULI_BEFORE));
    test_backspace(&tables);
    test_line_that_does_not_exist(&tables);
    hordguli_session_close(&session);
    hordguli_tables_close(&tables);
    return failed;
}
