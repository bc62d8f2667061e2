/* Prints the break marks or lines that the C library finds, in the format of the program `conformance`, so
 * that tests/conformance/run can run this program instead. Usage: conformance marks-of FOLDER VERSION, or
 * conformance lines-of FOLDER DIRECTION VERSION. FOLDER has the table files of this version of Unicode, 15.0
 * or 17.0. Each line of standard input is a paragraph.
 *
 * Each paragraph is laid out in a session, as a single line. Some paragraphs of the tests contain a
 * separator, at which a session would split them. For these, hordguli_levels finds the levels, and this
 * program applies L1 and L2. */
#include "test.h"

enum { MOST = 4096 };

static uint32_t text[MOST];
static size_t length;

static void fail(const char *what) {
    fprintf(stderr, "conformance: %s\n", what);
    exit(1);
}

static void check(hordguli_status status) {
    if (status != HORDGULI_OK) fail(hordguli_status_text(status));
}

/* Reads the hexadecimal code points in the next line of standard input to `text`. Returns 0 at the end of the
 * input. */
static int next(void) {
    static char line[MOST * 8];
    char *at = line, *end;
    if (fgets(line, sizeof line, stdin) == NULL) return 0;
    for (length = 0;; at = end) {
        unsigned long number = strtoul(at, &end, 16);
        if (end == at) return 1;
        if (length == MOST) fail("a text is too long");
        text[length++] = (uint32_t)number;
    }
}

static void marks_of(hordguli_tables *tables) {
    static uint8_t marks[MOST];
    while (next()) {
        check(hordguli_marks(tables, HORDGULI_WHOLE_NUMBERS, text, length, MOST, marks));
        for (size_t k = 0; k < length; k++) putchar("x/!"[marks[k]]);
        putchar('\n');
    }
}

/* ---- L1 and L2, for the characters in the tests ---- */

static int is_separator(uint32_t c) {
    return c == 0x2029 || c == 0x0A || c == 0x0D || c == 0x85 || (c >= 0x1C && c <= 0x1F) || c == 0x09 || c == 0x0B;
}

static int is_blank(uint32_t c) {
    return c == 0x20 || c == 0x0C || c == 0x1680 || (c >= 0x2000 && c <= 0x200A) || c == 0x2028 || c == 0x205F
           || c == 0x3000 || (c >= 0x202A && c <= 0x202E) || (c >= 0x2066 && c <= 0x2069) || c == 0xAD
           || (c >= 0x200B && c <= 0x200D) || c == 0x2060;
}

static void separators(uint8_t *levels, uint32_t base) {
    int is_end = 1;
    for (size_t k = length; k-- > 0;) {
        is_end = is_separator(text[k]) || (is_end && is_blank(text[k]));
        if (is_end) levels[k] = (uint8_t)base;
    }
}

static void order(const uint8_t *levels, uint32_t *vtol) {
    for (size_t k = 0; k < length; k++) vtol[k] = (uint32_t)k;
    for (int level = 127; level > 0; level--)
        for (size_t from = 0; from < length;) {
            size_t to = from;
            while (to < length && levels[vtol[to]] >= level) to++;
            for (size_t a = from, b = to; a + 1 < b; a++) {
                uint32_t held = vtol[a];
                vtol[a] = vtol[--b];
                vtol[b] = held;
            }
            from = to + 1;
        }
}

static uint32_t option(const char *direction) {
    if (strcmp(direction, "ltr") == 0) return HORDGULI_LTR;
    if (strcmp(direction, "rtl") == 0) return HORDGULI_RTL;
    if (strcmp(direction, "wrtl") == 0) return HORDGULI_WEAK_RTL;
    return HORDGULI_WEAK_LTR;
}

static void lines_of(hordguli_tables *tables, uint32_t direction) {
    static char bytes[MOST * 4];
    static uint8_t levels[MOST];
    static uint32_t vtol[MOST];
    hordguli_session session = HORDGULI_SESSION_INIT;
    size_t before = 0;
    check(hordguli_session_open(&session, tables, direction | HORDGULI_NOBREAK, 65535, NULL, 0));
    while (next()) {
        hordguli_damage damage;
        hordguli_counts counts;
        size_t shown = length;
        uint32_t base;
        check(hordguli_replace(&session, 0, before, bytes, encoded(text, length, bytes), &damage));
        before = length;
        check(hordguli_session_counts(&session, &counts));
        if (counts.lines == 1) {
            hordguli_line_info info;
            check(hordguli_line(&session, 0, &info, MOST, NULL, levels, NULL, vtol, NULL));
            shown = info.shown;
            base = info.base;
        } else {
            check(hordguli_base(tables, direction, text, length, &base));
            check(hordguli_levels(tables, direction, text, length, MOST, levels));
            separators(levels, base);
            order(levels, vtol);
        }
        printf("%u;", (unsigned)base);
        for (size_t k = 0; k < shown; k++) printf(" %u", levels[k]);
        putchar(';');
        for (size_t k = 0; k < shown; k++) printf(" %u", (unsigned)vtol[k]);
        putchar('\n');
    }
    hordguli_session_close(&session);
}

int main(int count, char **words) {
    hordguli_tables tables = HORDGULI_TABLES_INIT;
    int is_17 = strcmp(words[count - 1], "17.0") == 0;
    if (count < 4) fail("what, by which tables, and of which version?");
    check(hordguli_tables_open_folder_version(&tables, is_17 ? HORDGULI_UNICODE_17_0 : HORDGULI_UNICODE_15_0, words[2], NULL));
    if (strcmp(words[1], "marks-of") == 0) marks_of(&tables);
    else lines_of(&tables, option(words[3]));
    hordguli_tables_close(&tables);
    if (fflush(stdout) != 0) fail("cannot write");
    return 0;
}
