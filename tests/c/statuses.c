/* Tests the constants, fields, parameters and statuses of hordguli.h. Usage: statuses FOLDER HEADER. FOLDER has the
 * table files and their image; HEADER is hordguli.h.
 *
 * - Each status, option, flag and other constant has the expected value, and each status its text.
 * - Each field of each struct is at its expected offset, and receives the right value. Parameters of the same type are
 *   not swapped.
 * - If two errors of a call apply, the call returns the one that the header lists first, and changes nothing. The call
 *   returns the same error if every allocation fails, unless the header lists NO_MEMORY first. (In calls
 *   without other errors, tests/c/refuse.c makes each allocation fail.) */
#include "test.h"

#include <stddef.h>
#include <sys/stat.h>
#include <unistd.h>

#define OK(call) HOLDS((call) == 0)

static hordguli_tables tables = HORDGULI_TABLES_INIT;

/* ---- Numbers ---- */

/* The index of each status is its number. */
#define STATUS(name, text) {#name, HORDGULI_##name, text}
static const struct {
    const char *name;
    hordguli_status status;
    const char *text;
} statuses[] = {
    STATUS(OK, "ok"),
    STATUS(OUT_OF_RANGE, "no such position, range, line or paragraph"),
    STATUS(WIDTH_OUT_OF_RANGE, "width out of range"),
    STATUS(TEXT_TOO_LONG, "text too long"),
    STATUS(PARAGRAPH_TOO_LONG, "paragraph too long"),
    STATUS(NO_MEMORY, "out of memory"),
    STATUS(TABLE_FAULT, "a table file or an image is at fault"),
    STATUS(NOT_UTF8, "not UTF-8"),
    STATUS(NOT_A_CHARACTER, "not a character"),
    STATUS(CLOSED, "closed"),
    STATUS(ALREADY_OPEN, "already open"),
    STATUS(UNKNOWN_OPTION, "unknown option"),
    STATUS(NO_ROOM, "buffer too small"),
    STATUS(NULL, "null pointer"),
    STATUS(OVERLAP, "arrays overlap"),
    STATUS(UNREAD_FILE, "cannot read a table file"),
    STATUS(NOT_MEASURED, "not a measured session"),
};

enum { STATUSES = 17 };

static void statuses_have_their_numbers_and_texts(void) {
    HOLDS(sizeof statuses / sizeof *statuses == STATUSES);
    for (hordguli_status a = 0; a < STATUSES; a++) {
        HOLDS(statuses[a].status == a);
        HOLDS(strcmp(hordguli_status_text(a), statuses[a].text) == 0);
    }
    HOLDS(strcmp(hordguli_status_text(-1), "unknown status") == 0);
    HOLDS(strcmp(hordguli_status_text(17), "unknown status") == 0);
}

static void constants_have_their_numbers(void) {
#define NUMBER(name, number) HOLDS(HORDGULI_##name == (number))
    NUMBER(WEAK_LTR, 0x3000000), NUMBER(WEAK_RTL, 0x2000001), NUMBER(LTR, 0x1000002), NUMBER(RTL, 3);
    NUMBER(NOBREAK, 4), NUMBER(REORDER_NSM, 8), NUMBER(WHOLE_NUMBERS, 16);
    NUMBER(REORDER_CLUSTERS, 32), NUMBER(SHOW_SPACES, 64), NUMBER(LINE_SEPARATORS, 0x4000000);
    NUMBER(TAB_WIDTH(1), 256), NUMBER(TAB_WIDTH(8), 2048), NUMBER(TAB_WIDTH(255), 65280), NUMBER(TAB_WIDTH(256), 65536);
    NUMBER(PRINT_VISUAL, 1), NUMBER(PRINT_BASEDIR, 2), NUMBER(PRINT_LTOV, 4), NUMBER(PRINT_VTOL, 8);
    NUMBER(PRINT_LEVELS, 16), NUMBER(PRINT_PADDED, 32), NUMBER(PRINT_MIRRORED, 64), NUMBER(PRINT_DEFAULT, 97);
    NUMBER(BEFORE, 0), NUMBER(AFTER, 1), NUMBER(LEFT, 0), NUMBER(RIGHT, 1);
    NUMBER(BREAK_NEVER, 0), NUMBER(BREAK_MAY, 1), NUMBER(BREAK_MUST, 2);
    NUMBER(BRACKET_CASE_B, 1), NUMBER(BRACKET_CASE_C1, 2), NUMBER(BRACKET_CASE_C2, 3), NUMBER(BRACKET_CASE_D, 4);
    NUMBER(BRACKET_CASE_NOT_OTHER, 5), NUMBER(BRACKET_CASE_NO_MATCH, 6), NUMBER(BRACKET_CASE_PAST_LIMIT, 7);
    NUMBER(NEUTRAL_N1, 1), NUMBER(NEUTRAL_N2, 2);
    NUMBER(MARK, 1), NUMBER(WIDE, 2), NUMBER(BRACKET_NONE, 0), NUMBER(BRACKET_OPEN, 1), NUMBER(BRACKET_CLOSE, 2);
    NUMBER(BIDI_CLASS_L, 0), NUMBER(BIDI_CLASS_B, 10), NUMBER(BIDI_CLASS_PDI, 22);
    NUMBER(LINE_CLASS_BK, 0), NUMBER(LINE_CLASS_B2, 10), NUMBER(LINE_CLASS_XX, 42), NUMBER(LINE_CLASS_VI, 48);
    NUMBER(UNICODE_15_0, 983040), NUMBER(UNICODE_17_0, 1114112);
    NUMBER(TABLE_FILES, 7);
    NUMBER(BIDI_CLASS, 0), NUMBER(BIDI_BRACKETS, 1), NUMBER(BIDI_MIRRORING, 2), NUMBER(LINE_BREAK, 3);
    NUMBER(GENERAL_CATEGORY, 4), NUMBER(EAST_ASIAN_WIDTH, 5), NUMBER(EMOJI_DATA, 6);
    NUMBER(CAUSE_NOT_ASCII, 1), NUMBER(CAUSE_CODE_POINT, 2), NUMBER(CAUSE_REVERSED, 3);
    NUMBER(CAUSE_FIELD_COUNT, 4), NUMBER(CAUSE_VALUE, 5), NUMBER(CAUSE_NAMED_BEFORE, 6);
    NUMBER(IMAGE, 7), NUMBER(CAUSE_TRUNCATED, 8), NUMBER(CAUSE_MAGIC, 9), NUMBER(CAUSE_FORMAT, 10);
    NUMBER(CAUSE_VERSION, 11), NUMBER(CAUSE_EXCESS, 12), NUMBER(CAUSE_CHECKSUM, 13), NUMBER(CAUSE_PAGE_NUMBER, 14);
    NUMBER(CAUSE_ENTRY, 15), NUMBER(CAUSE_BRACKET, 16), NUMBER(CAUSE_MIRROR, 17), NUMBER(CAUSE_FLAGS, 18);
}

/* ---- Fields ---- */

#define WORDS(count) ((count) * sizeof(size_t))
#define FIELD(type, field, offset, of)                                                                                 \
    _Static_assert(offsetof(hordguli_##type, field) == (offset)                                                        \
                       && sizeof(((hordguli_##type *)0)->field) == sizeof(of),                                         \
                   "place of " #type "." #field)
#define SIZE(type, size) _Static_assert(sizeof(hordguli_##type) == (size), "size of " #type)

_Static_assert(sizeof(hordguli_status) == 4 && (hordguli_status)-1 < 0, "a status has 32 bits and a sign");
FIELD(tables, at, 0, void *);
SIZE(tables, sizeof(void *));
FIELD(session, at, 0, void *);
SIZE(session, sizeof(void *));
FIELD(bytes, bytes, 0, void *);
FIELD(bytes, length, sizeof(void *), size_t);
SIZE(bytes, sizeof(void *) + sizeof(size_t));
FIELD(table_fault, file, WORDS(0), size_t);
FIELD(table_fault, line, WORDS(1), size_t);
FIELD(table_fault, cause, WORDS(2), size_t);
SIZE(table_fault, WORDS(3));
FIELD(damage, first_line, WORDS(0), size_t);
FIELD(damage, old_lines, WORDS(1), size_t);
FIELD(damage, new_lines, WORDS(2), size_t);
FIELD(damage, first_paragraph, WORDS(3), size_t);
FIELD(damage, old_paragraphs, WORDS(4), size_t);
FIELD(damage, new_paragraphs, WORDS(5), size_t);
SIZE(damage, WORDS(6));
FIELD(counts, characters, WORDS(0), size_t);
FIELD(counts, lines, WORDS(1), size_t);
FIELD(counts, paragraphs, WORDS(2), size_t);
FIELD(counts, width, WORDS(3), size_t);
SIZE(counts, WORDS(4));
FIELD(work, analysed, 0, uint64_t);
FIELD(work, filled, 8, uint64_t);
FIELD(work, written, 16, uint64_t);
SIZE(work, 24);
FIELD(place, paragraph, WORDS(0), size_t);
FIELD(place, line, WORDS(1), size_t);
FIELD(place, offset, WORDS(2), size_t);
SIZE(place, WORDS(3));
FIELD(caret, line, WORDS(0), size_t);
FIELD(caret, column, WORDS(1), size_t);
FIELD(caret, level, WORDS(2), uint32_t);
FIELD(caret, zero, WORDS(2) + 4, uint32_t);
SIZE(caret, WORDS(2) + 8);
FIELD(hit, pos, WORDS(0), size_t);
FIELD(hit, trailing, WORDS(1), uint32_t);
FIELD(hit, zero, WORDS(1) + 4, uint32_t);
SIZE(hit, WORDS(1) + 8);
FIELD(cluster, start, WORDS(0), size_t);
FIELD(cluster, end, WORDS(1), size_t);
SIZE(cluster, WORDS(2));
FIELD(run, start, WORDS(0), size_t);
FIELD(run, length, WORDS(1), size_t);
FIELD(run, level, WORDS(2), uint32_t);
FIELD(run, zero, WORDS(2) + 4, uint32_t);
SIZE(run, WORDS(2) + 8);
FIELD(script_run, start, WORDS(0), size_t);
FIELD(script_run, length, WORDS(1), size_t);
FIELD(script_run, script, WORDS(2), uint32_t);
FIELD(script_run, zero, WORDS(2) + 4, uint32_t);
SIZE(script_run, WORDS(2) + 8);
FIELD(word, start, WORDS(0), size_t);
FIELD(word, end, WORDS(1), size_t);
FIELD(word, kind, WORDS(2), uint32_t);
FIELD(word, zero, WORDS(2) + 4, uint32_t);
SIZE(word, WORDS(2) + 8);
FIELD(position, pos, WORDS(0), size_t);
FIELD(position, rest, WORDS(1), size_t);
SIZE(position, WORDS(2));
FIELD(span, left, WORDS(0), size_t);
FIELD(span, right, WORDS(1), size_t);
SIZE(span, WORDS(2));
FIELD(edge, pos, WORDS(0), size_t);
FIELD(edge, side, WORDS(1), uint32_t);
FIELD(edge, zero, WORDS(1) + 4, uint32_t);
SIZE(edge, WORDS(1) + 8);
FIELD(line_info, start, WORDS(0), size_t);
FIELD(line_info, length, WORDS(1), size_t);
FIELD(line_info, shown, WORDS(2), size_t);
FIELD(line_info, columns, WORDS(3), size_t);
FIELD(line_info, padding, WORDS(4), size_t);
FIELD(line_info, base, WORDS(5), uint32_t);
FIELD(line_info, first, WORDS(5) + 4, uint32_t);
SIZE(line_info, WORDS(5) + 8);
FIELD(reason, opener, 0, uint32_t);
FIELD(reason, matching, 4, uint32_t);
FIELD(reason, sequence, 8, uint32_t);
FIELD(reason, partner, 12, uint32_t);
FIELD(reason, inside, 16, uint32_t);
FIELD(reason, left, 20, uint32_t);
FIELD(reason, right, 24, uint32_t);
FIELD(reason, class_after, 28, uint8_t[11]);
FIELD(reason, override_class, 39, uint8_t);
FIELD(reason, embedding_level, 40, uint8_t);
FIELD(reason, level, 41, uint8_t);
FIELD(reason, sos, 42, uint8_t);
FIELD(reason, eos, 43, uint8_t);
FIELD(reason, bracket_case, 44, uint8_t);
FIELD(reason, neutral, 45, uint8_t);
SIZE(reason, 48);
FIELD(break_reason, base, 0, uint32_t);
FIELD(break_reason, behind_spaces, 4, uint32_t);
FIELD(break_reason, rule, 8, uint8_t);
FIELD(break_reason, letter, 9, uint8_t);
FIELD(break_reason, class_before, 10, uint8_t);
FIELD(break_reason, class_after, 11, uint8_t);
FIELD(break_reason, mark, 12, uint8_t);
SIZE(break_reason, 16);
FIELD(character, mirror, 0, uint32_t);
FIELD(character, pair, 4, uint32_t);
FIELD(character, flags, 8, uint32_t);
FIELD(character, bidi_class, 12, uint8_t);
FIELD(character, line_class, 13, uint8_t);
FIELD(character, columns, 14, uint8_t);
FIELD(character, bracket, 15, uint8_t);
SIZE(character, 16);
FIELD(paragraph_info, length, WORDS(0), size_t);
FIELD(paragraph_info, lines, WORDS(1), size_t);
FIELD(paragraph_info, base, WORDS(2), uint32_t);
FIELD(paragraph_info, zero, WORDS(2) + 4, uint32_t);
FIELD(paragraph_info, start, WORDS(2) + 8, size_t);
FIELD(paragraph_info, first_line, WORDS(3) + 8, size_t);
SIZE(paragraph_info, WORDS(4) + 8);

/* A paragraph of two lines; a right-to-left paragraph of two lines, the second with two marks of width 0 and a number;
 * and a paragraph of one line. */
static const char mixed[] =
    "one two three\n\u05d0\u05d1\u05d2\u05d3\u05d4\u05d5 \u05d3\u05b0\u05d4\u05b0\u05d5 12\nlast";

/* Paragraphs of 3, 2, 3, 2, 2 and 1 lines of at most 4 columns. The paragraphs start at 0, 12, 20, 32, 40 and 48. */
static const char words[] = "aaa bbb ccc\naaa bbb\naaa bbb ccc\naaa bbb\naaa bbb\naaa";

/* Opens a session on a text, after closing the old one if it is open. */
static void reopen(hordguli_session *session, const char *text, uint32_t width) {
    hordguli_session_close(session);
    OK(hordguli_session_open(session, &tables, 0, width, text, strlen(text)));
}

static void table_fault_has_each_value_in_its_field(void) {
    hordguli_bytes files[7] = {{NULL, 0}};
    hordguli_tables none = HORDGULI_TABLES_INIT;
    hordguli_table_fault fault = {77, 77, 77};
    static const char wrong[] = "0041;AL\n\n\n\n0042\n";
    files[3].bytes = wrong;
    files[3].length = sizeof wrong - 1;
    HOLDS(hordguli_tables_read(&none, files, &fault) == 6);
    HOLDS(fault.file == 3), HOLDS(fault.line == 5), HOLDS(fault.cause == 4);
}

static hordguli_status read_files(hordguli_tables *none, const char *const lines[7], hordguli_table_fault *fault) {
    hordguli_bytes files[7];
    for (size_t k = 0; k < 7; k++) {
        files[k].bytes = lines[k];
        files[k].length = lines[k] == NULL ? 0 : strlen(lines[k]);
    }
    return hordguli_tables_read(none, files, fault);
}

/* Each of the first four files has a line that would be malformed in the other three. Each of the last three
 * files changes one break mark. */
static void files_have_their_indexes(void) {
    static const char *const own_lines[7] = {
        "0041;EN\n",
        "0028;0029;o\n",
        "0028;0029\n",
        "0041;NU\n",
        "0E31;Mn\n",
        "0028;W\n",
        "1F000;Extended_Pictographic\n",
    };
    static const uint32_t characters[6] = {0x4E00, 0xE31, 'A', '(', 0x1F000, 0x1F3FB};
    for (size_t k = 0; k < 7; k++) {
        for (size_t j = k < 4 ? 0 : 4; j < (k < 4 ? 4 : 7); j++) {
            const char *lines[7] = {NULL};
            hordguli_tables none = HORDGULI_TABLES_INIT;
            hordguli_table_fault fault = {77, 77, 77};
            hordguli_status status;
            if (k >= 4) lines[3] = "0041;AL\n0028;OP\n4E00;ID\n1F000;XX\n1F3FB;EM\n0E31;SA\n";
            lines[j] = own_lines[k];
            status = read_files(&none, lines, &fault);
            HOLDS(status == (k >= 4 || j == k ? 0 : 6) && fault.file == (k >= 4 || j == k ? 77 : j));
            if (k >= 4) {
                uint8_t marks[6] = {77, 77, 77, 77, 77, 77};
                OK(hordguli_marks(&none, 0, characters, 6, 6, marks));
                HOLDS(marks[0] == (k == 4 && j == 4 ? 0 : 1)); /* LB1 and LB9: 0E31 is a mark */
                HOLDS(marks[2] == (k == 5 && j == 5 ? 1 : 0)); /* LB30: the parenthesis is wide */
                HOLDS(marks[4] == (k == 6 && j == 6 ? 0 : 1)); /* LB30b: 1F000 is an unassigned pictograph */
            }
            hordguli_tables_close(&none);
        }
    }
}

static void is_damage(const hordguli_damage *damage, const size_t wanted[6]) {
    HOLDS(damage->first_line == wanted[0]);
    HOLDS(damage->old_lines == wanted[1]);
    HOLDS(damage->new_lines == wanted[2]);
    HOLDS(damage->first_paragraph == wanted[3]);
    HOLDS(damage->old_paragraphs == wanted[4]);
    HOLDS(damage->new_paragraphs == wanted[5]);
}

static void has_changed(hordguli_session *session, const size_t wanted[3]) {
    hordguli_changed changed = {77, 77, 77};
    OK(hordguli_changed_lines(session, &changed));
    HOLDS(changed.first_line == wanted[0]);
    HOLDS(changed.old_lines == wanted[1]);
    HOLDS(changed.new_lines == wanted[2]);
}

static void has_text(hordguli_session *session, const char *wanted) {
    char bytes[200];
    size_t length = 0;
    hordguli_counts counts = {0, 0, 0, 0};
    OK(hordguli_session_counts(session, &counts));
    OK(hordguli_text(session, 0, counts.characters, sizeof bytes, bytes, &length));
    HOLDS(length == strlen(wanted) && memcmp(bytes, wanted, length) == 0);
}

static void damage_and_changed_lines_have_each_value_in_its_field(void) {
    hordguli_session session = HORDGULI_SESSION_INIT;
    hordguli_damage damage = {77, 77, 77, 77, 77, 77};
    reopen(&session, words, 4);
    has_changed(&session, (const size_t[]){0, 0, 13});
    OK(hordguli_insert(&session, 24, "d\ne\nf\ng", 7, &damage));
    is_damage(&damage, (const size_t[]){5, 3, 6, 2, 1, 4});
    has_changed(&session, (const size_t[]){6, 1, 4});
    has_text(&session, "aaa bbb ccc\naaa bbb\naaa d\ne\nf\ngbbb ccc\naaa bbb\naaa bbb\naaa");
    reopen(&session, words, 4);
    OK(hordguli_delete(&session, 31, 12, &damage));
    is_damage(&damage, (const size_t[]){5, 7, 4, 2, 3, 1});
    has_changed(&session, (const size_t[]){8, 3, 0}); /* (the tail is not shown) */
    has_text(&session, "aaa bbb ccc\naaa bbb\naaa bbb ccc bbb\naaa");
    reopen(&session, words, 4);
    OK(hordguli_replace(&session, 24, 20, "ddd ddd ", 8, &damage));
    is_damage(&damage, (const size_t[]){5, 7, 4, 2, 3, 1});
    has_changed(&session, (const size_t[]){6, 5, 2});
    has_text(&session, "aaa bbb ccc\naaa bbb\naaa ddd ddd bbb\naaa");
    reopen(&session, words, 4);
    OK(hordguli_set_width(&session, 8, &damage));
    is_damage(&damage, (const size_t[]){0, 13, 8, 0, 6, 6});
    has_changed(&session, (const size_t[]){0, 12, 7});
    hordguli_session_close(&session);
}

/* In a measured session, `words` has 13 lines at a width of 4 once each advance is 1. */
static void damage_of_measured_text_has_each_value_in_its_field(void) {
    hordguli_session session = HORDGULI_SESSION_INIT;
    hordguli_damage damage = {77, 77, 77, 77, 77, 77};
    uint32_t ones[sizeof words - 1], twos[10];
    for (size_t k = 0; k < sizeof words - 1; k++) ones[k] = 1;
    for (size_t k = 0; k < 10; k++) twos[k] = 2;
    OK(hordguli_session_open_measured(&session, &tables, 0, 4, words, sizeof words - 1));
    OK(hordguli_set_advances(&session, 0, sizeof words - 1, ones, &damage));
    is_damage(&damage, (const size_t[]){0, 6, 13, 0, 6, 6});
    has_changed(&session, (const size_t[]){0, 6, 13});
    OK(hordguli_set_advances(&session, 14, 10, twos, &damage)); /* in the second and third paragraphs */
    is_damage(&damage, (const size_t[]){3, 5, 7, 1, 2, 2});
    has_changed(&session, (const size_t[]){3, 3, 5});
    OK(hordguli_set_measured_width(&session, 8, &damage));
    is_damage(&damage, (const size_t[]){0, 15, 9, 0, 6, 6});
    has_changed(&session, (const size_t[]){0, 14, 8});
    hordguli_session_close(&session);
}

#ifdef WRAPPED
void *__real_malloc(size_t size);
void *__real_realloc(void *block, size_t size);
void *__wrap_malloc(size_t size);
void *__wrap_realloc(void *block, size_t size);

static long allocations, refused = -1;
static int refuses_all;

static int is_allocation_refused(void) { return allocations++ == refused || refuses_all; }

void *__wrap_malloc(size_t size) { return is_allocation_refused() ? NULL : __real_malloc(size); }
void *__wrap_realloc(void *block, size_t size) { return is_allocation_refused() ? NULL : __real_realloc(block, size); }
#endif

static void counts_and_work_have_each_value_in_their_field(void) {
    hordguli_session session = HORDGULI_SESSION_INIT;
    hordguli_counts counts = {77, 77, 77, 77};
    hordguli_work work = {77, 77, 77};
    hordguli_damage damage;
    reopen(&session, mixed, 8);
    OK(hordguli_session_counts(&session, &counts));
    HOLDS(counts.characters == 34), HOLDS(counts.lines == 5), HOLDS(counts.paragraphs == 3), HOLDS(counts.width == 8);
    /* A change of width fills and writes the first 30 characters again, but not the last paragraph, whose one line
     * still fits. */
    OK(hordguli_set_width(&session, 6, &damage));
    OK(hordguli_session_work(&session, &work));
    HOLDS(work.analysed == 34), HOLDS(work.filled == 64), HOLDS(work.written == 64);
#ifdef WRAPPED
    /* The counters `filled` and `written` differ only after a failed call. The last allocation is made after filling
     * and before writing. */
    reopen(&session, mixed, 8);
    allocations = 0;
    OK(hordguli_set_width(&session, 6, &damage));
    long last = allocations - 1;
    reopen(&session, mixed, 8);
    allocations = 0;
    refused = last;
    HOLDS(hordguli_set_width(&session, 6, &damage) == 5);
    refused = -1;
    OK(hordguli_set_width(&session, 6, &damage));
    OK(hordguli_session_work(&session, &work));
    HOLDS(work.analysed == 34), HOLDS(work.filled == 94), HOLDS(work.written == 64);
#endif
    hordguli_session_close(&session);
}

static void places_have_each_value_in_its_field(void) {
    hordguli_session session = HORDGULI_SESSION_INIT;
    hordguli_place place = {77, 77, 77};
    hordguli_caret caret = {77, 77, 77, 77};
    hordguli_hit hit = {77, 77, 77};
    hordguli_cluster cluster = {77, 77};
    hordguli_word word = {77, 77, 77, 77};
    size_t start = 77;
    reopen(&session, mixed, 8);
    OK(hordguli_line_start(&session, 3, &start));
    HOLDS(start == 21);
    OK(hordguli_place_of(&session, 25, &place));
    HOLDS(place.paragraph == 1), HOLDS(place.line == 3), HOLDS(place.offset == 4);
    OK(hordguli_caret_at(&session, 21, &caret));
    HOLDS(caret.line == 3), HOLDS(caret.column == 6), HOLDS(caret.level == 1), HOLDS(caret.zero == 0);
    OK(hordguli_hit_at(&session, 1, 7, &hit));
    HOLDS(hit.pos == 12), HOLDS(hit.trailing == 1), HOLDS(hit.zero == 0);
    OK(hordguli_hit_at(&session, 3, 2,
                       &hit)); /* the space before the number; line 2 has another character at column 3 */
    HOLDS(hit.pos == 26), HOLDS(hit.trailing == 0), HOLDS(hit.zero == 0);
    OK(hordguli_cluster_at(&session, 22, &cluster));
    HOLDS(cluster.start == 21), HOLDS(cluster.end == 23);
    OK(hordguli_word_at(&session, 22, &word));
    HOLDS(word.start == 21), HOLDS(word.end == 26), HOLDS(word.kind == 1), HOLDS(word.zero == 0);
    hordguli_session_close(&session);
}

static void is_edge(const hordguli_edge *edge, size_t pos, uint32_t side) {
    HOLDS(edge->pos == pos), HOLDS(edge->side == side), HOLDS(edge->zero == 0);
}

static void edges_have_each_value_in_their_field(void) {
    hordguli_session session = HORDGULI_SESSION_INIT;
    hordguli_edge edge = {27, 1, 77}, first = {77, 77, 77}, last = {77, 77, 77};
    hordguli_caret caret = {77, 77, 77, 77};
    uint32_t moved = 77;
    size_t ends[8] = {0}, count = 77;
    static const size_t cluster_ends[7] = {2, 4, 5, 6, 7, 8, 9};
    reopen(&session, mixed, 8);
    /* the edge after the space, whose level is odd; the level of the number before it is even */
    OK(hordguli_edge_caret(&session, edge, &caret));
    HOLDS(caret.line == 3), HOLDS(caret.column == 2), HOLDS(caret.level == 1), HOLDS(caret.zero == 0);
    OK(hordguli_step(&session, edge, 0, &first, &moved));
    HOLDS(moved == 1), is_edge(&first, 28, 0);
    OK(hordguli_step(&session, edge, 1, &first, &moved));
    HOLDS(moved == 1), is_edge(&first, 26, 0);
    edge.side = 0;
    OK(hordguli_edge_caret(&session, edge, &caret));
    HOLDS(caret.line == 3), HOLDS(caret.column == 0), HOLDS(caret.level == 2), HOLDS(caret.zero == 0);
    OK(hordguli_step(&session, edge, 0, &first, &moved));
    HOLDS(moved == 0), is_edge(&first, 26, 0);
    OK(hordguli_step(&session, edge, 1, &first, &moved));
    HOLDS(moved == 1), is_edge(&first, 28, 1);
    OK(hordguli_edge_at(&session, 3, 4, &edge));
    is_edge(&edge, 25, 1);
    OK(hordguli_nearest_edge(&session, 3, 4, &edge));
    is_edge(&edge, 25, 1);
    OK(hordguli_line_edges(&session, 3, &first, &last));
    is_edge(&first, 21, 0), is_edge(&last, 29, 0);
    OK(hordguli_line_edges(&session, 0, &first, &last));
    is_edge(&first, 0, 0), is_edge(&last, 7, 0);
    OK(hordguli_line_clusters(&session, 3, 8, ends, &count));
    HOLDS(count == 7), HOLDS(memcmp(ends, cluster_ends, sizeof cluster_ends) == 0), HOLDS(ends[7] == 0);
    hordguli_session_close(&session);
}

static void lines_have_each_value_in_its_field(void) {
    hordguli_session session = HORDGULI_SESSION_INIT;
    hordguli_line_info info = {77, 77, 77, 77, 77, 77, 77};
    hordguli_run runs[2] = {{77, 77, 77, 77}, {77, 77, 77, 77}};
    size_t count = 77;
    uint32_t characters[9] = {0}, ltov[9] = {0}, vtol[9] = {0};
    uint8_t levels[9] = {0};
    size_t columns[9] = {0};
    static const uint32_t visual[8] = {'1', '2', ' ', 0x5D5, 0x5B0, 0x5D4, 0x5B0, 0x5D3};
    static const uint8_t in_order[8] = {1, 1, 1, 1, 1, 1, 2, 2};
    static const uint32_t to_visual[8] = {7, 6, 5, 4, 3, 2, 0, 1}, to_logical[8] = {6, 7, 5, 4, 3, 2, 1, 0};
    static const size_t widths[8] = {1, 1, 1, 1, 0, 1, 0, 1};
    reopen(&session, mixed, 8);
    OK(hordguli_line(&session, 3, &info, 9, characters, levels, ltov, vtol, columns));
    HOLDS(info.start == 21), HOLDS(info.length == 9), HOLDS(info.shown == 8), HOLDS(info.columns == 6);
    HOLDS(info.padding == 2), HOLDS(info.base == 1), HOLDS(info.first == 0);
    HOLDS(memcmp(characters, visual, sizeof visual) == 0);
    HOLDS(memcmp(levels, in_order, sizeof in_order) == 0);
    HOLDS(memcmp(ltov, to_visual, sizeof to_visual) == 0);
    HOLDS(memcmp(vtol, to_logical, sizeof to_logical) == 0);
    HOLDS(memcmp(columns, widths, sizeof widths) == 0);
    OK(hordguli_runs(&session, 3, 2, runs, &count));
    HOLDS(count == 2), HOLDS(runs[0].start == 6), HOLDS(runs[0].length == 2), HOLDS(runs[0].level == 2);
    HOLDS(runs[1].start == 0), HOLDS(runs[1].length == 6), HOLDS(runs[1].level == 1);
    HOLDS(runs[0].zero == 0), HOLDS(runs[1].zero == 0);
    OK(hordguli_line(&session, 4, &info, 0, NULL, NULL, NULL, NULL, NULL));
    HOLDS(info.start == 30), HOLDS(info.length == 4), HOLDS(info.shown == 4), HOLDS(info.columns == 4);
    HOLDS(info.padding == 0), HOLDS(info.base == 0), HOLDS(info.first == 1);
    hordguli_session_close(&session);
}

static void paragraphs_have_each_value_in_its_field(void) {
    hordguli_session session = HORDGULI_SESSION_INIT;
    hordguli_paragraph_info info = {77, 77, 77, 77, 77, 77};
    uint8_t levels[17] = {0}, marks[17] = {0};
    static const uint8_t all_levels[16] = {1, 1, 1, 1, 1, 1, 1, 1, 1, 1, 1, 1, 1, 2, 2, 1};
    static const uint8_t all_marks[16] = {0, 0, 0, 0, 0, 0, 1, 0, 0, 0, 0, 0, 1, 0, 0, 2};
    reopen(&session, mixed, 8);
    OK(hordguli_paragraph(&session, 1, &info, 17, levels, marks));
    HOLDS(info.length == 16), HOLDS(info.lines == 2), HOLDS(info.base == 1), HOLDS(info.zero == 0);
    HOLDS(info.start == 14), HOLDS(info.first_line == 2);
    HOLDS(memcmp(levels, all_levels, sizeof all_levels) == 0);
    HOLDS(memcmp(marks, all_marks, sizeof all_marks) == 0);
    hordguli_session_close(&session);
}

static void is_reason(const hordguli_reason *reason, const uint32_t positions[7], const uint8_t classes[11],
                      const uint8_t rest[7]) {
    HOLDS(reason->opener == positions[0]), HOLDS(reason->matching == positions[1]);
    HOLDS(reason->sequence == positions[2]), HOLDS(reason->partner == positions[3]);
    HOLDS(reason->inside == positions[4]), HOLDS(reason->left == positions[5]), HOLDS(reason->right == positions[6]);
    HOLDS(memcmp(reason->class_after, classes, 11) == 0);
    HOLDS(reason->override_class == rest[0]), HOLDS(reason->embedding_level == rest[1]), HOLDS(reason->level == rest[2]);
    HOLDS(reason->sos == rest[3]), HOLDS(reason->eos == rest[4]);
    HOLDS(reason->bracket_case == rest[5]), HOLDS(reason->neutral == rest[6]);
}

/* Classes are numbers: L is 0, R is 1, ON is 13, RLI is 20, and 255 stands for none. */
static void reasons_have_each_value_in_its_field(void) {
    static const uint32_t in_isolate[] = {0x2067, 'a', '(', 0x5D0, ')', ' ', '[', ']', 'b', 0x2069};
    static const uint32_t embedding[] = {0x5D0, 0x202A, 'a'}, override[] = {0x202E, 'a'};
    static const uint32_t none = UINT32_MAX;
    static const uint8_t pair[] = {13, 13, 13, 13, 13, 13, 13, 13, 13, 1, 1};
    static const uint8_t neutrals[] = {13, 13, 13, 13, 13, 13, 13, 13, 13, 13, 1};
    static const uint8_t initiator[] = {20, 20, 20, 20, 20, 20, 20, 20, 20, 20, 0};
    static const uint8_t letter[] = {1, 1, 1, 1, 1, 1, 1, 1, 1, 1, 1};
    static const uint8_t overridden[] = {0, 1, 1, 1, 1, 1, 1, 1, 1, 1, 1};
    static const uint8_t removed[] = {14, 255, 255, 255, 255, 255, 255, 255, 255, 255, 255};
    hordguli_reason found[10];
    OK(hordguli_reasons(&tables, 2, in_isolate, 10, 10, found));
    is_reason(&found[0], (const uint32_t[]){none, 9, 0, none, none, none, none}, initiator,
              (const uint8_t[]){255, 0, 0, 0, 0, 0, 1});
    is_reason(&found[2], (const uint32_t[]){0, none, 1, 4, 3, none, none}, pair, (const uint8_t[]){255, 1, 1, 1, 1, 1, 0});
    is_reason(&found[6], (const uint32_t[]){0, none, 1, 7, none, 4, 8}, neutrals,
              (const uint8_t[]){255, 1, 1, 1, 1, 4, 2});
    OK(hordguli_reasons(&tables, 3, embedding, 3, 10, found));
    is_reason(&found[0], (const uint32_t[]){none, none, 0, none, none, none, none}, letter,
              (const uint8_t[]){255, 1, 1, 1, 0, 0, 0});
    is_reason(&found[1], (const uint32_t[]){none, none, none, none, none, 0, none}, removed,
              (const uint8_t[]){255, 1, 1, 255, 255, 0, 0});
    OK(hordguli_reasons(&tables, 2, override, 2, 10, found));
    is_reason(&found[1], (const uint32_t[]){0, none, 1, none, none, none, none}, overridden,
              (const uint8_t[]){1, 1, 1, 1, 1, 0, 0});
}

/* SP is 6, ZWJ 9, AL 28 and ID 35. */
static void break_reasons_have_each_value_in_its_field(void) {
    static const uint32_t characters[] = {'(', 'a', ' ', ' ', 0x4E00, 0x200D, 'b'};
    hordguli_break_reason found[7];
    OK(hordguli_break_reasons(&tables, 0, characters, 7, 7, found));
    HOLDS(found[3].base == 3), HOLDS(found[3].behind_spaces == 1), HOLDS(found[3].rule == 18), HOLDS(found[3].letter == 0);
    HOLDS(found[3].class_before == 6), HOLDS(found[3].class_after == 35), HOLDS(found[3].mark == 1);
    HOLDS(found[5].base == 4), HOLDS(found[5].behind_spaces == 4), HOLDS(found[5].rule == 8), HOLDS(found[5].letter == 'a');
    HOLDS(found[5].class_before == 35), HOLDS(found[5].class_after == 28), HOLDS(found[5].mark == 0);
    HOLDS(found[6].base == 6), HOLDS(found[6].class_after == 255), HOLDS(found[6].rule == 3), HOLDS(found[6].mark == 2);
}

/* In each call, parameters of the same type have different values, chosen so that swapping them changes the result. */
static void parameters_are_not_exchanged(void) {
    hordguli_session session = HORDGULI_SESSION_INIT;
    char bytes[64];
    size_t length = 77, offsets[4] = {77, 77, 77, 77};
    uint32_t base = 77;
    uint8_t found[4] = {77, 77, 77, 77};
    uint32_t both[4] = {77, 77, 77, 77}, maps[2][4] = {{77, 77, 77, 77}, {77, 77, 77, 77}};
    hordguli_run runs[4] = {{77, 77, 77, 77}};
    hordguli_script_run scripts[4] = {{77, 77, 77, 77}};
    hordguli_reason reasons[4];
    hordguli_break_reason break_reasons[4];
    static const uint32_t characters[] = {'a', ' ', 0x5D0, 'b'}, row[] = {'(', 0x5D0, '1', ' '};
    static const uint8_t row_levels[] = {1, 1, 2, 1};
    static const char printed[] = "12 \u05d5\u05b0\u05d4\u05b0\u05d3\nlast\n";
    memset(reasons, 77, sizeof reasons);
    memset(break_reasons, 77, sizeof break_reasons);
    reopen(&session, mixed, 8);
    OK(hordguli_lines_utf8(&session, 3, 2, 1, sizeof bytes, bytes, &length));
    HOLDS(length == sizeof printed - 1 && memcmp(bytes, printed, length) == 0);
    OK(hordguli_text(&session, 8, 6, sizeof bytes, bytes, &length));
    HOLDS(length == 6 && memcmp(bytes, "three\n", 6) == 0);
    OK(hordguli_text_utf32(&session, 2, 3, 4, both, &length));
    HOLDS(length == 3 && both[0] == 'e' && both[1] == ' ' && both[2] == 't' && both[3] == 77);
    both[2] = 77;
    OK(hordguli_utf8_length(&session, 12, 3, &length));
    HOLDS(length == 4);
    OK(hordguli_valid_utf8("\u05d0a\xd7\u05d1", 6, &length));
    HOLDS(length == 3);
    OK(hordguli_count_utf8("\u05d0a\u05d1", 5, &length));
    HOLDS(length == 3);
    OK(hordguli_decode("\u05d0a\xd7\u05d1", 3, 4, both, offsets, &length));
    HOLDS(length == 2 && both[0] == 0x5D0 && both[1] == 'a' && both[2] == 77);
    HOLDS(offsets[0] == 0 && offsets[1] == 2 && offsets[2] == 77);
    OK(hordguli_clusters(3, (const uint32_t[]){'a', 0x301, 'b', 'c'}, 4, offsets, &length));
    HOLDS(length == 2 && offsets[0] == 2 && offsets[1] == 3 && offsets[2] == 77);
    OK(hordguli_script_runs(&tables, 3, characters, 4, scripts, &length));
    HOLDS(length == 2 && scripts[0].start == 0 && scripts[0].length == 2 && scripts[0].script == 0x4C61746E);
    HOLDS(scripts[1].start == 2 && scripts[1].length == 1 && scripts[1].script == 0x48656272 && scripts[1].zero == 0);
    OK(hordguli_base(&tables, 0, characters + 1, 2, &base));
    HOLDS(base == 1);
    OK(hordguli_levels(&tables, 3, characters, 3, 4, found));
    HOLDS(found[0] == 2 && found[1] == 1 && found[2] == 1 && found[3] == 77);
    OK(hordguli_marks(&tables, 16, characters, 3, 4, found));
    HOLDS(found[0] == 0 && found[1] == 1 && found[2] == 2 && found[3] == 77);
    /* direction 3, 3 characters and a capacity of 4 */
    OK(hordguli_reasons(&tables, 3, characters, 3, 4, reasons));
    HOLDS(reasons[0].level == 2 && reasons[2].level == 1 && reasons[3].level == 77);
    OK(hordguli_break_reasons(&tables, 16, characters, 3, 4, break_reasons));
    HOLDS(break_reasons[1].rule == 18 && break_reasons[2].mark == 2 && break_reasons[3].rule == 77);
    OK(hordguli_row(&tables, 8, 0, 4, row, row_levels, 4, both, found, maps[0], maps[1]));
    HOLDS(both[0] == '1' && both[1] == 0x5D0 && both[2] == ')' && both[3] == ' ');
    HOLDS(found[0] == 1 && found[1] == 1 && found[2] == 2 && found[3] == 0);
    HOLDS(maps[0][0] == 2 && maps[0][1] == 1 && maps[0][2] == 0 && maps[0][3] == 3);
    HOLDS(maps[1][0] == 2 && maps[1][1] == 1 && maps[1][2] == 0 && maps[1][3] == 3);
    OK(hordguli_row(&tables, 0, 1, 3, (const uint32_t[]){0x5D0, '1', '2'}, (const uint8_t[]){1, 2, 2}, 4, both, found,
                    maps[0], maps[1]));
    HOLDS(maps[0][0] == 2 && maps[0][1] == 0 && maps[0][2] == 1 && maps[0][3] == 3);
    HOLDS(maps[1][0] == 1 && maps[1][1] == 2 && maps[1][2] == 0 && maps[1][3] == 3);
    OK(hordguli_row_runs(&tables, 0, 3, row, row_levels, 4, runs, &length));
    HOLDS(length == 2 && runs[0].start == 2 && runs[0].length == 1 && runs[1].start == 0 && runs[1].length == 2);
    hordguli_session_close(&session);
    /* options 2 and width 3 */
    OK(hordguli_session_open(&session, &tables, 2, 3, "\u05d0 \u05d1 \u05d2 \u05d3", 11));
    OK(hordguli_lines_utf8(&session, 0, 1, 3, sizeof bytes, bytes, &length));
    HOLDS(length == 10 && memcmp(bytes, "\u05d1 \u05d0\nLTR\n", 10) == 0);
    hordguli_session_close(&session);
}

/* ---- Two errors at the same time ---- */

enum { UNUSED = 0xA5, ELEMENTS = 16, LETTERS = 1048576, CHARACTERS = 16777216, HALF = 600000 };

/* All memory that a call may change. A refused call leaves it as it was. */
typedef struct memory {
    hordguli_tables tables, no_tables;
    hordguli_session session, no_session, long_session, plain_session;
    hordguli_bytes files[7];
    hordguli_table_fault fault;
    uint64_t out[8];
    uint64_t arrays[5][6 * ELEMENTS]; /* an element has at most 48 bytes */
    uint32_t characters[ELEMENTS];
    uint8_t levels[ELEMENTS];
} memory;

static memory own, before;

/* The arguments of all calls. Each call uses the arguments for which it has a parameter. */
typedef struct arguments {
    hordguli_tables *tables;
    hordguli_session *session;
    const hordguli_bytes *files;
    hordguli_table_fault *fault;
    const char *folder;
    uint32_t flags; /* options, print flags, a base direction or a side */
    uint32_t direction; /* left or right, or print flags if `flags` has options */
    uint32_t width;
    const char *text;
    size_t length;
    size_t at; /* a position, line or paragraph */
    size_t count;
    size_t column;
    size_t capacity;
    const uint32_t *characters; /* or advances */
    uint32_t base;
    const uint8_t *levels; /* of the characters */
    void *out;             /* the output parameter */
    void *arrays[5];       /* the arrays that are written */
} arguments;

/* The parts of a call's arguments that a `way` determines, as bits. Two ways can be combined if they have no bit in
 * common. X_IS stands for whether the pointer X is NULL. */
enum {
    TABLES = 1 << 0,
    TABLES_IS = 1 << 1,
    SESSION = 1 << 2,
    SESSION_IS = 1 << 3,
    OUT = 1 << 4, /* also the parameter `fault` */
    OUT_IS = 1 << 5,
    TEXT = 1 << 6,
    AT = 1 << 7,
    COUNT = 1 << 8,
    WIDTH = 1 << 9,
    FLAGS = 1 << 10,
    CAPACITY = 1 << 11,
    ARRAYS = 1 << 12,
    NUMBERS = 1 << 13,
    FOLDER = 1 << 14,
    FILES_IS = 1 << 15,
    FILE_0 = 1 << 16,
    FILES = 127 << 16,
    LEVELS = 1 << 23,
    BASE = 1 << 24,
    DIRECTION = 1 << 25
};

typedef struct call call;

/* A way to provoke errors, with one variant for each `which` from `first` to `last`. `errors` lists the
 * errors that apply, by their names in the call's own list. */
typedef struct way {
    const char *errors;
    uint32_t sets;
    void (*apply)(arguments *a, const call *c, size_t which);
    size_t first, last;
} way;

struct call {
    const char *name;
    hordguli_status (*make)(const arguments *a);
    const char *errors; /* the list in the header */
    const char *order;  /* the errors in the order that the header states in words, or NULL if that of `errors` */
    const char *never;  /* pairs that cannot apply at the same time, or NULL */
    const way *ways[4];
    size_t out_size;       /* of the output parameter */
    size_t at, count, end; /* `at` and `count` are in range; with a count of 0, `end` is the least `at` that is not */
    size_t needed;         /* capacity */
    uint32_t flags;
};

static char *newlines, *letters, *paragraph; /* texts that are too long */
static char folder[] = "/tmp/hordguli-statuses-XXXXXX";
static size_t missing, malformed; /* indexes of files */
static const char malformed_line[] = "\n\nx\n";
static unsigned char image[1 << 18], changed_image[1 << 18];
static size_t image_length, image_cause;

static const char *path_of(size_t file) {
    static const char *const names[7] = {
        "DerivedBidiClass",       "BidiBrackets",   "BidiMirroring", "LineBreak",
        "DerivedGeneralCategory", "EastAsianWidth", "emoji-data",
    };
    static char path[200];
    snprintf(path, sizeof path, "%s/%s.txt", folder, names[file]);
    return path;
}

static void write_file(size_t file, const char *content) {
    FILE *to = sure(fopen(path_of(file), "wb"));
    fputs(content, to);
    fclose(to);
}

#define WAY(name, ...)                                                                                                 \
    static void name(arguments *a, const call *c, size_t which) {                                                      \
        (void)a, (void)c, (void)which;                                                                                 \
        __VA_ARGS__;                                                                                                   \
    }

/* Pointers that are NULL, handles that are closed but must be open, and handles that are open but must be
 * closed */
WAY(null_tables, a->tables = NULL)
WAY(null_session, a->session = NULL)
WAY(null_out, a->out = NULL)
WAY(null_files, a->files = NULL)
WAY(null_folder, a->folder = NULL)
WAY(null_text, a->text = NULL; a->length = which)
WAY(null_characters, a->characters = NULL)
WAY(null_array, a->arrays[which] = NULL)
WAY(null_levels, a->levels = NULL)
WAY(closed_tables, a->tables = &own.no_tables)
WAY(closed_session, a->session = &own.no_session)
WAY(open_tables, a->tables = &own.tables)
WAY(open_session, a->session = &own.session)
WAY(plain_session, a->session = &own.plain_session)

/* overlaps */
WAY(out_at_session, a->out = a->session)
WAY(out_at_tables, a->out = a->tables)
WAY(session_in_out, a->session = (hordguli_session *)((char *)a->out + c->out_size - sizeof *a->session))
WAY(session_at_tables, a->session = (hordguli_session *)a->tables)
WAY(text_in_session, a->text = (const char *)a->session + which; a->length = 1)
WAY(text_in_tables, a->text = (const char *)a->tables + which; a->length = 1)
WAY(text_in_out, a->text = (const char *)a->out + (which == 0 ? 0 : c->out_size - 1); a->length = 1)
WAY(long_text, a->length = which == 0 ? (size_t)PTRDIFF_MAX + 1 : SIZE_MAX)
WAY(long_null_text, a->text = NULL; a->length = SIZE_MAX)
WAY(characters_at_out, a->characters = a->out)
WAY(characters_at_session, a->characters = (const uint32_t *)a->session)
WAY(characters_at_tables, a->characters = (const uint32_t *)a->tables)
WAY(levels_at_tables, a->levels = (const uint8_t *)a->tables)
WAY(many_characters, a->count = which == 0 ? (size_t)PTRDIFF_MAX / 4 + 1 : which == 1 ? SIZE_MAX / 4 + 2 : SIZE_MAX)
WAY(many_null_characters, a->characters = NULL; a->count = SIZE_MAX)
WAY(array_at_session, a->arrays[which] = a->session)
WAY(array_at_tables, a->arrays[which] = a->tables)
WAY(array_at_out, a->arrays[which] = a->out)
WAY(array_at_characters, a->arrays[which] = (void *)(uintptr_t)a->characters)
WAY(array_at_text, a->arrays[which] = (void *)(uintptr_t)a->text)
WAY(array_at_levels, a->arrays[which] = (void *)(uintptr_t)a->levels)
WAY(array_at_other, a->arrays[which / 5] = a->arrays[which % 5 == which / 5 ? (which + 1) % 5 : which % 5])
WAY(array_at_other_of_4, a->arrays[which / 4] = a->arrays[which % 4 == which / 4 ? (which + 1) % 4 : which % 4])
WAY(array_at_first, a->arrays[1] = (char *)a->arrays[0] + a->capacity - 1)
WAY(long_arrays, a->capacity = which == 0 ? (size_t)PTRDIFF_MAX + 1 : SIZE_MAX)
/* the size of one array in bytes exceeds SIZE_MAX; in `size_t`, it wraps around to 4 or 8 */
WAY(wrapping_array, {
    a->capacity = SIZE_MAX / (which == 4 ? sizeof(size_t) : 4) + 2;
    for (size_t k = 0; k < 5; k++) a->arrays[k] = k == which ? a->arrays[k] : NULL;
})
WAY(long_null_array, a->arrays[0] = NULL; a->capacity = SIZE_MAX)
WAY(fault_at_tables, a->fault = (hordguli_table_fault *)a->tables)
WAY(folder_in_tables, a->folder = (const char *)a->tables)
WAY(folder_in_fault, a->folder = memcpy(a->fault, "no such", 8))
WAY(fault_in_files, a->fault = (hordguli_table_fault *)(uintptr_t)(a->files + which))
WAY(tables_in_files, a->tables = (hordguli_tables *)(uintptr_t)(a->files + which))

/* values */
WAY(unknown_option, a->flags |= UINT32_C(1) << which)
WAY(unknown_version, static const uint32_t wrong[] = {0, 15, 17, 0x100000, 0xF0001, 0x110100, 0x1110000, UINT32_MAX};
    a->flags = wrong[which])
WAY(two_directions, a->flags |= UINT32_C(0x1000001) << which)
WAY(unknown_direction, a->direction |= UINT32_C(1) << which)
WAY(after_nothing, a->at = 0; a->flags = HORDGULI_AFTER)
WAY(width_0, a->width = 0)
WAY(width_above, a->width = which == 0 ? 65536 : which == 1 ? 65536 + 80 : UINT32_MAX)
WAY(measured_width_above, a->width = which == 0 ? UINT32_C(1) << 31 : UINT32_MAX)
WAY(wide_advances, own.characters[0] = UINT32_MAX)
WAY(at_past_end, a->at = which == 0 ? c->end : SIZE_MAX; a->count = 0)
WAY(at_past_end_alone, a->at = which == 0 ? c->end : SIZE_MAX)
WAY(count_past_end, a->count = which == 0 ? c->end - a->at : SIZE_MAX - which + 1)
WAY(not_utf8,
    static const char *const wrong[] = {"\xFF", "a\x80", "\xED\xA0\x80", "\xC0\x80", "\xF4\x90\x80\x80", "\u05d0\xD7"};
    a->text = wrong[which]; a->length = strlen(wrong[which]))
WAY(many_newlines, a->text = newlines; a->length = CHARACTERS + 1)
WAY(one_newline_too_many, a->text = newlines; a->length = CHARACTERS - 18 + a->count + 1)
WAY(many_newlines_not_utf8, a->text = newlines; a->length = CHARACTERS + 2)
WAY(long_paragraph, a->text = paragraph; a->length = LETTERS + 1)
WAY(long_by_one, a->text = paragraph; a->length = LETTERS - 8 + a->count + 1)
WAY(long_paragraph_not_utf8, a->text = paragraph; a->length = LETTERS + 2)
WAY(many_letters, a->text = letters; a->length = CHARACTERS + 1)
WAY(many_letters_not_utf8, a->text = letters; a->length = CHARACTERS + 2)
WAY(joined_paragraph, a->session = &own.long_session; a->at = HALF; a->count = 1)
WAY(not_a_character, static const uint32_t wrong[] = {0xD800, 0xDFFF, 0x110000, UINT32_MAX};
    own.characters[which % 2 == 0 ? 0 : c->count - 1] = wrong[which / 2])
WAY(level_above, own.levels[which % 2 == 0 ? 0 : c->count - 1] = which / 2 == 0 ? 127 : 255)
WAY(base_above, a->base = which == 0 ? 2 : UINT32_MAX)
/* The array starts where the characters end, so they do not overlap. A refused call accesses neither. */
WAY(many_positions, a->count = a->capacity = (size_t)UINT32_MAX + which;
    a->arrays[0] = (void *)((uintptr_t)a->characters + 4 * a->count))
WAY(many_positions_not_a_character, many_positions(a, c, which); own.characters[0] = 0xD800)
WAY(many_positions_too_few, a->count = (size_t)UINT32_MAX + which)
WAY(one_too_few, a->capacity = c->needed - 1)
WAY(no_elements, a->capacity = 0)
WAY(no_elements_null, a->capacity = 0; a->arrays[0] = NULL)
WAY(one_too_few_in_one_array, a->capacity = c->needed - 1;
    for (size_t k = 0; k < 5; k++) a->arrays[k] = k == which ? a->arrays[k] : NULL)

/* files */
WAY(null_file, own.files[which] = (hordguli_bytes){NULL, 1})
WAY(long_null_file, own.files[which] = (hordguli_bytes){NULL, SIZE_MAX})
WAY(long_file, own.files[which] = (hordguli_bytes){"", SIZE_MAX})
WAY(file_in_tables, own.files[which] = (hordguli_bytes){(const char *)a->tables + sizeof *a->tables - 1, 1})
WAY(file_in_fault, own.files[which] = (hordguli_bytes){(const char *)a->fault + sizeof *a->fault - 1, 1})
WAY(malformed_file, malformed = which; own.files[which] = (hordguli_bytes){malformed_line, sizeof malformed_line - 1})
WAY(malformed_in_folder, malformed = which; write_file(which, malformed_line))
WAY(missing_in_folder, missing = which; unlink(path_of(which)))
WAY(no_folder, missing = 0; a->folder = which == 0 ? "no such folder" : "")

/* an image */
WAY(image_in_fault, a->text = (const char *)a->fault + sizeof *a->fault - 1; a->length = 1)
WAY(truncated_image, image_cause = HORDGULI_CAUSE_TRUNCATED; a->length = which == 0 ? 0 : which == 1 ? 31 : image_length - 1)
WAY(changed_byte, /* of the magic bytes, the format, the version of Unicode and the pages */
    static const size_t at[] = {0, 12, 18, 9000};
    static const size_t causes[] = {HORDGULI_CAUSE_MAGIC, HORDGULI_CAUSE_FORMAT, HORDGULI_CAUSE_VERSION,
                                    HORDGULI_CAUSE_CHECKSUM};
    memcpy(changed_image, image, image_length); changed_image[at[which]] ^= 1; image_cause = causes[which];
    a->text = (const char *)changed_image)

#define END {NULL, 0, NULL, 0, 0}

/* Ways for a session, and for an output parameter that may be NULL only in an edit */
#define OF_EDITED_SESSION                                      \
    {"NULL", SESSION | SESSION_IS, null_session, 0, 0},        \
    {"OVERLAP", OUT | SESSION_IS, out_at_session, 0, 0},       \
    {"OVERLAP", SESSION | OUT_IS, session_in_out, 0, 0},       \
    {"CLOSED", SESSION, closed_session, 0, 0},                 \
    END
static const way of_edited_session[] = {OF_EDITED_SESSION};
static const way of_session[] = {{"NULL", OUT | OUT_IS, null_out, 0, 0}, OF_EDITED_SESSION};

/* Ways for a second output parameter */
static const way of_second_out[] = {
    {"NULL", ARRAYS, null_array, 0, 0},
    {"OVERLAP", ARRAYS | OUT_IS, array_at_out, 0, 0},
    {"OVERLAP", ARRAYS | SESSION_IS, array_at_session, 0, 0},
    END,
};

/* Ways for an edge, and for a direction */
#define OF_EDGE                                        \
    {"UNKNOWN_OPTION", FLAGS, unknown_option, 1, 31},  \
    {"OUT_OF_RANGE", AT, at_past_end_alone, 0, 1},     \
    {"OUT_OF_RANGE", AT | FLAGS, after_nothing, 0, 0}, \
    END
static const way of_edge[] = {OF_EDGE};
static const way of_step[] = {{"UNKNOWN_OPTION", DIRECTION, unknown_direction, 1, 31}, OF_EDGE};

static const way of_at[] = {{"OUT_OF_RANGE", AT, at_past_end_alone, 0, 1},
    END};

static const way of_range[] = {
    {"OUT_OF_RANGE", AT | COUNT, at_past_end, 0, 1},
    {"OUT_OF_RANGE", COUNT, count_past_end, 0, 2},
    END,
};

static const way of_inserted_text[] = {
    {"NULL", TEXT, null_text, 1, 2},
    {"NULL, OVERLAP", TEXT, long_null_text, 0, 0},
    {"OVERLAP", TEXT, long_text, 0, 1},
    {"OVERLAP", TEXT | SESSION_IS, text_in_session, 0, sizeof(hordguli_session) - 1},
    {"OVERLAP, NOT_UTF8", TEXT | OUT_IS, text_in_out, 0, 1},
    {"NOT_UTF8", TEXT, not_utf8, 0, 5},
    {"TEXT_TOO_LONG", TEXT, many_newlines, 0, 0},
    {"TEXT_TOO_LONG", TEXT | SESSION | AT | COUNT, one_newline_too_many, 0, 0},
    {"PARAGRAPH_TOO_LONG", TEXT, long_paragraph, 0, 0},
    {"PARAGRAPH_TOO_LONG", TEXT | SESSION | AT | COUNT, long_by_one, 0, 0},
    {"TEXT_TOO_LONG, PARAGRAPH_TOO_LONG", TEXT, many_letters, 0, 0},
    {"NOT_UTF8, TEXT_TOO_LONG", TEXT, many_newlines_not_utf8, 0, 0},
    {"NOT_UTF8, PARAGRAPH_TOO_LONG", TEXT, long_paragraph_not_utf8, 0, 0},
    {"NOT_UTF8, TEXT_TOO_LONG, PARAGRAPH_TOO_LONG", TEXT, many_letters_not_utf8, 0, 0},
    END,
};

static const way of_delete[] = {{"PARAGRAPH_TOO_LONG", SESSION | AT | COUNT, joined_paragraph, 0, 0},
    END};

static const way of_set_width[] = {
    {"WIDTH_OUT_OF_RANGE", WIDTH, width_0, 0, 0},
    {"WIDTH_OUT_OF_RANGE", WIDTH, width_above, 0, 2},
    END,
};

/* The way for a session that is not measured */
static const way of_measured_session[] = {
    {"NOT_MEASURED", SESSION, plain_session, 0, 0},
    END,
};

static const way of_measured_width[] = {
    {"WIDTH_OUT_OF_RANGE", WIDTH, width_0, 0, 0},
    {"WIDTH_OUT_OF_RANGE", WIDTH, measured_width_above, 0, 1},
    END,
};

static const way of_set_advances[] = {
    {"NULL", NUMBERS | COUNT, null_characters, 0, 0},
    {"NULL, OVERLAP", NUMBERS | COUNT, many_null_characters, 0, 0},
    {"OVERLAP", NUMBERS | COUNT | SESSION_IS, characters_at_session, 0, 0},
    {"OVERLAP", NUMBERS | COUNT | OUT_IS, characters_at_out, 0, 0},
    {"OVERLAP, OUT_OF_RANGE", COUNT, many_characters, 0, 2},
    {"OUT_OF_RANGE", AT, at_past_end_alone, 0, 1},
    {"OUT_OF_RANGE", AT | COUNT, at_past_end, 0, 1},
    {"OUT_OF_RANGE", COUNT, count_past_end, 0, 0},
    {"PARAGRAPH_TOO_LONG", NUMBERS, wide_advances, 0, 0},
    END,
};

/* Ways for tables, and for a text to lay out */
#define OF_TABLES_AND_TEXT                                                              \
    {"NULL", TABLES | TABLES_IS, null_tables, 0, 0},                                    \
    {"NULL", TEXT, null_text, 1, 2},                                                    \
    {"NULL, OVERLAP", TEXT, long_null_text, 0, 0},                                      \
    {"OVERLAP", TEXT, long_text, 0, 1},                                                 \
    {"OVERLAP", TEXT | TABLES_IS, text_in_tables, 0, sizeof(hordguli_tables) - 1},      \
    {"UNKNOWN_OPTION", FLAGS, unknown_option, 7, 7},                                    \
    {"UNKNOWN_OPTION", FLAGS, unknown_option, 16, 23},                                  \
    {"UNKNOWN_OPTION", FLAGS, unknown_option, 27, 31},                                  \
    {"UNKNOWN_OPTION", FLAGS, two_directions, 0, 1},                                    \
    {"NOT_UTF8", TEXT, not_utf8, 0, 5},                                                 \
    {"TEXT_TOO_LONG", TEXT, many_newlines, 0, 0},                                       \
    {"PARAGRAPH_TOO_LONG", TEXT, long_paragraph, 0, 0},                                 \
    {"TEXT_TOO_LONG, PARAGRAPH_TOO_LONG", TEXT, many_letters, 0, 0},                    \
    {"NOT_UTF8, TEXT_TOO_LONG", TEXT, many_newlines_not_utf8, 0, 0},                    \
    {"NOT_UTF8, PARAGRAPH_TOO_LONG", TEXT, long_paragraph_not_utf8, 0, 0},              \
    {"NOT_UTF8, TEXT_TOO_LONG, PARAGRAPH_TOO_LONG", TEXT, many_letters_not_utf8, 0, 0}, \
    END

static const way of_columns[] = {
    {"WIDTH_OUT_OF_RANGE (above 65,535)", WIDTH, width_above, 0, 2},
    {"WIDTH_OUT_OF_RANGE (0)", WIDTH, width_0, 0, 0},
    END,
};

static const way of_open[] = {
    {"NULL", SESSION | SESSION_IS, null_session, 0, 0},
    {"OVERLAP", TEXT | SESSION_IS, text_in_session, 0, sizeof(hordguli_session) - 1},
    {"OVERLAP", SESSION | TABLES_IS, session_at_tables, 0, 0},
    {"ALREADY_OPEN (the session)", SESSION, open_session, 0, 0},
    {"CLOSED (the tables)", TABLES, closed_tables, 0, 0},
    OF_TABLES_AND_TEXT,
};

static const way of_layout[] = {
    {"NULL", OUT | OUT_IS, null_out, 0, 0},
    {"OVERLAP", OUT | TABLES_IS, out_at_tables, 0, 0},
    {"OVERLAP, NOT_UTF8", TEXT | OUT_IS, text_in_out, 0, 1},
    {"UNKNOWN_OPTION", DIRECTION, unknown_direction, 7, 31},
    {"CLOSED", TABLES, closed_tables, 0, 0},
    OF_TABLES_AND_TEXT,
};

static const way of_layout_buffer[] = {
    {"NULL", ARRAYS, null_array, 0, 0},
    {"NULL, OVERLAP", ARRAYS | CAPACITY, long_null_array, 0, 0},
    {"OVERLAP", ARRAYS | OUT_IS, array_at_out, 0, 0},
    {"OVERLAP", ARRAYS | TABLES_IS, array_at_tables, 0, 0},
    {"OVERLAP", ARRAYS | TEXT, array_at_text, 0, 0},
    {"OVERLAP", CAPACITY, long_arrays, 0, 1},
    {"NO_ROOM", CAPACITY, one_too_few, 0, 0},
    {"NO_ROOM", CAPACITY | ARRAYS, no_elements, 0, 0},
    {"NO_ROOM", CAPACITY | ARRAYS, no_elements_null, 0, 0},
    END,
};

static const way of_line[] = {
    {"OVERLAP", ARRAYS | OUT_IS, array_at_out, 0, 4},
    {"OVERLAP", ARRAYS | SESSION_IS, array_at_session, 0, 4},
    {"OVERLAP", ARRAYS, array_at_other, 0, 24},
    {"OVERLAP", CAPACITY, long_arrays, 0, 1},
    {"OVERLAP", CAPACITY | ARRAYS, wrapping_array, 0, 0},
    {"OVERLAP", CAPACITY | ARRAYS, wrapping_array, 2, 4},
    {"NO_ROOM", CAPACITY, one_too_few, 0, 0},
    {"NO_ROOM", CAPACITY | ARRAYS, one_too_few_in_one_array, 0, 4},
    {"NO_ROOM", CAPACITY | ARRAYS, no_elements, 0, 0},
    END,
};

static const way of_buffer[] = {
    {"NULL", ARRAYS, null_array, 0, 0},
    {"NULL, OVERLAP", ARRAYS | CAPACITY, long_null_array, 0, 0},
    {"OVERLAP", ARRAYS | OUT_IS, array_at_out, 0, 0},
    {"OVERLAP", ARRAYS | SESSION_IS, array_at_session, 0, 0},
    {"OVERLAP", CAPACITY, long_arrays, 0, 1},
    {"NO_ROOM", CAPACITY, one_too_few, 0, 0},
    {"NO_ROOM", CAPACITY | ARRAYS, no_elements, 0, 0},
    {"NO_ROOM", CAPACITY | ARRAYS, no_elements_null, 0, 0},
    END,
};

static const way of_print_flags[] = {{"UNKNOWN_OPTION", FLAGS, unknown_option, 7, 31},
    END};

static const way of_paragraph[] = {
    {"OVERLAP", ARRAYS | OUT_IS, array_at_out, 0, 1},
    {"OVERLAP", ARRAYS | SESSION_IS, array_at_session, 0, 1},
    {"OVERLAP", ARRAYS, array_at_first, 0, 0},
    {"OVERLAP", CAPACITY, long_arrays, 0, 1},
    {"NO_ROOM", CAPACITY, one_too_few, 0, 0},
    {"NO_ROOM", CAPACITY | ARRAYS, one_too_few_in_one_array, 0, 1},
    {"NO_ROOM", CAPACITY | ARRAYS, no_elements, 0, 0},
    END,
};

static const way of_count_utf8[] = {
    {"NULL", OUT | OUT_IS, null_out, 0, 0},
    {"NULL", TEXT, null_text, 1, 2},
    {"NULL, OVERLAP", TEXT, long_null_text, 0, 0},
    {"OVERLAP", TEXT, long_text, 0, 1},
    {"OVERLAP, NOT_UTF8", TEXT | OUT_IS, text_in_out, 0, 1},
    {"NOT_UTF8", TEXT, not_utf8, 0, 5},
    END,
};

static const way of_valid_utf8[] = {
    {"NULL", OUT | OUT_IS, null_out, 0, 0},
    {"NULL", TEXT, null_text, 1, 2},
    {"NULL, OVERLAP", TEXT, long_null_text, 0, 0},
    {"OVERLAP", TEXT, long_text, 0, 1},
    {"OVERLAP", TEXT | OUT_IS, text_in_out, 0, 1},
    END,
};

static const way of_decode[] = {
    {"OVERLAP", ARRAYS | OUT_IS, array_at_out, 0, 1},
    {"OVERLAP", ARRAYS | TEXT, array_at_text, 0, 1},
    {"OVERLAP", ARRAYS, array_at_first, 0, 0},
    {"OVERLAP", CAPACITY, long_arrays, 0, 1},
    {"OVERLAP", CAPACITY | ARRAYS, wrapping_array, 0, 0},
    {"NO_ROOM", CAPACITY, one_too_few, 0, 0},
    {"NO_ROOM", CAPACITY | ARRAYS, one_too_few_in_one_array, 0, 1},
    {"NO_ROOM", CAPACITY | ARRAYS, no_elements, 0, 0},
    END,
};

/* Ways for characters in a call without tables, and for the array of the clusters' ends */
static const way of_clusters[] = {
    {"NULL", NUMBERS, null_characters, 0, 0},
    {"NULL, OVERLAP", NUMBERS | COUNT, many_null_characters, 0, 0},
    {"OVERLAP", NUMBERS | OUT_IS, characters_at_out, 0, 0},
    {"OVERLAP", COUNT, many_characters, 0, 2},
    {"NOT_A_CHARACTER", NUMBERS | COUNT, not_a_character, 0, 7},
    END,
};

static const way of_ends[] = {
    {"NULL", OUT | OUT_IS, null_out, 0, 0},
    {"NULL", ARRAYS, null_array, 0, 0},
    {"NULL, OVERLAP", ARRAYS | CAPACITY, long_null_array, 0, 0},
    {"OVERLAP", ARRAYS | OUT_IS, array_at_out, 0, 0},
    {"OVERLAP", ARRAYS | NUMBERS | COUNT, array_at_characters, 0, 0},
    {"OVERLAP", CAPACITY, long_arrays, 0, 1},
    {"NO_ROOM", CAPACITY, one_too_few, 0, 0},
    {"NO_ROOM", CAPACITY | ARRAYS, no_elements, 0, 0},
    {"NO_ROOM", CAPACITY | ARRAYS, no_elements_null, 0, 0},
    END,
};

/* Tables and characters */
static const way of_characters[] = {
    {"NULL", TABLES | TABLES_IS, null_tables, 0, 0},
    {"NULL", NUMBERS, null_characters, 0, 0},
    {"NULL, OVERLAP", NUMBERS | COUNT, many_null_characters, 0, 0},
    {"OVERLAP", NUMBERS | TABLES_IS, characters_at_tables, 0, 0},
    {"OVERLAP", COUNT, many_characters, 0, 2},
    {"CLOSED", TABLES, closed_tables, 0, 0},
    {"NOT_A_CHARACTER", NUMBERS | COUNT, not_a_character, 0, 7},
    END,
};

static const way of_base[] = {
    {"NULL", OUT | OUT_IS, null_out, 0, 0},
    {"OVERLAP", OUT | TABLES_IS, out_at_tables, 0, 0},
    {"OVERLAP", NUMBERS | OUT_IS, characters_at_out, 0, 0},
    END,
};

static const way of_elements[] = {
    {"NULL", ARRAYS, null_array, 0, 0},
    {"NULL, OVERLAP", ARRAYS | CAPACITY, long_null_array, 0, 0},
    {"OVERLAP", ARRAYS | TABLES_IS, array_at_tables, 0, 0},
    {"OVERLAP", ARRAYS | NUMBERS | COUNT, array_at_characters, 0, 0},
    {"OVERLAP", CAPACITY, long_arrays, 0, 1},
    {"NO_ROOM", CAPACITY, one_too_few, 0, 0},
    {"NO_ROOM", CAPACITY | ARRAYS, no_elements, 0, 0},
    {"NO_ROOM", CAPACITY | ARRAYS, no_elements_null, 0, 0},
    END,
};

/* Ways for records whose positions have 32 bits */
#define POSITIONS_FIT "OUT_OF_RANGE (`count` is UINT32_MAX or more)"
static const way of_reasons[] = {
    {POSITIONS_FIT, COUNT | CAPACITY | ARRAYS, many_positions, 0, 1},
    {POSITIONS_FIT ", NOT_A_CHARACTER", NUMBERS | COUNT | CAPACITY | ARRAYS, many_positions_not_a_character, 0, 1},
    {"NO_ROOM, " POSITIONS_FIT, COUNT, many_positions_too_few, 0, 1},
    END,
};

static const way of_records[] = {
    {"NULL", ARRAYS, null_array, 0, 0},
    {"OVERLAP", ARRAYS | TABLES_IS, array_at_tables, 0, 0},
    {"OVERLAP", ARRAYS | NUMBERS | COUNT, array_at_characters, 0, 0},
    END,
};

/* Ways for the levels of a row's characters, and for the base level */
static const way of_row_levels[] = {
    {"NULL", LEVELS, null_levels, 0, 0},
    {"OVERLAP", LEVELS | TABLES_IS, levels_at_tables, 0, 0},
    {"OUT_OF_RANGE", LEVELS | COUNT, level_above, 0, 3},
    {"OUT_OF_RANGE", BASE, base_above, 0, 1},
    END,
};

static const way of_row[] = {
    {"OVERLAP", ARRAYS | TABLES_IS, array_at_tables, 0, 3},
    {"OVERLAP", ARRAYS | NUMBERS | COUNT, array_at_characters, 0, 3},
    {"OVERLAP", ARRAYS | LEVELS, array_at_levels, 0, 3},
    {"OVERLAP", ARRAYS, array_at_other_of_4, 0, 15},
    {"OVERLAP", CAPACITY, long_arrays, 0, 1},
    {"OVERLAP", CAPACITY | ARRAYS, wrapping_array, 0, 0},
    {"OVERLAP", CAPACITY | ARRAYS, wrapping_array, 2, 3},
    {"NO_ROOM", CAPACITY, one_too_few, 0, 0},
    {"NO_ROOM", CAPACITY | ARRAYS, one_too_few_in_one_array, 0, 3},
    {"NO_ROOM", CAPACITY | ARRAYS, no_elements, 0, 0},
    END,
};

static const way of_row_options[] = {
    {"UNKNOWN_OPTION", FLAGS, unknown_option, 0, 2},
    {"UNKNOWN_OPTION", FLAGS, unknown_option, 4, 4},
    {"UNKNOWN_OPTION", FLAGS, unknown_option, 6, 25},
    {"UNKNOWN_OPTION", FLAGS, unknown_option, 27, 31},
    END,
};

static const way of_direction[] = {
    {"UNKNOWN_OPTION", FLAGS, unknown_option, 2, 23},
    {"UNKNOWN_OPTION", FLAGS, unknown_option, 27, 31},
    {"UNKNOWN_OPTION", FLAGS, two_directions, 0, 1},
    END,
};

static const way of_marks[] = {
    {"UNKNOWN_OPTION", FLAGS, unknown_option, 0, 3},
    {"UNKNOWN_OPTION", FLAGS, unknown_option, 5, 25},
    {"UNKNOWN_OPTION", FLAGS, unknown_option, 27, 31},
    END,
};

#define OF_FILE(k)                                                                    \
    {"NULL (file " #k ")", FILE_0 << k, null_file, k, k},                             \
    {"NULL (file " #k "), OVERLAP (file " #k ")", FILE_0 << k, long_null_file, k, k}, \
    {"OVERLAP (file " #k ")", FILE_0 << k, long_file, k, k},                          \
    {"OVERLAP (file " #k ")", FILE_0 << k | TABLES_IS, file_in_tables, k, k},         \
    {"OVERLAP (file " #k ")", FILE_0 << k | OUT_IS, file_in_fault, k, k},             \
    {"TABLE_FAULT", FILE_0 << k, malformed_file, k, k}

static const way of_files[] = {
    {"NULL", TABLES | TABLES_IS, null_tables, 0, 0},
    {"NULL", FILES | FILES_IS, null_files, 0, 0},
    {"OVERLAP", OUT | TABLES_IS, fault_at_tables, 0, 0},
    {"OVERLAP", OUT | FILES_IS, fault_in_files, 0, 6},
    {"OVERLAP", TABLES | FILES_IS, tables_in_files, 0, 6},
    {"ALREADY_OPEN", TABLES, open_tables, 0, 0},
    OF_FILE(0),
    OF_FILE(1),
    OF_FILE(2),
    OF_FILE(3),
    OF_FILE(4),
    OF_FILE(5),
    OF_FILE(6),
    END,
};

#define IN_FOLDER(k)                                                \
    {"UNREAD_FILE", FILE_0 << k | FOLDER, missing_in_folder, k, k}, \
    {"TABLE_FAULT", FILE_0 << k, malformed_in_folder, k, k}

static const way of_folder[] = {
    {"NULL", TABLES | TABLES_IS, null_tables, 0, 0},
    {"NULL", FILES | FOLDER, null_folder, 0, 0},
    {"OVERLAP", OUT | TABLES_IS, fault_at_tables, 0, 0},
    {"OVERLAP", FOLDER | TABLES_IS, folder_in_tables, 0, 0},
    {"OVERLAP", FOLDER | OUT_IS, folder_in_fault, 0, 0},
    {"ALREADY_OPEN", TABLES, open_tables, 0, 0},
    {"UNREAD_FILE", FILES | FOLDER, no_folder, 0, 1},
    IN_FOLDER(0),
    IN_FOLDER(1),
    IN_FOLDER(2),
    IN_FOLDER(3),
    IN_FOLDER(4),
    IN_FOLDER(5),
    IN_FOLDER(6),
    END,
};

static const way of_image[] = {
    {"NULL", TABLES | TABLES_IS, null_tables, 0, 0},
    {"NULL", TEXT, null_text, 1, 2},
    {"NULL, OVERLAP", TEXT, long_null_text, 0, 0},
    {"OVERLAP", TEXT, long_text, 0, 1},
    {"OVERLAP", TEXT | TABLES_IS, text_in_tables, 0, sizeof(hordguli_tables) - 1},
    {"OVERLAP", TEXT | OUT_IS, image_in_fault, 0, 0},
    {"OVERLAP", OUT | TABLES_IS, fault_at_tables, 0, 0},
    {"ALREADY_OPEN", TABLES, open_tables, 0, 0},
    {"TABLE_FAULT", TEXT, truncated_image, 0, 2},
    {"TABLE_FAULT", TEXT, changed_byte, 0, 3},
    END,
};

static const way of_builtin[] = {
    {"NULL", TABLES | TABLES_IS, null_tables, 0, 0},
    {"ALREADY_OPEN", TABLES, open_tables, 0, 0},
    END,
};

static const way of_version[] = {{"UNKNOWN_OPTION (another version)", FLAGS, unknown_version, 0, 7},
    END};

static const way of_tables[] = {
    {"NULL", TABLES | TABLES_IS, null_tables, 0, 0},
    {"NULL", OUT | OUT_IS, null_out, 0, 0},
    {"OVERLAP", OUT | TABLES_IS, out_at_tables, 0, 0},
    {"CLOSED", TABLES, closed_tables, 0, 0},
    END,
};

#define MAKE(name, ...)                                                                                                \
    static hordguli_status make_##name(const arguments *a) { return hordguli_##name(__VA_ARGS__); }
MAKE(tables_read, a->tables, a->files, a->fault)
MAKE(tables_read_version, a->tables, a->flags, a->files, a->fault)
MAKE(tables_open_builtin, a->tables)
MAKE(tables_open_builtin_version, a->tables, a->flags)
MAKE(tables_open_image, a->tables, a->text, a->length, a->fault)
MAKE(tables_open_folder, a->tables, a->folder, a->fault)
MAKE(tables_open_folder_version, a->tables, a->flags, a->folder, a->fault)
MAKE(tables_version, a->tables, a->out)
MAKE(session_open, a->session, a->tables, a->flags, a->width, a->text, a->length)
MAKE(session_open_measured, a->session, a->tables, a->flags, a->width, a->text, a->length)
MAKE(insert, a->session, a->at, a->text, a->length, a->out)
MAKE(delete, a->session, a->at, a->count, a->out)
MAKE(replace, a->session, a->at, a->count, a->text, a->length, a->out)
MAKE(set_width, a->session, a->width, a->out)
MAKE(set_measured_width, a->session, a->width, a->out)
MAKE(set_advances, a->session, a->at, a->count, a->characters, a->out)
MAKE(session_counts, a->session, a->out)
MAKE(session_work, a->session, a->out)
MAKE(changed_lines, a->session, a->out)
MAKE(line_start, a->session, a->at, a->out)
MAKE(place_of, a->session, a->at, a->out)
MAKE(caret_at, a->session, a->at, a->out)
MAKE(hit_at, a->session, a->at, a->column, a->out)
MAKE(cluster_at, a->session, a->at, a->out)
MAKE(word_at, a->session, a->at, a->out)
MAKE(byte_of, a->session, a->at, a->out)
MAKE(utf16_of, a->session, a->at, a->out)
MAKE(position_of_byte, a->session, a->at, a->out)
MAKE(position_of_utf16, a->session, a->at, a->out)
MAKE(spans, a->session, a->at, a->column, a->count, a->capacity, a->arrays[0], a->out)
MAKE(runs, a->session, a->at, a->capacity, a->arrays[0], a->out)
MAKE(edge_caret, a->session, (hordguli_edge){a->at, a->flags, 7}, a->out)
MAKE(step, a->session, (hordguli_edge){a->at, a->flags, 7}, a->direction, a->out, a->arrays[0])
MAKE(edge_at, a->session, a->at, a->column, a->out)
MAKE(nearest_edge, a->session, a->at, a->column, a->out)
MAKE(line_edges, a->session, a->at, a->out, a->arrays[0])
MAKE(line_clusters, a->session, a->at, a->capacity, a->arrays[0], a->out)
MAKE(line, a->session, a->at, a->out, a->capacity, a->arrays[0], a->arrays[1], a->arrays[2], a->arrays[3], a->arrays[4])
MAKE(lines_utf8, a->session, a->at, a->count, a->flags, a->capacity, a->arrays[0], a->out)
MAKE(text, a->session, a->at, a->count, a->capacity, a->arrays[0], a->out)
MAKE(text_utf32, a->session, a->at, a->count, a->capacity, a->arrays[0], a->out)
MAKE(utf8_length, a->session, a->at, a->count, a->out)
MAKE(count_utf8, a->text, a->length, a->out)
MAKE(valid_utf8, a->text, a->length, a->out)
MAKE(decode, a->text, a->length, a->capacity, a->arrays[0], a->arrays[1], a->out)
MAKE(paragraph, a->session, a->at, a->out, a->capacity, a->arrays[0], a->arrays[1])
MAKE(layout, a->tables, a->flags, a->width, a->direction, a->text, a->length, a->capacity, a->arrays[0], a->out)
MAKE(base, a->tables, a->flags, a->characters, a->count, a->out)
MAKE(levels, a->tables, a->flags, a->characters, a->count, a->capacity, a->arrays[0])
MAKE(marks, a->tables, a->flags, a->characters, a->count, a->capacity, a->arrays[0])
MAKE(reasons, a->tables, a->flags, a->characters, a->count, a->capacity, a->arrays[0])
MAKE(break_reasons, a->tables, a->flags, a->characters, a->count, a->capacity, a->arrays[0])
MAKE(clusters, a->count, a->characters, a->capacity, a->arrays[0], a->out)
MAKE(script_runs, a->tables, a->count, a->characters, a->capacity, a->arrays[0], a->out)
MAKE(row, a->tables, a->flags, a->base, a->count, a->characters, a->levels, a->capacity, a->arrays[0], a->arrays[1],
     a->arrays[2], a->arrays[3])
MAKE(row_runs, a->tables, a->base, a->count, a->characters, a->levels, a->capacity, a->arrays[0], a->out)
MAKE(properties, a->tables, a->count, a->characters, a->arrays[0])

/* NULL and OVERLAP cannot both apply to two parameters: if one of them is NULL, they do not overlap. */
#define NOT_BOTH "NULL + OVERLAP"
/* If only the session must not be NULL, NULL and CLOSED cannot both apply to a call. */
#define NOT_BOTH_OF_SESSION NOT_BOTH ", NULL + CLOSED"
#define ORDER_OF_FILE(k) "NULL (file " #k "), OVERLAP (file " #k "), "
#define ORDER_OF_FILES                                                                                                 \
    "NULL, OVERLAP, " ORDER_OF_FILE(0) ORDER_OF_FILE(1) ORDER_OF_FILE(2) ORDER_OF_FILE(3) ORDER_OF_FILE(4)             \
        ORDER_OF_FILE(5) ORDER_OF_FILE(6)
#define VERSION_UNKNOWN "UNKNOWN_OPTION (another version), "

#define CALL(name, ...) {#name, make_##name, __VA_ARGS__}
#define INSERTING "NULL, OVERLAP, NOT_UTF8, CLOSED, OUT_OF_RANGE, TEXT_TOO_LONG, PARAGRAPH_TOO_LONG, NO_MEMORY"
#define READING "NULL, OVERLAP, CLOSED, OUT_OF_RANGE"
#define ON_EDGE "NULL, OVERLAP, UNKNOWN_OPTION, CLOSED, OUT_OF_RANGE, NO_MEMORY"
#define COMPUTING "NULL, OVERLAP, UNKNOWN_OPTION, CLOSED, NO_ROOM, NOT_A_CHARACTER, NO_MEMORY"
#define REASONING "NULL, OVERLAP, UNKNOWN_OPTION, CLOSED, NO_ROOM, " POSITIONS_FIT ", NOT_A_CHARACTER, NO_MEMORY"

/* The session has 18 characters, 3 lines and 3 paragraphs. */
static const call calls[] = {
    CALL(tables_read, "NULL, OVERLAP, ALREADY_OPEN, TABLE_FAULT, NO_MEMORY", .ways = {of_files},
         .order = ORDER_OF_FILES "ALREADY_OPEN, TABLE_FAULT, NO_MEMORY"),
    CALL(tables_read_version, "NULL, OVERLAP, " VERSION_UNKNOWN "ALREADY_OPEN, TABLE_FAULT, NO_MEMORY",
         .ways = {of_files, of_version}, .order = ORDER_OF_FILES VERSION_UNKNOWN "ALREADY_OPEN, TABLE_FAULT, NO_MEMORY",
         .flags = HORDGULI_UNICODE_17_0),
    CALL(tables_open_builtin, "NULL, ALREADY_OPEN, NO_MEMORY", .ways = {of_builtin}, .never = "NULL + ALREADY_OPEN"),
    CALL(tables_open_builtin_version, "NULL, " VERSION_UNKNOWN "ALREADY_OPEN, NO_MEMORY", .ways = {of_builtin, of_version},
         .never = "NULL + ALREADY_OPEN", .flags = HORDGULI_UNICODE_17_0),
    CALL(tables_open_image, "NULL, OVERLAP, ALREADY_OPEN, TABLE_FAULT, NO_MEMORY", .ways = {of_image}),
    CALL(tables_open_folder, "NULL, OVERLAP, ALREADY_OPEN, UNREAD_FILE, TABLE_FAULT, NO_MEMORY", .ways = {of_folder}),
    CALL(tables_open_folder_version,
         "NULL, OVERLAP, " VERSION_UNKNOWN "ALREADY_OPEN, UNREAD_FILE, TABLE_FAULT, NO_MEMORY",
         .ways = {of_folder, of_version}, .flags = HORDGULI_UNICODE_17_0),
    CALL(tables_version, "NULL, OVERLAP, CLOSED", .ways = {of_tables}, .out_size = sizeof(uint32_t), .never = NOT_BOTH),
    CALL(session_open,
         "NULL, OVERLAP, WIDTH_OUT_OF_RANGE (above 65,535), UNKNOWN_OPTION, NOT_UTF8, ALREADY_OPEN (the session), "
         "CLOSED (the tables), WIDTH_OUT_OF_RANGE (0), TEXT_TOO_LONG, PARAGRAPH_TOO_LONG, NO_MEMORY",
         .ways = {of_open, of_columns}, .never = "WIDTH_OUT_OF_RANGE (above 65,535) + WIDTH_OUT_OF_RANGE (0)"),
    CALL(session_open_measured,
         "NULL, OVERLAP, UNKNOWN_OPTION, NOT_UTF8, ALREADY_OPEN (the session), CLOSED (the tables), WIDTH_OUT_OF_RANGE, "
         "TEXT_TOO_LONG, PARAGRAPH_TOO_LONG, NO_MEMORY",
         .ways = {of_open, of_measured_width}),
    CALL(insert, INSERTING, .ways = {of_edited_session, of_inserted_text, of_at}, .out_size = sizeof(hordguli_damage),
         .at = 2, .end = 19),
    /* A deletion can join two paragraphs only in an open session, and with a range inside its text. */
    CALL(delete, "NULL, OVERLAP, CLOSED, OUT_OF_RANGE, PARAGRAPH_TOO_LONG, NO_MEMORY",
         .ways = {of_edited_session, of_range, of_delete}, .out_size = sizeof(hordguli_damage), .at = 2, .count = 3,
         .end = 19, .never = NOT_BOTH_OF_SESSION
             ", NULL + PARAGRAPH_TOO_LONG, CLOSED + PARAGRAPH_TOO_LONG, OUT_OF_RANGE + PARAGRAPH_TOO_LONG"),
    CALL(replace, INSERTING, .ways = {of_edited_session, of_inserted_text, of_range},
         .out_size = sizeof(hordguli_damage), .at = 2, .count = 3, .end = 19),
    CALL(set_width, "NULL, OVERLAP, WIDTH_OUT_OF_RANGE, CLOSED, NO_MEMORY", .never = NOT_BOTH_OF_SESSION,
         .ways = {of_edited_session, of_set_width}, .out_size = sizeof(hordguli_damage)),
    CALL(set_measured_width, "NULL, OVERLAP, CLOSED, NOT_MEASURED, WIDTH_OUT_OF_RANGE, NO_MEMORY",
         .never = NOT_BOTH_OF_SESSION ", NULL + NOT_MEASURED, CLOSED + NOT_MEASURED",
         .ways = {of_edited_session, of_measured_session, of_measured_width}, .out_size = sizeof(hordguli_damage)),
    CALL(set_advances, "NULL, OVERLAP, CLOSED, NOT_MEASURED, OUT_OF_RANGE, PARAGRAPH_TOO_LONG, NO_MEMORY",
         .never = "CLOSED + NOT_MEASURED", .ways = {of_edited_session, of_measured_session, of_set_advances},
         .out_size = sizeof(hordguli_damage), .at = 2, .count = 3, .end = 19),
    CALL(session_counts, "NULL, OVERLAP, CLOSED", .never = NOT_BOTH, .ways = {of_session},
         .out_size = sizeof(hordguli_counts)),
    CALL(session_work, "NULL, OVERLAP, CLOSED", .never = NOT_BOTH, .ways = {of_session},
         .out_size = sizeof(hordguli_work)),
    CALL(changed_lines, "NULL, OVERLAP, CLOSED", .never = NOT_BOTH, .ways = {of_session},
         .out_size = sizeof(hordguli_changed)),
    CALL(line_start, READING, .never = NOT_BOTH, .ways = {of_session, of_at}, .out_size = sizeof(size_t), .at = 2,
         .end = 3),
    CALL(place_of, READING, .never = NOT_BOTH, .ways = {of_session, of_at}, .out_size = sizeof(hordguli_place),
         .at = 18, .end = 19),
    CALL(caret_at, READING, .never = NOT_BOTH, .ways = {of_session, of_at}, .out_size = sizeof(hordguli_caret),
         .at = 18, .end = 19),
    CALL(hit_at, READING, .never = NOT_BOTH, .ways = {of_session, of_at}, .out_size = sizeof(hordguli_hit), .at = 2,
         .end = 3),
    CALL(cluster_at, READING ", NO_MEMORY", .never = NOT_BOTH, .ways = {of_session, of_at},
         .out_size = sizeof(hordguli_cluster), .at = 17, .end = 18),
    CALL(word_at, READING ", NO_MEMORY", .never = NOT_BOTH, .ways = {of_session, of_at},
         .out_size = sizeof(hordguli_word), .at = 17, .end = 18),
    CALL(byte_of, READING, .never = NOT_BOTH, .ways = {of_session, of_at}, .out_size = sizeof(size_t), .at = 18,
         .end = 19),
    CALL(utf16_of, READING, .never = NOT_BOTH, .ways = {of_session, of_at}, .out_size = sizeof(size_t), .at = 18,
         .end = 19),
    CALL(position_of_byte, READING, .never = NOT_BOTH, .ways = {of_session, of_at},
         .out_size = sizeof(hordguli_position), .at = 17, .end = 99),
    CALL(position_of_utf16, READING, .never = NOT_BOTH, .ways = {of_session, of_at},
         .out_size = sizeof(hordguli_position), .at = 17, .end = 99),
    CALL(spans, READING ", NO_ROOM", .ways = {of_session, of_at, of_buffer}, .out_size = sizeof(size_t), .at = 0,
         .count = 5, .end = 3, .needed = 2),
    CALL(runs, READING ", NO_ROOM", .ways = {of_session, of_at, of_buffer}, .out_size = sizeof(size_t), .at = 1,
         .end = 3, .needed = 2),
    CALL(edge_caret, ON_EDGE, .never = NOT_BOTH, .ways = {of_session, of_edge}, .out_size = sizeof(hordguli_caret),
         .at = 18, .end = 19, .flags = 1),
    CALL(step, ON_EDGE, .ways = {of_session, of_second_out, of_step}, .out_size = sizeof(hordguli_edge), .at = 17,
         .end = 19, .flags = 1),
    CALL(edge_at, READING ", NO_MEMORY", .never = NOT_BOTH, .ways = {of_session, of_at},
         .out_size = sizeof(hordguli_edge), .at = 2, .end = 3),
    CALL(nearest_edge, READING ", NO_MEMORY", .never = NOT_BOTH, .ways = {of_session, of_at},
         .out_size = sizeof(hordguli_edge), .at = 2, .end = 3),
    CALL(line_edges, READING, .ways = {of_session, of_second_out, of_at}, .out_size = sizeof(hordguli_edge), .at = 2,
         .end = 3),
    CALL(line_clusters, READING ", NO_MEMORY, NO_ROOM", .ways = {of_session, of_at, of_buffer},
         .out_size = sizeof(size_t), .at = 1, .end = 3, .needed = 7),
    CALL(line, READING ", NO_ROOM", .ways = {of_session, of_at, of_line}, .out_size = sizeof(hordguli_line_info),
         .at = 1, .end = 3, .needed = 6),
    CALL(lines_utf8, "NULL, OVERLAP, UNKNOWN_OPTION, CLOSED, OUT_OF_RANGE, NO_MEMORY, NO_ROOM",
         .ways = {of_session, of_range, of_buffer, of_print_flags}, .out_size = sizeof(size_t), .at = 1, .count = 2,
         .end = 4, .needed = 12, .flags = 65),
    CALL(text, READING ", NO_MEMORY, NO_ROOM", .ways = {of_session, of_range, of_buffer}, .out_size = sizeof(size_t),
         .at = 3, .count = 4, .end = 19, .needed = 7),
    CALL(text_utf32, READING ", NO_ROOM", .ways = {of_session, of_range, of_buffer}, .out_size = sizeof(size_t),
         .at = 3, .count = 4, .end = 19, .needed = 4),
    CALL(utf8_length, READING, .never = NOT_BOTH, .ways = {of_session, of_range}, .out_size = sizeof(size_t), .at = 3,
         .count = 4, .end = 19),
    CALL(count_utf8, "NULL, OVERLAP, NOT_UTF8", .ways = {of_count_utf8}, .out_size = sizeof(size_t)),
    CALL(valid_utf8, "NULL, OVERLAP", .ways = {of_valid_utf8}, .out_size = sizeof(size_t)),
    CALL(decode, "NULL, OVERLAP, NOT_UTF8, NO_ROOM", .ways = {of_count_utf8, of_decode}, .out_size = sizeof(size_t),
         .needed = 2),
    CALL(clusters, "NULL, OVERLAP, NOT_A_CHARACTER, NO_MEMORY, NO_ROOM", .ways = {of_clusters, of_ends},
         .out_size = sizeof(size_t), .count = 5, .needed = 5),
    CALL(script_runs, "NULL, OVERLAP, CLOSED, NOT_A_CHARACTER, NO_MEMORY, NO_ROOM",
         .ways = {of_characters, of_base, of_elements}, .out_size = sizeof(size_t), .count = 5, .needed = 2),
    CALL(paragraph, READING ", NO_ROOM", .ways = {of_session, of_at, of_paragraph},
         .out_size = sizeof(hordguli_paragraph_info), .at = 1, .end = 3, .needed = 7),
    /* A call that returns NO_ROOM allocates nothing, since the tables keep the memory of the first call. */
    CALL(layout,
         "NULL, OVERLAP, WIDTH_OUT_OF_RANGE (above 65,535), UNKNOWN_OPTION, NOT_UTF8, CLOSED, WIDTH_OUT_OF_RANGE (0), "
         "TEXT_TOO_LONG, PARAGRAPH_TOO_LONG, NO_MEMORY, NO_ROOM",
         .ways = {of_layout, of_layout_buffer, of_columns}, .out_size = sizeof(size_t), .needed = 4,
         .never = "WIDTH_OUT_OF_RANGE (above 65,535) + WIDTH_OUT_OF_RANGE (0)"),
    CALL(base, "NULL, OVERLAP, UNKNOWN_OPTION, CLOSED, NOT_A_CHARACTER, NO_MEMORY",
         .ways = {of_characters, of_base, of_direction}, .out_size = sizeof(uint32_t), .count = 5),
    CALL(levels, COMPUTING, .ways = {of_characters, of_elements, of_direction}, .count = 5, .needed = 5),
    CALL(marks, COMPUTING, .ways = {of_characters, of_elements, of_marks}, .count = 5, .needed = 5),
    CALL(reasons, REASONING, .ways = {of_characters, of_elements, of_direction, of_reasons}, .count = 5, .needed = 5),
    CALL(break_reasons, REASONING, .ways = {of_characters, of_elements, of_marks, of_reasons}, .count = 5, .needed = 5),
    CALL(row, "NULL, OVERLAP, UNKNOWN_OPTION, CLOSED, NO_ROOM, NOT_A_CHARACTER, OUT_OF_RANGE, NO_MEMORY",
         .ways = {of_characters, of_row_levels, of_row, of_row_options}, .count = 5, .needed = 5),
    CALL(row_runs, "NULL, OVERLAP, CLOSED, NOT_A_CHARACTER, OUT_OF_RANGE, NO_MEMORY, NO_ROOM",
         .ways = {of_characters, of_row_levels, of_base, of_elements}, .out_size = sizeof(size_t), .count = 5,
         .needed = 4),
    CALL(properties, "NULL, OVERLAP, CLOSED, NOT_A_CHARACTER", .ways = {of_characters, of_records}, .count = 5),
};

enum { CALLS = sizeof calls / sizeof *calls, MOST = 24 };

/* The items of a list of errors (no items if the list is NULL) */
typedef struct items {
    char words[MOST][64];
    size_t count;
} items;

static items items_of(const char *list) {
    items found;
    found.count = 0;
    while (list != NULL && *list != '\0') {
        const char *end = strstr(list, ", ");
        size_t length = end == NULL ? strlen(list) : (size_t)(end - list);
        if (found.count == MOST || length >= sizeof found.words[0]) exit(2);
        memcpy(found.words[found.count], list, length);
        found.words[found.count++][length] = '\0';
        list += end == NULL ? length : length + 2;
    }
    return found;
}

/* Returns a list of errors as a set of bits. Bit k stands for item k of `order`. */
static uint32_t bits_of(const char *errors, const items *order) {
    items some = items_of(errors);
    uint32_t bits = 0;
    for (size_t k = 0; k < some.count; k++) {
        size_t at = 0;
        while (at < order->count && strcmp(order->words[at], some.words[k]) != 0) at++;
        if (at == order->count) {
            fprintf(stderr, "not an error of the call: %s\n", some.words[k]);
            exit(2);
        }
        bits |= UINT32_C(1) << at;
    }
    return bits;
}

/* Returns the status that the first word of an item names, or -1 if there is none. */
static hordguli_status status_of(const char *item) {
    size_t length = strcspn(item, " ");
    for (hordguli_status status = 0; status < STATUSES; status++)
        if (strlen(statuses[status].name) == length && memcmp(statuses[status].name, item, length) == 0) return status;
    return -1;
}

static const char session_text[] = "abc \u05d0\u05d1\u05d2\n(\u05d0) 12\nx y";

/* The session's text, lines, counts and work counters, and the long session's counts and work counters */
typedef struct content {
    char bytes[200];
    hordguli_counts counts, long_counts;
    hordguli_work work, long_work;
} content;

static content kept;

static content content_now(void) {
    hordguli_session *session = &own.session;
    content found;
    size_t text = 0, lines = 0;
    memset(&found, 0, sizeof found);
    hordguli_session_counts(session, &found.counts);
    hordguli_session_work(session, &found.work);
    hordguli_session_counts(&own.long_session, &found.long_counts);
    hordguli_session_work(&own.long_session, &found.long_work);
    hordguli_text(session, 0, found.counts.characters, 100, found.bytes, &text);
    hordguli_lines_utf8(session, 0, found.counts.lines, 65, 100, found.bytes + 100, &lines);
    return found;
}

/* Returns arguments with which the call succeeds. If `is_new`, first closes the handles that must be closed, and
 * reopens the session. */
static arguments good_arguments(const call *c, int is_new) {
    arguments a;
    int opens_tables = strncmp(c->name, "tables_", 7) == 0 && strcmp(c->name, "tables_version") != 0;
    int opens_session = strncmp(c->name, "session_open", 12) == 0;
    static const uint32_t characters[ELEMENTS] = {'a', ' ', 0x5D0, '1', ')', 'b'};
    static const uint8_t levels[ELEMENTS] = {0, 0, 1, 2, 0, 0};
    if (is_new) {
        hordguli_tables_close(&own.no_tables);
        hordguli_session_close(&own.no_session);
        reopen(&own.session, session_text, 80);
        if (c->make == make_set_advances || c->make == make_set_measured_width) {
            hordguli_session_close(&own.session);
            OK(hordguli_session_open_measured(&own.session, &own.tables, 0, 80, session_text, strlen(session_text)));
        }
        kept = content_now();
    }
    if (strncmp(c->name, "tables_open_folder", 18) == 0)
        for (size_t k = 0; k < 7; k++) write_file(k, "");
    memset(own.files, 0, sizeof own.files);
    memset(&own.fault, UNUSED, sizeof own.fault);
    memset(own.out, UNUSED, sizeof own.out);
    memset(own.arrays, UNUSED, sizeof own.arrays);
    memcpy(own.characters, characters, sizeof own.characters);
    memcpy(own.levels, levels, sizeof own.levels);
    memset(&a, 0, sizeof a);
    a.tables = opens_tables ? &own.no_tables : &own.tables;
    a.session = opens_session ? &own.no_session : &own.session;
    a.files = own.files;
    a.fault = &own.fault;
    a.folder = folder;
    a.flags = c->flags;
    a.direction = HORDGULI_RIGHT;
    a.width = 7;
    a.text = "d\u05d3";
    a.length = 3;
    if (strcmp(c->name, "tables_open_image") == 0) {
        a.text = (const char *)image;
        a.length = image_length;
    }
    a.at = c->at;
    a.count = c->count;
    a.column = 1;
    a.capacity = ELEMENTS;
    a.characters = own.characters;
    a.levels = own.levels;
    a.out = own.out;
    for (size_t k = 0; k < 5; k++) a.arrays[k] = own.arrays[k];
    return a;
}

/* Checks the output that a refused call stores, which depends on its status, and restores the old contents of
 * that memory. The caller checks all other memory. */
static int is_set_as_promised(const call *c, hordguli_status status) {
    int is_set = 1;
    if (status == HORDGULI_NO_ROOM && c->out_size != 0) { /* the required capacity */
        const void *out = own.out;
        is_set = (c->make == make_line ? ((const hordguli_line_info *)out)->shown : *(const size_t *)out) == c->needed;
        memcpy(own.out, before.out, sizeof own.out);
    } else if (status == HORDGULI_UNREAD_FILE) {
        is_set = own.fault.file == missing && own.fault.line == 0 && own.fault.cause == 0;
        own.fault = before.fault;
    } else if (status == HORDGULI_TABLE_FAULT && c->make == make_tables_open_image) {
        is_set = own.fault.file == HORDGULI_IMAGE && own.fault.line == 0 && own.fault.cause == image_cause;
        own.fault = before.fault;
    } else if (status == HORDGULI_TABLE_FAULT) {
        is_set = own.fault.file == malformed && own.fault.line == 3 && own.fault.cause == HORDGULI_CAUSE_FIELD_COUNT;
        own.fault = before.fault;
    }
    return is_set;
}

#ifdef WRAPPED
/* Whether a call allocates before it finds an error, so that a failed allocation is reported first. */
static int allocates_first(const call *c, hordguli_status error) {
    if (error == HORDGULI_NO_ROOM)
        return c->make == make_lines_utf8 || c->make == make_text || c->make == make_row_runs || c->make == make_line_clusters
               || c->make == make_clusters || c->make == make_script_runs;
    return (error == HORDGULI_TABLE_FAULT && c->make != make_tables_open_image) || error == HORDGULI_UNREAD_FILE;
}
#endif

/* Makes a call to which the errors of one or two ways apply, and checks its status and its effects. */
static void is_refused(const call *c, const items *order, uint32_t bits, const way *x, size_t i, const way *y,
                       size_t j) {
    static int is_new = 1;
    arguments a = good_arguments(c, is_new);
    int is_x_last = strstr(x->errors, "OVERLAP") != NULL; /* an overlap depends on the other pointers */
    hordguli_status status, wanted;
    content now;
    size_t first = 0;
    char text[400];
    if (!is_x_last) x->apply(&a, c, i);
    if (y != NULL) y->apply(&a, c, j);
    if (is_x_last) x->apply(&a, c, i);
    while ((bits >> first & 1) == 0) first++;
    wanted = status_of(order->words[first]);
    memcpy(&before, &own, sizeof own);
    status = c->make(&a);
#define EXPECT(condition, ...)                                                                                         \
    (snprintf(text, sizeof text, "hordguli_%s, %s (%zu)%s%s (%zu): ", c->name, x->errors, i, y == NULL ? "" : " and ", \
              y == NULL ? "" : y->errors, j),                                                                          \
     snprintf(text + strlen(text), sizeof text - strlen(text), __VA_ARGS__),                                           \
     is_new |= !holds((condition), __FILE__, __LINE__, text))
    is_new = 0;
    EXPECT(status == wanted, "returns %d, not %d", (int)wanted, (int)status);
    EXPECT(is_set_as_promised(c, status), "sets what the header says");
    EXPECT(memcmp(&own, &before, sizeof own) == 0, "changes no memory");
#ifdef WRAPPED
    refuses_all = 1;
    status = c->make(&a);
    refuses_all = 0;
    if (allocates_first(c, wanted)) wanted = HORDGULI_NO_MEMORY;
    EXPECT(status == wanted, "returns %d, not %d, if no allocation succeeds", (int)wanted, (int)status);
    EXPECT(is_set_as_promised(c, status), "sets what the header says, if no allocation succeeds");
    EXPECT(memcmp(&own, &before, sizeof own) == 0, "changes no memory, if no allocation succeeds");
#endif
    now = content_now();
    EXPECT(memcmp(&now, &kept, sizeof now) == 0, "changes no session");
}

/* Records the error, or the pair of errors, that applied to a call. */
static void cover(uint32_t covered[MOST], size_t count, uint32_t bits) {
    for (size_t at = 0; at < count; at++)
        for (size_t to = at; to < count; to++)
            if (bits == (UINT32_C(1) << at | UINT32_C(1) << to)) covered[at] |= UINT32_C(1) << to;
}

/* Makes a call with each of its errors, and with each pair of errors that can apply at the same time. */
static void first_listed_error_is_returned(const call *c) {
    items order = items_of(c->order != NULL ? c->order : c->errors), never = items_of(c->never);
    uint32_t covered[MOST] = {0};
    const way *ways[MOST * 4];
    size_t count = 0;
    arguments a = good_arguments(c, 1);
    HOLDS(c->make(&a) == HORDGULI_OK);
    good_arguments(c, 1);
    for (size_t k = 0; k < 4 && c->ways[k] != NULL; k++)
        for (const way *w = c->ways[k]; w->errors != NULL; w++) ways[count++] = w;
    for (size_t k = 0; k < count; k++) {
        uint32_t bits = bits_of(ways[k]->errors, &order);
        for (size_t i = ways[k]->first; i <= ways[k]->last; i++) is_refused(c, &order, bits, ways[k], i, NULL, 0);
        cover(covered, order.count, bits);
        for (size_t m = k + 1; m < count; m++) {
            uint32_t both = bits | bits_of(ways[m]->errors, &order);
            const way *x = ways[k], *y = ways[m];
            if ((x->sets & y->sets) != 0 || (both & (both - 1)) == 0) continue;
            if (strstr(y->errors, "OVERLAP") != NULL) x = ways[m], y = ways[k];
            for (size_t i = x->first; i <= x->last; i++)
                for (size_t j = y->first; j <= y->last; j++) is_refused(c, &order, both, x, i, y, j);
            cover(covered, order.count, both);
        }
    }
    for (size_t at = 0; at < order.count; at++) {
        for (size_t to = at; to < order.count; to++) {
            char pair[160];
            int is_never = 0;
            if (strcmp(order.words[at], "NO_MEMORY") == 0 || strcmp(order.words[to], "NO_MEMORY") == 0) continue;
            snprintf(pair, sizeof pair, "%s + %s", order.words[at], order.words[to]);
            for (size_t k = 0; k < never.count; k++) is_never |= strcmp(never.words[k], pair) == 0;
            if ((covered[at] >> to & 1) == (uint32_t)is_never) fprintf(stderr, "hordguli_%s: %s\n", c->name, pair);
            HOLDS((covered[at] >> to & 1) != (uint32_t)is_never);
        }
    }
}

/* Input arrays may overlap each other. */
WAY(two_files_at_one_place, own.files[3] = own.files[4] = (hordguli_bytes){"0041;AL", 7})
WAY(file_in_files, own.files[3] = (hordguli_bytes){own.files, sizeof own.files})

static void input_arrays_may_overlap(void) {
    static void (*const ways[])(arguments *, const call *, size_t) = {two_files_at_one_place, file_in_files};
    for (size_t k = 0; k < sizeof ways / sizeof *ways; k++) {
        const call *c = calls;
        arguments a;
        while (strcmp(c->name, "tables_read") != 0) c++;
        a = good_arguments(c, 1);
        ways[k](&a, c, 0);
        HOLDS(c->make(&a) != HORDGULI_OVERLAP);
    }
}

/* Checks that the lists of errors above equal those in the header. */
static void errors_are_those_of_the_header(const char *path) {
    static char header[1 << 17];
    FILE *from = sure(fopen(path, "rb"));
    size_t length = fread(header, 1, sizeof header - 1, from), lists = 0;
    fclose(from);
    header[length] = '\0';
    for (const char *at = header; (at = strstr(at, " * Errors: ")) != NULL; at++) lists++;
    HOLDS(lists == CALLS);
    for (size_t k = 0; k < CALLS; k++) {
        char declared[100], list[400];
        const char *at, *next, *call;
        size_t count = 0;
        snprintf(declared, sizeof declared, "\nhordguli_status hordguli_%s(", calls[k].name);
        call = strstr(header, declared);
        if (!HOLDS(call != NULL)) continue;
        for (at = header; (next = strstr(at + 1, " * Errors: ")) != NULL && next < call;) at = next;
        for (at += strlen(" * Errors: "); !(at[0] == '.' && at[1] == '\n') && count + 1 < sizeof list; at++) {
            list[count++] = *at == '\n' ? ' ' : *at;
            if (*at == '\n') at += strlen(" * ");
        }
        list[count] = '\0';
        holds(strcmp(list, calls[k].errors) == 0, __FILE__, __LINE__, list);
    }
}

static void make_texts(void) {
    static const char *const end = "\xFF";
    newlines = sure(malloc(CHARACTERS + 2));
    letters = sure(malloc(CHARACTERS + 2));
    paragraph = sure(malloc(LETTERS + 2));
    memset(newlines, '\n', CHARACTERS + 1);
    memset(letters, 'a', CHARACTERS + 1);
    memset(paragraph, 'a', LETTERS + 1);
    newlines[CHARACTERS + 1] = letters[CHARACTERS + 1] = paragraph[LETTERS + 1] = *end;
}

static void read_image(const char *table_folder) {
    char path[200];
    FILE *from;
    snprintf(path, sizeof path, "%s/tables.image", table_folder);
    from = sure(fopen(path, "rb"));
    image_length = fread(image, 1, sizeof image, from);
    fclose(from);
}

static void pairs(const char *table_folder) {
    make_texts();
    read_image(table_folder);
    sure(mkdtemp(folder));
    for (size_t k = 0; k < 7; k++) write_file(k, "");
    OK(hordguli_tables_open_folder(&own.tables, table_folder, NULL));
    /* two paragraphs that are together longer than a paragraph may be */
    letters[HALF] = '\n';
    OK(hordguli_session_open(&own.long_session, &own.tables, 0, 65535, letters, 2 * HALF + 1));
    letters[HALF] = 'a';
    OK(hordguli_session_open(&own.plain_session, &own.tables, 0, 80, "a", 1));
    for (size_t k = 0; k < CALLS; k++) first_listed_error_is_returned(&calls[k]);
    input_arrays_may_overlap();
    for (size_t k = 0; k < 7; k++) unlink(path_of(k));
    rmdir(folder);
    hordguli_session_close(&own.session);
    hordguli_session_close(&own.no_session);
    hordguli_session_close(&own.long_session);
    hordguli_session_close(&own.plain_session);
    hordguli_tables_close(&own.tables);
    hordguli_tables_close(&own.no_tables);
    free(newlines);
    free(letters);
    free(paragraph);
}

int main(int count, char **arguments) {
    if (count != 3) return 2;
    statuses_have_their_numbers_and_texts();
    constants_have_their_numbers();
    OK(hordguli_tables_open_folder(&tables, arguments[1], NULL));
    table_fault_has_each_value_in_its_field();
    files_have_their_indexes();
    damage_and_changed_lines_have_each_value_in_its_field();
    damage_of_measured_text_has_each_value_in_its_field();
    counts_and_work_have_each_value_in_their_field();
    places_have_each_value_in_its_field();
    edges_have_each_value_in_their_field();
    lines_have_each_value_in_its_field();
    paragraphs_have_each_value_in_its_field();
    reasons_have_each_value_in_its_field();
    break_reasons_have_each_value_in_its_field();
    parameters_are_not_exchanged();
    errors_are_those_of_the_header(arguments[2]);
    pairs(arguments[1]);
    hordguli_tables_close(&tables);
    return finish("statuses");
}
