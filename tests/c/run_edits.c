/* Tests edits that lengthen or shorten a run of characters of one kind, and edits that only look like these. After each edit, the
 * session must equal a new session on the whole text. Usage: run_edits FOLDER SESSIONS [17.0], where FOLDER has the table files, by
 * default of Unicode 15.0.
 *
 * - Makes each edit of a list, and its inverse, in short and long paragraphs and in measured text. A row states whether the edit
 *   analyses the paragraph.
 * - Pastes and deletes 100,000 characters of each kind.
 * - Checks that refused edits change nothing.
 * - Edits SESSIONS random sessions. Most edits double or erase a character. */
#include "answers.h"
#include "kinds.h"
#include "same_sessions.h"
#include "snapshot.h"

enum { PARAGRAPH_LIMIT = 1 << 20, TEXT_LIMIT = 1 << 24, FILLER = 320, PIECE = 64, PASTE = 100000, DIRECTIONS = 0x3000003, TAB_BITS = 0xFF00 };

static hordguli_tables tables = HORDGULI_TABLES_INIT;
static hordguli_session kept = HORDGULI_SESSION_INIT;
static int is_17, is_measured;

/* What the session should have */
static uint32_t text[PARAGRAPH_LIMIT], advances[PARAGRAPH_LIMIT], width, options;
static size_t length;
static char bytes[PARAGRAPH_LIMIT * 4];

/* ---- Edits and their definitions ---- */

/* Returns the own advance of a character. In most fonts, letters of the same kind have different ones. */
static uint32_t advance_of(uint32_t character) { return character == 0x301 ? 0 : 5 + character % 7; }

static const uint32_t *own_advances(void) { return is_measured ? advances : NULL; }

/* Opens a session on the text. In measured text, sets the advances. */
static void open_on_text(hordguli_session *session) {
    size_t size = encoded(text, length, bytes);
    if (is_measured) {
        OK(hordguli_session_open_measured(session, &tables, options, width, bytes, size));
        OK(hordguli_set_advances(session, 0, length, advances, NULL));
    } else {
        OK(hordguli_session_open(session, &tables, options, width, bytes, size));
    }
}

/* Appends characters to the text, with their own advances. */
static void append(const uint32_t *characters, size_t count) {
    for (size_t k = 0; k < count; k++, length++) {
        text[length] = characters[k];
        advances[length] = advance_of(characters[k]);
    }
}

static void equals_new_session(void) {
    hordguli_session anew = HORDGULI_SESSION_INIT;
    hordguli_counts counts, others;
    open_on_text(&anew);
    OK(hordguli_session_counts(&kept, &counts));
    OK(hordguli_session_counts(&anew, &others));
    if (HOLDS(memcmp(&counts, &others, sizeof counts) == 0 && counts.characters == length && counts.width == width)) {
        static uint32_t characters[PARAGRAPH_LIMIT];
        size_t count;
        same_lines(&kept, &anew, &counts);
        same_pages(&kept, &anew, &counts, HORDGULI_PRINT_DEFAULT);
        if (below(3) == 0) same_places(&kept, &anew, &counts);
        OK(hordguli_text_utf32(&kept, 0, length, PARAGRAPH_LIMIT, characters, &count));
        if (length <= 40 && (options & TAB_BITS) == 0 && below(4) == 0) answers_are_equal(&kept, &anew, length);
        HOLDS(count == length && memcmp(characters, text, length * sizeof *text) == 0);
    }
    hordguli_session_close(&anew);
}

/* What a call analyses: nothing, all characters of the new paragraphs, or any number of characters. */
enum { NOTHING, PARAGRAPH, ANY };

/* The session before a call, and the damage that the call should have, except for the numbers of new lines and paragraphs */
static struct {
    snapshot lines;
    hordguli_counts counts;
    hordguli_work work;
    hordguli_damage damage;
} earlier;

/* Keeps the state before a call that replaces the paragraphs whose spans, with both ends, intersect a range. */
static void begin(size_t pos, size_t end) {
    hordguli_damage *damage = &earlier.damage;
    memset(damage, 0, sizeof *damage);
    take(&kept, own_advances(), &earlier.lines);
    OK(hordguli_session_counts(&kept, &earlier.counts));
    OK(hordguli_session_work(&kept, &earlier.work));
    for (size_t paragraph = 0; paragraph < earlier.counts.paragraphs; paragraph++) {
        hordguli_paragraph_info info;
        OK(hordguli_paragraph(&kept, paragraph, &info, 0, NULL, NULL));
        if (info.start > end || info.start + info.length < pos) continue;
        if (damage->old_paragraphs++ == 0) damage->first_paragraph = paragraph, damage->first_line = info.first_line;
        damage->old_lines += info.lines;
    }
}

/* Returns how many characters the new paragraphs of a damage have. */
static size_t new_characters(const hordguli_damage *damage) {
    size_t sum = 0;
    for (size_t k = 0; k < damage->new_paragraphs; k++) {
        hordguli_paragraph_info info = {0, 0, 0, 0, 0, 0};
        OK(hordguli_paragraph(&kept, damage->first_paragraph + k, &info, 0, NULL, NULL));
        sum += info.length;
    }
    return sum;
}

/* Checks the damage, the changed lines and the number of analysed characters after a call. */
static void end(const hordguli_damage *damage, int analysed) {
    static snapshot now;
    hordguli_counts counts;
    hordguli_work work;
    hordguli_damage *wanted = &earlier.damage;
    take(&kept, own_advances(), &now);
    OK(hordguli_session_counts(&kept, &counts));
    OK(hordguli_session_work(&kept, &work));
    wanted->new_lines = wanted->old_lines + counts.lines - earlier.counts.lines;
    wanted->new_paragraphs = wanted->old_paragraphs + counts.paragraphs - earlier.counts.paragraphs;
    HOLDS(memcmp(damage, wanted, sizeof *damage) == 0);
    lines_were_replaced(&earlier.lines, &now, damage->first_line, damage->old_lines, damage->new_lines);
    changed_lines_are_right(&kept, &earlier.lines, &now, damage);
    HOLDS(work.filled - earlier.work.filled <= counts.characters && work.written - earlier.work.written <= counts.characters);
    HOLDS(analysed == ANY || work.analysed - earlier.work.analysed == (analysed == PARAGRAPH ? new_characters(damage) : 0));
}

/* Makes an edit in the session and in the text. An edit that touches several paragraphs analyses them. */
static void edit(size_t pos, size_t removed, const uint32_t *piece, size_t added, int analysed) {
    static char piece_bytes[PASTE * 4];
    size_t size = encoded(piece, added, piece_bytes);
    hordguli_damage damage = {7, 7, 7, 7, 7, 7};
    begin(pos, pos + removed);
    if (analysed == NOTHING && earlier.damage.old_paragraphs != 1) analysed = PARAGRAPH;
    if (added == 0) OK(hordguli_delete(&kept, pos, removed, &damage));
    else if (removed == 0) OK(hordguli_insert(&kept, pos, piece_bytes, size, &damage));
    else OK(hordguli_replace(&kept, pos, removed, piece_bytes, size, &damage));
    memmove(text + pos + added, text + pos + removed, (length - pos - removed) * sizeof *text);
    memmove(advances + pos + added, advances + pos + removed, (length - pos - removed) * sizeof *advances);
    memcpy(text + pos, piece, added * sizeof *text);
    memset(advances + pos, 0, added * sizeof *advances);
    length += added - removed;
    end(&damage, analysed);
}

/* Sets the advances of a range to those of its characters. This analyses nothing. */
static void measure(size_t pos, size_t count) {
    hordguli_damage damage = {7, 7, 7, 7, 7, 7};
    if (count == 0) return;
    begin(pos + 1, pos + count - 1);
    for (size_t k = 0; k < count; k++) advances[pos + k] = advance_of(text[pos + k]);
    OK(hordguli_set_advances(&kept, pos, count, advances + pos, &damage));
    end(&damage, NOTHING);
}

/* Makes an edit, and measures the inserted text. Compares the session with a new one after both calls. */
static void edit_and_compare(size_t pos, size_t removed, const uint32_t *piece, size_t added, int analysed) {
    edit(pos, removed, piece, added, analysed);
    equals_new_session();
    if (!is_measured || added == 0) return;
    measure(pos, added);
    equals_new_session();
}

/* ---- Rows ---- */

/* An edit that replaces `removed` characters of a text. `analysed` is what it analyses, or SINCE_17. */
typedef struct row {
    const char *name, *text;
    uint32_t width, options;
    size_t pos, removed;
    const char *inserted;
    int analysed;
} row;

/* PARAGRAPH with tables of Unicode 17.0, NOTHING with those of 15.0 */
enum { SINCE_17 = ANY + 1 };

static const row rows[] = {
    /* Beside an AL, before EN */
    {"an AL after an AL before EN", "ab \u0628 12 cd", 8, 0, 4, 0, "\u0629", NOTHING},
    {"an AL before an AL before EN", "ab \u0628 12 cd", 8, 0, 3, 0, "\u062a", NOTHING},
    {"an AL between an AL and EN", "\u062812 cd", 5, HORDGULI_RTL, 1, 0, "\u0629", NOTHING},
    {"an EN between an AL and EN", "\u062812 cd", 5, 0, 1, 0, "3", NOTHING},
    {"an EN between an AL and a space", "\u0628 12", 5, 0, 1, 0, "3", PARAGRAPH},
    {"a letter between an AL and a space", "ab \u0628 12 cd", 8, 0, 4, 0, "x", PARAGRAPH},
    {"a Hebrew letter between an AL and EN", "ab \u062812 cd", 8, 0, 4, 0, "\u05d0", PARAGRAPH},
    {"an AL deleted after an AL before EN", "ab \u0628\u0629 12 cd", 8, 0, 4, 1, "", NOTHING},
    {"the only AL before EN deleted", "ab \u0628 12 cd", 8, 0, 3, 1, "", PARAGRAPH},
    {"an AL replaced by two beside an AL", "x \u0628\u0629 12,3", 6, HORDGULI_WEAK_RTL, 3, 1, "\u062b\u062c", NOTHING},
    {"a Hebrew letter before an AL replaced by an AL", "x \u05d0\u0629 12,3", 6, 0, 2, 1, "\u062b", PARAGRAPH},
    {"AN inside AN after an AL", "\u0628\u0661\u0662 12", 6, 0, 2, 0, "\u0663", NOTHING},
    /* Inside a number, and between ET and EN */
    {"a digit inside a number", "ab 12 cd", 6, 0, 4, 0, "3", NOTHING},
    {"three digits inside a number", "ab 12 cd", 6, 0, 4, 0, "345", NOTHING},
    {"a digit between CS and EN", "\u05d0 1,2 cd", 6, 0, 4, 0, "3", NOTHING},
    {"a digit between EN and CS", "\u05d0 1,2 cd", 6, 0, 3, 0, "3", NOTHING},
    {"a second CS between digits", "\u05d0 1,2 cd", 6, 0, 3, 0, ",", PARAGRAPH},
    {"ES between digits", "\u05d0 12 cd", 6, 0, 3, 0, "+", PARAGRAPH},
    {"ES beside ES between digits", "\u05d0 1+2 cd", 6, 0, 4, 0, "+", PARAGRAPH},
    {"HY beside HY between digits", "\u05d0 1-2 cd", 6, 0, 4, 0, "-", PARAGRAPH},
    {"AN inside EN", "\u05d0 12 cd", 6, 0, 3, 0, "\u0661", PARAGRAPH},
    {"a digit deleted from a number", "\u05d0 1,22 cd", 6, 0, 4, 1, "", NOTHING},
    {"a digit between CS deleted", "\u05d0 1,2,3 cd", 6, 0, 4, 1, "", PARAGRAPH},
    {"a number deleted between letters", "ab12cd", 4, 0, 2, 2, "", PARAGRAPH},
    {"digits of a number replaced", "\u05d0 1234 cd", 6, 0, 3, 2, "567", NOTHING},
    {"a digit of a whole number", "$(1,200)", 4, HORDGULI_WHOLE_NUMBERS, 3, 0, "4", NOTHING},
    {"a digit between ET and EN", "\u05d0 $12 cd", 6, 0, 3, 0, "3", NOTHING},
    {"a digit between EN and ET", "\u05d0 12% cd", 6, 0, 4, 0, "3", NOTHING},
    {"a number sign between ET and EN", "\u05d0 #12 cd", 6, 0, 3, 0, "#", NOTHING},
    {"an equals sign between ON and EN", "\u05d0 =12 cd", 6, 0, 3, 0, "=", NOTHING},
    {"a number sign between ON and EN", "\u05d0 =12 cd", 6, 0, 3, 0, "#", PARAGRAPH},
    {"PR between ET and EN", "\u05d0 $12 cd", 6, 0, 3, 0, "$", PARAGRAPH},
    {"PO after ET", "\u05d0 12% cd", 6, 0, 5, 0, "%", PARAGRAPH},
    {"a letter between ET and EN", "\u05d0 $12 cd", 6, 0, 3, 0, "x", PARAGRAPH},
    {"a digit before ET deleted", "\u05d0 12% cd", 6, 0, 3, 1, "", NOTHING},
    {"the only digit beside ET deleted", "\u05d0 $1 cd", 6, 0, 3, 1, "", PARAGRAPH},
    /* Beside a bracket */
    {"a letter after an opening bracket", "a (bc) d", 5, 0, 3, 0, "x", NOTHING},
    {"a letter before a closing bracket", "a (bc) d", 5, 0, 5, 0, "x", NOTHING},
    {"a letter before an opening bracket", "a(bc) d", 5, 0, 1, 0, "x", NOTHING},
    {"a letter after a closing bracket", "a (bc)d", 5, 0, 6, 0, "x", NOTHING},
    {"a Hebrew letter in brackets in LTR text", "a (\u05d0) b", 5, 0, 4, 0, "\u05d1", NOTHING},
    {"a letter in empty brackets", "a () b", 5, 0, 3, 0, "x", PARAGRAPH},
    {"a letter in brackets beside a Hebrew letter", "\u05d0 (\u05d1) \u05d2", 5, 0, 4, 0, "x", PARAGRAPH},
    {"an opening bracket beside one", "a ((b)) c", 5, 0, 3, 0, "(", PARAGRAPH},
    {"a closing bracket beside one", "a ((b)) c", 5, 0, 5, 0, ")", PARAGRAPH},
    {"one of two letters in brackets deleted", "\u05d0 (xy) \u05d2", 5, 0, 3, 1, "", NOTHING},
    {"the only letter in brackets deleted", "\u05d0 (x) \u05d2", 5, 0, 3, 1, "", PARAGRAPH},
    {"a bracket replaced by a letter", "a (bc) d", 5, 0, 2, 1, "x", PARAGRAPH},
    {"a space beside a space in brackets", "\u05d0 ( x) \u05d2", 5, 0, 3, 0, " ", NOTHING},
    /* Before a mark */
    {"a letter between a letter and its mark", "xa\u0301b cd", 4, 0, 2, 0, "e", NOTHING},
    {"a letter before a letter with a mark", "xa\u0301b cd", 4, 0, 1, 0, "e", NOTHING},
    {"a letter after a mark before a letter", "xa\u0301b cd", 4, 0, 3, 0, "e", NOTHING},
    {"a letter after a mark before a space", "xa\u0301 cd", 4, 0, 3, 0, "e", PARAGRAPH},
    {"a mark after a mark", "xa\u0301b cd", 4, 0, 3, 0, "\u0301", PARAGRAPH},
    {"the letter with a mark deleted after a letter", "xa\u0301b cd", 4, 0, 1, 1, "", NOTHING},
    {"the only letter with a mark deleted", "x a\u0301 cd", 4, 0, 2, 1, "", PARAGRAPH},
    {"a Hebrew letter before a point", "\u05d0\u05b0\u05d1 \u05d2", 4, HORDGULI_REORDER_NSM, 1, 0, "\u05d3", NOTHING},
    {"a Hebrew letter before a point in clusters", "\u05d0\u05b0\u05d1 \u05d2", 4, HORDGULI_REORDER_CLUSTERS, 1, 0, "\u05d3", NOTHING},
    {"a space between a space and a mark", "a  \u0301b", 4, 0, 3, 0, " ", NOTHING},
    {"a digit between a digit and a mark", "\u05d0 12\u0301,3", 4, 0, 4, 0, "4", NOTHING},
    /* In an isolate, and after a PDI */
    {"a letter in an RLI", "a \u2067bc\u2069 d", 5, 0, 4, 0, "x", NOTHING},
    {"a letter after the RLI", "a \u2067bc\u2069 d", 5, 0, 3, 0, "x", NOTHING},
    {"a letter before the PDI", "a \u2067bc\u2069 d", 5, 0, 5, 0, "x", NOTHING},
    {"a Hebrew letter in an LRI", "a \u2066\u05d0 1\u2069 d", 5, 0, 4, 0, "\u05d1", NOTHING},
    {"a Hebrew letter in an FSI", "a \u2068\u05d0 1\u2069 d", 5, 0, 3, 0, "\u05d1", NOTHING},
    {"a letter before the first strong letter of an FSI", "a \u20681 \u05d0\u2069 d", 5, 0, 3, 0, "x", PARAGRAPH},
    {"a letter in an empty isolate", "a \u2067\u2069 d", 5, 0, 3, 0, "x", PARAGRAPH},
    {"a letter after a PDI before a letter", "a\u2067\u05d0\u2069bc", 5, 0, 4, 0, "x", NOTHING},
    {"a digit after a PDI before a digit", "\u05d0\u2067\u05d0\u2069 1\u20692", 5, 0, 7, 0, "3", NOTHING},
    {"a letter after a PDI before a space", "a \u2067bc\u2069 d", 5, 0, 6, 0, "x", PARAGRAPH},
    {"a letter after a PDI deleted before a letter", "a\u2067\u05d0\u2069bc", 5, 0, 4, 1, "", NOTHING},
    {"an RLI beside an RLI", "a \u2067bc\u2069 d", 5, 0, 3, 0, "\u2067", PARAGRAPH},
    {"a PDI beside a PDI", "a \u2067bc\u2069 d", 5, 0, 6, 0, "\u2069", PARAGRAPH},
    {"a letter in an RLE", "a \u202bb 1\u202c d", 5, 0, 4, 0, "x", NOTHING},
    {"a letter in an RLO", "a \u202eb 1\u202c d", 5, HORDGULI_REORDER_CLUSTERS, 4, 0, "x", NOTHING},
    {"an RLE beside an RLE", "a \u202bb 1\u202c d", 5, 0, 3, 0, "\u202b", PARAGRAPH},
    {"a PDF beside a PDF", "a \u202bb 1\u202c d", 5, 0, 7, 0, "\u202c", PARAGRAPH},
    /* At both ends of the paragraph and the text */
    {"the first letter", "ab cd", 4, 0, 0, 0, "x", NOTHING},
    {"the last letter", "ab cd", 4, 0, 5, 0, "x", NOTHING},
    {"the first letter deleted before a letter", "ab cd", 4, 0, 0, 1, "", NOTHING},
    {"the last letter deleted after a letter", "ab cd", 4, 0, 4, 1, "", NOTHING},
    {"the first space", "  ab cd", 4, HORDGULI_RTL, 0, 0, " ", NOTHING},
    {"the last space", "ab cd  ", 4, HORDGULI_RTL, 7, 0, " ", NOTHING},
    {"the first strong letter after a digit", "1 \u05d0b", 4, 0, 2, 0, "\u05d1", NOTHING},
    {"another first strong letter", "1\u05d0b", 4, 0, 0, 0, "x", PARAGRAPH},
    {"a letter in an empty text", "", 4, 0, 0, 0, "x", PARAGRAPH},
    {"the only letter deleted", "a", 4, 0, 0, 1, "", PARAGRAPH},
    {"a letter before a letter before LF", "ab\n\u05d0\u05d1", 4, 0, 1, 0, "x", NOTHING},
    {"a letter after a letter before LF", "ab\n\u05d0\u05d1", 4, 0, 2, 0, "x", NOTHING},
    {"the first letter after LF", "ab\n\u05d0\u05d1", 4, 0, 3, 0, "\u05d2", PARAGRAPH},
    {"the second letter after LF", "ab\n\u05d0\u05d1", 4, 0, 4, 0, "\u05d2", NOTHING},
    {"the first letter after LF deleted", "ab\n\u05d0\u05d1", 4, 0, 3, 1, "", PARAGRAPH},
    {"the last letter before LF deleted", "ab\n\u05d0\u05d1", 4, 0, 1, 1, "", NOTHING},
    {"the only letter before LF deleted", "a\n\u05d0\u05d1", 4, 0, 0, 1, "", PARAGRAPH},
    {"all letters before LF replaced", "ab\n\u05d0\u05d1", 4, 0, 0, 2, "xyz", PARAGRAPH},
    {"a letter after a last LF", "ab\n", 4, 0, 3, 0, "c", PARAGRAPH},
    {"LF beside LF", "ab\n\u05d0\u05d1", 4, 0, 3, 0, "\n", PARAGRAPH},
    {"LF between letters", "abcd", 4, 0, 2, 0, "\n", PARAGRAPH},
    {"LF deleted between letters", "ab\ncd", 4, 0, 2, 1, "", PARAGRAPH},
    {"a letter beside U+2028", "ab\u2028cd", 4, 0, 3, 0, "x", NOTHING},
    {"U+2028 beside U+2028", "ab\u2028cd", 4, 0, 3, 0, "\u2028", PARAGRAPH},
    {"a letter beside U+2029 that ends a line", "ab\u2029cd", 4, HORDGULI_LINE_SEPARATORS, 3, 0, "x", NOTHING},
    /* The first and the last letter of a line */
    {"the first letter of a line", "abc def ghi", 5, 0, 4, 0, "x", NOTHING},
    {"the last letter of a line", "abc def ghi", 5, 0, 7, 0, "x", NOTHING},
    {"the first letter of a line deleted", "abc def ghi", 5, 0, 4, 1, "", NOTHING},
    {"the last letter of a line deleted", "abc def ghi", 5, 0, 6, 1, "", NOTHING},
    {"the first letter of an RTL line", "\u05d0\u05d1\u05d2 \u05d3\u05d4\u05d5 \u05d6", 5, 0, 4, 0, "\u05d0", NOTHING},
    {"the first letter of a line inside a word", "abcdefghij", 5, 0, 5, 0, "x", NOTHING},
    {"a short first word of a line deleted but for a letter", "abc de fghi", 4, 0, 4, 1, "", NOTHING},
    {"a letter after a tab at the start of a line", "abc\tdef ghi", 5, HORDGULI_TAB_WIDTH(4), 4, 0, "x", NOTHING},
    {"a letter before a tab", "abc\tdef ghi", 9, HORDGULI_TAB_WIDTH(4), 3, 0, "x", NOTHING},
    {"a tab beside a tab", "abc\tdef ghi", 9, HORDGULI_TAB_WIDTH(4), 4, 0, "\t", PARAGRAPH},
    /* A word that wraps, and one that fits */
    {"a word wraps", "abc def gh", 7, 0, 7, 0, "x", NOTHING},
    {"a word fits", "abc defx gh", 7, 0, 7, 1, "", NOTHING},
    {"a word in the line before fits", "abc defg hi", 8, 0, 1, 0, "x", NOTHING},
    {"a shorter word moves up", "abcd efg h", 7, 0, 6, 1, "", NOTHING},
    {"a word becomes wider than a line", "ab cdefg hi", 5, 0, 5, 0, "x", NOTHING},
    {"a word becomes as wide as a line", "ab cdefgh hi", 5, 0, 5, 1, "", NOTHING},
    {"a word of several lines grows", "abcdefghijklmnop", 4, 0, 6, 0, "xyz", NOTHING},
    {"a word is replaced by a longer one", "ab cdef gh", 5, 0, 4, 2, "uvwxyz", NOTHING},
    {"lines without breaks", "abc def gh", 7, HORDGULI_NOBREAK, 7, 0, "x", NOTHING},
    {"a Hebrew word wraps", "\u05d0\u05d1\u05d2 \u05d3\u05d4\u05d5 \u05d6", 7, 0, 7, 0, "\u05d0", NOTHING},
    /* A space at a line's end */
    {"a space at a line's end", "abcd efgh", 4, 0, 4, 0, " ", NOTHING},
    {"a space after spaces at a line's end", "abcd   efgh", 4, HORDGULI_SHOW_SPACES, 7, 0, " ", NOTHING},
    {"a shown space at a line's end", "ab cdefgh", 5, HORDGULI_SHOW_SPACES, 3, 0, " ", NOTHING},
    {"a space deleted at a line's end", "abcd  efgh", 4, HORDGULI_SHOW_SPACES, 4, 1, "", NOTHING},
    {"the only space at a line's end deleted", "abcd efgh", 4, 0, 4, 1, "", PARAGRAPH},
    {"a space between letters", "abcdefgh", 4, 0, 4, 0, " ", PARAGRAPH},
    {"a space at an RTL line's end", "\u05d0\u05d1\u05d2\u05d3 \u05d4", 4, HORDGULI_SHOW_SPACES, 5, 0, " ", NOTHING},
    {"a space at the end of a right-aligned line", "ab \u05d0 cd", 5, HORDGULI_RTL | HORDGULI_SHOW_SPACES, 5, 0, " ", NOTHING},
    {"a no-break space beside one", "ab\u00a0cd", 4, 0, 3, 0, "\u00a0", PARAGRAPH},
    /* ID between ID */
    {"ID between ID", "\u4e00\u4e01\u4e02\u4e03", 4, 0, 2, 0, "\u4e04", NOTHING},
    {"ID between ID at an odd width", "\u4e00\u4e01\u4e02\u4e03", 5, 0, 1, 0, "\u4e04\u4e05", NOTHING},
    {"ID deleted between ID", "\u4e00\u4e01\u4e02\u4e03", 4, 0, 1, 1, "", NOTHING},
    {"a kana between ID", "\u4e00\u4e01", 4, 0, 1, 0, "\u3044", NOTHING},
    {"a letter between ID", "\u4e00\u4e01", 4, 0, 1, 0, "x", PARAGRAPH},
    {"ID between letters", "ab", 4, 0, 1, 0, "\u4e00", PARAGRAPH},
    {"a full stop between ID", "\u4e00\u4e01", 4, 0, 1, 0, "\u3002", PARAGRAPH},
    {"an ideograph before a full stop", "\u4e00\u4e01\u3002\u4e02", 4, 0, 2, 0, "\u4e03", NOTHING},
    {"a star emoji between two", "\U0001f31f\U0001f31f", 4, 0, 1, 0, "\U0001f31f", NOTHING},
    {"an emoji between ID", "\u4e00\u4e01", 4, 0, 1, 0, "\U0001f31f", PARAGRAPH},
    {"a narrow emoji between wide ones", "\U0001f31f\U0001f31f", 4, 0, 1, 0, "\u2600", PARAGRAPH},
    {"a narrow emoji between narrow ones", "\u2600\u2600", 4, 0, 1, 0, "\u2601", NOTHING},
    {"an unassigned pictograph beside one", "\U0001f02c\U0001f02d", 4, 0, 1, 0, "\U0001f02e", NOTHING},
    {"an emoji base beside one", "\U0001f468\U0001f468", 4, 0, 1, 0, "\U0001f469", PARAGRAPH},
    {"a dotted circle beside one", "a \u25cc\u25cc b", 4, 0, 3, 0, "\u25cc", SINCE_17},
    /* A cluster that the edit splits or joins */
    {"a leading jamo beside one", "\u1100\u1161\u1100", 4, 0, 1, 0, "\u1100", PARAGRAPH},
    {"a vowel jamo beside one", "\u1100\u1161\u1161", 4, 0, 2, 0, "\u1161", PARAGRAPH},
    {"a trailing jamo beside one", "\u1100\u1161\u11a8", 4, 0, 3, 0, "\u11a8", PARAGRAPH},
    {"a letter between jamo", "\u1100\u1161", 4, 0, 1, 0, "x", PARAGRAPH},
    {"a Hangul syllable beside one", "\uac00\uac00", 4, 0, 1, 0, "\uac00", PARAGRAPH},
    {"a consonant between a consonant and a virama", "\u0915\u094d\u0937 \u0915", 3, 0, 1, 0, "\u0916", NOTHING},
    {"a consonant between a virama and a consonant", "\u0915\u094d\u0937 \u0915", 3, 0, 2, 0, "\u0916", NOTHING},
    {"a consonant before a consonant with a virama", "\u0915\u094d\u0937 \u0915", 1, 0, 0, 0, "\u0916", NOTHING},
    {"a consonant before a virama deleted", "\u0916\u0915\u094d\u0937 \u0915", 3, 0, 1, 1, "", NOTHING},
    {"a consonant after a virama deleted", "\u0915\u094d\u0916\u0937 \u0915", 3, 0, 2, 1, "", NOTHING},
    {"the only consonant after a virama deleted", "\u0915\u094d\u0937 \u0915", 3, 0, 2, 1, "", PARAGRAPH},
    {"a letter after a virama before a consonant", "\u0915\u094d\u0937 \u0915", 1, 0, 2, 0, "x", NOTHING},
    {"a virama beside a virama", "\u0915\u094d\u0937 \u0915", 3, 0, 2, 0, "\u094d", PARAGRAPH},
    {"a consonant in an RLO", "\u202e\u0915\u094d\u0937 \u0915", 3, HORDGULI_REORDER_CLUSTERS, 3, 0, "\u0916", NOTHING},
    {"a Malayalam dot reph before a letter", "ab\u0d15\u0d15", 2, 0, 3, 0, "\u0d4e", NOTHING},
    {"an emoji after a ZWJ before an emoji", "\U0001f31f\u200d\U0001f31f", 4, 0, 2, 0, "\U0001f31f", NOTHING},
    {"an emoji before a ZWJ after an emoji", "\U0001f31f\u200d\U0001f31f", 4, 0, 1, 0, "\U0001f31f", NOTHING},
    {"a ZWJ beside a ZWJ", "\U0001f31f\u200d\U0001f31f", 4, 0, 2, 0, "\u200d", PARAGRAPH},
    {"a regional indicator beside one", "\U0001f1e9\U0001f1ea", 4, 0, 1, 0, "\U0001f1ea", PARAGRAPH},
    {"a letter beside a soft hyphen", "ab\u00adcd", 3, 0, 3, 0, "x", NOTHING},
    {"a soft hyphen beside one", "ab\u00adcd", 3, 0, 3, 0, "\u00ad", PARAGRAPH},
};
enum { ROWS = sizeof rows / sizeof *rows };

/* Where the row's text is: alone, between two other paragraphs, or in a paragraph that is longer than 32 times the width */
enum { ALONE, AMONG, AT_START, IN_MIDDLE, AT_END, PLACES };

static const uint32_t newline = '\n';
static const char *const place_names[] = {"alone", "among paragraphs", "at the start", "in the middle", "at the end"};

/* Words between which lines end, and the characters between them and the row's text. No row inserts characters of the kind of these. */
static const struct {
    const char *words;
    uint32_t before, after;
} fillers[] = {
    {"lo ip, a do sit am, ", 0x2028, '!'},
    {"\u05e9\u05dc 12 \u05e2\u05d5\u05dd (a) \u05e2\u05dc, ", '!', 0x2028},
};
enum { FILLERS = sizeof fillers / sizeof *fillers };

/* Options in addition to those of the row. A row's direction takes precedence. */
static const uint32_t more_options[] = {
    0,
    HORDGULI_REORDER_NSM | HORDGULI_SHOW_SPACES | HORDGULI_RTL,
    HORDGULI_WHOLE_NUMBERS | HORDGULI_LINE_SEPARATORS | HORDGULI_TAB_WIDTH(3) | HORDGULI_WEAK_RTL,
    HORDGULI_REORDER_CLUSTERS | HORDGULI_SHOW_SPACES | HORDGULI_NOBREAK,
};
enum { MORE_OPTIONS = sizeof more_options / sizeof *more_options };

/* Edits in long paragraphs that analyse nothing, and those of them after which most of the paragraph is filled again */
static long in_long, filled_whole;

/* Makes a row's edit and its inverse, in a text in which the row's text begins at `start`. */
static void edit_row(const row *of, size_t start) {
    uint32_t inserted[PIECE], removed[PIECE];
    size_t added = decoded(of->inserted, inserted), pos = start + of->pos;
    int analysed = of->analysed != SINCE_17 ? of->analysed : is_17 ? PARAGRAPH : NOTHING;
    hordguli_work work, worked;
    memcpy(removed, text + pos, of->removed * sizeof *text);
    open_on_text(&kept);
    OK(hordguli_session_work(&kept, &work));
    edit_and_compare(pos, of->removed, inserted, added, analysed);
    OK(hordguli_session_work(&kept, &worked));
    if (length > FILLER && analysed == NOTHING && !is_measured && !(options & (HORDGULI_REORDER_CLUSTERS | HORDGULI_NOBREAK))) {
        in_long++;
        filled_whole += worked.filled - work.filled > length / 2;
    }
    edit_and_compare(pos, added, removed, of->removed, analysed);
    hordguli_session_close(&kept);
}

/* Appends words of a filler. */
static void append_words(size_t filler, size_t at_least) {
    uint32_t piece[PIECE];
    size_t count = decoded(fillers[filler].words, piece), first = length;
    while (length - first < at_least) append(piece, count);
}

static void test_row(const row *of, int place, size_t filler, uint32_t more) {
    uint32_t own[PIECE];
    size_t own_length = decoded(of->text, own), start, fill = place >= AT_START ? FILLER : 20;
    long failures = failed;
    length = 0;
    if (place != ALONE && place != AT_START) {
        append_words(filler, fill);
        append(place == AMONG ? &newline : &fillers[filler].before, 1);
    }
    start = length;
    append(own, own_length);
    if (place != ALONE && place != AT_END) {
        append(place == AMONG ? &newline : &fillers[filler].after, 1);
        append_words(filler, fill);
    }
    options = of->options | (of->options & DIRECTIONS ? more & ~(uint32_t)DIRECTIONS : more);
    width = is_measured ? of->width * 8 : of->width;
    edit_row(of, start);
    if (failed != failures)
        fprintf(stderr, "row: %s, %s, filler %zu, options %08X%s\n", of->name, place_names[place], filler, (unsigned)options, is_measured ? ", measured" : "");
}

static void test_rows(void) {
    for (size_t k = 0; k < ROWS; k++)
        for (int place = 0; place < PLACES; place++)
            for (size_t filler = 0; filler < (place == ALONE ? 1 : FILLERS); filler++)
                for (size_t more = 0; more < MORE_OPTIONS; more++)
                    for (is_measured = 0; is_measured < 2; is_measured++) test_row(&rows[k], place, filler, more_options[more]);
    HOLDS(filled_whole < in_long / 3);
}

/* Pastes many characters of each kind into a word, and deletes them. Until they are measured, they are in one line. */
static void test_pastes(void) {
    static uint32_t paste[PASTE];
    options = 0;
    for (size_t kind = 0; kind < KINDS; kind++) {
        for (size_t k = 0; k < PASTE; k++) paste[k] = one_of_kind(kind);
        for (is_measured = 0; is_measured < 2; is_measured++) {
            size_t count = is_measured ? SNAPSHOT_CHARACTERS / 2 : PASTE;
            width = is_measured ? 800 : 1000;
            length = 0;
            append((const uint32_t[]){'$', paste[2], paste[1], ')', 0x5D0}, 5);
            open_on_text(&kept);
            edit_and_compare(2, 0, paste, count, NOTHING);
            edit_and_compare(3, count / 2, paste, count / 3, NOTHING);
            edit_and_compare(2, length - 5, paste, 0, NOTHING);
            hordguli_session_close(&kept);
        }
    }
}

/* ---- Refused edits ---- */

static char letters[TEXT_LIMIT];

/* Checks that a call was refused, and that it changed nothing since `begin`. */
static void is_refused(hordguli_status status, hordguli_status wanted, const hordguli_damage *damage, const hordguli_changed *changed) {
    static const hordguli_damage unset = {7, 7, 7, 7, 7, 7};
    static snapshot now;
    hordguli_counts counts;
    hordguli_work work;
    hordguli_changed still = {7, 7, 7};
    HOLDS(status == wanted && memcmp(damage, &unset, sizeof unset) == 0);
    take(&kept, own_advances(), &now);
    HOLDS(memcmp(&now, &earlier.lines, sizeof now) == 0);
    OK(hordguli_session_counts(&kept, &counts));
    OK(hordguli_session_work(&kept, &work));
    OK(hordguli_changed_lines(&kept, &still));
    HOLDS(memcmp(&counts, &earlier.counts, sizeof counts) == 0 && memcmp(&work, &earlier.work, sizeof work) == 0);
    HOLDS(memcmp(&still, changed, sizeof still) == 0);
}

/* Replaces characters of the session with UTF-8 text. The edit must be refused. */
static void refuses(size_t pos, size_t removed, size_t size, const char *inserted, hordguli_status wanted) {
    hordguli_damage damage = {7, 7, 7, 7, 7, 7};
    hordguli_changed changed = {0, 0, 0};
    begin(0, 0);
    OK(hordguli_changed_lines(&kept, &changed));
    is_refused(hordguli_replace(&kept, pos, removed, inserted, size, &damage), wanted, &damage, &changed);
    if (removed == 0) is_refused(hordguli_insert(&kept, pos, inserted, size, &damage), wanted, &damage, &changed);
    if (size == 0) is_refused(hordguli_delete(&kept, pos, removed, &damage), wanted, &damage, &changed);
}

/* Tries run edits that are not valid, in a short text. */
static void short_text_refuses(void) {
    static const uint32_t piece[] = {'b', 'c', ' ', 'a', 'a', '\n', 0x5D0};
    options = HORDGULI_SHOW_SPACES;
    width = is_measured ? 20 : 3;
    length = 0;
    append(piece, sizeof piece / sizeof *piece);
    open_on_text(&kept);
    edit_and_compare(0, 0, (const uint32_t[]){'a'}, 1, NOTHING);
    refuses(length + 1, 0, 1, "a", HORDGULI_OUT_OF_RANGE);
    refuses(length, 1, 0, NULL, HORDGULI_OUT_OF_RANGE);
    refuses(4, SIZE_MAX, 1, "a", HORDGULI_OUT_OF_RANGE);
    refuses(1, 0, 2, "a\xFF", HORDGULI_NOT_UTF8);
    refuses(1, 1, 2, "a\xC3", HORDGULI_NOT_UTF8);
    refuses(1, 0, TEXT_LIMIT, letters, HORDGULI_TEXT_TOO_LONG);
    refuses(1, 0, TEXT_LIMIT - length, letters, HORDGULI_PARAGRAPH_TOO_LONG);
    refuses(1, 1, PARAGRAPH_LIMIT, letters, HORDGULI_PARAGRAPH_TOO_LONG);
    refuses(5, 1, PARAGRAPH_LIMIT, letters, HORDGULI_PARAGRAPH_TOO_LONG);
    equals_new_session();
    edit_and_compare(1, 1, (const uint32_t[]){'d', 'e'}, 2, NOTHING);
    hordguli_session_close(&kept);
}

/* Makes run edits in a paragraph that is as long as possible. */
static void longest_paragraph_refuses(void) {
    options = 0;
    width = is_measured ? 8000 : 1000;
    for (length = 0; length < PARAGRAPH_LIMIT; length++) {
        text[length] = length % 6 == 5 ? ' ' : 'a' + (uint32_t)(length % 5);
        advances[length] = advance_of(text[length]);
    }
    open_on_text(&kept);
    refuses(1, 0, 1, "x", HORDGULI_PARAGRAPH_TOO_LONG);
    refuses(length / 2, 0, 3, "xyz", HORDGULI_PARAGRAPH_TOO_LONG);
    refuses(length, 0, 1, "x", HORDGULI_PARAGRAPH_TOO_LONG);
    refuses(8, 1, 2, "xx", HORDGULI_PARAGRAPH_TOO_LONG);
    edit(8, 2, (const uint32_t[]){'y'}, 1, NOTHING);
    refuses(8, 0, 2, "xx", HORDGULI_PARAGRAPH_TOO_LONG);
    edit_and_compare(length / 2, 0, (const uint32_t[]){text[length / 2]}, 1, NOTHING);
    refuses(8, 0, 1, "x", HORDGULI_PARAGRAPH_TOO_LONG);
    hordguli_session_close(&kept);
}

/* Sets advances whose sum is as large as possible, next to a run edit. */
static void largest_advances_are_refused(void) {
    static const uint32_t piece[] = {'a', 'b', ' ', 'c', '\n', 'd'}, wide[] = {UINT32_MAX - 3}, wider[] = {UINT32_MAX, 1};
    hordguli_damage damage = {7, 7, 7, 7, 7, 7};
    hordguli_changed changed = {0, 0, 0};
    length = 0;
    append(piece, sizeof piece / sizeof *piece);
    for (size_t k = 0; k < length; k++) advances[k] = 1;
    width = 3;
    open_on_text(&kept);
    edit_and_compare(1, 0, (const uint32_t[]){'x', 'y'}, 2, NOTHING);
    for (size_t k = 1; k < 3; k++) advances[k] = 0;
    OK(hordguli_set_advances(&kept, 1, 2, advances + 1, NULL));
    begin(0, 0);
    OK(hordguli_changed_lines(&kept, &changed));
    is_refused(hordguli_set_advances(&kept, 1, 1, wide, &damage), HORDGULI_PARAGRAPH_TOO_LONG, &damage, &changed);
    is_refused(hordguli_set_advances(&kept, 0, 2, wider, &damage), HORDGULI_PARAGRAPH_TOO_LONG, &damage, &changed);
    is_refused(hordguli_set_advances(&kept, length, 1, wide, &damage), HORDGULI_OUT_OF_RANGE, &damage, &changed);
    equals_new_session();
    hordguli_session_close(&kept);
}

static void test_refused_edits(void) {
    memset(letters, 'a', sizeof letters);
    for (is_measured = 0; is_measured < 2; is_measured++) {
        short_text_refuses();
        longest_paragraph_refuses();
    }
    is_measured = 1;
    largest_advances_are_refused();
}

/* ---- Random sessions ---- */

/* Makes a text of words of one kind or several, with spaces and other characters between them. */
static void make_text(void) {
    size_t only = below(2 * KINDS), is_long = below(5) == 0, wanted = is_long ? 300 + below(500) : below(40);
    length = 0;
    while (length < wanted) {
        size_t kind = only < KINDS ? only : below(KINDS);
        for (size_t left = below(6); left > 0; left--) text[length++] = one_of_kind(kind);
        if (below(is_long ? 50 : 3) == 0) length += decoded(text_pieces[below(TEXT_PIECES)], text + length);
        if (below(is_long ? 20 : 3) != 0) text[length++] = ' ';
    }
    for (size_t k = 0; k < length; k++) advances[k] = advance_of(text[k]);
}

/* Types or erases up to three characters beside a character of the same kind. Returns whether it found a place for this. */
static int edit_run(void) {
    uint32_t piece[3];
    size_t at = below(length + 1), added = 0, removed = 0, kind;
    kind = at < length ? kind_of(text[at]) : KINDS;
    if (kind == KINDS) return 0;
    if (below(3) != 0) added = typed(kind, piece);
    if (added == 0 || below(4) == 0) removed = erased(kind, text + at, length - at);
    if (below(2) == 0) { /* after the character, which stays */
        if (removed > 0) removed--;
        at++;
    } else if (removed > 0) { /* before the last of these characters, which stays */
        removed--;
    }
    edit(at, removed, piece, added, NOTHING);
    if (is_measured) measure(at, added);
    return 1;
}

/* Replaces up to eight characters with others. */
static void edit_anything(void) {
    uint32_t piece[PIECE];
    size_t pos = below(length + 1), removed = below(3) != 0 ? 0 : below(length - pos < 8 ? length - pos + 1 : 9);
    size_t added = removed > 0 && below(2) == 0 ? 0 : decoded(text_pieces[below(TEXT_PIECES)], piece);
    edit(pos, removed, piece, added, ANY);
    if (is_measured) measure(pos, added);
}

static void set_width(void) {
    hordguli_damage damage = {7, 7, 7, 7, 7, 7};
    begin(0, length);
    width = (1 + (uint32_t)below(below(3) == 0 ? 80 : 12)) * (is_measured ? 8 : 1);
    OK(hordguli_set_width(&kept, width, &damage));
    end(&damage, ANY);
}

static void change(void) {
    size_t pos = below(length + 1), tries = below(5) == 0 ? 0 : 8;
    if (below(16) == 0) {
        set_width();
    } else if (is_measured && below(6) == 0) {
        measure(pos, below(length - pos + 1));
    } else {
        while (tries > 0 && !edit_run()) tries--;
        if (tries == 0) edit_anything();
    }
}

static void test_sessions(long count) {
    for (long k = 0; k < count && failed == 0; k++) {
        is_measured = below(3) == 0;
        options = (uint32_t)below(128) | (below(2) == 0 ? HORDGULI_LINE_SEPARATORS : 0) | HORDGULI_TAB_WIDTH(below(3) == 0 ? 1 + below(255) : 0);
        width = (1 + (uint32_t)below(below(3) == 0 ? 80 : 12)) * (is_measured ? 8 : 1);
        make_text();
        open_on_text(&kept);
        for (size_t left = 2 + below(6); left > 0; left--) {
            change();
            if (left % 3 == 1) equals_new_session();
        }
        hordguli_session_close(&kept);
        if (failed == 0) continue;
        fprintf(stderr, "session %ld, options %08X, width %u%s:", k, (unsigned)options, (unsigned)width, is_measured ? ", measured" : "");
        for (size_t pos = 0; pos < length; pos++) fprintf(stderr, " %04X", (unsigned)text[pos]);
        fprintf(stderr, "\n");
    }
}

int main(int count, char **words) {
    if (count != 3 && count != 4) return 2;
    is_17 = count == 4;
    if (!OK(hordguli_tables_open_folder_version(&tables, is_17 ? HORDGULI_UNICODE_17_0 : HORDGULI_UNICODE_15_0, words[1], NULL))) return finish("run_edits");
    test_rows();
    test_pastes();
    test_refused_edits();
    test_sessions(atol(words[2]));
    hordguli_tables_close(&tables);
    return finish("run_edits");
}
