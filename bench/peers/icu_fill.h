/* Finds the lines of a paragraph with ICU4C's ubidi and ubrk. A line ends at the last break opportunity at which it fits, not
 * counting the spaces at its end. Text that does not fit without a break opportunity is broken between grapheme clusters. The
 * including file defines `put_line`, which is called for each line. */
#ifndef ICU_FILL_H
#define ICU_FILL_H
#include "icu_text.h"
#include <unicode/ubrk.h>
#include <unicode/uchar.h>

enum { WIDTH = 80 };

/* The text of a paragraph, and ICU's objects for it. */
static const UChar *text;
static UBiDi *para, *line;
static UBreakIterator *breaks, *clusters;

static void put_line(int32_t from, int32_t to);

static int columns_of(UChar32 c) {
    if (c >= 0x20 && c < 0x7F) return 1;
    switch (u_charType(c)) {
    case U_NON_SPACING_MARK:
    case U_ENCLOSING_MARK:
    case U_FORMAT_CHAR:
    case U_CONTROL_CHAR:
        return 0;
    default:
        break;
    }
    int width = u_getIntPropertyValue(c, UCHAR_EAST_ASIAN_WIDTH);
    return width == U_EA_WIDE || width == U_EA_FULLWIDTH ? 2 : 1;
}

/* Whether a character is a space or separator, which is not shown at the end of a line. */
static UBool is_tail(UChar c) {
    return c == 0x20 || (c >= 0x0A && c <= 0x0D) || c == 0x85 || c == 0x2028 || c == 0x2029;
}

static int32_t shown_end(int32_t from, int32_t to) {
    while (to > from && is_tail(text[to - 1])) to--;
    return to;
}

static int columns_between(int32_t from, int32_t to) {
    int columns = 0;
    while (from < to) {
        UChar32 c;
        U16_NEXT(text, from, to, c);
        columns += columns_of(c);
    }
    return columns;
}

/* Finds the lines of the paragraph in `text`. `start` is the start of the current line, and `end` is the last
 * break opportunity at which that line fits. */
static void fill_paragraph(int32_t length) {
    UErrorCode status = U_ZERO_ERROR;
    UBool has_clusters = false;
    int32_t start = 0, end = 0;
    int columns = 0;
    ubrk_setText(breaks, text, length, &status);
    check(status);
    ubrk_first(breaks);
    for (int32_t next = ubrk_next(breaks); next != UBRK_DONE; next = ubrk_next(breaks)) {
        int32_t shown = shown_end(end, next);
        int wide = columns_between(end, shown);
        if (shown > end && columns + wide > WIDTH && end > start) {
            put_line(start, end);
            start = end;
            columns = 0;
        }
        while (columns + wide > WIDTH) {
            int32_t cut = start, cluster;
            int part = 0;
            if (!has_clusters) {
                ubrk_setText(clusters, text, length, &status);
                check(status);
                has_clusters = true;
            }
            while ((cluster = ubrk_following(clusters, cut)) != UBRK_DONE && cluster < shown) {
                int of_cluster = columns_between(cut, cluster);
                if (part + of_cluster > WIDTH) break;
                part += of_cluster;
                cut = cluster;
            }
            if (cut == start) {
                if (cluster == UBRK_DONE || cluster >= shown) break;
                part = columns_between(start, cluster);
                cut = cluster;
            }
            put_line(start, cut);
            start = cut;
            wide -= part;
        }
        columns += wide + columns_between(shown, next);
        end = next;
        if (ubrk_getRuleStatus(breaks) >= UBRK_LINE_HARD && next < length) {
            put_line(start, end);
            start = end;
            columns = 0;
        }
    }
    put_line(start, length);
}

/* Opens the ICU objects that all paragraphs use. */
static void open_icu(void) {
    UErrorCode status = U_ZERO_ERROR;
    breaks = ubrk_open(UBRK_LINE, "en", NULL, 0, &status);
    clusters = ubrk_open(UBRK_CHARACTER, "en", NULL, 0, &status);
    check(status);
    para = ubidi_open();
    line = ubidi_open();
    if (para == NULL || line == NULL) fail("out of memory");
}

#endif
