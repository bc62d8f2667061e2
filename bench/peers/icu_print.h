/* Prints the lines of a paragraph with ICU4C, in visual order and mirrored, to the output buffer. Lines of
 * right-to-left paragraphs are padded on the left. */
#ifndef ICU_PRINT_H
#define ICU_PRINT_H
#include "icu_fill.h"

/* Properties of the paragraph, and a buffer for one line. */
static UBool is_plain, is_rtl;
static UChar *visual;
static int32_t visual_size;

static void put_text(const UChar *from, int32_t length) {
    for (int32_t i = 0; i < length;) {
        UChar32 c;
        if (from[i] < 0x80) {
            put((char)from[i++]);
            continue;
        }
        U16_NEXT(from, i, length, c);
        if (out_length + U8_MAX_LENGTH > OUT_SIZE) flush_out();
        U8_APPEND_UNSAFE(out, out_length, c);
    }
}

static void put_line(int32_t from, int32_t to) {
    UErrorCode status = U_ZERO_ERROR;
    to = shown_end(from, to);
    if (is_rtl)
        for (int columns = columns_between(from, to); columns < WIDTH; columns++) put(' ');
    if (is_plain) {
        put_text(text + from, to - from);
    } else if (from < to) {
        if (visual_size < to - from) {
            visual_size = 2 * (to - from);
            visual = more(visual, visual_size * sizeof(UChar));
        }
        ubidi_setLine(para, from, to, line, &status);
        int32_t length =
            ubidi_writeReordered(line, visual, visual_size, UBIDI_DO_MIRRORING, &status);
        check(status);
        put_text(visual, length);
    }
    put('\n');
}

/* Prints the lines of a paragraph: the first `length` code units of `from`. */
static void print_paragraph(const UChar *from, int32_t length) {
    UErrorCode status = U_ZERO_ERROR;
    text = from;
    ubidi_setPara(para, text, length, UBIDI_DEFAULT_LTR, NULL, &status);
    check(status);
    is_plain = ubidi_getDirection(para) == UBIDI_LTR;
    is_rtl = ubidi_getParaLevel(para) & 1;
    fill_paragraph(length);
}

#endif
