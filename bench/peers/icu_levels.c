/* Does the work of `bin/fribidi --novisual --levels` with ICU4C. Standard input is UTF-8. Lines have 80 columns (icu_fill.h), or,
 * with the argument `nobreak`, end at mandatory breaks only. For each line, it prints the levels of the shown part after L1. */
#include "icu_fill.h"
#include <string.h>

static UBool is_plain;

static void put_level(UBiDiLevel level, UBool is_first) {
    if (out_length + 4 > OUT_SIZE) flush_out();
    if (!is_first) out[out_length++] = ' ';
    if (level >= 100) out[out_length++] = '1', level -= 100, out[out_length++] = (char)('0' + level / 10);
    else if (level >= 10) out[out_length++] = (char)('0' + level / 10);
    out[out_length++] = (char)('0' + level % 10);
}

/* Whether L1 resets a character at the end of a line. */
static UBool is_blank(UChar32 c) {
    switch (u_charDirection(c)) {
    case U_WHITE_SPACE_NEUTRAL: case U_SEGMENT_SEPARATOR: case U_BLOCK_SEPARATOR: case U_BOUNDARY_NEUTRAL:
    case U_LEFT_TO_RIGHT_EMBEDDING: case U_RIGHT_TO_LEFT_EMBEDDING: case U_LEFT_TO_RIGHT_OVERRIDE:
    case U_RIGHT_TO_LEFT_OVERRIDE: case U_POP_DIRECTIONAL_FORMAT: case U_FIRST_STRONG_ISOLATE:
    case U_LEFT_TO_RIGHT_ISOLATE: case U_RIGHT_TO_LEFT_ISOLATE: case U_POP_DIRECTIONAL_ISOLATE:
        return true;
    default:
        return false;
    }
}

/* For a whole paragraph, ICU applies L1 only before separators and at the paragraph's end. ubidi_setLine
 * changes the levels of a line if all are even: the levels of a number after Hebrew become 0. So this
 * function itself applies L1 at the end of a line. */
static void put_line(int32_t from, int32_t to) {
    UErrorCode status = U_ZERO_ERROR;
    int32_t shown = shown_end(from, to), reset = shown;
    const UBiDiLevel *levels = NULL;
    UBiDiLevel base = ubidi_getParaLevel(para);
    if (!is_plain) {
        levels = ubidi_getLevels(para, &status);
        check(status);
    }
    while (reset > from) {
        int32_t before = reset;
        UChar32 c;
        U16_PREV(text, from, before, c);
        if (!is_blank(c)) break;
        reset = before;
    }
    for (int32_t k = from; k < shown; k++)
        if (!U16_IS_TRAIL(text[k])) put_level(levels == NULL || k >= reset ? base : levels[k], k == from);
    put('\n');
}

/* Whether a character ends a line, but not the paragraph. */
static UBool ends_line(UChar c) {
    return c == 0x0B || c == 0x0C || c == 0x2028;
}

static void put_whole_lines(int32_t length) {
    int32_t start = 0;
    for (int32_t k = 0; k + 1 < length; k++)
        if (ends_line(text[k])) {
            put_line(start, k + 1);
            start = k + 1;
        }
    put_line(start, length);
}

int main(int count, char **words) {
    UBool is_whole = count > 1 && strcmp(words[1], "nobreak") == 0;
    int32_t length;
    const UChar *all = read_text(&length);
    open_icu();
    for (int32_t from = 0, to; from < length; from = to) {
        UErrorCode status = U_ZERO_ERROR;
        to = paragraph_end(all, from, length);
        text = all + from;
        ubidi_setPara(para, text, to - from, UBIDI_DEFAULT_LTR, NULL, &status);
        check(status);
        is_plain = ubidi_getDirection(para) == UBIDI_LTR;
        if (is_whole) put_whole_lines(to - from);
        else fill_paragraph(to - from);
    }
    flush_out();
    return 0;
}
