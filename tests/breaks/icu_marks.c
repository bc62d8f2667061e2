/* Prints ICU's line break marks. Reads texts, one per line, as hexadecimal code points, and prints for each text the
 * mark after each character: 'x', or '/' where a line may end. */
#include <stdio.h>
#include <stdlib.h>
#include <unicode/ubrk.h>
#include <unicode/utf16.h>

static void check(UErrorCode status) {
    if (U_FAILURE(status)) {
        fprintf(stderr, "icu_marks: %s\n", u_errorName(status));
        exit(1);
    }
}

static void print_marks(UBreakIterator *breaks, const UChar *text, int32_t length) {
    UErrorCode status = U_ZERO_ERROR;
    ubrk_setText(breaks, text, length, &status);
    check(status);
    for (int32_t at = 0; at < length;) {
        U16_FWD_1(text, at, length);
        putchar(ubrk_isBoundary(breaks, at) ? '/' : 'x');
    }
    putchar('\n');
}

int main(void) {
    UErrorCode status = U_ZERO_ERROR;
    UBreakIterator *breaks = ubrk_open(UBRK_LINE, "", NULL, 0, &status);
    check(status);
    char *line = NULL;
    size_t room = 0;
    while (getline(&line, &room, stdin) > 0) {
        UChar *text = malloc(room * sizeof(UChar));
        if (text == NULL) return 1;
        int32_t length = 0;
        char *at = line;
        for (char *end; ; at = end) {
            UChar32 c = (UChar32)strtol(at, &end, 16);
            if (end == at) break;
            U16_APPEND_UNSAFE(text, length, c);
        }
        print_marks(breaks, text, length);
        free(text);
    }
    free(line);
    ubrk_close(breaks);
    return 0;
}
