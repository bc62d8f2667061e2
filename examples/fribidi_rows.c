/* Prints a text in the rows of a terminal, as rows.c does, but with FriBidi's functions: fribidi_rows COLUMNS
 * < TEXT
 *
 * A terminal ends a row when it is full, even inside a word. So the levels are found for the whole paragraph,
 * and then each row is reordered separately. The functions come from the library that is linked first:
 *
 *     cc -o fribidi_rows examples/fribidi_rows.c $(pkg-config --cflags fribidi) \
 *         -Lbin -Wl,-rpath,$PWD/bin -lhordguli_fribidi -lfribidi
 */
#define _XOPEN_SOURCE 700
#include <fribidi.h>
#include <locale.h>
#include <stdio.h>
#include <stdlib.h>
#include <wchar.h>

/* A paragraph, the properties of its characters, and a row in visual order */
static FriBidiChar *text, *visual;
static FriBidiCharType *types;
static FriBidiBracketType *brackets;
static FriBidiLevel *levels;
static FriBidiStrIndex length, room;

static void *sure(void *block) {
    if (block == NULL) exit((fputs("fribidi_rows: out of memory\n", stderr), 1));
    return block;
}

static void add(FriBidiChar c) {
    if (length == room) {
        size_t more = room == 0 ? 1000 : (size_t)room * 2;
        text = sure(realloc(text, more * sizeof *text));
        visual = sure(realloc(visual, more * sizeof *visual));
        types = sure(realloc(types, more * sizeof *types));
        brackets = sure(realloc(brackets, more * sizeof *brackets));
        levels = sure(realloc(levels, more * sizeof *levels));
        room = (FriBidiStrIndex)more;
    }
    text[length++] = c;
}

/* Returns the width of a character in columns. Control characters, which a terminal would execute, have width 0. */
static int cells(FriBidiChar c) {
    int width = wcwidth((wchar_t)c);
    return width < 0 ? 0 : width;
}

static void print_row(FriBidiStrIndex start, FriBidiStrIndex end, int left) {
    for (; left > 0; left--) putwchar(L' ');
    for (; start < end; start++)
        if (wcwidth((wchar_t)visual[start]) >= 0) putwchar((wchar_t)visual[start]);
    putwchar(L'\n');
}

static void print_paragraph(int columns) {
    FriBidiParType base = FRIBIDI_PAR_ON;
    FriBidiStrIndex start = 0, end = 0;
    fribidi_get_bidi_types(text, length, types);
    fribidi_get_bracket_types(text, length, types, brackets);
    if (length > 0 && fribidi_get_par_embedding_levels_ex(types, brackets, length, &base, levels) == 0) sure(NULL);
    for (FriBidiStrIndex k = 0; k < length; k++) {
        visual[k] = text[k];
        if (levels[k] % 2 == 1) fribidi_get_mirror_char(text[k], &visual[k]);
    }
    do {
        int taken = 0;
        for (; end < length && (taken + cells(text[end]) <= columns || end == start); end++) taken += cells(text[end]);
        if (end > start && fribidi_reorder_line(FRIBIDI_FLAGS_DEFAULT, types, end - start, start, base, levels, visual, NULL) == 0) sure(NULL);
        print_row(start, end, base == FRIBIDI_PAR_RTL ? columns - taken : 0);
        start = end;
    } while (start < length);
    length = 0;
}

int main(int count, char **words) {
    int columns = count == 2 ? atoi(words[1]) : 0;
    wint_t c;
    if (columns < 1 || setlocale(LC_CTYPE, "C.UTF-8") == NULL) exit((fputs("fribidi_rows COLUMNS < TEXT\n", stderr), 2));
    while ((c = getwchar()) != WEOF)
        if (c == L'\n') print_paragraph(columns);
        else add((FriBidiChar)c);
    if (ferror(stdin)) exit((fputs("fribidi_rows: cannot read, or not UTF-8\n", stderr), 1));
    if (length > 0) print_paragraph(columns);
    return fflush(stdout) != 0;
}
