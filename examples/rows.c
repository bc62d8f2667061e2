/* Prints a text in the rows of a terminal: rows COLUMNS < TEXT, built by
 *
 *     cc -o rows examples/rows.c $(pkg-config --cflags --libs hordguli)
 *
 * A terminal ends a row when it is full, even inside a word. So levels are found for the whole paragraph, and
 * then each row is put into visual order by itself. fribidi_rows.c does this with FriBidi's functions. */
#define _XOPEN_SOURCE 700
#include <hordguli.h>
#include <locale.h>
#include <stdio.h>
#include <stdlib.h>
#include <wchar.h>
#include <wctype.h>

static hordguli_tables tables = HORDGULI_TABLES_INIT;

/* A paragraph: its characters, their properties and levels, and a row in visual order. */
static uint32_t *text, *visual;
static hordguli_character *properties;
static uint8_t *levels;
static size_t length, capacity;

static void fail(const char *what) {
    fprintf(stderr, "rows: %s\n", what);
    exit(1);
}

static void check(hordguli_status status) {
    if (status != HORDGULI_OK) fail(hordguli_status_text(status));
}

static void *sure(void *block) {
    if (block == NULL) fail("out of memory");
    return block;
}

static void add(uint32_t c) {
    if (length == capacity) {
        capacity = capacity == 0 ? 1000 : capacity * 2;
        text = sure(realloc(text, capacity * sizeof *text));
        visual = sure(realloc(visual, capacity * sizeof *visual));
        properties = sure(realloc(properties, capacity * sizeof *properties));
        levels = sure(realloc(levels, capacity * sizeof *levels));
    }
    text[length++] = c;
}

/* Prints a row after `padding` spaces. Leaves out control characters, which a terminal would execute. */
static void print_row(size_t count, size_t padding) {
    for (; padding > 0; padding--) putwchar(L' ');
    for (size_t k = 0; k < count; k++)
        if (!iswcntrl((wint_t)visual[k])) putwchar((wchar_t)visual[k]);
    putwchar(L'\n');
}

static void print_paragraph(size_t columns) {
    uint32_t base;
    size_t start = 0, end = 0;
    check(hordguli_properties(&tables, length, text, properties));
    check(hordguli_base(&tables, HORDGULI_WEAK_LTR, text, length, &base));
    check(hordguli_levels(&tables, HORDGULI_WEAK_LTR, text, length, capacity, levels));
    do {
        size_t used = 0;
        while (end < length && (end == start || used + properties[end].columns <= columns))
            used += properties[end++].columns;
        check(hordguli_row(&tables, 0, base, end - start, text + start, levels + start, capacity, visual, NULL, NULL,
                           NULL));
        print_row(end - start, base == 1 && used < columns ? columns - used : 0);
        start = end;
    } while (start < length);
    length = 0;
}

int main(int count, char **words) {
    size_t columns = count == 2 ? strtoul(words[1], NULL, 10) : 0;
    wint_t c;
    if (columns < 1 || columns > 65535 || setlocale(LC_CTYPE, "C.UTF-8") == NULL) {
        fprintf(stderr, "rows COLUMNS < TEXT\n");
        return 2;
    }
    check(hordguli_tables_open_builtin(&tables));
    while ((c = getwchar()) != WEOF)
        if (c == L'\n') print_paragraph(columns);
        else add((uint32_t)c);
    if (ferror(stdin)) fail("cannot read, or not UTF-8");
    if (length > 0) print_paragraph(columns);
    free(text);
    free(visual);
    free(properties);
    free(levels);
    hordguli_tables_close(&tables);
    return fflush(stdout) != 0;
}
