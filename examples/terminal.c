/* Prints a text in rows of 14 columns, as a terminal shows it. Built by
 *
 *     cc -o terminal examples/terminal.c $(pkg-config --cflags --libs hordguli)
 *
 * rows.c prints any text. */
#include <hordguli.h>
#include <locale.h>
#include <stdio.h>
#include <wchar.h>

enum { COLUMNS = 14, CAPACITY = 100 };

int main(void) {
    static const uint32_t text[] = U"the word שלום עולם is (hello)";
    size_t count = sizeof text / sizeof *text - 1, start = 0, end = 0;
    uint32_t base = 0, visual[CAPACITY];
    uint8_t levels[CAPACITY];
    hordguli_character properties[CAPACITY] = {{0}};
    hordguli_tables tables = HORDGULI_TABLES_INIT;
    hordguli_status status = hordguli_tables_open_builtin(&tables);
    setlocale(LC_CTYPE, "C.UTF-8");
    if (!status) status = hordguli_properties(&tables, count, text, properties);
    if (!status) status = hordguli_base(&tables, HORDGULI_WEAK_LTR, text, count, &base);
    if (!status) status = hordguli_levels(&tables, HORDGULI_WEAK_LTR, text, count, CAPACITY, levels);
    for (; !status && start < count; start = end) {
        size_t used = 0;
        while (end < count && (end == start || used + properties[end].columns <= COLUMNS)) used += properties[end++].columns;
        status = hordguli_row(&tables, 0, base, end - start, text + start, levels + start, CAPACITY, visual, NULL, NULL, NULL);
        for (size_t k = 0; !status && k < end - start; k++) putwchar((wchar_t)visual[k]);
        putwchar(L'\n');
    }
    hordguli_tables_close(&tables);
    return (int)status;
}
