/* Prints each line of the input in visual order, wrapped at 20 columns, as a log viewer does. Built by
 *
 *     cc -o log examples/log.c $(pkg-config --cflags --libs hordguli) */
#define _POSIX_C_SOURCE 200809L
#include <hordguli.h>
#include <stdio.h>
#include <stdlib.h>

int main(void) {
    static char lines[100000];
    char *text = NULL;
    size_t capacity = 0, written = 0;
    ssize_t length;
    hordguli_tables tables = HORDGULI_TABLES_INIT;
    hordguli_status status = hordguli_tables_open_builtin(&tables);
    while (!status && (length = getline(&text, &capacity, stdin)) > 0) {
        status = hordguli_layout(&tables, HORDGULI_WEAK_LTR, 20, HORDGULI_PRINT_DEFAULT, text, (size_t)length, sizeof lines, lines, &written);
        if (!status) fwrite(lines, 1, written, stdout);
        if (status == HORDGULI_NOT_UTF8) {
            puts("(not UTF-8)");
            status = HORDGULI_OK;
        }
    }
    free(text);
    hordguli_tables_close(&tables);
    return (int)status;
}
