#include <hordguli.h>
#include <stdio.h>
#include <string.h>

int main(void) {
    hordguli_tables tables = HORDGULI_TABLES_INIT;
    hordguli_session session = HORDGULI_SESSION_INIT;
    hordguli_damage damage = {0};
    const char *text = "hello, שלום\n", *more = "(مرحبا) ";
    char lines[1000] = "";
    size_t length = 0;
    hordguli_status status = hordguli_tables_open_builtin(&tables);
    if (!status) status = hordguli_session_open(&session, &tables, 0, 80, text, strlen(text));
    if (!status) status = hordguli_insert(&session, 7, more, strlen(more), &damage);
    if (!status) status = hordguli_lines_utf8(&session, damage.first_line, damage.new_lines, HORDGULI_PRINT_DEFAULT,
                                              sizeof lines, lines, &length);
    printf("%.*s%s\n", (int)length, lines, hordguli_status_text(status));
    hordguli_session_close(&session);
    hordguli_tables_close(&tables);
    return status;
}
