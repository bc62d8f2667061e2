/* Does the work of `bin/fribidi --width 80` with a session of libhordguli. Standard input is the text. Usage: lines FOLDER, where
 * FOLDER has the table files. */
#include <hordguli.h>
#include <stdio.h>
#include <stdlib.h>

enum { AT_ONCE = 256 };

static void check(hordguli_status status) {
    if (status == HORDGULI_OK) return;
    fprintf(stderr, "lines: %s\n", hordguli_status_text(status));
    exit(1);
}

static void *sure(void *block) {
    if (block == NULL) check(HORDGULI_NO_MEMORY);
    return block;
}

int main(int count, char **words) {
    hordguli_tables tables = HORDGULI_TABLES_INIT;
    hordguli_session session = HORDGULI_SESSION_INIT;
    hordguli_counts counts;
    size_t room = 1 << 24, size = 0, got;
    char *text = sure(malloc(room)), *page;
    if (count != 2) return 2;
    while ((got = fread(text + size, 1, room - size, stdin)) > 0)
        if ((size += got) == room) text = sure(realloc(text, room *= 2));
    check(hordguli_tables_open_folder(&tables, words[1], NULL));
    check(hordguli_session_open(&session, &tables, 0, 80, text, size));
    check(hordguli_session_counts(&session, &counts));
    room = AT_ONCE * 80 * 8;
    page = sure(malloc(room));
    for (size_t first = 0; first < counts.lines; first += AT_ONCE) {
        size_t many = counts.lines - first < AT_ONCE ? counts.lines - first : AT_ONCE, length;
        hordguli_status status;
        while ((status = hordguli_lines_utf8(&session, first, many, HORDGULI_PRINT_DEFAULT, room, page, &length)) == HORDGULI_NO_ROOM)
            page = sure(realloc(page, room = length));
        check(status);
        if (fwrite(page, 1, length, stdout) != length) return 1;
    }
    free(page);
    hordguli_session_close(&session);
    hordguli_tables_close(&tables);
    free(text);
    return fflush(stdout) != 0;
}
