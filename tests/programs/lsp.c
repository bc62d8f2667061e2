/* Keeps the document of a language server, whose clients count lines and UTF-16 code units. Usage: lsp < COMMANDS, where a
 * command is one of
 *
 *     change LINE CHARACTER LINE CHARACTER BYTES   replaces the text between two positions by the BYTES bytes that follow
 *     at BYTE                                      prints the position of a byte: LINE CHARACTER
 *     byte LINE CHARACTER                          prints the byte at a position
 *     text                                         prints the number of bytes, and the text
 *
 * The protocol's lines end only at LF, CR and CR LF. Paragraphs end at other separators too, so a line can
 * have several paragraphs. A CHARACTER past the end of its line stands for the end of the line. A LINE past
 * the end of the text stands for the end of the text. */
#include <hordguli.h>
#include <stdio.h>
#include <stdlib.h>
#include <string.h>

static hordguli_session session = HORDGULI_SESSION_INIT;
static unsigned char *ends; /* for each paragraph: whether it ends a line */
static size_t paragraphs, capacity;

static void fail(const char *what) {
    fprintf(stderr, "lsp: %s\n", what);
    exit(1);
}

static void check(hordguli_status status) {
    if (status != HORDGULI_OK) fail(hordguli_status_text(status));
}

static void *sure(void *block) {
    if (block == NULL) fail("out of memory");
    return block;
}

static size_t characters(void) {
    hordguli_counts counts;
    check(hordguli_session_counts(&session, &counts));
    return counts.characters;
}

static hordguli_paragraph_info paragraph(size_t at) {
    hordguli_paragraph_info info;
    check(hordguli_paragraph(&session, at, &info, 0, NULL, NULL));
    return info;
}

static size_t start_of(size_t at) { return at < paragraphs ? paragraph(at).start : characters(); }

static uint32_t character(size_t pos) {
    uint32_t found;
    size_t length;
    check(hordguli_text_utf32(&session, pos, 1, 1, &found, &length));
    return found;
}

/* Returns how many UTF-16 code units are before a position in the text. */
static size_t unit_of(size_t pos) {
    size_t unit;
    check(hordguli_utf16_of(&session, pos, &unit));
    return unit;
}

/* Records, for each new paragraph of an edit, whether a line of the protocol ends with it. */
static void note(const hordguli_damage *damage) {
    size_t first = damage->first_paragraph, after = first + damage->old_paragraphs;
    size_t now = paragraphs - damage->old_paragraphs + damage->new_paragraphs;
    if (now > capacity) ends = sure(realloc(ends, capacity = 2 * now));
    if (paragraphs > after) memmove(ends + first + damage->new_paragraphs, ends + after, paragraphs - after);
    paragraphs = now;
    for (size_t at = first; at < first + damage->new_paragraphs; at++) {
        hordguli_paragraph_info info = paragraph(at);
        uint32_t last = character(info.start + info.length - 1);
        ends[at] = last == '\n' || last == '\r';
    }
}

/* Returns the position that is `units` UTF-16 code units after the start of a line. If the line or the text
 * is shorter, returns its end. */
static size_t position(size_t line, size_t units) {
    size_t first = 0, last, start, end;
    hordguli_position found;
    while (line > 0 && first < paragraphs) line -= ends[first++];
    if (line > 0) return characters();
    for (last = first; last < paragraphs && !ends[last];) last++;
    start = start_of(first);
    end = start_of(last + (last < paragraphs));
    if (last < paragraphs) /* the line's separator is not in it */
        end -= end >= 2 && character(end - 1) == '\n' && character(end - 2) == '\r' ? 2 : 1;
    if (units > unit_of(end) - unit_of(start)) return end;
    check(hordguli_position_of_utf16(&session, unit_of(start) + units, &found));
    return found.pos;
}

static void print_line_and_unit(size_t pos) {
    hordguli_place place;
    size_t first, line = 0;
    check(hordguli_place_of(&session, pos, &place));
    first = place.paragraph;
    while (first > 0 && !ends[first - 1]) first--;
    for (size_t at = 0; at < first; at++) line += ends[at];
    printf("%zu %zu\n", line, unit_of(pos) - unit_of(start_of(first)));
}

static void change(size_t from, size_t to, size_t length) {
    hordguli_damage damage;
    char *text = sure(malloc(length + 1));
    if (fread(text, 1, length, stdin) != length) fail("no text");
    check(hordguli_replace(&session, from, to - from, text, length, &damage));
    free(text);
    note(&damage);
}

static void print_text(void) {
    size_t length;
    char *text;
    check(hordguli_byte_of(&session, characters(), &length));
    text = sure(malloc(length + 1));
    check(hordguli_text(&session, 0, characters(), length, text, &length));
    printf("%zu\n", length);
    fwrite(text, 1, length, stdout);
    free(text);
}

int main(void) {
    hordguli_tables tables = HORDGULI_TABLES_INIT;
    char command[20];
    size_t line, unit, last_line, last_unit, length, byte;
    check(hordguli_tables_open_builtin(&tables));
    check(hordguli_session_open(&session, &tables, HORDGULI_NOBREAK, 80, NULL, 0));
    hordguli_tables_close(&tables);
    while (scanf("%19s", command) == 1) {
        if (strcmp(command, "text") == 0) {
            print_text();
        } else if (strcmp(command, "at") == 0 && scanf("%zu", &byte) == 1) {
            hordguli_position found;
            check(hordguli_position_of_byte(&session, byte, &found));
            print_line_and_unit(found.pos);
        } else if (strcmp(command, "byte") == 0 && scanf("%zu %zu", &line, &unit) == 2) {
            check(hordguli_byte_of(&session, position(line, unit), &byte));
            printf("%zu\n", byte);
        } else if (scanf("%zu %zu %zu %zu %zu", &line, &unit, &last_line, &last_unit, &length) == 5) {
            getchar(); /* the end of the command */
            change(position(line, unit), position(last_line, last_unit), length);
        } else {
            fail("a bad command");
        }
    }
    hordguli_session_close(&session);
    free(ends);
    return fflush(stdout) != 0;
}
