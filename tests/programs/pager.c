/* Shows a text in a terminal, page by page, with the colors of its escape sequences: pager FILE. Lines end between words, and
 * right-to-left paragraphs start at the right. Control characters are not written. Keys: Space and b (a page forward and
 * back), j and k (a line), g and G (the start and the end), q. */
#define _DEFAULT_SOURCE
#include <hordguli.h>
#include <locale.h>
#include <stdio.h>
#include <stdlib.h>
#include <string.h>
#include <sys/ioctl.h>
#include <termios.h>
#include <unistd.h>
#include <wctype.h>

static hordguli_session session = HORDGULI_SESSION_INIT;
static size_t height, width, top, looks_count;
static struct termios before;

/* For each character, the sequences in effect, as an index in `looks`. Look 0 has no sequences. */
static uint32_t *look_of;
static char **looks;

static void leave(const char *what) {
    if (width > 0) {
        printf("\33[m\33[?1049l");
        fflush(stdout);
        tcsetattr(STDIN_FILENO, TCSAFLUSH, &before);
    }
    if (what != NULL) fprintf(stderr, "pager: %s\n", what);
    exit(what != NULL);
}

static void check(hordguli_status status) {
    if (status != HORDGULI_OK) leave(hordguli_status_text(status));
}

static void *sure(void *block) {
    if (block == NULL) leave("out of memory");
    return block;
}

/* Adds a look that has the sequences of `look` and one more. Returns the index of the new look, or 0 if the
 * sequence resets all attributes. */
static uint32_t add_sequence(uint32_t look, const char *sequence, size_t length) {
    const char *old = looks[look];
    if (length <= 3 || memcmp(sequence, "\33[0m", 4) == 0) return 0;
    looks = sure(realloc(looks, (looks_count + 1) * sizeof *looks));
    looks[looks_count] = sure(malloc(strlen(old) + length + 1));
    sprintf(looks[looks_count], "%s%.*s", old, (int)length, sequence);
    return (uint32_t)looks_count++;
}

/* Removes the sequences that end in `m` from a text, and stores the look of each character that remains.
 * Returns the new length of the text. */
static size_t take_sequences(char *text, size_t length) {
    size_t kept = 0, characters = 0;
    uint32_t look = 0;
    look_of = sure(malloc((length + 1) * sizeof *look_of));
    looks = sure(malloc(sizeof *looks));
    looks[looks_count++] = sure(calloc(1, 1));
    for (size_t at = 0; at < length;) {
        size_t parameters = text[at] == '\33' && text[at + 1] == '[' ? strspn(text + at + 2, "0123456789;") : 0;
        if (text[at] == '\33' && text[at + 1] == '[' && text[at + 2 + parameters] == 'm') {
            look = add_sequence(look, text + at, parameters + 3);
            at += parameters + 3;
        } else {
            if ((text[at] & 0xC0) != 0x80) look_of[characters++] = look;
            text[kept++] = text[at++];
        }
    }
    return kept;
}

/* Returns the bytes of a file, followed by a NUL. */
static char *read_file(const char *path, size_t *length) {
    FILE *file = fopen(path, "rb");
    char *text;
    if (file == NULL || fseek(file, 0, SEEK_END) != 0) leave("cannot read the file");
    *length = (size_t)ftell(file);
    rewind(file);
    text = sure(calloc(*length + 1, 1));
    if (fread(text, 1, *length, file) != *length) leave("cannot read the file");
    fclose(file);
    return text;
}

static void draw_line(size_t line) {
    static uint32_t *characters, *vtol;
    static size_t *columns, capacity;
    hordguli_line_info info;
    uint32_t look = 0;
    check(hordguli_line(&session, line, &info, 0, NULL, NULL, NULL, NULL, NULL));
    if (info.shown > capacity) {
        capacity = info.shown;
        characters = sure(realloc(characters, capacity * sizeof *characters));
        vtol = sure(realloc(vtol, capacity * sizeof *vtol));
        columns = sure(realloc(columns, capacity * sizeof *columns));
    }
    check(hordguli_line(&session, line, &info, capacity, characters, NULL, NULL, vtol, columns));
    for (size_t k = 0; k < info.padding; k++) putchar(' ');
    for (size_t k = 0; k < info.shown; k++) {
        uint32_t wanted = look_of[info.start + vtol[k]];
        if (wanted != look) printf("\33[m%s", looks[look = wanted]);
        if (characters[k] == '\t') printf("%*s", (int)columns[k], "");
        else if (!iswcntrl((wint_t)characters[k])) printf("%lc", (wint_t)characters[k]);
    }
    if (look != 0) printf("\33[m");
}

static void draw(size_t lines) {
    for (size_t row = 0; row < height; row++) {
        printf("\33[%zu;1H\33[K", row + 1);
        if (top + row < lines) draw_line(top + row);
        else printf("\33[1m~\33[m");
    }
    printf("\33[%zu;1H\33[K:", height + 1);
    fflush(stdout);
}

int main(int count, char **words) {
    hordguli_tables tables = HORDGULI_TABLES_INIT;
    hordguli_counts counts;
    struct winsize size;
    struct termios raw;
    size_t length = 0, last;
    char *text;
    if (count != 2 || ioctl(STDOUT_FILENO, TIOCGWINSZ, &size) != 0 || tcgetattr(STDIN_FILENO, &before) != 0)
        leave("pager FILE, in a terminal");
    if (setlocale(LC_CTYPE, "C.UTF-8") == NULL) leave("no UTF-8");
    text = read_file(words[1], &length);
    length = take_sequences(text, length);
    check(hordguli_tables_open_builtin(&tables));
    check(hordguli_session_open(&session, &tables, HORDGULI_TAB_WIDTH(8), size.ws_col, text, length));
    check(hordguli_session_counts(&session, &counts));
    width = size.ws_col;
    height = size.ws_row - 1u;
    last = counts.lines > height ? counts.lines - height : 0;
    raw = before;
    cfmakeraw(&raw);
    tcsetattr(STDIN_FILENO, TCSAFLUSH, &raw);
    printf("\33[?1049h\33[?7l");
    for (int key = 0; key != 'q' && key != EOF; key = getchar()) {
        if (key == ' ') top += height;
        else if (key == 'b') top -= top < height ? top : height;
        else if (key == 'j') top++;
        else if (key == 'k' && top > 0) top--;
        else if (key == 'g') top = 0;
        if (key == 'G' || top > last) top = last;
        draw(counts.lines);
    }
    leave(NULL);
}
