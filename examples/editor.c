/* A screen editor with libhordguli and termios: editor [--log FILE] TEXT, built by
 *
 *     cc -o editor examples/editor.c $(pkg-config --cflags --libs hordguli)
 *
 * The editor knows nothing about directions, line breaks or columns. A session as wide as the window holds the text.
 * Keys edit the session, which returns the lines to redraw. The session also moves the caret, and finds
 * words, grapheme clusters and the columns of a selection.
 *
 * Keys: arrows, Home and End, Page Up and Page Down, with Ctrl for words and with Shift to select; Backspace, Delete,
 * Ctrl-S (save) and Ctrl-Q (quit). */
#define _XOPEN_SOURCE 700
#define _DEFAULT_SOURCE
#include <errno.h>
#include <hordguli.h>
#include <signal.h>
#include <stdio.h>
#include <stdlib.h>
#include <string.h>
#include <sys/ioctl.h>
#include <termios.h>
#include <unistd.h>

enum { MOST = 1048576 }; /* characters of a paragraph */

static hordguli_session session = HORDGULI_SESSION_INIT;
static hordguli_edge caret, anchor;  /* where the caret is, and where the selection started */
static size_t top;                   /* the first line on the screen */
static size_t height = 1, width = 1; /* the size of the text area, which is above a status row */
static char *stale;                  /* for each row, whether it must be drawn */
static unsigned long drawn;          /* how many lines were drawn for the last key */
static const char *path, *note = "";
static FILE *log_file;
static struct termios before;
static volatile sig_atomic_t resized;

static void leave(const char *what) {
    if (stale != NULL) {
        printf("\33[r\33[?7h\33[?1049l");
        fflush(stdout);
        tcsetattr(STDIN_FILENO, TCSAFLUSH, &before);
    }
    if (what != NULL) fprintf(stderr, "editor: %s\n", what);
    exit(what != NULL);
}

static void check(hordguli_status status) {
    if (status != HORDGULI_OK) leave(hordguli_status_text(status));
}

static void *sure(void *block) {
    if (block == NULL) leave("out of memory");
    return block;
}

static hordguli_counts counts(void) {
    hordguli_counts found;
    check(hordguli_session_counts(&session, &found));
    return found;
}

/* Returns whether a call has succeeded, and records the error if not. Does not record OUT_OF_RANGE, which
 * means that the caret would leave the text. */
static int succeeds(hordguli_status status) {
    if (status != HORDGULI_OK && status != HORDGULI_OUT_OF_RANGE) note = hordguli_status_text(status);
    return status == HORDGULI_OK;
}

/* ---- The caret ---- */

/* Returns the screen column where a line starts. */
static size_t left_of(size_t line) {
    hordguli_line_info info = {0};
    succeeds(hordguli_line(&session, line, &info, 0, NULL, NULL, NULL, NULL, NULL));
    return info.padding;
}

/* Returns the line and the screen column of the caret. */
static hordguli_caret caret_place(void) {
    hordguli_caret place;
    check(hordguli_edge_caret(&session, caret, &place));
    place.column += left_of(place.line);
    return place;
}

/* Moves the caret to a screen column of a line, if the line exists. */
static void go(size_t line, size_t column) {
    size_t left = left_of(line);
    succeeds(hordguli_edge_at(&session, line, column > left ? column - left : 0, &caret));
}

/* Moves the caret to the left or right. From the left end of a line, it goes to the line before, and from the
 * right end to the line after. */
static void sideways(uint32_t direction) {
    size_t line = caret_place().line;
    uint32_t moved = 1;
    succeeds(hordguli_step(&session, caret, direction, &caret, &moved));
    if (!moved && direction == HORDGULI_RIGHT) go(line + 1, 0);
    else if (!moved && line > 0) go(line - 1, SIZE_MAX);
}

/* Moves the caret to the start of this or the previous word, or to the end of this or the next one. */
static void by_word(uint32_t direction) {
    size_t is_back = direction == HORDGULI_LEFT;
    hordguli_word word = {0};
    while (!word.kind && succeeds(hordguli_word_at(&session, caret.pos - is_back, &word)))
        caret.pos = is_back ? word.start : word.end;
    caret.side = word.kind && !is_back ? HORDGULI_AFTER : HORDGULI_BEFORE;
}

/* Returns the range of the selected characters. */
static hordguli_cluster selected(void) {
    size_t a = caret.pos, b = anchor.pos;
    return (hordguli_cluster){a < b ? a : b, a < b ? b : a};
}

/* ---- The screen ---- */

/* Replaces `out` rows of the screen with `in` new ones, and moves the rows below. */
static void shift(size_t row, size_t out, size_t in) {
    if (out > height - row) out = height - row;
    if (in > height - row) in = height - row;
    if (out > in) {
        printf("\33[%zu;1H\33[%zuM", row + 1, out - in);
        memmove(stale + row + in, stale + row + out, height - row - out);
        memset(stale + height - (out - in), 1, out - in);
    } else if (in > out) {
        printf("\33[%zu;1H\33[%zuL", row + 1, in - out);
        memmove(stale + row + in, stale + row + out, height - row - in);
    }
    memset(stale + row, 1, in);
}

/* Updates the screen after an edit: marks the changed rows as stale, and moves the rows below them. */
static void show_changed(const hordguli_changed *changed) {
    size_t first = changed->first_line, end = first + changed->old_lines;
    if (end <= top && first < top) {
        top += changed->new_lines - changed->old_lines; /* all above the screen */
    } else if (first < top) {
        top = first;
        memset(stale, 1, height);
    } else if (first < top + height) {
        shift(first - top, changed->old_lines, changed->new_lines);
    }
}

/* Scrolls until a line is on the screen. */
static void scroll_to(size_t line) {
    if (line < top) {
        size_t by = top - line;
        top = line;
        shift(0, 0, by);
    } else if (line >= top + height) {
        size_t by = line - height + 1 - top;
        top += by;
        shift(0, by, 0);
    }
}

/* Draws a line, with its selection in reverse video. Leaves out control characters, which a terminal would execute.
 * The session has already written tabs as spaces, one for each of their columns. */
static void draw_line(size_t row, size_t line) {
    static size_t columns[MOST];
    static hordguli_span spans[MOST];
    static char bytes[4 * MOST + 1];
    hordguli_line_info info;
    uint32_t print = HORDGULI_PRINT_VISUAL | HORDGULI_PRINT_MIRRORED;
    size_t length, count, column = 0, character = 0, span = 0, spaces = 0;
    check(hordguli_line(&session, line, &info, MOST, NULL, NULL, NULL, NULL, columns));
    check(hordguli_lines_utf8(&session, line, 1, print, sizeof bytes, bytes, &length));
    check(hordguli_spans(&session, line, selected().start, selected().end, MOST, spans, &count));
    printf("\33[%zu;%zuH", row + 1, info.padding + 1);
    for (size_t k = 0; k + 1 < length; k++) {
        unsigned char byte = (unsigned char)bytes[k];
        if (spaces > 0) { /* in a tab */
            spaces--;
        } else if ((byte & 0xC0) != 0x80) { /* a character's first byte */
            if (span < count && column == spans[span].right) printf("\33[m"), span++;
            if (span < count && column == spans[span].left) printf("\33[7m");
            if (byte == ' ') spaces = columns[character] - 1;
            column += columns[character++];
        }
        if (byte == 0xC2 && (unsigned char)bytes[k + 1] < 0xA0) k++; /* U+0080 to U+009F */
        else if (byte >= ' ' && byte != 0x7F) putchar(byte);
    }
    printf("\33[m");
    drawn++;
}

static void draw(void) {
    static int is_selected;
    hordguli_caret place = caret_place();
    hordguli_counts all = counts();
    char status_row[200];
    scroll_to(place.line);
    if (is_selected || caret.pos != anchor.pos) memset(stale, 1, height);
    is_selected = caret.pos != anchor.pos;
    for (size_t row = 0; row < height; row++) {
        if (!stale[row]) continue;
        printf("\33[%zu;1H\33[K", row + 1);
        if (top + row < all.lines) draw_line(row, top + row);
        stale[row] = 0;
    }
    snprintf(status_row, sizeof status_row, "%s: %zu of %zu. %s", path, caret.pos, all.characters, note);
    printf("\33[%zu;1H\33[K%.*s", height + 1, (int)width - 1, status_row);
    printf("\33[%zu;%zuH", place.line - top + 1, place.column + 1 < width ? place.column + 1 : width);
    fflush(stdout);
}

/* Reads the size of the window. */
static void measure(void) {
    struct winsize size;
    resized = 0;
    if (ioctl(STDOUT_FILENO, TIOCGWINSZ, &size) != 0 || size.ws_row == 0 || size.ws_col == 0) leave("no window");
    height = size.ws_row > 1 ? size.ws_row - 1u : 1;
    width = size.ws_col;
    stale = sure(realloc(stale, height));
    if (session.at != NULL) check(hordguli_set_width(&session, (uint32_t)width, NULL));
    memset(stale, 1, height);
    printf("\33[1;%zur\33[2J", height); /* the scrolling region: all rows but the last */
}

/* ---- Changes ---- */

/* Returns whether a position is the start of the text, or after a character that ends a line. */
static int is_after_line(size_t pos) {
    uint32_t last = '\n';
    size_t count;
    if (pos > 0) check(hordguli_text_utf32(&session, pos - 1, 1, 1, &last, &count));
    return (last >= 0xA && last <= 0xD) || (last >= 0x1C && last <= 0x1E) || last == 0x85 || last == 0x2028 ||
           last == 0x2029;
}

/* Replaces characters, and puts the caret at the position after the new text, with side `side`. If a line or
 * paragraph starts there, the side is BEFORE. */
static void replace(hordguli_cluster old, const char *text, size_t length, uint32_t side) {
    hordguli_changed changed;
    size_t count;
    note = "";
    if (!succeeds(hordguli_count_utf8(text, length, &count))) return;
    if (!succeeds(hordguli_replace(&session, old.start, old.end - old.start, text, length, NULL))) return;
    check(hordguli_changed_lines(&session, &changed));
    show_changed(&changed);
    caret = anchor = (hordguli_edge){old.start + count, side, 0};
    if (is_after_line(caret.pos)) caret.side = anchor.side = HORDGULI_BEFORE;
}

/* Deletes the selection or, if there is none, the grapheme cluster that contains the character at `at`. For
 * Backspace, this is the character before the caret. */
static void take_out(size_t at) {
    hordguli_cluster old = selected();
    if (old.start == old.end && !succeeds(hordguli_cluster_at(&session, at, &old))) return;
    replace(old, NULL, 0, at + 1 == caret.pos ? HORDGULI_AFTER : HORDGULI_BEFORE);
}

static void save(void) {
    size_t all = counts().characters, length;
    char *bytes;
    FILE *file;
    check(hordguli_byte_of(&session, all, &length));
    bytes = sure(malloc(length + 1));
    check(hordguli_text(&session, 0, all, length, bytes, &length));
    file = fopen(path, "wb");
    note = file != NULL && fwrite(bytes, 1, length, file) == length && fflush(file) == 0 ? "saved" : "cannot save";
    if (file != NULL && fclose(file) != 0) note = "cannot save";
    free(bytes);
}

/* ---- Keys ---- */

/* Reads a byte from the keyboard. Returns -1 if the window has been resized. */
static int next_byte(void) {
    unsigned char byte;
    for (;;) {
        ssize_t got;
        if (resized) return -1;
        got = read(STDIN_FILENO, &byte, 1);
        if (got == 1) return byte;
        if (got == 0 || errno != EINTR) leave("end of input");
    }
}

/* Handles an escape sequence: `[` or `O`, an optional number, `;` and a digit if Shift (1) or Ctrl (4) is pressed, and
 * the key's letter. For some keys, a number and `~` take the place of the letter. */
static void escape(void) {
    size_t line = caret_place().line, column = caret_place().column, all = counts().lines;
    hordguli_edge first, last;
    int key, number = 0, modifiers = 0;
    next_byte();
    while ((key = next_byte()) >= '0' && key <= '9') number = number * 10 % 1000 + key - '0';
    if (key == ';') modifiers = next_byte() - '1', key = next_byte();
    if (key == '~') key = number == 1 || number == 7 ? 'H' : number == 4 || number == 8 ? 'F' : number;
    check(hordguli_line_edges(&session, line, &first, &last));
    switch (key) {
        case 'A': if (line > 0) go(line - 1, column); break;
        case 'B': go(line + 1, column); break;
        case 'C': (modifiers & 4 ? by_word : sideways)(HORDGULI_RIGHT); break;
        case 'D': (modifiers & 4 ? by_word : sideways)(HORDGULI_LEFT); break;
        case 'H': caret = first; break;
        case 'F': caret = last; break;
        case 3: take_out(caret.pos); break;
        case 5: go(line > height ? line - height : 0, column); break;
        case 6: go(line + height < all ? line + height : all - (all > 0), column); break;
    }
    if ((modifiers & 1) == 0) anchor = caret;
}

/* Handles a key press, and stores the key's name in `name`. Returns 0 to quit. */
static int obey(int byte, char *name) {
    int more = byte >= 0xF0 ? 3 : byte >= 0xE0 ? 2 : byte >= 0xC0 ? 1 : 0;
    size_t length = 1;
    strcpy(name, "key");
    if (byte == -1) {
        measure();
        strcpy(name, "resize");
    } else if (byte == 0x11) {
        return 0;
    } else if (byte == 0x13) {
        save();
    } else if (byte == 0x1B) {
        escape();
    } else if (byte == 0x7F || byte == 8) {
        take_out(caret.pos - 1);
    } else if (byte == '\r' || byte == '\n') {
        replace(selected(), "\n", 1, HORDGULI_BEFORE);
        strcpy(name, "enter");
    } else if (byte == '\t') {
        replace(selected(), "\t", 1, HORDGULI_AFTER);
    } else if (byte >= ' ') {
        for (name[0] = (char)byte; more > 0; more--) name[length++] = (char)next_byte();
        name[length] = '\0';
        replace(selected(), name, length, HORDGULI_AFTER);
    }
    return 1;
}

static void on_resize(int signal) {
    (void)signal;
    resized = 1;
}

/* Returns the text of the file, which is empty if the file does not exist. */
static char *read_text(size_t *length) {
    FILE *file = fopen(path, "rb");
    size_t room = 1 << 16;
    char *bytes = sure(malloc(room));
    int c;
    *length = 0;
    while (file != NULL && (c = getc(file)) != EOF) {
        if (room == *length) bytes = sure(realloc(bytes, room *= 2));
        bytes[(*length)++] = (char)c;
    }
    if (file == NULL) note = "a new file";
    else if (ferror(file) || fclose(file) != 0) leave("cannot read");
    return bytes;
}

int main(int count, char **words) {
    hordguli_tables tables = HORDGULI_TABLES_INIT;
    struct sigaction action = {.sa_handler = on_resize};
    struct termios raw;
    uint32_t options = HORDGULI_TAB_WIDTH(4) | HORDGULI_SHOW_SPACES;
    size_t length;
    char *text, name[8];
    if (count == 4 && strcmp(words[1], "--log") == 0) log_file = fopen(words[2], "w");
    else if (count != 2) leave("editor [--log FILE] TEXT");
    path = words[count - 1];
    text = read_text(&length);
    check(hordguli_tables_open_builtin(&tables));
    if (tcgetattr(STDIN_FILENO, &before) != 0) leave("no terminal");
    raw = before;
    cfmakeraw(&raw);
    sigaction(SIGWINCH, &action, NULL);
    tcsetattr(STDIN_FILENO, TCSAFLUSH, &raw);
    printf("\33[?1049h\33[?7l");
    measure();
    check(hordguli_session_open(&session, &tables, options, (uint32_t)width, text, length));
    hordguli_tables_close(&tables);
    free(text);
    for (draw(), drawn = 0; obey(next_byte(), name); drawn = 0) {
        draw();
        if (log_file != NULL) fprintf(log_file, "'%s' %lu\n", name, drawn);
        if (log_file != NULL) fflush(log_file);
    }
    hordguli_session_close(&session);
    leave(NULL);
}
