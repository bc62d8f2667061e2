/* Shows a chat: chat [--sessions] WIDTH... < MESSAGES. Each line of the input is a message. The chat is laid out at each WIDTH,
 * as if its window changed, and printed at the last one.
 *
 * By default, a message is laid out without a session, when it is shown. With --sessions, each message has a
 * session, as a chat needs for messages that users edit or select. */
#define _POSIX_C_SOURCE 200809L
#include <hordguli.h>
#include <stdio.h>
#include <stdlib.h>
#include <string.h>

typedef struct message {
    char *text;
    size_t length;
    size_t lines; /* at the last width */
    hordguli_session session;
} message;

static hordguli_tables tables = HORDGULI_TABLES_INIT;
static message *messages;
static size_t count, capacity;

static void fail(const char *what) {
    fprintf(stderr, "chat: %s\n", what);
    exit(1);
}

static void check(hordguli_status status) {
    if (status != HORDGULI_OK) fail(hordguli_status_text(status));
}

static void *sure(void *block) {
    if (block == NULL) fail("out of memory");
    return block;
}

/* Adds a message. A message that is not UTF-8 is shown up to the first invalid byte. */
static void add(const char *text, size_t length) {
    message *new;
    check(hordguli_valid_utf8(text, length, &length));
    if (count == capacity) messages = sure(realloc(messages, (capacity = 2 * capacity + 100) * sizeof *messages));
    new = &messages[count++];
    new->text = memcpy(sure(malloc(length + 1)), text, length);
    new->length = length;
    new->lines = 0;
    new->session = (hordguli_session)HORDGULI_SESSION_INIT;
}

/* The lines of a message, in a buffer that grows. */
static char *buffer;
static size_t room, written;

/* If a call returned NO_ROOM, grows the buffer and returns 1. Otherwise checks the status and returns 0. */
static int grows(hordguli_status status) {
    if (status != HORDGULI_NO_ROOM) {
        check(status);
        return 0;
    }
    room = written;
    buffer = sure(realloc(buffer, room));
    return 1;
}

static void lay_out(message *it, uint32_t width) {
    hordguli_status status;
    do
        status = hordguli_layout(&tables, HORDGULI_WEAK_LTR, width, HORDGULI_PRINT_DEFAULT, it->text, it->length, room, buffer,
                                 &written);
    while (grows(status));
    it->lines = 0;
    for (size_t k = 0; k < written; k++) it->lines += buffer[k] == '\n';
}

static void lay_out_session(message *it, uint32_t width) {
    hordguli_counts counts;
    hordguli_status status = hordguli_set_width(&it->session, width, NULL);
    if (status == HORDGULI_CLOSED)
        status = hordguli_session_open(&it->session, &tables, HORDGULI_WEAK_LTR, width, it->text, it->length);
    check(status);
    check(hordguli_session_counts(&it->session, &counts));
    it->lines = counts.lines;
}

static void read_session(message *it) {
    hordguli_status status;
    do status = hordguli_lines_utf8(&it->session, 0, it->lines, HORDGULI_PRINT_DEFAULT, room, buffer, &written);
    while (grows(status));
}

int main(int words_count, char **words) {
    int has_sessions = words_count > 1 && strcmp(words[1], "--sessions") == 0;
    char *text = NULL;
    size_t size = 0, lines = 0;
    ssize_t length;
    if (words_count < 2 + has_sessions) fail("chat [--sessions] WIDTH... < MESSAGES");
    check(hordguli_tables_open_builtin(&tables));
    while ((length = getline(&text, &size, stdin)) > 0) add(text, (size_t)length);
    free(text);
    for (int at = 1 + has_sessions; at < words_count; at++) {
        uint32_t width = (uint32_t)strtoul(words[at], NULL, 10);
        lines = 0;
        for (size_t k = 0; k < count; k++) {
            (has_sessions ? lay_out_session : lay_out)(&messages[k], width);
            lines += messages[k].lines;
            if (at + 1 < words_count) continue;
            if (has_sessions) read_session(&messages[k]);
            fwrite(buffer, 1, written, stdout);
        }
    }
    fprintf(stderr, "%zu lines\n", lines);
    for (size_t k = 0; k < count; k++) {
        hordguli_session_close(&messages[k].session);
        free(messages[k].text);
    }
    free(messages);
    free(buffer);
    hordguli_tables_close(&tables);
    return fflush(stdout) != 0;
}
