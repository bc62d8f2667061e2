/* Tests the loop in the comment BUFFERS of include/hordguli.h, which tests/docs/run writes to loop.h. */
#include <hordguli.h>
#include <stdio.h>
#include <stdlib.h>
#include <string.h>

static hordguli_session session = HORDGULI_SESSION_INIT;
static char *buffer;
static size_t capacity, length;
static int calls, is_refused;

static void *counted(void *block, size_t size) {
    calls++;
    return is_refused ? NULL : realloc(block, size);
}

static hordguli_status read_text(size_t pos, size_t count) {
    hordguli_status status = HORDGULI_OK;
#define realloc counted
#include "loop.h"
#undef realloc
    return status;
}

static int failed;

static void holds(int is_so, int at, const char *what) {
    if (!is_so) printf("buffer.c:%d: does not hold: %s\n", at, what);
    failed |= !is_so;
}
#define HOLDS(condition) holds((condition), __LINE__, #condition)

static void reads(size_t pos, size_t count, const char *wanted, int wanted_calls) {
    calls = 0;
    HOLDS(read_text(pos, count) == HORDGULI_OK && calls == wanted_calls);
    HOLDS(length == strlen(wanted) && (length == 0 || memcmp(buffer, wanted, length) == 0));
}

int main(void) {
    static const char text[] = "abc \u05d0\u05d1\u05d2\n\u0645\u0631\u062d\u0628\u0627";
    hordguli_tables tables = HORDGULI_TABLES_INIT;
    HOLDS(hordguli_tables_open_builtin(&tables) == HORDGULI_OK);
    HOLDS(hordguli_session_open(&session, &tables, 0, 20, text, strlen(text)) == HORDGULI_OK);
    reads(0, 0, "", 0);
    reads(4, 2, "\u05d0\u05d1", 1);
    reads(0, 4, "abc ", 0); /* fits in the buffer of the last call */
    reads(0, 13, text, 1);
    reads(3, 3, " \u05d0\u05d1", 0);
    HOLDS(hordguli_insert(&session, 0, "x", 1, NULL) == HORDGULI_OK);
    is_refused = 1;
    HOLDS(read_text(0, 14) == HORDGULI_NO_ROOM && length == sizeof text && capacity == length - 1);
    is_refused = 0;
    reads(1, 13, text, 0); /* the buffer is kept */
    HOLDS(read_text(0, 15) == HORDGULI_OUT_OF_RANGE && length == sizeof text - 1);
    free(buffer);
    hordguli_session_close(&session);
    hordguli_tables_close(&tables);
    return failed;
}
