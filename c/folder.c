/* Implements hordguli_tables_open_folder and hordguli_tables_open_folder_version, which are not in the proved crate
 * because they read files. */
#include "hordguli.h"

#include <errno.h>
#include <fcntl.h>
#include <stdlib.h>
#include <string.h>
#include <unistd.h>

#define PUBLIC __attribute__((visibility("default")))

/* The names of the files, by their indices in hordguli.h. */
static const char *const names[HORDGULI_TABLE_FILES] = {
    "DerivedBidiClass.txt",       "BidiBrackets.txt",   "BidiMirroring.txt", "LineBreak.txt",
    "DerivedGeneralCategory.txt", "EastAsianWidth.txt", "emoji-data.txt",
};

/* The content of a file, on the heap. */
typedef struct content {
    char *bytes;
    size_t length;
} content;

/* Reads an open file to its end. If this fails, returns NO_MEMORY, or UNREAD_FILE with the error in
 * `errno`. */
static hordguli_status read_all(int file, content *into) {
    size_t room = 0;
    for (;;) {
        ssize_t got;
        if (into->length == room) {
            char *more = room > SIZE_MAX / 4 ? NULL : realloc(into->bytes, room == 0 ? (size_t)1 << 18 : room * 2);
            if (more == NULL) return HORDGULI_NO_MEMORY;
            into->bytes = more;
            room = room == 0 ? (size_t)1 << 18 : room * 2;
        }
        got = read(file, into->bytes + into->length, room - into->length);
        if (got == 0) return HORDGULI_OK;
        if (got > 0)
            into->length += (size_t)got;
        else if (errno != EINTR)
            return errno == ENOMEM ? HORDGULI_NO_MEMORY : HORDGULI_UNREAD_FILE;
    }
}

/* Reads the file `name` in `folder`. On UNREAD_FILE, stores the error number in `*why`, since `free` and
 * `close` may change `errno`. */
static hordguli_status read_file(const char *folder, const char *name, content *into, int *why) {
    size_t length = strlen(folder);
    char *path = malloc(length + strlen(name) + 2);
    hordguli_status status;
    int file;
    if (path == NULL) return HORDGULI_NO_MEMORY;
    memcpy(path, folder, length);
    path[length] = '/';
    memcpy(path + length + 1, name, strlen(name) + 1);
    do
        file = open(path, O_RDONLY | O_CLOEXEC);
    while (file < 0 && errno == EINTR);
    *why = errno;
    free(path);
    if (file < 0) return *why == ENOMEM ? HORDGULI_NO_MEMORY : HORDGULI_UNREAD_FILE;
    status = read_all(file, into);
    *why = errno;
    close(file);
    return status;
}

static int overlaps(const void *one, size_t size, const void *other, size_t other_size) {
    uintptr_t a = (uintptr_t)one, b = (uintptr_t)other;
    return a < b ? b - a < size : a - b < other_size;
}

PUBLIC hordguli_status hordguli_tables_open_folder_version(hordguli_tables *tables, uint32_t version,
                                                           const char *folder, hordguli_table_fault *fault) {
    content contents[HORDGULI_TABLE_FILES] = {{NULL, 0}};
    hordguli_bytes files[HORDGULI_TABLE_FILES];
    hordguli_status status = HORDGULI_OK;
    size_t size;
    int why = 0;
    if (tables == NULL || folder == NULL) return HORDGULI_NULL;
    size = strlen(folder) + 1;
    if (overlaps(tables, sizeof *tables, folder, size)) return HORDGULI_OVERLAP;
    if (fault != NULL && overlaps(fault, sizeof *fault, tables, sizeof *tables)) return HORDGULI_OVERLAP;
    if (fault != NULL && overlaps(fault, sizeof *fault, folder, size)) return HORDGULI_OVERLAP;
    if (version != HORDGULI_UNICODE_15_0 && version != HORDGULI_UNICODE_17_0) return HORDGULI_UNKNOWN_OPTION;
    if (tables->at != NULL) return HORDGULI_ALREADY_OPEN;
    for (uint32_t k = 0; k < HORDGULI_TABLE_FILES && status == HORDGULI_OK; k++) {
        status = read_file(folder, names[k], &contents[k], &why);
        files[k].bytes = contents[k].bytes;
        files[k].length = contents[k].length;
        if (status == HORDGULI_UNREAD_FILE && fault != NULL) {
            fault->file = k;
            fault->cause = 0;
            fault->line = 0;
        }
    }
    if (status == HORDGULI_OK) status = hordguli_tables_read_version(tables, version, files, fault);
    for (size_t k = 0; k < HORDGULI_TABLE_FILES; k++) free(contents[k].bytes);
    if (status == HORDGULI_UNREAD_FILE) errno = why;
    return status;
}

PUBLIC hordguli_status hordguli_tables_open_folder(hordguli_tables *tables, const char *folder,
                                                   hordguli_table_fault *fault) {
    return hordguli_tables_open_folder_version(tables, HORDGULI_UNICODE_15_0, folder, fault);
}
