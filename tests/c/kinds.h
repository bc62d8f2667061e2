/* Characters that can be doubled: letters, digits, ideographs and spaces. */
#ifndef HORDGULI_KINDS_H
#define HORDGULI_KINDS_H

#include "test.h"

/* The first and the last character of each kind. */
static const uint32_t kinds[][2] = {
    {'a', 'z'}, {'0', '9'}, {0x5D0, 0x5EA}, {0x628, 0x63A}, {0x661, 0x669}, {0x4E00, 0x9FA5}, {' ', ' '},
};
enum { KINDS = sizeof kinds / sizeof *kinds };

/* Returns the number of a character's kind, or `KINDS` if it has none of them. */
static inline size_t kind_of(uint32_t character) {
    size_t kind = 0;
    while (kind < KINDS && (character < kinds[kind][0] || character > kinds[kind][1])) kind++;
    return kind;
}

/* Returns a random character of a kind. */
static inline uint32_t one_of_kind(size_t kind) {
    return kinds[kind][0] + (uint32_t)below(kinds[kind][1] - kinds[kind][0] + 1);
}

/* Stores up to three characters of a kind, or none if `kind` is `KINDS`. Returns their number. */
static inline size_t typed(size_t kind, uint32_t *into) {
    size_t count = kind < KINDS ? below(4) : 0;
    for (size_t k = 0; k < count; k++) into[k] = one_of_kind(kind);
    return count;
}

/* Returns how many characters at the start of `text`, at most three, are of a kind. */
static inline size_t erased(size_t kind, const uint32_t *text, size_t length) {
    size_t most = kind < KINDS ? below(4) : 0, count = 0;
    while (count < most && count < length && kind_of(text[count]) == kind) count++;
    return count;
}

#endif
