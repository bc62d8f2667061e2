/* Short strings in four kinds of text, for strings.c and open.c. */
#ifndef STRINGS_H
#define STRINGS_H
#include <stddef.h>
#include <stdint.h>

enum { STRINGS = 2000, BYTES = 1300, WORDS = 13, KINDS = 4 };

static uint64_t state = 88172645463325252u;
static size_t below(size_t bound) {
    state ^= state << 13;
    state ^= state >> 7;
    state ^= state << 17;
    return (size_t)(state % bound);
}

static const char *const english[] = {"the", "window", "is", "closed", "reading", "error", "(timeout)", "from", "to", "file,", "42", "3.5", "of"};
static const char *const hebrew[] = {"שלום", "עולם", "הקובץ", "של", "לא", "נמצא", "(שגיאה)", "אל", "קריאה,", "12", "בשורה", "את", "הזמן"};
static const char *const arabic[] = {"مرحبا", "العالم", "الملف", "في", "لم", "يوجد", "(خطأ)", "إلى", "قراءة،", "٣٤", "السطر", "من", "الوقت"};
static const char *const kinds[] = {"English", "Hebrew", "Arabic", "mixed"};
static char strings[STRINGS][BYTES];
static size_t lengths[STRINGS];

/* Fills the strings with random words. Each string has `characters` characters. */
static void make(size_t kind, size_t characters) {
    static const char *const *const words[] = {english, hebrew, arabic};
    for (size_t k = 0; k < STRINGS; k++) {
        size_t count = 0, length = 0;
        while (count < characters) {
            const char *word = words[kind < 3 ? kind : below(3)][below(WORDS)];
            for (; *word != '\0' && count < characters; count++)
                do strings[k][length++] = *word++;
                while ((*word & 0xC0) == 0x80);
            if (count < characters) strings[k][length++] = ' ', count++;
        }
        lengths[k] = length;
    }
}

#endif
