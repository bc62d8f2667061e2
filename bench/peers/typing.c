/* Types into sessions like a person: words with spaces, a backspace now and then, and Enter, which the next key takes back.
 * Prints the mean time of each key, and the share of keys after which the session has analysed no character. Then prints how
 * long ICU needs for the levels of the paragraph alone. Usage: typing FOLDER CHARACTERS PARAGRAPH KEYS, where FOLDER has the
 * table files, each text has CHARACTERS characters in paragraphs of PARAGRAPH characters, and each is typed into KEYS times. */
#define _POSIX_C_SOURCE 200809L
#include <hordguli.h>
#include <stdint.h>
#include <stdio.h>
#include <stdlib.h>
#include <string.h>
#include <time.h>
#include <unicode/ubidi.h>

enum { KEY_KINDS = 4, LETTER = 0, SPACE, BACKSPACE, ENTER, BURST = 40 };
static const char *const key_kinds[] = {"letter", "space", "backspace", "Enter"};

/* A script: the letters that its keys type, as UTF-16 code units, and the greatest length of its words. */
typedef struct script {
    const char *name;
    UChar first, last;
    size_t word;
} script;
static const script scripts[] = {{"English", 'a', 'z', 9}, {"Hebrew", 0x5D0, 0x5EA, 7}, {"Arabic", 0x628, 0x63A, 8}, {"Russian", 0x430, 0x44F, 10}, {"Chinese", 0x4E00, 0x9FA5, 12}};
enum { SCRIPTS = sizeof scripts / sizeof *scripts };

static uint64_t state = 88172645463325252u;
static size_t below(size_t bound) {
    state ^= state << 13;
    state ^= state >> 7;
    state ^= state << 17;
    return (size_t)(state % bound);
}

static double now(void) {
    struct timespec time;
    clock_gettime(CLOCK_MONOTONIC, &time);
    return (double)time.tv_sec * 1e9 + (double)time.tv_nsec;
}

static void sure_of(int is_right, const char *what) {
    if (is_right) return;
    fprintf(stderr, "typing: %s\n", what);
    exit(1);
}

static UChar letter_of(const script *of) { return (UChar)(of->first + below((size_t)(of->last - of->first) + 1)); }

/* Writes a character as UTF-8, and returns its length in bytes. */
static size_t encode(UChar c, char *into) {
    if (c < 0x80) return into[0] = (char)c, 1;
    if (c < 0x800) return into[0] = (char)(0xC0 | c >> 6), into[1] = (char)(0x80 | (c & 0x3F)), 2;
    return into[0] = (char)(0xE0 | c >> 12), into[1] = (char)(0x80 | (c >> 6 & 0x3F)), into[2] = (char)(0x80 | (c & 0x3F)), 3;
}

/* Makes a text of random words. Returns its length in bytes. */
static size_t make(const script *of, size_t characters, size_t paragraph, char *bytes, UChar *units) {
    size_t length = 0, left = 0;
    for (size_t k = 0; k < characters; k++) {
        if (left == 0) left = 1 + below(of->word);
        units[k] = (k + 1) % paragraph == 0 ? '\n' : --left == 0 ? ' ' : letter_of(of);
        length += encode(units[k], bytes + length);
    }
    return length;
}

/* The mean time of each kind of key, and how many keys analysed nothing. */
typedef struct figures {
    double time[KEY_KINDS];
    size_t count[KEY_KINDS], short_ones, keys;
} figures;

static void press(hordguli_session *session, size_t kind, const script *of, size_t *pos, figures *into) {
    char bytes[4];
    size_t size = encode(kind == LETTER ? letter_of(of) : kind == SPACE ? ' ' : '\n', bytes);
    hordguli_work before, after;
    hordguli_status status;
    double start;
    sure_of(hordguli_session_work(session, &before) == HORDGULI_OK, "work");
    start = now();
    status = kind == BACKSPACE ? hordguli_delete(session, --*pos, 1, NULL) : hordguli_insert(session, (*pos)++, bytes, size, NULL);
    into->time[kind] += now() - start;
    sure_of(status == HORDGULI_OK, hordguli_status_text(status));
    sure_of(hordguli_session_work(session, &after) == HORDGULI_OK, "work");
    into->count[kind]++;
    into->keys++;
    into->short_ones += after.analysed == before.analysed;
}

static void type(hordguli_session *session, size_t characters, const script *of, size_t keys, figures *into) {
    size_t pos = 0, left = 0;
    while (into->keys < keys) {
        if (into->keys % BURST == 0) pos = 1 + below(characters - 2);
        if (left == 0) left = 1 + below(of->word);
        switch (below(100)) {
        case 0:
            press(session, ENTER, of, &pos, into);
            press(session, BACKSPACE, of, &pos, into);
            break;
        case 1: case 2: case 3: case 4: press(session, BACKSPACE, of, &pos, into); break;
        default: press(session, --left == 0 ? SPACE : LETTER, of, &pos, into);
        }
        if (pos == 0) pos = 1;
    }
}

static double levels_of_icu(const UChar *units, size_t length) {
    UErrorCode error = U_ZERO_ERROR;
    UBiDi *bidi = ubidi_openSized((int32_t)length, 0, &error);
    double least = 1e18;
    for (int run = 0; run < 5; run++) {
        double start = now(), took;
        ubidi_setPara(bidi, units, (int32_t)length, UBIDI_DEFAULT_LTR, NULL, &error);
        took = now() - start;
        if (took < least) least = took;
    }
    sure_of(U_SUCCESS(error), "ICU");
    ubidi_close(bidi);
    return least;
}

int main(int count, char **words) {
    hordguli_tables tables = HORDGULI_TABLES_INIT;
    size_t characters, paragraph, keys;
    char *bytes;
    UChar *units;
    sure_of(count == 5, "which arguments?");
    characters = strtoul(words[2], NULL, 10), paragraph = strtoul(words[3], NULL, 10), keys = strtoul(words[4], NULL, 10);
    bytes = malloc(characters * 3 + 1), units = malloc((characters + 1) * sizeof *units);
    sure_of(bytes != NULL && units != NULL && characters > 2 && paragraph > 1, "arguments");
    sure_of(hordguli_tables_open_folder(&tables, words[1], NULL) == HORDGULI_OK, "no tables");
    for (size_t k = 0; k < SCRIPTS; k++) {
        const script *of = &scripts[k];
        hordguli_session session = HORDGULI_SESSION_INIT;
        figures all = {{0}, {0}, 0, 0};
        size_t size = make(of, characters, paragraph, bytes, units);
        sure_of(hordguli_session_open(&session, &tables, HORDGULI_WEAK_LTR, 80, bytes, size) == HORDGULI_OK, "open");
        type(&session, characters, of, keys, &all);
        hordguli_session_close(&session);
        printf("%zu characters in paragraphs of %zu, %s:", characters, paragraph, of->name);
        for (size_t kind = 0; kind < KEY_KINDS; kind++)
            if (all.count[kind] > 0) printf(" %s %.1f,", key_kinds[kind], all.time[kind] / (double)all.count[kind] / 1000);
        printf(" ICU's levels %.1f microseconds; %.0f %% of keys analyse nothing\n", levels_of_icu(units, paragraph < characters ? paragraph : characters) / 1000,
               100.0 * (double)all.short_ones / (double)all.keys);
    }
    hordguli_tables_close(&tables);
    free(bytes);
    free(units);
    return 0;
}
