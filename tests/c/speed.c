/* Measures the C library for bench/c, as `bench calls` measures the Rattle crates. Usage: speed FOLDER FILE INSERTS.
 *
 * Prints the nanoseconds for opening a session on the text of FILE, for inserting a letter at INSERTS random positions,
 * and for reading the starts, characters and levels of all lines. The last number is a checksum of what was read. */
#include "test.h"

#include <time.h>

static uint64_t now(void) {
    struct timespec time;
    clock_gettime(CLOCK_MONOTONIC, &time);
    return (uint64_t)time.tv_sec * 1000000000u + (uint64_t)time.tv_nsec;
}

static void check(hordguli_status status) {
    if (status == HORDGULI_OK) return;
    fprintf(stderr, "speed: %s\n", hordguli_status_text(status));
    exit(1);
}

static char *read_file(const char *path, size_t *length) {
    FILE *file = fopen(path, "rb");
    char *bytes;
    long size;
    if (file == NULL || fseek(file, 0, SEEK_END) != 0 || (size = ftell(file)) < 0) exit(1);
    rewind(file);
    bytes = sure(malloc((size_t)size + 1));
    *length = fread(bytes, 1, (size_t)size, file);
    fclose(file);
    return bytes;
}

int main(int count, char **words) {
    static uint32_t characters[65536];
    static uint8_t levels[65536];
    hordguli_tables tables = HORDGULI_TABLES_INIT;
    hordguli_session session = HORDGULI_SESSION_INIT;
    hordguli_damage damage;
    hordguli_counts counts;
    uint64_t times[4], number = 15, sum = 0;
    size_t length;
    char *text;
    if (count != 4) return 2;
    text = read_file(words[2], &length);
    check(hordguli_tables_open_folder(&tables, words[1], NULL));
    times[0] = now();
    check(hordguli_session_open(&session, &tables, 0, 80, text, length));
    times[1] = now();
    for (long k = 0; k < atol(words[3]); k++) {
        number = number * 6364136223846793005u + 1442695040888963407u;
        check(hordguli_session_counts(&session, &counts));
        check(hordguli_insert(&session, (size_t)(number >> 33) % (counts.characters > 0 ? counts.characters : 1), "a", 1,
                              &damage));
    }
    times[2] = now();
    check(hordguli_session_counts(&session, &counts));
    for (size_t line = 0; line < counts.lines; line++) {
        hordguli_line_info info;
        check(hordguli_line(&session, line, &info, 65536, characters, levels, NULL, NULL, NULL));
        sum += info.start;
        for (size_t k = 0; k < info.shown; k++) sum += characters[k];
        for (size_t k = 0; k < info.shown; k++) sum += levels[k];
    }
    times[3] = now();
    printf("%llu %llu %llu %llu\n", (unsigned long long)(times[1] - times[0]), (unsigned long long)(times[2] - times[1]),
           (unsigned long long)(times[3] - times[2]), (unsigned long long)sum);
    hordguli_session_close(&session);
    hordguli_tables_close(&tables);
    free(text);
    return 0;
}
