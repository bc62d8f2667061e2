/* Calls the library from several threads at the same time. Each thread processes the same random lists and adds up the
 * results. All sums must equal that of a single thread. Usage: threads THREADS CALLS. */
#include <fribidi.h>
#include <pthread.h>
#include <stdint.h>
#include <stdio.h>
#include <stdlib.h>

static long count;

static uint64_t next(uint64_t *state) {
    *state ^= *state << 13;
    *state ^= *state >> 7;
    *state ^= *state << 17;
    return *state;
}

static void *work(void *into) {
    uint64_t state = 88172645463325252u, sum = 0;
    for (long n = 0; n < count; n++) {
        FriBidiChar string[40];
        FriBidiCharType types[40];
        FriBidiBracketType brackets[40];
        FriBidiLevel levels[40];
        FriBidiArabicProp properties[40];
        FriBidiStrIndex map[40], length = (FriBidiStrIndex)(1 + next(&state) % 40);
        FriBidiParType base = FRIBIDI_PAR_ON;
        static const FriBidiChar some[] = {'a', 0x5D0, 0x627, 0x644, 0x661, '(', ')', ' ', '+', 0x2067, 0x2069, 0x202B, 0x202C, 0x300, '\t', '1'};
        for (int k = 0; k < length; k++) string[k] = some[next(&state) % 16], map[k] = k;
        fribidi_get_bidi_types(string, length, types);
        fribidi_get_bracket_types(string, length, types, brackets);
        sum = sum * 31 + (uint64_t)fribidi_get_par_direction(types, length);
        sum = sum * 31 + (uint64_t)fribidi_get_par_embedding_levels_ex(types, brackets, length, &base, levels);
        fribidi_get_joining_types(string, length, properties);
        fribidi_join_arabic(types, length, levels, properties);
        fribidi_shape(FRIBIDI_FLAG_SHAPE_MIRRORING | FRIBIDI_FLAGS_ARABIC, levels, length, properties, string);
        sum = sum * 31 + (uint64_t)fribidi_reorder_line(FRIBIDI_FLAG_REORDER_NSM, types, length, 0, base, levels, string, map);
        for (int k = 0; k < length; k++) sum = sum * 31 + (uint64_t)levels[k] * 7 + (uint64_t)map[k] + string[k] + properties[k];
    }
    *(uint64_t *)into = sum;
    return NULL;
}

int main(int argc, char **argv) {
    enum { MOST = 64 };
    int threads = argc > 2 ? atoi(argv[1]) : 0, wrong = 0;
    uint64_t alone, sums[MOST];
    pthread_t ids[MOST];
    if (threads < 1 || threads > MOST) return 2;
    count = atol(argv[2]);
    work(&alone);
    for (int k = 0; k < threads; k++)
        if (pthread_create(&ids[k], NULL, work, &sums[k]) != 0) return 2;
    for (int k = 0; k < threads; k++) pthread_join(ids[k], NULL), wrong += sums[k] != alone;
    printf("%d passed, %d failed\n", threads - wrong, wrong);
    return wrong != 0;
}
