/* Measures the functions of FriBidi's library and of the library OURS. Usage: callers OURS. */
#include "both.h"
#include <time.h>

#define LONGEST 10000
#define CALLS 12

static const char *const names[CALLS] = {"get_bidi_type", "get_bidi_types", "get_bracket_types", "get_mirror_char", "get_par_direction", "get_par_embedding_levels", "get_par_embedding_levels_ex",
                                         "reorder_line", "get_joining_type", "get_joining_types", "join_arabic", "shape"};
static FriBidiChar text[LONGEST], string[LONGEST];
static FriBidiCharType types[LONGEST];
static FriBidiBracketType brackets[LONGEST];
static FriBidiLevel levels[LONGEST], line[LONGEST];
static FriBidiArabicProp joining[LONGEST], joined[LONGEST], shaped[LONGEST];
static FriBidiStrIndex map[LONGEST];
static FriBidiParType base;
static volatile uint64_t sink;

static double now(void) {
    struct timespec at;
    clock_gettime(CLOCK_MONOTONIC, &at);
    return 1e9 * (double)at.tv_sec + (double)at.tv_nsec;
}

/* Calls one function on the first `length` characters. */
static void ask(const calls *of, int call, int length) {
    FriBidiParType asked = FRIBIDI_PAR_ON;
    FriBidiChar mirror;
    switch (call) {
    case 0:
        for (int k = 0; k < length; k++) sink += (uint64_t)of->get_bidi_type(text[k]);
        break;
    case 1: of->get_bidi_types(text, length, types); break;
    case 2: of->get_bracket_types(text, length, types, brackets); break;
    case 3:
        for (int k = 0; k < length; k++) sink += (uint64_t)of->get_mirror_char(text[k], &mirror);
        break;
    case 4: sink += (uint64_t)of->get_par_direction(types, length); break;
    case 5: sink += (uint64_t)of->get_par_embedding_levels(types, length, &asked, levels); break;
    case 6: sink += (uint64_t)of->get_par_embedding_levels_ex(types, brackets, length, &asked, levels); break;
    case 8:
        for (int k = 0; k < length; k++) sink += (uint64_t)of->get_joining_type(text[k]);
        break;
    case 9: of->get_joining_types(text, length, joining); break;
    case 10:
        memcpy(joined, joining, (size_t)length);
        of->join_arabic(types, length, levels, joined);
        break;
    case 11:
        memcpy(string, text, sizeof *string * (size_t)length);
        memcpy(shaped, joined, (size_t)length);
        of->shape(FRIBIDI_FLAGS_DEFAULT | FRIBIDI_FLAGS_ARABIC, levels, length, shaped, string);
        break;
    default:
        memcpy(line, levels, (size_t)length);
        sink += (uint64_t)of->reorder_line(FRIBIDI_FLAGS_DEFAULT, types, length, 0, base, line, string, map);
    }
}

static double took(const calls *of, int call, int length) {
    long times = 400000 / length + 1;
    double begun = now();
    for (long n = 0; n < times; n++) ask(of, call, length);
    return (now() - begun) / (double)times;
}

/* The kinds of texts. A text has words in the scripts of its kind, with numbers, brackets and spaces between
 * them. */
static const char *const kinds[] = {"Latin", "Hebrew", "Arabic", "mixed", "embedded"};
static void make(int kind, int length) {
    state = 88172645463325252u + (uint64_t)kind;
    for (int k = 0; k < length;) {
        int script = kind < 3 ? kind : (int)below(3), word = 2 + (int)below(7);
        uint32_t other = below(12);
        if (kind == 4 && other > 8) text[k++] = (FriBidiChar[]){0x202B, 0x2067, 0x202A}[other - 9];
        if (k < length && other == 0) text[k++] = '(';
        for (int n = 0; n < word && k < length; n++) text[k++] = (FriBidiChar[]){'a', 0x5D0, 0x628}[script] + below(20);
        if (k < length && other == 1) text[k++] = '0' + below(10);
        if (k < length && other == 0) text[k++] = ')';
        if (kind == 4 && k < length && other > 8) text[k++] = (FriBidiChar[]){0x202C, 0x2069, 0x202C}[other - 9];
        if (k < length) text[k++] = ' ';
    }
}

int main(int argc, char **argv) {
    static const int lengths[] = {80, LONGEST};
    int slower = 0;
    if (argc < 2) return 2;
    calls both[2] = {calls_of("libfribidi.so.0"), calls_of(argv[1])};
    for (int n = 0; n < 2; n++) {
        for (int kind = 0; kind < 5; kind++) {
            make(kind, lengths[n]);
            for (int k = 0; k < lengths[n]; k++) string[k] = text[k], map[k] = k;
            for (int call = 0; call < CALLS; call++) {
                double least[2] = {1e18, 1e18};
                ask(&both[1], 1, lengths[n]), ask(&both[1], 2, lengths[n]);
                base = FRIBIDI_PAR_ON;
                sink += (uint64_t)both[1].get_par_embedding_levels_ex(types, brackets, lengths[n], &base, levels);
                ask(&both[1], 9, lengths[n]), ask(&both[1], 10, lengths[n]);
                for (int run = 0; run < 5; run++)
                    for (int who = 0; who < 2; who++) {
                        double one = took(&both[who], call, lengths[n]);
                        if (one < least[who]) least[who] = one;
                    }
                printf("%s, %d characters, %s: %.0f ns, FriBidi %.0f ns, ratio %.2f\n", kinds[kind], lengths[n], names[call], least[1], least[0], least[1] / least[0]);
                slower += least[1] > least[0];
            }
        }
    }
    printf("%d passed, %d failed\n", 2 * 5 * CALLS - slower, slower);
    return slower != 0;
}
