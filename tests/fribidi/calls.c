/* Tests each function that FriBidi's header declares, including with unusual arguments. Link it with our
 * library. If it is compiled with -DREFUSES and linked with --wrap for malloc, realloc and free, it also
 * makes allocations fail: all of them, then all from the second one on, and so on. */
#include <fribidi.h>
#include <stdint.h>
#include <stdio.h>
#include <stdlib.h>
#include <string.h>

static long passed, failed;

static void so(int is, const char *what) {
    if (is) {
        passed++;
    } else {
        failed++;
        printf("failed: %s\n", what);
    }
}
#define SO(condition) so(condition, #condition)

static long left = -1, alive; /* how many allocations succeed before the others fail, or -1 if none fails; how many are not freed */
#ifdef REFUSES
void *__real_malloc(size_t);
void *__real_realloc(void *, size_t);
void __real_free(void *);
void *__wrap_malloc(size_t);
void *__wrap_realloc(void *, size_t);
void __wrap_free(void *);

static int refused(void) {
    if (left <= 0) return left == 0;
    left--;
    return 0;
}

void *__wrap_malloc(size_t size) {
    void *at = refused() ? NULL : __real_malloc(size);
    alive += at != NULL;
    return at;
}
void *__wrap_realloc(void *old, size_t size) {
    void *at = refused() ? NULL : __real_realloc(old, size);
    alive += old == NULL && at != NULL;
    return at;
}
void __wrap_free(void *at) {
    alive -= at != NULL;
    __real_free(at);
}
#endif

#define L FRIBIDI_TYPE_LTR
#define R FRIBIDI_TYPE_RTL
#define WS FRIBIDI_TYPE_WS
#define ON FRIBIDI_TYPE_ON
#define COUNT(array) ((FriBidiStrIndex)(sizeof(array) / sizeof *(array)))

static void characters(void) {
    FriBidiChar mirror = 7;
    SO(fribidi_get_bidi_type(0x61) == L && fribidi_get_bidi_type(0x5D0) == R && fribidi_get_bidi_type(0x627) == FRIBIDI_TYPE_AL);
    SO(fribidi_get_bidi_type(0x110000) == L && fribidi_get_bidi_type(UINT32_MAX) == L && fribidi_get_bidi_type(0xD800) == L);
    SO(fribidi_get_bracket('(') == (FRIBIDI_BRACKET_OPEN_MASK | '(') && fribidi_get_bracket(')') == '(');
    SO(fribidi_get_bracket(0x2329) == (FRIBIDI_BRACKET_OPEN_MASK | 0x3008) && fribidi_get_bracket(0x232A) == 0x3008);
    SO(fribidi_get_bracket('a') == FRIBIDI_NO_BRACKET && fribidi_get_bracket(0x110028) == FRIBIDI_NO_BRACKET);
    SO(fribidi_get_mirror_char('<', &mirror) && mirror == '>');
    SO(!fribidi_get_mirror_char('a', &mirror) && mirror == 'a');
    SO(!fribidi_get_mirror_char(UINT32_MAX, &mirror) && mirror == UINT32_MAX);
    SO(fribidi_get_mirror_char('(', NULL) && !fribidi_get_mirror_char('a', NULL));
    fribidi_get_bidi_types(NULL, 0, NULL);
    fribidi_get_bracket_types(NULL, 0, NULL, NULL);
}

static void names(void) {
    SO(strcmp(fribidi_get_bidi_type_name(L), "LTR") == 0 && strcmp(fribidi_get_bidi_type_name(FRIBIDI_TYPE_BS), "BS") == 0);
    SO(strcmp(fribidi_get_bidi_type_name((FriBidiCharType)FRIBIDI_PAR_WRTL), "WRTL") == 0);
    SO(strcmp(fribidi_get_bidi_type_name((FriBidiCharType)0), "?") == 0 && strcmp(fribidi_get_bidi_type_name((FriBidiCharType)INT32_MAX), "?") == 0);
}

static void paragraphs(void) {
    const FriBidiCharType types[] = {R, ON, L, ON, WS};
    const FriBidiBracketType brackets[] = {0, FRIBIDI_BRACKET_OPEN_MASK | '(', 0, '(', 0};
    const FriBidiCharType odd[] = {(FriBidiCharType)0x7FFFFFFF, R, (FriBidiCharType)23};
    FriBidiLevel levels[5] = {9, 9, 9, 9, 9};
    FriBidiParType base = FRIBIDI_PAR_ON;
    SO(fribidi_get_par_embedding_levels_ex(types, brackets, 5, &base, levels) == 3);
    SO(base == FRIBIDI_PAR_RTL && memcmp(levels, (FriBidiLevel[]){1, 1, 2, 1, 1}, 5) == 0);
    base = FRIBIDI_PAR_LTR;
    SO(fribidi_get_par_embedding_levels_ex(types, NULL, 5, &base, levels) == 2);
    SO(base == FRIBIDI_PAR_LTR && memcmp(levels, (FriBidiLevel[]){1, 0, 0, 0, 0}, 5) == 0);
    SO(fribidi_get_par_embedding_levels(types, 5, &base, levels) == 2 && memcmp(levels, (FriBidiLevel[]){1, 0, 0, 0, 0}, 5) == 0);
    base = FRIBIDI_PAR_WRTL;
    SO(fribidi_get_par_embedding_levels_ex(types + 4, NULL, 1, &base, levels) == 2 && base == FRIBIDI_PAR_RTL && levels[0] == 1);
    base = FRIBIDI_PAR_ON;
    SO(fribidi_get_par_embedding_levels_ex(types + 4, NULL, 1, &base, levels) == 1 && base == FRIBIDI_PAR_LTR && levels[0] == 0);
    base = FRIBIDI_PAR_RTL;
    SO(fribidi_get_par_embedding_levels_ex(NULL, NULL, 0, &base, NULL) != 0 && base == FRIBIDI_PAR_RTL);
    SO(fribidi_get_par_embedding_levels_ex(types, NULL, -3, &base, levels) != 0);
    SO(fribidi_get_par_embedding_levels_ex(NULL, NULL, 5, &base, levels) == 0 && fribidi_get_par_embedding_levels_ex(types, NULL, 5, NULL, levels) == 0);
    SO(fribidi_get_par_embedding_levels_ex(types, NULL, 5, &base, NULL) == 0);
    SO(fribidi_get_par_embedding_levels_ex(odd, NULL, 3, &base, levels) == 2 && memcmp(levels, (FriBidiLevel[]){1, 1, 1}, 3) == 0);
    SO(fribidi_get_par_direction(types, 5) == FRIBIDI_PAR_RTL && fribidi_get_par_direction(types + 2, 3) == FRIBIDI_PAR_LTR);
    SO(fribidi_get_par_direction(types + 4, 1) == FRIBIDI_PAR_ON && fribidi_get_par_direction(NULL, 0) == FRIBIDI_PAR_ON);
}

static void lines(void) {
    const FriBidiCharType types[] = {L, R, R, WS, R, R, FRIBIDI_TYPE_NSM, WS};
    FriBidiLevel levels[] = {0, 1, 1, 1, 1, 1, 1, 0};
    FriBidiChar string[] = {'a', 'b', 'c', 'd', 'e', 'f', 'g', 'h'};
    FriBidiStrIndex map[] = {0, 10, 20, 30, 40, 50, 60, 70};
    SO(fribidi_reorder_line(0, types, 3, 1, FRIBIDI_PAR_LTR, levels, string, map) == 2);
    SO(memcmp(levels, (FriBidiLevel[]){0, 1, 1, 0, 1, 1, 1, 0}, 8) == 0);
    SO(memcmp(string, (FriBidiChar[]){'a', 'c', 'b', 'd', 'e', 'f', 'g', 'h'}, sizeof string) == 0);
    SO(memcmp(map, (FriBidiStrIndex[]){0, 20, 10, 30, 40, 50, 60, 70}, sizeof map) == 0);
    SO(fribidi_reorder_line(0, types, 4, 4, FRIBIDI_PAR_LTR, levels, NULL, map) == 2);
    SO(memcmp(map, (FriBidiStrIndex[]){0, 20, 10, 30, 60, 50, 40, 70}, sizeof map) == 0);
    SO(fribidi_reorder_line(FRIBIDI_FLAG_REORDER_NSM, types, 4, 4, FRIBIDI_PAR_LTR, levels, string, NULL) == 2);
    SO(memcmp(string + 4, (FriBidiChar[]){'f', 'g', 'e', 'h'}, 4 * sizeof *string) == 0);
    SO(fribidi_reorder_line(0, types, 0, 0, FRIBIDI_PAR_LTR, levels, string, map) == 1);
    SO(fribidi_reorder_line(0, types, -1, 0, FRIBIDI_PAR_LTR, levels, string, map) == 1);
    SO(fribidi_reorder_line(0, NULL, 4, 0, FRIBIDI_PAR_LTR, levels, string, map) == 0 && fribidi_reorder_line(0, types, 4, 0, FRIBIDI_PAR_LTR, NULL, string, map) == 0);
    SO(fribidi_reorder_line(0, types, 4, -1, FRIBIDI_PAR_LTR, levels, string, map) == 0);
}

static void shapes(void) {
    enum { ALL = FRIBIDI_FLAG_SHAPE_MIRRORING | FRIBIDI_FLAGS_ARABIC };
    const FriBidiChar word[] = {0x633, 0x644, 0x627, 0x645}; /* salam */
    const FriBidiChar marked[] = {0x633, 0x64E, 0x644, 0x64E, 0x627};
    const FriBidiLevel odd[] = {1, 1, 1, 1, 1}, even[] = {2, 2, 2, 2, 2};
    FriBidiCharType types[5];
    FriBidiJoiningType properties[5];
    FriBidiChar string[5];
    SO(fribidi_get_joining_type(0x633) == FRIBIDI_JOINING_TYPE_D && fribidi_get_joining_type(0x627) == FRIBIDI_JOINING_TYPE_R);
    SO(fribidi_get_joining_type(0x640) == FRIBIDI_JOINING_TYPE_C && fribidi_get_joining_type(0x64E) == FRIBIDI_JOINING_TYPE_T);
    SO(fribidi_get_joining_type(0x200C) == FRIBIDI_JOINING_TYPE_U && fribidi_get_joining_type(0x200D) == FRIBIDI_JOINING_TYPE_C);
    SO(fribidi_get_joining_type(0) == FRIBIDI_JOINING_TYPE_G && fribidi_get_joining_type(0x9F) == FRIBIDI_JOINING_TYPE_G && fribidi_get_joining_type('\n') == FRIBIDI_JOINING_TYPE_U);
    SO(fribidi_get_joining_type(0x20DD) == FRIBIDI_JOINING_TYPE_T && fribidi_get_joining_type(0xA872) == FRIBIDI_JOINING_TYPE_L);
    SO(fribidi_get_joining_type(0xD800) == FRIBIDI_JOINING_TYPE_U && fribidi_get_joining_type(0x110000) == FRIBIDI_JOINING_TYPE_U && fribidi_get_joining_type(UINT32_MAX) == FRIBIDI_JOINING_TYPE_U);
    fribidi_get_bidi_types(word, 4, types);
    fribidi_get_joining_types(word, 4, properties);
    fribidi_join_arabic(types, 4, odd, properties);
    SO(memcmp(properties, (FriBidiArabicProp[]){6, 7, 5, 4}, 4) == 0);
    memcpy(string, word, sizeof word);
    fribidi_shape(ALL, odd, 4, properties, string);
    SO(memcmp(string, (FriBidiChar[]){0xFEB3, FRIBIDI_CHAR_FILL, 0xFEFC, 0xFEE1}, sizeof word) == 0);
    SO(memcmp(properties, (FriBidiArabicProp[]){6, 7 | FRIBIDI_MASK_LIGATURED, 5, 4}, 4) == 0);
    fribidi_get_joining_types(word, 4, properties);
    fribidi_join_arabic(types, 4, even, properties); /* right and left are exchanged */
    SO(memcmp(properties, (FriBidiArabicProp[]){5, 6, 5, 6}, 4) == 0);
    memcpy(string, word, sizeof word);
    fribidi_shape_arabic(FRIBIDI_FLAGS_ARABIC, even, 4, properties, string);
    SO(memcmp(string, (FriBidiChar[]){0xFEB2, 0xFEDF, 0xFE8E, 0xFEE3}, sizeof word) == 0);
    fribidi_get_bidi_types(marked, 5, types);
    fribidi_get_joining_types(marked, 5, properties);
    fribidi_join_arabic(types, 5, odd, properties);
    SO(memcmp(properties, (FriBidiArabicProp[]){6, 15, 7, 15, 5}, 5) == 0);
    memcpy(string, marked, sizeof marked);
    fribidi_shape(ALL, odd, 5, properties, string); /* a mark is between lam and alef */
    SO(memcmp(string, (FriBidiChar[]){0xFEB3, 0x64E, 0xFEE0, 0x64E, 0xFE8E}, sizeof marked) == 0);
    memcpy(string, (FriBidiChar[]){'(', 0x633, '<', 'a'}, sizeof word);
    fribidi_shape(ALL, odd, 4, NULL, string);
    SO(memcmp(string, (FriBidiChar[]){')', 0x633, '>', 'a'}, sizeof word) == 0);
    fribidi_shape(FRIBIDI_FLAGS_ARABIC, odd, 4, NULL, string);
    fribidi_shape_mirroring(even, 4, string);
    fribidi_shape_mirroring(odd, 1, string);
    SO(memcmp(string, (FriBidiChar[]){'(', 0x633, '>', 'a'}, sizeof word) == 0);
    memcpy(properties, (FriBidiArabicProp[]){6, 7, 5, 4}, 4);
    memcpy(string, word, sizeof word);
    fribidi_shape_arabic(FRIBIDI_FLAGS_ARABIC, NULL, 4, properties, string); /* ligatures require levels */
    SO(memcmp(string, (FriBidiChar[]){0xFEB3, 0xFEE0, 0xFE8E, 0xFEE1}, sizeof word) == 0);
    memcpy(string, (FriBidiChar[]){0x640, 0xFE7C, 0xFE76, 0x64E, 0xFE8D}, sizeof string);
    memcpy(properties, (FriBidiArabicProp[]){3, 12, 12, 15, 5}, 5);
    fribidi_shape_arabic(FRIBIDI_FLAG_SHAPE_ARAB_CONSOLE, odd, 5, properties, string); /* a ligature is part of the next */
    SO(memcmp(string, (FriBidiChar[]){FRIBIDI_CHAR_FILL, FRIBIDI_CHAR_FILL, 0xFCF2, 0xFE77, 0xFE8D}, sizeof string) == 0);
    SO(properties[0] == (3 | FRIBIDI_MASK_LIGATURED) && properties[1] == (12 | FRIBIDI_MASK_LIGATURED) && properties[2] == 12);
    memcpy(string, (FriBidiChar[]){0x640, 0xFE7C, 0x64E, 0x653, 'a'}, sizeof string);
    fribidi_shape_arabic(FRIBIDI_FLAG_SHAPE_ARAB_CONSOLE, NULL, 5, (FriBidiArabicProp[]){3, 12, 12, 12, 0}, string);
    SO(memcmp(string, (FriBidiChar[]){0x640, 0xFE7C, 0xFE76, 0x653, 'a'}, sizeof string) == 0);
    memcpy(string, (FriBidiChar[]){0xFEB3, 0xFEE0, 0xFE8E, 0xFEE1}, sizeof word);
    memcpy(properties, (FriBidiArabicProp[]){6, 7, 5, 4}, 4);
    fribidi_get_joining_types(NULL, 0, NULL);
    fribidi_join_arabic(NULL, 4, odd, properties);
    fribidi_join_arabic(types, -1, odd, properties);
    fribidi_join_arabic(NULL, 0, NULL, NULL);
    fribidi_shape(ALL, odd, 0, properties, string);
    fribidi_shape(ALL, odd, -1, properties, string);
    fribidi_shape(ALL, odd, 4, properties, NULL);
    fribidi_shape_mirroring(NULL, 4, string);
    SO(memcmp(string, (FriBidiChar[]){0xFEB3, 0xFEE0, 0xFE8E, 0xFEE1}, sizeof word) == 0 && properties[1] == 7);
}

#ifdef REFUSES
/* If an allocation fails, a function must return 0 and change nothing. Reordering a line and shaping must allocate nothing. */
static void refusals(void) {
    const FriBidiCharType types[] = {R, FRIBIDI_TYPE_RLI, L, ON, R, ON, FRIBIDI_TYPE_LRE, FRIBIDI_TYPE_AN, FRIBIDI_TYPE_PDF, FRIBIDI_TYPE_PDI, FRIBIDI_TYPE_EN, WS};
    const FriBidiBracketType brackets[12] = {0, 0, 0, FRIBIDI_BRACKET_OPEN_MASK | '(', 0, '('};
    long refused_at;
    for (refused_at = 0;; refused_at++) {
        FriBidiLevel levels[12], before[12];
        FriBidiParType base = FRIBIDI_PAR_ON;
        memset(levels, 77, sizeof levels);
        memcpy(before, levels, sizeof levels);
        left = refused_at;
        FriBidiLevel top = fribidi_get_par_embedding_levels_ex(types, brackets, COUNT(types), &base, levels);
        left = -1;
        SO(alive == 0);
        if (top != 0) break;
        SO(memcmp(levels, before, sizeof levels) == 0 && base == FRIBIDI_PAR_ON);
    }
    SO(refused_at > 2);
    {
        FriBidiLevel levels[12] = {1, 1, 2, 1, 1, 1, 1, 2, 1, 1, 2, 3};
        FriBidiStrIndex map[12] = {0, 1, 2, 3, 4, 5, 6, 7, 8, 9, 10, 11};
        left = 0;
        FriBidiLevel top = fribidi_reorder_line(FRIBIDI_FLAG_REORDER_NSM, types, COUNT(types), 0, FRIBIDI_PAR_RTL, levels, NULL, map);
        shapes();
        left = -1;
        SO(alive == 0);
        SO(top != 0 && map[0] == 11);
    }
}
#endif

int main(void) {
    characters();
    names();
    paragraphs();
    lines();
    shapes();
#ifdef REFUSES
    refusals();
#else
    (void)left, (void)alive;
#endif
    printf("%ld passed, %ld failed\n", passed, failed);
    return failed != 0;
}
