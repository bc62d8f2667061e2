/* Loads FriBidi's functions from libfribidi.so.0 and from our library. Each library has its own dlopen
 * handle, so neither replaces the other's functions. Also has a list of the 23 types, and a pseudorandom
 * number generator. */
#ifndef TESTS_BOTH_H
#define TESTS_BOTH_H

#include <dlfcn.h>
#include <fribidi.h>
#include <stdint.h>
#include <stdio.h>
#include <stdlib.h>
#include <string.h>

typedef struct calls {
    FriBidiCharType (*get_bidi_type)(FriBidiChar);
    void (*get_bidi_types)(const FriBidiChar *, FriBidiStrIndex, FriBidiCharType *);
    const char *(*get_bidi_type_name)(FriBidiCharType);
    FriBidiBracketType (*get_bracket)(FriBidiChar);
    void (*get_bracket_types)(const FriBidiChar *, FriBidiStrIndex, const FriBidiCharType *, FriBidiBracketType *);
    fribidi_boolean (*get_mirror_char)(FriBidiChar, FriBidiChar *);
    FriBidiParType (*get_par_direction)(const FriBidiCharType *, FriBidiStrIndex);
    FriBidiLevel (*get_par_embedding_levels)(const FriBidiCharType *, FriBidiStrIndex, FriBidiParType *, FriBidiLevel *);
    FriBidiLevel (*get_par_embedding_levels_ex)(const FriBidiCharType *, const FriBidiBracketType *, FriBidiStrIndex,
                                                FriBidiParType *, FriBidiLevel *);
    FriBidiLevel (*reorder_line)(FriBidiFlags, const FriBidiCharType *, FriBidiStrIndex, FriBidiStrIndex, FriBidiParType,
                                 FriBidiLevel *, FriBidiChar *, FriBidiStrIndex *);
    FriBidiJoiningType (*get_joining_type)(FriBidiChar);
    void (*get_joining_types)(const FriBidiChar *, FriBidiStrIndex, FriBidiJoiningType *);
    void (*join_arabic)(const FriBidiCharType *, FriBidiStrIndex, const FriBidiLevel *, FriBidiArabicProp *);
    void (*shape)(FriBidiFlags, const FriBidiLevel *, FriBidiStrIndex, FriBidiArabicProp *, FriBidiChar *);
    void (*shape_arabic)(FriBidiFlags, const FriBidiLevel *, FriBidiStrIndex, FriBidiArabicProp *, FriBidiChar *);
    void (*shape_mirroring)(const FriBidiLevel *, FriBidiStrIndex, FriBidiChar *);
} calls;

static void *found(void *handle, const char *name) {
    void *call = dlsym(handle, name);
    if (call == NULL) {
        fprintf(stderr, "%s is missing\n", name);
        exit(2);
    }
    return call;
}

/* Loads the functions from the library at a path. Ends the program if the library or a function is
 * missing. */
static calls calls_of(const char *path) {
    void *handle = dlopen(path, RTLD_NOW | RTLD_LOCAL);
    calls all = {0};
    if (handle == NULL) {
        fprintf(stderr, "%s\n", dlerror());
        exit(2);
    }
#define FIND(name) *(void **)&all.name = found(handle, "fribidi_" #name)
    FIND(get_bidi_type);
    FIND(get_bidi_types);
    FIND(get_bidi_type_name);
    FIND(get_bracket);
    FIND(get_bracket_types);
    FIND(get_mirror_char);
    FIND(get_par_direction);
    FIND(get_par_embedding_levels);
    FIND(get_par_embedding_levels_ex);
    FIND(reorder_line);
    FIND(get_joining_type);
    FIND(get_joining_types);
    FIND(join_arabic);
    FIND(shape);
    FIND(shape_arabic);
    FIND(shape_mirroring);
    return all;
}

static const FriBidiCharType all_types[23] = {
    FRIBIDI_TYPE_LTR, FRIBIDI_TYPE_RTL, FRIBIDI_TYPE_AL,  FRIBIDI_TYPE_EN,  FRIBIDI_TYPE_AN,  FRIBIDI_TYPE_ES,
    FRIBIDI_TYPE_ET,  FRIBIDI_TYPE_CS,  FRIBIDI_TYPE_NSM, FRIBIDI_TYPE_BS,  FRIBIDI_TYPE_SS,  FRIBIDI_TYPE_WS,
    FRIBIDI_TYPE_ON,  FRIBIDI_TYPE_LRI, FRIBIDI_TYPE_RLI, FRIBIDI_TYPE_FSI, FRIBIDI_TYPE_PDI, FRIBIDI_TYPE_BN,
    FRIBIDI_TYPE_LRE, FRIBIDI_TYPE_RLE, FRIBIDI_TYPE_LRO, FRIBIDI_TYPE_RLO, FRIBIDI_TYPE_PDF};
#define STAYING 17 /* X9 does not remove the first 17 types */

static const FriBidiParType all_bases[5] = {FRIBIDI_PAR_LTR, FRIBIDI_PAR_RTL, FRIBIDI_PAR_ON, FRIBIDI_PAR_WLTR, FRIBIDI_PAR_WRTL};

/* Returns a pseudorandom number (xorshift64*) below a bound. */
static uint64_t state;
static inline uint32_t below(uint32_t bound) {
    state ^= state >> 12;
    state ^= state << 25;
    state ^= state >> 27;
    return (uint32_t)(((state * UINT64_C(0x2545F4914F6CDD1D)) >> 33) % bound);
}

#endif
