/* Compares FriBidi's functions with the functions of the library OURS, on COUNT random lists of types. A list
 * has 1 to 200 elements. Each of them has one of the 23 types, and some are brackets. The list is resolved in
 * one of the five base directions. Half of the lists have no type that X9 removes. Each element also has a joining
 * type and a code point, of which both libraries join and shape the list; in a third of the lists, some joining types are arbitrary bytes.
 * Usage: compare OURS COUNT [SEED].
 *
 * The results must be equal if no predicate of docs/fribidi-compat.md holds for a list. For each predicate, they must
 * differ on at least half of the lists for which only this predicate holds. */
#include "both.h"

#define MOST 200

typedef struct input {
    int length;
    FriBidiCharType types[MOST];
    FriBidiBracketType brackets[MOST];
    FriBidiParType base;
    int off, part; /* a line: `levels` and `resolved` are passed for it */
    FriBidiFlags flags;
    FriBidiLevel levels[MOST];
    FriBidiParType resolved;
    FriBidiArabicProp joining[MOST];
    FriBidiChar characters[MOST];
    FriBidiFlags shaping;
} input;

/* The compared results. */
enum { DIRECTION, RESOLVED, LEVELS, TOP, LINE, JOINS, SHAPES, CALLS };
static const char *const call_names[CALLS] = {"direction", "base written", "levels", "greatest level", "line", "joins", "shapes"};

static calls theirs, ours;

/* ---- Predicates ---- */

#include "predicates.h"

/* ---- Results ---- */

typedef struct answer {
    FriBidiParType direction, resolved;
    FriBidiLevel top, plain_top, line_top;
    FriBidiLevel levels[MOST], plain[MOST], line[MOST];
    FriBidiChar string[MOST];
    FriBidiStrIndex map[MOST];
    FriBidiArabicProp joined[MOST], marked[MOST];
    FriBidiChar shaped[MOST];
} answer;

static void ask_shapes(const calls *of, const input *one, answer *found) {
    memcpy(found->joined, one->joining, sizeof found->joined);
    of->join_arabic(one->types, one->length, one->levels, found->joined);
    memcpy(found->marked, found->joined, sizeof found->marked);
    memcpy(found->shaped, one->characters, sizeof found->shaped);
    of->shape(one->shaping, one->levels, one->length, found->marked, found->shaped);
}

/* Stores the compared results, of which shapes and joins are found apart from the others. */
static void ask(const calls *of, int call, const input *one, answer *found) {
    FriBidiParType plain_base = one->base;
    memset(found, 0, sizeof *found);
    if (call >= JOINS) {
        ask_shapes(of, one, found);
        return;
    }
    found->direction = of->get_par_direction(one->types, one->length);
    found->resolved = one->base;
    found->top = of->get_par_embedding_levels_ex(one->types, one->brackets, one->length, &found->resolved, found->levels);
    found->plain_top = of->get_par_embedding_levels(one->types, one->length, &plain_base, found->plain);
    memcpy(found->line, one->levels, sizeof found->line);
    for (int k = 0; k < MOST; k++) {
        found->string[k] = (FriBidiChar)(0x61 + k);
        found->map[k] = k;
    }
    found->line_top = of->reorder_line(one->flags, one->types, one->part, one->off, one->resolved, found->line, found->string, found->map);
}

static int differs(int call, const input *one) {
    answer a, b;
    ask(&ours, call, one, &b);
    ask(&theirs, call, one, &a);
    switch (call) {
    case DIRECTION: return a.direction != b.direction;
    case RESOLVED: return a.resolved != b.resolved;
    case LEVELS: return memcmp(a.levels, b.levels, sizeof a.levels) != 0 || memcmp(a.plain, b.plain, sizeof a.plain) != 0;
    case TOP: return a.top != b.top || a.plain_top != b.plain_top;
    case JOINS: return memcmp(a.joined, b.joined, sizeof a.joined) != 0;
    case SHAPES: return memcmp(a.shaped, b.shaped, sizeof a.shaped) != 0 || memcmp(a.marked, b.marked, sizeof a.marked) != 0;
    default:
        return a.line_top != b.line_top || memcmp(a.line, b.line, sizeof a.line) != 0 || memcmp(a.string, b.string, sizeof a.string) != 0
            || memcmp(a.map, b.map, sizeof a.map) != 0;
    }
}

static unsigned met(int call, const input *one) {
    unsigned bits = 0;
    for (int k = 0; k < PREDICATES; k++)
        if (predicates[k].call == call && predicates[k].holds(one)) bits |= 1u << k;
    return bits;
}

/* ---- Random lists ---- */

/* Returns the index of the first separator inside an open isolate, or -1. FriBidi writes to freed memory for
 * a list with such a separator, and may end the program for one that nests too deeply. So `draw` makes no
 * such lists. */
static int open_at_separator(const input *one) {
    for (int k = 0, open = 0; k < one->length; k++) {
        if (one->types[k] == FRIBIDI_TYPE_BS && open > 0) return k;
        if (is_initiator(one->types[k])) open++;
        else if (one->types[k] == FRIBIDI_TYPE_PDI && open > 0) open--;
    }
    return -1;
}

/* Sets the levels that are passed to both libraries for a line. These are the levels of our library, so both libraries
 * reorder the same line. */
static void prepare(input *one) {
    one->resolved = one->base;
    memset(one->levels, 0, sizeof one->levels);
    if (ours.get_par_embedding_levels_ex(one->types, one->brackets, one->length, &one->resolved, one->levels) == 0) exit(2);
}

/* Draws joining types and code points: letters, forms, marks, brackets and others. Draws no numbers from the list's own state. */
static void draw_joining(input *one) {
    static const FriBidiJoiningType types[] = {FRIBIDI_JOINING_TYPE_U, FRIBIDI_JOINING_TYPE_R, FRIBIDI_JOINING_TYPE_D, FRIBIDI_JOINING_TYPE_C,
                                               FRIBIDI_JOINING_TYPE_L, FRIBIDI_JOINING_TYPE_T, FRIBIDI_JOINING_TYPE_G};
    static const FriBidiChar some[] = {0x627, 0x622, 0x623, 0x625, 0x644, 0x633, 0x628, 0x6BA, 0x6CC, 0x621, 0x640, 0x64E, 0x200C, 0x200D, 0xFEDF, 0xFEE0,
                                       0xFE82, 0xFE84, 0xFE88, 0xFE8E, 0xFEFB, 0x64B, 0x651, 0x654, 0x670, 0xFE70, 0xFE76, 0xFE77, 0xFE7C, 0xFE7D, 0xFE8D, 0x600, 0x6FF, 0x700, 0x5FF, 'a', '(', 0x5D0, 0x110000};
    uint64_t own = state;
    uint32_t kinds = below(3);
    state ^= UINT64_C(0x9E3779B97F4A7C15);
    one->shaping = (below(2) ? FRIBIDI_FLAG_SHAPE_MIRRORING : 0) | (below(4) ? FRIBIDI_FLAG_SHAPE_ARAB_PRES : 0) | (below(4) ? FRIBIDI_FLAG_SHAPE_ARAB_LIGA : 0)
        | (below(2) ? FRIBIDI_FLAG_SHAPE_ARAB_CONSOLE : 0);
    for (int k = 0; k < one->length; k++) {
        one->characters[k] = below(8) ? some[below(sizeof some / sizeof *some)] : below(0x2000);
        one->joining[k] = kinds == 1 ? ours.get_joining_type(one->characters[k]) : types[below(7)];
        if (kinds == 0 && below(4) == 0) one->joining[k] = (FriBidiArabicProp)below(256);
    }
    state = own;
}

static void draw(input *one) {
    static const FriBidiChar pairs[][2] = {{'(', ')'}, {'[', ']'}, {0x2329, 0x232A}, {0x3008, 0x3009}};
    uint32_t kinds = below(2) ? 23 : STAYING, few = below(3);
    one->length = 1 + (int)below(few == 0 ? 8 : few == 1 ? 40 : MOST);
    one->base = all_bases[below(5)];
    one->flags = below(2) ? FRIBIDI_FLAG_REORDER_NSM : 0;
    FriBidiCharType common[6];
    for (int k = 0; k < 6; k++) common[k] = all_types[below(kinds)];
    int mixed = (int)below(2);
    for (int k = 0; k < one->length; k++) {
        one->types[k] = mixed ? all_types[below(kinds)] : common[below(6)];
        one->brackets[k] = FRIBIDI_NO_BRACKET;
        if (one->types[k] == FRIBIDI_TYPE_BS && below(4) != 0) one->types[k] = FRIBIDI_TYPE_ON;
        if (one->types[k] == FRIBIDI_TYPE_ON && below(2)) one->brackets[k] = ours.get_bracket(pairs[below(4)][below(2)]);
    }
    for (int at; (at = open_at_separator(one)) >= 0;) one->types[at] = FRIBIDI_TYPE_SS;
    while (too_deep(one)) one->length--;
    one->off = (int)below((uint32_t)one->length);
    one->part = 1 + (int)below((uint32_t)(one->length - one->off));
    if (below(2)) one->off = 0, one->part = one->length;
    prepare(one);
    draw_joining(one);
}

/* ---- Shrinking an input on which the results differ ---- */

static void drop(input *one, int at) {
    memmove(one->types + at, one->types + at + 1, sizeof *one->types * (size_t)(one->length - at - 1));
    memmove(one->brackets + at, one->brackets + at + 1, sizeof *one->brackets * (size_t)(one->length - at - 1));
    memmove(one->joining + at, one->joining + at + 1, sizeof *one->joining * (size_t)(one->length - at - 1));
    memmove(one->characters + at, one->characters + at + 1, sizeof *one->characters * (size_t)(one->length - at - 1));
    one->length--;
    if (at < one->off) one->off--;
    else if (at < one->off + one->part) one->part--;
}

static void shorten(int call, input *one) {
    for (int again = 1; again;) {
        again = 0;
        for (int at = 0; at < one->length && one->length > 1; at++) {
            input other = *one;
            drop(&other, at);
            prepare(&other);
            if (open_at_separator(&other) < 0 && !too_deep(&other) && other.part > 0 && differs(call, &other) && met(call, &other) == 0) {
                *one = other;
                again = 1;
                at--;
            }
        }
    }
}

static void show(int call, const input *one) {
    answer a, b;
    ask(&ours, call, one, &b);
    ask(&theirs, call, one, &a);
    printf("%s: base %s, line %d+%d, flags %u:", call_names[call], theirs.get_bidi_type_name((FriBidiCharType)one->base), one->off, one->part, (unsigned)one->flags);
    for (int k = 0; k < one->length; k++) {
        printf(" %s", theirs.get_bidi_type_name(one->types[k]));
        if (one->brackets[k]) printf("(%x)", (unsigned)one->brackets[k]);
        if (call >= JOINS) printf(" [joining %x, U+%04X]", one->joining[k], (unsigned)one->characters[k]);
    }
    for (int k = 0; k < 2; k++) {
        const answer *f = k == 0 ? &a : &b;
        printf("\n  %s direction %s, base %s, answer %d %d %d, levels", k == 0 ? "FriBidi:" : "ours:   ", theirs.get_bidi_type_name((FriBidiCharType)f->direction),
               theirs.get_bidi_type_name((FriBidiCharType)f->resolved), f->top, f->plain_top, f->line_top);
        for (int i = 0; i < one->length; i++) printf(" %d", f->levels[i]);
        printf(", plain");
        for (int i = 0; i < one->length; i++) printf(" %d", f->plain[i]);
        printf(", line");
        for (int i = 0; i < one->length; i++) printf(" %d", f->line[i]);
        printf(", map");
        for (int i = 0; i < one->length; i++) printf(" %d", f->map[i]);
        if (call >= JOINS) printf(", joins");
        for (int i = 0; call >= JOINS && i < one->length; i++) printf(" %x", f->joined[i]);
        if (call >= JOINS) printf(", shapes");
        for (int i = 0; call >= JOINS && i < one->length; i++) printf(" %x:%x", (unsigned)f->shaped[i], f->marked[i]);
    }
    printf("\n");
}

int main(int argc, char **argv) {
    long count = argc > 2 ? atol(argv[2]) : 0, wrong = 0, agree = 0, alone[32] = {0}, alone_differ[32] = {0}, all[32] = {0}, compared[CALLS] = {0};
    long shown[CALLS] = {0};
    if (count <= 0) return 2;
    theirs = calls_of("libfribidi.so.0");
    ours = calls_of(argv[1]);
    state = argc > 3 ? (uint64_t)atoll(argv[3]) : UINT64_C(88172645463325252);
    for (long n = 0; n < count; n++) {
        input one;
        memset(&one, 0, sizeof one);
        draw(&one);
        if (!separator_inside(&one)) { /* our levels must equal those of reference.h, by UAX #9 */
            int annex[MOST], same = 1;
            plain_levels(&one, 0, annex);
            for (int k = 0; k < one.length; k++) same = same && annex[k] == one.levels[k];
            agree += same, wrong += !same;
            if (!same && shown[0]++ < 3) printf("the levels of reference.h differ: "), show(LEVELS, &one);
        }
        for (int call = 0; call < CALLS; call++) {
            unsigned bits = met(call, &one);
            int differ = differs(call, &one);
            compared[call]++;
            for (int k = 0; k < PREDICATES; k++) {
                if (bits >> k & 1) all[k]++;
                if (bits == 1u << k) alone[k]++, alone_differ[k] += differ;
            }
            if (bits == 0 && differ) {
                wrong++;
                if (shown[call]++ < 5) {
                    input shorter = one;
                    shorten(call, &shorter);
                    show(call, &shorter);
                }
            } else {
                agree += bits == 0;
            }
        }
    }
    for (int k = 0; k < PREDICATES; k++) {
        int cloak = 2 * alone_differ[k] < alone[k];
        printf("%s: %s: met by %ld of %ld lists (%.2f%%), alone by %ld, of which %ld differ\n", call_names[predicates[k].call], predicates[k].name, all[k], count,
               100.0 * (double)all[k] / (double)count, alone[k], alone_differ[k]);
        if (cloak) printf("%s: too few of them differ\n", predicates[k].name), wrong++;
    }
    printf("%ld passed, %ld failed\n", agree, wrong);
    return wrong != 0;
}
