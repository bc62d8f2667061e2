/* The rows of the table in docs/fribidi-compat.md. Each row is a predicate on the input alone: the types, the brackets, the requested base
 * direction, and the levels and the direction that are passed for a line. */
typedef struct predicate {
    const char *name;
    int call;
    int (*holds)(const input *);
} predicate;

static int is_strong(FriBidiCharType type) { return type == FRIBIDI_TYPE_LTR || type == FRIBIDI_TYPE_RTL || type == FRIBIDI_TYPE_AL; }
static int is_initiator(FriBidiCharType type) { return type == FRIBIDI_TYPE_LRI || type == FRIBIDI_TYPE_RLI || type == FRIBIDI_TYPE_FSI; }
static int is_isolate(FriBidiCharType type) { return is_initiator(type) || type == FRIBIDI_TYPE_PDI; }
static int is_removed(FriBidiCharType type) {
    return type == FRIBIDI_TYPE_BN || type == FRIBIDI_TYPE_LRE || type == FRIBIDI_TYPE_RLE || type == FRIBIDI_TYPE_LRO || type == FRIBIDI_TYPE_RLO
        || type == FRIBIDI_TYPE_PDF;
}

/* Returns the direction of the first strong type, or 0 if there is none. If `outside`, only types outside all isolates count. */
static unsigned first_direction(const input *one, int outside) {
    int depth = 0;
    for (int k = 0; k < one->length; k++) {
        FriBidiCharType type = one->types[k];
        if (is_strong(type) && !(outside && depth > 0)) return type == FRIBIDI_TYPE_LTR ? FRIBIDI_PAR_LTR : FRIBIDI_PAR_RTL;
        if (is_initiator(type)) depth++;
        else if (type == FRIBIDI_TYPE_PDI && depth > 0) depth--;
    }
    return 0;
}

/* P2 skips isolates. FriBidi's fribidi_get_par_direction does not. This predicate holds if skipping them
 * changes the direction. */
static int first_strong_in_isolate(const input *one) { return first_direction(one, 0) != first_direction(one, 1); }

/* By P3, even a paragraph without strong characters has a level. FriBidi returns the requested weak direction
 * instead. */
static int no_strong(const input *one) { return one->base != FRIBIDI_PAR_LTR && one->base != FRIBIDI_PAR_RTL && first_direction(one, 1) == 0; }

/* P1: a separator ends a paragraph. If a list continues after a separator, our library still treats it as one
 * paragraph. FriBidi continues at level 0, with no open embedding or isolate. */
static int separator_inside(const input *one) {
    for (int k = 0; k + 1 < one->length; k++)
        if (one->types[k] == FRIBIDI_TYPE_BS) return 1;
    return 0;
}

#include "reference.h"

/* Whether the deviation `way` of reference.h, alone or with all others, changes a level or, if `greatest` is
 * set, the greatest level. */
static int changes(const input *one, int way, int greatest) {
    input plain = *one; /* for the function that takes no brackets */
    memset(plain.brackets, 0, sizeof plain.brackets);
    for (int k = 0; k < 4; k++) {
        int with[MOST], without[MOST], others = k & 1 ? ALL & ~way : 0;
        const input *asked = k & 2 ? &plain : one;
        int a = plain_levels(asked, others | way, with), b = plain_levels(asked, others, without);
        if (greatest ? a != b : memcmp(with, without, sizeof *with * (size_t)one->length) != 0) return 1;
    }
    return 0;
}

/* Whether an opening bracket in one isolate may be paired with a closing bracket of the same number in a later isolate of the same depth.
 * Some character of this depth between them must have another level than the opening bracket, or some
 * character between the isolates must not be neutral. At least one of the two brackets must have level
 * `least` or above. */
static int pair_over_isolates(const input *one, int least) {
    static plain p;
    int isolate[MOST];
    find_matches(one, &p);
    find_explicit(one, (int)one->resolved & 1, 0, &p);
    find_isolates(one, &p, 0, isolate);
    for (int i = 0; i < one->length; i++)
        for (int k = i + 1, other = 0; FRIBIDI_IS_BRACKET_OPEN(one->brackets[i]) && k < one->length; k++) {
            if (p.depth[k] > p.depth[i] || is_removed(one->types[k])) continue;
            other |= p.depth[k] < p.depth[i] ? !is_neutral(p.type[k]) : p.level[k] != p.level[i];
            if (other && p.depth[k] == p.depth[i] && isolate[k] != isolate[i] && one->brackets[k] != 0
                && one->brackets[k] == FRIBIDI_BRACKET_ID(one->brackets[i]) && (p.level[k] >= least || p.level[i] >= least)) return 1;
        }
    return 0;
}

/* BD13: each isolate is a separate sequence, and an FSI takes its direction from its own isolate (X5c). FriBidi treats
 * all isolates at the same depth as one sequence. */
static int joined(const input *one, int greatest) {
    return changes(one, AS_ONE, greatest) || changes(one, LATER, greatest) || changes(one, AS_ONE | LATER, greatest);
}
static int isolates_as_one(const input *one) { return joined(one, 0) || pair_over_isolates(one, 0); }
static int isolates_as_one_top(const input *one) {
    int annex[MOST], greatest = plain_levels(one, 0, annex);
    return joined(one, 1) || pair_over_isolates(one, greatest);
}

/* X1 to X8: whether an embedding, override or isolate overflows at base level 0 or 1. */
static int too_deep(const input *one) {
    static plain p;
    for (int base = 0; base < 2; base++) {
        find_matches(one, &p);
        find_explicit(one, base, 0, &p);
        if (p.too_deep) return 1;
    }
    return 0;
}

/* N0: the strong type before a pair is looked up in the pair's sequence. If there is none, sos is used. FriBidi also
 * searches the characters before the sequence. */
static int context_before_run(const input *one) { return changes(one, CONTEXT, 0); }
static int context_before_run_top(const input *one) { return changes(one, CONTEXT, 1); }

/* BD14: FriBidi ignores a bracket right after a mark of a neutral character. */
static int bracket_after_mark(const input *one) { return changes(one, MERGED, 0); }
static int bracket_after_mark_top(const input *one) { return changes(one, MERGED, 1); }

/* X6a: an override changes the type of each PDI. In FriBidi, an unmatched PDI keeps its type, so its direction comes
 * from the runs next to it. */
static int pdi_between_runs(const input *one) { return changes(one, BARE, 0); }
static int pdi_between_runs_top(const input *one) { return changes(one, BARE, 1); }

/* L1: isolate initiators and PDIs at a line's end are also reset to the paragraph level. FriBidi's fribidi_reorder_line
 * does not reset these, or the spaces before them. */
static int isolate_at_end(const input *one) {
    int level = (int)one->resolved & 1, has_isolate = 0;
    for (int k = one->off + one->part - 1; k >= one->off; k--) {
        FriBidiCharType type = one->types[k];
        if (!is_isolate(type) && !is_removed(type) && type != FRIBIDI_TYPE_WS) return 0;
        has_isolate |= is_isolate(type);
        if (has_isolate && one->levels[k] != level) return 1;
    }
    return 0;
}

/* L3 applies to marks that follow a base. FriBidi also puts marks without a base into reading order. */
static int has_base(const input *one, const FriBidiLevel *levels, int k) {
    for (; k > one->off && levels[k] == levels[k - 1] && (levels[k] & 1); k--)
        if (one->types[k - 1] != FRIBIDI_TYPE_NSM) return 1;
    return 0;
}

static int marks_without_base(const input *one) {
    if (!(one->flags & FRIBIDI_FLAG_REORDER_NSM)) return 0;
    for (int k = one->off; k + 1 < one->off + one->part; k++)
        if (one->types[k] == FRIBIDI_TYPE_NSM && one->types[k + 1] == FRIBIDI_TYPE_NSM && (one->levels[k] & 1) && one->levels[k] == one->levels[k + 1]
            && !has_base(one, one->levels, k)) return 1;
    return 0;
}

/* L3: a mark's base directly precedes it. To find it, FriBidi skips characters that X9 removes. */
static int mark_after_removed(const input *one) {
    if (!(one->flags & FRIBIDI_FLAG_REORDER_NSM)) return 0;
    for (int k = one->off; k + 1 < one->off + one->part; k++)
        if (is_removed(one->types[k]) && one->types[k + 1] == FRIBIDI_TYPE_NSM && (one->levels[k] & 1) && one->levels[k] == one->levels[k + 1]) return 1;
    return 0;
}

static const predicate predicates[] = {
    {"first_strong_in_isolate", DIRECTION, first_strong_in_isolate}, {"no_strong", RESOLVED, no_strong},
    {"separator_inside", LEVELS, separator_inside}, {"separator_inside", TOP, separator_inside},
    {"isolates_as_one", LEVELS, isolates_as_one}, {"isolates_as_one", TOP, isolates_as_one_top},
    {"context_before_run", LEVELS, context_before_run}, {"context_before_run", TOP, context_before_run_top},
    {"bracket_after_mark", LEVELS, bracket_after_mark}, {"bracket_after_mark", TOP, bracket_after_mark_top},
    {"pdi_between_runs", LEVELS, pdi_between_runs}, {"pdi_between_runs", TOP, pdi_between_runs_top},
    {"isolate_at_end", LINE, isolate_at_end}, {"marks_without_base", LINE, marks_without_base}, {"mark_after_removed", LINE, mark_after_removed},
};
#define PREDICATES ((int)(sizeof predicates / sizeof *predicates))
