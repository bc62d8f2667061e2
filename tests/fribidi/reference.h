/* Finds the levels of UAX #9, rule by rule, for the predicates. Each bit of `ways` selects a deviation of
 * FriBidi:
 *
 * - AS_ONE: all isolates at the same depth form one sequence, in logical order. Brackets are paired across its runs, except across adjacent runs.
 *   A pair takes the level of its opening bracket. A mark at the start of a later isolate becomes ON, so the characters after it do not
 *   get the last type of the previous isolate. After an EN that W2 changes, the mark becomes AN. If an override changes the initiator, the mark
 *   stays NSM and counts as L.
 * - LATER: an FSI whose isolate has no strong type takes its direction from a later isolate of its depth.
 * - DEEP: an overflow isolate increases the isolate depth. An isolate whose level is at most 125 is valid even after an overflow.
 * - CONTEXT: the search for the strong type before a pair of brackets continues before the level run.
 * - MERGED: a neutral directly after a neutral's marks is merged with that neutral. The merged neutral does not count
 *   as a bracket, and gets the direction of a bracket before it.
 * - BARE: an unmatched PDI keeps its type under an override.
 *
 * A list has no separator except at its end. */
#ifndef TESTS_PLAIN_H
#define TESTS_PLAIN_H

enum { DEEPEST = 125, AS_ONE = 1, DEEP = 2, CONTEXT = 4, MERGED = 8, BARE = 16, LATER = 32, ALL = 63 };

typedef struct plain {
    int too_deep; /* whether an embedding, override or isolate overflows */
    int level[MOST], depth[MOST], opened[MOST], match[MOST]; /* per character; `match` is the PDI of an initiator or the initiator of a PDI, or -1 */
    FriBidiCharType type[MOST];
} plain;

static int is_rtl(int level) { return level & 1; }
static FriBidiCharType direction(int level) { return is_rtl(level) ? FRIBIDI_TYPE_RTL : FRIBIDI_TYPE_LTR; }

static void find_matches(const input *one, plain *p) {
    int open[MOST], count = 0;
    for (int k = 0; k < one->length; k++) {
        p->match[k] = -1;
        if (is_initiator(one->types[k])) open[count++] = k;
        else if (one->types[k] == FRIBIDI_TYPE_PDI && count > 0) p->match[k] = open[--count], p->match[open[count]] = k;
    }
}

/* Returns the level that P3 derives from the first strong type between a position and the isolate's end, or
 * -1 if there is none. If `joined` is set, also searches later isolates of the same depth. */
static int first_level(const input *one, const plain *p, int from, int joined) {
    int depth = 0, end = from > 0 && p->match[from - 1] >= 0 ? p->match[from - 1] : one->length;
    for (int k = from; k < (joined ? one->length : end); k++) {
        FriBidiCharType type = one->types[k];
        if (is_strong(type) && depth == 0) return type != FRIBIDI_TYPE_LTR;
        if (is_initiator(type)) depth++;
        else if (type == FRIBIDI_TYPE_PDI) depth--;
    }
    return -1;
}

/* X1 to X8. */
static void find_explicit(const input *one, int base, int ways, plain *p) {
    struct { int level, isolate; FriBidiCharType override; } stack[DEEPEST + 2] = {{base, 0, 0}};
    int top = 0, isolates = 0, embeddings = 0, valid = 0;
    p->too_deep = 0;
    for (int k = 0; k < one->length; k++) {
        FriBidiCharType type = one->types[k];
        int opens = type == FRIBIDI_TYPE_LRE || type == FRIBIDI_TYPE_RLE || type == FRIBIDI_TYPE_LRO || type == FRIBIDI_TYPE_RLO;
        if (type == FRIBIDI_TYPE_PDI) {
            if (isolates > 0) {
                isolates--;
            } else if (valid > 0) {
                embeddings = 0;
                while (!stack[top].isolate) top--;
                top--, valid--;
            }
        }
        p->level[k] = stack[top].level, p->depth[k] = valid + (ways & DEEP ? isolates : 0);
        p->type[k] = type;
        p->opened[k] = 0;
        if (stack[top].override && !is_removed(type) && type != FRIBIDI_TYPE_BS && !(ways & BARE && type == FRIBIDI_TYPE_PDI && p->match[k] < 0))
            p->type[k] = stack[top].override;
        if (opens || is_initiator(type)) {
            int rtl = type == FRIBIDI_TYPE_RLE || type == FRIBIDI_TYPE_RLO || type == FRIBIDI_TYPE_RLI
                || (type == FRIBIDI_TYPE_FSI && first_level(one, p, k + 1, ways & LATER) == 1);
            int level = rtl ? (stack[top].level + 1) | 1 : (stack[top].level + 2) & ~1;
            if (level <= DEEPEST && ((isolates == 0 && embeddings == 0) || (!opens && ways & DEEP))) {
                top++, valid += !opens, p->opened[k] = !opens;
                stack[top].level = level, stack[top].isolate = !opens;
                stack[top].override = type == FRIBIDI_TYPE_LRO ? FRIBIDI_TYPE_LTR : type == FRIBIDI_TYPE_RLO ? FRIBIDI_TYPE_RTL : 0;
            } else {
                p->too_deep = 1;
                if (!opens) isolates++;
                else if (isolates == 0) embeddings++;
            }
        } else if (type == FRIBIDI_TYPE_PDF && isolates == 0) {
            if (embeddings > 0) embeddings--;
            else if (top > 0 && !stack[top].isolate) top--;
        } else if (type == FRIBIDI_TYPE_BS) {
            p->level[k] = base;
        }
    }
}

/* ---- One sequence ---- */

typedef struct sequence {
    int count, at[MOST], level;
    FriBidiCharType sos, eos, before; /* `before`: the last strong type in the earlier runs, or 0 (N0) */
    FriBidiCharType was[MOST], marked[MOST], type[MOST]; /* the types before W1, after it, and now */
    FriBidiCharType opener[MOST]; /* for each character, the type of the initiator right before it, or 0 */
} sequence;

static int is_neutral(FriBidiCharType type) {
    return type == FRIBIDI_TYPE_BS || type == FRIBIDI_TYPE_SS || type == FRIBIDI_TYPE_WS || type == FRIBIDI_TYPE_ON || is_isolate(type);
}
static int is_any(FriBidiCharType type, FriBidiCharType a, FriBidiCharType b, FriBidiCharType c) { return type == a || type == b || type == c; }

/* Applies W1 to a mark at the start of an isolate that is joined with the isolate before it. The marks after
 * this mark get its new type. Unless this type is AN, the characters after these marks get it too, as long as
 * they have the last type of the previous isolate. */
static void join_mark(sequence *s, int k, int after_arabic) {
    FriBidiCharType *t = s->type, before = t[k - 1];
    FriBidiCharType own = before == FRIBIDI_TYPE_EN && after_arabic ? FRIBIDI_TYPE_AN : s->opener[k] != FRIBIDI_TYPE_ON ? FRIBIDI_TYPE_NSM : FRIBIDI_TYPE_ON;
    t[k] = own;
    for (k++; k < s->count && s->was[k] == FRIBIDI_TYPE_NSM && s->opener[k] == 0; k++) t[k] = own;
    for (; own != FRIBIDI_TYPE_AN && k < s->count && t[k] == before && s->opener[k] == 0; k++) t[k] = own;
}

static void weak(sequence *s, int ways) {
    FriBidiCharType *t = s->type, strong = s->sos;
    for (int k = 0, arabic = 0, joined[MOST] = {0}; k < s->count; k++) { /* W1 */
        if (is_strong(t[k])) arabic = t[k] == FRIBIDI_TYPE_AL;
        if (t[k] != FRIBIDI_TYPE_NSM || joined[k]) continue;
        if (k > 0 && ways & AS_ONE && s->opener[k]) {
            join_mark(s, k, arabic);
            for (int i = k; i < s->count && t[i] == FRIBIDI_TYPE_NSM; i++) joined[i] = 1;
        } else {
            t[k] = k == 0 ? s->sos : is_isolate(t[k - 1]) ? FRIBIDI_TYPE_ON : t[k - 1];
        }
    }
    memcpy(s->marked, t, sizeof *t * (size_t)s->count);
    for (int k = 0; k < s->count; k++) { /* W2 */
        if (is_strong(t[k])) strong = t[k];
        if (t[k] == FRIBIDI_TYPE_EN && strong == FRIBIDI_TYPE_AL) t[k] = FRIBIDI_TYPE_AN;
    }
    for (int k = 0; k < s->count; k++) /* W3 */
        if (t[k] == FRIBIDI_TYPE_AL) t[k] = FRIBIDI_TYPE_RTL;
    for (int k = 1; k + 1 < s->count; k++) /* W4 */
        if (t[k - 1] == t[k + 1] && ((t[k] == FRIBIDI_TYPE_CS && is_any(t[k - 1], FRIBIDI_TYPE_EN, FRIBIDI_TYPE_AN, FRIBIDI_TYPE_EN))
            || (t[k] == FRIBIDI_TYPE_ES && t[k - 1] == FRIBIDI_TYPE_EN))) t[k] = t[k - 1];
    for (int k = 0, end; k < s->count; k = end + 1) { /* W5 */
        for (end = k; end < s->count && t[end] == FRIBIDI_TYPE_ET; end++) {}
        if ((k > 0 && t[k - 1] == FRIBIDI_TYPE_EN) || (end < s->count && t[end] == FRIBIDI_TYPE_EN))
            for (int i = k; i < end; i++) t[i] = FRIBIDI_TYPE_EN;
    }
    for (int k = 0; k < s->count; k++) /* W6 */
        if (is_any(t[k], FRIBIDI_TYPE_ES, FRIBIDI_TYPE_ET, FRIBIDI_TYPE_CS)) t[k] = FRIBIDI_TYPE_ON;
    strong = s->sos;
    for (int k = 0; k < s->count; k++) { /* W7 */
        if (is_strong(t[k])) strong = t[k];
        if (t[k] == FRIBIDI_TYPE_EN && strong == FRIBIDI_TYPE_LTR) t[k] = FRIBIDI_TYPE_LTR;
    }
}

/* Returns the direction of a type for N0 to N2: L, or R for R, EN and AN. Returns 0 for any other type. */
static FriBidiCharType seen(FriBidiCharType type) {
    if (type == FRIBIDI_TYPE_LTR) return type;
    return is_any(type, FRIBIDI_TYPE_RTL, FRIBIDI_TYPE_EN, FRIBIDI_TYPE_AN) ? FRIBIDI_TYPE_RTL : 0;
}

static void set_bracket(const input *one, sequence *s, int k, FriBidiCharType type, int ways) {
    int marks = 0;
    s->type[k] = type;
    for (k++; k < s->count && s->was[k] == FRIBIDI_TYPE_NSM; k++) s->type[k] = type, marks = 1;
    for (int first = 1; ways & MERGED && marks && k < s->count && s->was[k] == FRIBIDI_TYPE_ON && (first || one->brackets[s->at[k]] == 0); k++) s->type[k] = type, first = 0;
}

/* Applies N0 to the first `many` of `runs`, as if they were one sequence. */
static void pair_brackets(const input *one, sequence *runs, int many, int ways) {
    int open[63], opened = 0, count = 0, closer[MOST], place[MOST];
    sequence *of[MOST];
    for (int r = 0; r < many; r++)
        for (int k = 0; k < runs[r].count; k++) of[count] = &runs[r], place[count] = k, closer[count++] = -1;
    for (int n = 0; n < count; n++) {
        sequence *s = of[n];
        int k = place[n];
        FriBidiBracketType bracket = s->type[k] == FRIBIDI_TYPE_ON ? one->brackets[s->at[k]] : 0;
        if (ways & MERGED && k > 0 && s->was[k - 1] == FRIBIDI_TYPE_NSM && s->marked[k - 1] == FRIBIDI_TYPE_ON && s->type[k - 1] == FRIBIDI_TYPE_ON) bracket = 0;
        if (bracket == 0) continue;
        if (FRIBIDI_IS_BRACKET_OPEN(bracket)) {
            if (opened == 63) break;
            open[opened++] = n;
        } else {
            for (int i = opened - 1; i >= 0; i--)
                if (FRIBIDI_BRACKET_ID(one->brackets[of[open[i]]->at[place[open[i]]]]) == bracket) {
                    closer[open[i]] = n, opened = i;
                    break;
                }
        }
    }
    for (int n = 0; n < count; n++) {
        sequence *s = of[n];
        FriBidiCharType own = direction(s->level), inside = 0, before = ways & CONTEXT && s->before ? s->before : s->sos;
        if (closer[n] < 0) continue;
        for (int i = n + 1; i < closer[n] && inside != own; i++)
            if (seen(of[i]->type[place[i]])) inside = seen(of[i]->type[place[i]]);
        if (inside == 0) continue;
        if (inside != own) {
            for (int i = 0; i < n; i++)
                if ((of[i] == s || ways & CONTEXT) && seen(of[i]->type[place[i]])) before = seen(of[i]->type[place[i]]);
            inside = before == inside ? inside : own;
        }
        set_bracket(one, s, place[n], inside, ways), set_bracket(one, of[closer[n]], place[closer[n]], inside, ways);
    }
}

/* Returns the direction of a type for N1, as `seen` does. But an NSM that remains after W1 stays NSM, since
 * it has no direction. */
static FriBidiCharType side_of(FriBidiCharType type) { return type == FRIBIDI_TYPE_NSM ? type : seen(type); }

static void resolve(sequence *s, int *levels) {
    for (int k = 0, end; k < s->count; k = end + 1) { /* N1, N2 */
        for (end = k; end < s->count && is_neutral(s->type[end]); end++) {}
        FriBidiCharType before = k == 0 ? s->sos : side_of(s->type[k - 1]), after = end == s->count ? s->eos : side_of(s->type[end]);
        for (int i = k; i < end; i++) s->type[i] = before == after ? before : direction(s->level);
    }
    for (int k = 0; k < s->count; k++) { /* I1, I2 */
        FriBidiCharType type = s->type[k];
        int up = is_rtl(s->level) ? type != FRIBIDI_TYPE_RTL : type == FRIBIDI_TYPE_RTL ? 1 : type == FRIBIDI_TYPE_LTR || type == FRIBIDI_TYPE_NSM ? 0 : 2;
        levels[s->at[k]] = s->level + up;
    }
}

/* ---- All sequences ---- */

static int higher(int a, int b) { return a > b ? a : b; }

/* Returns the index of the next character, in the direction `step`, that X9 does not remove, or -1. */
static int beside(const input *one, int k, int step) {
    for (k += step; k >= 0 && k < one->length; k += step)
        if (!is_removed(one->types[k])) return k;
    return -1;
}

static void put(sequence *s, const input *one, const plain *p, int k) {
    int side = beside(one, k, -1);
    s->opener[s->count] = side < 0 || !p->opened[side] ? 0 : is_strong(p->type[side]) ? p->type[side] : FRIBIDI_TYPE_ON;
    s->at[s->count] = k;
    s->was[s->count] = s->type[s->count] = p->type[k];
    s->level = p->level[k];
    s->count++;
}

/* Stores the isolate of each character: the index of the last initiator before it whose isolate has not
 * ended, or -1. With AS_ONE, stores the depth instead. */
static void find_isolates(const input *one, const plain *p, int ways, int *isolate) {
    int open[MOST + 1] = {-1}, count = 0;
    for (int k = 0; k < one->length; k++) {
        FriBidiCharType type = one->types[k];
        int closes = type == FRIBIDI_TYPE_PDI && p->match[k] >= 0 && p->opened[p->match[k]];
        if (closes) count--;
        isolate[k] = ways & AS_ONE ? p->depth[k] : open[count];
        if (p->opened[k]) open[++count] = k;
    }
}

/* Sets sos and eos of a run, and applies W1 to W7. Returns its last direction or, if it has none, `last`. */
static FriBidiCharType end_run(sequence *s, FriBidiCharType last, int before, int after, int ways) {
    s->sos = direction(higher(s->level, before)), s->eos = direction(higher(s->level, after)), s->before = last;
    weak(s, ways);
    for (int k = 0; k < s->count; k++)
        if (seen(s->type[k])) last = seen(s->type[k]);
    return last;
}

/* Whether `next` directly follows `s`, or only characters that X9 removes are between them. */
static int follows(const input *one, const sequence *s, const sequence *next) { return beside(one, s->at[s->count - 1], 1) == next->at[0]; }

static void resolve_runs(const input *one, const plain *p, int base, int ways, int *levels) {
    static sequence runs[MOST];
    int isolate[MOST], done[MOST] = {0}, count = 0;
    find_isolates(one, p, ways, isolate);
    for (int first = 0; first < one->length; first++) {
        if (done[first] || is_removed(one->types[first])) continue;
        int side = beside(one, first, -1), before = ways & AS_ONE || side < 0 ? base : p->level[side], from = count;
        FriBidiCharType last = 0;
        runs[count].count = 0;
        for (int k = first; k < one->length; k++) {
            if (isolate[k] != isolate[first] || is_removed(one->types[k])) continue;
            done[k] = 1;
            if (runs[count].count > 0 && p->level[k] != runs[count].level) {
                last = end_run(&runs[count], last, before, p->level[k], ways);
                before = runs[count++].level;
                runs[count].count = 0;
            }
            put(&runs[count], one, p, k);
        }
        /* cppcheck-suppress negativeIndex ; the run has at least `first` */
        int end = runs[count].at[runs[count].count - 1], after = ways & AS_ONE || is_initiator(one->types[end]) ? -1 : beside(one, end, 1);
        end_run(&runs[count], last, before, after < 0 ? base : p->level[after], ways);
        count++;
        for (int r = from, many; r < count; r += many) {
            for (many = 1; ways & AS_ONE && r + many < count && !follows(one, &runs[r + many - 1], &runs[r + many]); many++) {}
            pair_brackets(one, runs + r, many, ways);
        }
    }
    for (int r = 0; r < count; r++) resolve(&runs[r], levels);
}

/* Stores the levels after L1. Returns the greatest level before L1. */
static int plain_levels(const input *one, int ways, int *levels) {
    static plain p;
    int base = one->base == FRIBIDI_PAR_RTL, greatest, resets = 1;
    find_matches(one, &p);
    if (one->base != FRIBIDI_PAR_LTR && one->base != FRIBIDI_PAR_RTL) {
        int first = first_direction(one, 1) == FRIBIDI_PAR_LTR ? 0 : first_direction(one, 1) == 0 ? -1 : 1;
        base = first >= 0 ? first : one->base == FRIBIDI_PAR_WRTL;
    }
    find_explicit(one, base, ways, &p);
    resolve_runs(one, &p, base, ways, levels);
    greatest = base;
    for (int k = 0; k < one->length; k++) {
        if (is_removed(one->types[k])) levels[k] = k == 0 ? base : levels[k - 1];
        greatest = higher(greatest, levels[k]);
    }
    for (int k = one->length - 1; k >= 0; k--) {
        FriBidiCharType type = one->types[k];
        if (type == FRIBIDI_TYPE_SS || type == FRIBIDI_TYPE_BS) resets = 1;
        else if (!is_removed(type) && type != FRIBIDI_TYPE_WS && !is_isolate(type)) resets = 0;
        if (resets) levels[k] = base;
    }
    return greatest;
}

#endif
