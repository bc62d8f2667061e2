/* Compares the records that `hordguli_reasons` and `hordguli_break_reasons` store for random texts with the
 * results of other calls, and checks what the header states about each field. Usage: reasons TEXTS, where
 * TEXTS is the number of texts for the tables of each version. */
#include "test.h"

enum { MOST = 400, PIECES = 40, NO_CLASS = 0xFF, CLASSES = 11, OPEN = 63 };
#define NO_POSITION UINT32_MAX
#define OK(call) HOLDS((call) == HORDGULI_OK)
#define BIDI(name) HORDGULI_BIDI_CLASS_##name
#define LINE(name) HORDGULI_LINE_CLASS_##name

static hordguli_tables tables;
static uint32_t text[MOST], base;
static size_t length;
static uint8_t levels[MOST], marks[MOST];
static hordguli_character characters[MOST];
static hordguli_reason reasons[MOST];
static hordguli_break_reason breaks[MOST];

/* ---- Levels ---- */

static int is_in(uint8_t class, const uint8_t *classes, size_t size) { return memchr(classes, class, size) != NULL; }
#define IS_IN(class, ...) is_in(class, (const uint8_t[]){__VA_ARGS__}, sizeof((const uint8_t[]){__VA_ARGS__}))

static int is_opener(uint8_t class) {
    return IS_IN(class, BIDI(LRE), BIDI(RLE), BIDI(LRO), BIDI(RLO), BIDI(LRI), BIDI(RLI), BIDI(FSI));
}

static int is_initiator(uint8_t class) { return IS_IN(class, BIDI(LRI), BIDI(RLI), BIDI(FSI)); }

static int is_strong(uint8_t class) { return IS_IN(class, BIDI(L), BIDI(R), BIDI(EN), BIDI(AN)); }

/* Returns the direction (L or R) of a strong class, EN or AN. EN and AN count as R, as in N0 to N2. */
static uint8_t direction_of(uint8_t class) { return class == BIDI(L) ? BIDI(L) : BIDI(R); }

static uint8_t direction_of_level(uint8_t level) { return level % 2 == 0 ? BIDI(L) : BIDI(R); }

static int is_removed(size_t k) { return reasons[k].sequence == NO_POSITION; }

/* Returns whether a position exists and is below a bound. */
static int is_below(uint32_t position, size_t bound) { return position != NO_POSITION && position < bound; }

/* X1 to X8: the embedding, override or isolate around a character. A separator inside it still has the base
 * level. */
static void opener_is_right(size_t k) {
    const hordguli_reason *reason = &reasons[k];
    uint8_t wanted = NO_CLASS;
    int is_at_base = reason->opener == NO_POSITION || reason->class_after[0] == BIDI(B);
    if (is_at_base) HOLDS(reason->embedding_level == base);
    if (reason->opener != NO_POSITION && HOLDS(reason->opener < k)) {
        uint8_t class = reasons[reason->opener].class_after[0];
        HOLDS(is_opener(class) && (is_at_base || reason->embedding_level > reasons[reason->opener].embedding_level));
        wanted = class == BIDI(LRO) ? BIDI(L) : class == BIDI(RLO) ? BIDI(R) : NO_CLASS;
    }
    HOLDS(reason->override_class == wanted);
}

/* BD9: initiators and PDIs that match each other */
static void match_is_right(size_t k) {
    const hordguli_reason *reason = &reasons[k];
    if (reason->matching == NO_POSITION) return;
    if (!HOLDS(reason->matching < length && reasons[reason->matching].matching == k)) return;
    if (reason->matching > k)
        HOLDS(is_initiator(reason->class_after[0]) && reasons[reason->matching].class_after[0] == BIDI(PDI));
}

/* X9: a removed character has the level of the nearest kept character before it, or the base level. */
static void removed_is_right(size_t k) {
    const hordguli_reason *reason = &reasons[k];
    size_t before = k;
    while (before > 0 && is_removed(before - 1)) before--;
    HOLDS(reason->left == (before == 0 ? NO_POSITION : before - 1));
    HOLDS(reason->level == (before == 0 ? base : reasons[before - 1].level));
    HOLDS(reason->partner == NO_POSITION && reason->inside == NO_POSITION && reason->right == NO_POSITION);
    HOLDS(reason->sos == NO_CLASS && reason->eos == NO_CLASS && reason->bracket_case == 0 && reason->neutral == 0);
    for (size_t n = 1; n < CLASSES; n++) HOLDS(reason->class_after[n] == NO_CLASS);
}

/* X10: all characters of a sequence have the same level, sos and eos. */
static void sequence_is_right(size_t k) {
    const hordguli_reason *reason = &reasons[k], *first;
    if (!HOLDS(reason->sequence <= k)) return;
    first = &reasons[reason->sequence];
    HOLDS(first->sequence == reason->sequence && first->embedding_level == reason->embedding_level);
    HOLDS(first->sos == reason->sos && first->eos == reason->eos);
    HOLDS((reason->sos == BIDI(L) || reason->sos == BIDI(R)) && (reason->eos == BIDI(L) || reason->eos == BIDI(R)));
}

/* The classes after X8, each of W1 to W7, N0 and N2, and the level after I1 and I2 */
static void classes_are_right(size_t k) {
    const hordguli_reason *reason = &reasons[k];
    const uint8_t *after = reason->class_after;
    uint8_t level = reason->embedding_level, class = after[10];
    if (after[0] != BIDI(B) && reason->override_class != NO_CLASS) HOLDS(after[1] == reason->override_class);
    else if (after[0] == BIDI(FSI)) HOLDS(after[1] == BIDI(LRI) || after[1] == BIDI(RLI));
    else HOLDS(after[1] == after[0]);
    HOLDS(after[2] != BIDI(NSM));                                                        /* W1 */
    HOLDS(after[3] == after[2] || (after[2] == BIDI(EN) && after[3] == BIDI(AN)));       /* W2 */
    HOLDS(after[4] == (after[3] == BIDI(AL) ? BIDI(R) : after[3]));                      /* W3 */
    HOLDS(after[5] == after[4] || after[4] == BIDI(ES) || after[4] == BIDI(CS));         /* W4 */
    HOLDS(after[6] == after[5] || (after[5] == BIDI(ET) && after[6] == BIDI(EN)));       /* W5 */
    HOLDS(after[7] == (IS_IN(after[6], BIDI(ES), BIDI(ET), BIDI(CS)) ? BIDI(ON) : after[6])); /* W6 */
    HOLDS(after[8] == after[7] || (after[7] == BIDI(EN) && after[8] == BIDI(L)));        /* W7 */
    HOLDS(is_strong(class));
    HOLDS(reason->level == level + (level % 2 == 0 ? (class == BIDI(R) ? 1 : class == BIDI(L) ? 0 : 2) : class != BIDI(R)));
}

/* N0: a pair of brackets, and the strong character between them that determines their direction */
static void pair_is_right(size_t k) {
    const hordguli_reason *reason = &reasons[k], *partner;
    uint8_t embedding = direction_of_level(reason->embedding_level);
    size_t opener, closer;
    if (!HOLDS(reason->partner < length)) return;
    partner = &reasons[reason->partner];
    opener = k < reason->partner ? k : reason->partner;
    closer = k < reason->partner ? reason->partner : k;
    HOLDS(partner->partner == k && partner->sequence == reason->sequence && partner->inside == reason->inside);
    HOLDS(partner->bracket_case == reason->bracket_case && partner->class_after[9] == reason->class_after[9]);
    HOLDS(characters[opener].bracket == HORDGULI_BRACKET_OPEN && characters[closer].bracket == HORDGULI_BRACKET_CLOSE);
    HOLDS(reason->class_after[8] == BIDI(ON));
    if (reason->bracket_case == HORDGULI_BRACKET_CASE_D) {
        HOLDS(reason->inside == NO_POSITION && reason->class_after[9] == BIDI(ON));
        for (size_t m = opener + 1; m < closer; m++)
            HOLDS(reasons[m].sequence != reason->sequence || !is_strong(reasons[m].class_after[8]));
    } else if (HOLDS(reason->inside > opener && reason->inside < closer)) {
        uint8_t inside = direction_of(reasons[reason->inside].class_after[8]);
        HOLDS(reasons[reason->inside].sequence == reason->sequence && is_strong(reasons[reason->inside].class_after[8]));
        HOLDS((inside == embedding) == (reason->bracket_case == HORDGULI_BRACKET_CASE_B));
        HOLDS((reason->class_after[9] == embedding) == (reason->bracket_case != HORDGULI_BRACKET_CASE_C1));
        for (size_t m = opener + 1; m < reason->inside; m++) /* the first of its direction */
            if (reasons[m].sequence == reason->sequence && is_strong(reasons[m].class_after[8]))
                HOLDS(direction_of(reasons[m].class_after[8]) != inside);
    }
}

/* The characters U+2329 and U+3008 are canonically equivalent, and so are U+232A and U+3009. */
static uint32_t canonical(uint32_t c) { return c == 0x2329 || c == 0x232A ? c - 0x2329 + 0x3008 : c; }

/* BD16: the pairs of a sequence, and which brackets are past the limit */
static void pairs_are_right(size_t first) {
    size_t stack[OPEN], open = 0;
    int is_full = 0;
    for (size_t k = first; k < length; k++) {
        const hordguli_reason *reason = &reasons[k];
        size_t match = open;
        if (reason->sequence != first || reason->bracket_case == 0 || reason->class_after[8] != BIDI(ON)) continue;
        if (characters[k].bracket == HORDGULI_BRACKET_OPEN) {
            is_full |= open == OPEN;
            if (is_full) HOLDS(reason->bracket_case == HORDGULI_BRACKET_CASE_PAST_LIMIT);
            else stack[open++] = k;
            continue;
        }
        while (match > 0 && canonical(characters[stack[match - 1]].pair) != canonical(text[k])) match--;
        if (is_full) {
            HOLDS(reason->bracket_case == HORDGULI_BRACKET_CASE_PAST_LIMIT);
        } else if (match == 0) {
            HOLDS(reason->bracket_case == HORDGULI_BRACKET_CASE_NO_MATCH);
        } else {
            HOLDS(reason->partner == stack[match - 1]);
            for (size_t m = match; m < open; m++) HOLDS(reasons[stack[m]].bracket_case == HORDGULI_BRACKET_CASE_NO_MATCH);
            open = match - 1;
        }
    }
    for (size_t m = 0; m < open; m++)
        HOLDS(reasons[stack[m]].bracket_case == (is_full ? HORDGULI_BRACKET_CASE_PAST_LIMIT : HORDGULI_BRACKET_CASE_NO_MATCH));
}

static void bracket_is_right(size_t k) {
    const hordguli_reason *reason = &reasons[k];
    HOLDS((reason->bracket_case != 0) == (characters[k].bracket != HORDGULI_BRACKET_NONE));
    if (reason->bracket_case > HORDGULI_BRACKET_CASE_D) {
        HOLDS(reason->partner == NO_POSITION && reason->class_after[9] == reason->class_after[8]);
        HOLDS((reason->class_after[8] == BIDI(ON)) == (reason->bracket_case != HORDGULI_BRACKET_CASE_NOT_OTHER));
    } else if (reason->bracket_case != 0) {
        pair_is_right(k);
    } else if (reason->partner == NO_POSITION) {
        HOLDS(reason->class_after[9] == reason->class_after[8]);
    } else if (HOLDS(reason->partner < k)) { /* a mark after a bracket */
        const hordguli_reason *bracket = &reasons[reason->partner];
        HOLDS(reason->class_after[1] == BIDI(NSM) && bracket->sequence == reason->sequence);
        HOLDS(bracket->bracket_case >= HORDGULI_BRACKET_CASE_B && bracket->bracket_case <= HORDGULI_BRACKET_CASE_C2);
        HOLDS(bracket->class_after[9] == reason->class_after[9]);
    }
    if (reason->bracket_case == 0 || reason->partner == NO_POSITION) HOLDS(reason->inside == NO_POSITION);
}

/* N1 and N2: the characters around a run of neutrals, which determine its direction */
static void neutral_is_right(size_t k) {
    const hordguli_reason *reason = &reasons[k];
    uint8_t before = reason->sos, after = reason->eos;
    size_t from = 0, to = length;
    HOLDS((reason->neutral != 0) == !is_strong(reason->class_after[9]));
    if (reason->neutral == 0) {
        HOLDS(reason->left == NO_POSITION && reason->right == NO_POSITION);
        HOLDS(reason->class_after[10] == reason->class_after[9]);
        return;
    }
    if (reason->left != NO_POSITION && HOLDS(reason->left < k)) {
        from = (size_t)reason->left + 1;
        before = direction_of(reasons[reason->left].class_after[9]);
        HOLDS(reasons[reason->left].sequence == reason->sequence && is_strong(reasons[reason->left].class_after[9]));
    }
    if (reason->right != NO_POSITION && HOLDS(reason->right > k && reason->right < length)) {
        to = reason->right;
        after = direction_of(reasons[reason->right].class_after[9]);
        HOLDS(reasons[reason->right].sequence == reason->sequence && is_strong(reasons[reason->right].class_after[9]));
    }
    for (size_t m = from; m < to; m++)
        HOLDS(reasons[m].sequence != reason->sequence || !is_strong(reasons[m].class_after[9]));
    HOLDS((before == after) == (reason->neutral == HORDGULI_NEUTRAL_N1));
    HOLDS(reason->class_after[10] == (before == after ? before : direction_of_level(reason->embedding_level)));
}

static void levels_have_reasons(uint32_t direction) {
    memset(reasons, 7, sizeof reasons);
    OK(hordguli_base(&tables, direction, text, length, &base));
    OK(hordguli_levels(&tables, direction, text, length, MOST, levels));
    OK(hordguli_reasons(&tables, direction, text, length, MOST, reasons));
    for (size_t k = 0; k < length; k++) {
        uint8_t class = characters[k].bidi_class;
        if ((direction & HORDGULI_LINE_SEPARATORS) != 0 && class == BIDI(B) && text[k] != '\n' && text[k] != '\r') class = BIDI(S);
        HOLDS(reasons[k].level == levels[k] && reasons[k].class_after[0] == class);
        HOLDS(is_removed(k) == IS_IN(class, BIDI(LRE), BIDI(RLE), BIDI(LRO), BIDI(RLO), BIDI(PDF), BIDI(BN)));
        opener_is_right(k);
        match_is_right(k);
        if (is_removed(k)) {
            removed_is_right(k);
            continue;
        }
        sequence_is_right(k);
        classes_are_right(k);
        bracket_is_right(k);
        neutral_is_right(k);
        if (reasons[k].sequence == k) pairs_are_right(k);
    }
    HOLDS(reasons[length].level == 7);
}

/* ---- Break marks ---- */

/* Returns the position of the last base up to `start` that is not a space, or NO_POSITION. */
static uint32_t behind_spaces(size_t start) {
    while (breaks[start].class_before == LINE(SP)) {
        if (start == 0) return NO_POSITION;
        start = breaks[start - 1].base;
    }
    return (uint32_t)start;
}

static void break_is_right(size_t k) {
    const hordguli_break_reason *reason = &breaks[k];
    int is_inside = k + 1 < length && breaks[k + 1].base != k + 1;
    if (!HOLDS(is_below(reason->base, k + 1) && breaks[reason->base].base == reason->base)) return;
    HOLDS(reason->base == k || reason->base == breaks[k - 1].base);
    HOLDS(reason->class_before == breaks[reason->base].class_before && reason->class_before != NO_CLASS);
    HOLDS(reason->behind_spaces == behind_spaces(reason->base));
    HOLDS((reason->rule == 3) == (k + 1 == length) && (reason->class_after == NO_CLASS) == (k + 1 == length));
    if (reason->rule == 3) HOLDS(reason->mark == HORDGULI_BREAK_MUST);
    if (is_inside) {
        HOLDS(reason->mark == HORDGULI_BREAK_NEVER && (reason->class_after == LINE(CM) || reason->class_after == LINE(ZWJ)));
        HOLDS(text[k] == 0x200D ? reason->rule == 8 && reason->letter == 'a' : reason->rule == 9);
    } else if (k + 1 < length) {
        HOLDS(reason->class_after == breaks[k + 1].class_before && reason->rule != 9);
    }
    HOLDS(reason->rule >= 3 && reason->rule != 10 && reason->rule <= 31);
    HOLDS(reason->letter == 0 || (reason->letter >= 'a' && reason->letter <= 'd'));
    if (reason->rule == 31) HOLDS(reason->mark == HORDGULI_BREAK_MAY && reason->letter == 0);
    if (reason->rule == 5 && reason->class_before == LINE(CR) && reason->class_after == LINE(LF)) HOLDS(reason->mark == HORDGULI_BREAK_NEVER);
    else HOLDS((reason->mark == HORDGULI_BREAK_MUST) == (reason->rule <= 5));
}

static void breaks_have_reasons(uint32_t options) {
    memset(breaks, 7, sizeof breaks);
    OK(hordguli_marks(&tables, options, text, length, MOST, marks));
    OK(hordguli_break_reasons(&tables, options, text, length, MOST, breaks));
    for (size_t k = 0; k < length; k++) {
        HOLDS(breaks[k].mark == marks[k]);
        break_is_right(k);
    }
    HOLDS(breaks[length].mark == 7);
}

/* ---- Random texts ---- */

static const char *const brackets[] = {
    "(", ")", "[", "]", "\u2329", "\u232a", "\u3008", "\u3009", "(\u0300", ")\u0301", "((((((((((((((((", "a", "\u05d0", "\u05d1", "1",
};
enum { BRACKETS = sizeof brackets / sizeof *brackets };
static const char *const quotes[] = {"\u00ab", "\u00bb", "\u201c", "\u2019", ".", "!", "-", "/", "\ua9a7", "\u25cc"};
enum { QUOTES = sizeof quotes / sizeof *quotes };

/* Puts pieces of all kinds into `text`. A third of the texts have many brackets, and another third many quotation marks. */
static void choose_text(void) {
    size_t theme = below(3), pieces = below(PIECES);
    length = 0;
    for (size_t n = 0; n < pieces && length < MOST - 20; n++) {
        const char *piece = text_pieces[below(TEXT_PIECES)];
        if (theme == 1 && below(8) > 0) piece = brackets[below(BRACKETS)];
        if (theme == 2 && below(2) == 0) piece = quotes[below(QUOTES)];
        length += decoded(piece, text + length);
    }
    OK(hordguli_properties(&tables, length, text, characters));
}

int main(int words_count, char **words) {
    static const uint32_t versions[] = {HORDGULI_UNICODE_15_0, HORDGULI_UNICODE_17_0};
    static const uint32_t directions[] = {HORDGULI_WEAK_LTR, HORDGULI_WEAK_RTL, HORDGULI_LTR, HORDGULI_RTL};
    if (words_count != 2) return 2;
    for (size_t version = 0; version < 2; version++) {
        OK(hordguli_tables_open_builtin_version(&tables, versions[version]));
        for (long left = atol(words[1]); left > 0; left--) {
            choose_text();
            levels_have_reasons(directions[below(4)] | (below(4) == 0 ? HORDGULI_LINE_SEPARATORS : 0));
            breaks_have_reasons(below(2) == 0 ? HORDGULI_WHOLE_NUMBERS : 0);
        }
        hordguli_tables_close(&tables);
    }
    return finish("reasons");
}
