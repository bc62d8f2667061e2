/* Runs Unicode's BidiTest.txt and BidiCharacterTest.txt. The levels come from
 * fribidi_get_par_embedding_levels_ex, followed by fribidi_reorder_line. The order is the map 0, 1, .. after
 * fribidi_reorder_line has reordered it. Characters that X9 removes have the level `x` in the files, and are
 * skipped. Usage: conformance LIBRARY FOLDER. */
#include "both.h"

#define MOST 256

static calls ours;
static long cases, wrong;

typedef struct wanted {
    int count, levels[MOST], shown, order[MOST]; /* a level of -1 stands for an x */
} wanted;

static int numbers(const char *text, int *into, int base) {
    int count = 0;
    while (*text != '\0' && *text != ';' && *text != '#' && *text != '\n') {
        char *end;
        long number = strtol(text, &end, base);
        if (end != text) {
            into[count++] = (int)number;
        } else if (*text == 'x') {
            into[count++] = -1;
            end = (char *)text + 1;
        } else {
            end = (char *)text + 1;
        }
        text = end;
    }
    return count;
}

/* Checks one paragraph in one direction. `level` is the expected paragraph level, or -1 if the file has none. */
static void check(const char *name, long line, const FriBidiCharType *types, const FriBidiBracketType *brackets, int count, FriBidiParType base,
                  int level, const wanted *want) {
    FriBidiLevel levels[MOST];
    FriBidiStrIndex map[MOST];
    int good, shown = 0;
    cases++;
    for (int k = 0; k < count; k++) map[k] = k;
    good = ours.get_par_embedding_levels_ex(types, brackets, count, &base, levels) != 0;
    good = good && ours.reorder_line(0, types, count, 0, base, levels, NULL, map) != 0;
    good = good && count == want->count && (level < 0 || (base == FRIBIDI_PAR_RTL) == level);
    for (int k = 0; good && k < count; k++) good = want->levels[k] < 0 || levels[k] == want->levels[k];
    for (int k = 0; good && k < count; k++)
        if (want->levels[map[k]] >= 0) good = shown < want->shown && want->order[shown++] == map[k];
    if (!good || shown != want->shown) {
        if (wrong++ < 10) printf("%s, line %ld differs\n", name, line);
    }
}

static FILE *open_in(const char *folder, const char *name) {
    char path[4096];
    snprintf(path, sizeof path, "%s/%s", folder, name);
    FILE *file = fopen(path, "r");
    if (file == NULL) {
        fprintf(stderr, "cannot read %s\n", path);
        exit(2);
    }
    return file;
}

static FriBidiCharType type_named(const char *name, size_t length) {
    static const char *const others[][2] = {{"L", "LTR"}, {"R", "RTL"}, {"B", "BS"}, {"S", "SS"}};
    char word[8] = "";
    if (length < sizeof word) memcpy(word, name, length), word[length] = '\0';
    for (size_t k = 0; k < 4; k++)
        if (strcmp(word, others[k][0]) == 0) strcpy(word, others[k][1]);
    for (size_t k = 0; k < 23; k++)
        if (strcmp(ours.get_bidi_type_name(all_types[k]), word) == 0) return all_types[k];
    fprintf(stderr, "no class: %s\n", word);
    exit(2);
}

static void by_class(const char *folder) {
    static const FriBidiParType bases[] = {FRIBIDI_PAR_ON, FRIBIDI_PAR_LTR, FRIBIDI_PAR_RTL};
    FILE *file = open_in(folder, "BidiTest.txt");
    char text[4096];
    wanted want = {0, {0}, 0, {0}};
    for (long line = 1; fgets(text, sizeof text, file) != NULL; line++) {
        FriBidiCharType types[MOST];
        FriBidiBracketType none[MOST] = {0};
        int count = 0;
        char *at = text, *bits;
        if (strncmp(text, "@Levels:", 8) == 0) want.count = numbers(text + 8, want.levels, 10);
        if (strncmp(text, "@Reorder:", 9) == 0) want.shown = numbers(text + 9, want.order, 10);
        if (text[0] == '@' || text[0] == '#' || (bits = strchr(text, ';')) == NULL) continue;
        while (at < bits) {
            size_t length = strcspn(at, " ;");
            if (length > 0) types[count++] = type_named(at, length);
            at += length + 1;
        }
        for (int k = 0; k < 3; k++)
            if (strtol(bits + 1, NULL, 16) >> k & 1) check("BidiTest.txt", line, types, none, count, bases[k], -1, &want);
    }
    fclose(file);
}

static void by_character(const char *folder) {
    static const FriBidiParType bases[] = {FRIBIDI_PAR_LTR, FRIBIDI_PAR_RTL, FRIBIDI_PAR_ON};
    FILE *file = open_in(folder, "BidiCharacterTest.txt");
    char text[8192];
    for (long line = 1; fgets(text, sizeof text, file) != NULL; line++) {
        FriBidiChar string[MOST];
        FriBidiCharType types[MOST];
        FriBidiBracketType brackets[MOST];
        wanted want;
        char *fields[5] = {text};
        int count;
        if (text[0] == '#' || strchr(text, ';') == NULL) continue;
        for (int k = 1; k < 5; k++) fields[k] = strchr(fields[k - 1], ';') + 1;
        count = numbers(fields[0], (int *)string, 16);
        want.count = numbers(fields[3], want.levels, 10);
        want.shown = numbers(fields[4], want.order, 10);
        ours.get_bidi_types(string, count, types);
        ours.get_bracket_types(string, count, types, brackets);
        check("BidiCharacterTest.txt", line, types, brackets, count, bases[atoi(fields[1])], atoi(fields[2]), &want);
    }
    fclose(file);
}

int main(int argc, char **argv) {
    if (argc < 3) return 2;
    ours = calls_of(argv[1]);
    by_class(argv[2]);
    by_character(argv[2]);
    printf("%ld passed, %ld failed\n", cases - wrong, wrong);
    return wrong != 0;
}
