/* Snapshots of a session's lines, for testing which lines a call changes. Include it after test.h. */
#ifndef SNAPSHOT_H
#define SNAPSHOT_H

enum { SNAPSHOT_LINES = 1600, SNAPSHOT_CHARACTERS = 1600 };

/* For each line, what `hordguli_line` stores in `*info`, but without the start and the padding, and a hash of
 * its characters, levels, maps, columns and advances. The other lines are zero, also before the first snapshot is taken. */
typedef struct snapshot {
    struct {
        hordguli_line_info info;
        uint64_t hash;
    } lines[SNAPSHOT_LINES];
    size_t count;
} snapshot;

static uint64_t hashed(uint64_t hash, uint64_t number) { return (hash ^ number) * 0x100000001B3; }

/* Takes a snapshot of a session. `advances` are those of its characters, or NULL if it is not measured. */
static void take(hordguli_session *of, const uint32_t *advances, snapshot *into) {
    static uint32_t visual[SNAPSHOT_CHARACTERS], ltov[SNAPSHOT_CHARACTERS], vtol[SNAPSHOT_CHARACTERS];
    static uint8_t line_levels[SNAPSHOT_CHARACTERS];
    static size_t columns[SNAPSHOT_CHARACTERS];
    hordguli_counts counts = {0, 0, 0, 0};
    HOLDS(hordguli_session_counts(of, &counts) == HORDGULI_OK && counts.lines <= SNAPSHOT_LINES);
    memset(into->lines, 0, (into->count > counts.lines ? into->count : counts.lines) * sizeof *into->lines);
    into->count = counts.lines;
    for (size_t line = 0; line < counts.lines; line++) {
        uint64_t hash = 0xCBF29CE484222325;
        hordguli_line_info *info = &into->lines[line].info;
        HOLDS(hordguli_line(of, line, info, SNAPSHOT_CHARACTERS, visual, line_levels, ltov, vtol, columns) == HORDGULI_OK);
        for (size_t k = 0; k < info->shown; k++) {
            hash = hashed(hashed(hash, visual[k]), line_levels[k]);
            hash = hashed(hashed(hashed(hash, ltov[k]), vtol[k]), columns[k]);
            if (advances != NULL) hash = hashed(hash, advances[info->start + k]);
        }
        into->lines[line].hash = hash;
        info->start = info->padding = 0;
    }
}

static int is_same_line(const snapshot *then, size_t old, const snapshot *now, size_t new) {
    return memcmp(&then->lines[old], &now->lines[new], sizeof then->lines[old]) == 0;
}

/* Checks that `old` lines from line `first` on became `new` lines, and that all other lines are unchanged. */
static void lines_were_replaced(const snapshot *then, const snapshot *now, size_t first, size_t old, size_t new) {
    if (!HOLDS(first + old <= then->count && now->count == then->count - old + new)) return;
    HOLDS(memcmp(then->lines, now->lines, first * sizeof *then->lines) == 0);
    HOLDS(memcmp(then->lines + first + old, now->lines + first + new, (now->count - first - new) * sizeof *then->lines) == 0);
}

/* Checks which lines changed: those in the damage, without the unchanged lines at its start and then those at
 * its end. */
static void changed_lines_are_right(hordguli_session *of, const snapshot *then, const snapshot *now, const hordguli_damage *damage) {
    hordguli_changed changed = {7, 7, 7};
    size_t before = 0, after = 0, first = damage->first_line, old = damage->old_lines, new = damage->new_lines;
    while (before < old && before < new && is_same_line(then, first + before, now, first + before)) before++;
    while (before + after < old && before + after < new
           && is_same_line(then, first + old - after - 1, now, first + new - after - 1))
        after++;
    HOLDS(hordguli_changed_lines(of, &changed) == HORDGULI_OK);
    HOLDS(changed.first_line == first + before && changed.old_lines == old - before - after
          && changed.new_lines == new - before - after);
}

#endif
