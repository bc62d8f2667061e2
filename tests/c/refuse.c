/* Makes each allocation fail in turn. A call whose allocation fails must return NO_MEMORY and change nothing. The same
 * call must then succeed if no allocation fails. At the end, all memory must be freed. If a file cannot be
 * read, errno must have the error of the failed `open` or `read`, even if `free` and `close` change errno.
 * Usage: refuse FOLDER, where FOLDER has small table files. Link it with --wrap=malloc, --wrap=realloc,
 * --wrap=free and --wrap=close. */
#include "test.h"

#include <errno.h>
#include <sys/stat.h>
#include <unistd.h>

void *__real_malloc(size_t size);
void *__real_realloc(void *block, size_t size);
void __real_free(void *block);
void *__wrap_malloc(size_t size);
void *__wrap_realloc(void *block, size_t size);
void __wrap_free(void *block);
int __real_close(int file);
int __wrap_close(int file);

static long asked, refused_at, live;

static int is_watched = 1;

static int is_refused(void) { return is_watched && ++asked == refused_at; }

void *__wrap_malloc(size_t size) {
    void *block = is_refused() ? NULL : __real_malloc(size);
    live += block != NULL;
    return block;
}

void *__wrap_realloc(void *block, size_t size) {
    void *moved = is_refused() ? NULL : __real_realloc(block, size);
    live += block == NULL && moved != NULL;
    return moved;
}

void __wrap_free(void *block) {
    live -= block != NULL;
    __real_free(block);
    errno = 7777;
}

int __wrap_close(int file) {
    int result = __real_close(file);
    errno = 7777;
    return result;
}

enum { BYTES = 1 << 14, MOST_LINES = 100 };

/* The state of a session: the bytes of its printed lines and of its text, the columns of its lines, and its counts. */
typedef struct shape {
    char bytes[BYTES];
    size_t length, columns[MOST_LINES];
    hordguli_counts counts;
} shape;

static shape of(hordguli_session *session) {
    static shape found;
    size_t text;
    memset(&found, 0, sizeof found);
    is_watched = 0;
    HOLDS(hordguli_session_counts(session, &found.counts) == HORDGULI_OK);
    HOLDS(hordguli_lines_utf8(session, 0, found.counts.lines, 127, BYTES, found.bytes, &found.length) == HORDGULI_OK);
    HOLDS(hordguli_text(session, 0, found.counts.characters, BYTES - found.length, found.bytes + found.length, &text)
          == HORDGULI_OK);
    found.length += text;
    for (size_t line = 0; line < found.counts.lines && line < MOST_LINES; line++) {
        hordguli_line_info info;
        HOLDS(hordguli_line(session, line, &info, 0, NULL, NULL, NULL, NULL, NULL) == HORDGULI_OK);
        found.columns[line] = info.columns;
    }
    is_watched = 1;
    return found;
}

static int same(const shape *a, const shape *b) {
    return a->length == b->length && memcmp(a->bytes, b->bytes, a->length) == 0
           && memcmp(&a->counts, &b->counts, sizeof a->counts) == 0
           && memcmp(a->columns, b->columns, sizeof a->columns) == 0;
}

static const char *folder;
static hordguli_tables tables = HORDGULI_TABLES_INIT;
static hordguli_session session = HORDGULI_SESSION_INIT, measured = HORDGULI_SESSION_INIT;
static const uint32_t advances[] = {3, 9, 2, 6, 6, 1, 5, 5, 0, 7};
static const uint32_t characters[] = {0x5D0, '(', 'a', ')', 0x2067, '1', 0x2069, ' ', 0x4E00};
static const uint8_t levels_before[] = {1, 1, 2, 1, 1, 2, 1, 1, 2};
static uint8_t found_levels[9], found_marks[9], found_row[9];
static uint32_t found_visual[9];
static hordguli_reason found_reasons[9];
static hordguli_break_reason found_break_reasons[9];
static hordguli_run found_runs[9];
static uint32_t found_base;
static hordguli_cluster found_cluster;
static hordguli_word found_word;
static const hordguli_edge edge = {3, HORDGULI_AFTER, 0};
static hordguli_edge found_edge;
static hordguli_caret found_caret;
static uint32_t found_moved;
static size_t found_ends[100];
static hordguli_script_run found_scripts[9];
static hordguli_damage damage;
static char found_bytes[BYTES];
static size_t found_length;
static uint32_t found_characters[100];
static hordguli_line_info found_info;

enum {
    BUILTIN, OPEN_17, OPEN_TABLES, OPEN, OPEN_MEASURED, ADVANCES, JOIN, MEASURED_WIDTH, INSERT, REPLACE, WIDTH, CLUSTER, WORD, CARET, STEP, EDGE, NEAREST, CLUSTERS, DELETE, BASE, LEVELS,
    MARKS, REASONS, BREAK_REASONS, ROW, ROW_RUNS, TEXT_CLUSTERS, SCRIPT_RUNS, LAYOUT, LINES, TEXT, PAGE, STEPS
};

static const char start[] = "ab \u05d0\u05d1 12\nx\n";

static hordguli_status opens_builtin(void) {
    hordguli_tables builtin = HORDGULI_TABLES_INIT;
    hordguli_status status = hordguli_tables_open_builtin(&builtin);
    hordguli_tables_close(&builtin);
    return status;
}

/* Opens the tables of Unicode 17.0 that the library contains, and those of the folder's files. */
static hordguli_status opens_17(void) {
    hordguli_tables builtin = HORDGULI_TABLES_INIT, read = HORDGULI_TABLES_INIT;
    hordguli_status status = hordguli_tables_open_builtin_version(&builtin, HORDGULI_UNICODE_17_0);
    if (status == HORDGULI_OK)
        status = hordguli_tables_open_folder_version(&read, HORDGULI_UNICODE_17_0, folder, NULL);
    HOLDS((status == HORDGULI_OK) == (read.at != NULL));
    hordguli_tables_close(&builtin);
    hordguli_tables_close(&read);
    return status;
}

static hordguli_status step(int k) {
    switch (k) {
        case BUILTIN: return opens_builtin();
        case OPEN_17: return opens_17();
        case OPEN_TABLES: return hordguli_tables_open_folder(&tables, folder, NULL);
        case OPEN: return hordguli_session_open(&session, &tables, 0, 4, start, sizeof start - 1);
        case OPEN_MEASURED: return hordguli_session_open_measured(&measured, &tables, 0, 11, start, sizeof start - 1);
        case ADVANCES: return hordguli_set_advances(&measured, 1, 10, advances, &damage); /* in both paragraphs */
        case JOIN: return hordguli_delete(&measured, 8, 1, &damage);
        case MEASURED_WIDTH: return hordguli_set_measured_width(&measured, 6, &damage);
        case INSERT: return hordguli_insert(&session, 3, "(a)\n\u05d0", 6, &damage);
        case REPLACE: return hordguli_replace(&session, 1, 5, "x\u4e00\ny\n", 7, &damage);
        case WIDTH: return hordguli_set_width(&session, 2, &damage);
        case CLUSTER: return hordguli_cluster_at(&session, 2, &found_cluster);
        case WORD: return hordguli_word_at(&session, 2, &found_word);
        case CARET: return hordguli_edge_caret(&session, edge, &found_caret);
        case STEP: return hordguli_step(&session, edge, HORDGULI_LEFT, &found_edge, &found_moved);
        case EDGE: return hordguli_edge_at(&session, 1, 1, &found_edge);
        case NEAREST: return hordguli_nearest_edge(&session, 1, 1, &found_edge);
        case CLUSTERS: return hordguli_line_clusters(&session, 1, 100, found_ends, &found_length);
        case DELETE: return hordguli_delete(&session, 2, 4, &damage);
        case BASE: return hordguli_base(&tables, 0, characters, 9, &found_base);
        case LEVELS: return hordguli_levels(&tables, 0, characters, 9, 9, found_levels);
        case MARKS: return hordguli_marks(&tables, 0, characters, 9, 9, found_marks);
        case REASONS: return hordguli_reasons(&tables, 0, characters, 9, 9, found_reasons);
        case BREAK_REASONS: return hordguli_break_reasons(&tables, 0, characters, 9, 9, found_break_reasons);
        case ROW:
            return hordguli_row(&tables, 0, 1, 9, characters, levels_before, 9, found_visual, found_row, NULL, NULL);
        case ROW_RUNS:
            return hordguli_row_runs(&tables, 1, 9, characters, levels_before, 9, found_runs, &found_length);
        case TEXT_CLUSTERS: return hordguli_clusters(9, characters, 100, found_ends, &found_length);
        case SCRIPT_RUNS: return hordguli_script_runs(&tables, 9, characters, 9, found_scripts, &found_length);
        case LAYOUT:
            return hordguli_layout(&tables, 0, 4, 127, start, sizeof start - 1, BYTES, found_bytes, &found_length);
        case LINES: return hordguli_lines_utf8(&session, 0, 2, 127, BYTES, found_bytes, &found_length);
        case TEXT: return hordguli_text(&session, 0, 5, BYTES, found_bytes, &found_length);
        default: return hordguli_line(&session, 1, &found_info, 100, found_characters, NULL, NULL, NULL, NULL);
    }
}

static int opens_session(int k) { return k == OPEN || k == OPEN_MEASURED; }
static int edits(int k) { return k == INSERT || k == REPLACE || k == DELETE || k == JOIN; }

/* Whether a call may keep buffers even if it fails. A session's first edit allocates its edit buffers. */
static int keeps_buffers(int k) {
    return k == LAYOUT || k == WIDTH || k == ADVANCES || k == MEASURED_WIDTH || opens_session(k) || edits(k);
}

/* Whether a call may free memory even if it fails. An edit may free the lists of a paragraph that an earlier
 * edit replaced. Opening a session may free the buffers that the tables lend to it. */
static int frees_buffers(int k) { return opens_session(k) || edits(k); }

/* If a folder is in place of a file, the call can open it, but not read it, and must close it. */
static void unread_file_sets_errno(void) {
    char made[] = "/tmp/refuse-XXXXXX", file[] = "/tmp/refuse-XXXXXX/DerivedBidiClass.txt";
    HOLDS(mkdtemp(made) != NULL);
    memcpy(file, made, strlen(made));
    HOLDS(mkdir(file, 0700) == 0);
    errno = 0;
    HOLDS(hordguli_tables_open_folder(&tables, made, NULL) == HORDGULI_UNREAD_FILE && errno == EISDIR);
    HOLDS(rmdir(file) == 0);
    errno = 0;
    HOLDS(hordguli_tables_open_folder(&tables, made, NULL) == HORDGULI_UNREAD_FILE && errno == ENOENT);
    HOLDS(rmdir(made) == 0);
}

int main(int count, char **words) {
    long runs = 0, most = 0;
    static shape last, last_measured;
    uint8_t levels[9], marks[9];
    if (count != 2) return 2;
    folder = words[1];
    unread_file_sets_errno();
    for (long at = 0; at <= most + 1; at++, runs++) { /* no allocation fails in the first run, which counts them, nor in the last */
        int refusals = 0;
        long before = live;
        asked = 0;
        refused_at = at;
        for (int k = 0; k < STEPS; k++) {
            static shape kept, kept_measured, now;
            hordguli_damage no_damage = {7, 7, 7, 7, 7, 7};
            long held = live;
            hordguli_status status;
            if (session.at != NULL) kept = of(&session);
            if (measured.at != NULL) kept_measured = of(&measured);
            damage = no_damage;
            memset(found_levels, 77, sizeof found_levels);
            memset(found_marks, 77, sizeof found_marks);
            memset(found_row, 77, sizeof found_row);
            found_reasons[0].level = found_break_reasons[0].rule = 77;
            found_visual[0] = 77;
            found_runs[0].level = found_scripts[0].script = 77;
            found_base = 77;
            found_length = 77;
            found_bytes[0] = '?';
            found_edge.pos = found_caret.line = found_moved = found_ends[0] = 77;
            status = step(k);
            HOLDS(status == HORDGULI_OK || status == HORDGULI_NO_MEMORY);
            if (status == HORDGULI_OK) continue;
            refusals++;
            /* the tables and the sessions keep their layout buffers, and a session keeps the lists of the last replaced
             * paragraph until the next edit */
            HOLDS(asked >= refused_at
                  && (live == held || (keeps_buffers(k) && live > held) || (frees_buffers(k) && live < held)));
            HOLDS(memcmp(&damage, &no_damage, sizeof damage) == 0 && found_base == 77);
            HOLDS(found_levels[0] == 77 && found_marks[0] == 77 && found_length == 77 && found_bytes[0] == '?');
            HOLDS(found_row[0] == 77 && found_visual[0] == 77 && found_runs[0].level == 77);
            HOLDS(found_reasons[0].level == 77 && found_break_reasons[0].rule == 77);
            HOLDS(found_scripts[0].script == 77);
            HOLDS(found_edge.pos == 77 && found_caret.line == 77 && found_moved == 77 && found_ends[0] == 77);
            HOLDS(k != OPEN_TABLES || tables.at == NULL);
            HOLDS(k != OPEN || session.at == NULL);
            HOLDS(k != OPEN_MEASURED || measured.at == NULL);
            if (session.at != NULL) {
                now = of(&session);
                HOLDS(same(&kept, &now));
            }
            if (measured.at != NULL) {
                now = of(&measured);
                HOLDS(same(&kept_measured, &now));
            }
            HOLDS(step(k) == HORDGULI_OK);
        }
        /* no call fails in the first and the last run, and at most one in any other: the library can do
         * without some allocations */
        HOLDS(refusals <= (at > 0 && at <= most));
        if (at == 0) {
            most = asked;
            last = of(&session);
            last_measured = of(&measured);
            memcpy(levels, found_levels, 9);
            memcpy(marks, found_marks, 9);
        } else {
            static shape now;
            now = of(&session);
            HOLDS(same(&last, &now) && memcmp(levels, found_levels, 9) == 0 && memcmp(marks, found_marks, 9) == 0);
            now = of(&measured);
            HOLDS(same(&last_measured, &now));
        }
        hordguli_session_close(&session);
        hordguli_session_close(&measured);
        hordguli_tables_close(&tables);
        HOLDS(live == before && session.at == NULL && measured.at == NULL && tables.at == NULL);
    }
    printf("refuse: %ld runs, one for each of %ld allocations\n", runs, most);
    HOLDS(most > 50);
    return finish("refuse");
}
