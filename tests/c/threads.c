/* Makes the same edits on several threads at the same time, each in its own session. All sessions must end with the
 * same lines. Each thread also lays out the same text without a session, with its own tables, and must get
 * the same lines. Half of the sessions are opened on tables that the threads share, under a lock. Then the
 * threads hand sessions over to each other: any free thread makes the next edit of a session, and the thread
 * that makes the last edit closes it. Usage: threads FOLDER THREADS CHANGES. */
#include "test.h"

#include <pthread.h>
#include <sched.h>

enum { MOST_THREADS = 16, BYTES = 1 << 16, SESSIONS = 24, SEED = 12345 };

static const char *folder;
static long changes;

typedef struct work {
    char bytes[BYTES];
    size_t length;
    hordguli_status status;
} work;

static work works[MOST_THREADS], handers[MOST_THREADS];

/* Tables that are opened on one thread and closed on another. */
static hordguli_tables shared = HORDGULI_TABLES_INIT;
static pthread_mutex_t lock = PTHREAD_MUTEX_INITIALIZER;

static hordguli_status open_on_shared(hordguli_session *session) {
    hordguli_status status;
    pthread_mutex_lock(&lock);
    status = hordguli_session_open(session, &shared, 0, 30, "a\n", 2);
    pthread_mutex_unlock(&lock);
    return status;
}

/* Makes edit `k` of a session. `mixed` is the state of its random numbers. */
static hordguli_status edit(hordguli_session *session, uint64_t *mixed, long k) {
    static const char *const pieces[] = {"word ", "\u05e9\u05dc\u05d5\u05dd ", "12 ", "\n"};
    hordguli_damage damage;
    hordguli_counts counts;
    hordguli_status status = hordguli_session_counts(session, &counts);
    if (status != HORDGULI_OK) return status;
    *mixed = *mixed * 6364136223846793005u + 1442695040888963407u;
    if (counts.characters > 1000) return hordguli_delete(session, 0, 500, &damage);
    return hordguli_insert(session, (size_t)(*mixed >> 33) % (counts.characters + 1), pieces[k % 4], strlen(pieces[k % 4]),
                           &damage);
}

/* Stores the printed lines of a session. */
static hordguli_status print(hordguli_session *session, work *at) {
    hordguli_counts counts;
    hordguli_status status = hordguli_session_counts(session, &counts);
    if (status != HORDGULI_OK) return status;
    return hordguli_lines_utf8(session, 0, counts.lines, 127, BYTES, at->bytes, &at->length);
}

/* Lays out a session's text several times by `hordguli_layout`, with tables of this thread. Returns -1 if the
 * lines differ from those in `at`. */
static hordguli_status lay_out_alone(hordguli_session *session, const work *at) {
    hordguli_tables tables = HORDGULI_TABLES_INIT;
    hordguli_counts counts;
    static _Thread_local char text[BYTES], page[BYTES];
    size_t length = 0, written = 0;
    int same = 1;
    hordguli_status status = hordguli_session_counts(session, &counts);
    if (status == HORDGULI_OK) status = hordguli_text(session, 0, counts.characters, BYTES, text, &length);
    if (status == HORDGULI_OK) status = hordguli_tables_open_folder(&tables, folder, NULL);
    for (int k = 0; k < 20 && status == HORDGULI_OK && same; k++) {
        status = hordguli_layout(&tables, 0, 30, 127, text, length, BYTES, page, &written);
        same = written == at->length && memcmp(page, at->bytes, written) == 0;
    }
    hordguli_tables_close(&tables);
    return same ? status : -1;
}

/* Runs one thread. Every second thread uses the shared tables. */
static void *run(void *given) {
    work *at = given;
    hordguli_tables tables = HORDGULI_TABLES_INIT;
    hordguli_session session = HORDGULI_SESSION_INIT;
    uint64_t mixed = SEED;
    if ((at - works) % 2 == 0) {
        at->status = open_on_shared(&session);
    } else {
        at->status = hordguli_tables_open_folder(&tables, folder, NULL);
        if (at->status == HORDGULI_OK) at->status = hordguli_session_open(&session, &tables, 0, 30, "a\n", 2);
        hordguli_tables_close(&tables);
    }
    for (long k = 0; k < changes && at->status == HORDGULI_OK; k++) at->status = edit(&session, &mixed, k);
    if (at->status == HORDGULI_OK) at->status = print(&session, at);
    if (at->status == HORDGULI_OK) at->status = lay_out_alone(&session, at);
    hordguli_session_close(&session);
    return NULL;
}

/* A session that the threads hand over to each other. */
typedef struct handed {
    hordguli_session session;
    uint64_t mixed;
    long made;
    int same;
    struct handed *next;
} handed;

/* The sessions to hand over, a list of those that wait for an edit, and the number of unclosed ones. */
static handed sessions[SESSIONS];
static handed *first, **last = &first;
static long unclosed;

/* Takes the session that has waited longest, or NULL if none is waiting. Returns 0 once all sessions are
 * closed. */
static int take(handed **taken) {
    int more;
    pthread_mutex_lock(&lock);
    more = unclosed > 0;
    *taken = first;
    if (first != NULL && (first = first->next) == NULL) last = &first;
    pthread_mutex_unlock(&lock);
    return more;
}

static void put(handed *item) {
    pthread_mutex_lock(&lock);
    item->next = NULL;
    *last = item;
    last = &item->next;
    pthread_mutex_unlock(&lock);
}

/* Compares the lines of a session after its last edit with those of the first thread, and closes it. */
static void end(handed *item, work *at) {
    item->same = print(&item->session, at) == HORDGULI_OK && at->length == works[0].length
                 && memcmp(at->bytes, works[0].bytes, at->length) == 0;
    hordguli_session_close(&item->session);
    pthread_mutex_lock(&lock);
    unclosed--;
    pthread_mutex_unlock(&lock);
}

/* Runs one thread: makes the next edit of each session that it takes. Opens a session before edit 0. */
static void *hand_over(void *given) {
    work *at = given;
    handed *item;
    while (take(&item)) {
        hordguli_status status = HORDGULI_OK;
        if (item == NULL) {
            sched_yield();
            continue;
        }
        if (item->made == 0) status = open_on_shared(&item->session);
        if (status == HORDGULI_OK) status = edit(&item->session, &item->mixed, item->made);
        if (status != HORDGULI_OK) at->status = status;
        if (++item->made == changes)
            end(item, at);
        else
            put(item);
    }
    return NULL;
}

static void *open_shared(void *given) {
    *(hordguli_status *)given = hordguli_tables_open_folder(&shared, folder, NULL);
    return NULL;
}

int main(int count, char **words) {
    pthread_t threads[MOST_THREADS], opener;
    hordguli_status status = -1;
    long number;
    if (count != 4) return 2;
    folder = words[1];
    number = atol(words[2]) < MOST_THREADS ? atol(words[2]) : MOST_THREADS;
    changes = atol(words[3]);
    HOLDS(pthread_create(&opener, NULL, open_shared, &status) == 0 && pthread_join(opener, NULL) == 0);
    HOLDS(status == HORDGULI_OK);
    for (long k = 0; k < number; k++) HOLDS(pthread_create(&threads[k], NULL, run, &works[k]) == 0);
    for (long k = 0; k < number; k++) HOLDS(pthread_join(threads[k], NULL) == 0);
    for (long k = 0; k < number; k++) {
        HOLDS(works[k].status == HORDGULI_OK && works[k].length > 100);
        HOLDS(works[k].length == works[0].length && memcmp(works[k].bytes, works[0].bytes, works[0].length) == 0);
    }
    unclosed = SESSIONS;
    for (long k = 0; k < SESSIONS; k++) {
        sessions[k] = (handed){HORDGULI_SESSION_INIT, SEED, 0, 0, NULL};
        put(&sessions[k]);
    }
    for (long k = 0; k < number; k++) HOLDS(pthread_create(&threads[k], NULL, hand_over, &handers[k]) == 0);
    for (long k = 0; k < number; k++) HOLDS(pthread_join(threads[k], NULL) == 0 && handers[k].status == HORDGULI_OK);
    for (long k = 0; k < SESSIONS; k++) HOLDS(sessions[k].same);
    hordguli_tables_close(&shared);
    return finish("threads");
}
