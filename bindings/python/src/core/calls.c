/*
 * calls.c: calls on sets, of which no two meet if one of them changes a set of the other's.
 *
 * A short call keeps the GIL from its beginning to its end. A long one marks its sets, as shared or taken, and gives
 * the GIL up. A call waits while a mark is against it, or while a call that it may not meet has waited longer: without
 * the GIL, and with no set marked. So calls never wait for one another in a circle, and each has its turn.
 *
 * A call takes the set that it changes, and each sparse set: the library's functions have one alone also if they only
 * look. It shares the dense sets that it reads.
 */
#include "core.h"

#include <pthread.h>

/* A call that goes over more words or indices than this takes some microseconds, and gives the GIL up. */
enum { SHORT_WORK = 4096, INDICES_PER_WORD = 64 };

static pthread_mutex_t mutex = PTHREAD_MUTEX_INITIALIZER;
static pthread_cond_t woken = PTHREAD_COND_INITIALIZER;
static unsigned long wakes; /* Written under the GIL and the mutex. */
static Call *waiting;       /* The calls that wait, in order. Read and written under the GIL. */

/* In the child of a fork there is no other thread, so no call waits. */
static void forget_waiting(void) {
    waiting = NULL;
    pthread_mutex_init(&mutex, NULL);
    pthread_cond_init(&woken, NULL);
}

bool calls_begin(void) {
    if (pthread_atfork(NULL, NULL, forget_waiting) == 0) return true;
    PyErr_NoMemory();
    return false;
}

/* Lets the calls that wait look at their sets again. */
static void wake(void) {
    if (waiting == NULL) return;
    pthread_mutex_lock(&mutex);
    wakes++;
    pthread_cond_broadcast(&woken);
    pthread_mutex_unlock(&mutex);
}

enum { SETS_OF_CALL = 3 };

/* Returns one of the sets of a call, or NULL. */
static Core *set_of(const Call *call, int i) { return i == 0 ? call->changed : call->read[i - 1]; }

static bool takes(const Call *call, const Core *set) { return set == call->changed || set->set.is_sparse; }

/* Returns whether two calls may not meet. */
static bool conflicts(const Call *a, const Call *b) {
    for (int i = 0; i < SETS_OF_CALL; i++) {
        const Core *set = set_of(a, i);
        if (set == NULL) continue;
        bool is_shared = set == b->changed || set == b->read[0] || set == b->read[1];
        if (is_shared && (takes(a, set) || takes(b, set))) return true;
    }
    return false;
}

/* Returns whether no mark is against a call, and no call before it. */
static bool is_free(const Call *call) {
    for (int i = 0; i < SETS_OF_CALL; i++) {
        const Core *set = set_of(call, i);
        if (set != NULL && (takes(call, set) ? set->readers != 0 : set->readers < 0)) return false;
    }
    for (const Call *other = waiting; other != NULL && other != call; other = other->next) {
        if (conflicts(call, other)) return false;
    }
    return true;
}

static void wait_until_free(Call *call) {
    Call **place = &waiting;
    while (*place != NULL) place = &(*place)->next;
    *place = call;
    do {
        unsigned long seen = wakes;
        PyThreadState *thread = PyEval_SaveThread();
        pthread_mutex_lock(&mutex);
        while (wakes == seen) pthread_cond_wait(&woken, &mutex);
        pthread_mutex_unlock(&mutex);
        PyEval_RestoreThread(thread);
    } while (!is_free(call));
    for (place = &waiting; *place != call;) place = &(*place)->next;
    *place = call->next;
    wake(); /* Those that waited behind this one. */
}

static void give_gil_up(Call *call) {
    for (int i = 0; i < SETS_OF_CALL; i++) {
        Core *set = set_of(call, i);
        if (set != NULL) set->readers = takes(call, set) ? -1 : set->readers + 1;
    }
    call->thread = PyEval_SaveThread();
}

/* Begins a call, which keeps the GIL. */
static bool begin_short(Call *call) {
    if (!is_free(call)) wait_until_free(call);
    if (call->changed == NULL || call->changed->views == 0) return true;
    PyErr_SetString(PyExc_BufferError, "the set can't be changed while an array of its words is held");
    return false;
}

static size_t words_of(Core *set) { return set == NULL ? 0 : set_memory(&set->set) / sizeof(uint64_t); }

bool begin(Call *call, size_t work) {
    if (!begin_short(call)) return false;
    if (work > SHORT_WORK) give_gil_up(call);
    return true;
}

bool begin_walk_and(Call *call, size_t work) {
    if (!begin_short(call)) return false;
    size_t words = words_of(call->changed) + words_of(call->read[0]) + words_of(call->read[1]);
    if (words > SHORT_WORK || work > SHORT_WORK) give_gil_up(call);
    return true;
}

bool begin_walk(Call *call) { return begin_walk_and(call, 0); }

bool begin_range(Call *call, uint32_t start, uint32_t bound) {
    if (!begin_short(call)) return false;
    /* A dense set that grows has its words written from the first on. */
    const Set *set = &call->changed->set;
    uint32_t from = set->is_sparse || bound <= hibitset_capacity(&set->dense) ? start : 0;
    if (bound > from && (bound - from) / INDICES_PER_WORD > SHORT_WORK) give_gil_up(call);
    return true;
}

void end(Call *call) {
    if (call->thread != NULL) {
        PyEval_RestoreThread(call->thread);
        for (int i = 0; i < SETS_OF_CALL; i++) {
            Core *set = set_of(call, i);
            if (set != NULL) set->readers = takes(call, set) ? 0 : set->readers - 1;
        }
        wake();
    }
    if (call->changed != NULL && !call->unchanged) call->changed->changes++;
}
