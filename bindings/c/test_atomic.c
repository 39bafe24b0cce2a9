/* Tests of each function on a hibitset_atomic_t and on a hibitset_seat_t. They end with status 0, or say which line
 * failed. */
#include "testing.h"
#include <pthread.h>

/* ---- A set held alone beside its model, a byte for each index below RANGE ---- */

enum { RANGE = 300000 };

static void check_members(hibitset_atomic_t *set, const unsigned char *model) {
    uint32_t buffer[64], start = 0, first = RANGE, last = RANGE, index = 12345, i;
    size_t count, k, members = 0, seen = 0;
    for (i = 0; i < RANGE; i++) {
        if (model[i] && members++ == 0) first = i;
        if (model[i]) last = i;
    }
    CHECK(hibitset_atomic_len(set) == members && hibitset_atomic_is_empty(set) == (members == 0));
    CHECK(hibitset_atomic_first(set, &index) == (members > 0) && index == (members > 0 ? first : 12345));
    index = 12345;
    CHECK(hibitset_atomic_last(set, &index) == (members > 0) && index == (members > 0 ? last : 12345));
    do {
        memset(buffer, 0xa5, sizeof buffer);
        count = hibitset_atomic_next_many(set, start, buffer, 64);
        for (k = 0; k < count; k++) {
            while (start < buffer[k]) CHECK(!model[start++]);
            CHECK(model[start++]);
        }
        for (; k < 64; k++) CHECK(buffer[k] == 0xa5a5a5a5u);
        seen += count;
    } while (count == 64);
    CHECK(seen == members);
}

/* The bits of layer 0 are the members, and those above say which words below are not 0. */
static void check_words(hibitset_atomic_t *set, const unsigned char *model) {
    size_t layer, place, words = RANGE / 64 + 2;
    uint32_t i;
    for (i = 0; i < RANGE; i++) CHECK((hibitset_atomic_word(set, 0, i / 64) >> i % 64 & 1) == model[i]);
    for (layer = 1; layer < 5; layer++) {
        for (place = 0; place < words; place++) {
            CHECK((hibitset_atomic_word(set, layer, place / 64) >> place % 64 & 1) == (hibitset_atomic_word(set, layer - 1, place) != 0));
        }
        words = words / 64 + 1;
    }
    CHECK(hibitset_atomic_word(set, 4, 9) == hibitset_atomic_word(set, 4, 0) && hibitset_atomic_word(set, 5, 0) == 0);
    CHECK(hibitset_atomic_word(set, 0, SIZE_MAX) == 0 && hibitset_atomic_word(set, SIZE_MAX, 0) == 0);
}

static void change(hibitset_atomic_t *set, unsigned char *model) {
    uint32_t span = 1u << random_below(19), i, index;
    for (i = 0; i < 500; i++) {
        index = random_below(span) % RANGE;
        switch (random_below(4)) {
        case 0:
            CHECK(hibitset_atomic_remove(set, index) == (bool)model[index]);
            model[index] = 0;
            break;
        case 1: CHECK(hibitset_atomic_contains(set, index) == (bool)model[index]); break;
        default:
            CHECK(hibitset_atomic_add(set, index) == (model[index] ? HIBITSET_PRESENT : HIBITSET_OK));
            model[index] = 1;
        }
    }
    if (random_below(20) == 0) {
        hibitset_atomic_clear(set);
        memset(model, 0, RANGE);
    }
}

static void random_changes(void) {
    unsigned char *model = calloc(RANGE, 1);
    hibitset_atomic_t set = hibitset_atomic_new(), moved;
    int round;
    CHECK(model);
    for (round = 0; round < 200; round++) {
        change(&set, model);
        check_members(&set, model);
        if (round % 16 == 0) check_words(&set, model);
        /* A set may be moved as bytes. */
        moved = set, set = hibitset_atomic_new(), set = moved;
    }
    hibitset_atomic_free(&set);
    hibitset_atomic_free(&set);
    CHECK(hibitset_atomic_is_empty(&set));
    free(model);
}

/* The ways to have an empty set, or no seat: the function, the macro, bytes that are 0. */
enum { WAYS = 3 };

static hibitset_atomic_t empty_set(int way) {
    static const hibitset_atomic_t init = HIBITSET_ATOMIC_INIT, zero;
    return way == 0 ? hibitset_atomic_new() : way == 1 ? init : zero;
}

static hibitset_seat_t no_seat(int way) {
    static const hibitset_seat_t init = HIBITSET_SEAT_INIT, zero;
    return way == 0 ? hibitset_seat_new() : way == 1 ? init : zero;
}

static void check_ends(int way) {
    hibitset_atomic_t set = empty_set(way);
    uint32_t index = 7, buffer[4];
    long before = allocations;
    CHECK(hibitset_atomic_len(&set) == 0 && hibitset_atomic_is_empty(&set) && !hibitset_atomic_contains(&set, 0));
    CHECK(!hibitset_atomic_first(&set, &index) && !hibitset_atomic_last(&set, &index) && index == 7);
    CHECK(!hibitset_atomic_remove(&set, 3) && hibitset_atomic_word(&set, 0, 0) == 0 && hibitset_atomic_word(&set, 4, 0) == 0);
    CHECK(hibitset_atomic_next_many(&set, 0, buffer, 4) == 0 && hibitset_atomic_next_many(&set, 0, NULL, 0) == 0);
    hibitset_atomic_clear(&set);
    CHECK(hibitset_atomic_add(&set, HIBITSET_ATOMIC_MAX_EID) == HIBITSET_OUT_OF_RANGE);
    CHECK(hibitset_atomic_add(&set, UINT32_MAX) == HIBITSET_OUT_OF_RANGE && allocations == before);
    CHECK(hibitset_atomic_add(&set, HIBITSET_ATOMIC_MAX_EID - 1) == HIBITSET_OK);
    CHECK(hibitset_atomic_last(&set, &index) && index == HIBITSET_ATOMIC_MAX_EID - 1);
    CHECK(!hibitset_atomic_contains(&set, HIBITSET_ATOMIC_MAX_EID) && !hibitset_atomic_remove(&set, UINT32_MAX));
    CHECK(hibitset_atomic_next_many(&set, UINT32_MAX, buffer, 4) == 0 && hibitset_atomic_next_many(&set, 5, NULL, 0) == 0);
    CHECK(hibitset_atomic_next_many(&set, 5, buffer, 4) == 1 && buffer[0] == index);
    hibitset_atomic_free(&set);
}

static void ends_of_the_range(void) {
    int way;
    for (way = 0; way < WAYS; way++) check_ends(way);
}

/* ---- A shared set on one thread ---- */

static hibitset_seat_t shared(const uint32_t *old, size_t len) {
    hibitset_atomic_t set = hibitset_atomic_new();
    hibitset_seat_t seat = hibitset_seat_new();
    size_t i;
    for (i = 0; i < len; i++) CHECK(hibitset_atomic_add(&set, old[i]) == HIBITSET_OK);
    CHECK(hibitset_atomic_share(&set, &seat) == HIBITSET_OK);
    CHECK(hibitset_atomic_is_empty(&set) && hibitset_seat_is_whole(&seat));
    return seat;
}

static void check_no_seat(int way) {
    hibitset_seat_t seat = no_seat(way), other = no_seat(way);
    hibitset_atomic_t alone = empty_set(way);
    hibitset_t set = hibitset_new();
    long before = allocations;
    CHECK(hibitset_seat_add(&seat, 3) == HIBITSET_NO_SEAT && hibitset_seat_add(&seat, UINT32_MAX) == HIBITSET_NO_SEAT);
    CHECK(!hibitset_seat_contains(&seat, 3) && !hibitset_seat_is_whole(&seat));
    CHECK(hibitset_seat_divide(&seat, &other) == HIBITSET_NO_SEAT && hibitset_seat_collect(&seat, &set) == HIBITSET_NO_SEAT);
    CHECK(hibitset_seat_settle(&seat, &alone) == HIBITSET_NO_SEAT && hibitset_failed(HIBITSET_NO_SEAT));
    hibitset_seat_free(&seat);
    hibitset_atomic_free(&alone);
    CHECK(allocations == before);
    CHECK(hibitset_atomic_share(&alone, &seat) == HIBITSET_OK && hibitset_seat_divide(&seat, &other) == HIBITSET_OK);
    hibitset_seat_free(&other);
    CHECK(hibitset_seat_settle(&seat, &alone) == HIBITSET_OK && hibitset_atomic_is_empty(&alone));
    hibitset_atomic_free(&alone);
}

static void without_a_seat(void) {
    int way;
    for (way = 0; way < WAYS; way++) check_no_seat(way);
}

static void on_one_thread(void) {
    static const uint32_t old[] = {3, 70000};
    hibitset_seat_t first = shared(old, 2), second = hibitset_seat_new();
    hibitset_atomic_t alone = hibitset_atomic_new();
    hibitset_t set = hibitset_new();
    uint32_t buffer[8];
    CHECK(hibitset_atomic_add(&alone, 12) == HIBITSET_OK);
    CHECK(hibitset_seat_add(&first, 3) == HIBITSET_PRESENT && hibitset_seat_add(&first, 5) == HIBITSET_OK);
    CHECK(hibitset_seat_add(&first, HIBITSET_ATOMIC_MAX_EID) == HIBITSET_OUT_OF_RANGE);
    CHECK(!hibitset_seat_contains(&first, UINT32_MAX) && hibitset_seat_contains(&first, 5) && !hibitset_seat_contains(&first, 6));
    CHECK(hibitset_seat_divide(&first, &second) == HIBITSET_OK && !hibitset_seat_is_whole(&first));
    CHECK(hibitset_seat_add(&second, 5) == HIBITSET_PRESENT && hibitset_seat_add(&second, 6) == HIBITSET_OK);
    CHECK(hibitset_seat_contains(&first, 6) && hibitset_seat_settle(&first, &alone) == HIBITSET_SHARED);
    CHECK(hibitset_atomic_contains(&alone, 12) && hibitset_add(&set, 9) == HIBITSET_OK);
    CHECK(hibitset_seat_collect(&second, &set) == HIBITSET_OK && hibitset_next_many(&set, 0, buffer, 8) == 5);
    CHECK(buffer[0] == 3 && buffer[1] == 5 && buffer[2] == 6 && buffer[3] == 9 && buffer[4] == 70000);
    /* A seat that is put where one was frees that one, and may be moved as bytes. */
    CHECK(hibitset_seat_divide(&first, &second) == HIBITSET_OK);
    hibitset_seat_free(&first);
    first = second;
    CHECK(hibitset_seat_settle(&first, &alone) == HIBITSET_OK && hibitset_seat_add(&first, 3) == HIBITSET_NO_SEAT);
    CHECK(hibitset_atomic_len(&alone) == 4 && hibitset_atomic_contains(&alone, 6) && !hibitset_atomic_contains(&alone, 12));
    hibitset_atomic_free(&alone);
    hibitset_free(&set);
}

/* The weight of a seat halves, so it can be divided 16 times. */
static void shares(void) {
    hibitset_seat_t seat = shared(NULL, 0), other = hibitset_seat_new();
    int i;
    for (i = 0; i < 16; i++) CHECK(hibitset_seat_divide(&seat, &other) == HIBITSET_OK);
    CHECK(hibitset_seat_divide(&seat, &other) == HIBITSET_ONE_SHARE);
    CHECK(hibitset_seat_add(&other, 8) == HIBITSET_OK && hibitset_seat_contains(&seat, 8));
    hibitset_seat_free(&other);
    hibitset_seat_free(&seat);
}

/* ---- Each allocation fails in turn ---- */

static void failing_additions(void) {
    hibitset_atomic_t set;
    hibitset_status status;
    long met = -1;
    do {
        set = hibitset_atomic_new();
        allocations_left = ++met;
        status = hibitset_atomic_add(&set, 70000);
        allocations_left = -1;
        CHECK(hibitset_atomic_contains(&set, 70000) == (status == HIBITSET_OK) && met < 20);
        CHECK(hibitset_atomic_add(&set, 70000) == (status == HIBITSET_OK ? HIBITSET_PRESENT : HIBITSET_OK));
        allocations_left = 0;
        CHECK(hibitset_atomic_add(&set, 70001) == HIBITSET_OK);
        allocations_left = -1;
        hibitset_atomic_free(&set);
    } while (status != HIBITSET_OK);
    CHECK(met > 2);
}

static void failing_shares(void) {
    hibitset_atomic_t set = hibitset_atomic_new();
    hibitset_seat_t seat = hibitset_seat_new();
    hibitset_status status;
    long met = -1;
    CHECK(hibitset_atomic_add(&set, 70000) == HIBITSET_OK);
    do {
        allocations_left = ++met;
        status = hibitset_atomic_share(&set, &seat);
        allocations_left = -1;
        if (status == HIBITSET_OK) break;
        CHECK(status == HIBITSET_NO_MEMORY && met < 20);
        CHECK(hibitset_atomic_len(&set) == 1 && hibitset_atomic_contains(&set, 70000) && !hibitset_seat_is_whole(&seat));
    } while (true);
    CHECK(met > 1 && hibitset_seat_contains(&seat, 70000));
    hibitset_seat_free(&seat);
}

static void failing_divisions(void) {
    static const uint32_t old[] = {70000};
    hibitset_seat_t seat = shared(old, 1), other = hibitset_seat_new();
    int round;
    for (round = 0; round < 2; round++) {
        hibitset_status status;
        long met = -1;
        do {
            allocations_left = ++met;
            status = hibitset_seat_divide(&seat, &other);
            allocations_left = -1;
            if (status == HIBITSET_OK) break;
            CHECK(status == HIBITSET_NO_MEMORY && met < 20 && hibitset_seat_is_whole(&seat) == (round == 0));
            CHECK(hibitset_seat_contains(&seat, 70000) && hibitset_seat_contains(&other, 70000) == (round == 1));
        } while (true);
        /* The block of the set is made once. */
        CHECK(met == 2 - round && hibitset_seat_contains(&other, 70000));
    }
    hibitset_seat_free(&other);
    hibitset_seat_free(&seat);
}

static void failing_ends(void) {
    static const uint32_t old[] = {70000, 3};
    hibitset_seat_t seat = shared(old, 2);
    hibitset_t set = hibitset_new();
    hibitset_atomic_t alone = hibitset_atomic_new();
    long met = -1;
    CHECK(hibitset_atomic_add(&alone, 12) == HIBITSET_OK);
    for (;;) {
        allocations_left = ++met;
        if (hibitset_seat_collect(&seat, &set) == HIBITSET_OK) break;
        allocations_left = -1;
        CHECK(met < 20 && hibitset_len(&set) < 2 && hibitset_seat_is_whole(&seat));
        hibitset_free(&set);
    }
    CHECK(met > 1 && hibitset_len(&set) == 2);
    for (met = 0;; met++) {
        allocations_left = met;
        if (hibitset_seat_settle(&seat, &alone) == HIBITSET_OK) break;
        allocations_left = -1;
        CHECK(met < 20 && hibitset_seat_contains(&seat, 3) && hibitset_atomic_len(&alone) == 1);
    }
    CHECK(met > 1);
    /* No addition to a settled set allocates. */
    allocations_left = 0;
    CHECK(hibitset_atomic_len(&alone) == 2 && hibitset_atomic_add(&alone, HIBITSET_ATOMIC_MAX_EID - 1) == HIBITSET_OK);
    allocations_left = -1;
    hibitset_atomic_free(&alone);
    hibitset_free(&set);
}

/* ---- Threads that add to one set, each with its seat ---- */

enum { THREADS = 4, ADDED = 60000 };

struct worker {
    hibitset_seat_t seat;
    uint32_t step;
    size_t fresh;
    bool keeps; /* Else it frees its seat when it ends. */
};

/* Adds the multiples of the step, and looks at each of them at once. */
static void *add_multiples(void *param) {
    struct worker *worker = param;
    uint32_t index;
    for (index = 0; index < ADDED; index += worker->step) {
        hibitset_status status = hibitset_seat_add(&worker->seat, index);
        CHECK(!hibitset_failed(status));
        worker->fresh += status == HIBITSET_OK;
        CHECK(hibitset_seat_contains(&worker->seat, index));
    }
    if (!worker->keeps) hibitset_seat_free(&worker->seat);
    return NULL;
}

/* Walks until it finds what the last thread adds last. */
static void watch(hibitset_seat_t *seat) {
    hibitset_t set = hibitset_new();
    size_t before = 0, len;
    do {
        CHECK(hibitset_seat_collect(seat, &set) == HIBITSET_OK);
        len = hibitset_len(&set);
        CHECK(len >= before && hibitset_contains(&set, 1));
        before = len;
    } while (!hibitset_seat_contains(seat, ADDED - 1));
    hibitset_free(&set);
}

static void many_adders(void) {
    static const uint32_t old[] = {1, 30};
    static const uint32_t steps[THREADS] = {2, 3, 5, 1};
    hibitset_seat_t seats[THREADS + 1];
    struct worker workers[THREADS];
    pthread_t threads[THREADS];
    hibitset_atomic_t set = hibitset_atomic_new();
    size_t fresh = 0;
    int i;
    for (i = 0; i <= THREADS; i++) seats[i] = hibitset_seat_new();
    seats[0] = shared(old, 2);
    CHECK(hibitset_seat_divide_among(seats, THREADS + 1) == HIBITSET_OK);
    for (i = 0; i < THREADS; i++) {
        workers[i].seat = seats[i + 1];
        workers[i].step = steps[i];
        workers[i].fresh = 0;
        workers[i].keeps = i == 0;
        CHECK(pthread_create(&threads[i], NULL, add_multiples, &workers[i]) == 0);
    }
    watch(&seats[0]);
    for (i = 0; i < THREADS; i++) {
        CHECK(pthread_join(threads[i], NULL) == 0);
        fresh += workers[i].fresh;
    }
    /* Each index was new to one call alone. */
    CHECK(fresh == ADDED - 2 && !hibitset_seat_is_whole(&seats[0]));
    CHECK(hibitset_seat_settle(&seats[0], &set) == HIBITSET_SHARED);
    hibitset_seat_free(&workers[0].seat);
    CHECK(hibitset_seat_settle(&seats[0], &set) == HIBITSET_OK && hibitset_atomic_len(&set) == ADDED);
    hibitset_atomic_free(&set);
}

int main(void) {
    random_changes();
    ends_of_the_range();
    without_a_seat();
    on_one_thread();
    shares();
    failing_additions();
    failing_shares();
    failing_divisions();
    failing_ends();
    many_adders();
    puts("test_atomic.c: ok");
    return 0;
}
