/* Tests of the functions on streams. They end with status 0, or say which line failed. */
#include "testing.h"

/* ---- Streams that are written ---- */

/* The stream of a set, in a block of its size, after all buffers that are too short were refused. */
static uint8_t *stream_of(const hibitset_t *set, size_t *len) {
    size_t taken = 7, i;
    uint8_t *bytes;
    *len = hibitset_roaring_len(set);
    CHECK((bytes = malloc(*len + 3)) != NULL);
    memset(bytes, 0xa5, *len + 3);
    CHECK(hibitset_roaring_write(set, bytes, *len - 1, &taken) == HIBITSET_SHORT_BUFFER && taken == *len);
    CHECK(hibitset_roaring_write(set, NULL, 0, &taken) == HIBITSET_SHORT_BUFFER && taken == *len);
    for (i = 0; i < *len + 3; i++) CHECK(bytes[i] == 0xa5);
    CHECK(hibitset_roaring_write(set, bytes, *len + 3, &taken) == HIBITSET_OK && taken == *len);
    for (i = *len; i < *len + 3; i++) CHECK(bytes[i] == 0xa5);
    free(bytes);
    CHECK((bytes = malloc(*len)) != NULL);
    CHECK(hibitset_roaring_write(set, bytes, *len, &taken) == HIBITSET_OK && taken == *len);
    return bytes;
}

/* A sparse set of the same members has the same stream, and is read of it in the place of another one. */
static void check_sparse(const hibitset_t *of, const uint8_t *bytes, size_t len) {
    hibitset_sparse_t set = hibitset_sparse_new(), copy = hibitset_sparse_new();
    hibitset_fault fault = (hibitset_fault)7;
    uint32_t last = 0;
    size_t taken = 7, at = 7, i;
    uint8_t *buffer = malloc(len + 3);
    CHECK(buffer != NULL && hibitset_sparse_assign_dense(&set, of) == HIBITSET_OK && hibitset_sparse_roaring_len(&set) == len);
    memset(buffer, 0xa5, len + 3);
    CHECK(hibitset_sparse_roaring_write(&set, buffer, len - 1, &taken) == HIBITSET_SHORT_BUFFER && taken == len);
    CHECK(hibitset_sparse_roaring_write(&set, NULL, 0, &taken) == HIBITSET_SHORT_BUFFER && taken == len);
    for (i = 0; i < len + 3; i++) CHECK(buffer[i] == 0xa5);
    taken = 7;
    CHECK(hibitset_sparse_roaring_write(&set, buffer, len + 3, &taken) == HIBITSET_OK && taken == len);
    CHECK(memcmp(buffer, bytes, len) == 0 && buffer[len] == 0xa5 && buffer[len + 2] == 0xa5);
    CHECK(hibitset_sparse_roaring_write(&set, buffer, len, &taken) == HIBITSET_OK && memcmp(buffer, bytes, len) == 0);
    CHECK(hibitset_sparse_add(&copy, 12345) == HIBITSET_OK);
    CHECK(hibitset_sparse_roaring_read(&copy, bytes, len, &fault, &at) == HIBITSET_OK && hibitset_sparse_equals(&copy, &set));
    CHECK(fault == 7 && at == 7);
    if (hibitset_last(of, &last)) {
        CHECK(hibitset_sparse_roaring_read_below(&copy, bytes, len, last / 65536, &fault, &at) == HIBITSET_MALFORMED);
        CHECK(fault == HIBITSET_FAULT_KEY_OUT_OF_RANGE && hibitset_sparse_equals(&copy, &set));
    }
    CHECK(hibitset_sparse_roaring_read_below(&copy, bytes, len, last / 65536 + 1, &fault, &at) == HIBITSET_OK);
    CHECK(hibitset_sparse_equals(&copy, &set));
    free(buffer);
    hibitset_sparse_free(&set);
    hibitset_sparse_free(&copy);
}

/* A set is written, and read in the place of another one. */
static void check_round_trip(const hibitset_t *set) {
    hibitset_t copy = hibitset_new();
    hibitset_fault fault = (hibitset_fault)7;
    uint32_t last = 0;
    size_t len, at = 7;
    uint8_t *bytes = stream_of(set, &len);
    CHECK(hibitset_add(&copy, 12345) == HIBITSET_OK);
    CHECK(hibitset_roaring_read(&copy, bytes, len, &fault, &at) == HIBITSET_OK && hibitset_equals(&copy, set));
    CHECK(fault == 7 && at == 7);
    if (hibitset_last(set, &last)) {
        CHECK(hibitset_roaring_read_below(&copy, bytes, len, last / 65536, &fault, &at) == HIBITSET_MALFORMED);
        CHECK(fault == HIBITSET_FAULT_KEY_OUT_OF_RANGE && hibitset_equals(&copy, set));
    }
    CHECK(hibitset_roaring_read_below(&copy, bytes, len, last / 65536 + 1, &fault, &at) == HIBITSET_OK);
    CHECK(hibitset_equals(&copy, set));
    check_sparse(set, bytes, len);
    free(bytes);
    hibitset_free(&copy);
}

static void round_trips(void) {
    hibitset_t set = hibitset_new();
    uint32_t round, i, bound, end;
    check_round_trip(&set);
    for (round = 0; round < 60; round++) {
        bound = 1u << random_below(21);
        for (i = random_below(round < 10 ? 4 : 6000); i > 0; i--) CHECK(!hibitset_failed(hibitset_add(&set, random_below(bound))));
        if (round % 3 == 0) {
            end = random_below(bound);
            CHECK(hibitset_flip_range(&set, end / 2, end) == HIBITSET_OK);
        }
        check_round_trip(&set);
        if (round % 7 == 0) hibitset_clear(&set);
    }
    CHECK(hibitset_add(&set, HIBITSET_MAX_EID - 1) == HIBITSET_OK);
    check_round_trip(&set);
    hibitset_free(&set);
}

/* ---- Streams of another library ---- */

/* {1, 2, 65539}, as CRoaring writes it */
static const uint8_t arrays[] = {
    0x3a, 0x30, 0, 0, 2, 0, 0, 0, 0, 0, 1, 0, 1, 0, 0, 0, 24, 0, 0, 0, 28, 0, 0, 0, 1, 0, 2, 0, 3, 0};

/* 0 to 99 */
static const uint8_t one_run[] = {0x3b, 0x30, 0, 0, 1, 0, 0, 99, 0, 1, 0, 0, 0, 99, 0};

/* 0 and 1, 3 and 4 */
static const uint8_t two_runs[] = {0x3b, 0x30, 0, 0, 1, 0, 0, 3, 0, 2, 0, 0, 0, 1, 0, 3, 0, 1, 0};

static void check_list(const uint8_t *bytes, size_t len, const uint32_t *list, size_t members) {
    hibitset_t set = hibitset_new();
    hibitset_sparse_t sparse = hibitset_sparse_new();
    hibitset_fault fault;
    size_t at, i;
    CHECK(hibitset_roaring_read(&set, bytes, len, &fault, &at) == HIBITSET_OK && hibitset_len(&set) == members);
    CHECK(hibitset_sparse_roaring_read(&sparse, bytes, len, &fault, &at) == HIBITSET_OK && hibitset_sparse_len(&sparse) == members);
    for (i = 0; i < members; i++) CHECK(hibitset_contains(&set, list[i]) && hibitset_sparse_contains(&sparse, list[i]));
    hibitset_free(&set);
    hibitset_sparse_free(&sparse);
}

static void streams_of_another_library(void) {
    static const uint32_t of_arrays[] = {1, 2, 65539}, of_two_runs[] = {0, 1, 3, 4};
    hibitset_t set = hibitset_new();
    uint32_t hundred[100], i;
    size_t len;
    uint8_t *bytes;
    for (i = 0; i < 100; i++) hundred[i] = i;
    check_list(arrays, sizeof arrays, of_arrays, 3);
    check_list(one_run, sizeof one_run, hundred, 100);
    check_list(two_runs, sizeof two_runs, of_two_runs, 4);
    for (i = 0; i < 3; i++) CHECK(hibitset_add(&set, of_arrays[i]) == HIBITSET_OK);
    bytes = stream_of(&set, &len);
    CHECK(len == sizeof arrays && memcmp(bytes, arrays, len) == 0);
    free(bytes);
    hibitset_free(&set);
}

/* ---- Bytes that are no stream ---- */

static void check_sparse_refused(const uint8_t *bytes, size_t len, uint32_t wanted, size_t position) {
    hibitset_sparse_t set = hibitset_sparse_new();
    hibitset_fault fault = (hibitset_fault)0;
    size_t at = SIZE_MAX;
    CHECK(hibitset_sparse_roaring_read(&set, bytes, len, &fault, &at) == HIBITSET_MALFORMED && hibitset_sparse_is_empty(&set));
    CHECK(fault == wanted && at == position && hibitset_sparse_add(&set, 12345) == HIBITSET_OK);
    CHECK(hibitset_sparse_roaring_read_below(&set, bytes, len, UINT32_MAX, &fault, &at) == HIBITSET_MALFORMED);
    CHECK(fault == wanted && at == position && hibitset_sparse_len(&set) == 1 && hibitset_sparse_contains(&set, 12345));
    hibitset_sparse_free(&set);
}

/* Reads bytes into a set of one member, and sees that they are refused for this fault, at this position. */
static void check_refused(const uint8_t *bytes, size_t len, uint32_t wanted, size_t position) {
    hibitset_t set = hibitset_new();
    hibitset_fault fault = (hibitset_fault)0;
    size_t at = SIZE_MAX;
    CHECK(hibitset_add(&set, 12345) == HIBITSET_OK);
    CHECK(hibitset_roaring_read(&set, bytes, len, &fault, &at) == HIBITSET_MALFORMED);
    CHECK(fault == wanted && at == position);
    CHECK(hibitset_len(&set) == 1 && hibitset_contains(&set, 12345) && hibitset_capacity(&set) == 12352);
    hibitset_free(&set);
    check_sparse_refused(bytes, len, wanted, position);
}

/* Where the part of `arrays` begins in which a stream of `len` bytes ends. */
static size_t cut_at(size_t len) { return len < 24 ? 0 : len < 28 ? 24 : 28; }

static void prefixes(void) {
    size_t len;
    uint8_t *bytes;
    check_refused(NULL, 0, HIBITSET_FAULT_TOO_SHORT, 0);
    for (len = 1; len < sizeof arrays; len++) {
        CHECK((bytes = malloc(len)) != NULL);
        memcpy(bytes, arrays, len);
        check_refused(bytes, len, HIBITSET_FAULT_TOO_SHORT, cut_at(len));
        free(bytes);
    }
}

/* A stream two of whose bytes are changed. */
struct changed {
    const uint8_t *stream;
    size_t len, first, second;
    uint8_t first_byte, second_byte;
    hibitset_fault fault;
    size_t at;
};

static void malformed(void) {
    static const struct changed rows[] = {
        {arrays, sizeof arrays, 0, 1, 0, 0x30, HIBITSET_FAULT_BAD_COOKIE, 0},
        {arrays, sizeof arrays, 4, 6, 2, 1, HIBITSET_FAULT_TOO_MANY_CONTAINERS, 4},
        {arrays, sizeof arrays, 12, 13, 0, 0, HIBITSET_FAULT_KEYS_NOT_ASCENDING, 12},
        {arrays, sizeof arrays, 12, 13, 0, 0x40, HIBITSET_FAULT_KEY_OUT_OF_RANGE, 12},
        {arrays, sizeof arrays, 16, 17, 25, 0, HIBITSET_FAULT_WRONG_OFFSET, 16},
        {arrays, sizeof arrays, 26, 27, 1, 0, HIBITSET_FAULT_NOT_ASCENDING, 26},
        {one_run, sizeof one_run, 7, 8, 98, 0, HIBITSET_FAULT_WRONG_CARDINALITY, 9},
        {one_run, sizeof one_run, 11, 12, 0xc0, 0xff, HIBITSET_FAULT_RUN_PAST_END, 13},
        {two_runs, sizeof two_runs, 15, 16, 2, 0, HIBITSET_FAULT_RUNS_NOT_APART, 15},
    };
    uint8_t bytes[sizeof arrays + 1];
    size_t i;
    for (i = 0; i < sizeof rows / sizeof *rows; i++) {
        memcpy(bytes, rows[i].stream, rows[i].len);
        bytes[rows[i].first] = rows[i].first_byte;
        bytes[rows[i].second] = rows[i].second_byte;
        check_refused(bytes, rows[i].len, rows[i].fault, rows[i].at);
    }
    memcpy(bytes, arrays, sizeof arrays);
    bytes[sizeof arrays] = 0;
    check_refused(bytes, sizeof bytes, HIBITSET_FAULT_TOO_LONG, sizeof arrays);
}

static void bounds(void) {
    hibitset_t set = hibitset_new();
    hibitset_fault fault;
    size_t at;
    CHECK(hibitset_roaring_read_below(&set, arrays, sizeof arrays, 1, &fault, &at) == HIBITSET_MALFORMED);
    CHECK(fault == HIBITSET_FAULT_KEY_OUT_OF_RANGE && at == 12 && hibitset_is_empty(&set));
    CHECK(hibitset_roaring_read_below(&set, arrays, sizeof arrays, 2, &fault, &at) == HIBITSET_OK);
    CHECK(hibitset_len(&set) == 3 && hibitset_capacity(&set) <= 2 * 65536);
    CHECK(hibitset_roaring_read_below(&set, arrays, sizeof arrays, UINT32_MAX, &fault, &at) == HIBITSET_OK);
    CHECK(hibitset_roaring_read_below(&set, arrays, sizeof arrays, 0, &fault, &at) == HIBITSET_MALFORMED && at == 8);
    CHECK(hibitset_len(&set) == 3);
    hibitset_free(&set);
}

static void sparse_bounds(void) {
    hibitset_sparse_t set = hibitset_sparse_new();
    hibitset_fault fault;
    size_t at;
    CHECK(hibitset_sparse_roaring_read_below(&set, arrays, sizeof arrays, 1, &fault, &at) == HIBITSET_MALFORMED);
    CHECK(fault == HIBITSET_FAULT_KEY_OUT_OF_RANGE && at == 12 && hibitset_sparse_is_empty(&set));
    CHECK(hibitset_sparse_roaring_read_below(&set, arrays, sizeof arrays, 2, &fault, &at) == HIBITSET_OK);
    CHECK(hibitset_sparse_roaring_read_below(&set, arrays, sizeof arrays, UINT32_MAX, &fault, &at) == HIBITSET_OK);
    CHECK(hibitset_sparse_roaring_read_below(&set, arrays, sizeof arrays, 0, &fault, &at) == HIBITSET_MALFORMED && at == 8);
    CHECK(hibitset_sparse_len(&set) == 3);
    hibitset_sparse_free(&set);
}

/* ---- Each allocation fails in turn ---- */

/* Reads a stream into a set with or without members, the first `met` allocations of which succeed. Returns whether all did. */
static bool read_meets(bool has_member, long met) {
    hibitset_t set = hibitset_new();
    hibitset_fault fault = (hibitset_fault)7;
    size_t at = 7;
    hibitset_status status;
    if (has_member) CHECK(hibitset_add(&set, 5) == HIBITSET_OK);
    allocations_left = met;
    status = hibitset_roaring_read(&set, arrays, sizeof arrays, &fault, &at);
    allocations_left = -1;
    CHECK(fault == 7 && at == 7);
    if (status != HIBITSET_OK) {
        CHECK(status == HIBITSET_NO_MEMORY && hibitset_len(&set) == has_member && hibitset_contains(&set, 5) == has_member);
        CHECK(hibitset_roaring_read(&set, arrays, sizeof arrays, &fault, &at) == HIBITSET_OK);
    }
    CHECK(hibitset_len(&set) == 3 && hibitset_contains(&set, 65539));
    hibitset_free(&set);
    return status == HIBITSET_OK;
}

static bool write_meets(const hibitset_t *set, long met) {
    uint8_t bytes[sizeof arrays];
    size_t taken = 7, i;
    hibitset_status status;
    memset(bytes, 0xa5, sizeof bytes);
    allocations_left = met;
    status = hibitset_roaring_write(set, bytes, sizeof bytes, &taken);
    allocations_left = -1;
    if (status != HIBITSET_OK) {
        CHECK(status == HIBITSET_NO_MEMORY && taken == 7);
        for (i = 0; i < sizeof bytes; i++) CHECK(bytes[i] == 0xa5);
        CHECK(hibitset_roaring_write(set, bytes, sizeof bytes, &taken) == HIBITSET_OK);
    }
    CHECK(taken == sizeof arrays && memcmp(bytes, arrays, sizeof bytes) == 0);
    return status == HIBITSET_OK;
}

/* The same of sparse sets. */
static bool sparse_read_meets(bool has_member, long met) {
    hibitset_sparse_t set = hibitset_sparse_new();
    hibitset_fault fault = (hibitset_fault)7;
    size_t at = 7;
    hibitset_status status;
    if (has_member) CHECK(hibitset_sparse_add(&set, 5) == HIBITSET_OK);
    allocations_left = met;
    status = hibitset_sparse_roaring_read(&set, arrays, sizeof arrays, &fault, &at);
    allocations_left = -1;
    CHECK(fault == 7 && at == 7);
    if (status != HIBITSET_OK) {
        CHECK(status == HIBITSET_NO_MEMORY && hibitset_sparse_len(&set) == has_member);
        CHECK(hibitset_sparse_contains(&set, 5) == has_member);
        CHECK(hibitset_sparse_roaring_read(&set, arrays, sizeof arrays, &fault, &at) == HIBITSET_OK);
    }
    CHECK(hibitset_sparse_len(&set) == 3 && hibitset_sparse_contains(&set, 65539));
    hibitset_sparse_free(&set);
    return status == HIBITSET_OK;
}

static bool sparse_write_meets(hibitset_sparse_t *set, long met) {
    uint8_t bytes[sizeof arrays];
    size_t taken = 7, i;
    hibitset_status status;
    memset(bytes, 0xa5, sizeof bytes);
    allocations_left = met;
    status = hibitset_sparse_roaring_write(set, bytes, sizeof bytes, &taken);
    allocations_left = -1;
    if (status != HIBITSET_OK) {
        CHECK(status == HIBITSET_NO_MEMORY && taken == 7);
        for (i = 0; i < sizeof bytes; i++) CHECK(bytes[i] == 0xa5);
        CHECK(hibitset_sparse_roaring_write(set, bytes, sizeof bytes, &taken) == HIBITSET_OK);
    }
    CHECK(taken == sizeof arrays && memcmp(bytes, arrays, sizeof bytes) == 0);
    return status == HIBITSET_OK;
}

static void sparse_failing_allocations(void) {
    hibitset_sparse_t set = hibitset_sparse_new();
    hibitset_fault fault;
    size_t at;
    int has_member;
    long met;
    for (has_member = 0; has_member < 2; has_member++) {
        for (met = 0; !sparse_read_meets(has_member, met); met++) CHECK(met < 100);
        CHECK(met > 0);
    }
    CHECK(hibitset_sparse_roaring_read(&set, arrays, sizeof arrays, &fault, &at) == HIBITSET_OK);
    for (met = 0; !sparse_write_meets(&set, met); met++) CHECK(met < 100);
    CHECK(met > 0);
    allocations_left = 0;
    CHECK(hibitset_sparse_roaring_len(&set) == sizeof arrays);
    allocations_left = -1;
    hibitset_sparse_free(&set);
}

static void failing_allocations(void) {
    hibitset_t set = hibitset_new();
    hibitset_fault fault;
    size_t at;
    long met;
    for (met = 0; !read_meets(false, met); met++) CHECK(met < 6);
    CHECK(met == 2);
    for (met = 0; !read_meets(true, met); met++) CHECK(met < 6);
    CHECK(met == 1);
    CHECK(hibitset_roaring_read(&set, arrays, sizeof arrays, &fault, &at) == HIBITSET_OK);
    for (met = 0; !write_meets(&set, met); met++) CHECK(met < 6);
    CHECK(met == 2);
    allocations_left = 0;
    CHECK(hibitset_roaring_len(&set) == sizeof arrays);
    allocations_left = -1;
    hibitset_free(&set);
}

int main(void) {
    round_trips();
    streams_of_another_library();
    prefixes();
    malformed();
    bounds();
    sparse_bounds();
    failing_allocations();
    sparse_failing_allocations();
    puts("test_roaring.c: ok");
    return 0;
}
