/* Tests of each function on a hibitset_sparse_t, beside a model and beside dense sets. They end with status 0, or say which
 * line failed. */
#include "testing.h"
#include <pthread.h>

/* ---- One set beside its model, a byte for each of RANGE indices from `base` on ---- */

enum { RANGE = 300000 };

/* Where the indices of a model begin: at the first index, across the borders of blocks of 262,144, and at the last ones. */
static const uint32_t bases[] = {0, 262144 * 700 - 1000, HIBITSET_MAX_EID - RANGE};

static bool visit_in_order(uint32_t index, void *param) {
    uint32_t **next = param;
    CHECK(*(*next)++ == index);
    return true;
}

static bool stop_at_once(uint32_t index, void *param) {
    *(uint32_t *)param = index;
    return false;
}

static void check_forwards(hibitset_sparse_t *set, const uint32_t *list, size_t from, size_t members, uint32_t start) {
    uint32_t buffer[64];
    size_t count, i;
    do {
        memset(buffer, 0xa5, sizeof buffer);
        count = hibitset_sparse_next_many(set, start, buffer, 64);
        CHECK(count == (members - from < 64 ? members - from : 64));
        for (i = 0; i < count; i++) CHECK(buffer[i] == list[from++]);
        for (; i < 64; i++) CHECK(buffer[i] == 0xa5a5a5a5u);
        if (count > 0) start = buffer[count - 1] + 1;
    } while (count == 64);
    CHECK(from == members);
}

static void check_backwards(hibitset_sparse_t *set, const uint32_t *list, size_t before, uint32_t end) {
    uint32_t buffer[64];
    size_t count, i;
    do {
        memset(buffer, 0xa5, sizeof buffer);
        count = hibitset_sparse_prev_many(set, end, buffer, 64);
        CHECK(count == (before < 64 ? before : 64));
        for (i = 0; i < count; i++) CHECK(buffer[i] == list[--before]);
        for (; i < 64; i++) CHECK(buffer[i] == 0xa5a5a5a5u);
        if (count > 0) end = buffer[count - 1];
    } while (count == 64);
    CHECK(before == 0);
}

static void check_order(hibitset_sparse_t *set, const uint32_t *list, size_t members, uint32_t base) {
    uint32_t start = base + random_below(RANGE + 100), end = start + random_below(1000), index = 12345;
    size_t before = 0, until, at = random_below((uint32_t)members + 2);
    while (before < members && list[before] < start) before++;
    until = before;
    while (until < members && list[until] < end) until++;
    CHECK(hibitset_sparse_rank(set, start) == before && hibitset_sparse_rank(set, end) == until);
    CHECK(hibitset_sparse_rank(set, UINT32_MAX) == members && hibitset_sparse_len_range(set, 0, UINT32_MAX) == members);
    CHECK(hibitset_sparse_len_range(set, start, end) == until - before && hibitset_sparse_len_range(set, end, start) == 0);
    CHECK(hibitset_sparse_last_before(set, start, &index) == (before > 0));
    CHECK(index == (before > 0 ? list[before - 1] : 12345));
    index = 12345;
    CHECK(hibitset_sparse_select(set, at, &index) == (at < members));
    CHECK(index == (at < members ? list[at] : 12345));
    check_forwards(set, list, 0, members, 0);
    check_forwards(set, list, before, members, start);
    check_backwards(set, list, before, start);
    check_backwards(set, list, members, UINT32_MAX);
}

/* How many of the members begin a new one of the blocks of so many indices. */
static size_t blocks_of(const uint32_t *list, size_t members, uint32_t size) {
    size_t blocks = members > 0, i;
    for (i = 1; i < members; i++) blocks += list[i] / size != list[i - 1] / size;
    return blocks;
}

static void check_memory(hibitset_sparse_t *set, const uint32_t *list, size_t members) {
    CHECK(hibitset_sparse_memory(set) == 8 * blocks_of(list, members, 64) + 16 * blocks_of(list, members, 4096) +
                                             56 * blocks_of(list, members, 262144) + 16 * blocks_of(list, members, 16777216));
}

/* Members and indices at random; the first three are the first index and two out of range. */
static void some_indices(uint32_t *indices, size_t len, const uint32_t *list, size_t members, uint32_t base) {
    size_t i;
    for (i = 0; i < len; i++) {
        indices[i] = members > 0 && random_below(2) == 0 ? list[random_below((uint32_t)members)] : base + random_below(RANGE);
    }
    if (len > 2) indices[0] = 0, indices[1] = HIBITSET_MAX_EID, indices[2] = UINT32_MAX;
}

/* Lists of `len` items, into buffers of `room`. What lies behind the written items stays. */
static void check_lists(hibitset_sparse_t *set, const uint32_t *list, size_t members, uint32_t base, size_t len, size_t room) {
    uint32_t indices[200] = {0}, found[201];
    uint64_t positions[200], ranks[201];
    uint8_t bytes[201];
    size_t count = len < room ? len : room, end = count, i;
    CHECK(len <= 200 && room <= 200);
    some_indices(indices, len, list, members, base);
    memset(bytes, 7, sizeof bytes);
    memset(ranks, 7, sizeof ranks);
    memset(found, 7, sizeof found);
    CHECK(hibitset_sparse_contains_many(set, indices, len, bytes, room) == count);
    for (i = 0; i < count; i++) CHECK(bytes[i] == hibitset_sparse_contains(set, indices[i]));
    for (; i < 201; i++) CHECK(bytes[i] == 7);
    CHECK(hibitset_sparse_rank_many(set, indices, len, ranks, room) == count);
    for (i = 0; i < count; i++) CHECK(ranks[i] == hibitset_sparse_rank(set, indices[i]));
    for (; i < 201; i++) CHECK(ranks[i] == UINT64_C(0x0707070707070707));
    for (i = 0; i < len; i++) positions[i] = members > 0 ? random_below((uint32_t)members) : 0;
    if (len > 0 && random_below(2) == 0) positions[random_below((uint32_t)len)] = members + random_below(2);
    for (i = count; i > 0; i--) {
        if (positions[i - 1] >= members) end = i - 1;
    }
    CHECK(hibitset_sparse_select_many(set, positions, len, found, room) == end);
    for (i = 0; i < end; i++) CHECK(found[i] == list[positions[i]]);
    for (; i < 201; i++) CHECK(found[i] == 0x07070707);
}

static void check_ids(hibitset_sparse_t *set, uint32_t start, uint64_t added) {
    uint32_t indices[64];
    uint64_t ids[65];
    size_t count, i;
    memset(ids, 7, sizeof ids);
    count = hibitset_sparse_next_many(set, start, indices, 64);
    CHECK(hibitset_sparse_next_many_u64(set, start, added, ids, 64) == count);
    for (i = 0; i < count; i++) CHECK(ids[i] == added + indices[i]);
    for (; i < 65; i++) CHECK(ids[i] == UINT64_C(0x0707070707070707));
}

static void check_members(hibitset_sparse_t *set, const unsigned char *model, uint32_t base) {
    static uint32_t list[RANGE];
    uint32_t index = 12345, *next = list, i;
    size_t members = 0;
    for (i = 0; i < RANGE; i++) {
        if (model[i]) list[members++] = base + i;
    }
    CHECK(hibitset_sparse_len(set) == members && hibitset_sparse_is_empty(set) == (members == 0));
    CHECK(hibitset_sparse_first(set, &index) == (members > 0) && index == (members > 0 ? list[0] : 12345));
    index = 12345;
    CHECK(hibitset_sparse_last(set, &index) == (members > 0) && index == (members > 0 ? list[members - 1] : 12345));
    check_order(set, list, members, base);
    check_memory(set, list, members);
    check_lists(set, list, members, base, random_below(201), random_below(3) ? 200 : random_below(201));
    check_ids(set, base + random_below(RANGE), UINT64_MAX - random_below(3) * (uint64_t)base);
    CHECK(hibitset_sparse_iterate(set, visit_in_order, &next) && next == list + members);
    CHECK(hibitset_sparse_iterate(set, stop_at_once, &index) == (members == 0));
    CHECK(members == 0 || index == list[0]);
    for (i = 0; i < 200; i++) {
        index = random_below(RANGE);
        CHECK(hibitset_sparse_contains(set, base + index) == (bool)model[index]);
    }
}

/* ---- Two sets beside their models, and beside dense sets ---- */

static void check_pair(hibitset_sparse_t *x, hibitset_sparse_t *y, const unsigned char *a, const unsigned char *b) {
    size_t both = 0, first = 0, second = 0, i;
    for (i = 0; i < RANGE; i++) {
        both += a[i] & b[i];
        first += a[i] & !b[i];
        second += b[i] & !a[i];
    }
    CHECK(hibitset_sparse_is_disjoint(x, y) == (both == 0));
    CHECK(hibitset_sparse_is_subset(x, y) == (first == 0) && hibitset_sparse_is_subset(y, x) == (second == 0));
    CHECK(hibitset_sparse_equals(x, y) == (first + second == 0));
    CHECK(hibitset_sparse_equals(x, x) && hibitset_sparse_is_subset(x, x));
    CHECK(hibitset_sparse_is_disjoint(x, x) == hibitset_sparse_is_empty(x));
}

/* A dense set has the members of a sparse one. */
static void check_same(const hibitset_t *dense, hibitset_sparse_t *sparse) {
    uint32_t ours[256], theirs[256], start = 0;
    size_t count;
    CHECK(hibitset_len(dense) == hibitset_sparse_len(sparse));
    do {
        count = hibitset_next_many(dense, start, ours, 256);
        CHECK(hibitset_sparse_next_many(sparse, start, theirs, 256) == count);
        CHECK(memcmp(ours, theirs, count * sizeof *ours) == 0);
        if (count > 0) start = ours[count - 1] + 1;
    } while (count == 256);
}

typedef hibitset_status dense_by_sparse(hibitset_t *set, hibitset_sparse_t *other);
typedef hibitset_status sparse_by_dense(hibitset_sparse_t *set, const hibitset_t *other);
typedef hibitset_status sparse_by_sparse(hibitset_sparse_t *set, hibitset_sparse_t *other);

static hibitset_status and_dense(hibitset_t *set, hibitset_sparse_t *other) { return hibitset_and_assign_sparse(set, other), HIBITSET_OK; }
static hibitset_status andnot_dense(hibitset_t *set, hibitset_sparse_t *other) { return hibitset_andnot_assign_sparse(set, other), HIBITSET_OK; }
static hibitset_status and_sparse(hibitset_sparse_t *set, const hibitset_t *other) { return hibitset_sparse_and_assign_dense(set, other), HIBITSET_OK; }
static hibitset_status andnot_sparse(hibitset_sparse_t *set, const hibitset_t *other) { return hibitset_sparse_andnot_assign_dense(set, other), HIBITSET_OK; }
static hibitset_status assign_two(hibitset_sparse_t *set, hibitset_sparse_t *other) { return hibitset_sparse_assign(set, other); }
static hibitset_status or_two(hibitset_sparse_t *set, hibitset_sparse_t *other) { return hibitset_sparse_or_assign(set, other); }
static hibitset_status xor_two(hibitset_sparse_t *set, hibitset_sparse_t *other) { return hibitset_sparse_xor_assign(set, other); }
static hibitset_status and_two(hibitset_sparse_t *set, hibitset_sparse_t *other) { return hibitset_sparse_and_assign(set, other), HIBITSET_OK; }
static hibitset_status andnot_two(hibitset_sparse_t *set, hibitset_sparse_t *other) { return hibitset_sparse_andnot_assign(set, other), HIBITSET_OK; }

static unsigned second(unsigned a, unsigned b) { return (void)a, b; }
static unsigned in_either(unsigned a, unsigned b) { return a | b; }
static unsigned in_one(unsigned a, unsigned b) { return a ^ b; }
static unsigned in_both(unsigned a, unsigned b) { return a & b; }
static unsigned in_first(unsigned a, unsigned b) { return a & !b; }

/* Each assignment, by its three pairs of kinds, and what it makes of a model. */
static const struct {
    sparse_by_sparse *two;
    dense_by_sparse *dense;
    sparse_by_dense *sparse;
    unsigned (*model)(unsigned a, unsigned b);
} assignments[] = {
    {assign_two, hibitset_assign_sparse, hibitset_sparse_assign_dense, second},
    {or_two, hibitset_or_assign_sparse, hibitset_sparse_or_assign_dense, in_either},
    {xor_two, hibitset_xor_assign_sparse, hibitset_sparse_xor_assign_dense, in_one},
    {and_two, and_dense, and_sparse, in_both},
    {andnot_two, andnot_dense, andnot_sparse, in_first},
};

/* The same assignment of the three pairs of kinds. `x` is assigned, and each operand stays. */
static void assign(hibitset_sparse_t *x, hibitset_sparse_t *y, unsigned char *a, const unsigned char *b, uint32_t base) {
    hibitset_t dense = hibitset_new(), operand = hibitset_new();
    hibitset_sparse_t third = hibitset_sparse_new();
    size_t which = random_below(5), i;
    CHECK(hibitset_assign_sparse(&dense, x) == HIBITSET_OK && hibitset_assign_sparse(&operand, y) == HIBITSET_OK);
    check_same(&operand, y);
    CHECK(hibitset_sparse_assign(&third, x) == HIBITSET_OK && hibitset_sparse_equals(&third, x));
    CHECK(assignments[which].two(x, y) == HIBITSET_OK);
    for (i = 0; i < RANGE; i++) a[i] = (unsigned char)assignments[which].model(a[i], b[i]);
    check_members(x, a, base);
    check_members(y, b, base);
    CHECK(assignments[which].dense(&dense, y) == HIBITSET_OK && assignments[which].sparse(&third, &operand) == HIBITSET_OK);
    check_same(&dense, x);
    check_same(&operand, y);
    CHECK(hibitset_sparse_equals(&third, x));
    hibitset_free(&dense);
    hibitset_free(&operand);
    hibitset_sparse_free(&third);
}

/* ---- Changes, at random ---- */

static void change_some(hibitset_sparse_t *set, unsigned char *model, uint32_t base, bool add) {
    uint32_t span = 1u << random_below(19), index;
    int i;
    for (i = 0; i < 500; i++) {
        index = random_below(span) % RANGE;
        if (add) {
            CHECK(hibitset_sparse_add(set, base + index) == (model[index] ? HIBITSET_PRESENT : HIBITSET_OK));
        } else {
            CHECK(hibitset_sparse_remove(set, base + index) == (bool)model[index]);
        }
        model[index] = add;
    }
}

static void add_list(hibitset_sparse_t *set, unsigned char *model, uint32_t base) {
    uint32_t list[300], index;
    size_t i, added = 7;
    for (i = 0; i < 300; i++) {
        index = random_below(RANGE);
        list[i] = base + index;
        model[index] = 1;
    }
    CHECK(hibitset_sparse_add_many(set, list, 300, &added) == HIBITSET_OK && added == 300);
}

/* A list that has some indices twice, and some that are no members. */
static void remove_list(hibitset_sparse_t *set, unsigned char *model, uint32_t base) {
    uint32_t list[302], index;
    size_t members = 0, i;
    for (i = 0; i < 300; i++) {
        index = random_below(RANGE) / (1 + random_below(3000));
        list[i] = base + index;
        members += model[index];
        model[index] = 0;
    }
    list[300] = HIBITSET_MAX_EID;
    list[301] = UINT32_MAX;
    CHECK(hibitset_sparse_remove_many(set, list, 302) == members && hibitset_sparse_remove_many(set, list, 302) == 0);
}

static void pop_some(hibitset_sparse_t *set, unsigned char *model, uint32_t base) {
    uint32_t first = 0, last = RANGE, index;
    int i;
    for (i = 0; i < 100; i++) {
        while (first < RANGE && !model[first]) first++;
        index = 12345;
        CHECK(hibitset_sparse_pop_first(set, &index) == (first < RANGE) && index == (first < RANGE ? base + first : 12345));
        if (first < RANGE) model[first] = 0;
        while (last > 0 && !model[last - 1]) last--;
        index = 12345;
        CHECK(hibitset_sparse_pop_last(set, &index) == (last > 0) && index == (last > 0 ? base + last - 1 : 12345));
        if (last > 0) model[last - 1] = 0;
    }
}

static void change(hibitset_sparse_t *x, hibitset_sparse_t *y, unsigned char *a, unsigned char *b, uint32_t base) {
    uint32_t i, start = random_below(RANGE), end = start + random_below(random_below(3) ? 300 : 100000);
    if (end > RANGE) end = RANGE;
    switch (random_below(12)) {
    case 0:
    case 1: change_some(x, a, base, true); break;
    case 2: change_some(x, a, base, false); break;
    case 3: add_list(x, a, base); break;
    case 4:
        CHECK(hibitset_sparse_add_range(x, base + start, base + end) == HIBITSET_OK);
        for (i = start; i < end; i++) a[i] = 1;
        break;
    case 5:
        hibitset_sparse_remove_range(x, base + start, base + end);
        for (i = start; i < end; i++) a[i] = 0;
        break;
    case 6:
        CHECK(hibitset_sparse_flip_range(x, base + start, base + end) == HIBITSET_OK);
        for (i = start; i < end; i++) a[i] = !a[i];
        break;
    case 7: pop_some(x, a, base); break;
    case 8:
        if (random_below(4) > 0) break;
        hibitset_sparse_clear(x);
        memset(a, 0, RANGE);
        break;
    case 9: hibitset_sparse_shrink_to_fit(x); break;
    case 10: remove_list(x, a, base); break;
    default: assign(x, y, a, b, base);
    }
}

static void random_changes(uint32_t base) {
    unsigned char *a = calloc(RANGE, 1), *b = calloc(RANGE, 1), *c;
    hibitset_sparse_t x = hibitset_sparse_new(), y = hibitset_sparse_new(), moved;
    int round;
    CHECK(a && b);
    for (round = 0; round < 150; round++) {
        change(&x, &y, a, b, base);
        check_members(&x, a, base);
        if (round % 8 == 0) check_pair(&x, &y, a, b);
        /* A set may be moved as bytes. */
        if (random_below(4) == 0) {
            moved = x, x = y, y = moved;
            c = a, a = b, b = c;
        }
    }
    hibitset_sparse_free(&x);
    hibitset_sparse_free(&y);
    hibitset_sparse_free(&x);
    CHECK(hibitset_sparse_is_empty(&x));
    free(a);
    free(b);
}

/* ---- Sets without members, and the ends of the range ---- */

/* The ways to have an empty set: the function, the macro, bytes that are 0, and a set that had a member. */
enum { WAYS = 4 };

static hibitset_sparse_t empty_set(int way) {
    static const hibitset_sparse_t init = HIBITSET_SPARSE_INIT, zero;
    hibitset_sparse_t set = hibitset_sparse_new();
    if (way == 1) return init;
    if (way == 2) return zero;
    if (way == 3) {
        CHECK(hibitset_sparse_add(&set, 70000) == HIBITSET_OK);
        hibitset_sparse_clear(&set);
    }
    return set;
}

/* Looks at an empty set by each function, and changes it by those that leave it so. None allocates. */
static void check_empty(hibitset_sparse_t *set, hibitset_sparse_t *other) {
    static const uint32_t indices[] = {0, 3};
    static const uint64_t positions[] = {0, 3};
    uint32_t index = 7, buffer[4] = {7, 7, 7, 7}, *next = buffer;
    uint64_t ids[4] = {7, 7, 7, 7};
    uint8_t found[4] = {7, 7, 7, 7};
    size_t added = 7;
    long before = allocations;
    CHECK(hibitset_sparse_contains_many(set, indices, 2, found, 4) == 2 && found[0] == 0 && found[1] == 0 && found[2] == 7);
    CHECK(hibitset_sparse_contains_many(set, NULL, 0, found, 4) == 0 && hibitset_sparse_contains_many(set, indices, 2, NULL, 0) == 0);
    CHECK(hibitset_sparse_next_many_u64(set, 0, 9, ids, 4) == 0 && hibitset_sparse_next_many_u64(set, 0, 9, NULL, 0) == 0);
    CHECK(hibitset_sparse_select_many(set, positions, 2, buffer, 4) == 0 && hibitset_sparse_select_many(set, NULL, 0, NULL, 0) == 0);
    CHECK(ids[0] == 7 && hibitset_sparse_rank_many(set, indices, 2, ids, 4) == 2 && ids[0] == 0 && ids[1] == 0 && ids[2] == 7);
    CHECK(hibitset_sparse_rank_many(set, NULL, 0, NULL, 0) == 0 && hibitset_sparse_memory(set) == 0);
    CHECK(hibitset_sparse_roaring_len(set) == 8 && hibitset_sparse_remove_many(set, indices, 2) == 0);
    CHECK(hibitset_sparse_remove_many(set, NULL, 0) == 0 && hibitset_sparse_len(set) == 0 && hibitset_sparse_is_empty(set) && !hibitset_sparse_contains(set, 0));
    CHECK(!hibitset_sparse_first(set, &index) && !hibitset_sparse_last(set, &index));
    CHECK(!hibitset_sparse_last_before(set, 9, &index) && !hibitset_sparse_select(set, 0, &index));
    CHECK(hibitset_sparse_rank(set, 9) == 0 && hibitset_sparse_len_range(set, 0, 9) == 0);
    CHECK(hibitset_sparse_next_many(set, 0, buffer, 4) == 0 && hibitset_sparse_prev_many(set, 9, buffer, 4) == 0);
    CHECK(hibitset_sparse_next_many(set, 0, NULL, 0) == 0 && hibitset_sparse_prev_many(set, 9, NULL, 0) == 0);
    CHECK(hibitset_sparse_iterate(set, visit_in_order, &next) && next == buffer);
    CHECK(!hibitset_sparse_remove(set, 3) && !hibitset_sparse_pop_first(set, &index) && !hibitset_sparse_pop_last(set, &index));
    CHECK(index == 7 && buffer[0] == 7 && buffer[3] == 7);
    hibitset_sparse_remove_range(set, 0, UINT32_MAX);
    hibitset_sparse_clear(set);
    CHECK(hibitset_sparse_add_range(set, 9, 9) == HIBITSET_OK && hibitset_sparse_flip_range(set, 9, 5) == HIBITSET_OK);
    CHECK(hibitset_sparse_add_many(set, NULL, 0, &added) == HIBITSET_OK && added == 0);
    CHECK(hibitset_sparse_or_assign(set, other) == HIBITSET_OK && hibitset_sparse_xor_assign(set, other) == HIBITSET_OK);
    hibitset_sparse_and_assign(set, other);
    hibitset_sparse_andnot_assign(set, other);
    CHECK(hibitset_sparse_equals(set, other) && hibitset_sparse_is_subset(set, other) && hibitset_sparse_is_disjoint(set, other));
    CHECK(hibitset_sparse_is_empty(set) && allocations == before);
}

/* An empty set beside one with a member, of either kind. */
static void empty_beside_member(hibitset_sparse_t *empty) {
    hibitset_sparse_t set = hibitset_sparse_new();
    hibitset_t dense = hibitset_new(), none = hibitset_new();
    CHECK(hibitset_sparse_add(&set, 70000) == HIBITSET_OK && hibitset_add(&dense, 70000) == HIBITSET_OK);
    CHECK(hibitset_sparse_is_subset(empty, &set) && !hibitset_sparse_is_subset(&set, empty) && !hibitset_sparse_equals(&set, empty));
    CHECK(hibitset_sparse_is_disjoint(&set, empty) && hibitset_sparse_is_disjoint(empty, &set));
    CHECK(hibitset_sparse_or_assign(&set, empty) == HIBITSET_OK && hibitset_sparse_xor_assign(&set, empty) == HIBITSET_OK);
    CHECK(hibitset_or_assign_sparse(&dense, empty) == HIBITSET_OK && hibitset_xor_assign_sparse(&dense, empty) == HIBITSET_OK);
    CHECK(hibitset_sparse_or_assign_dense(&set, &none) == HIBITSET_OK && hibitset_sparse_xor_assign_dense(&set, &none) == HIBITSET_OK);
    hibitset_sparse_andnot_assign(&set, empty);
    hibitset_sparse_andnot_assign_dense(&set, &none);
    hibitset_andnot_assign_sparse(&dense, empty);
    CHECK(hibitset_sparse_len(&set) == 1 && hibitset_len(&dense) == 1);
    hibitset_sparse_and_assign(&set, empty);
    hibitset_and_assign_sparse(&dense, empty);
    CHECK(hibitset_sparse_is_empty(&set) && hibitset_is_empty(&dense) && hibitset_capacity(&dense) == 70016);
    CHECK(hibitset_sparse_add(&set, 3) == HIBITSET_OK && hibitset_sparse_assign(&set, empty) == HIBITSET_OK);
    CHECK(hibitset_add(&dense, 3) == HIBITSET_OK && hibitset_assign_sparse(&dense, empty) == HIBITSET_OK);
    CHECK(hibitset_sparse_is_empty(&set) && hibitset_is_empty(&dense) && hibitset_capacity(&dense) == 0);
    CHECK(hibitset_sparse_add(&set, 3) == HIBITSET_OK && hibitset_sparse_assign_dense(&set, &none) == HIBITSET_OK);
    CHECK(hibitset_sparse_is_empty(&set));
    hibitset_sparse_free(&set);
    hibitset_free(&dense);
}

/* The first call on an empty set of each kind. */
static void first_calls(int way) {
    static const uint32_t list[] = {3};
    hibitset_sparse_t sets[7], other = hibitset_sparse_new();
    hibitset_t dense = hibitset_new();
    size_t added, i;
    CHECK(hibitset_sparse_add(&other, 3) == HIBITSET_OK && hibitset_add(&dense, 3) == HIBITSET_OK);
    for (i = 0; i < 7; i++) sets[i] = empty_set(way);
    CHECK(hibitset_sparse_add(&sets[0], 3) == HIBITSET_OK && hibitset_sparse_add_many(&sets[1], list, 1, &added) == HIBITSET_OK);
    CHECK(hibitset_sparse_add_range(&sets[2], 3, 4) == HIBITSET_OK && hibitset_sparse_flip_range(&sets[3], 3, 4) == HIBITSET_OK);
    CHECK(hibitset_sparse_or_assign(&sets[4], &other) == HIBITSET_OK && hibitset_sparse_assign(&sets[5], &other) == HIBITSET_OK);
    CHECK(hibitset_sparse_or_assign_dense(&sets[6], &dense) == HIBITSET_OK);
    for (i = 0; i < 7; i++) {
        CHECK(hibitset_sparse_equals(&sets[i], &other) && hibitset_sparse_len(&sets[i]) == 1);
        hibitset_sparse_free(&sets[i]);
    }
    hibitset_sparse_free(&other);
    hibitset_free(&dense);
}

static void empty_sets(void) {
    int way, other_way;
    for (way = 0; way < WAYS; way++) {
        first_calls(way);
        for (other_way = 0; other_way < WAYS; other_way++) {
            hibitset_sparse_t set = empty_set(way), other = empty_set(other_way);
            check_empty(&set, &other);
            check_empty(&set, &set);
            empty_beside_member(&set);
            CHECK(hibitset_sparse_assign(&set, &other) == HIBITSET_OK);
            check_empty(&set, &other);
            hibitset_sparse_free(&set);
            check_empty(&set, &other);
            CHECK(hibitset_sparse_add(&set, 3) == HIBITSET_OK && hibitset_sparse_len(&set) == 1);
            hibitset_sparse_free(&set);
            hibitset_sparse_free(&set);
            hibitset_sparse_free(&other);
        }
    }
}

static void out_of_range(void) {
    static const uint32_t list[] = {5, 9, HIBITSET_MAX_EID, 6}, bad[] = {UINT32_MAX};
    hibitset_sparse_t set = hibitset_sparse_new();
    uint32_t index = 7, buffer[4];
    size_t added = 7;
    long before = allocations;
    CHECK(hibitset_sparse_add(&set, HIBITSET_MAX_EID) == HIBITSET_OUT_OF_RANGE);
    CHECK(hibitset_sparse_add(&set, UINT32_MAX) == HIBITSET_OUT_OF_RANGE);
    CHECK(hibitset_sparse_add_many(&set, bad, 1, &added) == HIBITSET_OUT_OF_RANGE && added == 0);
    CHECK(hibitset_sparse_add_range(&set, 0, HIBITSET_MAX_EID + 1) == HIBITSET_OUT_OF_RANGE);
    CHECK(hibitset_sparse_flip_range(&set, 0, HIBITSET_MAX_EID + 1) == HIBITSET_OUT_OF_RANGE);
    CHECK(!hibitset_sparse_contains(&set, UINT32_MAX) && !hibitset_sparse_remove(&set, UINT32_MAX));
    CHECK(hibitset_sparse_is_empty(&set) && allocations == before);
    CHECK(hibitset_sparse_add_many(&set, list, 4, &added) == HIBITSET_OUT_OF_RANGE && added == 2);
    CHECK(hibitset_sparse_len(&set) == 2 && hibitset_sparse_contains(&set, 9) && !hibitset_sparse_contains(&set, 6));
    hibitset_sparse_clear(&set);
    CHECK(hibitset_sparse_add(&set, HIBITSET_MAX_EID - 1) == HIBITSET_OK);
    CHECK(hibitset_sparse_last(&set, &index) && index == HIBITSET_MAX_EID - 1);
    CHECK(hibitset_sparse_rank(&set, index) == 0 && hibitset_sparse_rank(&set, HIBITSET_MAX_EID) == 1);
    CHECK(hibitset_sparse_len_range(&set, 5, UINT32_MAX) == 1 && !hibitset_sparse_contains(&set, HIBITSET_MAX_EID));
    CHECK(hibitset_sparse_prev_many(&set, UINT32_MAX, buffer, 4) == 1 && buffer[0] == index);
    CHECK(!hibitset_sparse_last_before(&set, index, &index) && hibitset_sparse_next_many(&set, UINT32_MAX, buffer, 4) == 0);
    CHECK(hibitset_sparse_next_many(&set, 5, buffer, 4) == 1 && buffer[0] == index);
    CHECK(hibitset_sparse_next_many(&set, 5, NULL, 0) == 0 && hibitset_sparse_prev_many(&set, UINT32_MAX, NULL, 0) == 0);
    CHECK(hibitset_sparse_add_many(&set, NULL, 0, &added) == HIBITSET_OK && added == 0);
    hibitset_sparse_free(&set);
}

/* ---- The borders of words, groups and chunks ---- */

static void borders(void) {
    static const uint32_t all[] = {0, 63, 64, 4095, 4096, 262143, 262144, 16777215, 16777216, HIBITSET_MAX_EID - 1};
    static const struct { size_t len, room; } rows[] = {{0, 5}, {5, 0}, {10, 3}, {63, 70}, {64, 64}, {100, 200}};
    size_t first, len, i;
    for (first = 0; first < 10; first++) {
        for (len = 0; first + len <= 10; len++) {
            const uint32_t *list = all + first;
            hibitset_sparse_t set = hibitset_sparse_new();
            size_t added;
            CHECK(hibitset_sparse_add_many(&set, list, len, &added) == HIBITSET_OK && added == len);
            check_memory(&set, list, len);
            for (i = 0; i < sizeof rows / sizeof *rows; i++) check_lists(&set, list, len, 0, rows[i].len, rows[i].room);
            check_ids(&set, first == 0 ? 0 : all[first - 1] + 1, (uint64_t)first << 30);
            CHECK(hibitset_sparse_remove_many(&set, all, 10) == len && hibitset_sparse_is_empty(&set));
            CHECK(hibitset_sparse_memory(&set) == 0);
            hibitset_sparse_free(&set);
        }
    }
}

/* One member takes 96 bytes, and the second one what it does not share with the first. */
static void memory_of_two(void) {
    static const struct { uint32_t second; size_t bytes; } rows[] = {
        {63, 96}, {4095, 104}, {262143, 120}, {16777215, 176}, {HIBITSET_MAX_EID - 1, 192}};
    size_t i;
    for (i = 0; i < sizeof rows / sizeof *rows; i++) {
        hibitset_sparse_t set = hibitset_sparse_new();
        CHECK(hibitset_sparse_add(&set, 0) == HIBITSET_OK && hibitset_sparse_memory(&set) == 96);
        CHECK(hibitset_sparse_add(&set, rows[i].second) == HIBITSET_OK && hibitset_sparse_memory(&set) == rows[i].bytes);
        CHECK(hibitset_sparse_remove(&set, 0) && hibitset_sparse_memory(&set) == 96);
        hibitset_sparse_free(&set);
    }
}

static void one_set_twice(void) {
    hibitset_sparse_t set = hibitset_sparse_new();
    CHECK(hibitset_sparse_add(&set, 3) == HIBITSET_OK && hibitset_sparse_assign(&set, &set) == HIBITSET_OK);
    CHECK(hibitset_sparse_or_assign(&set, &set) == HIBITSET_OK);
    hibitset_sparse_and_assign(&set, &set);
    CHECK(hibitset_sparse_len(&set) == 1 && !hibitset_sparse_is_disjoint(&set, &set));
    CHECK(hibitset_sparse_xor_assign(&set, &set) == HIBITSET_OK && hibitset_sparse_is_empty(&set));
    CHECK(hibitset_sparse_is_disjoint(&set, &set) && hibitset_sparse_add(&set, 3) == HIBITSET_OK);
    hibitset_sparse_andnot_assign(&set, &set);
    CHECK(hibitset_sparse_is_empty(&set));
    hibitset_sparse_free(&set);
}

/* ---- Each allocation fails in turn ---- */

/* What a call is made with: a sparse set and a dense one that are changed, and two operands, which have the same members. */
typedef struct {
    hibitset_sparse_t set, operand;
    hibitset_t dense, dense_operand;
} sets;

typedef hibitset_status call(sets *of);

static hibitset_status add_far(sets *of) { return hibitset_sparse_add(&of->set, 1000000); }

static hibitset_status add_two(sets *of) {
    static const uint32_t list[] = {1000000, 1000000};
    size_t added = 7;
    hibitset_status status = hibitset_sparse_add_many(&of->set, list, 2, &added);
    CHECK(added == (status == HIBITSET_OK ? 2 : 0));
    return status;
}

static hibitset_status add_range(sets *of) { return hibitset_sparse_add_range(&of->set, 900000, 1000000); }
static hibitset_status flip_range(sets *of) { return hibitset_sparse_flip_range(&of->set, 900000, 1000000); }
static hibitset_status assign_it(sets *of) { return hibitset_sparse_assign(&of->set, &of->operand); }
static hibitset_status or_it(sets *of) { return hibitset_sparse_or_assign(&of->set, &of->operand); }
static hibitset_status xor_it(sets *of) { return hibitset_sparse_xor_assign(&of->set, &of->operand); }
static hibitset_status assign_dense_to_it(sets *of) { return hibitset_sparse_assign_dense(&of->set, &of->dense_operand); }
static hibitset_status or_dense_to_it(sets *of) { return hibitset_sparse_or_assign_dense(&of->set, &of->dense_operand); }
static hibitset_status xor_dense_to_it(sets *of) { return hibitset_sparse_xor_assign_dense(&of->set, &of->dense_operand); }
static hibitset_status assign_to_dense(sets *of) { return hibitset_assign_sparse(&of->dense, &of->operand); }
static hibitset_status or_to_dense(sets *of) { return hibitset_or_assign_sparse(&of->dense, &of->operand); }
static hibitset_status xor_to_dense(sets *of) { return hibitset_xor_assign_sparse(&of->dense, &of->operand); }

/* Makes a call on sets with or without members, the first `met` allocations of which succeed. Returns whether all did. */
static bool meets(call *made, bool has_member, long met) {
    sets of = {HIBITSET_SPARSE_INIT, HIBITSET_SPARSE_INIT, HIBITSET_INIT, HIBITSET_INIT};
    hibitset_status status;
    CHECK(hibitset_sparse_add(&of.operand, 70000) == HIBITSET_OK && hibitset_sparse_add(&of.operand, 2) == HIBITSET_OK);
    CHECK(hibitset_assign_sparse(&of.dense_operand, &of.operand) == HIBITSET_OK);
    if (has_member) CHECK(hibitset_sparse_add(&of.set, 5) == HIBITSET_OK && hibitset_add(&of.dense, 5) == HIBITSET_OK);
    allocations_left = met;
    status = made(&of);
    allocations_left = -1;
    if (status == HIBITSET_NO_MEMORY) {
        CHECK(hibitset_sparse_len(&of.set) == has_member && hibitset_len(&of.dense) == has_member);
        CHECK(hibitset_sparse_contains(&of.set, 5) == has_member && hibitset_contains(&of.dense, 5) == has_member);
        CHECK(hibitset_capacity(&of.dense) == (has_member ? 64 : 0) && made(&of) == HIBITSET_OK);
    }
    CHECK(hibitset_sparse_len(&of.set) + hibitset_len(&of.dense) > 2u * has_member);
    check_same(&of.dense_operand, &of.operand);
    CHECK(hibitset_sparse_len(&of.operand) == 2);
    hibitset_sparse_free(&of.set);
    hibitset_sparse_free(&of.operand);
    hibitset_free(&of.dense);
    hibitset_free(&of.dense_operand);
    CHECK(status == HIBITSET_OK || status == HIBITSET_NO_MEMORY);
    return status == HIBITSET_OK;
}

static void failing_allocations(void) {
    static call *const calls[] = {add_far, add_two, add_range, flip_range, assign_it, or_it, xor_it, assign_dense_to_it,
                                  or_dense_to_it, xor_dense_to_it, assign_to_dense, or_to_dense, xor_to_dense};
    size_t i;
    int has_member;
    long met;
    for (i = 0; i < sizeof calls / sizeof *calls; i++) {
        for (has_member = 0; has_member < 2; has_member++) {
            for (met = 0; !meets(calls[i], has_member, met); met++) CHECK(met < 100);
            CHECK(met > 0);
        }
    }
}

/* The allocation of the counts for long lists fails: the results are the same. */
static void without_counts(void) {
    hibitset_sparse_t set = hibitset_sparse_new();
    uint32_t ends[100], found[100], i;
    uint64_t positions[100], ranks[100];
    for (i = 0; i < 100; i++) CHECK(hibitset_sparse_add(&set, ends[i] = i * 10007) == HIBITSET_OK);
    for (i = 0; i < 100; i++) positions[i] = 99 - i;
    allocations_left = 0;
    CHECK(hibitset_sparse_rank_many(&set, ends, 100, ranks, 100) == 100);
    CHECK(hibitset_sparse_select_many(&set, positions, 100, found, 100) == 100);
    for (i = 0; i < 100; i++) CHECK(ranks[i] == i && found[i] == ends[99 - i]);
    CHECK(hibitset_sparse_remove_many(&set, ends, 50) == 50 && hibitset_sparse_len(&set) == 50);
    allocations_left = -1;
    hibitset_sparse_free(&set);
}

/* A member lies among the same 64 indices: nothing is allocated. Nor is where members are removed. */
static void without_memory(void) {
    hibitset_sparse_t set = hibitset_sparse_new(), other = hibitset_sparse_new();
    hibitset_t dense = hibitset_new();
    CHECK(hibitset_sparse_add_range(&set, 1000, 500000) == HIBITSET_OK && hibitset_sparse_add_range(&other, 2000, 3000) == HIBITSET_OK);
    CHECK(hibitset_add_range(&dense, 1500, 2500) == HIBITSET_OK && hibitset_sparse_remove(&set, 4000));
    allocations_left = 0;
    CHECK(hibitset_sparse_add(&set, 4000) == HIBITSET_OK && hibitset_sparse_add(&set, 4001) == HIBITSET_PRESENT);
    hibitset_sparse_remove_range(&set, 400000, 450000);
    hibitset_sparse_and_assign_dense(&set, &dense);
    CHECK(hibitset_sparse_len(&set) == 1000);
    hibitset_sparse_and_assign(&set, &other);
    CHECK(hibitset_sparse_len(&set) == 500);
    hibitset_and_assign_sparse(&dense, &set);
    hibitset_sparse_andnot_assign_dense(&set, &dense);
    hibitset_sparse_andnot_assign(&other, &set);
    hibitset_andnot_assign_sparse(&dense, &other);
    hibitset_sparse_shrink_to_fit(&other);
    CHECK(hibitset_sparse_is_empty(&set) && hibitset_is_empty(&dense) && hibitset_sparse_len(&other) == 1000);
    allocations_left = -1;
    hibitset_sparse_free(&set);
    hibitset_sparse_free(&other);
    hibitset_free(&dense);
}

/* Of two sets with the same members the one that was shrunk has no capacity for another word. */
static void shrinking(void) {
    hibitset_sparse_t grown = hibitset_sparse_new(), shrunk = hibitset_sparse_new();
    uint32_t word;
    for (word = 0; word < 17; word++) {
        CHECK(hibitset_sparse_add(&grown, 64 * word) == HIBITSET_OK);
        CHECK(hibitset_sparse_add(&shrunk, 64 * word) == HIBITSET_OK);
    }
    hibitset_sparse_shrink_to_fit(&shrunk);
    CHECK(hibitset_sparse_equals(&grown, &shrunk));
    allocations = 0;
    CHECK(hibitset_sparse_add(&grown, 64 * 17) == HIBITSET_OK && allocations == 0);
    CHECK(hibitset_sparse_add(&shrunk, 64 * 17) == HIBITSET_OK && allocations > 0);
    hibitset_sparse_free(&grown);
    hibitset_sparse_free(&shrunk);
}

/* ---- Sets that go to other threads ---- */

static void *sum_and_free(void *param) {
    hibitset_sparse_t *set = param;
    uint32_t buffer[100], start = 0;
    size_t count, i;
    uint64_t sum = 0;
    do {
        count = hibitset_sparse_next_many(set, start, buffer, 100);
        for (i = 0; i < count; i++) sum += buffer[i] + (uint64_t)hibitset_sparse_contains(set, buffer[i]);
        if (count > 0) start = buffer[count - 1] + 1;
    } while (count == 100);
    hibitset_sparse_free(set);
    return (void *)(uintptr_t)sum;
}

static void copies_for_threads(void) {
    pthread_t threads[4];
    hibitset_sparse_t set = hibitset_sparse_new(), copies[4];
    uint32_t i;
    uint64_t sum = 0;
    void *found;
    for (i = 0; i < HIBITSET_MAX_EID; i += 100003) {
        CHECK(hibitset_sparse_add(&set, i) == HIBITSET_OK);
        sum += (uint64_t)i + 1;
    }
    for (i = 0; i < 4; i++) {
        copies[i] = hibitset_sparse_new();
        CHECK(hibitset_sparse_assign(&copies[i], &set) == HIBITSET_OK);
        CHECK(pthread_create(&threads[i], NULL, sum_and_free, &copies[i]) == 0);
    }
    for (i = 0; i < 4; i++) {
        CHECK(pthread_join(threads[i], &found) == 0);
        CHECK((uint64_t)(uintptr_t)found == sum && hibitset_sparse_is_empty(&copies[i]));
    }
    hibitset_sparse_free(&set);
}

int main(void) {
    size_t i;
    for (i = 0; i < sizeof bases / sizeof *bases; i++) random_changes(bases[i]);
    empty_sets();
    out_of_range();
    borders();
    memory_of_two();
    one_set_twice();
    failing_allocations();
    without_counts();
    without_memory();
    shrinking();
    copies_for_threads();
    puts("test_sparse.c: ok");
    return 0;
}
