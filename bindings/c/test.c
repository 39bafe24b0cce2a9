/* Tests of each function on a hibitset_t beside a model. They end with status 0, or say which line failed. */
#include "testing.h"
#include <pthread.h>

/* ---- One set beside its model, a byte for each index below RANGE ---- */

enum { RANGE = 300000 };

static bool visit_in_order(uint32_t index, void *param) {
    uint32_t **next = param;
    CHECK(*(*next)++ == index);
    return true;
}

static bool stop_at_once(uint32_t index, void *param) {
    *(uint32_t *)param = index;
    return false;
}

static void check_batches(const hibitset_t *set, const unsigned char *model, size_t members) {
    uint32_t buffer[64], start = 0;
    size_t count, i, seen = 0;
    do {
        memset(buffer, 0xa5, sizeof buffer);
        count = hibitset_next_many(set, start, buffer, 64);
        CHECK(count <= 64);
        for (i = 0; i < count; i++) {
            while (start < buffer[i]) CHECK(!model[start++]);
            CHECK(model[start++]);
        }
        for (; i < 64; i++) CHECK(buffer[i] == 0xa5a5a5a5u);
        seen += count;
    } while (count == 64);
    CHECK(seen == members);
}

static void check_backwards(const hibitset_t *set, const uint32_t *list, size_t before, uint32_t end) {
    uint32_t buffer[64];
    size_t count, i;
    do {
        memset(buffer, 0xa5, sizeof buffer);
        count = hibitset_prev_many(set, end, buffer, 64);
        CHECK(count == (before < 64 ? before : 64));
        for (i = 0; i < count; i++) CHECK(buffer[i] == list[--before]);
        for (; i < 64; i++) CHECK(buffer[i] == 0xa5a5a5a5u);
        if (count > 0) end = buffer[count - 1];
    } while (count == 64);
    CHECK(before == 0);
}

static void check_order(const hibitset_t *set, const uint32_t *list, size_t members) {
    uint32_t start = random_below(RANGE + 100), end = start + random_below(1000), index = 12345;
    size_t before = 0, until, at = random_below((uint32_t)members + 2);
    while (before < members && list[before] < start) before++;
    until = before;
    while (until < members && list[until] < end) until++;
    CHECK(hibitset_rank(set, start) == before && hibitset_rank(set, end) == until && hibitset_rank(set, UINT32_MAX) == members);
    CHECK(hibitset_len_range(set, start, end) == until - before && hibitset_len_range(set, end, start) == 0);
    CHECK(hibitset_last_before(set, start, &index) == (before > 0));
    CHECK(index == (before > 0 ? list[before - 1] : 12345));
    index = 12345;
    CHECK(hibitset_select(set, at, &index) == (at < members));
    CHECK(index == (at < members ? list[at] : 12345));
    check_backwards(set, list, before, start);
    check_backwards(set, list, members, UINT32_MAX);
}

static void check_many(const hibitset_t *set, const unsigned char *model) {
    uint32_t list[200];
    uint8_t found[250];
    size_t len = random_below(201), room = random_below(251), count = len < room ? len : room, i;
    for (i = 0; i < len; i++) list[i] = random_below(RANGE);
    if (len > 0) list[random_below((uint32_t)len)] = HIBITSET_MAX_EID + random_below(5);
    memset(found, 0xa5, sizeof found);
    CHECK(hibitset_contains_many(set, list, len, found, room) == count);
    for (i = 0; i < count; i++) CHECK(found[i] == (list[i] < RANGE && model[list[i]]));
    for (; i < sizeof found; i++) CHECK(found[i] == 0xa5);
}

static void check_ranks(const hibitset_t *set, size_t members) {
    uint32_t ends[100];
    uint64_t ranks[120];
    size_t len = random_below(101), room = random_below(121), count = len < room ? len : room, i;
    for (i = 0; i < len; i++) ends[i] = random_below(RANGE);
    if (len > 0) ends[random_below((uint32_t)len)] = HIBITSET_MAX_EID + random_below(5);
    memset(ranks, 0xa5, sizeof ranks);
    CHECK(hibitset_rank_many(set, ends, len, ranks, room) == count);
    for (i = 0; i < count; i++) CHECK(ranks[i] == hibitset_rank(set, ends[i]) && ranks[i] <= members);
    for (; i < 120; i++) CHECK(ranks[i] == UINT64_C(0xa5a5a5a5a5a5a5a5));
}

static void check_selected(const hibitset_t *set, const uint32_t *list, size_t members) {
    uint64_t positions[100];
    uint32_t indices[120];
    size_t len = random_below(101), room = random_below(121), count = 0, i;
    for (i = 0; i < len; i++) positions[i] = random_below((uint32_t)members + 1);
    if (len > 0 && room % 2 == 0) positions[random_below((uint32_t)len)] = UINT64_MAX - random_below(5);
    while (count < len && count < room && positions[count] < members) count++;
    memset(indices, 0xa5, sizeof indices);
    CHECK(hibitset_select_many(set, positions, len, indices, room) == count);
    for (i = 0; i < count; i++) CHECK(indices[i] == list[positions[i]]);
    for (; i < 120; i++) CHECK(indices[i] == 0xa5a5a5a5u);
}

static void check_ids(const hibitset_t *set) {
    static const uint64_t bases[] = {0, UINT64_C(5) << 30, UINT64_MAX - 100, UINT64_MAX};
    uint64_t base = bases[random_below(4)], ids[80];
    uint32_t members[80], start = random_below(RANGE + 100);
    size_t room = random_below(71), count = hibitset_next_many(set, start, members, room), i;
    memset(ids, 0xa5, sizeof ids);
    CHECK(hibitset_next_many_u64(set, start, base, ids, room) == count);
    for (i = 0; i < count; i++) CHECK(ids[i] == base + members[i]);
    for (; i < 80; i++) CHECK(ids[i] == UINT64_C(0xa5a5a5a5a5a5a5a5));
}

static void check_members(const hibitset_t *set, const unsigned char *model) {
    static uint32_t list[RANGE];
    uint32_t index = 12345, *next = list, i;
    size_t members = 0;
    for (i = 0; i < RANGE; i++) {
        if (model[i]) list[members++] = i;
    }
    CHECK(hibitset_len(set) == members);
    CHECK(hibitset_is_empty(set) == (members == 0));
    CHECK(hibitset_first(set, &index) == (members > 0));
    CHECK(index == (members > 0 ? list[0] : 12345));
    index = 12345;
    CHECK(hibitset_last(set, &index) == (members > 0));
    CHECK(index == (members > 0 ? list[members - 1] : 12345));
    check_batches(set, model, members);
    check_order(set, list, members);
    CHECK(hibitset_iterate(set, visit_in_order, &next) && next == list + members);
    CHECK(hibitset_iterate(set, stop_at_once, &index) == (members == 0));
    CHECK(members == 0 || index == list[0]);
    for (i = 0; i < 200; i++) {
        index = random_below(RANGE);
        CHECK(hibitset_contains(set, index) == (bool)model[index]);
    }
    check_many(set, model);
    check_ranks(set, members);
    check_selected(set, list, members);
    check_ids(set);
}

static void check_words(const hibitset_t *set, const unsigned char *model) {
    size_t len, i;
    const uint64_t *words = hibitset_words(set, &len);
    CHECK(hibitset_capacity(set) == 64 * len);
    for (i = 0; i < RANGE; i++) CHECK(model[i] == (i / 64 < len ? words[i / 64] >> i % 64 & 1 : 0));
}

static void check_copied_words(const hibitset_t *set) {
    uint64_t buffer[60];
    size_t len, start = random_below(RANGE / 64 + 100), count = random_below(51), i;
    const uint64_t *words = hibitset_words(set, &len);
    memset(buffer, 0xa5, sizeof buffer);
    hibitset_copy_words(set, start, buffer, count);
    for (i = 0; i < count; i++) CHECK(buffer[i] == (start + i < len ? words[start + i] : 0));
    for (; i < 60; i++) CHECK(buffer[i] == 0xa5a5a5a5a5a5a5a5u);
    hibitset_copy_words(set, SIZE_MAX - 3, buffer, 60);
    for (i = 0; i < 60; i++) CHECK(buffer[i] == 0);
}

static void check_gaps(const hibitset_t *set, const unsigned char *model, uint32_t start) {
    static uint32_t buffer[1000];
    uint32_t gap = start, index, i;
    size_t count = hibitset_not_next_many(set, start, buffer, 1000), len = 0;
    CHECK(count == 1000);
    for (i = start; i < RANGE && len < count; i++) {
        if (!model[i]) CHECK(buffer[len++] == i);
    }
    CHECK(len == count || buffer[len] == RANGE);
    while (gap < RANGE && model[gap]) gap++;
    CHECK(hibitset_first_gap(set, start, &index) && index == gap);
}

/* ---- Two sets beside their models ---- */

typedef size_t next_many(const hibitset_t *a, const hibitset_t *b, uint32_t start, uint32_t *buffer, size_t len);
typedef size_t len_of_both(const hibitset_t *a, const hibitset_t *b);
typedef hibitset_status make_of_both(const hibitset_t *a, const hibitset_t *b, hibitset_t *out);

static unsigned in_both(unsigned a, unsigned b) { return a & b; }
static unsigned in_either(unsigned a, unsigned b) { return a | b; }
static unsigned in_one(unsigned a, unsigned b) { return a ^ b; }
static unsigned in_first(unsigned a, unsigned b) { return a & !b; }

/* The set that is made of two has the members of the model, and no word past the last of them. `out` had others before. */
static void check_made(make_of_both *make, const hibitset_t *x, const hibitset_t *y, const unsigned char *model) {
    static hibitset_t out;
    static bool begun = false;
    hibitset_t copy = hibitset_new();
    uint32_t last;
    uint64_t hash;
    if (!begun) out = hibitset_new();
    begun = true;
    if (random_below(3) == 0) hibitset_free(&out);
    CHECK(make(x, y, &out) == HIBITSET_OK);
    check_words(&out, model);
    CHECK(hibitset_capacity(&out) == (hibitset_last(&out, &last) ? last / 64 * 64 + 64 : 0));
    hash = hibitset_hash(&out);
    CHECK(hibitset_with_capacity(&copy, RANGE) == HIBITSET_OK && hibitset_or_assign(&copy, &out) == HIBITSET_OK);
    CHECK(hibitset_hash(&copy) == hash && (hash == hibitset_hash(x)) == hibitset_equals(&out, x));
    hibitset_free(&copy);
    CHECK(hibitset_add(&out, 7) == (model[7] ? HIBITSET_PRESENT : HIBITSET_OK));
    if (random_below(3) == 0) hibitset_free(&out);
}

static void check_pair(const hibitset_t *x, const hibitset_t *y, const unsigned char *a, const unsigned char *b, uint32_t start) {
    static const struct {
        unsigned (*test)(unsigned a, unsigned b);
        len_of_both *len;
        next_many *next;
        make_of_both *make;
    } rows[] = {
        {in_both, hibitset_and_len, hibitset_and_next_many, hibitset_and},
        {in_either, hibitset_or_len, hibitset_or_next_many, hibitset_or},
        {in_one, hibitset_xor_len, hibitset_xor_next_many, hibitset_xor},
        {in_first, hibitset_andnot_len, hibitset_andnot_next_many, hibitset_andnot},
    };
    static uint32_t buffer[1000];
    static unsigned char both[RANGE];
    size_t lens[4], row, i, count, len;
    for (row = 0; row < 4; row++) {
        lens[row] = 0;
        for (i = 0; i < RANGE; i++) lens[row] += both[i] = rows[row].test(a[i], b[i]);
        check_made(rows[row].make, x, y, both);
        CHECK(rows[row].len(x, y) == lens[row]);
        count = rows[row].next(x, y, start, buffer, 1000);
        for (i = start, len = 0; i < RANGE && len < count; i++) {
            if (rows[row].test(a[i], b[i])) CHECK(buffer[len++] == i);
        }
        CHECK(len == count);
        if (count < 1000) {
            for (; i < RANGE; i++) CHECK(!rows[row].test(a[i], b[i]));
        }
    }
    CHECK(hibitset_is_disjoint(x, y) == (lens[0] == 0));
    CHECK(hibitset_is_subset(x, y) == (lens[3] == 0));
    CHECK(hibitset_equals(x, y) == (lens[2] == 0));
    CHECK((hibitset_hash(x) == hibitset_hash(y)) == (lens[2] == 0));
    CHECK(hibitset_equals(x, x) && hibitset_is_subset(x, x) && hibitset_and_len(x, x) == hibitset_len(x));
}

/* ---- Changes, at random ---- */

static void add_some(hibitset_t *set, unsigned char *model, uint32_t span) {
    int i;
    for (i = 0; i < 500; i++) {
        uint32_t index = random_below(span) % RANGE;
        CHECK(hibitset_add(set, index) == (model[index] ? HIBITSET_PRESENT : HIBITSET_OK));
        model[index] = 1;
    }
}

static void add_list(hibitset_t *set, unsigned char *model, uint32_t span) {
    uint32_t list[300];
    size_t i, added = 7;
    for (i = 0; i < 300; i++) {
        list[i] = random_below(span) % RANGE;
        model[list[i]] = 1;
    }
    CHECK(hibitset_add_many(set, list, 300, &added) == HIBITSET_OK && added == 300);
}

static void remove_some(hibitset_t *set, unsigned char *model, uint32_t span) {
    int i;
    for (i = 0; i < 500; i++) {
        uint32_t index = random_below(span) % RANGE;
        CHECK(hibitset_remove(set, index) == (bool)model[index]);
        model[index] = 0;
    }
}

static void remove_list(hibitset_t *set, unsigned char *model, uint32_t span) {
    uint32_t list[300];
    size_t members = 0, i;
    for (i = 0; i < 299; i++) {
        list[i] = random_below(span) % RANGE;
        members += model[list[i]];
        model[list[i]] = 0;
    }
    list[i] = HIBITSET_MAX_EID + random_below(5);
    CHECK(hibitset_remove_many(set, list, 300) == members);
}

static void pop_some(hibitset_t *set, unsigned char *model) {
    uint32_t first = 0, last = RANGE, index;
    int i;
    for (i = 0; i < 100; i++) {
        while (first < RANGE && !model[first]) first++;
        index = 12345;
        CHECK(hibitset_pop_first(set, &index) == (first < RANGE) && index == (first < RANGE ? first : 12345));
        if (first < RANGE) model[first] = 0;
        while (last > 0 && !model[last - 1]) last--;
        index = 12345;
        CHECK(hibitset_pop_last(set, &index) == (last > 0) && index == (last > 0 ? last - 1 : 12345));
        if (last > 0) model[last - 1] = 0;
    }
}

static void change(hibitset_t *x, hibitset_t *y, unsigned char *a, unsigned char *b, int round) {
    uint32_t i, start = random_below(RANGE), end = start + random_below(round % 3 ? 300 : 100000);
    uint32_t span = 1u << random_below(19);
    if (end > RANGE) end = RANGE;
    switch (random_below(16)) {
    case 0:
    case 1: add_some(x, a, span); break;
    case 2: remove_some(x, a, span); break;
    case 14: remove_list(x, a, span); break;
    case 3: add_list(x, a, span); break;
    case 4:
        CHECK(hibitset_add_range(x, start, end) == HIBITSET_OK);
        for (i = start; i < end; i++) a[i] = 1;
        break;
    case 5:
        hibitset_remove_range(x, start, end);
        for (i = start; i < end; i++) a[i] = 0;
        break;
    case 6:
        CHECK(hibitset_or_assign(x, y) == HIBITSET_OK);
        for (i = 0; i < RANGE; i++) a[i] |= b[i];
        break;
    case 7:
        CHECK(hibitset_xor_assign(x, y) == HIBITSET_OK);
        for (i = 0; i < RANGE; i++) a[i] ^= b[i];
        break;
    case 8:
        if (random_below(3) > 0) break;
        hibitset_and_assign(x, y);
        for (i = 0; i < RANGE; i++) a[i] &= b[i];
        break;
    case 9:
        hibitset_andnot_assign(x, y);
        for (i = 0; i < RANGE; i++) a[i] &= !b[i];
        break;
    case 10:
        if (random_below(4) > 0) break;
        if (random_below(2) > 0) {
            hibitset_clear(x);
        } else {
            CHECK(hibitset_with_capacity(x, span) == HIBITSET_OK && hibitset_capacity(x) >= span);
        }
        memset(a, 0, RANGE);
        break;
    case 11:
        CHECK(hibitset_assign(y, x) == HIBITSET_OK);
        memcpy(b, a, RANGE);
        break;
    case 12:
        CHECK(hibitset_flip_range(x, start, end) == HIBITSET_OK);
        for (i = start; i < end; i++) a[i] = !a[i];
        break;
    case 13: pop_some(x, a); break;
    default: {
        size_t len;
        const uint64_t *words = hibitset_words(x, &len);
        CHECK(hibitset_assign_words(y, words, len) == HIBITSET_OK);
        memcpy(b, a, RANGE);
    }
    }
}

static void random_changes(void) {
    unsigned char *a = calloc(RANGE, 1), *b = calloc(RANGE, 1), *c;
    hibitset_t x = hibitset_new(), y = hibitset_new(), moved;
    int round;
    CHECK(a && b);
    for (round = 0; round < 400; round++) {
        change(&x, &y, a, b, round);
        check_members(&x, a);
        if (round % 8 == 0) {
            check_words(&x, a);
            check_copied_words(&x);
            check_gaps(&x, a, random_below(RANGE));
            check_pair(&x, &y, a, b, random_below(RANGE));
        }
        /* A set may be moved as bytes. */
        if (random_below(5) == 0) {
            moved = x, x = y, y = moved;
            c = a, a = b, b = c;
        }
    }
    hibitset_free(&x);
    hibitset_free(&y);
    free(a);
    free(b);
}

/* ---- Ends of the range, and sets without members ---- */

/* The ways to have an empty set: hibitset_new, HIBITSET_INIT, bytes that are 0. */
enum { EMPTY_SETS = 3 };

static hibitset_t empty_set(int way) {
    static const hibitset_t init = HIBITSET_INIT, zero;
    return way == 0 ? hibitset_new() : way == 1 ? init : zero;
}

/* Looks at an empty set, beside another one, by each call. */
static void look_at_empty(const hibitset_t *set, const hibitset_t *other) {
    uint32_t index = 7, buffer[4], *next = buffer;
    uint64_t words[2] = {7, 7};
    uint8_t stream[8], found = 7;
    size_t len = 7;
    CHECK(hibitset_len(set) == 0 && hibitset_is_empty(set) && !hibitset_contains(set, 0) && hibitset_capacity(set) == 0);
    CHECK(!hibitset_first(set, &index) && !hibitset_last(set, &index) && !hibitset_contains(set, HIBITSET_MAX_EID - 1));
    CHECK(hibitset_next_many(set, 0, buffer, 4) == 0 && hibitset_iterate(set, visit_in_order, &next) && next == buffer);
    CHECK(hibitset_rank(set, 9) == 0 && !hibitset_select(set, 0, &index) && hibitset_len_range(set, 0, 9) == 0);
    CHECK(!hibitset_last_before(set, 9, &index) && hibitset_prev_many(set, 9, buffer, 4) == 0 && index == 7);
    CHECK(hibitset_prev_many(set, 9, NULL, 0) == 0);
    CHECK(hibitset_next_many(set, 0, NULL, 0) == 0 && hibitset_not_next_many(set, 0, NULL, 0) == 0);
    CHECK(hibitset_contains_many(set, &index, 1, &found, 1) == 1 && found == 0);
    CHECK(hibitset_rank_many(set, &index, 1, words, 1) == 1 && words[0] == 0);
    CHECK(hibitset_select_many(set, words, 1, &index, 1) == 0 && index == 7);
    words[0] = 7;
    CHECK(hibitset_next_many_u64(set, 0, 5, words, 2) == 0 && words[0] == 7);
    hibitset_copy_words(set, 0, words, 1);
    CHECK(words[0] == 0 && words[1] == 7 && hibitset_hash(set) == hibitset_hash(other));
    CHECK(hibitset_first_gap(set, 5, &index) && index == 5);
    CHECK(hibitset_not_next_many(set, 5, buffer, 4) == 4 && buffer[0] == 5 && buffer[3] == 8);
    (void)hibitset_words(set, &len);
    CHECK(len == 0 && hibitset_roaring_len(set) == 8);
    CHECK(hibitset_roaring_write(set, stream, 8, &len) == HIBITSET_OK && len == 8);
    CHECK(hibitset_equals(set, other) && hibitset_is_disjoint(set, other) && hibitset_is_subset(set, other));
    CHECK(hibitset_and_len(set, other) == 0 && hibitset_or_len(set, other) == 0);
    CHECK(hibitset_xor_len(set, other) == 0 && hibitset_andnot_len(set, other) == 0);
    CHECK(hibitset_and_next_many(set, other, 0, buffer, 4) == 0 && hibitset_or_next_many(set, other, 0, buffer, 4) == 0);
    CHECK(hibitset_xor_next_many(set, other, 0, buffer, 4) == 0 && hibitset_andnot_next_many(set, other, 0, buffer, 4) == 0);
}

/* Calls on an empty set that change nothing, and allocate nothing. */
static void leave_empty(hibitset_t *set, const hibitset_t *other) {
    uint32_t index = 7;
    size_t added = 7;
    long before = allocations;
    CHECK(hibitset_remove_many(set, &index, 1) == 0 && hibitset_remove_many(set, NULL, 0) == 0);
    CHECK(!hibitset_remove(set, 5) && !hibitset_pop_first(set, &index) && !hibitset_pop_last(set, &index) && index == 7);
    CHECK(hibitset_flip_range(set, 10, 10) == HIBITSET_OK && hibitset_flip_range(set, 10, 5) == HIBITSET_OK);
    hibitset_remove_range(set, 0, 100);
    hibitset_clear(set);
    CHECK(hibitset_reserve(set, 0) == HIBITSET_OK && hibitset_memory(set) == 0);
    CHECK(hibitset_or_assign(set, other) == HIBITSET_OK && hibitset_xor_assign(set, other) == HIBITSET_OK);
    hibitset_and_assign(set, other);
    hibitset_andnot_assign(set, other);
    CHECK(hibitset_add_range(set, 10, 10) == HIBITSET_OK && hibitset_add_range(set, 10, 5) == HIBITSET_OK);
    CHECK(hibitset_add_many(set, NULL, 0, &added) == HIBITSET_OK && added == 0);
    CHECK(allocations == before);
}

/* An empty set beside one with a member. */
static void empty_beside_member(const hibitset_t *empty) {
    hibitset_t set = hibitset_new();
    CHECK(hibitset_add(&set, 70000) == HIBITSET_OK);
    CHECK(hibitset_is_subset(empty, &set) && !hibitset_is_subset(&set, empty) && !hibitset_equals(&set, empty));
    CHECK(hibitset_or_len(&set, empty) == 1 && hibitset_andnot_len(empty, &set) == 0 && hibitset_and_len(&set, empty) == 0);
    CHECK(hibitset_or_assign(&set, empty) == HIBITSET_OK && hibitset_xor_assign(&set, empty) == HIBITSET_OK);
    hibitset_andnot_assign(&set, empty);
    CHECK(hibitset_len(&set) == 1);
    hibitset_and_assign(&set, empty);
    CHECK(hibitset_is_empty(&set) && hibitset_add(&set, 3) == HIBITSET_OK && hibitset_assign(&set, empty) == HIBITSET_OK);
    CHECK(hibitset_is_empty(&set));
    hibitset_free(&set);
}

static void make_of_empty(const hibitset_t *set, const hibitset_t *other) {
    static make_of_both *const makes[] = {hibitset_and, hibitset_or, hibitset_xor, hibitset_andnot};
    hibitset_t out = hibitset_new();
    size_t i;
    for (i = 0; i < 4; i++) {
        CHECK(hibitset_add(&out, 70000) == HIBITSET_OK && makes[i](set, other, &out) == HIBITSET_OK);
        CHECK(hibitset_is_empty(&out) && hibitset_capacity(&out) == 0);
    }
    hibitset_free(&out);
}

static void check_empty(hibitset_t *set, const hibitset_t *other) {
    look_at_empty(set, other);
    look_at_empty(other, set);
    look_at_empty(set, set);
    leave_empty(set, other);
    look_at_empty(set, other);
    empty_beside_member(set);
    make_of_empty(set, other);
    hibitset_free(set);
    look_at_empty(set, other);
    CHECK(hibitset_assign_words(set, NULL, 0) == HIBITSET_OK && hibitset_is_empty(set));
    CHECK(hibitset_assign(set, other) == HIBITSET_OK && hibitset_is_empty(set));
    CHECK(hibitset_or(other, other, set) == HIBITSET_OK && hibitset_is_empty(set));
    hibitset_free(set);
    hibitset_free(set);
    CHECK(hibitset_is_empty(set) && hibitset_add(set, 3) == HIBITSET_OK && hibitset_len(set) == 1);
    hibitset_free(set);
}

/* The first call on an empty set of each kind. */
static void first_calls(int way) {
    static const uint32_t list[] = {3};
    static const uint64_t word = 8;
    hibitset_t sets[6], other = hibitset_new();
    size_t added, i;
    CHECK(hibitset_add(&other, 3) == HIBITSET_OK);
    for (i = 0; i < 6; i++) sets[i] = empty_set(way);
    CHECK(hibitset_add(&sets[0], 3) == HIBITSET_OK && hibitset_add_many(&sets[1], list, 1, &added) == HIBITSET_OK);
    CHECK(hibitset_add_range(&sets[2], 3, 4) == HIBITSET_OK && hibitset_flip_range(&sets[3], 3, 4) == HIBITSET_OK);
    CHECK(hibitset_or_assign(&sets[4], &other) == HIBITSET_OK && hibitset_assign_words(&sets[5], &word, 1) == HIBITSET_OK);
    for (i = 0; i < 6; i++) {
        CHECK(hibitset_equals(&sets[i], &other) && hibitset_len(&sets[i]) == 1);
        hibitset_free(&sets[i]);
    }
    hibitset_free(&other);
}

static void empty_sets(void) {
    static hibitset_t stays, stays_too = HIBITSET_INIT;
    hibitset_t *block = calloc(1, sizeof *block);
    int way, other_way;
    CHECK(block != NULL);
    for (way = 0; way < EMPTY_SETS; way++) {
        first_calls(way);
        for (other_way = 0; other_way < EMPTY_SETS; other_way++) {
            hibitset_t set = empty_set(way), other = empty_set(other_way);
            check_empty(&set, &other);
        }
    }
    check_empty(&stays, block);
    check_empty(&stays_too, &stays);
    check_empty(block, &stays);
    free(block);
}

/* ---- Texts and the version ---- */

static void texts(void) {
    int number, other;
    for (number = HIBITSET_OK; number <= HIBITSET_MALFORMED; number++) {
        CHECK(strcmp(hibitset_status_text((hibitset_status)number), "no status of hibitset") != 0);
        for (other = HIBITSET_OK; other < number; other++) {
            CHECK(strcmp(hibitset_status_text((hibitset_status)number), hibitset_status_text((hibitset_status)other)) != 0);
        }
    }
    for (number = HIBITSET_FAULT_TOO_SHORT; number <= HIBITSET_FAULT_RUN_PAST_END; number++) {
        CHECK(strcmp(hibitset_fault_text((hibitset_fault)number), "no fault of hibitset") != 0);
        for (other = HIBITSET_FAULT_TOO_SHORT; other < number; other++) {
            CHECK(strcmp(hibitset_fault_text((hibitset_fault)number), hibitset_fault_text((hibitset_fault)other)) != 0);
        }
    }
    CHECK(strcmp(hibitset_status_text((hibitset_status)99), "no status of hibitset") == 0);
    CHECK(strcmp(hibitset_fault_text((hibitset_fault)0), "no fault of hibitset") == 0);
    CHECK(strcmp(hibitset_status_text(HIBITSET_NO_MEMORY), "an allocation failed") == 0);
    CHECK(strcmp(hibitset_fault_text(HIBITSET_FAULT_BAD_COOKIE), "the first number begins no stream") == 0);
}

static void version(void) {
    char text[32];
    sprintf(text, "%d.%d.%d", HIBITSET_VERSION_MAJOR, HIBITSET_VERSION_MINOR, HIBITSET_VERSION_PATCH);
    CHECK(strcmp(text, HIBITSET_VERSION) == 0 && strcmp(hibitset_version(), HIBITSET_VERSION) == 0 && hibitset_abi_0 == 0);
}

/* Capacity that keeps the members, and the bytes of the words. */
static void reserve(void) {
    hibitset_t set = hibitset_new();
    uint32_t index;
    long before;
    CHECK(hibitset_reserve(&set, 0) == HIBITSET_OK && hibitset_memory(&set) == 0);
    CHECK(hibitset_add(&set, 70) == HIBITSET_OK && hibitset_add(&set, 5) == HIBITSET_OK && hibitset_memory(&set) == 40);
    CHECK(hibitset_reserve(&set, HIBITSET_MAX_EID + 1) == HIBITSET_OUT_OF_RANGE && hibitset_capacity(&set) == 128);
    allocations_left = 0;
    CHECK(hibitset_reserve(&set, 128) == HIBITSET_OK && hibitset_reserve(&set, 100000) == HIBITSET_NO_MEMORY);
    allocations_left = -1;
    CHECK(hibitset_capacity(&set) == 128 && hibitset_len(&set) == 2);
    CHECK(hibitset_reserve(&set, 100000) == HIBITSET_OK && hibitset_capacity(&set) == 100032 && hibitset_len(&set) == 2);
    CHECK(hibitset_contains(&set, 70) && hibitset_contains(&set, 5) && hibitset_memory(&set) == 8 * (1563 + 25 + 1 + 1));
    before = allocations;
    for (index = 99999; index > 0; index--) CHECK(!hibitset_failed(hibitset_add(&set, index)));
    CHECK(hibitset_reserve(&set, 9) == HIBITSET_OK && hibitset_capacity(&set) == 100032 && allocations == before);
    hibitset_free(&set);
}

/* Ids by shards, beside C's own operators. */
static void split_ids(void) {
    uint64_t ids[60];
    uint32_t highs[70], lows[70], bits, shards;
    size_t len, highs_len, lows_len, count, i, round;
    for (round = 0; round < 2000; round++) {
        bits = random_below(33);
        shards = random_below(2) ? random_below(20) : UINT32_MAX - random_below(3);
        len = random_below(61), highs_len = random_below(66), lows_len = random_below(66);
        for (i = 0; i < len; i++) ids[i] = ((uint64_t)random_below(UINT32_MAX) << 32 | random_below(UINT32_MAX)) >> random_below(64);
        count = len < highs_len ? len : highs_len;
        if (lows_len < count) count = lows_len;
        if (bits > 30) count = 0;
        memset(highs, 0xa5, sizeof highs);
        memset(lows, 0xa5, sizeof lows);
        CHECK(hibitset_split_ids(ids, len, bits, shards, highs, highs_len, lows, lows_len) == count);
        for (i = 0; i < count; i++) {
            CHECK(highs[i] == (ids[i] >> bits < shards ? ids[i] >> bits : shards));
            CHECK(lows[i] == (ids[i] & ((UINT64_C(1) << bits) - 1)));
        }
        for (; i < 70; i++) CHECK(highs[i] == 0xa5a5a5a5u && lows[i] == 0xa5a5a5a5u);
    }
}

/* NULL is a buffer of length 0, also where there are members. */
static void null_buffers(void) {
    hibitset_t set = hibitset_new();
    uint32_t index = 7;
    uint64_t word = 7;
    uint8_t found = 7;
    size_t added = 7;
    CHECK(hibitset_add_range(&set, 5, 5000) == HIBITSET_OK);
    CHECK(hibitset_next_many(&set, 0, NULL, 0) == 0 && hibitset_not_next_many(&set, 0, NULL, 0) == 0);
    CHECK(hibitset_prev_many(&set, HIBITSET_MAX_EID, NULL, 0) == 0);
    CHECK(hibitset_contains_many(&set, NULL, 0, &found, 1) == 0 && hibitset_contains_many(&set, &index, 1, NULL, 0) == 0);
    hibitset_copy_words(&set, 0, NULL, 0);
    CHECK(found == 7);
    CHECK(hibitset_select_many(&set, NULL, 0, &index, 1) == 0 && hibitset_select_many(&set, &word, 1, NULL, 0) == 0);
    CHECK(hibitset_next_many_u64(&set, 0, 5, NULL, 0) == 0 && hibitset_remove_many(&set, NULL, 0) == 0 && index == 7);
    CHECK(hibitset_split_ids(NULL, 0, 30, 1, &index, 1, &index, 0) == 0 && hibitset_split_ids(&word, 1, 30, 1, NULL, 0, NULL, 0) == 0);
    CHECK(hibitset_and_next_many(&set, &set, 0, NULL, 0) == 0 && hibitset_or_next_many(&set, &set, 0, NULL, 0) == 0);
    CHECK(hibitset_xor_next_many(&set, &set, 0, NULL, 0) == 0 && hibitset_andnot_next_many(&set, &set, 0, NULL, 0) == 0);
    CHECK(hibitset_add_many(&set, NULL, 0, &added) == HIBITSET_OK && added == 0 && hibitset_len(&set) == 4995);
    CHECK(hibitset_assign_words(&set, NULL, 0) == HIBITSET_OK && hibitset_is_empty(&set) && hibitset_capacity(&set) == 0);
    hibitset_free(&set);
}

static void out_of_range(void) {
    static const uint32_t list[] = {5, 9, HIBITSET_MAX_EID, 6}, bad[] = {UINT32_MAX};
    hibitset_t set = hibitset_new();
    uint32_t index = 7, buffer[4];
    uint64_t word = 1;
    size_t added = 7;
    long before = allocations;
    CHECK(hibitset_add(&set, HIBITSET_MAX_EID) == HIBITSET_OUT_OF_RANGE);
    CHECK(hibitset_add(&set, UINT32_MAX) == HIBITSET_OUT_OF_RANGE);
    CHECK(hibitset_add_many(&set, bad, 1, &added) == HIBITSET_OUT_OF_RANGE && added == 0);
    CHECK(hibitset_add_range(&set, 0, HIBITSET_MAX_EID + 1) == HIBITSET_OUT_OF_RANGE);
    CHECK(hibitset_flip_range(&set, 0, HIBITSET_MAX_EID + 1) == HIBITSET_OUT_OF_RANGE);
    CHECK(hibitset_with_capacity(&set, HIBITSET_MAX_EID + 1) == HIBITSET_OUT_OF_RANGE);
    CHECK(hibitset_assign_words(&set, &word, HIBITSET_MAX_WORDS + 1) == HIBITSET_OUT_OF_RANGE);
    CHECK(!hibitset_contains(&set, UINT32_MAX) && !hibitset_remove(&set, UINT32_MAX));
    CHECK(hibitset_is_empty(&set) && allocations == before);
    CHECK(hibitset_add_many(&set, list, 4, &added) == HIBITSET_OUT_OF_RANGE && added == 2);
    CHECK(hibitset_len(&set) == 2 && hibitset_contains(&set, 9) && !hibitset_contains(&set, 6));
    hibitset_clear(&set);
    CHECK(hibitset_capacity(&set) == 0);
    CHECK(hibitset_add(&set, HIBITSET_MAX_EID - 1) == HIBITSET_OK);
    CHECK(hibitset_last(&set, &index) && index == HIBITSET_MAX_EID - 1);
    CHECK(hibitset_rank(&set, index) == 0 && hibitset_rank(&set, HIBITSET_MAX_EID) == 1 && hibitset_len_range(&set, 5, UINT32_MAX) == 1);
    CHECK(hibitset_prev_many(&set, UINT32_MAX, buffer, 4) == 1 && buffer[0] == index && !hibitset_last_before(&set, index, &index));
    CHECK(hibitset_next_many(&set, 5, buffer, 4) == 1 && buffer[0] == index);
    CHECK(hibitset_next_many(&set, UINT32_MAX, buffer, 4) == 0 && hibitset_next_many(&set, 0, buffer, 0) == 0);
    CHECK(!hibitset_first_gap(&set, HIBITSET_MAX_EID - 1, &index) && !hibitset_first_gap(&set, UINT32_MAX, &index));
    CHECK(hibitset_first_gap(&set, HIBITSET_MAX_EID - 2, &index) && index == HIBITSET_MAX_EID - 2);
    hibitset_remove_range(&set, 0, UINT32_MAX);
    CHECK(hibitset_is_empty(&set) && hibitset_capacity(&set) == HIBITSET_MAX_EID);
    hibitset_free(&set);
}

static void one_set_twice(void) {
    hibitset_t set = hibitset_new(), out = hibitset_new();
    CHECK(hibitset_add(&set, 3) == HIBITSET_OK && hibitset_assign(&set, &set) == HIBITSET_OK);
    CHECK(hibitset_and(&set, &set, &out) == HIBITSET_OK && hibitset_equals(&out, &set));
    CHECK(hibitset_xor(&set, &set, &out) == HIBITSET_OK && hibitset_is_empty(&out));
    CHECK(hibitset_or(&set, &set, &out) == HIBITSET_OK && hibitset_equals(&out, &set));
    CHECK(hibitset_andnot(&set, &set, &out) == HIBITSET_OK && hibitset_is_empty(&out));
    hibitset_free(&out);
    CHECK(hibitset_or_assign(&set, &set) == HIBITSET_OK);
    hibitset_and_assign(&set, &set);
    CHECK(hibitset_len(&set) == 1 && !hibitset_is_disjoint(&set, &set) && hibitset_or_len(&set, &set) == 1);
    CHECK(hibitset_xor_len(&set, &set) == 0 && hibitset_andnot_len(&set, &set) == 0);
    CHECK(hibitset_xor_assign(&set, &set) == HIBITSET_OK && hibitset_is_empty(&set) && hibitset_capacity(&set) == 64);
    CHECK(hibitset_add(&set, 3) == HIBITSET_OK);
    hibitset_andnot_assign(&set, &set);
    CHECK(hibitset_is_empty(&set) && hibitset_capacity(&set) == 64);
    hibitset_free(&set);
}

/* ---- Each allocation fails in turn ---- */

typedef hibitset_status call(hibitset_t *set, const hibitset_t *other);

static hibitset_status add_far(hibitset_t *set, const hibitset_t *other) {
    (void)other;
    return hibitset_add(set, 1000000);
}

static hibitset_status add_two(hibitset_t *set, const hibitset_t *other) {
    static const uint32_t list[] = {1000000, 1000000};
    size_t added = 7;
    hibitset_status status = hibitset_add_many(set, list, 2, &added);
    (void)other;
    CHECK(added == (status == HIBITSET_OK ? 2 : 0));
    return status;
}

static hibitset_status add_range(hibitset_t *set, const hibitset_t *other) {
    (void)other;
    return hibitset_add_range(set, 900000, 1000000);
}

static hibitset_status flip_range(hibitset_t *set, const hibitset_t *other) {
    (void)other;
    return hibitset_flip_range(set, 900000, 1000000);
}

static hibitset_status with_capacity(hibitset_t *set, const hibitset_t *other) {
    (void)other;
    return hibitset_with_capacity(set, 1000000);
}

static hibitset_status assign(hibitset_t *set, const hibitset_t *other) { return hibitset_assign(set, other); }

static hibitset_status assign_words(hibitset_t *set, const hibitset_t *other) {
    size_t len;
    const uint64_t *words = hibitset_words(other, &len);
    return hibitset_assign_words(set, words, len);
}

static hibitset_status or_assign(hibitset_t *set, const hibitset_t *other) { return hibitset_or_assign(set, other); }
static hibitset_status xor_assign(hibitset_t *set, const hibitset_t *other) { return hibitset_xor_assign(set, other); }

static const hibitset_t *no_members(void) {
    static hibitset_t none;
    none = hibitset_new();
    return &none;
}

static hibitset_status make_and(hibitset_t *set, const hibitset_t *other) { return hibitset_and(other, other, set); }
static hibitset_status make_or(hibitset_t *set, const hibitset_t *other) { return hibitset_or(other, no_members(), set); }
static hibitset_status make_xor(hibitset_t *set, const hibitset_t *other) { return hibitset_xor(other, no_members(), set); }
static hibitset_status make_andnot(hibitset_t *set, const hibitset_t *other) { return hibitset_andnot(other, no_members(), set); }

/* Makes a call on a set with or without members, the first `met` allocations of which succeed. Returns whether all did. */
static bool meets(call *made, const hibitset_t *other, bool has_member, long met) {
    hibitset_t set = hibitset_new(), before = hibitset_new();
    hibitset_status status;
    size_t capacity;
    if (has_member) CHECK(hibitset_add(&set, 5) == HIBITSET_OK && hibitset_assign(&before, &set) == HIBITSET_OK);
    capacity = hibitset_capacity(&set);
    allocations_left = met;
    status = made(&set, other);
    allocations_left = -1;
    if (status == HIBITSET_NO_MEMORY) {
        CHECK(hibitset_failed(status) && hibitset_equals(&set, &before) && hibitset_capacity(&set) == capacity);
        CHECK(made(&set, other) == HIBITSET_OK);
    } else {
        CHECK(status == HIBITSET_OK && !hibitset_failed(status));
        CHECK(!hibitset_equals(&set, &before) || (made == with_capacity && !has_member));
    }
    hibitset_free(&set);
    hibitset_free(&before);
    return status == HIBITSET_OK;
}

static void failing_allocations(void) {
    static call *const calls[] = {add_far, add_two, add_range, flip_range, with_capacity, assign, assign_words,
                                  or_assign, xor_assign, make_and, make_or, make_xor, make_andnot};
    hibitset_t other = hibitset_new();
    size_t i;
    int has_member;
    long met;
    CHECK(hibitset_add(&other, 70000) == HIBITSET_OK && hibitset_add(&other, 2) == HIBITSET_OK);
    for (i = 0; i < sizeof calls / sizeof *calls; i++) {
        for (has_member = 0; has_member < 2; has_member++) {
            for (met = 0; !meets(calls[i], &other, has_member, met); met++) CHECK(met < 5);
            CHECK(met > 0);
        }
    }
    hibitset_free(&other);
}

/* Where the memory for counts is refused, ranks are counted one by one. */
static void ranks_without_memory(void) {
    hibitset_t set = hibitset_new();
    uint32_t ends[] = {0, 5, 70001, UINT32_MAX};
    uint64_t ranks[4];
    long met;
    CHECK(hibitset_add(&set, 70000) == HIBITSET_OK && hibitset_add(&set, 2) == HIBITSET_OK);
    for (met = 0; met < 2; met++) {
        allocations_left = met;
        CHECK(hibitset_rank_many(&set, ends, 4, ranks, 4) == 4);
        CHECK(ranks[0] == 0 && ranks[1] == 1 && ranks[2] == 2 && ranks[3] == 2);
    }
    allocations_left = -1;
    hibitset_free(&set);
}

static void within_capacity(void) {
    hibitset_t set = hibitset_new(), other = hibitset_new();
    uint32_t index, list[] = {99999, 3};
    size_t added;
    CHECK(hibitset_add(&other, 70000) == HIBITSET_OK && hibitset_add(&other, 2) == HIBITSET_OK);
    CHECK(hibitset_with_capacity(&set, 100000) == HIBITSET_OK && hibitset_capacity(&set) >= 100000);
    allocations_left = 0;
    for (index = 0; index < 100000; index += 7) CHECK(hibitset_add(&set, index) == HIBITSET_OK);
    CHECK(hibitset_add_many(&set, list, 2, &added) == HIBITSET_OK);
    CHECK(hibitset_add_range(&set, 0, 100000) == HIBITSET_OK && hibitset_or_assign(&set, &other) == HIBITSET_OK);
    CHECK(hibitset_xor_assign(&set, &other) == HIBITSET_OK && hibitset_len(&set) == 99998);
    hibitset_remove_range(&set, 5, 99999);
    allocations_left = -1;
    CHECK(hibitset_len(&set) == 5);
    hibitset_free(&set);
    hibitset_free(&other);
}

/* ---- Threads that read one set ---- */

static void *sum_members(void *set) {
    uint32_t buffer[100], start, round;
    size_t count, i;
    uint64_t sum = 0;
    for (round = 0; round < 20; round++) {
        start = 0;
        do {
            count = hibitset_next_many(set, start, buffer, 100);
            for (i = 0; i < count; i++) sum += buffer[i] + (uint64_t)hibitset_contains(set, buffer[i]);
            if (count > 0) start = buffer[count - 1] + 1;
        } while (count == 100);
    }
    return (void *)(uintptr_t)sum;
}

static void many_readers(void) {
    pthread_t threads[4];
    hibitset_t set = hibitset_new();
    uint32_t i;
    uint64_t sum = 0;
    void *found;
    for (i = 0; i < 200000; i += 13) {
        CHECK(hibitset_add(&set, i) == HIBITSET_OK);
        sum += 20 * (uint64_t)(i + 1);
    }
    for (i = 0; i < 4; i++) CHECK(pthread_create(&threads[i], NULL, sum_members, &set) == 0);
    for (i = 0; i < 4; i++) {
        CHECK(pthread_join(threads[i], &found) == 0);
        CHECK((uint64_t)(uintptr_t)found == sum);
    }
    hibitset_free(&set);
}

int main(void) {
    random_changes();
    empty_sets();
    texts();
    version();
    reserve();
    split_ids();
    null_buffers();
    out_of_range();
    one_set_twice();
    failing_allocations();
    ranks_without_memory();
    within_capacity();
    many_readers();
    puts("test.c: ok");
    return 0;
}
