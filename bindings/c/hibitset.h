/* SPDX-License-Identifier: Apache-2.0 */
/*
 * hibitset.h: hierarchical bit sets of uint32_t indices below 2^30, dense and sparse, and sets that threads add to, for C99
 * and C++.
 *
 *     hibitset_t set = hibitset_new();
 *     if (hibitset_failed(hibitset_add(&set, 70000))) { ... }
 *     printf("%zu members\n", hibitset_len(&set));
 *     hibitset_free(&set);
 *
 * WHAT THE CALLER OWES
 *
 * The library is compiled from Rattle, where each function is proved to be safe, to return, and to do what its contract
 * says. No proof covers C, so these are the caller's:
 *
 * - A hibitset_t comes from hibitset_new or HIBITSET_INIT, or is all zero bytes, as static memory and that of calloc
 *   are. Only the functions below change it. It may be moved as bytes, and is then used in its new place alone. It is
 *   copied by hibitset_assign only.
 * - A function that takes a set as `hibitset_t *` has it alone. Any number of functions may take one as
 *   `const hibitset_t *` at once, on any threads, while no function changes it. A set may go from one thread to another,
 *   as any other memory.
 * - The same holds of a hibitset_sparse_t (hibitset_sparse_new, HIBITSET_SPARSE_INIT), of a hibitset_atomic_t
 *   (hibitset_atomic_new, HIBITSET_ATOMIC_INIT) and of a hibitset_seat_t (hibitset_seat_new, HIBITSET_SEAT_INIT): each is
 *   moved and never copied as bytes. Every function has it alone, those that only look too. Seats of one shared set are
 *   in calls at once, on any threads, as long as each seat is in one.
 * - No pointer is NULL, unless a length of 0 goes with it, and as much memory lies behind each as is said. Sets, buffers
 *   and results do not overlap, except that two operands may be the same set.
 * - malloc, realloc and free are those of one allocator. No function is called where malloc may not be, as in a signal
 *   handler.
 *
 * WHICH LIBRARY FITS THIS HEADER
 *
 * Functions of this header read the fields of a hibitset_t. So its layout is a part of the ABI, whose number is in the
 * name of hibitset_abi_0 and in the soname libhibitset.so.0: a library of another layout does not link.
 */
#ifndef HIBITSET_H
#define HIBITSET_H

#include <stdbool.h>
#include <stddef.h>
#include <stdint.h>

#if SIZE_MAX != UINT64_MAX
#error "hibitset is built for targets of 64 bits"
#endif

#ifdef __cplusplus
extern "C" {
#endif

/* What returns a status: a caller that drops it is warned. */
#if (defined(__cplusplus) && __cplusplus >= 201703L) || (defined(__STDC_VERSION__) && __STDC_VERSION__ >= 202311L)
#define HIBITSET_MUST_USE [[nodiscard]]
#elif defined(__GNUC__)
#define HIBITSET_MUST_USE __attribute__((warn_unused_result))
#else
#define HIBITSET_MUST_USE
#endif

/* ---- Version ---- */

/* The version of this header. */
#define HIBITSET_VERSION_MAJOR 0
#define HIBITSET_VERSION_MINOR 1
#define HIBITSET_VERSION_PATCH 0
#define HIBITSET_VERSION "0.1.0"

/* Returns the version of the library: HIBITSET_VERSION of the header that it was built with. */
const char *hibitset_version(void);

/* The word 0, to which each empty set below points: so a program refers to the ABI that it was compiled for. */
extern const uint64_t hibitset_abi_0;

/* ---- Limits ---- */

/* Every index in a set is less than this. */
#define HIBITSET_MAX_EID UINT32_C(1073741824)

/* Every index in an atomic set or a shared set is less than this. */
#define HIBITSET_ATOMIC_MAX_EID UINT32_C(16777216)

/* The most words that layer 0 of a set has. */
#define HIBITSET_MAX_WORDS UINT32_C(16777216)

/* ---- Statuses and faults ---- */

/* What a function returns that can fail. */
typedef enum hibitset_status {
    HIBITSET_OK = 0,           /* Done. Of an addition of one index: it was not a member before. */
    HIBITSET_PRESENT = 1,      /* Of an addition of one index: it was a member before. */
    HIBITSET_NO_MEMORY = 2,    /* An allocation failed. The function says what it leaves. */
    HIBITSET_OUT_OF_RANGE = 3, /* An index or a length is out of range. The function says what it leaves. */
    HIBITSET_SHARED = 4,       /* Of hibitset_seat_settle: the set has another seat. */
    HIBITSET_ONE_SHARE = 5,    /* Of hibitset_seat_divide: the seat has one share of its set. */
    HIBITSET_NO_SEAT = 6,      /* Of the functions on a seat: there is none. */
    HIBITSET_SHORT_BUFFER = 7, /* The buffer is shorter than what would be written. */
    HIBITSET_MALFORMED = 8     /* The bytes are no stream, or one with members out of range. */
} hibitset_status;

/* What is wrong with bytes that are no stream, and at which byte. */
typedef enum hibitset_fault {
    HIBITSET_FAULT_TOO_SHORT = 1,           /* The header, or a container, begins here and would end past the bytes. */
    HIBITSET_FAULT_TOO_LONG = 2,            /* The last container ends here, and bytes follow. */
    HIBITSET_FAULT_BAD_COOKIE = 3,          /* The first number is neither of the two that a stream begins with. */
    HIBITSET_FAULT_TOO_MANY_CONTAINERS = 4, /* The header announces more than 65,536 containers. */
    HIBITSET_FAULT_KEYS_NOT_ASCENDING = 5,  /* A key is not above the one before it. */
    HIBITSET_FAULT_KEY_OUT_OF_RANGE = 6,    /* A key is not below the bound. */
    HIBITSET_FAULT_WRONG_OFFSET = 7,        /* An offset is not the position where its container begins. */
    HIBITSET_FAULT_WRONG_CARDINALITY = 8,   /* A container has not as many members as the header says. */
    HIBITSET_FAULT_NOT_ASCENDING = 9,       /* A number of an array is not above the one before it. */
    HIBITSET_FAULT_RUNS_NOT_APART = 10,     /* A run begins within the run before it, or right behind it. */
    HIBITSET_FAULT_RUN_PAST_END = 11        /* A run ends past the numbers of its container. */
} hibitset_fault;

/* Returns whether a status is an error: neither HIBITSET_OK nor HIBITSET_PRESENT. */
static inline bool hibitset_failed(hibitset_status status) { return status >= HIBITSET_NO_MEMORY; }

/* Returns what a status says, in words without a full stop, as a string that is never freed. */
static inline const char *hibitset_status_text(hibitset_status status) {
    switch (status) {
        case HIBITSET_OK: return "done";
        case HIBITSET_PRESENT: return "the index was a member before";
        case HIBITSET_NO_MEMORY: return "an allocation failed";
        case HIBITSET_OUT_OF_RANGE: return "an index or a length is out of range";
        case HIBITSET_SHARED: return "the set has another seat";
        case HIBITSET_ONE_SHARE: return "the seat has one share of its set";
        case HIBITSET_NO_SEAT: return "there is no seat";
        case HIBITSET_SHORT_BUFFER: return "the buffer is too short";
        case HIBITSET_MALFORMED: return "the bytes are no stream of members in range";
    }
    return "no status of hibitset";
}

/* Returns what a fault says, as hibitset_status_text does. */
static inline const char *hibitset_fault_text(hibitset_fault fault) {
    switch (fault) {
        case HIBITSET_FAULT_TOO_SHORT: return "the stream ends too early";
        case HIBITSET_FAULT_TOO_LONG: return "bytes follow the last container";
        case HIBITSET_FAULT_BAD_COOKIE: return "the first number begins no stream";
        case HIBITSET_FAULT_TOO_MANY_CONTAINERS: return "the header announces more than 65,536 containers";
        case HIBITSET_FAULT_KEYS_NOT_ASCENDING: return "a key is not above the one before it";
        case HIBITSET_FAULT_KEY_OUT_OF_RANGE: return "a key is out of range";
        case HIBITSET_FAULT_WRONG_OFFSET: return "an offset is not the position of its container";
        case HIBITSET_FAULT_WRONG_CARDINALITY: return "a container has not as many members as the header says";
        case HIBITSET_FAULT_NOT_ASCENDING: return "a number of an array is not above the one before it";
        case HIBITSET_FAULT_RUNS_NOT_APART: return "a run begins within the run before it, or right behind it";
        case HIBITSET_FAULT_RUN_PAST_END: return "a run ends past the numbers of its container";
    }
    return "no fault of hibitset";
}

/* ---- Life of a set ---- */

/* A set. Its fields are the library's. */
typedef struct hibitset_t {
    struct {
        const uint64_t *words;
        size_t len;
    } layers_[4];
    uint64_t top_;
    const void *set_;
    bool made_;
} hibitset_t;

/* An empty set, to initialize one with, also a static one. */
#define HIBITSET_INIT                                                                                                \
    {                                                                                                                \
        {{&hibitset_abi_0, 0}, {&hibitset_abi_0, 0}, {&hibitset_abi_0, 0}, {&hibitset_abi_0, 0}}, 0, NULL, false     \
    }

/* Returns an empty set. It takes no memory until the first member. */
static inline hibitset_t hibitset_new(void) {
    hibitset_t set = HIBITSET_INIT;
    return set;
}

/* Removes all members and frees the memory. The set is then as hibitset_new returns one: it may be used again, freed
 * again, or left. */
void hibitset_free(hibitset_t *set);

/* ---- Capacity ---- */

/* Makes `set` an empty set with capacity for each index below `max`, at most HIBITSET_MAX_EID: adding these allocates
 * nothing until hibitset_clear, hibitset_free or one of the functions that make a set anew.
 * HIBITSET_NO_MEMORY, HIBITSET_OUT_OF_RANGE: `set` is unchanged. */
HIBITSET_MUST_USE hibitset_status hibitset_with_capacity(hibitset_t *set, uint32_t max);

/* Makes capacity for each index below `max`, at most HIBITSET_MAX_EID, as hibitset_with_capacity does, and keeps the
 * members and the capacity that there is.
 * HIBITSET_NO_MEMORY (never if max <= hibitset_capacity), HIBITSET_OUT_OF_RANGE: the capacity is unchanged. */
HIBITSET_MUST_USE hibitset_status hibitset_reserve(hibitset_t *set, uint32_t max);

/* Returns how many bytes the words of the set take. Its block of memory may be longer, for words to come. */
size_t hibitset_memory(const hibitset_t *set);

/* Returns a number below which each index can be added without an allocation. */
static inline size_t hibitset_capacity(const hibitset_t *set) { return 64 * set->layers_[0].len; }

/* ---- Members ---- */

/* Adds an index, less than HIBITSET_MAX_EID. HIBITSET_OK: it is new. HIBITSET_PRESENT: it was a member.
 * HIBITSET_NO_MEMORY (never below hibitset_capacity), HIBITSET_OUT_OF_RANGE: the members are unchanged. */
HIBITSET_MUST_USE hibitset_status hibitset_add(hibitset_t *set, uint32_t index);

/* Adds `len` indices in order, up to the first that fails, and leaves in `*added` how many were added: `len` on success.
 * HIBITSET_NO_MEMORY, HIBITSET_OUT_OF_RANGE: indices[*added] failed so, and none after it was added. */
HIBITSET_MUST_USE hibitset_status hibitset_add_many(hibitset_t *set, const uint32_t *indices, size_t len, size_t *added);

/* Adds the indices from `start` on and below `end`, at most HIBITSET_MAX_EID; none if end <= start.
 * HIBITSET_NO_MEMORY (never if end <= hibitset_capacity), HIBITSET_OUT_OF_RANGE: the members are unchanged. */
HIBITSET_MUST_USE hibitset_status hibitset_add_range(hibitset_t *set, uint32_t start, uint32_t end);

/* Removes an index, and returns whether it was a member. The capacity stays. */
bool hibitset_remove(hibitset_t *set, uint32_t index);

/* Removes `len` indices, and returns how many members that takes out of the set. Those that are none, or out of range,
 * change nothing. The capacity stays. */
size_t hibitset_remove_many(hibitset_t *set, const uint32_t *indices, size_t len);

/* Removes the indices from `start` on and below `end`. The capacity stays. */
void hibitset_remove_range(hibitset_t *set, uint32_t start, uint32_t end);

/* Removes all members. The memory is kept for later ones, but hibitset_capacity is 0. */
void hibitset_clear(hibitset_t *set);

/* Returns whether an index is a member; false for one out of range. */
bool hibitset_contains(const hibitset_t *set, uint32_t index);

/* Writes for each of `len` indices whether it is a member, 1 or 0, into `found`, until `found_len` bytes are written, and
 * returns how many. What lies behind them in `found` stays. */
size_t hibitset_contains_many(const hibitset_t *set, const uint32_t *indices, size_t len, uint8_t *found,
                              size_t found_len);

/* Returns the number of members. */
size_t hibitset_len(const hibitset_t *set);

/* Returns whether there is no member. */
bool hibitset_is_empty(const hibitset_t *set);

/* Leaves the least member in `*index` and returns true. If there is none, returns false and leaves `*index`. */
bool hibitset_first(const hibitset_t *set, uint32_t *index);

/* Leaves the greatest member in `*index` and returns true. If there is none, returns false and leaves `*index`. */
bool hibitset_last(const hibitset_t *set, uint32_t *index);

/* Leaves the least index from `start` on that is in range and no member in `*index` and returns true. If there is none,
 * returns false and leaves `*index`. */
bool hibitset_first_gap(const hibitset_t *set, uint32_t start, uint32_t *index);

/* ---- Iteration ---- */

/* Writes the members from `start` on into `buffer`, ascending, until `len` are written or there are no more, and returns
 * how many. What lies behind them in the buffer stays. Go on from the last one plus 1. */
size_t hibitset_next_many(const hibitset_t *set, uint32_t start, uint32_t *buffer, size_t len);

/* As hibitset_next_many, of the indices in range that are no members. */
size_t hibitset_not_next_many(const hibitset_t *set, uint32_t start, uint32_t *buffer, size_t len);

/* Calls `visit` with each member, ascending, and `param`, until it returns false. Returns whether it never did. `visit`
 * changes no set that is iterated. */
static inline bool hibitset_iterate(const hibitset_t *set, bool (*visit)(uint32_t index, void *param), void *param) {
    uint32_t buffer[256], start = 0;
    size_t count, i;
    do {
        count = hibitset_next_many(set, start, buffer, 256);
        for (i = 0; i < count; i++) {
            if (!visit(buffer[i], param)) return false;
        }
        if (count > 0) start = buffer[count - 1] + 1;
    } while (count == 256);
    return true;
}

/* ---- Order ---- */

/* Returns the number of members before `end`: the position of `end` in the ascending list of all, if it is a member. */
size_t hibitset_rank(const hibitset_t *set, uint32_t end);

/* Leaves the member at position `at` of the ascending list of all in `*index`, the least one at 0, and returns true. If
 * there are no more than `at` members, returns false and leaves `*index`. */
bool hibitset_select(const hibitset_t *set, size_t at, uint32_t *index);

/* Writes for each of `len` ends the number of members before it, as hibitset_rank returns it, into `ranks`, until
 * `ranks_len` are written, and returns how many. It counts the members once, and then reads at most 65 words for an end.
 * If the memory for the counts is refused, 4 bytes for each 4,096 indices up to the last member, it counts for each end. */
size_t hibitset_rank_many(const hibitset_t *set, const uint32_t *ends, size_t len, uint64_t *ranks, size_t ranks_len);

/* Writes for each of `len` positions the member there, as hibitset_select leaves it, into `indices`, up to the first
 * position without a member and until `indices_len` are written, and returns how many. What lies behind them in `indices`
 * stays. It counts the members once, as hibitset_rank_many does, and then reads at most 65 words for a position. */
size_t hibitset_select_many(const hibitset_t *set, const uint64_t *positions, size_t len, uint32_t *indices,
                            size_t indices_len);

/* Returns the number of members from `start` on and before `end`. */
size_t hibitset_len_range(const hibitset_t *set, uint32_t start, uint32_t end);

/* Leaves the greatest member before `end` in `*index` and returns true. If there is none, returns false and leaves
 * `*index`. */
bool hibitset_last_before(const hibitset_t *set, uint32_t end, uint32_t *index);

/* Writes the members before `end` into `buffer`, descending, until `len` are written or there are no more, and returns
 * how many. What lies behind them in the buffer stays. Begin at HIBITSET_MAX_EID; go on from the last one. */
size_t hibitset_prev_many(const hibitset_t *set, uint32_t end, uint32_t *buffer, size_t len);

/* Removes the least member, leaves it in `*index`, and returns true. If there is none, returns false and leaves `*index`.
 * The capacity stays. */
bool hibitset_pop_first(hibitset_t *set, uint32_t *index);

/* Removes the greatest member, leaves it in `*index`, and returns true. If there is none, returns false and leaves
 * `*index`. The capacity stays. */
bool hibitset_pop_last(hibitset_t *set, uint32_t *index);

/* Removes the members from `start` on and below `end`, at most HIBITSET_MAX_EID, and adds the other indices there; changes
 * nothing if end <= start.
 * HIBITSET_NO_MEMORY (never if end <= hibitset_capacity), HIBITSET_OUT_OF_RANGE: the members are unchanged. */
HIBITSET_MUST_USE hibitset_status hibitset_flip_range(hibitset_t *set, uint32_t start, uint32_t end);

/* ---- Ids of 64 bits ---- */

/* Writes the members from `start` on into `buffer` as hibitset_next_many does, each plus `base`, modulo 2^64: of a set
 * that is shard s of ids of which the low b bits are indices, with s << b as the base, these are the ids. */
size_t hibitset_next_many_u64(const hibitset_t *set, uint32_t start, uint64_t base, uint64_t *buffer, size_t len);

/* Writes for each of `len` ids its shard, id >> bits, into `highs`, and its index there, the low `bits` bits, into `lows`,
 * until `highs_len` or `lows_len` are written, and returns how many. An id past the last shard, which is shards - 1, has
 * `shards` as its shard. What lies behind them stays. If `bits` is more than 30, nothing is written, and 0 is returned. */
size_t hibitset_split_ids(const uint64_t *ids, size_t len, uint32_t bits, uint32_t shards, uint32_t *highs,
                          size_t highs_len, uint32_t *lows, size_t lows_len);

/* ---- Words ---- */

/* Makes `set` the set of these words, at most HIBITSET_MAX_WORDS: index 64 * p + b is a member if bit b of words[p] is
 * set. HIBITSET_NO_MEMORY, HIBITSET_OUT_OF_RANGE: `set` is unchanged. */
HIBITSET_MUST_USE hibitset_status hibitset_assign_words(hibitset_t *set, const uint64_t *words, size_t len);

/* Returns the words of the set, `*len` of them, which are there until it is changed: index 64 * p + b is a member if bit
 * b of word p is set. There is no member past them. It may return NULL if there are none. */
static inline const uint64_t *hibitset_words(const hibitset_t *set, size_t *len) {
    *len = set->layers_[0].len;
    return set->layers_[0].words;
}

/* Fills `buffer` with the words of the set from position `start` on, 0 for each that is past hibitset_words. */
void hibitset_copy_words(const hibitset_t *set, size_t start, uint64_t *buffer, size_t len);

/* ---- Streams in the portable Roaring format, which other libraries and programs read and write too ---- */

/* The high 16 bits of an index in a set, its key, are less than this. */
#define HIBITSET_ROARING_KEYS UINT32_C(16384)

/* Returns how many bytes hibitset_roaring_write writes of a set. It allocates nothing. */
size_t hibitset_roaring_len(const hibitset_t *set);

/* Writes the one stream without runs of a set's members into the first bytes of `buffer`, and leaves in `*taken` how many
 * bytes that takes. What lies behind them in the buffer stays. It allocates 16 bytes for each 65,536 indices with members.
 * HIBITSET_SHORT_BUFFER (`len` is less than `*taken`): `buffer` is unchanged. HIBITSET_NO_MEMORY: so is `*taken`. */
HIBITSET_MUST_USE hibitset_status hibitset_roaring_write(const hibitset_t *set, uint8_t *buffer, size_t len,
                                                         size_t *taken);

/* Makes `set` the set whose members a stream has, with runs or without: a stream of `len` bytes, with nothing behind it.
 * 18 bytes can ask for a set of 136 MB: so bytes of a stranger are better read by hibitset_roaring_read_below.
 * HIBITSET_MALFORMED: `*fault` is the hibitset_fault that the bytes have at position `*at`, and `set` is unchanged.
 * HIBITSET_NO_MEMORY: `set` is unchanged. Neither this nor success changes `*fault` and `*at`. */
HIBITSET_MUST_USE hibitset_status hibitset_roaring_read(hibitset_t *set, const uint8_t *bytes, size_t len,
                                                        hibitset_fault *fault, size_t *at);

/* As hibitset_roaring_read, if each key in the stream is less than `end`, so each member less than 65536 * end. Layer 0 of
 * the set then takes at most 8,192 bytes for each key below `end`. */
HIBITSET_MUST_USE hibitset_status hibitset_roaring_read_below(hibitset_t *set, const uint8_t *bytes, size_t len,
                                                              uint32_t end, hibitset_fault *fault, size_t *at);

/* ---- Assignments ---- */

/* Makes `set` a copy of `other`. HIBITSET_NO_MEMORY: `set` is unchanged. */
HIBITSET_MUST_USE static inline hibitset_status hibitset_assign(hibitset_t *set, const hibitset_t *other);

/* Adds the members of `other`. HIBITSET_NO_MEMORY (never if all of them are below hibitset_capacity): the members are
 * unchanged. */
HIBITSET_MUST_USE static inline hibitset_status hibitset_or_assign(hibitset_t *set, const hibitset_t *other);

/* Adds the members of `other` that `set` lacks, and removes those that both have. HIBITSET_NO_MEMORY (never if all of
 * them are below hibitset_capacity): the members are unchanged. */
HIBITSET_MUST_USE static inline hibitset_status hibitset_xor_assign(hibitset_t *set, const hibitset_t *other);

/* Removes the members that `other` lacks. The capacity stays. */
static inline void hibitset_and_assign(hibitset_t *set, const hibitset_t *other);

/* Removes the members that `other` has. The capacity stays. */
static inline void hibitset_andnot_assign(hibitset_t *set, const hibitset_t *other);

/* ---- Sets made of two ---- */

/* Each of these makes `out` a set of members of `a` and `b`, which may be one set. `out` is neither of the two: the
 * functions above change an operand. Its capacity ends with the word of its last member.
 * HIBITSET_NO_MEMORY: `out` is unchanged. */

/* The members that both have. */
HIBITSET_MUST_USE hibitset_status hibitset_and(const hibitset_t *a, const hibitset_t *b, hibitset_t *out);

/* The members that at least one of the two has. */
HIBITSET_MUST_USE hibitset_status hibitset_or(const hibitset_t *a, const hibitset_t *b, hibitset_t *out);

/* The members that one of the two has alone. */
HIBITSET_MUST_USE hibitset_status hibitset_xor(const hibitset_t *a, const hibitset_t *b, hibitset_t *out);

/* The members that `a` has and `b` lacks. */
HIBITSET_MUST_USE hibitset_status hibitset_andnot(const hibitset_t *a, const hibitset_t *b, hibitset_t *out);

/* ---- Two sets that are read ---- */

/* Returns whether the two have no member in common. */
bool hibitset_is_disjoint(const hibitset_t *a, const hibitset_t *b);

/* Returns whether each member of `a` is one of `b`. */
bool hibitset_is_subset(const hibitset_t *a, const hibitset_t *b);

/* Returns whether the two have the same members. */
bool hibitset_equals(const hibitset_t *a, const hibitset_t *b);

/* Returns a hash of the members: sets with the same members have the same, whatever their capacity. */
uint64_t hibitset_hash(const hibitset_t *set);

/* Returns how many members both have. */
size_t hibitset_and_len(const hibitset_t *a, const hibitset_t *b);

/* Returns how many members at least one of the two has. */
size_t hibitset_or_len(const hibitset_t *a, const hibitset_t *b);

/* Returns how many members one of the two has alone. */
size_t hibitset_xor_len(const hibitset_t *a, const hibitset_t *b);

/* Returns how many members `a` has that `b` lacks. */
size_t hibitset_andnot_len(const hibitset_t *a, const hibitset_t *b);

/* As hibitset_next_many, of the members of both sets. */
size_t hibitset_and_next_many(const hibitset_t *a, const hibitset_t *b, uint32_t start, uint32_t *buffer, size_t len);

/* As hibitset_next_many, of the members of at least one of the two sets. */
size_t hibitset_or_next_many(const hibitset_t *a, const hibitset_t *b, uint32_t start, uint32_t *buffer, size_t len);

/* As hibitset_next_many, of the members of one of the two sets alone. */
size_t hibitset_xor_next_many(const hibitset_t *a, const hibitset_t *b, uint32_t start, uint32_t *buffer, size_t len);

/* As hibitset_next_many, of the members of `a` that `b` lacks. */
size_t hibitset_andnot_next_many(const hibitset_t *a, const hibitset_t *b, uint32_t start, uint32_t *buffer, size_t len);

/* ---- Sparse sets ---- */

/* A set of indices below HIBITSET_MAX_EID whose memory goes by its members, wherever they lie: one member takes some 500
 * bytes, where it may take a hibitset_t 136 MB. Its fields are the library's. */
typedef struct hibitset_sparse_t {
    const void *set_;
    bool made_;
} hibitset_sparse_t;

/* An empty set, to initialize one with. */
#define HIBITSET_SPARSE_INIT {&hibitset_abi_0, false}

/* Returns an empty set. It takes no memory until the first member. */
static inline hibitset_sparse_t hibitset_sparse_new(void) {
    hibitset_sparse_t set = HIBITSET_SPARSE_INIT;
    return set;
}

/* Removes all members and frees the memory. The set is then as hibitset_sparse_new returns one. */
void hibitset_sparse_free(hibitset_sparse_t *set);

/* Removes all members. A block for the set itself is kept. */
void hibitset_sparse_clear(hibitset_sparse_t *set);

/* Gives back memory that no member needs, as far as allocations succeed. The members stay. */
void hibitset_sparse_shrink_to_fit(hibitset_sparse_t *set);

/* Returns how many bytes the words of the set and their tables take. The blocks of memory may be longer, for members to
 * come. */
size_t hibitset_sparse_memory(hibitset_sparse_t *set);

/* Adds an index, less than HIBITSET_MAX_EID. HIBITSET_OK: it is new. HIBITSET_PRESENT: it was a member.
 * HIBITSET_NO_MEMORY (never if a member has the same index / 64), HIBITSET_OUT_OF_RANGE: the members are unchanged. */
HIBITSET_MUST_USE hibitset_status hibitset_sparse_add(hibitset_sparse_t *set, uint32_t index);

/* Adds `len` indices in order, up to the first that fails, and leaves in `*added` how many were added: `len` on success.
 * HIBITSET_NO_MEMORY, HIBITSET_OUT_OF_RANGE: indices[*added] failed so, and none after it was added. */
HIBITSET_MUST_USE hibitset_status hibitset_sparse_add_many(hibitset_sparse_t *set, const uint32_t *indices, size_t len,
                                                           size_t *added);

/* Adds the indices from `start` on and below `end`, at most HIBITSET_MAX_EID; none if end <= start.
 * HIBITSET_NO_MEMORY, HIBITSET_OUT_OF_RANGE: the members are unchanged. */
HIBITSET_MUST_USE hibitset_status hibitset_sparse_add_range(hibitset_sparse_t *set, uint32_t start, uint32_t end);

/* Removes the members from `start` on and below `end`, at most HIBITSET_MAX_EID, and adds the other indices there; changes
 * nothing if end <= start. HIBITSET_NO_MEMORY, HIBITSET_OUT_OF_RANGE: the members are unchanged. */
HIBITSET_MUST_USE hibitset_status hibitset_sparse_flip_range(hibitset_sparse_t *set, uint32_t start, uint32_t end);

/* Removes an index, and returns whether it was a member. */
bool hibitset_sparse_remove(hibitset_sparse_t *set, uint32_t index);

/* Removes `len` indices, as hibitset_remove_many does. */
size_t hibitset_sparse_remove_many(hibitset_sparse_t *set, const uint32_t *indices, size_t len);

/* Removes the indices from `start` on and below `end`. */
void hibitset_sparse_remove_range(hibitset_sparse_t *set, uint32_t start, uint32_t end);

/* Removes the least member, leaves it in `*index`, and returns true. If there is none, returns false and leaves
 * `*index`. */
bool hibitset_sparse_pop_first(hibitset_sparse_t *set, uint32_t *index);

/* Removes the greatest member, leaves it in `*index`, and returns true. If there is none, returns false and leaves
 * `*index`. */
bool hibitset_sparse_pop_last(hibitset_sparse_t *set, uint32_t *index);

/* Returns whether an index is a member; false for one out of range. */
bool hibitset_sparse_contains(hibitset_sparse_t *set, uint32_t index);

/* Writes for each of `len` indices whether it is a member, as hibitset_contains_many does. */
size_t hibitset_sparse_contains_many(hibitset_sparse_t *set, const uint32_t *indices, size_t len, uint8_t *found,
                                     size_t found_len);

/* Returns the number of members. */
size_t hibitset_sparse_len(hibitset_sparse_t *set);

/* Returns whether there is no member. */
bool hibitset_sparse_is_empty(hibitset_sparse_t *set);

/* Leaves the least member in `*index` and returns true. If there is none, returns false and leaves `*index`. */
bool hibitset_sparse_first(hibitset_sparse_t *set, uint32_t *index);

/* Leaves the greatest member in `*index` and returns true. If there is none, returns false and leaves `*index`. */
bool hibitset_sparse_last(hibitset_sparse_t *set, uint32_t *index);

/* Leaves the greatest member before `end` in `*index` and returns true. If there is none, returns false and leaves
 * `*index`. */
bool hibitset_sparse_last_before(hibitset_sparse_t *set, uint32_t end, uint32_t *index);

/* Returns the number of members before `end`: the position of `end` in the ascending list of all, if it is a member. */
size_t hibitset_sparse_rank(hibitset_sparse_t *set, uint32_t end);

/* Leaves the member at position `at` of the ascending list of all in `*index`, the least one at 0, and returns true. If
 * there are no more than `at` members, returns false and leaves `*index`. */
bool hibitset_sparse_select(hibitset_sparse_t *set, size_t at, uint32_t *index);

/* Writes for each of `len` ends the number of members before it, as hibitset_rank_many does. Of fewer than 64 it counts for
 * each, and allocates nothing. */
size_t hibitset_sparse_rank_many(hibitset_sparse_t *set, const uint32_t *ends, size_t len, uint64_t *ranks,
                                 size_t ranks_len);

/* Writes for each of `len` positions the member there, as hibitset_select_many does. Of fewer than 64 it counts for each, and
 * allocates nothing. */
size_t hibitset_sparse_select_many(hibitset_sparse_t *set, const uint64_t *positions, size_t len, uint32_t *indices,
                                   size_t indices_len);

/* Returns the number of members from `start` on and before `end`. */
size_t hibitset_sparse_len_range(hibitset_sparse_t *set, uint32_t start, uint32_t end);

/* Writes the members from `start` on into `buffer`, as hibitset_next_many does. */
size_t hibitset_sparse_next_many(hibitset_sparse_t *set, uint32_t start, uint32_t *buffer, size_t len);

/* Writes the members before `end` into `buffer`, as hibitset_prev_many does. */
size_t hibitset_sparse_prev_many(hibitset_sparse_t *set, uint32_t end, uint32_t *buffer, size_t len);

/* Writes the members from `start` on into `buffer`, each plus `base`, as hibitset_next_many_u64 does. */
size_t hibitset_sparse_next_many_u64(hibitset_sparse_t *set, uint32_t start, uint64_t base, uint64_t *buffer,
                                     size_t len);

/* Calls `visit` with each member, ascending, and `param`, until it returns false. Returns whether it never did. `visit`
 * calls no function with a set that is iterated. */
static inline bool hibitset_sparse_iterate(hibitset_sparse_t *set, bool (*visit)(uint32_t index, void *param), void *param) {
    uint32_t buffer[256], start = 0;
    size_t count, i;
    do {
        count = hibitset_sparse_next_many(set, start, buffer, 256);
        for (i = 0; i < count; i++) {
            if (!visit(buffer[i], param)) return false;
        }
        if (count > 0) start = buffer[count - 1] + 1;
    } while (count == 256);
    return true;
}

/* Makes `set` a copy of `other`. HIBITSET_NO_MEMORY: `set` is unchanged. */
HIBITSET_MUST_USE static inline hibitset_status hibitset_sparse_assign(hibitset_sparse_t *set, hibitset_sparse_t *other);

/* Adds the members of `other`. HIBITSET_NO_MEMORY (never if it has none): the members are unchanged. */
HIBITSET_MUST_USE static inline hibitset_status hibitset_sparse_or_assign(hibitset_sparse_t *set,
                                                                          hibitset_sparse_t *other);

/* Adds the members of `other` that `set` lacks, and removes those that both have. HIBITSET_NO_MEMORY (never if `other`
 * has none): the members are unchanged. */
HIBITSET_MUST_USE static inline hibitset_status hibitset_sparse_xor_assign(hibitset_sparse_t *set,
                                                                           hibitset_sparse_t *other);

/* Removes the members that `other` lacks. */
static inline void hibitset_sparse_and_assign(hibitset_sparse_t *set, hibitset_sparse_t *other);

/* Removes the members that `other` has. */
static inline void hibitset_sparse_andnot_assign(hibitset_sparse_t *set, hibitset_sparse_t *other);

/* Returns whether the two have no member in common. */
static inline bool hibitset_sparse_is_disjoint(hibitset_sparse_t *a, hibitset_sparse_t *b);

/* Returns whether each member of `a` is one of `b`. */
static inline bool hibitset_sparse_is_subset(hibitset_sparse_t *a, hibitset_sparse_t *b);

/* Returns whether the two have the same members. */
static inline bool hibitset_sparse_equals(hibitset_sparse_t *a, hibitset_sparse_t *b);

/* ---- Streams of sparse sets, in the format of those of dense ones ---- */

/* Returns how many bytes hibitset_sparse_roaring_write writes of a set. It allocates nothing. */
size_t hibitset_sparse_roaring_len(hibitset_sparse_t *set);

/* Writes the stream of a set's members that hibitset_roaring_write writes of a dense set, and leaves in `*taken` how many
 * bytes that takes. What lies behind them in the buffer stays. It allocates the stream, and 16 bytes for each 65,536
 * indices with members.
 * HIBITSET_SHORT_BUFFER (`len` is less than `*taken`): `buffer` is unchanged. HIBITSET_NO_MEMORY: so is `*taken`. */
HIBITSET_MUST_USE hibitset_status hibitset_sparse_roaring_write(hibitset_sparse_t *set, uint8_t *buffer, size_t len,
                                                                size_t *taken);

/* Makes `set` the set whose members a stream has, as hibitset_roaring_read does. Its memory goes by the stream: at most
 * 8,192 bytes of words for each container, which takes 10 bytes of the stream at least, and their tables.
 * HIBITSET_MALFORMED: `*fault` is the hibitset_fault that the bytes have at position `*at`, and `set` is unchanged.
 * HIBITSET_NO_MEMORY: `set` is unchanged. Neither this nor success changes `*fault` and `*at`. */
HIBITSET_MUST_USE hibitset_status hibitset_sparse_roaring_read(hibitset_sparse_t *set, const uint8_t *bytes, size_t len,
                                                               hibitset_fault *fault, size_t *at);

/* As hibitset_sparse_roaring_read, if each key in the stream is less than `end`, so each member less than 65536 * end. */
HIBITSET_MUST_USE hibitset_status hibitset_sparse_roaring_read_below(hibitset_sparse_t *set, const uint8_t *bytes,
                                                                     size_t len, uint32_t end, hibitset_fault *fault,
                                                                     size_t *at);

/* ---- A sparse set and a dense one ---- */

/* Makes `set` a sparse set of the members of `other`. HIBITSET_NO_MEMORY: `set` is unchanged. */
HIBITSET_MUST_USE hibitset_status hibitset_sparse_assign_dense(hibitset_sparse_t *set, const hibitset_t *other);

/* As hibitset_sparse_or_assign, of a dense set. */
HIBITSET_MUST_USE hibitset_status hibitset_sparse_or_assign_dense(hibitset_sparse_t *set, const hibitset_t *other);

/* As hibitset_sparse_xor_assign, of a dense set. */
HIBITSET_MUST_USE hibitset_status hibitset_sparse_xor_assign_dense(hibitset_sparse_t *set, const hibitset_t *other);

/* As hibitset_sparse_and_assign, of a dense set. */
void hibitset_sparse_and_assign_dense(hibitset_sparse_t *set, const hibitset_t *other);

/* As hibitset_sparse_andnot_assign, of a dense set. */
void hibitset_sparse_andnot_assign_dense(hibitset_sparse_t *set, const hibitset_t *other);

/* Makes `set` a dense set of the members of `other`. Its capacity ends with the word of its last member.
 * HIBITSET_NO_MEMORY: `set` is unchanged. */
HIBITSET_MUST_USE hibitset_status hibitset_assign_sparse(hibitset_t *set, hibitset_sparse_t *other);

/* As hibitset_or_assign, of a sparse set. */
HIBITSET_MUST_USE hibitset_status hibitset_or_assign_sparse(hibitset_t *set, hibitset_sparse_t *other);

/* As hibitset_xor_assign, of a sparse set. */
HIBITSET_MUST_USE hibitset_status hibitset_xor_assign_sparse(hibitset_t *set, hibitset_sparse_t *other);

/* As hibitset_and_assign, of a sparse set. */
void hibitset_and_assign_sparse(hibitset_t *set, hibitset_sparse_t *other);

/* As hibitset_andnot_assign, of a sparse set. */
void hibitset_andnot_assign_sparse(hibitset_t *set, hibitset_sparse_t *other);

/* ---- Atomic sets ---- */

/* A set of indices below HIBITSET_ATOMIC_MAX_EID that can be shared by threads. Its fields are the library's. */
typedef struct hibitset_atomic_t {
    const void *set_;
    bool made_;
} hibitset_atomic_t;

/* An empty set, to initialize one with. */
#define HIBITSET_ATOMIC_INIT {&hibitset_abi_0, false}

/* A seat of a shared set: what one thread adds and looks with. Its fields are the library's. */
typedef struct hibitset_seat_t {
    const void *seat_;
    bool made_;
} hibitset_seat_t;

/* No seat, to initialize one with. */
#define HIBITSET_SEAT_INIT {&hibitset_abi_0, false}

/* Returns an empty set. It takes no memory until the first member. */
static inline hibitset_atomic_t hibitset_atomic_new(void) {
    hibitset_atomic_t set = HIBITSET_ATOMIC_INIT;
    return set;
}

/* Removes all members and frees the memory. The set is then as hibitset_atomic_new returns one. */
void hibitset_atomic_free(hibitset_atomic_t *set);

/* Adds an index, less than HIBITSET_ATOMIC_MAX_EID. HIBITSET_OK: it is new. HIBITSET_PRESENT: it was a member.
 * HIBITSET_NO_MEMORY (never if an index of the same 4,096 was added before, nor to a set that hibitset_seat_settle left),
 * HIBITSET_OUT_OF_RANGE: the members are unchanged. */
HIBITSET_MUST_USE hibitset_status hibitset_atomic_add(hibitset_atomic_t *set, uint32_t index);

/* Removes an index, and returns whether it was a member. */
bool hibitset_atomic_remove(hibitset_atomic_t *set, uint32_t index);

/* Removes all members. The memory is kept for later ones. */
void hibitset_atomic_clear(hibitset_atomic_t *set);

/* Returns whether an index is a member; false for one out of range. */
bool hibitset_atomic_contains(hibitset_atomic_t *set, uint32_t index);

/* Returns the number of members. */
size_t hibitset_atomic_len(hibitset_atomic_t *set);

/* Returns whether there is no member. */
bool hibitset_atomic_is_empty(hibitset_atomic_t *set);

/* Leaves the least member in `*index` and returns true. If there is none, returns false and leaves `*index`. */
bool hibitset_atomic_first(hibitset_atomic_t *set, uint32_t *index);

/* Leaves the greatest member in `*index` and returns true. If there is none, returns false and leaves `*index`. */
bool hibitset_atomic_last(hibitset_atomic_t *set, uint32_t *index);

/* Writes the members from `start` on into `buffer`, as hibitset_next_many does. */
size_t hibitset_atomic_next_many(hibitset_atomic_t *set, uint32_t start, uint32_t *buffer, size_t len);

/* Returns the word of a layer, 0 to 4, at a position, and 0 past the layers and their ends. Bit b of word p of layer 0
 * is set if index 64 * p + b is a member; bit b of word p of a layer above, if word 64 * p + b of the layer below is not
 * 0. Layer 4 is one word, whatever the position is. */
size_t hibitset_atomic_word(hibitset_atomic_t *set, size_t layer, size_t position);

/* ---- Shared sets ---- */

/* Returns no seat: what hibitset_atomic_share and hibitset_seat_divide put one into. */
static inline hibitset_seat_t hibitset_seat_new(void) {
    hibitset_seat_t seat = HIBITSET_SEAT_INIT;
    return seat;
}

/* Makes a shared set of `set`, which is empty then, and leaves the first of its seats in `seat`. A seat that was there is
 * freed. All words are made here, 2 MB, so that no addition allocates.
 * HIBITSET_NO_MEMORY: the members of `set`, and `seat`, are unchanged. */
HIBITSET_MUST_USE hibitset_status hibitset_atomic_share(hibitset_atomic_t *set, hibitset_seat_t *seat);

/* Makes two seats of one, and leaves the second in `other`, for another thread. A seat that was there is freed. Of the
 * 65,536 shares of the set, the second seat has half of those that the first had.
 * HIBITSET_NO_MEMORY, HIBITSET_ONE_SHARE (the seat has one), HIBITSET_NO_SEAT: both are unchanged. */
HIBITSET_MUST_USE hibitset_status hibitset_seat_divide(hibitset_seat_t *seat, hibitset_seat_t *other);

/* Makes `count` seats, at most 65,536, of the one in seats[0]. Those that were in the other places are freed.
 * An error of hibitset_seat_divide: some of the other places have a seat of the set, and seats[0] has one still. */
HIBITSET_MUST_USE static inline hibitset_status hibitset_seat_divide_among(hibitset_seat_t *seats, size_t count) {
    size_t have, i;
    for (have = 1; have < count; have *= 2) {
        for (i = 0; i < have && have + i < count; i++) {
            hibitset_status status = hibitset_seat_divide(&seats[i], &seats[have + i]);
            if (hibitset_failed(status)) return status;
        }
    }
    return HIBITSET_OK;
}

/* Adds an index, less than HIBITSET_ATOMIC_MAX_EID, while other seats add too. It takes no lock, allocates nothing, and
 * makes at most seven loads and four exchanges. HIBITSET_OK: this call put it in. HIBITSET_PRESENT: it was there. Either
 * way hibitset_seat_contains finds it with this seat from then on.
 * HIBITSET_OUT_OF_RANGE, HIBITSET_NO_SEAT: nothing is changed. */
HIBITSET_MUST_USE hibitset_status hibitset_seat_add(hibitset_seat_t *seat, uint32_t index);

/* Returns whether an index is there. It is true of each index that the set had when it was shared, that this seat added,
 * or that it has seen before. What another thread adds may be seen or not. Without a seat it is false. */
bool hibitset_seat_contains(hibitset_seat_t *seat, uint32_t index);

/* Walks over the shared set while others add, and adds to `set` what it gives: each index that the set had when it was
 * shared, that this seat added, or that it has seen before. An index that comes in meanwhile may be given or not.
 * HIBITSET_NO_MEMORY: `set` has its old members, and a part of those. HIBITSET_NO_SEAT: nothing is changed. */
HIBITSET_MUST_USE hibitset_status hibitset_seat_collect(hibitset_seat_t *seat, hibitset_t *set);

/* Returns whether the seat has all shares of its set: no other has been made of it. */
bool hibitset_seat_is_whole(hibitset_seat_t *seat);

/* Ends the shared set. Leaves in `set`, whose members are freed, the set held alone again, and no seat in `seat`. It has
 * the indices from before it was shared, and those that this seat put in or saw. That it also has those that freed seats
 * put in, and no others, is tested and not proved. No addition to it allocates.
 * HIBITSET_SHARED (another seat is not freed yet), HIBITSET_NO_MEMORY, HIBITSET_NO_SEAT: both are unchanged. */
HIBITSET_MUST_USE hibitset_status hibitset_seat_settle(hibitset_seat_t *seat, hibitset_atomic_t *set);

/* Gives the seat up. What it added stays in the set, which is freed with the last seat. There is no seat then, as
 * hibitset_seat_new returns it. */
void hibitset_seat_free(hibitset_seat_t *seat);

/* ---- Internal: nothing below is for callers ---- */

/* The layout that the library has. Where one of these lines is no type, compiler options change it, as -fshort-enums and
 * -fpack-struct do. */
typedef char hibitset_internal_status_size[sizeof(hibitset_status) == 4 ? 1 : -1];
typedef char hibitset_internal_fault_size[sizeof(hibitset_fault) == 4 ? 1 : -1];
typedef char hibitset_internal_bool_size[sizeof(bool) == 1 ? 1 : -1];
typedef char hibitset_internal_size[sizeof(hibitset_t) == 88 ? 1 : -1];
typedef char hibitset_internal_top[offsetof(hibitset_t, top_) == 64 ? 1 : -1];
typedef char hibitset_internal_set[offsetof(hibitset_t, set_) == 72 ? 1 : -1];
typedef char hibitset_internal_made[offsetof(hibitset_t, made_) == 80 ? 1 : -1];
typedef char hibitset_internal_sparse_size[sizeof(hibitset_sparse_t) == 16 ? 1 : -1];
typedef char hibitset_internal_sparse_made[offsetof(hibitset_sparse_t, made_) == 8 ? 1 : -1];
typedef char hibitset_internal_atomic_size[sizeof(hibitset_atomic_t) == 16 ? 1 : -1];
typedef char hibitset_internal_atomic_made[offsetof(hibitset_atomic_t, made_) == 8 ? 1 : -1];
typedef char hibitset_internal_seat_size[sizeof(hibitset_seat_t) == 16 ? 1 : -1];
typedef char hibitset_internal_seat_made[offsetof(hibitset_seat_t, made_) == 8 ? 1 : -1];

/* The assignments of two sets that are not the same. */
HIBITSET_MUST_USE hibitset_status hibitset_internal_assign(hibitset_t *set, const hibitset_t *other);
HIBITSET_MUST_USE hibitset_status hibitset_internal_or_assign(hibitset_t *set, const hibitset_t *other);
HIBITSET_MUST_USE hibitset_status hibitset_internal_xor_assign(hibitset_t *set, const hibitset_t *other);
void hibitset_internal_and_assign(hibitset_t *set, const hibitset_t *other);
void hibitset_internal_andnot_assign(hibitset_t *set, const hibitset_t *other);

static inline hibitset_status hibitset_assign(hibitset_t *set, const hibitset_t *other) {
    return set == other ? HIBITSET_OK : hibitset_internal_assign(set, other);
}

static inline hibitset_status hibitset_or_assign(hibitset_t *set, const hibitset_t *other) {
    return set == other ? HIBITSET_OK : hibitset_internal_or_assign(set, other);
}

static inline hibitset_status hibitset_xor_assign(hibitset_t *set, const hibitset_t *other) {
    if (set == other) {
        hibitset_remove_range(set, 0, HIBITSET_MAX_EID);
        return HIBITSET_OK;
    }
    return hibitset_internal_xor_assign(set, other);
}

static inline void hibitset_and_assign(hibitset_t *set, const hibitset_t *other) {
    if (set != other) hibitset_internal_and_assign(set, other);
}

static inline void hibitset_andnot_assign(hibitset_t *set, const hibitset_t *other) {
    if (set == other) {
        hibitset_remove_range(set, 0, HIBITSET_MAX_EID);
    } else {
        hibitset_internal_andnot_assign(set, other);
    }
}

/* The same of two sparse sets that are not the same. */
HIBITSET_MUST_USE hibitset_status hibitset_internal_sparse_assign(hibitset_sparse_t *set, hibitset_sparse_t *other);
HIBITSET_MUST_USE hibitset_status hibitset_internal_sparse_or_assign(hibitset_sparse_t *set, hibitset_sparse_t *other);
HIBITSET_MUST_USE hibitset_status hibitset_internal_sparse_xor_assign(hibitset_sparse_t *set, hibitset_sparse_t *other);
void hibitset_internal_sparse_and_assign(hibitset_sparse_t *set, hibitset_sparse_t *other);
void hibitset_internal_sparse_andnot_assign(hibitset_sparse_t *set, hibitset_sparse_t *other);
bool hibitset_internal_sparse_is_disjoint(hibitset_sparse_t *a, hibitset_sparse_t *b);
bool hibitset_internal_sparse_is_subset(hibitset_sparse_t *a, hibitset_sparse_t *b);
bool hibitset_internal_sparse_equals(hibitset_sparse_t *a, hibitset_sparse_t *b);

static inline hibitset_status hibitset_sparse_assign(hibitset_sparse_t *set, hibitset_sparse_t *other) {
    return set == other ? HIBITSET_OK : hibitset_internal_sparse_assign(set, other);
}

static inline hibitset_status hibitset_sparse_or_assign(hibitset_sparse_t *set, hibitset_sparse_t *other) {
    return set == other ? HIBITSET_OK : hibitset_internal_sparse_or_assign(set, other);
}

static inline hibitset_status hibitset_sparse_xor_assign(hibitset_sparse_t *set, hibitset_sparse_t *other) {
    if (set == other) {
        hibitset_sparse_clear(set);
        return HIBITSET_OK;
    }
    return hibitset_internal_sparse_xor_assign(set, other);
}

static inline void hibitset_sparse_and_assign(hibitset_sparse_t *set, hibitset_sparse_t *other) {
    if (set != other) hibitset_internal_sparse_and_assign(set, other);
}

static inline void hibitset_sparse_andnot_assign(hibitset_sparse_t *set, hibitset_sparse_t *other) {
    if (set == other) {
        hibitset_sparse_clear(set);
    } else {
        hibitset_internal_sparse_andnot_assign(set, other);
    }
}

static inline bool hibitset_sparse_is_disjoint(hibitset_sparse_t *a, hibitset_sparse_t *b) {
    return a == b ? hibitset_sparse_is_empty(a) : hibitset_internal_sparse_is_disjoint(a, b);
}

static inline bool hibitset_sparse_is_subset(hibitset_sparse_t *a, hibitset_sparse_t *b) {
    return a == b || hibitset_internal_sparse_is_subset(a, b);
}

static inline bool hibitset_sparse_equals(hibitset_sparse_t *a, hibitset_sparse_t *b) {
    return a == b || hibitset_internal_sparse_equals(a, b);
}

#ifdef __cplusplus
}
#endif

#endif
