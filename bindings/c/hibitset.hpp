/* SPDX-License-Identifier: Apache-2.0 */
/*
 * hibitset.hpp: the dense and the sparse sets of hibitset.h as classes, for C++11 and later. They free their memory, and are
 * moved, never copied in silence: clone() copies. The rules at the top of hibitset.h hold.
 *
 *     hibitset::set pages{5, 70000};
 *     pages.add_range(10, 20);
 *     for (std::uint32_t page : pages) { ... }
 *
 * A failed allocation throws std::bad_alloc, an index that is out of range std::out_of_range, and bytes that are no stream
 * hibitset::malformed. The members are then as before, but for an addition of a list: the indices before the one that
 * failed are added.
 */
#ifndef HIBITSET_HPP
#define HIBITSET_HPP

#include "hibitset.h"
#include <cstddef>
#include <cstdint>
#include <functional>
#include <initializer_list>
#include <iterator>
#include <new>
#include <stdexcept>

namespace hibitset {

/* Bytes that are no stream, or one with members out of range: `fault` says what is wrong, at byte `at`. */
class malformed : public std::invalid_argument {
public:
    malformed(hibitset_fault of, std::size_t position) : std::invalid_argument(hibitset_fault_text(of)), fault(of), at(position) {}

    hibitset_fault fault;
    std::size_t at;
};

namespace internal {

inline std::size_t next_many(const hibitset_t *set, std::uint32_t start, std::uint32_t *buffer, std::size_t len) noexcept {
    return hibitset_next_many(set, start, buffer, len);
}

inline std::size_t next_many(hibitset_sparse_t *set, std::uint32_t start, std::uint32_t *buffer, std::size_t len) noexcept {
    return hibitset_sparse_next_many(set, start, buffer, len);
}

/* The members of a set, ascending, read in batches. */
template <class T> class iterator {
public:
    using iterator_category = std::input_iterator_tag;
    using value_type = std::uint32_t;
    using difference_type = std::ptrdiff_t;
    using pointer = const std::uint32_t *;
    using reference = std::uint32_t;

    iterator() noexcept : set_(nullptr), at_(0), count_(0) {}
    iterator(T *of, std::uint32_t start) noexcept : set_(of) { read(start); }

    std::uint32_t operator*() const noexcept { return members_[at_]; }
    iterator &operator++() noexcept {
        const std::uint32_t next = members_[at_] + 1;
        if (++at_ == count_) read(next);
        return *this;
    }
    void operator++(int) noexcept { ++*this; }
    friend bool operator==(const iterator &a, const iterator &b) noexcept {
        return a.count_ == 0 || b.count_ == 0 ? a.count_ == b.count_ : *a == *b;
    }
    friend bool operator!=(const iterator &a, const iterator &b) noexcept { return !(a == b); }

private:
    void read(std::uint32_t start) noexcept {
        at_ = 0;
        count_ = next_many(set_, start, members_, sizeof members_ / sizeof *members_);
    }

    T *set_;
    std::uint32_t members_[64];
    std::size_t at_, count_; /* count_ is 0 past the last member */
};

inline hibitset_status check(hibitset_status status) {
    if (status == HIBITSET_NO_MEMORY) throw std::bad_alloc();
    if (status == HIBITSET_OUT_OF_RANGE) throw std::out_of_range(hibitset_status_text(status));
    return status;
}

inline void check_read(hibitset_status status, hibitset_fault fault, std::size_t at) {
    if (status == HIBITSET_MALFORMED) throw malformed(fault, at);
    check(status);
}

} // namespace internal

/* Splits ids of 64 bits into shards and indices, as hibitset_split_ids does. */
inline std::size_t split_ids(const std::uint64_t *ids, std::size_t len, std::uint32_t bits, std::uint32_t shards,
                             std::uint32_t *highs, std::size_t highs_len, std::uint32_t *lows, std::size_t lows_len) noexcept {
    return hibitset_split_ids(ids, len, bits, shards, highs, highs_len, lows, lows_len);
}

class set {
public:
    set() noexcept : set_(hibitset_new()) {}
    set(std::initializer_list<std::uint32_t> indices) : set() { add(indices.begin(), indices.size()); }
    set(set &&other) noexcept : set_(other.set_) { other.set_ = hibitset_new(); }
    set &operator=(set &&other) noexcept {
        if (this != &other) {
            hibitset_free(&set_);
            set_ = other.set_;
            other.set_ = hibitset_new();
        }
        return *this;
    }
    set(const set &) = delete;
    set &operator=(const set &) = delete;
    ~set() { hibitset_free(&set_); }

    set clone() const {
        set copy;
        check(hibitset_assign(&copy.set_, &set_));
        return copy;
    }

    /* What hibitset.h takes: for each function that has no name here. */
    hibitset_t *raw() noexcept { return &set_; }
    const hibitset_t *raw() const noexcept { return &set_; }

    /* Returns whether the index is new. */
    bool add(std::uint32_t index) { return check(hibitset_add(&set_, index)) == HIBITSET_OK; }
    void add(const std::uint32_t *indices, std::size_t len) {
        std::size_t added;
        check(hibitset_add_many(&set_, indices, len, &added));
    }
    void add_range(std::uint32_t start, std::uint32_t end) { check(hibitset_add_range(&set_, start, end)); }
    void flip_range(std::uint32_t start, std::uint32_t end) { check(hibitset_flip_range(&set_, start, end)); }
    /* Returns whether the index was a member. */
    bool remove(std::uint32_t index) noexcept { return hibitset_remove(&set_, index); }
    /* Returns how many members that takes out of the set. */
    std::size_t remove_many(const std::uint32_t *indices, std::size_t len) noexcept {
        return hibitset_remove_many(&set_, indices, len);
    }
    void remove_range(std::uint32_t start, std::uint32_t end) noexcept { hibitset_remove_range(&set_, start, end); }
    void clear() noexcept { hibitset_clear(&set_); }
    /* Makes capacity for each index below `max`. */
    void reserve(std::uint32_t max) { check(hibitset_reserve(&set_, max)); }
    /* Returns how many bytes the words of the set take. */
    std::size_t memory() const noexcept { return hibitset_memory(&set_); }

    bool contains(std::uint32_t index) const noexcept { return hibitset_contains(&set_, index); }
    /* Writes for each of `len` indices whether it is a member, 1 or 0, into `found`, until `found_len` bytes are
     * written, and returns how many. What lies behind them in `found` stays. */
    std::size_t contains_many(const std::uint32_t *indices, std::size_t len, std::uint8_t *found,
                              std::size_t found_len) const noexcept {
        return hibitset_contains_many(&set_, indices, len, found, found_len);
    }
    /* Writes for each of `len` ends how many members lie before it, until `ranks_len` are written, and returns how many. */
    std::size_t rank_many(const std::uint32_t *ends, std::size_t len, std::uint64_t *ranks, std::size_t ranks_len) const noexcept {
        return hibitset_rank_many(&set_, ends, len, ranks, ranks_len);
    }
    /* Writes for each of `len` positions of the ascending list of all the member there, up to the first without one and
     * until `indices_len` are written, and returns how many. */
    std::size_t select_many(const std::uint64_t *positions, std::size_t len, std::uint32_t *indices,
                            std::size_t indices_len) const noexcept {
        return hibitset_select_many(&set_, positions, len, indices, indices_len);
    }
    /* Writes the members from `start` on, each plus `base`, until `len` are written or there are no more, and returns how
     * many. */
    std::size_t next_many_u64(std::uint32_t start, std::uint64_t base, std::uint64_t *buffer, std::size_t len) const noexcept {
        return hibitset_next_many_u64(&set_, start, base, buffer, len);
    }
    /* Fills `buffer` with the words of the set from position `start` on, 0 for each that is past hibitset_words. */
    void copy_words(std::size_t start, std::uint64_t *buffer, std::size_t len) const noexcept {
        hibitset_copy_words(&set_, start, buffer, len);
    }
    std::size_t size() const noexcept { return hibitset_len(&set_); }
    bool empty() const noexcept { return hibitset_is_empty(&set_); }

    /* Returns how many bytes the stream of the members takes in the portable Roaring format. */
    std::size_t roaring_len() const noexcept { return hibitset_roaring_len(&set_); }
    /* Writes the stream, and returns how many bytes it takes. If that is more than `len`, `buffer` is left as it was. */
    std::size_t roaring_write(std::uint8_t *buffer, std::size_t len) const {
        std::size_t taken = 0;
        check(hibitset_roaring_write(&set_, buffer, len, &taken));
        return taken;
    }
    /* Makes it the set whose members a stream has. */
    void roaring_read(const std::uint8_t *bytes, std::size_t len) { roaring_read_below(bytes, len, HIBITSET_ROARING_KEYS); }
    /* The same, if each member of the stream is less than 65536 * end. */
    void roaring_read_below(const std::uint8_t *bytes, std::size_t len, std::uint32_t end) {
        hibitset_fault fault = HIBITSET_FAULT_TOO_SHORT;
        std::size_t at = 0;
        const hibitset_status status = hibitset_roaring_read_below(&set_, bytes, len, end, &fault, &at);
        internal::check_read(status, fault, at);
    }

    set &operator|=(const set &other) { return check(hibitset_or_assign(&set_, &other.set_)), *this; }
    set &operator^=(const set &other) { return check(hibitset_xor_assign(&set_, &other.set_)), *this; }
    set &operator&=(const set &other) noexcept { return hibitset_and_assign(&set_, &other.set_), *this; }
    set &operator-=(const set &other) noexcept { return hibitset_andnot_assign(&set_, &other.set_), *this; }

    /* Each of these makes a set of members of `a` and `b`, which may be one set. Its capacity ends with the word of its
     * last member. */

    /* The members that both have. */
    friend set operator&(const set &a, const set &b) { return made_by(hibitset_and, a, b); }
    /* The members that at least one of the two has. */
    friend set operator|(const set &a, const set &b) { return made_by(hibitset_or, a, b); }
    /* The members that one of the two has alone. */
    friend set operator^(const set &a, const set &b) { return made_by(hibitset_xor, a, b); }
    /* The members that `a` has and `b` lacks. */
    friend set operator-(const set &a, const set &b) { return made_by(hibitset_andnot, a, b); }

    friend bool operator==(const set &a, const set &b) noexcept { return hibitset_equals(&a.set_, &b.set_); }
    friend bool operator!=(const set &a, const set &b) noexcept { return !(a == b); }

    /* The members, ascending. While it is used, no function changes the set. */
    using iterator = internal::iterator<const hibitset_t>;

    iterator begin() const noexcept { return from(0); }
    iterator end() const noexcept { return iterator(); }
    /* Begins at the least member that is no less than `start`. */
    iterator from(std::uint32_t start) const noexcept { return iterator(&set_, start); }

private:
    static set made_by(decltype(hibitset_and) *call, const set &a, const set &b) {
        set made;
        check(call(&a.set_, &b.set_, &made.set_));
        return made;
    }

    static hibitset_status check(hibitset_status status) { return internal::check(status); }

    hibitset_t set_;
};

/* A set whose memory goes by its members, wherever they lie, with the calls of a set. None of them is const: each has
 * the set alone, so threads that only look take a clone each. */
class sparse_set {
public:
    sparse_set() noexcept : set_(hibitset_sparse_new()) {}
    sparse_set(std::initializer_list<std::uint32_t> indices) : sparse_set() { add(indices.begin(), indices.size()); }
    explicit sparse_set(const set &of) : sparse_set() { check(hibitset_sparse_assign_dense(&set_, of.raw())); }
    sparse_set(sparse_set &&other) noexcept : set_(other.set_) { other.set_ = hibitset_sparse_new(); }
    sparse_set &operator=(sparse_set &&other) noexcept {
        if (this != &other) {
            hibitset_sparse_free(&set_);
            set_ = other.set_;
            other.set_ = hibitset_sparse_new();
        }
        return *this;
    }
    sparse_set(const sparse_set &) = delete;
    sparse_set &operator=(const sparse_set &) = delete;
    ~sparse_set() { hibitset_sparse_free(&set_); }

    sparse_set clone() {
        sparse_set copy;
        check(hibitset_sparse_assign(&copy.set_, &set_));
        return copy;
    }
    /* A dense set of the members. */
    set dense() {
        set made;
        check(hibitset_assign_sparse(made.raw(), &set_));
        return made;
    }

    /* What hibitset.h takes: for each function that has no name here. */
    hibitset_sparse_t *raw() noexcept { return &set_; }

    /* Returns whether the index is new. */
    bool add(std::uint32_t index) { return check(hibitset_sparse_add(&set_, index)) == HIBITSET_OK; }
    void add(const std::uint32_t *indices, std::size_t len) {
        std::size_t added;
        check(hibitset_sparse_add_many(&set_, indices, len, &added));
    }
    void add_range(std::uint32_t start, std::uint32_t end) { check(hibitset_sparse_add_range(&set_, start, end)); }
    void flip_range(std::uint32_t start, std::uint32_t end) { check(hibitset_sparse_flip_range(&set_, start, end)); }
    /* Returns whether the index was a member. */
    bool remove(std::uint32_t index) noexcept { return hibitset_sparse_remove(&set_, index); }
    /* Returns how many members that takes out of the set. */
    std::size_t remove_many(const std::uint32_t *indices, std::size_t len) noexcept {
        return hibitset_sparse_remove_many(&set_, indices, len);
    }
    void remove_range(std::uint32_t start, std::uint32_t end) noexcept { hibitset_sparse_remove_range(&set_, start, end); }
    void clear() noexcept { hibitset_sparse_clear(&set_); }
    void shrink_to_fit() noexcept { hibitset_sparse_shrink_to_fit(&set_); }
    /* Returns how many bytes the words of the set and their tables take. */
    std::size_t memory() noexcept { return hibitset_sparse_memory(&set_); }

    bool contains(std::uint32_t index) noexcept { return hibitset_sparse_contains(&set_, index); }
    /* These four write into a buffer as those of a set do. */
    std::size_t contains_many(const std::uint32_t *indices, std::size_t len, std::uint8_t *found,
                              std::size_t found_len) noexcept {
        return hibitset_sparse_contains_many(&set_, indices, len, found, found_len);
    }
    std::size_t rank_many(const std::uint32_t *ends, std::size_t len, std::uint64_t *ranks, std::size_t ranks_len) noexcept {
        return hibitset_sparse_rank_many(&set_, ends, len, ranks, ranks_len);
    }
    std::size_t select_many(const std::uint64_t *positions, std::size_t len, std::uint32_t *indices,
                            std::size_t indices_len) noexcept {
        return hibitset_sparse_select_many(&set_, positions, len, indices, indices_len);
    }
    std::size_t next_many_u64(std::uint32_t start, std::uint64_t base, std::uint64_t *buffer, std::size_t len) noexcept {
        return hibitset_sparse_next_many_u64(&set_, start, base, buffer, len);
    }
    std::size_t size() noexcept { return hibitset_sparse_len(&set_); }
    bool empty() noexcept { return hibitset_sparse_is_empty(&set_); }

    /* Streams, as those of a set. */
    std::size_t roaring_len() noexcept { return hibitset_sparse_roaring_len(&set_); }
    std::size_t roaring_write(std::uint8_t *buffer, std::size_t len) {
        std::size_t taken = 0;
        check(hibitset_sparse_roaring_write(&set_, buffer, len, &taken));
        return taken;
    }
    void roaring_read(const std::uint8_t *bytes, std::size_t len) { roaring_read_below(bytes, len, HIBITSET_ROARING_KEYS); }
    void roaring_read_below(const std::uint8_t *bytes, std::size_t len, std::uint32_t end) {
        hibitset_fault fault = HIBITSET_FAULT_TOO_SHORT;
        std::size_t at = 0;
        const hibitset_status status = hibitset_sparse_roaring_read_below(&set_, bytes, len, end, &fault, &at);
        internal::check_read(status, fault, at);
    }

    sparse_set &operator|=(sparse_set &other) { return check(hibitset_sparse_or_assign(&set_, &other.set_)), *this; }
    sparse_set &operator^=(sparse_set &other) { return check(hibitset_sparse_xor_assign(&set_, &other.set_)), *this; }
    sparse_set &operator&=(sparse_set &other) noexcept { return hibitset_sparse_and_assign(&set_, &other.set_), *this; }
    sparse_set &operator-=(sparse_set &other) noexcept { return hibitset_sparse_andnot_assign(&set_, &other.set_), *this; }

    sparse_set &operator|=(const set &other) { return check(hibitset_sparse_or_assign_dense(&set_, other.raw())), *this; }
    sparse_set &operator^=(const set &other) { return check(hibitset_sparse_xor_assign_dense(&set_, other.raw())), *this; }
    sparse_set &operator&=(const set &other) noexcept { return hibitset_sparse_and_assign_dense(&set_, other.raw()), *this; }
    sparse_set &operator-=(const set &other) noexcept { return hibitset_sparse_andnot_assign_dense(&set_, other.raw()), *this; }

    friend set &operator|=(set &a, sparse_set &b) { return check(hibitset_or_assign_sparse(a.raw(), &b.set_)), a; }
    friend set &operator^=(set &a, sparse_set &b) { return check(hibitset_xor_assign_sparse(a.raw(), &b.set_)), a; }
    friend set &operator&=(set &a, sparse_set &b) noexcept { return hibitset_and_assign_sparse(a.raw(), &b.set_), a; }
    friend set &operator-=(set &a, sparse_set &b) noexcept { return hibitset_andnot_assign_sparse(a.raw(), &b.set_), a; }

    friend bool operator==(sparse_set &a, sparse_set &b) noexcept { return hibitset_sparse_equals(&a.set_, &b.set_); }
    friend bool operator!=(sparse_set &a, sparse_set &b) noexcept { return !(a == b); }

    /* The members, ascending. While it is used, no other function is called with the set. */
    using iterator = internal::iterator<hibitset_sparse_t>;

    iterator begin() noexcept { return from(0); }
    iterator end() noexcept { return iterator(); }
    /* Begins at the least member that is no less than `start`. */
    iterator from(std::uint32_t start) noexcept { return iterator(&set_, start); }

private:
    static hibitset_status check(hibitset_status status) { return internal::check(status); }

    hibitset_sparse_t set_;
};

} // namespace hibitset

namespace std {

/* A hash of the members: sets with the same members have the same, whatever their capacity. */
template <> struct hash<hibitset::set> {
    using argument_type = hibitset::set;
    using result_type = size_t;

    size_t operator()(const hibitset::set &of) const noexcept { return hibitset_hash(of.raw()); }
};

} // namespace std

#endif
