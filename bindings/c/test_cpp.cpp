/* Tests of the classes in hibitset.hpp beside std::set. They end with status 0, or say which line failed. */
#include "hibitset.hpp"
extern "C" {
#include "testing.h"
}
#include <algorithm>
#include <numeric>
#include <set>
#include <type_traits>
#include <unordered_set>
#include <utility>
#include <vector>

using hibitset::set;
using hibitset::sparse_set;

static_assert(!std::is_copy_constructible<set>::value && !std::is_copy_assignable<set>::value, "a set is never copied");
static_assert(std::is_nothrow_move_constructible<set>::value && std::is_nothrow_move_assignable<set>::value, "a set moves");
static_assert(!std::is_copy_constructible<sparse_set>::value && !std::is_copy_assignable<sparse_set>::value, "nor is a sparse one");
static_assert(std::is_nothrow_move_constructible<sparse_set>::value && std::is_nothrow_move_assignable<sparse_set>::value, "it moves");

template <class S> static void check_members(S &&of, const std::set<uint32_t> &model) {
    CHECK(std::equal(model.begin(), model.end(), of.begin()));
    CHECK((size_t)std::distance(of.begin(), of.end()) == model.size());
    CHECK(of.size() == model.size() && of.empty() == model.empty());
    if (model.size() > 1) {
        auto at = of.begin();
        at++;
        CHECK(*at == *std::next(model.begin()));
    }
    const uint32_t start = random_below(20000);
    CHECK(std::vector<uint32_t>(of.from(start), of.end()) == std::vector<uint32_t>(model.lower_bound(start), model.end()));
}

/* Random calls beside std::set. */
template <class S> static void random_calls(void) {
    S ours;
    std::set<uint32_t> model;
    for (int turn = 0; turn < 2000; turn++) {
        const uint32_t index = random_below(20000), end = index + random_below(300);
        switch (random_below(6)) {
        case 0: CHECK(ours.add(index) == model.insert(index).second); break;
        case 1: CHECK(ours.remove(index) == (model.erase(index) == 1)); break;
        case 2:
            ours.add_range(index, end);
            for (uint32_t each = index; each < end; each++) model.insert(each);
            break;
        case 3:
            ours.remove_range(index, end);
            model.erase(model.lower_bound(index), model.lower_bound(end));
            break;
        case 4:
            ours.flip_range(index, end);
            for (uint32_t each = index; each < end; each++) {
                if (model.erase(each) == 0) model.insert(each);
            }
            break;
        default: CHECK(ours.contains(index) == (model.count(index) == 1));
        }
        if (turn % 50 == 0) check_members(ours, model);
    }
    ours.add(0);
    model.insert(0);
    check_members(ours, model);
    ours.clear();
    check_members(ours, {});
}

static void assignments(void) {
    const set a{1, 2, 3, 70000}, b{2, 70000, 80000};
    set c = a.clone();
    c |= b;
    check_members(c, {1, 2, 3, 70000, 80000});
    c ^= b;
    check_members(c, {1, 3});
    c = a.clone();
    c &= b;
    check_members(c, {2, 70000});
    c = a.clone();
    c -= b;
    check_members(c, {1, 3});
    CHECK(c != a && a == a.clone());
    const set &same = c;
    c ^= same;
    CHECK(c.empty());
    check_members(a, {1, 2, 3, 70000});
}

static void sparse_assignments(void) {
    sparse_set a{1, 2, 3, 1000000000}, b{2, 70000, 1000000000}, c = a.clone();
    c |= b;
    check_members(c, {1, 2, 3, 70000, 1000000000});
    c ^= b;
    check_members(c, {1, 3});
    c = a.clone();
    c &= b;
    check_members(c, {2, 1000000000});
    c = a.clone();
    c -= b;
    check_members(c, {1, 3});
    CHECK(c != a && a == a);
    sparse_set &same = c;
    c ^= same;
    CHECK(c.empty());
    a.shrink_to_fit();
    check_members(a, {1, 2, 3, 1000000000});
}

/* The assignments of the one kind by the other. */
static void mixed_assignments(void) {
    const set dense{2, 70000};
    sparse_set a{1, 2, 3}, b = a.clone();
    set c = a.dense();
    check_members(c, {1, 2, 3});
    check_members(sparse_set(dense), {2, 70000});
    a |= dense;
    check_members(a, {1, 2, 3, 70000});
    a ^= dense;
    check_members(a, {1, 3});
    a.add(70000);
    a &= dense;
    check_members(a, {70000});
    a -= dense;
    check_members(a, {});
    c = dense.clone();
    c |= b;
    check_members(c, {1, 2, 3, 70000});
    c ^= b;
    check_members(c, {70000});
    c.add(3);
    c &= b;
    check_members(c, {3});
    c -= b;
    check_members(c, {});
}

/* The indices of the two that `chosen` is true of: whether the one has it, and whether the other has it. */
template <class F>
static std::set<uint32_t> those_of(const std::set<uint32_t> &a, const std::set<uint32_t> &b, F chosen) {
    std::set<uint32_t> found;
    for (const std::set<uint32_t> *of : {&a, &b}) {
        for (uint32_t index : *of) {
            if (chosen(a.count(index) == 1, b.count(index) == 1)) found.insert(index);
        }
    }
    return found;
}

/* A set that was just made of two: it has no word past its last member. */
static void check_made(const set &made, const std::set<uint32_t> &model) {
    check_members(made, model);
    CHECK(hibitset_capacity(made.raw()) == (model.empty() ? 0 : (*model.rbegin() / 64 + 1) * 64));
}

/* The sets that are made of two, beside std::set. The two stay. */
static void check_two(const set &a, const std::set<uint32_t> &x, const set &b, const std::set<uint32_t> &y) {
    check_made(a & b, those_of(x, y, [](bool in_a, bool in_b) { return in_a && in_b; }));
    check_made(a | b, those_of(x, y, [](bool in_a, bool in_b) { return in_a || in_b; }));
    check_made(a ^ b, those_of(x, y, [](bool in_a, bool in_b) { return in_a != in_b; }));
    check_made(a - b, those_of(x, y, [](bool in_a, bool in_b) { return in_a && !in_b; }));
    check_members(a, x);
    check_members(b, y);
}

static std::set<uint32_t> random_members(void) {
    std::set<uint32_t> found;
    const uint32_t bound = 1 + random_below(20000);
    for (uint32_t count = random_below(300); count > 0; count--) found.insert(random_below(bound));
    return found;
}

static set of_members(const std::set<uint32_t> &model) {
    set made;
    for (uint32_t index : model) made.add(index);
    return made;
}

static void sets_of_two(void) {
    for (int turn = 0; turn < 200; turn++) {
        const std::set<uint32_t> x = random_members(), y = random_members();
        const set a = of_members(x), b = of_members(y);
        check_two(a, x, b, y);
        check_two(a, x, a, x);
        check_two(a, x, {}, {});
        check_two({}, {}, a, x);
        CHECK(((a & b) | (a - b)) == a && ((a ^ b) ^ b) == a);
    }
    check_two({}, {}, {}, {});
    set a{1, 2, 3}, b{2, 70000};
    a = a - b;
    check_members(a, {1, 3});
    a = a | a;
    check_members(a, {1, 3});
    b = a ^ b;
    check_members(b, {1, 2, 3, 70000});
}

/* Lists and buffers of each length. What lies behind the written bytes stays. */
template <class S> static void contains_many(void) {
    S some{5, 64, 70000}, none;
    const uint32_t list[] = {70000, 6, 5, HIBITSET_MAX_EID, UINT32_MAX, 5, 64};
    for (S *of : {&some, &none}) {
        for (size_t len = 0; len <= 7; len++) {
            for (size_t room = 0; room <= 9; room++) {
                std::vector<uint8_t> found(10, 7);
                const size_t count = std::min(len, room);
                CHECK(of->contains_many(list, len, found.data(), room) == count);
                for (size_t at = 0; at < 10; at++) CHECK(found[at] == (at < count ? of->contains(list[at]) : 7));
            }
        }
        uint8_t found = 7;
        CHECK(of->contains_many(nullptr, 0, &found, 1) == 0 && found == 7);
        CHECK(of->contains_many(list, 7, nullptr, 0) == 0);
    }
}

/* The other calls on lists, of either kind of set, beside std::set. */
template <class S> static void check_lists(S &of, const std::set<uint32_t> &model, size_t len, size_t room) {
    std::vector<uint32_t> list(len), found(len + room + 1, 7);
    std::vector<uint64_t> positions(len), numbers(len + room + 1, 7);
    const size_t count = std::min(len, room);
    for (uint32_t &index : list) index = random_below(20000);
    for (uint64_t &position : positions) position = random_below((uint32_t)model.size() + 1);
    CHECK(of.rank_many(list.data(), len, numbers.data(), room) == count && numbers[count] == 7);
    for (size_t at = 0; at < count; at++) {
        CHECK(numbers[at] == (size_t)std::distance(model.begin(), model.lower_bound(list[at])));
    }
    const size_t there = of.select_many(positions.data(), len, found.data(), room);
    CHECK(there <= count && (there == count || positions[there] >= model.size()) && found[there] == 7);
    for (size_t at = 0; at < there; at++) CHECK(found[at] == *std::next(model.begin(), (std::ptrdiff_t)positions[at]));
    const uint32_t start = random_below(20000);
    const uint64_t base = UINT64_C(3) << 30;
    std::vector<uint64_t> ids;
    for (auto next = model.lower_bound(start); next != model.end() && ids.size() < room; ++next) ids.push_back(base + *next);
    std::fill(numbers.begin(), numbers.end(), 7);
    CHECK(of.next_many_u64(start, base, numbers.data(), room) == ids.size());
    CHECK(std::equal(ids.begin(), ids.end(), numbers.begin()) && numbers[ids.size()] == 7);
}

template <class S> static void lists(void) {
    for (int turn = 0; turn < 100; turn++) {
        std::set<uint32_t> model = random_members();
        S ours;
        for (uint32_t index : model) ours.add(index);
        check_lists(ours, model, random_below(100), random_below(100));
        CHECK(ours.memory() >= model.size() / 8 && S().memory() == 0);
        std::vector<uint32_t> gone;
        size_t removed = 0;
        for (uint32_t count = random_below(400); count > 0; count--) gone.push_back(random_below(20000));
        if (!model.empty()) gone.push_back(*model.begin());
        for (uint32_t index : gone) removed += model.erase(index);
        CHECK(ours.remove_many(gone.data(), gone.size()) == removed);
        check_members(ours, model);
    }
}

static void capacity(void) {
    set a{5};
    a.reserve(70000);
    CHECK(hibitset_capacity(a.raw()) >= 70000 && a.memory() >= 70000 / 8);
    allocations_left = 0;
    CHECK(a.add(69999));
    allocations_left = -1;
    CHECK(sparse_set{5}.memory() == 96);
    sparse_set wide; // Its blocks are longer than its members need.
    for (uint32_t index = 0; index < 50; index++) wide.add(100000 * index);
    allocations = 0;
    wide.shrink_to_fit();
    CHECK(allocations > 4 && wide.size() == 50);
    const uint64_t ids[] = {(UINT64_C(2) << 30) + 5, UINT64_C(9) << 30, 7};
    uint32_t highs[4] = {7, 7, 7, 7}, lows[4] = {7, 7, 7, 7};
    CHECK(hibitset::split_ids(ids, 3, 30, 4, highs, 4, lows, 4) == 3);
    CHECK(highs[0] == 2 && highs[1] == 4 && highs[2] == 0 && lows[0] == 5 && lows[1] == 0 && lows[2] == 7 && lows[3] == 7);
}

template <class E, class F> static bool throws(F work) {
    try {
        work();
    } catch (const E &) {
        return true;
    }
    return false;
}

/* Each allocation fails in turn, and the members stay. */
template <class S, class F> static void failing(S &&before, F work) {
    long failed = 0;
    for (;; failed++) {
        auto a = before.clone();
        allocations_left = failed;
        const bool thrown = throws<std::bad_alloc>([&] { work(a); });
        allocations_left = -1;
        if (!thrown) break;
        CHECK(a == before);
    }
    CHECK(failed > 0);
}

/* A stream of the one kind is read by the other. */
template <class S, class Other> static void streams(void) {
    S ours{5, 70000, 1 << 20};
    std::vector<uint8_t> bytes(ours.roaring_len());
    CHECK(ours.roaring_write(bytes.data(), bytes.size() - 1) == bytes.size() && bytes == std::vector<uint8_t>(bytes.size()));
    CHECK(ours.roaring_write(bytes.data(), bytes.size()) == bytes.size());
    Other theirs{9};
    theirs.roaring_read(bytes.data(), bytes.size());
    check_members(theirs, {5, 70000, 1 << 20});
    theirs.roaring_read_below(bytes.data(), bytes.size(), 17);
    try {
        theirs.roaring_read_below(bytes.data(), bytes.size(), 16);
        CHECK(false);
    } catch (const hibitset::malformed &error) {
        CHECK(error.fault == HIBITSET_FAULT_KEY_OUT_OF_RANGE && error.at == 16);
    }
    bytes.pop_back();
    CHECK(throws<std::invalid_argument>([&] { theirs.roaring_read(bytes.data(), bytes.size()); }));
    check_members(theirs, {5, 70000, 1 << 20});
    S last{HIBITSET_MAX_EID - 1};
    bytes.resize(last.roaring_len());
    last.roaring_write(bytes.data(), bytes.size());
    theirs.roaring_read(bytes.data(), bytes.size());
    check_members(theirs, {HIBITSET_MAX_EID - 1});
    failing(ours, [&](S &) {
        uint8_t buffer[64];
        ours.roaring_write(buffer, sizeof buffer);
    });
}

/* Bit by bit. What lies behind the buffer stays. */
static void check_words(const set &of, size_t start, size_t len) {
    std::vector<uint64_t> buffer(len + 1, 7);
    of.copy_words(start, buffer.data(), len);
    for (size_t bit = 0; bit < 64 * len; bit++) {
        const size_t index = 64 * start + bit;
        CHECK((buffer[bit / 64] >> bit % 64 & 1) == (index < HIBITSET_MAX_EID && of.contains((uint32_t)index)));
    }
    CHECK(buffer[len] == 7);
}

static void copy_words(void) {
    const set some{0, 63, 64, 6500, 19999}, none;
    const size_t starts[] = {0, 1, 100, 400, HIBITSET_MAX_WORDS}, lens[] = {0, 1, 2, 60, 500};
    for (const set *of : {&some, &none}) {
        for (size_t start : starts) {
            for (size_t len : lens) check_words(*of, start, len);
        }
        uint64_t word = 7;
        of->copy_words(0, nullptr, 0);
        of->copy_words(SIZE_MAX, &word, 1);
        CHECK(word == 0);
    }
}

/* Sets with the same members have the same hash, also with other capacities and when they were moved. */
static void hashes(void) {
    const std::hash<set> hash{};
    static_assert(noexcept(hash(std::declval<set>())), "a hash throws nothing");
    const set a{1, 70000};
    set b{70000, 1 << 20};
    CHECK(hash(a) != hash(b));
    b.remove(1 << 20);
    b.add(1);
    CHECK(a == b && hash(a) == hash(b) && hash(a) == hash(a.clone()));
    const size_t before = hash(b);
    const set moved = std::move(b);
    CHECK(hash(moved) == before && hash(b) == hash(set{}) && hash(a - a) == hash(set{}));
    std::unordered_set<set> sets;
    CHECK(sets.insert(a.clone()).second && !sets.insert(moved.clone()).second && sets.insert(set{}).second);
    CHECK(sets.size() == 2 && sets.count(moved) == 1 && sets.count(b) == 1 && sets.count(set{1}) == 0);
}

template <class S> static void moves(void) {
    S a{1, 2, 3};
    S b = std::move(a);
    CHECK(a.empty() && b.size() == 3);
    a = std::move(b);
    CHECK(b.empty() && a.size() == 3);
    S &same = a;
    a = std::move(same);
    CHECK(a.size() == 3);
    b.add(9);
    std::swap(a, b);
    CHECK(a.size() == 1 && b.size() == 3);
    std::vector<S> many;
    for (uint32_t index = 0; index < 20; index++) many.push_back(S{index});
    for (uint32_t index = 0; index < 20; index++) CHECK(many[index].contains(index) && many[index].size() == 1);
}

static void exceptions(void) {
    set a{5};
    CHECK(throws<std::out_of_range>([&] { a.add(HIBITSET_MAX_EID); }));
    CHECK(throws<std::out_of_range>([&] { a.add_range(0, HIBITSET_MAX_EID + 1); }));
    CHECK(throws<std::out_of_range>([&] { a.flip_range(0, HIBITSET_MAX_EID + 1); }));
    CHECK(throws<std::out_of_range>([&] { a.reserve(HIBITSET_MAX_EID + 1); }));
    CHECK(throws<std::out_of_range>([] { set{1, HIBITSET_MAX_EID, 2}; }));
    CHECK(a.size() == 1);
    const uint32_t list[] = {6, HIBITSET_MAX_EID, 7};
    CHECK(throws<std::out_of_range>([&] { a.add(list, 3); }));
    check_members(a, {5, 6});
    const set far{1 << 20};
    failing(a, [](set &x) { x.add(1 << 20); });
    failing(a, [](set &x) { x.add_range(5, 1 << 20); });
    failing(a, [](set &x) { x.flip_range(1 << 19, 1 << 20); });
    failing(a, [&](set &x) { x |= far; });
    failing(a, [&](set &x) { x ^= far; });
    failing(a, [&](set &x) { x = far.clone(); });
    failing(a, [&](set &x) { x = x & far; });
    failing(a, [&](set &x) { x = x | far; });
    failing(a, [&](set &x) { x = x ^ far; });
    failing(a, [&](set &x) { x = far - x; });
    check_members(far, {1 << 20});
    failing(set{}, [](set &) { set{1, 2}; });
}

static void sparse_exceptions(void) {
    sparse_set a{5}, far{1 << 29}, middle{1 << 20};
    const set dense{1 << 20};
    CHECK(throws<std::out_of_range>([&] { a.add(HIBITSET_MAX_EID); }));
    CHECK(throws<std::out_of_range>([&] { a.add_range(0, HIBITSET_MAX_EID + 1); }));
    CHECK(throws<std::out_of_range>([&] { a.flip_range(0, HIBITSET_MAX_EID + 1); }));
    CHECK(throws<std::out_of_range>([] { sparse_set{1, HIBITSET_MAX_EID, 2}; }));
    const uint32_t list[] = {6, HIBITSET_MAX_EID, 7};
    CHECK(throws<std::out_of_range>([&] { a.add(list, 3); }));
    check_members(a, {5, 6});
    failing(a, [](sparse_set &x) { x.add(1 << 29); });
    failing(a, [](sparse_set &x) { x.add_range(5, 1 << 20); });
    failing(a, [](sparse_set &x) { x.flip_range(1 << 19, 1 << 20); });
    failing(a, [&](sparse_set &x) { x |= far; });
    failing(a, [&](sparse_set &x) { x ^= far; });
    failing(a, [&](sparse_set &x) { x |= dense; });
    failing(a, [&](sparse_set &x) { x ^= dense; });
    failing(a, [&](sparse_set &x) { x = far.clone(); });
    failing(a, [&](sparse_set &x) { x = sparse_set(dense); });
    failing(a, [&](sparse_set &) { middle.dense(); });
    failing(set{5}, [&](set &x) { x |= middle; });
    failing(set{5}, [&](set &x) { x ^= middle; });
    failing(sparse_set{}, [](sparse_set &) { sparse_set{1, 2}; });
}

int main() {
    random_calls<set>();
    random_calls<sparse_set>();
    assignments();
    sparse_assignments();
    mixed_assignments();
    sets_of_two();
    contains_many<const set>();
    contains_many<sparse_set>();
    lists<set>();
    lists<sparse_set>();
    capacity();
    streams<set, sparse_set>();
    streams<sparse_set, set>();
    copy_words();
    hashes();
    moves<set>();
    moves<sparse_set>();
    exceptions();
    sparse_exceptions();
    const set one{7};
    uint32_t index;
    CHECK(hibitset_last(one.raw(), &index) && index == 7);
    sparse_set two{8};
    CHECK(hibitset_sparse_last(two.raw(), &index) && index == 8);
    return 0;
}
