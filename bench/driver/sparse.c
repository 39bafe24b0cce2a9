// For the driver of sparse sets: how many bytes malloc has in use, the thread's clock, and, with ROARING, CRoaring's calls many at once.
#define _GNU_SOURCE
#include <malloc.h>
#include <stddef.h>
#include <time.h>
#ifdef ROARING
#include <roaring/roaring.h>
#endif

size_t bytes_in_use(void) {
    struct mallinfo2 info = mallinfo2();
    return info.uordblks + info.hblkhd;
}

double thread_seconds(void) {
    struct timespec now;
    clock_gettime(CLOCK_THREAD_CPUTIME_ID, &now);
    return (double)now.tv_sec + (double)now.tv_nsec * 1e-9;
}

#ifdef ROARING
void roaring_add_all(roaring_bitmap_t *set, const uint32_t *ids, size_t count) {
    for (size_t i = 0; i < count; i++) roaring_bitmap_add(set, ids[i]);
}

void roaring_remove_all(roaring_bitmap_t *set, const uint32_t *ids, size_t count) {
    for (size_t i = 0; i < count; i++) roaring_bitmap_remove(set, ids[i]);
}

uint64_t roaring_count_there(const roaring_bitmap_t *set, const uint32_t *ids, size_t count) {
    uint64_t there = 0;
    for (size_t i = 0; i < count; i++) there += roaring_bitmap_contains(set, ids[i]);
    return there;
}

static bool add_up(uint32_t id, void *sum) {
    *(uint64_t *)sum += id;
    return true;
}

uint64_t roaring_sum(const roaring_bitmap_t *set) {
    uint64_t sum = 0;
    roaring_iterate(set, add_up, &sum);
    return sum;
}

uint64_t roaring_sum_of_both(const roaring_bitmap_t *a, const roaring_bitmap_t *b) {
    roaring_bitmap_t *both = roaring_bitmap_and(a, b);
    uint64_t sum = roaring_sum(both);
    roaring_bitmap_free(both);
    return sum;
}
#endif
