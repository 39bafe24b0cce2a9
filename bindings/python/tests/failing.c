/* failing.c: makes one allocation of the module `_core` and of the library in it fail, and sees whether two threads are in
 * a call with a sparse set at once, and whether a call has the GIL. malloc, realloc, hibitset_sparse_len, hibitset_hash,
 * hibitset_contains_many and hibitset_add_range are wrapped. */
#include <stdatomic.h>
#include <stddef.h>

#include "hibitset.h"

void *__real_malloc(size_t size);
void *__real_realloc(void *block, size_t size);

static long left = -1; /* So many allocations pass before the one that fails; -1: all pass. */
static long made;

__attribute__((visibility("default"))) void let_pass(long count) {
    left = count;
    made = 0;
}

__attribute__((visibility("default"))) long allocations(void) { return made; }

static int fails(void) {
    made++;
    return left >= 0 && left-- == 0;
}

void *__wrap_malloc(size_t size) { return fails() ? NULL : __real_malloc(size); }
void *__wrap_realloc(void *block, size_t size) { return fails() ? NULL : __real_realloc(block, size); }

size_t __real_hibitset_sparse_len(hibitset_sparse_t *set);

static atomic_int inside, met;

__attribute__((visibility("default"))) int have_met(void) { return met; }

size_t __wrap_hibitset_sparse_len(hibitset_sparse_t *set) {
    if (inside++ > 0) met = 1;
    size_t len = __real_hibitset_sparse_len(set);
    inside--;
    return len;
}

int PyGILState_Check(void);
uint64_t __real_hibitset_hash(const hibitset_t *set);
hibitset_status __real_hibitset_add_range(hibitset_t *set, uint32_t start, uint32_t end);

static int has_gil;

__attribute__((visibility("default"))) int had_gil(void) { return has_gil; }

uint64_t __wrap_hibitset_hash(const hibitset_t *set) {
    has_gil = PyGILState_Check();
    return __real_hibitset_hash(set);
}

hibitset_status __wrap_hibitset_add_range(hibitset_t *set, uint32_t start, uint32_t end) {
    has_gil = PyGILState_Check();
    return __real_hibitset_add_range(set, start, end);
}

size_t __real_hibitset_contains_many(const hibitset_t *set, const uint32_t *indices, size_t len, uint8_t *found, size_t found_len);

size_t __wrap_hibitset_contains_many(const hibitset_t *set, const uint32_t *indices, size_t len, uint8_t *found, size_t found_len) {
    has_gil = PyGILState_Check();
    return __real_hibitset_contains_many(set, indices, len, found, found_len);
}
