/* What the tests share: a check that names its line, allocations that fail in turn, and random numbers. malloc and realloc
 * are wrapped (-Wl,--wrap). */
#ifndef TESTING_H
#define TESTING_H

#include "hibitset.h"
#include <stdio.h>
#include <stdlib.h>
#include <string.h>

#define CHECK(x)                                                   \
    do {                                                           \
        if (!(x)) {                                                \
            fprintf(stderr, "%s:%d: %s\n", __FILE__, __LINE__, #x); \
            exit(1);                                               \
        }                                                          \
    } while (0)

/* ---- Allocations that fail ---- */

void *__real_malloc(size_t size);
void *__real_realloc(void *block, size_t size);
void *__wrap_malloc(size_t size);
void *__wrap_realloc(void *block, size_t size);

static long allocations_left = -1; /* So many succeed; -1: all do. */
static long allocations;

static bool fails(void) {
    allocations++;
    if (allocations_left < 0) return false;
    if (allocations_left == 0) return true;
    allocations_left--;
    return false;
}

void *__wrap_malloc(size_t size) { return fails() ? NULL : __real_malloc(size); }
void *__wrap_realloc(void *block, size_t size) { return fails() ? NULL : __real_realloc(block, size); }

/* ---- Random numbers ---- */

static uint64_t state = 88172645463325252u;

static uint32_t random_below(uint32_t bound) {
    state ^= state << 13;
    state ^= state >> 7;
    state ^= state << 17;
    return (uint32_t)((state >> 20) % bound);
}

#endif
