/* failing_allocation.c: makes one allocation of a program fail, the one whose number FAIL_ALLOCATION gives, from 1 on. If
 * ALLOCATION_LOG names a file, it writes a line there for each allocation: how many bytes are asked for.
 *
 * LD_PRELOAD loads it before the C library. It counts the calls of malloc and realloc that the program's allocator makes,
 * whose code lies where ALLOCATOR_CODE says: the offsets of its first byte and of the byte after its last, in base 16. A
 * new thread takes memory too, by other code; where it gets none, the work is done without it. */
#define _GNU_SOURCE
#include <fcntl.h>
#include <link.h>
#include <stdatomic.h>
#include <stdbool.h>
#include <stddef.h>
#include <stdint.h>
#include <stdio.h>
#include <stdlib.h>
#include <unistd.h>

void *__libc_malloc(size_t size);
void *__libc_realloc(void *block, size_t size);

/* Where the allocator's code lies. */
static uintptr_t code_start, code_end;

/* So many calls are still to be made up to the one that fails, with it. */
static atomic_long calls_left;

/* The file that ALLOCATION_LOG names, or none. */
static int log_file = -1;

static int find_code(struct dl_phdr_info *program, size_t size, void *param) {
    (void)size;
    char *next;
    code_start = program->dlpi_addr + strtoul(param, &next, 16);
    code_end = program->dlpi_addr + strtoul(next, NULL, 16);
    return 1; /* The program is the first object of all. */
}

__attribute__((constructor)) static void begin(void) {
    char *number = getenv("FAIL_ALLOCATION"), *code = getenv("ALLOCATOR_CODE");
    if (number && code) {
        dl_iterate_phdr(find_code, code);
        atomic_store(&calls_left, atol(number));
    }
    const char *log = getenv("ALLOCATION_LOG");
    if (log) log_file = open(log, O_WRONLY | O_APPEND | O_CREAT | O_CLOEXEC, 0600);
}

static bool fails(void *caller, size_t size) {
    uintptr_t at = (uintptr_t)caller;
    if (at < code_start || code_end <= at) return false;
    if (log_file >= 0) dprintf(log_file, "%zu\n", size);
    return atomic_fetch_sub(&calls_left, 1) == 1;
}

void *malloc(size_t size) { return fails(__builtin_return_address(0), size) ? NULL : __libc_malloc(size); }

void *realloc(void *block, size_t size) {
    return fails(__builtin_return_address(0), size) ? NULL : __libc_realloc(block, size);
}
