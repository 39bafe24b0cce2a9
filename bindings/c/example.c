/* Pages of a cache: which of the dirty ones are loaded, and in which runs they are written. */
#include "hibitset.h"
#include <inttypes.h>
#include <stdio.h>

static bool print(uint32_t page, void *param) {
    printf("%s %" PRIu32 "\n", (const char *)param, page);
    return true;
}

/* Prints the runs of consecutive members: a run ends at the first gap after its beginning. */
static void print_runs(const hibitset_t *set) {
    uint32_t begin, end = 0;
    while (hibitset_next_many(set, end, &begin, 1) == 1) {
        if (!hibitset_first_gap(set, begin, &end)) end = HIBITSET_MAX_EID;
        printf("write %" PRIu32 " to %" PRIu32 "\n", begin, end - 1);
    }
}

int main(void) {
    static const uint32_t pages[] = {5, 6, 7, 70000, 70001, 4};
    hibitset_t dirty = hibitset_new(), loaded = hibitset_new();
    size_t added;
    if (hibitset_failed(hibitset_add_many(&dirty, pages, 6, &added)) ||
        hibitset_failed(hibitset_add_range(&loaded, 6, 70001))) {
        fputs("out of memory\n", stderr);
        hibitset_free(&dirty);
        hibitset_free(&loaded);
        return 1;
    }
    printf("%zu dirty, %zu of them loaded\n", hibitset_len(&dirty), hibitset_and_len(&dirty, &loaded));
    hibitset_and_assign(&dirty, &loaded);
    hibitset_iterate(&dirty, print, "dirty and loaded:");
    print_runs(&dirty);
    hibitset_free(&dirty);
    hibitset_free(&loaded);
    return 0;
}
