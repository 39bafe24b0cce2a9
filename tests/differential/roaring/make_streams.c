// make_streams.c: make_streams FILE ROUNDS writes streams that CRoaring makes of sets of many shapes, each with its length before it, and beside each the stream of the same set without runs to FILE.plain.
#include <roaring/roaring.h>
#include <stdint.h>
#include <stdio.h>
#include <stdlib.h>

enum { CONTAINER = 65536 };

static FILE *out, *plain;
static int streams;

static uint64_t next_random(void) {
    static uint64_t state = 88172645463325252u;
    state ^= state << 13;
    state ^= state >> 7;
    state ^= state << 17;
    return state;
}

static void put(FILE *file, const roaring_bitmap_t *set) {
    uint32_t length = roaring_bitmap_portable_size_in_bytes(set);
    char *bytes = malloc(length + 1);
    roaring_bitmap_portable_serialize(set, bytes);
    fwrite(&length, sizeof length, 1, file);
    fwrite(bytes, 1, length, file);
    free(bytes);
}

// Writes a set as it is, without runs, and with runs where they are shorter; and frees it.
static void put_all(roaring_bitmap_t *set) {
    roaring_bitmap_t *without = roaring_bitmap_copy(set), *with = roaring_bitmap_copy(set);
    roaring_bitmap_remove_run_compression(without);
    roaring_bitmap_run_optimize(with);
    roaring_bitmap_t *forms[] = {set, without, with};
    for (int form = 0; form < 3; form++) {
        put(out, forms[form]);
        put(plain, without);
        streams++;
    }
    for (int form = 0; form < 3; form++) roaring_bitmap_free(forms[form]);
}

static void put_single_members(void) {
    uint32_t members[] = {0, 1, 63, 64, 65, 4095, 4096, 65535, 65536, 65537, 131071, 262143, 262144, 16777215, 16777216, (1u << 30) - 1};
    put_all(roaring_bitmap_create());
    for (size_t i = 0; i < sizeof members / sizeof *members; i++) {
        roaring_bitmap_t *set = roaring_bitmap_create();
        roaring_bitmap_add(set, members[i]);
        put_all(set);
    }
}

// Containers of about as many members as an array has at most.
static void put_border_sizes(void) {
    for (uint32_t size = 4094; size <= 4098; size++)
        for (uint32_t gap = 1; gap <= 15; gap += 7)
            for (uint32_t key = 0; key < 3; key++) {
                roaring_bitmap_t *set = roaring_bitmap_create();
                for (uint32_t i = 0; i < size; i++) roaring_bitmap_add(set, key * CONTAINER + i * gap);
                put_all(set);
            }
}

// Full containers, and containers of one run, as many as have offsets or not.
static void put_runs(void) {
    for (uint64_t count = 1; count <= 9; count++) {
        roaring_bitmap_t *full = roaring_bitmap_create(), *runs = roaring_bitmap_create();
        roaring_bitmap_add_range(full, 0, count * CONTAINER);
        for (uint64_t key = 0; key < count; key++)
            roaring_bitmap_add_range(runs, key * CONTAINER + 100 * key, key * CONTAINER + 100 * key + 5000);
        put_all(full);
        put_all(runs);
    }
}

static void add_random_container(roaring_bitmap_t *set, uint64_t base) {
    int sizes[] = {1 + next_random() % 50, 1 + next_random() % 6000, 30000};
    int shape = next_random() % 5;
    if (shape < 3)
        for (int i = 0; i < sizes[shape]; i++) roaring_bitmap_add(set, base + next_random() % CONTAINER);
    else if (shape == 3)
        for (int runs = 1 + next_random() % 30; runs > 0; runs--) {
            uint64_t first = next_random() % CONTAINER, end = first + 1 + next_random() % 3000;
            roaring_bitmap_add_range(set, base + first, base + (end < CONTAINER ? end : CONTAINER));
        }
    else
        roaring_bitmap_add_range(set, base, base + CONTAINER);
}

static void put_random(void) {
    roaring_bitmap_t *set = roaring_bitmap_create();
    uint32_t keys = next_random() % 4 == 0 ? 2000 : 20;
    for (int count = 1 + next_random() % 12; count > 0; count--)
        add_random_container(set, next_random() % keys * CONTAINER);
    put_all(set);
}

int main(int argc, char **argv) {
    if (argc != 3) return 64;
    char name[4096];
    snprintf(name, sizeof name, "%s.plain", argv[1]);
    out = fopen(argv[1], "wb");
    plain = fopen(name, "wb");
    if (!out || !plain) return 1;
    put_single_members();
    put_border_sizes();
    put_runs();
    for (int rounds = atoi(argv[2]); rounds > 0; rounds--) put_random();
    printf("%d streams\n", streams);
    return fclose(out) != 0 || fclose(plain) != 0;
}
