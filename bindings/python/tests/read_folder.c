/* read_folder.c FILE..: reads the streams of a folder of shards by CRoaring, and prints of each how many members it has,
 * the least, the greatest, and their sum. */
#include <inttypes.h>
#include <roaring/roaring.h>
#include <stdio.h>
#include <stdlib.h>

/* Reads a file into `bytes`, and returns how many there are; ends the program if it can't. */
static size_t contents_of(const char *path, char **bytes) {
    FILE *file = fopen(path, "rb");
    if (file == NULL || fseek(file, 0, SEEK_END) != 0) exit(2);
    long len = ftell(file);
    rewind(file);
    *bytes = malloc((size_t)len);
    if (*bytes == NULL || fread(*bytes, 1, (size_t)len, file) != (size_t)len) exit(2);
    fclose(file);
    return (size_t)len;
}

static bool add_to_sum(uint32_t member, void *sum) {
    *(uint64_t *)sum += member;
    return true;
}

int main(int count, char **paths) {
    for (int i = 1; i < count; i++) {
        char *bytes;
        uint64_t sum = 0;
        size_t len = contents_of(paths[i], &bytes);
        roaring_bitmap_t *members = roaring_bitmap_portable_deserialize_safe(bytes, len);
        if (members == NULL) {
            fprintf(stderr, "%s is no stream\n", paths[i]);
            return 1;
        }
        roaring_iterate(members, add_to_sum, &sum);
        printf("%" PRIu64 " %" PRIu32 " %" PRIu32 " %" PRIu64 "\n", roaring_bitmap_get_cardinality(members),
               roaring_bitmap_minimum(members), roaring_bitmap_maximum(members), sum);
        roaring_bitmap_free(members);
        free(bytes);
    }
    return 0;
}
