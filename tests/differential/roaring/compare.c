// compare.c: compare PLAIN ANSWERS compares each answer of streams.rt.txt with CRoaring's stream of the same set without runs, byte for byte, and reads it by CRoaring.
#include <roaring/roaring.h>
#include <stdint.h>
#include <stdio.h>
#include <stdlib.h>
#include <string.h>

struct bytes {
    uint32_t length;
    char *at;
};

static int take(FILE *file, struct bytes *bytes) {
    if (fread(&bytes->length, sizeof bytes->length, 1, file) != 1) return 0;
    bytes->at = malloc(bytes->length + 1);
    return fread(bytes->at, 1, bytes->length, file) == bytes->length;
}

static int same_set(const struct bytes *a, const struct bytes *b) {
    roaring_bitmap_t *x = roaring_bitmap_portable_deserialize_safe(a->at, a->length);
    roaring_bitmap_t *y = roaring_bitmap_portable_deserialize_safe(b->at, b->length);
    int same = x && y && roaring_bitmap_equals(x, y);
    if (x) roaring_bitmap_free(x);
    if (y) roaring_bitmap_free(y);
    return same;
}

int main(int argc, char **argv) {
    if (argc != 3) return 64;
    FILE *plain = fopen(argv[1], "rb"), *answers = fopen(argv[2], "rb");
    if (!plain || !answers) return 1;
    long streams = 0, differences = 0;
    struct bytes want, found;
    while (take(plain, &want)) {
        unsigned char status;
        uint32_t position;
        if (fread(&status, 1, 1, answers) != 1 || fread(&position, 4, 1, answers) != 1 || !take(answers, &found)) {
            printf("the answers end at stream %ld\n", streams);
            return 1;
        }
        int same = status == 0 && found.length == want.length && !memcmp(found.at, want.at, want.length) && same_set(&found, &want);
        if (!same) printf("stream %ld: status %d at %u, %u bytes for %u\n", streams, status, position, found.length, want.length);
        differences += !same;
        streams++;
        free(want.at);
        free(found.at);
    }
    printf("%ld streams, %ld differences\n", streams, differences);
    return differences != 0;
}
