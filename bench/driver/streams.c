// streams [REPEATS [MILLISECONDS [WORDS]]]: sets as streams of the portable Roaring format, read and written by this library and by CRoaring, beside the same words read and the members listed.
#define _POSIX_C_SOURCE 200809L
#include <math.h>
#include <roaring/roaring.h>
#include <stdio.h>
#include <stdlib.h>
#include <string.h>
#include <time.h>

#include "hibitset.h"

enum { MOST_REPEATS = 99 };

static int repeats = 9;
static double milliseconds = 20;
static const char *wanted = "";

// What a row works on: a set in both forms, its stream, and room for a list and a stream.
typedef struct {
    hibitset_t ours;
    roaring_bitmap_t *theirs;
    uint8_t *stream;
    size_t stream_len;
    uint8_t *room;
    uint32_t *list;
    size_t members;
} work_t;

typedef uint64_t turn_t(work_t *);

static void need(bool holds, const char *what) {
    if (!holds) {
        fprintf(stderr, "streams: %s\n", what);
        exit(1);
    }
}

static uint64_t next_number(void) {
    static uint64_t state = 88172645463325252u;
    state ^= state << 13;
    state ^= state >> 7;
    state ^= state << 17;
    return state >> 11;
}

// ---- one turn of each contender; what it returns is the same for all of a kind

static uint64_t read_ours(work_t *work) {
    hibitset_t set = hibitset_new();
    hibitset_fault fault;
    size_t at;
    need(!hibitset_failed(hibitset_roaring_read(&set, work->stream, work->stream_len, &fault, &at)), "a stream was not read");
    uint32_t last = 0;
    hibitset_last(&set, &last);
    hibitset_free(&set);
    return last;
}

static uint64_t read_theirs(work_t *work) {
    roaring_bitmap_t *set = roaring_bitmap_portable_deserialize_safe((const char *)work->stream, work->stream_len);
    need(set, "CRoaring did not read a stream");
    uint64_t last = roaring_bitmap_maximum(set);
    roaring_bitmap_free(set);
    return last;
}

static uint64_t read_words(work_t *work) {
    hibitset_t set = hibitset_new();
    size_t len;
    const uint64_t *words = hibitset_words(&work->ours, &len);
    need(!hibitset_failed(hibitset_assign_words(&set, words, len)), "no set was made of words");
    uint32_t last = 0;
    hibitset_last(&set, &last);
    hibitset_free(&set);
    return last;
}

static uint64_t write_ours(work_t *work) {
    size_t len = 0;
    need(hibitset_roaring_write(&work->ours, work->room, work->stream_len, &len) == HIBITSET_OK, "a set was not written");
    return len;
}

static uint64_t write_theirs(work_t *work) {
    return roaring_bitmap_portable_serialize(work->theirs, (char *)work->room);
}

static uint64_t list(work_t *work) {
    return hibitset_next_many(&work->ours, 0, work->list, work->members);
}

// ---- times

static double now(void) {
    struct timespec time;
    clock_gettime(CLOCK_THREAD_CPUTIME_ID, &time);
    return time.tv_sec * 1e3 + time.tv_nsec * 1e-6;
}

// The time of a turn in milliseconds, of as many as take so long.
static double timed(turn_t *turn, work_t *work) {
    size_t turns = 0;
    double began = now(), took;
    do {
        turn(work);
        turns++;
        took = now() - began;
    } while (took < milliseconds);
    return took / turns;
}

static int by_size(const void *a, const void *b) {
    double x = *(const double *)a, y = *(const double *)b;
    return (x > y) - (x < y);
}

static double median(double *times) {
    qsort(times, repeats, sizeof *times, by_size);
    return times[repeats / 2];
}

// One kind of work, by each contender in turn: ours, CRoaring's, and the measure of the aim, if that is not CRoaring.
static void print_row(const char *name, work_t *work, turn_t *ours, turn_t *theirs, turn_t *measure, double aim) {
    static double time[3][MOST_REPEATS], ratio[MOST_REPEATS];
    turn_t *turns[3] = {ours, theirs, measure};
    int contenders = measure ? 3 : 2;
    need(ours(work) == theirs(work), name);
    for (int round = 0; round < repeats; round++) {
        for (int who = 0; who < contenders; who++) time[who][round] = timed(turns[who], work);
        ratio[round] = time[0][round] / time[contenders - 1][round];
    }
    double of = median(ratio);
    printf("| %s |", name);
    for (int who = 0; who < contenders; who++) printf(" %.4g |", 1e3 * median(time[who]));
    printf("%s %.2f%s | %.2f |\n", measure ? "" : " - |", of, of > aim ? " *" : "", aim);
    fflush(stdout);
}

// ---- sets

// Each index below `end` with a chance of one in `one_in`.
static void add_by_chance(hibitset_t *set, uint32_t end, double one_in) {
    if (one_in <= 1) {
        need(!hibitset_failed(hibitset_add_range(set, 0, end)), "no memory");
        return;
    }
    double at = -1, rate = log(1 - 1 / one_in);
    while ((at += 1 + floor(log((next_number() + 1) * 0x1p-53) / rate)) < end) {
        need(!hibitset_failed(hibitset_add(set, (uint32_t)at)), "no memory");
    }
}

// Indices in a row, `len` of them in each piece of `piece` indices.
static void add_rows(hibitset_t *set, uint32_t end, uint32_t piece, uint32_t len) {
    for (uint32_t from = 0; from < end; from += piece) {
        uint32_t start = from + next_number() % (piece - len);
        need(!hibitset_failed(hibitset_add_range(set, start, start + len)), "no memory");
    }
}

static void *room_for(size_t len) {
    void *room = malloc(len ? len : 1);
    need(room, "no memory");
    memset(room, 0, len);
    return room;
}

// The stream of a set, which CRoaring makes shorter by runs if so asked; and room for what the turns write.
static work_t work_of(const hibitset_t *set, bool runs, bool lists) {
    work_t work = {.ours = *set, .stream_len = hibitset_roaring_len(set), .members = hibitset_len(set)};
    work.stream = room_for(work.stream_len);
    work.room = room_for(work.stream_len);
    need(hibitset_roaring_write(set, work.stream, work.stream_len, &work.stream_len) == HIBITSET_OK, "a set was not written");
    work.theirs = roaring_bitmap_portable_deserialize_safe((const char *)work.stream, work.stream_len);
    need(work.theirs, "CRoaring did not read a stream");
    if (runs && roaring_bitmap_run_optimize(work.theirs)) {
        work.stream_len = roaring_bitmap_portable_serialize(work.theirs, (char *)work.stream);
    }
    if (lists) work.list = room_for(work.members * sizeof *work.list);
    return work;
}

static void measure(const char *name, const char *end, hibitset_t *set, bool bitsets, bool runs) {
    char row[60], title[80];
    snprintf(row, sizeof row, "%s, below %s", name, end);
    if (strstr(row, wanted)) {
        work_t work = work_of(set, runs, !bitsets && !runs);
        snprintf(title, sizeof title, "read, %s", row);
        print_row(title, &work, read_ours, read_theirs, bitsets ? NULL : read_words, bitsets ? 1.5 : 1.3);
        snprintf(title, sizeof title, "write, %s", row);
        if (!runs) print_row(title, &work, write_ours, write_theirs, bitsets ? NULL : list, bitsets ? 1.5 : 2.0);
        roaring_bitmap_free(work.theirs);
        free(work.stream);
        free(work.room);
        free(work.list);
    }
    hibitset_free(set);
}

static void measure_below(const char *name, uint32_t end) {
    const struct { const char *name; double one_in; bool bitsets; } chances[] = {
        {"every index", 1, true}, {"half", 2, true}, {"10 %", 10, true}, {"1 %", 100, false}, {"0.01 %", 10000, false},
    };
    hibitset_t set = hibitset_new();
    for (size_t which = 0; which < sizeof chances / sizeof *chances; which++) {
        add_by_chance(&set, end, chances[which].one_in);
        measure(chances[which].name, name, &set, chances[which].bitsets, false);
    }
    add_rows(&set, end, 160000, 1000);
    measure("clusters of 1,000", name, &set, false, false);
    add_rows(&set, end, 640, 64);
    measure("runs of 64", name, &set, false, true);
    add_rows(&set, end, 1 << 20, 600000);
    measure("runs of 600,000", name, &set, false, true);
}

int main(int argc, char **argv) {
    if (argc > 1) repeats = atoi(argv[1]);
    if (argc > 2) milliseconds = atof(argv[2]);
    if (argc > 3) wanted = argv[3];
    need(0 < repeats && repeats <= MOST_REPEATS, "REPEATS is not from 1 to 99");
    puts("| stream (microseconds a turn) | ours | CRoaring | words, or list | ratio | aim |\n|---|---:|---:|---:|---:|---:|");
    measure_below("2^24", 1 << 24);
    measure_below("2^30", 1 << 30);
}
