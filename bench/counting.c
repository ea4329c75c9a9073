// Times what an end's own counting costs: the calls of an end that counts, and of one whose counting bench/counting has removed (plain_*). Each is taken
// at PLACES places of the stack, both ends in turn. It prints a line for each call: the median of the places for both in nanoseconds, and their means.
//     counting [counted|plain WORD]     with words, only runs of one measure, for a program that counts instructions
#include "both.h"

#include <stdio.h>
#include <stdlib.h>
#include <string.h>
#include <time.h>

struct tally plain_bench_end_arrives(const uint8_t *data_row, size_t data_size, size_t size, uint32_t mwa, uint32_t times, uint32_t copies);
struct tally plain_bench_end_puts(const uint8_t *payload, size_t payload_size, uint32_t mwa, uint32_t times, const uint8_t *heartbeat_row,
                                  size_t heartbeat_size, size_t size);

enum { PLACES = 64, STEP = 64, RUNS = 51, ENDS = 2 };
enum measure { OPENING, ARRIVAL, SECOND_COPY, SILENCE, PUT, MEASURES };
static const char *const ends[] = {"counted", "plain"}, *const words[] = {"opening", "arrive", "again", "silence", "put"};
static struct rows rows;

// What is printed: the time of a measure less that of another one.
enum { CALLS = 3 };
static const enum measure whole[] = {ARRIVAL, SECOND_COPY, PUT}, less[] = {OPENING, ARRIVAL, SILENCE};
static double times[ENDS][MEASURES], at_place[ENDS][CALLS][PLACES];

static double nanoseconds(void) {
    struct timespec now;
    clock_gettime(CLOCK_MONOTONIC, &now);
    return (double)now.tv_sec * 1e9 + (double)now.tv_nsec;
}

static void run(int end, enum measure measure) {
    struct tally tally;
    if (measure <= SECOND_COPY) {
        uint32_t count = measure == OPENING ? 0 : TIMES;
        tally = (end == 0 ? bench_end_arrives : plain_bench_end_arrives)(rows.data, count * rows.size, rows.size, rows.mwa, count,
                                                                         measure == SECOND_COPY ? 2 : 1);
    } else {
        uint32_t count = measure == SILENCE ? 0 : TIMES / rows.mwa;
        tally = (end == 0 ? bench_end_puts : plain_bench_end_puts)(rows.payload, rows.payload_size, rows.mwa, count, rows.heartbeats, count * BEAT_SIZE,
                                                                   BEAT_SIZE);
    }
    if (tally.is_established) return;
    printf("an end did not take or send all telegrams\n");
    exit(1);
}

static __attribute__((noinline)) void measure_here(size_t place) {
    for (int end = 0; end < ENDS; end++)
        for (int measure = 0; measure < MEASURES; measure++) times[end][measure] = 1e18;
    for (int i = 0; i < RUNS; i++)
        for (int measure = 0; measure < MEASURES; measure++)
            for (int end = 0; end < ENDS; end++) {
                double start = nanoseconds();
                run(end, measure);
                double time = nanoseconds() - start;
                if (time < times[end][measure]) times[end][measure] = time;
            }
    for (int end = 0; end < ENDS; end++)
        for (int call = 0; call < CALLS; call++)
            at_place[end][call][place] = (times[end][whole[call]] - times[end][less[call]]) / TIMES;
}

static __attribute__((noinline)) void measure_below(size_t place) {
    size_t octets = place * STEP;
    volatile uint8_t room[octets + 1];
    room[0] = room[octets] = 0;
    measure_here(place);
    room[octets] = room[0];
}

static int compare(const void *a, const void *b) { return (*(const double *)a > *(const double *)b) - (*(const double *)a < *(const double *)b); }

static double median(double *of) {
    qsort(of, PLACES, sizeof *of, compare);
    return of[PLACES / 2];
}

static double mean(const double *of) {
    double sum = 0;
    for (int i = 0; i < PLACES; i++) sum += of[i];
    return sum / PLACES;
}

int main(int count, char **given) {
    if (!rows_make(&rows, 1, 16)) return 1;
    if (count == 3) {
        for (int end = 0; end < ENDS; end++)
            for (int measure = 0; measure < MEASURES; measure++)
                for (int i = 0; i < 40 && strcmp(given[1], ends[end]) == 0 && strcmp(given[2], words[measure]) == 0; i++) run(end, measure);
        return 0;
    }
    for (size_t place = 0; place < PLACES; place++) measure_below(place);
    for (int call = 0; call < CALLS; call++)
        printf("%s %.2f %.2f %.2f %.2f\n", words[whole[call]], median(at_place[0][call]), median(at_place[1][call]), mean(at_place[0][call]),
               mean(at_place[1][call]));
    return 0;
}
