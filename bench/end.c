// Times, at an end whose session is established, one put with its sending on two channels, one arrival of its datagram, one arrival of a second copy on
// another channel, and the digest in each: of this repository, of an end in plain C (c_end.c), and of libcrypto. It first compares what both ends send,
// and measures nothing if an octet differs. A time depends on the place of the stack, so each is taken at PLACES places of a page. It also prints the
// processor time of an end for 1,000 telegrams a second in an hour, and its memory in octets.
#define OPENSSL_SUPPRESS_DEPRECATED
#include "both.h"

#include <openssl/md4.h>
#include <stdio.h>
#include <stdlib.h>
#include <string.h>
#include <time.h>

struct held { uint64_t own, taken; };
struct held bench_end_octets(uint32_t q);

enum { PLACES = 64, STEP = 64, RUNS = 51 };
enum { OURS, IN_C, ENDS };
enum measure { OPENING, ARRIVAL, ARRIVAL_WITH_BEATS, SECOND_COPY, SILENCE, PUT, PUT_WITH_BEATS, DIGEST, LIBCRYPTO, MEASURES };

// The datagrams of a field element that makes a heartbeat after 16 units, and of one that makes one after each.
static struct rows rare, frequent;

// What is printed, each with its goal: at most so many times as long as in C.
enum call { THE_DIGEST, THE_ARRIVAL, THE_PUT, THE_SECOND_COPY, CALLS };
static const struct { const char *name; double goal; } calls[] = {{"digest", 1.05}, {"`arrive`", 1.25}, {"`put`", 1.25}, {"second copy", 1.8}};

// In nanoseconds: the least time of each measure at the present place of the stack, the time of each call at each place, and their median and mean. (A
// call's time is a difference, whose least would be the noisiest.)
static double times[ENDS][MEASURES], at_place[ENDS][CALLS][PLACES], median[ENDS][CALLS], mean[ENDS][CALLS], least_libcrypto = 1e18;

static double nanoseconds(void) {
    struct timespec now;
    clock_gettime(CLOCK_MONOTONIC, &now);
    return (double)now.tv_sec * 1e9 + (double)now.tv_nsec;
}

static void must(bool holds, const char *otherwise) {
    if (holds) return;
    printf("%s\n", otherwise);
    exit(1);
}

static bool libcrypto_digests(void) {
    uint8_t digest[16];
    for (size_t i = 0; i < TIMES; i++) MD4(rare.data + i * rare.size + RED_HEADER, rare.size - RED_HEADER - CODE, digest);
    return true;
}

static bool run(int end, enum measure measure) {
    switch (measure) {
    case OPENING: return end == OURS ? ours_arrive(&rare, 0, 1) : c_arrives(&rare, 0, 1);
    case ARRIVAL: return end == OURS ? ours_arrive(&rare, TIMES, 1) : c_arrives(&rare, TIMES, 1);
    case ARRIVAL_WITH_BEATS: return end == OURS ? ours_arrive(&frequent, TIMES, 1) : c_arrives(&frequent, TIMES, 1);
    case SECOND_COPY: return end == OURS ? ours_arrive(&rare, TIMES, 2) : c_arrives(&rare, TIMES, 2);
    case SILENCE: return end == OURS ? ours_put(&rare, 0) : c_puts(&rare, 0);
    case PUT: return end == OURS ? ours_put(&rare, TIMES) : c_puts(&rare, TIMES);
    case PUT_WITH_BEATS: return end == OURS ? ours_put(&frequent, TIMES) : c_puts(&frequent, TIMES);
    case DIGEST: (end == OURS ? our_digests : c_digests)(&rare); return true;
    default: return libcrypto_digests();
    }
}

// Takes each measure once, at both ends in turn.
static void measure_once(void) {
    for (int measure = 0; measure < MEASURES; measure++)
        for (int end = 0; end < ENDS; end++) {
            double start = nanoseconds();
            bool is_done = run(end, measure);
            double time = nanoseconds() - start;
            must(is_done, "an end did not take or send all telegrams");
            if (time < times[end][measure]) times[end][measure] = time;
        }
}

// Returns the time of one telegram without the heartbeats, which follow from the time with one after each unit.
static double one(double opening, double time, double frequent_time) {
    double beats = TIMES / (double)rare.mwa, beat = (frequent_time - time) / (TIMES - beats);
    return (time - opening - beats * beat) / TIMES;
}

static double call_time(const double *of, enum call call) {
    switch (call) {
    case THE_DIGEST: return of[DIGEST] / TIMES;
    case THE_PUT: return one(of[SILENCE], of[PUT], of[PUT_WITH_BEATS]);
    case THE_ARRIVAL: return one(of[OPENING], of[ARRIVAL], of[ARRIVAL_WITH_BEATS]);
    default: return (of[SECOND_COPY] - of[ARRIVAL]) / TIMES;
    }
}

static __attribute__((noinline)) void measure_here(size_t place) {
    for (int end = 0; end < ENDS; end++)
        for (int measure = 0; measure < MEASURES; measure++) times[end][measure] = 1e18;
    for (int i = 0; i < RUNS; i++) measure_once();
    for (int end = 0; end < ENDS; end++)
        for (int call = 0; call < CALLS; call++) at_place[end][call][place] = call_time(times[end], call);
    if (times[OURS][LIBCRYPTO] / TIMES < least_libcrypto) least_libcrypto = times[OURS][LIBCRYPTO] / TIMES;
}

static __attribute__((noinline)) void measure_below(size_t place) {
    size_t octets = place * STEP;
    volatile uint8_t room[octets + 1];
    room[0] = room[octets] = 0;
    measure_here(place);
    room[octets] = room[0];
}

static int compare(const void *a, const void *b) { return (*(const double *)a > *(const double *)b) - (*(const double *)a < *(const double *)b); }

static void measure(void) {
    for (size_t place = 0; place < PLACES; place++) measure_below(place);
    for (int end = 0; end < ENDS; end++)
        for (int call = 0; call < CALLS; call++) {
            for (int place = 0; place < PLACES; place++) mean[end][call] += at_place[end][call][place] / PLACES;
            qsort(at_place[end][call], PLACES, sizeof(double), compare);
            median[end][call] = at_place[end][call][PLACES / 2];
        }
}

// Prints a line of the table of bench/README.md. The ratio is that of the means.
static void print_line(const char *what, const double times_of[4], double goal) {
    double ratio = times_of[2] / times_of[3];
    printf("| %s | %.1f, %.1f | %.1f, %.1f | %.2f | %.2f: ", what, times_of[0], times_of[2], times_of[1], times_of[3], ratio, goal);
    if (ratio <= goal) printf("met |\n");
    else printf("missed by %.2f |\n", ratio - goal);
}

static void print_calls(void) {
    printf("| What | Ours ns: median, mean | C | Ratio | Goal |\n|---|---|---|---|---|\n");
    for (int call = 0; call < CALLS; call++) {
        double both[4] = {median[OURS][call], median[IN_C][call], mean[OURS][call], mean[IN_C][call]};
        print_line(calls[call].name, both, calls[call].goal);
        if (call != THE_PUT && call != THE_ARRIVAL) continue;
        for (int i = 0; i < 4; i++) both[i] -= (i < 2 ? median : mean)[i % 2][THE_DIGEST];
        print_line("the same without digest", both, 1.6);
    }
}

// Makes runs of one measure, or of none, for a program that counts instructions.
static int only(const char *end, const char *measure) {
    static const char *const names[] = {"ours", "C"};
    static const char *const words[] = {"opening", "arrive", "arrive-beats", "again", "silence", "put", "put-beats", "digest", "none"};
    for (int i = 0; i < ENDS; i++)
        for (int k = 0; k < MEASURES; k++)
            if (strcmp(end, names[i]) == 0 && strcmp(measure, words[k]) == 0) {
                for (int time = 0; k < LIBCRYPTO && time < 40; time++) must(run(i, k), "an end did not take or send all telegrams");
                printf("%d\n", 40 * TIMES);
                return 0;
            }
    return 2;
}

int main(int count, char **words) {
    must(both_agree(), "nothing is measured");
    must(rows_make(&rare, 1, 16) && rows_make(&frequent, 1, 1), "two ends did not hand on all telegrams");
    if (count == 3) return only(words[1], words[2]);
    measure();
    printf("an end, datagrams of %zu octets, two channels; both ends send the same octets\n", rare.size);
    print_calls();
    const double *ours = median[OURS];
    printf("the digest takes %.2f times as long as libcrypto's over the same octets (%.1f ns)\n", ours[THE_DIGEST] / least_libcrypto, least_libcrypto);
    printf("1,000 telegrams a second for an hour: %.2f s to put, %.2f s to receive on two channels\n", ours[THE_PUT] * 3.6e-3,
           (ours[THE_ARRIVAL] + ours[THE_SECOND_COPY]) * 3.6e-3);
    for (uint32_t q = 4; q <= 8; q += 4) {
        struct held held = bench_end_octets(q);
        must(held.taken > 0, "no end was opened over a heap");
        printf("an end with q = %u holds %lu octets: %lu, and %lu in its heap\n", q, held.own + held.taken, held.own, held.taken);
    }
    return 0;
}
