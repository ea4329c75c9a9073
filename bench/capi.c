/* Measures the cost of a call over the C boundary, and of a telegram from put to take: the least and the median of many runs. */
#define _POSIX_C_SOURCE 200809L
#include "bekwidas.h"

#include <stdio.h>
#include <stdlib.h>
#include <string.h>
#include <time.h>

enum { RUNS = 20001, CALLS = 1000, PAYLOAD = 90, BATCH = 8 };

#ifdef ALIGNED
extern void *__libc_memalign(size_t alignment, size_t size);
void *malloc(size_t size) { return __libc_memalign(64, size); }
#endif

static bek_end il = BEK_END_INIT, fe = BEK_END_INIT;
static double each[RUNS];

static double nanoseconds(void) {
    struct timespec t;
    clock_gettime(CLOCK_THREAD_CPUTIME_ID, &t);
    return (double)t.tv_sec * 1e9 + (double)t.tv_nsec;
}

static void must(int holds) {
    if (!holds) exit(1);
}

static int carry(bek_end *from, bek_end *to, uint64_t now) {
    uint8_t octets[BEK_DATAGRAM_MAX];
    uint32_t channel;
    size_t length;
    int some = 0;
    while (bek_next_datagram(from, &channel, octets, sizeof octets, &length) == BEK_OK) {
        must(bek_arrive(to, channel, octets, length, now) == BEK_OK);
        some = 1;
    }
    return some;
}

/* Times of a batch each: puts of one octet, arrivals of their datagrams on the first channel, and of the copies on the second. */
static double sendings[RUNS], arrivals[RUNS], copies[RUNS];

static void batch(int run, uint64_t now) {
    static uint8_t octets[2 * BATCH][BEK_DATAGRAM_MAX];
    uint8_t payload[1] = {7}, taken[BEK_PAYLOAD_MAX];
    uint32_t channels[2 * BATCH], channel;
    size_t lengths[2 * BATCH], length;
    uint16_t kind;
    int at;
    double start = nanoseconds();
    for (at = 0; at < BATCH; at++) must(bek_put(&il, 0x0100, payload, sizeof payload, now) == BEK_OK);
    sendings[run] = nanoseconds() - start;
    for (at = 0; at < 2 * BATCH; at++) must(bek_next_datagram(&il, &channels[at], octets[at], sizeof octets[at], &lengths[at]) == BEK_OK);
    for (channel = 1; channel <= 2; channel++) {
        start = nanoseconds();
        for (at = 0; at < 2 * BATCH; at++)
            if (channels[at] == channel) must(bek_arrive(&fe, channel, octets[at], lengths[at], now) == BEK_OK);
        (channel == 1 ? arrivals : copies)[run] = nanoseconds() - start;
    }
    for (at = 0; at < BATCH; at++) must(bek_take(&fe, &kind, taken, sizeof taken, &length) == BEK_OK);
    while (carry(&fe, &il, now) | carry(&il, &fe, now)) {}
}

static int compare(const void *a, const void *b) {
    double x = *(const double *)a, y = *(const double *)b;
    return (x > y) - (x < y);
}

static void print_of(double *times, const char *what, int calls) {
    qsort(times, RUNS, sizeof *times, compare);
    printf("%s: least %.1f ns, median %.1f ns\n", what, times[0] / calls, times[RUNS / 2] / calls);
}

static void print(const char *what, int calls) { print_of(each, what, calls); }

int main(void) {
    uint8_t payload[PAYLOAD] = {0}, taken[BEK_PAYLOAD_MAX];
    bek_settings s;
    uint64_t now = 0;
    uint16_t kind;
    size_t length;
    int run, call, sum = 0;

    must(bek_settings_init(&s, sizeof s) == BEK_OK);
    s.side = BEK_INTERLOCKING;
    s.id = 1;
    s.peer_id = 2;
    s.protocol = 1;
    s.version_count = 1;
    s.versions[0] = 1;
    strcpy(s.name, "IL1");
    strcpy(s.peer_name, "FE1");
    must(bek_open(&il, &s, now) == BEK_OK);
    s.side = BEK_FIELD_ELEMENT;
    s.id = 2;
    s.peer_id = 1;
    strcpy(s.name, "FE1");
    strcpy(s.peer_name, "IL1");
    must(bek_open(&fe, &s, now) == BEK_OK);
    while (carry(&il, &fe, now) | carry(&fe, &il, now)) {}
    must(bek_init_done(&fe, now) == BEK_OK);
    while (carry(&fe, &il, now) | carry(&il, &fe, now)) {}

    for (run = 0; run < RUNS; run++) {
        double start = nanoseconds();
        for (call = 0; call < CALLS; call++) sum += bek_phase(&il);
        each[run] = nanoseconds() - start;
    }
    must(sum > 0);
    print("a question over the boundary (bek_phase)", CALLS);
    for (run = 0; run < RUNS; run++) {
        double start = nanoseconds();
        for (call = 0; call < CALLS; call++) sum += bek_tick(&il, now);
        each[run] = nanoseconds() - start;
    }
    print("a tick in which nothing falls", CALLS);
    for (run = 0; run < RUNS; run++) {
        double start = nanoseconds();
        must(bek_put(&il, 0x0100, payload, sizeof payload, ++now) == BEK_OK);
        carry(&il, &fe, now);
        must(bek_take(&fe, &kind, taken, sizeof taken, &length) == BEK_OK && length == PAYLOAD);
        each[run] = nanoseconds() - start;
        carry(&fe, &il, now);
    }
    print("a payload of 90 octets from put to take, over two channels, the clock's two calls in it", 1);
    for (run = 0; run < RUNS; run++) batch(run, ++now);
    print_of(sendings, "bek_put of one octet, on two channels", BATCH);
    print_of(arrivals, "bek_arrive of its datagram", BATCH);
    print_of(copies, "bek_arrive of the second copy", BATCH);
    bek_free(&il);
    bek_free(&fe);
    return 0;
}
