// Times one sending and one arrival of a Data at a safety machine in Up, and the digest in it; prints the least time
// of each, the digest's share, and the memory of a machine in octets.
#include <stdbool.h>
#include <stdint.h>
#include <stdio.h>
#include <stdlib.h>
#include <time.h>

struct tally { uint32_t made, last_octets, taken; bool is_up; };
struct held { uint64_t own, taken; };

void bench_md4(const uint8_t *octets, size_t size, uint8_t *out, size_t out_size);
uint32_t bench_machine_rows(const uint8_t *unit, size_t unit_size, uint32_t code, uint32_t mwa, uint32_t times,
                            uint8_t *data_row, size_t data_size, uint8_t *heartbeat_row, size_t heartbeat_size);
struct tally bench_machine_arrives(const uint8_t *data_row, size_t data_size, size_t size, uint32_t code, uint32_t mwa,
                                   uint32_t times);
struct tally bench_machine_sends(const uint8_t *unit, size_t unit_size, uint32_t code, uint32_t mwa, uint32_t times,
                                 const uint8_t *heartbeat_row, size_t heartbeat_size, size_t size);
struct held bench_machine_octets(void);

enum { DATA = 256, HEADER = 28, LONGEST_UNIT = 1206, LONGEST_CODE = 16 };

// The PDUs of two ends, if the server makes a heartbeat after this number of units.
struct rows {
    uint32_t mwa;
    uint8_t data[DATA * (HEADER + LONGEST_UNIT + LONGEST_CODE)], heartbeats[DATA * (HEADER + LONGEST_CODE)];
};

static struct rows rare = {.mwa = 16}, frequent = {.mwa = 1};
static uint8_t unit[LONGEST_UNIT];
static size_t unit_size, code, size, heartbeat_size;

static double nanoseconds(void) {
    struct timespec now;
    clock_gettime(CLOCK_MONOTONIC, &now);
    return now.tv_sec * 1e9 + now.tv_nsec;
}

static void must(bool holds, const char *otherwise) {
    if (holds) return;
    printf("PDUs of %zu octets: %s\n", size, otherwise);
    exit(1);
}

static void make(struct rows *rows) {
    uint32_t taken = bench_machine_rows(unit, unit_size, code, rows->mwa, DATA, rows->data, DATA * size, rows->heartbeats,
                                        DATA / rows->mwa * heartbeat_size);
    must(taken == DATA, "two ends did not hand on all units");
}

static void keep(double *least, double time) {
    if (time < *least) *least = time;
}

// Opens a connection, and the server receives this number of Data.
static double arrivals(const struct rows *rows, uint32_t times) {
    double start = nanoseconds();
    struct tally t = bench_machine_arrives(rows->data, times * size, size, code, rows->mwa, times);
    double time = nanoseconds() - start;
    must(t.is_up && t.taken == times && t.made == times / rows->mwa, "a server did not take all units");
    return time;
}

// Opens a connection; the client sends all units and receives their confirmations.
static double sendings(const struct rows *rows) {
    uint32_t last_octets = 0;
    for (size_t i = 1; i <= DATA; i++) last_octets += rows->data[i * size - 1];
    double start = nanoseconds();
    struct tally t = bench_machine_sends(unit, unit_size, code, rows->mwa, DATA / rows->mwa, rows->heartbeats,
                                         DATA / rows->mwa * heartbeat_size, heartbeat_size);
    double time = nanoseconds() - start;
    must(t.is_up && t.made == DATA && t.last_octets == last_octets, "a client did not send all units");
    return time;
}

// Makes the digests over all octets that the codes of the Data cover.
static double digests(const struct rows *rows) {
    uint8_t out[16];
    double start = nanoseconds();
    for (size_t i = 0; i < DATA; i++) bench_md4(rows->data + i * size, size - code, out, 16);
    return nanoseconds() - start;
}

// Returns the time of one Data without the heartbeats, which follow from the time with one after each unit.
static double one(double opening, double time, double frequent_time) {
    double heartbeats = DATA / rare.mwa, heartbeat = (frequent_time - time) / (DATA - heartbeats);
    return (time - opening - heartbeats * heartbeat) / DATA;
}

static void line(const char *what, double time, double digest) {
    printf("%8zu %10s %12.1f %12.1f %12.1f %7.0f%%\n", size, what, time, digest, time - digest, 100 * digest / time);
}

static void measure(void) {
    double opening = 1e18, arrived[2] = {1e18, 1e18}, sent[2] = {1e18, 1e18}, digest = 1e18;
    for (int run = 0; run < 1001; run++) {
        keep(&opening, arrivals(&rare, 0));
        keep(&arrived[0], arrivals(&rare, DATA));
        keep(&arrived[1], arrivals(&frequent, DATA));
        keep(&sent[0], sendings(&rare));
        keep(&sent[1], sendings(&frequent));
        keep(&digest, digests(&rare));
    }
    line("send", one(opening, sent[0], sent[1]), digest / DATA);
    line("arrive", one(opening, arrived[0], arrived[1]), digest / DATA);
}

int main(void) {
    static const size_t cases[][2] = {{54, 8}, {LONGEST_UNIT, LONGEST_CODE}};
    for (size_t i = 0; i < sizeof unit; i++) unit[i] = (uint8_t)(i * 7 + 3);
    printf("%8s %10s %12s %12s %12s %8s\n", "octets", "call", "ns", "digest ns", "other ns", "share");
    for (size_t k = 0; k < 2; k++) {
        unit_size = cases[k][0];
        code = cases[k][1];
        size = HEADER + unit_size + code;
        heartbeat_size = HEADER + code;
        make(&rare);
        make(&frequent);
        measure();
    }
    struct held held = bench_machine_octets();
    must(held.taken > 0, "no machine was opened over a heap");
    printf("a machine holds %lu octets: %lu, and %lu in its ring\n", held.own + held.taken, held.own, held.taken);
    return 0;
}
