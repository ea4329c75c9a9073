/* Runs two ends over a network that loses, repeats, swaps and delays datagrams: each takes a prefix of what the other put, octet by octet,
 * whether the connection lives or ends; then both are opened again. After each call an end takes and sends all that waits. It runs with eight
 * seeds, or with the number in the second word, and with each seed enough telegrams must be taken. */
#include "bekwidas.h"

#include <stdio.h>
#include <stdlib.h>
#include <string.h>

enum { WAITING = 256 };

static uint64_t seed;

static uint32_t any(void) {
    seed ^= seed << 13;
    seed ^= seed >> 7;
    seed ^= seed << 17;
    return (uint32_t)(seed >> 32);
}

static struct datagram {
    int to;
    uint32_t channel;
    size_t length;
    uint64_t due;
    uint8_t octets[BEK_DATAGRAM_MAX];
} wire[WAITING];

static size_t on_wire;
static bek_end ends[2];
static uint32_t put[2], taken[2], connections;
static uint64_t now;
static unsigned long run;

static void must(int holds, const char *what) {
    if (holds) return;
    fprintf(stderr, "relay: seed %lu: %s\n", run, what);
    exit(1);
}

/* Ends the test if a call returns an error. */
static void works(int answer, const char *what) {
    if (answer >= 0) return;
    fprintf(stderr, "relay: seed %lu: %s returns %d\n", run, what, answer);
    exit(1);
}

static bek_settings settings(int i) {
    bek_settings s;
    works(bek_settings_init(&s, sizeof s), "bek_settings_init");
    s.side = i ? BEK_FIELD_ELEMENT : BEK_INTERLOCKING;
    s.id = 1 + i;
    s.peer_id = 2 - i;
    s.protocol = 1;
    s.first_sn = any();
    s.version_count = 1;
    s.versions[0] = 1;
    strcpy(s.name, i ? "FE1" : "IL1");
    strcpy(s.peer_name, i ? "IL1" : "FE1");
    return s;
}

static void open_both(void) {
    for (int i = 1; i >= 0; i--) {
        bek_settings s = settings(i);
        bek_free(&ends[i]);
        must(bek_open(&ends[i], &s, now) == BEK_OK, "open");
        put[i] = taken[i] = 0;
    }
    on_wire = 0;
    connections++;
}

/* Puts a datagram of an end on the wire, once, twice or not at all, each copy with its own delay. */
static void send_all(int i, uint32_t trouble) {
    uint8_t octets[BEK_DATAGRAM_MAX];
    uint32_t channel;
    size_t length;
    while (bek_next_datagram(&ends[i], &channel, octets, sizeof octets, &length) == BEK_OK) {
        int copies = any() % 1000 < trouble ? 0 : any() % 1000 < trouble ? 2 : 1;
        while (copies-- > 0 && on_wire < WAITING) {
            struct datagram *d = &wire[on_wire++];
            d->to = 1 - i;
            d->channel = channel;
            d->length = length;
            d->due = now + (any() % 1000 < trouble ? any() % 60 : any() % 2);
            memcpy(d->octets, octets, length);
        }
    }
}

static void take_all(int i) {
    uint8_t payload[BEK_PAYLOAD_MAX], wanted[BEK_PAYLOAD_MAX];
    uint16_t kind;
    size_t length;
    while (bek_take(&ends[i], &kind, payload, sizeof payload, &length) == BEK_OK) {
        uint32_t n = taken[i]++;
        must(taken[i] <= put[1 - i], "taken before it was put");
        for (size_t k = 0; k < n % 358; k++) wanted[k] = (uint8_t)(n * 31 + k);
        must(kind == 0x0100 + n % 7 && length == n % 358 && memcmp(payload, wanted, length) == 0, "not the telegram that is next");
    }
}

/* Takes and sends everything after a call of an end. */
static void serve(int i, uint32_t trouble) {
    take_all(i);
    send_all(i, trouble);
}

/* Runs `steps` steps from one seed; returns how many telegrams were taken. */
static unsigned long steps(unsigned long times) {
    unsigned long total = 0;
    for (unsigned long n = 0; n < times; n++) {
        uint32_t trouble = n % 20000 < 10000 ? 20 : 120; /* of 1,000 */
        if (bek_state(&ends[0]) <= BEK_CLOSED || bek_state(&ends[1]) <= BEK_CLOSED) {
            total += taken[0] + taken[1];
            open_both();
            for (int i = 0; i < 2; i++) serve(i, trouble);
        }
        now += any() % 3;
        for (size_t k = 0; k < on_wire; k++) {
            struct datagram came = wire[k];
            if (came.due > now) continue;
            wire[k--] = wire[--on_wire];
            works(bek_arrive(&ends[came.to], came.channel, came.octets, came.length, now), "bek_arrive");
            serve(came.to, trouble);
        }
        for (int i = 0; i < 2; i++) {
            uint8_t payload[BEK_PAYLOAD_MAX];
            works(bek_tick(&ends[i], now), "bek_tick");
            serve(i, trouble);
            if (bek_phase(&ends[i]) == BEK_INITIALISING && i == 1 && any() % 3 == 0) {
                works(bek_init_done(&ends[1], now), "bek_init_done");
                serve(1, trouble);
            }
            for (size_t k = 0; k < put[i] % 358; k++) payload[k] = (uint8_t)(put[i] * 31 + k);
            if (any() % 4 == 0 && bek_put(&ends[i], (uint16_t)(0x0100 + put[i] % 7), payload, put[i] % 358, now) >= 0) put[i]++;
            serve(i, trouble);
        }
    }
    return total + taken[0] + taken[1];
}

int main(int argc, char **argv) {
    unsigned long times = argc > 1 ? strtoul(argv[1], NULL, 10) : 25000, runs = argc > 2 ? strtoul(argv[2], NULL, 10) : 8, all = 0;
    for (run = 1; run <= runs; run++) {
        seed = 88172645463325252u + run * 0x9e3779b97f4a7c15u;
        open_both();
        unsigned long total = steps(times);
        must(total > times / 20, "too little went over");
        all += total;
    }
    must(connections > runs, "no connection has ended");
    printf("%lu telegrams from %lu seeds, each end took a prefix of what was put\n", all, runs);
    bek_free(&ends[0]);
    bek_free(&ends[1]);
    return 0;
}
