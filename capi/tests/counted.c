/* Runs two ends in one process over a network in memory: each puts TIMES telegrams, and the other takes them and compares their octets. It
 * prints the rate and the latency from put to take in processor time. With -DHOOK it counts allocations by malloc. */
#define _GNU_SOURCE
#include "bekwidas.h"

#include <stdio.h>
#include <stdlib.h>
#include <string.h>
#include <time.h>

static unsigned long allocations, octets_taken;

#ifdef HOOK
extern void *__libc_malloc(size_t);
void *malloc(size_t size) {
    allocations++;
    octets_taken += size;
    return __libc_malloc(size);
}
#endif

static double nanoseconds(void) {
    struct timespec t;
    clock_gettime(CLOCK_THREAD_CPUTIME_ID, &t);
    return t.tv_sec * 1e9 + t.tv_nsec;
}

static void must(int holds, const char *what) {
    if (holds) return;
    fprintf(stderr, "two_ends: %s\n", what);
    exit(1);
}

static uint64_t now;
static unsigned long datagrams;

/* Delivers to the other end all datagrams that one end made. */
static int pass(bek_end *from, bek_end *to) {
    uint8_t octets[BEK_DATAGRAM_MAX];
    uint32_t channel;
    size_t length;
    int some = 0;
    while (bek_next_datagram(from, &channel, octets, sizeof octets, &length) == BEK_OK) {
        must(bek_arrive(to, channel, octets, length, now) == BEK_OK, "a datagram was refused");
        datagrams++;
        some = 1;
    }
    return some;
}

static uint32_t number_in(const uint8_t *payload) {
    return payload[0] | payload[1] << 8 | payload[2] << 16 | (uint32_t)payload[3] << 24;
}

/* Takes all telegrams of an end, which are numbered, and returns how many it has taken so far. */
static uint32_t take_all(bek_end *end, uint32_t taken) {
    uint8_t payload[BEK_PAYLOAD_MAX];
    uint16_t kind;
    size_t length;
    while (bek_take(end, &kind, payload, sizeof payload, &length) == BEK_OK) {
        must(length == 4 && number_in(payload) == taken, "a telegram is missing or out of order");
        taken++;
    }
    return taken;
}

static int put(bek_end *end, uint32_t number) {
    uint8_t payload[4] = {number & 255, number >> 8 & 255, number >> 16 & 255, number >> 24};
    return bek_put(end, 0x0100, payload, sizeof payload, now);
}

static int compare(const void *a, const void *b) {
    double x = *(const double *)a, y = *(const double *)b;
    return (x > y) - (x < y);
}

int main(int argc, char **argv) {
    uint32_t times = argc > 1 ? (uint32_t)strtoul(argv[1], NULL, 10) : 1000000, channels = argc > 2 ? (uint32_t)atoi(argv[2]) : 2;
    bek_end il = BEK_END_INIT, fe = BEK_END_INIT;
    bek_settings s;
    must(bek_settings_init(&s, sizeof s) == BEK_OK, "settings");
    s.side = BEK_INTERLOCKING;
    s.id = 1;
    s.peer_id = 2;
    s.protocol = 1;
    s.channels = channels;
    s.version_count = 1;
    s.versions[0] = 3;
    strcpy(s.name, "IL1");
    strcpy(s.peer_name, "FE1");
    s.first_sn = 100;
    s.n_sendmax = 32;
    s.datagram_room = channels * (2 * 32 + 10);
    s.telegram_room = 512;
    bek_settings o = s;
    o.side = BEK_FIELD_ELEMENT;
    o.id = 2;
    o.peer_id = 1;
    o.first_sn = 500;
    strcpy(o.name, "FE1");
    strcpy(o.peer_name, "IL1");

    must(bek_version() == BEK_VERSION, "another version");
    unsigned long before = allocations, octets_before = octets_taken;
    must(bek_open(&fe, &o, now) == BEK_OK, "the field element was not opened");
    printf("one end: %lu allocations, %lu octets\n", allocations - before, octets_taken - octets_before);
    must(bek_open(&il, &s, now) == BEK_OK, "the interlocking was not opened");
    must(bek_open(&il, &s, now) == BEK_ERR_ALREADY_OPEN, "opened twice");
    while (pass(&il, &fe) | pass(&fe, &il)) {}
    must(bek_phase(&fe) == BEK_INITIALISING, "not initialising");
    must(bek_put(&il, 0x100, NULL, 0, now) == BEK_ERR_NOT_ESTABLISHED, "put too early");
    must(bek_init_done(&fe, now) == BEK_OK, "init_done");
    while (pass(&fe, &il) | pass(&il, &fe)) {}
    must(bek_phase(&il) == BEK_ESTABLISHED && bek_phase(&fe) == BEK_ESTABLISHED, "no session");

    double *each = malloc(100000 * sizeof *each);
    unsigned long opened = allocations;
    uint32_t put_il = 0, put_fe = 0, at_il = 0, at_fe = 0;
    double start = nanoseconds();
    while (at_il < times || at_fe < times) {
        now++;
        while (put_il < times && put(&il, put_il) == BEK_OK) put_il++;
        while (put_fe < times && put(&fe, put_fe) == BEK_OK) put_fe++;
        pass(&il, &fe);
        pass(&fe, &il);
        at_fe = take_all(&fe, at_fe);
        at_il = take_all(&il, at_il);
        must(bek_tick(&il, now) == BEK_OK && bek_tick(&fe, now) == BEK_OK, "tick");
    }
    double took = nanoseconds() - start;
    printf("%u telegrams each way, packed as they wait: %.0f ns each, %.2f million a second, %lu datagrams\n", times, took / (2.0 * times),
           2.0 * times / took * 1e3, datagrams);

    /* one at a time: put, over the network, take */
    uint32_t alone = times < 100000 ? times : 100000;
    for (uint32_t i = 0; i < alone; i++) {
        now++;
        double t = nanoseconds();
        must(put(&il, put_il) == BEK_OK, "a single put");
        put_il++;
        pass(&il, &fe);
        at_fe = take_all(&fe, at_fe);
        each[i] = nanoseconds() - t;
        must(at_fe == put_il, "not taken at once");
        pass(&fe, &il);
        must(bek_tick(&il, now) == BEK_OK && bek_tick(&fe, now) == BEK_OK, "tick");
    }
    unsigned long after = allocations - opened;
    qsort(each, alone, sizeof *each, compare);
    printf("one at a time over %u channels, put to take: median %.0f ns, 99 %% %.0f ns, least %.0f ns\n", channels, each[alone / 2], each[alone * 99 / 100],
           each[0]);
    printf("allocations after opening: %lu\n", after);

    bek_counts c, d;
    must(bek_counts_of(&il, &c, sizeof c) == BEK_OK && bek_counts_of(&fe, &d, sizeof d) == BEK_OK, "counts");
    must(c.unsent == 0 && d.unsent == 0 && c.telegrams == 0 && d.telegrams == 0 && c.datagrams == 0 && d.datagrams == 0, "something waits or was lost");
    must(after == 0, "memory was taken after opening");

    /* refusals */
    char text[120];
    size_t length;
    uint16_t kind;
    uint32_t channel;
    uint8_t octets[8];
    static uint8_t big[BEK_PAYLOAD_MAX + 1];
    must(bek_tick(&il, now - 1) == BEK_ERR_TIME, "an earlier time");
    must(bek_tick(&il, UINT64_MAX) == BEK_ERR_TIME, "a time too late");
    must(bek_put(&il, 0x100, NULL, 3, now) == BEK_ERR_NULL, "null");
    must(bek_put(NULL, 0x100, NULL, 0, now) == BEK_ERR_NULL, "null");
    must(bek_put(&il, 0x100, octets, (size_t)-1, now) == BEK_ERR_LENGTH, "length");
    must(bek_arrive(&il, 1, octets, (size_t)-1, now) == BEK_ERR_LENGTH, "length");
    must(bek_take(&il, &kind, octets, (size_t)-1, &length) == BEK_ERR_LENGTH, "length");
    must(bek_next_datagram(&il, &channel, octets, (size_t)-1, &length) == BEK_ERR_LENGTH, "length");
    must(bek_init_done(&il, now) == BEK_ERR_NOT_INITIALISING, "no field element");
    must(bek_put(&il, 0x21, octets, 0, now) == BEK_ERR_RESERVED_KIND, "a kind of the establishment");
    must(bek_put(&il, 0x100, big, sizeof big, now) == BEK_ERR_TOO_LONG, "too long");
    must(bek_put(&il, 0x100, octets, 0, now) == BEK_OK, "an empty payload");
    must(bek_next_datagram(&il, &channel, octets, sizeof octets, &length) == BEK_ERR_TOO_SMALL && length > 8, "too small");
    must(bek_take(&il, &kind, octets, sizeof octets, &length) == BEK_NOTHING, "nothing");
    must(bek_fault_text(BEK_ERR_TAKE_FIRST, text, sizeof text) == strlen(text), "text");
    printf("%d: %s\n", BEK_ERR_TAKE_FIRST, text);
    bek_end never = BEK_END_INIT; /* never drained, in the least room: it reports that before anything is lost */
    s.datagram_room = channels * (32 + 5);
    must(bek_open(&never, &s, now) == BEK_OK, "the least room");
    must(bek_tick(&never, now) == BEK_ERR_SEND_FIRST && bek_arrive(&never, 1, octets, 0, now) == BEK_ERR_SEND_FIRST, "full");
    must(bek_counts_of(&never, &c, sizeof c) == BEK_OK && c.unsent == 0 && c.datagrams == channels, "lost before it was reported");
    while (bek_next_datagram(&never, &channel, big, sizeof big, &length) == BEK_OK) {}
    must(bek_tick(&never, now) == BEK_OK, "drained");
    bek_free(&never);
    s.datagram_room--;
    must(bek_open(&never, &s, now) == BEK_ERR_ROOMS, "too small a room for datagrams");
    s.datagram_room = 1000;
    s.size--;
    must(bek_open(&never, &s, now) == BEK_ERR_SETTINGS_SIZE, "another size of settings");
    s.size++;
    s.telegram_room = 26;
    must(bek_open(&never, &s, now) == BEK_ERR_ROOMS, "too small a room");
    s.telegram_room = 64;
    s.t_max = 99;
    must(bek_open(&never, &s, now) == BEK_ERR_BAD_SETTINGS, "settings out of range");
    must(bek_open(&never, &s, UINT64_MAX) == BEK_ERR_TIME, "a time too late");
    must(bek_close(&il, now) == BEK_OK, "close");
    pass(&il, &fe);
    must(bek_state(&fe) == BEK_CLOSED && bek_state(&il) == BEK_CLOSED, "closed");
    uint64_t deadline;
    must(bek_next_deadline(&il, &deadline) == BEK_OK && deadline == now + 1800 / 4, "a closed end is due after its wait");
    must(bek_reopen(&fe, 1, now) == BEK_ERR_TAKE_FIRST, "the empty telegram waits");
    while (bek_take(&fe, &kind, big, sizeof big, &length) == BEK_OK) {}
    before = allocations;
    must(bek_reopen(&fe, 1, now) == BEK_OK && bek_reopen(&il, 2, now) == BEK_OK, "reopen");
    pass(&il, &fe);
    must(bek_state(&fe) == BEK_START && allocations == before, "a new connection without an allocation");
    bek_free(&il);
    bek_free(&fe);
    bek_free(&fe);
    must(bek_tick(&il, now) == BEK_ERR_NOT_OPEN, "freed");
    free(each);
    return 0;
}
