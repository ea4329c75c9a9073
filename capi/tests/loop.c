/* The loop of bekwidas.h at both ends, driven only by arrivals and by bek_next_deadline, with peers that cannot or do not work together: each end is opened
 * at most 12 times in 10 s, the cause can be read after any number of reopenings, and a peer that is mended gets a session. A pair that fits opens once,
 * and comes back if either program is started again. */
#include "bekwidas.h"

#include <stdio.h>
#include <stdlib.h>
#include <string.h>

enum { IL = 0, FE = 1, ROOM = 4000, DELAY = 2, SECONDS = 10000, T_MAX = 1800, OPENINGS_MOST = 12 };
typedef enum fault { NONE, NAME, CODE, VALUE, IDENTIFIER, VERSION, CLOSES, DEAF, FAULTS } fault;
static const char *const names[FAULTS] = {"none", "name", "code", "initial value", "identifier", "version", "closes at once", "deaf"};

static bek_end ends[2];
static struct {
    int to;
    uint64_t at;
    uint32_t channel;
    size_t length;
    uint8_t octets[BEK_DATAGRAM_MAX];
} wire[ROOM];
static size_t first, after;
static uint64_t now, seed = 88172645463325252u;
static fault wrong;
static unsigned long wakes[2], sent[2];

static void must_at(int holds, int line, const char *what) {
    if (holds) return;
    fprintf(stderr, "loop: line %d: %s (%s, %lu ms)\n", line, what, names[wrong], (unsigned long)now);
    exit(1);
}
#define must(holds) must_at((holds) != 0, __LINE__, #holds)

static uint32_t random_number(void) {
    seed ^= seed << 13, seed ^= seed >> 7, seed ^= seed << 17;
    return (uint32_t)(seed >> 32);
}

static void drain(int i) {
    uint8_t payload[BEK_PAYLOAD_MAX];
    uint16_t kind;
    size_t length;
    for (;; after++) {
        size_t k = after % ROOM;
        must(after - first < ROOM);
        if (bek_next_datagram(&ends[i], &wire[k].channel, wire[k].octets, BEK_DATAGRAM_MAX, &wire[k].length) != BEK_OK) break;
        wire[k].to = wrong == DEAF && i == IL ? -1 : !i;
        wire[k].at = now + DELAY;
        sent[i]++;
    }
    while (bek_take(&ends[i], &kind, payload, sizeof payload, &length) == BEK_OK) {}
}

/* A program is started, or started again. */
static void starts(int i) {
    bek_settings s;
    must(bek_settings_init(&s, sizeof s) == BEK_OK);
    s.side = 1 + (uint32_t)i;
    s.id = 1 + (uint32_t)i;
    s.peer_id = 2 - (uint32_t)i;
    s.protocol = 1;
    s.version_count = 1;
    s.versions[0] = 1;
    s.first_sn = random_number();
    strcpy(s.name, i ? "FE1" : "IL1");
    strcpy(s.peer_name, i ? "IL1" : "FE1");
    if (i == FE) {
        if (wrong == NAME) strcpy(s.peer_name, "IL9");
        if (wrong == CODE) s.code = 16;
        if (wrong == VALUE) s.initial_value[3] ^= 1;
        if (wrong == IDENTIFIER) s.peer_id = 9;
        if (wrong == VERSION) s.versions[0] = 2;
    }
    bek_free(&ends[i]);
    must(bek_open(&ends[i], &s, now) == BEK_OK);
    drain(i);
}

/* The rest of a turn of the loop, after what arrived. */
static void turns(int i) {
    wakes[i]++;
    must(bek_tick(&ends[i], now) == BEK_OK);
    drain(i);
    if (i == FE && bek_phase(&ends[i]) == BEK_INITIALISING) {
        must(wrong == CLOSES ? bek_close(&ends[i], now) == BEK_OK : bek_init_done(&ends[i], now) == BEK_OK);
        drain(i);
    }
    if (bek_is_stale(&ends[i]) == 1) {
        must(bek_reopen(&ends[i], random_number(), now) == BEK_OK);
        drain(i);
    }
}

/* Lets both programs run until a time. */
static void runs(uint64_t until) {
    for (; now < until; now++) {
        int i, came[2] = {0, 0};
        for (; first < after && wire[first % ROOM].at <= now; first++) {
            size_t k = first % ROOM;
            if (wire[k].to < 0) continue;
            must(bek_arrive(&ends[wire[k].to], wire[k].channel, wire[k].octets, wire[k].length, now) == BEK_OK);
            drain(wire[k].to);
            came[wire[k].to] = 1;
        }
        for (i = 0; i < 2; i++) {
            uint64_t deadline;
            if (came[i] || (bek_next_deadline(&ends[i], &deadline) == BEK_OK && deadline <= now)) turns(i);
        }
    }
}

static int are_established(void) { return bek_phase(&ends[IL]) == BEK_ESTABLISHED && bek_phase(&ends[FE]) == BEK_ESTABLISHED; }

static uint64_t established_by(uint64_t most) {
    uint64_t start = now;
    while (!are_established()) {
        must(now < start + most);
        runs(now + 1);
    }
    return now - start;
}

/* What can be read of the cause, at any time. */
static void says_why(void) {
    bek_statistics il, fe;
    bek_leaving of_il = {0, 0, 0, 0, 0}, of_fe = {0, 0, 0, 0, 0};
    int has_il = bek_departure(&ends[IL], &of_il, sizeof of_il) == BEK_OK, has_fe = bek_departure(&ends[FE], &of_fe, sizeof of_fe) == BEK_OK;
    must(bek_totals_of(&ends[IL], &il, sizeof il) == BEK_OK && bek_totals_of(&ends[FE], &fe, sizeof fe) == BEK_OK);
    switch (wrong) {
    case NAME: must(has_il && has_fe && of_fe.by == BEK_BY_OWN && of_fe.reason == 4 && of_fe.detail == 3 && of_il.by == BEK_BY_PEER && of_il.detail == 3); break;
    case CODE: must(fe.damaged > 0 && fe.channels[0].received > 0); break;
    case VALUE: must(fe.part_faults.bad_code > 0); break;
    case IDENTIFIER: must(fe.strangers > 0); break;
    case VERSION: must(has_il && has_fe && of_il.by == BEK_BY_OWN && of_il.reason == 4 && of_il.detail == 1 && of_il.version == 2 && of_fe.by == BEK_BY_PEER); break;
    case CLOSES: must(has_il && of_il.by == BEK_BY_PEER && of_il.reason == 0); break;
    case DEAF: must(has_il && of_il.by == BEK_BY_OWN && of_il.reason == 3 && fe.channels[0].received == 0); break;
    default: must(!has_il && !has_fe && il.damaged + il.strangers + fe.damaged + fe.strangers == 0);
    }
}

/* Two programs, of which the field element has this fault, for ten seconds; then it is mended. */
static void tries(fault it) {
    bek_counts counts[2];
    uint64_t start = now, took;
    int i;
    wrong = it;
    memset(wakes, 0, sizeof wakes);
    memset(sent, 0, sizeof sent);
    starts(FE);
    starts(IL);
    runs(start + SECONDS / 2);
    if (it != NONE) says_why();
    runs(start + SECONDS);
    says_why();
    for (i = 0; i < 2; i++) {
        must(bek_counts_of(&ends[i], &counts[i], sizeof counts[i]) == BEK_OK && counts[i].openings <= (it == NONE ? 1 : OPENINGS_MOST));
        must(wakes[i] < 1000);
    }
    must((it == NONE) == are_established());
    wrong = NONE;
    if (it != NONE) starts(FE);
    took = established_by(3 * T_MAX);
    printf("%-15s opened %lu and %lu times in 10 s, %lu and %lu datagrams; mended after %lu ms\n", names[it], (unsigned long)counts[IL].openings,
           (unsigned long)counts[FE].openings, sent[IL], sent[FE], (unsigned long)took);
}

int main(void) {
    static const uint64_t ups[] = {10, 100, 500, 1000, 2000, 3000, 5000, 8000, 12000};
    uint64_t longest = 0;
    size_t k;
    int who, it;
    for (it = NONE; it < FAULTS; it++) tries((fault)it);
    for (who = 0; who < 2; who++)
        for (k = 0; k < sizeof ups / sizeof *ups; k++) {
            uint64_t took;
            runs(now + ups[k]);
            must(are_established());
            starts(who);
            took = established_by(3 * T_MAX);
            if (took > longest) longest = took;
        }
    printf("started again: established after at most %lu ms\n", (unsigned long)longest);
    bek_free(&ends[IL]);
    bek_free(&ends[FE]);
    return 0;
}
