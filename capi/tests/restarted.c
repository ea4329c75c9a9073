/* Restarts the field element or the interlocking while its peer still sends: with the loop of bekwidas.h (bek_reopen if bek_is_stale) both are
 * established again. It prints how long that took. Each end that was reopened has a twin, an end of its own that was opened at that time with the
 * same settings: both do the same at every later call, octet by octet. Only what is kept over openings differs. */
#include "bekwidas.h"

#include <stdio.h>
#include <stdlib.h>
#include <string.h>

enum { CHANNELS = 2 };

static bek_end ends[2], twins[2];
static uint64_t now, seed = 88172645463325252u;
static unsigned opened[2], reopened[2], compared;
static uint8_t command;

static void must(int holds, const char *what) {
    if (holds) return;
    fprintf(stderr, "restarted: %s at %lu ms\n", what, (unsigned long)now);
    exit(1);
}

static uint32_t random_number(void) {
    seed ^= seed << 13, seed ^= seed >> 7, seed ^= seed << 17;
    return (uint32_t)(seed >> 32);
}

static bek_settings settings(int i, uint32_t first_sn) {
    bek_settings s;
    must(bek_settings_init(&s, sizeof s) == BEK_OK, "settings");
    s.side = i ? BEK_FIELD_ELEMENT : BEK_INTERLOCKING;
    s.id = 1 + (uint32_t)i;
    s.peer_id = 2 - (uint32_t)i;
    s.protocol = 1;
    s.channels = CHANNELS;
    s.version_count = 1;
    s.versions[0] = 1;
    s.first_sn = first_sn;
    s.n_sendmax = 12;
    s.mwa = 4;
    s.n_maxpacket = 2;
    s.q = 3;
    s.checksum_length = i ? 2 : 0;
    s.checksum[0] = 0x5a;
    strcpy(s.name, i ? "FE1" : "IL1");
    strcpy(s.peer_name, i ? "IL1" : "FE1");
    return s;
}

/* A restarted program: its end is a new one. */
static void restarts(int i) {
    bek_settings s = settings(i, random_number());
    bek_free(&twins[i]);
    bek_free(&ends[i]);
    must(bek_open(&ends[i], &s, now) == BEK_OK, "open");
    opened[i]++;
}

/* What an end says of itself. */
typedef struct seen {
    int state, phase, stale, settled, next, departure;
    uint64_t deadline, confirmed, time;
    bek_counts counts;
    bek_leaving leaving;
} seen;

static seen sees(const bek_end *end) {
    seen s;
    memset(&s, 0, sizeof s);
    s.state = bek_state(end), s.phase = bek_phase(end), s.stale = bek_is_stale(end), s.settled = bek_settled(end);
    s.next = bek_next_deadline(end, &s.deadline);
    s.departure = bek_departure(end, &s.leaving, sizeof s.leaving);
    must(bek_confirmed(end, &s.confirmed) == BEK_OK && bek_confirmed_time(end, &s.time) == BEK_OK && bek_counts_of(end, &s.counts, sizeof s.counts) == BEK_OK, "sees");
    return s;
}

/* The same without what is kept over openings. */
static seen sees_present(const bek_end *end) {
    seen s = sees(end);
    s.counts.openings = 0;
    if (s.state == BEK_CLOSED) {
        s.stale = s.next = 0; /* an interlocking whose openings did not last waits longer */
        s.deadline = 0;
    } else {
        s.departure = 0;
        memset(&s.leaving, 0, sizeof s.leaving);
    }
    return s;
}

/* The end and its twin are in the same state. */
static void alike(int i) {
    seen a, b;
    if (twins[i].is_open_ == 0) return;
    a = sees_present(&ends[i]), b = sees_present(&twins[i]);
    must(memcmp(&a, &b, sizeof a) == 0, "the reopened end and its twin differ");
    compared++;
}

/* The loop's call for an end that is stale. */
static void reopens(int i) {
    uint32_t first_sn = random_number();
    bek_settings s = settings(i, first_sn);
    bek_end was = ends[i];
    must(bek_reopen(&ends[i], first_sn, now - 1) == BEK_ERR_TIME, "reopen at an earlier time");
    must(bek_is_stale(&ends[i]) == 1, "a refused reopen leaves a stale end");
    must(bek_reopen(&ends[i], first_sn, now) == BEK_OK, "reopen");
    must(ends[i].station_ == was.station_ && ends[i].is_open_ == was.is_open_, "the end stays in its memory");
    bek_free(&twins[i]);
    must(bek_open(&twins[i], &s, now) == BEK_OK, "twin");
    alike(i);
    reopened[i]++;
}

/* The same telegrams wait at an end and its twin. */
static void takes(int i) {
    uint8_t payload[BEK_PAYLOAD_MAX], other[BEK_PAYLOAD_MAX];
    uint16_t kind, other_kind;
    size_t length, other_length;
    int result;
    do {
        result = bek_take(&ends[i], &kind, payload, sizeof payload, &length);
        if (twins[i].is_open_ != 0) {
            must(bek_take(&twins[i], &other_kind, other, sizeof other, &other_length) == result, "take of the twin");
            must(result != BEK_OK || (kind == other_kind && length == other_length && memcmp(payload, other, length) == 0), "telegram of the twin");
        }
    } while (result == BEK_OK);
}

static void done(int i, int result, int of_twin, const char *what) {
    must(result >= 0, what);
    must(twins[i].is_open_ == 0 || of_twin == result, "result of the twin");
    alike(i);
    takes(i);
}

static void arrives(int i, uint32_t channel, const uint8_t *octets, size_t length) {
    done(i, bek_arrive(&ends[i], channel, octets, length, now), bek_arrive(&twins[i], channel, octets, length, now), "arrive");
}

static void ticks(int i) { done(i, bek_tick(&ends[i], now), bek_tick(&twins[i], now), "tick"); }
static void completes(int i) { done(i, bek_init_done(&ends[i], now), bek_init_done(&twins[i], now), "init_done"); }
static void puts_one(int i) {
    int result, of_twin;
    command++;
    result = bek_put(&ends[i], 0x0100, &command, 1, now);
    of_twin = bek_put(&twins[i], 0x0100, &command, 1, now);
    if (result == BEK_ERR_FULL) result = BEK_OK, of_twin += -BEK_ERR_FULL; /* the peer is gone, and nobody confirms */
    done(i, result, of_twin, "put");
}

static void carry(void) {
    int again = 1, i;
    while (again)
        for (again = 0, i = 0; i < 2; i++) {
            uint8_t octets[BEK_DATAGRAM_MAX], other[BEK_DATAGRAM_MAX];
            uint32_t channel, other_channel;
            size_t length, other_length;
            while (bek_next_datagram(&ends[i], &channel, octets, sizeof octets, &length) == BEK_OK) {
                if (twins[i].is_open_ != 0) {
                    must(bek_next_datagram(&twins[i], &other_channel, other, sizeof other, &other_length) == BEK_OK, "datagram of the twin");
                    must(channel == other_channel && length == other_length && memcmp(octets, other, length) == 0, "datagram of the twin");
                }
                arrives(!i, channel, octets, length);
                again = 1;
            }
            must(twins[i].is_open_ == 0 || bek_next_datagram(&twins[i], &channel, octets, sizeof octets, &length) == BEK_NOTHING, "the twin has more");
        }
}

static int are_established(void) { return bek_phase(&ends[0]) == BEK_ESTABLISHED && bek_phase(&ends[1]) == BEK_ESTABLISHED; }

/* Restarts an end after `up` ms; returns after how many ms both are established again. */
static uint64_t comes_back(int who, uint64_t up, uint64_t wait) {
    uint64_t closed = 0, start = now;
    restarts(1);
    restarts(0);
    while (now < start + up + 60000) {
        int i;
        now++;
        carry();
        for (i = 0; i < 2; i++) {
            ticks(i);
            carry();
        }
        if (bek_phase(&ends[1]) == BEK_INITIALISING) {
            completes(1);
            carry();
        }
        if (bek_phase(&ends[0]) == BEK_ESTABLISHED && now % 7 == 0) {
            puts_one(0);
            carry();
        }
        if (now == start + up) {
            must(are_established(), "not established at first");
            restarts(who);
        }
        if (bek_is_stale(&ends[1]) == 1) reopens(1);
        if (bek_is_stale(&ends[0]) == 1 && closed == 0) closed = now;
        if (closed != 0 && now - closed >= wait) {
            reopens(0);
            closed = 0;
        }
        if (now > start + up + 50 && are_established()) return now - start - up;
    }
    must(0, "not established again in a minute");
    return 0;
}

/* A reopening is refused while a telegram waits and at a wrong time, and changes nothing then. It drops the datagrams, and not an end's memory. */
static void refusals(void) {
    bek_end none = BEK_END_INIT;
    uint8_t payload[BEK_PAYLOAD_MAX];
    uint16_t kind;
    size_t length;
    bek_counts counts;
    seen before, after;
    must(bek_reopen(&none, 1, now) == BEK_ERR_NOT_OPEN && none.is_open_ == 0, "reopen of nothing");
    must(bek_reopen(NULL, 1, now) == BEK_ERR_NULL, "reopen of NULL");
    must(are_established(), "established");
    bek_free(&twins[0]);
    bek_free(&twins[1]);
    command = 77;
    must(bek_put(&ends[0], 0x0100, &command, 1, now) == BEK_OK, "put");
    {
        uint8_t octets[BEK_DATAGRAM_MAX];
        uint32_t channel;
        while (bek_next_datagram(&ends[0], &channel, octets, sizeof octets, &length) == BEK_OK)
            must(bek_arrive(&ends[1], channel, octets, length, now) == BEK_OK, "arrive");
    }
    must(bek_close(&ends[1], now) == BEK_OK, "close");
    before = sees(&ends[1]);
    must(before.counts.telegrams == 1 && before.counts.datagrams >= CHANNELS, "a telegram and a DiscReq wait");
    must(bek_reopen(&ends[1], 5, now) == BEK_ERR_TAKE_FIRST, "a telegram waits");
    must(bek_reopen(&ends[1], 5, now - 1) == BEK_ERR_TIME, "the time comes first");
    must(bek_reopen(&ends[1], 5, ((uint64_t)1 << 62) + 1) == BEK_ERR_TIME, "too late");
    after = sees(&ends[1]);
    must(memcmp(&before, &after, sizeof before) == 0, "a refused reopen changes nothing");
    must(bek_take(&ends[1], &kind, payload, sizeof payload, &length) == BEK_OK && kind == 0x0100 && length == 1 && payload[0] == 77, "the telegram is not lost");
    must(bek_reopen(&ends[1], 5, now) == BEK_OK, "reopen");
    must(bek_counts_of(&ends[1], &counts, sizeof counts) == BEK_OK && counts.telegrams == 0 && counts.datagrams == 0 && counts.unsent == 0, "a field element waits");
    must(bek_state(&ends[1]) == BEK_DOWN && bek_is_stale(&ends[1]) == 0, "in Down");
    /* also an end that is not closed; the datagrams of its old connection are gone */
    must(bek_put(&ends[0], 0x0100, &command, 1, now) == BEK_OK, "put");
    must(bek_reopen(&ends[0], 9, now) == BEK_OK && bek_reopen(&ends[0], 9, now) == BEK_OK, "reopen of an open end");
    must(bek_counts_of(&ends[0], &counts, sizeof counts) == BEK_OK && counts.datagrams == CHANNELS && counts.unsent == 0, "a ConnReq on each channel");
    must(bek_state(&ends[0]) == BEK_START, "in Start");
}

int main(void) {
    static const uint64_t ups[] = {100, 500, 1000, 2000, 3000, 5000, 8000, 10000, 12000}, waits[] = {1, 200, 1000};
    uint64_t longest = 0;
    size_t k, w;
    int who;
    for (who = 0; who < 2; who++)
        for (k = 0; k < sizeof ups / sizeof *ups; k++)
            for (w = 0; w < 3; w++) {
                uint64_t took = comes_back(who, ups[k], waits[w]);
                if (took > longest) longest = took;
            }
    printf("established again after at most %lu ms; opened %u and %u times, reopened %u and %u times, compared %u times\n", (unsigned long)longest, opened[0],
           opened[1], reopened[0], reopened[1], compared);
    must(longest < 10000, "too long");
    must(reopened[0] > 0 && reopened[1] > 0 && compared > 1000, "nothing was reopened");
    refusals();
    for (k = 0; k < 2; k++) {
        bek_free(&ends[k]);
        bek_free(&twins[k]);
    }
    return 0;
}
