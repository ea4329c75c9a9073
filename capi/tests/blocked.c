/* A field element whose program forgets to take telegrams, to fetch datagrams, or both: from the time at which there is no more room each call is refused
 * and changes nothing, and T_max still closes the end, at the time that bek_next_deadline says. What was taken before can then be fetched, and the end
 * opened again. */
#include "bekwidas.h"

#include <stdio.h>
#include <stdlib.h>
#include <string.h>

static void must_at(int holds, int line, const char *what) {
    if (holds) return;
    fprintf(stderr, "blocked: line %d: %s\n", line, what);
    exit(1);
}
#define must(holds) must_at((holds) != 0, __LINE__, #holds)

enum { NO_TAKE = 1, NO_FETCH = 2, T_MAX = 1800 };
static bek_end il, fe;
static uint64_t now;

static bek_settings settings(uint32_t side, uint32_t channels) {
    bek_settings s;
    must(bek_settings_init(&s, sizeof s) == BEK_OK);
    s.side = side;
    s.id = side;
    s.peer_id = 3 - side;
    s.protocol = 1;
    s.version_count = 1;
    s.versions[0] = 1;
    s.channels = channels;
    s.n_sendmax = 7, s.mwa = 3, s.q = 8;
    strcpy(s.name, side == 1 ? "IL1" : "FE1");
    strcpy(s.peer_name, side == 1 ? "FE1" : "IL1");
    return s;
}

static int is_full(int result) { return result == BEK_ERR_TAKE_FIRST || result == BEK_ERR_SEND_FIRST; }

static void carry(bek_end *from, bek_end *to, int takes) {
    uint8_t octets[BEK_DATAGRAM_MAX];
    uint32_t channel;
    uint16_t kind;
    size_t length;
    while (bek_next_datagram(from, &channel, octets, sizeof octets, &length) == BEK_OK) {
        int result = bek_arrive(to, channel, octets, length, now);
        must(result == BEK_OK || result == BEK_UNSENT || is_full(result));
        while (takes && bek_take(to, &kind, octets, sizeof octets, &length) == BEK_OK) {}
    }
}

/* One millisecond of both programs: the interlocking's keeps everything in order. */
static void turn(int forgets, uint64_t each) {
    uint8_t number[8];
    size_t k;
    for (k = 0; k < 8; k++) number[k] = (uint8_t)(now >> 8 * k);
    must(bek_tick(&il, now) >= 0);
    if (bek_phase(&fe) == BEK_INITIALISING) must(bek_init_done(&fe, now) >= 0);
    if (bek_phase(&il) == BEK_ESTABLISHED && now % each == 0) must(bek_put(&il, 0x0100, number, 8, now) >= BEK_ERR_FULL);
    carry(&il, &fe, !(forgets & NO_TAKE) || now < 50);
    if (!(forgets & NO_FETCH) || now < 60) carry(&fe, &il, 1);
}

/* Lets the field element be without room: until the time that bek_next_deadline says each tick is refused, and the tick at that time closes it. */
static void closes_in_time(int forgets, uint64_t each) {
    uint64_t deadline = 0, confirmed;
    bek_leaving leaving;
    must(bek_next_deadline(&fe, &deadline) == BEK_OK && bek_confirmed_time(&fe, &confirmed) == BEK_OK && deadline == confirmed + T_MAX);
    for (; now < deadline; now++) {
        uint64_t again = 0;
        must(is_full(bek_tick(&fe, now)) && bek_state(&fe) != BEK_CLOSED && bek_departure(&fe, &leaving, sizeof leaving) == BEK_NOTHING);
        must(bek_next_deadline(&fe, &again) == BEK_OK && again == deadline);
        turn(forgets, each);
    }
    if (each % 2 == 0) { /* a datagram closes it as well */
        must(bek_arrive(&fe, 1, NULL, 0, now) >= 0);
    } else {
        must(bek_tick(&fe, now) >= 0);
    }
    must(bek_state(&fe) == BEK_CLOSED && bek_departure(&fe, &leaving, sizeof leaving) == BEK_OK);
    must(leaving.by == BEK_BY_OWN && leaving.reason == 3 && leaving.time == now && now == deadline);
}

static void tries(uint32_t channels, int forgets, uint64_t each) {
    bek_settings a = settings(BEK_INTERLOCKING, channels), b = settings(BEK_FIELD_ELEMENT, channels);
    uint8_t octets[BEK_DATAGRAM_MAX];
    uint64_t last = 0;
    uint32_t channel;
    uint16_t kind;
    size_t length, k, waits = 0;
    bek_counts counts;
    a.datagram_room = 80 * channels;
    b.datagram_room = (forgets & NO_FETCH ? 38 : 80) * channels;
    must(bek_open(&fe, &b, 0) == BEK_OK && bek_open(&il, &a, 0) == BEK_OK);
    for (now = 0; now < 20000; now++) {
        int result = bek_tick(&fe, now);
        must(result >= 0 || is_full(result));
        if (now > 100 && is_full(result)) break;
        turn(forgets, each);
    }
    must(now < 20000 && bek_state(&fe) != BEK_CLOSED);
    closes_in_time(forgets, each);
    must(bek_counts_of(&fe, &counts, sizeof counts) == BEK_OK);
    for (; bek_take(&fe, &kind, octets, sizeof octets, &length) == BEK_OK; waits++) { /* in order, each put before it was taken */
        uint64_t number = 0;
        must(kind == 0x0100 && length == 8);
        for (k = 0; k < 8; k++) number |= (uint64_t)octets[k] << 8 * k;
        must(number > last && number <= now);
        last = number;
    }
    must(waits == counts.telegrams && (forgets != NO_TAKE || waits > 30));
    while (bek_next_datagram(&fe, &channel, octets, sizeof octets, &length) == BEK_OK) {}
    must(bek_reopen(&fe, 3, now + 1000) == BEK_OK && bek_tick(&fe, now + 1000) == BEK_OK && bek_state(&fe) == BEK_DOWN);
    bek_free(&il);
    bek_free(&fe);
}

int main(void) {
    uint32_t channels;
    uint64_t each;
    int forgets;
    for (channels = 1; channels <= BEK_CHANNELS_MAX; channels++)
        for (forgets = NO_TAKE; forgets <= (NO_TAKE | NO_FETCH); forgets++)
            for (each = 1; each <= 40; each += 13) tries(channels, forgets, each);
    puts("blocked: each way");
    return 0;
}
