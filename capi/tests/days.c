/* Runs two ends for simulated days over a network in virtual time: busy by day, quiet by night; clocks 500 ppm apart; losses, repeats, damage, delays
 * that change the order; channels that fail; stalls that hold everything back and then let it go at once; processes that are killed and opened again.
 * Closed ends are opened again by bek_is_stale.
 *     days [DAYS [SEED]]
 * Both clocks pass 2^32 ms on the second and fifth day, half of all sequence numbers begin just below 2^32, and a connection ends at its limit of PDUs.
 * The redundancy number begins at 0 and ends at that limit, so it does not wrap here. At each call it tests:
 *   prefix     the telegram taken is the next one that one incarnation of the peer put, octet by octet, and later incarnations take from later ones;
 *   freshness  a PDU that carried it came undamaged, and confirms a PDU that this incarnation made less than T_max ago by its clock;
 *   confirmed  bek_confirmed never falls and never counts more than the peer took; a settled end's telegrams are all taken;
 *   counts     datagrams received, and PDUs made by kind, are those that this test counts from the octets;
 *   liveness   outside outages the ends are connected, and what is put is taken;
 *   memory     the process is as large at the end as after six hours. */
#include "bekwidas.h"

#include <stdio.h>
#include <stdlib.h>
#include <string.h>

enum { CHANNELS = 2, WIRE = 4096, KEPT = 8192, LONG = 200, Q = 8, T_MAX = 5000 };
static const uint64_t SECOND = 1000000, HOUR = 3600 * (uint64_t)1000000, DAY = 24 * 3600 * (uint64_t)1000000;

typedef struct pdu {
    uint32_t cs, cts;
    uint64_t time, first; /* the first telegram that it carries, and how many */
    uint8_t count, has_come;
} pdu;

/* One end, and its present incarnation. */
typedef struct side {
    bek_end end;
    bek_settings settings;
    int is_open;
    uint32_t incarnation, partner; /* whose telegrams it takes: an incarnation of the peer, or 0 */
    uint64_t put, taken, confirmed, made, received[CHANNELS], units, resent, beats, requests, answers;
    uint64_t again, next_put; /* when to open it again, and when the application speaks next, in true time */
    uint64_t put_by[64], gone[64]; /* what each of the last incarnations put, and how much of it the peer took */
    uint32_t last_partner;
    uint64_t since;
    pdu pdus[KEPT];
} side;

typedef struct datagram {
    uint64_t due, order;
    uint32_t of, channel; /* the incarnation that made it */
    int to, is_whole;
    size_t length, number;
    uint8_t octets[BEK_DATAGRAM_MAX];
} datagram;

static side sides[2];
static datagram pool[WIRE], *wire[WIRE], *unused[WIRE];
static size_t on_wire, free_places;
static uint64_t truth, seed, order, dead_until[CHANNELS], stalled_until, next_trouble, up_time, troubled_time;
static unsigned long calls, sessions, ended[8], killed, taken_all, put_all, settled, lost, hit, full, fresh, old_most;

#define must(holds, ...)                                                                                                 \
    do {                                                                                                                 \
        if (!(holds)) {                                                                                                  \
            fprintf(stderr, "days: day %lu, second %lu: ", (unsigned long)(truth / DAY), (unsigned long)(truth % DAY / SECOND)); \
            fprintf(stderr, __VA_ARGS__);                                                                                \
            fprintf(stderr, "\n");                                                                                       \
            exit(1);                                                                                                     \
        }                                                                                                                \
    } while (0)

static uint32_t any(void) {
    seed ^= seed << 13, seed ^= seed >> 7, seed ^= seed << 17;
    return (uint32_t)(seed >> 32);
}
static uint32_t below(uint32_t n) { return (uint32_t)((uint64_t)any() * n >> 32); }
static int chance(uint32_t in_a_million) { return below(1000000) < in_a_million; }

/* The clocks: one 250 ppm fast, one 250 ppm slow; they pass 2^32 ms on the second and on the fifth day. */
static uint64_t clock_of(int i) {
    uint64_t begins = ((uint64_t)1 << 32) - (i ? 386 : 130) * (uint64_t)1000000;
    return begins + (i ? truth - truth / 4000 : truth + truth / 4000) / 1000;
}

/* The true time at which a clock shows this time. */
static uint64_t truth_at(int i, uint64_t time) {
    uint64_t shown = clock_of(i);
    return time <= shown ? truth : truth + (time - shown) * 1000 + (i ? (time - shown) / 2 : 0);
}

static uint32_t number_at(const uint8_t *o) { return o[0] | o[1] << 8 | o[2] << 16 | (uint32_t)o[3] << 24; }
static uint32_t short_at(const uint8_t *o) { return (uint32_t)(o[0] | o[1] << 8); }

/* Night and day: telegrams an hour each way, and how many of a million datagrams one channel loses. */
static int is_night(void) { return truth % DAY / HOUR < 6 || truth % DAY / HOUR >= 22; }
static uint32_t loss(void) { return is_night() ? 500 : 5000 + 15000 * (truth / HOUR % 3 == 0); }

/* Writes the telegram with this number of an incarnation, and returns its length. */
static size_t telegram(int i, uint32_t incarnation, uint64_t number, uint8_t *payload) {
    uint32_t mix = (uint32_t)(number * 2654435761u) ^ incarnation * 40503u ^ (uint32_t)i;
    size_t length = 12 + (mix >> 8) % 20 + (mix % 64 == 0 ? LONG : 0), k;
    for (k = 0; k < 4; k++) payload[k] = (uint8_t)(incarnation >> 8 * k);
    for (k = 0; k < 8; k++) payload[4 + k] = (uint8_t)(number >> 8 * k);
    for (k = 12; k < length; k++) payload[k] = (uint8_t)(mix >> k % 25);
    return length;
}

static int is_before(const datagram *a, const datagram *b) { return a->due != b->due ? a->due < b->due : a->order < b->order; }

static void onto_wire(datagram *d) {
    size_t k = on_wire++;
    for (; k > 0 && is_before(d, wire[(k - 1) / 2]); k = (k - 1) / 2) wire[k] = wire[(k - 1) / 2];
    wire[k] = d;
}

static datagram *off_wire(void) {
    datagram *first = wire[0], *last = wire[--on_wire];
    size_t k = 0, next;
    while ((next = 2 * k + 1) < on_wire) {
        if (next + 1 < on_wire && is_before(wire[next + 1], wire[next])) next++;
        if (!is_before(wire[next], last)) break;
        wire[k] = wire[next], k = next;
    }
    wire[k] = last;
    return first;
}

/* Sends a copy of a datagram, some of them with one bit changed. */
static void sends(int i, uint32_t channel, const uint8_t *octets, size_t length, size_t number) {
    datagram *d;
    if (free_places == 0) {
        full++;
        return;
    }
    d = unused[--free_places];
    d->due = truth + 5000 + below(3000) + (chance(20000) ? below(60000) : 0);
    if (d->due < stalled_until) d->due = stalled_until;
    d->order = order++, d->of = sides[i].incarnation, d->channel = channel, d->to = !i, d->length = length, d->number = number, d->is_whole = 1;
    memcpy(d->octets, octets, length);
    if (chance(50)) {
        size_t place = below((uint32_t)length);
        d->octets[place] ^= (uint8_t)(1 << below(8));
        d->is_whole = place < 8; /* the redundancy header has no code */
        hit++;
    }
    onto_wire(d);
}

/* Decodes a datagram that this end made, by the layout of docs/protocol.md, and counts its PDU once. */
static size_t notes(int i, const uint8_t *o, size_t length) {
    side *s = &sides[i];
    const uint8_t *p = o + 8, *unit = p + 28;
    size_t number = number_at(o + 4), left = length - 8 - 28 - 8;
    uint32_t type = short_at(p + 2);
    pdu *m = &s->pdus[number % KEPT];
    must(short_at(o) == length && short_at(p) == length - 8, "lengths of a datagram");
    if (number < s->made) return number;
    must(number == s->made, "redundancy number %lu after %lu", (unsigned long)number, (unsigned long)s->made);
    must(number_at(p + 12) == (uint32_t)(s->settings.first_sn + number) && number_at(p + 20) == (uint32_t)clock_of(i), "sequence number or timestamp");
    s->made++;
    memset(m, 0, sizeof *m);
    m->cs = number_at(p + 16), m->cts = number_at(p + 24), m->time = clock_of(i);
    s->units += type == 6240, s->resent += type == 6241, s->beats += type == 6220, s->requests += type == 6212, s->answers += type == 6213;
    if (type != 6240 && type != 6241) return number;
    while (left > 0) {
        size_t size = short_at(unit), k;
        uint64_t which = 0;
        must(size >= 43 && size + 2 <= left, "a unit");
        if (short_at(unit + 3) >= 0x100) {
            for (k = 0; k < 8; k++) which |= (uint64_t)unit[45 + 4 + k] << 8 * k;
            if (m->count++ == 0) m->first = which;
        }
        unit += size + 2, left -= size + 2;
    }
    return number;
}

/* Whether a PDU with this telegram came, and confirms what end i made less than T_max ago. */
static int is_fresh(int i, uint64_t which) {
    side *own = &sides[i], *peer = &sides[!i];
    uint64_t n, age;
    for (n = peer->made; n-- > 0 && peer->made - n < KEPT;) {
        pdu *q = &peer->pdus[n % KEPT], *base;
        uint64_t at = (uint32_t)(q->cs - own->settings.first_sn);
        if (!q->has_come || which < q->first || which >= q->first + q->count || at >= own->made || own->made - at >= KEPT) continue;
        base = &own->pdus[at % KEPT];
        age = clock_of(i) - base->time;
        if ((uint32_t)base->time != q->cts || age >= T_MAX) continue;
        if (age > old_most) old_most = (unsigned long)age;
        return 1;
    }
    return 0;
}

static void tests_taken(int i, uint16_t kind, const uint8_t *payload, size_t length) {
    side *own = &sides[i], *peer = &sides[!i];
    uint8_t wanted[BEK_PAYLOAD_MAX];
    uint32_t from = number_at(payload);
    must(length >= 12 && kind == 0x0100 + own->taken % 5, "takes a telegram of kind %u and %lu octets", kind, (unsigned long)length);
    if (own->partner == 0) {
        must(from > own->last_partner && from <= peer->incarnation, "takes from an incarnation that was joined before, or was not");
        own->partner = own->last_partner = from;
    }
    must(from == own->partner && peer->incarnation - from < 64 && own->taken < peer->put_by[from % 64], "takes what its partner did not put");
    must(telegram(!i, from, own->taken, wanted) == length && memcmp(payload, wanted, length) == 0, "telegram %lu is not the next one",
         (unsigned long)own->taken);
    must(from != peer->incarnation || is_fresh(i, own->taken), "telegram %lu is not fresh", (unsigned long)own->taken);
    fresh += from == peer->incarnation;
    own->taken++, taken_all++;
    peer->gone[from % 64] = own->taken;
}

static void tests_counts(int i) {
    side *s = &sides[i];
    bek_statistics counts;
    int k;
    must(bek_statistics_of(&s->end, &counts, sizeof counts) == BEK_OK, "statistics");
    for (k = 0; k < CHANNELS; k++) must(counts.channels[k].received == s->received[k], "channel %d: received", k + 1);
    must(counts.units == s->units && counts.resent == s->resent && counts.heartbeats == s->beats && counts.requests == s->requests &&
             counts.answers == s->answers, "counts of PDUs made");
    must(counts.longest_wait < T_MAX && counts.oldest < T_MAX, "an age of T_max");
}

/* After each call: takes and sends what waits, and tests what is confirmed. */
static void drains(int i, int result) {
    side *s = &sides[i];
    uint8_t octets[BEK_DATAGRAM_MAX], payload[BEK_PAYLOAD_MAX];
    uint32_t channel;
    uint64_t count = 0;
    uint16_t kind;
    size_t length;
    calls++;
    must(result == BEK_OK, "a call returns %d", result);
    while (bek_take(&s->end, &kind, payload, sizeof payload, &length) == BEK_OK) tests_taken(i, kind, payload, length);
    while (bek_next_datagram(&s->end, &channel, octets, sizeof octets, &length) == BEK_OK) {
        size_t number = notes(i, octets, length);
        if (dead_until[channel - 1] > truth || chance(loss())) lost++;
        else {
            sends(i, channel, octets, length, number);
            if (chance(2000)) sends(i, channel, octets, length, number);
        }
    }
    must(bek_confirmed(&s->end, &count) == BEK_OK && count >= s->confirmed, "what is confirmed falls from %lu to %lu", (unsigned long)s->confirmed,
         (unsigned long)count);
    s->confirmed = count;
    must(count <= s->gone[s->incarnation % 64], "%lu confirmed, %lu taken", (unsigned long)count, (unsigned long)s->gone[s->incarnation % 64]);
    if (bek_settled(&s->end) == 1) {
        must(count == s->put, "settled, but %lu of %lu are confirmed", (unsigned long)count, (unsigned long)s->put);
        settled++;
    }
}

static void opens(int i) {
    side *s = &sides[i];
    uint32_t first_sn = any() % 2 ? 0xffffffffu - below(20000) : any();
    uint64_t again = s->next_put;
    bek_leaving leaving;
    if (s->is_open) {
        tests_counts(i);
        if (bek_departure(&s->end, &leaving, sizeof leaving) == BEK_OK) ended[leaving.reason & 7]++;
    }
    s->settings.first_sn = first_sn;
    s->incarnation++;
    s->put = s->taken = s->confirmed = s->made = s->units = s->resent = s->beats = s->requests = s->answers = 0;
    s->partner = 0, s->again = 0, s->next_put = again, s->since = truth;
    s->put_by[s->incarnation % 64] = s->gone[s->incarnation % 64] = 0;
    memset(s->received, 0, sizeof s->received);
    if (s->is_open && !chance(300000)) drains(i, bek_reopen(&s->end, first_sn, clock_of(i)));
    else {
        bek_free(&s->end);
        s->is_open = 1;
        drains(i, bek_open(&s->end, &s->settings, clock_of(i)));
    }
}

static void begins(void) {
    int i;
    for (i = 1; i >= 0; i--) {
        bek_settings *s = &sides[i].settings;
        must(bek_settings_init(s, sizeof *s) == BEK_OK, "settings");
        s->side = i ? BEK_FIELD_ELEMENT : BEK_INTERLOCKING;
        s->id = 1 + (uint32_t)i, s->peer_id = 2 - (uint32_t)i, s->protocol = 1, s->channels = CHANNELS, s->version_count = 1, s->versions[0] = 1;
        s->n_sendmax = 4, s->mwa = 3, s->q = Q, s->t_max = T_MAX, s->t_h = 1000, s->t_seq = 70, s->pdu_limit = 20000;
        strcpy(s->name, i ? "FE1" : "IL1");
        strcpy(s->peer_name, i ? "IL1" : "FE1");
        must(bek_rooms(s, &s->telegram_room, &s->datagram_room) == BEK_OK, "rooms");
        opens(i);
    }
}

/* Failing channels, stalls and kills: some in each hour, some in a week. */
static void troubles(void) {
    uint32_t what = below(100), k;
    if (what < 60) dead_until[below(CHANNELS)] = truth + below(300) * SECOND;                       /* one channel */
    else if (what < 80) stalled_until = truth + below(9000) * 1000;                                 /* everything is held back, and then comes at once */
    else if (what < 92) for (k = 0; k < CHANNELS; k++) dead_until[k] = truth + below(20) * SECOND;  /* all channels */
    else if (what < 94) for (k = 0; k < CHANNELS; k++) dead_until[k] = truth + below(1800) * SECOND;
    else killed++, opens((int)below(2));
    next_trouble = truth + 60 * SECOND + below(7200) * SECOND;
    for (k = 0; k < CHANNELS; k++) if (dead_until[k] > truth && what >= 80) troubled_time = dead_until[k] > troubled_time ? dead_until[k] : troubled_time;
    if (stalled_until > troubled_time) troubled_time = stalled_until;
    if (what >= 94) troubled_time = truth;
}

/* The application: single telegrams, by day more, and sometimes a burst. */
static void speaks(int i) {
    side *s = &sides[i];
    uint32_t count = chance(5000) ? 1 + below(40) : 1;
    uint8_t payload[BEK_PAYLOAD_MAX];
    int phase = bek_phase(&s->end);
    s->next_put = truth + 1 + below((is_night() ? 120 : 2) * 1000000);
    if (phase != BEK_ESTABLISHED && !(i == 1 && phase == BEK_INITIALISING)) return;
    while (count-- > 0) {
        size_t length = telegram(i, s->incarnation, s->put, payload);
        int result;
        s->put_by[s->incarnation % 64] = s->put + 1; /* before the call, which may send it */
        result = bek_put(&s->end, (uint16_t)(0x0100 + s->put % 5), payload, length, clock_of(i));
        if (result == BEK_ERR_FULL || result == BEK_ERR_NOT_ESTABLISHED) {
            s->put_by[s->incarnation % 64] = s->put;
            drains(i, BEK_OK);
            return;
        }
        s->put++, put_all++;
        drains(i, result);
    }
}

static void arrives(void) {
    datagram *d = off_wire();
    side *s = &sides[d->to], *maker = &sides[!d->to];
    if (d->is_whole && d->of == maker->incarnation && d->number < maker->made && maker->made - d->number < KEPT) maker->pdus[d->number % KEPT].has_come = 1;
    s->received[d->channel - 1]++;
    drains(d->to, bek_arrive(&s->end, d->channel, d->octets, d->length, clock_of(d->to)));
    unused[free_places++] = d;
}

/* Calls the end whose deadline is reached, finishes the initialisation, and opens again what is stale. */
static void ticks(int i) {
    side *s = &sides[i];
    uint64_t deadline;
    if (bek_next_deadline(&s->end, &deadline) == BEK_OK && deadline <= clock_of(i)) drains(i, bek_tick(&s->end, clock_of(i)));
    if (i == 1 && bek_phase(&s->end) == BEK_INITIALISING) {
        drains(i, bek_init_done(&s->end, clock_of(i)));
        sessions++;
    }
    if (bek_is_stale(&s->end) != 1) s->again = 0;
    else if (s->again == 0) s->again = truth + (i ? 0 : T_MAX / 4 * 1000);
    if (s->again != 0 && s->again <= truth && truth - s->since >= T_MAX / 8 * 1000) opens(i);
}

/* The time of what happens next. */
static uint64_t next(void) {
    uint64_t at = next_trouble, deadline;
    int i;
    if (on_wire > 0 && wire[0]->due < at) at = wire[0]->due;
    for (i = 0; i < 2; i++) {
        side *s = &sides[i];
        if (s->next_put < at) at = s->next_put;
        if (s->again != 0 && s->again < at) at = s->again > s->since + T_MAX / 8 * 1000 ? s->again : s->since + T_MAX / 8 * 1000;
        if (bek_next_deadline(&s->end, &deadline) == BEK_OK && truth_at(i, deadline) < at) at = truth_at(i, deadline);
    }
    return at > truth ? at : truth;
}

/* The pages of memory of this process; 0 if the system does not tell. */
static long size_of_process(void) {
    long whole, resident = 0;
    FILE *file = fopen("/proc/self/statm", "r");
    if (file == NULL) return 0;
    if (fscanf(file, "%ld %ld", &whole, &resident) != 2) resident = 0;
    fclose(file);
    return resident;
}

int main(int argc, char **argv) {
    unsigned long days = argc > 1 ? strtoul(argv[1], NULL, 10) : 7;
    uint64_t at, calm_time = 0, calm_up = 0, still = 0;
    long size = 0;
    int i;
    seed = (argc > 2 ? strtoull(argv[2], NULL, 10) : 1) * 0x9e3779b97f4a7c15u + 1;
    memset(sides, 0, sizeof sides), memset(pool, 0, sizeof pool), memset(wire, 0, sizeof wire); /* so that this test's own pages are there from the start */
    for (free_places = 0; free_places < WIRE; free_places++) unused[free_places] = &pool[free_places];
    begins();
    while (truth < days * DAY) {
        int is_up = bek_phase(&sides[0].end) == BEK_ESTABLISHED && bek_phase(&sides[1].end) == BEK_ESTABLISHED;
        at = next();
        if (truth > troubled_time + 30 * SECOND) calm_time += at - truth, calm_up += is_up ? at - truth : 0;
        up_time += is_up ? at - truth : 0;
        still = at == truth ? still + 1 : 0;
        must(still < 100000, "the ends have work without an end");
        truth = at;
        if (truth >= next_trouble) troubles();
        while (on_wire > 0 && wire[0]->due <= truth) arrives();
        for (i = 0; i < 2; i++) {
            if (sides[i].next_put <= truth) speaks(i);
            ticks(i);
        }
        if (size == 0 && truth > 6 * HOUR) size = size_of_process();
    }
    for (i = 0; i < 2; i++) tests_counts(i);
    printf("%lu days, %lu calls: %lu sessions, both ends established %.3f of the time, outside outages %.4f; %lu telegrams put, %lu taken, each the next "
           "one, %lu seen to be fresh, the oldest of %lu ms; %lu times settled; ended by reason: %lu by 3 (T_max), %lu by 7 (limit), %lu by others; %lu kills; "
           "datagrams lost %lu, damaged %lu\n", days, calls, sessions, (double)up_time / (double)truth, (double)calm_up / (double)(calm_time ? calm_time : 1),
           put_all, taken_all, fresh, old_most, settled, ended[3], ended[7], ended[0] + ended[1] + ended[2] + ended[4] + ended[5] + ended[6], killed, lost, hit);
    must(sessions > days && ended[3] > 0 && ended[7] > 0, "too little happened");
    must(calm_up > calm_time / 100 * 99, "not connected, though the network is well");
    must(taken_all > put_all / 100 * 99, "too little is taken");
    must(fresh > taken_all / 100 * 99, "freshness is seldom seen");
    must(size_of_process() <= size + 64, "the process has grown from %ld to %ld pages", size, size_of_process());
    for (i = 0; i < 2; i++) bek_free(&sides[i].end);
    return 0;
}
