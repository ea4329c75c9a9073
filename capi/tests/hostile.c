/* Runs two ends over a network that loses, repeats, reorders, damages, truncates and delays datagrams, with crashes and reopenings. A checker that
 * decodes the datagrams itself tests for each telegram taken: it is the next one that the peer put (prefix); a PDU that carried it
 * arrived, and confirms a PDU that this end made less than T_max ago (freshness). It also tests that bek_confirmed never counts more than the
 * peer has taken, that bek_settled means that all was taken, and that a tick before the deadline does nothing.
 *     hostile [EVENTS [SEED]]
 * Each end drains after each call, and with the rooms of bek_rooms no call is BEK_UNSENT. */
#include "bekwidas.h"

#include <stdio.h>
#include <stdlib.h>
#include <string.h>

enum { WIRE = 2048, KINDS = 1024 };

static uint64_t seed;
static uint32_t any(void) {
    seed ^= seed << 13;
    seed ^= seed >> 7;
    seed ^= seed << 17;
    return (uint32_t)(seed >> 32);
}
static uint32_t below(uint32_t n) { return n != 0 ? any() % n : 0; }
static int chance(uint32_t permille) { return below(1000) < permille; }

/* A PDU that an end made, decoded from its octets: it carries the telegrams `first` to `first + count - 1`. */
typedef struct pdu {
    uint32_t sn, cs, ts, cts;
    uint64_t time;
    size_t first, count;
    int arrived;
} pdu;

typedef struct telegram {
    uint16_t kind;
    size_t length;
    uint32_t sum;
} telegram;

/* One opening of an end. */
typedef struct opening {
    int side;
    unsigned long from, until; /* the first and the last event while it was open */
    uint32_t number, first_sn;
    pdu *made;
    size_t made_count, made_room;
    telegram *put;
    size_t put_count, put_room, taken;
    struct opening *peer;  /* whose telegrams it takes */
    struct opening *taker; /* who takes its telegrams */
    struct opening *next;  /* in the list of all kept */
} opening;

typedef struct datagram {
    int to, is_damaged;
    opening *of;
    uint32_t channel;
    size_t length, pdu;
    uint64_t due;
    uint8_t *octets;
} datagram;

static datagram wire[WIRE];
static size_t on_wire;
static bek_end ends[2];
static opening *current[2], *all;
static bek_settings settings[2];
static uint64_t truth = 1, offset[2], skew[2], last[2];
static uint32_t openings;
static unsigned long events, taken, fresh, settled, counted, established, closed, refused, damaged, lost, repeated, retransmissions;

#define must(holds, ...)                                 \
    do {                                                 \
        if (!(holds)) {                                  \
            fprintf(stderr, "hostile: event %lu: ", events); \
            fprintf(stderr, __VA_ARGS__);                \
            fprintf(stderr, "\n");                       \
            abort();                                     \
        }                                                \
    } while (0)

/* The clock of an end: it starts anywhere, runs a little too fast, and never decreases. */
static uint64_t now(int i) {
    uint64_t t = offset[i] + truth + truth * skew[i] / 100000;
    if (t < last[i]) t = last[i];
    last[i] = t;
    return t;
}

static uint32_t number_at(const uint8_t *o) { return o[0] | o[1] << 8 | o[2] << 16 | (uint32_t)o[3] << 24; }
static uint32_t short_at(const uint8_t *o) { return (uint32_t)(o[0] | o[1] << 8); }

static uint32_t sum_of(const uint8_t *octets, size_t length) {
    uint32_t sum = 2166136261u;
    while (length-- > 0) sum = (sum ^ *octets++) * 16777619u;
    return sum;
}

static void *grown(void *row, size_t count, size_t *room, size_t size) {
    if (count < *room) return row;
    *room = *room != 0 ? 2 * *room : 64;
    row = realloc(row, *room * size);
    must(row != NULL, "memory of the test");
    return row;
}

/* Returns the place of a telegram from its message type, which has the low bits; the place is near those sent before. */
static size_t place_of(uint16_t kind, size_t near_) {
    size_t place = near_ - near_ % KINDS + kind % KINDS;
    if (place > near_ + KINDS / 2 && place >= KINDS) return place - KINDS;
    return place + KINDS / 2 < near_ ? place + KINDS : place;
}

/* Decodes a datagram that end i sent, by the layout of docs/protocol.md, and records the PDU. Copies on other channels have the same number. */
static size_t note(int i, const uint8_t *o, size_t length, uint64_t at) {
    opening *c = current[i];
    const uint8_t *p = o + 8, *unit;
    size_t left, number = number_at(o + 4);
    uint32_t type;
    pdu *m;
    must(length >= 44 && short_at(o) == length && short_at(p) == length - 8, "lengths of a datagram");
    if (number < c->made_count) return number;
    must(number == c->made_count, "redundancy number %lu after %lu", (unsigned long)number, (unsigned long)c->made_count);
    must(number_at(p + 4) == settings[i].peer_id && number_at(p + 8) == settings[i].id, "identifiers");
    c->made = grown(c->made, c->made_count, &c->made_room, sizeof *c->made);
    m = &c->made[c->made_count++];
    memset(m, 0, sizeof *m);
    m->sn = number_at(p + 12), m->cs = number_at(p + 16), m->ts = number_at(p + 20), m->cts = number_at(p + 24), m->time = at;
    must(m->sn == (uint32_t)(c->first_sn + number) && m->ts == (uint32_t)at, "sequence number or timestamp");
    type = short_at(p + 2);
    retransmissions += type == 6212;
    if (type != 6240 && type != 6241) return number;
    unit = p + 28;
    left = length - 8 - 28 - settings[i].code;
    while (left > 0) {
        size_t size = short_at(unit);
        uint16_t kind = (uint16_t)short_at(unit + 3);
        must(size >= 43 && size + 2 <= left, "a unit");
        if (kind & 0x8000) {
            size_t k = place_of(kind, c->put_count);
            must(k < c->put_count && c->put[k].kind == kind && c->put[k].length == size - 43 && c->put[k].sum == sum_of(unit + 45, size - 43),
                 "sends what was not put");
            if (m->count == 0) m->first = k;
            must(k == m->first + m->count, "telegrams out of order in a unit");
            m->count++;
        }
        unit += size + 2;
        left -= size + 2;
    }
    return number;
}

static uint32_t p_loss, p_repeat, p_damage, p_delay, longest, p_cut;

static void weather(void) {
    static const uint32_t kinds[7][6] = {{0, 0, 0, 0, 0, 0},        {10, 10, 5, 20, 20, 1}, {100, 50, 20, 100, 60, 5}, {20, 300, 0, 300, 300, 0},
                                         {5, 5, 100, 5, 5, 20}, {400, 0, 0, 0, 0, 0},   {2, 2, 2, 2, 2000, 0}};
    const uint32_t *w = kinds[below(7)];
    p_loss = w[0], p_repeat = w[1], p_damage = w[2], p_delay = w[3], longest = w[4], p_cut = w[5];
}

/* A copy of exact length, so that a sanitizer sees each read after it. */
static void onto(int to, opening *of, uint32_t channel, const uint8_t *octets, size_t length, size_t number) {
    datagram *d = &wire[on_wire];
    size_t kept = chance(p_cut) ? below((uint32_t)length) : length;
    if (on_wire == WIRE) return;
    on_wire++;
    d->to = to, d->of = of, d->channel = channel, d->length = kept, d->pdu = number;
    d->octets = malloc(kept != 0 ? kept : 1);
    must(d->octets != NULL, "memory of the test");
    memcpy(d->octets, octets, kept);
    if (kept > 0 && chance(p_damage)) {
        uint32_t bits = 1 + below(3);
        while (bits-- > 0) d->octets[below((uint32_t)kept)] ^= (uint8_t)(1 << below(8));
    }
    /* the redundancy header has no code: with another number the PDU in it is taken all the same */
    d->is_damaged = kept != length || memcmp(d->octets + 8, octets + 8, length - 8) != 0;
    damaged += d->is_damaged != 0;
    d->due = truth + below(2) + (chance(p_delay) ? below(longest + 1) : 0);
}

/* Whether the telegram at this place came in a PDU that arrived and confirms a PDU that end i made less than T_max ago. */
static void must_be_fresh(int i, size_t place, uint64_t at) {
    opening *c = current[i], *y = c->peer;
    size_t m;
    for (m = y->made_count; m-- > 0 && y->made_count - m < 8000;) {
        pdu *q = &y->made[m];
        uint32_t base = q->cs - c->first_sn;
        if (q->count == 0 || place < q->first || place >= q->first + q->count || !q->arrived) continue;
        if (base >= c->made_count || (uint32_t)c->made[base].time != q->cts) continue;
        if (c->made[base].time + settings[i].t_max > at) return;
    }
    must(0, "telegram %lu is not fresh", (unsigned long)place);
}

/* Finds the opening of the other side whose first telegram this one takes: its part may have been deferred while that side reopened. */
static opening *taken_from(const opening *c, uint16_t kind) {
    opening *o;
    for (o = all; o != NULL; o = o->next)
        if (o->side != c->side && o->until >= c->from && o->taker == NULL && o->put_count > 0 && o->put[0].kind == kind) return o;
    return NULL;
}

static void drain(int i, uint64_t at) {
    uint8_t octets[BEK_DATAGRAM_MAX], payload[BEK_PAYLOAD_MAX];
    opening *c = current[i];
    uint32_t channel;
    uint64_t confirmed_time;
    uint16_t kind;
    size_t length;
    int result;
    while ((result = bek_next_datagram(&ends[i], &channel, octets, sizeof octets, &length)) == BEK_OK) {
        size_t number = note(i, octets, length, at);
        must(channel >= 1 && channel <= settings[i].channels, "channel");
        if (chance(p_loss)) {
            lost++;
            continue;
        }
        onto(!i, c, channel, octets, length, number);
        if (!chance(p_repeat)) continue;
        repeated++;
        onto(!i, c, channel, octets, length, number);
    }
    must(result == BEK_NOTHING, "next_datagram %d", result);
    while ((result = bek_take(&ends[i], &kind, payload, sizeof payload, &length)) == BEK_OK) {
        if (c->peer == NULL) {
            opening *y = taken_from(c, kind);
            must(y != NULL, "takes telegrams of another opening");
            c->peer = y;
            y->taker = c;
        }
        must(c->taken < c->peer->put_count, "takes what was not put");
        must(c->peer->put[c->taken].kind == kind && c->peer->put[c->taken].length == length && c->peer->put[c->taken].sum == sum_of(payload, length),
             "telegram %lu is not the next one", (unsigned long)c->taken);
        must_be_fresh(i, c->taken, at);
        must(bek_confirmed_time(&ends[i], &confirmed_time) == BEK_OK, "confirmed_time");
        c->taken++;
        taken++;
        fresh++;
    }
    must(result == BEK_NOTHING, "take %d", result);
}

/* Tests that the telegrams an end reports as certain were taken; all of them, if it is settled. */
static void test_certain(int i) {
    opening *c = current[i];
    size_t by_peer = c->taker != NULL ? c->taker->taken : 0;
    uint64_t count = 0;
    int is = bek_settled(&ends[i]);
    if (is < 0) return;
    must(bek_confirmed(&ends[i], &count) == BEK_OK && count <= by_peer, "%lu are certain, but %lu taken", (unsigned long)count, (unsigned long)by_peer);
    counted++;
    if (is != 1) return;
    settled++;
    must(bek_state(&ends[i]) != BEK_CLOSED && by_peer == c->put_count && count == by_peer, "settled, but not all was taken");
}

/* Tests that there is a departure if and only if the end is closed, and that it does not change. */
static void test_departure(int i) {
    bek_leaving leaving;
    char text[200];
    int is = bek_departure(&ends[i], &leaving, sizeof leaving);
    if (bek_state(&ends[i]) != BEK_CLOSED) must(is == BEK_NOTHING, "a departure of an open end");
    else {
        must(is == BEK_OK && leaving.time <= last[i] && (leaving.by == BEK_BY_OWN || leaving.by == BEK_BY_PEER), "no departure of a closed end");
        must(leaving.reason < 8 && bek_leaving_text(&leaving, text, sizeof text) == strlen(text), "the departure");
    }
}

static void judge(int result) {
    must(result != BEK_UNSENT, "BEK_UNSENT in the rooms of bek_rooms");
    must(result != BEK_ERR_LOST && result != BEK_ERR_TAKE_FIRST && result != BEK_ERR_SEND_FIRST, "%d to a caller that drains", result);
    refused += result < 0;
}

static int is_needed(opening *o) {
    size_t k;
    for (k = 0; k < 2; k++)
        if (current[k] != NULL && (current[k] == o || current[k]->peer == o || current[k]->taker == o || o->until >= current[k]->from)) return 1;
    for (k = 0; k < on_wire; k++)
        if (wire[k].of == o) return 1;
    return 0;
}

/* Frees the openings that nothing refers to. */
static void tidy(void) {
    opening **at = &all;
    while (*at != NULL) {
        opening *o = *at;
        if (is_needed(o)) {
            at = &o->next;
            continue;
        }
        *at = o->next;
        free(o->made);
        free(o->put);
        free(o);
    }
}

/* Opens an end again. Datagrams under way are lost: the promises are for datagrams of one connection. */
static void opens(int i) {
    opening *c = calloc(1, sizeof *c);
    uint64_t at;
    must(c != NULL, "memory of the test");
    bek_free(&ends[i]);
    while (on_wire > 0) free(wire[--on_wire].octets);
    c->number = openings++;
    c->first_sn = chance(200) ? 0xfffffff0u + below(16) : any();
    c->side = i;
    c->from = events;
    c->until = (unsigned long)-1;
    if (current[i] != NULL) current[i]->until = events;
    c->next = all;
    all = c;
    current[i] = c;
    settings[i].first_sn = c->first_sn;
    if (chance(300)) offset[i] = ((uint64_t)(1 + below(3)) << 32) - below(20000); /* near and above 2^32 */
    last[i] = 0;
    at = now(i);
    must(bek_open(&ends[i], &settings[i], at) == BEK_OK, "open");
    events++;
    drain(i, at);
    tidy();
}

static void draws_settings(void) {
    uint32_t code = chance(300) ? 16 : 8, channels = 1 + below(4), field;
    uint8_t iv[16];
    int i, k, is_own = chance(500);
    char text[120];
    for (k = 0; k < 16; k++) iv[k] = (uint8_t)any();
    for (i = 0; i < 2; i++) {
        bek_settings *s = &settings[i];
        must(bek_settings_init(s, sizeof *s) == BEK_OK, "settings");
        s->side = i ? BEK_FIELD_ELEMENT : BEK_INTERLOCKING;
        s->id = 1 + (uint32_t)i;
        s->peer_id = 2 - (uint32_t)i;
        s->protocol = 1;
        s->code = code;
        s->channels = channels;
        if (is_own) memcpy(s->initial_value, iv, 16);
        s->n_sendmax = 1 + below(32);
        s->n_maxpacket = 1 + below(3);
        s->q = 1 + below(8);
        s->t_max = 300 + below(4000);
        s->t_h = 10 + below(s->t_max / 3);
        s->t_seq = 10 + below(200);
        s->mwa = 1 + below(s->n_sendmax < 16 ? s->n_sendmax : 16);
        if (chance(50)) s->pdu_limit = 100 + below(1000);
        s->version_count = 1;
        s->versions[0] = 1;
        strcpy(s->name, i ? "FE1" : "IL1");
        strcpy(s->peer_name, i ? "IL1" : "FE1");
        must(bek_rooms(s, &s->telegram_room, &s->datagram_room) == BEK_OK, "rooms");
        must(bek_settings_fault(s, &field, text, sizeof text) >= 0, "%s", text);
    }
}

/* Puts random telegrams; their message types encode the opening and the place. */
static void puts_some(int i, uint64_t at) {
    uint32_t burst = chance(100) ? below(80) : chance(300) ? 1 : 0;
    int phase = bek_phase(&ends[i]);
    static int was_refused[2];
    if ((was_refused[i] || (phase != BEK_ESTABLISHED && phase != BEK_INITIALISING)) && !chance(20)) return;
    was_refused[i] = 0;
    while (burst-- > 0) {
        opening *c = current[i];
        size_t length = chance(200) ? below(BEK_PAYLOAD_MAX + 1) : below(40), k;
        uint8_t *payload = malloc(length != 0 ? length : 1);
        uint16_t kind = (uint16_t)(0x8000 | (c->number & 31) << 10 | c->put_count % KINDS);
        int result;
        must(payload != NULL, "memory of the test");
        for (k = 0; k < length; k++) payload[k] = (uint8_t)any();
        c->put = grown(c->put, c->put_count, &c->put_room, sizeof *c->put);
        c->put[c->put_count].kind = kind;
        c->put[c->put_count].length = length;
        c->put[c->put_count].sum = sum_of(payload, length);
        c->put_count++; /* before the call, since the call may send it */
        result = bek_put(&ends[i], kind, length != 0 || chance(500) ? payload : NULL, length, at);
        free(payload);
        events++;
        judge(result);
        if (result < 0) c->put_count--;
        drain(i, at);
        test_certain(i);
        if (result < 0) {
            was_refused[i] = 1;
            return;
        }
    }
}

/* Ticks: before the deadline a tick does nothing. */
static void ticks(int i) {
    uint64_t at = now(i), deadline = 0;
    int is = bek_next_deadline(&ends[i], &deadline), result, state, phase;
    bek_counts before, after;
    must(is == BEK_OK || is == BEK_NOTHING, "next_deadline %d", is);
    if (is == BEK_NOTHING) must(bek_state(&ends[i]) == BEK_CLOSED || bek_state(&ends[i]) == BEK_DOWN, "no deadline, but connected");
    if ((is == BEK_NOTHING || deadline > at) && chance(960)) return;
    state = bek_state(&ends[i]), phase = bek_phase(&ends[i]);
    must(bek_counts_of(&ends[i], &before, sizeof before) == BEK_OK, "counts");
    result = bek_tick(&ends[i], at);
    events++;
    judge(result);
    must(bek_counts_of(&ends[i], &after, sizeof after) == BEK_OK, "counts");
    if (is == BEK_NOTHING || deadline > at)
        must(result == BEK_OK && state == bek_state(&ends[i]) && phase == bek_phase(&ends[i]) && before.datagrams == after.datagrams &&
                 before.telegrams == after.telegrams,
             "a tick before the deadline did something");
    drain(i, at);
    test_certain(i);
}

static void arrives(size_t k) {
    datagram d = wire[k];
    int i = d.to;
    uint64_t at = now(i);
    wire[k] = wire[--on_wire];
    if (!d.is_damaged && d.of == current[!i]) d.of->made[d.pdu].arrived = 1;
    judge(bek_arrive(&ends[i], chance(20) ? any() : d.channel, d.octets, d.length, at));
    events++;
    free(d.octets);
    drain(i, at);
    test_certain(i);
}

int main(int argc, char **argv) {
    unsigned long times = argc > 1 ? strtoul(argv[1], NULL, 10) : 1000000, next_weather = 0, next_settings = 0;
    int i;
    seed = (argc > 2 ? strtoull(argv[2], NULL, 10) : 1) * 0x9e3779b97f4a7c15u + 1;
    while (events < times) {
        size_t k;
        if (events >= next_settings) {
            draws_settings();
            next_settings = events + 20000 + below(40000);
            opens(1);
            opens(0);
            for (i = 0; i < 2; i++) skew[i] = below(3) ? 0 : below(500);
        }
        if (events >= next_weather) {
            weather();
            next_weather = events + 2000 + below(6000);
        }
        truth += below(4);
        if (chance(2)) truth += below(1500);
        for (i = 0; i < 2; i++) {
            test_departure(i);
            if (bek_is_stale(&ends[i]) != 1 || !chance(300)) continue;
            closed++;
            opens(i);
        }
        if (below(10000) == 0) opens((int)below(2)); /* a crash */
        for (k = 0; k < on_wire; k++) {
            if (wire[k].due > truth) continue;
            arrives(k--);
            if (chance(300)) break;
        }
        for (i = 0; i < 2; i++) {
            uint64_t at;
            ticks(i);
            at = now(i);
            if (i == 1 && bek_phase(&ends[1]) == BEK_INITIALISING && chance(100)) {
                int result = bek_init_done(&ends[1], at);
                events++;
                judge(result);
                established += result >= 0;
                drain(1, at);
            }
            puts_some(i, at);
            if (below(20000) == 0) {
                judge(bek_close(&ends[i], at));
                events++;
                drain(i, at);
            }
        }
    }
    printf("%lu events: %u openings, %lu after an end, %lu established; %lu telegrams taken, each the next one and fresh; %lu times settled, %lu times counted; "
           "%lu refusals; datagrams lost %lu, repeated %lu, damaged %lu; %lu retransmissions requested\n",
           events, openings, closed, established, taken, settled, counted, refused, lost, repeated, damaged, retransmissions);
    fflush(stdout);
    must(fresh == taken && taken > times / 100 && settled > 0 && established > 0, "too little happened");
    for (i = 0; i < 2; i++) {
        bek_free(&ends[i]);
        current[i] = NULL;
    }
    while (on_wire > 0) free(wire[--on_wire].octets);
    tidy();
    return 0;
}
