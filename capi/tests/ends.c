/* Two ends with 1 to 4 channels, each code, and times around 2^32: telegrams of every message type and length arrive whole, the longest datagram is made,
 * a run is driven by deadlines only, the departure and the certain telegrams are correct, and notes say what the end counts. */
#include "bekwidas.h"

#include <stdio.h>
#include <stdlib.h>
#include <string.h>

static const char *at = "";
static void must_at(int holds, int line, const char *what) {
    if (holds) return;
    fprintf(stderr, "ends: line %d: %s (%s)\n", line, what, at);
    exit(1);
}
#define must(holds) must_at((holds) != 0, __LINE__, #holds)

static bek_end il = BEK_END_INIT, fe = BEK_END_INIT;
static uint64_t now;
static uint32_t channels, code, seen[5], is_wise;
static size_t longest;
static struct {
    uint16_t kind;
    size_t length;
    uint8_t payload[BEK_PAYLOAD_MAX];
} last;
static unsigned long taken;

static bek_settings settings(uint32_t side) {
    bek_settings s;
    must(bek_settings_init(&s, sizeof s) == BEK_OK);
    s.side = side;
    s.id = side;
    s.peer_id = 3 - side;
    s.protocol = 1;
    s.channels = channels;
    s.code = code;
    s.version_count = 1;
    s.versions[0] = 1;
    s.first_sn = 0xfffffff0u;
    if (is_wise) s.n_sendmax = 7, s.mwa = 3, s.q = 8; /* so that a lost datagram does not overrun the queue of early ones */
    strcpy(s.name, side == 1 ? "IL1" : "FE1");
    strcpy(s.peer_name, side == 1 ? "FE1" : "IL1");
    must(bek_rooms(&s, &s.telegram_room, &s.datagram_room) == BEK_OK && s.telegram_room == 27 && s.datagram_room == 333 * channels);
    return s;
}

static void take_all(bek_end *end) {
    while (bek_take(end, &last.kind, last.payload, sizeof last.payload, &last.length) == BEK_OK) taken++;
}

/* Takes the datagrams that one end made, and delivers them to the other if `arrives`. */
static int carry(bek_end *from, bek_end *to, int arrives) {
    uint8_t octets[BEK_DATAGRAM_MAX];
    uint32_t channel;
    size_t length;
    int some = 0;
    while (bek_next_datagram(from, &channel, octets, sizeof octets, &length) == BEK_OK) {
        must(channel >= 1 && channel <= channels);
        seen[channel]++;
        if (length > longest) longest = length;
        if (!arrives) continue;
        must(bek_arrive(to, channel, octets, length, now) == BEK_OK);
        take_all(to);
        some = 1;
    }
    return some;
}

static void both(int arrives) {
    while (carry(&il, &fe, arrives) | carry(&fe, &il, arrives)) {}
}

static void establishes(uint64_t start) {
    bek_settings a = settings(BEK_INTERLOCKING), b = settings(BEK_FIELD_ELEMENT);
    uint64_t deadline = 5;
    now = start;
    must(bek_open(&fe, &b, now) == BEK_OK && bek_open(&il, &a, now) == BEK_OK);
    must(bek_next_deadline(&fe, &deadline) == BEK_NOTHING && deadline == 5);
    must(bek_is_stale(&fe) == 0 && bek_is_stale(&il) == 0);
    both(1);
    must(bek_phase(&fe) == BEK_INITIALISING && bek_init_done(&fe, now) == BEK_OK);
    both(1);
    must(bek_phase(&il) == BEK_ESTABLISHED && bek_phase(&fe) == BEK_ESTABLISHED && bek_state(&il) == BEK_UP);
}

/* One telegram each way of every length, with message types over all 16 bits. */
static void telegrams(void) {
    uint8_t payload[BEK_PAYLOAD_MAX + 1];
    uint64_t count = 0;
    size_t length, k;
    uint16_t kind = 0x0026;
    for (length = 0; length <= BEK_PAYLOAD_MAX + 1; length++) {
        unsigned long was = taken;
        uint16_t other = (uint16_t)(0xffff - kind);
        for (k = 0; k < length; k++) payload[k] = (uint8_t)(k * 7 + length);
        if (length > BEK_PAYLOAD_MAX) {
            must(bek_put(&il, kind, payload, length, now) == BEK_ERR_TOO_LONG);
            break;
        }
        must(bek_put(&il, kind, payload, length, now) == BEK_OK);
        both(1);
        must(taken == was + 1 && last.kind == kind && last.length == length && memcmp(last.payload, payload, length) == 0);
        must(bek_put(&fe, other, payload, length, now) == BEK_OK);
        both(1);
        must(taken == was + 2 && last.kind == other && last.length == length && memcmp(last.payload, payload, length) == 0);
        kind = (uint16_t)(kind + 0x0b7);
    }
    for (k = 0x0021; k <= 0x0025; k++) must(bek_put(&il, (uint16_t)k, payload, 1, now) == BEK_ERR_RESERVED_KIND);
    must(bek_put(&il, 0xffff, payload, 1, now) == BEK_OK && bek_put(&il, 0x8000, payload, 1, now) == BEK_OK);
    both(1);
    must(last.kind == 0x8000 && bek_confirmed(&il, &count) == BEK_OK && count <= BEK_PAYLOAD_MAX + 3);
    for (k = 0; k < 3; k++) {
        now += 300;
        must(bek_tick(&il, now) == BEK_OK && bek_tick(&fe, now) == BEK_OK);
        both(1);
    }
    must(bek_settled(&il) == 1 && bek_confirmed(&il, &count) == BEK_OK && count == BEK_PAYLOAD_MAX + 3);
    must(bek_confirmed(&fe, &count) == BEK_OK && count == BEK_PAYLOAD_MAX + 1);
}

/* What `to` counts when everything that `from` made has come on every channel, undisturbed: each PDU passes on one channel and is old on the others. */
static void counts(const bek_end *from, const bek_end *to) {
    bek_statistics made, came;
    uint64_t passed = 0, old = 0, pdus;
    uint32_t c;
    must(bek_statistics_of(from, &made, sizeof made) == BEK_OK && bek_statistics_of(to, &came, sizeof came) == BEK_OK);
    pdus = 1 + made.units + made.heartbeats; /* one PDU opened the connection */
    for (c = 0; c < BEK_CHANNELS_MAX; c++) {
        const bek_reception *r = &came.channels[c];
        must(c < channels ? r->received == pdus && r->last <= now && r->last + 300 >= now : r->received == 0 && r->last == BEK_NEVER);
        must(r->passed + r->old == r->received && r->deferred + r->repeated + r->far + r->full + r->damaged == 0);
        passed += r->passed;
        old += r->old;
    }
    must(passed == pdus && old == pdus * (channels - 1) && came.taken == pdus);
    must(came.gaps + came.damaged + came.strangers + came.unopened + came.far + came.unrequested + came.answered + came.below == 0);
    must(made.resent + made.requests + made.answers == 0 && made.units > 100 && made.heartbeats > 0 && made.confirmed == made.units);
    must(came.oldest < 1800 && came.longest_wait >= 300 && came.longest_wait < 1800);
}

/* Units of three messages of the greatest length make the longest datagram; a full queue is reported. */
static void longest_datagrams(void) {
    uint8_t payload[BEK_PAYLOAD_MAX] = {0};
    int put = 0, result;
    longest = 0;
    while ((result = bek_put(&il, 0x0100, payload, sizeof payload, now)) == BEK_OK) {
        put++;
        carry(&il, &fe, 1); /* nothing comes back: the window fills, and waiting telegrams are packed by threes */
    }
    must(result == BEK_ERR_FULL && put >= 64);
    taken = 0;
    both(1);
    now += 300;
    must(bek_tick(&il, now) == BEK_OK && bek_tick(&fe, now) == BEK_OK);
    both(1);
    must(longest == (size_t)(BEK_DATAGRAM_MAX - 16) + code);
}

/* Time advances only to deadlines: the connection lives for 300 of them; then nothing arrives, and both ends disconnect after T_max. */
static void deadlines(void) {
    bek_leaving leaving;
    uint64_t a, b, confirmed;
    char text[200];
    int n;
    for (n = 0; n < 300; n++) {
        must(bek_next_deadline(&il, &a) == BEK_OK && bek_next_deadline(&fe, &b) == BEK_OK);
        if (b < a) a = b;
        must(a >= now && a <= now + 300);
        now = a;
        must(bek_tick(&il, now) == BEK_OK && bek_tick(&fe, now) == BEK_OK);
        both(1);
    }
    must(bek_state(&il) == BEK_UP && bek_state(&fe) == BEK_UP);
    must(bek_departure(&il, &leaving, sizeof leaving) == BEK_NOTHING);
    must(bek_confirmed_time(&il, &confirmed) == BEK_OK && confirmed <= now && confirmed + 1800 > now);
    while (bek_state(&il) != BEK_CLOSED) {
        must(bek_next_deadline(&il, &a) == BEK_OK && a >= now && a <= confirmed + 1800);
        now = a;
        must(bek_tick(&il, now) == BEK_OK);
        both(0);
    }
    must(now == confirmed + 1800);
    must(bek_departure(&il, &leaving, sizeof leaving) == BEK_OK && leaving.by == BEK_BY_OWN && leaving.reason == 3 && leaving.detail == 0 && leaving.time == now);
    must(bek_leaving_text(&leaving, text, sizeof text) > 0 && strncmp(text, "by this end, reason 3 (timeout", 30) == 0);
    must(bek_next_deadline(&il, &a) == BEK_OK && a == now + 1800 / 4 && bek_is_stale(&il) == 0 && bek_settled(&il) == 0);
    now = a - 1;
    must(bek_tick(&il, now) == BEK_OK && bek_next_deadline(&il, &b) == BEK_OK && b == a && bek_is_stale(&il) == 0);
    now = a;
    must(bek_tick(&il, now) == BEK_OK && bek_next_deadline(&il, &b) == BEK_NOTHING && bek_is_stale(&il) == 1);
}

/* The peer closes: the other end reports the reason. */
static void closes(void) {
    bek_leaving leaving;
    now++;
    must(bek_close(&il, now) == BEK_OK);
    both(1);
    must(bek_departure(&il, &leaving, sizeof leaving) == BEK_OK && leaving.by == BEK_BY_OWN && leaving.reason == 0);
    must(bek_departure(&fe, &leaving, sizeof leaving) == BEK_OK && leaving.by == BEK_BY_PEER && leaving.reason == 0 && leaving.time == now);
    must(bek_is_stale(&fe) == 0 && bek_close(&fe, now) == BEK_OK && bek_put(&fe, 1, NULL, 0, now) == BEK_ERR_NOT_ESTABLISHED);
    now += 1800 / 8 - 1; /* since it was opened */
    must(bek_tick(&fe, now) == BEK_OK && bek_is_stale(&fe) == 1);
    must(bek_reopen(&fe, 7, now) == BEK_OK && bek_departure(&fe, &leaving, sizeof leaving) == BEK_OK && leaving.by == BEK_BY_PEER && leaving.reason == 0);
}

/* What each version and checksum of a field element with two versions is agreed on: both ends say the same, and only from the version check on. */
static void agrees(void) {
    bek_settings a = settings(BEK_INTERLOCKING), b = settings(BEK_FIELD_ELEMENT);
    bek_agreement of_il, of_fe, none;
    uint8_t zeros[BEK_CHECKSUM_MAX] = {0};
    uint32_t n, version;
    for (version = 1; version <= 2; version++) {
        for (n = 0; n <= BEK_CHECKSUM_MAX; n++) {
            a.versions[0] = (uint8_t)version;
            b.version_count = 2;
            b.versions[1] = 2;
            b.checksum_length = n;
            memset(b.checksum, (int)(0x50 + n), n);
            memset(&none, 0x77, sizeof none);
            must(bek_open(&fe, &b, now) == BEK_OK && bek_open(&il, &a, now) == BEK_OK);
            of_il = of_fe = none;
            must(bek_agreed(&il, &of_il, sizeof of_il) == BEK_NOTHING && bek_agreed(&fe, &of_fe, sizeof of_fe) == BEK_NOTHING);
            must(memcmp(&of_il, &none, sizeof none) == 0 && memcmp(&of_fe, &none, sizeof none) == 0);
            both(1);
            must(bek_phase(&fe) == BEK_INITIALISING && bek_agreed(&fe, &of_fe, sizeof of_fe) == BEK_OK && of_fe.version == version);
            must(of_fe.checksum_length == n && memcmp(of_fe.checksum, b.checksum, n) == 0);
            must(memcmp(of_fe.checksum + n, zeros, BEK_CHECKSUM_MAX - n) == 0);
            must(bek_init_done(&fe, now) == BEK_OK);
            both(1);
            must(bek_phase(&il) == BEK_ESTABLISHED && bek_agreed(&il, &of_il, sizeof of_il) == BEK_OK && memcmp(&of_il, &of_fe, sizeof of_il) == 0);
            must(bek_close(&il, now) == BEK_OK && bek_agreed(&il, &of_fe, sizeof of_fe) == BEK_OK && memcmp(&of_il, &of_fe, sizeof of_il) == 0);
            must(bek_reopen(&il, 7, now) == BEK_OK && bek_agreed(&il, &of_fe, sizeof of_fe) == BEK_NOTHING);
            bek_free(&il);
            bek_free(&fe);
        }
    }
}

/* The versions differ: the interlocking disconnects, and knows the field element's version. */
static void versions(void) {
    bek_settings a = settings(BEK_INTERLOCKING), b = settings(BEK_FIELD_ELEMENT);
    bek_leaving leaving;
    bek_agreement agreement;
    uint32_t field;
    char text[200];
    b.versions[0] = 9;
    must(bek_settings_fault(&b, &field, text, sizeof text) >= 0);
    must(bek_open(&fe, &b, now) == BEK_OK && bek_open(&il, &a, now) == BEK_OK);
    both(1);
    must(bek_state(&il) == BEK_CLOSED && bek_departure(&il, &leaving, sizeof leaving) == BEK_OK && leaving.by == BEK_BY_OWN);
    must(leaving.reason == 4 && leaving.detail == 1 && leaving.version == 9);
    must(bek_departure(&fe, &leaving, sizeof leaving) == BEK_OK && leaving.by == BEK_BY_PEER && leaving.reason == 4 && leaving.detail == 1);
    must(leaving.version == BEK_NO_VERSION);
    must(bek_agreed(&il, &agreement, sizeof agreement) == BEK_NOTHING && bek_agreed(&fe, &agreement, sizeof agreement) == BEK_NOTHING);
    bek_free(&il);
    bek_free(&fe);
}

static uint32_t random_ = 7;
static uint32_t any(uint32_t below) {
    random_ = random_ * 1664525u + 1013904223u;
    return (random_ >> 16) % below;
}

/* The notes fetched so far: how many of each kind and value, and of each fault; and the last state and phase. */
typedef struct noted {
    uint64_t count[8][16], fault[8][8];
    int last[8];
} noted;

static void fetch_notes(bek_end *end, noted *n) {
    bek_note note;
    char text[60];
    while (bek_next_note(end, &note, sizeof note) == BEK_OK) {
        must(note.what >= BEK_NOTE_STATE && note.what <= BEK_NOTE_TAKE && note.count == 0 && (note.what == BEK_NOTE_TAKE || (note.value >= 0 && note.value < 16)));
        must(note.fault == 0 || (note.what == BEK_NOTE_DATAGRAM ? note.value == BEK_DATAGRAM_DAMAGED : note.what == BEK_NOTE_PDU && note.value == BEK_PDU_DAMAGED));
        n->count[note.what][note.what == BEK_NOTE_TAKE ? 0 : note.value]++;
        must(note.fault < 8);
        n->fault[note.what][note.fault]++;
        n->last[note.what] = note.value;
        must(bek_note_text(&note, text, sizeof text) > 5);
    }
}

/* Carries what `from` made to `to` over channels that lose (all, if `loses_all`), repeat and damage, and fetches the notes of each arrival. */
static void disturb(bek_end *from, bek_end *to, noted *n, int loses_all) {
    uint8_t octets[BEK_DATAGRAM_MAX];
    uint32_t channel;
    size_t length;
    while (bek_next_datagram(from, &channel, octets, sizeof octets, &length) == BEK_OK) {
        uint32_t fate = loses_all ? 0 : any(100), times;
        if (fate == 3) octets[any((uint32_t)length)] ^= (uint8_t)(1 + any(255));
        for (times = fate == 0 ? 0 : fate == 2 ? 2 : 1; times > 0; times--) {
            int result = bek_arrive(to, channel, octets, length, now);
            must(result == BEK_OK || result == BEK_ERR_SEND_FIRST); /* it has much to send: the datagram is lost, too */
            take_all(to);
            fetch_notes(to, n);
        }
    }
}

static uint64_t sums[4];

/* Tests that the notes of damage since `before` are what the end has counted since, fault by fault. */
static void faults_are_counted(const bek_statistics *before, const bek_statistics *later, const noted *n) {
    const uint64_t *datagrams = n->fault[BEK_NOTE_DATAGRAM], *pdus = n->fault[BEK_NOTE_PDU];
    const bek_part_faults *a = &before->part_faults, *b = &later->part_faults;
    uint64_t r[3] = {0};
    uint32_t c;
    for (c = 0; c < BEK_CHANNELS_MAX; c++) {
        const bek_channel_faults *was = &before->channel_faults[c], *is = &later->channel_faults[c];
        r[0] += is->too_short - was->too_short, r[1] += is->bad_length - was->bad_length, r[2] += is->reserve - was->reserve;
        must(is->too_short + is->bad_length + is->reserve == later->channels[c].damaged);
    }
    for (c = 0; c < 3; c++) must(datagrams[c + 1] == r[c]);
    must(pdus[1] == b->too_short - a->too_short && pdus[2] == b->bad_length - a->bad_length && pdus[3] == b->bad_code - a->bad_code);
    must(pdus[4] == b->bad_type - a->bad_type && pdus[5] == b->bad_body - a->bad_body);
    must(b->too_short + b->bad_length + b->bad_code + b->bad_type + b->bad_body == later->damaged);
}

/* Tests that the notes since `before` are what the end has counted since. */
static void noted_is_counted(bek_end *end, const bek_statistics *before, const noted *n) {
    bek_statistics s;
    const uint64_t *datagrams = n->count[BEK_NOTE_DATAGRAM], *pdus = n->count[BEK_NOTE_PDU];
    uint64_t r[7] = {0};
    uint32_t c;
    must(bek_statistics_of(end, &s, sizeof s) == BEK_OK);
    for (c = 0; c < BEK_CHANNELS_MAX; c++) {
        const bek_reception *a = &before->channels[c], *b = &s.channels[c];
        r[BEK_DATAGRAM_PASSED] += b->passed - a->passed, r[BEK_DATAGRAM_DEFERRED] += b->deferred - a->deferred, r[BEK_DATAGRAM_OLD] += b->old - a->old;
        r[BEK_DATAGRAM_REPEATED] += b->repeated - a->repeated, r[BEK_DATAGRAM_FAR] += b->far - a->far, r[BEK_DATAGRAM_FULL] += b->full - a->full;
        r[BEK_DATAGRAM_DAMAGED] += b->damaged - a->damaged;
    }
    for (c = 0; c < 7; c++) must(datagrams[c] == r[c]);
    must(pdus[BEK_PDU_TAKEN] == s.taken - before->taken && pdus[BEK_PDU_GAP] == s.gaps - before->gaps);
    must(pdus[BEK_PDU_DAMAGED] == s.damaged - before->damaged && pdus[BEK_PDU_STRANGER] == s.strangers - before->strangers);
    must(pdus[BEK_PDU_UNOPENED] == s.unopened - before->unopened && pdus[BEK_PDU_FAR] == s.far - before->far);
    must(pdus[BEK_PDU_UNREQUESTED] == s.unrequested - before->unrequested && pdus[BEK_PDU_ANSWERED] == s.answered - before->answered);
    must(pdus[BEK_PDU_BELOW] == s.below - before->below);
    faults_are_counted(before, &s, n);
    must(n->count[BEK_NOTE_STATE][bek_state(end)] > 0 ? n->last[BEK_NOTE_STATE] == bek_state(end) : bek_state(end) == BEK_UP);
    sums[0] += r[BEK_DATAGRAM_DAMAGED], sums[1] += pdus[BEK_PDU_DAMAGED], sums[2] += pdus[BEK_PDU_GAP];
}

/* Over bad channels the notes are what the end counts, the last ones are its state, and each telegram taken has one. */
static void notes(void) {
    noted of_il = {0}, of_fe = {0};
    bek_statistics il_before, fe_before;
    uint8_t payload[5] = {0};
    unsigned long was = taken;
    int n;
    establishes(1000);
    must(bek_hear_notes(&il, 1) == BEK_OK && bek_hear_notes(&fe, 2) == BEK_OK);
    must(bek_statistics_of(&il, &il_before, sizeof il_before) == BEK_OK && bek_statistics_of(&fe, &fe_before, sizeof fe_before) == BEK_OK);
    for (n = 0; n < 400 && bek_state(&il) != BEK_CLOSED && bek_state(&fe) != BEK_CLOSED; n++) {
        int a = bek_put(&il, 0x0100, payload, 5, now), b = bek_put(&fe, 0x0200, payload, 5, now);
        must((a == BEK_OK || a == BEK_ERR_FULL) && (b == BEK_OK || b == BEK_ERR_FULL));
        now += 10;
        must(bek_tick(&il, now) == BEK_OK && bek_tick(&fe, now) == BEK_OK);
        take_all(&il), take_all(&fe);
        fetch_notes(&il, &of_il), fetch_notes(&fe, &of_fe);
        disturb(&il, &fe, &of_fe, n == 100);
        disturb(&fe, &il, &of_il, n == 200);
    }
    noted_is_counted(&il, &il_before, &of_il);
    noted_is_counted(&fe, &fe_before, &of_fe);
    must(of_il.count[BEK_NOTE_TAKE][0] + of_fe.count[BEK_NOTE_TAKE][0] == taken - was);
    sums[3] += taken - was;
    bek_free(&il);
    bek_free(&fe);
}

/* No note waits before notes are asked for; after 128 of them the end says how many it left out; they stay over a reopening. */
static void left_out(void) {
    bek_note note;
    uint8_t octets[BEK_DATAGRAM_MAX];
    uint32_t channel;
    size_t length;
    int n;
    establishes(1000);
    must(bek_next_note(&il, &note, sizeof note) == BEK_NOTHING && bek_next_note(&fe, &note, sizeof note) == BEK_NOTHING);
    must(bek_hear_notes(&il, 1) == BEK_OK && bek_hear_notes(&fe, -1) == BEK_OK);
    now += 300;
    must(bek_tick(&il, now) == BEK_OK && bek_next_datagram(&il, &channel, octets, sizeof octets, &length) == BEK_OK);
    for (n = 0; n < 300; n++) must(bek_arrive(&fe, 1, octets, length, now) == BEK_OK);
    for (n = 0; n < 128; n++) {
        must(bek_next_note(&fe, &note, sizeof note) == BEK_OK && note.fault == 0 && note.count == 0 && note.number > 0);
        must(n == 0 ? note.what == BEK_NOTE_PDU && note.value == BEK_PDU_TAKEN
                    : note.what == BEK_NOTE_DATAGRAM && note.value == (n == 1 ? BEK_DATAGRAM_PASSED : BEK_DATAGRAM_OLD));
    }
    must(bek_next_note(&fe, &note, sizeof note) == BEK_OK && note.what == BEK_NOTE_LEFT_OUT && note.count == 173);
    must(bek_next_note(&fe, &note, sizeof note) == BEK_NOTHING && note.count == 173);
    must(bek_close(&il, now) == BEK_OK && bek_next_note(&il, &note, sizeof note) == BEK_OK && note.what == BEK_NOTE_STATE && note.value == BEK_CLOSED);
    must(bek_reopen(&il, 3, now) == BEK_OK);
    n = 0;
    while (bek_next_note(&il, &note, sizeof note) == BEK_OK) n += note.what == BEK_NOTE_STATE && note.value == BEK_START;
    must(n == 1);
    must(bek_hear_notes(&fe, 0) == BEK_OK && bek_arrive(&fe, 1, octets, length, now) == BEK_OK && bek_next_note(&fe, &note, sizeof note) == BEK_NOTHING);
    bek_free(&il);
    bek_free(&fe);
}

int main(void) {
    static const uint64_t starts[] = {0, 4294967295u - 100, 4294967296u * 5, ((uint64_t)1 << 62) - 10000000};
    size_t k;
    for (channels = 1; channels <= 4; channels++)
        for (code = 8; code <= 16; code += 8)
            for (k = 0; k < 4; k++) {
                char where[80];
                uint32_t c;
                sprintf(where, "%u channels, code %u, from %lu", (unsigned)channels, (unsigned)code, (unsigned long)starts[k]);
                at = where;
                memset(seen, 0, sizeof seen);
                establishes(starts[k]);
                telegrams();
                counts(&il, &fe);
                counts(&fe, &il);
                longest_datagrams();
                deadlines();
                bek_free(&il);
                bek_free(&fe);
                establishes(starts[k] + 5000000);
                closes();
                bek_free(&il);
                bek_free(&fe);
                for (c = 1; c <= channels; c++) must(seen[c] == seen[1] && seen[c] > 800);
            }
    channels = 2, code = 8;
    at = "2 channels";
    agrees();
    versions();
    is_wise = 1;
    for (k = 0; k < 10; k++) notes();
    must(sums[0] > 3 && sums[1] > 30 && sums[2] > 10 && sums[3] > 1000);
    left_out();
    puts("ends: each way");
    return 0;
}
