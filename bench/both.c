#include "both.h"

#include <stdio.h>
#include <stdlib.h>
#include <string.h>

static const uint32_t RFC_1320[4] = {0x67452301, 0xefcdab89, 0x98badcfe, 0x10325476};

static struct c_end end;

// While `kept` is not NULL, the datagrams on channel 1 are kept there.
static uint8_t *kept;
static size_t kept_size;

static __attribute__((noinline)) void count_taken(struct c_end *of, uint16_t kind, const uint8_t *payload, size_t size) {
    (void)kind;
    (void)payload;
    (void)size;
    of->taken++;
}

static __attribute__((noinline)) void count_sent(struct c_end *of, uint32_t channel, const uint8_t *datagram, size_t size) {
    of->sent++;
    if (kept != NULL && channel == 1 && kept_size + size <= SIZE_MAX_ROW) {
        memcpy(kept + kept_size, datagram, size);
        kept_size += size;
    }
}

static uint32_t number_at(const uint8_t *at) {
    uint32_t number;
    memcpy(&number, at, sizeof number);
    return number;
}

static void name_both(uint8_t names[NAMES], const char *sender, const char *receiver) {
    memset(names, '_', NAMES);
    memcpy(names, sender, strlen(sender));
    memcpy(names + NAMES / 2, receiver, strlen(receiver));
}

// Sets what both sides have in common, as crates/bench_stack opens them: no unit is unconfirmed and nothing waits. `received` is the next datagram that
// comes, and the peer confirms PDU `confirmed` of the `made` ones in it.
static void set_open(uint32_t mwa, const uint8_t *received, uint64_t made, uint64_t confirmed) {
    const uint8_t *pdu = received + RED_HEADER;
    end.initial_value[0] = 1, end.initial_value[1] = 2, end.initial_value[2] = 3, end.initial_value[3] = 4;
    end.n_sendmax = end.window = WINDOW_MAX;
    end.n_maxpacket = UNIT_MESSAGES;
    end.mwa = mwa;
    end.code = CODE;
    end.channels = 2;
    end.q = 4;
    end.t_max = 60000;
    end.t_seq = 50;
    end.pdu_limit = 4294901760;
    end.protocol = 1;
    end.expected_part = number_at(received + 4);
    end.waiting_since = end.waiting_parts = 0;
    end.state = UP;
    end.last_sn = number_at(pdu + 12) - 1;
    end.last_ts = 0;
    end.made = made;
    end.confirmed = confirmed;
    end.confirmed_at = end.taken_since_sending = 0;
    end.first_unit = end.unit_count = 0;
    end.phase = ESTABLISHED;
    end.first_message = end.message_count = 0;
    end.take = count_taken;
    end.send = count_sent;
    end.sent = end.taken = 0;
    for (int i = 0; i < Q_MAX; i++) end.parts[i].is_used = false;
}

// Opens a field element that has all of the opening, and receives the data next.
static void open_field_element(const struct rows *rows) {
    const uint8_t *beat = rows->heartbeats;
    set_open(rows->mwa, rows->data, number_at(beat + 4), number_at(beat + 4) - 1);
    end.own = 2;
    end.peer = 1;
    end.is_field_element = true;
    end.next_part = number_at(beat + 4);
    end.first_sn = number_at(beat + RED_HEADER + 12) - end.next_part;
    name_both(end.names_received, "IL1", "FE1");
    name_both(end.names_sent, "FE1", "IL1");
}

// Opens an interlocking that has all of the opening, and sends the data next.
static void open_interlocking(const struct rows *rows) {
    const uint8_t *data = rows->data;
    set_open(rows->mwa, rows->heartbeats, number_at(data + 4), number_at(data + 4) - 1);
    end.own = 1;
    end.peer = 2;
    end.is_field_element = false;
    end.next_part = number_at(data + 4);
    end.first_sn = number_at(data + RED_HEADER + 12) - end.next_part;
    name_both(end.names_received, "FE1", "IL1");
    name_both(end.names_sent, "IL1", "FE1");
}

bool rows_make(struct rows *rows, size_t payload_size, uint32_t mwa) {
    rows->mwa = mwa;
    rows->payload_size = payload_size;
    rows->size = HEADERS + UNIT_MIN + payload_size + CODE;
    for (size_t i = 0; i < payload_size; i++) rows->payload[i] = (uint8_t)(i * 7 + 7);
    return bench_end_rows(rows->payload, payload_size, mwa, TIMES, rows->data, TIMES * rows->size, rows->heartbeats, TIMES / mwa * BEAT_SIZE) == TIMES;
}

bool ours_arrive(const struct rows *rows, uint32_t times, uint32_t copies) {
    struct tally tally = bench_end_arrives(rows->data, times * rows->size, rows->size, rows->mwa, times, copies);
    return tally.is_established && tally.taken == times && tally.sent == 2 * (times / rows->mwa);
}

bool c_arrives(const struct rows *rows, uint32_t times, uint32_t copies) {
    open_field_element(rows);
    for (uint32_t i = 0; i < times; i++)
        for (uint32_t copy = 0; copy < copies; copy++) c_arrive(&end, rows->data + i * rows->size, rows->size, 0);
    return end.phase == ESTABLISHED && end.taken == times && end.sent == 2 * (times / rows->mwa);
}

bool ours_put(const struct rows *rows, uint32_t times) {
    struct tally tally = bench_end_puts(rows->payload, rows->payload_size, rows->mwa, times / rows->mwa, rows->heartbeats, times / rows->mwa * BEAT_SIZE,
                                        BEAT_SIZE);
    return tally.is_established && tally.sent == 2 * times;
}

bool c_puts(const struct rows *rows, uint32_t times) {
    open_interlocking(rows);
    for (uint32_t i = 0; i < times; i++) {
        if (c_put(&end, KIND, rows->payload, rows->payload_size, 0) != PUT_DONE) return false;
        if ((i + 1) % rows->mwa == 0) c_arrive(&end, rows->heartbeats + i / rows->mwa * BEAT_SIZE, BEAT_SIZE, 0);
    }
    return end.phase == ESTABLISHED && end.sent == 2 * times && end.unit_count == 0;
}

void our_digests(const struct rows *rows) {
    uint8_t digest[16];
    for (size_t i = 0; i < TIMES; i++) bench_md4(rows->data + i * rows->size + RED_HEADER, rows->size - RED_HEADER - CODE, digest, sizeof digest);
}

void c_digests(const struct rows *rows) {
    uint32_t digest[4];
    for (size_t i = 0; i < TIMES; i++) c_md4(end.initial_value, rows->data + i * rows->size + RED_HEADER, rows->size - RED_HEADER - CODE, digest);
}

// Two digests of RFC 1320, and the code of the ConnReq that docs/protocol.md shows.
static bool are_digests_right(void) {
    static const char *const octets[] = {"", "abcdefghijklmnopqrstuvwxyz",
        "\x32\0\x38\x18\2\0\0\0\1\0\0\0\x64\0\0\0\0\0\0\0\0\0\0\0\0\0\0\0" "0303\x14\0\0\0\0\0\0\0\0\0"};
    static const size_t sizes[] = {0, 26, 42};
    static const char *const codes[] = {"31d6cfe0d16ae931", "d79e1c308aa5bbcd", "1673955aabe061a9"};
    for (size_t i = 0; i < 3; i++) {
        uint32_t digest[4];
        uint8_t code[8];
        char text[17];
        c_md4(RFC_1320, (const uint8_t *)octets[i], sizes[i], digest);
        memcpy(code, digest, sizeof code);
        for (size_t k = 0; k < sizeof code; k++) snprintf(text + 2 * k, 3, "%02x", code[k]);
        if (strcmp(text, codes[i]) != 0) {
            printf("the C end makes the digest %s in place of %s\n", text, codes[i]);
            return false;
        }
    }
    return true;
}

// Returns true if a run of the C end sends exactly these octets.
static bool sends(bool (*run)(const struct rows *), const struct rows *rows, const uint8_t *octets, size_t size, const char *what) {
    static uint8_t buffer[SIZE_MAX_ROW];
    kept = buffer;
    kept_size = 0;
    bool is_done = run(rows);
    kept = NULL;
    if (is_done && kept_size == size && memcmp(buffer, octets, size) == 0) return true;
    printf("the C end sends other %s: payload of %zu octets, a heartbeat after %u\n", what, rows->payload_size, rows->mwa);
    return false;
}

static bool put_all(const struct rows *rows) { return c_puts(rows, TIMES); }
static bool receive_all(const struct rows *rows) { return c_arrives(rows, TIMES, 1); }
static bool receive_twice(const struct rows *rows) { return c_arrives(rows, TIMES, 2); }

// Each two datagrams come in the other order: the second one is deferred.
static bool receive_swapped(const struct rows *rows) {
    open_field_element(rows);
    for (uint32_t i = 0; i < TIMES; i++) c_arrive(&end, rows->data + (i ^ 1) * rows->size, rows->size, 0);
    return end.phase == ESTABLISHED && end.taken == TIMES;
}

bool both_agree(void) {
    static const size_t sizes[] = {0, 1, 20, 100, PAYLOAD_MAX};
    static const uint32_t mwas[] = {1, 16};
    static struct rows rows;
    if (!are_digests_right()) return false;
    for (size_t i = 0; i < sizeof sizes / sizeof *sizes; i++)
        for (size_t k = 0; k < 2; k++) {
            if (!rows_make(&rows, sizes[i], mwas[k])) {
                printf("two ends did not hand on all telegrams: payload of %zu octets\n", sizes[i]);
                return false;
            }
            size_t beats = TIMES / rows.mwa * BEAT_SIZE;
            if (!sends(put_all, &rows, rows.data, TIMES * rows.size, "Data") || !sends(receive_all, &rows, rows.heartbeats, beats, "heartbeats")
                || !sends(receive_twice, &rows, rows.heartbeats, beats, "heartbeats after second copies")
                || !sends(receive_swapped, &rows, rows.heartbeats, beats, "heartbeats after swapped datagrams"))
                return false;
        }
    return true;
}
