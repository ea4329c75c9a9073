// An end in plain C by the rules of docs/protocol.md: the measure of what an end has to cost. It is complete for an established session whose PDUs come
// in order on some channel, which is all that bench/ measures. Where the product would do something rarer, this end disconnects; those functions are
// marked cold. It reads and writes numbers as they are in memory, so it needs a little-endian processor.
#include "c_end.h"

#include <string.h>

static inline uint16_t number16(const uint8_t *at) {
    uint16_t number;
    memcpy(&number, at, sizeof number);
    return number;
}

static inline uint32_t number32(const uint8_t *at) {
    uint32_t number;
    memcpy(&number, at, sizeof number);
    return number;
}

static inline void put16(uint8_t *at, uint16_t number) { memcpy(at, &number, sizeof number); }
static inline void put32(uint8_t *at, uint32_t number) { memcpy(at, &number, sizeof number); }

// MD4. Each step is written in the order of its shortest chain, and HOLD keeps the compiler from changing that order.
#define ROTATE(x, by) (((x) << (by)) | ((x) >> (32 - (by))))
#define HOLD(x) __asm__("" : "+r"(x))
#define STEP1(a, b, c, d, word, by) do { \
    uint32_t sum = a + (word); HOLD(sum); \
    uint32_t mix = (c) ^ (d); HOLD(mix); \
    mix &= (b); mix ^= (d); sum += mix; a = ROTATE(sum, by); } while (0)
#define STEP2(a, b, c, d, word, by) do { \
    uint32_t sum = a + (word) + 0x5a827999u; HOLD(sum); sum += (c) & (d); HOLD(sum); \
    uint32_t mix = (c) ^ (d); HOLD(mix); \
    sum += (b) & mix; a = ROTATE(sum, by); } while (0)
#define STEP3(a, b, c, d, word, by) do { \
    uint32_t sum = a + (word) + 0x6ed9eba1u; HOLD(sum); \
    uint32_t mix = (c) ^ (d); HOLD(mix); \
    sum += (b) ^ mix; a = ROTATE(sum, by); } while (0)
#define FOUR(STEP, i, j, k, l, p, q, r, s) \
    STEP(a, b, c, d, words[i], p); STEP(d, a, b, c, words[j], q); STEP(c, d, a, b, words[k], r); STEP(b, c, d, a, words[l], s)

static __attribute__((noinline)) void add_block(uint32_t digest[4], const uint8_t *octets) {
    uint32_t words[16], a = digest[0], b = digest[1], c = digest[2], d = digest[3];
    memcpy(words, octets, sizeof words);
    FOUR(STEP1, 0, 1, 2, 3, 3, 7, 11, 19);
    FOUR(STEP1, 4, 5, 6, 7, 3, 7, 11, 19);
    FOUR(STEP1, 8, 9, 10, 11, 3, 7, 11, 19);
    FOUR(STEP1, 12, 13, 14, 15, 3, 7, 11, 19);
    FOUR(STEP2, 0, 4, 8, 12, 3, 5, 9, 13);
    FOUR(STEP2, 1, 5, 9, 13, 3, 5, 9, 13);
    FOUR(STEP2, 2, 6, 10, 14, 3, 5, 9, 13);
    FOUR(STEP2, 3, 7, 11, 15, 3, 5, 9, 13);
    FOUR(STEP3, 0, 8, 4, 12, 3, 9, 11, 15);
    FOUR(STEP3, 2, 10, 6, 14, 3, 9, 11, 15);
    FOUR(STEP3, 1, 9, 5, 13, 3, 9, 11, 15);
    FOUR(STEP3, 3, 11, 7, 15, 3, 9, 11, 15);
    digest[0] += a;
    digest[1] += b;
    digest[2] += c;
    digest[3] += d;
}

__attribute__((noinline)) void c_md4(const uint32_t initial_value[4], const uint8_t *octets, size_t size, uint32_t digest[4]) {
    uint8_t last[128] = {0};
    size_t left = size;
    uint64_t bits = (uint64_t)size * 8;
    memcpy(digest, initial_value, 16);
    for (; left >= 64; octets += 64, left -= 64) add_block(digest, octets);
    memcpy(last, octets, left);
    last[left] = 0x80;
    size_t end = left < 56 ? 64 : 128;
    memcpy(last + end - 8, &bits, 8);
    add_block(digest, last);
    if (end == 128) add_block(digest, last + 64);
}

// Sends the PDU whose body is after the room for both headers in a buffer, on each channel.
static void send_pdu(struct c_end *end, uint8_t *buffer, size_t body_size, enum kind kind, uint64_t now) {
    uint8_t *pdu = buffer + RED_HEADER;
    size_t front = SAFE_HEADER + body_size, size = front + end->code;
    uint32_t digest[4];
    put16(pdu, (uint16_t)size);
    put16(pdu + 2, kind);
    put32(pdu + 4, end->peer);
    put32(pdu + 8, end->own);
    put32(pdu + 12, end->first_sn + (uint32_t)end->made);
    put32(pdu + 16, end->last_sn);
    put32(pdu + 20, (uint32_t)now);
    put32(pdu + 24, end->last_ts);
    c_md4(end->initial_value, pdu, front, digest);
    memcpy(pdu + front, digest, end->code == 8 ? 8 : 16);
    put16(buffer, (uint16_t)(RED_HEADER + size));
    put16(buffer + 2, 0);
    put32(buffer + 4, end->next_part++);
    for (uint32_t channel = 1; channel <= end->channels; channel++) end->send(end, channel, buffer, RED_HEADER + size);
    end->made++;
    end->taken_since_sending = 0;
}

static void send_heartbeat(struct c_end *end, uint64_t now) {
    uint8_t buffer[HEADERS + CODE_MAX];
    send_pdu(end, buffer, 0, HEARTBEAT, now);
}

static __attribute__((noinline, cold)) void disconnect(struct c_end *end, uint16_t reason, uint16_t detail, uint64_t now) {
    uint8_t buffer[HEADERS + 4 + CODE_MAX];
    put16(buffer + HEADERS, detail);
    put16(buffer + HEADERS + 2, reason);
    if (end->state > DOWN) send_pdu(end, buffer, 4, DISC_REQ, now);
    end->state = CLOSED;
    end->phase = ENDED;
}

// The check that each call begins with: returns true if the end disconnects.
static inline bool is_overdue(struct c_end *end, uint64_t now) {
    if (end->state <= DOWN) return false;
    if (now >= end->confirmed_at && now - end->confirmed_at >= end->t_max) {
        disconnect(end, 3, 0, now);
        return true;
    }
    if (end->made >= end->pdu_limit) {
        disconnect(end, 7, 1, now);
        return true;
    }
    return false;
}

// Packs the first waiting messages after the headers; returns the size of the unit.
static inline size_t pack(struct c_end *end, uint8_t *unit) {
    uint32_t count = end->message_count < end->n_maxpacket ? end->message_count : end->n_maxpacket;
    uint8_t *at = unit;
    for (uint32_t i = 0; i < count; i++) {
        const struct c_message *message = &end->messages[end->first_message];
        put16(at, (uint16_t)message->size);
        memcpy(at + MESSAGE_LENGTH, message->octets, message->size);
        at += MESSAGE_LENGTH + message->size;
        end->first_message = end->first_message + 1 == WAITING_MAX ? 0 : end->first_message + 1;
    }
    end->message_count -= count;
    return (size_t)(at - unit);
}

// Sends units while the window is open and messages wait, and keeps each until it is confirmed.
static void send_waiting(struct c_end *end, uint64_t now) {
    while ((end->state == UP || end->state == RETRANSMISSION_RUNNING) && end->unit_count < end->window && end->message_count > 0) {
        uint8_t buffer[DATAGRAM_MAX];
        size_t size = pack(end, buffer + HEADERS);
        uint64_t number = end->made;
        send_pdu(end, buffer, size, DATA, now);
        uint32_t place = end->first_unit + end->unit_count;
        struct c_unit *unit = &end->units[place < WINDOW_MAX ? place : place - WINDOW_MAX];
        unit->number = number;
        unit->size = (uint32_t)size;
        memcpy(unit->octets, buffer + HEADERS, size);
        end->unit_count++;
    }
}

static inline bool is_reserved(uint16_t kind) { return kind >= 0x21 && kind <= 0x25; }

enum put_result c_put(struct c_end *end, uint16_t kind, const uint8_t *payload, size_t size, uint64_t now) {
    if (end->phase != ESTABLISHED && !(end->is_field_element && end->phase == INITIALISING)) return PUT_NOT_ESTABLISHED;
    if (end->message_count >= WAITING_MAX) return PUT_FULL;
    if (is_reserved(kind)) return PUT_RESERVED_KIND;
    if (size > PAYLOAD_MAX) return PUT_TOO_LONG;
    uint32_t place = end->first_message + end->message_count;
    struct c_message *message = &end->messages[place < WAITING_MAX ? place : place - WAITING_MAX];
    message->octets[0] = end->protocol;
    put16(message->octets + 1, kind);
    memcpy(message->octets + 3, end->names_sent, NAMES);
    memcpy(message->octets + MESSAGE_HEADER, payload, size);
    message->size = (uint32_t)(MESSAGE_HEADER + size);
    end->message_count++;
    send_waiting(end, now);
    return PUT_DONE;
}

// A message of the opening of a session, or one that the session refuses.
static __attribute__((noinline, cold)) bool take_other(struct c_end *end, uint64_t now) {
    disconnect(end, 4, 2, now);
    return false;
}

static bool take_message(struct c_end *end, const uint8_t *message, size_t size, uint64_t now) {
    if (message[0] != end->protocol || memcmp(message + 3, end->names_received, NAMES) != 0) return take_other(end, now);
    uint16_t kind = number16(message + 1);
    if (is_reserved(kind)) return take_other(end, now);
    if (end->phase != ESTABLISHED && (end->is_field_element || end->phase != INITIALISING)) return take_other(end, now);
    end->take(end, kind, message + MESSAGE_HEADER, size - MESSAGE_HEADER);
    return true;
}

// Takes the messages of a unit. All lengths are read before anything is taken, since one bad piece rejects the whole unit.
static bool take_unit(struct c_end *end, const uint8_t *unit, size_t size, uint64_t now) {
    const uint8_t *messages[UNIT_MESSAGES];
    size_t sizes[UNIT_MESSAGES];
    int count = 0;
    while (size > 0) {
        size_t length = size < MESSAGE_LENGTH ? 0 : number16(unit);
        if (count == UNIT_MESSAGES || length < MESSAGE_HEADER || length > MESSAGE_MAX || size - MESSAGE_LENGTH < length) {
            disconnect(end, 7, 2, now);
            return false;
        }
        messages[count] = unit + MESSAGE_LENGTH;
        sizes[count++] = length;
        unit += MESSAGE_LENGTH + length;
        size -= MESSAGE_LENGTH + length;
    }
    for (int i = 0; i < count; i++)
        if (!take_message(end, messages[i], sizes[i], now)) return false;
    return true;
}

// The body of a ConnReq or ConnResp: version, window and reserve.
static __attribute__((noinline, cold)) bool is_connection_body(const uint8_t *body, size_t size) {
    if (size != 14 || number16(body + 4) < 1 || number16(body + 4) > WINDOW_MAX) return false;
    for (int i = 0; i < 4; i++)
        if (body[i] < '0' || body[i] > '9') return false;
    for (int i = 6; i < 14; i++)
        if (body[i] != 0) return false;
    return true;
}

static inline bool is_body(uint16_t kind, const uint8_t *body, size_t size) {
    switch (kind) {
    case DATA: case RETR_DATA: return size >= UNIT_MIN && size <= UNIT_MAX;
    case RETR_REQ: case RETR_RESP: case HEARTBEAT: return size == 0;
    case DISC_REQ: return size == 4;
    case CONN_REQ: case CONN_RESP: return is_connection_body(body, size);
    default: return false;
    }
}

static inline bool is_code(const struct c_end *end, const uint8_t *pdu, size_t front) {
    uint32_t digest[4];
    uint64_t made, found;
    c_md4(end->initial_value, pdu, front, digest);
    memcpy(&made, digest, 8);
    memcpy(&found, pdu + front, 8);
    if (made != found) return false;
    if (end->code == 8) return true;
    memcpy(&made, digest + 2, 8);
    memcpy(&found, pdu + front + 8, 8);
    return made == found;
}

// Every cell of the table of states and types but the common one.
static __attribute__((noinline, cold)) void do_other(struct c_end *end, uint64_t now) { disconnect(end, 2, 0, now); }

// Confirms number and time of a PDU in turn, and drops the units up to that number; returns false if the end disconnects.
static inline bool confirm(struct c_end *end, const uint8_t *pdu, uint64_t now) {
    uint32_t number = number32(pdu + 16) - (end->first_sn + (uint32_t)end->confirmed);
    uint32_t time = number32(pdu + 24) - (uint32_t)end->confirmed_at;
    if (number >= end->made - end->confirmed) {
        disconnect(end, 7, 3, now);
        return false;
    }
    if (time > now - end->confirmed_at) {
        disconnect(end, 7, 4, now);
        return false;
    }
    end->confirmed += number;
    end->confirmed_at += time;
    while (end->unit_count > 0 && end->units[end->first_unit].number <= end->confirmed) {
        end->first_unit = end->first_unit + 1 == WINDOW_MAX ? 0 : end->first_unit + 1;
        end->unit_count--;
    }
    return true;
}

static bool is_pdu(const struct c_end *end, const uint8_t *pdu, size_t size) {
    if (size < SAFE_HEADER + end->code || number16(pdu) != size || size > SAFE_HEADER + UNIT_MAX + end->code) return false;
    size_t front = size - end->code;
    return is_code(end, pdu, front) && is_body(number16(pdu + 2), pdu + SAFE_HEADER, front - SAFE_HEADER);
}

static void process_pdu(struct c_end *end, const uint8_t *pdu, size_t size, uint64_t now) {
    bool is_whole = is_pdu(end, pdu, size);
    if (is_overdue(end, now) || !is_whole || end->state == CLOSED) return;
    if (number32(pdu + 4) != end->own || number32(pdu + 8) != end->peer) return;
    uint16_t kind = number16(pdu + 2);
    uint32_t distance = number32(pdu + 12) - (end->last_sn + 1);
    if (distance > REACH * end->n_sendmax) return;
    if (end->state != UP || distance > 0 || (kind != DATA && kind != HEARTBEAT)) {
        do_other(end, now);
        return;
    }
    if (!confirm(end, pdu, now)) return;
    end->expected_pdu++;
    end->last_sn = number32(pdu + 12);
    end->last_ts = number32(pdu + 20);
    if (kind != DATA) return;
    // A heartbeat that is due goes out before the session's DiscReq does.
    bool is_taken = take_unit(end, pdu + SAFE_HEADER, size - SAFE_HEADER - end->code, now);
    if (++end->taken_since_sending >= end->mwa && is_taken) send_heartbeat(end, now);
}

static __attribute__((noinline, cold)) void defer(struct c_end *end, uint32_t number, const uint8_t *part, size_t size, uint64_t now) {
    struct c_part *free = NULL;
    for (uint32_t i = 0; i < end->q; i++) {
        if (!end->parts[i].is_used) free = &end->parts[i];
        else if (end->parts[i].number == number) return;
    }
    if (free == NULL) return;
    if (end->waiting_parts++ == 0) end->waiting_since = now;
    free->is_used = true;
    free->number = number;
    free->size = (uint32_t)size;
    memcpy(free->octets, part, size);
}

// Passes up the deferred parts that follow without a gap.
static __attribute__((noinline, cold)) void pass_deferred(struct c_end *end, uint64_t now) {
    for (uint32_t i = 0; i < end->q; i++) {
        struct c_part *part = &end->parts[i];
        if (!part->is_used || part->number != end->expected_part) continue;
        part->is_used = false;
        end->waiting_parts--;
        end->expected_part++;
        process_pdu(end, part->octets, part->size, now);
        i = UINT32_MAX;  // (from the first place again)
    }
    if (end->waiting_parts > 0) end->waiting_since = now;
}

static __attribute__((noinline, cold)) void pass_overdue(struct c_end *end, uint64_t now) {
    uint64_t least = UINT64_MAX;
    if (now < end->waiting_since + end->t_seq) return;
    for (uint32_t i = 0; i < end->q; i++)
        if (end->parts[i].is_used && end->parts[i].number < least) least = end->parts[i].number;
    end->expected_part = least;
    pass_deferred(end, now);
}

void c_arrive(struct c_end *end, const uint8_t *datagram, size_t size, uint64_t now) {
    if (end->state == CLOSED || is_overdue(end, now)) return;
    if (end->waiting_parts > 0) pass_overdue(end, now);
    if (size >= RED_HEADER && number16(datagram) == size && size <= DATAGRAM_MAX && number16(datagram + 2) == 0) {
        uint64_t number = number32(datagram + 4);
        if (number == end->expected_part) {
            process_pdu(end, datagram + RED_HEADER, size - RED_HEADER, now);
            end->expected_part = number + 1;
            if (end->waiting_parts > 0) pass_deferred(end, now);
        } else if (number > end->expected_part && number <= end->expected_part + REACH * end->q) {
            defer(end, (uint32_t)number, datagram + RED_HEADER, size - RED_HEADER, now);
        }
    }
    send_waiting(end, now);
}
