// An end in plain C by the rules of docs/protocol.md. bench/ times it beside the end of this repository; no part of the stack uses it.
#ifndef C_END_H
#define C_END_H
#include <stdbool.h>
#include <stddef.h>
#include <stdint.h>

// The limits of docs/protocol.md, in octets or as counts.
enum {
    RED_HEADER = 8, SAFE_HEADER = 28, HEADERS = RED_HEADER + SAFE_HEADER, CODE_MAX = 16, MESSAGE_LENGTH = 2, MESSAGE_HEADER = 43, PAYLOAD_MAX = 357,
    MESSAGE_MAX = MESSAGE_HEADER + PAYLOAD_MAX, UNIT_MESSAGES = 3, UNIT_MIN = MESSAGE_LENGTH + MESSAGE_HEADER,
    UNIT_MAX = UNIT_MESSAGES * (MESSAGE_LENGTH + MESSAGE_MAX), SAFE_PDU_MAX = SAFE_HEADER + UNIT_MAX + CODE_MAX,
    DATAGRAM_MAX = RED_HEADER + SAFE_PDU_MAX, NAMES = 40, WAITING_MAX = 64, WINDOW_MAX = 32, REACH = 10, Q_MAX = 8
};

enum kind { CONN_REQ = 6200, CONN_RESP = 6201, RETR_REQ = 6212, RETR_RESP = 6213, DISC_REQ = 6216, HEARTBEAT = 6220, DATA = 6240, RETR_DATA = 6241 };
enum state { CLOSED, DOWN, START, UP, RETRANSMISSION_REQUESTED, RETRANSMISSION_RUNNING };
enum phase { INITIALISING, ESTABLISHED, ENDED };
enum put_result { PUT_DONE, PUT_NOT_ESTABLISHED, PUT_FULL, PUT_RESERVED_KIND, PUT_TOO_LONG };

struct c_unit { uint64_t number; uint32_t size; uint8_t octets[UNIT_MAX]; };
struct c_message { uint32_t size; uint8_t octets[MESSAGE_MAX]; };
struct c_part { bool is_used; uint32_t number, size; uint8_t octets[SAFE_PDU_MAX]; };

struct c_end {
    // settings
    uint32_t own, peer, initial_value[4], n_sendmax, n_maxpacket, mwa, code, channels, q;
    uint64_t t_max, t_seq, pdu_limit;
    bool is_field_element;
    uint8_t protocol, names_received[NAMES], names_sent[NAMES];
    // redundancy layer: the number that is expected, the number of the next PDU, the waiting parts and since when they wait
    uint64_t expected_part, waiting_since;
    uint32_t next_part, waiting_parts;
    // safety layer: numbers without wrap, except `last_sn` and `last_ts`, which the next PDU repeats
    enum state state;
    uint32_t first_sn, last_sn, last_ts;
    uint64_t made, expected_pdu, confirmed, confirmed_at, window, taken_since_sending;
    uint32_t first_unit, unit_count;
    // session
    enum phase phase;
    uint32_t first_message, message_count;
    // the caller's functions, and what it counts
    void (*take)(struct c_end *end, uint16_t kind, const uint8_t *payload, size_t size);
    void (*send)(struct c_end *end, uint32_t channel, const uint8_t *datagram, size_t size);
    uint32_t sent, taken;
    // the unconfirmed units, the messages that wait, and the deferred parts
    struct c_unit units[WINDOW_MAX];
    struct c_message messages[WAITING_MAX];
    struct c_part parts[Q_MAX];
};

// Makes the MD4 digest of octets, from these four words.
void c_md4(const uint32_t initial_value[4], const uint8_t *octets, size_t size, uint32_t digest[4]);
// Processes a datagram that came at this time, in milliseconds.
void c_arrive(struct c_end *end, const uint8_t *datagram, size_t size, uint64_t now);
// Puts a telegram, and sends what the window allows.
enum put_result c_put(struct c_end *end, uint16_t kind, const uint8_t *payload, size_t size, uint64_t now);

#endif
