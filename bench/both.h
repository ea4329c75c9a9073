// The same work for an end of this repository and for the C end: arrivals of a field element, and puts of an interlocking, in an established session.
// `both_agree` compares what the two send, octet by octet.
#ifndef BOTH_H
#define BOTH_H
#include "c_end.h"

struct tally { uint32_t sent, taken; bool is_established; };

void bench_md4(const uint8_t *octets, size_t size, uint8_t *out, size_t out_size);
uint32_t bench_end_rows(const uint8_t *payload, size_t payload_size, uint32_t mwa, uint32_t times, uint8_t *data_row, size_t data_size,
                        uint8_t *heartbeat_row, size_t heartbeat_size);
struct tally bench_end_arrives(const uint8_t *data_row, size_t data_size, size_t size, uint32_t mwa, uint32_t times, uint32_t copies);
struct tally bench_end_puts(const uint8_t *payload, size_t payload_size, uint32_t mwa, uint32_t times, const uint8_t *heartbeat_row,
                            size_t heartbeat_size, size_t size);

// A datagram is a Data of one telegram, or a heartbeat.
enum { TIMES = 256, CODE = 8, BEAT_SIZE = HEADERS + CODE, KIND = 0x0100, SIZE_MAX_ROW = TIMES * DATAGRAM_MAX };

// What the two ends send if one puts this payload TIMES times, and the other makes a heartbeat after each `mwa` units: the datagrams of this repository.
struct rows {
    uint32_t mwa;
    size_t payload_size, size;
    uint8_t payload[PAYLOAD_MAX], data[SIZE_MAX_ROW], heartbeats[TIMES * BEAT_SIZE];
};

// Makes the rows; returns false if an end has not taken every telegram.
bool rows_make(struct rows *rows, size_t payload_size, uint32_t mwa);
// Opens a field element, which receives the first datagrams of the data, each `copies` times; returns false if it has not taken all.
bool ours_arrive(const struct rows *rows, uint32_t times, uint32_t copies);
bool c_arrives(const struct rows *rows, uint32_t times, uint32_t copies);
// Opens an interlocking, which puts the payload this many times and receives the heartbeats; returns false if it has not sent all.
bool ours_put(const struct rows *rows, uint32_t times);
bool c_puts(const struct rows *rows, uint32_t times);
// Makes the digests of the data.
void our_digests(const struct rows *rows);
void c_digests(const struct rows *rows);
// Returns true if the C end sends the same octets for payloads of several sizes, and makes the digests of RFC 1320 and of docs/protocol.md. Otherwise
// prints what differs.
bool both_agree(void);

#endif
