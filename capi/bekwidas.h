/* bekwidas.h - one end of a RaSTA connection with an SCI session, for C99, C++ and every language that calls C.
 *
 * An end is an interlocking (the client) or a field element (the server) of RaSTA after DIN VDE V 0831-200:2015, with the establishment of a
 * PDI session. The library does no input or output: it opens no socket, reads no clock, starts no thread and has no global state. You pass in
 * datagrams and times, and take out datagrams and telegrams. You own the sockets, the clock and the loop. docs/c.md says what is proved and
 * what is trusted.
 *
 * THE LOOP of a program with one end. `drain` takes everything that waits. Call it after each call that may make something: then no call is
 * refused for lack of room.
 *
 *     void drain(void) {
 *         while (bek_next_datagram(&end, &channel, datagram, BEK_DATAGRAM_MAX, &length) == BEK_OK)
 *             send it on the socket of `channel`;
 *         while (bek_take(&end, &kind, payload, BEK_PAYLOAD_MAX, &length) == BEK_OK)
 *             use the telegram;
 *     }
 *
 *     bek_end end = BEK_END_INIT;
 *     bek_open(&end, &settings, now()); drain();
 *     for (;;) {
 *         wait for a socket, or until the time of bek_next_deadline; without a time if it returns BEK_NOTHING;
 *         for each datagram received: { bek_arrive(&end, channel, octets, length, now()); drain(); }
 *         bek_tick(&end, now()); drain();
 *         if bek_phase(&end) == BEK_INITIALISING, at a field element: { put the initial status; bek_init_done(&end, now()); drain(); }
 *         if there is something to say: { bek_put(&end, kind, payload, length, now()); drain(); }
 *         if bek_is_stale(&end) == 1: { log bek_departure and bek_confirmed; bek_reopen(&end, a random number, now()); drain(); }
 *     }
 *
 * Test each result: a value below 0 is a refusal, and bek_fault_text says why. bek_is_stale waits before each opening, so that this loop floods no peer.
 * If no session begins, bek_departure and bek_totals_of say why. The examples in capi/examples show the complete loop.
 *
 * TIME is in whole milliseconds of a clock that never decreases, such as CLOCK_MONOTONIC, and is at most 2^62. A call with an earlier time
 * than the last accepted call of the same end returns BEK_ERR_TIME and does nothing. If your clock is a counter of 32 bits, count its wraps:
 * `if (tick < last) high += (uint64_t)1 << 32; last = tick; now = high + tick;`.
 *
 * MEMORY. bek_open allocates all the memory of an end by malloc: about 77,000 octets, 373 for each telegram of telegram_room, and 1,274 for
 * each datagram of datagram_room. Only bek_free returns memory; no other function uses the heap. A program without a heap defines malloc,
 * free and realloc over its own array (examples/arena.c). A call uses less than 22,000 octets of stack.
 *
 * THE HANDLE. A bek_end starts as BEK_END_INIT. While it is open you must not write to it, and a copy of it is refused: bek_open notes its place, and
 * each function with an end at another place returns BEK_ERR_COPIED and does nothing (bek_free does nothing). After bek_free you may open it again.
 *
 * POINTERS. If a pointer is NULL, the function returns BEK_ERR_NULL and does nothing; but NULL with length 0 is an empty buffer. A length
 * above PTRDIFF_MAX returns BEK_ERR_LENGTH. Every other pointer must point to as many octets as its length says, and what is written must
 * not overlap anything else of the same call: no function can test that. No pointer is kept after a call.
 *
 * THREADS. Call the functions of one end one at a time, from any thread, and not from a signal handler during another call. Different ends
 * are independent. No function waits or locks. Each call takes bounded time: it handles at most 64 messages, 32 units, 8 early parts and 4
 * channels.
 *
 * PROCESSOR. The code needs the instructions that the library was built for: for x86-64 those of x86-64-v2, unless capi/build was given
 * --cpu. bek_open tests that and returns BEK_ERR_PROCESSOR if some are missing.
 *
 * VERSIONS. This header is of version BEK_VERSION; bek_version() returns that of the linked library. Libraries with the same major and minor
 * number have the same ABI, and the shared library's name has both. bek_settings_init and each function that fills a struct are given the size of your
 * header's struct, such as sizeof(bek_counts): no octet after it is written, and members that the library does not know become 0.
 */
#ifndef BEKWIDAS_H
#define BEKWIDAS_H

#include <stddef.h>
#include <stdint.h>

/* The compiler warns if the result of such a function is not used. */
#if defined(__cplusplus) && __cplusplus >= 201703L
#define BEK_MUST_USE [[nodiscard]]
#elif defined(__GNUC__)
#define BEK_MUST_USE __attribute__((warn_unused_result))
#else
#define BEK_MUST_USE
#endif

#ifdef __cplusplus
extern "C" {
#endif

/* 0xMMmmpp. */
#define BEK_VERSION_MAJOR 0
#define BEK_VERSION_MINOR 3
#define BEK_VERSION_PATCH 0
#define BEK_VERSION ((BEK_VERSION_MAJOR << 16) | (BEK_VERSION_MINOR << 8) | BEK_VERSION_PATCH)

/* The longest datagram that an end makes, and the longest payload of a telegram, in octets. */
#define BEK_DATAGRAM_MAX 1258
#define BEK_PAYLOAD_MAX 357

/* The longest name, without the zero after it. */
#define BEK_NAME_MAX 20

/* The greatest number of channels. They are numbered from 1. */
#define BEK_CHANNELS_MAX 4

/* The greatest size of a checksum, in octets. */
#define BEK_CHECKSUM_MAX 16

/* The result of a function: 0 or above if it was done, below 0 if it was refused. A refused call has changed nothing. The exception is
 * BEK_ERR_LOST, which is also the result of the call in which the telegram was lost. */
typedef enum bek_result {
    BEK_OK = 0,
    BEK_NOTHING = 1,                 /* nothing waits, there is no deadline, or the end was not closed */
    BEK_UNSENT = 2,                  /* done, but a datagram had no room: it is lost as on the network, and counted */
    BEK_UNWISE = 3,                  /* an end opens with these settings, but works badly (bek_settings_fault) */
    BEK_ERR_NULL = -1,               /* a pointer is NULL */
    BEK_ERR_LENGTH = -2,             /* a length is above PTRDIFF_MAX */
    BEK_ERR_NOT_OPEN = -3,           /* the bek_end is not open */
    BEK_ERR_ALREADY_OPEN = -4,       /* the bek_end is open already */
    BEK_ERR_SETTINGS_SIZE = -5,      /* the size of the settings is not one of this library's: call bek_settings_init first */
    BEK_ERR_BAD_SETTINGS = -6,       /* the settings are invalid: bek_settings_fault names the wrong one */
    BEK_ERR_ROOMS = -7,              /* telegram_room or datagram_room is too small */
    BEK_ERR_NO_MEMORY = -8,          /* malloc failed */
    BEK_ERR_TIME = -9,               /* the time is before that of the last accepted call, or above 2^62 */
    BEK_ERR_TAKE_FIRST = -10,        /* too many telegrams wait: call bek_take until it returns BEK_NOTHING */
    BEK_ERR_SEND_FIRST = -11,        /* too many datagrams wait: call bek_next_datagram until it returns BEK_NOTHING */
    BEK_ERR_LOST = -12,              /* a telegram had no room: take those that wait, then call bek_reopen */
    BEK_ERR_TOO_SMALL = -13,         /* the buffer is too small; *length says what is needed, and nothing was taken */
    BEK_ERR_NOT_ESTABLISHED = -14,   /* the session is not in a phase in which this end may put */
    BEK_ERR_FULL = -15,              /* 64 messages wait: put again after the peer has confirmed some */
    BEK_ERR_RESERVED_KIND = -16,     /* the kind is one of the five of the session's establishment, 0x0021 to 0x0025 */
    BEK_ERR_TOO_LONG = -17,          /* the payload has more than BEK_PAYLOAD_MAX octets */
    BEK_ERR_NOT_INITIALISING = -18,  /* this end is not a field element in BEK_INITIALISING */
    BEK_ERR_PROCESSOR = -20,         /* the processor lacks instructions that this library needs (-19 is in bekwidas_toml.h) */
    BEK_ERR_COPIED = -21             /* the bek_end is a copy: it was made while another one was open, or moved in memory */
} bek_result;

/* The state of the connection (RaSTA), as bek_state returns it. */
typedef enum bek_connection {
    BEK_CLOSED = 0,   /* the connection is over, for good: bek_reopen begins another */
    BEK_DOWN = 1,     /* a field element that waits for an interlocking */
    BEK_START = 2,    /* the interlocking has requested, or the field element has answered */
    BEK_UP = 3,       /* connected */
    BEK_RETR_REQ = 4, /* something was lost on all channels, and a retransmission is requested */
    BEK_RETR_RUN = 5  /* the retransmission is running */
} bek_connection;

/* The phase of the session (SCI), as bek_phase returns it. */
typedef enum bek_session {
    BEK_IDLE = 0,          /* the connection is not up yet */
    BEK_CHECKING = 1,      /* interlocking: its version is sent */
    BEK_REQUESTING = 2,    /* interlocking: the initialisation is requested */
    BEK_AWAIT_CHECK = 3,   /* field element: waits for a version */
    BEK_AWAIT_REQUEST = 4, /* field element: waits for the request for initialisation */
    BEK_REFUSED = 5,       /* field element: has refused the version */
    BEK_INITIALISING = 6,  /* field element: puts its initial status, then calls bek_init_done; interlocking: takes that status */
    BEK_ESTABLISHED = 7,   /* commands and status are exchanged */
    BEK_ENDED = 8          /* the session is over */
} bek_session;

/* The sides of a connection. */
enum { BEK_INTERLOCKING = 1, BEK_FIELD_ELEMENT = 2 };

/* The settings of an end. Fill them by bek_settings_init, then set those without a default. bek_open tests all of them, and
 * bek_settings_fault names the first wrong one. Both ends need the same protocol, code and initial_value. */
typedef struct bek_settings {
    uint32_t size;             /* the size of these settings, set by bek_settings_init */
    uint32_t side;             /* BEK_INTERLOCKING or BEK_FIELD_ELEMENT. No default */
    uint32_t id;               /* the own identifier. No default */
    uint32_t peer_id;          /* the peer's identifier, a different one. No default */
    uint32_t first_sn;         /* the first sequence number: draw a random one for each opening. Default 1 */
    uint32_t protocol;         /* the protocol type of the session, 0 to 255. No default */
    uint32_t code;             /* octets of the safety code, 8 or 16. Default 8 */
    uint32_t channels;         /* 1 to BEK_CHANNELS_MAX. Default 2 */
    uint32_t n_sendmax;        /* how many units the peer may leave unconfirmed, 1 to 32. Default 20 */
    uint32_t n_maxpacket;      /* messages in a unit, 1 to 3. Default 3 */
    uint32_t q;                /* how many early parts can wait, 1 to 8. Default 4 */
    uint32_t t_max;            /* ms, 100 to 60000: the greatest age of the last confirmation. Default 1800 */
    uint32_t t_h;              /* ms, 10 to t_max - 1: the time between heartbeats. Default 300 */
    uint32_t t_seq;            /* ms, 10 to 1000: how long early parts wait. Default 50 */
    uint32_t mwa;              /* units taken before a heartbeat confirms them, 1 to 16. Default 10 */
    uint32_t pdu_limit;        /* PDUs of one connection, 100 to 4294901760. Default 4294901760 */
    uint32_t telegram_room;    /* telegrams that can wait for bek_take, at least 27: one call can deliver that many. Default 64 */
    uint32_t datagram_room;    /* datagrams that can wait for bek_next_datagram, at least 37 for each channel. Default 148 */
    uint32_t version_count;    /* PDI versions: 1 for an interlocking, 1 to 4 for a field element. No default */
    uint32_t checksum_length;  /* octets of checksum, 0 to 16. Default 0 */
    uint8_t versions[4];       /* the versions, all different. No default */
    uint8_t checksum[16];      /* what a field element answers a version check with; nothing compares it */
    uint8_t initial_value[16]; /* the initial value of the digest (MD4), as `iv` spells it in hex. Default: RFC 1320's */
    char name[24];             /* the own name: 1 to 20 characters 0x21 to 0x7e without '_', then a zero. No default */
    char peer_name[24];        /* the peer's name. No default */
} bek_settings;

/* One end. Its members belong to the library: set it to BEK_END_INIT before bek_open, and never copy it while it is open. */
typedef struct bek_end {
    void *station_;
    uint32_t is_open_;
    const void *place_;
} bek_end;
#define BEK_END_INIT { 0, 0, 0 }

/* What waits for you, what was lost, and how often the end was opened. */
typedef struct bek_counts {
    uint64_t telegrams; /* telegrams that wait for bek_take */
    uint64_t datagrams; /* datagrams that wait for bek_next_datagram */
    uint64_t unsent;    /* datagrams that had no room since the end was opened, modulo 2^64 */
    uint64_t openings;  /* how often the end was opened, modulo 2^64: bek_open is the first opening */
} bek_counts;

/* In place of a time, if there is none. */
#define BEK_NEVER UINT64_MAX

/* The datagrams that came on one channel since the end was opened. Each but `received` says what the redundancy layer did; a closed end does nothing. */
typedef struct bek_reception {
    uint64_t received; /* all that came */
    uint64_t passed;   /* with the expected number */
    uint64_t deferred; /* early: deferred */
    uint64_t old;      /* with a number below the expected one: received before on any channel, or given up */
    uint64_t repeated; /* early, with a number that was deferred already */
    uint64_t far;      /* with a number that is too far ahead */
    uint64_t full;     /* early, while every place was taken */
    uint64_t damaged;  /* no redundancy PDU; bek_statistics has them by fault */
    uint64_t last;     /* the time of the last redundancy PDU that was not too far ahead, or BEK_NEVER */
} bek_reception;

/* The datagrams of one channel that are no redundancy PDU, by fault. */
typedef struct bek_channel_faults {
    uint64_t too_short;  /* fewer octets than a header */
    uint64_t bad_length; /* the length field differs from the number of octets, or there are too many */
    uint64_t reserve;    /* the reserve is not zero */
} bek_channel_faults;

/* The PDUs that went up and are no safety PDU with a valid safety code, by fault. */
typedef struct bek_part_faults {
    uint64_t too_short;  /* fewer octets than a header and the safety code need */
    uint64_t bad_length; /* the length field differs from the number of octets, or there are too many */
    uint64_t bad_code;   /* the safety code is not that of the octets */
    uint64_t bad_type;   /* the type is not one of the eight */
    uint64_t bad_body;   /* the body does not fit the type */
} bek_part_faults;

/* What an end has counted since it was opened, modulo 2^64. Times are in milliseconds. */
typedef struct bek_statistics {
    bek_reception channels[BEK_CHANNELS_MAX]; /* channel 1 first */
    /* PDUs that went up to the safety layer. One that ends the connection is not counted. */
    uint64_t taken;
    uint64_t gaps;         /* revealed a gap, so that a retransmission was requested */
    uint64_t damaged;      /* dropped: no safety PDU with a valid safety code; part_faults has them by fault */
    uint64_t strangers;    /* dropped: another receiver or sender */
    uint64_t unopened;     /* dropped: no ConnReq, while the end waits for one */
    uint64_t far;          /* dropped: the sequence number is too far ahead */
    uint64_t unrequested;  /* dropped: not the RetrResp that the end waits for */
    uint64_t answered;     /* dropped: a RetrReq that was answered before */
    uint64_t below;        /* dropped: a RetrReq that confirms less than was confirmed before */
    uint64_t oldest;       /* the greatest age of a timestamp that a PDU confirmed when it was taken */
    uint64_t longest_wait; /* the longest time without a confirmation before a PDU was taken: t_max less this is the least margin */
    /* PDUs that the end made. */
    uint64_t units;      /* units sent for the first time */
    uint64_t resent;     /* units sent again */
    uint64_t heartbeats;
    uint64_t requests;   /* retransmissions requested */
    uint64_t answers;    /* retransmissions granted */
    uint64_t confirmed;  /* units that the peer has confirmed */
    uint64_t expired_deferrals; /* how often t_seq passed while datagrams were deferred: what was missing before them was given up */
    bek_channel_faults channel_faults[BEK_CHANNELS_MAX]; /* channel 1 first */
    bek_part_faults part_faults;
} bek_statistics;

/* Who ended a connection. */
enum { BEK_BY_OWN = 1, BEK_BY_PEER = 2 };

/* In place of a version, which is 0 to 255. */
#define BEK_NO_VERSION 256

/* Who ended the connection, why and when. */
typedef struct bek_leaving {
    uint64_t time;    /* the time of the call in which the end was closed */
    uint32_t by;      /* BEK_BY_OWN or BEK_BY_PEER */
    uint32_t reason;  /* the number of the reason, as in a DiscReq; bek_leaving_text says what it means */
    uint32_t detail;  /* the number of the detail beside the reason */
    uint32_t version; /* the peer's PDI version if this end left because the versions differ, otherwise BEK_NO_VERSION */
} bek_leaving;

/* What the two ends agreed on in the version check. */
typedef struct bek_agreement {
    uint32_t version;         /* the PDI version: the interlocking asked for it, and the field element accepted it */
    uint32_t checksum_length; /* 0 to BEK_CHECKSUM_MAX */
    uint8_t checksum[BEK_CHECKSUM_MAX]; /* that of the field element's reply, then zeros. Nothing compares it: compare it at the interlocking */
} bek_agreement;

/* What a note is about. */
enum {
    BEK_NOTE_STATE = 1,    /* the connection has changed to the state `value` */
    BEK_NOTE_PHASE = 2,    /* the session has changed to the phase `value` */
    BEK_NOTE_DATAGRAM = 3, /* what the redundancy layer did with a datagram: `value` is one of BEK_DATAGRAM_.. */
    BEK_NOTE_PDU = 4,      /* what the safety layer did with a PDU that went up: `value` is one of BEK_PDU_.. */
    BEK_NOTE_TAKE = 5,     /* a telegram of the kind `value` was taken */
    BEK_NOTE_LEFT_OUT = 6  /* `count` notes had no room here */
};

/* What the redundancy layer did with a datagram, as in bek_reception. */
enum {
    BEK_DATAGRAM_PASSED = 0, BEK_DATAGRAM_DEFERRED = 1, BEK_DATAGRAM_OLD = 2, BEK_DATAGRAM_REPEATED = 3,
    BEK_DATAGRAM_FAR = 4, BEK_DATAGRAM_FULL = 5, BEK_DATAGRAM_DAMAGED = 6
};

/* What the safety layer did with a PDU, as in bek_statistics; with LEFT it closed the connection, and with CLOSED the end was closed, or a DiscReq
 * closed it. */
enum {
    BEK_PDU_TAKEN = 0, BEK_PDU_GAP = 1, BEK_PDU_LEFT = 2, BEK_PDU_CLOSED = 3, BEK_PDU_DAMAGED = 4, BEK_PDU_STRANGER = 5,
    BEK_PDU_UNOPENED = 6, BEK_PDU_FAR = 7, BEK_PDU_UNREQUESTED = 8, BEK_PDU_ANSWERED = 9, BEK_PDU_BELOW = 10
};

/* One thing that an end did. bek_note_text says what it means. */
typedef struct bek_note {
    uint64_t count;  /* of BEK_NOTE_LEFT_OUT, otherwise 0 */
    uint32_t what;   /* one of BEK_NOTE_.. */
    int32_t value;   /* as `what` says */
    uint32_t number; /* the redundancy number of a datagram or PDU, or 0 */
    uint32_t fault;  /* the test that a damaged datagram (1 to 3) or PDU (1 to 5) failed, otherwise 0 */
} bek_note;

/* Returns the version of the library, as BEK_VERSION. */
BEK_MUST_USE uint32_t bek_version(void);

/* Writes the version of the library and the commit that it was built from, such as "0.3.0, commit 0123456789ab", in ASCII, cut to `size` octets with a
 * zero at the end, and returns the length of the whole text without the zero. The commit ends with "-changed" if sources were changed after it, and is
 * "unknown" if they were not in a clone. ", NOT PROVED" follows if the library was compiled without a proof. */
size_t bek_version_text(char *text, size_t size);

/* Fills settings with the defaults above and zeros. `size` is sizeof(bek_settings) of your header: no octet after it is written.
 *
 * BEK_OK; or the first that holds, and nothing is written: BEK_ERR_NULL, BEK_ERR_SETTINGS_SIZE (no version up to this library's had settings of
 * this size). */
BEK_MUST_USE int bek_settings_init(bek_settings *settings, size_t size);

/* Tests settings before you open an end. Writes the number of the first wrong member to *field (its place in bek_settings, from 1 on; 0 if none
 * is wrong), and a sentence with its name, value and range to `text`, cut to `size` octets with a zero at the end. `text` may be NULL if `size`
 * is 0.
 *
 * BEK_OK; BEK_UNWISE if an end opens with these settings, but works badly: mwa is not below n_sendmax (the peer then stops until a
 * heartbeat), t_seq is not below t_max (parts are then too old), n_sendmax + 2 + n_sendmax / mwa is above q (a burst after one lost datagram can overrun
 * the queue of early parts: choose a smaller window, such as n_sendmax 5, mwa 3 and q 8; the defaults are of this kind), or first_sn is 1, the default (a
 * random one tells two openings apart); BEK_ERR_NULL; BEK_ERR_LENGTH; or the result with which bek_open refuses these settings: BEK_ERR_SETTINGS_SIZE,
 * BEK_ERR_BAD_SETTINGS, BEK_ERR_ROOMS. */
BEK_MUST_USE int bek_settings_fault(const bek_settings *settings, uint32_t *field, char *text, size_t size);

/* Writes the rooms for as many channels as the settings have, with which no call returns BEK_UNSENT if you drain after each call: 27 telegrams,
 * and 333 datagrams for each channel. Both rooms may be smaller; see BEK_UNSENT in docs/c.md.
 *
 * BEK_OK; BEK_ERR_NULL; BEK_ERR_BAD_SETTINGS if `channels` is not 1 to 4. */
BEK_MUST_USE int bek_rooms(const bek_settings *settings, uint32_t *telegrams, uint32_t *datagrams);

/* Opens an end with these settings at this time. An interlocking requests the connection at once: fetch the datagrams. A field element waits.
 * This is the only function that allocates.
 *
 * BEK_OK; or the first that holds: BEK_ERR_NULL, BEK_ERR_PROCESSOR, BEK_ERR_ALREADY_OPEN, BEK_ERR_SETTINGS_SIZE, BEK_ERR_BAD_SETTINGS (side,
 * protocol, names, lists), BEK_ERR_TIME, BEK_ERR_BAD_SETTINGS (numbers out of range), BEK_ERR_ROOMS, BEK_ERR_NO_MEMORY. Unless it is BEK_OK, no
 * memory stays allocated. */
BEK_MUST_USE int bek_open(bek_end *end, const bek_settings *settings, uint64_t now);

/* Opens an end again with the settings that bek_open had, and with another first_sn: draw a random one. It uses the memory that the end has. The end
 * is then as bek_open leaves it: nothing is put, confirmed or unsent yet, and an interlocking requests the connection at once. Only the last departure and
 * the sums of the counts are kept (bek_departure, bek_totals_of). Call it if bek_is_stale returns 1, or at any other time. Datagrams of the old connection that wait are dropped, and nothing more is sent on it: to inform the peer, call
 * bek_close before, and send what waits.
 *
 * BEK_OK; or the first that holds, and nothing has changed: BEK_ERR_NULL, BEK_ERR_NOT_OPEN, BEK_ERR_TIME, BEK_ERR_TAKE_FIRST (a telegram of the old
 * connection waits). If you drain after each call, it never returns the last one. */
BEK_MUST_USE int bek_reopen(bek_end *end, uint32_t first_sn, uint64_t now);

/* Frees the memory of an end, and leaves BEK_END_INIT. It sends nothing: to inform the peer, call bek_close before, and send what waits. If `end`
 * is NULL or not open, nothing happens. */
void bek_free(bek_end *end);

/* Passes in a datagram that was received on a channel (numbered from 1; the number does not matter). It may have any octets. A closed end ignores
 * it. Then take what waits.
 *
 * BEK_OK, also for a datagram that is not of the peer; BEK_UNSENT; or the first that holds: BEK_ERR_NULL, BEK_ERR_LENGTH, BEK_ERR_NOT_OPEN,
 * BEK_ERR_TIME, BEK_ERR_LOST, BEK_ERR_TAKE_FIRST, BEK_ERR_SEND_FIRST. If you drain after each call, it never returns the last two. It returns them only
 * until t_max has passed since the peer last confirmed anything: then the call ends the connection, takes nothing, and needs no room. */
BEK_MUST_USE int bek_arrive(bek_end *end, uint32_t channel, const uint8_t *octets, size_t length, uint64_t now);

/* Lets time pass: heartbeats, the end of the connection if nothing recent was confirmed, early parts released. Call it at bek_next_deadline or
 * before. More calls do no harm.
 *
 * The results are those of bek_arrive. */
BEK_MUST_USE int bek_tick(bek_end *end, uint64_t now);

/* Writes the next time at which bek_tick will do something, if nothing arrives, nothing is put and nothing is taken before. It may be in the past. If
 * bek_tick returns BEK_ERR_TAKE_FIRST or BEK_ERR_SEND_FIRST, it is the time at which t_max ends the connection. If the end must be opened again, it is
 * the time from which bek_is_stale returns 1.
 *
 * BEK_OK; BEK_NOTHING if no bek_tick does anything until something arrives: in BEK_CLOSED if bek_is_stale returns 1, in BEK_DOWN if no early part waits,
 * and after BEK_ERR_LOST. Then *deadline is not written: wait for a socket without a time limit. BEK_ERR_NULL; BEK_ERR_NOT_OPEN. */
BEK_MUST_USE int bek_next_deadline(const bek_end *end, uint64_t *deadline);

/* Puts a command (interlocking) or status (field element) with a kind and 0 to BEK_PAYLOAD_MAX octets. It is copied, and sent after everything
 * that waits. If the peer takes it, it takes it once and in order. That the peer takes it is not promised: bek_confirmed counts
 * those that it has certainly taken.
 *
 * BEK_OK; BEK_UNSENT; or the first that holds: BEK_ERR_NULL, BEK_ERR_LENGTH, BEK_ERR_NOT_OPEN, BEK_ERR_TIME, BEK_ERR_LOST, BEK_ERR_SEND_FIRST,
 * BEK_ERR_NOT_ESTABLISHED, BEK_ERR_FULL, BEK_ERR_RESERVED_KIND, BEK_ERR_TOO_LONG. A field element may put in BEK_INITIALISING and
 * BEK_ESTABLISHED. */
BEK_MUST_USE int bek_put(bek_end *end, uint16_t kind, const uint8_t *payload, size_t length, uint64_t now);

/* Says that the initial status of this field element is complete. Call it once, in BEK_INITIALISING.
 *
 * BEK_OK; BEK_UNSENT; or the first that holds: BEK_ERR_NULL, BEK_ERR_NOT_OPEN, BEK_ERR_TIME, BEK_ERR_LOST, BEK_ERR_SEND_FIRST,
 * BEK_ERR_NOT_INITIALISING, BEK_ERR_FULL. */
BEK_MUST_USE int bek_init_done(bek_end *end, uint64_t now);

/* Disconnects with reason 0 (closed by the user). Send what bek_next_datagram then has. It needs no free room.
 *
 * BEK_OK, also if there is no connection; BEK_UNSENT; BEK_ERR_NULL, BEK_ERR_NOT_OPEN, BEK_ERR_TIME. An end that has lost a telegram is closed
 * too, but returns BEK_ERR_LOST. */
BEK_MUST_USE int bek_close(bek_end *end, uint64_t now);

/* Takes the oldest telegram that waits: writes its kind, its payload to a buffer of `size` octets, and its length. Use a buffer of BEK_PAYLOAD_MAX
 * octets: it is always large enough. With a smaller one, a longer telegram returns BEK_ERR_TOO_SMALL and stays the oldest, so that
 * no later one can be taken.
 *
 * BEK_OK; BEK_NOTHING; BEK_ERR_NULL, BEK_ERR_LENGTH, BEK_ERR_NOT_OPEN, BEK_ERR_TOO_SMALL. */
BEK_MUST_USE int bek_take(bek_end *end, uint16_t *kind, uint8_t *payload, size_t size, size_t *length);

/* Takes the oldest datagram that waits to be sent: writes its channel, its octets to a buffer of `size` octets, and its length. A buffer of
 * BEK_DATAGRAM_MAX octets is always large enough. Call it after each other call until it returns BEK_NOTHING. You may drop a datagram
 * that you cannot send: that is a loss on one channel, which the protocol tolerates.
 *
 * BEK_OK; BEK_NOTHING; BEK_ERR_NULL, BEK_ERR_LENGTH, BEK_ERR_NOT_OPEN, BEK_ERR_TOO_SMALL. */
BEK_MUST_USE int bek_next_datagram(bek_end *end, uint32_t *channel, uint8_t *octets, size_t size, size_t *length);

/* Returns the state of the connection (bek_connection), BEK_ERR_NOT_OPEN or BEK_ERR_NULL. */
BEK_MUST_USE int bek_state(const bek_end *end);

/* Returns the phase of the session (bek_session), BEK_ERR_NOT_OPEN or BEK_ERR_NULL. */
BEK_MUST_USE int bek_phase(const bek_end *end);

/* Returns 1 if you must open this end again now (bek_reopen), 0 if not: it is closed, or it is a field element in BEK_DOWN that has already accepted
 * a datagram and therefore may miss the next request; and it has waited long enough, up to the time of the last accepted call. A field element waits
 * t_max/8 after it was opened. An interlocking waits t_max/4 after it was closed, so that the field element is ready for its request, and also t_max/4
 * after it was opened, t_max/2 after an opening that lasted less than 2 t_max, and t_max after several of those. BEK_ERR_NOT_OPEN or BEK_ERR_NULL. */
BEK_MUST_USE int bek_is_stale(const bek_end *end);

/* Returns 1 if the end is not closed and the peer has taken everything put, otherwise 0; BEK_ERR_NOT_OPEN or BEK_ERR_NULL. */
BEK_MUST_USE int bek_settled(const bek_end *end);

/* Writes how many of the telegrams put since the opening are certain: the peer has taken the first *count of them. The others are in doubt. You can
 * also call it after the end is closed, before bek_reopen.
 *
 * BEK_OK; BEK_ERR_NULL, BEK_ERR_NOT_OPEN. */
BEK_MUST_USE int bek_confirmed(const bek_end *end, uint64_t *count);

/* Writes the own time that the peer last confirmed. A telegram taken came in a PDU that confirms a PDU which this end made at that time or later.
 * BEK_OK; BEK_ERR_NULL, BEK_ERR_NOT_OPEN. */
BEK_MUST_USE int bek_confirmed_time(const bek_end *end, uint64_t *time);

/* Writes who ended the last connection, why and when: the present one if it has ended, otherwise the last one before bek_reopen. BEK_OK; BEK_NOTHING if
 * no connection of this end has ended, and nothing is written; BEK_ERR_NULL, BEK_ERR_LENGTH, BEK_ERR_NOT_OPEN. */
BEK_MUST_USE int bek_departure(const bek_end *end, bek_leaving *leaving, size_t size);

/* Writes the PDI version that was agreed, and the checksum of the field element's reply. They are known before the first telegram is put or taken: at
 * an interlocking from BEK_REQUESTING on, at a field element from BEK_AWAIT_REQUEST on. They stay after the end is closed, until bek_reopen.
 *
 * BEK_OK; BEK_NOTHING if nothing was agreed, and nothing is written; BEK_ERR_NULL, BEK_ERR_LENGTH, BEK_ERR_NOT_OPEN. */
BEK_MUST_USE int bek_agreed(const bek_end *end, bek_agreement *agreement, size_t size);

/* Writes what a departure means, in ASCII, cut to `size` octets with a zero at the end, and returns the length of the whole text without the zero.
 * If `leaving` is NULL, the text is empty. */
size_t bek_leaving_text(const bek_leaving *leaving, char *text, size_t size);

/* Writes what waits for you, what was lost, and how often the end was opened. BEK_OK; BEK_ERR_NULL, BEK_ERR_LENGTH, BEK_ERR_NOT_OPEN. */
BEK_MUST_USE int bek_counts_of(const bek_end *end, bek_counts *counts, size_t size);

/* Writes what the end has counted since it was opened, by bek_open or bek_reopen. BEK_OK; BEK_ERR_NULL, BEK_ERR_LENGTH, BEK_ERR_NOT_OPEN. */
BEK_MUST_USE int bek_statistics_of(const bek_end *end, bek_statistics *statistics, size_t size);

/* Writes the sums of these counts over all openings, that of now among them; `oldest` and `longest_wait` are the greatest, `last` is the latest. An end
 * that never gets a session shows there why: `strangers` for a wrong identifier, `bad_code` for another code or initial value. BEK_OK; BEK_ERR_NULL,
 * BEK_ERR_LENGTH, BEK_ERR_NOT_OPEN. */
BEK_MUST_USE int bek_totals_of(const bek_end *end, bek_statistics *totals, size_t size);

/* Keeps notes of what the end does from now on if `on` is not 0, and no longer if it is 0; those that wait are dropped. A new end keeps none, and
 * bek_reopen leaves this as it is. As long as none is kept, this costs one test for each datagram.
 *
 * BEK_OK; BEK_ERR_NULL, BEK_ERR_NOT_OPEN. */
BEK_MUST_USE int bek_hear_notes(bek_end *end, int on);

/* Fetches the oldest note. Fetch all after each call: then they are those of the call. Up to 128 wait; if a call makes more, the last one fetched says
 * how many had no room.
 *
 * BEK_OK; BEK_NOTHING if no note waits, and nothing is written; BEK_ERR_NULL, BEK_ERR_LENGTH, BEK_ERR_NOT_OPEN. */
BEK_MUST_USE int bek_next_note(bek_end *end, bek_note *note, size_t size);

/* Writes what a note means, in ASCII, cut to `size` octets with a zero at the end, and returns the length of the whole text without the zero. If
 * `note` is NULL, the text is empty. */
size_t bek_note_text(const bek_note *note, char *text, size_t size);

/* Writes what a result means, in ASCII, cut to `size` octets with a zero at the end, and returns the length of the whole text without the zero. It
 * knows the results of bekwidas_toml.h, too. */
size_t bek_fault_text(int result, char *text, size_t size);

#ifdef __cplusplus
}
#endif

#endif
