/* Makes the calls of an end that cost most, each once or often, and prints a line for each: settings, call, what it does, datagrams made, nanoseconds
 * (least and median). bench/worst reads them, and counts the instructions of `measured`.
 *     worst RUNS [FOUND ..]          FOUND as the search prints it
 *     worst 1 search TRIES           searches for dearer calls
 * The end is an interlocking of the library. Its peer is made here, so that it can send any PDU. */
#define _POSIX_C_SOURCE 200809L
#include "bekwidas.h"
#include "c_end.h"

#include <stdio.h>
#include <stdlib.h>
#include <string.h>
#include <time.h>

enum { NOW = 1000, T_SEQ = 50, T_H = 59999, KEPT = 10, TELEGRAM = 0x0100, MOST_UNITS = WAITING_MAX / UNIT_MESSAGES, RUNS_MAX = 1001 };

/* The peer: the numbers of its next PDU, and the end's PDU that it confirms. */
struct peer {
    uint32_t number, sn, confirms_sn, confirms_ts;
};

/* A datagram that the peer has made. */
struct datagram {
    size_t size;
    uint8_t octets[BEK_DATAGRAM_MAX];
};

static struct settings { const char *name; uint32_t channels, code, n_sendmax, q, mwa; } const all_settings[] = {
    {"defaults", 2, 8, 20, 4, 10}, {"greatest", 4, 16, 32, 8, 1}};
static const struct settings *set;
static bek_end end = BEK_END_INIT;
static struct peer peer;
static uint32_t seen_sn, seen_ts;  /* of the end's last PDU */
static struct datagram made[KEPT];
static uint8_t longest[BEK_PAYLOAD_MAX];

static void must(int holds, int line) {
    if (holds) return;
    printf("worst.c:%d: the end is not in the state that was meant\n", line);
    exit(1);
}
#define MUST(holds) must((holds), __LINE__)

static double nanoseconds(void) {
    struct timespec now;
    clock_gettime(CLOCK_THREAD_CPUTIME_ID, &now);
    return (double)now.tv_sec * 1e9 + (double)now.tv_nsec;
}

static uint32_t number32(const uint8_t *at) {
    uint32_t number;
    memcpy(&number, at, sizeof number);
    return number;
}
static void put16(uint8_t *at, uint32_t number) { memcpy(at, &number, 2); }
static void put32(uint8_t *at, uint32_t number) { memcpy(at, &number, 4); }

/* Takes everything that waits; the peer then confirms the end's last PDU if `confirms`. */
static void drain(int confirms) {
    static uint8_t octets[BEK_DATAGRAM_MAX];
    uint32_t channel;
    uint16_t kind;
    size_t length;
    while (bek_next_datagram(&end, &channel, octets, sizeof octets, &length) == BEK_OK) {
        seen_sn = number32(octets + RED_HEADER + 12);
        seen_ts = number32(octets + RED_HEADER + 20);
        if (confirms) peer.confirms_sn = seen_sn, peer.confirms_ts = seen_ts;
    }
    while (bek_take(&end, &kind, octets, sizeof octets, &length) == BEK_OK) {}
}

/* Makes the peer's next PDU. */
static void make(struct datagram *to, enum kind kind, const uint8_t *body, size_t body_size) {
    static const uint32_t initial_value[4] = {0x67452301, 0xefcdab89, 0x98badcfe, 0x10325476};
    uint8_t *pdu = to->octets + RED_HEADER;
    size_t front = SAFE_HEADER + body_size;
    uint32_t digest[4];
    to->size = RED_HEADER + front + set->code;
    put16(to->octets, (uint32_t)to->size);
    put16(to->octets + 2, 0);
    put32(to->octets + 4, peer.number++);
    put16(pdu, (uint32_t)(front + set->code));
    put16(pdu + 2, kind);
    put32(pdu + 4, 1);
    put32(pdu + 8, 2);
    put32(pdu + 12, peer.sn++);
    put32(pdu + 16, peer.confirms_sn);
    put32(pdu + 20, NOW);
    put32(pdu + 24, peer.confirms_ts);
    if (body_size > 0) memcpy(pdu + SAFE_HEADER, body, body_size);
    c_md4(initial_value, pdu, front, digest);
    memcpy(pdu + front, digest, set->code);
}

/* Makes a Data of telegrams with payloads of this size. */
static void make_data(struct datagram *to, int telegrams, size_t payload_size) {
    uint8_t unit[UNIT_MAX], *at = unit;
    for (int i = 0; i < telegrams; i++) {
        put16(at, (uint32_t)(MESSAGE_HEADER + payload_size));
        at[2] = 1;
        put16(at + 3, TELEGRAM);
        memset(at + 5, '_', NAMES);
        memcpy(at + 5, "FE1", 3);
        memcpy(at + 5 + NAMES / 2, "IL1", 3);
        memcpy(at + 5 + NAMES, longest, payload_size);
        at += MESSAGE_LENGTH + MESSAGE_HEADER + payload_size;
    }
    make(to, DATA, unit, (size_t)(at - unit));
}

static int arrives(const struct datagram *datagram, uint64_t now) { return bek_arrive(&end, 1, datagram->octets, datagram->size, now); }

/* Delivers the peer's next PDU of this kind without a body. */
static void deliver(enum kind kind) {
    static struct datagram datagram;
    make(&datagram, kind, NULL, 0);
    MUST(arrives(&datagram, NOW) == BEK_OK);
}

/* Opens the end, and a session with an end of the library, whose place the peer then takes. */
static void open_end(void) {
    static uint8_t octets[BEK_DATAGRAM_MAX];
    bek_settings settings;
    bek_end other = BEK_END_INIT;
    uint32_t channel;
    size_t length;
    int some = 1;
    bek_free(&end);
    MUST(bek_settings_init(&settings, sizeof settings) == BEK_OK);
    settings.side = BEK_INTERLOCKING, settings.id = 1, settings.peer_id = 2, settings.protocol = 1, settings.version_count = 1, settings.versions[0] = 1;
    strcpy(settings.name, "IL1"), strcpy(settings.peer_name, "FE1");
    settings.channels = set->channels, settings.code = set->code, settings.n_sendmax = set->n_sendmax, settings.q = set->q, settings.mwa = set->mwa;
    settings.t_max = 60000, settings.t_h = T_H, settings.t_seq = T_SEQ;
    MUST(bek_rooms(&settings, &settings.telegram_room, &settings.datagram_room) == BEK_OK);
    MUST(bek_open(&end, &settings, NOW) == BEK_OK);
    settings.side = BEK_FIELD_ELEMENT, settings.id = 2, settings.peer_id = 1, settings.first_sn = 5000;
    strcpy(settings.name, "FE1"), strcpy(settings.peer_name, "IL1");
    MUST(bek_open(&other, &settings, NOW) == BEK_OK);
    while (some) {
        some = 0;
        for (; bek_next_datagram(&end, &channel, octets, sizeof octets, &length) == BEK_OK; some = 1) {
            peer.confirms_sn = seen_sn = number32(octets + RED_HEADER + 12), peer.confirms_ts = seen_ts = NOW;
            MUST(bek_arrive(&other, channel, octets, length, NOW) == BEK_OK);
        }
        if (bek_phase(&other) == BEK_INITIALISING) MUST(bek_init_done(&other, NOW) == BEK_OK);
        for (; bek_next_datagram(&other, &channel, octets, sizeof octets, &length) == BEK_OK; some = 1) {
            peer.number = number32(octets + 4) + 1, peer.sn = number32(octets + RED_HEADER + 12) + 1;
            MUST(bek_arrive(&end, channel, octets, length, NOW) == BEK_OK);
        }
    }
    bek_free(&other);
    MUST(bek_phase(&end) == BEK_ESTABLISHED);
    deliver(HEARTBEAT);
    drain(1);
}

/* Fills the window with units of three longest telegrams. They are packed while a retransmission is requested, since nothing is sent then. */
static void fill_window(void) {
    for (uint32_t left = set->n_sendmax, units; left > 0; left -= units) {
        units = left < MOST_UNITS ? left : MOST_UNITS;
        peer.sn++;  /* (a PDU is lost) */
        deliver(HEARTBEAT);
        for (uint32_t i = 0; i < units * UNIT_MESSAGES; i++) MUST(bek_put(&end, TELEGRAM, longest, sizeof longest, NOW) == BEK_OK);
        drain(0);
        deliver(RETR_RESP);
        drain(0);
    }
    deliver(HEARTBEAT);
    MUST(bek_state(&end) == BEK_UP);
    drain(0);
}

/* Makes as many parts as one call processes, of one kind, the first one in made[0]. */
static void make_parts(enum kind kind) {
    for (uint32_t i = 0; i <= set->q; i++) {
        if (kind == DATA) make_data(&made[i], UNIT_MESSAGES, BEK_PAYLOAD_MAX);
        else make(&made[i], kind, NULL, 0);
    }
}

/* Lets all of them wait but the first one. */
static void defer_parts(void) {
    for (uint32_t i = 1; i <= set->q; i++) MUST(arrives(&made[i], NOW) == BEK_OK);
}

/* What a case prepares: the end, and the datagram in made[0]. */
static void prepare_copy(void) {
    make_data(&made[0], 1, 1);
    MUST(arrives(&made[0], NOW) == BEK_OK);
}
static void prepare_short(void) { make_data(&made[0], 1, 1); }
static void prepare_longest(void) { make_data(&made[0], UNIT_MESSAGES, BEK_PAYLOAD_MAX); }
static void prepare_opening(void) {
    fill_window();
    for (int i = 0; i < WAITING_MAX; i++) MUST(bek_put(&end, TELEGRAM, longest, sizeof longest, NOW) == BEK_OK);
    peer.confirms_sn += set->n_sendmax + (set->n_sendmax + MOST_UNITS - 1) / MOST_UNITS;  /* (all units, and the RetrReqs) */
    make(&made[0], HEARTBEAT, NULL, 0);
}
static void prepare_request(void) {
    fill_window();
    make(&made[0], RETR_REQ, NULL, 0);
}
static void prepare_all_data(void) {
    make_parts(DATA);
    defer_parts();
}
static void prepare_all_requests(void) {
    fill_window();
    make_parts(RETR_REQ);
    defer_parts();
}
/* The first part is lost: made[0] is the one after those that wait. */
static void prepare_overdue(enum kind kind) {
    make_parts(kind);
    defer_parts();
    make(&made[0], kind, NULL, 0);
}
static void prepare_overdue_data(void) { prepare_overdue(DATA); }
static void prepare_overdue_requests(void) {
    fill_window();
    prepare_overdue(RETR_REQ);
}
static void prepare_nothing(void) {}
static void prepare_full(void) {
    fill_window();
    for (int i = 0; i < WAITING_MAX - 1; i++) MUST(bek_put(&end, TELEGRAM, longest, sizeof longest, NOW) == BEK_OK);
}

static int arrive_now(void) { return arrives(&made[0], NOW); }
static int arrive_late(void) { return arrives(&made[0], NOW + T_SEQ); }
static int tick_now(void) { return bek_tick(&end, NOW); }
static int tick_at_heartbeat(void) { return bek_tick(&end, NOW + T_H); }
static int tick_late(void) { return bek_tick(&end, NOW + T_SEQ); }
static int put_short(void) { return bek_put(&end, TELEGRAM, longest, 1, NOW); }
static int put_longest(void) { return bek_put(&end, TELEGRAM, longest, sizeof longest, NOW); }

static const struct call_case { const char *call, *what; void (*prepare)(void); int (*call_once)(void); } cases[] = {
    {"arrive", "second copy", prepare_copy, arrive_now},
    {"arrive", "Data of 1 byte", prepare_short, arrive_now},
    {"arrive", "longest Data", prepare_longest, arrive_now},
    {"arrive", "heartbeat that opens the window for 64 telegrams", prepare_opening, arrive_now},
    {"arrive", "RetrReq, window full", prepare_request, arrive_now},
    {"arrive", "longest Data, q more waited for it", prepare_all_data, arrive_now},
    {"arrive", "RetrReq, window full, q more waited for it", prepare_all_requests, arrive_now},
    {"arrive", "RetrReq, window full, q more overdue", prepare_overdue_requests, arrive_late},
    {"tick", "nothing due", prepare_nothing, tick_now},
    {"tick", "heartbeat due", prepare_nothing, tick_at_heartbeat},
    {"tick", "q longest Data overdue", prepare_overdue_data, tick_late},
    {"tick", "q RetrReqs overdue, window full", prepare_overdue_requests, tick_late},
    {"put", "1 byte", prepare_nothing, put_short},
    {"put", "357 bytes", prepare_nothing, put_longest},
    {"put", "357 bytes, window full", prepare_full, put_longest}};

static __attribute__((noinline)) int measured(int (*call_once)(void)) {
    int result = call_once();
    __asm__ volatile("");  /* (so that this is a call of its own) */
    return result;
}

static int call_nothing(void) { return BEK_OK; }

/* The processor time of one call; the clock itself takes some of it. */
static double call_time(int (*call_once)(void), int *result) {
    double start = nanoseconds();
    *result = measured(call_once);
    return nanoseconds() - start;
}

static int compare(const void *a, const void *b) { return (*(const double *)a > *(const double *)b) - (*(const double *)a < *(const double *)b); }

/* Prints the line of a case from the times of its call, and from those of a call that does nothing. */
static void print_line(const char *call, const char *what, double *times, double *of_nothing, int runs) {
    bek_counts counts = {0, 0, 0};
    MUST(bek_counts_of(&end, &counts, sizeof counts) == BEK_OK);
    qsort(times, (size_t)runs, sizeof *times, compare);
    qsort(of_nothing, (size_t)runs, sizeof *of_nothing, compare);
    printf("%s|%s|%s|%llu|%.0f|%.0f\n", set->name, call, what, (unsigned long long)counts.datagrams, times[0] - of_nothing[0],
           times[runs / 2] - of_nothing[0]);
}

/* Makes the call of a case this many times, each on a new end, and prints its line. */
static void run(const struct call_case *it, int runs) {
    static double times[RUNS_MAX], of_nothing[RUNS_MAX];
    for (int i = 0; i < runs; i++) {
        int result;
        open_end();
        it->prepare();
        drain(0);
        times[i] = call_time(it->call_once, &result);
        MUST(result == BEK_OK && bek_phase(&end) == BEK_ESTABLISHED);
        of_nothing[i] = call_time(call_nothing, &result);
    }
    print_line(it->call, it->what, times, of_nothing, runs);
}

/* ---- A search for dearer calls. A sequence of letters prepares an end; the last one is the call. Small letters and digits:
 *   h r s d D  the peer's next PDU arrives: heartbeat, RetrReq, RetrResp, short Data, longest Data
 *   H R S E F  the same, but its number comes after one that is missing: it is deferred. The first of them is the one that is missing, made and kept
 *   l          a PDU of the peer is lost
 *   c          the peer has received all that the end sent
 *   1 2 3      puts of 1, 8, 32 longest telegrams
 * The call: a (the next heartbeat, or the missing part), q (the next RetrReq, or the missing part), b (the next RetrReq after T_seq: what is missing is
 * lost), t (tick after T_seq), u (tick after T_h), p (a longest put). */
static const char acts[] = "hrsdDHRSEFlc123", *const calls_of[] = {"abq", "tu", "p"}, *const call_names[] = {"arrive", "tick", "put"};
/* Where the first search begins: the dearest cases above. The others begin with the call alone. */
static const char *const begins[] = {"lh33slh33shRRRRRRRRRb", "lh33slh33shRRRRRRRRRt", "p"};
enum { LONGEST = 60, LEAST_RUNS = 15 };
static int has_missing;

static enum kind kind_of(char letter) {
    const char *at = strchr("hrsdDHRSEF", letter);
    static const enum kind kinds[] = {HEARTBEAT, RETR_REQ, RETR_RESP, DATA, DATA};
    return kinds[(at - "hrsdDHRSEF") % 5];
}

static void make_of(struct datagram *to, char letter) {
    if (kind_of(letter) == DATA) make_data(to, letter == 'd' || letter == 'E' ? 1 : UNIT_MESSAGES, letter == 'd' || letter == 'E' ? 1 : BEK_PAYLOAD_MAX);
    else make(to, kind_of(letter), NULL, 0);
}

static void act(char letter) {
    if (letter == 'l') {
        peer.sn++;
    } else if (letter == 'c') {
        peer.confirms_sn = seen_sn, peer.confirms_ts = seen_ts;
    } else if (letter >= '1' && letter <= '3') {
        int result = BEK_OK;
        for (int i = 1 << (letter == '1' ? 0 : letter == '2' ? 3 : 5); i > 0 && result == BEK_OK; i--)
            result = bek_put(&end, TELEGRAM, longest, sizeof longest, NOW);
    } else if (strchr("hrsdD", letter) != NULL) {
        if (has_missing) return;
        make_of(&made[1], letter);
        (void)arrives(&made[1], NOW);
    } else {
        make_of(&made[has_missing], letter);
        if (has_missing) (void)arrives(&made[1], NOW);
        has_missing = 1;
    }
}

static int call_by(char letter) {
    switch (letter) {
    case 'a': case 'q': return arrive_now();
    case 'b': return arrive_late();
    case 't': return tick_late();
    case 'u': return tick_at_heartbeat();
    default: return put_longest();
    }
}

/* Prepares an end, and makes the call; returns its time, or -1 if it is refused or the session is not established before and after. */
static char last_letter;
static int call_last(void) { return call_by(last_letter); }
static double time_of(const char *sequence) {
    size_t count = strlen(sequence);
    int result;
    open_end();
    has_missing = 0;
    for (size_t i = 0; i + 1 < count; i++) {
        act(sequence[i]);
        drain(0);
    }
    last_letter = sequence[count - 1];
    if (last_letter == 'b' || (strchr("aq", last_letter) != NULL && !has_missing)) make(&made[0], last_letter == 'a' ? HEARTBEAT : RETR_REQ, NULL, 0);
    if (bek_phase(&end) != BEK_ESTABLISHED) return -1;
    double time = call_time(call_last, &result);
    return result == BEK_OK && bek_phase(&end) == BEK_ESTABLISHED ? time : -1;
}

/* The least time of as many runs as it takes to see that it is below `wanted`, or of LEAST_RUNS. */
static double least_of(const char *sequence, double wanted) {
    double least = 1e18;
    for (int i = 0; i < LEAST_RUNS && least >= wanted; i++) {
        double time = time_of(sequence);
        if (time < 0) return -1;
        if (time < least) least = time;
    }
    return least;
}

static uint64_t random_state = 1;
static uint32_t random_below(uint32_t bound) {
    random_state = random_state * 6364136223846793005u + 1442695040888963407u;
    return (uint32_t)(random_state >> 33) % bound;
}
static char random_act(void) { return acts[random_below(sizeof acts - 1)]; }

/* Changes a sequence in one to four places: another letter, one more (or several of it), one less. */
static void mutate(char *sequence) {
    for (uint32_t changes = 1 + random_below(4); changes > 0; changes--) {
        size_t count = strlen(sequence), at = random_below((uint32_t)count);
        uint32_t how = random_below(3);
        if (how == 0 && at + 1 < count) {
            sequence[at] = random_act();
        } else if (how == 1 && count > 1 && at + 1 < count) {
            memmove(sequence + at, sequence + at + 1, count - at);
        } else {
            char letter = random_act();
            for (uint32_t more = random_below(3) == 0 ? 1 + random_below(9) : 1; more > 0 && strlen(sequence) < LONGEST; more--) {
                memmove(sequence + at + 1, sequence + at, strlen(sequence) + 1 - at);
                sequence[at] = letter;
            }
        }
    }
}

/* Removes each letter without which the call costs as much. */
static void shorten(char *sequence, double time) {
    for (size_t at = 0; at + 1 < strlen(sequence);) {
        char shorter[LONGEST + 1];
        strcpy(shorter, sequence);
        memmove(shorter + at, shorter + at + 1, strlen(shorter) - at);
        if (least_of(shorter, 0.95 * time) >= 0.95 * time) strcpy(sequence, shorter);
        else at++;
    }
}

/* Searches for the dearest call of a kind from four beginnings, and prints its settings, call and sequence. */
static void search(int kind, int tries) {
    char best[LONGEST + 1] = "";
    double best_time = -1;
    for (int start = 0; start < 4; start++) {
        char now[LONGEST + 1] = "", next[LONGEST + 1];
        if (start == 0) strcpy(now, begins[kind]);
        else now[0] = calls_of[kind][random_below((uint32_t)strlen(calls_of[kind]))];
        double now_time = start == 0 ? least_of(now, -1) : -1;
        for (int i = 0; i < tries / 4; i++) {
            strcpy(next, now);
            mutate(next);
            if (random_below(8) == 0) next[strlen(next) - 1] = calls_of[kind][random_below((uint32_t)strlen(calls_of[kind]))];
            double time = least_of(next, now_time);
            if (time < 0 || time < now_time) continue;
            strcpy(now, next);
            now_time = time;
        }
        if (now_time > best_time || start == 0) {
            strcpy(best, now);
            best_time = now_time;
        }
    }
    shorten(best, best_time);
    printf("%s:%s:%s\n", set->name, call_names[kind], best);
}

/* Makes the call of a sequence that the search has printed this many times, and prints its line. */
static void run_found(char *word, int runs) {
    static double times[RUNS_MAX], of_nothing[RUNS_MAX];
    const char *name = strtok(word, ":"), *call = strtok(NULL, ":"), *sequence = strtok(NULL, ":");
    char what[LONGEST + 10];
    MUST(name != NULL && call != NULL && sequence != NULL && strlen(sequence) <= LONGEST);
    set = &all_settings[strcmp(name, all_settings[0].name) != 0];
    for (int i = 0; i < runs; i++) {
        int result;
        times[i] = time_of(sequence);
        MUST(times[i] >= 0);
        of_nothing[i] = call_time(call_nothing, &result);
    }
    snprintf(what, sizeof what, "found: %s", sequence);
    print_line(call, what, times, of_nothing, runs);
}

int main(int count, char **words) {
    int runs = count > 1 ? atoi(words[1]) : 1, tries = count > 3 && strcmp(words[2], "search") == 0 ? atoi(words[3]) : 0;
    memset(longest, 7, sizeof longest);
    MUST(runs >= 1 && runs <= RUNS_MAX);
    for (size_t k = 0; k < sizeof all_settings / sizeof *all_settings; k++) {
        set = &all_settings[k];
        for (size_t i = 0; i < sizeof cases / sizeof *cases && tries == 0; i++) run(&cases[i], runs);
        for (int kind = 0; kind < 3 && tries > 0; kind++) search(kind, tries);
    }
    for (int i = 2; i < count && tries == 0; i++) run_found(words[i], runs);
    return 0;
}
