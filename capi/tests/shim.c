/* Tests each function of bekwidas.c over a stub of the proved function below it: it passes every argument on unchanged, returns every result and every
 * number unchanged, and tests each NULL and each length. With -DLACKING=1 or 7 the processor lacks an instruction of that leaf of CPUID. */
#ifdef LACKING
#if LACKING == 1
#define BEK_CPU_1_ECX 0xffffffffu
#else
#define BEK_CPU_7_EBX 0xffffffffu
#endif
#endif
#define BEK_COMMIT "0123456789ab"
#include "../bekwidas.c"

#include <stdio.h>
#include <stdlib.h>
#include <string.h>

static uint64_t seed = 88172645463325252u;
static int line_of_test;

static uint64_t any(void) {
    seed ^= seed << 13;
    seed ^= seed >> 7;
    seed ^= seed << 17;
    return seed;
}

/* Any length up to PTRDIFF_MAX: often a short one, and sometimes the greatest. */
static size_t any_length(void) { return any() % 8 == 0 ? (size_t)PTRDIFF_MAX : (size_t)(any() >> (1 + any() % 63)); }

static void must_at(int holds, int line, const char *what) {
    if (holds) return;
    fprintf(stderr, "shim: line %d (called from %d): %s\n", line, line_of_test, what);
    exit(1);
}
#define must(holds) must_at((holds) != 0, __LINE__, #holds)
#define AT line_of_test = __LINE__

/* The arguments of the last call of a stub, and what it returns and writes. */
static struct {
    int calls;
    const char *name;
    bek_end *end;
    bek_end held;
    const void *octets, *settings, *extra;
    uint64_t numbers[3];
    size_t length;
} got;
static int32_t result;
static uint64_t told[5];
static setting_fault told_fault;
static const char *told_text;
static unsigned char pattern[sizeof(bek_statistics)];

static int32_t notes(const char *name, bek_end *end, const void *octets, size_t length, uint64_t a, uint64_t b, uint64_t c) {
    got.calls++;
    got.name = name;
    got.end = end;
    if (end != NULL) got.held = *end;
    got.octets = octets;
    got.length = length;
    got.numbers[0] = a;
    got.numbers[1] = b;
    got.numbers[2] = c;
    return result;
}

uint32_t bekr_version(void) { return (uint32_t)notes("version", NULL, NULL, 0, 0, 0, 0); }
int32_t bekr_settings_fault(const bek_settings *settings, setting_fault *fault) {
    got.settings = settings;
    *fault = told_fault;
    return notes("settings_fault", NULL, NULL, 0, 0, 0, 0);
}
int32_t bekr_rooms(const bek_settings *settings, uint32_t *telegrams, uint32_t *datagrams) {
    got.settings = settings;
    *telegrams = (uint32_t)told[0];
    *datagrams = (uint32_t)told[1];
    return notes("rooms", NULL, NULL, 0, 0, 0, 0);
}
int32_t bekr_open(bek_end *end, const bek_settings *settings, uint64_t now) {
    got.settings = settings;
    return notes("open", end, NULL, 0, now, 0, 0);
}
int32_t bekr_reopen(bek_end *end, uint32_t first_sn, uint64_t now) { return notes("reopen", end, NULL, 0, first_sn, now, 0); }
void bekr_free(bek_end *end) { notes("free", end, NULL, 0, 0, 0, 0); }
int32_t bekr_arrive(bek_end *end, uint32_t channel, const uint8_t *octets, size_t length, uint64_t now) {
    return notes("arrive", end, octets, length, channel, now, 0);
}
int32_t bekr_tick(bek_end *end, uint64_t now) { return notes("tick", end, NULL, 0, now, 0, 0); }
int32_t bekr_put(bek_end *end, uint16_t kind, const uint8_t *payload, size_t length, uint64_t now) {
    return notes("put", end, payload, length, kind, now, 0);
}
int32_t bekr_init_done(bek_end *end, uint64_t now) { return notes("init_done", end, NULL, 0, now, 0, 0); }
int32_t bekr_close(bek_end *end, uint64_t now) { return notes("close", end, NULL, 0, now, 0, 0); }
int32_t bekr_take(bek_end *end, uint16_t *kind, uint8_t *payload, size_t size, size_t *length) {
    *kind = (uint16_t)told[0];
    *length = (size_t)told[1];
    if (size > 0) payload[0] = (uint8_t)told[2];
    return notes("take", end, payload, size, 0, 0, 0);
}
int32_t bekr_next_datagram(bek_end *end, uint64_t *channel, uint8_t *octets, size_t size, size_t *length) {
    *channel = told[0];
    *length = (size_t)told[1];
    if (size > 0) octets[0] = (uint8_t)told[2];
    return notes("next_datagram", end, octets, size, 0, 0, 0);
}
int32_t bekr_next_deadline(bek_end *end, uint64_t *deadline) {
    *deadline = told[0];
    return notes("next_deadline", end, NULL, 0, 0, 0, 0);
}
int32_t bekr_state(bek_end *end) { return notes("state", end, NULL, 0, 0, 0, 0); }
int32_t bekr_phase(bek_end *end) { return notes("phase", end, NULL, 0, 0, 0, 0); }
int32_t bekr_is_stale(bek_end *end) { return notes("is_stale", end, NULL, 0, 0, 0, 0); }
int32_t bekr_settled(bek_end *end) { return notes("settled", end, NULL, 0, 0, 0, 0); }
int32_t bekr_confirmed(bek_end *end, uint64_t *count) {
    *count = told[0];
    return notes("confirmed", end, NULL, 0, 0, 0, 0);
}
int32_t bekr_confirmed_time(bek_end *end, uint64_t *time) {
    *time = told[0];
    return notes("confirmed_time", end, NULL, 0, 0, 0, 0);
}
#define FILLED(name, type) \
    int32_t bekr_##name(bek_end *end, type *filled) { \
        memcpy(filled, pattern, sizeof *filled); \
        return notes(#name, end, NULL, 0, 0, 0, 0); \
    }
FILLED(departure, bek_leaving)
FILLED(agreed, bek_agreement)
FILLED(statistics, bek_statistics)
FILLED(totals, bek_statistics)
FILLED(counts, bek_counts)
FILLED(next_note, bek_note)
int32_t bekr_hear_notes(bek_end *end, uint32_t hears) { return notes("hear_notes", end, NULL, 0, hears, 0, 0); }
size_t bekr_fault_text(int32_t code, uint8_t *text, size_t size) {
    size_t whole = strlen(told_text), n = whole < size ? whole : size;
    memcpy(text, told_text, n);
    notes("fault_text", NULL, text, size, (uint64_t)(int64_t)code, 0, 0);
    return whole;
}

static bek_end end;
static uint8_t octets[8];

/* Tests that one more call went to this function, with this end or a copy of it, and that the end is unchanged. */
static void went(const char *name, int is_copy) {
    static int calls;
    must(got.calls == calls + 1 && strcmp(got.name, name) == 0);
    calls = got.calls;
    must(is_copy ? got.end != &end && got.held.station_ == end.station_ && got.held.is_open_ == end.is_open_ : got.end == &end);
}

/* Tests that no stub was called again. */
static void none_went(int was) { must(got.calls == was); }

/* The struct that a call has filled, in a buffer of 0x77: if it is done, as many octets as the caller's struct has, and zeros after those of this library;
 * otherwise none. */
static void filled(const unsigned char *at, size_t room, size_t size, size_t whole) {
    size_t k;
    for (k = 0; k < room; k++) must(at[k] == (result != BEK_OK || k >= size ? 0x77 : k < whole ? pattern[k] : 0));
}

#define FILLS(function, type, name, is_copy) \
    do { \
        static const size_t sizes[] = {0, 1, sizeof(type) - 1, sizeof(type), sizeof(type) + 1, sizeof(type) + 32}; \
        unsigned char at[sizeof(type) + 40]; \
        for (i = 0; i < 6; i++) { \
            memset(at, 0x77, sizeof at); \
            AT, must(function(&end, (type *)(void *)at, sizes[i]) == result); \
            went(name, is_copy); \
            filled(at, sizeof at, sizes[i], sizeof(type)); \
        } \
    } while (0)

static void passes_on(void) {
    static bek_settings settings;
    uint64_t now = any(), number = 0;
    uint32_t channel = (uint32_t)any(), a = 0, b = 0;
    uint16_t kind = (uint16_t)any(), taken_kind = 0;
    size_t length = any_length(), size = 1 + any_length() / 2, taken = 0;
    int i;
    for (i = 0; i < 5; i++) told[i] = any();
    end.station_ = (void *)(uintptr_t)any();
    end.is_open_ = any() % 2 ? 1 : (uint32_t)any();
    end.place_ = &end;

    end.place_ = NULL;
    AT, must(bek_open(&end, &settings, now) == result);
    must(end.place_ == (result == BEK_OK ? &end : NULL));
    end.place_ = &end;
    went("open", 0);
    must(got.settings == &settings && got.numbers[0] == now);
    AT, must(bek_reopen(&end, channel, now) == result);
    went("reopen", 0);
    must(got.numbers[0] == channel && got.numbers[1] == now);
    AT, must(bek_arrive(&end, channel, octets, length, now) == result);
    went("arrive", 0);
    must(got.octets == octets && got.length == length && got.numbers[0] == channel && got.numbers[1] == now);
    AT, must(bek_tick(&end, now) == result);
    went("tick", 0);
    must(got.numbers[0] == now);
    AT, must(bek_put(&end, kind, octets, length, now) == result);
    went("put", 0);
    must(got.octets == octets && got.length == length && got.numbers[0] == kind && got.numbers[1] == now);
    AT, must(bek_init_done(&end, now) == result);
    went("init_done", 0);
    must(got.numbers[0] == now);
    AT, must(bek_close(&end, now) == result);
    went("close", 0);
    must(got.numbers[0] == now);
    AT, must(bek_take(&end, &taken_kind, octets, size, &taken) == result);
    went("take", 0);
    must(got.octets == octets && got.length == size && taken_kind == (uint16_t)told[0] && taken == (size_t)told[1] &&
         octets[0] == (uint8_t)told[2]);
    told[0] = told[0] % 2 ? 1 + told[0] % BEK_CHANNELS_MAX : (uint32_t)told[0];
    channel = 77;
    AT, must(bek_next_datagram(&end, &channel, octets, size, &taken) == result);
    went("next_datagram", 0);
    must(got.octets == octets && got.length == size && taken == (size_t)told[1] && octets[0] == (uint8_t)told[2]);
    must(channel == (result == BEK_OK ? told[0] : 77));

    for (i = 0; i < 5; i++) told[i] = any();
    AT, must(bek_next_deadline(&end, &number) == result && number == told[0]);
    went("next_deadline", 1);
    AT, must(bek_state(&end) == result);
    went("state", 1);
    AT, must(bek_phase(&end) == result);
    went("phase", 1);
    AT, must(bek_is_stale(&end) == result);
    went("is_stale", 1);
    AT, must(bek_settled(&end) == result);
    went("settled", 1);
    number = 0;
    AT, must(bek_confirmed(&end, &number) == result && number == told[0]);
    went("confirmed", 1);
    number = 0;
    AT, must(bek_confirmed_time(&end, &number) == result && number == told[0]);
    went("confirmed_time", 1);
    for (i = 0; i < (int)sizeof pattern; i++) pattern[i] = (unsigned char)any();
    FILLS(bek_departure, bek_leaving, "departure", 1);
    FILLS(bek_agreed, bek_agreement, "agreed", 1);
    FILLS(bek_counts_of, bek_counts, "counts", 1);
    FILLS(bek_statistics_of, bek_statistics, "statistics", 1);
    FILLS(bek_totals_of, bek_statistics, "totals", 1);
    FILLS(bek_next_note, bek_note, "next_note", 0);
    AT, must(bek_hear_notes(&end, (int)told[0]) == result);
    went("hear_notes", 0);
    must(got.numbers[0] == ((int)told[0] != 0));
    AT, must(bek_hear_notes(&end, 0) == result);
    went("hear_notes", 0);
    must(got.numbers[0] == 0);

    got.end = &end;
    AT, must(bek_rooms(&settings, &a, &b) == result && a == (uint32_t)told[0] && b == (uint32_t)told[1] && got.settings == &settings);
    got.end = &end;
    went("rooms", 0);
    AT, must(bek_version() == (uint32_t)result);
    got.end = &end;
    went("version", 0);
    AT, bek_free(&end);
    went("free", 0);
    must(end.place_ == NULL);
    end.place_ = &end;
}

/* The least and the greatest of each number go on as they are. */
static void edges(void) {
    int k;
    for (k = 0; k < 2; k++) {
        uint32_t number = k == 0 ? 0 : UINT32_MAX;
        uint64_t now = k == 0 ? 0 : UINT64_MAX;
        AT, must(bek_arrive(&end, number, octets, 1, now) == result && got.numbers[0] == number && got.numbers[1] == now);
        AT, must(bek_put(&end, (uint16_t)number, octets, 1, now) == result && got.numbers[0] == (uint16_t)number && got.numbers[1] == now);
        AT, must(bek_reopen(&end, number, now) == result && got.numbers[0] == number && got.numbers[1] == now);
        AT, must(bek_tick(&end, now) == result && got.numbers[0] == now);
        AT, must(bek_init_done(&end, now) == result && got.numbers[0] == now);
        AT, must(bek_close(&end, now) == result && got.numbers[0] == now);
        AT, must(bek_hear_notes(&end, k == 0 ? INT32_MIN : INT32_MAX) == result && got.numbers[0] == 1);
    }
}

/* A NULL with length 0 is an empty buffer, and then the proved function gets a pointer that is not NULL. */
static void empty(void) {
    size_t length;
    uint32_t channel;
    uint16_t kind;
    AT, must(bek_arrive(&end, 1, NULL, 0, 5) == result && got.octets != NULL && got.length == 0);
    AT, must(bek_put(&end, 1, NULL, 0, 5) == result && got.octets != NULL && got.length == 0);
    AT, must(bek_take(&end, &kind, NULL, 0, &length) == result && got.octets != NULL && got.length == 0);
    AT, must(bek_next_datagram(&end, &channel, NULL, 0, &length) == result && got.octets != NULL && got.length == 0);
}

static void refuses(void) {
    static bek_settings settings;
    bek_counts counts;
    bek_leaving leaving;
    bek_agreement agreement;
    bek_statistics statistics;
    bek_note note;
    uint64_t number;
    uint32_t a, b;
    uint16_t kind;
    size_t length, long_ = (size_t)PTRDIFF_MAX + 1;
    char text[4];
    int was = got.calls;
    must(bek_settings_init(NULL, sizeof settings) == BEK_ERR_NULL && bek_settings_init(NULL, 1) == BEK_ERR_NULL);
    must(bek_settings_fault(NULL, &a, text, 4) == BEK_ERR_NULL);
    must(bek_settings_fault(&settings, NULL, text, 4) == BEK_ERR_NULL);
    must(bek_settings_fault(&settings, &a, NULL, 4) == BEK_ERR_NULL);
    must(bek_settings_fault(&settings, &a, text, long_) == BEK_ERR_LENGTH);
    must(bek_settings_fault(NULL, &a, text, long_) == BEK_ERR_NULL && bek_settings_fault(&settings, NULL, text, long_) == BEK_ERR_NULL);
    must(bek_rooms(NULL, &a, &b) == BEK_ERR_NULL);
    must(bek_rooms(&settings, NULL, &b) == BEK_ERR_NULL);
    must(bek_rooms(&settings, &a, NULL) == BEK_ERR_NULL);
    must(bek_open(NULL, &settings, 1) == BEK_ERR_NULL);
    must(bek_open(&end, NULL, 1) == BEK_ERR_NULL);
    must(bek_reopen(NULL, 1, 1) == BEK_ERR_NULL);
    bek_free(NULL);
    must(bek_arrive(NULL, 1, octets, 1, 1) == BEK_ERR_NULL);
    must(bek_arrive(&end, 1, NULL, 1, 1) == BEK_ERR_NULL);
    must(bek_arrive(&end, 1, octets, long_, 1) == BEK_ERR_LENGTH && bek_arrive(NULL, 1, octets, long_, 1) == BEK_ERR_NULL);
    must(bek_tick(NULL, 1) == BEK_ERR_NULL);
    must(bek_put(NULL, 1, octets, 1, 1) == BEK_ERR_NULL);
    must(bek_put(&end, 1, NULL, 1, 1) == BEK_ERR_NULL);
    must(bek_put(&end, 1, octets, long_, 1) == BEK_ERR_LENGTH && bek_put(NULL, 1, octets, long_, 1) == BEK_ERR_NULL);
    must(bek_init_done(NULL, 1) == BEK_ERR_NULL);
    must(bek_close(NULL, 1) == BEK_ERR_NULL);
    must(bek_take(NULL, &kind, octets, 1, &length) == BEK_ERR_NULL);
    must(bek_take(&end, NULL, octets, 1, &length) == BEK_ERR_NULL);
    must(bek_take(&end, &kind, NULL, 1, &length) == BEK_ERR_NULL);
    must(bek_take(&end, &kind, octets, 1, NULL) == BEK_ERR_NULL);
    must(bek_take(&end, &kind, octets, long_, &length) == BEK_ERR_LENGTH && bek_take(&end, NULL, octets, long_, &length) == BEK_ERR_NULL);
    must(bek_next_datagram(NULL, &a, octets, 1, &length) == BEK_ERR_NULL);
    must(bek_next_datagram(&end, NULL, octets, 1, &length) == BEK_ERR_NULL);
    must(bek_next_datagram(&end, &a, NULL, 1, &length) == BEK_ERR_NULL);
    must(bek_next_datagram(&end, &a, octets, 1, NULL) == BEK_ERR_NULL);
    must(bek_next_datagram(&end, &a, octets, long_, &length) == BEK_ERR_LENGTH && bek_next_datagram(&end, NULL, octets, long_, &length) == BEK_ERR_NULL);
    must(bek_next_deadline(NULL, &number) == BEK_ERR_NULL);
    must(bek_next_deadline(&end, NULL) == BEK_ERR_NULL);
    must(bek_state(NULL) == BEK_ERR_NULL);
    must(bek_phase(NULL) == BEK_ERR_NULL);
    must(bek_is_stale(NULL) == BEK_ERR_NULL);
    must(bek_settled(NULL) == BEK_ERR_NULL);
    must(bek_confirmed(NULL, &number) == BEK_ERR_NULL);
    must(bek_confirmed(&end, NULL) == BEK_ERR_NULL);
    must(bek_confirmed_time(NULL, &number) == BEK_ERR_NULL);
    must(bek_confirmed_time(&end, NULL) == BEK_ERR_NULL);
    must(bek_departure(NULL, &leaving, sizeof leaving) == BEK_ERR_NULL);
    must(bek_departure(&end, NULL, 8) == BEK_ERR_NULL);
    must(bek_agreed(NULL, &agreement, sizeof agreement) == BEK_ERR_NULL);
    must(bek_agreed(&end, NULL, 8) == BEK_ERR_NULL);
    must(bek_counts_of(NULL, &counts, sizeof counts) == BEK_ERR_NULL);
    must(bek_counts_of(&end, NULL, 8) == BEK_ERR_NULL);
    must(bek_statistics_of(NULL, &statistics, sizeof statistics) == BEK_ERR_NULL);
    must(bek_statistics_of(&end, NULL, 8) == BEK_ERR_NULL);
    must(bek_hear_notes(NULL, 1) == BEK_ERR_NULL);
    must(bek_next_note(NULL, &note, sizeof note) == BEK_ERR_NULL);
    must(bek_next_note(&end, NULL, 8) == BEK_ERR_NULL);
    must(bek_totals_of(NULL, &statistics, sizeof statistics) == BEK_ERR_NULL && bek_totals_of(&end, NULL, long_) == BEK_ERR_NULL);
    must(bek_departure(&end, &leaving, long_) == BEK_ERR_LENGTH && bek_agreed(&end, &agreement, long_) == BEK_ERR_LENGTH);
    must(bek_counts_of(&end, &counts, long_) == BEK_ERR_LENGTH && bek_statistics_of(&end, &statistics, long_) == BEK_ERR_LENGTH);
    must(bek_totals_of(&end, &statistics, long_) == BEK_ERR_LENGTH && bek_next_note(&end, &note, long_) == BEK_ERR_LENGTH);
    none_went(was);
}

/* A copy of an open handle is refused, and not passed on; of one that is not open, it is passed on. */
static void copies(void) {
    bek_end copy = {&copy, 1, &end};
    bek_counts counts;
    bek_leaving leaving;
    bek_agreement agreement;
    bek_statistics statistics;
    bek_note note;
    uint64_t number;
    uint32_t channel;
    uint16_t kind;
    size_t length;
    int was = got.calls;
    must(bek_reopen(&copy, 1, 1) == BEK_ERR_COPIED && bek_arrive(&copy, 1, octets, 1, 1) == BEK_ERR_COPIED && bek_tick(&copy, 1) == BEK_ERR_COPIED);
    must(bek_put(&copy, 1, octets, 1, 1) == BEK_ERR_COPIED && bek_init_done(&copy, 1) == BEK_ERR_COPIED && bek_close(&copy, 1) == BEK_ERR_COPIED);
    must(bek_take(&copy, &kind, octets, 1, &length) == BEK_ERR_COPIED && bek_next_datagram(&copy, &channel, octets, 1, &length) == BEK_ERR_COPIED);
    must(bek_next_deadline(&copy, &number) == BEK_ERR_COPIED && bek_state(&copy) == BEK_ERR_COPIED && bek_phase(&copy) == BEK_ERR_COPIED);
    must(bek_is_stale(&copy) == BEK_ERR_COPIED && bek_settled(&copy) == BEK_ERR_COPIED && bek_confirmed(&copy, &number) == BEK_ERR_COPIED);
    must(bek_confirmed_time(&copy, &number) == BEK_ERR_COPIED && bek_departure(&copy, &leaving, sizeof leaving) == BEK_ERR_COPIED);
    must(bek_agreed(&copy, &agreement, sizeof agreement) == BEK_ERR_COPIED && bek_counts_of(&copy, &counts, sizeof counts) == BEK_ERR_COPIED);
    must(bek_statistics_of(&copy, &statistics, sizeof statistics) == BEK_ERR_COPIED && bek_totals_of(&copy, &statistics, 8) == BEK_ERR_COPIED);
    must(bek_hear_notes(&copy, 1) == BEK_ERR_COPIED && bek_next_note(&copy, &note, sizeof note) == BEK_ERR_COPIED);
    bek_free(&copy);
    must(copy.is_open_ == 1 && copy.place_ == &end);
    none_went(was);
    copy.is_open_ = 0;
    must(bek_tick(&copy, 1) == result && got.calls == was + 1 && got.end == &copy);
}

/* Every member of the settings has its default, and no octet after them is written. */
static void defaults(void) {
    static const uint8_t iv[16] = {0x01, 0x23, 0x45, 0x67, 0x89, 0xab, 0xcd, 0xef, 0xfe, 0xdc, 0xba, 0x98, 0x76, 0x54, 0x32, 0x10};
    static const uint8_t zeros[24];
    struct {
        bek_settings s;
        uint8_t after[32];
    } room, was;
    bek_settings *s = &room.s;
    size_t size;
    memset(&room, 0x5a, sizeof room);
    was = room;
    for (size = 0; size < sizeof room + 2; size++) {
        if (size == sizeof(bek_settings)) continue;
        must(bek_settings_init(s, size) == BEK_ERR_SETTINGS_SIZE && memcmp(&room, &was, sizeof room) == 0);
    }
    must(bek_settings_init(s, sizeof *s) == BEK_OK && memcmp(room.after, was.after, sizeof room.after) == 0);
    must(s->size == 164 && s->side == 0 && s->id == 0 && s->peer_id == 0 && s->first_sn == 1 && s->protocol == 0 && s->code == 8);
    must(s->channels == 2 && s->n_sendmax == 20 && s->n_maxpacket == 3 && s->q == 4 && s->t_max == 1800 && s->t_h == 300 && s->t_seq == 50);
    must(s->mwa == 10 && s->pdu_limit == 4294901760u && s->telegram_room == 64 && s->datagram_room == 148 && s->version_count == 0);
    must(s->checksum_length == 0 && memcmp(s->versions, zeros, 4) == 0 && memcmp(s->checksum, zeros, 16) == 0);
    must(memcmp(s->initial_value, iv, 16) == 0 && memcmp(s->name, zeros, 24) == 0 && memcmp(s->peer_name, zeros, 24) == 0);
}

/* A text fits its buffer, whose other octets stay, and is truncated at each length. */
static void cut(size_t (*writes)(char *, size_t), const char *whole) {
    char text[300], room[300];
    size_t size, length = strlen(whole), kept;
    for (size = 0; size < length + 4; size++) {
        memset(text, '#', sizeof text);
        memset(room, '#', sizeof room);
        kept = size == 0 ? 0 : length < size - 1 ? length : size - 1;
        must(writes(text, size) == length && memcmp(text, whole, kept) == 0);
        must(size == 0 || text[kept] == 0);
        must(memcmp(text + (size == 0 ? 0 : kept + 1), room, sizeof text - kept - 1) == 0);
    }
    must(writes(NULL, 0) == length);
    must(writes(NULL, 5) == length);
    memset(text, '#', sizeof text);
    must(writes(text, (size_t)PTRDIFF_MAX + 1) == length && memcmp(text, room, sizeof text) == 0); /* a length that is none: nothing is written */
}

static int code_asked;
static bek_leaving left_asked;
static size_t fault_text(char *text, size_t size) { return bek_fault_text(code_asked, text, size); }
static size_t version_text(char *text, size_t size) { return bek_version_text(text, size); }
static size_t leaving_text(char *text, size_t size) { return bek_leaving_text(&left_asked, text, size); }

static void texts(void) {
    char text[8] = "#######", room[20];
    size_t length;
    told_text = "twelve words";
    code_asked = -4711;
    cut(fault_text, told_text);
    must(got.numbers[0] == (uint64_t)-4711 && fault_text(text, sizeof text) == 12 && got.numbers[0] == (uint64_t)-4711);
    must(bek_fault_text(-4711, room, PTRDIFF_MAX) == 12 && got.length == PTRDIFF_MAX - 1);
    memset(text, '#', sizeof text);
    result = 0x00030a0c;
    cut(version_text, "3.10.12, commit 0123456789ab");
    result = (int32_t)0xffff0100;
    cut(version_text, "65535.1.0, commit 0123456789ab");
    left_asked.version = 0;
    left_asked.by = BEK_BY_OWN, left_asked.reason = 4, left_asked.detail = 1;
    cut(leaving_text, "by this end, reason 4 (the session refuses the service), detail 1 (the version of the session differs), the peer has version 0");
    left_asked.version = 255;
    cut(leaving_text, "by this end, reason 4 (the session refuses the service), detail 1 (the version of the session differs), the peer has version 255");
    left_asked.version = BEK_NO_VERSION;
    left_asked.by = BEK_BY_OWN, left_asked.reason = 3, left_asked.detail = 0;
    cut(leaving_text, "by this end, reason 3 (timeout: nothing recent was confirmed), detail 0");
    left_asked.by = BEK_BY_PEER, left_asked.reason = 4, left_asked.detail = 1;
    cut(leaving_text, "by the peer, reason 4 (the session refuses the service), detail 1 (the version of the session differs)");
    left_asked.reason = 7, left_asked.detail = 4;
    cut(leaving_text, "by the peer, reason 7 (a protocol error), detail 4 (an implausible confirmed timestamp)");
    left_asked.reason = 8, left_asked.detail = 65535;
    cut(leaving_text, "by the peer, reason 8, detail 65535");
    left_asked.reason = 4, left_asked.detail = 4;
    cut(leaving_text, "by the peer, reason 4 (the session refuses the service), detail 4");
    left_asked.reason = 7, left_asked.detail = 5;
    cut(leaving_text, "by the peer, reason 7 (a protocol error), detail 5");
    left_asked.by = BEK_BY_OWN;
    for (left_asked.reason = 0; left_asked.reason < 10; left_asked.reason++)
        for (left_asked.detail = 0; left_asked.detail < 6; left_asked.detail++) {
            char said[200];
            size_t texts_ = (left_asked.reason < 8) + (left_asked.detail > 0 && ((left_asked.reason == 4 && left_asked.detail < 4) ||
                                                                                (left_asked.reason == 7 && left_asked.detail < 5)));
            must(bek_leaving_text(&left_asked, said, sizeof said) == strlen(said));
            for (length = 0; said[length] != 0; length++)
                if (said[length] == '(') texts_--;
            must(texts_ == 0);
        }
    must(bek_leaving_text(NULL, text, sizeof text) == 0 && text[0] == 0 && text[1] == '#');
}

static bek_note note_asked;
static size_t note_text(char *text, size_t size) { return bek_note_text(&note_asked, text, size); }

static void of_note(uint32_t what, int32_t value, uint32_t number, uint32_t fault, const char *wanted) {
    note_asked.what = what, note_asked.value = value, note_asked.number = number, note_asked.fault = fault;
    cut(note_text, wanted);
}

static void note_texts(void) {
    static const char *const states[] = {"Closed", "Down", "Start", "Up", "RetrReq", "RetrRun"};
    static const char *const phases[] = {"Idle", "Checking", "Requesting", "AwaitCheck", "AwaitRequest", "Refused", "Initialising", "Established", "Ended"};
    static const char *const datagrams[] = {"passed", "deferred", "old", "repeated", "too far ahead", "no place", "damaged"};
    static const char *const pdus[] = {"taken", "after a gap", "the end leaves", "the end is closed", "damaged", "of a stranger", "no ConnReq",
                                       "too far ahead", "not requested", "answered before", "confirms less than before"};
    char wanted[60], text[4] = "###";
    int32_t n;
    note_asked.count = 0;
    for (n = 0; n < 6; n++) sprintf(wanted, "state %s", states[n]), of_note(BEK_NOTE_STATE, n, 5, 1, wanted);
    for (n = 0; n < 9; n++) sprintf(wanted, "phase %s", phases[n]), of_note(BEK_NOTE_PHASE, n, 5, 1, wanted);
    for (n = 0; n < 7; n++) sprintf(wanted, "datagram 17: %s", datagrams[n]), of_note(BEK_NOTE_DATAGRAM, n, 17, 0, wanted);
    for (n = 0; n < 11; n++) sprintf(wanted, "PDU 4294967295: %s", pdus[n]), of_note(BEK_NOTE_PDU, n, UINT32_MAX, 0, wanted);
    of_note(BEK_NOTE_DATAGRAM, BEK_DATAGRAM_DAMAGED, 0, 2, "datagram 0: damaged, test 2");
    of_note(BEK_NOTE_PDU, BEK_PDU_DAMAGED, 9, 3, "PDU 9: damaged, test 3");
    of_note(BEK_NOTE_TAKE, 0x1e0f, 5, 1, "telegram 1e0f");
    of_note(BEK_NOTE_TAKE, 0x0100, 0, 0, "telegram 0100");
    of_note(BEK_NOTE_STATE, 6, 0, 0, "state number 6");
    of_note(BEK_NOTE_PDU, 11, 1, 0, "PDU 1: number 11");
    of_note(BEK_NOTE_PDU, -1, 1, 0, "PDU 1: number 4294967295");
    of_note(0, 1, 1, 1, "no such note");
    of_note(7, 1, 1, 1, "no such note");
    note_asked.count = 12;
    of_note(BEK_NOTE_LEFT_OUT, 1, 1, 1, "12 notes left out");
    note_asked.count = 70000;
    of_note(BEK_NOTE_LEFT_OUT, 1, 1, 1, "70000 notes left out");
    note_asked.count = UINT64_MAX;
    of_note(BEK_NOTE_LEFT_OUT, 1, 1, 1, "4294967295 notes left out");
    must(bek_note_text(NULL, text, sizeof text) == 0 && text[0] == 0 && text[1] == '#');
}

static void of_setting(uint32_t field, uint32_t value, uint32_t least, uint32_t most, int32_t is, const char *wanted) {
    char text[200], cut_[5];
    static bek_settings settings;
    uint32_t found = 99;
    told_fault.field = field, told_fault.value = value, told_fault.least = least, told_fault.most = most;
    result = is;
    must(bek_settings_fault(&settings, &found, text, sizeof text) == is && found == field && got.settings == &settings);
    if (strcmp(text, wanted) != 0) fprintf(stderr, "%s\n", text);
    must(strcmp(text, wanted) == 0);
    memset(cut_, '#', sizeof cut_);
    must(bek_settings_fault(&settings, &found, cut_, 4) == is && cut_[4] == '#' && cut_[strlen(wanted) < 3 ? strlen(wanted) : 3] == 0);
    must(strncmp(cut_, wanted, 3) == 0);
    must(bek_settings_fault(&settings, &found, NULL, 0) == is && found == field);
}

static void settings_texts(void) {
    static const char *const names[] = {"size", "side", "id", "peer_id", "first_sn", "protocol", "code", "channels", "n_sendmax", "n_maxpacket", "q", "t_max",
                                        "t_h", "t_seq", "mwa", "pdu_limit", "telegram_room", "datagram_room", "version_count", "checksum_length",
                                        "versions", "checksum", "initial_value", "name", "peer_name"};
    uint32_t field;
    for (field = 1; field <= sizeof names / sizeof *names; field++) {
        char text[120];
        size_t length = strlen(names[field - 1]);
        static bek_settings settings;
        uint32_t found;
        told_fault.field = field, told_fault.value = 1, told_fault.least = 2, told_fault.most = 3, result = BEK_ERR_BAD_SETTINGS;
        must(bek_settings_fault(&settings, &found, text, PTRDIFF_MAX) == result && found == field);
        must(strncmp(text, names[field - 1], length) == 0 && text[length] == ':');
    }
    of_setting(0, 0, 0, 0, BEK_OK, "");
    of_setting(16, 99, 100, 4294901760u, BEK_ERR_BAD_SETTINGS, "pdu_limit: expected 100 to 4294901760, found 99");
    of_setting(1, 160, 164, 164, BEK_ERR_SETTINGS_SIZE, "size: expected 164, found 160");
    of_setting(2, 3, 1, 2, BEK_ERR_BAD_SETTINGS, "side: expected 1 to 2, found 3");
    of_setting(4, 7, 0, UINT32_MAX, BEK_ERR_BAD_SETTINGS, "peer_id: expected another identifier than id");
    of_setting(7, 9, 8, 16, BEK_ERR_BAD_SETTINGS, "code: expected 8 or 16, found 9");
    of_setting(13, 4294967295u, 10, 1799, BEK_ERR_BAD_SETTINGS, "t_h: expected 10 to 1799, found 4294967295");
    of_setting(17, 26, 27, UINT32_MAX, BEK_ERR_ROOMS, "telegram_room: expected 27 or more, found 26");
    of_setting(20, 17, 0, 16, BEK_ERR_BAD_SETTINGS, "checksum_length: expected 0 to 16, found 17");
    of_setting(21, 2, 1, 4, BEK_ERR_BAD_SETTINGS, "versions: expected different versions, found two equal ones");
    of_setting(24, 0, 1, 20, BEK_ERR_BAD_SETTINGS, "name: expected 1 to 20 characters 0x21 to 0x7e without '_', then a zero");
    of_setting(25, 0, 1, 20, BEK_ERR_BAD_SETTINGS, "peer_name: expected 1 to 20 characters 0x21 to 0x7e without '_', then a zero");
    of_setting(9, 20, 1, 2, BEK_UNWISE, "n_sendmax: expected n_sendmax + 2 + n_sendmax / mwa at most q, such as 5 with mwa 3 and q 8, found 20: "
                                        "a burst after a lost datagram overruns the early parts");
    of_setting(9, 40, 1, 32, BEK_ERR_BAD_SETTINGS, "n_sendmax: expected 1 to 32, found 40");
    of_setting(5, 1, 0, UINT32_MAX, BEK_UNWISE, "first_sn: expected a random number for each opening, found 1: two openings make the same octets");
    of_setting(15, 5, 1, 4, BEK_UNWISE, "mwa: expected less than n_sendmax, found 5");
    of_setting(15, 17, 1, 16, BEK_ERR_BAD_SETTINGS, "mwa: expected 1 to 16, found 17");
    of_setting(14, 500, 10, 399, BEK_UNWISE, "t_seq: expected less than t_max, found 500");
    of_setting(14, 5, 10, 1000, BEK_ERR_BAD_SETTINGS, "t_seq: expected 10 to 1000, found 5");
}

int main(void) {
    static const int32_t results[] = {0, 1, 2, 3, 4, 5, 8, -1, -3, -6, -9, -13, -18, -20, 77, INT32_MIN, INT32_MAX};
    size_t k;
    int n;
#ifdef LACKING
    static bek_settings settings;
    must(bek_open(NULL, &settings, 1) == BEK_ERR_NULL && bek_open(&end, NULL, 1) == BEK_ERR_NULL);
    must(bek_open(&end, &settings, 1) == BEK_ERR_PROCESSOR && got.calls == 0);
    must(bek_reopen(&end, 1, 1) == 0 && got.calls == 1); /* an end that is open was opened on this processor */
    return 0;
#endif
    for (n = 0; n < 200; n++)
        for (k = 0; k < sizeof results / sizeof *results; k++) {
            result = results[k];
            passes_on();
        }
    for (k = 0; k < sizeof results / sizeof *results; k++) {
        result = results[k];
        edges();
        empty();
    }
    refuses();
    copies();
    defaults();
    texts();
    note_texts();
    settings_texts();
    puts("shim: each line");
    return 0;
}
