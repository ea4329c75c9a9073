/* The functions of bekwidas.h. Each tests its pointers and lengths and calls the proved function of the same name (crate `bekwidas`). The texts of
 * versions, settings and departures are made here. */
#include "bekwidas.h"

/* The functions that the crate exports. A slice is a pointer, never NULL, and a length. */
typedef struct setting_fault {
    uint32_t field, value, least, most;
} setting_fault;

uint32_t bekr_version(void);
int32_t bekr_settings_fault(const bek_settings *settings, setting_fault *fault);
int32_t bekr_rooms(const bek_settings *settings, uint32_t *telegrams, uint32_t *datagrams);
int32_t bekr_open(bek_end *end, const bek_settings *settings, uint64_t now);
int32_t bekr_reopen(bek_end *end, uint32_t first_sn, uint64_t now);
void bekr_free(bek_end *end);
int32_t bekr_arrive(bek_end *end, uint32_t channel, const uint8_t *octets, size_t length, uint64_t now);
int32_t bekr_tick(bek_end *end, uint64_t now);
int32_t bekr_put(bek_end *end, uint16_t kind, const uint8_t *payload, size_t length, uint64_t now);
int32_t bekr_init_done(bek_end *end, uint64_t now);
int32_t bekr_close(bek_end *end, uint64_t now);
int32_t bekr_take(bek_end *end, uint16_t *kind, uint8_t *payload, size_t size, size_t *length);
int32_t bekr_next_datagram(bek_end *end, uint64_t *channel, uint8_t *octets, size_t size, size_t *length);
int32_t bekr_next_deadline(bek_end *end, uint64_t *deadline);
int32_t bekr_state(bek_end *end);
int32_t bekr_phase(bek_end *end);
int32_t bekr_is_stale(bek_end *end);
int32_t bekr_settled(bek_end *end);
int32_t bekr_confirmed(bek_end *end, uint64_t *count);
int32_t bekr_confirmed_time(bek_end *end, uint64_t *time);
int32_t bekr_departure(bek_end *end, bek_leaving *leaving);
int32_t bekr_agreed(bek_end *end, bek_agreement *agreement);
int32_t bekr_statistics(bek_end *end, bek_statistics *statistics);
int32_t bekr_totals(bek_end *end, bek_statistics *totals);
int32_t bekr_counts(bek_end *end, bek_counts *counts);
int32_t bekr_hear_notes(bek_end *end, uint32_t hears);
int32_t bekr_next_note(bek_end *end, bek_note *note);
size_t bekr_fault_text(int32_t result, uint8_t *text, size_t size);

/* The pointer of an empty buffer. */
static uint8_t none[1];

/* The commit of the sources. capi/build sets it. */
#ifndef BEK_COMMIT
#define BEK_COMMIT "unknown"
#endif

/* Whether the functions of the crate were compiled after their proof. capi/build says that they were not. */
#ifdef BEK_NOT_PROVED
#define BEK_PROOF ", NOT PROVED"
#else
#define BEK_PROOF ""
#endif

/* A buffer is NULL only if it is empty. No length is above half the address space. */
#define IS_ROW(octets, length) ((octets) != NULL || (length) == 0)
#define IS_LENGTH(length) ((length) <= PTRDIFF_MAX)
#define ROW(octets) ((octets) != NULL ? (octets) : none)

/* The instructions that the library was built for, as bits of CPUID: leaf 1, ECX, and leaf 7, EBX. capi/build sets them for --cpu. */
#if defined(__x86_64__) && !defined(BEK_CPU_1_ECX)
#define BEK_CPU_1_ECX 0x00982201u /* x86-64-v2: SSE3, SSSE3, CMPXCHG16B, SSE4.1, SSE4.2, POPCNT */
#endif
#ifndef BEK_CPU_7_EBX
#define BEK_CPU_7_EBX 0u
#endif

#if defined(__x86_64__) && BEK_CPU_1_ECX != 0
#include <cpuid.h>
static int is_processor(void) {
    unsigned a, b, c, d;
    if (!__get_cpuid(1, &a, &b, &c, &d) || (c & BEK_CPU_1_ECX) != BEK_CPU_1_ECX) return 0;
    if (BEK_CPU_7_EBX == 0) return 1;
    return __get_cpuid_count(7, 0, &a, &b, &c, &d) && (b & BEK_CPU_7_EBX) == BEK_CPU_7_EBX;
}
#else
static int is_processor(void) { return 1; }
#endif

/* A text that is cut to its buffer: `length` counts all of it. */
typedef struct said {
    char *text;
    size_t room, length;
} said;

static void say(said *s, const char *words) {
    for (; *words != 0; words++, s->length++)
        if (s->length < s->room) s->text[s->length] = *words;
}

static void say_number(said *s, uint32_t number) {
    char digits[11];
    size_t at = sizeof digits - 1;
    digits[at] = 0;
    do digits[--at] = (char)('0' + number % 10);
    while ((number /= 10) != 0);
    say(s, digits + at);
}

/* Starts a text in a buffer of `size` octets, the last one for the zero. */
static said starts(char *text, size_t size) {
    said s;
    s.text = text;
    s.room = size > 0 ? size - 1 : 0;
    s.length = 0;
    return s;
}

/* Ends a text with a zero, if there is a buffer. */
static size_t ends(said *s, size_t size) {
    if (size > 0) s->text[s->length < s->room ? s->length : s->room] = 0;
    return s->length;
}

uint32_t bek_version(void) { return bekr_version(); }

size_t bek_version_text(char *text, size_t size) {
    uint32_t version = bekr_version();
    said s;
    if (text == NULL || !IS_LENGTH(size)) size = 0;
    s = starts(text, size);
    say_number(&s, version >> 16);
    say(&s, ".");
    say_number(&s, version >> 8 & 0xff);
    say(&s, ".");
    say_number(&s, version & 0xff);
    say(&s, ", commit " BEK_COMMIT BEK_PROOF);
    return ends(&s, size);
}

int bek_settings_init(bek_settings *settings, size_t size) {
    static const bek_settings defaults = {
        sizeof(bek_settings), 0, 0, 0, 1, 0, 8, 2, 20, 3, 4, 1800, 300, 50, 10, 4294901760u, 64, 148, 0, 0, {0}, {0},
        {0x01, 0x23, 0x45, 0x67, 0x89, 0xab, 0xcd, 0xef, 0xfe, 0xdc, 0xba, 0x98, 0x76, 0x54, 0x32, 0x10}, {0}, {0}};
    if (settings == NULL) return BEK_ERR_NULL;
    if (size != sizeof defaults) return BEK_ERR_SETTINGS_SIZE; /* the size of each version up to this one */
    *settings = defaults;
    return BEK_OK;
}

int bek_settings_fault(const bek_settings *settings, uint32_t *field, char *text, size_t size) {
    static const char *const names[] = {"", "size", "side", "id", "peer_id", "first_sn", "protocol", "code", "channels", "n_sendmax", "n_maxpacket",
                                        "q", "t_max", "t_h", "t_seq", "mwa", "pdu_limit", "telegram_room", "datagram_room", "version_count",
                                        "checksum_length", "versions", "checksum", "initial_value", "name", "peer_name"};
    enum { PEER_ID = 4, FIRST_SN = 5, CODE = 7, N_SENDMAX = 9, T_SEQ = 14, MWA = 15, VERSIONS = 21, NAME = 24 };
    setting_fault fault = {0, 0, 0, 0};
    said s;
    int result;
    if (settings == NULL || field == NULL || !IS_ROW(text, size)) return BEK_ERR_NULL;
    if (!IS_LENGTH(size)) return BEK_ERR_LENGTH;
    result = bekr_settings_fault(settings, &fault);
    *field = fault.field;
    s = starts(text, size);
    if (fault.field < sizeof names / sizeof *names) say(&s, names[fault.field]);
    if (fault.field == PEER_ID) say(&s, ": expected another identifier than id");
    else if (fault.field == VERSIONS) say(&s, ": expected different versions, found two equal ones");
    else if (fault.field >= NAME) say(&s, ": expected 1 to 20 characters 0x21 to 0x7e without '_', then a zero");
    else if (fault.field != 0) {
        say(&s, ": expected ");
        if (result == BEK_UNWISE && fault.field == T_SEQ) say(&s, "less than t_max");
        else if (result == BEK_UNWISE && fault.field == MWA) say(&s, "less than n_sendmax");
        else if (result == BEK_UNWISE && fault.field == N_SENDMAX) say(&s, "n_sendmax + 2 + n_sendmax / mwa at most q, such as 5 with mwa 3 and q 8");
        else if (result == BEK_UNWISE && fault.field == FIRST_SN) say(&s, "a random number for each opening");
        else {
            say_number(&s, fault.least);
            if (fault.most == UINT32_MAX) say(&s, " or more");
            else if (fault.most > fault.least) {
                say(&s, fault.field == CODE ? " or " : " to ");
                say_number(&s, fault.most);
            }
        }
        say(&s, ", found ");
        say_number(&s, fault.value);
        if (result == BEK_UNWISE && fault.field == N_SENDMAX) say(&s, ": a burst after a lost datagram overruns the early parts");
        if (result == BEK_UNWISE && fault.field == FIRST_SN) say(&s, ": two openings make the same octets");
    }
    ends(&s, size);
    return result;
}

int bek_rooms(const bek_settings *settings, uint32_t *telegrams, uint32_t *datagrams) {
    if (settings == NULL || telegrams == NULL || datagrams == NULL) return BEK_ERR_NULL;
    return bekr_rooms(settings, telegrams, datagrams);
}

int bek_open(bek_end *end, const bek_settings *settings, uint64_t now) {
    int result;
    if (end == NULL || settings == NULL) return BEK_ERR_NULL;
    if (!is_processor()) return BEK_ERR_PROCESSOR;
    result = bekr_open(end, settings, now);
    if (result == BEK_OK) end->place_ = end;
    return result;
}

/* The handle is open, and is not at the place where it was opened. */
static int is_copy(const bek_end *end) { return end->is_open_ == 1 && end->place_ != end; }

int bek_reopen(bek_end *end, uint32_t first_sn, uint64_t now) {
    if (end == NULL) return BEK_ERR_NULL;
    return is_copy(end) ? BEK_ERR_COPIED : bekr_reopen(end, first_sn, now);
}

void bek_free(bek_end *end) {
    if (end == NULL || is_copy(end)) return;
    bekr_free(end);
    end->place_ = NULL;
}

int bek_arrive(bek_end *end, uint32_t channel, const uint8_t *octets, size_t length, uint64_t now) {
    if (end == NULL || !IS_ROW(octets, length)) return BEK_ERR_NULL;
    if (!IS_LENGTH(length)) return BEK_ERR_LENGTH;
    return is_copy(end) ? BEK_ERR_COPIED : bekr_arrive(end, channel, ROW(octets), length, now);
}

int bek_tick(bek_end *end, uint64_t now) {
    if (end == NULL) return BEK_ERR_NULL;
    return is_copy(end) ? BEK_ERR_COPIED : bekr_tick(end, now);
}

int bek_put(bek_end *end, uint16_t kind, const uint8_t *payload, size_t length, uint64_t now) {
    if (end == NULL || !IS_ROW(payload, length)) return BEK_ERR_NULL;
    if (!IS_LENGTH(length)) return BEK_ERR_LENGTH;
    return is_copy(end) ? BEK_ERR_COPIED : bekr_put(end, kind, ROW(payload), length, now);
}

int bek_init_done(bek_end *end, uint64_t now) {
    if (end == NULL) return BEK_ERR_NULL;
    return is_copy(end) ? BEK_ERR_COPIED : bekr_init_done(end, now);
}

int bek_close(bek_end *end, uint64_t now) {
    if (end == NULL) return BEK_ERR_NULL;
    return is_copy(end) ? BEK_ERR_COPIED : bekr_close(end, now);
}

int bek_take(bek_end *end, uint16_t *kind, uint8_t *payload, size_t size, size_t *length) {
    if (end == NULL || kind == NULL || length == NULL || !IS_ROW(payload, size)) return BEK_ERR_NULL;
    if (!IS_LENGTH(size)) return BEK_ERR_LENGTH;
    return is_copy(end) ? BEK_ERR_COPIED : bekr_take(end, kind, ROW(payload), size, length);
}

int bek_next_datagram(bek_end *end, uint32_t *channel, uint8_t *octets, size_t size, size_t *length) {
    uint64_t on = 0;
    int result;
    if (end == NULL || channel == NULL || length == NULL || !IS_ROW(octets, size)) return BEK_ERR_NULL;
    if (!IS_LENGTH(size)) return BEK_ERR_LENGTH;
    if (is_copy(end)) return BEK_ERR_COPIED;
    result = bekr_next_datagram(end, &on, ROW(octets), size, length);
    if (result == BEK_OK) *channel = (uint32_t)on; /* 1 to BEK_CHANNELS_MAX */
    return result;
}

/* If a call is done, writes what it told to a struct of the caller's size: no octet after it is written, and members that this library does not know
 * become 0. Returns the result of the call. */
static int hands_out(int result, void *to, size_t size, const void *told, size_t length) {
    const unsigned char *from = (const unsigned char *)told;
    unsigned char *at = (unsigned char *)to;
    size_t k;
    for (k = 0; result == BEK_OK && k < size; k++) at[k] = k < length ? from[k] : 0;
    return result;
}

/* The functions that only read use a copy of the handle, because the proved function takes the end out of its slot and puts it back. So nothing of
 * the caller's is written. The end itself does not move in memory. */

int bek_next_deadline(const bek_end *end, uint64_t *deadline) {
    bek_end asked;
    if (end == NULL || deadline == NULL) return BEK_ERR_NULL;
    if (is_copy(end)) return BEK_ERR_COPIED;
    asked = *end;
    return bekr_next_deadline(&asked, deadline);
}

int bek_state(const bek_end *end) {
    bek_end asked;
    if (end == NULL) return BEK_ERR_NULL;
    if (is_copy(end)) return BEK_ERR_COPIED;
    asked = *end;
    return bekr_state(&asked);
}

int bek_phase(const bek_end *end) {
    bek_end asked;
    if (end == NULL) return BEK_ERR_NULL;
    if (is_copy(end)) return BEK_ERR_COPIED;
    asked = *end;
    return bekr_phase(&asked);
}

int bek_is_stale(const bek_end *end) {
    bek_end asked;
    if (end == NULL) return BEK_ERR_NULL;
    if (is_copy(end)) return BEK_ERR_COPIED;
    asked = *end;
    return bekr_is_stale(&asked);
}

int bek_settled(const bek_end *end) {
    bek_end asked;
    if (end == NULL) return BEK_ERR_NULL;
    if (is_copy(end)) return BEK_ERR_COPIED;
    asked = *end;
    return bekr_settled(&asked);
}

int bek_confirmed(const bek_end *end, uint64_t *count) {
    bek_end asked;
    if (end == NULL || count == NULL) return BEK_ERR_NULL;
    if (is_copy(end)) return BEK_ERR_COPIED;
    asked = *end;
    return bekr_confirmed(&asked, count);
}

int bek_confirmed_time(const bek_end *end, uint64_t *time) {
    bek_end asked;
    if (end == NULL || time == NULL) return BEK_ERR_NULL;
    if (is_copy(end)) return BEK_ERR_COPIED;
    asked = *end;
    return bekr_confirmed_time(&asked, time);
}

int bek_departure(const bek_end *end, bek_leaving *leaving, size_t size) {
    bek_end asked;
    bek_leaving told;
    if (end == NULL || leaving == NULL) return BEK_ERR_NULL;
    if (!IS_LENGTH(size)) return BEK_ERR_LENGTH;
    if (is_copy(end)) return BEK_ERR_COPIED;
    asked = *end;
    return hands_out(bekr_departure(&asked, &told), leaving, size, &told, sizeof told);
}

int bek_agreed(const bek_end *end, bek_agreement *agreement, size_t size) {
    bek_end asked;
    bek_agreement told;
    if (end == NULL || agreement == NULL) return BEK_ERR_NULL;
    if (!IS_LENGTH(size)) return BEK_ERR_LENGTH;
    if (is_copy(end)) return BEK_ERR_COPIED;
    asked = *end;
    return hands_out(bekr_agreed(&asked, &told), agreement, size, &told, sizeof told);
}

int bek_counts_of(const bek_end *end, bek_counts *counts, size_t size) {
    bek_end asked;
    bek_counts told;
    if (end == NULL || counts == NULL) return BEK_ERR_NULL;
    if (!IS_LENGTH(size)) return BEK_ERR_LENGTH;
    if (is_copy(end)) return BEK_ERR_COPIED;
    asked = *end;
    return hands_out(bekr_counts(&asked, &told), counts, size, &told, sizeof told);
}

int bek_statistics_of(const bek_end *end, bek_statistics *statistics, size_t size) {
    bek_end asked;
    bek_statistics told;
    if (end == NULL || statistics == NULL) return BEK_ERR_NULL;
    if (!IS_LENGTH(size)) return BEK_ERR_LENGTH;
    if (is_copy(end)) return BEK_ERR_COPIED;
    asked = *end;
    return hands_out(bekr_statistics(&asked, &told), statistics, size, &told, sizeof told);
}

int bek_totals_of(const bek_end *end, bek_statistics *totals, size_t size) {
    bek_end asked;
    bek_statistics told;
    if (end == NULL || totals == NULL) return BEK_ERR_NULL;
    if (!IS_LENGTH(size)) return BEK_ERR_LENGTH;
    if (is_copy(end)) return BEK_ERR_COPIED;
    asked = *end;
    return hands_out(bekr_totals(&asked, &told), totals, size, &told, sizeof told);
}

/* The meaning of a detail beside a reason; NULL if it has none. */
static const char *detail_text(uint32_t reason, uint32_t detail) {
    static const char *const of_service[] = {NULL, "the version of the session differs", "a telegram out of order",
                                             "a telegram that is malformed or not of this pair"};
    static const char *const of_protocol[] = {NULL, "the PDU limit of the connection", "a body that is not a unit",
                                              "a confirmed sequence number that was not sent", "an implausible confirmed timestamp"};
    if (reason == 4 && detail < 4) return of_service[detail];
    if (reason == 7 && detail < 5) return of_protocol[detail];
    return NULL;
}

size_t bek_leaving_text(const bek_leaving *leaving, char *text, size_t size) {
    static const char *const reasons[] = {"closed by the user", "a PDU that is not expected in this state", "a sequence error while connecting",
                                          "timeout: nothing recent was confirmed", "the session refuses the service", "another version of the protocol",
                                          "the requested units cannot be sent again", "a protocol error"};
    said s;
    const char *more;
    if (text == NULL || !IS_LENGTH(size)) size = 0;
    s = starts(text, size);
    if (leaving != NULL) {
        say(&s, leaving->by == BEK_BY_OWN ? "by this end, reason " : "by the peer, reason ");
        say_number(&s, leaving->reason);
        if (leaving->reason < sizeof reasons / sizeof *reasons) {
            say(&s, " (");
            say(&s, reasons[leaving->reason]);
            say(&s, ")");
        }
        say(&s, ", detail ");
        say_number(&s, leaving->detail);
        more = detail_text(leaving->reason, leaving->detail);
        if (more != NULL) {
            say(&s, " (");
            say(&s, more);
            say(&s, ")");
        }
        if (leaving->version < BEK_NO_VERSION) {
            say(&s, ", the peer has version ");
            say_number(&s, leaving->version);
        }
    }
    return ends(&s, size);
}

int bek_hear_notes(bek_end *end, int on) {
    if (end == NULL) return BEK_ERR_NULL;
    return is_copy(end) ? BEK_ERR_COPIED : bekr_hear_notes(end, on != 0);
}

int bek_next_note(bek_end *end, bek_note *note, size_t size) {
    bek_note told;
    if (end == NULL || note == NULL) return BEK_ERR_NULL;
    if (!IS_LENGTH(size)) return BEK_ERR_LENGTH;
    if (is_copy(end)) return BEK_ERR_COPIED;
    return hands_out(bekr_next_note(end, &told), note, size, &told, sizeof told);
}

/* Says the word of a value, or its number if it has none. */
static void say_word(said *s, const char *const *words, size_t count, int32_t value) {
    if (value >= 0 && (size_t)value < count) {
        say(s, words[value]);
    } else {
        say(s, "number ");
        say_number(s, (uint32_t)value);
    }
}

/* Says what was done with a datagram or PDU. */
static void say_done(said *s, const bek_note *note, const char *name, const char *const *words, size_t count) {
    say(s, name);
    say_number(s, note->number);
    say(s, ": ");
    say_word(s, words, count, note->value);
    if (note->fault == 0) return;
    say(s, ", test ");
    say_number(s, note->fault);
}

/* Says a kind in four hexadecimal digits. */
static void say_kind(said *s, uint32_t kind) {
    char digits[5] = {0};
    int at;
    for (at = 0; at < 4; at++) digits[at] = "0123456789abcdef"[kind >> (12 - 4 * at) & 15];
    say(s, digits);
}

#define WORDS(words) words, sizeof words / sizeof *words

static void say_note(said *s, const bek_note *note) {
    static const char *const states[] = {"Closed", "Down", "Start", "Up", "RetrReq", "RetrRun"};
    static const char *const phases[] = {"Idle", "Checking", "Requesting", "AwaitCheck", "AwaitRequest", "Refused", "Initialising", "Established", "Ended"};
    static const char *const datagrams[] = {"passed", "deferred", "old", "repeated", "too far ahead", "no place", "damaged"};
    static const char *const pdus[] = {"taken", "after a gap", "the end leaves", "the end is closed", "damaged", "of a stranger", "no ConnReq",
                                       "too far ahead", "not requested", "answered before", "confirms less than before"};
    switch (note->what) {
    case BEK_NOTE_STATE: say(s, "state "), say_word(s, WORDS(states), note->value); break;
    case BEK_NOTE_PHASE: say(s, "phase "), say_word(s, WORDS(phases), note->value); break;
    case BEK_NOTE_DATAGRAM: say_done(s, note, "datagram ", WORDS(datagrams)); break;
    case BEK_NOTE_PDU: say_done(s, note, "PDU ", WORDS(pdus)); break;
    case BEK_NOTE_TAKE: say(s, "telegram "), say_kind(s, (uint32_t)note->value); break;
    case BEK_NOTE_LEFT_OUT: say_number(s, note->count > UINT32_MAX ? UINT32_MAX : (uint32_t)note->count), say(s, " notes left out"); break;
    default: say(s, "no such note");
    }
}

size_t bek_note_text(const bek_note *note, char *text, size_t size) {
    said s;
    if (text == NULL || !IS_LENGTH(size)) size = 0;
    s = starts(text, size);
    if (note != NULL) say_note(&s, note);
    return ends(&s, size);
}

size_t bek_fault_text(int result, char *text, size_t size) {
    size_t whole;
    if (text == NULL || size == 0 || !IS_LENGTH(size)) return bekr_fault_text(result, none, 0);
    whole = bekr_fault_text(result, (uint8_t *)text, size - 1);
    text[whole < size - 1 ? whole : size - 1] = 0;
    return whole;
}
