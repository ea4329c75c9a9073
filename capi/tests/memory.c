/* Measures the memory of an end: the octets that bek_open allocates with the default rooms and with the least, those of one more telegram and of one
 * more datagram, and the stack of the calls. It prints them in this order.
 *     memory
 * The calls run on a stack that was filled with a pattern. They are those of two ends over a network that loses some datagrams, in each state. */
#include "bekwidas.h"

#include <stdio.h>
#include <stdlib.h>
#include <string.h>
#include <ucontext.h>

extern void *__libc_malloc(size_t);
extern void __libc_free(void *);
static size_t held, stack_most;
static int result;

/* Each block begins with its size. */
void *malloc(size_t size) {
    size_t *at = __libc_malloc(size + 16);
    if (at == NULL) return NULL;
    *at = size;
    held += size;
    return (char *)at + 16;
}

void free(void *at) {
    if (at == NULL) return;
    held -= *(size_t *)((char *)at - 16);
    __libc_free((char *)at - 16);
}

static void must_at(int holds, int line) {
    if (holds) return;
    fprintf(stderr, "memory: line %d, result %d\n", line, result);
    exit(1);
}
#define must(holds) must_at((holds) != 0, __LINE__)

enum { STACK = 1 << 16, PATTERN = 0xa5 };
static unsigned char stack[STACK];
static ucontext_t here, there;

/* A call of an end, with its arguments. */
typedef enum which { NOTHING, OPEN, ARRIVE, TICK, PUT, INIT_DONE, CLOSE, TAKE, PULL, ASK, FAULT } which;
static which called;
static bek_end ends[2], *end;
static bek_settings settings[2], *of;
static uint8_t octets[BEK_DATAGRAM_MAX];
static uint32_t channel, number;
static uint16_t kind;
static size_t length;
static uint64_t now, told;

static void calls(void) {
    bek_counts counts;
    bek_leaving leaving;
    switch (called) {
    case NOTHING: break;
    case OPEN: result = bek_open(end, of, now); break;
    case ARRIVE: result = bek_arrive(end, channel, octets, length, now); break;
    case TICK: result = bek_tick(end, now); break;
    case PUT: result = bek_put(end, 0x0100, octets, length, now); break;
    case INIT_DONE: result = bek_init_done(end, now); break;
    case CLOSE: result = bek_close(end, now); break;
    case TAKE: result = bek_take(end, &kind, octets, sizeof octets, &length); break;
    case PULL: result = bek_next_datagram(end, &channel, octets, sizeof octets, &length); break;
    case ASK:
        result = bek_next_deadline(end, &told) | bek_state(end) | bek_phase(end) | bek_is_stale(end) | bek_settled(end) | bek_confirmed(end, &told) |
                 bek_confirmed_time(end, &told) | bek_departure(end, &leaving, sizeof leaving) | bek_counts_of(end, &counts, sizeof counts);
        break;
    case FAULT: result = bek_settings_fault(of, &number, (char *)octets, sizeof octets); break;
    }
}

/* Makes a call on the stack with the pattern, and returns its result. */
static int on_stack(which it) {
    static size_t of_none;
    size_t used = 0, k;
    called = it;
    memset(stack, PATTERN, sizeof stack);
    must(getcontext(&there) == 0);
    there.uc_stack.ss_sp = stack;
    there.uc_stack.ss_size = sizeof stack;
    there.uc_link = &here;
    makecontext(&there, calls, 0);
    must(swapcontext(&here, &there) == 0);
    for (k = 0; k < sizeof stack && stack[k] == PATTERN; k++) {}
    used = sizeof stack - k;
    if (it == NOTHING) of_none = used;
    must(k > 4096);
    if (used > of_none && used - of_none > stack_most) stack_most = used - of_none;
    return result;
}

static uint64_t seed = 88172645463325252u;
static uint32_t any(void) {
    seed ^= seed << 13, seed ^= seed >> 7, seed ^= seed << 17;
    return (uint32_t)(seed >> 32);
}

static void draws(int i, uint32_t channels, uint32_t code) {
    bek_settings *s = &settings[i];
    must(bek_settings_init(s, sizeof *s) == BEK_OK);
    s->side = i ? BEK_FIELD_ELEMENT : BEK_INTERLOCKING;
    s->id = 1 + (uint32_t)i;
    s->peer_id = 2 - (uint32_t)i;
    s->protocol = 1;
    s->channels = channels;
    s->code = code;
    s->n_sendmax = 32;
    s->version_count = 1;
    s->versions[0] = 1;
    strcpy(s->name, i ? "FE1" : "IL1");
    strcpy(s->peer_name, i ? "IL1" : "FE1");
}

/* Carries what waits, except what is lost: a burst of all channels, so that units must be sent again. */
static void carry(int lost) {
    int again = 1, i;
    while (again)
        for (again = 0, i = 0; i < 2; i++)
            while (end = &ends[i], on_stack(PULL) == BEK_OK) {
                again = 1;
                if (lost) continue;
                end = &ends[!i];
                must(on_stack(ARRIVE) >= 0);
                while (on_stack(TAKE) == BEK_OK) {}
            }
}

/* A run of two ends with losses; both are opened again once. */
static void runs(uint32_t channels, uint32_t code) {
    int turn, i;
    now = 0;
    for (i = 1; i >= 0; i--) {
        draws(i, channels, code);
        of = &settings[i];
        of->datagram_room = 333 * channels;
        on_stack(FAULT);
        end = &ends[i];
        must(on_stack(OPEN) == BEK_OK);
    }
    for (turn = 0; turn < 120; turn++) {
        int lost = turn % 20 == 13;
        now += 5;
        for (i = 0; i < 2; i++) {
            end = &ends[i];
            on_stack(ASK);
            must(on_stack(TICK) >= 0);
            if (i == 1 && bek_phase(end) == BEK_INITIALISING) must(on_stack(INIT_DONE) >= 0);
            while (bek_phase(end) == BEK_ESTABLISHED && any() % 4 != 0) {
                length = any() % 3 == 0 ? BEK_PAYLOAD_MAX : any() % 40;
                if (on_stack(PUT) < 0) break;
            }
        }
        carry(lost);
        if (turn == 60) {
            end = &ends[0];
            must(on_stack(CLOSE) >= 0);
            carry(0);
        }
        for (i = 0; i < 2; i++) {
            end = &ends[i];
            of = &settings[i];
            of->first_sn = any();
            if (bek_is_stale(end) != 1) continue;
            bek_free(end);
            must(on_stack(OPEN) == BEK_OK);
        }
    }
    for (i = 0; i < 2; i++) bek_free(&ends[i]);
}

/* Returns how much an end of one channel with these rooms allocates. */
static size_t allocates(uint32_t telegrams, uint32_t datagrams) {
    size_t before = held, whole;
    bek_end it = BEK_END_INIT;
    draws(1, 1, 8);
    settings[1].telegram_room = telegrams;
    settings[1].datagram_room = datagrams;
    must(bek_open(&it, &settings[1], 0) == BEK_OK);
    whole = held - before;
    bek_free(&it);
    must(held == before);
    return whole;
}

int main(void) {
    size_t by_default = allocates(64, 148), least = allocates(27, 37), telegram = allocates(1027, 37), datagram = allocates(27, 1037);
    uint32_t channels;
    on_stack(NOTHING);
    stack_most = 0;
    for (channels = 1; channels <= BEK_CHANNELS_MAX; channels++) runs(channels, 8), runs(channels, 16);
    printf("%zu %zu %zu %zu %zu\n", by_default, least, (telegram - least) / 1000, (datagram - least) / 1000, stack_most);
    return 0;
}
