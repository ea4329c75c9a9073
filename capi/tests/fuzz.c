/* Passes random and damaged datagrams, times and lengths to an end, under a sanitizer: it returns only the results of the header. */
#include "bekwidas.h"
#include <stdio.h>
#include <stdlib.h>
#include <string.h>
static uint64_t seed = 88172645463325252ull;
static uint32_t rnd(void) { seed ^= seed << 13; seed ^= seed >> 7; seed ^= seed << 17; return (uint32_t)(seed >> 32); }
int main(int argc, char **argv) {
    unsigned long times = argc > 1 ? strtoul(argv[1], 0, 10) : 1000000, opened = 0, answers[32] = {0}, telegrams = 0, kept_n = 0;
    static uint8_t kept[64][BEK_DATAGRAM_MAX]; static size_t kept_len[64];
    bek_end e[2] = {BEK_END_INIT, BEK_END_INIT}; uint64_t now[2] = {0, 0};
    bek_settings s[2];
    for (int i = 0; i < 2; i++) { if (bek_settings_init(&s[i], sizeof s[i]) != BEK_OK) return 1; s[i].side = 1 + i; s[i].id = 1 + i; s[i].peer_id = 2 - i; s[i].protocol = 1; s[i].version_count = 1; s[i].versions[0] = 3; strcpy(s[i].name, i ? "FE1" : "IL1"); strcpy(s[i].peer_name, i ? "IL1" : "FE1"); }
    for (unsigned long n = 0; n < times; n++) {
        int i = rnd() & 1, r = 0;
        if (bek_state(&e[i]) <= 0) { bek_free(&e[i]); now[0] = now[1] = 0; bek_free(&e[!i]); if (bek_open(&e[1], &s[1], 0) != BEK_OK || bek_open(&e[0], &s[0], 0) != BEK_OK) return 1; opened++; }
        uint8_t *octets; size_t length; uint32_t channel; uint16_t kind;
        switch (rnd() % 12) {
        case 0: length = rnd() % 1400; octets = malloc(length ? length : 1); for (size_t k = 0; k < length; k++) octets[k] = rnd(); r = bek_arrive(&e[i], rnd(), octets, length, now[i]); free(octets); break;
        case 1: if (kept_n) { int k = rnd() % (kept_n < 64 ? kept_n : 64); length = kept_len[k]; octets = malloc(length); memcpy(octets, kept[k], length); if (rnd() & 1) octets[rnd() % length] ^= 1 << (rnd() & 7); if (rnd() % 4 == 0) length = rnd() % length; r = bek_arrive(&e[i], 1, octets, length, now[i]); free(octets); } break;
        case 2: now[i] += rnd() % 40; r = bek_tick(&e[i], now[i]); break;
        case 3: if (rnd() % 50 == 0) r = bek_tick(&e[i], seed); break;
        case 4: length = rnd() % 400; octets = malloc(length ? length : 1); memset(octets, 7, length); r = bek_put(&e[i], rnd() % 2 ? rnd() % 0x300 : rnd(), octets, length, now[i]); free(octets); break;
        case 5: r = bek_init_done(&e[i], now[i]); break;
        case 6: if (rnd() % 2000 == 0) r = bek_close(&e[i], now[i]); break;
        case 7: length = rnd() % 400; octets = malloc(length ? length : 1); { size_t out; while ((r = bek_take(&e[i], &kind, octets, length, &out)) == BEK_OK) telegrams++; } free(octets); break;
        default: length = rnd() % 8 ? 1258 : rnd() % 1258; octets = malloc(length ? length : 1); { size_t out; while ((r = bek_next_datagram(&e[i], &channel, octets, length, &out)) == BEK_OK) { size_t k = kept_n++ & 63; memcpy(kept[k], octets, out); kept_len[k] = out; uint8_t *copy = malloc(out); memcpy(copy, octets, out); if (rnd() % 20 && bek_arrive(&e[!i], channel, copy, out, now[!i]) > BEK_UNSENT) return 1; free(copy); } } free(octets); break;
        }
        answers[r < 0 ? 2 - r : r]++;
    }
    printf("%lu calls, opened %lu times, %lu telegrams taken; results:", times, opened, telegrams);
    for (int k = 0; k < 32; k++) if (answers[k]) printf(" %d:%lu", k < 3 ? k : 2 - k, answers[k]);
    puts("");
    bek_free(&e[0]); bek_free(&e[1]);
}
