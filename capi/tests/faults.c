/* Tests bek_settings_fault with each member at and around the limits of its range: it refuses exactly what bek_open refuses, with the same result, and
 * names the member that was changed. */
#include "bekwidas.h"

#include <stdio.h>
#include <stdlib.h>
#include <string.h>

static int line_;
static char text[200];
static void must_at(int holds, int line, const char *what) {
    if (holds) return;
    fprintf(stderr, "faults: line %d (from %d): %s: %s\n", line, line_, what, text);
    exit(1);
}
#define must(holds) must_at((holds) != 0, __LINE__, #holds)

static bek_settings settings(uint32_t side) {
    bek_settings s;
    must(bek_settings_init(&s, sizeof s) == BEK_OK);
    s.side = side;
    s.id = side;
    s.peer_id = 3 - side;
    s.protocol = 1;
    s.first_sn = 7;
    s.n_sendmax = 5, s.mwa = 3, s.q = 8; /* as the warning advises */
    s.version_count = 1;
    s.versions[0] = 1;
    strcpy(s.name, "A");
    strcpy(s.peer_name, "B");
    return s;
}

/* Returns the result of bek_settings_fault, which must be that of bek_open; *field is the member. */
static int of(const bek_settings *s, uint32_t *field) {
    bek_end end = BEK_END_INIT;
    int result = bek_settings_fault(s, field, text, sizeof text), opened = bek_open(&end, s, 0);
    bek_free(&end);
    must((result >= 0 ? BEK_OK : result) == opened);
    must((result == BEK_OK) == (*field == 0) && (result == BEK_OK) == (text[0] == 0));
    return result;
}

int main(void) {
    /* member, its number, the least and the greatest value */
    static const struct {
        size_t at;
        uint32_t field, least, most;
    } members[] = {{offsetof(bek_settings, size), 1, 164, 164},           {offsetof(bek_settings, side), 2, 1, 2},
                   {offsetof(bek_settings, protocol), 6, 0, 255},         {offsetof(bek_settings, channels), 8, 1, 4},
                   {offsetof(bek_settings, n_sendmax), 9, 1, 32},         {offsetof(bek_settings, n_maxpacket), 10, 1, 3},
                   {offsetof(bek_settings, q), 11, 1, 8},                 {offsetof(bek_settings, t_max), 12, 301, 60000},
                   {offsetof(bek_settings, t_h), 13, 10, 1799},           {offsetof(bek_settings, t_seq), 14, 10, 1000},
                   {offsetof(bek_settings, mwa), 15, 1, 16},              {offsetof(bek_settings, pdu_limit), 16, 100, 4294901760u},
                   {offsetof(bek_settings, telegram_room), 17, 27, 0},    {offsetof(bek_settings, datagram_room), 18, 74, 0},
                   {offsetof(bek_settings, checksum_length), 20, 0, 16}};
    static const struct {
        const char *name;
        int is;
    } names[] = {{"", 0}, {"A_", 0}, {"A B", 0}, {"A\177", 0}, {"12345678901234567890", 1}, {"123456789012345678901", 0}, {"!~", 1}, {"\303\204", 0}};
    uint32_t side, field, k, n;
    for (side = 1; side <= 2; side++) {
        bek_settings s = settings(side);
        line_ = __LINE__;
        must(of(&s, &field) == BEK_OK);
        for (k = 0; k < sizeof members / sizeof *members; k++) {
            const uint32_t values[] = {members[k].least, members[k].most, members[k].least - 1, members[k].most + 1, 0, 4294967295u};
            for (n = 0; n < 6; n++) {
                uint32_t *member = (uint32_t *)((char *)&s + members[k].at);
                int is_in = values[n] >= members[k].least && (members[k].most == 0 || values[n] <= members[k].most), result;
                /* rooms of 2^32 - 1 take too much memory, and have no upper limit; with t_max below 301 the fault is t_h */
                if ((members[k].most == 0 && n != 0 && n != 2) || (members[k].field == 12 && values[n] == 300)) continue;
                s = settings(side);
                *member = values[n];
                line_ = (int)members[k].field;
                result = of(&s, &field);
                must((result >= 0) == is_in);
                if (!is_in) must(field == members[k].field);
            }
        }
        for (k = 0; k < sizeof names / sizeof *names; k++) {
            s = settings(side);
            line_ = __LINE__;
            memset(s.name, 0, sizeof s.name);
            memcpy(s.name, names[k].name, strlen(names[k].name));
            must((of(&s, &field) >= 0) == names[k].is && (names[k].is || field == 24));
            s = settings(side);
            memset(s.peer_name, 0, sizeof s.peer_name);
            memcpy(s.peer_name, names[k].name, strlen(names[k].name));
            must((of(&s, &field) >= 0) == names[k].is && (names[k].is || field == 25));
        }
        s = settings(side);
        memset(s.name, 'A', sizeof s.name); /* without a zero */
        must(of(&s, &field) == BEK_ERR_BAD_SETTINGS && field == 24);
        s = settings(side);
        s.peer_id = s.id;
        must(of(&s, &field) == BEK_ERR_BAD_SETTINGS && field == 4);
        for (k = 0; k < 20; k++) {
            s = settings(side);
            s.code = k;
            must((of(&s, &field) >= 0) == (k == 8 || k == 16) && (k == 8 || k == 16 || field == 7));
        }
        for (k = 0; k < 6; k++) {
            int is = k >= 1 && k <= (side == 1 ? 1u : 4u);
            s = settings(side);
            s.version_count = k;
            for (n = 0; n < 4; n++) s.versions[n] = (uint8_t)n;
            must((of(&s, &field) >= 0) == is && (is || field == 19));
        }
        s = settings(side);
        s.t_h = 1800; /* two members are wrong: the first is named */
        s.mwa = 0;
        must(of(&s, &field) == BEK_ERR_BAD_SETTINGS && field == 13 && strcmp(text, "t_h: expected 10 to 1799, found 1800") == 0);
        for (k = 1; k <= 4; k++) { /* the least room for each number of channels */
            s = settings(side);
            s.channels = k;
            s.datagram_room = 37 * k;
            must(of(&s, &field) == BEK_OK);
            s.datagram_room--;
            must(of(&s, &field) == BEK_ERR_ROOMS && field == 18);
        }
        s = settings(side);
        s.n_sendmax = 3;
        must(of(&s, &field) == BEK_UNWISE && field == 15 && strcmp(text, "mwa: expected less than n_sendmax, found 3") == 0);
        s = settings(side);
        s.t_max = 400;
        s.t_seq = 400;
        must(of(&s, &field) == BEK_UNWISE && field == 14);
        for (k = 1; k <= 8; k++) { /* the greatest window for each q, with the greatest mwa below it: no advice is refused */
            for (n = 2; n <= 32; n++) {
                int fits;
                s = settings(side);
                s.q = k, s.n_sendmax = n, s.mwa = n > 16 ? 16 : n - 1;
                fits = n + 2 + n / s.mwa <= k;
                must(of(&s, &field) == (fits ? BEK_OK : BEK_UNWISE) && field == (fits ? 0u : 9u));
            }
        }
        must(strcmp(text, "n_sendmax: expected n_sendmax + 2 + n_sendmax / mwa at most q, such as 5 with mwa 3 and q 8, found 32: "
                          "a burst after a lost datagram overruns the early parts") == 0);
        s = settings(side);
        s.first_sn = 1;
        must(of(&s, &field) == BEK_UNWISE && field == 5);
        must(strcmp(text, "first_sn: expected a random number for each opening, found 1: two openings make the same octets") == 0);
    }
    {
        bek_settings s = settings(2);
        s.version_count = 3;
        s.versions[1] = 2;
        s.versions[2] = 1;
        line_ = __LINE__;
        must(of(&s, &field) == BEK_ERR_BAD_SETTINGS && field == 21);
    }
    puts("faults: each member");
    return 0;
}
