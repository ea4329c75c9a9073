/* Two ends in one process: an interlocking puts a command, and a field element takes it. The smallest program with the library:
 *     cc two_ends.c $(pkg-config --cflags --libs bekwidas) && ./a.out */
#include "bekwidas.h"

#include <stdio.h>
#include <stdlib.h>
#include <string.h>

/* Ends the program if a call was refused. */
static void must(const char *what, int result) {
    char text[120];
    if (result >= 0) return;
    bek_fault_text(result, text, sizeof text);
    fprintf(stderr, "%s: %s\n", what, text);
    exit(1);
}

/* What both ends agree on. An application reads the rest from its own settings, and draws a random first_sn for each opening. */
static bek_settings settings(uint32_t side, uint32_t id, uint32_t peer_id, const char *name, const char *peer_name) {
    bek_settings s;
    must("settings", bek_settings_init(&s, sizeof s));
    s.side = side;
    s.id = id;
    s.peer_id = peer_id;
    s.protocol = 1;
    s.version_count = 1;
    s.versions[0] = 1;
    strcpy(s.name, name);
    strcpy(s.peer_name, peer_name);
    return s;
}

/* Takes all telegrams that wait at an end. */
static void take_all(const char *who, bek_end *end) {
    uint8_t payload[BEK_PAYLOAD_MAX];
    uint16_t kind;
    size_t length;
    while (bek_take(end, &kind, payload, sizeof payload, &length) == BEK_OK)
        printf("%s takes %04x with %lu octets: %02x %02x\n", who, kind, (unsigned long)length, payload[0], payload[1]);
}

/* Passes all datagrams that wait at one end to the other; a program sends them on its sockets here. Returns whether there was one. */
static int carry(bek_end *from, bek_end *to, const char *who, uint64_t now) {
    uint8_t octets[BEK_DATAGRAM_MAX];
    uint32_t channel;
    size_t length;
    int some = 0;
    while (bek_next_datagram(from, &channel, octets, sizeof octets, &length) == BEK_OK) {
        must("arrive", bek_arrive(to, channel, octets, length, now));
        take_all(who, to);
        some = 1;
    }
    return some;
}

int main(void) {
    bek_end il = BEK_END_INIT, fe = BEK_END_INIT;
    bek_settings of_il = settings(BEK_INTERLOCKING, 1, 2, "IL1", "FE1"), of_fe = settings(BEK_FIELD_ELEMENT, 2, 1, "FE1", "IL1");
    const uint8_t command[2] = {0x0a, 0x2a};
    uint64_t now = 0; /* milliseconds of a clock that never decreases */
    const char *at_il = "the interlocking", *at_fe = "the field element";

    must("open fe", bek_open(&fe, &of_fe, now));
    must("open il", bek_open(&il, &of_il, now));
    while (carry(&il, &fe, at_fe, now) | carry(&fe, &il, at_il, now)) {}
    must("init_done", bek_init_done(&fe, now)); /* the field element has no initial status */
    while (carry(&fe, &il, at_il, now) | carry(&il, &fe, at_fe, now)) {}

    must("put", bek_put(&il, 0x0100, command, sizeof command, now));
    while (carry(&il, &fe, at_fe, now) | carry(&fe, &il, at_il, now)) {}

    must("close", bek_close(&il, now));
    carry(&il, &fe, at_fe, now);
    printf("closed: %d %d\n", bek_state(&il) == BEK_CLOSED, bek_state(&fe) == BEK_CLOSED);
    bek_free(&il);
    bek_free(&fe);
    return 0;
}
