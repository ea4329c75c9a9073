/* Opens an end in the least room for each number of channels, code and side; tests that queries read through a const handle and write nothing, and that
 * each result has its text. */
#include "bekwidas.h"

#include <stdio.h>
#include <stdlib.h>
#include <string.h>

static void must(int holds, const char *what) {
    if (holds) return;
    fprintf(stderr, "opens: %s\n", what);
    exit(1);
}

static void asks(const bek_end *end, int state) {
    const bek_end was = *end;
    uint64_t deadline = 7;
    bek_counts counts;
    must(bek_state(end) == state, "state");
    must(bek_phase(end) == BEK_IDLE, "phase");
    must(bek_settled(end) == 1, "settled");
    must(bek_counts_of(end, &counts, sizeof counts) == BEK_OK && counts.telegrams == 0 && counts.unsent == 0, "counts");
    /* a field element that waits has no deadline */
    must(bek_next_deadline(end, &deadline) == (state == BEK_DOWN ? BEK_NOTHING : BEK_OK), "deadline");
    must(deadline == (state == BEK_DOWN ? 7 : 1800), "the time of the deadline");
    must(memcmp(&was, end, sizeof was) == 0, "a question wrote the handle");
}

int main(void) {
    uint32_t channels, code, side;
    int answer;
    for (channels = 1; channels <= 4; channels++)
        for (code = 8; code <= 16; code += 8)
            for (side = BEK_INTERLOCKING; side <= BEK_FIELD_ELEMENT; side++) {
                bek_end end = BEK_END_INIT;
                bek_settings settings;
                must(bek_settings_init(&settings, sizeof settings) == BEK_OK, "settings");
                settings.side = side;
                settings.id = 1;
                settings.peer_id = 2;
                settings.protocol = 1;
                settings.channels = channels;
                settings.code = code;
                settings.version_count = 1;
                settings.versions[0] = 1;
                strcpy(settings.name, "A");
                strcpy(settings.peer_name, "B");
                must(bek_open(&end, &settings, 0) == BEK_OK, "the default room");
                bek_free(&end);
                settings.telegram_room = 27;
                settings.datagram_room = 37 * channels - 1;
                must(bek_open(&end, &settings, 0) == BEK_ERR_ROOMS, "too little room");
                settings.datagram_room++;
                must(bek_open(&end, &settings, 0) == BEK_OK, "the least room");
                asks(&end, side == BEK_INTERLOCKING ? BEK_START : BEK_DOWN);
                bek_free(&end);
                must(bek_state(&end) == BEK_ERR_NOT_OPEN, "freed");
            }
    for (answer = BEK_UNWISE; answer >= BEK_ERR_PROCESSOR; answer--) {
        char text[120], cut[9];
        size_t length = bek_fault_text(answer, text, sizeof text);
        must(length == strlen(text) && strcmp(text, "no such code") != 0, "a code without a text");
        memset(cut, '#', sizeof cut);
        must(bek_fault_text(answer, cut, 5) == length && strncmp(cut, text, 4) == 0 && cut[4] == 0 && cut[5] == '#', "a text that is cut");
    }
    puts("opens: each way");
    return 0;
}
