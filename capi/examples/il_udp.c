/* An interlocking over UDP on two channels, as examples/il.toml has it, against `./rasta fe examples/fe.toml` or fe_udp.c:
 *     cc il_udp.c $(pkg-config --cflags --libs bekwidas) -o il_udp && ./il_udp 10
 * It puts numbered commands (10, or the argument), prints the status that it takes, and closes when all are confirmed. If the connection ends
 * before, it opens another. It ends with status 1 if it is not done in ten seconds. */
#define SIDE BEK_INTERLOCKING
#include "udp.h"

int main(int argc, char **argv) {
    uint32_t times = argc > 1 ? (uint32_t)strtoul(argv[1], NULL, 10) : 10, certain = 0, put = 0;
    uint64_t start = now(), count;
    int settled = 0;

    opens_sockets(46101, 46201);
    opens();
    while (!settled && now() - start < 10000) {
        turn(100);
        while (certain + put < times && bek_phase(&end) == BEK_ESTABLISHED) {
            uint32_t n = certain + put;
            uint8_t number[4];
            int i;
            for (i = 0; i < 4; i++) number[i] = (uint8_t)(n >> 8 * i);
            if (bek_put(&end, 0x0102, number, sizeof number, now()) < 0) break; /* 64 wait: again after the next turn */
            put++;
            drain();
        }
        settled = certain + put == times && bek_settled(&end) == 1;
        if (!settled && bek_is_stale(&end) == 1) {
            /* this program puts again what is not certain; yours may have to ask the peer first */
            if (!refused("confirmed", bek_confirmed(&end, &count))) certain += (uint32_t)count;
            put = 0;
            reopens();
        }
    }
    printf("il put %lu, settled %d, after %lu ms\n", (unsigned long)(certain + put), settled, (unsigned long)(now() - start));
    refused("close", bek_close(&end, now()));
    drain();
    bek_free(&end);
    return settled ? 0 : 1;
}
