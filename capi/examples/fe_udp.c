/* A field element over UDP on two channels, as examples/fe.toml has it, against `./rasta il examples/il.toml` or il_udp.c:
 *     cc fe_udp.c $(pkg-config --cflags --libs bekwidas) -o fe_udp && ./fe_udp 10
 * It puts one status during its initialisation, prints the commands that it takes, and ends after as many as the argument says (default: never).
 * You can kill it and start it again at any time: it opens its end again whenever that is stale. */
#define SIDE BEK_FIELD_ELEMENT
#include "udp.h"

int main(int argc, char **argv) {
    unsigned long times = argc > 1 ? strtoul(argv[1], NULL, 10) : 0;

    opens_sockets(46201, 46101);
    opens();
    while (times == 0 || taken < times || bek_settled(&end) != 1) {
        turn(100);
        if (bek_phase(&end) == BEK_INITIALISING) {
            const uint8_t status[1] = {0x2a};
            refused("put", bek_put(&end, 0x0200, status, sizeof status, now()));
            drain();
            refused("init_done", bek_init_done(&end, now()));
            drain();
        }
        if (bek_is_stale(&end) == 1) {
            if (times != 0 && taken >= times) break;
            reopens(); /* an interlocking that asks again finds it ready */
        }
    }
    turn(100);
    printf("fe took %lu\n", taken);
    bek_free(&end);
    return 0;
}
