/* What il_udp.c and fe_udp.c have in common: two UDP sockets, a clock, and the loop around one end. Define SIDE before. */
#define _POSIX_C_SOURCE 200809L
#include "bekwidas.h"

#include <arpa/inet.h>
#include <fcntl.h>
#include <poll.h>
#include <stdio.h>
#include <stdlib.h>
#include <string.h>
#include <sys/socket.h>
#include <time.h>
#include <unistd.h>

enum { CHANNELS = 2 };

static struct pollfd sockets[CHANNELS];
static bek_end end = BEK_END_INIT;
static unsigned long taken;

static uint64_t now(void) {
    struct timespec t;
    clock_gettime(CLOCK_MONOTONIC, &t);
    return (uint64_t)t.tv_sec * 1000 + (uint64_t)t.tv_nsec / 1000000;
}

/* Prints why a call was refused, and returns whether it was. */
static int refused(const char *what, int result) {
    char text[120];
    if (result >= 0) return 0;
    bek_fault_text(result, text, sizeof text);
    fprintf(stderr, "%s: %s\n", what, text);
    return 1;
}

static void fails(const char *what) {
    perror(what);
    exit(1);
}

/* Binds channel 1 to port `own` and channel 2 to the next one, and connects them to the ports of the peer. */
static void opens_sockets(uint16_t own, uint16_t peer) {
    struct sockaddr_in at;
    int i;
    for (i = 0; i < CHANNELS; i++) {
        int s = socket(AF_INET, SOCK_DGRAM, 0);
        memset(&at, 0, sizeof at);
        at.sin_family = AF_INET;
        at.sin_addr.s_addr = htonl(INADDR_LOOPBACK);
        at.sin_port = htons((uint16_t)(own + i));
        if (s < 0 || fcntl(s, F_SETFL, O_NONBLOCK) != 0 || bind(s, (struct sockaddr *)&at, sizeof at) != 0) fails("bind");
        at.sin_port = htons((uint16_t)(peer + i));
        if (connect(s, (struct sockaddr *)&at, sizeof at) != 0) fails("connect");
        sockets[i].fd = s;
        sockets[i].events = POLLIN;
    }
}

/* Sends and takes everything that waits: call it after each call of the end. A datagram that the system does not send is lost, as on the
 * network. */
static void drain(void) {
    uint8_t datagram[BEK_DATAGRAM_MAX], payload[BEK_PAYLOAD_MAX];
    uint32_t channel;
    uint16_t kind;
    size_t length;
    while (bek_next_datagram(&end, &channel, datagram, sizeof datagram, &length) == BEK_OK)
        if (send(sockets[channel - 1].fd, datagram, length, 0) < 0) continue;
    while (bek_take(&end, &kind, payload, sizeof payload, &length) == BEK_OK) {
        printf("%s takes %04x with %lu octets\n", SIDE == BEK_INTERLOCKING ? "il" : "fe", kind, (unsigned long)length);
        fflush(stdout);
        taken++;
    }
}

/* A number that differs from opening to opening, also after a restart. */
static uint32_t random_number(void) {
    uint32_t number = 0;
    FILE *file = fopen("/dev/urandom", "rb");
    if (file == NULL || fread(&number, sizeof number, 1, file) != 1) fails("/dev/urandom");
    fclose(file);
    return number;
}

/* Opens the end. */
static void opens(void) {
    bek_settings s;
    char text[200];
    uint32_t field;
    if (refused("settings", bek_settings_init(&s, sizeof s))) exit(1);
    s.side = SIDE;
    s.id = SIDE == BEK_INTERLOCKING ? 1 : 2;
    s.peer_id = SIDE == BEK_INTERLOCKING ? 2 : 1;
    s.protocol = 1;
    s.first_sn = random_number();
    s.n_sendmax = 5, s.mwa = 3, s.q = 8; /* so that one lost datagram does not overrun the early parts */
    s.version_count = 1;
    s.versions[0] = 1;
    strcpy(s.name, SIDE == BEK_INTERLOCKING ? "IL1" : "FE1");
    strcpy(s.peer_name, SIDE == BEK_INTERLOCKING ? "FE1" : "IL1");
    if (bek_settings_fault(&s, &field, text, sizeof text) != BEK_OK) fprintf(stderr, "settings: %s\n", text);
    if (refused("open", bek_open(&end, &s, now()))) exit(1);
    drain();
}

/* Prints how the last connection was ended, and what shows that the settings of the two ends do not match. */
static void says_why(void) {
    bek_leaving leaving;
    bek_statistics totals;
    char text[200];
    if (bek_departure(&end, &leaving, sizeof leaving) == BEK_OK) {
        bek_leaving_text(&leaving, text, sizeof text);
        fprintf(stderr, "the connection was ended %s\n", text);
    }
    if (bek_totals_of(&end, &totals, sizeof totals) == BEK_OK && totals.damaged + totals.strangers > 0)
        fprintf(stderr, "dropped so far: %lu with another safety code, %lu damaged otherwise, %lu with other identifiers\n",
                (unsigned long)totals.part_faults.bad_code, (unsigned long)(totals.damaged - totals.part_faults.bad_code), (unsigned long)totals.strangers);
}

/* Opens the end again for another connection. */
static void reopens(void) {
    says_why();
    if (refused("reopen", bek_reopen(&end, random_number(), now()))) exit(1);
    drain();
}

/* Waits for a datagram or the next deadline, at most `most` ms, and passes in what came. */
static void turn(int most) {
    uint8_t octets[2048];
    uint64_t deadline, at = now();
    int wait = most, i;
    /* with BEK_NOTHING there is no deadline: a closed end, or a field element that waits */
    if (bek_next_deadline(&end, &deadline) == BEK_OK && deadline < at + (uint64_t)most) wait = deadline > at ? (int)(deadline - at) : 0;
    poll(sockets, CHANNELS, wait);
    for (i = 0; i < CHANNELS; i++) {
        ssize_t length;
        while ((length = recv(sockets[i].fd, octets, sizeof octets, 0)) >= 0) {
            refused("arrive", bek_arrive(&end, (uint32_t)i + 1, octets, (size_t)length, now()));
            drain();
        }
    }
    refused("tick", bek_tick(&end, now()));
    drain();
}
