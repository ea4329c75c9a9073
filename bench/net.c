/* Measures the limit of the sockets: datagrams of 90 octets, sent and received by two ends in one process over the loopback, without a stack.
 * net CHANNELS BATCH DATAGRAMS: each end sends BATCH datagrams on every channel, then both receive until nothing comes. */
#include <arpa/inet.h>
#include <fcntl.h>
#include <stdio.h>
#include <stdlib.h>
#include <string.h>
#include <sys/socket.h>
#include <time.h>
#include <unistd.h>

enum { PORT = 46401, SIZE = 90 };

static int ends[2][4];
static struct sockaddr_in places[2][4];

static double now(void) {
    struct timespec time;
    clock_gettime(CLOCK_MONOTONIC, &time);
    return time.tv_sec + time.tv_nsec / 1e9;
}

int main(int count, char **words) {
    if (count != 4) return 2;
    int channels = atoi(words[1]), batch = atoi(words[2]);
    long wanted = atol(words[3]), received = 0;
    unsigned char datagram[SIZE] = {1}, buffer[2048];
    for (int end = 0; end < 2; end++)
        for (int channel = 0; channel < channels; channel++) {
            struct sockaddr_in *place = &places[end][channel];
            memset(place, 0, sizeof *place);
            place->sin_family = AF_INET;
            place->sin_port = htons(PORT + 10 * end + channel);
            place->sin_addr.s_addr = htonl(INADDR_LOOPBACK);
            int socket_of = socket(AF_INET, SOCK_DGRAM, 0);
            if (bind(socket_of, (struct sockaddr *)place, sizeof *place) != 0) return 3;
            fcntl(socket_of, F_SETFL, O_NONBLOCK);
            ends[end][channel] = socket_of;
        }
    double began = now();
    while (received < wanted) {
        for (int end = 0; end < 2; end++)
            for (int repeat = 0; repeat < batch; repeat++)
                for (int channel = 0; channel < channels; channel++)
                    sendto(ends[end][channel], datagram, SIZE, 0, (struct sockaddr *)&places[1 - end][channel], sizeof places[0][0]);
        for (int end = 0; end < 2; end++)
            for (int channel = 0; channel < channels;) {
                if (recvfrom(ends[end][channel], buffer, sizeof buffer, 0, NULL, NULL) >= 0) {
                    received++;
                    channel = 0; /* as the ends do: poll the channels in order each time */
                } else {
                    channel++;
                }
            }
    }
    printf("%.0f\n", received / (now() - began));
    return 0;
}
