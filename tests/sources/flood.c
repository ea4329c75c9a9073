/* flood RATE SECONDS PORT ..: random datagrams of 0 to 2,047 octets, RATE a second on each of these ports of the loopback, evenly in time. */
#include <arpa/inet.h>
#include <stdio.h>
#include <stdlib.h>
#include <sys/socket.h>
#include <time.h>

static double seconds(void) {
    struct timespec time;
    clock_gettime(CLOCK_MONOTONIC, &time);
    return time.tv_sec + time.tv_nsec * 1e-9;
}

int main(int count, char **words) {
    static unsigned char noise[4096];
    struct sockaddr_in ports[8] = {{0}};
    int many = count - 3 < 8 ? count - 3 : 8, own = socket(AF_INET, SOCK_DGRAM, 0);
    double rate = atof(words[1]), lasts = atof(words[2]), began = seconds();
    long sent = 0;
    for (int place = 0; place < many; place++) {
        ports[place].sin_family = AF_INET;
        ports[place].sin_port = htons(atoi(words[3 + place]));
        ports[place].sin_addr.s_addr = htonl(INADDR_LOOPBACK);
    }
    for (int place = 0; place < 4096; place++)
        noise[place] = rand();
    for (double passed = 0; passed < lasts; passed = seconds() - began) {
        long due = passed * rate;
        if (due - sent > 100) /* a longer delay is not made up for, so that there are no bursts */
            sent = due - 100;
        for (; sent < due; sent++)
            for (int place = 0; place < many; place++)
                sendto(own, noise + rand() % 2048, rand() % 2048, MSG_DONTWAIT, (struct sockaddr *)&ports[place], sizeof ports[place]);
    }
    printf("%.0f\n", sent / lasts);
    return 0;
}
