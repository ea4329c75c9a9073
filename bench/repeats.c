// Times the dropping of a repeat by the redundancy layer, and prints the least time.
#include <stdint.h>
#include <stdio.h>
#include <time.h>

uint32_t bench_repeats(const uint8_t *datagrams, size_t all, size_t size, uint32_t times);

static double seconds(void) {
    struct timespec now;
    clock_gettime(CLOCK_MONOTONIC, &now);
    return now.tv_sec + now.tv_nsec * 1e-9;
}

int main(void) {
    static const size_t sizes[] = {90, 1258};
    static uint8_t datagrams[64 * 1258];
    const uint32_t times = 2000;
    printf("%8s %12s\n", "octets", "repeat ns");
    for (size_t k = 0; k < 2; k++) {
        size_t size = sizes[k];
        for (size_t i = 0; i < 64; i++) {
            datagrams[i * size] = (uint8_t)size;
            datagrams[i * size + 1] = (uint8_t)(size >> 8);
            for (size_t place = 2; place < 8; place++) datagrams[i * size + place] = 0;
        }
        double least = 1e18;
        for (int run = 0; run < 101; run++) {
            double start = seconds();
            if (bench_repeats(datagrams, 64 * size, size, times) != 64 * times - 1) return 1;
            double time = (seconds() - start) * 1e9 / (64 * times);
            if (time < least) least = time;
        }
        printf("%8zu %12.1f\n", size, least);
    }
    return 0;
}
