// Times MD4 of this repository and of libcrypto in turn, and prints the least time of each.
#define OPENSSL_SUPPRESS_DEPRECATED
#include <openssl/md4.h>
#include <stdint.h>
#include <stdio.h>
#include <stdlib.h>
#include <string.h>
#include <time.h>

void bench_md4(const uint8_t *octets, size_t size, uint8_t *out, size_t out_size);

static void ours(uint8_t *octets, size_t size, uint8_t *out) { bench_md4(octets, size, out, 16); }
static void theirs(uint8_t *octets, size_t size, uint8_t *out) { MD4(octets, size, out); }

static double seconds(void) {
    struct timespec now;
    clock_gettime(CLOCK_MONOTONIC, &now);
    return now.tv_sec + now.tv_nsec * 1e-9;
}

// Returns the nanoseconds of one call. Each call reads the output of the one before.
static double once(void (*digest)(uint8_t *, size_t, uint8_t *), uint8_t *octets, size_t size, long calls) {
    uint8_t out[16] = {0};
    double start = seconds();
    for (long i = 0; i < calls; i++) {
        octets[0] ^= out[0];
        digest(octets, size, out);
    }
    return (seconds() - start) * 1e9 / calls;
}

int main(void) {
    static const size_t sizes[] = {36, 90, 1250, 16384};
    static uint8_t octets[16384];
    for (size_t i = 0; i < sizeof octets; i++) octets[i] = (uint8_t)(i * 31 + 7);
    printf("%8s %12s %12s %12s %12s %8s\n", "octets", "md4 ns", "MB/s", "libcrypto ns", "MB/s", "ratio");
    for (size_t k = 0; k < sizeof sizes / sizeof *sizes; k++) {
        size_t size = sizes[k];
        long calls = (long)(2000000 / (size + 100));
        double a = 1e18, b = 1e18;
        for (int run = 0; run < 301; run++) {
            double x = once(ours, octets, size, calls), y = once(theirs, octets, size, calls);
            if (x < a) a = x;
            if (y < b) b = y;
        }
        printf("%8zu %12.1f %12.1f %12.1f %12.1f %8.2f\n", size, a, size * 1e3 / a, b, size * 1e3 / b, a / b);
    }
    return 0;
}
