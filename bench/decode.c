// Times the decoding of a datagram, and the digest in it; prints the least time of each and the digest's share.
#include <stdint.h>
#include <stdio.h>
#include <string.h>
#include <time.h>

void bench_md4(const uint8_t *octets, size_t size, uint8_t *out, size_t out_size);
uint32_t bench_decode(const uint8_t *datagram, size_t size, uint32_t code);

static double seconds(void) {
    struct timespec now;
    clock_gettime(CLOCK_MONOTONIC, &now);
    return now.tv_sec + now.tv_nsec * 1e-9;
}

static size_t number(uint8_t *at, uint32_t value, size_t octets) {
    for (size_t i = 0; i < octets; i++) at[i] = (uint8_t)(value >> (8 * i));
    return octets;
}

// Makes a Data with this number of telegrams, octets of payload and length of code; returns its size.
static size_t datagram(uint8_t *d, int telegrams, size_t payload, size_t code) {
    size_t body = telegrams * (45 + payload), size = 8 + 28 + body + code, n = 0;
    n += number(d + n, (uint32_t)size, 2);
    n += number(d + n, 0, 6);
    n += number(d + n, (uint32_t)(size - 8), 2);
    n += number(d + n, 6240, 2);
    for (uint32_t field = 1; field <= 6; field++) n += number(d + n, field, 4);
    for (int k = 0; k < telegrams; k++) {
        n += number(d + n, (uint32_t)(43 + payload), 2);
        n += number(d + n, 1, 1);
        n += number(d + n, 0x100, 2);
        memset(d + n, 0x5f, 40);
        memcpy(d + n, "IL1", 3);
        memcpy(d + n + 20, "FE1", 3);
        n += 40;
        for (size_t i = 0; i < payload; i++) d[n++] = (uint8_t)(i * 7 + k);
    }
    uint8_t digest[16];
    bench_md4(d + 8, n - 8, digest, 16);
    memcpy(d + n, digest, code);
    return n + code;
}

int main(void) {
    static uint8_t d[1300];
    static const struct { int telegrams; size_t payload, code; } cases[] = {{1, 1, 8}, {3, 357, 16}};
    printf("%8s %12s %12s %12s %8s\n", "octets", "decode ns", "digest ns", "other ns", "share");
    for (size_t k = 0; k < 2; k++) {
        size_t code = cases[k].code, size = datagram(d, cases[k].telegrams, cases[k].payload, code);
        if (bench_decode(d, size, code) != cases[k].telegrams * cases[k].payload) {
            printf("a datagram of %zu octets was refused\n", size);
            return 1;
        }
        long calls = (long)(2000000 / (size + 100));
        double decode = 1e18, digest = 1e18;
        uint32_t seen = 0;
        uint8_t out[16] = {0};
        for (int run = 0; run < 301; run++) {
            double start = seconds();
            for (long i = 0; i < calls; i++) seen += bench_decode(d, size - (seen >> 31), code);
            double middle = seconds();
            for (long i = 0; i < calls; i++) bench_md4(d + 8, size - 8 - code - (out[0] >> 8), out, 16);
            double end = seconds();
            if ((middle - start) * 1e9 / calls < decode) decode = (middle - start) * 1e9 / calls;
            if ((end - middle) * 1e9 / calls < digest) digest = (end - middle) * 1e9 / calls;
            seen = 0;
        }
        printf("%8zu %12.1f %12.1f %12.1f %7.0f%%\n", size, decode, digest, decode - digest, 100 * digest / decode);
    }
    return 0;
}
