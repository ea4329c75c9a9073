// Compares MD4 of this repository with libcrypto's for each length from 0 to 300, whole and split in two at every place.
#define OPENSSL_SUPPRESS_DEPRECATED
#include <openssl/md4.h>
#include <stdint.h>
#include <stdio.h>
#include <string.h>

void bench_md4(const uint8_t *octets, size_t size, uint8_t *out, size_t out_size);
void bench_md4_pieces(const uint8_t *first, size_t first_size, const uint8_t *second, size_t second_size, uint8_t *out, size_t out_size);

int main(void) {
    uint8_t octets[300], wanted[16], whole[16], pieces[16];
    uint32_t state = 1;
    long digests = 0, wrong = 0;
    for (size_t size = 0; size <= sizeof octets; size++) {
        for (size_t i = 0; i < size; i++) {
            state = state * 1664525 + 1013904223;
            octets[i] = (uint8_t)(state >> 24);
        }
        MD4(octets, size, wanted);
        bench_md4(octets, size, whole, 16);
        digests++;
        wrong += memcmp(wanted, whole, 16) != 0;
        for (size_t cut = 0; cut <= size; cut++) {
            bench_md4_pieces(octets, cut, octets + cut, size - cut, pieces, 16);
            digests++;
            wrong += memcmp(wanted, pieces, 16) != 0;
        }
    }
    printf("%ld digests, %ld differ from libcrypto's\n", digests, wrong);
    return wrong != 0;
}
