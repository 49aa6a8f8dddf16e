/* Compares recon_sha256 with OpenSSL's SHA-256: every length from 0 to 1,100 at each of eight alignments, and lengths around
   multiples of 64 up to 1 MiB, on bytes of a fixed generator. Prints what it did, and exits 1 at the first difference. */
#include <openssl/sha.h>
#include <stdio.h>
#include <stdlib.h>
#include <string.h>

#include "recon.h"

enum { MOST = 1 << 20 };

static unsigned long compared;

static void compare(const uint8_t *m, size_t n) {
    uint8_t ours[34], theirs[32];
    memset(ours, 0xa5, sizeof ours);
    recon_sha256(m, n, ours + 1);
    SHA256(m, n, theirs);
    compared++;
    if (memcmp(ours + 1, theirs, 32) != 0 || ours[0] != 0xa5 || ours[33] != 0xa5) {
        printf("sha256: %zu bytes: the digests differ, or a byte beside the digest was written\n", n);
        exit(1);
    }
}

int main(void) {
    uint8_t *m = malloc(MOST + 64);
    uint64_t x = 88172645463325252u;
    for (size_t i = 0; i < MOST + 64; i++) {
        x ^= x << 13;
        x ^= x >> 7;
        x ^= x << 17;
        m[i] = (uint8_t)(x >> 24);
    }
    for (size_t n = 0; n <= 1100; n++)
        for (size_t at = 0; at < 8; at++)
            compare(m + at, n);
    for (size_t blocks = 32; blocks <= MOST / 64; blocks *= 2)
        for (size_t n = blocks * 64 - 10; n <= blocks * 64 + 10; n++)
            compare(m, n);
    printf("sha256: %lu messages, no difference from OpenSSL\n", compared);
    free(m);
    return 0;
}
