/* SHA-256: the proved code against plain C and OpenSSL, on one message of 64 MiB and on messages of 42 bytes, the longest that a
   fingerprint hashes. Each time is the least of several turns; the turns of the three alternate, so that a slow moment meets all. */
#define OPENSSL_SUPPRESS_DEPRECATED
#include <openssl/sha.h>
#include <stdio.h>
#include <stdlib.h>
#include <string.h>

#include "measure.h"
#include "plain_sha256.h"
#include "recon.h"

enum { LARGE = 64 << 20, SHORT = 42, REPEATS = 100000, TURNS = 15 };

/* Not the one-shot SHA256(), which takes three times as long on a short message for setting itself up. */
static void openssl_sha256(const uint8_t *m, size_t n, uint8_t out[32]) {
    SHA256_CTX c;
    SHA256_Init(&c);
    SHA256_Update(&c, m, n);
    SHA256_Final(out, &c);
}

static void (*const hash[3])(const uint8_t *, size_t, uint8_t *) = {recon_sha256, plain_sha256, openssl_sha256};

/* Hashes the first n bytes of m `repeats` times by each of the three, and sets the least time of each. */
static void measure(uint8_t *m, size_t n, int repeats, double best[3]) {
    uint8_t out[3][32];
    best[0] = best[1] = best[2] = 1e9;
    for (int turn = 0; turn < TURNS; turn++) {
        for (int which = 0; which < 3; which++) {
            double start = seconds();
            for (int i = 0; i < repeats; i++) {
                m[0] = (uint8_t)i;
                hash[which](m, n, out[which]);
            }
            double took = seconds() - start;
            if (took < best[which])
                best[which] = took;
        }
        if (memcmp(out[0], out[1], 32) != 0 || memcmp(out[0], out[2], 32) != 0) {
            printf("the digests differ\n");
            exit(1);
        }
    }
}

int main(void) {
    uint8_t *m = malloc(LARGE);
    uint64_t x = 88172645463325252u;
    for (size_t i = 0; i < LARGE; i++) {
        x ^= x << 13;
        x ^= x >> 7;
        x ^= x << 17;
        m[i] = (uint8_t)(x >> 24);
    }
    double t[3];
    printf("| message | proved | plain C | OpenSSL | proved / plain C | proved / OpenSSL |\n|---|---|---|---|---|---|\n");
    measure(m, LARGE, 1, t);
    printf("| 64 MiB | %.0f MB/s | %.0f MB/s | %.0f MB/s | %.2f | %.2f |\n", LARGE / t[0] / 1e6, LARGE / t[1] / 1e6, LARGE / t[2] / 1e6,
           t[0] / t[1], t[0] / t[2]);
    measure(m, SHORT, REPEATS, t);
    printf("| 42 bytes | %.0f ns | %.0f ns | %.0f ns | %.2f | %.2f |\n", t[0] / REPEATS * 1e9, t[1] / REPEATS * 1e9, t[2] / REPEATS * 1e9,
           t[0] / t[1], t[0] / t[2]);
    free(m);
    return 0;
}
