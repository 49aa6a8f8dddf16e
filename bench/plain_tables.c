/* The check of a table and the fingerprint of its items in plain C, for the benchmark: what the proved code is compared with. */
#include "plain_tables.h"

#include <string.h>
#include <x86intrin.h>

#include "plain_sha256.h"

enum { MOST_ITEMS = 1 << 20 };

static uint64_t load(const uint8_t *p) {
    uint64_t x;
    memcpy(&x, p, 8);
    return x;
}

/* Times that do not fall have 2^64-1 in the last place if they have it at all. */
uint64_t plain_check_table(const uint64_t *times, size_t n, const uint8_t *ids, size_t id_bytes) {
    if (n > MOST_ITEMS || id_bytes != 32 * n)
        return 1;
    for (size_t i = 1; i < n; i++) {
        if (times[i - 1] < times[i])
            continue;
        if (times[i - 1] > times[i] || memcmp(ids + 32 * (i - 1), ids + 32 * i, 32) >= 0)
            return 2;
    }
    return n > 0 && times[n - 1] == UINT64_MAX ? 2 : 0;
}

static int below(const uint8_t *p, const uint8_t *q) {
    for (int i = 0; i < 32; i += 8) {
        uint64_t x = load(p + i), y = load(q + i);
        if (x != y)
            return __builtin_bswap64(x) < __builtin_bswap64(y);
    }
    return 0;
}

uint64_t plain_check_table_words(const uint64_t *times, size_t n, const uint8_t *ids, size_t id_bytes) {
    if (n > MOST_ITEMS || id_bytes != 32 * n)
        return 1;
    for (size_t i = 1; i < n; i++) {
        if (times[i - 1] < times[i])
            continue;
        if (times[i - 1] > times[i] || !below(ids + 32 * (i - 1), ids + 32 * i))
            return 2;
    }
    return n > 0 && times[n - 1] == UINT64_MAX ? 2 : 0;
}

typedef struct {
    unsigned long long a, b, c, d;
} words;

/* Four words with carry, of which gcc -O2 makes an add and three adc. Two sums of 128 bits, and __builtin_add_overflow word by word, were
   slower. */
static inline words plus(words sum, const uint8_t *id) {
    unsigned long long w, x, y, z;
    unsigned char carry = _addcarry_u64(0, load(id), sum.a, &w);
    carry = _addcarry_u64(carry, load(id + 8), sum.b, &x);
    carry = _addcarry_u64(carry, load(id + 16), sum.c, &y);
    _addcarry_u64(carry, load(id + 24), sum.d, &z);
    return (words){w, x, y, z};
}

static void put_sum(uint64_t sum[4], words w) {
    sum[0] = w.a;
    sum[1] = w.b;
    sum[2] = w.c;
    sum[3] = w.d;
}

void plain_add_ids(const uint8_t *ids, size_t id_bytes, uint64_t sum[4]) {
    words w = {0, 0, 0, 0};
    const uint8_t *end = ids + id_bytes;
    for (const uint8_t *id = ids; id < end; id += 32)
        w = plus(w, id);
    put_sum(sum, w);
}

static int marks_are_right(const uint8_t *marks, size_t n, size_t marked) {
    size_t ones = 0;
    uint8_t high = 0;
    for (size_t i = 0; i < n; i++) {
        ones += marks[i];
        high |= marks[i];
    }
    return high <= 1 && ones == marked;
}

/* Once with memcmp and once with words: the functions differ in that alone. */
#define CHECK_AND_ADD(name, rises)                                                                                                           \
    uint64_t name(const uint64_t *times, size_t n, const uint8_t *ids, size_t id_bytes, const uint8_t *marks, size_t marks_len, size_t marked, \
                  uint64_t sum[4]) {                                                                                                         \
        words w = {0, 0, 0, 0};                                                                                                              \
        if (n > MOST_ITEMS || id_bytes != 32 * n)                                                                                            \
            return 1;                                                                                                                        \
        for (size_t i = 0; i < n; i++) {                                                                                                     \
            const uint8_t *id = ids + 32 * i;                                                                                                \
            if (i > 0 && times[i - 1] >= times[i] && (times[i - 1] > times[i] || !(rises)))                                                  \
                return 2;                                                                                                                    \
            w = plus(w, id);                                                                                                                 \
        }                                                                                                                                    \
        if (n > 0 && times[n - 1] == UINT64_MAX)                                                                                             \
            return 2;                                                                                                                        \
        put_sum(sum, w);                                                                                                                     \
        return marks_len == n && marks_are_right(marks, n, marked) ? 0 : 4;                                                                  \
    }
CHECK_AND_ADD(plain_check_and_add, memcmp(id - 32, id, 32) < 0)
CHECK_AND_ADD(plain_check_and_add_words, below(id - 32, id))

/* Lays down a varint, most significant digit first; its length. */
static size_t put_varint(uint8_t *p, uint64_t value) {
    size_t length = 1;
    for (uint64_t rest = value >> 7; rest > 0; rest >>= 7)
        length++;
    for (size_t i = length; i > 0; i--, value >>= 7)
        p[i - 1] = (uint8_t)(value & 127) | (i < length ? 128 : 0);
    return length;
}

void plain_fingerprint(const uint8_t *ids, size_t id_bytes, uint8_t out[16]) {
    uint64_t sum[4];
    uint8_t label[42], digest[32];
    plain_add_ids(ids, id_bytes, sum);
    memcpy(label, sum, 32);
    plain_sha256(label, 32 + put_varint(label + 32, id_bytes / 32), digest);
    memcpy(out, digest, 16);
}
