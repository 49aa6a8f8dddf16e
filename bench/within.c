/* Answers within byte limits, against the same answers without one, of a table of 1,048,576 items to several queries. Each time is the least of
   several turns; the turns alternate, and each begins with another of the limits. Prints a table. */
#include <stdio.h>
#include <stdlib.h>
#include <string.h>

#include "measure.h"
#include "recon.h"

enum { ITEMS = 1 << 20, TURNS = 15, MOST_RANGES = 4096, ROOM = 34 * ITEMS };
enum { NONE, HIGH, LOW, LIMITS };

/* 0 for none. */
static const size_t limits[LIMITS] = {0, 65536, 4096};

typedef struct {
    const uint64_t *times;
    const uint8_t *ids;
} table;

typedef struct {
    uint8_t bytes[1 + 32 * MOST_RANGES];
    size_t length;
} message;

static size_t answer(table t, const message *query, size_t limit, uint8_t *out) {
    const size_t parts = RECON_DEFAULT_PARTS, listed = RECON_DEFAULT_LIMIT, id_bytes = (size_t)ITEMS * RECON_ID_BYTES;
    recon_answer_t a = limit == 0 ? recon_answer(t.times, ITEMS, t.ids, id_bytes, parts, listed, query->bytes, query->length, out, ROOM)
                                  : recon_answer_within(t.times, ITEMS, t.ids, id_bytes, parts, listed, limit, query->bytes, query->length,
                                                        out, ROOM);
    must(a.refusal == RECON_OK);
    return a.length;
}

/* A message that would exceed its limit is cut short with less than one id or one range of room left, and ends with a fingerprint. All others are
   whole. */
static void compare(const uint8_t *whole, size_t length, size_t limit, const uint8_t *out, size_t written) {
    const uint8_t last[3] = {0, 0, 1};
    if (limit == 0 || length <= limit)
        must(written == length && memcmp(out, whole, length) == 0);
    else
        must(written <= limit && written + 64 > limit && memcmp(out + written - 19, last, 3) == 0);
}

/* Prints the bytes of each answer, the least times, and those with a limit as ratios to the one without. */
static void measure(const char *name, table t, const message *query, uint8_t *whole, uint8_t *out) {
    double best[LIMITS] = {1e9, 1e9, 1e9};
    size_t written[LIMITS];
    const size_t length = answer(t, query, 0, whole);
    for (int turn = 0; turn < TURNS; turn++)
        for (int i = 0; i < LIMITS; i++) {
            int which = (turn + i) % LIMITS;
            double start = seconds();
            written[which] = answer(t, query, limits[which], out);
            double took = seconds() - start;
            if (took < best[which])
                best[which] = took;
            compare(whole, length, limits[which], out, written[which]);
        }
    printf("| %s | %zu | %.2f ms ", name, written[NONE], 1e3 * best[NONE]);
    for (int which = HIGH; which < LIMITS; which++)
        printf("| %zu | %.2f ms | %.2f ", written[which], 1e3 * best[which], best[which] / best[NONE]);
    printf("|\n");
    fflush(stdout);
}

static void put(message *m, uint64_t byte) { m->bytes[m->length++] = (uint8_t)byte; }

static void begin(message *m) {
    m->length = 0;
    put(m, 0x61);
}

static void put_varint(message *m, uint64_t value) {
    int shift = 0;
    while (value >> shift >= 128)
        shift += 7;
    for (; shift > 0; shift -= 7)
        put(m, 128 | (value >> shift & 127));
    put(m, value & 127);
}

/* A query of so many ranges with as many items each, and fingerprints that differ. */
static void put_fingerprints(message *m, table t, size_t ranges) {
    uint64_t before = 0;
    begin(m);
    for (size_t r = 1; r <= ranges; r++) {
        const uint64_t time = r < ranges ? t.times[r * (ITEMS / ranges)] : 0;
        put_varint(m, r < ranges ? time - before + 1 : 0);
        put(m, 0);
        put(m, 1);
        memset(m->bytes + m->length, 0, RECON_FINGERPRINT_BYTES);
        m->length += RECON_FINGERPRINT_BYTES;
        before = time;
    }
}

/* A query that lists no ids, of all items or, where their number is not 0, of the first ones; the others are skipped. */
static void put_no_ids(message *m, table t, size_t items) {
    begin(m);
    put_varint(m, items > 0 ? t.times[items] + 1 : 0);
    put(m, 0);
    put(m, 2);
    put(m, 0);
}

int main(void) {
    uint64_t *times = malloc(8 * (size_t)ITEMS);
    uint8_t *ids = malloc(32 * (size_t)ITEMS), *whole = malloc(ROOM), *out = malloc(ROOM);
    must(times && ids && whole && out);
    fill(times, ids, ITEMS);
    const table t = {times, ids};
    static message query;
    printf("| query | bytes of the answer | time | within 65,536 bytes | time | ratio | within 4,096 bytes | time | ratio |\n"
           "|---|---|---|---|---|---|---|---|---|\n");
    begin(&query);
    measure("nothing", t, &query, whole, out);
    put_fingerprints(&query, t, 1);
    measure("1 fingerprint", t, &query, whole, out);
    put_fingerprints(&query, t, 64);
    measure("64 fingerprints", t, &query, whole, out);
    put_fingerprints(&query, t, MOST_RANGES);
    measure("4,096 fingerprints", t, &query, whole, out);
    put_no_ids(&query, t, 0);
    measure("a list of no ids", t, &query, whole, out);
    put_no_ids(&query, t, 1024);
    measure("a list of no ids, below item 1,024", t, &query, whole, out);
    free(times);
    free(ids);
    free(whole);
    free(out);
    return 0;
}
