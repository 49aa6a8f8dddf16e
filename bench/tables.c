/* recon_fingerprint on a table of 1,048,576 items, against plain C, and the time to read the same memory once. Between infinity and infinity
   it is the check of the table, and one hash of the empty label; between time 0 and infinity it is the check, the label of all items, and
   one hash. Then recon_session_convert on the same tables: the checks 1, 2 and 4 and the label, which a take makes too. It is set against plain C
   that does the same in one pass, and against the two calls of recon_fingerprint: the check alone, and the check and then the label, in two passes.
   Each time is the least of several turns; the turns alternate, so that a slow moment meets all, and each begins with another of them, since the
   first finds the memory cold. */
#include <stdio.h>
#include <stdlib.h>
#include <string.h>

#include "measure.h"
#include "plain_tables.h"
#include "recon.h"

enum { ITEMS = 1 << 20, ID_BYTES = 32 * ITEMS, TURNS = 15 };
enum { PROVED, PLAIN, WORDS, READING, WAYS };

typedef struct {
    const uint64_t *times;
    const uint8_t *ids;
    size_t id_bytes;
} table;

/* The number of the refusal, or 0 and the fingerprint. */
typedef struct {
    uint64_t refusal;
    uint8_t fingerprint[16];
} result;

static result proved(table t, bool all) {
    const uint8_t no_prefix[1] = {0};
    result r = {0, {0}};
    r.refusal = recon_fingerprint(t.times, ITEMS, t.ids, t.id_bytes, !all, 0, no_prefix, 0, true, 0, no_prefix, 0, r.fingerprint);
    return r;
}

/* Plain C knows which items the range has, and does not search for them. */
static result after_check(uint64_t refusal, table t, bool all) {
    result r = {refusal, {0}};
    if (refusal == 0)
        plain_fingerprint(t.ids, all ? t.id_bytes : 0, r.fingerprint);
    return r;
}

static result plain(table t, bool all) { return after_check(plain_check_table(t.times, ITEMS, t.ids, t.id_bytes), t, all); }

static result words(table t, bool all) { return after_check(plain_check_table_words(t.times, ITEMS, t.ids, t.id_bytes), t, all); }

static uint64_t load(const uint8_t *p) {
    uint64_t x;
    memcpy(&x, p, 8);
    return x;
}

/* The sum of 64-bit words, by four sums: with a single one gcc's loop is slower than the memory. */
static uint64_t sum_words(const void *memory, size_t bytes) {
    const uint8_t *p = memory;
    uint64_t a = 0, b = 0, c = 0, d = 0;
    for (size_t i = 0; i < bytes; i += 32) {
        a += load(p + i);
        b += load(p + i + 8);
        c += load(p + i + 16);
        d += load(p + i + 24);
    }
    return a + b + c + d;
}

/* Reads the times, and the ids where they are needed. */
static result reading(table t, bool ids_too) {
    result r = {sum_words(t.times, 8 * ITEMS), {0}};
    if (ids_too)
        r.refusal += sum_words(t.ids, ID_BYTES);
    return r;
}

static int same(result a, result b) { return a.refusal == b.refusal && memcmp(a.fingerprint, b.fingerprint, 16) == 0; }

/* One way of a row; what all of them gave in a turn has to agree. */
typedef void run(int which, const void *row);
typedef void agree(const void *row);

/* The least time of each way, in turns. */
static void alternate(int ways, run *call, agree *compare, const void *row, double *best) {
    for (int turn = 0; turn < TURNS; turn++) {
        for (int i = 0; i < ways; i++) {
            int which = (turn + i) % ways;
            double start = seconds();
            call(which, row);
            double took = seconds() - start;
            if (turn == 0 || took < best[which])
                best[which] = took;
        }
        compare(row);
    }
}

static void print_times(const char *name, int ways, const double *best) {
    printf("| %s ", name);
    for (int which = 0; which < ways; which++)
        printf("| %.2f ms ", 1e3 * best[which]);
}

typedef result way(table t, bool all);

typedef struct {
    table t;
    bool all, ids_too;
} row;
static result results[WAYS];

static void run_row(int which, const void *of) {
    way *const ways[WAYS] = {proved, plain, words, reading};
    const row *r = of;
    results[which] = ways[which](r->t, which == READING ? r->ids_too : r->all);
}

static void agree_row(const void *of) {
    (void)of;
    must(results[PROVED].refusal == 0);
    must(same(results[PROVED], results[PLAIN]) && same(results[PROVED], results[WORDS]));
}

/* Runs each way in turn and prints the row of least times. */
static void measure(const char *name, table t, bool all, bool ids_too) {
    const row r = {t, all, ids_too};
    double best[WAYS];
    alternate(WAYS, run_row, agree_row, &r, best);
    print_times(name, WAYS, best);
    printf("| %.2f | %.2f | %.2f |\n", best[PROVED] / best[PLAIN], best[PROVED] / best[WORDS], best[PROVED] / best[READING]);
}

/* A conversion, a take of a reply that says nothing, and what they are set against. */
enum { CONVERT, TAKE, ONE_PASS, ONE_PASS_WORDS, CHECK, TWO_PASSES, SESSION_WAYS };

/* A table with its marks. */
typedef struct {
    table t;
    uint8_t *marks;
    size_t marked;
} kept;

/* The number of the refusal, or 0 and the label. */
typedef struct {
    uint64_t refusal;
    recon_label label;
} labelled;
static labelled labels[SESSION_WAYS];
static recon_session session;

static void run_session(int which, const void *of) {
    const kept *k = of;
    const uint8_t says_nothing[1] = {0x61};
    const recon_unlabelled_session without = {k->marked, 0, false};
    labelled *l = &labels[which];
    recon_session_answer a;
    l->label.count = ITEMS;
    switch (which) {
    case CONVERT:
        a = recon_session_convert(k->t.times, ITEMS, k->t.ids, k->t.id_bytes, without, k->marks, ITEMS, NULL, 0);
        *l = (labelled){a.refusal, a.session.label};
        break;
    case TAKE:
        a = recon_take(k->t.times, ITEMS, k->t.ids, k->t.id_bytes, 16, 64, says_nothing, 1, session, k->marks, ITEMS, NULL, 0, NULL, 0);
        *l = (labelled){a.refusal, a.session.label};
        break;
    case ONE_PASS:
        l->refusal = plain_check_and_add(k->t.times, ITEMS, k->t.ids, k->t.id_bytes, k->marks, ITEMS, k->marked, l->label.sum);
        break;
    case ONE_PASS_WORDS:
        l->refusal = plain_check_and_add_words(k->t.times, ITEMS, k->t.ids, k->t.id_bytes, k->marks, ITEMS, k->marked, l->label.sum);
        break;
    default:
        l->refusal = proved(k->t, which == TWO_PASSES).refusal;
    }
}

static int same_label(labelled a, labelled b) {
    return a.refusal == b.refusal && (a.refusal != 0 || memcmp(&a.label, &b.label, sizeof a.label) == 0);
}

static void agree_session(const void *of) {
    (void)of;
    for (int which = 0; which < SESSION_WAYS; which++)
        must(labels[which].refusal == 0 && (which >= CHECK || same_label(labels[which], labels[CONVERT])));
}

static void measure_session(const char *name, kept k) {
    double best[SESSION_WAYS];
    const recon_unlabelled_session without = {k.marked, 0, false};
    session = recon_session_convert(k.t.times, ITEMS, k.t.ids, k.t.id_bytes, without, k.marks, ITEMS, NULL, 0).session;
    alternate(SESSION_WAYS, run_session, agree_session, &k, best);
    print_times(name, SESSION_WAYS, best);
    for (int which = ONE_PASS; which < SESSION_WAYS; which++)
        printf("| %.2f ", best[CONVERT] / best[which]);
    printf("|\n");
}

/* A conversion and plain C must refuse by this number. */
static void must_refuse(uint64_t refusal, kept k) {
    for (int which = CONVERT; which <= ONE_PASS_WORDS; which++)
        if (which != TAKE) {
            run_session(which, &k);
            must(labels[which].refusal == refusal);
        }
}

/* All three must refuse by this number, or by none if it is 0, and give the same fingerprint. */
static void must_give(uint64_t refusal, table t) {
    must(proved(t, true).refusal == refusal);
    must(same(proved(t, true), plain(t, true)) && same(proved(t, true), words(t, true)));
}

/* Lays down a number, most significant byte first. */
static void put(uint8_t *p, int bytes, uint64_t value) {
    for (int i = bytes - 1; i >= 0; i--, value >>= 8)
        p[i] = (uint8_t)value;
}

int main(void) {
    uint64_t *different = malloc(8 * ITEMS), *equal = malloc(8 * ITEMS);
    uint8_t *ids = malloc(ID_BYTES), *shared = malloc(ID_BYTES), *marks = malloc(ITEMS);
    uint64_t x = 88172645463325252u;
    size_t marked = 0;
    for (size_t i = 0; i < ITEMS; i++) {
        for (size_t j = 0; j < 32; j++) {
            x ^= x << 13;
            x ^= x >> 7;
            x ^= x << 17;
            ids[32 * i + j] = (uint8_t)(x >> 24);
            shared[32 * i + j] = (uint8_t)(7 * j);
        }
        put(ids + 32 * i, 4, i << 12 | x >> 52);
        put(shared + 32 * i + 24, 8, (uint64_t)i << 40 | x >> 24);
        different[i] = 1700000000 + 1000 * i + x % 1000;
        equal[i] = 1700000000;
        marks[i] = x >> 20 & 1;
        marked += marks[i];
    }
    table by_time = {different, ids, ID_BYTES}, by_start = {equal, ids, ID_BYTES}, by_end = {equal, shared, ID_BYTES};
    printf("| 1,048,576 items | proved | plain C | plain C, words | reading once | proved / plain C | proved / words | proved / reading |\n"
           "|---|---|---|---|---|---|---|---|\n");
    measure("check, times all different", by_time, false, false);
    measure("check, times equal, ids differ in 4 bytes", by_start, false, true);
    measure("check, times equal, ids share 24 bytes", by_end, false, true);
    measure("check and label, times all different", by_time, true, true);
    measure("check and label, times equal, ids differ in 4 bytes", by_start, true, true);
    measure("check and label, times equal, ids share 24 bytes", by_end, true, true);

    printf("\n| 1,048,576 items | conversion | take of 61 | plain C, one pass | plain C, words | check | check and label | conversion / plain C | "
           "conversion / words | conversion / check | conversion / check and label |\n"
           "|---|---|---|---|---|---|---|---|---|---|---|\n");
    measure_session("times all different", (kept){by_time, marks, marked});
    measure_session("times equal, ids differ in 4 bytes", (kept){by_start, marks, marked});
    measure_session("times equal, ids share 24 bytes", (kept){by_end, marks, marked});

    /* The last item makes the difference, or the last mark. */
    by_time.id_bytes--;
    must_give(1, by_time);
    must_refuse(1, (kept){by_time, marks, marked});
    by_time.id_bytes++;
    must_give(0, by_time);
    must_refuse(0, (kept){by_time, marks, marked});
    must_refuse(4, (kept){by_time, marks, marked + 1});
    marks[ITEMS - 1] += 2;
    must_refuse(4, (kept){by_time, marks, marked + 2});
    different[ITEMS - 1] = UINT64_MAX;
    must_give(2, by_time);
    must_refuse(2, (kept){by_time, marks, marked});
    memcpy(shared + ID_BYTES - 32, shared + ID_BYTES - 64, 32);
    must_give(2, by_end);
    must_refuse(2, (kept){by_end, marks, marked});
    free(marks);
    free(different);
    free(equal);
    free(ids);
    free(shared);
    return 0;
}
