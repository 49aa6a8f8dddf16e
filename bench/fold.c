/* Folding in, against plain C: inquiry and commit of batches of 1 to 524,288 items, into a table that has 1,048,576 with them, from needed lists of
   524,288 and 1,048,576 ids, which are digests or share their first bytes. Each time is the least of several turns; proved code and plain C
   alternate, and each turn begins with the other one. Before each call its buffers are made anew, untimed, and at the end of each turn all are
   compared. Prints a table. */
#include <stdio.h>
#include <stdlib.h>
#include <string.h>

#include "measure.h"
#include "plain_fold.h"
#include "recon.h"

enum { ITEMS = 1 << 20, TURNS = 15 };

/* All items, in order; the batch, the table without it, and the needed list, as they are before a commit. */
typedef struct {
    uint64_t *all_times, *times, *batch_times;
    uint8_t *all_ids, *ids, *batch_ids, *needed;
    size_t batch, count;
    bool shared;
} input;

static fold proved, plain;
static recon_inquiry proved_said, plain_said;
static recon_commit proved_did, plain_did;

static void proved_inquire(void) {
    const fold *f = &proved;
    proved_said = recon_fold_inquire(f->times, f->times_len, f->ids, f->ids_len, f->items, f->session, f->needed, f->needed_len, f->batch_times,
                                     f->batch_times_len, f->batch_ids, f->batch_ids_len);
}

static void plain_inquire(void) { plain_said = plain_fold_inquire(&plain); }

static void proved_commit(void) {
    const fold *f = &proved;
    proved_did = recon_fold_commit(f->times, f->times_len, f->ids, f->ids_len, f->items, f->session, f->needed, f->needed_len, f->batch_times,
                                   f->batch_times_len, f->batch_ids, f->batch_ids_len);
}

static void plain_commit(void) { plain_did = plain_fold_commit(&plain); }

typedef struct {
    fold *on;
    void (*run)(void);
} way;
enum { PROVED_INQUIRY, PLAIN_INQUIRY, PROVED_COMMIT, PLAIN_COMMIT, WAYS };
static const way ways[WAYS] = {{&proved, proved_inquire}, {&plain, plain_inquire}, {&proved, proved_commit}, {&plain, plain_commit}};

/* The buffers as they are before a commit. */
static void renew(const input *in, fold *f) {
    const size_t items = ITEMS - in->batch;
    memcpy(f->times, in->times, 8 * items);
    memset(f->times + items, 0xa5, 8 * in->batch);
    memcpy(f->ids, in->ids, 32 * items);
    memset(f->ids + 32 * items, 0xa5, 32 * in->batch);
    memcpy(f->needed, in->needed, 32 * in->count);
    f->times_len = ITEMS;
    f->ids_len = 32 * (size_t)ITEMS;
    f->items = items;
    f->session = (recon_session){0, in->count, true, {{1, 2, 3, 4}, 5}};
    f->needed_len = 32 * in->count;
    f->batch_times = in->batch_times;
    f->batch_times_len = in->batch;
    f->batch_ids = in->batch_ids;
    f->batch_ids_len = 32 * in->batch;
}

static int same_answers(void) {
    return proved_said.refusal == plain_said.refusal && proved_said.entering == plain_said.entering && proved_said.staying == plain_said.staying &&
           proved_did.refusal == plain_did.refusal && proved_did.items == plain_did.items &&
           proved_did.session.marked == plain_did.session.marked && proved_did.session.needed == plain_did.session.needed &&
           proved_did.session.done == plain_did.session.done &&
           memcmp(&proved_did.session.label, &plain_did.session.label, sizeof(recon_label)) == 0;
}

/* After the commits. */
static void compare(const input *in) {
    must(same_answers() && proved_said.refusal == 0 && proved_did.refusal == 0);
    must(proved_said.entering == in->batch && proved_said.staying == in->count - in->batch);
    must(proved_did.items == ITEMS && proved_did.session.needed == proved_said.staying);
    must(memcmp(proved.times, in->all_times, 8 * (size_t)ITEMS) == 0 && memcmp(proved.ids, in->all_ids, 32 * (size_t)ITEMS) == 0);
    must(memcmp(plain.times, proved.times, 8 * (size_t)ITEMS) == 0 && memcmp(plain.ids, proved.ids, 32 * (size_t)ITEMS) == 0);
    must(memcmp(plain.needed, proved.needed, 32 * in->count) == 0);
}

/* The commits come last in each turn, so that their buffers are there to be compared. */
static void measure(const input *in, double best[WAYS]) {
    for (int w = 0; w < WAYS; w++)
        best[w] = 1e9;
    for (int turn = 0; turn < TURNS; turn++) {
        for (int i = 0; i < WAYS; i++) {
            const int w = (i & ~1) + ((turn + i) & 1);
            renew(in, ways[w].on);
            double start = seconds();
            ways[w].run();
            double took = seconds() - start;
            if (took < best[w])
                best[w] = took;
        }
        compare(in);
    }
}

/* All are refused by this number; the two sides' buffers stay alike, and the room behind the table stays as it was. */
static void must_refuse(const input *in, uint64_t number) {
    for (int w = 0; w < WAYS; w++)
        ways[w].run();
    must(same_answers() && proved_said.refusal == number && proved_did.refusal == number);
    must(memcmp(plain.times, proved.times, 8 * (size_t)ITEMS) == 0 && memcmp(plain.ids, proved.ids, 32 * (size_t)ITEMS) == 0);
    must(memcmp(proved.needed, plain.needed, 32 * in->count) == 0 && proved.times[ITEMS - 1] == 0xa5a5a5a5a5a5a5a5u);
    renew(in, &proved);
    renew(in, &plain);
}

#define BOTH(field) *(w == 0 ? &proved.field : &plain.field)
#define REFUSED(number, edit) \
    do { \
        for (int w = 0; w < 2; w++) \
            edit; \
        must_refuse(in, number); \
    } while (0)

/* Plain C makes the same checks. */
static void refusals(const input *in) {
    const size_t items = ITEMS - in->batch;
    renew(in, &proved);
    renew(in, &plain);
    REFUSED(1, BOTH(times_len) = items - 1);
    REFUSED(1, BOTH(ids_len) = 32 * items - 1);
    REFUSED(1, BOTH(batch_ids_len) += 1);
    REFUSED(2, BOTH(times[items - 1]) = UINT64_MAX);
    REFUSED(2, BOTH(times[items - 1]) = in->times[0]);
    REFUSED(4, BOTH(needed_len) -= 1);
    REFUSED(4, BOTH(session.needed) += 1);
    REFUSED(4, memcpy(&BOTH(needed[32 * (in->count - 1)]), in->needed, 32));
    REFUSED(15, BOTH(session.done) = false);
    REFUSED(16, BOTH(batch_ids) = in->ids);
    REFUSED(17, BOTH(times_len) -= 1);
    REFUSED(17, BOTH(ids_len) -= 1);
}

/* Leaves the last eight bytes of each id alone. */
static void share(uint8_t *ids, size_t n) {
    for (size_t i = 0; i < n; i++)
        memset(ids + 32 * i, 7, 24);
}

/* Takes so many items out of all of them, each as likely as any other. */
static void choose_batch(input *in, size_t batch) {
    size_t items = 0;
    in->batch = 0;
    for (size_t i = 0; i < ITEMS; i++) {
        const int chosen = next() % (ITEMS - i) < batch - in->batch;
        uint64_t *times = chosen ? in->batch_times : in->times;
        uint8_t *ids = chosen ? in->batch_ids : in->ids;
        size_t *n = chosen ? &in->batch : &items;
        times[*n] = in->all_times[i];
        memcpy(ids + 32 * *n, in->all_ids + 32 * i, 32);
        ++*n;
    }
}

static int by_bytes(const void *a, const void *b) { return memcmp(a, b, 32); }

/* The ids of the batch and others, in order. */
static void choose_needed(input *in, size_t count) {
    in->count = count;
    memcpy(in->needed, in->batch_ids, 32 * in->batch);
    for (size_t at = 32 * in->batch; at < 32 * count; at += 8) {
        uint64_t word = next();
        memcpy(in->needed + at, &word, 8);
    }
    if (in->shared)
        share(in->needed, count);
    qsort(in->needed, count, 32, by_bytes);
}

static void print_row(const input *in, const double t[WAYS]) {
    printf("| %s | %zu | %zu | %.2f ms | %.2f | %.2f ms | %.2f |\n", in->shared ? "share 24 bytes" : "digests", in->count, in->batch,
           1e3 * t[PROVED_INQUIRY], t[PROVED_INQUIRY] / t[PLAIN_INQUIRY], 1e3 * t[PROVED_COMMIT], t[PROVED_COMMIT] / t[PLAIN_COMMIT]);
    fflush(stdout);
}

static void *room(size_t bytes) {
    void *memory = malloc(bytes);
    must(memory != NULL);
    return memory;
}

static void run_row(input *in, size_t count, size_t batch) {
    double best[WAYS];
    choose_batch(in, batch);
    choose_needed(in, count);
    measure(in, best);
    print_row(in, best);
    refusals(in);
}

int main(void) {
    static const size_t counts[] = {524288, 1048576}, batches[] = {1, 1000, 32768, 524288};
    const size_t times_bytes = 8 * (size_t)ITEMS, ids_bytes = 32 * (size_t)ITEMS;
    input in = {room(times_bytes), room(times_bytes), room(times_bytes), room(ids_bytes), room(ids_bytes), room(ids_bytes), room(ids_bytes),
                0, 0, false};
    fold *const both[2] = {&proved, &plain};
    for (int i = 0; i < 2; i++) {
        both[i]->times = room(times_bytes);
        both[i]->ids = room(ids_bytes);
        both[i]->needed = room(ids_bytes);
    }
    fill(in.all_times, in.all_ids, ITEMS);
    printf("| ids | needed | items of the batch | inquiry | / plain C | commit | / plain C |\n|---|---|---|---|---|---|---|\n");
    for (size_t c = 0; c < 2; c++)
        for (size_t b = 0; b < 4; b++)
            run_row(&in, counts[c], batches[b]);
    in.shared = true;
    share(in.all_ids, ITEMS);
    for (size_t b = 2; b < 4; b++)
        run_row(&in, counts[1], batches[b]);
    for (int i = 0; i < 2; i++)
        free(both[i]->times), free(both[i]->ids), free(both[i]->needed);
    free(in.all_times), free(in.times), free(in.batch_times), free(in.all_ids), free(in.ids), free(in.batch_ids), free(in.needed);
    return 0;
}
