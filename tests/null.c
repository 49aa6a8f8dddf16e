/* Every slice of every call null with length 0, alone and together with any others: the call answers as for empty slices at an address, and
   leaves every lent byte alike. C and C++. Exits 1 at the first difference. */
#include <stdio.h>
#include <stdlib.h>
#include <string.h>

#include "recon.h"

/* Which slices are empty, as a set. */
enum { TIMES = 1, IDS = 2, OUT = 4, MESSAGE = 8, MARKS = 16, NEEDED = 32, LOWER = 8, UPPER = 16, TREE = 4, ID = 8, BATCH_TIMES = 4, BATCH_IDS = 8, QUERY = 16 };

/* A slice as two arguments: null and 0, or what is given. */
#define NULL_OR(which, p, n) (empty & (which) ? NULL : (p)), (empty & (which) ? 0 : (n))
/* The same slice, with an address in either case. */
#define SOME_OR(which, p, n) (p), (empty & (which) ? 0 : (n))

/* All that a call is lent. */
typedef struct {
    uint64_t times[3];
    uint8_t ids[96], message[5], marks[2], needed[64], out[128], prefix[1], id[32], tree[280];
    uint64_t batch_times[1];
    uint8_t batch_ids[32];
} lent;

static unsigned long compared, unrefused;

static void expect(const char *call, unsigned empty, int holds) {
    compared++;
    if (!holds) {
        printf("null: %s with the empty slices %#x: null pointers make a difference\n", call, empty);
        exit(1);
    }
}

static lent fresh(void) {
    const uint8_t no_ids[5] = {0x61, 0, 0, 2, 0};
    lent l;
    memset(&l, 0, sizeof l);
    l.times[0] = 5;
    l.times[1] = 7;
    l.times[2] = 9;
    memcpy(l.message, no_ids, 5);
    memset(l.out, 0xa5, sizeof l.out);
    memset(l.tree, 0xa5, sizeof l.tree);
    l.needed[32] = 1;
    l.batch_times[0] = 6;
    return l;
}

static int same(recon_session a, recon_session b) {
    return a.marked == b.marked && a.needed == b.needed && a.done == b.done && memcmp(&a.label, &b.label, sizeof a.label) == 0;
}

static int alike(recon_session_answer a, recon_session_answer b) {
    unrefused += a.refusal == RECON_OK;
    return a.refusal == b.refusal && a.length == b.length && same(a.session, b.session);
}

/* What an opening leaves: the ids are zeros, two or none. */
static recon_session begun(unsigned empty) {
    const recon_session session = {0, 0, false, {{0, 0, 0, 0}, (uint64_t)(empty & TIMES ? 0 : 2)}};
    return session;
}

static void opened(unsigned empty) {
    lent a = fresh(), b = fresh();
    recon_session_answer x = recon_open(NULL_OR(TIMES, a.times, 2), NULL_OR(IDS, a.ids, 64), 2, 2, NULL_OR(MARKS, a.marks, 2),
                                        NULL_OR(NEEDED, a.needed, 64), NULL_OR(OUT, a.out, 128));
    recon_session_answer y = (recon_open)(SOME_OR(TIMES, b.times, 2), SOME_OR(IDS, b.ids, 64), 2, 2, SOME_OR(MARKS, b.marks, 2),
                                          SOME_OR(NEEDED, b.needed, 64), SOME_OR(OUT, b.out, 128));
    expect("recon_open", empty, alike(x, y) && memcmp(&a, &b, sizeof a) == 0);
}

static void answered(unsigned empty) {
    lent a = fresh(), b = fresh();
    recon_answer_t x = recon_answer(NULL_OR(TIMES, a.times, 2), NULL_OR(IDS, a.ids, 64), 2, 2, NULL_OR(MESSAGE, a.message, 5),
                                    NULL_OR(OUT, a.out, 128));
    recon_answer_t y = (recon_answer)(SOME_OR(TIMES, b.times, 2), SOME_OR(IDS, b.ids, 64), 2, 2, SOME_OR(MESSAGE, b.message, 5),
                                      SOME_OR(OUT, b.out, 128));
    unrefused += x.refusal == RECON_OK;
    expect("recon_answer", empty, x.refusal == y.refusal && x.length == y.length && memcmp(&a, &b, sizeof a) == 0);
}

static void taken(unsigned empty) {
    const recon_session session = begun(empty);
    lent a = fresh(), b = fresh();
    recon_session_answer x = recon_take(NULL_OR(TIMES, a.times, 2), NULL_OR(IDS, a.ids, 64), 2, 2, NULL_OR(MESSAGE, a.message, 5), session,
                                        NULL_OR(MARKS, a.marks, 2), NULL_OR(NEEDED, a.needed, 64), NULL_OR(OUT, a.out, 128));
    recon_session_answer y = (recon_take)(SOME_OR(TIMES, b.times, 2), SOME_OR(IDS, b.ids, 64), 2, 2, SOME_OR(MESSAGE, b.message, 5), session,
                                          SOME_OR(MARKS, b.marks, 2), SOME_OR(NEEDED, b.needed, 64), SOME_OR(OUT, b.out, 128));
    expect("recon_take", empty, alike(x, y) && memcmp(&a, &b, sizeof a) == 0);
    if (empty == (TIMES | IDS | MARKS | NEEDED | OUT))
        expect("recon_take of all but a message", empty, x.refusal == RECON_OK && x.session.done);
}

static void opened_within(unsigned empty) {
    lent a = fresh(), b = fresh();
    recon_session_answer x = recon_open_within(NULL_OR(TIMES, a.times, 2), NULL_OR(IDS, a.ids, 64), 2, 2, 4096, NULL_OR(MARKS, a.marks, 2),
                                               NULL_OR(NEEDED, a.needed, 64), NULL_OR(OUT, a.out, 128));
    recon_session_answer y = (recon_open_within)(SOME_OR(TIMES, b.times, 2), SOME_OR(IDS, b.ids, 64), 2, 2, 4096, SOME_OR(MARKS, b.marks, 2),
                                                 SOME_OR(NEEDED, b.needed, 64), SOME_OR(OUT, b.out, 128));
    expect("recon_open_within", empty, alike(x, y) && memcmp(&a, &b, sizeof a) == 0);
}

static void answered_within(unsigned empty) {
    lent a = fresh(), b = fresh();
    recon_answer_t x = recon_answer_within(NULL_OR(TIMES, a.times, 2), NULL_OR(IDS, a.ids, 64), 2, 2, 4096, NULL_OR(MESSAGE, a.message, 5),
                                           NULL_OR(OUT, a.out, 128));
    recon_answer_t y = (recon_answer_within)(SOME_OR(TIMES, b.times, 2), SOME_OR(IDS, b.ids, 64), 2, 2, 4096, SOME_OR(MESSAGE, b.message, 5),
                                             SOME_OR(OUT, b.out, 128));
    unrefused += x.refusal == RECON_OK;
    expect("recon_answer_within", empty, x.refusal == y.refusal && x.length == y.length && memcmp(&a, &b, sizeof a) == 0);
}

static void taken_within(unsigned empty) {
    const recon_session session = begun(empty);
    lent a = fresh(), b = fresh();
    recon_session_answer x =
        recon_take_within(NULL_OR(TIMES, a.times, 2), NULL_OR(IDS, a.ids, 64), 2, 2, 4096, NULL_OR(MESSAGE, a.message, 5), session,
                          NULL_OR(MARKS, a.marks, 2), NULL_OR(NEEDED, a.needed, 64), NULL_OR(OUT, a.out, 128));
    recon_session_answer y =
        (recon_take_within)(SOME_OR(TIMES, b.times, 2), SOME_OR(IDS, b.ids, 64), 2, 2, 4096, SOME_OR(MESSAGE, b.message, 5), session,
                            SOME_OR(MARKS, b.marks, 2), SOME_OR(NEEDED, b.needed, 64), SOME_OR(OUT, b.out, 128));
    expect("recon_take_within", empty, alike(x, y) && memcmp(&a, &b, sizeof a) == 0);
}

static void converted(unsigned empty) {
    const recon_unlabelled_session session = {0, (size_t)(empty & NEEDED ? 0 : 2), true};
    lent a = fresh(), b = fresh();
    recon_session_answer x = recon_session_convert(NULL_OR(TIMES, a.times, 2), NULL_OR(IDS, a.ids, 64), session, NULL_OR(MARKS, a.marks, 2),
                                                   NULL_OR(NEEDED, a.needed, 64));
    recon_session_answer y = (recon_session_convert)(SOME_OR(TIMES, b.times, 2), SOME_OR(IDS, b.ids, 64), session, SOME_OR(MARKS, b.marks, 2),
                                                     SOME_OR(NEEDED, b.needed, 64));
    expect("recon_session_convert", empty, alike(x, y) && memcmp(&a, &b, sizeof a) == 0);
    if (empty == (TIMES | IDS | MARKS | NEEDED))
        expect("recon_session_convert of nothing", empty, x.refusal == RECON_OK && x.session.done && x.session.label.count == 0);
    if (empty == 0)
        expect("recon_session_convert of two items", empty, x.refusal == RECON_OK && x.session.done && x.session.label.count == 2);
}

/* The item count and the needed ids fit what is there: a table of two items in buffers for three, or of none, and two ids, or none. */
static size_t item_count(unsigned empty) { return empty & (TIMES | IDS) ? 0 : 2; }

static recon_session finished(unsigned empty) {
    const recon_session session = {1, (size_t)(empty & NEEDED ? 0 : 2), true, {{2, 3, 4, 5}, 6}};
    return session;
}

static void inquired(unsigned empty) {
    lent a = fresh(), b = fresh();
    recon_inquiry x = recon_fold_inquire(NULL_OR(TIMES, a.times, 3), NULL_OR(IDS, a.ids, 96), item_count(empty), finished(empty),
                                         NULL_OR(NEEDED, a.needed, 64), NULL_OR(BATCH_TIMES, a.batch_times, 1),
                                         NULL_OR(BATCH_IDS, a.batch_ids, 32));
    recon_inquiry y = (recon_fold_inquire)(SOME_OR(TIMES, b.times, 3), SOME_OR(IDS, b.ids, 96), item_count(empty), finished(empty),
                                           SOME_OR(NEEDED, b.needed, 64), SOME_OR(BATCH_TIMES, b.batch_times, 1),
                                           SOME_OR(BATCH_IDS, b.batch_ids, 32));
    unrefused += x.refusal == RECON_OK;
    expect("recon_fold_inquire", empty, memcmp(&x, &y, sizeof x) == 0 && memcmp(&a, &b, sizeof a) == 0);
    if (empty == (TIMES | IDS | NEEDED | BATCH_TIMES | BATCH_IDS))
        expect("recon_fold_inquire of nothing", empty, x.refusal == RECON_OK && x.entering == 0 && x.staying == 0);
}

static void committed(unsigned empty) {
    lent a = fresh(), b = fresh();
    recon_commit x = recon_fold_commit(NULL_OR(TIMES, a.times, 3), NULL_OR(IDS, a.ids, 96), item_count(empty), finished(empty),
                                       NULL_OR(NEEDED, a.needed, 64), NULL_OR(BATCH_TIMES, a.batch_times, 1),
                                       NULL_OR(BATCH_IDS, a.batch_ids, 32));
    recon_commit y = (recon_fold_commit)(SOME_OR(TIMES, b.times, 3), SOME_OR(IDS, b.ids, 96), item_count(empty), finished(empty),
                                         SOME_OR(NEEDED, b.needed, 64), SOME_OR(BATCH_TIMES, b.batch_times, 1),
                                         SOME_OR(BATCH_IDS, b.batch_ids, 32));
    recon_session kept = finished(empty);
    kept.needed = x.session.needed;
    unrefused += x.refusal == RECON_OK;
    expect("recon_fold_commit", empty, x.refusal == y.refusal && x.items == y.items && same(x.session, y.session) && memcmp(&a, &b, sizeof a) == 0);
    expect("recon_fold_commit keeps the rest of the session", empty, same(x.session, kept));
    if (empty == (TIMES | IDS | NEEDED | BATCH_TIMES | BATCH_IDS))
        expect("recon_fold_commit of nothing", empty, x.refusal == RECON_OK && x.items == 0);
    if (empty == 0)
        expect("recon_fold_commit of an item", empty, x.refusal == RECON_OK && x.items == 3 && a.times[1] == 6 && x.session.needed == 1);
}

static void fingerprinted(unsigned empty) {
    lent a = fresh(), b = fresh();
    uint64_t x = recon_fingerprint(NULL_OR(TIMES, a.times, 2), NULL_OR(IDS, a.ids, 64), false, 0, NULL_OR(LOWER, a.prefix, 1), false, 9,
                                   NULL_OR(UPPER, a.prefix, 1), a.out);
    uint64_t y = (recon_fingerprint)(SOME_OR(TIMES, b.times, 2), SOME_OR(IDS, b.ids, 64), false, 0, SOME_OR(LOWER, b.prefix, 1), false, 9,
                                     SOME_OR(UPPER, b.prefix, 1), b.out);
    unrefused += x == RECON_OK;
    expect("recon_fingerprint", empty, x == y && memcmp(&a, &b, sizeof a) == 0);
}

/* The message lists no ids of all items, as a query; as a reply it is approved by a table of none. */
static void judged(unsigned empty) {
    lent a = fresh(), b = fresh();
    recon_judgement x = recon_judge(NULL_OR(TIMES, a.times, 2), NULL_OR(IDS, a.ids, 64), NULL_OR(QUERY, a.message, 5), NULL_OR(MESSAGE, a.message, 5));
    recon_judgement y = (recon_judge)(SOME_OR(TIMES, b.times, 2), SOME_OR(IDS, b.ids, 64), SOME_OR(QUERY, b.message, 5), SOME_OR(MESSAGE, b.message, 5));
    unrefused += x.refusal == RECON_OK;
    expect("recon_judge", empty, x.refusal == y.refusal && x.approved == y.approved && memcmp(&a, &b, sizeof a) == 0);
    if (empty == (TIMES | IDS))
        expect("recon_judge of no items", empty, x.refusal == RECON_OK && x.approved);
    if (empty == 0)
        expect("recon_judge of two items", empty, x.refusal == RECON_OK && !x.approved);
}

static void digested(unsigned empty) {
    lent a = fresh(), b = fresh();
    recon_sha256(NULL_OR(TIMES, a.message, 5), a.out);
    (recon_sha256)(SOME_OR(TIMES, b.message, 5), b.out);
    expect("recon_sha256", empty, memcmp(&a, &b, sizeof a) == 0);
}

/* The tree of the two tree calls below fits the table, also where that is empty. */
static size_t tree_length(unsigned empty) { return recon_tree_bytes(empty & TIMES ? 0 : 3); }

static void built(unsigned empty) {
    lent a = fresh(), b = fresh();
    uint64_t x = recon_tree_build(NULL_OR(TIMES, a.times, 3), NULL_OR(IDS, a.ids, 96), NULL_OR(TREE, a.tree, tree_length(empty)));
    uint64_t y = (recon_tree_build)(SOME_OR(TIMES, b.times, 3), SOME_OR(IDS, b.ids, 96), SOME_OR(TREE, b.tree, tree_length(empty)));
    unrefused += x == RECON_OK;
    expect("recon_tree_build", empty, x == y && memcmp(&a, &b, sizeof a) == 0);
    if (empty == (TIMES | IDS))
        expect("recon_tree_build over no items", empty, x == RECON_OK && a.tree[39] == 0 && a.tree[40] == 0xa5);
}

static void appended(unsigned empty) {
    lent a = fresh(), b = fresh();
    uint64_t x = recon_tree_append(NULL_OR(TIMES, a.times, 3), NULL_OR(IDS, a.ids, 96), 10, NULL_OR(ID, a.id, 32),
                                   NULL_OR(TREE, a.tree, tree_length(empty)));
    uint64_t y = (recon_tree_append)(SOME_OR(TIMES, b.times, 3), SOME_OR(IDS, b.ids, 96), 10, SOME_OR(ID, b.id, 32),
                                     SOME_OR(TREE, b.tree, tree_length(empty)));
    unrefused += x == RECON_OK;
    expect("recon_tree_append", empty, x == y && memcmp(&a, &b, sizeof a) == 0);
    if (empty == (TIMES | IDS))
        expect("recon_tree_append to no items", empty, x == RECON_OK && a.tree[32] == 1 && a.tree[40] == 0xa5);
}

static void run_labelled(unsigned empty) {
    lent a = fresh(), b = fresh();
    recon_tree_answer x = recon_tree_label(NULL_OR(TREE, a.tree, 280), 1, 3);
    recon_tree_answer y = (recon_tree_label)(SOME_OR(TREE, b.tree, 280), 1, 3);
    unrefused += x.refusal == RECON_OK;
    expect("recon_tree_label", empty, memcmp(&x, &y, sizeof x) == 0 && memcmp(&a, &b, sizeof a) == 0);
}

int main(void) {
    for (unsigned empty = 0; empty < 64; empty++) {
        opened(empty);
        answered(empty);
        taken(empty);
        opened_within(empty);
        answered_within(empty);
        taken_within(empty);
        converted(empty);
        inquired(empty);
        committed(empty);
        fingerprinted(empty);
        judged(empty);
        digested(empty);
        built(empty);
        appended(empty);
        run_labelled(empty);
    }
    printf("null: %lu calls with and without null pointers alike, %lu of those that can be refused were not\n", compared, unrefused);
    return unrefused > 0 ? 0 : 1;
}
