/* How much stack a take keeps, with and without a byte limit, at most 512 KiB, a conversion of a session over the largest table and a call on its
   tree, at most 16 KiB, and a call that folds in, at most 200 KiB. Each runs on a stack of its own, every byte of which is written before; what is changed afterwards was used. */
#define _GNU_SOURCE
#include "recon.h"
#include <pthread.h>
#include <stdio.h>
#include <stdlib.h>
#include <string.h>

#define OWN 20000
#define THEIRS 60000
#define LISTED 50
#define LIMIT ((size_t)512 * 1024)
#define SMALL_LIMIT ((size_t)16 * 1024)
#define FOLD_LIMIT ((size_t)200 * 1024)
#define HALF (RECON_MAX_ITEMS / 2)
#define STACK ((size_t)4 * 1024 * 1024)
#define UNUSED 0xa5

static uint64_t own_times[OWN];
static uint8_t own_ids[32 * OWN], their_ids[32 * THEIRS], marks[OWN], needed[32 * THEIRS];
static uint8_t query[32 * OWN + 4096], reply[33 * THEIRS + 4096];
static size_t reply_length, room;
static recon_session_answer answer;

/* A table of as many items as one can have, its marks and its tree. */
static uint64_t *most_times;
static uint8_t *most_ids, *most_marks, *tree;

/* Half of it as a batch for the other half, and more needed ids than a table can have items. */
static uint64_t *batch_times;
static uint8_t *batch_ids, *list;
static const recon_session finished = {0, RECON_MAX_ITEMS + HALF, true, {{0, 0, 0, 0}, 0}};

/* SplitMix64. */
static uint64_t next(uint64_t *state) {
    uint64_t z = *state += 0x9e3779b97f4a7c15u;
    z = (z ^ (z >> 30)) * 0xbf58476d1ce4e5b9u;
    z = (z ^ (z >> 27)) * 0x94d049bb133111ebu;
    return z ^ (z >> 31);
}

static void fill(uint8_t *ids, size_t count, uint64_t seed) {
    for (size_t i = 0; i < 4 * count; i++) {
        uint64_t word = next(&seed);
        memcpy(ids + 8 * i, &word, 8);
    }
}

static void *take(void *unused) {
    (void)unused;
    answer = recon_take(own_times, OWN, own_ids, sizeof own_ids, 16, 64, reply, reply_length, answer.session, marks, OWN, needed, 32 * room,
                        query, sizeof query);
    return NULL;
}

static void *take_within(void *unused) {
    (void)unused;
    answer = recon_take_within(own_times, OWN, own_ids, sizeof own_ids, 16, 64, RECON_MIN_BYTE_LIMIT, reply, reply_length, answer.session,
                               marks, OWN, needed, 32 * room, query, sizeof query);
    return NULL;
}

static void *convert(void *unused) {
    const recon_unlabelled_session begun = {0, 0, false};
    (void)unused;
    answer = recon_session_convert(most_times, RECON_MAX_ITEMS, most_ids, 32 * RECON_MAX_ITEMS, begun, most_marks, RECON_MAX_ITEMS, needed, 0);
    return NULL;
}

static void *build(void *unused) {
    (void)unused;
    answer.refusal = recon_tree_build(most_times, RECON_MAX_ITEMS, most_ids, 32 * RECON_MAX_ITEMS, tree, recon_tree_bytes(RECON_MAX_ITEMS));
    return NULL;
}

/* The last item, whose place is not looked at, once more. */
static void *append(void *unused) {
    const size_t n = RECON_MAX_ITEMS - 1;
    (void)unused;
    answer.refusal = recon_tree_append(most_times, n, most_ids, 32 * n, n, most_ids, 32, tree, recon_tree_bytes(n));
    return NULL;
}

static void *label(void *unused) {
    (void)unused;
    answer.refusal = recon_tree_label(tree, recon_tree_bytes(RECON_MAX_ITEMS), 1, RECON_MAX_ITEMS - 1).refusal;
    return NULL;
}

static void *inquire(void *unused) {
    (void)unused;
    answer.refusal = recon_fold_inquire(most_times, RECON_MAX_ITEMS, most_ids, 32 * RECON_MAX_ITEMS, HALF, finished, list, 32 * finished.needed,
                                        batch_times, HALF, batch_ids, 32 * HALF)
                         .refusal;
    return NULL;
}

static void *commit(void *unused) {
    (void)unused;
    answer.refusal = recon_fold_commit(most_times, RECON_MAX_ITEMS, most_ids, 32 * RECON_MAX_ITEMS, HALF, finished, list, 32 * finished.needed,
                                       batch_times, HALF, batch_ids, 32 * HALF)
                         .refusal;
    return NULL;
}

/* The bytes of stack that a call uses; it must answer this refusal. */
static size_t used_by(void *call(void *), uint64_t refusal) {
    uint8_t *stack = aligned_alloc(4096, STACK);
    if (stack == NULL) exit(2);
    memset(stack, UNUSED, STACK);
    pthread_attr_t attributes;
    pthread_t thread;
    if (pthread_attr_init(&attributes) || pthread_attr_setstack(&attributes, stack, STACK) || pthread_create(&thread, &attributes, call, NULL)
        || pthread_join(thread, NULL)) {
        exit(2);
    }
    if (answer.refusal != refusal) {
        printf("a call answers %llu, not %llu\n", (unsigned long long)answer.refusal, (unsigned long long)refusal);
        exit(1);
    }
    size_t untouched = 0;
    while (untouched < STACK && stack[untouched] == UNUSED) untouched++;
    free(stack);
    return STACK - untouched;
}

/* The same of a take of the reply, with room for so many needed ids. */
static size_t used(void *call(void *), size_t ids, uint64_t refusal) {
    room = ids;
    answer = recon_open(own_times, OWN, own_ids, sizeof own_ids, 16, 64, marks, OWN, needed, 32 * room, query, sizeof query);
    return used_by(call, refusal);
}

static size_t larger(size_t a, size_t b) { return a > b ? a : b; }

/* What a conversion uses. */
static size_t used_for_conversion(void) {
    most_marks = calloc(RECON_MAX_ITEMS, 1);
    if (most_marks == NULL) exit(2);
    size_t converted = used_by(convert, 0);
    free(most_marks);
    return converted;
}

/* The most that one of the calls on trees uses. */
static size_t used_for_trees(void) {
    tree = malloc(recon_tree_bytes(RECON_MAX_ITEMS));
    if (tree == NULL) exit(2);
    size_t built = used_by(build, 0), appended = used_by(append, 0), labelled = used_by(label, 0);
    free(tree);
    return larger(built, larger(appended, labelled));
}

/* The most that an inquiry or a commit uses. Table and batch alternate by their times, and every third needed id is the batch's. */
static size_t used_for_folds(void) {
    batch_times = malloc(8 * HALF);
    batch_ids = malloc(32 * HALF);
    list = calloc(finished.needed, 32);
    if (batch_times == NULL || batch_ids == NULL || list == NULL) exit(2);
    for (size_t i = 0; i < finished.needed; i++)
        for (size_t j = 0; j < 4; j++) list[32 * i + j] = (uint8_t)(i >> (24 - 8 * j));
    for (size_t i = 0; i < HALF; i++) {
        most_times[i] = 2 * i;
        batch_times[i] = 2 * i + 1;
        memcpy(batch_ids + 32 * i, list + 32 * 3 * i, 32);
    }
    size_t asked = used_by(inquire, 0), merged = used_by(commit, 0);
    free(batch_times);
    free(batch_ids);
    free(list);
    return larger(asked, merged);
}

static size_t put_varint(size_t at, size_t value) {
    for (int shift = value < 1 << 7 ? 0 : value < 1 << 14 ? 7 : 14; shift >= 0; shift -= 7)
        reply[at++] = (uint8_t)((value >> shift & 127) | (shift > 0 ? 128 : 0));
    return at;
}

/* The reply: all of their ids in one range, with half of the own items, and then a fingerprint for each LISTED items, so that the next query has
   as many ids and is far above a byte limit. */
static void make_reply(void) {
    const size_t half = OWN / 2;
    size_t at = 1;
    reply[0] = 0x61;
    at = put_varint(at, half + 1);
    reply[at++] = 0;
    reply[at++] = 2;
    at = put_varint(at, THEIRS);
    memcpy(reply + at, their_ids, sizeof their_ids);
    at += sizeof their_ids;
    for (size_t time = half + LISTED; time <= OWN; time += LISTED) {
        at = put_varint(at, LISTED + 1);
        reply[at++] = 0;
        reply[at++] = 1;
        memset(reply + at, 0, RECON_FINGERPRINT_BYTES);
        at += RECON_FINGERPRINT_BYTES;
    }
    reply_length = at;
}

int main(void) {
    for (size_t i = 0; i < OWN; i++) own_times[i] = i;
    fill(own_ids, OWN, 1);
    fill(their_ids, THEIRS, 2);
    make_reply();
    size_t joined = used(take, THEIRS, 0), whole = answer.length;
    size_t within = used(take_within, THEIRS, 0), cut_short = answer.length;
    if (whole <= RECON_MIN_BYTE_LIMIT || cut_short > RECON_MIN_BYTE_LIMIT) {
        printf("the next query has %zu bytes, and with a byte limit %zu\n", whole, cut_short);
        return 1;
    }
    most_times = malloc(8 * RECON_MAX_ITEMS);
    most_ids = calloc(RECON_MAX_ITEMS, 32);
    if (most_times == NULL || most_ids == NULL) exit(2);
    for (size_t i = 0; i < RECON_MAX_ITEMS; i++) most_times[i] = i;
    size_t refused = used(take, THEIRS - 1, 11), refused_within = used(take_within, THEIRS - 1, 11);
    size_t converted = used_for_conversion(), trees = used_for_trees(), folds = used_for_folds();
    printf("a take keeps %zu KiB on the stack, with a byte limit %zu KiB, one that is refused by 11 %zu and %zu KiB, a conversion %zu KiB, "
           "a call on a tree %zu KiB, one that folds in %zu KiB\n",
           joined / 1024, within / 1024, refused / 1024, refused_within / 1024, converted / 1024, trees / 1024, folds / 1024);
    free(most_times);
    free(most_ids);
    const size_t takes = larger(larger(joined, within), larger(refused, refused_within));
    return takes <= LIMIT && larger(converted, trees) <= SMALL_LIMIT && folds <= FOLD_LIMIT ? 0 : 1;
}
