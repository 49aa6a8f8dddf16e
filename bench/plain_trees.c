/* Trees of labels in plain C, for the benchmark: what the proved code is compared with. Little-endian machines only. */
#include "plain_trees.h"

#include <string.h>
#include <x86intrin.h>

#include "plain_tables.h"

enum { LABEL_BYTES = 40 };

static uint64_t load(const uint8_t *p) {
    uint64_t x;
    memcpy(&x, p, 8);
    return x;
}

static void store(uint8_t *p, uint64_t x) { memcpy(p, &x, 8); }

/* Adds two labels word by word where they lie: as structs that are handed over by value they took up to 1.8 times as long to build a tree. */
static void add(uint8_t *sum, const uint8_t *p, const uint8_t *q) {
    unsigned long long w, x, y, z;
    unsigned char carry = _addcarry_u64(0, load(p), load(q), &w);
    carry = _addcarry_u64(carry, load(p + 8), load(q + 8), &x);
    carry = _addcarry_u64(carry, load(p + 16), load(q + 16), &y);
    _addcarry_u64(carry, load(p + 24), load(q + 24), &z);
    store(sum, w);
    store(sum + 8, x);
    store(sum + 16, y);
    store(sum + 24, z);
    store(sum + 32, load(p + 32) + load(q + 32));
}

static uint8_t *label(uint8_t *tree, size_t i) { return tree + LABEL_BYTES * i; }

static void store_item(uint8_t *tree, size_t i, const uint8_t *id) {
    memcpy(label(tree, i), id, 32);
    store(label(tree, i) + 32, 1);
}

static void renew(uint8_t *tree, size_t i) { add(label(tree, i), label(tree, 2 * i + 1), label(tree, 2 * i + 2)); }

static size_t places_for(size_t n) {
    size_t places = 1;
    while (places < n)
        places *= 2;
    return places;
}

/* The places from the left, then the labels above them from the last to the first, which is the whole. */
uint64_t plain_tree_build(const uint64_t *times, size_t n, const uint8_t *ids, size_t id_bytes, uint8_t *tree, size_t tree_bytes) {
    uint64_t refusal = plain_check_table(times, n, ids, id_bytes);
    size_t places = places_for(n);
    if (refusal != 0)
        return refusal;
    if (tree_bytes != LABEL_BYTES * (2 * places - 1))
        return 13;
    for (size_t i = 0; i < n; i++)
        store_item(tree, places - 1 + i, ids + 32 * i);
    memset(label(tree, places - 1 + n), 0, LABEL_BYTES * (places - n));
    for (size_t i = places - 1; i > 0; i--)
        renew(tree, i - 1);
    return 0;
}

static int above(uint64_t time, const uint8_t *id, uint64_t last_time, const uint8_t *last_id) {
    return time > last_time || (time == last_time && memcmp(id, last_id, 32) > 0);
}

uint64_t plain_tree_append(const uint64_t *times, size_t n, const uint8_t *ids, size_t id_bytes, uint64_t time, const uint8_t *id,
                           size_t one_id_bytes, uint8_t *tree, size_t tree_bytes) {
    uint64_t refusal = one_id_bytes != 32 ? 1 : plain_check_table(times, n, ids, id_bytes);
    size_t places = places_for(n);
    if (refusal != 0)
        return refusal;
    if (time == UINT64_MAX || (n > 0 && !above(time, id, times[n - 1], ids + 32 * (n - 1))))
        return 2;
    if (tree_bytes != LABEL_BYTES * (2 * places - 1) || n == places)
        return 13;
    size_t i = places - 1 + n;
    store_item(tree, i, id);
    while (i > 0) {
        i = (i - 1) / 2;
        renew(tree, i);
    }
    return 0;
}

/* Label i, of the `size` places from `first` on: where all of them are inside the run it is added to what was found so far. */
static void visit(const uint8_t *tree, size_t i, size_t first, size_t size, size_t from, size_t to, plain_run *run) {
    run->visited++;
    if (to <= from || to <= first || first + size <= from)
        return;
    if (from <= first && first + size <= to) {
        add(run->label, run->label, tree + LABEL_BYTES * i);
        return;
    }
    visit(tree, 2 * i + 1, first, size / 2, from, to, run);
    visit(tree, 2 * i + 2, first + size / 2, size / 2, from, to, run);
}

plain_run plain_tree_label(const uint8_t *tree, size_t tree_bytes, size_t from, size_t to) {
    plain_run run = {.refusal = 0};
    size_t places = places_for(tree_bytes / (2 * LABEL_BYTES) + 1);
    if (tree_bytes != LABEL_BYTES * (2 * places - 1)) {
        run.refusal = 13;
        return run;
    }
    visit(tree, 0, 0, places, from, to, &run);
    return run;
}

void plain_sum(const uint8_t *ids, size_t from, size_t to, uint8_t sum[40]) {
    uint64_t words[4];
    plain_add_ids(ids + 32 * from, 32 * (to - from), words);
    memcpy(sum, words, 32);
    store(sum + 32, to - from);
}
