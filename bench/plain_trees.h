#ifndef PLAIN_TREES_H
#define PLAIN_TREES_H

#include <stddef.h>
#include <stdint.h>

/* A label is 40 bytes, as in a tree: a sum modulo 2^256 and a count, least significant byte first. */
typedef struct {
    uint64_t refusal;
    uint8_t label[40];
    uint64_t visited;
} plain_run;

/* Builds the tree over n items; 0, or the refusal. */
uint64_t plain_tree_build(const uint64_t *times, size_t n, const uint8_t *ids, size_t id_bytes, uint8_t *tree, size_t tree_bytes);

/* Appends an item to the tree over the n items before it; 0, or the refusal. */
uint64_t plain_tree_append(const uint64_t *times, size_t n, const uint8_t *ids, size_t id_bytes, uint64_t time, const uint8_t *id,
                           size_t one_id_bytes, uint8_t *tree, size_t tree_bytes);

/* The label of the places from one to below another, and how many labels were visited. */
plain_run plain_tree_label(const uint8_t *tree, size_t tree_bytes, size_t from, size_t to);

/* The label of the items from one to below another, summed item by item. */
void plain_sum(const uint8_t *ids, size_t from, size_t to, uint8_t sum[40]);

#endif
