#ifndef PLAIN_TABLES_H
#define PLAIN_TABLES_H

#include <stddef.h>
#include <stdint.h>

/* 0, or the refusal: 1 for wrong sizes, 2 for items that do not rise or the time 2^64-1. */
uint64_t plain_check_table(const uint64_t *times, size_t n, const uint8_t *ids, size_t id_bytes);

/* The same, with ids compared by words instead of memcmp. */
uint64_t plain_check_table_words(const uint64_t *times, size_t n, const uint8_t *ids, size_t id_bytes);

/* The check of a session's marks and of a table, and the sum of its ids, in one pass over each; with 4 for marks that are not one for each item, are
   above 1, or are not 1 as often as that. Ids are compared by memcmp, and by words. */
uint64_t plain_check_and_add(const uint64_t *times, size_t n, const uint8_t *ids, size_t id_bytes, const uint8_t *marks, size_t marks_len,
                             size_t marked, uint64_t sum[4]);
uint64_t plain_check_and_add_words(const uint64_t *times, size_t n, const uint8_t *ids, size_t id_bytes, const uint8_t *marks, size_t marks_len,
                                   size_t marked, uint64_t sum[4]);

/* The sum of ids of 32 bytes each, modulo 2^256, least significant word first. */
void plain_add_ids(const uint8_t *ids, size_t id_bytes, uint64_t sum[4]);

/* The fingerprint of ids of 32 bytes each: the first 16 bytes of SHA-256 over their sum modulo 2^256 and their number as a varint. */
void plain_fingerprint(const uint8_t *ids, size_t id_bytes, uint8_t out[16]);

#endif
