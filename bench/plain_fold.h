#ifndef PLAIN_FOLD_H
#define PLAIN_FOLD_H

#include "recon.h"

/* What the calls for folding in are handed. */
typedef struct {
    uint64_t *times;
    size_t times_len;
    uint8_t *ids;
    size_t ids_len, items;
    recon_session session;
    uint8_t *needed;
    size_t needed_len;
    const uint64_t *batch_times;
    size_t batch_times_len;
    const uint8_t *batch_ids;
    size_t batch_ids_len;
} fold;

recon_inquiry plain_fold_inquire(const fold *f);

recon_commit plain_fold_commit(const fold *f);

#endif
