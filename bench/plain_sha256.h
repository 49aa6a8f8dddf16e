#ifndef PLAIN_SHA256_H
#define PLAIN_SHA256_H

#include <stddef.h>
#include <stdint.h>

void plain_sha256(const uint8_t *m, size_t n, uint8_t out[32]);

#endif
