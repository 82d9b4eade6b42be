/* SHA-256 (FIPS 180-4), over bytes that come piece by piece. */
#ifndef SHA256_H
#define SHA256_H

#include <stddef.h>
#include <stdint.h>

struct sha256 {
    uint32_t state[8];
    uint64_t length;
    uint8_t block[64];
};

void sha256_begin(struct sha256 *sum);
void sha256_add(struct sha256 *sum, const void *bytes, size_t length);
/* Writes the digest as 64 hexadecimal digits and an end. */
void sha256_end(struct sha256 *sum, char digits[65]);

#endif
