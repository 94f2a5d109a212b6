/* The SNOW-V paper's portable algorithm (appendix D) in plain C99: the yardstick that the
 * verified code is measured against. A block is 16 bytes. */

#ifndef PORTABLE_H
#define PORTABLE_H

#include <stddef.h>
#include <stdint.h>

/* Writes the first `blocks` keystream blocks for a key of 32 bytes and an IV of 16 bytes to
 * `out` (16 * blocks bytes). `sealed` is 1 for the AEAD mode's start (equation (12)), 0 for
 * the plain one. */
void portable_keystream(const uint8_t *key, const uint8_t *iv, int sealed, uint8_t *out,
                        size_t blocks);

/* SNOW-V-GCM: writes text_len bytes of ciphertext to `out` and the tag to `tag`. A pointer
 * whose length is 0 is not read. */
void portable_seal(const uint8_t *key, const uint8_t *iv, const uint8_t *ad, size_t ad_len,
                   const uint8_t *text, size_t text_len, uint8_t *out, uint8_t tag[16]);

/* The registers that a start leads to after `steps` steps: A, B, R1, R2, R3, low byte first. */
void portable_registers(const uint8_t *key, const uint8_t *iv, int sealed, size_t steps,
                        uint8_t out[112]);

#endif
