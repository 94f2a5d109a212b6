/* The algorithms of the proved library, written in C by hand: what they cost with this compiler and without the proofs. */

#ifndef SAME_H
#define SAME_H

#include <stddef.h>
#include <stdint.h>

/* The lengths are the caller's to see to: key 32 bytes, iv 16, tag 16, stay 12, state 120, block 512, session 240. */

/* The first blocks of the keystream, 16 bytes each; `sealed` is 0 for the plain start. */
void same_keystream(const uint8_t *key, const uint8_t *iv, uint64_t sealed, uint8_t *out, size_t blocks);

void same_seal(const uint8_t *key, const uint8_t *iv, const uint8_t *ad, size_t ad_len, const uint8_t *text, size_t text_len, uint8_t *out,
               uint8_t *tag);

/* 0 and the text, or 5. */
uint64_t same_open(const uint8_t *key, const uint8_t *iv, const uint8_t *ad, size_t ad_len, const uint8_t *cipher, size_t cipher_len,
                   const uint8_t *tag, uint8_t *out);

/* A page sealed into its place in a file; text, day, place and the file's length are the caller's to see to. */
void same_file_seal(const uint8_t *key, const uint8_t *stay, uint32_t page, uint32_t day, const uint8_t *text, size_t text_len, size_t place,
                    uint8_t *file);

/* 0, the text of a page and its length, or 13, 14 or 5; out has room for 474 bytes. */
uint64_t same_file_open(const uint8_t *key, const uint8_t *stay, uint32_t page, const uint8_t *file, size_t file_len, uint8_t *out, uint64_t *length);

/* 0 and the IV and mode that lead to a state, or 9 or 6. */
uint64_t same_trace(const uint8_t *state, const uint8_t *key, uint8_t *iv, uint8_t *sealed);

/* 0 and the session that a block of 512 bytes was written for, with its IV, or 8 or 6. */
uint64_t same_resume(const uint8_t *key, const uint8_t *block, uint8_t *session, uint8_t *iv);

#endif
