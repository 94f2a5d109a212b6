/* The implementations that are compared, behind one face: all get the same key, IV, text and buffers. */

#ifndef PEERS_H
#define PEERS_H

#include <stddef.h>
#include <stdint.h>

#define MOST_TEXT 1048576

/* A page of a page file: bytes 0 to 21, the text's most bytes, and all; and a file of a season's pages. */
enum { HEADER = 22, PAGE_TEXT = 474, PAGE = 512, PAGES = 1000, MIDDLE = PAGES / 2, DAY = 9815 };

/* What every peer is given; written before anything is timed. */
extern uint8_t key[32], iv[16], text[MOST_TEXT], zeros[MOST_TEXT], file[PAGES * PAGE];

/* A call answers 0 where it succeeds. One that a peer lacks is NULL. */
struct peer {
    const char *name;
    /* Keystream from block 0, in plain mode. Of no bytes it is the start alone. */
    int (*keystream)(uint8_t *out, size_t bytes);
    /* The front of the text sealed, with no associated data. */
    int (*seal)(uint8_t *out, uint8_t *tag, size_t bytes);
    /* The IV from a state of 120 bytes, or from a suspended block of 512. */
    int (*trace)(uint8_t *found, const uint8_t *state);
    int (*resume)(uint8_t *found, const uint8_t *block);
    /* Blocks back from a state that far behind its start. */
    int (*back)(uint8_t *out, const uint8_t *state, size_t bytes);
    /* A page of 474 bytes of text into the middle of a file of 1,000 pages, the IV being its stay and page number; and the page that stands there in
     * `file` opened. */
    int (*file_seal)(uint8_t *into);
    int (*file_open)(uint8_t *out);
    /* The same text sealed whole under the same 22 bytes of data, and the same page opened whole. */
    int (*page_seal)(uint8_t *out, uint8_t *tag);
    int (*page_open)(uint8_t *out);
    int is_snow_v;
};

extern const struct peer peers[];
extern const size_t peer_count;

/* NULL where OpenSSL is left out. */
const char *openssl_version(void);

#endif
