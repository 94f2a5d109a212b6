#include "peers.h"

#include <string.h>

#include "portable.h"
#include "same.h"
#include "tulvekas.h"

/* ---- a page of a page file */

static uint32_t page_number(const uint8_t *page)
{
    uint32_t n;
    memcpy(&n, page + 12, sizeof n);
    return n;
}

/* Bytes 0 to 21 of the page that is sealed. */
static const uint8_t *header(void)
{
    static uint8_t head[HEADER] = {[16] = DAY % 256, [17] = DAY / 256, [20] = PAGE_TEXT % 256, [21] = PAGE_TEXT / 256};
    memcpy(head, iv, sizeof iv);
    return head;
}

/* The page that is opened. */
static const uint8_t *const middle = file + PAGE * MIDDLE;

/* ---- the proved library */

static int ours_keystream(uint8_t *out, size_t bytes)
{
    return tulvekas_keystream(key, sizeof key, iv, sizeof iv, 0, out, bytes) != 0;
}

static int ours_seal(uint8_t *out, uint8_t *tag, size_t bytes)
{
    return tulvekas_seal(key, sizeof key, iv, sizeof iv, NULL, 0, text, bytes, out, bytes, tag, 16) != 0;
}

static int ours_trace(uint8_t *found, const uint8_t *state)
{
    uint8_t sealed;
    return tulvekas_trace(state, TULVEKAS_STATE_BYTES, key, sizeof key, found, 16, &sealed, 1) != 0 || sealed != 1;
}

static int ours_resume(uint8_t *found, const uint8_t *block)
{
    uint8_t session[TULVEKAS_SESSION_BYTES];
    return tulvekas_resume(key, sizeof key, block, TULVEKAS_SUSPENDED_BYTES, session, sizeof session, found, 16) != 0;
}

static int ours_back(uint8_t *out, const uint8_t *state, size_t bytes)
{
    uint8_t moved[TULVEKAS_STATE_BYTES];
    memcpy(moved, state, sizeof moved);
    return tulvekas_run(moved, sizeof moved, bytes / 16, 1, out, bytes) != 0;
}

static int ours_file_seal(uint8_t *into)
{
    return tulvekas_file_seal(key, sizeof key, iv, TULVEKAS_STAY_BYTES, page_number(iv), DAY, text, PAGE_TEXT, MIDDLE, into, sizeof file) != 0;
}

static int ours_file_open(uint8_t *out)
{
    uint8_t length[TULVEKAS_LENGTH_BYTES];
    return tulvekas_file_open(key, sizeof key, middle, TULVEKAS_STAY_BYTES, page_number(middle), file, sizeof file, out, PAGE_TEXT, length,
                              sizeof length) != 0;
}

static int ours_page_seal(uint8_t *out, uint8_t *tag)
{
    return tulvekas_seal(key, sizeof key, iv, sizeof iv, header(), HEADER, text, PAGE_TEXT, out, PAGE_TEXT, tag, 16) != 0;
}

static int ours_page_open(uint8_t *out)
{
    return tulvekas_open(key, sizeof key, middle, 16, middle, HEADER, middle + HEADER, PAGE_TEXT, middle + HEADER + PAGE_TEXT, 16, out, PAGE_TEXT) != 0;
}

/* ---- the same algorithms in C */

static int hand_keystream(uint8_t *out, size_t bytes)
{
    same_keystream(key, iv, 0, out, bytes / 16);
    return 0;
}

static int hand_seal(uint8_t *out, uint8_t *tag, size_t bytes)
{
    same_seal(key, iv, NULL, 0, text, bytes, out, tag);
    return 0;
}

static int hand_trace(uint8_t *found, const uint8_t *state)
{
    uint8_t sealed;
    return same_trace(state, key, found, &sealed) != 0 || sealed != 1;
}

static int hand_resume(uint8_t *found, const uint8_t *block)
{
    uint8_t session[TULVEKAS_SESSION_BYTES];
    return same_resume(key, block, session, found) != 0;
}

static int hand_file_seal(uint8_t *into)
{
    same_file_seal(key, iv, page_number(iv), DAY, text, PAGE_TEXT, MIDDLE, into);
    return 0;
}

static int hand_file_open(uint8_t *out)
{
    uint64_t length;
    return same_file_open(key, middle, page_number(middle), file, sizeof file, out, &length) != 0;
}

static int hand_page_seal(uint8_t *out, uint8_t *tag)
{
    same_seal(key, iv, header(), HEADER, text, PAGE_TEXT, out, tag);
    return 0;
}

static int hand_page_open(uint8_t *out)
{
    return same_open(key, middle, middle, HEADER, middle + HEADER, PAGE_TEXT, middle + HEADER + PAGE_TEXT, out) != 0;
}

/* ---- the paper's portable algorithm in C, which has no way back */

static int paper_keystream(uint8_t *out, size_t bytes)
{
    portable_keystream(key, iv, 0, out, bytes / 16);
    return 0;
}

static int paper_seal(uint8_t *out, uint8_t *tag, size_t bytes)
{
    portable_seal(key, iv, NULL, 0, text, bytes, out, tag);
    return 0;
}

/* ---- the Rust implementation of tests/differential */
#ifdef WITH_REFERENCE

uint64_t reference_keystream(const uint8_t *key, const uint8_t *iv, uint64_t sealed, uint8_t *out, size_t blocks);
uint64_t reference_seal(const uint8_t *key, const uint8_t *iv, const uint8_t *ad, size_t ad_len, const uint8_t *text, size_t text_len,
                        uint8_t *out, uint8_t *tag);
uint64_t reference_trace(const uint8_t *state, const uint8_t *key, uint8_t *iv, uint8_t *sealed);
uint64_t reference_resume(const uint8_t *key, const uint8_t *block, uint8_t *iv);
uint64_t reference_open(const uint8_t *key, const uint8_t *iv, const uint8_t *ad, size_t ad_len, const uint8_t *cipher, size_t cipher_len,
                        const uint8_t *tag, uint8_t *out);
uint64_t reference_file_seal(const uint8_t *key, const uint8_t *stay, uint32_t page, uint64_t day, const uint8_t *text, size_t text_len,
                             uint64_t place, uint8_t *file, size_t file_len);
uint64_t reference_file_open(const uint8_t *key, const uint8_t *stay, uint32_t page, const uint8_t *file, size_t file_len, uint8_t *out);

static int rust_keystream(uint8_t *out, size_t bytes)
{
    return reference_keystream(key, iv, 0, out, bytes / 16) != 0;
}

static int rust_seal(uint8_t *out, uint8_t *tag, size_t bytes)
{
    return reference_seal(key, iv, NULL, 0, text, bytes, out, tag) != 0;
}

static int rust_trace(uint8_t *found, const uint8_t *state)
{
    uint8_t sealed;
    return reference_trace(state, key, found, &sealed) != 0 || sealed != 1;
}

static int rust_resume(uint8_t *found, const uint8_t *block)
{
    return reference_resume(key, block, found) != 0;
}

static int rust_file_seal(uint8_t *into)
{
    return reference_file_seal(key, iv, page_number(iv), DAY, text, PAGE_TEXT, MIDDLE, into, sizeof file) != 0;
}

static int rust_file_open(uint8_t *out)
{
    return reference_file_open(key, middle, page_number(middle), file, sizeof file, out) != 0;
}

static int rust_page_seal(uint8_t *out, uint8_t *tag)
{
    return reference_seal(key, iv, header(), HEADER, text, PAGE_TEXT, out, tag) != 0;
}

static int rust_page_open(uint8_t *out)
{
    return reference_open(key, middle, middle, HEADER, middle + HEADER, PAGE_TEXT, middle + HEADER + PAGE_TEXT, out) != 0;
}

#endif

/* ---- OpenSSL: the cipher is set up once per process; each call sets key and IV, as ours do. A keystream is that of the AEAD's cipher: zeros
 * encrypted. */
#ifdef WITH_OPENSSL

#include <openssl/crypto.h>
#include <openssl/evp.h>

/* The context of a cipher, made at its first use. */
static EVP_CIPHER_CTX *keyed(EVP_CIPHER_CTX **ctx, const EVP_CIPHER *cipher)
{
    if (*ctx == NULL) {
        *ctx = EVP_CIPHER_CTX_new();
        if (*ctx == NULL || EVP_EncryptInit_ex(*ctx, cipher, NULL, NULL, NULL) != 1)
            return NULL;
    }
    return EVP_EncryptInit_ex(*ctx, NULL, NULL, key, iv) == 1 ? *ctx : NULL;
}

static int evp_keystream(EVP_CIPHER_CTX *ctx, uint8_t *out, size_t bytes)
{
    int n;
    return ctx == NULL || (bytes > 0 && EVP_EncryptUpdate(ctx, out, &n, zeros, (int)bytes) != 1);
}

static int evp_seal(EVP_CIPHER_CTX *ctx, uint8_t *out, uint8_t *tag, size_t bytes)
{
    int n;
    return ctx == NULL || EVP_EncryptUpdate(ctx, out, &n, text, (int)bytes) != 1 || EVP_EncryptFinal_ex(ctx, out + n, &n) != 1 ||
           EVP_CIPHER_CTX_ctrl(ctx, EVP_CTRL_AEAD_GET_TAG, 16, tag) != 1;
}

static EVP_CIPHER_CTX *aes_ctr, *aes_gcm, *chacha, *chacha_poly;

static int aes_keystream(uint8_t *out, size_t bytes)
{
    return evp_keystream(keyed(&aes_ctr, EVP_aes_256_ctr()), out, bytes);
}

static int aes_seal(uint8_t *out, uint8_t *tag, size_t bytes)
{
    return evp_seal(keyed(&aes_gcm, EVP_aes_256_gcm()), out, tag, bytes);
}

static int chacha_keystream(uint8_t *out, size_t bytes)
{
    return evp_keystream(keyed(&chacha, EVP_chacha20()), out, bytes);
}

static int chacha_seal(uint8_t *out, uint8_t *tag, size_t bytes)
{
    return evp_seal(keyed(&chacha_poly, EVP_chacha20_poly1305()), out, tag, bytes);
}

#endif

const struct peer peers[] = {
    {"tulvekas", ours_keystream, ours_seal, ours_trace, ours_resume, ours_back, ours_file_seal, ours_file_open, ours_page_seal, ours_page_open, 1},
    {"same in C", hand_keystream, hand_seal, hand_trace, hand_resume, NULL, hand_file_seal, hand_file_open, hand_page_seal, hand_page_open, 1},
    {"portable C", paper_keystream, paper_seal, NULL, NULL, NULL, NULL, NULL, NULL, NULL, 1},
#ifdef WITH_REFERENCE
    {"Rust", rust_keystream, rust_seal, rust_trace, rust_resume, NULL, rust_file_seal, rust_file_open, rust_page_seal, rust_page_open, 1},
#endif
#ifdef WITH_OPENSSL
    {"AES-256-GCM", aes_keystream, aes_seal, NULL, NULL, NULL, NULL, NULL, NULL, NULL, 0},
    {"ChaCha20-Poly1305", chacha_keystream, chacha_seal, NULL, NULL, NULL, NULL, NULL, NULL, NULL, 0},
#endif
};

const size_t peer_count = sizeof peers / sizeof *peers;

const char *openssl_version(void)
{
#ifdef WITH_OPENSSL
    return OpenSSL_version(OPENSSL_VERSION_STRING);
#else
    return NULL;
#endif
}
