/* The SNOW-V paper's portable algorithm, rendered from its appendix D: the 32-bit reference
 * implementation (struct SnowV32), SNOW-V-GCM on top of it, and the exampled GHASH. Functions
 * keep the listings' names, order and way of working: S-box by bytes, cells clocked one by one,
 * GHASH bit by bit. */

#include "portable.h"

#include <string.h>

typedef uint8_t u8;
typedef uint16_t u16;
typedef uint32_t u32;
typedef uint64_t u64;

/* FIPS 197, figure 7. The listing has the four tables as writable objects; as constants the
 * compiler folds sigma and the zero round keys away, which only makes this yardstick faster. */
static const u8 sbox[256] = {
    0x63, 0x7c, 0x77, 0x7b, 0xf2, 0x6b, 0x6f, 0xc5, 0x30, 0x01, 0x67, 0x2b, 0xfe, 0xd7, 0xab, 0x76,
    0xca, 0x82, 0xc9, 0x7d, 0xfa, 0x59, 0x47, 0xf0, 0xad, 0xd4, 0xa2, 0xaf, 0x9c, 0xa4, 0x72, 0xc0,
    0xb7, 0xfd, 0x93, 0x26, 0x36, 0x3f, 0xf7, 0xcc, 0x34, 0xa5, 0xe5, 0xf1, 0x71, 0xd8, 0x31, 0x15,
    0x04, 0xc7, 0x23, 0xc3, 0x18, 0x96, 0x05, 0x9a, 0x07, 0x12, 0x80, 0xe2, 0xeb, 0x27, 0xb2, 0x75,
    0x09, 0x83, 0x2c, 0x1a, 0x1b, 0x6e, 0x5a, 0xa0, 0x52, 0x3b, 0xd6, 0xb3, 0x29, 0xe3, 0x2f, 0x84,
    0x53, 0xd1, 0x00, 0xed, 0x20, 0xfc, 0xb1, 0x5b, 0x6a, 0xcb, 0xbe, 0x39, 0x4a, 0x4c, 0x58, 0xcf,
    0xd0, 0xef, 0xaa, 0xfb, 0x43, 0x4d, 0x33, 0x85, 0x45, 0xf9, 0x02, 0x7f, 0x50, 0x3c, 0x9f, 0xa8,
    0x51, 0xa3, 0x40, 0x8f, 0x92, 0x9d, 0x38, 0xf5, 0xbc, 0xb6, 0xda, 0x21, 0x10, 0xff, 0xf3, 0xd2,
    0xcd, 0x0c, 0x13, 0xec, 0x5f, 0x97, 0x44, 0x17, 0xc4, 0xa7, 0x7e, 0x3d, 0x64, 0x5d, 0x19, 0x73,
    0x60, 0x81, 0x4f, 0xdc, 0x22, 0x2a, 0x90, 0x88, 0x46, 0xee, 0xb8, 0x14, 0xde, 0x5e, 0x0b, 0xdb,
    0xe0, 0x32, 0x3a, 0x0a, 0x49, 0x06, 0x24, 0x5c, 0xc2, 0xd3, 0xac, 0x62, 0x91, 0x95, 0xe4, 0x79,
    0xe7, 0xc8, 0x37, 0x6d, 0x8d, 0xd5, 0x4e, 0xa9, 0x6c, 0x56, 0xf4, 0xea, 0x65, 0x7a, 0xae, 0x08,
    0xba, 0x78, 0x25, 0x2e, 0x1c, 0xa6, 0xb4, 0xc6, 0xe8, 0xdd, 0x74, 0x1f, 0x4b, 0xbd, 0x8b, 0x8a,
    0x70, 0x3e, 0xb5, 0x66, 0x48, 0x03, 0xf6, 0x0e, 0x61, 0x35, 0x57, 0xb9, 0x86, 0xc1, 0x1d, 0x9e,
    0xe1, 0xf8, 0x98, 0x11, 0x69, 0xd9, 0x8e, 0x94, 0x9b, 0x1e, 0x87, 0xe9, 0xce, 0x55, 0x28, 0xdf,
    0x8c, 0xa1, 0x89, 0x0d, 0xbf, 0xe6, 0x42, 0x68, 0x41, 0x99, 0x2d, 0x0f, 0xb0, 0x54, 0xbb, 0x16};

/* Equation (11). */
static const u8 sigma[16] = {0, 4, 8, 12, 1, 5, 9, 13, 2, 6, 10, 14, 3, 7, 11, 15};

/* The round keys C1 and C2 of equations (9) and (10). */
static const u32 aes_key1[4] = {0, 0, 0, 0};
static const u32 aes_key2[4] = {0, 0, 0, 0};

#define MAKEU32(a, b) (((u32)(a) << 16) | ((u32)(b)))
#define MAKEU16(a, b) (((u16)(a) << 8) | ((u16)(b)))
#define ROTL32(word, offset) (((word) << (offset)) | ((word) >> (32 - (offset))))

/* Cell 0 of a register first; word 0 of R1, R2, R3 least significant. The functions on it are
 * inline, as the listing's members are. */
struct SnowV32 {
    u16 A[16], B[16];
    u32 R1[4], R2[4], R3[4];
};

/* The listing's MKSTEP: column j after ShiftRows and MixColumns. The column is held turned by
 * one byte (w is rows 1, 2, 3, 0), so that its bytes are w + t + (t turned back) with
 * t = 2w + (w turned by two). */
static inline u32 mkstep(const u8 *sb, int j)
{
    u32 w = ((u32)sb[(j * 4 + 0) % 16] << 24) | ((u32)sb[(j * 4 + 5) % 16] << 0) |
            ((u32)sb[(j * 4 + 10) % 16] << 8) | ((u32)sb[(j * 4 + 15) % 16] << 16);
    u32 t = ROTL32(w, 16) ^ ((w << 1) & 0xfefefefeU) ^ (((w >> 7) & 0x01010101U) * 0x1b);
    return w ^ t ^ ROTL32(t, 8);
}

/* AES^R(IN, KEY) of section 2: SubBytes, ShiftRows, MixColumns, AddRoundKey. */
static inline void aes_enc_round(u32 *result, const u32 *state, const u32 *round_key)
{
    u8 sb[16];
    for (int i = 0; i < 4; i++)
        for (int j = 0; j < 4; j++)
            sb[i * 4 + j] = sbox[(state[i] >> (j * 8)) & 0xff];
    result[0] = round_key[0] ^ mkstep(sb, 0);
    result[1] = round_key[1] ^ mkstep(sb, 1);
    result[2] = round_key[2] ^ mkstep(sb, 2);
    result[3] = round_key[3] ^ mkstep(sb, 3);
}

/* Times alpha or beta; c is the polynomial of equation (1) or (2) without its highest term. */
static inline u16 mul_x(u16 v, u16 c)
{
    if (v & 0x8000)
        return (u16)((v << 1) ^ c);
    else
        return (u16)(v << 1);
}

/* Times the inverse of alpha or beta. */
static inline u16 mul_x_inv(u16 v, u16 d)
{
    if (v & 0x0001)
        return (u16)((v >> 1) ^ d);
    else
        return (u16)(v >> 1);
}

/* Equation (11), byte by byte. */
static inline void permute_sigma(u32 *state)
{
    u8 tmp[16];
    for (int i = 0; i < 16; i++)
        tmp[i] = (u8)(state[sigma[i] >> 2] >> ((sigma[i] & 3) << 3));
    for (int i = 0; i < 4; i++)
        state[i] = MAKEU32(MAKEU16(tmp[4 * i + 3], tmp[4 * i + 2]),
                           MAKEU16(tmp[4 * i + 1], tmp[4 * i]));
}

/* Algorithm 4, equations (6) and (8) to (10). */
static inline void fsm_update(struct SnowV32 *s)
{
    u32 R1temp[4];
    memcpy(R1temp, s->R1, sizeof(s->R1));
    for (int i = 0; i < 4; i++) {
        u32 T2 = MAKEU32(s->A[2 * i + 1], s->A[2 * i]);
        s->R1[i] = (T2 ^ s->R3[i]) + s->R2[i];
    }
    permute_sigma(s->R1);
    aes_enc_round(s->R3, s->R2, aes_key2);
    aes_enc_round(s->R2, R1temp, aes_key1);
}

/* Algorithm 3: eight clocks of equations (3) and (4). */
static inline void lfsr_update(struct SnowV32 *s)
{
    for (int i = 0; i < 8; i++) {
        u16 u = mul_x(s->A[0], 0x990f) ^ s->A[1] ^ mul_x_inv(s->A[8], 0xcc87) ^ s->B[0];
        u16 v = mul_x(s->B[0], 0xc963) ^ s->B[3] ^ mul_x_inv(s->B[8], 0xe4b1) ^ s->A[0];
        for (int j = 0; j < 15; j++) {
            s->A[j] = s->A[j + 1];
            s->B[j] = s->B[j + 1];
        }
        s->A[15] = u;
        s->B[15] = v;
    }
}

/* One turn of Algorithm 2: a block by equations (5) and (7), then both updates. */
static inline void keystream(struct SnowV32 *s, u8 *z)
{
    for (int i = 0; i < 4; i++) {
        u32 T1 = MAKEU32(s->B[2 * i + 9], s->B[2 * i + 8]);
        u32 v = (T1 + s->R1[i]) ^ s->R2[i];
        z[i * 4 + 0] = (v >> 0) & 0xff;
        z[i * 4 + 1] = (v >> 8) & 0xff;
        z[i * 4 + 2] = (v >> 16) & 0xff;
        z[i * 4 + 3] = (v >> 24) & 0xff;
    }
    fsm_update(s);
    lfsr_update(s);
}

/* Algorithm 1, and equation (12) in AEAD mode. */
static inline void keyiv_setup(struct SnowV32 *s, const u8 *key, const u8 *iv, int is_aead_mode)
{
    for (int i = 0; i < 8; i++) {
        s->A[i] = MAKEU16(iv[2 * i + 1], iv[2 * i]);
        s->A[i + 8] = MAKEU16(key[2 * i + 1], key[2 * i]);
        s->B[i] = 0x0000;
        s->B[i + 8] = MAKEU16(key[2 * i + 17], key[2 * i + 16]);
    }
    if (is_aead_mode == 1) {
        s->B[0] = 0x6c41;
        s->B[1] = 0x7865;
        s->B[2] = 0x6b45;
        s->B[3] = 0x2064;
        s->B[4] = 0x694a;
        s->B[5] = 0x676e;
        s->B[6] = 0x6854;
        s->B[7] = 0x6d6f;
    }
    for (int i = 0; i < 4; i++)
        s->R1[i] = s->R2[i] = s->R3[i] = 0x00000000;
    for (int i = 0; i < 16; i++) {
        u8 z[16];
        keystream(s, z);
        for (int j = 0; j < 8; j++)
            s->A[j + 8] ^= MAKEU16(z[2 * j + 1], z[2 * j]);
        if (i == 14)
            for (int j = 0; j < 4; j++)
                s->R1[j] ^= MAKEU32(MAKEU16(key[4 * j + 3], key[4 * j + 2]),
                                    MAKEU16(key[4 * j + 1], key[4 * j + 0]));
        if (i == 15)
            for (int j = 0; j < 4; j++)
                s->R1[j] ^= MAKEU32(MAKEU16(key[4 * j + 19], key[4 * j + 18]),
                                    MAKEU16(key[4 * j + 17], key[4 * j + 16]));
    }
}

/* The listing's u64 casts; memcpy makes them well defined and costs nothing. */
static inline u64 load64(const void *p)
{
    u64 v;
    memcpy(&v, p, 8);
    return v;
}

static inline void store64(void *p, u64 v)
{
    memcpy(p, &v, 8);
}

/* The listing's XOR3x64; XOR2x64 is the case dst = a. */
static inline void xor64x2(u8 *dst, const u8 *a, const u8 *b)
{
    store64(dst, load64(a) ^ load64(b));
    store64(dst + 8, load64(a + 8) ^ load64(b + 8));
}

/* The product of SP 800-38D section 6.3, bit by bit. Eight bytes are shifted at once, in
 * either byte order: the bits that leave a byte go through tmp into the next one. tmp is
 * signed, so that its last byte's top bit spreads over the mask 0xe1. */
static void ghash_mult(u8 *out, const u8 *x, const u8 *y)
{
    signed char tmp[17];
    u64 c0, c1, u0 = load64(y), u1 = load64(y + 8);
    memset(out, 0, 16);
    for (int i = 0; i < 16; i++)
        for (int j = 7; j >= 0; j--) {
            if ((x[i] >> j) & 1) {
                store64(out, load64(out) ^ u0);
                store64(out + 8, load64(out + 8) ^ u1);
            }
            c0 = (u0 << 7) & 0x8080808080808080ULL;
            c1 = (u1 << 7) & 0x8080808080808080ULL;
            u0 = (u0 >> 1) & 0x7f7f7f7f7f7f7f7fULL;
            u1 = (u1 >> 1) & 0x7f7f7f7f7f7f7f7fULL;
            store64(tmp + 1, c0);
            store64(tmp + 9, c1);
            tmp[0] = (signed char)((tmp[16] >> 7) & 0xe1);
            u0 ^= load64(tmp);
            u1 ^= load64(tmp + 8);
        }
}

/* GHASH of SP 800-38D section 6.4 over data padded with zeros to whole blocks. */
static void ghash_update(const u8 *H, u8 *A, const u8 *data, size_t length)
{
    u8 tmp[16];
    for (; length >= 16; length -= 16, data += 16) {
        xor64x2(tmp, data, A);
        ghash_mult(A, tmp, H);
    }
    if (!length)
        return;
    memset(tmp, 0, 16);
    memcpy(tmp, data, length);
    xor64x2(tmp, tmp, A);
    ghash_mult(A, tmp, H);
}

/* The block of lengths in bits, and the masking of section 4. */
static void ghash_final(const u8 *H, u8 *A, u64 len_aad, u64 len_c, const u8 *masking_block)
{
    u8 tmp[16];
    len_aad <<= 3;
    len_c <<= 3;
    for (int i = 0; i < 8; ++i) {
        tmp[7 - i] = (u8)(len_aad >> (8 * i));
        tmp[15 - i] = (u8)(len_c >> (8 * i));
    }
    xor64x2(tmp, tmp, A);
    ghash_mult(A, tmp, H);
    xor64x2(A, A, masking_block);
}

/* Algorithm 2. */
void portable_keystream(const uint8_t *key, const uint8_t *iv, int sealed, uint8_t *out,
                        size_t blocks)
{
    struct SnowV32 snowv;
    keyiv_setup(&snowv, key, iv, sealed);
    for (size_t i = 0; i < blocks; i++)
        keystream(&snowv, out + 16 * i);
}

/* The listing's snowv_gcm_encrypt, section 4. */
void portable_seal(const uint8_t *key, const uint8_t *iv, const uint8_t *ad, size_t ad_len,
                   const uint8_t *text, size_t text_len, uint8_t *out, uint8_t tag[16])
{
    u8 Hkey[16], endPad[16];
    struct SnowV32 snowv;
    memset(tag, 0, 16);
    keyiv_setup(&snowv, key, iv, 1);
    keystream(&snowv, Hkey);
    keystream(&snowv, endPad);
    ghash_update(Hkey, tag, ad, ad_len);
    for (size_t i = 0; i < text_len; i += 16) {
        u8 key_stream[16];
        keystream(&snowv, key_stream);
        for (u8 j = 0; j < (text_len - i < 16 ? text_len - i : 16); j++)
            out[i + j] = key_stream[j] ^ text[i + j];
    }
    ghash_update(Hkey, tag, out, text_len);
    ghash_final(Hkey, tag, ad_len, text_len, endPad);
}

/* The registers after as many steps: A, B, R1, R2, R3, low byte first. */
void portable_registers(const uint8_t *key, const uint8_t *iv, int sealed, size_t steps, uint8_t out[112])
{
    struct SnowV32 s;
    u8 z[16];
    keyiv_setup(&s, key, iv, sealed);
    for (size_t i = 0; i < steps; i++)
        keystream(&s, z);
    for (int i = 0; i < 16; i++)
        for (int j = 0; j < 2; j++) {
            out[2 * i + j] = (u8)(s.A[i] >> (8 * j));
            out[32 + 2 * i + j] = (u8)(s.B[i] >> (8 * j));
        }
    for (int i = 0; i < 4; i++)
        for (int j = 0; j < 4; j++) {
            out[64 + 4 * i + j] = (u8)(s.R1[i] >> (8 * j));
            out[80 + 4 * i + j] = (u8)(s.R2[i] >> (8 * j));
            out[96 + 4 * i + j] = (u8)(s.R3[i] >> (8 * j));
        }
}
