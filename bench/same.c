/* The algorithms of the proved library (crates words, lfsr, aes, wide_round, cipher, start, ghash, digest, session, page, page_file and suspend) in C: the
 * registers clocked up to 16 steps ahead, with T1 and T2 left in lanes of cells; R1 and R2 in lanes of bytes, which the AES round looks up in
 * a table of words; GHASH by H's multiples by every four bits at each of 32 places, looked up by bytes in the loop of the steps; a page as begin,
 * data, one pass over its text and tag over one table of H. The way back goes a step at a time, by the inverse S-box of bytes. A step writes R1
 * behind the rounds, since gcc makes faster code of that; the library writes it before them, for the same reason. Structs go by pointer, as C does
 * it, and the table of words and the inverse S-box are static. What a call here leaves out of its Rattle counterpart are the tests of its
 * arguments' lengths and the clearing of its arrays. */

#include "same.h"

#include <string.h>

typedef uint8_t u8;
typedef uint16_t u16;
typedef uint32_t u32;
typedef uint64_t u64;

/* The S-box of FIPS 197, figure 7, each byte as a column of MixColumns: times 2, 1, 1 and 3, low byte first. */
static const u32 wide[256] = {
    0xa56363c6, 0x847c7cf8, 0x997777ee, 0x8d7b7bf6, 0x0df2f2ff, 0xbd6b6bd6, 0xb16f6fde, 0x54c5c591, 0x50303060, 0x03010102, 0xa96767ce,
    0x7d2b2b56, 0x19fefee7, 0x62d7d7b5, 0xe6abab4d, 0x9a7676ec, 0x45caca8f, 0x9d82821f, 0x40c9c989, 0x877d7dfa, 0x15fafaef, 0xeb5959b2,
    0xc947478e, 0x0bf0f0fb, 0xecadad41, 0x67d4d4b3, 0xfda2a25f, 0xeaafaf45, 0xbf9c9c23, 0xf7a4a453, 0x967272e4, 0x5bc0c09b, 0xc2b7b775,
    0x1cfdfde1, 0xae93933d, 0x6a26264c, 0x5a36366c, 0x413f3f7e, 0x02f7f7f5, 0x4fcccc83, 0x5c343468, 0xf4a5a551, 0x34e5e5d1, 0x08f1f1f9,
    0x937171e2, 0x73d8d8ab, 0x53313162, 0x3f15152a, 0x0c040408, 0x52c7c795, 0x65232346, 0x5ec3c39d, 0x28181830, 0xa1969637, 0x0f05050a,
    0xb59a9a2f, 0x0907070e, 0x36121224, 0x9b80801b, 0x3de2e2df, 0x26ebebcd, 0x6927274e, 0xcdb2b27f, 0x9f7575ea, 0x1b090912, 0x9e83831d,
    0x742c2c58, 0x2e1a1a34, 0x2d1b1b36, 0xb26e6edc, 0xee5a5ab4, 0xfba0a05b, 0xf65252a4, 0x4d3b3b76, 0x61d6d6b7, 0xceb3b37d, 0x7b292952,
    0x3ee3e3dd, 0x712f2f5e, 0x97848413, 0xf55353a6, 0x68d1d1b9, 0x00000000, 0x2cededc1, 0x60202040, 0x1ffcfce3, 0xc8b1b179, 0xed5b5bb6,
    0xbe6a6ad4, 0x46cbcb8d, 0xd9bebe67, 0x4b393972, 0xde4a4a94, 0xd44c4c98, 0xe85858b0, 0x4acfcf85, 0x6bd0d0bb, 0x2aefefc5, 0xe5aaaa4f,
    0x16fbfbed, 0xc5434386, 0xd74d4d9a, 0x55333366, 0x94858511, 0xcf45458a, 0x10f9f9e9, 0x06020204, 0x817f7ffe, 0xf05050a0, 0x443c3c78,
    0xba9f9f25, 0xe3a8a84b, 0xf35151a2, 0xfea3a35d, 0xc0404080, 0x8a8f8f05, 0xad92923f, 0xbc9d9d21, 0x48383870, 0x04f5f5f1, 0xdfbcbc63,
    0xc1b6b677, 0x75dadaaf, 0x63212142, 0x30101020, 0x1affffe5, 0x0ef3f3fd, 0x6dd2d2bf, 0x4ccdcd81, 0x140c0c18, 0x35131326, 0x2fececc3,
    0xe15f5fbe, 0xa2979735, 0xcc444488, 0x3917172e, 0x57c4c493, 0xf2a7a755, 0x827e7efc, 0x473d3d7a, 0xac6464c8, 0xe75d5dba, 0x2b191932,
    0x957373e6, 0xa06060c0, 0x98818119, 0xd14f4f9e, 0x7fdcdca3, 0x66222244, 0x7e2a2a54, 0xab90903b, 0x8388880b, 0xca46468c, 0x29eeeec7,
    0xd3b8b86b, 0x3c141428, 0x79dedea7, 0xe25e5ebc, 0x1d0b0b16, 0x76dbdbad, 0x3be0e0db, 0x56323264, 0x4e3a3a74, 0x1e0a0a14, 0xdb494992,
    0x0a06060c, 0x6c242448, 0xe45c5cb8, 0x5dc2c29f, 0x6ed3d3bd, 0xefacac43, 0xa66262c4, 0xa8919139, 0xa4959531, 0x37e4e4d3, 0x8b7979f2,
    0x32e7e7d5, 0x43c8c88b, 0x5937376e, 0xb76d6dda, 0x8c8d8d01, 0x64d5d5b1, 0xd24e4e9c, 0xe0a9a949, 0xb46c6cd8, 0xfa5656ac, 0x07f4f4f3,
    0x25eaeacf, 0xaf6565ca, 0x8e7a7af4, 0xe9aeae47, 0x18080810, 0xd5baba6f, 0x887878f0, 0x6f25254a, 0x722e2e5c, 0x241c1c38, 0xf1a6a657,
    0xc7b4b473, 0x51c6c697, 0x23e8e8cb, 0x7cdddda1, 0x9c7474e8, 0x211f1f3e, 0xdd4b4b96, 0xdcbdbd61, 0x868b8b0d, 0x858a8a0f, 0x907070e0,
    0x423e3e7c, 0xc4b5b571, 0xaa6666cc, 0xd8484890, 0x05030306, 0x01f6f6f7, 0x120e0e1c, 0xa36161c2, 0x5f35356a, 0xf95757ae, 0xd0b9b969,
    0x91868617, 0x58c1c199, 0x271d1d3a, 0xb99e9e27, 0x38e1e1d9, 0x13f8f8eb, 0xb398982b, 0x33111122, 0xbb6969d2, 0x70d9d9a9, 0x898e8e07,
    0xa7949433, 0xb69b9b2d, 0x221e1e3c, 0x92878715, 0x20e9e9c9, 0x49cece87, 0xff5555aa, 0x78282850, 0x7adfdfa5, 0x8f8c8c03, 0xf8a1a159,
    0x80898909, 0x170d0d1a, 0xdabfbf65, 0x31e6e6d7, 0xc6424284, 0xb86868d0, 0xc3414182, 0xb0999929, 0x772d2d5a, 0x110f0f1e, 0xcbb0b07b,
    0xfc5454a8, 0xd6bbbb6d, 0x3a16162c};

/* FIPS 197, figure 14. */
static const u8 inverse_sbox[256] = {
    0x52, 0x09, 0x6a, 0xd5, 0x30, 0x36, 0xa5, 0x38, 0xbf, 0x40, 0xa3, 0x9e, 0x81, 0xf3, 0xd7, 0xfb, 0x7c, 0xe3, 0x39, 0x82, 0x9b, 0x2f,
    0xff, 0x87, 0x34, 0x8e, 0x43, 0x44, 0xc4, 0xde, 0xe9, 0xcb, 0x54, 0x7b, 0x94, 0x32, 0xa6, 0xc2, 0x23, 0x3d, 0xee, 0x4c, 0x95, 0x0b,
    0x42, 0xfa, 0xc3, 0x4e, 0x08, 0x2e, 0xa1, 0x66, 0x28, 0xd9, 0x24, 0xb2, 0x76, 0x5b, 0xa2, 0x49, 0x6d, 0x8b, 0xd1, 0x25, 0x72, 0xf8,
    0xf6, 0x64, 0x86, 0x68, 0x98, 0x16, 0xd4, 0xa4, 0x5c, 0xcc, 0x5d, 0x65, 0xb6, 0x92, 0x6c, 0x70, 0x48, 0x50, 0xfd, 0xed, 0xb9, 0xda,
    0x5e, 0x15, 0x46, 0x57, 0xa7, 0x8d, 0x9d, 0x84, 0x90, 0xd8, 0xab, 0x00, 0x8c, 0xbc, 0xd3, 0x0a, 0xf7, 0xe4, 0x58, 0x05, 0xb8, 0xb3,
    0x45, 0x06, 0xd0, 0x2c, 0x1e, 0x8f, 0xca, 0x3f, 0x0f, 0x02, 0xc1, 0xaf, 0xbd, 0x03, 0x01, 0x13, 0x8a, 0x6b, 0x3a, 0x91, 0x11, 0x41,
    0x4f, 0x67, 0xdc, 0xea, 0x97, 0xf2, 0xcf, 0xce, 0xf0, 0xb4, 0xe6, 0x73, 0x96, 0xac, 0x74, 0x22, 0xe7, 0xad, 0x35, 0x85, 0xe2, 0xf9,
    0x37, 0xe8, 0x1c, 0x75, 0xdf, 0x6e, 0x47, 0xf1, 0x1a, 0x71, 0x1d, 0x29, 0xc5, 0x89, 0x6f, 0xb7, 0x62, 0x0e, 0xaa, 0x18, 0xbe, 0x1b,
    0xfc, 0x56, 0x3e, 0x4b, 0xc6, 0xd2, 0x79, 0x20, 0x9a, 0xdb, 0xc0, 0xfe, 0x78, 0xcd, 0x5a, 0xf4, 0x1f, 0xdd, 0xa8, 0x33, 0x88, 0x07,
    0xc7, 0x31, 0xb1, 0x12, 0x10, 0x59, 0x27, 0x80, 0xec, 0x5f, 0x60, 0x51, 0x7f, 0xa9, 0x19, 0xb5, 0x4a, 0x0d, 0x2d, 0xe5, 0x7a, 0x9f,
    0x93, 0xc9, 0x9c, 0xef, 0xa0, 0xe0, 0x3b, 0x4d, 0xae, 0x2a, 0xf5, 0xb0, 0xc8, 0xeb, 0xbb, 0x3c, 0x83, 0x53, 0x99, 0x61, 0x17, 0x2b,
    0x04, 0x7e, 0xba, 0x77, 0xd6, 0x26, 0xe1, 0x69, 0x14, 0x63, 0x55, 0x21, 0x0c, 0x7d};

/* Words of a little-endian machine: gcc makes one instruction of each, where it would put bytes together one by one. */
static inline u32 load32(const u8 *p)
{
    u32 x;
    memcpy(&x, p, sizeof x);
    return x;
}

static inline void load(u32 x[4], const u8 *p)
{
    memcpy(x, p, 16);
}

static inline void store(u8 *p, const u32 x[4])
{
    memcpy(p, x, 16);
}

static inline void xor_into(u32 x[4], const u32 y[4])
{
    for (int i = 0; i < 4; i++)
        x[i] ^= y[i];
}

/* ---- the registers */

/* Cell 0 first. */
struct lfsr {
    u16 a[16], b[16];
};

/* Eight cells as a block, and back. */
static inline void from_cells(u32 x[4], const u16 *c)
{
    memcpy(x, c, 16);
}

static inline void to_cells(u16 *c, const u32 x[4])
{
    memcpy(c, x, 16);
}

static inline u16 times(u16 c, u16 x)
{
    return (u16)((x << 1) ^ ((x >> 15) * c));
}

static inline u16 over(u16 d, u16 x)
{
    return (u16)((x >> 1) ^ ((x & 1) * d));
}

/* Eight clocks: the eight new cells of each register are made of old cells alone. Unrolled in the loop of the steps, gcc would put its vectors
 * together cell by cell. */
static inline void clock8(struct lfsr *l)
{
    u16 a[8], b[8];
#pragma GCC unroll 1
    for (int i = 0; i < 8; i++) {
        a[i] = l->b[i] ^ times(0x990f, l->a[i]) ^ l->a[i + 1] ^ over(0xcc87, l->a[i + 8]);
        b[i] = l->a[i] ^ times(0xc963, l->b[i]) ^ l->b[i + 3] ^ over(0xe4b1, l->b[i + 8]);
    }
    memcpy(l->a, l->a + 8, sizeof a);
    memcpy(l->b, l->b + 8, sizeof b);
    memcpy(l->a + 8, a, sizeof a);
    memcpy(l->b + 8, b, sizeof b);
}

/* The x with x ^ beta (alpha x) = y. */
static inline u16 solve(u16 y)
{
    u16 u = (u16)(y ^ (y << 2));
    u16 v = (u16)(u ^ (u << 4));
    u16 w = (u16)(v ^ (v << 8));
    return (u16)(w ^ ((w >> 14 & 1) * 0x3d1f) ^ ((w >> 15) * 0x5a06));
}

/* Eight clocks back, a cell of each register at a time, from the highest. */
static inline void unclock8(struct lfsr *l)
{
    u16 a[16], b[16];
    memcpy(a + 8, l->a, 16);
    memcpy(b + 8, l->b, 16);
    for (int i = 7; i >= 0; i--) {
        u16 p = l->a[i + 8] ^ a[i + 1] ^ over(0xcc87, a[i + 8]);
        u16 q = l->b[i + 8] ^ b[i + 3] ^ over(0xe4b1, b[i + 8]);
        a[i] = solve(q ^ times(0xc963, p));
        b[i] = p ^ times(0x990f, a[i]);
    }
    memcpy(l->a, a, sizeof a);
    memcpy(l->b, b, sizeof b);
}

/* ---- the AES round with a zero key, and back; a word is a column */

/* The entries at four bytes, the second turned by one place, the third by two, the fourth by three. */
static inline u32 column(u8 a, u8 b, u8 c, u8 d)
{
    u32 q = wide[b], r = wide[c], s = wide[d];
    return wide[a] ^ (q << 8 | q >> 24) ^ (r << 16 | r >> 16) ^ (s << 24 | s >> 8);
}

/* The round of 16 bytes in memory, one load each: as words in registers they would not all fit. */
static inline void round_at(u32 y[4], const u8 *x)
{
    y[0] = column(x[0], x[5], x[10], x[15]);
    y[1] = column(x[4], x[9], x[14], x[3]);
    y[2] = column(x[8], x[13], x[2], x[7]);
    y[3] = column(x[12], x[1], x[6], x[11]);
}

static inline u32 gather(const u8 *t, u32 w, u32 x, u32 y, u32 z)
{
    return (u32)t[w & 0xff] | (u32)t[x >> 8 & 0xff] << 8 | (u32)t[y >> 16 & 0xff] << 16 | (u32)t[z >> 24] << 24;
}

/* Each of the four bytes times x. */
static inline u32 times_x4(u32 w)
{
    return (w & 0x7f7f7f7f) << 1 ^ (w >> 7 & 0x01010101) * 0x1b;
}

static inline u32 turn(u32 w)
{
    return w >> 8 | w << 24;
}

/* 2a + 3b + c + d is 2(a + b) + b + (c + d), and c + d is a + b two places on. */
static inline u32 mixed(u32 w)
{
    u32 b = turn(w), s = w ^ b;
    return times_x4(s) ^ b ^ turn(turn(s));
}

/* The matrix of 14 11 13 9 is that of 2 3 1 1 times that of 5 0 4 0. */
static inline u32 unmixed(u32 w)
{
    return mixed(w ^ times_x4(times_x4(w ^ turn(turn(w)))));
}

static inline void unround(u32 y[4], const u32 x[4])
{
    u32 a = unmixed(x[0]), b = unmixed(x[1]), c = unmixed(x[2]), d = unmixed(x[3]);
    y[0] = gather(inverse_sbox, a, d, c, b);
    y[1] = gather(inverse_sbox, b, a, d, c);
    y[2] = gather(inverse_sbox, c, b, a, d);
    y[3] = gather(inverse_sbox, d, c, b, a);
}

/* ---- steps forward, in batches of at most 16, each in two passes */

/* Word 0 of R1, R2, R3 least significant. */
struct state {
    struct lfsr lfsr;
    u32 r1[4], r2[4], r3[4];
};

#define BATCH 16

/* How many of the steps that are left the next batch takes. */
static inline size_t at_most(size_t left)
{
    return left < BATCH ? left : BATCH;
}

/* The first pass: n steps of A and B. */
static inline void taps(struct lfsr *l, u16 *t1, u16 *t2, size_t n)
{
    struct lfsr m = *l;
    for (size_t i = 0; i < n; i++) {
        memcpy(t1 + 8 * i, m.b + 8, 16);
        memcpy(t2 + 8 * i, m.a, 16);
        clock8(&m);
    }
    *l = m;
}

/* Bytes 0 and 2 of p and of q in turn. */
static inline u32 interleaved(u32 p, u32 q)
{
    return (p & 0x00ff00ff) | (q & 0x00ff00ff) << 8;
}

/* The four by four matrix of bytes transposed, first its quarters and then the bytes of each. */
static inline void sigma(u32 y[4], const u32 x[4])
{
    u32 p = (x[0] & 0xffff) | x[2] << 16;
    u32 q = (x[1] & 0xffff) | x[3] << 16;
    u32 r = x[0] >> 16 | (x[2] & 0xffff0000);
    u32 s = x[1] >> 16 | (x[3] & 0xffff0000);
    y[0] = interleaved(p, q);
    y[1] = interleaved(p >> 8, q >> 8);
    y[2] = interleaved(r, s);
    y[3] = interleaved(r >> 8, s >> 8);
}

/* R1 of the next step, of R2 in its lane, R3 and T2. */
static inline void next_r1(u32 n1[4], const u8 *l2, const u32 r3[4], const u16 *t2)
{
    u32 r2[4], t[4], x[4];
    load(r2, l2);
    from_cells(t, t2);
    for (int i = 0; i < 4; i++)
        x[i] = r2[i] + (r3[i] ^ t[i]);
    sigma(n1, x);
}

/* z, of R1 and R2 in their lanes and T1. */
static inline void output(u32 z[4], const u8 *l1, const u8 *l2, const u16 *t1)
{
    u32 r1[4], r2[4], t[4];
    load(r1, l1);
    load(r2, l2);
    from_cells(t, t1);
    for (int i = 0; i < 4; i++)
        z[i] = (r1[i] + t[i]) ^ r2[i];
}

/* At most BATCH steps. z is made last in a step: its reads of what the step before wrote as words would wait for them if they came first. */
static void batch(struct state *s, u8 *out, size_t n)
{
    u16 t1[8 * BATCH], t2[8 * BATCH];
    u8 l1[16 * BATCH + 16], l2[16 * BATCH + 16];
    u32 n1[4], n2[4], r3[4], z[4];
    taps(&s->lfsr, t1, t2, n);
    store(l1, s->r1);
    store(l2, s->r2);
    memcpy(r3, s->r3, sizeof r3);
    for (size_t at = 0; at < 16 * n; at += 16) {
        next_r1(n1, l2 + at, r3, t2 + at / 2);
        round_at(n2, l1 + at);
        round_at(r3, l2 + at);
        store(l1 + at + 16, n1);
        store(l2 + at + 16, n2);
        output(z, l1 + at, l2 + at, t1 + at / 2);
        store(out + at, z);
    }
    load(s->r1, l1 + 16 * n);
    load(s->r2, l2 + 16 * n);
    memcpy(s->r3, r3, sizeof r3);
}

/* One step, with its z. */
static void forward(struct state *s, u32 z[4])
{
    u8 b[16];
    batch(s, b, 1);
    load(z, b);
}

static void run_forward(struct state *s, u8 *out, size_t n)
{
    for (size_t i = 0, k; i < n; i += k) {
        k = at_most(n - i);
        batch(s, out + 16 * i, k);
    }
}

/* ---- steps back */

/* What of the step that led to a state does not hang on register A: R1 and R2 before it, and its z. */
static inline void z_before(const struct state *s, u32 o1[4], u32 o2[4], u32 z[4])
{
    u32 t1[4];
    unround(o1, s->r2);
    unround(o2, s->r3);
    from_cells(t1, s->lfsr.b);
    for (int i = 0; i < 4; i++)
        z[i] = (o1[i] + t1[i]) ^ o2[i];
}

/* The state before that step. The clocks go first: R3 had the old a0 to a7 xored in. */
static inline void state_before(struct state *s, const u32 o1[4], const u32 o2[4])
{
    u32 n1[4], t2[4];
    unclock8(&s->lfsr);
    sigma(n1, s->r1);
    from_cells(t2, s->lfsr.a);
    for (int i = 0; i < 4; i++)
        s->r3[i] = (n1[i] - o2[i]) ^ t2[i];
    memcpy(s->r1, o1, sizeof n1);
    memcpy(s->r2, o2, sizeof n1);
}

static inline void backward(struct state *s, u32 z[4])
{
    u32 o1[4], o2[4];
    z_before(s, o1, o2, z);
    state_before(s, o1, o2);
}

/* ---- start and trace */

static const u32 plain_mode[4], sealed_mode[4] = {0x78656c41, 0x20646b45, 0x676e694a, 0x6d6f6854};

/* A block xored into a8 to a15. */
static inline void fed(struct lfsr *l, const u32 z[4])
{
    u32 x[4];
    from_cells(x, l->a + 8);
    xor_into(x, z);
    to_cells(l->a + 8, x);
}

/* At most BATCH steps of a start. Register A takes every z in, so that A and B go step by step too. */
static void initials(struct state *s, size_t n)
{
    struct lfsr l = s->lfsr;
    u16 t1[8], t2[8];
    u8 l1[16 * BATCH + 16], l2[16 * BATCH + 16];
    u32 n1[4], n2[4], r3[4], z[4];
    store(l1, s->r1);
    store(l2, s->r2);
    memcpy(r3, s->r3, sizeof r3);
    for (size_t at = 0; at < 16 * n; at += 16) {
        taps(&l, t1, t2, 1);
        next_r1(n1, l2 + at, r3, t2);
        round_at(n2, l1 + at);
        round_at(r3, l2 + at);
        store(l1 + at + 16, n1);
        store(l2 + at + 16, n2);
        output(z, l1 + at, l2 + at, t1);
        fed(&l, z);
    }
    s->lfsr = l;
    load(s->r1, l1 + 16 * n);
    load(s->r2, l2 + 16 * n);
    memcpy(s->r3, r3, sizeof r3);
}

static void start(struct state *s, const u8 *key, const u8 *iv, int sealed)
{
    u32 low[4], high[4];
    load(low, key);
    load(high, key + 16);
    memset(s, 0, sizeof *s);
    memcpy(s->lfsr.a, iv, 16);
    to_cells(s->lfsr.a + 8, low);
    to_cells(s->lfsr.b, sealed ? sealed_mode : plain_mode);
    to_cells(s->lfsr.b + 8, high);
    initials(s, 15);
    xor_into(s->r1, low);
    initials(s, 1);
    xor_into(s->r1, high);
}

/* One of the 16 steps of a start, undone. */
static inline void uninitial(struct state *s)
{
    u32 o1[4], o2[4], z[4];
    z_before(s, o1, o2, z);
    fed(&s->lfsr, z);
    state_before(s, o1, o2);
}

static inline int holds(const u16 *c, const u32 x[4])
{
    return memcmp(c, x, 16) == 0;
}

/* 0 and the IV's words and the mode, or 6. */
static u64 trace(struct state *s, const u8 *key, u64 count, u32 iv[4], u8 *sealed)
{
    u32 low[4], high[4], z[4], rest = 0;
    load(low, key);
    load(high, key + 16);
    for (u64 i = 0; i < count; i++)
        backward(s, z);
    xor_into(s->r1, high);
    uninitial(s);
    xor_into(s->r1, low);
    for (int i = 0; i < 15; i++)
        uninitial(s);
    from_cells(iv, s->lfsr.a);
    for (int i = 0; i < 4; i++)
        rest |= s->r1[i] | s->r2[i] | s->r3[i];
    *sealed = (u8)holds(s->lfsr.b, sealed_mode);
    if (!holds(s->lfsr.a + 8, low) || !holds(s->lfsr.b + 8, high) || rest != 0 || !(*sealed || holds(s->lfsr.b, plain_mode)))
        return 6;
    return 0;
}

/* ---- GHASH */

/* In the order of a block's bytes: lo is bytes 0 to 7, low byte first. */
struct element {
    u64 lo, hi;
};

/* The same as a number: hi is bytes 0 to 7, high byte first. */
struct number {
    u64 hi, lo;
};

static inline struct element add(struct element a, struct element b)
{
    return (struct element){a.lo ^ b.lo, a.hi ^ b.hi};
}

static inline struct element from_block(const u32 x[4])
{
    struct element e;
    memcpy(&e, x, sizeof e);
    return e;
}

static inline void to_block(u32 x[4], struct element e)
{
    memcpy(x, &e, sizeof e);
}

static inline u32 swap(u32 x)
{
    return x << 24 | (x << 8 & 0xff0000) | (x >> 8 & 0xff00) | x >> 24;
}

static inline u64 flip(u64 x)
{
    return (u64)swap((u32)x) << 32 | swap((u32)(x >> 32));
}

/* Both lengths, of data and of text, in bits, high byte first. */
static inline struct element lengths(u64 ad, u64 text)
{
    return (struct element){flip(ad << 3), flip(text << 3)};
}

static inline struct number to_number(struct element e)
{
    return (struct number){flip(e.lo), flip(e.hi)};
}

static inline struct element from_number(struct number v)
{
    return (struct element){flip(v.hi), flip(v.lo)};
}

static inline struct number times_x(struct number v)
{
    return (struct number){v.hi >> 1 ^ (v.lo & 1) * 0xe100000000000000, v.hi << 63 | v.lo >> 1};
}

/* H's multiples by every four bits at each of 32 places, the leftmost first: 8 KiB. An index is twice the four bits, as the entry's word. */
struct table {
    u64 at[32][32];
};

static inline void put(u64 *t, struct element e)
{
    t[0] = e.lo;
    t[1] = e.hi;
}

static inline void four(u64 *t, struct element w, struct element a, struct element b, struct element ab)
{
    put(t, w);
    put(t + 2, add(w, a));
    put(t + 4, add(w, b));
    put(t + 6, add(w, ab));
}

/* The entries of a place, where the leftmost four bits times v are those at that place times H; and v for the place to the right of it. */
static inline struct number place(u64 *t, struct number v)
{
    struct number v4 = times_x(v), v2 = times_x(v4), v1 = times_x(v2);
    struct element zero = {0, 0}, e8 = from_number(v), e4 = from_number(v4), e2 = from_number(v2), e1 = from_number(v1), e3 = add(e2, e1);
    four(t, zero, e1, e2, e3);
    four(t + 8, e4, e1, e2, e3);
    four(t + 16, e8, e1, e2, e3);
    four(t + 24, add(e8, e4), e1, e2, e3);
    return times_x(v1);
}

/* Compiled into each of its callers, as gcc does by itself where there is one: called, it makes a page of 64 bytes take a tenth longer. */
static inline __attribute__((always_inline)) void fill(struct table *t, struct element h)
{
    struct number v = to_number(h);
    for (int p = 0; p < 32; p++)
        v = place(t->at[p], v);
}

/* Twice the low four bits of each byte. */
static inline u64 twice_low(u64 x)
{
    return (x & 0x0f0f0f0f0f0f0f0f) << 1;
}

/* 32 bytes: twice the high four bits of each byte, then twice the low four. */
static inline void indices(u8 *m, struct element x)
{
    struct element high = {twice_low(x.lo >> 4), twice_low(x.hi >> 4)}, low = {twice_low(x.lo), twice_low(x.hi)};
    memcpy(m, &high, sizeof high);
    memcpy(m + 16, &low, sizeof low);
}

/* What the indices of byte k name, summed. */
static inline struct element byte(const u8 *m, int k, const struct table *t)
{
    const u64 *p = t->at[2 * k] + m[k], *q = t->at[2 * k + 1] + m[16 + k];
    return (struct element){p[0] ^ q[0], p[1] ^ q[1]};
}

static inline struct element quarter(const u8 *m, int k, const struct table *t)
{
    return add(add(byte(m, k, t), byte(m, k + 1, t)), add(byte(m, k + 2, t), byte(m, k + 3, t)));
}

/* (y + x) times H, by indices in m. */
static inline struct element absorb_at(struct element y, struct element x, const struct table *t, u8 *m)
{
    indices(m, add(y, x));
    return add(add(quarter(m, 0, t), quarter(m, 4, t)), add(quarter(m, 8, t), quarter(m, 12, t)));
}

/* The same for a single block, and where nothing else is made meanwhile. */
static __attribute__((noinline)) struct element absorb_element(struct element y, struct element x, const struct table *t)
{
    u8 m[32];
    return absorb_at(y, x, t, m);
}

static struct element absorb(struct element y, const u8 *p, const struct table *t)
{
    u32 x[4];
    load(x, p);
    return absorb_element(y, from_block(x), t);
}

/* ---- bytes that arrive in pieces */

/* The hash so far, and the bytes not yet hashed, with zeros behind them. */
struct held {
    struct element acc;
    u8 pending[16];
};

/* Whole blocks. */
static struct element absorb_blocks(struct element y, const u8 *piece, size_t n, const struct table *t)
{
    for (size_t i = 0; i < n; i += 16)
        y = absorb(y, piece + i, t);
    return y;
}

/* A piece, the first byte of number n. */
static void absorb_with(struct held *d, u64 n, const u8 *piece, size_t len, const struct table *t)
{
    size_t at = n % 16, from, whole;
    if (len < 16 - at) {
        if (len > 0)
            memcpy(d->pending + at, piece, len);
        return;
    }
    from = (16 - at) % 16;
    whole = (len - from) / 16 * 16;
    if (at > 0) {
        memcpy(d->pending + at, piece, from);
        d->acc = absorb(d->acc, d->pending, t);
    }
    d->acc = absorb_blocks(d->acc, piece + from, whole, t);
    memset(d->pending, 0, 16);
    memcpy(d->pending, piece + from + whole, len - from - whole);
}

/* The hash once n bytes are in. */
static struct element settle_with(const struct held *d, u64 n, const struct table *t)
{
    return n % 16 == 0 ? d->acc : absorb(d->acc, d->pending, t);
}

/* ---- a session */

struct session {
    u8 phase;
    u64 ad, text;
    struct held held;
    struct element h;
    u32 pad[4], current[4];
    struct state state;
    u8 iv[16];
};

static void begin(struct session *s, const u8 *key, const u8 *iv)
{
    u8 two[32];
    u32 x[4];
    memset(s, 0, sizeof *s);
    start(&s->state, key, iv, 1);
    batch(&s->state, two, 2);
    load(x, two);
    s->h = from_block(x);
    load(s->pad, two + 16);
    load(s->current, two + 16);
    memcpy(s->iv, iv, 16);
}

static void data_with(struct session *s, const u8 *piece, size_t n, const struct table *t)
{
    absorb_with(&s->held, s->ad, piece, n, t);
    s->ad += n;
}

static void close_with(struct session *s, const struct table *t)
{
    if (s->phase > 0)
        return;
    s->held.acc = settle_with(&s->held, s->ad, t);
    memset(s->held.pending, 0, 16);
    s->phase = 1;
}

/* What blocks move on: the registers, and the hash so far. */
struct track {
    struct state state;
    struct element hash;
};

/* At most BATCH whole blocks: a step as in batch, its z on the text, and the ciphertext hashed, block by block. All in one loop: a product waits
 * for the one before it, and the processor makes the step meanwhile. Compiled into its caller, as fill is: called, it takes a tenth more
 * instructions. */
static inline __attribute__((always_inline)) void sealed_batch(struct track *u, const u8 *text, u8 *out, size_t n, const struct table *t)
{
    struct state *s = &u->state;
    struct element y = u->hash;
    u16 t1[8 * BATCH], t2[8 * BATCH];
    u8 l1[16 * BATCH + 16], l2[16 * BATCH + 16], m[32 * BATCH];
    u32 n1[4], n2[4], r3[4], z[4], c[4];
    taps(&s->lfsr, t1, t2, n);
    store(l1, s->r1);
    store(l2, s->r2);
    memcpy(r3, s->r3, sizeof r3);
    for (size_t at = 0; at < 16 * n; at += 16) {
        next_r1(n1, l2 + at, r3, t2 + at / 2);
        round_at(n2, l1 + at);
        round_at(r3, l2 + at);
        store(l1 + at + 16, n1);
        store(l2 + at + 16, n2);
        output(z, l1 + at, l2 + at, t1 + at / 2);
        load(c, text + at);
        xor_into(c, z);
        store(out + at, c);
        y = absorb_at(y, from_block(c), t, m + 2 * at);
    }
    load(s->r1, l1 + 16 * n);
    load(s->r2, l2 + 16 * n);
    memcpy(s->r3, r3, sizeof r3);
    u->hash = y;
}

/* Whole blocks, batch by batch. */
static void sealed_blocks(struct track *u, const u8 *text, u8 *out, size_t n, const struct table *t)
{
    for (size_t i = 0, k; i < n; i += k) {
        k = at_most(n - i);
        sealed_batch(u, text + 16 * i, out + 16 * i, k, t);
    }
}

/* The only pass over a page: all blocks of its text, a short last one with zeros behind it in the hash. */
static struct element sealed_text(const struct state *s, struct element y, const u8 *text, size_t n, u8 *out, const struct table *t)
{
    struct track u = {*s, y};
    size_t whole = n / 16, from = 16 * whole;
    u8 key[16], last[16] = {0};
    u32 z[4];
    sealed_blocks(&u, text, out, whole, t);
    if (n % 16 == 0)
        return u.hash;
    forward(&u.state, z);
    store(key, z);
    for (size_t i = 0; from + i < n; i++)
        out[from + i] = last[i] = text[from + i] ^ key[i];
    return absorb(u.hash, last, t);
}

/* The tag of a session's data and n bytes of ciphertext, over the hash of both. */
static void tag_from(const struct session *s, u64 n, struct element y, u8 *tag, const struct table *t)
{
    u32 x[4];
    to_block(x, absorb_element(y, lengths(s->ad, n), t));
    xor_into(x, s->pad);
    store(tag, x);
}

/* The text of a ciphertext, with nothing hashed. */
static void apply_keystream(struct session *s, const u8 *input, size_t n, u8 *out)
{
    u8 stream[16 * BATCH];
    size_t to = n / 16 * 16, i = 0;
    u32 x[4], z[4];
    for (size_t k; i < to; i += 16 * k) {
        k = at_most((to - i) / 16);
        batch(&s->state, stream, k);
        for (size_t at = 0; at < 16 * k; at += 16) {
            load(x, input + i + at);
            load(z, stream + at);
            xor_into(x, z);
            store(out + i + at, x);
        }
    }
    if (i < n) {
        forward(&s->state, z);
        store(stream, z);
        for (size_t at = 0; i + at < n; at++)
            out[i + at] = input[i + at] ^ stream[at];
    }
}

/* ---- the block of 512 bytes, the state's 120 and the session's 240 */

static int blank(const u8 *p, size_t n)
{
    u8 any = 0;
    for (size_t i = 0; i < n; i++)
        any |= p[i];
    return any == 0;
}

static int well_laid(const u8 *block)
{
    u32 ad = load32(block + 4), text_len = load32(block + 8), sum = 0;
    size_t n = (block[0] == 0 ? ad : text_len) % 16;
    for (int i = 0; i < 127; i++)
        sum += load32(block + 4 * i);
    return block[0] <= 1 && ad <= 65535 && text_len <= 1048576 && (block[0] != 0 || text_len == 0) && blank(block + 144 + n, 16 - n) &&
           blank(block + 1, 3) && blank(block + 12, 4) && blank(block + 160, 348) && load32(block + 508) == sum;
}

/* The count of a state behind so much text. */
static inline u64 drawn_at(u64 text)
{
    return 2 + (text + 15) / 16;
}

static void load_state(struct state *s, const u8 *p)
{
    memcpy(&s->lfsr, p, sizeof s->lfsr);
    load(s->r1, p + 64);
    load(s->r2, p + 80);
    load(s->r3, p + 96);
}

static void store_state(u8 *p, const struct state *s)
{
    memcpy(p, &s->lfsr, sizeof s->lfsr);
    store(p + 64, s->r1);
    store(p + 80, s->r2);
    store(p + 96, s->r3);
}

static void store64(u8 *p, u64 n)
{
    memcpy(p, &n, sizeof n);
}

static void store_session(u8 *p, const struct session *s)
{
    u32 x[4];
    store64(p, s->phase);
    store64(p + 8, s->ad);
    store64(p + 16, s->text);
    store_state(p + 24, &s->state);
    store64(p + 136, drawn_at(s->text));
    to_block(x, s->h);
    store(p + 144, x);
    store(p + 160, s->pad);
    store(p + 176, s->current);
    to_block(x, s->held.acc);
    store(p + 192, x);
    memcpy(p + 208, s->held.pending, 16);
    memcpy(p + 224, s->iv, 16);
}

/* ---- the calls */

/* A page of a file: its header, ciphertext and tag. */
enum { PAGE = 512, HEADER = 22, PAGE_TEXT = 474 };

void same_keystream(const uint8_t *key, const uint8_t *iv, uint64_t sealed, uint8_t *out, size_t n)
{
    struct state s;
    start(&s, key, iv, sealed != 0);
    run_forward(&s, out, n);
}

void same_seal(const uint8_t *key, const uint8_t *iv, const uint8_t *ad, size_t ad_len, const uint8_t *page, size_t text_len, uint8_t *out,
               uint8_t *tag)
{
    struct session s;
    struct table t;
    begin(&s, key, iv);
    fill(&t, s.h);
    data_with(&s, ad, ad_len, &t);
    close_with(&s, &t);
    tag_from(&s, text_len, sealed_text(&s.state, s.held.acc, page, text_len, out, &t), tag, &t);
}

uint64_t same_open(const uint8_t *key, const uint8_t *iv, const uint8_t *ad, size_t ad_len, const uint8_t *cipher, size_t cipher_len,
                   const uint8_t *tag, uint8_t *out)
{
    struct session s;
    struct table t;
    struct held d;
    u8 expected[16];
    begin(&s, key, iv);
    fill(&t, s.h);
    data_with(&s, ad, ad_len, &t);
    close_with(&s, &t);
    d = s.held;
    absorb_with(&d, 0, cipher, cipher_len, &t);
    tag_from(&s, cipher_len, settle_with(&d, cipher_len, &t), expected, &t);
    if (memcmp(tag, expected, 16) != 0)
        return 5;
    apply_keystream(&s, cipher, cipher_len, out);
    return 0;
}

void same_file_seal(const uint8_t *key, const uint8_t *stay, uint32_t number, uint32_t day, const uint8_t *page, size_t text_len, size_t at,
                    uint8_t *file)
{
    u8 whole[PAGE_TEXT] = {0}, *p = file + PAGE * at;
    u16 length = (u16)text_len;
    memcpy(whole, page, text_len);
    memcpy(p, stay, 12);
    memcpy(p + 12, &number, 4);
    memcpy(p + 16, &day, 4);
    memcpy(p + 20, &length, 2);
    same_seal(key, p, p, HEADER, whole, PAGE_TEXT, p + HEADER, p + HEADER + PAGE_TEXT);
}

uint64_t same_file_open(const uint8_t *key, const uint8_t *stay, uint32_t number, const uint8_t *file, size_t file_len, uint8_t *out, uint64_t *length)
{
    const u8 *named = NULL;
    u32 count = 0, day = 0;
    int running = 1, dated = 1;
    u8 whole[PAGE_TEXT];
    u16 len;
    if (file_len % PAGE != 0)
        return 13;
    for (const u8 *p = file; p < file + file_len; p += PAGE) {
        memcpy(&len, p + 20, 2);
        if (len > PAGE_TEXT || load32(p + 16) > 73048)
            return 13;
        if (memcmp(p, stay, 12) != 0)
            continue;
        if (count == 0)
            day = load32(p + 16);
        if (count == number)
            named = p;
        running &= load32(p + 12) == count;
        dated &= load32(p + 16) == day;
        count++;
    }
    if (named == NULL || !running || !dated)
        return 14;
    if (same_open(key, named, named, HEADER, named + HEADER, PAGE_TEXT, named + HEADER + PAGE_TEXT, whole) != 0)
        return 5;
    memcpy(&len, named + 20, 2);
    if (!blank(whole + len, PAGE_TEXT - len))
        return 13;
    memcpy(out, whole, len);
    *length = len;
    return 0;
}

uint64_t same_trace(const uint8_t *state, const uint8_t *key, uint8_t *iv, uint8_t *sealed)
{
    struct state s;
    u64 count;
    u32 x[4];
    u8 mode;
    load_state(&s, state);
    memcpy(&count, state + 112, sizeof count);
    if (count > 65538)
        return 9;
    if (trace(&s, key, count, x, &mode) != 0)
        return 6;
    store(iv, x);
    *sealed = mode;
    return 0;
}

uint64_t same_resume(const uint8_t *key, const uint8_t *block, uint8_t *session, uint8_t *iv)
{
    struct session s, first;
    struct state t;
    u32 x[4], o1[4], o2[4];
    u8 mode, found[16];
    if (!well_laid(block))
        return 8;
    s.phase = block[0];
    s.ad = load32(block + 4);
    s.text = load32(block + 8);
    load_state(&s.state, block + 16);
    load(x, block + 128);
    s.held.acc = from_block(x);
    memcpy(s.held.pending, block + 144, 16);
    t = s.state;
    if (trace(&t, key, drawn_at(s.text), x, &mode) != 0 || mode == 0)
        return 6;
    store(found, x);
    begin(&first, key, found);
    s.h = first.h;
    memcpy(s.pad, first.pad, sizeof s.pad);
    memcpy(s.iv, first.iv, sizeof s.iv);
    z_before(&s.state, o1, o2, s.current);
    store_session(session, &s);
    memcpy(iv, found, 16);
    return 0;
}
