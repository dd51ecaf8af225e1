/* SHA-256 as a textbook has it: the formulas of FIPS 180-4, section 4.1.2, as they stand there; the rounds unrolled,
   and a schedule that holds sixteen words. */
#include <stddef.h>
#include <stdint.h>
#include <string.h>

#define ROTR(x, n) (((x) >> (n)) | ((x) << (32 - (n))))
#define CH(x, y, z) (((x) & (y)) ^ (~(x) & (z)))
#define MAJ(x, y, z) (((x) & (y)) ^ ((x) & (z)) ^ ((y) & (z)))
#define SUM0(x) (ROTR(x, 2) ^ ROTR(x, 13) ^ ROTR(x, 22))
#define SUM1(x) (ROTR(x, 6) ^ ROTR(x, 11) ^ ROTR(x, 25))
#define MIX0(x) (ROTR(x, 7) ^ ROTR(x, 18) ^ ((x) >> 3))
#define MIX1(x) (ROTR(x, 17) ^ ROTR(x, 19) ^ ((x) >> 10))

static const uint32_t K[64] = {
    0x428a2f98, 0x71374491, 0xb5c0fbcf, 0xe9b5dba5, 0x3956c25b, 0x59f111f1, 0x923f82a4, 0xab1c5ed5,
    0xd807aa98, 0x12835b01, 0x243185be, 0x550c7dc3, 0x72be5d74, 0x80deb1fe, 0x9bdc06a7, 0xc19bf174,
    0xe49b69c1, 0xefbe4786, 0x0fc19dc6, 0x240ca1cc, 0x2de92c6f, 0x4a7484aa, 0x5cb0a9dc, 0x76f988da,
    0x983e5152, 0xa831c66d, 0xb00327c8, 0xbf597fc7, 0xc6e00bf3, 0xd5a79147, 0x06ca6351, 0x14292967,
    0x27b70a85, 0x2e1b2138, 0x4d2c6dfc, 0x53380d13, 0x650a7354, 0x766a0abb, 0x81c2c92e, 0x92722c85,
    0xa2bfe8a1, 0xa81a664b, 0xc24b8b70, 0xc76c51a3, 0xd192e819, 0xd6990624, 0xf40e3585, 0x106aa070,
    0x19a4c116, 0x1e376c08, 0x2748774c, 0x34b0bcb5, 0x391c0cb3, 0x4ed8aa4a, 0x5b9cca4f, 0x682e6ff3,
    0x748f82ee, 0x78a5636f, 0x84c87814, 0x8cc70208, 0x90befffa, 0xa4506ceb, 0xbef9a3f7, 0xc67178f2};

/* The word of round t: read from the block in the first sixteen rounds, made from the window later. */
#define READ(t) \
    (w[t] = (uint32_t)block[4 * (t)] << 24 | (uint32_t)block[4 * (t) + 1] << 16 | (uint32_t)block[4 * (t) + 2] << 8 | block[4 * (t) + 3])
#define MAKE(t) (w[(t) & 15] += MIX1(w[((t) + 14) & 15]) + w[((t) + 9) & 15] + MIX0(w[((t) + 1) & 15]))

#define ROUND(a, b, c, d, e, f, g, h, t, word)                   \
    do {                                                         \
        uint32_t t1 = h + SUM1(e) + CH(e, f, g) + K[t] + word(t); \
        uint32_t t2 = SUM0(a) + MAJ(a, b, c);                    \
        d += t1;                                                 \
        h = t1 + t2;                                             \
    } while (0)

#define EIGHT(t, word)                              \
    ROUND(a, b, c, d, e, f, g, h, (t) + 0, word);   \
    ROUND(h, a, b, c, d, e, f, g, (t) + 1, word);   \
    ROUND(g, h, a, b, c, d, e, f, (t) + 2, word);   \
    ROUND(f, g, h, a, b, c, d, e, (t) + 3, word);   \
    ROUND(e, f, g, h, a, b, c, d, (t) + 4, word);   \
    ROUND(d, e, f, g, h, a, b, c, (t) + 5, word);   \
    ROUND(c, d, e, f, g, h, a, b, (t) + 6, word);   \
    ROUND(b, c, d, e, f, g, h, a, (t) + 7, word)

static void compress(uint32_t state[8], const uint8_t *block, size_t blocks) {
    for (; blocks > 0; blocks--, block += 64) {
        uint32_t w[16];
        uint32_t a = state[0], b = state[1], c = state[2], d = state[3];
        uint32_t e = state[4], f = state[5], g = state[6], h = state[7];
        EIGHT(0, READ);
        EIGHT(8, READ);
        EIGHT(16, MAKE);
        EIGHT(24, MAKE);
        EIGHT(32, MAKE);
        EIGHT(40, MAKE);
        EIGHT(48, MAKE);
        EIGHT(56, MAKE);
        state[0] += a, state[1] += b, state[2] += c, state[3] += d;
        state[4] += e, state[5] += f, state[6] += g, state[7] += h;
    }
}

#include "frame.h"
