/* The fastest portable SHA-256 in C that we could write: as the textbook's, with these changes. Ch and Maj take fewer
   operations, and Maj uses again what the round before computed; rotations are nested, so that each turns an already
   turned word by less; the constants are literals. The schedule holds sixteen words here too. */
#include <stddef.h>
#include <stdint.h>
#include <string.h>

static inline uint32_t rotr(uint32_t x, int n) { return x >> n | x << (32 - n); }
static inline uint32_t ch(uint32_t x, uint32_t y, uint32_t z) { return ((y ^ z) & x) ^ z; }
static inline uint32_t sum0(uint32_t x) { return rotr(rotr(rotr(x, 9) ^ x, 11) ^ x, 2); }
static inline uint32_t sum1(uint32_t x) { return rotr(rotr(rotr(x, 14) ^ x, 5) ^ x, 6); }
static inline uint32_t mix0(uint32_t x) { return rotr(rotr(x, 11) ^ x, 7) ^ (x >> 3); }
static inline uint32_t mix1(uint32_t x) { return rotr(rotr(x, 2) ^ x, 17) ^ (x >> 10); }

#define READ(t) \
    (w[t] = (uint32_t)block[4 * (t)] << 24 | (uint32_t)block[4 * (t) + 1] << 16 | (uint32_t)block[4 * (t) + 2] << 8 | block[4 * (t) + 3])
#define MAKE(t) (w[t] += mix1(w[((t) + 14) & 15]) + w[((t) + 9) & 15] + mix0(w[((t) + 1) & 15]))

/* Maj(a, b, c) is ((a ^ b) & (b ^ c)) ^ b, and this round's a ^ b is the next one's b ^ c. */
#define ROUND(a, b, c, d, e, f, g, h, k, word)             \
    do {                                                   \
        uint32_t t1 = h + sum1(e) + ch(e, f, g) + k + word; \
        uint32_t ab = a ^ b;                               \
        d += t1;                                           \
        h = t1 + sum0(a) + ((ab & bc) ^ b);                \
        bc = ab;                                           \
    } while (0)

#define SIXTEEN(word, k0, k1, k2, k3, k4, k5, k6, k7, k8, k9, k10, k11, k12, k13, k14, k15) \
    ROUND(a, b, c, d, e, f, g, h, k0, word(0));                                             \
    ROUND(h, a, b, c, d, e, f, g, k1, word(1));                                             \
    ROUND(g, h, a, b, c, d, e, f, k2, word(2));                                             \
    ROUND(f, g, h, a, b, c, d, e, k3, word(3));                                             \
    ROUND(e, f, g, h, a, b, c, d, k4, word(4));                                             \
    ROUND(d, e, f, g, h, a, b, c, k5, word(5));                                             \
    ROUND(c, d, e, f, g, h, a, b, k6, word(6));                                             \
    ROUND(b, c, d, e, f, g, h, a, k7, word(7));                                             \
    ROUND(a, b, c, d, e, f, g, h, k8, word(8));                                             \
    ROUND(h, a, b, c, d, e, f, g, k9, word(9));                                             \
    ROUND(g, h, a, b, c, d, e, f, k10, word(10));                                           \
    ROUND(f, g, h, a, b, c, d, e, k11, word(11));                                           \
    ROUND(e, f, g, h, a, b, c, d, k12, word(12));                                           \
    ROUND(d, e, f, g, h, a, b, c, k13, word(13));                                           \
    ROUND(c, d, e, f, g, h, a, b, k14, word(14));                                           \
    ROUND(b, c, d, e, f, g, h, a, k15, word(15))

static void compress(uint32_t state[8], const uint8_t *block, size_t blocks) {
    for (; blocks > 0; blocks--, block += 64) {
        uint32_t w[16];
        uint32_t a = state[0], b = state[1], c = state[2], d = state[3];
        uint32_t e = state[4], f = state[5], g = state[6], h = state[7];
        uint32_t bc = b ^ c;
        SIXTEEN(READ, 0x428a2f98, 0x71374491, 0xb5c0fbcf, 0xe9b5dba5, 0x3956c25b, 0x59f111f1, 0x923f82a4, 0xab1c5ed5,
                0xd807aa98, 0x12835b01, 0x243185be, 0x550c7dc3, 0x72be5d74, 0x80deb1fe, 0x9bdc06a7, 0xc19bf174);
        SIXTEEN(MAKE, 0xe49b69c1, 0xefbe4786, 0x0fc19dc6, 0x240ca1cc, 0x2de92c6f, 0x4a7484aa, 0x5cb0a9dc, 0x76f988da,
                0x983e5152, 0xa831c66d, 0xb00327c8, 0xbf597fc7, 0xc6e00bf3, 0xd5a79147, 0x06ca6351, 0x14292967);
        SIXTEEN(MAKE, 0x27b70a85, 0x2e1b2138, 0x4d2c6dfc, 0x53380d13, 0x650a7354, 0x766a0abb, 0x81c2c92e, 0x92722c85,
                0xa2bfe8a1, 0xa81a664b, 0xc24b8b70, 0xc76c51a3, 0xd192e819, 0xd6990624, 0xf40e3585, 0x106aa070);
        SIXTEEN(MAKE, 0x19a4c116, 0x1e376c08, 0x2748774c, 0x34b0bcb5, 0x391c0cb3, 0x4ed8aa4a, 0x5b9cca4f, 0x682e6ff3,
                0x748f82ee, 0x78a5636f, 0x84c87814, 0x8cc70208, 0x90befffa, 0xa4506ceb, 0xbef9a3f7, 0xc67178f2);
        state[0] += a, state[1] += b, state[2] += c, state[3] += d;
        state[4] += e, state[5] += f, state[6] += g, state[7] += h;
    }
}

#include "frame.h"
