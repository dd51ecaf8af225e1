/* What the two C digests share: blocks, padding and the way out. Each defines `compress` before it includes this,
   and is compiled once for each level of optimisation under the name DIGEST. Portable C11, FIPS 180-4, section 5 and 6.2. */
static void store(uint8_t *to, uint32_t x) {
    to[0] = (uint8_t)(x >> 24);
    to[1] = (uint8_t)(x >> 16);
    to[2] = (uint8_t)(x >> 8);
    to[3] = (uint8_t)x;
}

void DIGEST(const uint8_t *message, size_t length, uint8_t out[32]) {
    uint32_t h[8] = {0x6a09e667, 0xbb67ae85, 0x3c6ef372, 0xa54ff53a, 0x510e527f, 0x9b05688c, 0x1f83d9ab, 0x5be0cd19};
    uint8_t tail[128] = {0};
    size_t whole = length / 64, rest = length % 64, ends = rest < 56 ? 64 : 128;
    uint64_t bits = (uint64_t)length * 8;
    compress(h, message, whole);
    if (rest > 0)
        memcpy(tail, message + whole * 64, rest);
    tail[rest] = 0x80;
    store(tail + ends - 8, (uint32_t)(bits >> 32));
    store(tail + ends - 4, (uint32_t)bits);
    compress(h, tail, ends / 64);
    for (int i = 0; i < 8; i++)
        store(out + 4 * i, h[i]);
}
