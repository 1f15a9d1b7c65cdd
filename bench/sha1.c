/* Times SHA-1 of 16 MiB and of 256 KiB, which stay in the cache: wardrail_sha1 beside a plain C, an unrolled C and OpenSSL, in turn in one process, by the process's own time. bench/run builds and runs it. */
#include "../host/wardrail.h"

#include <openssl/evp.h>

#include <stdio.h>
#include <stdlib.h>
#include <string.h>
#include <time.h>

enum { MOST = 16777216 };

static uint32_t turned(uint32_t x, int n) { return x << n | x >> (32 - n); }

static uint32_t word(const uint8_t *b) { return (uint32_t)b[0] << 24 | (uint32_t)b[1] << 16 | (uint32_t)b[2] << 8 | b[3]; }

/* One block with all 80 words kept, made before the rounds, one a turn, and a loop for each twenty rounds, one a turn. */
static void plain_block(uint32_t *h, const uint8_t *p) {
    uint32_t w[80], a = h[0], b = h[1], c = h[2], d = h[3], e = h[4];
    for (int t = 0; t < 16; t++) w[t] = word(p + 4 * t);
    for (int t = 16; t < 80; t++) w[t] = turned(w[t - 3] ^ w[t - 8] ^ w[t - 14] ^ w[t - 16], 1);
#define ROUND(F, K)                                      \
    {                                                    \
        const uint32_t next = turned(a, 5) + (F) + e + K + w[t]; \
        e = d, d = c, c = turned(b, 30), b = a, a = next; \
    }
    for (int t = 0; t < 20; t++) ROUND(d ^ (b & (c ^ d)), 0x5a827999)
    for (int t = 20; t < 40; t++) ROUND(b ^ c ^ d, 0x6ed9eba1)
    for (int t = 40; t < 60; t++) ROUND((b & c) | (d & (b | c)), 0x8f1bbcdc)
    for (int t = 60; t < 80; t++) ROUND(b ^ c ^ d, 0xca62c1d6)
#undef ROUND
    h[0] += a, h[1] += b, h[2] += c, h[3] += d, h[4] += e;
}

/* One block with a window of 16 words, as in the proved code, and the rounds written out, five at a time, so that no value moves. */
static void unrolled_block(uint32_t *h, const uint8_t *p) {
    uint32_t w[16], a = h[0], b = h[1], c = h[2], d = h[3], e = h[4];
#define LOAD(t) (w[t] = word(p + 4 * (t)))
#define MIX(t) (w[(t) & 15] = turned(w[((t) + 13) & 15] ^ w[((t) + 8) & 15] ^ w[((t) + 2) & 15] ^ w[(t) & 15], 1))
#define R(a, b, c, d, e, F, K, W) e += turned(a, 5) + (F) + K + (W), b = turned(b, 30);
#define CH(b, c, d) (d ^ (b & (c ^ d)))
#define PAR(b, c, d) (b ^ c ^ d)
#define MAJ(b, c, d) ((b & c) | (d & (b | c)))
#define FIVE(F, K, W, t)                                                                          \
    R(a, b, c, d, e, F(b, c, d), K, W(t)) R(e, a, b, c, d, F(a, b, c), K, W((t) + 1))             \
    R(d, e, a, b, c, F(e, a, b), K, W((t) + 2)) R(c, d, e, a, b, F(d, e, a), K, W((t) + 3))       \
    R(b, c, d, e, a, F(c, d, e), K, W((t) + 4))
    FIVE(CH, 0x5a827999, LOAD, 0) FIVE(CH, 0x5a827999, LOAD, 5) FIVE(CH, 0x5a827999, LOAD, 10)
    R(a, b, c, d, e, CH(b, c, d), 0x5a827999, LOAD(15)) R(e, a, b, c, d, CH(a, b, c), 0x5a827999, MIX(16))
    R(d, e, a, b, c, CH(e, a, b), 0x5a827999, MIX(17)) R(c, d, e, a, b, CH(d, e, a), 0x5a827999, MIX(18))
    R(b, c, d, e, a, CH(c, d, e), 0x5a827999, MIX(19))
    FIVE(PAR, 0x6ed9eba1, MIX, 20) FIVE(PAR, 0x6ed9eba1, MIX, 25) FIVE(PAR, 0x6ed9eba1, MIX, 30) FIVE(PAR, 0x6ed9eba1, MIX, 35)
    FIVE(MAJ, 0x8f1bbcdc, MIX, 40) FIVE(MAJ, 0x8f1bbcdc, MIX, 45) FIVE(MAJ, 0x8f1bbcdc, MIX, 50) FIVE(MAJ, 0x8f1bbcdc, MIX, 55)
    FIVE(PAR, 0xca62c1d6, MIX, 60) FIVE(PAR, 0xca62c1d6, MIX, 65) FIVE(PAR, 0xca62c1d6, MIX, 70) FIVE(PAR, 0xca62c1d6, MIX, 75)
    h[0] += a, h[1] += b, h[2] += c, h[3] += d, h[4] += e;
}

/* The digest of n bytes, a multiple of 64, so that the padding is a block of its own. */
static void hashed(void (*block)(uint32_t *, const uint8_t *), const uint8_t *m, size_t n, uint8_t *digest) {
    uint32_t h[5] = {0x67452301, 0xefcdab89, 0x98badcfe, 0x10325476, 0xc3d2e1f0};
    uint8_t end[64] = {128};
    for (size_t i = 0; i < n; i += 64) block(h, m + i);
    for (int i = 0; i < 8; i++) end[63 - i] = (uint8_t)((uint64_t)n * 8 >> 8 * i);
    block(h, end);
    for (int i = 0; i < 20; i++) digest[i] = (uint8_t)(h[i / 4] >> (24 - i % 4 * 8));
}

static void by_wardrail(const uint8_t *m, size_t n, uint8_t *d) { wardrail_sha1(m, n, d); }
static void by_plain(const uint8_t *m, size_t n, uint8_t *d) { hashed(plain_block, m, n, d); }
static void by_unrolled(const uint8_t *m, size_t n, uint8_t *d) { hashed(unrolled_block, m, n, d); }
static void by_openssl(const uint8_t *m, size_t n, uint8_t *d) { EVP_Digest(m, n, d, NULL, EVP_sha1(), NULL); }

enum { WAYS = 4 };
static const struct {
    const char *name;
    void (*hash)(const uint8_t *, size_t, uint8_t *);
} ways[WAYS] = {{"wardrail_sha1", by_wardrail}, {"plain C, 80 words", by_plain}, {"unrolled C", by_unrolled}, {"OpenSSL", by_openssl}};

static double seconds(void) {
    struct timespec t;
    clock_gettime(CLOCK_PROCESS_CPUTIME_ID, &t);
    return (double)t.tv_sec + (double)t.tv_nsec / 1e9;
}

/* The least time of each way over the first n bytes of m; 1 where one gives another digest. */
static int race(const uint8_t *m, size_t n, int runs, const char *size, const char *note) {
    double least[WAYS] = {1e9, 1e9, 1e9, 1e9};
    uint8_t digest[20], first[20];
    by_openssl(m, n, first);
    for (int run = 0; run < runs; run++)
        for (int k = 0; k < WAYS; k++) {
            const double start = seconds();
            ways[k].hash(m, n, digest);
            const double spent = seconds() - start;
            if (memcmp(digest, first, 20) != 0) {
                fprintf(stderr, "bench: %s gives another digest\n", ways[k].name);
                return 1;
            }
            if (spent < least[k]) least[k] = spent;
        }
    printf("SHA-1 of %s, the least of %d runs%s\n", size, runs, note);
    for (int k = 0; k < WAYS; k++)
        printf("%-20s %8.0f MB/s   of unrolled C %5.2f   of OpenSSL %5.2f\n", ways[k].name, (double)n / least[k] / 1e6, least[2] / least[k], least[3] / least[k]);
    return 0;
}

int main(int count, char **words) {
    char note[100] = "";
    uint8_t *m = malloc(MOST);
    if (!m) return 1;
    for (size_t i = 0; i < MOST; i++) m[i] = (uint8_t)(i * 167 + i / 251);
    if (count > 1) snprintf(note, sizeof note, ", %s", words[1]);
    const int fault = race(m, MOST, 25, "16 MiB", note) || race(m, 262144, 600, "256 KiB", note);
    free(m);
    return fault;
}
