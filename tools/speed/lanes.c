/* The work of hail_bench's put-stripes and get-stripes in C with 128-bit lanes: a yardstick. It makes the same blocks
 * and tells the same checksum, and opens clean blocks alone. Nothing of it is proved, and nothing stands on it.
 *
 *     cc -O3 -mssse3 -o lanes lanes.c
 *     lanes put-stripes N L B PROFILE BYTES
 *     lanes get-stripes N L B PROFILE BYTES
 *
 * PROFILE is 0 to 4. The formats are those of docs/formats.md, the bytes and the checksum those of bench_works. */
#include <emmintrin.h>
#include <stdint.h>
#include <stdio.h>
#include <stdlib.h>
#include <string.h>
#include <time.h>
#include <tmmintrin.h>

typedef unsigned __int128 symbol;

enum { most_providers = 16, most_size = 128, most_rows = 32 };

static const int sizes[5] = {6, 16, 32, 64, 128};
static const int keeps[5] = {2, 8, 24, 48, 96};

/* ---- the nim field (J. H. Conway, On Numbers and Games, chapter 6) */

static uint8_t byte_products[256][256];

/* The product of two numbers of `bits` bits, from the products of their halves. */
static uint32_t small_product(uint32_t a, uint32_t b, int bits)
{
    if (bits == 1) return a & b;
    int half = bits / 2;
    uint32_t mask = (1u << half) - 1, a1 = a >> half, a0 = a & mask, b1 = b >> half, b0 = b & mask;
    uint32_t low = small_product(a0, b0, half), top = small_product(a1, b1, half);
    uint32_t whole = small_product(a1 ^ a0, b1 ^ b0, half);
    return (whole ^ low) << half | (low ^ small_product(top, 1u << (half - 1), half));
}

static symbol product(symbol a, symbol b, int bits)
{
    if (bits == 8) return byte_products[(uint8_t)a][(uint8_t)b];
    int half = bits / 2;
    symbol mask = ((symbol)1 << half) - 1, a1 = a >> half, a0 = a & mask, b1 = b >> half, b0 = b & mask;
    symbol low = product(a0, b0, half), top = product(a1, b1, half), whole = product(a1 ^ a0, b1 ^ b0, half);
    return (whole ^ low) << half | (low ^ product(top, (symbol)1 << (half - 1), half));
}

static symbol mul(symbol a, symbol b)
{
    return product(a, b, 128);
}

/* The inverse: x = a1 X + a0 with X X = X + 2^(half - 1) has the norm a0 (a0 + a1) + 2^(half - 1) a1 a1. */
static symbol inverse(symbol a, int bits)
{
    if (bits == 8) {
        for (int b = 1; b < 256; b++)
            if (byte_products[(uint8_t)a][b] == 1) return b;
        return 0;
    }
    int half = bits / 2;
    symbol mask = ((symbol)1 << half) - 1, a1 = a >> half, a0 = a & mask;
    symbol norm = product(a0, a0 ^ a1, half) ^ product(product(a1, a1, half), (symbol)1 << (half - 1), half);
    symbol of = inverse(norm, half);
    return product(a1, of, half) << half | product(a0 ^ a1, of, half);
}

/* ---- products by a byte, and by a constant */

static __m128i low_nibbles[256], high_nibbles[256];

static void make_products(void)
{
    for (int a = 0; a < 256; a++)
        for (int b = 0; b < 256; b++) byte_products[a][b] = small_product(a, b, 8);
    for (int c = 0; c < 256; c++) {
        uint8_t low[16], high[16];
        for (int k = 0; k < 16; k++) {
            low[k] = byte_products[c][k];
            high[k] = byte_products[c][16 * k];
        }
        low_nibbles[c] = _mm_loadu_si128((__m128i *)low);
        high_nibbles[c] = _mm_loadu_si128((__m128i *)high);
    }
}

/* A byte below 256 times a symbol acts on each of its bytes by itself. */
static inline __m128i scaled(uint8_t c, __m128i s)
{
    __m128i mask = _mm_set1_epi8(15);
    __m128i low = _mm_shuffle_epi8(low_nibbles[c], _mm_and_si128(s, mask));
    __m128i high = _mm_shuffle_epi8(high_nibbles[c], _mm_and_si128(_mm_srli_epi16(s, 4), mask));
    return _mm_xor_si128(low, high);
}

/* A constant's products with each nibble of a symbol. */
typedef struct {
    __m128i of[32][16];
} table;

static void make_table(table *t, symbol c)
{
    for (int place = 0; place < 32; place++) {
        symbol powers[4];
        for (int bit = 0; bit < 4; bit++) powers[bit] = mul(c, (symbol)1 << (4 * place + bit));
        for (int v = 0; v < 16; v++) {
            symbol sum = 0;
            for (int bit = 0; bit < 4; bit++)
                if (v >> bit & 1) sum ^= powers[bit];
            memcpy(&t->of[place][v], &sum, 16);
        }
    }
}

static inline __m128i times(const table *t, __m128i s)
{
    uint64_t low = _mm_cvtsi128_si64(s), high = _mm_cvtsi128_si64(_mm_unpackhi_epi64(s, s));
    __m128i sum = _mm_setzero_si128(), more = _mm_setzero_si128();
    for (int k = 0; k < 16; k++) {
        sum = _mm_xor_si128(sum, t->of[k][low >> 4 * k & 15]);
        more = _mm_xor_si128(more, t->of[16 + k][high >> 4 * k & 15]);
    }
    return _mm_xor_si128(sum, more);
}

/* ---- the server code */

static uint8_t twiddles[256];         /* at node h of the tree of points, the factor of the additive transform */
static uint8_t rows[most_rows][96];   /* profiles 0 and 1: the coefficients of the places behind the kept ones */

static uint8_t byte_inverse(uint8_t a)
{
    return (uint8_t)inverse(a, 8);
}

/* The polynomial that vanishes on the points 0 to 2^i - 1 and is 1 at the next. */
static uint8_t vanishing(int i, uint8_t x)
{
    for (; i > 0; i--) x = byte_products[x][x ^ 1];
    return x;
}

static void make_server_code(int profile)
{
    int size = sizes[profile], keep = keeps[profile];
    for (int level = 1; level < 8; level++)
        for (int h = 128 >> level; h < 256 >> level; h++)
            twiddles[h] = vanishing(level - 1, (uint8_t)((h << level) - 128));
    for (int i = keep; i < size && profile < 2; i++)
        for (int k = 0; k < keep; k++) {
            uint8_t weight = 1;
            for (int q = 0; q < keep; q++)
                if (q != k) weight = byte_products[weight][byte_products[i ^ q][byte_inverse(k ^ q)]];
            rows[i - keep][k] = weight;
        }
}

/* The additive transform of 2^level symbols under node h, level by level. */
static void to_coefficients(__m128i *v, int level, int h)
{
    for (int i = 1; i <= level; i++)
        for (int q = 0; q < 1 << (level - i); q++) {
            int half = 1 << (i - 1), node = (h << (level - i)) + q;
            __m128i *w = v + 2 * half * q;
            for (int k = 0; k < half; k++) {
                w[half + k] = _mm_xor_si128(w[half + k], w[k]);
                w[k] = _mm_xor_si128(w[k], scaled(twiddles[node], w[half + k]));
            }
        }
}

static void to_values(__m128i *v, int level, int h)
{
    for (int i = level; i > 0; i--)
        for (int q = 0; q < 1 << (level - i); q++) {
            int half = 1 << (i - 1), node = (h << (level - i)) + q;
            __m128i *w = v + 2 * half * q;
            for (int k = 0; k < half; k++) {
                w[k] = _mm_xor_si128(w[k], scaled(twiddles[node], w[half + k]));
                w[half + k] = _mm_xor_si128(w[half + k], w[k]);
            }
        }
}

/* Fills the places behind the kept ones of a block. */
static void extend(int profile, const __m128i *kept, __m128i *rest)
{
    int keep = keeps[profile], more = sizes[profile] - keep;
    if (profile < 2) {
        for (int r = 0; r < more; r++) {
            __m128i sum = _mm_setzero_si128();
            for (int k = 0; k < keep; k++) sum = _mm_xor_si128(sum, scaled(rows[r][k], kept[k]));
            rest[r] = sum;
        }
        return;
    }
    int level = profile + 1;
    __m128i part[most_rows];
    for (int k = 0; k < more; k++) rest[k] = _mm_setzero_si128();
    for (int q = 0; q < 3; q++) {
        memcpy(part, kept + q * more, 16 * more);
        to_coefficients(part, level, (128 >> level) + q);
        for (int k = 0; k < more; k++) rest[k] = _mm_xor_si128(rest[k], part[k]);
    }
    to_values(rest, level, (128 >> level) + 3);
}

static int is_codeword(int profile, const __m128i *block)
{
    int keep = keeps[profile], more = sizes[profile] - keep;
    __m128i rest[most_rows], difference = _mm_setzero_si128();
    extend(profile, block, rest);
    for (int k = 0; k < more; k++)
        difference = _mm_or_si128(difference, _mm_xor_si128(rest[k], block[keep + k]));
    return _mm_movemask_epi8(_mm_cmpeq_epi8(difference, _mm_setzero_si128())) == 0xffff;
}

/* ---- keys: SHA-256 (FIPS 180-4) of one block */

static uint32_t turned(uint32_t x, int n)
{
    return x >> n | x << (32 - n);
}

static void sha256(const uint8_t *message, int length, uint8_t *out)
{
    static const uint32_t k[64] = {
        0x428a2f98, 0x71374491, 0xb5c0fbcf, 0xe9b5dba5, 0x3956c25b, 0x59f111f1, 0x923f82a4, 0xab1c5ed5, 0xd807aa98,
        0x12835b01, 0x243185be, 0x550c7dc3, 0x72be5d74, 0x80deb1fe, 0x9bdc06a7, 0xc19bf174, 0xe49b69c1, 0xefbe4786,
        0x0fc19dc6, 0x240ca1cc, 0x2de92c6f, 0x4a7484aa, 0x5cb0a9dc, 0x76f988da, 0x983e5152, 0xa831c66d, 0xb00327c8,
        0xbf597fc7, 0xc6e00bf3, 0xd5a79147, 0x06ca6351, 0x14292967, 0x27b70a85, 0x2e1b2138, 0x4d2c6dfc, 0x53380d13,
        0x650a7354, 0x766a0abb, 0x81c2c92e, 0x92722c85, 0xa2bfe8a1, 0xa81a664b, 0xc24b8b70, 0xc76c51a3, 0xd192e819,
        0xd6990624, 0xf40e3585, 0x106aa070, 0x19a4c116, 0x1e376c08, 0x2748774c, 0x34b0bcb5, 0x391c0cb3, 0x4ed8aa4a,
        0x5b9cca4f, 0x682e6ff3, 0x748f82ee, 0x78a5636f, 0x84c87814, 0x8cc70208, 0x90befffa, 0xa4506ceb, 0xbef9a3f7,
        0xc67178f2};
    uint32_t h[8] = {0x6a09e667, 0xbb67ae85, 0x3c6ef372, 0xa54ff53a, 0x510e527f, 0x9b05688c, 0x1f83d9ab, 0x5be0cd19};
    uint8_t block[64] = {0};
    uint32_t w[64], v[8];
    memcpy(block, message, length);
    block[length] = 0x80;
    block[62] = (uint8_t)(length * 8 >> 8);
    block[63] = (uint8_t)(length * 8);
    for (int i = 0; i < 16; i++)
        w[i] = (uint32_t)block[4 * i] << 24 | block[4 * i + 1] << 16 | block[4 * i + 2] << 8 | block[4 * i + 3];
    for (int i = 16; i < 64; i++)
        w[i] = w[i - 16] + (turned(w[i - 15], 7) ^ turned(w[i - 15], 18) ^ w[i - 15] >> 3) + w[i - 7]
            + (turned(w[i - 2], 17) ^ turned(w[i - 2], 19) ^ w[i - 2] >> 10);
    memcpy(v, h, sizeof v);
    for (int i = 0; i < 64; i++) {
        uint32_t one = v[7] + (turned(v[4], 6) ^ turned(v[4], 11) ^ turned(v[4], 25)) + ((v[4] & v[5]) ^ (~v[4] & v[6]))
            + k[i] + w[i];
        uint32_t two = (turned(v[0], 2) ^ turned(v[0], 13) ^ turned(v[0], 22))
            + ((v[0] & v[1]) ^ (v[0] & v[2]) ^ (v[1] & v[2]));
        memmove(v + 1, v, 7 * sizeof *v);
        v[4] += one;
        v[0] = one + two;
    }
    for (int i = 0; i < 32; i++) out[i] = (uint8_t)((h[i / 4] + v[i / 4]) >> (24 - 8 * (i % 4)));
}

static void file_key(char label, int provider, uint8_t *out)
{
    uint8_t message[45];
    memset(message, 7, 32);
    memset(message + 32, 0, 13);
    message[32] = (uint8_t)label;
    message[33] = 1;
    message[41] = (uint8_t)provider;
    sha256(message, 45, out);
}

/* ---- masks: ChaCha20 (RFC 8439, with a 64-bit block number), four blocks at once */

#define TURN(x, n) _mm_or_si128(_mm_slli_epi32(x, n), _mm_srli_epi32(x, 32 - (n)))
#define QUARTER(a, b, c, d)                                                                                            \
    a = _mm_add_epi32(a, b), d = _mm_shuffle_epi8(_mm_xor_si128(d, a), by_16), c = _mm_add_epi32(c, d),                \
    b = _mm_xor_si128(b, c), b = TURN(b, 12), a = _mm_add_epi32(a, b),                                                 \
    d = _mm_shuffle_epi8(_mm_xor_si128(d, a), by_8), c = _mm_add_epi32(c, d), b = _mm_xor_si128(b, c), b = TURN(b, 7)

/* Adds the masks of the rows of four blocks, 16 of them, from a block on. */
static void add_sixteen(const uint32_t *key, uint64_t block, __m128i *out)
{
    const __m128i by_16 = _mm_set_epi8(13, 12, 15, 14, 9, 8, 11, 10, 5, 4, 7, 6, 1, 0, 3, 2);
    const __m128i by_8 = _mm_set_epi8(14, 13, 12, 15, 10, 9, 8, 11, 6, 5, 4, 7, 2, 1, 0, 3);
    static const uint32_t words[4] = {0x61707865, 0x3320646e, 0x79622d32, 0x6b206574};
    __m128i start[16], s[16];
    for (int k = 0; k < 4; k++) start[k] = _mm_set1_epi32((int)words[k]);
    for (int k = 0; k < 8; k++) start[4 + k] = _mm_set1_epi32((int)key[k]);
    start[12] = _mm_set_epi32((int)(block + 3), (int)(block + 2), (int)(block + 1), (int)block);
    start[13] = _mm_set_epi32((int)((block + 3) >> 32), (int)((block + 2) >> 32), (int)((block + 1) >> 32),
        (int)(block >> 32));
    start[14] = start[15] = _mm_setzero_si128();
    memcpy(s, start, sizeof s);
    for (int round = 0; round < 10; round++) {
        QUARTER(s[0], s[4], s[8], s[12]);
        QUARTER(s[1], s[5], s[9], s[13]);
        QUARTER(s[2], s[6], s[10], s[14]);
        QUARTER(s[3], s[7], s[11], s[15]);
        QUARTER(s[0], s[5], s[10], s[15]);
        QUARTER(s[1], s[6], s[11], s[12]);
        QUARTER(s[2], s[7], s[8], s[13]);
        QUARTER(s[3], s[4], s[9], s[14]);
    }
    for (int k = 0; k < 16; k++) s[k] = _mm_add_epi32(s[k], start[k]);
    for (int q = 0; q < 4; q++) {
        __m128i a = _mm_unpacklo_epi32(s[4 * q], s[4 * q + 1]), b = _mm_unpacklo_epi32(s[4 * q + 2], s[4 * q + 3]);
        __m128i c = _mm_unpackhi_epi32(s[4 * q], s[4 * q + 1]), d = _mm_unpackhi_epi32(s[4 * q + 2], s[4 * q + 3]);
        out[q] = _mm_xor_si128(out[q], _mm_unpacklo_epi64(a, b));
        out[4 + q] = _mm_xor_si128(out[4 + q], _mm_unpackhi_epi64(a, b));
        out[8 + q] = _mm_xor_si128(out[8 + q], _mm_unpacklo_epi64(c, d));
        out[12 + q] = _mm_xor_si128(out[12 + q], _mm_unpackhi_epi64(c, d));
    }
}

/* Adds the masks of a stripe's rows to a block. Where a stripe does not begin at the start of four ChaCha20 blocks,
 * more are made than are used. */
static void add_masks(const uint32_t *key, uint64_t first, int size, __m128i *block)
{
    if (first % 4 == 0 && size % 16 == 0) {
        for (int k = 0; k < size; k += 16) add_sixteen(key, (first + k) / 4, block + k);
        return;
    }
    __m128i masks[16];
    for (int k = 0; k < 16; k++) masks[k] = _mm_setzero_si128();
    add_sixteen(key, first / 4, masks);
    for (int k = 0; k < size; k++) block[k] = _mm_xor_si128(block[k], masks[first % 4 + k]);
}

/* ---- objects */

typedef struct {
    int n, l, b, profile;
    uint32_t mask_keys[most_providers][8];
    table *tables; /* of the weights of secondary provider j and primary provider k, at (j - l) (l - 1) + k - 1 */
} object;

static object make_object(int n, int l, int b, int profile)
{
    object o = {n, l, b, profile, {{0}}, NULL};
    size_t room = sizeof(table) * (size_t)((n - l) * (l - 1)) + 64;
    o.tables = aligned_alloc(64, (room + 63) / 64 * 64);
    for (int j = 0; j < n; j++) file_key('M', j, (uint8_t *)o.mask_keys[j]);
    for (int j = l; j < n; j++) {
        uint8_t key[32];
        symbol x;
        file_key('P', j, key);
        key[0] = (uint8_t)j;
        memcpy(&x, key, 16);
        for (int k = 1; k < l; k++) {
            symbol above = 1, below = 1;
            for (int i = 0; i < l; i++)
                if (i != k) {
                    above = mul(above, x ^ (symbol)i);
                    below = mul(below, (symbol)(k ^ i));
                }
            make_table(&o.tables[(j - l) * (l - 1) + k - 1], mul(above, inverse(below, 128)));
        }
    }
    return o;
}

/* The kept symbols of a secondary provider: the weights of a row sum to 1. */
static void kept_of(const object *o, const __m128i *symbols, int j, __m128i *kept)
{
    int keep = keeps[o->profile];
    memcpy(kept, symbols, 16 * (size_t)keep);
    for (int k = 1; k < o->l; k++) {
        const table *t = &o->tables[(j - o->l) * (o->l - 1) + k - 1];
        for (int p = 0; p < keep; p++)
            kept[p] = _mm_xor_si128(kept[p], times(t, _mm_xor_si128(symbols[k * keep + p], symbols[p])));
    }
}

static void column(const object *o, uint64_t stripe, const __m128i *symbols, int j, __m128i *block)
{
    int keep = keeps[o->profile], size = sizes[o->profile];
    if (j < o->l)
        memcpy(block, symbols + j * keep, 16 * (size_t)keep);
    else
        kept_of(o, symbols, j, block);
    extend(o->profile, block, block + keep);
    if (j >= o->l) add_masks(o->mask_keys[j], stripe * size, size, block);
}

/* Opens a stripe of which all blocks are clean, from all providers but b. Zero where they are not. */
static int open_clean(const object *o, uint64_t stripe, const __m128i *seen, __m128i *symbols)
{
    int keep = keeps[o->profile], size = sizes[o->profile];
    __m128i block[most_size], kept[96], difference = _mm_setzero_si128();
    for (int j = 0; j < o->n - o->b; j++) {
        memcpy(block, seen + j * size, 16 * (size_t)size);
        if (j >= o->l) add_masks(o->mask_keys[j], stripe * size, size, block);
        if (!is_codeword(o->profile, block)) return 0;
        if (j < o->l) {
            memcpy(symbols + j * keep, block, 16 * (size_t)keep);
            continue;
        }
        kept_of(o, symbols, j, kept);
        for (int p = 0; p < keep; p++) difference = _mm_or_si128(difference, _mm_xor_si128(kept[p], block[p]));
    }
    return _mm_movemask_epi8(_mm_cmpeq_epi8(difference, _mm_setzero_si128())) == 0xffff;
}

/* ---- the works */

static symbol after(symbol x)
{
    return x * ((symbol)0xda942042e4dd58b5 << 64 | 0xda942042e4dd58b5) + 1;
}

/* The checksum after a block, the last symbol first. */
static symbol mix_all(symbol sum, const __m128i *block, int count)
{
    for (int k = count - 1; k >= 0; k--) {
        symbol s;
        memcpy(&s, &block[k], 16);
        sum = after(sum ^ s);
    }
    return sum;
}

static double now(void)
{
    struct timespec t;
    clock_gettime(CLOCK_MONOTONIC, &t);
    return (double)t.tv_sec * 1e9 + (double)t.tv_nsec;
}

static uint8_t *make_file(size_t length, size_t room)
{
    uint8_t *bytes = aligned_alloc(64, (room + 63) / 64 * 64);
    symbol x = 1;
    memset(bytes, 0, (room + 63) / 64 * 64);
    for (size_t k = 0; k < length; k++) {
        bytes[k] = (uint8_t)(x >> 120);
        x = after(x);
    }
    return bytes;
}

int main(int count, char **words)
{
    if (count != 7) return 2;
    int is_put = strcmp(words[1], "put-stripes") == 0;
    if (!is_put && strcmp(words[1], "get-stripes") != 0) return 2;
    int n = atoi(words[2]), l = atoi(words[3]), b = atoi(words[4]), profile = atoi(words[5]);
    size_t length = (size_t)atol(words[6]);
    if (n < 4 || n > 16 || l < 1 || b < 1 || l + 2 * b + 1 > n || profile < 0 || profile > 4) return 2;
    make_products();
    make_server_code(profile);
    int keep = keeps[profile], size = sizes[profile];
    size_t stripe_bytes = 16 * (size_t)(l * keep), stripes = (length + stripe_bytes - 1) / stripe_bytes;
    uint8_t *bytes = make_file(length, stripes * stripe_bytes);
    __m128i *seen = NULL, symbols[1248], blocks[most_providers * most_size];
    if (!is_put) {
        object o = make_object(n, l, b, profile);
        seen = aligned_alloc(64, stripes * 16 * (size_t)(n * size));
        for (size_t s = 0; s < stripes; s++)
            for (int j = 0; j < n; j++)
                column(&o, s, (__m128i *)(bytes + s * stripe_bytes), j, seen + (s * n + j) * size);
        free(o.tables);
    }
    symbol sum = 0;
    double start = now();
    object o = make_object(n, l, b, profile);
    for (size_t s = 0; s < stripes; s++) {
        if (is_put) {
            memcpy(symbols, bytes + s * stripe_bytes, stripe_bytes);
            for (int j = 0; j < n; j++) column(&o, s, symbols, j, blocks + j * size);
            for (int j = 0; j < n; j++) sum = mix_all(sum, blocks + j * size, size);
        } else {
            if (!open_clean(&o, s, seen + s * n * size, symbols)) return 1;
            sum = mix_all(sum, symbols, l * keep);
        }
    }
    double nanos = now() - start;
    for (int k = 1; k < count; k++) printf("%s ", words[k]);
    printf("checksum %016llx%016llx\n", (unsigned long long)(sum >> 64), (unsigned long long)sum);
    fprintf(stderr, "%zu in %.0f ns\n", stripes, nanos);
    return 0;
}
