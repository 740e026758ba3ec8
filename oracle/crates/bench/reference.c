/* The kernels by hand, each in the form that the proved code has, with the same
   test of the words that are read. A table has 2^n words; points and elements
   are four words each. The answer is 5 where a word is not below p, else 0. */

#include <stddef.h>
#include <stdint.h>
#include <string.h>

#define P 2013265921u

/* The most coordinates of a block. */
#define BLOCK 8

typedef struct {
    uint32_t c[4];
} element;

static const element one = {{1, 0, 0, 0}};

static inline uint32_t word_plus(uint32_t a, uint32_t b) {
    uint32_t sum = a + b;
    return sum >= P ? sum - P : sum;
}

static inline uint32_t word_minus(uint32_t a, uint32_t b) {
    return a < b ? a - b + P : a - b;
}

static inline element plus(element x, element y) {
    for (int i = 0; i < 4; i++) {
        x.c[i] = word_plus(x.c[i], y.c[i]);
    }
    return x;
}

static inline element minus(element x, element y) {
    for (int i = 0; i < 4; i++) {
        x.c[i] = word_minus(x.c[i], y.c[i]);
    }
    return x;
}

/* X^4. */
#define FACTOR 11u

/* 2^32 modulo P. */
#define UNIT 268435454u

/* The coefficients of a product of polynomials, each the sum of at most four
   products, which fit 64 bits. */
typedef struct {
    uint64_t c[7];
} coefficients;

static inline coefficients multiplied(element x, element y) {
    uint64_t x0 = x.c[0], x1 = x.c[1], x2 = x.c[2], x3 = x.c[3];
    uint64_t y0 = y.c[0], y1 = y.c[1], y2 = y.c[2], y3 = y.c[3];
    coefficients out = {{
        x0 * y0,
        x0 * y1 + x1 * y0,
        x0 * y2 + x1 * y1 + x2 * y0,
        x0 * y3 + x1 * y2 + x2 * y1 + x3 * y0,
        x1 * y3 + x2 * y2 + x3 * y1,
        x2 * y3 + x3 * y2,
        x3 * y3,
    }};
    return out;
}

/* A number of the same residue that has room for the factor. */
static inline uint64_t shrunk(uint64_t n) {
    return (uint32_t)n + (n >> 32) * UNIT;
}

/* What stands at X^4, X^5 and X^6 comes back times 11. Four `%`. */
static inline element product(element x, element y) {
    coefficients s = multiplied(x, y);
    element out = {{
        (uint32_t)((s.c[0] + FACTOR * shrunk(s.c[4])) % P),
        (uint32_t)((s.c[1] + FACTOR * shrunk(s.c[5])) % P),
        (uint32_t)((s.c[2] + FACTOR * shrunk(s.c[6])) % P),
        (uint32_t)(s.c[3] % P),
    }};
    return out;
}

/* The inverse of P modulo 2^32, and 2^64 modulo P. */
#define INVERSE 2281701377u
#define SQUARE 1172168163u

/* n / 2^32 modulo P, for n of up to four products. */
static inline uint32_t lowered(uint64_t n) {
    uint32_t high = (uint32_t)(n >> 32), multiple = (uint32_t)n * INVERSE;
    return word_minus(high >= P ? high - P : high, (uint32_t)((uint64_t)multiple * P >> 32));
}

/* A factor r, made ready for many products: r 2^32, and that times 11. */
typedef struct {
    uint32_t r[4], t[4];
} multiplier;

static inline multiplier ready(element r) {
    multiplier m;
    for (int i = 0; i < 4; i++) {
        m.r[i] = lowered((uint64_t)r.c[i] * SQUARE);
        m.t[i] = lowered((uint64_t)r.c[i] * FACTOR % P * SQUARE);
    }
    return m;
}

/* x r: the matrix of r, sixteen products of words and no `%`. */
static inline element times(multiplier m, element x) {
    uint64_t x0 = x.c[0], x1 = x.c[1], x2 = x.c[2], x3 = x.c[3];
    element out = {{
        lowered(x0 * m.r[0] + x1 * m.t[3] + x2 * m.t[2] + x3 * m.t[1]),
        lowered(x0 * m.r[1] + x1 * m.r[0] + x2 * m.t[3] + x3 * m.t[2]),
        lowered(x0 * m.r[2] + x1 * m.r[1] + x2 * m.r[0] + x3 * m.t[3]),
        lowered(x0 * m.r[3] + x1 * m.r[2] + x2 * m.r[1] + x3 * m.r[0]),
    }};
    return out;
}

/* old + x r. */
static inline element gained(multiplier m, element old, element x) {
    return plus(old, times(m, x));
}

/* out = x * y^times, one product after the other. */
uint32_t reference_mul_repeat(const element *x, const element *y, uint64_t times, element *out) {
    element a = *x, b = *y;
    for (uint64_t i = 0; i < times; i++) {
        a = product(a, b);
    }
    *out = a;
    return 0;
}

/* The test of words: every one is looked at. */
uint32_t reference_unreduced(const uint32_t *words, size_t count) {
    uint32_t found = 0;
    for (size_t i = 0; i < count; i++) {
        found |= words[i] >= P;
    }
    return found ? 5 : 0;
}

static uint32_t unreduced(const element *elements, int count) {
    return reference_unreduced((const uint32_t *)elements, 4 * (size_t)count);
}

/* The table of scale eq of k coordinates, doubled by one after another. */
static void fill(element *out, const element *point, int k, element scale) {
    out[0] = scale;
    for (int j = 0; j < k; j++) {
        size_t n = (size_t)1 << j;
        multiplier c = ready(point[k - 1 - j]);
        for (size_t i = 0; i < n; i++) {
            element high = times(c, out[i]);
            out[n + i] = high;
            out[i] = minus(out[i], high);
        }
    }
}

uint32_t reference_new_from_point(const element *point, int k, const element *scale, element *out) {
    if (unreduced(point, k) | unreduced(scale, 1)) {
        return 5;
    }
    fill(out, point, k, *scale);
    return 0;
}

/* The dot product of weights and words, a multiple of four of them: four
   products fit 64 bits, and their sums are kept as two halves of 32 bits. */
static element dot(const element *weights, const uint32_t *words, size_t count) {
    uint64_t lo[4] = {0}, hi[4] = {0};
    for (size_t i = 0; i < count; i += 4) {
        for (int k = 0; k < 4; k++) {
            uint64_t sum = (uint64_t)weights[i].c[k] * words[i] + (uint64_t)weights[i + 1].c[k] * words[i + 1]
                + (uint64_t)weights[i + 2].c[k] * words[i + 2] + (uint64_t)weights[i + 3].c[k] * words[i + 3];
            lo[k] += (uint32_t)sum;
            hi[k] += sum >> 32;
        }
    }
    element out;
    for (int k = 0; k < 4; k++) {
        out.c[k] = (uint32_t)((lo[k] + (hi[k] % P << 32)) % P);
    }
    return out;
}

/* The value of 2^high blocks at the first coordinates, by halves. */
static element part(const uint32_t *words, const element *point, int high, int low, const element *block) {
    if (high == 0) {
        return dot(block, words, (size_t)1 << low);
    }
    element at0 = part(words, point + 1, high - 1, low, block);
    element at1 = part(words + ((size_t)1 << (high - 1 + low)), point + 1, high - 1, low, block);
    return plus(at0, product(minus(at1, at0), point[0]));
}

static uint32_t tested(const uint32_t *table, int n, const element *point, int k, const element *scale) {
    return reference_unreduced(table, (size_t)1 << n) | unreduced(point, k) | unreduced(scale, 1);
}

/* The suffix fold, k at least 2: dot products against a block's table of eq. */
uint32_t reference_compress_suffix(const uint32_t *table, int n, const element *point, int k, const element *scale,
    element *out) {
    if (tested(table, n, point, k, scale)) {
        return 5;
    }
    int low = k < BLOCK ? k : BLOCK;
    element block[1 << BLOCK];
    fill(block, point + (k - low), low, *scale);
    for (size_t i = 0; i < (size_t)1 << (n - k); i++) {
        out[i] = part(table + (i << k), point, k - low, low, block);
    }
    return 0;
}

/* The value of a table at a point of n coordinates. */
uint32_t reference_eval_base(const uint32_t *table, int n, const element *point, element *out) {
    return reference_compress_suffix(table, n, point, n, &one, out);
}

/* out gains four rows of n words, each by its weight: one `%` a coordinate. */
static void gain_rows(element *restrict out, const uint32_t *restrict words, size_t n, const element *weights) {
    element w0 = weights[0], w1 = weights[1], w2 = weights[2], w3 = weights[3];
    for (size_t i = 0; i < n; i++) {
        uint64_t x0 = words[i], x1 = words[n + i], x2 = words[2 * n + i], x3 = words[3 * n + i];
        for (int k = 0; k < 4; k++) {
            out[i].c[k] = (uint32_t)((out[i].c[k] + w0.c[k] * x0 + w1.c[k] * x1 + w2.c[k] * x2 + w3.c[k] * x3) % P);
        }
    }
}

/* The prefix fold, k at least 3: the tables of both halves of the point in work,
   and four rows at a time. */
uint32_t reference_compress_prefix(const uint32_t *table, int n, const element *point, int k, const element *scale,
    element *work, element *out) {
    if (tested(table, n, point, k, scale)) {
        return 5;
    }
    size_t inner = (size_t)1 << (n - k), n1 = (size_t)1 << (k - k / 2);
    element *eq1 = work + ((size_t)1 << (k / 2));
    fill(work, point, k / 2, *scale);
    fill(eq1, point + k / 2, k - k / 2, one);
    memset(out, 0, inner * sizeof *out);
    for (size_t y = 0; y < (size_t)1 << k; y += 4) {
        element weights[4];
        for (size_t j = 0; j < 4; j++) {
            weights[j] = product(work[y / n1], eq1[y % n1 + j]);
        }
        gain_rows(out, table + y * inner, inner, weights);
    }
    return 0;
}

/* The sum of weights[i] entries[i]: the seven coefficients of the products are
   summed as halves of 32 bits, and divided once. */
static element dot_ext(const element *weights, const element *entries, size_t count) {
    uint64_t lo[7] = {0}, hi[7] = {0}, c[7];
    for (size_t i = 0; i < count; i++) {
        coefficients s = multiplied(weights[i], entries[i]);
        for (int k = 0; k < 7; k++) {
            lo[k] += (uint32_t)s.c[k];
            hi[k] += s.c[k] >> 32;
        }
    }
    for (int k = 0; k < 7; k++) {
        c[k] = (lo[k] + (hi[k] % P << 32)) % P;
    }
    element out = {{
        (uint32_t)((c[0] + FACTOR * c[4]) % P),
        (uint32_t)((c[1] + FACTOR * c[5]) % P),
        (uint32_t)((c[2] + FACTOR * c[6]) % P),
        (uint32_t)c[3],
    }};
    return out;
}

/* As `part`, of a table of elements. */
static element part_ext(const element *entries, const element *point, int high, int low, const element *block) {
    if (high == 0) {
        return dot_ext(block, entries, (size_t)1 << low);
    }
    element at0 = part_ext(entries, point + 1, high - 1, low, block);
    element at1 = part_ext(entries + ((size_t)1 << (high - 1 + low)), point + 1, high - 1, low, block);
    return plus(at0, product(minus(at1, at0), point[0]));
}

/* The value of a table of elements at a point of n coordinates. */
uint32_t reference_eval_ext(const element *table, int n, const element *point, element *out) {
    if (unreduced(table, 1 << n) | unreduced(point, n)) {
        return 5;
    }
    int low = n < BLOCK ? n : BLOCK;
    element block[1 << BLOCK];
    fill(block, point + (n - low), low, one);
    *out = part_ext(table, point, n - low, low, block);
    return 0;
}

/* a0 + (a1 - a0) r over the halves of a table of 2^n elements. */
uint32_t reference_fix_prefix(element *table, int n, const element *r) {
    if (unreduced(table, 1 << n) | unreduced(r, 1)) {
        return 5;
    }
    size_t half = (size_t)1 << (n - 1);
    multiplier m = ready(*r);
    for (size_t i = 0; i < half; i++) {
        table[i] = gained(m, table[i], minus(table[half + i], table[i]));
    }
    return 0;
}

/* a0 + a1 over the halves of a table of 2^n elements. */
uint32_t reference_sum_prefix(element *table, int n) {
    if (unreduced(table, 1 << n)) {
        return 5;
    }
    size_t half = (size_t)1 << (n - 1);
    for (size_t i = 0; i < half; i++) {
        table[i] = plus(table[i], table[half + i]);
    }
    return 0;
}

/* out gains given scale eq: both tables of the point in work, a factor a block
   of rows. */
uint32_t reference_accumulate(const element *point, int k, const element *scale, const element *given, element *work,
    element *out) {
    if (unreduced(out, 1 << k) | unreduced(point, k) | unreduced(scale, 1) | unreduced(given, 1)) {
        return 5;
    }
    size_t n0 = (size_t)1 << (k / 2), n1 = (size_t)1 << (k - k / 2);
    element *eq1 = work + n0;
    fill(work, point, k / 2, *scale);
    fill(eq1, point + k / 2, k - k / 2, one);
    for (size_t h = 0; h < n0; h++) {
        multiplier m = ready(product(*given, work[h]));
        for (size_t i = 0; i < n1; i++) {
            out[h * n1 + i] = gained(m, out[h * n1 + i], eq1[i]);
        }
    }
    return 0;
}
