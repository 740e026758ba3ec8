/* The kernels by hand with vectors of four words, each in the best form that was
   found: a limit for the proved code. As in reference.c every word that is read
   is tested, and the answer is 5 where one is not below p, else 0. What is
   refused is left as it was: words are tested when they are taken, where nothing
   is written before the last one or what was added can be taken back; else all
   are tested first. Beside SSE2 this takes SSE4.1 (-msse4.1), which the proved
   code's compiler makes use of too: pmovzxdq, pinsrd and pminud. */

#include <smmintrin.h>
#include <stddef.h>
#include <stdint.h>
#include <string.h>

#define P 2013265921u

/* The inverse of P modulo 2^32, and powers of 2 modulo P. */
#define INVERSE 2281701377u
#define POWER_32 268435454u
#define POWER_64 1172168163u
#define POWER_76 1574839984u

/* X^4. */
#define FACTOR 11u

/* Half of the numbers below 2^31; a word less this has a sign and 31 bits. */
#define MIDDLE (1u << 30)

/* The most variables, and those of a block. */
#define MOST 20
#define BLOCK 8

/* Four words, or two sums of 64 bits. An element is one, its words in order. */
typedef __m128i vector;

typedef struct {
    uint32_t c[4];
} element;

static inline vector all(uint32_t word) {
    return _mm_set1_epi32((int)word);
}

static inline vector load(const void *from) {
    return _mm_loadu_si128(from);
}

static inline void store(void *to, vector v) {
    _mm_storeu_si128(to, v);
}

/* Words below 2 P, below P. */
static inline vector reduced(vector v) {
    return _mm_min_epu32(v, _mm_sub_epi32(v, all(P)));
}

/* Words from -P on and below P, from 0 on. */
static inline vector raised(vector v) {
    return _mm_min_epu32(v, _mm_add_epi32(v, all(P)));
}

static inline vector plus(vector a, vector b) {
    return reduced(_mm_add_epi32(a, b));
}

static inline vector minus(vector a, vector b) {
    return raised(_mm_sub_epi32(a, b));
}

/* Words as numbers of least size: from -P / 2 to P / 2. */
static inline vector centred(vector v) {
    return _mm_sub_epi32(v, _mm_and_si128(_mm_cmpgt_epi32(v, all(P / 2)), all(P)));
}

/* The high words of a and of b. */
static inline vector highs(vector a, vector b) {
    return _mm_castps_si128(_mm_shuffle_ps(_mm_castsi128_ps(a), _mm_castsi128_ps(b), 0xdd));
}

/* What is to be taken from the high words, so that the low ones become 0. */
static inline vector taken(vector sums) {
    return _mm_mul_epu32(_mm_mul_epu32(sums, all(INVERSE)), all(P));
}

/* Sums of four products, by 2^32 modulo P: of the first two, of the last two. */
static inline vector lowered(vector first, vector last) {
    return minus(reduced(highs(first, last)), highs(taken(first), taken(last)));
}

/* The same of sums that may be negative, from -2 P^2 on. */
static inline vector lowered_signed(vector first, vector last) {
    return minus(raised(highs(first, last)), highs(taken(first), taken(last)));
}

/* Even words, odd words: as two sums each. */
static inline vector apart(vector v) {
    return _mm_srli_epi64(v, 32);
}

/* v times a number below P, by 2^32. */
static inline vector scaled(vector v, uint32_t by) {
    vector even = _mm_mul_epu32(v, all(by)), odd = _mm_mul_epu32(apart(v), all(by));
    vector low = _mm_unpacklo_epi64(even, odd), high = _mm_unpackhi_epi64(even, odd);
    return lowered(low, high);
}

/* A factor r, made ready for many products: the rows r, X r, X^2 r and X^3 r,
   times 2^32, by halves. */
typedef struct {
    vector first[4], last[4];
} factor;

static inline factor rows_of(vector r, vector t) {
    vector rows[4] = {r, _mm_alignr_epi8(r, t, 12), _mm_alignr_epi8(r, t, 8), _mm_alignr_epi8(r, t, 4)};
    factor f;
    for (int i = 0; i < 4; i++) {
        f.first[i] = _mm_unpacklo_epi32(rows[i], rows[i]);
        f.last[i] = _mm_unpackhi_epi32(rows[i], rows[i]);
    }
    return f;
}

static inline factor ready(vector r) {
    return rows_of(scaled(r, POWER_64), scaled(r, (uint32_t)((uint64_t)FACTOR * POWER_64 % P)));
}

static inline factor ready_signed(vector r) {
    vector high = scaled(r, POWER_64), more = scaled(r, (uint32_t)((uint64_t)FACTOR * POWER_64 % P));
    return rows_of(centred(high), centred(more));
}

/* An element with each word in every place. */
typedef struct {
    vector c[4];
} spread;

static inline spread spread_of(vector x) {
    spread s = {{
        _mm_shuffle_epi32(x, 0x00),
        _mm_shuffle_epi32(x, 0x55),
        _mm_shuffle_epi32(x, 0xaa),
        _mm_shuffle_epi32(x, 0xff),
    }};
    return s;
}

#define SUM(mul, x, rows) \
    _mm_add_epi64(_mm_add_epi64(mul((x)->c[0], (rows)[0]), mul((x)->c[1], (rows)[1])), \
        _mm_add_epi64(mul((x)->c[2], (rows)[2]), mul((x)->c[3], (rows)[3])))

/* x r. */
static inline vector times(const factor *r, const spread *x) {
    return lowered(SUM(_mm_mul_epu32, x, r->first), SUM(_mm_mul_epu32, x, r->last));
}

/* The same where r is centred and the words of x have signs. */
static inline vector times_signed(const factor *r, const spread *x) {
    return lowered_signed(SUM(_mm_mul_epi32, x, r->first), SUM(_mm_mul_epi32, x, r->last));
}

static inline vector product(vector a, vector b) {
    factor r = ready(b);
    spread x = spread_of(a);
    return times(&r, &x);
}

/* The greatest word of each place of a vector. */
static inline vector greatest(const uint32_t *words, size_t count, vector most) {
    vector m0 = most, m1 = most, m2 = most, m3 = most;
    size_t i = 0;
    for (; i + 16 <= count; i += 16) {
        m0 = _mm_max_epu32(m0, load(words + i));
        m1 = _mm_max_epu32(m1, load(words + i + 4));
        m2 = _mm_max_epu32(m2, load(words + i + 8));
        m3 = _mm_max_epu32(m3, load(words + i + 12));
    }
    for (; i + 4 <= count; i += 4) {
        m0 = _mm_max_epu32(m0, load(words + i));
    }
    return _mm_max_epu32(_mm_max_epu32(m0, m1), _mm_max_epu32(m2, m3));
}

static inline uint32_t refused(vector most) {
    vector below = _mm_cmpeq_epi32(_mm_min_epu32(most, all(P - 1)), most);
    return _mm_movemask_epi8(below) == 0xffff ? 0 : 5;
}

/* The test of words, of a multiple of four. */
uint32_t limit_unreduced(const uint32_t *words, size_t count) {
    return refused(greatest(words, count, _mm_setzero_si128()));
}

/* The table of scale eq of k coordinates, doubled by one after another. */
static void doubled(element *out, const element *point, int k, vector scale) {
    store(out, scale);
    for (int j = 0; j < k; j++) {
        size_t n = (size_t)1 << j;
        factor r = ready(load(point + k - 1 - j));
        for (size_t i = 0; i < n; i++) {
            vector old = load(out + i);
            spread x = spread_of(old);
            vector high = times(&r, &x);
            store(out + n + i, high);
            store(out + i, minus(old, high));
        }
    }
}

/* The table of eq of the last coordinates, each element spread. */
static void spread_block(spread *block, const element *point, int k) {
    element eq[1 << BLOCK];
    doubled(eq, point, k, _mm_set_epi32(0, 0, 0, 1));
    for (int i = 0; i < 1 << k; i++) {
        block[i] = spread_of(load(eq + i));
    }
}

/* From this many coordinates on a table is made of two, and how many of them the
   spread table has. */
#define TWO 10

static int spread_coordinates(int k) {
    return k / 2 + 1 < BLOCK ? k / 2 + 1 : BLOCK;
}

/* The table of scale eq: that of the first coordinates, each element times the
   spread table of the last ones. It stands at the end of out, where each element
   is read before it is written. A product has its coordinates side by side: with
   four elements side by side it takes 1.07 of the time, by doubling 1.3. */
uint32_t limit_new_from_point(const element *point, int k, const element *scale, element *out) {
    if (limit_unreduced(point->c, 4 * (size_t)k) | limit_unreduced(scale->c, 4)) {
        return 5;
    }
    if (k < TWO) {
        doubled(out, point, k, load(scale));
        return 0;
    }
    int low = spread_coordinates(k);
    size_t high = (size_t)1 << (k - low), each = (size_t)1 << low;
    element *eq = out + (high << low) - high;
    spread block[1 << BLOCK];
    spread_block(block, point + k - low, low);
    doubled(eq, point, k - low, load(scale));
    for (size_t h = 0; h < high; h++) {
        factor r = ready(load(eq + h));
        for (size_t i = 0; i < each; i++) {
            store(out + h * each + i, times(&r, block + i));
        }
    }
    return 0;
}

/* Sums of products of numbers with signs: a word less MIDDLE, and a weight that
   is centred. Eight fit 64 bits. Beside all of them, which may wrap, their parts
   from bit 44 on are summed, in the high words. */
typedef struct {
    vector all, high;
} sum;

#define CUT 44

static inline void gain(sum *s, vector eight) {
    s->all = _mm_add_epi64(s->all, eight);
    s->high = _mm_add_epi32(s->high, _mm_srai_epi32(eight, CUT - 32));
}

/* Words, each with a sign. */
static inline vector signed_words(const uint32_t *words) {
    return _mm_add_epi32(load(words), all(-MIDDLE));
}

/* What a sum is modulo P, times 2^32 and not negative, and `more`. Its high parts
   make less than 2^27, with a sign, and what stands below them less than 2^52. */
static inline vector unwrapped(sum s, vector more) {
    vector high = apart(s.high), low = _mm_sub_epi64(s.all, _mm_slli_epi64(high, CUT));
    vector n = _mm_add_epi64(_mm_mul_epi32(high, all(POWER_76)), _mm_mul_epu32(apart(low), all(POWER_64)));
    return _mm_add_epi64(n, _mm_add_epi64(_mm_mul_epu32(low, all(POWER_32)), more));
}

/* What the words less MIDDLE lack: MIDDLE times the sum of their weights, times
   2^32, and a multiple of P that makes up for a negative sum. */
static inline uint64_t lacking(int64_t weights) {
    uint64_t least = (uint64_t)(weights % (int64_t)P + (int64_t)P) % P;
    return ((uint64_t)P << 28) + least * MIDDLE % P * POWER_32 % P;
}

/* A block's weights for sums over vectors of words: for each vector and each of
   four sums a pair of weights for the even words and a pair for the odd ones. */
#define PAIRS 8

typedef struct {
    vector pairs[PAIRS << (BLOCK - 2)];
    vector lacks[2];
    size_t vectors;
} weights;

/* The weight of each word of a vector for one of the four sums. */
static inline void set_pairs(weights *w, size_t v, int k, vector four, int64_t *total) {
    int32_t c[4];
    four = centred(four);
    store(c, four);
    *total += (int64_t)c[0] + c[1] + c[2] + c[3];
    w->pairs[PAIRS * v + 2 * k] = four;
    w->pairs[PAIRS * v + 2 * k + 1] = apart(four);
}

static inline void set_lacks(weights *w, const int64_t *total) {
    w->lacks[0] = _mm_set_epi64x((int64_t)lacking(total[1]), (int64_t)lacking(total[0]));
    w->lacks[1] = _mm_set_epi64x((int64_t)lacking(total[3]), (int64_t)lacking(total[2]));
}

/* Four elements: their words c[0], c[1], c[2] and c[3]; or back. */
static inline void turn(const vector *in, vector *out) {
    vector a = _mm_unpacklo_epi32(in[0], in[1]), b = _mm_unpackhi_epi32(in[0], in[1]);
    vector c = _mm_unpacklo_epi32(in[2], in[3]), d = _mm_unpackhi_epi32(in[2], in[3]);
    out[0] = _mm_unpacklo_epi64(a, c);
    out[1] = _mm_unpackhi_epi64(a, c);
    out[2] = _mm_unpacklo_epi64(b, d);
    out[3] = _mm_unpackhi_epi64(b, d);
}

/* For words: four of them are a vector, each with an element for its weight. */
static void of_words(weights *w, const element *eq, size_t count) {
    int64_t total[4] = {0};
    w->vectors = count / 4;
    for (size_t v = 0; v < w->vectors; v++) {
        vector four[4] = {load(eq + 4 * v), load(eq + 4 * v + 1), load(eq + 4 * v + 2), load(eq + 4 * v + 3)};
        turn(four, four);
        for (int k = 0; k < 4; k++) {
            set_pairs(w, v, k, four[k], total + k);
        }
    }
    set_lacks(w, total);
}

/* For elements: each is a vector. What of a product stands at c[k] is a sum over
   the words of one element, by the words of the other backwards. */
static void of_elements(weights *w, const element *eq, size_t count) {
    int64_t total[4] = {0};
    w->vectors = count;
    for (size_t v = 0; v < count; v++) {
        uint32_t line[8];
        for (int k = 0; k < 4; k++) {
            line[k] = (uint32_t)((uint64_t)FACTOR * eq[v].c[k] % P);
            line[4 + k] = eq[v].c[k];
        }
        for (int k = 0; k < 4; k++) {
            vector backwards = _mm_shuffle_epi32(load(line + 1 + k), 0x1b);
            set_pairs(w, v, k, backwards, total + k);
        }
    }
    set_lacks(w, total);
}

/* The element of four sums over a block's vectors, a multiple of four. */
static inline vector summed(const weights *w, const uint32_t *words) {
    sum s[4];
    memset(s, 0, sizeof s);
    for (size_t v = 0; v < w->vectors; v += 4) {
        vector eight[4] = {_mm_setzero_si128(), _mm_setzero_si128(), _mm_setzero_si128(), _mm_setzero_si128()};
        for (int t = 0; t < 4; t++) {
            vector even = signed_words(words + 4 * (v + t)), odd = apart(even);
            for (int k = 0; k < 4; k++) {
                const vector *pair = w->pairs + PAIRS * (v + t) + 2 * k;
                vector two = _mm_add_epi64(_mm_mul_epi32(even, pair[0]), _mm_mul_epi32(odd, pair[1]));
                eight[k] = _mm_add_epi64(eight[k], two);
            }
        }
        for (int k = 0; k < 4; k++) {
            gain(s + k, eight[k]);
        }
    }
    vector both[2];
    for (int k = 0; k < 2; k++) {
        sum a = s[2 * k], b = s[2 * k + 1], c;
        c.all = _mm_add_epi64(_mm_unpacklo_epi64(a.all, b.all), _mm_unpackhi_epi64(a.all, b.all));
        c.high = _mm_add_epi32(_mm_unpacklo_epi64(a.high, b.high), _mm_unpackhi_epi64(a.high, b.high));
        both[k] = unwrapped(c, w->lacks[k]);
    }
    return lowered(both[0], both[1]);
}

/* How a point's coordinates, four or more, are taken from the last on: up to
   eight by sums over words, then up to six at a time by sums over elements, and
   never one alone. */
#define STEPS 3

typedef struct {
    weights w[STEPS];
    int k[STEPS], count;
} steps;

static int share(int k, int most) {
    int taken = k < most ? k : most;
    return k - taken == 1 ? taken - 1 : taken;
}

static void plan(steps *s, const element *point, int k, vector scale) {
    element eq[1 << BLOCK];
    for (s->count = 0; k > 0; s->count++) {
        int i = s->count, taken = share(k, i == 0 ? BLOCK : BLOCK - 2);
        k -= taken;
        s->k[i] = taken;
        doubled(eq, point + k, taken, i == 0 ? scale : _mm_set_epi32(0, 0, 0, 1));
        (i == 0 ? of_words : of_elements)(s->w + i, eq, (size_t)1 << taken);
    }
}

/* The value of 2^k words, where `most` gains the greatest of them. */
static inline vector value(const steps *s, const uint32_t *words, int k, vector *most) {
    element made[1 << (MOST - BLOCK)];
    size_t count = (size_t)1 << (k - s->k[0]), block = (size_t)1 << s->k[0];
    for (size_t h = 0; h < count; h++) {
        *most = greatest(words + h * block, block, *most);
        store(made + h, summed(s->w, words + h * block));
    }
    for (int i = 1; i < s->count; i++) {
        count >>= s->k[i];
        for (size_t h = 0; h < count; h++) {
            store(made + h, summed(s->w + i, made[h << s->k[i]].c));
        }
    }
    return load(made);
}

/* The most elements that are kept until every word was tested. */
#define KEPT 1024

/* The suffix fold, k at least 4. Where out is small, words are tested when they
   are taken. */
static uint32_t by_places(const uint32_t *table, int n, const element *point, int k, const element *scale,
    element *out) {
    element kept[KEPT];
    size_t places = (size_t)1 << (n - k);
    vector most = _mm_max_epu32(greatest(point->c, 4 * (size_t)k, _mm_setzero_si128()), load(scale));
    if (places > KEPT) {
        most = greatest(table, places << k, most);
    }
    if (refused(most)) {
        return 5;
    }
    element *to = places > KEPT ? out : kept;
    steps s;
    plan(&s, point, k, load(scale));
    for (size_t i = 0; i < places; i++) {
        store(to + i, value(&s, table + (i << k), k, &most));
    }
    if (refused(most)) {
        return 5;
    }
    if (to == kept) {
        memcpy(out, kept, places * sizeof *out);
    }
    return 0;
}

/* The value of a table at a point of n coordinates. */
uint32_t limit_eval_base(const uint32_t *table, int n, const element *point, element *out) {
    static const element one = {{1, 0, 0, 0}};
    return by_places(table, n, point, n, &one, out);
}

/* The value of a table of elements: as above, but for the words. n is at least 2. */
uint32_t limit_eval_ext(const element *table, int n, const element *point, element *out) {
    element made[1 << (MOST - BLOCK + 2)], eq[1 << BLOCK];
    vector most = greatest(point->c, 4 * (size_t)n, _mm_setzero_si128());
    if (refused(most)) {
        return 5;
    }
    weights w;
    const element *from = table;
    for (int k = n; k > 0; from = made) {
        int taken = share(k, BLOCK - 2);
        size_t block = (size_t)1 << taken;
        k -= taken;
        doubled(eq, point + k, taken, _mm_set_epi32(0, 0, 0, 1));
        of_elements(&w, eq, block);
        for (size_t h = 0; h < (size_t)1 << k; h++) {
            const uint32_t *words = from[h * block].c;
            most = greatest(words, 4 * block, most);
            store(made + h, summed(&w, words));
        }
    }
    if (refused(most)) {
        return 5;
    }
    store(out, load(made));
    return 0;
}

/* Eight rows at a time over so many places, in sums that stay at hand: for four
   places those of each coordinate, of the even places and of the odd ones. */
#define ROWS 8
#define PLACES 256

static inline void gain_rows(sum *sums, const uint32_t *words, size_t row, size_t places, const element *eq,
    vector *most) {
    vector w[ROWS][4], greatest = *most;
    for (int r = 0; r < ROWS; r++) {
        spread each = spread_of(load(eq + r));
        memcpy(w[r], each.c, sizeof each);
    }
    for (size_t i = 0; i < places; i += 4) {
        vector even[4], odd[4];
        for (int r = 0; r < ROWS; r++) {
            vector four = load(words + row * r + i);
            greatest = _mm_max_epu32(greatest, four);
            vector x = _mm_add_epi32(four, all(-MIDDLE)), y = apart(x);
            for (int k = 0; k < 4; k++) {
                vector a = _mm_mul_epi32(x, w[r][k]), b = _mm_mul_epi32(y, w[r][k]);
                even[k] = r == 0 ? a : _mm_add_epi64(even[k], a);
                odd[k] = r == 0 ? b : _mm_add_epi64(odd[k], b);
            }
        }
        for (int k = 0; k < 4; k++) {
            gain(sums + 2 * i + 2 * k, even[k]);
            gain(sums + 2 * i + 2 * k + 1, odd[k]);
        }
    }
    *most = greatest;
}

/* The elements of the sums, with what the words lack. */
static inline void settle(element *out, const sum *sums, size_t places, const uint64_t *lacks) {
    for (size_t i = 0; i < places; i += 4) {
        vector four[4];
        for (int k = 0; k < 4; k++) {
            vector more = _mm_set1_epi64x((int64_t)lacks[k]);
            vector even = unwrapped(sums[2 * i + 2 * k], more), odd = unwrapped(sums[2 * i + 2 * k + 1], more);
            four[k] = lowered(_mm_unpacklo_epi64(even, odd), _mm_unpackhi_epi64(even, odd));
        }
        turn(four, four);
        for (int k = 0; k < 4; k++) {
            store(out + i + k, four[k]);
        }
    }
}

/* The weights of the rows, centred, and what words less MIDDLE lack. */
static void weigh_rows(element *eq, const element *point, int k, vector scale, uint64_t *lacks) {
    int64_t total[4] = {0};
    doubled(eq, point, k, scale);
    for (size_t y = 0; y < (size_t)1 << k; y++) {
        store(eq + y, centred(load(eq + y)));
        for (int j = 0; j < 4; j++) {
            total[j] += (int32_t)eq[y].c[j];
        }
    }
    for (int j = 0; j < 4; j++) {
        lacks[j] = lacking(total[j]);
    }
}

/* The most coordinates of a fold by rows: the parts of a sum have room for 2^11
   rows. */
#define MOST_ROWS 11

/* The prefix fold, k from 3 to 11 and at least four places. */
static uint32_t by_rows(const uint32_t *table, int n, const element *point, int k, const element *scale, element *out) {
    element kept[KEPT], eq[1 << MOST_ROWS];
    size_t places = (size_t)1 << (n - k), rows = (size_t)1 << k;
    vector most = _mm_max_epu32(greatest(point->c, 4 * (size_t)k, _mm_setzero_si128()), load(scale));
    if (places > KEPT) {
        most = greatest(table, places << k, most);
    }
    if (refused(most)) {
        return 5;
    }
    element *to = places > KEPT ? out : kept;
    uint64_t lacks[4];
    weigh_rows(eq, point, k, load(scale), lacks);
    for (size_t from = 0; from < places; from += PLACES) {
        size_t count = places - from < PLACES ? places - from : PLACES;
        sum sums[2 * PLACES];
        memset(sums, 0, 2 * count * sizeof *sums);
        for (size_t y = 0; y < rows; y += ROWS) {
            gain_rows(sums, table + y * places + from, places, count, eq + y, &most);
        }
        settle(to + from, sums, count, lacks);
    }
    if (refused(most)) {
        return 5;
    }
    if (to == kept) {
        memcpy(out, kept, places * sizeof *out);
    }
    return 0;
}

/* Two weights, made ready: times 2^32, by halves. */
typedef struct {
    vector first[2], last[2];
} two;

static two ready_two(const element *point, vector scale) {
    element eq[2];
    two w;
    doubled(eq, point, 1, scale);
    for (int y = 0; y < 2; y++) {
        vector raised = scaled(load(eq + y), POWER_64);
        w.first[y] = _mm_unpacklo_epi32(raised, raised);
        w.last[y] = _mm_unpackhi_epi32(raised, raised);
    }
    return w;
}

/* Two words of a place by their weights: the sums are below 2^32 P. */
static inline vector joined(const two *w, vector x, vector y) {
    vector first = _mm_add_epi64(_mm_mul_epu32(x, w->first[0]), _mm_mul_epu32(y, w->first[1]));
    vector last = _mm_add_epi64(_mm_mul_epu32(x, w->last[0]), _mm_mul_epu32(y, w->last[1]));
    return minus(highs(first, last), highs(taken(first), taken(last)));
}

static uint32_t tested_words(const uint32_t *table, int n, const element *point, const element *scale) {
    return refused(greatest(table, (size_t)1 << n, _mm_max_epu32(load(point), load(scale))));
}

/* The prefix fold by one coordinate, of at least four places. */
static uint32_t join_rows(const uint32_t *table, int n, const element *point, const element *scale, element *out) {
    if (tested_words(table, n, point, scale)) {
        return 5;
    }
    size_t places = (size_t)1 << (n - 1);
    two w = ready_two(point, load(scale));
    for (size_t i = 0; i < places; i += 4) {
        spread x = spread_of(load(table + i)), y = spread_of(load(table + places + i));
        for (int j = 0; j < 4; j++) {
            store(out + i + j, joined(&w, x.c[j], y.c[j]));
        }
    }
    return 0;
}

/* The suffix fold by one coordinate, of at least two places. */
static uint32_t join_neighbours(const uint32_t *table, int n, const element *point, const element *scale,
    element *out) {
    if (tested_words(table, n, point, scale)) {
        return 5;
    }
    two w = ready_two(point, load(scale));
    for (size_t i = 0; i < (size_t)1 << (n - 1); i += 2) {
        spread x = spread_of(load(table + 2 * i));
        store(out + i, joined(&w, x.c[0], x.c[1]));
        store(out + i + 1, joined(&w, x.c[2], x.c[3]));
    }
    return 0;
}

/* The folds: by one coordinate, or by the bounds that stand at by_rows and by_places. */
uint32_t limit_compress_prefix(const uint32_t *table, int n, const element *point, int k, const element *scale,
    element *out) {
    return k == 1 ? join_rows(table, n, point, scale, out) : by_rows(table, n, point, k, scale, out);
}

uint32_t limit_compress_suffix(const uint32_t *table, int n, const element *point, int k, const element *scale,
    element *out) {
    return k == 1 ? join_neighbours(table, n, point, scale, out) : by_places(table, n, point, k, scale, out);
}

/* a0 + (a1 - a0) r, where r is centred. */
static inline vector line(const factor *r, vector a0, vector a1) {
    spread x = spread_of(_mm_sub_epi32(a1, a0));
    return plus(a0, times_signed(r, &x));
}

static uint32_t tested(const element *table, int n, const element *more) {
    return refused(_mm_max_epu32(greatest(table->c, (size_t)4 << n, _mm_setzero_si128()), load(more)));
}

/* A variable of a table of 2^n elements is fixed in place, the first one or the
   last one. All words are tested first: what was there cannot be had back, or by
   a division by 1 - r alone. */
uint32_t limit_fix_prefix(element *table, int n, const element *r) {
    if (tested(table, n, r)) {
        return 5;
    }
    size_t half = (size_t)1 << (n - 1);
    factor f = ready_signed(load(r));
    for (size_t i = 0; i < half; i++) {
        store(table + i, line(&f, load(table + i), load(table + half + i)));
    }
    return 0;
}

uint32_t limit_fix_suffix(element *table, int n, const element *r) {
    if (tested(table, n, r)) {
        return 5;
    }
    size_t half = (size_t)1 << (n - 1);
    factor f = ready_signed(load(r));
    for (size_t i = 0; i < half; i++) {
        store(table + i, line(&f, load(table + 2 * i), load(table + 2 * i + 1)));
    }
    return 0;
}

/* The entries of a part, which is tested just before it is changed. Where one is
   refused, what was added before is taken back. */
#define PART 128

static inline size_t part_of(size_t half) {
    return half < PART ? half : PART;
}

static inline int refused_part(const element *table, size_t half, size_t from, size_t part) {
    vector most = greatest(table[from].c, 4 * part, _mm_setzero_si128());
    return refused(greatest(table[half + from].c, 4 * part, most));
}

/* a0 + a1 over the halves. */
uint32_t limit_sum_prefix(element *table, int n) {
    size_t half = (size_t)1 << (n - 1), part = part_of(half);
    element *second = table + half;
    for (size_t from = 0; from < half; from += part) {
        if (refused_part(table, half, from, part)) {
            for (size_t i = 0; i < from; i++) {
                store(table + i, minus(load(table + i), load(second + i)));
            }
            return 5;
        }
        for (size_t i = from; i < from + part; i++) {
            store(table + i, plus(load(table + i), load(second + i)));
        }
    }
    return 0;
}

/* Entries from..to gain r times those of the second half. */
static void gain_times(element *table, size_t half, size_t from, size_t to, const factor *r) {
    for (size_t i = from; i < to; i++) {
        spread x = spread_of(load(table + half + i));
        store(table + i, plus(load(table + i), times(r, &x)));
    }
}

/* a0 + a1 r over the halves. */
uint32_t limit_fix_monomial(element *table, int n, const element *r) {
    if (limit_unreduced(r->c, 4)) {
        return 5;
    }
    size_t half = (size_t)1 << (n - 1), part = part_of(half);
    factor f = ready(load(r));
    for (size_t from = 0; from < half; from += part) {
        if (refused_part(table, half, from, part)) {
            factor back = ready(minus(_mm_setzero_si128(), load(r)));
            gain_times(table, half, 0, from, &back);
            return 5;
        }
        gain_times(table, half, from, from + part, &f);
    }
    return 0;
}

/* So many blocks of out gain those of the spread table, each times its element
   of eq: all of them, or the first ones before a word that is not below P. */
static size_t gain_blocks(element *out, const element *eq, size_t blocks, const spread *block, size_t each) {
    for (size_t h = 0; h < blocks; h++) {
        element *to = out + h * each;
        if (refused(greatest(to->c, 4 * each, _mm_setzero_si128()))) {
            return h;
        }
        factor r = ready(load(eq + h));
        for (size_t i = 0; i < each; i++) {
            store(to + i, plus(load(to + i), times(&r, block + i)));
        }
    }
    return blocks;
}

/* out gains given scale eq. */
uint32_t limit_accumulate(const element *point, int k, const element *scale, const element *given, element *out) {
    vector most = greatest(point->c, 4 * (size_t)k, _mm_setzero_si128());
    if (refused(_mm_max_epu32(most, _mm_max_epu32(load(scale), load(given))))) {
        return 5;
    }
    int low = spread_coordinates(k);
    size_t blocks = (size_t)1 << (k - low), each = (size_t)1 << low;
    spread block[1 << BLOCK];
    element eq[1 << (MOST - BLOCK)];
    spread_block(block, point + k - low, low);
    doubled(eq, point, k - low, product(load(scale), load(given)));
    size_t gained = gain_blocks(out, eq, blocks, block, each);
    if (gained == blocks) {
        return 0;
    }
    for (size_t h = 0; h < gained; h++) {
        store(eq + h, minus(_mm_setzero_si128(), load(eq + h)));
    }
    gain_blocks(out, eq, gained, block, each);
    return 5;
}
