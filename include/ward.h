/* The ward app's calls: equality and successors at a point, and shifted folds
   of a table at a point. Link with libward.a (`tools/archive ward`, x86-64).

   Words and elements. A word is a number below p = 2013265921 and stands in
   four bytes, lowest first. An element is four words c0, c1, c2, c3, sixteen
   bytes, and means c0 + c1 X + c2 X^2 + c3 X^3 with X^4 = 11. A plain number a
   is the element (a, 0, 0, 0). No alignment is asked.

   Points and tables. A point is k elements, its coordinates, k from 0 to 20;
   coordinate 0 goes with the highest bit of a row number. eq[y] is the product
   over the bits of y: the coordinate for a 1, one minus the coordinate for a 0.
   A table is 2^n words, n from 0 to 20.

   Slices. Each is a pointer and then its length in bytes. For an empty slice
   pass any pointer that is not NULL, and 0. `out` and `work` may not overlap
   each other or anything that is read. Their old contents are not read.

   Answers. 0, or the number of the first refusal that applies, in the order
   that stands at the call. A refused call changes nothing.

   The calls use no heap and no global state. On x86-64 a fold takes at most
   81,920 bytes of stack, eval_next 1,240 and the vertex 776. They can run on
   several threads at once, as long as none writes what another reads or
   writes. */

#ifndef WARD_H
#define WARD_H

#include <stddef.h>
#include <stdint.h>

#ifdef __cplusplus
extern "C" {
#endif

/* What a call can answer. */
enum ward_answer {
    WARD_ACCEPTED = 0,
    WARD_SPLIT = 1,     /* a byte count splits a word or an element */
    WARD_NOT_POWER = 2, /* the table's words are no power of two, or none */
    WARD_TOO_MANY = 3,  /* over 20 variables or coordinates */
    WARD_LENGTHS = 4,   /* lengths disagree */
    WARD_UNREDUCED = 5, /* a word that is read is not below p */
    WARD_NO_VERTEX = 7  /* there is no such row */
};

#define WARD_MODULUS 2013265921u
#define WARD_WORD_BYTES 4u
#define WARD_ELEMENT_BYTES 16u

/* The bytes of a fold's work buffer for k coordinates: 2^floor(k/2) elements,
   and then 2^(k - floor(k/2)). */
#define WARD_WORK_BYTES(k) \
    ((size_t)16 * (((size_t)1 << ((k) / 2)) + ((size_t)1 << ((k) - (k) / 2))))

/* The bytes of a fold's out: 2^(n-k) elements. */
#define WARD_OUT_BYTES(n, k) ((size_t)16 << ((n) - (k)))

/* out becomes eq[vertex].

   out      one element
   refused  1 point or out splits an element, 3 over 20 coordinates, 4 out is
            not one element, 5 point, 7 vertex is at or above 2^k */
uint32_t ward_equality_at_vertex(const uint8_t *point, size_t point_len, uint64_t vertex, uint8_t *out, size_t out_len);

/* out becomes carry, done and omega of two points with as many coordinates. The
   point's table of successors, its last row following itself, has the value
   done + omega at other.

   out      three elements
   refused  1 point, other or out splits an element, 3 over 20 coordinates in
            either, 4 their counts differ or out is not three elements, 5 point
            or other */
uint32_t ward_eval_next(const uint8_t *point, size_t point_len, const uint8_t *other, size_t other_len, uint8_t *out, size_t out_len);

/* out's place i becomes the sum over the 2^k rows y of weight y times the word
   of place i of row y. Weight 0 is 0, weight y is scale * eq[y-1]: each row is
   weighed as the successor of the row before. There are 2^(n-k) places; on the
   prefix side place i of row y is word y * 2^(n-k) + i.

   table    2^n words
   scale    the words c0 to c3 of one element, as numbers
   work     WARD_WORK_BYTES(k); becomes scale * eq of the first floor(k/2)
            coordinates, and then eq of the others
   out      WARD_OUT_BYTES(n, k)
   refused  1 table splits a word, or point, work or out an element, 2 table's
            words are no power of two, 3 n or k is over 20, 4 k is above n, or
            work or out has another length, 5 table, point or scale */
uint32_t ward_compress_prefix_shifted(const uint8_t *table, size_t table_len, const uint8_t *point, size_t point_len,
    uint32_t scale0, uint32_t scale1, uint32_t scale2, uint32_t scale3,
    uint8_t *work, size_t work_len, uint8_t *out, size_t out_len);

/* The same, on the suffix side: place i of row y is word i * 2^k + y. */
uint32_t ward_compress_suffix_shifted(const uint8_t *table, size_t table_len, const uint8_t *point, size_t point_len,
    uint32_t scale0, uint32_t scale1, uint32_t scale2, uint32_t scale3,
    uint8_t *work, size_t work_len, uint8_t *out, size_t out_len);

#ifdef __cplusplus
}
#endif

#endif
