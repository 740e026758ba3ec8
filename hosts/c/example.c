/* Folds eight review hours, row 4 before row 3, and shows a refusal. */

#include <stdio.h>
#include <string.h>

#include "ward.h"

#define N 3
#define ROWS 8

static const uint32_t hours[ROWS] = {100, 124, 124, 172, 148, 196, 220, 244};

static uint8_t table[WARD_WORD_BYTES * ROWS];
static uint8_t work[WARD_WORK_BYTES(N)];
static uint8_t out[WARD_OUT_BYTES(N, N)];

static void put_word(uint8_t *bytes, uint32_t word) {
    int i;
    for (i = 0; i < 4; i++) {
        bytes[i] = (uint8_t)(word >> 8 * i);
    }
}

static uint32_t get_word(const uint8_t *bytes) {
    return bytes[0] | (uint32_t)bytes[1] << 8 | (uint32_t)bytes[2] << 16 | (uint32_t)bytes[3] << 24;
}

/* The fold at a point of three plain numbers: all variables, so one element. */
static uint32_t fold_at(const uint32_t numbers[N]) {
    uint8_t point[WARD_ELEMENT_BYTES * N] = {0};
    int i;
    for (i = 0; i < N; i++) {
        put_word(point + WARD_ELEMENT_BYTES * i, numbers[i]);
    }
    return ward_compress_prefix_shifted(table, sizeof table, point, sizeof point, 1, 0, 0, 0, work, sizeof work, out,
        sizeof out);
}

int main(void) {
    const uint32_t other[N] = {2, 3, 5};
    uint8_t before[sizeof out];
    uint32_t row, answer;

    for (row = 0; row < ROWS; row++) {
        put_word(table + WARD_WORD_BYTES * row, hours[row]);
    }

    /* At coordinates 0 and 1 the fold is a single hour: that of the row after. */
    for (row = 0; row + 1 < ROWS; row++) {
        const uint32_t bits[N] = {row >> 2 & 1, row >> 1 & 1, row & 1};
        if (fold_at(bits) != WARD_ACCEPTED) {
            return 1;
        }
        printf("row %u: %u, next %u%s\n", (unsigned)row, (unsigned)hours[row], (unsigned)get_word(out),
            get_word(out) < hours[row] ? ", out of order" : "");
    }

    /* At other points it weighs all rows at once. */
    if (fold_at(other) != WARD_ACCEPTED) {
        return 1;
    }
    printf("at (2, 3, 5): %u\n", (unsigned)get_word(out));

    /* A word must be below the modulus. A refused call changes nothing. */
    put_word(table, WARD_MODULUS);
    memcpy(before, out, sizeof out);
    answer = fold_at(other);
    printf("a word that is not below p: refused %u, out %s\n", (unsigned)answer,
        memcmp(before, out, sizeof out) == 0 ? "as it was" : "altered");
    return 0;
}
