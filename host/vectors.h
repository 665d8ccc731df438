/* The test vectors. A line's first number is its kind; vectors.c says what a line of each kind asks. */
#ifndef VECTORS_H
#define VECTORS_H

#include "sheets.h"

enum vector_kind {
    KIND_ENDPLATE = 1, KIND_BLIND_FLANGE = 2, KIND_SHEET = 3, KIND_DESIGN_STRESS = 4, KIND_QUOTIENT = 5, KIND_ROOT = 6,
    KIND_ROOT_OVER = 7, KIND_ENDPLATE_STANDARD = 8, KIND_BLIND_FLANGE_STANDARD = 9, KIND_SMALLEST_SERVING = 10,
    KIND_BOOK = 11, KIND_SUMMARY = 12, KIND_BLIND_FLANGE_BOLTS = 13, KIND_SUPPORT_PLATE = 14, KINDS
};

/* What cases has room for. */
#define VECTOR_LINE 65536    /* bytes of a line with its LF */
#define VECTOR_NUMBERS 1023  /* on a line, its kind among them */
#define VECTOR_ROOM 160      /* bytes of a sheet's largest space, */
#define VECTOR_BOOK_ROOM 512 /* and of a book's or a summary's */

#define VECTOR_TEXT 512 /* bytes of a sheet that `vectors make` writes, so that lines can be read */

/* Bytes of a sheet or a book that a line cannot hold, LF, CR, NUL and 255, and the signs that stand for them. */
#define VECTOR_SIGNS 4
extern const char vector_bytes[VECTOR_SIGNS];
extern const char vector_signs[VECTOR_SIGNS];

/* The bytes that a text's signs stand for. Returns how many. */
size_t decode_signs(const char *signs, uint8_t text[VECTOR_LINE]);

void make_vectors(void);

#endif
