/* The storage layer for bus software: recall from a saved file. */
#ifndef ZELDRUPT_H
#define ZELDRUPT_H

#include <stddef.h>
#include <stdint.h>

#ifdef __cplusplus
extern "C" {
#endif

/* What zeldrupt_recall answers. The tests are made in this order. */
enum zeldrupt_answer {
    ZELDRUPT_DONE = 0,
    ZELDRUPT_FILE_SHORT = 5,   /* the file has fewer than 8 bytes */
    ZELDRUPT_LETTER = 6,       /* its first byte is not 'B', 'T' or 'M' */
    ZELDRUPT_VERSION = 7,      /* its version is not 1 */
    ZELDRUPT_CELLS = 8,        /* it says 0 cells, or more than 4,096 */
    ZELDRUPT_COUNT = 9,        /* it says more than 65,535 records */
    ZELDRUPT_LENGTH = 10,      /* it is not as long as its count asks for */
    ZELDRUPT_AREA_SHORT = 11,  /* out is shorter than the kind's width */
    ZELDRUPT_NO_CELL = 13,     /* there is no such cell */
    ZELDRUPT_NO_MOMENT = 14,   /* the moment is above the count */
    ZELDRUPT_RECORD_CELL = 15, /* a record up to the moment is of no cell */
    ZELDRUPT_RECORD_NEXT = 16, /* a record of the cell has a wrong next */
    ZELDRUPT_RECORD_CHANGE = 17 /* a record of the cell holds no change */
};

/* How many bytes of out are written, by the file's first byte. */
#define ZELDRUPT_BLOCK_WIDTH 128   /* 'B' */
#define ZELDRUPT_TALLY_WIDTH 4     /* 'T' */
#define ZELDRUPT_BANK_MAP_WIDTH 16 /* 'M' */

/*
 * Writes the state that a cell had after the first `moment` records of a saved file to the front of out, and answers 0.
 * Any other answer is the number of a refusal, which leaves out as it was. Bytes of out beyond the width are untouched.
 *
 * The bytes of file and out may be anything, and so may cell and moment. The caller owes this:
 *   - file points to file_len bytes that can be read, and out to out_len bytes that can be written;
 *   - neither pointer is null, also where the length is 0;
 *   - the two do not overlap, and nothing else writes to them during the call.
 * It allocates nothing and keeps no pointer.
 */
uint32_t zeldrupt_recall(const uint8_t *file, size_t file_len, uint32_t cell, uint32_t moment, uint8_t *out, size_t out_len);

#ifdef __cplusplus
}
#endif

#endif
