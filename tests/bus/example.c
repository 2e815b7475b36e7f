/* Recalls both cells of a small tally file at each moment. */
#include <stdio.h>
#include "zeldrupt.h"

/* two cells, two records: cell 0 goes from 0 to 5, cell 1 from 0 to -2 */
static const uint8_t FILE_BYTES[28] = {
    'T', 1, 2, 0, 2, 0, 0, 0,
    0, 0, 0, 0, 0, 0, 5, 0, 0, 0,
    0, 0, 0, 0, 1, 0, 0xFE, 0xFF, 0xFF, 0xFF,
};

static int32_t tally(const uint8_t *b) {
    return (int32_t)(b[0] | (uint32_t)b[1] << 8 | (uint32_t)b[2] << 16 | (uint32_t)b[3] << 24);
}

int main(void) {
    for (uint32_t moment = 0; moment <= 3; moment++) {
        for (uint32_t cell = 0; cell < 2; cell++) {
            uint8_t out[ZELDRUPT_TALLY_WIDTH];
            uint32_t answer = zeldrupt_recall(FILE_BYTES, sizeof FILE_BYTES, cell, moment, out, sizeof out);
            if (answer == ZELDRUPT_DONE) {
                printf("cell %u at moment %u: %d\n", (unsigned)cell, (unsigned)moment, (int)tally(out));
            } else {
                printf("cell %u at moment %u: refused, %u\n", (unsigned)cell, (unsigned)moment, (unsigned)answer);
            }
        }
    }
    return 0;
}
