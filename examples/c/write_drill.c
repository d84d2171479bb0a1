/* Writes document 01's whole drill through the C interface, to standard output: write_drill >DRILL */
#include <inttypes.h>
#include <stdio.h>

#include "rongdhesi.h"

/* An array and its length, as the functions take a lent table. */
#define LENT(table) table, sizeof table / sizeof table[0]

/* Three cells in a row, all moves between them open at cost 1. */
static const uint8_t plan[] = {255, 1, 255, 255, 255, 1, 255, 1, 255, 255, 255, 1};

/* Five bytes for each action: kind (1 change, 2 hunter, 3 target, 4 search), cell, low byte first, direction, cost. */
static const uint8_t actions[] = {
    4, 0, 0, 0, 0,                           /* search */
    1, 1, 0, RONGDHESI_EAST, RONGDHESI_SHUT, /* the move from cell 1 east shuts */
    4, 0, 0, 0, 0,                           /* search */
    1, 1, 0, RONGDHESI_EAST, 5,              /* it opens again at cost 5 */
    4, 0, 0, 0, 0,                           /* search */
    2, 1, 0, 0, 0,                           /* the hunter goes to cell 1 */
    4, 0, 0, 0, 0,                           /* search */
    3, 0, 0, 0, 0,                           /* the target goes to cell 0 */
    4, 0, 0, 0, 0,                           /* search */
    3, 1, 0, 0, 0,                           /* the target goes to cell 1 */
    4, 0, 0, 0, 0,                           /* search */
};

/* Room enough for every drill. */
static uint8_t file[RONGDHESI_GREATEST_FILE];

int main(void) {
    rongdhesi_written written = rongdhesi_write_drill(3, 1, 0, 2, LENT(plan), LENT(actions), LENT(file));
    if (written.refusal != 0) {
        fprintf(stderr, "write_drill: refused %" PRIu64 "\n", written.refusal);
        return 1;
    }
    if (fwrite(file, 1, written.bytes, stdout) != written.bytes || fflush(stdout) != 0) {
        fprintf(stderr, "write_drill: the drill could not be written to standard output\n");
        return 1;
    }
    return 0;
}
