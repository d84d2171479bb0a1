/* Plays document 01's whole drill through the C interface and prints its six lines. */
#include <inttypes.h>
#include <stdio.h>

#include "rongdhesi.h"

#define WIDTH 3
#define HEIGHT 1
#define CELLS (WIDTH * HEIGHT)

/* An array and its length, as the functions take a lent table. */
#define LENT(table) table, sizeof table / sizeof table[0]

static uint8_t plan[4 * CELLS] = {255, 1, 255, 255, 255, 1, 255, 1, 255, 255, 255, 1};
static uint32_t g[CELLS], rhs[CELLS], k1[CELLS], k2[CELLS];
static uint8_t parent[CELLS];
static uint16_t place[CELLS], list[CELLS], way[CELLS];

static rongdhesi_session session;

/* Keeps the record that a call returned, and says if the call was refused. */
static void keep(rongdhesi_reply reply) {
    session = reply.session;
    if (reply.kind == RONGDHESI_REFUSED) {
        printf("refused %" PRIu64 "\n", reply.refusal);
    }
}

static void change(uint64_t cell, uint64_t direction, uint64_t cost) {
    keep(rongdhesi_change_move(session, LENT(plan), LENT(g), LENT(rhs), LENT(parent), LENT(k1), LENT(k2), LENT(place),
                               LENT(list), cell, direction, cost));
}

static void search(void) {
    rongdhesi_reply reply = rongdhesi_search(session, LENT(plan), LENT(g), LENT(rhs), LENT(parent), LENT(k1), LENT(k2),
                                             LENT(place), LENT(list), LENT(way));
    keep(reply);
    if (reply.kind == RONGDHESI_WAY) {
        printf("way %" PRIu64 " steps %" PRIu64 ":", reply.cost, reply.steps);
        for (uint64_t i = 0; i < reply.cells; i++) {
            printf(" %" PRIu16, way[i]);
        }
        printf("\n");
    } else if (reply.kind == RONGDHESI_NONE) {
        printf("none steps %" PRIu64 "\n", reply.steps);
    } else if (reply.kind == RONGDHESI_CAUGHT) {
        printf("caught at %" PRIu16 "\n", way[0]);
    }
}

int main(void) {
    keep(rongdhesi_open(WIDTH, HEIGHT, 0, 2, LENT(plan), LENT(g), LENT(rhs), LENT(parent), LENT(k1), LENT(k2),
                        LENT(place), LENT(list)));
    search();
    change(1, RONGDHESI_EAST, RONGDHESI_SHUT);
    search();
    change(1, RONGDHESI_EAST, 5);
    search();
    keep(rongdhesi_place_hunter(session, 1));
    search();
    keep(rongdhesi_place_target(session, 0));
    search();
    keep(rongdhesi_place_target(session, 1));
    search();
    return 0;
}
