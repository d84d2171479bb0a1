/* Rongdhesi: a planner for a hunter and a moving target on a floor plan of at most 64 by 64 cells.
 *
 * The functions stand in librongdhesi.a, which `rt lib` in crates/rongdhesi builds for x86-64 Linux. Each of them is
 * proved to end safely for every number given and every content of the lent tables, and to answer as the
 * library's own call (crates/rongdhesi, src/lib.rt). A caller owes what no proof can see: every pointer points
 * to as many entries as the length after it says, aligned for their type, and no two tables overlap.
 *
 * This header is kept by hand. It has to say the same as crates/rongdhesi/src/lib.rt. */

#ifndef RONGDHESI_H
#define RONGDHESI_H

#include <stddef.h>
#include <stdint.h>

#ifdef __cplusplus
extern "C" {
#endif

/* The least and the greatest width and height. */
#define RONGDHESI_LEAST_SIDE 1
#define RONGDHESI_GREATEST_SIDE 64

/* The greatest number of cells, N = width * height. */
#define RONGDHESI_GREATEST_CELLS 4096

/* The greatest length of a drill file in bytes. */
#define RONGDHESI_GREATEST_FILE 65536

/* Directions: north (row less 1), east (column plus 1), south (row plus 1), west (column less 1). */
#define RONGDHESI_NORTH 0
#define RONGDHESI_EAST 1
#define RONGDHESI_SOUTH 2
#define RONGDHESI_WEST 3

/* A cost byte is 1 to 250, or 255 for a move that is shut. A move that would leave the plan is 255 for ever. */
#define RONGDHESI_GREATEST_COST 250
#define RONGDHESI_SHUT 255

/* The kinds of answer. Open, place and change are done or refused; a search has the other four. */
#define RONGDHESI_DONE 0
#define RONGDHESI_WAY 1
#define RONGDHESI_NONE 2
#define RONGDHESI_CAUGHT 3
#define RONGDHESI_REFUSED 4

/* The refusal numbers. Where several apply, the one named first is given; their order is 1 2 6 3 4 5 8 7 9.
 * Refusals 1 to 8 change no table and return the record as it came (open: a record of zeros). */
#define RONGDHESI_REFUSED_SIZE 1    /* width or height not 1 to 64 */
#define RONGDHESI_REFUSED_LENGTH 2  /* a table is not of its length, or a list of cells has none or more than N */
#define RONGDHESI_REFUSED_CELL 3    /* a given cell is N or more */
#define RONGDHESI_REFUSED_MOVE 4    /* direction above 3, or the move leaves the plan (in a plan that is given: such a byte
                                       is not 255), or two listed cells that follow each other are no neighbours */
#define RONGDHESI_REFUSED_COST 5    /* a cost is not 1 to 250 and not 255, or a reason is asked of a move that is shut */
#define RONGDHESI_REFUSED_UNSOUND 6 /* the tables are not sound */
#define RONGDHESI_REFUSED_ROOM 7    /* the way list is shorter than N, or another room than what is to be written */
#define RONGDHESI_REFUSED_FORM 8    /* an action is badly formed, or there are more than a drill file has room for */
#define RONGDHESI_REFUSED_STEPS 9   /* 3N steps taken and the search not ended; from sound tables this never happens */

/* The session record. A call is given it by value and returns the record for the next call. */
typedef struct rongdhesi_session {
    uint64_t width;
    uint64_t height;
    uint64_t hunter;   /* as placed */
    uint64_t target;   /* as placed */
    uint64_t origin;   /* the hunter of the last search */
    uint64_t goal;     /* the target of the last search */
    uint32_t km;       /* how far the targets of the searches lay apart, summed */
    uint64_t count;    /* how many cells are queued */
    uint32_t searches; /* since the last fresh start */
} rongdhesi_session;

/* What a call returns. What an answer lacks is 0. */
typedef struct rongdhesi_reply {
    rongdhesi_session session; /* the record as the call leaves it */
    uint64_t kind;             /* RONGDHESI_DONE to RONGDHESI_REFUSED */
    uint64_t refusal;          /* the number, if refused */
    uint64_t cost;             /* of the way */
    uint64_t steps;            /* of a search that was not refused */
    uint64_t cells;            /* how many cells were written into the way list; a catch writes one */
} rongdhesi_reply;

/* What rongdhesi_lengths returns. */
typedef struct rongdhesi_lengths_reply {
    uint64_t refusal; /* 0, or RONGDHESI_REFUSED_SIZE, and then both lengths are 0 */
    uint64_t plan;    /* entries of the plan, 4N */
    uint64_t cells;   /* entries of every other table, N; the way list has at least as many */
} rongdhesi_lengths_reply;

/* The lengths of the tables for a plan of this size. */
rongdhesi_lengths_reply rongdhesi_lengths(uint64_t width, uint64_t height);

/* Opens a session: reads the plan and fills all other tables fresh, whatever they held.
 * plan: four cost bytes for each cell, in the order of the directions; cell = row * width + column.
 * Answers DONE, or REFUSED by 1, 2, 3, 4 or 5. */
rongdhesi_reply rongdhesi_open(
    uint64_t width, uint64_t height, uint64_t hunter, uint64_t target,
    const uint8_t *plan, size_t plan_length,
    uint32_t *g, size_t g_length,
    uint32_t *rhs, size_t rhs_length,
    uint8_t *parent, size_t parent_length,
    uint32_t *k1, size_t k1_length,
    uint32_t *k2, size_t k2_length,
    uint16_t *place, size_t place_length,
    uint16_t *list, size_t list_length);

/* Places the hunter: the record notes the cell, and the next search takes it over. Reads no table.
 * Answers DONE, or REFUSED by 1 or 3. */
rongdhesi_reply rongdhesi_place_hunter(rongdhesi_session session, uint64_t cell);

/* Places the target, in the same way. */
rongdhesi_reply rongdhesi_place_target(rongdhesi_session session, uint64_t cell);

/* Gives the move from a cell in a direction a cost, and works that into the tables.
 * The cost is 1 to 250 or 255; every other number, above 255 too, is refused by 5. g is only read.
 * Answers DONE, or REFUSED by 1, 2, 6, 3, 4 or 5. */
rongdhesi_reply rongdhesi_change_move(
    rongdhesi_session session,
    uint8_t *plan, size_t plan_length,
    const uint32_t *g, size_t g_length,
    uint32_t *rhs, size_t rhs_length,
    uint8_t *parent, size_t parent_length,
    uint32_t *k1, size_t k1_length,
    uint32_t *k2, size_t k2_length,
    uint16_t *place, size_t place_length,
    uint16_t *list, size_t list_length,
    uint64_t cell, uint64_t direction, uint64_t cost);

/* Searches a cheapest way from the placed hunter to the placed target. The plan is only read.
 * WAY: cost, steps, and the way's cells stand first in the way list, hunter first. NONE: no chain of open moves leads
 * there; the steps. CAUGHT: both are in one cell, which is written as the way; record and tables stay as they are.
 * REFUSED by 1, 2, 6, 7 or 9. The rest of the way list keeps its contents. */
rongdhesi_reply rongdhesi_search(
    rongdhesi_session session,
    const uint8_t *plan, size_t plan_length,
    uint32_t *g, size_t g_length,
    uint32_t *rhs, size_t rhs_length,
    uint8_t *parent, size_t parent_length,
    uint32_t *k1, size_t k1_length,
    uint32_t *k2, size_t k2_length,
    uint16_t *place, size_t place_length,
    uint16_t *list, size_t list_length,
    uint16_t *way, size_t way_length);

/* What rongdhesi_write_drill returns. What an answer lacks is 0. */
typedef struct rongdhesi_written {
    uint64_t refusal; /* 0, or the number */
    uint64_t bytes;   /* how many bytes were written, if not refused: the length of the drill file */
} rongdhesi_written;

/* Writes the drill file of a plan, its hunter and target and its actions into the room `file`, from its first byte on.
 * plan: as rongdhesi_open has it. actions: five bytes for each action, as the drill file has them: kind, cell (two bytes,
 * low byte first), direction, cost. Kind 1 changes a move; 2 places the hunter, and 3 the target, with direction and cost
 * 0; 4 searches, with all four bytes 0. Cell, direction and cost of a change are not looked at: the calls answer for them
 * when the drill is played.
 * Refused by 1, 2 (the plan's length), 3, 4, 5, 8 (also if the actions' bytes are no multiple of five) or 7, in this order;
 * nothing is written then. What stands behind the file in the room keeps its contents. RONGDHESI_GREATEST_FILE bytes are
 * room enough for every drill. */
rongdhesi_written rongdhesi_write_drill(
    uint64_t width, uint64_t height, uint64_t hunter, uint64_t target,
    const uint8_t *plan, size_t plan_length,
    const uint8_t *actions, size_t actions_length,
    uint8_t *file, size_t file_length);

/* The three functions that follow give the reasons for an answer. They need no session and read the plan alone, so that
 * each reason is true of the plan. plan: as rongdhesi_open has it. A refusal writes nothing. */

/* What rongdhesi_explain_reached returns. What an answer lacks is 0. */
typedef struct rongdhesi_reached {
    uint64_t refusal; /* 0, or the number */
    uint64_t cells;   /* how many cells the hunter can reach, its own included */
    uint64_t moves;   /* how many shut moves lead out of them, which is how many were written */
} rongdhesi_reached;

/* Which cells the hunter can reach: those that a chain of open moves leads to, and its own.
 * rows: one number for each row, at least as many as the height; the bit of column 0 is the lowest, a reached cell's is 1,
 * and bits from the width on are 0. moves: every shut move inside the plan from a reached cell to one that is not, as
 * 4 * cell + direction, in rising order. What stands behind the rows and behind the moves keeps its contents.
 * Refused by 1, 2 (the plan's length), 3, 4, 5 or 7 (rows or moves too few), in this order. 2 * N moves are room enough
 * for every plan. Takes about 45 KiB of stack. */
rongdhesi_reached rongdhesi_explain_reached(
    uint64_t width, uint64_t height, uint64_t hunter,
    const uint8_t *plan, size_t plan_length,
    uint64_t *rows, size_t rows_length,
    uint16_t *moves, size_t moves_length);

/* What rongdhesi_explain_along returns. What an answer lacks is 0. */
typedef struct rongdhesi_running {
    uint64_t refusal; /* 0, or the number */
    uint64_t costs;   /* how many costs were written: as many as there are cells */
} rongdhesi_running;

/* The running cost at each of 1 to N listed cells: 0 at the first, and at each other one the cost of the move from the cell
 * before it more. The list may begin anywhere, and a cell may come again. What stands behind the costs keeps its contents.
 * Refused by 1, 2 (the plan's length, or the list's), 3, 4 (of the plan, or a listed pair that are no neighbours; a cell is
 * none of its own), 5 (of the plan, or a listed move that is shut) or 7 (fewer costs than cells), in this order. */
rongdhesi_running rongdhesi_explain_along(
    uint64_t width, uint64_t height,
    const uint8_t *plan, size_t plan_length,
    const uint16_t *cells, size_t cells_length,
    uint32_t *costs, size_t costs_length);

/* What rongdhesi_explain_through returns. What an answer lacks is 0. */
typedef struct rongdhesi_through {
    uint64_t refusal; /* 0, or the number */
    uint64_t walk;    /* 1 if there is such a walk, else 0 */
    uint64_t cost;    /* of the cheapest of them */
} rongdhesi_through;

/* The least cost of any walk from hunter to target through the open move from a cell in a direction; a walk may come to a
 * cell twice. Hunter and target may be one cell, and each may be an end of the move.
 * Refused by 1, 2 (the plan's length), 3 (hunter, target or cell), 4 (of the plan, or of the move) or 5 (of the plan, or the
 * move is shut), in this order. Takes about 100 KiB of stack. */
rongdhesi_through rongdhesi_explain_through(
    uint64_t width, uint64_t height, uint64_t hunter, uint64_t target,
    const uint8_t *plan, size_t plan_length,
    uint64_t cell, uint64_t direction);

#ifdef __cplusplus
}
#endif

#endif
