/* rivetgnome: the integer part of the H3 grid index, proved. Link librivetgnome.a.
 *
 * A cell number is the 64-bit H3 index of a cell of the grid. From the top:
 *   bit  63        0
 *   bits 59 to 62  mode, 1 for a cell
 *   bits 56 to 58  0
 *   bits 52 to 55  resolution, 0 (coarsest) to 15
 *   bits 45 to 51  base cell, 0 to 121
 *   bits  0 to 44  fifteen digits of 3 bits, that of resolution 1 at the top
 * The digits of resolutions 1 to the cell's own are used and are 0 to 6; the others are 7.
 * The base cells 4, 14, 24, 38, 49, 58, 63, 72, 83, 97, 107 and 117 are pentagons: in them the
 * first used digit that is not 0 is never 1.
 *
 * Every function takes any number: what is wrong is refused, never undefined. An answer is a
 * struct whose field `refusal` is 0 (RG_ANSWERED), or the number of the first thing found wrong;
 * its values are then 0.
 *
 * The functions keep no state and allocate nothing; any number of threads may call them.
 */
#ifndef RIVETGNOME_H
#define RIVETGNOME_H

#include <stddef.h>
#include <stdint.h>

#ifdef __cplusplus
extern "C" {
#endif

/* The version of this header. */
#define RG_VERSION_MAJOR 0
#define RG_VERSION_MINOR 1
#define RG_VERSION_PATCH 0
#define RG_VERSION (RG_VERSION_MAJOR * 10000 + RG_VERSION_MINOR * 100 + RG_VERSION_PATCH)

/* The version of the library, counted as RG_VERSION. */
uint32_t rg_version(void);

/* The values of `refusal`. */
enum rg_refusal {
    RG_ANSWERED = 0,     /* nothing is wrong */
    RG_TOP_BIT = 1,      /* cell: bit 63 is set */
    RG_MODE = 2,         /* cell: the mode is not 1 */
    RG_RESERVED = 3,     /* cell: bits 56 to 58 are not 0 */
    RG_BASE_CELL = 4,    /* cell: the base cell is above 121 */
    RG_DIGIT = 5,        /* cell: a used digit is 7 */
    RG_UNUSED = 6,       /* cell: an unused digit is not 7 */
    RG_DELETED = 7,      /* cell: pentagon base cell, first used digit that is not 0 is 1 */
    RG_RESOLUTION = 8,   /* a resolution or length is above 15 */
    RG_ORDER = 9,        /* the wanted resolution lies on the wrong side of the cell's */
    RG_NO_ROOM = 10,     /* the buffer is shorter than the listing, or than the block handed in */
    RG_POSITION = 11,    /* no such position, or a cursor that this library did not make */
    RG_NOT_UNDER = 12,   /* the second cell does not lie under the first */
    RG_DIRECTION = 13,   /* a direction is above 6, or is 0 where only 1 to 6 will do */
    RG_RANGE = 14,       /* a coordinate is beyond 100,000,000 either way, or a turn count above 5 */
    RG_NO_STRING = 15,   /* no digit string of that length has that centre */
    RG_NOT_UNIT = 16,    /* the point is neither zero nor a unit vector */
    RG_DELETED_WAY = 17  /* a pentagon of resolution 1 or finer has no neighbour in direction 1 */
};

/* The answer of rg_check and rg_cursor: 4 bytes. */
typedef struct rg_checked {
    uint16_t refusal; /* enum rg_refusal */
    uint16_t zero;    /* 0, kept for later use */
} rg_checked;

/* A number: a cell, a count, a position, a direction, a distance, or 0 and 1 for no and yes. 16 bytes,
 * 4 of them padding.
 */
typedef struct rg_number {
    uint16_t refusal; /* enum rg_refusal */
    uint16_t zero;    /* 0, kept for later use */
    uint64_t value;
} rg_number;

/* A point, in normal form: 16 bytes. */
typedef struct rg_point {
    uint16_t refusal; /* enum rg_refusal */
    uint16_t zero;    /* 0, kept for later use */
    int32_t i;
    int32_t j;
    int32_t k;
} rg_point;

/* The IJ form of a point: 12 bytes. */
typedef struct rg_pair {
    uint16_t refusal; /* enum rg_refusal */
    uint16_t zero;    /* 0, kept for later use */
    int32_t i;
    int32_t j;
} rg_pair;

/* Is `cell` the number of a cell? `refusal` is RG_ANSWERED if so, else the first of RG_TOP_BIT to
 * RG_DELETED, in the order of their numbers, that is true of it.
 *     if (rg_check(cell).refusal == RG_ANSWERED) ...
 */
rg_checked rg_check(uint64_t cell);

/* Descendants and ancestors.
 *
 * A cell of resolution r lies under one cell of each coarser resolution, its ancestors, and has
 * descendants at each finer one: the cells of its base cell with the same digits 1 to r. At its own
 * resolution the one descendant is the cell itself. Descendants are always in ascending order of their
 * numbers, and positions among them count from 0.
 *
 * What is wrong is looked for in this order: the first cell (RG_TOP_BIT to RG_DELETED, as rg_check), the
 * second cell (the same), RG_RESOLUTION where a resolution is above 15, RG_ORDER, and then what is named
 * at the function.
 */

/* How many descendants `cell` has at the resolution `target`: 7^n at n resolutions down, or
 * 1 + 5 (7^n - 1) / 6 where the cell is a pentagon, that is where its base cell is one and its used digits
 * are all 0. The most is 7^15.
 * Refused: RG_ORDER where `target` is coarser than the cell's resolution.
 */
rg_number rg_count(uint64_t cell, uint32_t target);

/* Writes the descendants of `cell` at `target` to cells[0], cells[1], and so on; `value` is their count.
 * `cells` has `length` elements, of any number; those beyond the count stay as they were. Where anything is
 * refused no element is written. With length 0 `cells` may be NULL; else it points to `length` elements that
 * nothing else reads or writes meanwhile.
 * Refused: RG_ORDER as in rg_count; then RG_NO_ROOM where `length` is below the count (rg_count tells it).
 */
rg_number rg_list(uint64_t cell, uint32_t target, uint64_t *cells, size_t length);

/* The same one resolution below the cell's own: 7 cells, 6 under a pentagon.
 * Refused: RG_RESOLUTION where the cell's resolution is 15; then RG_NO_ROOM.
 */
rg_number rg_list_short(uint64_t cell, uint64_t *cells, size_t length);

/* The descendant of `cell` at `target` in a position.
 * Refused: RG_ORDER as in rg_count; then RG_POSITION where `position` is not below the count.
 */
rg_number rg_child_at(uint64_t cell, uint32_t target, uint64_t position);

/* The position of `second` among the descendants of `first` at the resolution of `second`. A cell is in
 * position 0 under itself.
 * Refused: RG_NOT_UNDER where `second` is no descendant of `first`, as any coarser cell.
 */
rg_number rg_position(uint64_t first, uint64_t second);

/* The ancestor of `cell` at a resolution; the cell itself at its own.
 * Refused: RG_ORDER where `resolution` is finer than the cell's.
 */
rg_number rg_ancestor(uint64_t cell, uint32_t resolution);

/* Blocks.
 *
 * The three functions below answer for each element of a block of numbers what rg_check, rg_ancestor and
 * rg_position answer for it alone. Element n of the block has values[n] and refusals[n]: the answer and 0
 * (RG_ANSWERED), or 0 and its refusal. These are what is asked for, and not a refusal of the call, whose
 * `value` is the number of elements handed in; elements of `values` and `refusals` beyond it stay as they
 * were. No element has a bearing on another.
 *
 * Each of the three blocks is a pointer and a number of elements, any number; with 0 elements the pointer
 * may be NULL. THE THREE BLOCKS MUST NOT OVERLAP, and nothing else reads or writes `values` and `refusals`
 * meanwhile.
 * Refused: RG_NO_ROOM where `values` or `refusals` has fewer elements than are handed in, and nothing else.
 * Then no element is written.
 */

/* Which of the numbers are cells? The value of a cell is the cell itself, so `values` holds the cells and 0 in
 * place of what is none.
 */
rg_number rg_check_block(const uint64_t *cells, size_t length, uint64_t *values, size_t values_length,
                         uint16_t *refusals, size_t refusals_length);

/* The ancestor of each cell at one resolution. A resolution above 15 is each cell's refusal, after its own. */
rg_number rg_ancestor_block(const uint64_t *cells, size_t length, uint32_t resolution, uint64_t *values,
                            size_t values_length, uint16_t *refusals, size_t refusals_length);

/* The position of each of `seconds` under one cell. Where `first` is no cell its refusal is that of each. */
rg_number rg_position_block(uint64_t first, const uint64_t *seconds, size_t length, uint64_t *values,
                            size_t values_length, uint16_t *refusals, size_t refusals_length);

/* A cursor: it stands before a descendant of a cell, or after the last. The words are there to be kept and
 * copied; rg_next looks at each of them whole, and refuses any cursor that rg_cursor and rg_next cannot make.
 *
 *     rg_cursor_state at;
 *     if (rg_cursor(cell, target, &at).refusal == RG_ANSWERED)
 *         for (uint64_t child; (child = rg_next(&at).value) != 0;)
 *             ...
 */
typedef struct rg_cursor_state {
    uint64_t own;    /* the resolution of the cell */
    uint64_t target; /* the resolution of its descendants */
    uint64_t number; /* the next descendant; the last one when none is left */
    uint64_t skip;   /* under a pentagon the resolution whose digit 1 is skipped next; else -1, that is UINT64_MAX */
    uint64_t left;   /* how many are left */
} rg_cursor_state;

/* A cursor before the first descendant of `cell` at `target`, written to *cursor. Where anything is refused
 * *cursor stays as it was. `cursor` is not NULL.
 * Refused: RG_ORDER as in rg_count.
 */
rg_checked rg_cursor(uint64_t cell, uint32_t target, rg_cursor_state *cursor);

/* The next descendant, and *cursor moves behind it. Where none is left `value` is 0, which is no cell, and
 * *cursor stays as it was; it does so again at each later call. `cursor` is not NULL.
 * Refused: RG_POSITION where rg_cursor and rg_next cannot have made this cursor, whatever is wrong in it;
 * *cursor stays as it was.
 */
rg_number rg_next(rg_cursor_state *cursor);

/* Directions.
 *
 * 0 is the centre; 1 to 6 are the ways to the six neighbours of a hexagon, each by its unit vector
 * (i, j, k), where direction = 4i + 2j + k:
 *
 *     1 K (0,0,1)    2 J (0,1,0)    3 JK (0,1,1)    4 I (1,0,0)    5 IK (1,0,1)    6 IJ (1,1,0)
 *
 * Once round counter-clockwise they are 1, 5, 4, 6, 2, 3.
 */
enum rg_direction {
    RG_CENTER = 0,
    RG_K = 1,
    RG_J = 2,
    RG_JK = 3,
    RG_I = 4,
    RG_IK = 5,
    RG_IJ = 6
};

/* The unit vector of a direction.
 * Refused: RG_DIRECTION where `direction` is above 6.
 */
rg_point rg_unit(uint32_t direction);

/* `direction` turned `count` times by 60 degrees: `value` is a direction. 0 stays 0.
 * Refused: RG_DIRECTION where `direction` is above 6; then RG_RANGE where `count` is above 5.
 */
rg_number rg_direction_turn_ccw(uint32_t direction, uint32_t count);
rg_number rg_direction_turn_cw(uint32_t direction, uint32_t count);

/* Points.
 *
 * Three numbers i, j, k name a hexagon of the plane: so many steps in direction I, in J and in K,
 * which lie 120 degrees apart. One step in each leads back, so (i, j, k) and (i + n, j + n, k + n)
 * are one point. Its normal form is the triple whose least component is 0; every point answered is
 * in normal form.
 *
 * A triple handed in need not be in normal form. Each coordinate handed in must be
 * -100,000,000 to 100,000,000: all functions below refuse any other with RG_RANGE. Answers may lie
 * beyond that; none overflows.
 */

/* The normal form of (i, j, k). */
rg_point rg_normalise(int32_t i, int32_t j, int32_t k);

/* The point next to (i, j, k) in a direction; the point itself in direction 0.
 * Refused: RG_DIRECTION where `direction` is above 6; then RG_RANGE.
 */
rg_point rg_neighbour(int32_t i, int32_t j, int32_t k, uint32_t direction);

/* Are (i, j, k) and (l, m, n) one point? `value` is 1 for yes, 0 for no. */
rg_number rg_same_point(int32_t i, int32_t j, int32_t k, int32_t l, int32_t m, int32_t n);

/* The number of steps from (i, j, k) to (l, m, n), from hexagon to neighbour. */
rg_number rg_distance(int32_t i, int32_t j, int32_t k, int32_t l, int32_t m, int32_t n);

/* The IJ form of a point, (i - k, j - k): one pair for each point. */
rg_pair rg_to_ij(int32_t i, int32_t j, int32_t k);

/* The point of an IJ form: (i, j, 0). */
rg_point rg_from_ij(int32_t i, int32_t j);

/* The same place in the next finer grid, whose hexagons have a seventh of the area; the grid is
 * turned counter-clockwise or clockwise.
 */
rg_point rg_down7_ccw(int32_t i, int32_t j, int32_t k);
rg_point rg_down7_cw(int32_t i, int32_t j, int32_t k);

/* The same with a third of the area. */
rg_point rg_down3_ccw(int32_t i, int32_t j, int32_t k);
rg_point rg_down3_cw(int32_t i, int32_t j, int32_t k);

/* The hexagon of the next coarser grid under which (i, j, k) lies: rg_up7_ccw undoes rg_down7_ccw,
 * also with a unit vector added in between, and rg_up7_cw undoes rg_down7_cw.
 */
rg_point rg_up7_ccw(int32_t i, int32_t j, int32_t k);
rg_point rg_up7_cw(int32_t i, int32_t j, int32_t k);

/* The point turned by 60 degrees about (0, 0, 0). */
rg_point rg_point_turn_ccw(int32_t i, int32_t j, int32_t k);
rg_point rg_point_turn_cw(int32_t i, int32_t j, int32_t k);

/* The direction, 0 to 6, of which (i, j, k) is the unit vector.
 * Refused: RG_RANGE; then RG_NOT_UNIT where there is none, that is where the point is farther than
 * one step from (0, 0, 0).
 */
rg_number rg_direction_of(int32_t i, int32_t j, int32_t k);

/* The walk: a number with the new digits, and the carry. 16 bytes. */
typedef struct rg_walked {
    uint16_t refusal; /* enum rg_refusal */
    uint16_t zero;    /* 0, kept for later use */
    uint32_t carry;   /* 0 where the move ends in the base cell, else a direction */
    uint64_t number;
} rg_walked;

/* The values of `kind`. */
enum rg_kind {
    RG_INSIDE = 0, /* the neighbour lies in the same base cell */
    RG_LEAVES = 1  /* it lies in another */
};

/* The step: 16 bytes. */
typedef struct rg_stepped {
    uint16_t refusal; /* enum rg_refusal */
    uint16_t zero;    /* 0, kept for later use */
    uint16_t kind;    /* enum rg_kind */
    uint16_t turn;    /* RG_INSIDE: how often directions turn counter-clockwise, 0, 1 or 5;
                         RG_LEAVES: the direction, 1 to 6, in which the base cell is left */
    uint64_t cell;    /* RG_INSIDE: the neighbour; RG_LEAVES: 0 */
} rg_stepped;

/* Turns of cells.
 *
 * All functions below that take a cell refuse what rg_check refuses, first and with its number.
 */

/* `cell` turned `count` times by 60 degrees about the centre of its base cell: each used digit, as
 * a direction, is turned. `value` is a number with the same base cell and resolution. In a pentagon
 * base cell it may be one that rg_check refuses with RG_DELETED.
 * Refused: RG_RANGE where `count` is above 5.
 */
rg_number rg_turn_ccw(uint64_t cell, uint32_t count);
rg_number rg_turn_cw(uint64_t cell, uint32_t count);

/* The turn by 60 degrees that skips the digits a pentagon base cell lacks: where the first used
 * digit that is not 0 is 3 (counter-clockwise) or 5 (clockwise), so that one turn would make it 1,
 * all digits turn twice, else once. `value` is a cell, in hexagon base cells too.
 */
rg_number rg_pentagon_turn_ccw(uint64_t cell);
rg_number rg_pentagon_turn_cw(uint64_t cell);

/* Centres.
 *
 * The used digits of a cell are a path from the centre of its base cell, (0, 0, 0): for each
 * resolution from 1 on, go to the next finer grid, by rg_down7_ccw at odd resolutions and by
 * rg_down7_cw at even ones, then one step in the digit's direction.
 */

/* The point at which that path ends, whatever the base cell. */
rg_point rg_centre(uint64_t cell);

/* The other way: the one path of `length` digits that ends at (i, j, k). `value` is the cell with
 * base cell 0, resolution `length` and these digits.
 * Refused: RG_RESOLUTION where `length` is above 15; then RG_RANGE where a coordinate is beyond
 * 100,000,000 either way; then RG_NO_STRING where no path of that length ends there. That happens
 * near (0, 0, 0) too: the cells under one base cell have a ragged border.
 */
rg_number rg_read_back(uint32_t length, int32_t i, int32_t j, int32_t k);

/* Neighbours. */

/* The digits of the neighbour in a direction, 1 to 6. `number` has the same base cell and
 * resolution and the new digits; `carry` is 0 where the neighbour lies in the same base cell, else
 * the direction in which it was left, and the digits then count from the base cell there. At
 * resolution 0 there are no digits and the carry is `direction`. Nothing is done for pentagons: the
 * number may be one that rg_check refuses with RG_DELETED.
 * Refused: RG_DIRECTION where `direction` is 0 or above 6.
 */
rg_walked rg_walk(uint64_t cell, uint32_t direction);

/* The neighbour in a direction, 1 to 6, so far as it lies in the same base cell.
 *     rg_stepped s = rg_step(cell, direction);
 *     if (s.refusal == RG_ANSWERED && s.kind == RG_INSIDE) ... s.cell
 * In a pentagon base cell the way may lead over the digits that it lacks. Then directions turn:
 * whoever goes on straight ahead goes on in rg_direction_turn_ccw(direction, s.turn), and the way
 * back is 7 - direction, turned so too. Elsewhere `turn` is 0. At resolution 0 the answer is always
 * RG_LEAVES with `direction`.
 * Refused: RG_DIRECTION where `direction` is 0 or above 6; then RG_DELETED_WAY where the cell is a
 * pentagon of resolution 1 or finer and the direction is 1.
 */
rg_stepped rg_step(uint64_t cell, uint32_t direction);

#ifdef __cplusplus
}
#endif

#endif
