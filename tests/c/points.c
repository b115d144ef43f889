/* The functions of directions and points from C, and from C++ where this file is compiled as such. */
#include "expect.h"
#include "rivetgnome.h"

#include <inttypes.h>
#include <stddef.h>

enum { LIMIT = 100000000 };

typedef struct triple {
    int32_t i, j, k;
} triple;

static triple of(int32_t i, int32_t j, int32_t k)
{
    triple t = {i, j, k};
    return t;
}

static void point(const char *what, rg_point a, triple t)
{
    expect(a.refusal == RG_ANSWERED && a.zero == 0 && a.i == t.i && a.j == t.j && a.k == t.k,
           "%s: found refusal %u, %" PRId32 " %" PRId32 " %" PRId32 ", expected %" PRId32 " %" PRId32 " %" PRId32,
           what, a.refusal, a.i, a.j, a.k, t.i, t.j, t.k);
}

static void pair(const char *what, rg_pair a, int32_t i, int32_t j)
{
    expect(a.refusal == RG_ANSWERED && a.zero == 0 && a.i == i && a.j == j,
           "%s: found refusal %u, %" PRId32 " %" PRId32 ", expected %" PRId32 " %" PRId32, what, a.refusal, a.i, a.j, i, j);
}

static void number(const char *what, rg_number a, uint64_t value)
{
    expect(a.refusal == RG_ANSWERED && a.zero == 0 && a.value == value, "%s: found refusal %u, %" PRIu64 ", expected %" PRIu64, what,
           a.refusal, a.value, value);
}

static void no_point(const char *what, rg_point a, unsigned refusal)
{
    expect(a.refusal == refusal && a.zero == 0 && a.i == 0 && a.j == 0 && a.k == 0, "%s: found refusal %u, expected %u", what, a.refusal,
           refusal);
}

static void no_pair(const char *what, rg_pair a, unsigned refusal)
{
    expect(a.refusal == refusal && a.zero == 0 && a.i == 0 && a.j == 0, "%s: found refusal %u, expected %u", what, a.refusal, refusal);
}

static void no_number(const char *what, rg_number a, unsigned refusal)
{
    expect(a.refusal == refusal && a.zero == 0 && a.value == 0, "%s: found refusal %u, expected %u", what, a.refusal, refusal);
}

static const uint32_t no_directions[] = {7, 8, 255, 256, 257, 262, 65536, UINT32_MAX};
static const uint32_t no_counts[] = {6, 7, 255, 256, 261, 65536, UINT32_MAX};
static const int32_t beyond[] = {-LIMIT - 1, LIMIT + 1, INT32_MIN, INT32_MIN + 1, INT32_MAX};
#define EACH(at, list) for (size_t at = 0; at < sizeof list / sizeof list[0]; at++)

static void directions(void)
{
    static const triple units[] = {{0, 0, 0}, {0, 0, 1}, {0, 1, 0}, {0, 1, 1}, {1, 0, 0}, {1, 0, 1}, {1, 1, 0}};
    static const uint32_t ring[] = {RG_K, RG_IK, RG_I, RG_IJ, RG_J, RG_JK};
    for (uint32_t d = 0; d <= 6; d++) {
        triple u = units[d];
        point("unit", rg_unit(d), u);
        number("direction of a unit vector", rg_direction_of(u.i, u.j, u.k), d);
        number("direction of the same point", rg_direction_of(u.i - LIMIT, u.j - LIMIT, u.k - LIMIT), d);
        EACH(at, no_counts) {
            no_number("turn by too many", rg_direction_turn_ccw(d, no_counts[at]), RG_RANGE);
            no_number("turn by too many, clockwise", rg_direction_turn_cw(d, no_counts[at]), RG_RANGE);
        }
    }
    for (uint32_t n = 0; n <= 5; n++) {
        number("the centre turned", rg_direction_turn_ccw(RG_CENTER, n), RG_CENTER);
        number("the centre turned clockwise", rg_direction_turn_cw(RG_CENTER, n), RG_CENTER);
        EACH(at, ring) {
            number("turn", rg_direction_turn_ccw(ring[at], n), ring[(at + n) % 6]);
            number("turn clockwise", rg_direction_turn_cw(ring[at], n), ring[(at + 6 - n) % 6]);
        }
    }
    EACH(at, no_directions) {
        uint32_t d = no_directions[at];
        no_point("unit of no direction", rg_unit(d), RG_DIRECTION);
        no_number("turn of no direction", rg_direction_turn_ccw(d, 0), RG_DIRECTION);
        no_number("turn of no direction, clockwise", rg_direction_turn_cw(d, 5), RG_DIRECTION);
        no_number("direction before count", rg_direction_turn_ccw(d, 6), RG_DIRECTION);
        no_number("direction before count, clockwise", rg_direction_turn_cw(d, UINT32_MAX), RG_DIRECTION);
        no_point("neighbour in no direction", rg_neighbour(0, 0, 0, d), RG_DIRECTION);
        no_point("direction before range", rg_neighbour(INT32_MIN, LIMIT + 1, 0, d), RG_DIRECTION);
    }
}

/* Every function refuses these coordinates, as the first or the second point. */
static void refused(int32_t i, int32_t j, int32_t k)
{
    no_point("normalise", rg_normalise(i, j, k), RG_RANGE);
    for (uint32_t d = 0; d <= 6; d++)
        no_point("neighbour", rg_neighbour(i, j, k, d), RG_RANGE);
    no_number("same point", rg_same_point(i, j, k, 0, 0, 0), RG_RANGE);
    no_number("same point, the second", rg_same_point(0, 0, 0, i, j, k), RG_RANGE);
    no_number("same point, both", rg_same_point(i, j, k, i, j, k), RG_RANGE);
    no_number("distance", rg_distance(i, j, k, 0, 0, 0), RG_RANGE);
    no_number("distance, the second", rg_distance(0, 0, 0, i, j, k), RG_RANGE);
    no_number("distance, both", rg_distance(i, j, k, i, j, k), RG_RANGE);
    no_pair("to ij", rg_to_ij(i, j, k), RG_RANGE);
    no_point("down 7", rg_down7_ccw(i, j, k), RG_RANGE);
    no_point("down 7 clockwise", rg_down7_cw(i, j, k), RG_RANGE);
    no_point("down 3", rg_down3_ccw(i, j, k), RG_RANGE);
    no_point("down 3 clockwise", rg_down3_cw(i, j, k), RG_RANGE);
    no_point("up 7", rg_up7_ccw(i, j, k), RG_RANGE);
    no_point("up 7 clockwise", rg_up7_cw(i, j, k), RG_RANGE);
    no_point("turn", rg_point_turn_ccw(i, j, k), RG_RANGE);
    no_point("turn clockwise", rg_point_turn_cw(i, j, k), RG_RANGE);
    no_number("direction of", rg_direction_of(i, j, k), RG_RANGE);
}

static void ranges(void)
{
    EACH(at, beyond) {
        int32_t b = beyond[at];
        refused(b, 0, 0);
        refused(0, b, 0);
        refused(0, 0, b);
        refused(b, b, b);
        no_point("from ij, i", rg_from_ij(b, 0), RG_RANGE);
        no_point("from ij, j", rg_from_ij(0, b), RG_RANGE);
    }
}

/* Both ends of the range are answered, and what is answered may lie beyond it. */
static void limits(void)
{
    const int32_t a = LIMIT, z = -LIMIT;
    point("normalise", rg_normalise(a, z, z), of(2 * a, 0, 0));
    point("normalise", rg_normalise(z, a, z), of(0, 2 * a, 0));
    point("normalise", rg_normalise(z, z, a), of(0, 0, 2 * a));
    point("normalise", rg_normalise(z, a, a), of(0, 2 * a, 2 * a));
    point("normalise", rg_normalise(a, a, a), of(0, 0, 0));
    point("normalise", rg_normalise(z, z, z), of(0, 0, 0));
    point("neighbour", rg_neighbour(a, z, z, 4), of(2 * a + 1, 0, 0));
    point("neighbour", rg_neighbour(z, z, a, 1), of(0, 0, 2 * a + 1));
    point("neighbour", rg_neighbour(z, a, z, 2), of(0, 2 * a + 1, 0));
    point("neighbour", rg_neighbour(a, a, a, 0), of(0, 0, 0));
    number("same point", rg_same_point(a, a, a, z, z, z), 1);
    number("same point", rg_same_point(a, a, a, z, z, z + 1), 0);
    number("distance", rg_distance(a, z, z, z, a, a), 4 * (uint64_t)LIMIT);
    number("distance", rg_distance(z, a, z, a, z, a), 4 * (uint64_t)LIMIT);
    number("distance", rg_distance(a, a, a, z, z, z), 0);
    pair("to ij", rg_to_ij(a, z, z), 2 * a, 0);
    pair("to ij", rg_to_ij(z, z, a), 2 * z, 2 * z);
    pair("to ij", rg_to_ij(a, a, z), 2 * a, 2 * a);
    point("from ij", rg_from_ij(a, a), of(a, a, 0));
    point("from ij", rg_from_ij(z, z), of(0, 0, a));
    point("from ij", rg_from_ij(a, z), of(2 * a, 0, a));
    point("from ij", rg_from_ij(z, a), of(0, 2 * a, a));
    point("down 7", rg_down7_ccw(a, z, z), of(6 * a, 0, 2 * a));
    point("down 7 clockwise", rg_down7_cw(a, z, z), of(6 * a, 2 * a, 0));
    point("down 3", rg_down3_ccw(a, z, z), of(4 * a, 0, 2 * a));
    point("down 3 clockwise", rg_down3_cw(a, z, z), of(4 * a, 2 * a, 0));
    point("up 7", rg_up7_ccw(a, z, z), of(85714286, 28571429, 0));
    point("up 7 clockwise", rg_up7_cw(a, z, z), of(85714286, 0, 28571429));
    point("turn", rg_point_turn_ccw(a, z, z), of(2 * a, 2 * a, 0));
    point("turn clockwise", rg_point_turn_cw(a, z, z), of(2 * a, 0, 2 * a));
    number("direction of", rg_direction_of(a, a - 1, a - 1), 4);
    no_number("direction of", rg_direction_of(a, z, z), RG_NOT_UNIT);
    no_number("direction of", rg_direction_of(a, a, a - 2), RG_NOT_UNIT);
}

/* Rows of document 01's table of unit images, and rounding on both sides of 0. */
static void examples(void)
{
    point("down 7 of i", rg_down7_ccw(1, 0, 0), of(3, 0, 1));
    point("down 7 of j", rg_down7_ccw(0, 1, 0), of(1, 3, 0));
    point("down 7 of k", rg_down7_ccw(0, 0, 1), of(0, 1, 3));
    point("down 7 of i, clockwise", rg_down7_cw(1, 0, 0), of(3, 1, 0));
    point("down 7 of j, clockwise", rg_down7_cw(0, 1, 0), of(0, 3, 1));
    point("down 7 of k, clockwise", rg_down7_cw(0, 0, 1), of(1, 0, 3));
    point("down 3 of i", rg_down3_ccw(1, 0, 0), of(2, 0, 1));
    point("down 3 of j", rg_down3_ccw(0, 1, 0), of(1, 2, 0));
    point("down 3 of k", rg_down3_ccw(0, 0, 1), of(0, 1, 2));
    point("down 3 of i, clockwise", rg_down3_cw(1, 0, 0), of(2, 1, 0));
    point("down 3 of j, clockwise", rg_down3_cw(0, 1, 0), of(0, 2, 1));
    point("down 3 of k, clockwise", rg_down3_cw(0, 0, 1), of(1, 0, 2));
    point("turn of i", rg_point_turn_ccw(1, 0, 0), of(1, 1, 0));
    point("turn of j", rg_point_turn_ccw(0, 1, 0), of(0, 1, 1));
    point("turn of k", rg_point_turn_ccw(0, 0, 1), of(1, 0, 1));
    point("turn of i, clockwise", rg_point_turn_cw(1, 0, 0), of(1, 0, 1));
    point("turn of j, clockwise", rg_point_turn_cw(0, 1, 0), of(1, 1, 0));
    point("turn of k, clockwise", rg_point_turn_cw(0, 0, 1), of(0, 1, 1));
    point("-4/7 is nearest to -1", rg_up7_ccw(0, 4, 0), of(0, 2, 1));
    point("-3/7 is nearest to 0", rg_up7_ccw(0, 3, 0), of(0, 1, 0));
    point("4/7 is nearest to 1", rg_up7_cw(0, 4, 0), of(1, 2, 0));
    point("3/7 is nearest to 0", rg_up7_cw(0, 3, 0), of(0, 1, 0));
    no_number("(0,0,2)", rg_direction_of(0, 0, 2), RG_NOT_UNIT);
    no_number("(0,0,-2)", rg_direction_of(0, 0, -2), RG_NOT_UNIT);
    number("(-1,-1,-1)", rg_direction_of(-1, -1, -1), 0);
    number("(0,0,-1)", rg_direction_of(0, 0, -1), 6);
}

/* Up undoes down with any unit vector added, and a turn each way undoes the other. */
static void round_trips(void)
{
    for (int32_t i = -3; i <= 3; i++)
        for (int32_t j = -3; j <= 3; j++) {
            rg_point p = rg_from_ij(i, j), q = rg_point_turn_ccw(p.i, p.j, p.k);
            pair("ij there and back", rg_to_ij(p.i, p.j, p.k), i, j);
            point("turn there and back", rg_point_turn_cw(q.i, q.j, q.k), of(p.i, p.j, p.k));
            for (uint32_t d = 0; d <= 6; d++) {
                rg_point u = rg_unit(d), a = rg_down7_ccw(p.i, p.j, p.k), b = rg_down7_cw(p.i, p.j, p.k);
                rg_point next = rg_neighbour(p.i, p.j, p.k, d);
                point("up after down", rg_up7_ccw(a.i + u.i, a.j + u.j, a.k + u.k), of(p.i, p.j, p.k));
                point("up after down, clockwise", rg_up7_cw(b.i + u.i, b.j + u.j, b.k + u.k), of(p.i, p.j, p.k));
                number("distance of a neighbour", rg_distance(p.i, p.j, p.k, next.i, next.j, next.k), d == 0 ? 0 : 1);
                number("the same point", rg_same_point(p.i, p.j, p.k, next.i, next.j, next.k), d == 0 ? 1 : 0);
            }
        }
}

int main(void)
{
    expect(sizeof(rg_number) == 16 && offsetof(rg_number, refusal) == 0 && offsetof(rg_number, zero) == 2 && offsetof(rg_number, value) == 8,
           "places of rg_number");
    expect(sizeof(rg_point) == 16 && offsetof(rg_point, refusal) == 0 && offsetof(rg_point, zero) == 2 && offsetof(rg_point, i) == 4
               && offsetof(rg_point, j) == 8 && offsetof(rg_point, k) == 12,
           "places of rg_point");
    expect(sizeof(rg_pair) == 12 && offsetof(rg_pair, refusal) == 0 && offsetof(rg_pair, zero) == 2 && offsetof(rg_pair, i) == 4
               && offsetof(rg_pair, j) == 8,
           "places of rg_pair");
    directions();
    ranges();
    limits();
    examples();
    round_trips();
    return expected();
}
