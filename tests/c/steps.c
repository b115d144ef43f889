/* The functions of turns of cells, centres, the walk and the step from C, and from C++ where this file is compiled as such. */
#include "expect.h"
#include "rivetgnome.h"

#include <inttypes.h>
#include <stddef.h>

enum { LIMIT = 100000000 };

static void number(const char *what, rg_number a, uint64_t value)
{
    expect(a.refusal == RG_ANSWERED && a.zero == 0 && a.value == value, "%s: found refusal %u, %016" PRIx64 ", expected %016" PRIx64, what,
           a.refusal, a.value, value);
}

static void point(const char *what, rg_point a, int32_t i, int32_t j, int32_t k)
{
    expect(a.refusal == RG_ANSWERED && a.zero == 0 && a.i == i && a.j == j && a.k == k,
           "%s: found refusal %u, %" PRId32 " %" PRId32 " %" PRId32 ", expected %" PRId32 " %" PRId32 " %" PRId32, what, a.refusal, a.i, a.j,
           a.k, i, j, k);
}

static void walked(const char *what, rg_walked a, uint64_t to, uint32_t carry)
{
    expect(a.refusal == RG_ANSWERED && a.zero == 0 && a.number == to && a.carry == carry,
           "%s: found refusal %u, %016" PRIx64 " carry %" PRIu32 ", expected %016" PRIx64 " carry %" PRIu32, what, a.refusal, a.number, a.carry,
           to, carry);
}

static void stepped(const char *what, rg_stepped a, unsigned kind, uint64_t cell, unsigned turn)
{
    expect(a.refusal == RG_ANSWERED && a.zero == 0 && a.kind == kind && a.cell == cell && a.turn == turn,
           "%s: found refusal %u, kind %u, %016" PRIx64 " turn %u, expected kind %u, %016" PRIx64 " turn %u", what, a.refusal, a.kind, a.cell,
           a.turn, kind, cell, turn);
}

static void inside(const char *what, rg_stepped a, uint64_t cell, unsigned turn)
{
    stepped(what, a, RG_INSIDE, cell, turn);
}

static void leaves(const char *what, rg_stepped a, unsigned direction)
{
    stepped(what, a, RG_LEAVES, 0, direction);
}

static void no_number(const char *what, rg_number a, unsigned refusal)
{
    expect(a.refusal == refusal && a.zero == 0 && a.value == 0, "%s: found refusal %u, expected %u", what, a.refusal, refusal);
}

static void no_point(const char *what, rg_point a, unsigned refusal)
{
    expect(a.refusal == refusal && a.zero == 0 && a.i == 0 && a.j == 0 && a.k == 0, "%s: found refusal %u, expected %u", what, a.refusal,
           refusal);
}

static void no_walk(const char *what, rg_walked a, unsigned refusal)
{
    expect(a.refusal == refusal && a.zero == 0 && a.carry == 0 && a.number == 0, "%s: found refusal %u, expected %u", what, a.refusal, refusal);
}

static void no_step(const char *what, rg_stepped a, unsigned refusal)
{
    expect(a.refusal == refusal && a.zero == 0 && a.kind == 0 && a.turn == 0 && a.cell == 0, "%s: found refusal %u, expected %u", what,
           a.refusal, refusal);
}

#define EACH(at, list) for (size_t at = 0; at < sizeof list / sizeof list[0]; at++)
static const uint64_t pentagons[] = {4, 14, 24, 38, 49, 58, 63, 72, 83, 97, 107, 117};

/* A cell of resolution 0, and one of resolution 1. */
static uint64_t base(uint64_t cell)
{
    return 0x08001fffffffffff | cell << 45;
}

static uint64_t under(uint64_t cell, uint64_t digit)
{
    return 0x081003ffffffffff | cell << 45 | digit << 42;
}

/* Document 01's examples 9 to 12. */
static void examples(void)
{
    inside("example 9", rg_step(0x08108fffffffffff, 5), 0x081097ffffffffff, 1);
    inside("example 9, the way back", rg_step(0x081097ffffffffff, 3), 0x08108fffffffffff, 5);
    no_step("example 10", rg_step(0x081083ffffffffff, 1), RG_DELETED_WAY);
    leaves("example 11", rg_step(0x081013ffffffffff, 4), 4);
    inside("example 11, step 3", rg_step(0x081013ffffffffff, 3), 0x081003ffffffffff, 0);
    no_number("example 12", rg_read_back(1, 0, 0, 2), RG_NO_STRING);
}

static void directions(void)
{
    static const uint32_t none[] = {0, 7, 8, 255, 256, 257, 262, 65537, UINT32_MAX};
    EACH(at, none) {
        no_walk("walk in no direction", rg_walk(0x081013ffffffffff, none[at]), RG_DIRECTION);
        no_step("step in no direction", rg_step(0x081013ffffffffff, none[at]), RG_DIRECTION);
        no_step("from a pentagon", rg_step(0x081083ffffffffff, none[at]), RG_DIRECTION);
        no_step("from resolution 0", rg_step(0x08009fffffffffff, none[at]), RG_DIRECTION);
        no_walk("the cell before the direction", rg_walk(0x081087ffffffffff, none[at]), RG_DELETED);
        no_step("the cell before the direction", rg_step(0, none[at]), RG_MODE);
    }
    for (uint32_t d = 1; d <= 6; d++) {
        walked("walk from a hexagon's centre", rg_walk(under(0, 0), d), under(0, d), 0);
        inside("step from a hexagon's centre", rg_step(under(0, 0), d), under(0, d), 0);
        inside("and back", rg_step(under(0, d), 7 - d), under(0, 0), 0);
        walked("walk at resolution 0", rg_walk(base(0), d), base(0), d);
        leaves("step at resolution 0", rg_step(base(0), d), d);
        leaves("straight on", rg_step(under(0, d), d), d);
    }
}

static void at_pentagons(void)
{
    EACH(at, pentagons) {
        uint64_t b = pentagons[at];
        for (uint32_t d = 1; d <= 6; d++) {
            walked("walk at resolution 0", rg_walk(base(b), d), base(b), d);
            leaves("step at resolution 0", rg_step(base(b), d), d);
            walked("walk from the centre", rg_walk(under(b, 0), d), under(b, d), 0);
            if (d > 1) {
                inside("step from the centre", rg_step(under(b, 0), d), under(b, d), 0);
                inside("and back", rg_step(under(b, d), 7 - d), under(b, 0), 0);
            }
        }
        no_step("the deleted way", rg_step(under(b, 0), 1), RG_DELETED_WAY);
        no_step("the deleted way at resolution 15", rg_step(0x08f0000000000000 | b << 45, 1), RG_DELETED_WAY);
        walked("walk onto deleted digits", rg_walk(under(b, 3), 5), under(b, 1), 0);
        inside("over them", rg_step(under(b, 3), 5), under(b, 5), 1);
        inside("and back", rg_step(under(b, 5), (uint32_t)rg_direction_turn_ccw(2, 1).value), under(b, 3), 5);
    }
}

static void turns(void)
{
    static const uint64_t ring[] = {1, 5, 4, 6, 2, 3};
    static const uint32_t too_many[] = {6, 7, 255, 256, 257, 65536, UINT32_MAX};
    for (uint32_t n = 0; n <= 5; n++) {
        number("the centre turned", rg_turn_ccw(under(0, 0), n), under(0, 0));
        number("resolution 0 turned", rg_turn_cw(base(4), n), base(4));
        EACH(at, ring) {
            number("turn", rg_turn_ccw(under(0, ring[at]), n), under(0, ring[(at + n) % 6]));
            number("turn clockwise", rg_turn_cw(under(0, ring[at]), n), under(0, ring[(at + 6 - n) % 6]));
        }
    }
    number("onto the deleted digit", rg_turn_ccw(under(4, 3), 1), under(4, 1));
    number("all fifteen digits", rg_turn_ccw(0x08f0049249249249, 1), 0x08f016db6db6db6d);
    EACH(at, too_many) {
        no_number("turn by too many", rg_turn_ccw(under(0, 1), too_many[at]), RG_RANGE);
        no_number("turn by too many, clockwise", rg_turn_cw(under(0, 1), too_many[at]), RG_RANGE);
        no_number("the cell before the count", rg_turn_ccw(under(4, 1), too_many[at]), RG_DELETED);
        no_number("the cell before the count, clockwise", rg_turn_cw(UINT64_MAX, too_many[at]), RG_TOP_BIT);
    }
    number("pentagon turn over the deleted digit", rg_pentagon_turn_ccw(under(4, 3)), under(4, 5));
    number("pentagon turn over it, clockwise", rg_pentagon_turn_cw(under(4, 5)), under(4, 3));
    number("pentagon turn", rg_pentagon_turn_ccw(under(4, 5)), under(4, 4));
    number("pentagon turn, clockwise", rg_pentagon_turn_cw(under(4, 3)), under(4, 2));
    number("in a hexagon base cell", rg_pentagon_turn_ccw(under(0, 1)), under(0, 5));
    number("and 3 goes there too", rg_pentagon_turn_ccw(under(0, 3)), under(0, 5));
    number("resolution 0", rg_pentagon_turn_ccw(base(4)), base(4));
    no_number("no cell", rg_pentagon_turn_ccw(under(4, 1)), RG_DELETED);
    no_number("no cell, clockwise", rg_pentagon_turn_cw(under(122, 0)), RG_BASE_CELL);
}

static void centres(void)
{
    static const int32_t beyond[] = {-LIMIT - 1, LIMIT + 1, INT32_MIN, INT32_MAX};
    static const uint32_t too_long[] = {16, 17, 255, 256, 271, 65536, UINT32_MAX};
    for (uint32_t d = 0; d <= 6; d++) {
        rg_point u = rg_unit(d);
        point("centre at resolution 1", rg_centre(under(0, d)), u.i, u.j, u.k);
        number("read back", rg_read_back(1, u.i, u.j, u.k), under(0, d));
        number("read back the same point", rg_read_back(1, u.i - LIMIT, u.j - LIMIT, u.k - LIMIT), under(0, d));
    }
    point("resolution 0", rg_centre(base(121)), 0, 0, 0);
    point("resolution 2 is clockwise", rg_centre(0x0820107fffffffff), 3, 1, 0);
    number("read back at 2", rg_read_back(2, 3, 1, 0), 0x0820107fffffffff);
    no_point("no cell", rg_centre(0), RG_MODE);
    number("length 0", rg_read_back(0, 0, 0, 0), base(0));
    no_number("length 0, another point", rg_read_back(0, 0, 0, 1), RG_NO_STRING);
    number("length 15", rg_read_back(15, LIMIT, LIMIT, LIMIT), 0x08f0000000000000);
    no_number("length 15, far out", rg_read_back(15, LIMIT, -LIMIT, -LIMIT), RG_NO_STRING);
    no_number("length 15, far out", rg_read_back(15, -LIMIT, LIMIT, LIMIT), RG_NO_STRING);
    for (uint64_t digit = 0; digit <= 6; digit++) {
        /* 0x049249249249 is fifteen times 1 */
        uint64_t cell = 0x08f0000000000000 | 0x049249249249 * digit;
        rg_point p = rg_centre(cell);
        number("centre and back at length 15", rg_read_back(15, p.i, p.j, p.k), cell);
    }
    EACH(at, too_long) {
        no_number("too long", rg_read_back(too_long[at], 0, 0, 0), RG_RESOLUTION);
        no_number("the length before the range", rg_read_back(too_long[at], LIMIT + 1, 0, 0), RG_RESOLUTION);
    }
    EACH(at, beyond) {
        no_number("i", rg_read_back(15, beyond[at], 0, 0), RG_RANGE);
        no_number("j", rg_read_back(0, 0, beyond[at], 0), RG_RANGE);
        no_number("k", rg_read_back(1, 0, 0, beyond[at]), RG_RANGE);
        no_number("one point, out of range", rg_read_back(0, beyond[at], beyond[at], beyond[at]), RG_RANGE);
    }
}

/* With turn number t the way back from a step is 7 - direction turned t times, and its turn number is 6 - t. */
static void ways_back(void)
{
    static const uint64_t bases[] = {0, 4, 63, 121};
    EACH(at, bases)
    for (uint64_t digits = 0; digits < 64; digits++)
        for (uint32_t d = 1; d <= 6; d++) {
            uint64_t cell = 0x0820007fffffffff | bases[at] << 45 | digits << 39;
            rg_stepped s = rg_step(cell, d);
            if (s.refusal != RG_ANSWERED || s.kind != RG_INSIDE)
                continue;
            expect(rg_check(s.cell).refusal == RG_ANSWERED, "the cell of a step is a cell");
            inside("the way back", rg_step(s.cell, (uint32_t)rg_direction_turn_ccw(7 - d, s.turn).value), cell, (6u - s.turn) % 6u);
        }
}

int main(void)
{
    expect(sizeof(rg_walked) == 16 && offsetof(rg_walked, refusal) == 0 && offsetof(rg_walked, zero) == 2 && offsetof(rg_walked, carry) == 4
               && offsetof(rg_walked, number) == 8,
           "places of rg_walked");
    expect(sizeof(rg_stepped) == 16 && offsetof(rg_stepped, refusal) == 0 && offsetof(rg_stepped, zero) == 2 && offsetof(rg_stepped, kind) == 4
               && offsetof(rg_stepped, turn) == 6 && offsetof(rg_stepped, cell) == 8,
           "places of rg_stepped");
    expect(RG_INSIDE == 0 && RG_LEAVES == 1, "the kinds");
    examples();
    directions();
    at_pentagons();
    turns();
    centres();
    ways_back();
    return expected();
}
