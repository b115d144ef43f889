/* The functions over blocks from C, and from C++ where this file is compiled as such: each element against the single function. */
#include "expect.h"
#include "rivetgnome.h"

#include <inttypes.h>
#include <string.h>

static const uint64_t PENTAGON = 0x08009fffffffffff, HEXAGON = 0x08001fffffffffff, UNTOUCHED = 0xeeeeeeeeeeeeeeee;
static const uint16_t UNTOUCHED_TOO = 0xeeee;
enum { MOST = 8193, ROOM = MOST + 3 };

static uint64_t block[MOST], values[ROOM];
static uint16_t refusals[ROOM];

static void clear(void)
{
    for (size_t at = 0; at < ROOM; at++) {
        values[at] = UNTOUCHED;
        refusals[at] = UNTOUCHED_TOO;
    }
}

/* All from an element on are as they were. */
static void untouched(const char *what, size_t from)
{
    size_t at = from;
    while (at < ROOM && values[at] == UNTOUCHED && refusals[at] == UNTOUCHED_TOO)
        at++;
    expect(at == ROOM, "%s: element %zu is touched", what, at);
}

static void answered(const char *what, rg_number a, size_t length)
{
    expect(a.refusal == RG_ANSWERED && a.zero == 0 && a.value == length, "%s: found refusal %u, %" PRIu64 ", expected %zu", what, a.refusal,
           a.value, length);
}

static void no_room(const char *what, rg_number a)
{
    expect(a.refusal == RG_NO_ROOM && a.zero == 0 && a.value == 0, "%s: found refusal %u, value %" PRIu64, what, a.refusal, a.value);
    untouched(what, 0);
}

/* What the single function answers for a number, with `with` as its other argument. */
typedef rg_number single(uint64_t number, uint64_t with);
typedef rg_number over(uint64_t with, size_t length, size_t values_length, size_t refusals_length);

static rg_number check_one(uint64_t number, uint64_t with)
{
    rg_number a;
    (void)with;
    a.refusal = rg_check(number).refusal;
    a.zero = 0;
    a.value = a.refusal == RG_ANSWERED ? number : 0;
    return a;
}

static rg_number ancestor_one(uint64_t number, uint64_t with)
{
    return rg_ancestor(number, (uint32_t)with);
}

static rg_number position_one(uint64_t number, uint64_t with)
{
    return rg_position(with, number);
}

static rg_number check_all(uint64_t with, size_t length, size_t values_length, size_t refusals_length)
{
    (void)with;
    return rg_check_block(block, length, values, values_length, refusals, refusals_length);
}

static rg_number ancestor_all(uint64_t with, size_t length, size_t values_length, size_t refusals_length)
{
    return rg_ancestor_block(block, length, (uint32_t)with, values, values_length, refusals, refusals_length);
}

static rg_number position_all(uint64_t with, size_t length, size_t values_length, size_t refusals_length)
{
    return rg_position_block(with, block, length, values, values_length, refusals, refusals_length);
}

/* Cells under both kinds of base cell at all resolutions, and every fifth number damaged. */
static void fill(void)
{
    for (size_t at = 0; at < MOST; at++) {
        uint64_t cell = at % 2 ? PENTAGON : HEXAGON;
        uint32_t target = (uint32_t)(at % 16);
        block[at] = rg_child_at(cell, target, at * at % rg_count(cell, target).value).value;
        if (at % 5 == 0)
            block[at] ^= (uint64_t)1 << at % 64;
    }
    block[3] = 0;
    block[4] = UINT64_MAX;
}

static void each(const char *what, single *one, over *all, uint64_t with)
{
    static const size_t lengths[] = {0, 1, 2, 5, 64, 8192, MOST};
    for (size_t i = 0; i < sizeof lengths / sizeof lengths[0]; i++) {
        size_t length = lengths[i], wrong = 0;
        clear();
        answered(what, all(with, length, length, ROOM), length);
        for (size_t at = 0; at < length; at++) {
            rg_number a = one(block[at], with);
            wrong += a.refusal != refusals[at] || a.value != values[at];
        }
        expect(wrong == 0, "%s: %zu of %zu elements", what, wrong, length);
        untouched(what, length);
        answered(what, all(with, length, ROOM, length), length);
        untouched(what, length);
        clear();
        if (length > 0) {
            no_room(what, all(with, length, length - 1, ROOM));
            no_room(what, all(with, length, ROOM, length - 1));
            no_room(what, all(with, length, 0, 0));
        }
    }
}

static void examples(void)
{
    block[0] = 0x8a1fb46622dffff;
    block[1] = 0;
    block[2] = PENTAGON;
    clear();
    answered("check", rg_check_block(block, 3, values, 3, refusals, 3), 3);
    expect(values[0] == block[0] && refusals[0] == RG_ANSWERED, "a cell is kept");
    expect(values[1] == 0 && refusals[1] == RG_MODE, "what is none is 0");
    expect(values[2] == PENTAGON && refusals[2] == RG_ANSWERED, "the next cell is kept");
    untouched("check", 3);
    answered("ancestor", rg_ancestor_block(block, 3, 5, values, ROOM, refusals, ROOM), 3);
    expect(values[0] == 0x851fb467fffffff && refusals[0] == RG_ANSWERED, "an ancestor");
    expect(values[1] == 0 && refusals[1] == RG_MODE, "the ancestor of none");
    expect(values[2] == 0 && refusals[2] == RG_ORDER, "an ancestor that is finer");
    answered("no resolution", rg_ancestor_block(block, 3, 16, values, ROOM, refusals, ROOM), 3);
    expect(refusals[0] == RG_RESOLUTION && refusals[1] == RG_MODE && refusals[2] == RG_RESOLUTION, "no resolution");
    answered("position", rg_position_block(0x881fb46623fffff, block, 3, values, ROOM, refusals, ROOM), 3);
    expect(values[0] == 24 && refusals[0] == RG_ANSWERED, "a position");
    expect(refusals[1] == RG_MODE && refusals[2] == RG_NOT_UNDER && values[2] == 0, "not under");
    answered("no first cell", rg_position_block(UINT64_MAX, block, 3, values, ROOM, refusals, ROOM), 3);
    expect(refusals[0] == RG_TOP_BIT && refusals[1] == RG_TOP_BIT && refusals[2] == RG_TOP_BIT, "no first cell");
    untouched("all", 3);
}

static void nothing(void)
{
    answered("NULL", rg_check_block(NULL, 0, NULL, 0, NULL, 0), 0);
    answered("NULL", rg_ancestor_block(NULL, 0, 99, NULL, 0, NULL, 0), 0);
    answered("NULL", rg_position_block(0, NULL, 0, NULL, 0, NULL, 0), 0);
    clear();
    no_room("NULL values", rg_check_block(block, 1, NULL, 0, refusals, ROOM));
    no_room("NULL refusals", rg_check_block(block, 1, values, ROOM, NULL, 0));
    answered("room for nothing", rg_check_block(NULL, 0, values, ROOM, refusals, ROOM), 0);
    untouched("nothing", 0);
}

int main(void)
{
    static const uint32_t resolutions[] = {0, 5, 15, 16, 256, UINT32_MAX};
    examples();
    nothing();
    fill();
    each("check", check_one, check_all, 0);
    for (size_t i = 0; i < sizeof resolutions / sizeof resolutions[0]; i++)
        each("ancestor", ancestor_one, ancestor_all, resolutions[i]);
    each("position under a hexagon", position_one, position_all, HEXAGON);
    each("position under a pentagon", position_one, position_all, PENTAGON);
    each("position under no cell", position_one, position_all, 0x081087ffffffffff);
    return expected();
}
