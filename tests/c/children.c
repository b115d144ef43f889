/* The functions of descendants and ancestors from C, and from C++ where this file is compiled as such. */
#include "expect.h"
#include "rivetgnome.h"

#include <inttypes.h>
#include <string.h>

static const uint64_t PENTAGON = 0x08009fffffffffff, HEXAGON = 0x08001fffffffffff, UNTOUCHED = 0xeeeeeeeeeeeeeeee;
static const uint64_t INVALID = 0x081087ffffffffff; /* RG_DELETED */
static const uint32_t no_resolutions[] = {16, 17, 255, 256, 257, 65536, UINT32_MAX};
enum { ROOM = 3000 };
#define EACH(at, list) for (size_t at = 0; at < sizeof list / sizeof list[0]; at++)

static void number(const char *what, rg_number a, uint64_t value)
{
    expect(a.refusal == RG_ANSWERED && a.zero == 0 && a.value == value, "%s: found refusal %u, %" PRIx64 ", expected %" PRIx64, what,
           a.refusal, a.value, value);
}

static void no_number(const char *what, rg_number a, unsigned refusal)
{
    expect(a.refusal == refusal && a.zero == 0 && a.value == 0, "%s: found refusal %u, value %" PRIx64 ", expected refusal %u", what,
           a.refusal, a.value, refusal);
}

static void checked(const char *what, rg_checked a, unsigned refusal)
{
    expect(a.refusal == refusal && a.zero == 0, "%s: found refusal %u, expected %u", what, a.refusal, refusal);
}

static uint64_t cells[ROOM];

static void clear(void)
{
    EACH(at, cells) {
        cells[at] = UNTOUCHED;
    }
}

/* All from an element on are as they were. */
static void untouched(const char *what, size_t from)
{
    size_t at = from;
    while (at < ROOM && cells[at] == UNTOUCHED)
        at++;
    expect(at == ROOM, "%s: element %zu is touched", what, at);
}

static void examples(void)
{
    static const uint64_t children[] = {0x081083ffffffffff, 0x08108bffffffffff, 0x08108fffffffffff,
                                        0x081093ffffffffff, 0x081097ffffffffff, 0x08109bffffffffff};
    number("example 7, n = 0", rg_count(PENTAGON, 0), 1);
    number("example 7, n = 1", rg_count(PENTAGON, 1), 6);
    number("example 7, n = 2", rg_count(PENTAGON, 2), 41);
    number("example 7, n = 15", rg_count(PENTAGON, 15), 3956301258286);
    number("7 to the power of 15", rg_count(HEXAGON, 15), 4747561509943);
    number("no pentagon in a pentagon base cell", rg_count(children[1], 2), 7);
    number("a pentagon below a pentagon", rg_count(children[0], 2), 6);
    clear();
    number("example 8", rg_list(PENTAGON, 1, cells, 6), 6);
    expect(memcmp(cells, children, sizeof children) == 0, "example 8: the list");
    untouched("example 8", 6);
    clear();
    no_number("example 8, room for 5", rg_list(PENTAGON, 1, cells, 5), RG_NO_ROOM);
    untouched("example 8, room for 5", 0);
    number("example 8, room for all", rg_list(PENTAGON, 1, cells, ROOM), 6);
    expect(memcmp(cells, children, sizeof children) == 0, "example 8, room for all: the list");
    untouched("example 8, room for all", 6);
    clear();
    number("the short listing", rg_list_short(PENTAGON, cells, 6), 6);
    expect(memcmp(cells, children, sizeof children) == 0, "the short listing: the list");
    untouched("the short listing", 6);
    clear();
    no_number("the short listing, room for 5", rg_list_short(PENTAGON, cells, 5), RG_NO_ROOM);
    untouched("the short listing, room for 5", 0);
}

static void rooms(void)
{
    number("the cell itself", rg_list(HEXAGON, 0, cells, 1), 1);
    expect(cells[0] == HEXAGON, "the cell itself: the list");
    no_number("no room for the cell itself", rg_list(HEXAGON, 0, cells, 0), RG_NO_ROOM);
    no_number("NULL", rg_list(PENTAGON, 1, NULL, 0), RG_NO_ROOM);
    no_number("NULL, the short listing", rg_list_short(PENTAGON, NULL, 0), RG_NO_ROOM);
    no_number("NULL, refused before", rg_list(0, 1, NULL, 0), RG_MODE);
    no_number("NULL, too coarse", rg_list(0x081083ffffffffff, 0, NULL, 0), RG_ORDER);
    no_number("NULL, the short listing at resolution 15", rg_list_short(0x08f0800000000000, NULL, 0), RG_RESOLUTION);
    clear();
    no_number("far too long", rg_list(HEXAGON, 15, cells, ROOM), RG_NO_ROOM);
    no_number("the short listing at resolution 15", rg_list_short(0x08f0800000000000, cells, ROOM), RG_RESOLUTION);
    no_number("the short listing of no cell", rg_list_short(INVALID, cells, ROOM), RG_DELETED);
    no_number("the listing of no cell", rg_list(INVALID, 1, cells, ROOM), RG_DELETED);
    untouched("refused", 0);
}

/* Every function that takes a resolution, at each that is none, and what is looked for before and after. */
static void resolutions(void)
{
    const uint64_t finest = 0x08f0000000000000;
    rg_cursor_state at;
    memset(&at, 0xee, sizeof at);
    const rg_cursor_state before = at;
    clear();
    EACH(i, no_resolutions) {
        uint32_t r = no_resolutions[i];
        no_number("count", rg_count(PENTAGON, r), RG_RESOLUTION);
        no_number("list", rg_list(PENTAGON, r, cells, ROOM), RG_RESOLUTION);
        no_number("list, no room either", rg_list(PENTAGON, r, NULL, 0), RG_RESOLUTION);
        no_number("child at", rg_child_at(PENTAGON, r, 0), RG_RESOLUTION);
        no_number("child at, no position either", rg_child_at(PENTAGON, r, UINT64_MAX), RG_RESOLUTION);
        no_number("ancestor", rg_ancestor(PENTAGON, r), RG_RESOLUTION);
        checked("cursor", rg_cursor(PENTAGON, r, &at), RG_RESOLUTION);
        no_number("count of no cell", rg_count(INVALID, r), RG_DELETED);
        no_number("ancestor of no cell", rg_ancestor(INVALID, r), RG_DELETED);
        checked("cursor of no cell", rg_cursor(INVALID, r, &at), RG_DELETED);
    }
    for (uint32_t r = 0; r < 15; r++) {
        no_number("count, too coarse", rg_count(finest, r), RG_ORDER);
        no_number("list, too coarse", rg_list(finest, r, cells, ROOM), RG_ORDER);
        no_number("child at, too coarse", rg_child_at(finest, r, 0), RG_ORDER);
        checked("cursor, too coarse", rg_cursor(finest, r, &at), RG_ORDER);
        no_number("ancestor, too fine", rg_ancestor(HEXAGON, r + 1), RG_ORDER);
        expect(rg_ancestor(finest, r).refusal == RG_ANSWERED, "ancestor of the finest at %u", r);
    }
    number("count at 15", rg_count(finest, 15), 1);
    number("ancestor at 15", rg_ancestor(finest, 15), finest);
    number("ancestor at 0", rg_ancestor(finest, 0), HEXAGON);
    number("ancestor at the own resolution", rg_ancestor(PENTAGON, 0), PENTAGON);
    expect(memcmp(&at, &before, sizeof at) == 0, "a refused cursor is not written");
    untouched("a refused listing", 0);
}

static rg_cursor_state started(uint64_t cell, uint32_t target)
{
    rg_cursor_state at;
    memset(&at, 0xee, sizeof at);
    checked("cursor", rg_cursor(cell, target, &at), RG_ANSWERED);
    return at;
}

/* Refused, and every word is as it was. */
static void forged(const char *what, rg_cursor_state at)
{
    rg_cursor_state copy = at;
    no_number(what, rg_next(&copy), RG_POSITION);
    expect(memcmp(&copy, &at, sizeof at) == 0, "%s: the cursor is changed", what);
}

static void damaged(rg_cursor_state at)
{
    static const uint64_t by[] = {1, 2, 16, 255, 256, 65536, (uint64_t)1 << 32, (uint64_t)1 << 63, UINT64_MAX};
    static const uint64_t skips[] = {16, 255, 256, INT32_MAX, (uint64_t)INT32_MAX + 1, UINT32_MAX, (uint64_t)1 << 32, UINT64_MAX - 1,
                                     UINT64_MAX - INT32_MAX, UINT64_MAX - INT32_MAX - 1, UINT64_MAX - UINT32_MAX};
    EACH(i, by) {
        rg_cursor_state own = at, target = at, skip = at, left = at;
        own.own += by[i];
        target.target += by[i];
        skip.skip += by[i];
        left.left += by[i];
        /* an own resolution that is wrong is another cell's, and may fit there */
        if (own.own > 15)
            forged("own resolution", own);
        forged("target", target);
        forged("skip", skip);
        /* the last descendant goes with 1 left and with none */
        if (left.left > 1)
            forged("left", left);
    }
    EACH(i, skips) {
        rg_cursor_state skip = at;
        skip.skip = skips[i];
        forged("skip", skip);
    }
    for (unsigned bit = 0; bit < 64; bit++) {
        rg_cursor_state at_bit = at;
        at_bit.number ^= (uint64_t)1 << bit;
        /* with another base cell or digit of the cell itself it is another cell's, and may fit there */
        if (bit + 3 * at.own < 45 || bit > 51)
            forged("number", at_bit);
    }
    rg_cursor_state none = at;
    none.number = 0;
    forged("number 0", none);
    none.number = UINT64_MAX;
    forged("number all ones", none);
}

/* Listing, cursor, child at, position and ancestor agree on all descendants of a cell. */
static void agree(uint64_t cell, uint32_t target)
{
    uint64_t own = cell >> 52 & 15, count = rg_count(cell, target).value;
    clear();
    number("list", rg_list(cell, target, cells, (size_t)count), count);
    untouched("list", (size_t)count);
    rg_cursor_state at = started(cell, target);
    expect(at.own == own && at.target == target && at.number == cells[0] && at.left == count, "a fresh cursor");
    for (uint64_t p = 0; p < count; p++) {
        uint64_t child = cells[p];
        expect(p == 0 || cells[p - 1] < child, "ascending");
        expect(rg_check(child).refusal == RG_ANSWERED && (child >> 52 & 15) == target, "a cell of the target resolution");
        number("child at", rg_child_at(cell, target, p), child);
        number("position", rg_position(cell, child), p);
        number("ancestor", rg_ancestor(child, (uint32_t)own), cell);
        if (p % 97 == 0)
            damaged(at);
        number("next", rg_next(&at), child);
        expect(at.left == count - p - 1, "one less is left");
    }
    const rg_cursor_state done = at;
    number("done", rg_next(&at), 0);
    number("done again", rg_next(&at), 0);
    expect(memcmp(&at, &done, sizeof at) == 0, "done changes nothing");
    damaged(at);
    no_number("child at the count", rg_child_at(cell, target, count), RG_POSITION);
    no_number("child at the last number", rg_child_at(cell, target, UINT64_MAX), RG_POSITION);
    if (own < target)
        no_number("a coarser second cell", rg_position(cells[0], cell), RG_NOT_UNDER);
    if (target == own + 1)
        number("the short listing", rg_list_short(cell, cells, ROOM), count);
}

static void positions(void)
{
    number("a cell under itself", rg_position(PENTAGON, PENTAGON), 0);
    number("the last of 7 to the power of 15", rg_child_at(HEXAGON, 15, 4747561509942), 0x08f01b6db6db6db6);
    number("the last below a pentagon", rg_child_at(PENTAGON, 15, 3956301258285), 0x08f09b6db6db6db6);
    number("its position", rg_position(PENTAGON, 0x08f09b6db6db6db6), 3956301258285);
    no_number("another base cell", rg_position(PENTAGON, HEXAGON), RG_NOT_UNDER);
    no_number("another digit", rg_position(0x08108bffffffffff, 0x0820907fffffffff), RG_NOT_UNDER);
    no_number("no first cell", rg_position(INVALID, 0), RG_DELETED);
    no_number("no second cell", rg_position(PENTAGON, 0), RG_MODE);
}

int main(void)
{
    expect(sizeof(rg_cursor_state) == 40 && offsetof(rg_cursor_state, own) == 0 && offsetof(rg_cursor_state, target) == 8
               && offsetof(rg_cursor_state, number) == 16 && offsetof(rg_cursor_state, skip) == 24 && offsetof(rg_cursor_state, left) == 32,
           "places of rg_cursor_state");
    examples();
    rooms();
    resolutions();
    positions();
    agree(PENTAGON, 0);
    agree(PENTAGON, 1);
    agree(PENTAGON, 4);
    agree(HEXAGON, 0);
    agree(HEXAGON, 4);
    agree(0x08108bffffffffff, 3); /* no pentagon, in a pentagon base cell */
    agree(0x08d080000000003f, 15);
    agree(0x08f0800000000000, 15);
    agree(0x08e0000000000007, 15);
    return expected();
}
