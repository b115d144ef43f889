/* rg_check from C, and from C++ where this file is compiled as such. */
#include "expect.h"
#include "rivetgnome.h"

#include <inttypes.h>
#include <stddef.h>

static void check(const char *what, uint64_t cell, unsigned refusal)
{
    rg_checked answer = rg_check(cell);
    expect(answer.refusal == refusal && answer.zero == 0, "%s (cell %016" PRIx64 ")", what, cell);
}

static const struct {
    const char *what;
    uint64_t cell;
    enum rg_refusal refusal;
} cases[] = {
    {"example 1", 0, RG_MODE},
    {"example 2", 0x080f3fffffffffff, RG_ANSWERED},
    {"example 3", 0x080f5fffffffffff, RG_BASE_CELL},
    {"example 4", 0x08101fffffffffff, RG_DIGIT},
    {"example 5", 0x08001ffffffffffe, RG_UNUSED},
    {"example 6", 0x081087ffffffffff, RG_DELETED},

    {"top bit", 0x880f3fffffffffff, RG_TOP_BIT},
    {"all bits", UINT64_MAX, RG_TOP_BIT},
    {"mode 0", 0x000f3fffffffffff, RG_MODE},
    {"mode 2", 0x100f3fffffffffff, RG_MODE},
    {"mode 9", 0x480f3fffffffffff, RG_MODE},
    {"reserved 1", 0x090f3fffffffffff, RG_RESERVED},
    {"reserved 4", 0x0c0f3fffffffffff, RG_RESERVED},
    {"base cell 127", 0x080fffffffffffff, RG_BASE_CELL},
    {"the last used digit is 7", 0x08f0000000000007, RG_DIGIT},
    {"the last unused digit is 6", 0x08e0000000000006, RG_UNUSED},
    {"the first unused digit is 0", 0x080003ffffffffff, RG_UNUSED},
    {"pentagon base cell, 1 after fourteen zeros", 0x08f0800000000001, RG_DELETED},

    {"top bit before mode", 0x8000000000000000, RG_TOP_BIT},
    {"mode before reserved", 0x07ffffffffffffff, RG_MODE},
    {"reserved before base cell", 0x0fffffffffffffff, RG_RESERVED},
    {"base cell before digit", 0x081f5fffffffffff, RG_BASE_CELL},
    {"digit before unused", 0x08101ffffffffffe, RG_DIGIT},
    {"digit before deleted", 0x082087ffffffffff, RG_DIGIT},
    {"unused before deleted", 0x081087fffffffffe, RG_UNUSED},

    {"resolution 0", 0x08001fffffffffff, RG_ANSWERED},
    {"resolution 15", 0x08f0000000000000, RG_ANSWERED},
    {"resolution 15, all 6", 0x08f01b6db6db6db6, RG_ANSWERED},
    {"pentagon of resolution 0", 0x08009fffffffffff, RG_ANSWERED},
    {"pentagon of resolution 1", 0x081083ffffffffff, RG_ANSWERED},
    {"pentagon of resolution 15", 0x08f0800000000000, RG_ANSWERED},
    {"pentagon base cell, 1 after another digit", 0x082088ffffffffff, RG_ANSWERED},
};

static void every_base_cell(void)
{
    static const uint64_t pentagons[] = {4, 14, 24, 38, 49, 58, 63, 72, 83, 97, 107, 117};
    size_t next = 0;
    for (uint64_t base = 0; base < 128; base++) {
        int pentagon = next < 12 && pentagons[next] == base;
        next += pentagon ? 1 : 0;
        for (uint64_t digit = 0; digit < 8; digit++) {
            uint64_t cell = 0x081003ffffffffff | base << 45 | digit << 42;
            unsigned refusal = RG_ANSWERED;
            if (base > 121)
                refusal = RG_BASE_CELL;
            else if (digit == 7)
                refusal = RG_DIGIT;
            else if (pentagon && digit == 1)
                refusal = RG_DELETED;
            check("every base cell and digit of resolution 1", cell, refusal);
        }
    }
}

int main(void)
{
    expect(sizeof(rg_checked) == 4, "size of rg_checked");
    expect(offsetof(rg_checked, refusal) == 0, "place of refusal");
    expect(offsetof(rg_checked, zero) == 2, "place of zero");
    expect(RG_DELETED_WAY == 17, "the last refusal");
    for (size_t at = 0; at < sizeof cases / sizeof cases[0]; at++)
        check(cases[at].what, cases[at].cell, cases[at].refusal);
    every_base_cell();
    return expected();
}
