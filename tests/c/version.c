/* The header and the archive are of one version. */
#include "expect.h"
#include "rivetgnome.h"

int main(void)
{
    expect(rg_version() == RG_VERSION, "rg_version() is %lu, RG_VERSION %lu", (unsigned long)rg_version(), (unsigned long)RG_VERSION);
    return expected();
}
