/* What the C tests share: a count of what holds and what does not. */
#ifndef EXPECT_H
#define EXPECT_H

#include <stdio.h>

static int passed, failed;

/* expect(holds, format, ..) */
#define expect(holds, ...) ((holds) ? (void)passed++ : (void)(failed++, printf("failed: "), printf(__VA_ARGS__), printf("\n")))

/* The last line and the status of a test. */
static int expected(void)
{
    printf("%d passed, %d failed\n", passed, failed);
    return failed != 0;
}

#endif
