/* SPDX-License-Identifier: Apache-2.0 */
/* expect.h: what the tests of the library count. */
#ifndef EXPECT_H
#define EXPECT_H

#include <stdio.h>
#include <string.h>

static int failed;

#define EXPECT(condition)                                                  \
    do {                                                                   \
        if (!(condition)) {                                                \
            printf("%s:%d: not so: %s\n", __FILE__, __LINE__, #condition); \
            failed++;                                                      \
        }                                                                  \
    } while (0)

/* Whether the last message has these words. */
#define EXPECT_MESSAGE(words)                                                                               \
    do {                                                                                                    \
        if (strstr(CFETBL_LastMessage(), words) == NULL) {                                                  \
            printf("%s:%d: no message '%s', but '%s'\n", __FILE__, __LINE__, words, CFETBL_LastMessage()); \
            failed++;                                                                                       \
        }                                                                                                   \
    } while (0)

/* The status of a test. */
static inline int expected(void)
{
    printf("%s\n", failed == 0 ? "all as expected" : "some cases failed");
    return failed == 0 ? 0 : 1;
}

#endif
