/* SPDX-License-Identifier: Apache-2.0 */
/* crash_starved.c: each allocation of a crash test's driver fails in turn, linked with -Wl,--wrap= for malloc, calloc, realloc and mmap. It ends
 * with a message and the report so far, or as ever. */
#define _DEFAULT_SOURCE

#include "cfetbl_crash.h"
#include "expect.h"

#include <stdlib.h>
#include <sys/mman.h>
#include <unistd.h>

void *__real_malloc(size_t size);
void *__wrap_malloc(size_t size);
void *__real_calloc(size_t count, size_t size);
void *__wrap_calloc(size_t count, size_t size);
void *__real_realloc(void *at, size_t size);
void *__wrap_realloc(void *at, size_t size);
void *__real_mmap(void *at, size_t size, int may, int how, int file, off_t offset);
void *__wrap_mmap(void *at, size_t size, int may, int how, int file, off_t offset);

enum { MOST = 100 };

/* How many allocations there are until the one that fails, with it, in this process; 0 if none does. */
static unsigned left;
static pid_t starved;

static bool fails(void)
{
    if (left > 0 && getpid() == starved) {
        left -= 1;
        return left == 0;
    }
    return false;
}

void *__wrap_malloc(size_t size)
{
    return fails() ? NULL : __real_malloc(size);
}

void *__wrap_calloc(size_t count, size_t size)
{
    return fails() ? NULL : __real_calloc(count, size);
}

void *__wrap_realloc(void *at, size_t size)
{
    return fails() ? NULL : __real_realloc(at, size);
}

void *__wrap_mmap(void *at, size_t size, int may, int how, int file, off_t offset)
{
    return fails() ? MAP_FAILED : __real_mmap(at, size, may, how, file, offset);
}

static void scenario(void *context)
{
    CFE_ES_CDSHandle_t block;

    (void)context;
    CFETBL_StartApp(1, "A");
    CFE_ES_RegisterCDS(&block, 4, "B");
    CFE_ES_CopyToCDS(block, "abcd");
}

static CFE_Status_t restart(void *context)
{
    (void)context;
    return CFE_ES_BAD_ARGUMENT;
}

int main(void)
{
    struct CFETBL_CrashOptions options = {0};
    struct CFETBL_CrashReport report;
    unsigned at;
    bool is_whole = false;

    starved = getpid();
    options.every = 64;
    for (at = 1; at < MOST && !is_whole; at++) {
        left = at;
        is_whole = CFETBL_ForEachReset(scenario, restart, NULL, &options, &report);
        is_whole = is_whole && left > 0;
        left = 0;
        if (!report.is_whole) {
            EXPECT_MESSAGE("out of memory");
        }
        EXPECT(report.finding_count <= 5 && report.write_count <= 4);
        CFETBL_FreeReport(&report);
    }
    EXPECT(is_whole && at > 5 && at < MOST);
    return expected();
}
