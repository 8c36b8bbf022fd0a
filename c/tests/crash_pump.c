/* SPDX-License-Identifier: Apache-2.0 */
/* crash_pump.c: the crash test of c/examples/crash_test, against the writes that its README.md works out. Compiled with PUMP_FAULTY it expects
 * the findings of the faulty form, and else none. */
#define main pump_main
#include "pump_test.c"
#undef main

#include "expect.h"

#include <stdlib.h>

/* A time limit in milliseconds that nothing reaches on a busy machine. */
enum { LIMIT = 60000 };

/* Which resets have a finding: those in a write after these numbers of bytes. */
struct expected {
    enum CFETBL_CrashOutcome outcome;
    uint32_t write, first, last;
};

#ifdef PUMP_FAULTY
enum { WRITES = 24, RESETS = 345, CALLS = 17 };

static const struct expected findings[] = {
    {CFETBL_CRASH_NOT_UP, 5, 0, 62},   {CFETBL_CRASH_NOT_UP, 6, 0, 0},    {CFETBL_CRASH_NOT_UP, 7, 0, 15},
    {CFETBL_CRASH_NOT_UP, 8, 0, 0},    {CFETBL_CRASH_BROKEN, 11, 0, 15},  {CFETBL_CRASH_BROKEN, 12, 0, 0},
    {CFETBL_CRASH_BROKEN, 21, 0, 15},  {CFETBL_CRASH_BROKEN, 22, 0, 0},
};

/* Over a store like cFE's: an image is torn from the first byte of its check word that differs up to the last byte that does. */
static const struct expected like_cfe[] = {
    {CFETBL_CRASH_NOT_UP, 5, 0, 62},   {CFETBL_CRASH_NOT_UP, 6, 0, 0},    {CFETBL_CRASH_NOT_UP, 7, 0, 15},
    {CFETBL_CRASH_BROKEN, 10, 0, 0},   {CFETBL_CRASH_BROKEN, 11, 0, 15},  {CFETBL_CRASH_BROKEN, 13, 5, 12},
    {CFETBL_CRASH_BROKEN, 15, 5, 12},  {CFETBL_CRASH_NOT_UP, 17, 5, 12},  {CFETBL_CRASH_BROKEN, 19, 5, 12},
    {CFETBL_CRASH_BROKEN, 19, 13, 15}, {CFETBL_CRASH_BROKEN, 20, 0, 0},   {CFETBL_CRASH_BROKEN, 21, 0, 4},
    {CFETBL_CRASH_BROKEN, 21, 5, 13},  {CFETBL_CRASH_BROKEN, 23, 5, 12},
};
#else
enum { WRITES = 20, RESETS = 371, CALLS = 15 };

static const struct expected findings[1];
static const struct expected like_cfe[1];
#endif

#define COUNT_OF(list) (sizeof(list) / sizeof(list)[0] * (WRITES == 24))

static uint32_t failed_of(const struct expected *list, size_t count)
{
    uint32_t sum = 0;
    size_t place;

    for (place = 0; place < count; place++) {
        sum += list[place].last - list[place].first + 1;
    }
    return sum;
}

/* The whole test, each byte of each write. */
static void try_all(const struct expected *list, size_t count)
{
    struct CFETBL_CrashOptions options = {0};
    struct CFETBL_CrashReport report;
    uint32_t sum = 0, place;

    options.limit = LIMIT;
    EXPECT(CFETBL_ForEachReset(Scenario, Restart, Invariant, &options, &report) && report.is_whole);
    for (place = 0; place < report.write_count; place++) {
        sum += report.writes[place].length;
    }
    EXPECT(report.calls == CALLS && report.write_count == WRITES && report.resets == RESETS && report.resets == sum && report.ends == 1);
    EXPECT(report.failed == failed_of(list, count) && report.finding_count == count);
    for (place = 0; place < report.finding_count && place < count; place++) {
        const struct CFETBL_CrashFinding *finding = &report.findings[place];

        EXPECT(finding->kind == CFETBL_CRASH_RESET && finding->outcome == list[place].outcome);
        EXPECT(finding->place.write == list[place].write && finding->place.first == list[place].first);
        EXPECT(finding->place.last == list[place].last && finding->count == list[place].last - list[place].first + 1);
        EXPECT(finding->outcome != CFETBL_CRASH_NOT_UP || finding->returned == CFE_TBL_ERR_NEVER_LOADED);
        EXPECT(strstr(finding->place.line, "pump") != NULL || strstr(finding->place.line, "+0x") != NULL);
    }
    CFETBL_FreeReport(&report);
}

/* Each kind of trouble at few places: the mended form has no finding of any. */
static void try_kinds(void)
{
    struct CFETBL_CrashOptions options = {0};
    struct CFETBL_CrashReport report;

    options.kinds = CFETBL_CRASH_RESET | CFETBL_CRASH_FAULT | CFETBL_CRASH_SECOND_RESET | CFETBL_CRASH_POWER_ON;
    options.inside = 1;
    options.limit = LIMIT;
    options.every = getenv("THIN") == NULL ? 0 : 64;
    EXPECT(CFETBL_ForEachReset(Scenario, Restart, Invariant, &options, &report));
    EXPECT(report.faults > 0 && report.second_resets > 0 && report.power_ons == WRITES);
    EXPECT((report.failed > 0) == (WRITES == 24));
    if (report.failed > 0 && WRITES != 24) {
        CFETBL_ReportText(stdout, &report);
    }
    CFETBL_FreeReport(&report);
}

int main(void)
{
    if (getenv("THIN") == NULL) {
        try_all(findings, COUNT_OF(findings));
        CFETBL_StoreLikeCfe(true);
        try_all(like_cfe, COUNT_OF(like_cfe));
        try_kinds();
        CFETBL_StoreLikeCfe(false);
    }
    try_kinds();
    (void)pump_main;
    return expected();
}
