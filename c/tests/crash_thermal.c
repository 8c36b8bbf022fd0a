/* SPDX-License-Identifier: Apache-2.0 */
/* crash_thermal.c: the crash test of c/examples/thermal: no heater that was given up comes back into use, over the service's own store. Over one
 * like cFE's a reset inside a copy loses them all. */
#include "cfetbl_crash.h"
#include "expect.h"
#include "thermal.h"

#include <stdlib.h>

static const int16 cold[THERMAL_ZONES] = {-150, -150, -150, -150};

/* How many heaters were given up, as THERMAL_GiveUp answered, and how many are in use after a restart. */
static int given_up, in_use;

static void scenario(void *context)
{
    int zone;

    (void)context;
    CFETBL_StartApp(1, "THERMAL");
    (void)THERMAL_Init();
    for (zone = 0; zone < THERMAL_ZONES; zone++) {
        given_up += THERMAL_GiveUp(zone) == CFE_SUCCESS;
    }
}

static CFE_Status_t restart(void *context)
{
    uint8 heaters[THERMAL_ZONES] = {0};
    CFE_Status_t status;
    int zone;

    (void)context;
    CFETBL_StartApp(1, "THERMAL");
    status = THERMAL_Init();
    status = status == CFE_SUCCESS ? THERMAL_Control(cold, heaters) : status;
    for (zone = 0, in_use = 0; zone < THERMAL_ZONES; zone++) {
        in_use += heaters[zone];
    }
    return status;
}

static bool is_kept(void *context, char *why, size_t room)
{
    int gone = THERMAL_ZONES - in_use;

    (void)context;
    snprintf(why, room, "%d heaters were given up, and %d are", given_up, gone);
    return gone == given_up || gone == given_up + 1;
}

int main(void)
{
    struct CFETBL_CrashOptions options = {0};
    struct CFETBL_CrashReport report;

    options.notes = &given_up;
    options.notes_size = sizeof given_up;
    options.limit = 60000; /* which nothing reaches on a busy machine */
    options.every = getenv("THIN") == NULL ? 1 : 32;
    EXPECT(CFETBL_ForEachReset(scenario, restart, is_kept, &options, &report) && report.failed == 0 && report.write_count == 12);
    CFETBL_FreeReport(&report);
    CFETBL_StoreLikeCfe(true);
    options.every = getenv("THIN") == NULL ? 1 : 10;
    EXPECT(CFETBL_ForEachReset(scenario, restart, is_kept, &options, &report) && report.failed > 0);
    EXPECT(report.findings[0].outcome == CFETBL_CRASH_BROKEN && strstr(report.findings[0].place.what, "image of THERMAL.HEATERS") != NULL);
    CFETBL_FreeReport(&report);
    return expected();
}
