/* SPDX-License-Identifier: Apache-2.0 */
/* pump_test.c: its crash test. README.md says how it is built, and which writes it finds. */
#include "cfetbl_crash.h"
#include "pump.h"

#include <string.h>

/* What the application does in flight: it starts, counts two shifts, and gets other limits meanwhile. */
static void Scenario(void *Context)
{
    static const PUMP_Limits_t Slower = {800, 30};

    (void)Context;
    CFETBL_StartApp(1, "PUMP");
    PUMP_Init();
    PUMP_NewShift(1000);
    PUMP_Stroke();
    PUMP_Stroke();
    PUMP_SetLimits(&Slower);
    PUMP_NewShift(2000);
    PUMP_Stroke();
}

/* What cFE does after a reset: it starts the application. */
static CFE_Status_t Restart(void *Context)
{
    (void)Context;
    CFETBL_StartApp(1, "PUMP");
    return PUMP_Init();
}

/* What has to hold once it is up. */
static bool Invariant(void *Context, char *Why, size_t Room)
{
    (void)Context;
    if (PUMP_State.Limits.Most == 0) {
        snprintf(Why, Room, "there are no limits");
    } else if (PUMP_State.Count.Shift != PUMP_State.Since.Shift) {
        snprintf(Why, Room, "the strokes are of shift %u, and the time is of shift %u", (unsigned)PUMP_State.Count.Shift,
                 (unsigned)PUMP_State.Since.Shift);
    } else {
        return true;
    }
    return false;
}

int main(int Count, char **Words)
{
    struct CFETBL_CrashReport Report;
    bool HasPassed;

    CFETBL_StoreLikeCfe(Count > 1 && strcmp(Words[1], "like-cfe") == 0);
    HasPassed = CFETBL_ForEachReset(Scenario, Restart, Invariant, NULL, &Report) && Report.failed == 0;
    CFETBL_ReportText(stdout, &Report);
    CFETBL_FreeReport(&Report);
    return HasPassed ? 0 : 1;
}
