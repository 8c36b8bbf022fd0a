/* SPDX-License-Identifier: Apache-2.0 */
/* validate.c: the validation function of the limits, which is ordinary cFE code. */
#include "checker.h"

/* Whether a point may be loaded: it says why not in an event. */
static int32 CHECKER_ValidatePoint(int Number, const CHECKER_Point_t *Point)
{
    if (Point->Name[0] == '\0' || Point->Name[CHECKER_NAME - 1] != '\0') {
        CFE_EVS_SendEvent(CHECKER_VALIDATION_EID, CFE_EVS_EventType_ERROR, "Point %d: no name, or one without an end", Number);
        return CHECKER_NAME_ERR;
    }
    /* A limit that is no number is not below the other one. */
    if (!(Point->Low < Point->High)) {
        CFE_EVS_SendEvent(CHECKER_VALIDATION_EID, CFE_EVS_EventType_ERROR, "Point %d (%s): low limit %.2f, high limit %.2f", Number,
                          Point->Name, Point->Low, Point->High);
        return CHECKER_ORDER_ERR;
    }
    if (Point->Persistence == 0) {
        CFE_EVS_SendEvent(CHECKER_VALIDATION_EID, CFE_EVS_EventType_ERROR, "Point %d (%s): no persistence", Number, Point->Name);
        return CHECKER_PERSISTENCE_ERR;
    }
    return CFE_SUCCESS;
}

int32 CHECKER_ValidateLimits(void *TblPtr)
{
    const CHECKER_Limits_t *Table = TblPtr;
    int32 Status = CFE_SUCCESS;
    int Number, Used = 0;

    if (!(Table->Period >= 0.1)) {
        CFE_EVS_SendEvent(CHECKER_VALIDATION_EID, CFE_EVS_EventType_ERROR, "Period %.3f s is too short", Table->Period);
        return CHECKER_PERIOD_ERR;
    }
    for (Number = 0; Number < CHECKER_POINTS && Status == CFE_SUCCESS; Number++) {
        if (Table->Point[Number].Action != CHECKER_UNUSED) {
            Used++;
            Status = CHECKER_ValidatePoint(Number, &Table->Point[Number]);
        }
    }
    if (Status == CFE_SUCCESS) {
        CFE_EVS_SendEvent(CHECKER_VALIDATION_EID, CFE_EVS_EventType_INFORMATION, "Limits version %u: %d points in use",
                          (unsigned)Table->Version, Used);
    }
    return Status;
}
