/* SPDX-License-Identifier: Apache-2.0 */
/* thermal.c: the application, which is ordinary cFE code: nothing in it knows that Table Services are the library's. */
#include "thermal.h"

#include <string.h>

/* The lowest and the highest temperature that a sensor tells. */
#define THERMAL_COLDEST (-500)
#define THERMAL_HOTTEST 900

static struct {
    CFE_TBL_Handle_t Limits;
    CFE_TBL_Handle_t Heaters;
    uint8 On[THERMAL_ZONES];
} THERMAL_Data;

/* What is in force until the ground loads other limits. */
static const THERMAL_LimitsTable_t THERMAL_DefaultLimits = {{{-100, 50}, {-100, 50}, {0, 150}, {200, 250}}};

/* The validation function of the limits. */
static int32 THERMAL_ValidateLimits(void *TblPtr)
{
    const THERMAL_LimitsTable_t *Table = TblPtr;
    int Zone;

    for (Zone = 0; Zone < THERMAL_ZONES; Zone++) {
        if (Table->Zone[Zone].Low >= Table->Zone[Zone].High) {
            return THERMAL_LIMITS_ORDER_ERR;
        }
        if (Table->Zone[Zone].Low < THERMAL_COLDEST || Table->Zone[Zone].High > THERMAL_HOTTEST) {
            return THERMAL_LIMITS_RANGE_ERR;
        }
    }
    return CFE_SUCCESS;
}

/* The validation function of the heaters that were given up. */
static int32 THERMAL_ValidateHeaters(void *TblPtr)
{
    const THERMAL_HeatersTable_t *Table = TblPtr;
    int Zone;

    for (Zone = 0; Zone < THERMAL_ZONES; Zone++) {
        if (Table->GivenUp[Zone] > 1) {
            return THERMAL_HEATERS_VALUE_ERR;
        }
    }
    return CFE_SUCCESS;
}

/* Registers the limits, and loads those that are in force at first. */
static CFE_Status_t THERMAL_InitLimits(void)
{
    CFE_Status_t Status = CFE_TBL_Register(&THERMAL_Data.Limits, "LIMITS", sizeof(THERMAL_LimitsTable_t), CFE_TBL_OPT_DBL_BUFFER,
                                           THERMAL_ValidateLimits);

    if (Status != CFE_SUCCESS) {
        return Status;
    }
    return CFE_TBL_Load(THERMAL_Data.Limits, CFE_TBL_SRC_ADDRESS, &THERMAL_DefaultLimits);
}

/* Registers the heaters. After a reset of the processor they are those of before; else all of them are in use. */
static CFE_Status_t THERMAL_InitHeaters(void)
{
    static const THERMAL_HeatersTable_t InUse;
    CFE_Status_t Status =
        CFE_TBL_Register(&THERMAL_Data.Heaters, "HEATERS", sizeof(THERMAL_HeatersTable_t), CFE_TBL_OPT_CRITICAL, THERMAL_ValidateHeaters);

    if (Status == CFE_TBL_INFO_RECOVERED_TBL) {
        return CFE_SUCCESS;
    }
    if (Status != CFE_SUCCESS) {
        return Status;
    }
    return CFE_TBL_Load(THERMAL_Data.Heaters, CFE_TBL_SRC_ADDRESS, &InUse);
}

CFE_Status_t THERMAL_Init(void)
{
    CFE_Status_t Status;

    memset(&THERMAL_Data, 0, sizeof(THERMAL_Data));
    Status = THERMAL_InitLimits();
    return Status == CFE_SUCCESS ? THERMAL_InitHeaters() : Status;
}

/* Does what the ground asked for: validations, updates, dumps. */
CFE_Status_t THERMAL_Housekeeping(void)
{
    CFE_Status_t Status = CFE_TBL_Manage(THERMAL_Data.Limits);

    if (Status < CFE_SUCCESS) {
        return Status;
    }
    return CFE_TBL_Manage(THERMAL_Data.Heaters);
}

/* One step of the control loop. */
CFE_Status_t THERMAL_Control(const int16 Temperature[THERMAL_ZONES], uint8 Heater[THERMAL_ZONES])
{
    CFE_TBL_Handle_t Handles[2];
    void *Limits, *Heaters;
    void **Addresses[2];
    CFE_Status_t Status;
    int Zone;

    Handles[0] = THERMAL_Data.Limits;
    Handles[1] = THERMAL_Data.Heaters;
    Addresses[0] = &Limits;
    Addresses[1] = &Heaters;
    Status = CFE_TBL_GetAddresses(Addresses, 2, Handles);
    if (Status < CFE_SUCCESS) {
        return Status;
    }
    for (Zone = 0; Zone < THERMAL_ZONES; Zone++) {
        const THERMAL_Limits_t *At = &((const THERMAL_LimitsTable_t *)Limits)->Zone[Zone];

        if (Temperature[Zone] < At->Low) {
            THERMAL_Data.On[Zone] = 1;
        } else if (Temperature[Zone] > At->High) {
            THERMAL_Data.On[Zone] = 0;
        }
        Heater[Zone] = THERMAL_Data.On[Zone] && !((const THERMAL_HeatersTable_t *)Heaters)->GivenUp[Zone];
    }
    Status = CFE_TBL_ReleaseAddresses(2, Handles);
    return Status < CFE_SUCCESS ? Status : CFE_SUCCESS;
}

/* Gives up a zone's heater, for good. */
CFE_Status_t THERMAL_GiveUp(int Zone)
{
    THERMAL_HeatersTable_t Table;
    void *Address;
    CFE_Status_t Status = CFE_TBL_GetAddress(&Address, THERMAL_Data.Heaters);

    if (Status < CFE_SUCCESS) {
        return Status;
    }
    Table = *(const THERMAL_HeatersTable_t *)Address;
    Status = CFE_TBL_ReleaseAddress(THERMAL_Data.Heaters);
    if (Status < CFE_SUCCESS) {
        return Status;
    }
    Table.GivenUp[Zone] = 1;
    return CFE_TBL_Load(THERMAL_Data.Heaters, CFE_TBL_SRC_ADDRESS, &Table);
}
