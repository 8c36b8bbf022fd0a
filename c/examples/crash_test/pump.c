/* SPDX-License-Identifier: Apache-2.0 */
/* pump.c: the application, which is ordinary cFE code: nothing in it knows of a crash test. */
#include "pump.h"

#include <string.h>

#define PUMP_BLOCKS 2

/* What a block of the Critical Data Store has. In the mended form each has all of it, with a number that rises by each save. */
typedef struct {
    uint32 Number;
    PUMP_Count_t Count;
    PUMP_Since_t Since;
} PUMP_Saved_t;

PUMP_State_t PUMP_State;

static struct {
    CFE_TBL_Handle_t Limits;
    CFE_ES_CDSHandle_t Block[PUMP_BLOCKS];
    uint32 Number; /* of the last save */
} PUMP_Data;

static const PUMP_Limits_t PUMP_DefaultLimits = {1000, 40};

static int32 PUMP_ValidateLimits(void *TblPtr)
{
    const PUMP_Limits_t *Limits = TblPtr;

    return Limits->Most > 0 && Limits->Pace > 0 ? CFE_SUCCESS : -1;
}

/* Registers a block, and says whether it was there already. */
static CFE_Status_t PUMP_RegisterBlock(CFE_ES_CDSHandle_t *Handle, size_t Size, const char *Name, bool *IsThere)
{
    CFE_Status_t Status = CFE_ES_RegisterCDS(Handle, Size, Name);

    *IsThere = Status == CFE_ES_CDS_ALREADY_EXISTS;
    return *IsThere ? CFE_SUCCESS : Status;
}

#ifdef PUMP_FAULTY
/* What was counted, and when that began, are saved one after the other: after a reset between the two they are of different shifts. */
static CFE_Status_t PUMP_SaveCount(void)
{
    return CFE_ES_CopyToCDS(PUMP_Data.Block[0], &PUMP_State.Count);
}

static CFE_Status_t PUMP_SaveShift(void)
{
    CFE_Status_t Status = PUMP_SaveCount();

    return Status == CFE_SUCCESS ? CFE_ES_CopyToCDS(PUMP_Data.Block[1], &PUMP_State.Since) : Status;
}

/* Restores a block, or begins with zeros if it has no image. */
static void PUMP_Restore(void *State, size_t Size, CFE_ES_CDSHandle_t Handle)
{
    if (CFE_ES_RestoreFromCDS(State, Handle) != CFE_SUCCESS) {
        memset(State, 0, Size);
    }
}

static CFE_Status_t PUMP_InitBlocks(bool *IsRestart)
{
    bool HasCount = false, HasSince = false;
    CFE_Status_t Status = PUMP_RegisterBlock(&PUMP_Data.Block[0], sizeof(PUMP_State.Count), "COUNT", &HasCount);

    if (Status == CFE_SUCCESS) {
        Status = PUMP_RegisterBlock(&PUMP_Data.Block[1], sizeof(PUMP_State.Since), "SINCE", &HasSince);
    }
    *IsRestart = HasCount && HasSince;
    if (Status == CFE_SUCCESS && *IsRestart) {
        PUMP_Restore(&PUMP_State.Count, sizeof(PUMP_State.Count), PUMP_Data.Block[0]);
        PUMP_Restore(&PUMP_State.Since, sizeof(PUMP_State.Since), PUMP_Data.Block[1]);
    }
    return Status;
}

/* After a restart the limits are taken for recovered. But the processor may have been reset after the blocks were made, and before the
 * default limits were saved. */
static bool PUMP_NeedsLimits(CFE_Status_t Registered, bool IsRestart)
{
    return Registered == CFE_SUCCESS && !IsRestart;
}
#else
/* All is saved together, by turns into either block. So one of them is whole at any moment, and the newer one counts. */
static CFE_Status_t PUMP_SaveShift(void)
{
    PUMP_Saved_t Saved;
    CFE_Status_t Status;

    Saved.Number = PUMP_Data.Number + 1;
    Saved.Count = PUMP_State.Count;
    Saved.Since = PUMP_State.Since;
    Status = CFE_ES_CopyToCDS(PUMP_Data.Block[Saved.Number % PUMP_BLOCKS], &Saved);
    if (Status == CFE_SUCCESS) {
        PUMP_Data.Number = Saved.Number;
    }
    return Status;
}

static CFE_Status_t PUMP_SaveCount(void)
{
    return PUMP_SaveShift();
}

/* Takes what a block has, if it is newer. */
static void PUMP_Restore(CFE_ES_CDSHandle_t Handle)
{
    PUMP_Saved_t Saved;

    if (CFE_ES_RestoreFromCDS(&Saved, Handle) == CFE_SUCCESS && Saved.Number > PUMP_Data.Number) {
        PUMP_Data.Number = Saved.Number;
        PUMP_State.Count = Saved.Count;
        PUMP_State.Since = Saved.Since;
    }
}

static CFE_Status_t PUMP_InitBlocks(bool *IsRestart)
{
    static const char *const Names[PUMP_BLOCKS] = {"EVEN", "ODD"};
    CFE_Status_t Status = CFE_SUCCESS;
    int Block;

    for (Block = 0; Block < PUMP_BLOCKS && Status == CFE_SUCCESS; Block++) {
        Status = PUMP_RegisterBlock(&PUMP_Data.Block[Block], sizeof(PUMP_Saved_t), Names[Block], IsRestart);
        if (Status == CFE_SUCCESS && *IsRestart) {
            PUMP_Restore(PUMP_Data.Block[Block]);
        }
    }
    return Status;
}

/* Table Services say whether they have recovered the limits. */
static bool PUMP_NeedsLimits(CFE_Status_t Registered, bool IsRestart)
{
    (void)IsRestart;
    return Registered == CFE_SUCCESS;
}
#endif

/* Takes the limits that are in force. */
static CFE_Status_t PUMP_TakeLimits(void)
{
    void *Address;
    CFE_Status_t Status = CFE_TBL_GetAddress(&Address, PUMP_Data.Limits);

    if (Status < CFE_SUCCESS) {
        return Status;
    }
    PUMP_State.Limits = *(const PUMP_Limits_t *)Address;
    Status = CFE_TBL_ReleaseAddress(PUMP_Data.Limits);
    return Status < CFE_SUCCESS ? Status : CFE_SUCCESS;
}

CFE_Status_t PUMP_SetLimits(const PUMP_Limits_t *Limits)
{
    CFE_Status_t Status = CFE_TBL_Load(PUMP_Data.Limits, CFE_TBL_SRC_ADDRESS, Limits);

    return Status == CFE_SUCCESS ? PUMP_TakeLimits() : Status;
}

CFE_Status_t PUMP_Init(void)
{
    bool IsRestart = false;
    CFE_Status_t Status = PUMP_InitBlocks(&IsRestart);

    if (Status != CFE_SUCCESS) {
        return Status;
    }
    Status = CFE_TBL_Register(&PUMP_Data.Limits, "LIMITS", sizeof(PUMP_Limits_t), CFE_TBL_OPT_CRITICAL, PUMP_ValidateLimits);
    if (PUMP_NeedsLimits(Status, IsRestart)) {
        Status = CFE_TBL_Load(PUMP_Data.Limits, CFE_TBL_SRC_ADDRESS, &PUMP_DefaultLimits);
    }
    return Status < CFE_SUCCESS ? Status : PUMP_TakeLimits();
}

CFE_Status_t PUMP_Stroke(void)
{
    PUMP_State.Count.Strokes++;
    return PUMP_SaveCount();
}

CFE_Status_t PUMP_NewShift(uint32 Began)
{
    PUMP_State.Count.Shift++;
    PUMP_State.Count.Strokes = 0;
    PUMP_State.Since.Shift = PUMP_State.Count.Shift;
    PUMP_State.Since.Began = Began;
    return PUMP_SaveShift();
}
