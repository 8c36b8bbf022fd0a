/* SPDX-License-Identifier: Apache-2.0 */
/* checker.c: see checker.h. It is ordinary cFE code, which knows nothing of the library. */
#include "checker.h"

#include <string.h>

static struct {
    CFE_TBL_Handle_t Definitions;
    CFE_TBL_Handle_t Results;
    CFE_ES_CDSHandle_t Block;
    uint8 IsOn;
    CHECKER_Result_t *Result; /* the memory of the results' table */
} CHECKER_Data;

static int32 CHECKER_Validate(void *TblPtr)
{
    const CHECKER_Definition_t *Definition = TblPtr;
    int Number;

    for (Number = 0; Number < CHECKER_TABLES; Number++) {
        if (Definition[Number].State == 0) {
            return CHECKER_STATE_ERR;
        }
    }
    return CFE_SUCCESS;
}

/* Whether it is on is what it was before a reset of the processor. */
static CFE_Status_t CHECKER_InitBlock(void)
{
    CFE_Status_t Status = CFE_ES_RegisterCDS(&CHECKER_Data.Block, sizeof(CHECKER_Data.IsOn), "IsOn");

    CHECKER_Data.IsOn = 1;
    if (Status == CFE_ES_CDS_ALREADY_EXISTS) {
        Status = CFE_ES_RestoreFromCDS(&CHECKER_Data.IsOn, CHECKER_Data.Block);
        if (Status == CFE_ES_CDS_BLOCK_CRC_ERR) {
            CFE_ES_WriteToSysLog("CHECKER: its block is damaged\n");
            CHECKER_Data.IsOn = 1;
            Status = CFE_ES_CopyToCDS(CHECKER_Data.Block, &CHECKER_Data.IsOn);
        }
        return Status;
    }
    return Status == CFE_SUCCESS ? CFE_ES_CopyToCDS(CHECKER_Data.Block, &CHECKER_Data.IsOn) : Status;
}

/* Fills the results' table, whose address it keeps. */
static CFE_Status_t CHECKER_InitResults(void)
{
    void *Results, *Definitions;
    CFE_Status_t Status = CFE_TBL_GetAddress(&Results, CHECKER_Data.Results);
    int Number;

    if (Status < CFE_SUCCESS) {
        return Status;
    }
    Status = CFE_TBL_GetAddress(&Definitions, CHECKER_Data.Definitions);
    if (Status < CFE_SUCCESS) {
        return Status;
    }
    CHECKER_Data.Result = Results;
    for (Number = 0; Number < CHECKER_TABLES; Number++) {
        CHECKER_Data.Result[Number].IsKnown = 0;
        CHECKER_Data.Result[Number].Handle = CFE_TBL_BAD_TABLE_HANDLE;
        memcpy(CHECKER_Data.Result[Number].Name, ((const CHECKER_Definition_t *)Definitions)[Number].Name, CFE_TBL_MAX_FULL_NAME_LEN);
    }
    Status = CFE_TBL_ReleaseAddress(CHECKER_Data.Definitions);
    return Status < CFE_SUCCESS ? Status : CFE_SUCCESS;
}

CFE_Status_t CHECKER_Init(const CHECKER_Definition_t Definitions[CHECKER_TABLES])
{
    CFE_Status_t Status = CHECKER_InitBlock();

    if (Status == CFE_SUCCESS) {
        Status = CFE_TBL_Register(&CHECKER_Data.Results, "Results", CHECKER_TABLES * sizeof(CHECKER_Result_t), CFE_TBL_OPT_DUMP_ONLY, NULL);
    }
    if (Status == CFE_SUCCESS) {
        Status = CFE_TBL_Register(&CHECKER_Data.Definitions, "Definitions", CHECKER_TABLES * sizeof(CHECKER_Definition_t),
                                  CFE_TBL_OPT_DEFAULT, CHECKER_Validate);
    }
    if (Status == CFE_SUCCESS && CFE_TBL_Load(CHECKER_Data.Definitions, CFE_TBL_SRC_FILE, "/cf/checker.tbl") != CFE_SUCCESS) {
        CFE_EVS_SendEvent(1, CFE_EVS_EventType_INFORMATION, "CHECKER: default definitions");
        Status = CFE_TBL_Load(CHECKER_Data.Definitions, CFE_TBL_SRC_ADDRESS, Definitions);
    }
    return Status == CFE_SUCCESS ? CHECKER_InitResults() : Status;
}

CFE_Status_t CHECKER_Housekeeping(void)
{
    CFE_Status_t Status = CFE_TBL_Manage(CHECKER_Data.Definitions);

    return Status < CFE_SUCCESS ? Status : CFE_TBL_Manage(CHECKER_Data.Results);
}

CFE_Status_t CHECKER_Switch(uint8 IsOn)
{
    CHECKER_Data.IsOn = IsOn;
    return CFE_ES_CopyToCDS(CHECKER_Data.Block, &CHECKER_Data.IsOn);
}

/* Compares the bytes of a table with what was found of it before. */
static int32 CHECKER_Compare(CHECKER_Result_t *Result, const void *Address, const CFE_TBL_Info_t *Info)
{
    uint32 Crc = CFE_ES_CalculateCRC(Address, Info->Size, 0, CFE_ES_CrcType_CRC_16);
    int32 Found = Result->IsKnown && Result->Crc != Crc ? CHECKER_CHANGED : CHECKER_SAME;

    if (Found == CHECKER_CHANGED && Info->Crc != Crc) {
        return CHECKER_UNTOLD;
    }
    if (!Result->IsKnown) {
        Result->IsKnown = 1;
        Result->Size = (uint32)Info->Size;
        Result->Crc = Crc;
        Found = CHECKER_FIRST;
    }
    return Found;
}

/* The table goes: its handle is given back. */
static CFE_Status_t CHECKER_Forget(CHECKER_Result_t *Result)
{
    CFE_Status_t Status = CFE_TBL_Unregister(Result->Handle);

    Result->Handle = CFE_TBL_BAD_TABLE_HANDLE;
    Result->IsKnown = 0;
    return Status == CFE_SUCCESS ? CFE_TBL_ERR_UNREGISTERED : Status;
}

int32 CHECKER_Look(int Number)
{
    CHECKER_Result_t *Result = &CHECKER_Data.Result[Number];
    CFE_Status_t Status = CFE_SUCCESS;
    CFE_TBL_Info_t Info;
    void *Address;
    int32 Found;

    if (!CHECKER_Data.IsOn) {
        return CHECKER_OFF;
    }
    if (Result->Handle == CFE_TBL_BAD_TABLE_HANDLE) {
        CFE_TBL_Handle_t Handle;

        Status = CFE_TBL_Share(&Handle, Result->Name);
        Result->Handle = Status == CFE_SUCCESS ? Handle : CFE_TBL_BAD_TABLE_HANDLE;
    }
    if (Status != CFE_SUCCESS) {
        return Status;
    }
    Status = CFE_TBL_GetAddress(&Address, Result->Handle);
    if (Status == CFE_TBL_ERR_UNREGISTERED) {
        return CHECKER_Forget(Result);
    }
    if (Status < CFE_SUCCESS) {
        CFE_TBL_ReleaseAddress(Result->Handle);
        return Status;
    }
    if (Status == CFE_TBL_INFO_UPDATED) {
        Result->IsKnown = 0;
    }
    Status = CFE_TBL_GetInfo(&Info, Result->Name);
    Found = Status == CFE_SUCCESS ? CHECKER_Compare(Result, Address, &Info) : Status;
    Status = CFE_TBL_ReleaseAddress(Result->Handle);
    return Status < CFE_SUCCESS ? Status : Found;
}
