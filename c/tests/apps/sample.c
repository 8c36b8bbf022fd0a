/* SPDX-License-Identifier: Apache-2.0 */
/* sample.c: see sample.h. It is ordinary cFE code, which knows nothing of the library. */
#include "sample.h"

#include <string.h>

static struct {
    uint32 RunStatus;
    CFE_SB_PipeId_t Pipe;
    CFE_TBL_Handle_t Table;
} SAMPLE_Data;

static int32 SAMPLE_ValidateTable(void *TblPtr)
{
    const SAMPLE_Table_t *Table = TblPtr;

    return Table->Version == 0 ? SAMPLE_TABLE_VERSION_ERR : CFE_SUCCESS;
}

static CFE_Status_t SAMPLE_InitMessages(void)
{
    CFE_Status_t Status = CFE_EVS_Register(NULL, 0, CFE_EVS_EventFilter_BINARY);

    if (Status == CFE_SUCCESS) {
        Status = CFE_SB_CreatePipe(&SAMPLE_Data.Pipe, 32, "SAMPLE_PIPE");
    }
    if (Status == CFE_SUCCESS) {
        Status = CFE_SB_Subscribe(CFE_SB_ValueToMsgId(0x1882), SAMPLE_Data.Pipe);
    }
    return Status;
}

CFE_Status_t SAMPLE_Init(void)
{
    CFE_Status_t Status;

    memset(&SAMPLE_Data, 0, sizeof(SAMPLE_Data));
    SAMPLE_Data.RunStatus = CFE_ES_RunStatus_APP_RUN;
    Status = SAMPLE_InitMessages();
    if (Status != CFE_SUCCESS) {
        CFE_ES_WriteToSysLog("SAMPLE: no messages, RC = 0x%08lX\n", (unsigned long)Status);
        return Status;
    }
    Status = CFE_TBL_Register(&SAMPLE_Data.Table, "SampleTable", sizeof(SAMPLE_Table_t), CFE_TBL_OPT_DEFAULT, SAMPLE_ValidateTable);
    if (Status != CFE_SUCCESS) {
        CFE_ES_WriteToSysLog("SAMPLE: no table, RC = 0x%08lX\n", (unsigned long)Status);
        return Status;
    }
    Status = CFE_TBL_Load(SAMPLE_Data.Table, CFE_TBL_SRC_FILE, SAMPLE_TABLE_FILE);
    if (Status != CFE_SUCCESS) {
        CFE_EVS_SendEvent(SAMPLE_LOAD_ERR_EID, CFE_EVS_EventType_ERROR, "SAMPLE: table load, RC = 0x%08lX", (unsigned long)Status);
        return Status;
    }
    CFE_EVS_SendEvent(SAMPLE_INIT_INF_EID, CFE_EVS_EventType_INFORMATION, "SAMPLE: initialized");
    return CFE_SUCCESS;
}

CFE_Status_t SAMPLE_ReportHousekeeping(void)
{
    return CFE_TBL_Manage(SAMPLE_Data.Table);
}

CFE_Status_t SAMPLE_Process(uint16 *Limit, uint32 *Crc)
{
    CFE_TBL_Info_t Info;
    void *Address;
    CFE_Status_t Status = CFE_TBL_GetAddress(&Address, SAMPLE_Data.Table);

    if (Status < CFE_SUCCESS) {
        CFE_ES_WriteToSysLog("SAMPLE: no address, RC = 0x%08lX\n", (unsigned long)Status);
        return Status;
    }
    *Limit = ((const SAMPLE_Table_t *)Address)->Limit;
    if (CFE_TBL_GetInfo(&Info, "SAMPLE.SampleTable") == CFE_SUCCESS) {
        *Crc = Info.Crc;
    }
    Status = CFE_TBL_ReleaseAddress(SAMPLE_Data.Table);
    if (Status < CFE_SUCCESS) {
        CFE_ES_WriteToSysLog("SAMPLE: the address isn't given back, RC = 0x%08lX\n", (unsigned long)Status);
    }
    return Status;
}

void SAMPLE_Main(void)
{
    CFE_SB_Buffer_t *Buffer;

    if (SAMPLE_Init() != CFE_SUCCESS) {
        SAMPLE_Data.RunStatus = CFE_ES_RunStatus_APP_ERROR;
    }
    while (CFE_ES_RunLoop(&SAMPLE_Data.RunStatus)) {
        if (CFE_SB_ReceiveBuffer(&Buffer, SAMPLE_Data.Pipe, CFE_SB_PEND_FOREVER) != CFE_SUCCESS) {
            SAMPLE_Data.RunStatus = CFE_ES_RunStatus_APP_ERROR;
        }
    }
    CFE_ES_ExitApp(SAMPLE_Data.RunStatus);
}
