/* SPDX-License-Identifier: Apache-2.0 */
/* gauge.c: the application: a limit that the ground may load. */
#include "cfe.h"

typedef struct {
    uint16 Limit;
} GAUGE_Table_t;

CFE_TBL_Handle_t GAUGE_Table;

static int32 GAUGE_Validate(void *TblPtr)
{
    return ((const GAUGE_Table_t *)TblPtr)->Limit > 1000 ? -1 : CFE_SUCCESS;
}

CFE_Status_t GAUGE_Init(void)
{
    static const GAUGE_Table_t Default = {500};
    CFE_Status_t Status = CFE_TBL_Register(&GAUGE_Table, "LIMIT", sizeof(GAUGE_Table_t), CFE_TBL_OPT_DEFAULT, GAUGE_Validate);

    if (Status != CFE_SUCCESS) {
        CFE_ES_WriteToSysLog("GAUGE: no table, RC = 0x%08lX\n", (unsigned long)Status);
        return Status;
    }
    return CFE_TBL_Load(GAUGE_Table, CFE_TBL_SRC_ADDRESS, &Default);
}

bool GAUGE_IsAbove(uint16 Value)
{
    bool IsAbove = false;
    void *Address;

    CFE_TBL_Manage(GAUGE_Table);
    if (CFE_TBL_GetAddress(&Address, GAUGE_Table) >= CFE_SUCCESS) {
        IsAbove = Value > ((const GAUGE_Table_t *)Address)->Limit;
        CFE_TBL_ReleaseAddress(GAUGE_Table);
    }
    return IsAbove;
}
