/* SPDX-License-Identifier: Apache-2.0 */
/* cfe_tbl.c: cFE's names for the calls of Table Services. They are weak: a stub of such a name takes its place, wherever it is linked.
 * They are in an object of their own, so that a test may compile the calls themselves with its own headers (cfetbl.c). */
#include "cfetbl_calls.h"

#define WEAK __attribute__((weak))

WEAK CFE_Status_t CFE_TBL_Register(CFE_TBL_Handle_t *TblHandlePtr, const char *Name, CFETBL_TableSize_t Size, uint16 TblOptionFlags,
                                   CFE_TBL_CallbackFuncPtr_t TblValidationFuncPtr)
{
    return CFETBL_TBL_Register(TblHandlePtr, Name, Size, TblOptionFlags, TblValidationFuncPtr);
}

WEAK CFE_Status_t CFE_TBL_Share(CFE_TBL_Handle_t *TblHandlePtr, const char *TblName)
{
    return CFETBL_TBL_Share(TblHandlePtr, TblName);
}

WEAK CFE_Status_t CFE_TBL_Unregister(CFE_TBL_Handle_t TblHandle)
{
    return CFETBL_TBL_Unregister(TblHandle);
}

WEAK CFE_Status_t CFE_TBL_Load(CFE_TBL_Handle_t TblHandle, CFE_TBL_SrcEnum_t SrcType, const void *SrcDataPtr)
{
    return CFETBL_TBL_Load(TblHandle, SrcType, SrcDataPtr);
}

WEAK CFE_Status_t CFE_TBL_Update(CFE_TBL_Handle_t TblHandle)
{
    return CFETBL_TBL_Update(TblHandle);
}

WEAK CFE_Status_t CFE_TBL_Validate(CFE_TBL_Handle_t TblHandle)
{
    return CFETBL_TBL_Validate(TblHandle);
}

WEAK CFE_Status_t CFE_TBL_Manage(CFE_TBL_Handle_t TblHandle)
{
    return CFETBL_TBL_Manage(TblHandle);
}

WEAK CFE_Status_t CFE_TBL_DumpToBuffer(CFE_TBL_Handle_t TblHandle)
{
    return CFETBL_TBL_DumpToBuffer(TblHandle);
}

WEAK CFE_Status_t CFE_TBL_Modified(CFE_TBL_Handle_t TblHandle)
{
    return CFETBL_TBL_Modified(TblHandle);
}

WEAK CFE_Status_t CFE_TBL_GetAddress(void **TblPtr, CFE_TBL_Handle_t TblHandle)
{
    return CFETBL_TBL_GetAddress(TblPtr, TblHandle);
}

WEAK CFE_Status_t CFE_TBL_ReleaseAddress(CFE_TBL_Handle_t TblHandle)
{
    return CFETBL_TBL_ReleaseAddress(TblHandle);
}

WEAK CFE_Status_t CFE_TBL_GetAddresses(void **TblPtrs[], uint16 NumTables, const CFE_TBL_Handle_t TblHandles[])
{
    return CFETBL_TBL_GetAddresses(TblPtrs, NumTables, TblHandles);
}

WEAK CFE_Status_t CFE_TBL_ReleaseAddresses(uint16 NumTables, const CFE_TBL_Handle_t TblHandles[])
{
    return CFETBL_TBL_ReleaseAddresses(NumTables, TblHandles);
}

WEAK CFE_Status_t CFE_TBL_GetStatus(CFE_TBL_Handle_t TblHandle)
{
    return CFETBL_TBL_GetStatus(TblHandle);
}

WEAK CFE_Status_t CFE_TBL_GetInfo(CFE_TBL_Info_t *TblInfoPtr, const char *TblName)
{
    return CFETBL_TBL_GetInfo(TblInfoPtr, TblName);
}

WEAK CFE_Status_t CFE_TBL_NotifyByMessage(CFE_TBL_Handle_t TblHandle, CFE_SB_MsgId_t MsgId, CFETBL_FcnCode_t CommandCode, uint32 Parameter)
{
    return CFETBL_TBL_NotifyByMessage(TblHandle, MsgId, CommandCode, Parameter);
}
