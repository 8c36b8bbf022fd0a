/* SPDX-License-Identifier: Apache-2.0 */
/* cfe_tbl_stubs.c: stubs of Table Services, one object a service, as a generator makes them of cFE's headers. */
#include "utstubs.h"

CFE_Status_t CFE_TBL_Register(CFE_TBL_Handle_t *TblHandlePtr, const char *Name, size_t Size, uint16 TblOptionFlags, CFE_TBL_CallbackFuncPtr_t TblValidationFuncPtr)
{
    UT_StubContext_t context;

    UT_Stub_Begin(&context);
    UT_Stub_Add(&context, "TblHandlePtr", &TblHandlePtr, sizeof TblHandlePtr);
    UT_Stub_Add(&context, "Name", &Name, sizeof Name);
    UT_Stub_Add(&context, "Size", &Size, sizeof Size);
    UT_Stub_Add(&context, "TblOptionFlags", &TblOptionFlags, sizeof TblOptionFlags);
    UT_Stub_Add(&context, "TblValidationFuncPtr", &TblValidationFuncPtr, sizeof TblValidationFuncPtr);
    UT_Stub_Execute(UT_KEY(CFE_TBL_Register), &context);
    return UT_Stub_Value(UT_KEY(CFE_TBL_Register));
}

CFE_Status_t CFE_TBL_Share(CFE_TBL_Handle_t *TblHandlePtr, const char *TblName)
{
    UT_StubContext_t context;

    UT_Stub_Begin(&context);
    UT_Stub_Add(&context, "TblHandlePtr", &TblHandlePtr, sizeof TblHandlePtr);
    UT_Stub_Add(&context, "TblName", &TblName, sizeof TblName);
    UT_Stub_Execute(UT_KEY(CFE_TBL_Share), &context);
    return UT_Stub_Value(UT_KEY(CFE_TBL_Share));
}

CFE_Status_t CFE_TBL_Unregister(CFE_TBL_Handle_t TblHandle)
{
    UT_StubContext_t context;

    UT_Stub_Begin(&context);
    UT_Stub_Add(&context, "TblHandle", &TblHandle, sizeof TblHandle);
    UT_Stub_Execute(UT_KEY(CFE_TBL_Unregister), &context);
    return UT_Stub_Value(UT_KEY(CFE_TBL_Unregister));
}

CFE_Status_t CFE_TBL_Load(CFE_TBL_Handle_t TblHandle, CFE_TBL_SrcEnum_t SrcType, const void *SrcDataPtr)
{
    UT_StubContext_t context;

    UT_Stub_Begin(&context);
    UT_Stub_Add(&context, "TblHandle", &TblHandle, sizeof TblHandle);
    UT_Stub_Add(&context, "SrcType", &SrcType, sizeof SrcType);
    UT_Stub_Add(&context, "SrcDataPtr", &SrcDataPtr, sizeof SrcDataPtr);
    UT_Stub_Execute(UT_KEY(CFE_TBL_Load), &context);
    return UT_Stub_Value(UT_KEY(CFE_TBL_Load));
}

CFE_Status_t CFE_TBL_Update(CFE_TBL_Handle_t TblHandle)
{
    UT_StubContext_t context;

    UT_Stub_Begin(&context);
    UT_Stub_Add(&context, "TblHandle", &TblHandle, sizeof TblHandle);
    UT_Stub_Execute(UT_KEY(CFE_TBL_Update), &context);
    return UT_Stub_Value(UT_KEY(CFE_TBL_Update));
}

CFE_Status_t CFE_TBL_Validate(CFE_TBL_Handle_t TblHandle)
{
    UT_StubContext_t context;

    UT_Stub_Begin(&context);
    UT_Stub_Add(&context, "TblHandle", &TblHandle, sizeof TblHandle);
    UT_Stub_Execute(UT_KEY(CFE_TBL_Validate), &context);
    return UT_Stub_Value(UT_KEY(CFE_TBL_Validate));
}

CFE_Status_t CFE_TBL_Manage(CFE_TBL_Handle_t TblHandle)
{
    UT_StubContext_t context;

    UT_Stub_Begin(&context);
    UT_Stub_Add(&context, "TblHandle", &TblHandle, sizeof TblHandle);
    UT_Stub_Execute(UT_KEY(CFE_TBL_Manage), &context);
    return UT_Stub_Value(UT_KEY(CFE_TBL_Manage));
}

CFE_Status_t CFE_TBL_DumpToBuffer(CFE_TBL_Handle_t TblHandle)
{
    UT_StubContext_t context;

    UT_Stub_Begin(&context);
    UT_Stub_Add(&context, "TblHandle", &TblHandle, sizeof TblHandle);
    UT_Stub_Execute(UT_KEY(CFE_TBL_DumpToBuffer), &context);
    return UT_Stub_Value(UT_KEY(CFE_TBL_DumpToBuffer));
}

CFE_Status_t CFE_TBL_Modified(CFE_TBL_Handle_t TblHandle)
{
    UT_StubContext_t context;

    UT_Stub_Begin(&context);
    UT_Stub_Add(&context, "TblHandle", &TblHandle, sizeof TblHandle);
    UT_Stub_Execute(UT_KEY(CFE_TBL_Modified), &context);
    return UT_Stub_Value(UT_KEY(CFE_TBL_Modified));
}

CFE_Status_t CFE_TBL_GetAddress(void **TblPtr, CFE_TBL_Handle_t TblHandle)
{
    UT_StubContext_t context;

    UT_Stub_Begin(&context);
    UT_Stub_Add(&context, "TblPtr", &TblPtr, sizeof TblPtr);
    UT_Stub_Add(&context, "TblHandle", &TblHandle, sizeof TblHandle);
    UT_Stub_Execute(UT_KEY(CFE_TBL_GetAddress), &context);
    return UT_Stub_Value(UT_KEY(CFE_TBL_GetAddress));
}

CFE_Status_t CFE_TBL_ReleaseAddress(CFE_TBL_Handle_t TblHandle)
{
    UT_StubContext_t context;

    UT_Stub_Begin(&context);
    UT_Stub_Add(&context, "TblHandle", &TblHandle, sizeof TblHandle);
    UT_Stub_Execute(UT_KEY(CFE_TBL_ReleaseAddress), &context);
    return UT_Stub_Value(UT_KEY(CFE_TBL_ReleaseAddress));
}

CFE_Status_t CFE_TBL_GetAddresses(void ***TblPtrs, uint16 NumTables, const CFE_TBL_Handle_t *TblHandles)
{
    UT_StubContext_t context;

    UT_Stub_Begin(&context);
    UT_Stub_Add(&context, "TblPtrs", &TblPtrs, sizeof TblPtrs);
    UT_Stub_Add(&context, "NumTables", &NumTables, sizeof NumTables);
    UT_Stub_Add(&context, "TblHandles", &TblHandles, sizeof TblHandles);
    UT_Stub_Execute(UT_KEY(CFE_TBL_GetAddresses), &context);
    return UT_Stub_Value(UT_KEY(CFE_TBL_GetAddresses));
}

CFE_Status_t CFE_TBL_ReleaseAddresses(uint16 NumTables, const CFE_TBL_Handle_t *TblHandles)
{
    UT_StubContext_t context;

    UT_Stub_Begin(&context);
    UT_Stub_Add(&context, "NumTables", &NumTables, sizeof NumTables);
    UT_Stub_Add(&context, "TblHandles", &TblHandles, sizeof TblHandles);
    UT_Stub_Execute(UT_KEY(CFE_TBL_ReleaseAddresses), &context);
    return UT_Stub_Value(UT_KEY(CFE_TBL_ReleaseAddresses));
}

CFE_Status_t CFE_TBL_GetStatus(CFE_TBL_Handle_t TblHandle)
{
    UT_StubContext_t context;

    UT_Stub_Begin(&context);
    UT_Stub_Add(&context, "TblHandle", &TblHandle, sizeof TblHandle);
    UT_Stub_Execute(UT_KEY(CFE_TBL_GetStatus), &context);
    return UT_Stub_Value(UT_KEY(CFE_TBL_GetStatus));
}

CFE_Status_t CFE_TBL_GetInfo(CFE_TBL_Info_t *TblInfoPtr, const char *TblName)
{
    UT_StubContext_t context;

    UT_Stub_Begin(&context);
    UT_Stub_Add(&context, "TblInfoPtr", &TblInfoPtr, sizeof TblInfoPtr);
    UT_Stub_Add(&context, "TblName", &TblName, sizeof TblName);
    UT_Stub_Execute(UT_KEY(CFE_TBL_GetInfo), &context);
    return UT_Stub_Value(UT_KEY(CFE_TBL_GetInfo));
}

CFE_Status_t CFE_TBL_NotifyByMessage(CFE_TBL_Handle_t TblHandle, CFE_SB_MsgId_t MsgId, CFE_MSG_FcnCode_t CommandCode, uint32 Parameter)
{
    UT_StubContext_t context;

    UT_Stub_Begin(&context);
    UT_Stub_Add(&context, "TblHandle", &TblHandle, sizeof TblHandle);
    UT_Stub_Add(&context, "MsgId", &MsgId, sizeof MsgId);
    UT_Stub_Add(&context, "CommandCode", &CommandCode, sizeof CommandCode);
    UT_Stub_Add(&context, "Parameter", &Parameter, sizeof Parameter);
    UT_Stub_Execute(UT_KEY(CFE_TBL_NotifyByMessage), &context);
    return UT_Stub_Value(UT_KEY(CFE_TBL_NotifyByMessage));
}
