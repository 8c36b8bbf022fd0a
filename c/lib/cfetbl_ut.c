/* SPDX-License-Identifier: Apache-2.0 */
/* cfetbl_ut.c: see cfetbl_ut.h. The names of arguments are those of cFE's generated stubs. */
#include "cfetbl_ut.h"

#define ARGUMENT(name, type) UT_Hook_GetArgValueByName(Context, name, type)

/* A handler that answers with a call of the service, unless the test forced a return code. */
#define HANDLER(name, call)                                                                     \
    void CFETBL_UT_##name(void *UserObj, UT_EntryKey_t FuncKey, const UT_StubContext_t *Context) \
    {                                                                                           \
        CFE_Status_t code;                                                                      \
                                                                                                \
        (void)UserObj;                                                                          \
        if (!is_forced(Context)) {                                                              \
            code = call;                                                                        \
            UT_Stub_SetReturnValue(FuncKey, code);                                              \
        }                                                                                       \
    }

static bool is_forced(const UT_StubContext_t *Context)
{
    int32 code;

    return UT_Stub_GetInt32StatusCode(Context, &code);
}

HANDLER(TBL_Register, CFETBL_TBL_Register(ARGUMENT("TblHandlePtr", CFE_TBL_Handle_t *), ARGUMENT("Name", const char *),
                                          ARGUMENT("Size", CFETBL_TableSize_t), ARGUMENT("TblOptionFlags", uint16),
                                          ARGUMENT("TblValidationFuncPtr", CFE_TBL_CallbackFuncPtr_t)))
HANDLER(TBL_Share, CFETBL_TBL_Share(ARGUMENT("TblHandlePtr", CFE_TBL_Handle_t *), ARGUMENT("TblName", const char *)))
HANDLER(TBL_Unregister, CFETBL_TBL_Unregister(ARGUMENT("TblHandle", CFE_TBL_Handle_t)))
HANDLER(TBL_Load, CFETBL_TBL_Load(ARGUMENT("TblHandle", CFE_TBL_Handle_t), ARGUMENT("SrcType", CFE_TBL_SrcEnum_t),
                                  ARGUMENT("SrcDataPtr", const void *)))
HANDLER(TBL_Update, CFETBL_TBL_Update(ARGUMENT("TblHandle", CFE_TBL_Handle_t)))
HANDLER(TBL_Validate, CFETBL_TBL_Validate(ARGUMENT("TblHandle", CFE_TBL_Handle_t)))
HANDLER(TBL_Manage, CFETBL_TBL_Manage(ARGUMENT("TblHandle", CFE_TBL_Handle_t)))
HANDLER(TBL_DumpToBuffer, CFETBL_TBL_DumpToBuffer(ARGUMENT("TblHandle", CFE_TBL_Handle_t)))
HANDLER(TBL_Modified, CFETBL_TBL_Modified(ARGUMENT("TblHandle", CFE_TBL_Handle_t)))
HANDLER(TBL_GetAddress, CFETBL_TBL_GetAddress(ARGUMENT("TblPtr", void **), ARGUMENT("TblHandle", CFE_TBL_Handle_t)))
HANDLER(TBL_ReleaseAddress, CFETBL_TBL_ReleaseAddress(ARGUMENT("TblHandle", CFE_TBL_Handle_t)))
HANDLER(TBL_GetAddresses, CFETBL_TBL_GetAddresses(ARGUMENT("TblPtrs", void ***), ARGUMENT("NumTables", uint16),
                                                  ARGUMENT("TblHandles", const CFE_TBL_Handle_t *)))
HANDLER(TBL_ReleaseAddresses, CFETBL_TBL_ReleaseAddresses(ARGUMENT("NumTables", uint16), ARGUMENT("TblHandles", const CFE_TBL_Handle_t *)))
HANDLER(TBL_GetStatus, CFETBL_TBL_GetStatus(ARGUMENT("TblHandle", CFE_TBL_Handle_t)))
HANDLER(TBL_GetInfo, CFETBL_TBL_GetInfo(ARGUMENT("TblInfoPtr", CFE_TBL_Info_t *), ARGUMENT("TblName", const char *)))
HANDLER(TBL_NotifyByMessage, CFETBL_TBL_NotifyByMessage(ARGUMENT("TblHandle", CFE_TBL_Handle_t), ARGUMENT("MsgId", CFE_SB_MsgId_t),
                                                        ARGUMENT("CommandCode", CFETBL_FcnCode_t), ARGUMENT("Parameter", uint32)))
HANDLER(ES_RegisterCDS, CFETBL_ES_RegisterCDS(ARGUMENT("CDSHandlePtr", CFE_ES_CDSHandle_t *), ARGUMENT("BlockSize", CFETBL_BlockSize_t),
                                              ARGUMENT("Name", const char *)))
HANDLER(ES_CopyToCDS, CFETBL_ES_CopyToCDS(ARGUMENT("Handle", CFE_ES_CDSHandle_t), ARGUMENT("DataToCopy", CFETBL_CopySource_t)))
HANDLER(ES_RestoreFromCDS, CFETBL_ES_RestoreFromCDS(ARGUMENT("RestoreToMemory", void *), ARGUMENT("Handle", CFE_ES_CDSHandle_t)))

void CFETBL_UT_Install(void)
{
    UT_SetHandlerFunction(UT_KEY(CFE_TBL_Register), CFETBL_UT_TBL_Register, NULL);
    UT_SetHandlerFunction(UT_KEY(CFE_TBL_Share), CFETBL_UT_TBL_Share, NULL);
    UT_SetHandlerFunction(UT_KEY(CFE_TBL_Unregister), CFETBL_UT_TBL_Unregister, NULL);
    UT_SetHandlerFunction(UT_KEY(CFE_TBL_Load), CFETBL_UT_TBL_Load, NULL);
    UT_SetHandlerFunction(UT_KEY(CFE_TBL_Update), CFETBL_UT_TBL_Update, NULL);
    UT_SetHandlerFunction(UT_KEY(CFE_TBL_Validate), CFETBL_UT_TBL_Validate, NULL);
    UT_SetHandlerFunction(UT_KEY(CFE_TBL_Manage), CFETBL_UT_TBL_Manage, NULL);
    UT_SetHandlerFunction(UT_KEY(CFE_TBL_DumpToBuffer), CFETBL_UT_TBL_DumpToBuffer, NULL);
    UT_SetHandlerFunction(UT_KEY(CFE_TBL_Modified), CFETBL_UT_TBL_Modified, NULL);
    UT_SetHandlerFunction(UT_KEY(CFE_TBL_GetAddress), CFETBL_UT_TBL_GetAddress, NULL);
    UT_SetHandlerFunction(UT_KEY(CFE_TBL_ReleaseAddress), CFETBL_UT_TBL_ReleaseAddress, NULL);
    UT_SetHandlerFunction(UT_KEY(CFE_TBL_GetAddresses), CFETBL_UT_TBL_GetAddresses, NULL);
    UT_SetHandlerFunction(UT_KEY(CFE_TBL_ReleaseAddresses), CFETBL_UT_TBL_ReleaseAddresses, NULL);
    UT_SetHandlerFunction(UT_KEY(CFE_TBL_GetStatus), CFETBL_UT_TBL_GetStatus, NULL);
    UT_SetHandlerFunction(UT_KEY(CFE_TBL_GetInfo), CFETBL_UT_TBL_GetInfo, NULL);
    UT_SetHandlerFunction(UT_KEY(CFE_TBL_NotifyByMessage), CFETBL_UT_TBL_NotifyByMessage, NULL);
    UT_SetHandlerFunction(UT_KEY(CFE_ES_RegisterCDS), CFETBL_UT_ES_RegisterCDS, NULL);
    UT_SetHandlerFunction(UT_KEY(CFE_ES_CopyToCDS), CFETBL_UT_ES_CopyToCDS, NULL);
    UT_SetHandlerFunction(UT_KEY(CFE_ES_RestoreFromCDS), CFETBL_UT_ES_RestoreFromCDS, NULL);
}
