/* SPDX-License-Identifier: Apache-2.0 */
/* cfe_sb_stubs.c: stubs of the Software Bus, one object a service, as a generator makes them of cFE's headers. */
#include "utstubs.h"

CFE_Status_t CFE_SB_CreatePipe(CFE_SB_PipeId_t *PipeIdPtr, uint16 Depth, const char *PipeName)
{
    UT_StubContext_t context;

    UT_Stub_Begin(&context);
    UT_Stub_Add(&context, "PipeIdPtr", &PipeIdPtr, sizeof PipeIdPtr);
    UT_Stub_Add(&context, "Depth", &Depth, sizeof Depth);
    UT_Stub_Add(&context, "PipeName", &PipeName, sizeof PipeName);
    UT_Stub_Execute(UT_KEY(CFE_SB_CreatePipe), &context);
    return UT_Stub_Value(UT_KEY(CFE_SB_CreatePipe));
}

CFE_Status_t CFE_SB_Subscribe(CFE_SB_MsgId_t MsgId, CFE_SB_PipeId_t PipeId)
{
    UT_StubContext_t context;

    UT_Stub_Begin(&context);
    UT_Stub_Add(&context, "MsgId", &MsgId, sizeof MsgId);
    UT_Stub_Add(&context, "PipeId", &PipeId, sizeof PipeId);
    UT_Stub_Execute(UT_KEY(CFE_SB_Subscribe), &context);
    return UT_Stub_Value(UT_KEY(CFE_SB_Subscribe));
}

CFE_Status_t CFE_SB_ReceiveBuffer(CFE_SB_Buffer_t **BufPtr, CFE_SB_PipeId_t PipeId, int32 TimeOut)
{
    UT_StubContext_t context;

    UT_Stub_Begin(&context);
    UT_Stub_Add(&context, "BufPtr", &BufPtr, sizeof BufPtr);
    UT_Stub_Add(&context, "PipeId", &PipeId, sizeof PipeId);
    UT_Stub_Add(&context, "TimeOut", &TimeOut, sizeof TimeOut);
    UT_Stub_Execute(UT_KEY(CFE_SB_ReceiveBuffer), &context);
    return UT_Stub_Value(UT_KEY(CFE_SB_ReceiveBuffer));
}
