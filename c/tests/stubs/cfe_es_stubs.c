/* SPDX-License-Identifier: Apache-2.0 */
/* cfe_es_stubs.c: stubs of Executive Services, one object a service, as a generator makes them of cFE's headers. */
#include "utstubs.h"

bool CFE_ES_RunLoop(uint32 *RunStatus)
{
    UT_StubContext_t context;

    UT_Stub_Begin(&context);
    UT_Stub_Add(&context, "RunStatus", &RunStatus, sizeof RunStatus);
    UT_Stub_Execute(UT_KEY(CFE_ES_RunLoop), &context);
    return UT_Stub_Value(UT_KEY(CFE_ES_RunLoop)) != 0;
}

void CFE_ES_ExitApp(uint32 ExitStatus)
{
    UT_StubContext_t context;

    UT_Stub_Begin(&context);
    UT_Stub_Add(&context, "ExitStatus", &ExitStatus, sizeof ExitStatus);
    UT_Stub_Execute(UT_KEY(CFE_ES_ExitApp), &context);
}

/* A test has to know the check words of its images, so this one reckons them: CRC-16/ARC. */
uint32 CFE_ES_CalculateCRC(const void *DataPtr, size_t DataLength, uint32 InputCRC, CFE_ES_CrcType_Enum_t TypeCRC)
{
    const uint8 *at = DataPtr;
    int bit;

    (void)TypeCRC;
    for (; DataLength > 0; DataLength -= 1, at += 1) {
        InputCRC ^= *at;
        for (bit = 0; bit < 8; bit++) {
            InputCRC = (InputCRC & 1) != 0 ? InputCRC >> 1 ^ 0xA001 : InputCRC >> 1;
        }
    }
    return InputCRC;
}

CFE_Status_t CFE_ES_WriteToSysLog(const char *SpecStringPtr, ...)
{
    UT_StubContext_t context;

    UT_Stub_Begin(&context);
    UT_Stub_Add(&context, "SpecStringPtr", &SpecStringPtr, sizeof SpecStringPtr);
    UT_Stub_Execute(UT_KEY(CFE_ES_WriteToSysLog), &context);
    return UT_Stub_Value(UT_KEY(CFE_ES_WriteToSysLog));
}

CFE_Status_t CFE_ES_RegisterCDS(CFE_ES_CDSHandle_t *CDSHandlePtr, size_t BlockSize, const char *Name)
{
    UT_StubContext_t context;

    UT_Stub_Begin(&context);
    UT_Stub_Add(&context, "CDSHandlePtr", &CDSHandlePtr, sizeof CDSHandlePtr);
    UT_Stub_Add(&context, "BlockSize", &BlockSize, sizeof BlockSize);
    UT_Stub_Add(&context, "Name", &Name, sizeof Name);
    UT_Stub_Execute(UT_KEY(CFE_ES_RegisterCDS), &context);
    return UT_Stub_Value(UT_KEY(CFE_ES_RegisterCDS));
}

CFE_Status_t CFE_ES_CopyToCDS(CFE_ES_CDSHandle_t Handle, const void *DataToCopy)
{
    UT_StubContext_t context;

    UT_Stub_Begin(&context);
    UT_Stub_Add(&context, "Handle", &Handle, sizeof Handle);
    UT_Stub_Add(&context, "DataToCopy", &DataToCopy, sizeof DataToCopy);
    UT_Stub_Execute(UT_KEY(CFE_ES_CopyToCDS), &context);
    return UT_Stub_Value(UT_KEY(CFE_ES_CopyToCDS));
}

CFE_Status_t CFE_ES_RestoreFromCDS(void *RestoreToMemory, CFE_ES_CDSHandle_t Handle)
{
    UT_StubContext_t context;

    UT_Stub_Begin(&context);
    UT_Stub_Add(&context, "RestoreToMemory", &RestoreToMemory, sizeof RestoreToMemory);
    UT_Stub_Add(&context, "Handle", &Handle, sizeof Handle);
    UT_Stub_Execute(UT_KEY(CFE_ES_RestoreFromCDS), &context);
    return UT_Stub_Value(UT_KEY(CFE_ES_RestoreFromCDS));
}
