/* SPDX-License-Identifier: Apache-2.0 */
/* utstubs.h: stands in for that of UT Assert (nasa/osal), with what generated stubs and their handlers use of it. */
#ifndef UTSTUBS_H
#define UTSTUBS_H

#include "cfe.h"

typedef cpuaddr UT_EntryKey_t;

#define UT_KEY(Func) ((UT_EntryKey_t)&Func)

enum { UT_ARGUMENTS = 8 };

typedef struct UT_StubContext {
    uint32 ArgCount;
    const char *Name[UT_ARGUMENTS];
    size_t Size[UT_ARGUMENTS];
    const void *ArgPtr[UT_ARGUMENTS];
    bool IsForced;
    int32 Forced;
} UT_StubContext_t;

typedef void (*UT_HandlerFunc_t)(void *UserObj, UT_EntryKey_t FuncKey, const UT_StubContext_t *Context);

void UT_ResetState(UT_EntryKey_t FuncKey);
void UT_SetHandlerFunction(UT_EntryKey_t FuncKey, UT_HandlerFunc_t HandlerFunc, void *UserObj);
void UT_SetDefaultReturnValue(UT_EntryKey_t FuncKey, int32 Value);
void UT_SetDeferredRetcode(UT_EntryKey_t FuncKey, int32 Count, int32 Retcode);
uint32 UT_GetStubCount(UT_EntryKey_t FuncKey);

/* ---- what handlers use */

const void *UT_Hook_GetArgPtr(const UT_StubContext_t *Context, const char *Name, size_t ExpectedSize);
bool UT_Stub_GetInt32StatusCode(const UT_StubContext_t *Context, int32 *Value);
void UT_Stub_SetReturnValuePtr(UT_EntryKey_t FuncKey, const void *Value, size_t ValueSize);

#define UT_Hook_GetArgValueByName(Context, Name, Type) (*(Type const *)UT_Hook_GetArgPtr(Context, Name, sizeof(Type)))
#define UT_Stub_SetReturnValue(FuncKey, Value) UT_Stub_SetReturnValuePtr(FuncKey, &(Value), sizeof(Value))

/* ---- what generated stubs use */

void UT_Stub_Begin(UT_StubContext_t *Context);
void UT_Stub_Add(UT_StubContext_t *Context, const char *Name, const void *Value, size_t Size);
void UT_Stub_Execute(UT_EntryKey_t FuncKey, UT_StubContext_t *Context);
int32 UT_Stub_Value(UT_EntryKey_t FuncKey);

#endif
