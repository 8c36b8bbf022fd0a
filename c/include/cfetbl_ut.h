/* SPDX-License-Identifier: Apache-2.0 */
/* cfetbl_ut.h: handlers for the stubs of a cFS unit test (UT Assert), by which the service answers: source that a test compiles in, as
 * cfetbl_ut.c, with its headers of cFE (CFETBL_WITH_CFE). */
#ifndef CFETBL_UT_H
#define CFETBL_UT_H

#include "cfetbl.h"
#include "utstubs.h"

/* Sets the handlers of all stubs of Table Services and of the Critical Data Store: a stub answers by the service, unless the test forced a
 * return code by UT_SetDefaultReturnValue or UT_SetDeferredRetcode. It is called after UT_ResetState(0), which takes handlers away. */
void CFETBL_UT_Install(void);

/* The handlers one by one, in the form that UT_SetHandlerFunction takes. */
void CFETBL_UT_TBL_Register(void *UserObj, UT_EntryKey_t FuncKey, const UT_StubContext_t *Context);
void CFETBL_UT_TBL_Share(void *UserObj, UT_EntryKey_t FuncKey, const UT_StubContext_t *Context);
void CFETBL_UT_TBL_Unregister(void *UserObj, UT_EntryKey_t FuncKey, const UT_StubContext_t *Context);
void CFETBL_UT_TBL_Load(void *UserObj, UT_EntryKey_t FuncKey, const UT_StubContext_t *Context);
void CFETBL_UT_TBL_Update(void *UserObj, UT_EntryKey_t FuncKey, const UT_StubContext_t *Context);
void CFETBL_UT_TBL_Validate(void *UserObj, UT_EntryKey_t FuncKey, const UT_StubContext_t *Context);
void CFETBL_UT_TBL_Manage(void *UserObj, UT_EntryKey_t FuncKey, const UT_StubContext_t *Context);
void CFETBL_UT_TBL_DumpToBuffer(void *UserObj, UT_EntryKey_t FuncKey, const UT_StubContext_t *Context);
void CFETBL_UT_TBL_Modified(void *UserObj, UT_EntryKey_t FuncKey, const UT_StubContext_t *Context);
void CFETBL_UT_TBL_GetAddress(void *UserObj, UT_EntryKey_t FuncKey, const UT_StubContext_t *Context);
void CFETBL_UT_TBL_ReleaseAddress(void *UserObj, UT_EntryKey_t FuncKey, const UT_StubContext_t *Context);
void CFETBL_UT_TBL_GetAddresses(void *UserObj, UT_EntryKey_t FuncKey, const UT_StubContext_t *Context);
void CFETBL_UT_TBL_ReleaseAddresses(void *UserObj, UT_EntryKey_t FuncKey, const UT_StubContext_t *Context);
void CFETBL_UT_TBL_GetStatus(void *UserObj, UT_EntryKey_t FuncKey, const UT_StubContext_t *Context);
void CFETBL_UT_TBL_GetInfo(void *UserObj, UT_EntryKey_t FuncKey, const UT_StubContext_t *Context);
void CFETBL_UT_TBL_NotifyByMessage(void *UserObj, UT_EntryKey_t FuncKey, const UT_StubContext_t *Context);
void CFETBL_UT_ES_RegisterCDS(void *UserObj, UT_EntryKey_t FuncKey, const UT_StubContext_t *Context);
void CFETBL_UT_ES_CopyToCDS(void *UserObj, UT_EntryKey_t FuncKey, const UT_StubContext_t *Context);
void CFETBL_UT_ES_RestoreFromCDS(void *UserObj, UT_EntryKey_t FuncKey, const UT_StubContext_t *Context);

#endif
