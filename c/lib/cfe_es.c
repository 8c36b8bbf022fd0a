/* SPDX-License-Identifier: Apache-2.0 */
/* cfe_es.c: cFE's names for the calls of the Critical Data Store. They are weak: a stub of such a name takes its place, wherever it is linked.
 * They are in an object of their own, so that a test may compile the calls themselves with its own headers (cfetbl.c). */
#include "cfetbl_calls.h"

#define WEAK __attribute__((weak))

WEAK CFE_Status_t CFE_ES_RegisterCDS(CFE_ES_CDSHandle_t *CDSHandlePtr, CFETBL_BlockSize_t BlockSize, const char *Name)
{
    return CFETBL_ES_RegisterCDS(CDSHandlePtr, BlockSize, Name);
}

WEAK CFE_Status_t CFE_ES_CopyToCDS(CFE_ES_CDSHandle_t Handle, CFETBL_CopySource_t DataToCopy)
{
    return CFETBL_ES_CopyToCDS(Handle, DataToCopy);
}

WEAK CFE_Status_t CFE_ES_RestoreFromCDS(void *RestoreToMemory, CFE_ES_CDSHandle_t Handle)
{
    return CFETBL_ES_RestoreFromCDS(RestoreToMemory, Handle);
}
