/* SPDX-License-Identifier: Apache-2.0 */
/* cfetbl_calls.h: how the calls by cFE's names begin. It depends on the headers of cFE that they are compiled with. */
#ifndef CFETBL_CALLS_H
#define CFETBL_CALLS_H

/* The functions by cFE's names are those that are made here. */
#define CFETBL_IN_LIBRARY

#include "cfetbl.h"
#include "cfetbl_service.h"

/* What headers of an older cFE lack. */
#ifndef CFE_STATUS_EXTERNAL_RESOURCE_FAIL
#define CFE_STATUS_EXTERNAL_RESOURCE_FAIL ((CFE_Status_t)0xc8000005)
#endif
#ifndef CFE_TBL_BAD_ARGUMENT
#define CFE_TBL_BAD_ARGUMENT ((CFE_Status_t)0xcc00002d)
#endif
#ifndef CFE_ES_ERR_RESOURCEID_NOT_VALID
#define CFE_ES_ERR_RESOURCEID_NOT_VALID ((CFE_Status_t)0xc4000001)
#endif

/* Begins a call. NULL means that *code is what it returns. */
static inline struct cfetbl_service *cfetbl_entered(enum cfetbl_call call, CFE_Status_t *code)
{
    int32_t forced = CFE_STATUS_EXTERNAL_RESOURCE_FAIL;
    struct cfetbl_service *service = cfetbl_enter_call(call, &forced);

    *code = forced;
    return service;
}

#endif
