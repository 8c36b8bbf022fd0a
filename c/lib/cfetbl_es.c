/* SPDX-License-Identifier: Apache-2.0 */
/* cfetbl_es.c: cFE's calls of the Critical Data Store, by names of this library's own. cfe_es.c has cFE's names for them. */
#include "cfetbl_calls.h"

#include <string.h>

#if defined CFETBL_WITH_CFE && CFETBL_CFE_VERSION >= 700
#define HANDLE_OF(number) CFE_ES_CDSHANDLE_C(CFE_ResourceId_FromInteger(number))
#define NUMBER_OF(handle) ((uint32_t)CFE_RESOURCEID_TO_ULONG(handle))
#else
#define HANDLE_OF(number) ((CFE_ES_CDSHandle_t)(number))
#define NUMBER_OF(handle) ((uint32_t)(handle))
#endif

/* cFE's return code for a status. */
static CFE_Status_t block_code(uint32_t status)
{
    switch (status) {
    case CFETBL_SUCCESS:
        return CFE_SUCCESS;
    case CFETBL_INFO_CDS_EXISTS:
        return CFE_ES_CDS_ALREADY_EXISTS;
    case CFETBL_ERR_BAD_APP:
    case CFETBL_ERR_CDS_NOT_FOUND:
        return CFE_ES_ERR_RESOURCEID_NOT_VALID;
    case CFETBL_ERR_INVALID_NAME:
        return CFE_ES_CDS_INVALID_NAME;
    case CFETBL_ERR_INVALID_SIZE:
        return CFE_ES_CDS_INVALID_SIZE;
    case CFETBL_ERR_CDS_NO_ROOM:
        return CFE_ES_CDS_INSUFFICIENT_MEMORY;
    case CFETBL_ERR_CDS_FAULT:
        return CFE_ES_CDS_ACCESS_ERROR;
    case CFETBL_ERR_CDS_TORN:
        return CFE_ES_CDS_BLOCK_CRC_ERR;
    default:
        return CFE_STATUS_EXTERNAL_RESOURCE_FAIL;
    }
}

/* Ends a call with the code of a status. */
static CFE_Status_t left_block(uint32_t status)
{
    CFE_Status_t code = cfetbl_returned(block_code(status));

    cfetbl_leave();
    return code;
}

CFE_Status_t CFETBL_ES_RegisterCDS(CFE_ES_CDSHandle_t *CDSHandlePtr, CFETBL_BlockSize_t BlockSize, const char *Name)
{
    struct cfetbl_service *service;
    struct cfetbl_record record;
    CFE_Status_t code;
    uint32_t status;

    if (CDSHandlePtr == NULL || Name == NULL) {
        return CFE_ES_BAD_ARGUMENT;
    }
    *CDSHandlePtr = CFE_ES_CDS_BAD_HANDLE;
    service = cfetbl_entered(CFETBL_CALL_REGISTER_CDS, &code);
    if (service == NULL) {
        return code;
    }
    if (strlen(Name) > CFETBL_SHORT_NAME) {
        return left_block(CFETBL_ERR_INVALID_NAME);
    }
    if ((size_t)BlockSize > CFETBL_IMAGE_LIMIT) {
        return left_block(CFETBL_ERR_INVALID_SIZE);
    }
    record = cfetbl_begin(service, CFETBL_KIND_CDS_REGISTER, cfetbl_app(service));
    cfetbl_put_name(&record, Name, CFETBL_SHORT_NAME);
    cfetbl_put_number(&record, (uint32_t)BlockSize, 4);
    status = cfetbl_ask(service, record);
    if (status == CFETBL_SUCCESS || status == CFETBL_INFO_CDS_EXISTS) {
        uint32_t slot = cfetbl_reply(service).detail;

        *CDSHandlePtr = HANDLE_OF(slot + 1);
        service->slots[slot % CFETBL_SLOTS] = (size_t)BlockSize;
    }
    return left_block(status);
}

/* Begins a request on the block of a handle. A number that is no slot is the service's to refuse. */
static struct cfetbl_record begin_block(struct cfetbl_service *service, int kind, CFE_ES_CDSHandle_t handle)
{
    struct cfetbl_record record = cfetbl_begin(service, kind, cfetbl_app(service));

    cfetbl_put_number(&record, NUMBER_OF(handle) - 1, 2);
    return record;
}

CFE_Status_t CFETBL_ES_CopyToCDS(CFE_ES_CDSHandle_t Handle, CFETBL_CopySource_t DataToCopy)
{
    uint32_t slot = NUMBER_OF(Handle) - 1;
    struct cfetbl_service *service;
    struct cfetbl_record record;
    CFE_Status_t status;

    if (DataToCopy == NULL) {
        return CFE_ES_BAD_ARGUMENT;
    }
    service = cfetbl_entered(CFETBL_CALL_COPY_TO_CDS, &status);
    if (service == NULL) {
        return status;
    }
    record = begin_block(service, CFETBL_KIND_CDS_COPY, Handle);
    cfetbl_put(&record, DataToCopy, slot < CFETBL_SLOTS ? service->slots[slot] : 0);
    return left_block(cfetbl_ask(service, record));
}

CFE_Status_t CFETBL_ES_RestoreFromCDS(void *RestoreToMemory, CFE_ES_CDSHandle_t Handle)
{
    struct cfetbl_service *service;
    CFE_Status_t code;
    uint32_t status;

    if (RestoreToMemory == NULL) {
        return CFE_ES_BAD_ARGUMENT;
    }
    service = cfetbl_entered(CFETBL_CALL_RESTORE_FROM_CDS, &code);
    if (service == NULL) {
        return code;
    }
    status = cfetbl_ask(service, begin_block(service, CFETBL_KIND_CDS_RESTORE, Handle));
    if (status == CFETBL_SUCCESS) {
        memcpy(RestoreToMemory, cfetbl_reply(service).bytes, cfetbl_reply(service).length);
    }
    return left_block(status);
}
