/* SPDX-License-Identifier: Apache-2.0 */
/* cfetbl_tbl.c: cFE's calls of Table Services, by names of this library's own. cfe_tbl.c has cFE's names for them. */
#include "cfetbl_calls.h"

#include <string.h>

/* The most bytes of a file's name, after which CFE_TBL_Info_t has a zero. */
#define LAST_FILE_ROOM (sizeof(((CFE_TBL_Info_t *)0)->LastFileLoaded))

const struct CFETBL_Headers cfetbl_headers = CFETBL_HEADERS;

/* ---- return codes */

struct code {
    uint32_t status;
    CFE_Status_t code;
};

static const struct code codes[] = {
    {CFETBL_SUCCESS, CFE_SUCCESS},
    {CFETBL_INFO_UPDATED, CFE_TBL_INFO_UPDATED},
    {CFETBL_INFO_RECOVERED_TBL, CFE_TBL_INFO_RECOVERED_TBL},
    {CFETBL_INFO_UPDATE_PENDING, CFE_TBL_INFO_UPDATE_PENDING},
    {CFETBL_INFO_VALIDATION_PENDING, CFE_TBL_INFO_VALIDATION_PENDING},
    {CFETBL_INFO_DUMP_PENDING, CFE_TBL_INFO_DUMP_PENDING},
    {CFETBL_INFO_NO_UPDATE_PENDING, CFE_TBL_INFO_NO_UPDATE_PENDING},
    {CFETBL_INFO_NO_VALIDATION_PENDING, CFE_TBL_INFO_NO_VALIDATION_PENDING},
    {CFETBL_INFO_NO_DUMP_PENDING, CFE_SUCCESS},
    {CFETBL_INFO_TABLE_LOCKED, CFE_TBL_INFO_TABLE_LOCKED},
    {CFETBL_WARN_DUPLICATE, CFE_TBL_WARN_DUPLICATE},
    {CFETBL_WARN_NOT_CRITICAL, CFE_TBL_WARN_NOT_CRITICAL},
    {CFETBL_ERR_BAD_APP, CFE_ES_ERR_RESOURCEID_NOT_VALID},
    {CFETBL_ERR_INVALID_HANDLE, CFE_TBL_ERR_INVALID_HANDLE},
    {CFETBL_ERR_NO_ACCESS, CFE_TBL_ERR_NO_ACCESS},
    {CFETBL_ERR_UNREGISTERED, CFE_TBL_ERR_UNREGISTERED},
    {CFETBL_ERR_INVALID_NAME, CFE_TBL_ERR_INVALID_NAME},
    {CFETBL_ERR_INVALID_SIZE, CFE_TBL_ERR_INVALID_SIZE},
    {CFETBL_ERR_INVALID_OPTIONS, CFE_TBL_ERR_INVALID_OPTIONS},
    {CFETBL_ERR_DUPLICATE_NOT_OWNED, CFE_TBL_ERR_DUPLICATE_NOT_OWNED},
    {CFETBL_ERR_DUPLICATE_DIFF_SIZE, CFE_TBL_ERR_DUPLICATE_DIFF_SIZE},
    {CFETBL_ERR_REGISTRY_FULL, CFE_TBL_ERR_REGISTRY_FULL},
    {CFETBL_ERR_HANDLES_FULL, CFE_TBL_ERR_HANDLES_FULL},
    {CFETBL_ERR_DUMP_ONLY, CFE_TBL_ERR_DUMP_ONLY},
    {CFETBL_ERR_LOAD_IN_PROGRESS, CFE_TBL_ERR_LOAD_IN_PROGRESS},
    {CFETBL_ERR_FILE_NOT_FOUND, CFE_TBL_ERR_ACCESS},
    {CFETBL_ERR_NO_STD_HEADER, CFE_TBL_ERR_NO_STD_HEADER},
    {CFETBL_ERR_BAD_CONTENT_ID, CFE_TBL_ERR_BAD_CONTENT_ID},
    {CFETBL_ERR_BAD_SUBTYPE_ID, CFE_TBL_ERR_BAD_SUBTYPE_ID},
    {CFETBL_ERR_NO_TBL_HEADER, CFE_TBL_ERR_NO_TBL_HEADER},
    {CFETBL_ERR_LOAD_INCOMPLETE, CFE_TBL_ERR_LOAD_INCOMPLETE},
    {CFETBL_ERR_FILE_TOO_LARGE, CFE_TBL_ERR_FILE_TOO_LARGE},
    {CFETBL_ERR_FILE_FOR_WRONG_TABLE, CFE_TBL_ERR_FILE_FOR_WRONG_TABLE},
    {CFETBL_ERR_PARTIAL_LOAD, CFE_TBL_ERR_PARTIAL_LOAD},
    {CFETBL_ERR_ZERO_LOAD, CFE_TBL_ERR_LOAD_INCOMPLETE},
    {CFETBL_ERR_PAST_END, CFE_TBL_ERR_FILE_TOO_LARGE},
    {CFETBL_ERR_NO_BUFFER_AVAIL, CFE_TBL_ERR_NO_BUFFER_AVAIL},
    {CFETBL_ERR_NEVER_LOADED, CFE_TBL_ERR_NEVER_LOADED},
    {CFETBL_ERR_NOT_PINNED, CFE_SUCCESS},
    {CFETBL_ERR_NOTICE_ID, CFE_TBL_BAD_ARGUMENT},
    {CFETBL_ERR_BAD_SPACECRAFT_ID, CFE_TBL_ERR_BAD_SPACECRAFT_ID},
    {CFETBL_ERR_BAD_PROCESSOR_ID, CFE_TBL_ERR_BAD_PROCESSOR_ID},
};

/* cFE's return code for a status. What cFE has none for is a lack of something outside. */
static CFE_Status_t code_of(uint32_t status)
{
    size_t place;

    for (place = 0; place < sizeof codes / sizeof codes[0]; place++) {
        if (codes[place].status == status) {
            return codes[place].code;
        }
    }
    return CFE_STATUS_EXTERNAL_RESOURCE_FAIL;
}

/* Ends a call with the code of a status. */
static CFE_Status_t left(uint32_t status)
{
    CFE_Status_t code = cfetbl_returned(code_of(status));

    cfetbl_leave();
    return code;
}

/* The same with a code that no status has. */
static CFE_Status_t left_with(CFE_Status_t code)
{
    (void)cfetbl_returned(code);
    cfetbl_leave();
    return code;
}

/* A call with a handle alone. */
static CFE_Status_t call_handle(enum cfetbl_call call, int kind, CFE_TBL_Handle_t handle)
{
    CFE_Status_t status;
    struct cfetbl_service *service = cfetbl_entered(call, &status);

    return service == NULL ? status : left(cfetbl_ask_handle(service, kind, (uint16_t)handle));
}

/* ---- registrations */

/* Keeps the handle of a registration that succeeded, and what is known of its table. */
static void keep_table(struct cfetbl_service *service, const char *name, size_t size, uint16_t options, uint32_t status)
{
    uint16_t known = status == CFETBL_WARN_NOT_CRITICAL ? (uint16_t)(options & ~CFE_TBL_OPT_CRITICAL_MSK) : options;

    cfetbl_keep_registered(service, (uint16_t)cfetbl_reply(service).detail, name, size, known, status == CFETBL_INFO_RECOVERED_TBL);
}

/* Registers a table. One with an address of its user's is a dump-only one to the service. */
static uint32_t register_table(struct cfetbl_service *service, uint16_t *handle, const char *name, size_t size, uint16_t options,
                               cfetbl_function function)
{
    uint32_t number = cfetbl_number_of(service, cfetbl_app(service), function), status;
    struct cfetbl_record record;

    if (number == CFETBL_FUNCTIONS || !cfetbl_reserve_table(service)) {
        return CFETBL_NOT_PLAYED;
    }
    record = cfetbl_begin(service, CFETBL_KIND_REGISTER, cfetbl_app(service));
    cfetbl_put_name(&record, name, CFETBL_SHORT_NAME);
    cfetbl_put_number(&record, (uint32_t)size, 4);
    cfetbl_put_number(&record, options == CFE_TBL_OPT_USR_DEF_ADDR ? CFE_TBL_OPT_DUMP_ONLY : options, 2);
    cfetbl_put_number(&record, number, 1);
    status = cfetbl_ask(service, record);
    if (status == CFETBL_SUCCESS || status == CFETBL_INFO_RECOVERED_TBL || status == CFETBL_WARN_NOT_CRITICAL) {
        *handle = (uint16_t)cfetbl_reply(service).detail;
        keep_table(service, name, size, options, status);
    } else if (status == CFETBL_WARN_DUPLICATE) {
        *handle = (uint16_t)cfetbl_reply(service).detail;
    }
    return status;
}

CFE_Status_t CFETBL_TBL_Register(CFE_TBL_Handle_t *TblHandlePtr, const char *Name, CFETBL_TableSize_t Size, uint16 TblOptionFlags,
                                 CFE_TBL_CallbackFuncPtr_t TblValidationFuncPtr)
{
    uint16_t handle = (uint16_t)CFE_TBL_BAD_TABLE_HANDLE;
    struct cfetbl_service *service;
    CFE_Status_t status;

    if (TblHandlePtr == NULL || Name == NULL) {
        return CFE_TBL_BAD_ARGUMENT;
    }
    *TblHandlePtr = CFE_TBL_BAD_TABLE_HANDLE;
    service = cfetbl_entered(CFETBL_CALL_REGISTER, &status);
    if (service == NULL) {
        return status;
    }
    if (strlen(Name) > CFETBL_SHORT_NAME) {
        return left(CFETBL_ERR_INVALID_NAME);
    }
    if (Size > CFETBL_IMAGE_LIMIT) {
        return left(CFETBL_ERR_INVALID_SIZE);
    }
    status = code_of(register_table(service, &handle, Name, Size, TblOptionFlags, (cfetbl_function)TblValidationFuncPtr));
    *TblHandlePtr = (CFE_TBL_Handle_t)handle;
    return left_with(status);
}

CFE_Status_t CFETBL_TBL_Share(CFE_TBL_Handle_t *TblHandlePtr, const char *TblName)
{
    struct cfetbl_service *service;
    CFE_Status_t code;
    uint32_t status;

    if (TblHandlePtr == NULL || TblName == NULL) {
        return CFE_TBL_BAD_ARGUMENT;
    }
    *TblHandlePtr = CFE_TBL_BAD_TABLE_HANDLE;
    service = cfetbl_entered(CFETBL_CALL_SHARE, &code);
    if (service == NULL) {
        return code;
    }
    if (strlen(TblName) > CFETBL_FULL_NAME) {
        return left(CFETBL_ERR_INVALID_NAME);
    }
    status = cfetbl_ask_name(service, CFETBL_KIND_SHARE, TblName);
    if (status == CFETBL_SUCCESS) {
        *TblHandlePtr = (CFE_TBL_Handle_t)cfetbl_reply(service).detail;
        cfetbl_keep_shared(service, (uint16_t)*TblHandlePtr, TblName);
    }
    return left(status);
}

CFE_Status_t CFETBL_TBL_Unregister(CFE_TBL_Handle_t TblHandle)
{
    CFE_Status_t code;
    struct cfetbl_service *service = cfetbl_entered(CFETBL_CALL_UNREGISTER, &code);
    uint32_t status;

    if (service == NULL) {
        return code;
    }
    status = cfetbl_ask_handle(service, CFETBL_KIND_UNREGISTER, (uint16_t)TblHandle);
    if (status == CFETBL_SUCCESS) {
        cfetbl_forget_handle(service, (uint16_t)TblHandle);
    }
    return left(status);
}

/* ---- loads */

/* A load that its validation function refused is answered with what that said. */
static CFE_Status_t loaded(struct cfetbl_service *service, uint32_t status)
{
    return left_with(status == CFETBL_ERR_VALIDATION_FAILED ? (CFE_Status_t)cfetbl_reply(service).detail : code_of(status));
}

static CFE_Status_t load_image(struct cfetbl_service *service, uint16_t number, const void *image)
{
    const struct cfetbl_handle *handle = cfetbl_known(service, number);
    struct cfetbl_record record;

    if (handle != NULL && handle->table->is_users && handle->table->registered == number) {
        return left(cfetbl_use_memory(service, number, (void *)image));
    }
    record = cfetbl_begin(service, CFETBL_KIND_LOAD_IMAGE, cfetbl_app(service));
    cfetbl_put_number(&record, number, 2);
    cfetbl_put(&record, image, handle == NULL ? 0 : handle->table->size);
    return loaded(service, cfetbl_ask(service, record));
}

static CFE_Status_t load_file(struct cfetbl_service *service, uint16_t handle, const char *file)
{
    struct cfetbl_record record;

    if (strlen(file) > CFETBL_FILE_NAME) {
        return left_with(CFE_TBL_ERR_FILENAME_TOO_LONG);
    }
    record = cfetbl_begin(service, CFETBL_KIND_LOAD_FILE, cfetbl_app(service));
    cfetbl_put_number(&record, handle, 2);
    cfetbl_put_name(&record, file, CFETBL_FILE_NAME);
    return loaded(service, cfetbl_ask(service, record));
}

CFE_Status_t CFETBL_TBL_Load(CFE_TBL_Handle_t TblHandle, CFE_TBL_SrcEnum_t SrcType, const void *SrcDataPtr)
{
    struct cfetbl_service *service;
    CFE_Status_t status;

    if (SrcDataPtr == NULL) {
        return CFE_TBL_BAD_ARGUMENT;
    }
    service = cfetbl_entered(CFETBL_CALL_LOAD, &status);
    if (service == NULL) {
        return status;
    }
    switch (SrcType) {
    case CFE_TBL_SRC_FILE:
        return load_file(service, (uint16_t)TblHandle, SrcDataPtr);
    case CFE_TBL_SRC_ADDRESS:
        return load_image(service, (uint16_t)TblHandle, SrcDataPtr);
    default:
        return left_with(CFE_TBL_ERR_ILLEGAL_SRC_TYPE);
    }
}

/* ---- what the ground asked for */

CFE_Status_t CFETBL_TBL_Update(CFE_TBL_Handle_t TblHandle)
{
    return call_handle(CFETBL_CALL_UPDATE, CFETBL_KIND_UPDATE, TblHandle);
}

CFE_Status_t CFETBL_TBL_Validate(CFE_TBL_Handle_t TblHandle)
{
    CFE_Status_t code;
    struct cfetbl_service *service = cfetbl_entered(CFETBL_CALL_VALIDATE, &code);
    uint32_t status;

    if (service == NULL) {
        return code;
    }
    status = cfetbl_ask_handle(service, CFETBL_KIND_VALIDATE, (uint16_t)TblHandle);
    /* cFE's is a success once the function was called, whatever it said. */
    return left(status == CFETBL_ERR_VALIDATION_FAILED ? CFETBL_SUCCESS : status);
}

CFE_Status_t CFETBL_TBL_Manage(CFE_TBL_Handle_t TblHandle)
{
    return call_handle(CFETBL_CALL_MANAGE, CFETBL_KIND_MANAGE, TblHandle);
}

CFE_Status_t CFETBL_TBL_DumpToBuffer(CFE_TBL_Handle_t TblHandle)
{
    return call_handle(CFETBL_CALL_DUMP_TO_BUFFER, CFETBL_KIND_DUMP_TO_BUFFER, TblHandle);
}

CFE_Status_t CFETBL_TBL_GetStatus(CFE_TBL_Handle_t TblHandle)
{
    return call_handle(CFETBL_CALL_GET_STATUS, CFETBL_KIND_GET_STATUS, TblHandle);
}

/* ---- addresses */

CFE_Status_t CFETBL_TBL_GetAddress(void **TblPtr, CFE_TBL_Handle_t TblHandle)
{
    struct cfetbl_service *service;
    CFE_Status_t status;

    if (TblPtr == NULL) {
        return CFE_TBL_BAD_ARGUMENT;
    }
    *TblPtr = NULL;
    service = cfetbl_entered(CFETBL_CALL_GET_ADDRESS, &status);
    return service == NULL ? status : left(cfetbl_get(service, (uint16_t)TblHandle, TblPtr));
}

CFE_Status_t CFETBL_TBL_ReleaseAddress(CFE_TBL_Handle_t TblHandle)
{
    CFE_Status_t status;
    struct cfetbl_service *service = cfetbl_entered(CFETBL_CALL_RELEASE_ADDRESS, &status);

    return service == NULL ? status : left(cfetbl_release(service, (uint16_t)TblHandle));
}

CFE_Status_t CFETBL_TBL_GetAddresses(void **TblPtrs[], uint16 NumTables, const CFE_TBL_Handle_t TblHandles[])
{
    CFE_Status_t first = CFE_SUCCESS;
    struct cfetbl_service *service;
    uint16 place;

    if (TblPtrs == NULL || TblHandles == NULL) {
        return CFE_TBL_BAD_ARGUMENT;
    }
    for (place = 0; place < NumTables; place++) {
        if (TblPtrs[place] == NULL) {
            return CFE_TBL_BAD_ARGUMENT;
        }
        *TblPtrs[place] = NULL;
    }
    service = cfetbl_entered(CFETBL_CALL_GET_ADDRESSES, &first);
    if (service == NULL) {
        return first;
    }
    /* All are got, and the first answer that isn't CFE_SUCCESS is returned. */
    for (place = 0, first = CFE_SUCCESS; place < NumTables; place++) {
        CFE_Status_t status = code_of(cfetbl_get(service, (uint16_t)TblHandles[place], TblPtrs[place]));

        first = first == CFE_SUCCESS ? status : first;
    }
    return left_with(first);
}

CFE_Status_t CFETBL_TBL_ReleaseAddresses(uint16 NumTables, const CFE_TBL_Handle_t TblHandles[])
{
    CFE_Status_t first = CFE_SUCCESS;
    struct cfetbl_service *service;
    uint16 place;

    if (TblHandles == NULL) {
        return CFE_TBL_BAD_ARGUMENT;
    }
    service = cfetbl_entered(CFETBL_CALL_RELEASE_ADDRESSES, &first);
    if (service == NULL) {
        return first;
    }
    for (place = 0, first = CFE_SUCCESS; place < NumTables; place++) {
        CFE_Status_t status = code_of(cfetbl_release(service, (uint16_t)TblHandles[place]));

        first = first == CFE_SUCCESS ? status : first;
    }
    return left_with(first);
}

CFE_Status_t CFETBL_TBL_Modified(CFE_TBL_Handle_t TblHandle)
{
    CFE_Status_t code;
    struct cfetbl_service *service = cfetbl_entered(CFETBL_CALL_MODIFIED, &code);
    uint32_t status;

    if (service == NULL) {
        return code;
    }
    status = cfetbl_modified(service, (uint16_t)TblHandle);
    return left(status > 31 ? status : CFETBL_SUCCESS);
}

/* ---- what a table is */

/* What the registry has of a table. */
static void read_info(CFE_TBL_Info_t *info, const uint8_t *record)
{
    info->Size = cfetbl_number_at(record + CFETBL_RECORD_SIZE, 4);
    info->Crc = cfetbl_number_at(record + CFETBL_RECORD_CRC, 4);
    info->TimeOfLastUpdate.Seconds = cfetbl_number_at(record + CFETBL_RECORD_SECONDS, 4);
    info->TimeOfLastUpdate.Subseconds = cfetbl_number_at(record + CFETBL_RECORD_SUBSECONDS, 2) << 16;
    info->TableLoadedOnce = (record[CFETBL_RECORD_STATE] & CFETBL_LOADED) != 0;
    info->DumpOnly = (record[CFETBL_RECORD_STATE] & CFETBL_DUMP_ONLY) != 0;
    info->DoubleBuffered = (record[CFETBL_RECORD_STATE] & CFETBL_DOUBLE) != 0;
    info->Critical = (record[CFETBL_RECORD_STATE] & CFETBL_CRITICAL) != 0;
}

static void read_file(CFE_TBL_Info_t *info, const char *file)
{
    size_t length = LAST_FILE_ROOM - 1 < CFETBL_FILE_NAME ? LAST_FILE_ROOM - 1 : CFETBL_FILE_NAME;

    memcpy(info->LastFileLoaded, file, length);
}

CFE_Status_t CFETBL_TBL_GetInfo(CFE_TBL_Info_t *TblInfoPtr, const char *TblName)
{
    const struct cfetbl_shown *shown;
    const struct cfetbl_table *table;
    struct cfetbl_service *service;
    CFE_Status_t code;
    uint32_t status;

    if (TblInfoPtr == NULL || TblName == NULL) {
        return CFE_TBL_BAD_ARGUMENT;
    }
    memset(TblInfoPtr, 0, sizeof *TblInfoPtr);
    service = cfetbl_entered(CFETBL_CALL_GET_INFO, &code);
    if (service == NULL) {
        return code;
    }
    status = strlen(TblName) > CFETBL_FULL_NAME ? CFETBL_ERR_INVALID_NAME : cfetbl_ask_name(service, CFETBL_KIND_GET_INFO, TblName);
    if (status != CFETBL_SUCCESS) {
        return left(status);
    }
    read_info(TblInfoPtr, cfetbl_reply(service).bytes);
    read_file(TblInfoPtr, (const char *)cfetbl_reply(service).bytes + CFETBL_RECORD_FILE);
    shown = cfetbl_shown_of(service, TblName);
    if (shown != NULL) {
        TblInfoPtr->Crc = shown->crc;
        TblInfoPtr->TimeOfLastUpdate.Seconds = shown->seconds;
        TblInfoPtr->TimeOfLastUpdate.Subseconds = shown->subseconds << 16;
        read_file(TblInfoPtr, shown->file);
    }
    table = cfetbl_table_of(service, TblName);
    if (table != NULL) {
        TblInfoPtr->NumUsers = table->users;
        TblInfoPtr->UserDefAddr = table->is_users;
        TblInfoPtr->TableLoadedOnce = TblInfoPtr->TableLoadedOnce && !(table->is_users && table->active == NULL);
    }
    return left(status);
}

CFE_Status_t CFETBL_TBL_NotifyByMessage(CFE_TBL_Handle_t TblHandle, CFE_SB_MsgId_t MsgId, CFETBL_FcnCode_t CommandCode, uint32 Parameter)
{
    uint32_t id = CFETBL_MESSAGE_NUMBER(MsgId);
    struct cfetbl_service *service;
    struct cfetbl_record record;
    CFE_Status_t status;

    service = cfetbl_entered(CFETBL_CALL_NOTIFY, &status);
    if (service == NULL) {
        return status;
    }
    if (id > 0xFFFF) {
        return left(CFETBL_ERR_NOTICE_ID);
    }
    record = cfetbl_begin(service, CFETBL_KIND_NOTIFY, cfetbl_app(service));
    cfetbl_put_number(&record, (uint16_t)TblHandle, 2);
    cfetbl_put_number(&record, id, 2);
    cfetbl_put_number(&record, CommandCode, 2);
    cfetbl_put_number(&record, Parameter, 4);
    return left(cfetbl_ask(service, record));
}
