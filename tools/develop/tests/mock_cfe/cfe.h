/* What record.c and app.c need of cFE's public headers: the types, the calls and the return codes. The values are this mock's. */
#ifndef CFE_H
#define CFE_H

#include <stdbool.h>
#include <stddef.h>
#include <stdint.h>

typedef int32_t CFE_Status_t;
typedef int16_t CFE_TBL_Handle_t;
typedef int32_t int32;
typedef uint32_t CFE_ES_CDSHandle_t, CFE_SB_MsgId_t, uint32;
typedef uint16_t CFE_MSG_FcnCode_t, uint16;
typedef enum { CFE_TBL_SRC_FILE, CFE_TBL_SRC_ADDRESS } CFE_TBL_SrcEnum_t;
typedef int32 (*CFE_TBL_CallbackFuncPtr_t)(void *);
typedef struct { size_t Size; bool TableLoadedOnce, DumpOnly, DoubleBuffered, Critical; } CFE_TBL_Info_t;

#define CFE_TBL_OPT_DUMP_ONLY 2
#define CFE_RESOURCEID_TO_ULONG(id) ((unsigned long)(id))
#define CFE_SB_MsgIdToValue(id) (id)

#define CFE_SUCCESS 0
#define CFE_TBL_INFO_UPDATED 1
#define CFE_TBL_INFO_UPDATE_PENDING 2
#define CFE_TBL_INFO_NO_UPDATE_PENDING 3
#define CFE_TBL_INFO_TABLE_LOCKED 4
#define CFE_TBL_INFO_RECOVERED_TBL 5
#define CFE_TBL_WARN_DUPLICATE 6
#define CFE_TBL_WARN_NOT_CRITICAL 7
#define CFE_TBL_ERR_INVALID_HANDLE (-1)
#define CFE_TBL_ERR_NEVER_LOADED (-2)
#define CFE_TBL_ERR_DUPLICATE_DIFF_SIZE (-3)
#define CFE_TBL_ERR_LOAD_IN_PROGRESS (-4)
#define CFE_TBL_ERR_INVALID_NAME (-5)
#define CFE_ES_CDS_ALREADY_EXISTS 8
#define CFE_ES_CDS_BLOCK_CRC_ERR (-6)

CFE_Status_t CFE_TBL_Register(CFE_TBL_Handle_t *, const char *, size_t, uint16, CFE_TBL_CallbackFuncPtr_t);
CFE_Status_t CFE_TBL_Share(CFE_TBL_Handle_t *, const char *);
CFE_Status_t CFE_TBL_Unregister(CFE_TBL_Handle_t);
CFE_Status_t CFE_TBL_Load(CFE_TBL_Handle_t, CFE_TBL_SrcEnum_t, const void *);
CFE_Status_t CFE_TBL_Update(CFE_TBL_Handle_t);
CFE_Status_t CFE_TBL_Validate(CFE_TBL_Handle_t);
CFE_Status_t CFE_TBL_Manage(CFE_TBL_Handle_t);
CFE_Status_t CFE_TBL_DumpToBuffer(CFE_TBL_Handle_t);
CFE_Status_t CFE_TBL_GetAddress(void **, CFE_TBL_Handle_t);
CFE_Status_t CFE_TBL_ReleaseAddress(CFE_TBL_Handle_t);
CFE_Status_t CFE_TBL_GetAddresses(void **[], uint16, const CFE_TBL_Handle_t[]);
CFE_Status_t CFE_TBL_ReleaseAddresses(uint16, const CFE_TBL_Handle_t[]);
CFE_Status_t CFE_TBL_Modified(CFE_TBL_Handle_t);
CFE_Status_t CFE_TBL_GetStatus(CFE_TBL_Handle_t);
CFE_Status_t CFE_TBL_GetInfo(CFE_TBL_Info_t *, const char *);
CFE_Status_t CFE_TBL_NotifyByMessage(CFE_TBL_Handle_t, CFE_SB_MsgId_t, CFE_MSG_FcnCode_t, uint32);
CFE_Status_t CFE_ES_RegisterCDS(CFE_ES_CDSHandle_t *, size_t, const char *);
CFE_Status_t CFE_ES_CopyToCDS(CFE_ES_CDSHandle_t, const void *);
CFE_Status_t CFE_ES_RestoreFromCDS(void *, CFE_ES_CDSHandle_t);

/* The ground of the mock: a file with a whole image goes into the table's inactive buffer, and its activation is asked. */
void mock_ground_loads(const void *image);

#endif
