/* SPDX-License-Identifier: Apache-2.0 */
/* cfetbl_cfe.h: what the calls of cfetbl.h need of cFE's public headers, for applications that are built without these. Names and
 * meanings are those of cfe_tbl.h, cfe_tbl_api_typedefs.h, cfe_es.h and cfe_error.h. Code that compares return codes by their names
 * means the same with either. It follows edition 7 of cFE's API ('Caelum'), and with CFETBL_CFE_VERSION 607 that of 6.7. */
#ifndef CFETBL_CFE_H
#define CFETBL_CFE_H

#include <stdbool.h>
#include <stddef.h>
#include <stdint.h>

#ifdef __cplusplus
extern "C" {
#endif

/* ---- common types (common_types.h, cfe_error.h) */

typedef int8_t int8;
typedef int16_t int16;
typedef int32_t int32;
typedef uint8_t uint8;
typedef uint16_t uint16;
typedef uint32_t uint32;
typedef int64_t int64;
typedef uint64_t uint64;
typedef uintptr_t cpuaddr;
typedef size_t cpusize;
typedef ptrdiff_t cpudiff;
typedef int32 CFE_Status_t;

#define CFE_SUCCESS ((CFE_Status_t)0)
#define CFE_STATUS_EXTERNAL_RESOURCE_FAIL ((CFE_Status_t)0xc8000005)

/* ---- return codes of Executive Services (cfe_error.h) */

#define CFE_ES_CDS_ALREADY_EXISTS ((CFE_Status_t)0x4400000d)
#define CFE_ES_CDS_INSUFFICIENT_MEMORY ((CFE_Status_t)0xc400000e)
#define CFE_ES_CDS_INVALID_NAME ((CFE_Status_t)0xc400000f)
#define CFE_ES_CDS_INVALID_SIZE ((CFE_Status_t)0xc4000010)
#define CFE_ES_CDS_INVALID ((CFE_Status_t)0xc4000012)
#define CFE_ES_CDS_ACCESS_ERROR ((CFE_Status_t)0xc4000013)
#define CFE_ES_BAD_ARGUMENT ((CFE_Status_t)0xc4000015)
#define CFE_ES_CDS_BLOCK_CRC_ERR ((CFE_Status_t)0xc400001c)
#define CFE_ES_ERR_RESOURCEID_NOT_VALID ((CFE_Status_t)0xc4000001)
#define CFE_ES_ERR_NAME_NOT_FOUND ((CFE_Status_t)0xc4000002)

/* ---- return codes of Table Services (cfe_error.h) */

#define CFE_TBL_ERR_INVALID_HANDLE ((CFE_Status_t)0xcc000001)
#define CFE_TBL_ERR_INVALID_NAME ((CFE_Status_t)0xcc000002)
#define CFE_TBL_ERR_INVALID_SIZE ((CFE_Status_t)0xcc000003)
#define CFE_TBL_INFO_UPDATE_PENDING ((CFE_Status_t)0x4c000004)
#define CFE_TBL_ERR_NEVER_LOADED ((CFE_Status_t)0xcc000005)
#define CFE_TBL_ERR_REGISTRY_FULL ((CFE_Status_t)0xcc000006)
#define CFE_TBL_WARN_DUPLICATE ((CFE_Status_t)0x4c000007)
#define CFE_TBL_ERR_NO_ACCESS ((CFE_Status_t)0xcc000008)
#define CFE_TBL_ERR_UNREGISTERED ((CFE_Status_t)0xcc000009)
#define CFE_TBL_ERR_HANDLES_FULL ((CFE_Status_t)0xcc00000b)
#define CFE_TBL_ERR_DUPLICATE_DIFF_SIZE ((CFE_Status_t)0xcc00000c)
#define CFE_TBL_ERR_DUPLICATE_NOT_OWNED ((CFE_Status_t)0xcc00000d)
#define CFE_TBL_INFO_UPDATED ((CFE_Status_t)0x4c00000e)
#define CFE_TBL_ERR_NO_BUFFER_AVAIL ((CFE_Status_t)0xcc00000f)
#define CFE_TBL_ERR_DUMP_ONLY ((CFE_Status_t)0xcc000010)
#define CFE_TBL_ERR_ILLEGAL_SRC_TYPE ((CFE_Status_t)0xcc000011)
#define CFE_TBL_ERR_LOAD_IN_PROGRESS ((CFE_Status_t)0xcc000012)
#define CFE_TBL_ERR_FILE_TOO_LARGE ((CFE_Status_t)0xcc000014)
#define CFE_TBL_WARN_SHORT_FILE ((CFE_Status_t)0x4c000015)
#define CFE_TBL_ERR_BAD_CONTENT_ID ((CFE_Status_t)0xcc000016)
#define CFE_TBL_INFO_NO_UPDATE_PENDING ((CFE_Status_t)0x4c000017)
#define CFE_TBL_INFO_TABLE_LOCKED ((CFE_Status_t)0x4c000018)
#define CFE_TBL_INFO_VALIDATION_PENDING ((CFE_Status_t)0x4c000019)
#define CFE_TBL_INFO_NO_VALIDATION_PENDING ((CFE_Status_t)0x4c00001a)
#define CFE_TBL_ERR_BAD_SUBTYPE_ID ((CFE_Status_t)0xcc00001b)
#define CFE_TBL_ERR_FILE_SIZE_INCONSISTENT ((CFE_Status_t)0xcc00001c)
#define CFE_TBL_ERR_NO_STD_HEADER ((CFE_Status_t)0xcc00001d)
#define CFE_TBL_ERR_NO_TBL_HEADER ((CFE_Status_t)0xcc00001e)
#define CFE_TBL_ERR_FILENAME_TOO_LONG ((CFE_Status_t)0xcc00001f)
#define CFE_TBL_ERR_FILE_FOR_WRONG_TABLE ((CFE_Status_t)0xcc000020)
#define CFE_TBL_ERR_LOAD_INCOMPLETE ((CFE_Status_t)0xcc000021)
#define CFE_TBL_WARN_PARTIAL_LOAD ((CFE_Status_t)0x4c000022)
#define CFE_TBL_ERR_PARTIAL_LOAD ((CFE_Status_t)0xcc000023)
#define CFE_TBL_INFO_DUMP_PENDING ((CFE_Status_t)0x4c000024)
#define CFE_TBL_ERR_INVALID_OPTIONS ((CFE_Status_t)0xcc000025)
#define CFE_TBL_WARN_NOT_CRITICAL ((CFE_Status_t)0x4c000026)
#define CFE_TBL_INFO_RECOVERED_TBL ((CFE_Status_t)0x4c000027)
#define CFE_TBL_ERR_BAD_SPACECRAFT_ID ((CFE_Status_t)0xcc000028)
#define CFE_TBL_ERR_BAD_PROCESSOR_ID ((CFE_Status_t)0xcc000029)
#define CFE_TBL_MESSAGE_ERROR ((CFE_Status_t)0xcc00002a)
#define CFE_TBL_ERR_SHORT_FILE ((CFE_Status_t)0xcc00002b)
#define CFE_TBL_ERR_ACCESS ((CFE_Status_t)0xcc00002c)
#define CFE_TBL_BAD_ARGUMENT ((CFE_Status_t)0xcc00002d)
#define CFE_TBL_NOT_IMPLEMENTED ((CFE_Status_t)0xcc00ffff)

/* ---- Table Services (cfe_tbl_api_typedefs.h, cfe_tbl.h) */

#define CFE_TBL_OPT_BUFFER_MSK (0x0001)
#define CFE_TBL_OPT_SNGL_BUFFER (0x0000)
#define CFE_TBL_OPT_DBL_BUFFER (0x0001)
#define CFE_TBL_OPT_LD_DMP_MSK (0x0002)
#define CFE_TBL_OPT_LOAD_DUMP (0x0000)
#define CFE_TBL_OPT_DUMP_ONLY (0x0002)
#define CFE_TBL_OPT_USR_DEF_MSK (0x0004)
#define CFE_TBL_OPT_NOT_USR_DEF (0x0000)
#define CFE_TBL_OPT_USR_DEF_ADDR (0x0006)
#define CFE_TBL_OPT_CRITICAL_MSK (0x0008)
#define CFE_TBL_OPT_NOT_CRITICAL (0x0000)
#define CFE_TBL_OPT_CRITICAL (0x0008)
#define CFE_TBL_OPT_DEFAULT (CFE_TBL_OPT_SNGL_BUFFER | CFE_TBL_OPT_LOAD_DUMP)

#define CFE_MISSION_MAX_PATH_LEN 64
#define CFE_MISSION_TBL_MAX_NAME_LENGTH 16
#define CFE_MISSION_TBL_MAX_FULL_NAME_LEN 40
#define CFE_TBL_MAX_FULL_NAME_LEN (CFE_MISSION_TBL_MAX_FULL_NAME_LEN)
#define CFE_MISSION_MAX_FILE_LEN 20

typedef int16 CFE_TBL_Handle_t;

#define CFE_TBL_BAD_TABLE_HANDLE ((CFE_TBL_Handle_t)0xFFFF)

/* A validation function: CFE_SUCCESS where the image may go active, and else a number of its own. */
typedef int32 (*CFE_TBL_CallbackFuncPtr_t)(void *TblPtr);

typedef enum CFE_TBL_SrcEnum {
    CFE_TBL_SRC_FILE = 0,
    CFE_TBL_SRC_ADDRESS
} CFE_TBL_SrcEnum_t;

typedef struct CFE_TIME_SysTime {
    uint32 Seconds;
    uint32 Subseconds; /* in units of 1/4,294,967,296 of a second */
} CFE_TIME_SysTime_t;

typedef struct CFE_TBL_Info {
    size_t Size;
    uint32 NumUsers;
    uint32 FileCreateTimeSecs;
    uint32 FileCreateTimeSubSecs;
    uint32 Crc;
    CFE_TIME_SysTime_t TimeOfLastUpdate;
    bool TableLoadedOnce;
    bool DumpOnly;
    bool DoubleBuffered;
    bool UserDefAddr;
    bool Critical;
    char LastFileLoaded[CFE_MISSION_MAX_PATH_LEN];
} CFE_TBL_Info_t;

typedef uint16 CFE_MSG_FcnCode_t;

#if defined CFETBL_CFE_VERSION && CFETBL_CFE_VERSION == 607
typedef uint32 CFE_SB_MsgId_t;

#define CFE_SB_MSGID_WRAP_VALUE(mid) (mid)
#else
typedef struct CFE_SB_MsgId {
    uint32 Value;
} CFE_SB_MsgId_t;

#define CFE_SB_MSGID_WRAP_VALUE(mid) {mid}
#endif

static inline CFE_SB_MsgId_t CFE_SB_ValueToMsgId(uint32 value)
{
    CFE_SB_MsgId_t id = CFE_SB_MSGID_WRAP_VALUE(value);

    return id;
}

static inline uint32 CFE_SB_MsgIdToValue(CFE_SB_MsgId_t id)
{
#if defined CFETBL_CFE_VERSION && CFETBL_CFE_VERSION == 607
    return id;
#else
    return id.Value;
#endif
}

/* What names the file that a tool makes of a table's object (cfe_tbl_filedef.h). */
typedef struct CFE_TBL_FileDef {
    char ObjectName[64];
    char TableName[CFE_MISSION_TBL_MAX_FULL_NAME_LEN];
    char Description[32];
    char TgtFilename[CFE_MISSION_MAX_FILE_LEN];
    uint32 ObjectSize;
} CFE_TBL_FileDef_t;

#ifdef __GNUC__
#define CFE_TBL_FILEDEF_USED __attribute__((used))
#else
#define CFE_TBL_FILEDEF_USED
#endif

#define CFE_TBL_FILEDEF(ObjName, TblName, Desc, Filename) \
    static CFE_TBL_FILEDEF_USED CFE_TBL_FileDef_t CFE_TBL_FileDef = {#ObjName, #TblName, #Desc, #Filename, sizeof(ObjName)};

#if !defined CFETBL_CFE_VERSION || CFETBL_CFE_VERSION != 607
CFE_Status_t CFE_TBL_Register(CFE_TBL_Handle_t *TblHandlePtr, const char *Name, size_t Size, uint16 TblOptionFlags,
                              CFE_TBL_CallbackFuncPtr_t TblValidationFuncPtr);
#elif defined CFETBL_WITH_CFE
CFE_Status_t CFE_TBL_Register(CFE_TBL_Handle_t *TblHandlePtr, const char *Name, uint32 Size, uint16 TblOptionFlags,
                              CFE_TBL_CallbackFuncPtr_t TblValidationFuncPtr);
#endif
CFE_Status_t CFE_TBL_Share(CFE_TBL_Handle_t *TblHandlePtr, const char *TblName);
CFE_Status_t CFE_TBL_Unregister(CFE_TBL_Handle_t TblHandle);
CFE_Status_t CFE_TBL_Load(CFE_TBL_Handle_t TblHandle, CFE_TBL_SrcEnum_t SrcType, const void *SrcDataPtr);
CFE_Status_t CFE_TBL_Update(CFE_TBL_Handle_t TblHandle);
CFE_Status_t CFE_TBL_Validate(CFE_TBL_Handle_t TblHandle);
CFE_Status_t CFE_TBL_Manage(CFE_TBL_Handle_t TblHandle);
CFE_Status_t CFE_TBL_DumpToBuffer(CFE_TBL_Handle_t TblHandle);
CFE_Status_t CFE_TBL_Modified(CFE_TBL_Handle_t TblHandle);
CFE_Status_t CFE_TBL_GetAddress(void **TblPtr, CFE_TBL_Handle_t TblHandle);
CFE_Status_t CFE_TBL_ReleaseAddress(CFE_TBL_Handle_t TblHandle);
CFE_Status_t CFE_TBL_GetAddresses(void **TblPtrs[], uint16 NumTables, const CFE_TBL_Handle_t TblHandles[]);
CFE_Status_t CFE_TBL_ReleaseAddresses(uint16 NumTables, const CFE_TBL_Handle_t TblHandles[]);
CFE_Status_t CFE_TBL_GetStatus(CFE_TBL_Handle_t TblHandle);
CFE_Status_t CFE_TBL_GetInfo(CFE_TBL_Info_t *TblInfoPtr, const char *TblName);
CFE_Status_t CFE_TBL_NotifyByMessage(CFE_TBL_Handle_t TblHandle, CFE_SB_MsgId_t MsgId, CFE_MSG_FcnCode_t CommandCode, uint32 Parameter);

/* ---- the Critical Data Store (cfe_es.h) */

typedef uint32 CFE_ES_CDSHandle_t;

#define CFE_ES_CDS_BAD_HANDLE ((CFE_ES_CDSHandle_t)0)
#define CFE_MISSION_ES_CDS_MAX_NAME_LENGTH 16

#if !defined CFETBL_CFE_VERSION || CFETBL_CFE_VERSION != 607
CFE_Status_t CFE_ES_RegisterCDS(CFE_ES_CDSHandle_t *CDSHandlePtr, size_t BlockSize, const char *Name);
CFE_Status_t CFE_ES_CopyToCDS(CFE_ES_CDSHandle_t Handle, const void *DataToCopy);
#elif defined CFETBL_WITH_CFE
CFE_Status_t CFE_ES_RegisterCDS(CFE_ES_CDSHandle_t *CDSHandlePtr, int32 BlockSize, const char *Name);
CFE_Status_t CFE_ES_CopyToCDS(CFE_ES_CDSHandle_t Handle, void *DataToCopy);
#endif
CFE_Status_t CFE_ES_RestoreFromCDS(void *RestoreToMemory, CFE_ES_CDSHandle_t Handle);

#ifdef __cplusplus
}
#endif

#endif
