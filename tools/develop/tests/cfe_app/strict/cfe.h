/* The same with types of which none is a number: what compiles with these doesn't take one kind of identifier for another. */
#ifndef CFE_H
#define CFE_H

#include <stdbool.h>
#include <stddef.h>
#include <stdint.h>

typedef int16_t int16;
typedef int32_t int32;
typedef uint8_t uint8;
typedef uint16_t uint16;
typedef uint32_t uint32;
typedef int32 CFE_Status_t;

typedef struct { uint32 Value; } CFE_ResourceId_t;
typedef struct { CFE_ResourceId_t Id; } CFE_ES_AppId_t;
typedef struct { CFE_ResourceId_t Id; } CFE_ES_CDSHandle_t;
typedef struct { uint32 Value; } CFE_SB_MsgId_t;
typedef struct { uint32 Value; } osal_id_t;
typedef uint16 CFE_MSG_FcnCode_t;
typedef int16 CFE_TBL_Handle_t;
typedef int32 (*CFE_TBL_CallbackFuncPtr_t)(void *TblPtr);
typedef enum CFE_TBL_SrcEnum { CFE_TBL_SRC_FILE = 0, CFE_TBL_SRC_ADDRESS } CFE_TBL_SrcEnum_t;
typedef struct CFE_TIME_SysTime { uint32 Seconds; uint32 Subseconds; } CFE_TIME_SysTime_t;

typedef struct CFE_TBL_Info {
    size_t Size;
    uint32 NumUsers, FileCreateTimeSecs, FileCreateTimeSubSecs, Crc;
    CFE_TIME_SysTime_t TimeOfLastUpdate;
    bool TableLoadedOnce, DumpOnly, DoubleBuffered, UserDefAddr, Critical;
    char LastFileLoaded[64];
} CFE_TBL_Info_t;

static inline unsigned long CFE_ResourceId_ToInteger(CFE_ResourceId_t Id)
{
    return Id.Value;
}

static inline uint32 CFE_SB_MsgIdToValue(CFE_SB_MsgId_t MsgId)
{
    return MsgId.Value;
}

static inline CFE_SB_MsgId_t CFE_SB_ValueToMsgId(uint32 MsgIdValue)
{
    CFE_SB_MsgId_t Id = {MsgIdValue};

    return Id;
}

#define CFE_RESOURCEID_TO_ULONG(id) CFE_ResourceId_ToInteger((id).Id)
#define CFE_SB_INVALID_MSG_ID CFE_SB_ValueToMsgId(0)
#define CFE_ES_CDS_BAD_HANDLE ((CFE_ES_CDSHandle_t){{0}})
#define CFE_TBL_BAD_TABLE_HANDLE ((CFE_TBL_Handle_t)0xFFFF)
#define CFE_TBL_OPT_DUMP_ONLY 0x0002
#define CFE_MISSION_TBL_MAX_FULL_NAME_LEN 40
#define CFE_MISSION_MAX_PATH_LEN 64

#define CFE_SUCCESS ((CFE_Status_t)0)
#define CFE_ES_CDS_ALREADY_EXISTS ((CFE_Status_t)0x4400000d)
#define CFE_TBL_WARN_DUPLICATE ((CFE_Status_t)0x4c000007)
#define CFE_TBL_INFO_UPDATED ((CFE_Status_t)0x4c00000e)
#define CFE_TBL_WARN_NOT_CRITICAL ((CFE_Status_t)0x4c000026)
#define CFE_TBL_INFO_RECOVERED_TBL ((CFE_Status_t)0x4c000027)

#include "common.h"

CFE_Status_t CFE_TBL_Register(CFE_TBL_Handle_t *TblHandlePtr, const char *Name, size_t Size, uint16 TblOptionFlags,
                              CFE_TBL_CallbackFuncPtr_t TblValidationFuncPtr);
CFE_Status_t CFE_TBL_Share(CFE_TBL_Handle_t *TblHandlePtr, const char *TblName);
CFE_Status_t CFE_TBL_Unregister(CFE_TBL_Handle_t TblHandle);
CFE_Status_t CFE_TBL_Load(CFE_TBL_Handle_t TblHandle, CFE_TBL_SrcEnum_t SrcType, const void *SrcDataPtr);
CFE_Status_t CFE_TBL_Update(CFE_TBL_Handle_t TblHandle);
CFE_Status_t CFE_TBL_Validate(CFE_TBL_Handle_t TblHandle);
CFE_Status_t CFE_TBL_Manage(CFE_TBL_Handle_t TblHandle);
CFE_Status_t CFE_TBL_DumpToBuffer(CFE_TBL_Handle_t TblHandle);
CFE_Status_t CFE_TBL_Modified(CFE_TBL_Handle_t TblHandle);
CFE_Status_t CFE_TBL_GetAddress(void **TblPtr, CFE_TBL_Handle_t TblHandle);
CFE_Status_t CFE_TBL_ReleaseAddress(CFE_TBL_Handle_t TblHandle);
CFE_Status_t CFE_TBL_GetAddresses(void **TblPtrs[], uint16 NumTables, const CFE_TBL_Handle_t TblHandles[]);
CFE_Status_t CFE_TBL_ReleaseAddresses(uint16 NumTables, const CFE_TBL_Handle_t TblHandles[]);
CFE_Status_t CFE_TBL_GetStatus(CFE_TBL_Handle_t TblHandle);
CFE_Status_t CFE_TBL_GetInfo(CFE_TBL_Info_t *TblInfoPtr, const char *TblName);
CFE_Status_t CFE_TBL_NotifyByMessage(CFE_TBL_Handle_t TblHandle, CFE_SB_MsgId_t MsgId, CFE_MSG_FcnCode_t CommandCode, uint32 Parameter);
CFE_Status_t CFE_ES_RegisterCDS(CFE_ES_CDSHandle_t *CDSHandlePtr, size_t BlockSize, const char *Name);
CFE_Status_t CFE_ES_CopyToCDS(CFE_ES_CDSHandle_t Handle, const void *DataToCopy);
CFE_Status_t CFE_ES_RestoreFromCDS(void *RestoreToMemory, CFE_ES_CDSHandle_t Handle);

#endif
