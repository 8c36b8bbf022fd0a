/* SPDX-License-Identifier: Apache-2.0 */
/* cfe.h: stands in for the headers of a cFE where CFETBL_WITH_CFE is tried. It has what cfetbl_cfe.h has, cFE's names for resource ids, which
 * are plain numbers by default (cfe_resourceid.h, cfe_es_api_typedefs.h), and of other services what c/tests/apps calls. */
#ifndef CFE_H
#define CFE_H

#include "cfetbl_cfe.h"

#ifdef __cplusplus
extern "C" {
#endif

typedef uint32 CFE_ResourceId_t;

#define CFE_ResourceId_FromInteger(number) ((CFE_ResourceId_t)(number))
#define CFE_RESOURCEID_TO_ULONG(id) ((unsigned long)(id))
#define CFE_ES_CDSHANDLE_C(id) ((CFE_ES_CDSHandle_t)(id))

/* ---- Executive Services */

enum { CFE_ES_RunStatus_APP_RUN = 1, CFE_ES_RunStatus_APP_EXIT = 2, CFE_ES_RunStatus_APP_ERROR = 3 };
typedef enum { CFE_ES_CrcType_CRC_8 = 1, CFE_ES_CrcType_CRC_16 = 2, CFE_ES_CrcType_CRC_32 = 3 } CFE_ES_CrcType_Enum_t;

bool CFE_ES_RunLoop(uint32 *RunStatus);
void CFE_ES_ExitApp(uint32 ExitStatus);
CFE_Status_t CFE_ES_WriteToSysLog(const char *SpecStringPtr, ...);
uint32 CFE_ES_CalculateCRC(const void *DataPtr, size_t DataLength, uint32 InputCRC, CFE_ES_CrcType_Enum_t TypeCRC);

/* ---- Event Services */

enum { CFE_EVS_EventType_INFORMATION = 2, CFE_EVS_EventType_ERROR = 3 };
enum { CFE_EVS_EventFilter_BINARY = 0 };

CFE_Status_t CFE_EVS_Register(const void *Filters, uint16 NumEventFilters, uint16 FilterScheme);
CFE_Status_t CFE_EVS_SendEvent(uint16 EventID, uint16 EventType, const char *Spec, ...);

/* ---- the Software Bus */

typedef CFE_ResourceId_t CFE_SB_PipeId_t;
typedef struct CFE_SB_Buffer {
    uint8 Byte[16];
} CFE_SB_Buffer_t;

#define CFE_SB_PEND_FOREVER (-1)
#define CFE_SB_TIME_OUT ((CFE_Status_t)0xca000001)

CFE_Status_t CFE_SB_CreatePipe(CFE_SB_PipeId_t *PipeIdPtr, uint16 Depth, const char *PipeName);
CFE_Status_t CFE_SB_Subscribe(CFE_SB_MsgId_t MsgId, CFE_SB_PipeId_t PipeId);
CFE_Status_t CFE_SB_ReceiveBuffer(CFE_SB_Buffer_t **BufPtr, CFE_SB_PipeId_t PipeId, int32 TimeOut);

#ifdef __cplusplus
}
#endif

#endif
