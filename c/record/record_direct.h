/* SPDX-License-Identifier: Apache-2.0 */
/* Included after cfe.h by a source that is compiled with record.c and RECORD_DIRECT, its calls are recorded without the linker's help. */
#ifndef RECORD_DIRECT_H
#define RECORD_DIRECT_H

#define RECORD(call) extern __typeof__(call) record_##call;
#include "calls.h"
#undef RECORD

#define CFE_TBL_Register record_CFE_TBL_Register
#define CFE_TBL_Share record_CFE_TBL_Share
#define CFE_TBL_Unregister record_CFE_TBL_Unregister
#define CFE_TBL_Load record_CFE_TBL_Load
#define CFE_TBL_Update record_CFE_TBL_Update
#define CFE_TBL_Validate record_CFE_TBL_Validate
#define CFE_TBL_Manage record_CFE_TBL_Manage
#define CFE_TBL_DumpToBuffer record_CFE_TBL_DumpToBuffer
#define CFE_TBL_Modified record_CFE_TBL_Modified
#define CFE_TBL_GetAddress record_CFE_TBL_GetAddress
#define CFE_TBL_ReleaseAddress record_CFE_TBL_ReleaseAddress
#define CFE_TBL_GetAddresses record_CFE_TBL_GetAddresses
#define CFE_TBL_ReleaseAddresses record_CFE_TBL_ReleaseAddresses
#define CFE_TBL_GetStatus record_CFE_TBL_GetStatus
#define CFE_TBL_GetInfo record_CFE_TBL_GetInfo
#define CFE_TBL_NotifyByMessage record_CFE_TBL_NotifyByMessage
#define CFE_ES_RegisterCDS record_CFE_ES_RegisterCDS
#define CFE_ES_CopyToCDS record_CFE_ES_CopyToCDS
#define CFE_ES_RestoreFromCDS record_CFE_ES_RestoreFromCDS
#define CFE_ES_ExitApp record_CFE_ES_ExitApp
#define CFE_ES_ResetCFE record_CFE_ES_ResetCFE
#define CFE_SB_TransmitMsg record_CFE_SB_TransmitMsg

#endif
