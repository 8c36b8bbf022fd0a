/* cFE as far as the application of `cfetbl cfe-app` needs it, over the library for C: as_cfe.c has the rest. */
#ifndef CFE_H
#define CFE_H

#include "cfetbl.h"

typedef uint32 CFE_ResourceId_t;
typedef CFE_ResourceId_t CFE_ES_AppId_t;
typedef uint32 osal_id_t;

#define CFE_RESOURCEID_TO_ULONG(id) ((unsigned long)(id))
#define CFE_SB_INVALID_MSG_ID CFE_SB_ValueToMsgId(0)

#include "common.h"

#endif
