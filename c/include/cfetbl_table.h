/* SPDX-License-Identifier: Apache-2.0 */
/* cfetbl_table.h: what a table's definition and its validation function need of cFE's public headers, if they are built without
 * these. CFE_TBL_FILEDEF is in cfetbl_cfe.h; no code refers to what it defines, which `cfetbl table` and elf2cfetbl read. Events have
 * the names of cfe_evs.h. */
#ifndef CFETBL_TABLE_H
#define CFETBL_TABLE_H

#include "cfetbl_cfe.h"

#ifdef __cplusplus
extern "C" {
#endif

/* ---- events (cfe_evs.h, cfe_evs_api_typedefs.h) */

#define CFE_EVS_EventType_DEBUG 1
#define CFE_EVS_EventType_INFORMATION 2
#define CFE_EVS_EventType_ERROR 3
#define CFE_EVS_EventType_CRITICAL 4

CFE_Status_t CFE_EVS_SendEvent(uint16 EventID, uint16 EventType, const char *Spec, ...) __attribute__((format(printf, 3, 4)));

#ifdef __cplusplus
}
#endif

#endif
