/* SPDX-License-Identifier: Apache-2.0 */
/* sample.h: an application in the style of cFS: it has one table, which it loads from a file and looks at when it is told to process. */
#ifndef SAMPLE_H
#define SAMPLE_H

#include "cfe.h"

#define SAMPLE_TABLE_FILE "/cf/sample_tbl.tbl"
#define SAMPLE_TABLE_VERSION_ERR (-5)
#define SAMPLE_INIT_INF_EID 1
#define SAMPLE_LOAD_ERR_EID 2

typedef struct {
    uint8 Version; /* 0 is none */
    uint8 Spare;
    uint16 Limit;
} SAMPLE_Table_t;

CFE_Status_t SAMPLE_Init(void);
CFE_Status_t SAMPLE_ReportHousekeeping(void);
CFE_Status_t SAMPLE_Process(uint16 *Limit, uint32 *Crc);
void SAMPLE_Main(void);

#endif
