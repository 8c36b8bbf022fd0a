/* SPDX-License-Identifier: Apache-2.0 */
/* checker.h: an application in the style of cFS that compares the check words of other applications' tables with those that it found first.
 * Which tables it looks at is in a table, what it found in a dump-only one, and whether it is on in the Critical Data Store. */
#ifndef CHECKER_H
#define CHECKER_H

#include "cfe.h"

#define CHECKER_TABLES 3
#define CHECKER_STATE_ERR (-5)

typedef struct {
    uint8 State; /* 1 off, 2 on */
    char Name[CFE_TBL_MAX_FULL_NAME_LEN];
} CHECKER_Definition_t;

typedef struct {
    uint8 IsKnown;
    uint32 Size;
    uint32 Crc;
    CFE_TBL_Handle_t Handle;
    char Name[CFE_TBL_MAX_FULL_NAME_LEN];
} CHECKER_Result_t;

/* What a look at a table found; less than CFE_SUCCESS is an error. */
enum { CHECKER_SAME = 0, CHECKER_FIRST = 1, CHECKER_CHANGED = 2, CHECKER_UNTOLD = 3, CHECKER_OFF = 4 };

CFE_Status_t CHECKER_Init(const CHECKER_Definition_t Definitions[CHECKER_TABLES]);
CFE_Status_t CHECKER_Housekeeping(void);
CFE_Status_t CHECKER_Switch(uint8 IsOn);
int32 CHECKER_Look(int Number);

#endif
