/* SPDX-License-Identifier: Apache-2.0 */
/* checker.h: the table of a limit checker. It watches values in telemetry packets, and has an action for each that leaves its limits. */
#ifndef CHECKER_H
#define CHECKER_H

#ifdef CHECKER_ON_CFE
#include "cfe.h"
#include "cfe_tbl_filedef.h"
#else
#include "cfetbl_table.h"
#endif

#define CHECKER_POINTS 4
#define CHECKER_NAME 10

typedef enum { CHECKER_UNUSED = 0, CHECKER_EVENT = 1, CHECKER_SAFE_MODE = 2 } CHECKER_Action_t;

/* A value that is watched. */
typedef struct {
    char Name[CHECKER_NAME];
    uint16 MsgId;  /* the packet that it comes in */
    uint8 Place;   /* and the byte in which it begins */
    float Low;     /* limits, each of which is allowed itself */
    float High;
    CHECKER_Action_t Action;
    uint8 Persistence; /* how often it may be outside in a row */
    bool IsLatched;    /* whether the action is taken once only */
} CHECKER_Point_t;

typedef struct {
    uint32 Version;
    double Period; /* seconds between two looks */
    CHECKER_Point_t Point[CHECKER_POINTS];
} CHECKER_Limits_t;

/* Events, and return codes of the validation function. */
#define CHECKER_VALIDATION_EID 12
#define CHECKER_PERIOD_ERR (-1)
#define CHECKER_NAME_ERR (-2)
#define CHECKER_ORDER_ERR (-3)
#define CHECKER_PERSISTENCE_ERR (-4)

int32 CHECKER_ValidateLimits(void *TblPtr);

#endif
