/* SPDX-License-Identifier: Apache-2.0 */
/* thermal.h: a thermal control application. It keeps heaters on below the temperatures of a limits table, which the ground loads, and
 * keeps which of them it has given up in a critical table, which outlives a reset of the processor. */
#ifndef THERMAL_H
#define THERMAL_H

#ifdef THERMAL_ON_CFE
#include "cfe.h"
#else
#include "cfetbl.h"
#endif

#define THERMAL_ZONES 4

/* Temperatures are in tenths of a degree Celsius. */
typedef struct {
    int16 Low;  /* the heater goes on below */
    int16 High; /* and off above */
} THERMAL_Limits_t;

typedef struct {
    THERMAL_Limits_t Zone[THERMAL_ZONES];
} THERMAL_LimitsTable_t;

typedef struct {
    uint8 GivenUp[THERMAL_ZONES]; /* 1 where the heater of a zone is out of use */
} THERMAL_HeatersTable_t;

/* Return codes of the validation functions. */
#define THERMAL_LIMITS_ORDER_ERR (-1)
#define THERMAL_LIMITS_RANGE_ERR (-2)
#define THERMAL_HEATERS_VALUE_ERR (-3)

CFE_Status_t THERMAL_Init(void);
CFE_Status_t THERMAL_Housekeeping(void);
CFE_Status_t THERMAL_Control(const int16 Temperature[THERMAL_ZONES], uint8 Heater[THERMAL_ZONES]);
CFE_Status_t THERMAL_GiveUp(int Zone);

#endif
