/* SPDX-License-Identifier: Apache-2.0 */
/* pump.h: an application that counts the strokes of a pump. Its limits are a critical table. What it has counted, and since when, is in two
 * blocks of the Critical Data Store.
 *
 * Compiled with PUMP_FAULTY it is as it was first written, with two faults that no flight would find before a reset does. */
#ifndef PUMP_H
#define PUMP_H

#ifdef PUMP_ON_CFE
#include "cfe.h"
#else
#include "cfetbl.h"
#endif

typedef struct {
    uint32 Most; /* strokes in a shift */
    uint32 Pace; /* strokes in a minute */
} PUMP_Limits_t;

/* What was counted in a shift. */
typedef struct {
    uint32 Shift;
    uint32 Strokes;
} PUMP_Count_t;

/* When the shift began. */
typedef struct {
    uint32 Shift;
    uint32 Began;
} PUMP_Since_t;

/* What the application knows. */
typedef struct {
    PUMP_Count_t Count;
    PUMP_Since_t Since;
    PUMP_Limits_t Limits;
} PUMP_State_t;

extern PUMP_State_t PUMP_State;

CFE_Status_t PUMP_Init(void);
CFE_Status_t PUMP_Stroke(void);
CFE_Status_t PUMP_NewShift(uint32 Began);
CFE_Status_t PUMP_SetLimits(const PUMP_Limits_t *Limits);

#endif
