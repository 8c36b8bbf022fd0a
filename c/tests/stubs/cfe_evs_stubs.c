/* SPDX-License-Identifier: Apache-2.0 */
/* cfe_evs_stubs.c: stubs of Event Services, one object a service, as a generator makes them of cFE's headers. */
#include "utstubs.h"

CFE_Status_t CFE_EVS_Register(const void *Filters, uint16 NumEventFilters, uint16 FilterScheme)
{
    UT_StubContext_t context;

    UT_Stub_Begin(&context);
    UT_Stub_Add(&context, "Filters", &Filters, sizeof Filters);
    UT_Stub_Add(&context, "NumEventFilters", &NumEventFilters, sizeof NumEventFilters);
    UT_Stub_Add(&context, "FilterScheme", &FilterScheme, sizeof FilterScheme);
    UT_Stub_Execute(UT_KEY(CFE_EVS_Register), &context);
    return UT_Stub_Value(UT_KEY(CFE_EVS_Register));
}

CFE_Status_t CFE_EVS_SendEvent(uint16 EventID, uint16 EventType, const char *Spec, ...)
{
    UT_StubContext_t context;

    UT_Stub_Begin(&context);
    UT_Stub_Add(&context, "EventID", &EventID, sizeof EventID);
    UT_Stub_Add(&context, "EventType", &EventType, sizeof EventType);
    UT_Stub_Add(&context, "Spec", &Spec, sizeof Spec);
    UT_Stub_Execute(UT_KEY(CFE_EVS_SendEvent), &context);
    return UT_Stub_Value(UT_KEY(CFE_EVS_SendEvent));
}
