/* SPDX-License-Identifier: Apache-2.0 */
/* gauge_test.c: its unit test. Stubs of cFE answer all calls; those of Table Services and of the Critical Data Store by the service. */
#include "cfetbl_ut.h"

#include <stdio.h>

CFE_Status_t GAUGE_Init(void);
bool GAUGE_IsAbove(uint16 Value);

#define EXPECT(Condition) ((Condition) ? 0 : (printf("line %d: not so: %s\n", __LINE__, #Condition), 1))

static void Setup(void)
{
    UT_ResetState(0);
    CFETBL_UT_Install();
    CFETBL_Open(NULL);
    CFETBL_StartApp(1, "GAUGE");
}

int main(void)
{
    static const uint16 Limit = 900;
    int Failed = 0;

    Setup();
    UT_SetDeferredRetcode(UT_KEY(CFE_TBL_Register), 1, CFE_TBL_ERR_REGISTRY_FULL);
    Failed += EXPECT(GAUGE_Init() == CFE_TBL_ERR_REGISTRY_FULL);
    Failed += EXPECT(UT_GetStubCount(UT_KEY(CFE_ES_WriteToSysLog)) == 1);

    Setup();
    CFETBL_Fail("CFE_TBL_Load", 1, CFE_TBL_ERR_NO_BUFFER_AVAIL); /* whether the stubs are linked before the library or after it */
    Failed += EXPECT(GAUGE_Init() == CFE_TBL_ERR_NO_BUFFER_AVAIL);

    Setup();
    Failed += EXPECT(GAUGE_Init() == CFE_SUCCESS && GAUGE_IsAbove(600));
    CFETBL_PutTableFile("/cf/limit.tbl", "GAUGE.LIMIT", 0, &Limit, sizeof(Limit));
    Failed += EXPECT(CFETBL_LoadCmd("/cf/limit.tbl") == CFETBL_SUCCESS);
    Failed += EXPECT(CFETBL_ValidateCmd("GAUGE.LIMIT", false) == CFETBL_SUCCESS && GAUGE_IsAbove(600));
    Failed += EXPECT(CFETBL_ActivateCmd("GAUGE.LIMIT") == CFETBL_SUCCESS && !GAUGE_IsAbove(600));
    CFETBL_Close();
    printf("%s\n", Failed == 0 ? "all as expected" : "some cases failed");
    return Failed == 0 ? 0 : 1;
}
