/* SPDX-License-Identifier: Apache-2.0 */
/* sample_test.c: the unit test of sample.c, over stubs of cFE. The library is linked before them or after them. */
#include "cfetbl_ut.h"
#include "expect.h"
#include "sample.h"

static const SAMPLE_Table_t First = {1, 0, 500}, Second = {2, 0, 700}, None = {0, 0, 900};

static void Setup(void)
{
    UT_ResetState(0);
    CFETBL_UT_Install();
    EXPECT(CFETBL_Open(NULL) && CFETBL_StartApp(1, "SAMPLE"));
}

static void Start(void)
{
    Setup();
    EXPECT(CFETBL_PutTableFile(SAMPLE_TABLE_FILE, "SAMPLE.SampleTable", 0, &First, sizeof(First)));
    EXPECT(SAMPLE_Init() == CFE_SUCCESS);
}

static uint16 Limit(void)
{
    uint32 Crc = 0;
    uint16 Found = 0;

    EXPECT(SAMPLE_Process(&Found, &Crc) >= CFE_SUCCESS && Crc != 0);
    return Found;
}

static void TestInit(void)
{
    Setup();
    EXPECT(SAMPLE_Init() == CFE_TBL_ERR_ACCESS && UT_GetStubCount(UT_KEY(CFE_EVS_SendEvent)) == 1);
    EXPECT(CFETBL_PutTableFile(SAMPLE_TABLE_FILE, "SAMPLE.SampleTable", 0, &None, sizeof(None)));
    EXPECT(SAMPLE_Init() == CFE_TBL_WARN_DUPLICATE && UT_GetStubCount(UT_KEY(CFE_ES_WriteToSysLog)) == 1);
    CFETBL_Close();
    Start();
    EXPECT(Limit() == 500);
    CFETBL_Close();
}

static void TestGround(void)
{
    Start();
    EXPECT(CFETBL_PutTableFile("/cf/bad.tbl", "SAMPLE.SampleTable", 0, &None, sizeof(None)));
    EXPECT(CFETBL_LoadCmd("/cf/bad.tbl") == CFETBL_SUCCESS);
    EXPECT(CFETBL_ValidateCmd("SAMPLE.SampleTable", false) == CFETBL_SUCCESS && SAMPLE_ReportHousekeeping() == CFE_SUCCESS);
    EXPECT(CFETBL_ActivateCmd("SAMPLE.SampleTable") == CFETBL_ERR_NOT_VALIDATED);
    EXPECT(CFETBL_AbortLoadCmd("SAMPLE.SampleTable") == CFETBL_SUCCESS);
    EXPECT(CFETBL_PutTableFile("/cf/new.tbl", "SAMPLE.SampleTable", 0, &Second, sizeof(Second)));
    EXPECT(CFETBL_LoadCmd("/cf/new.tbl") == CFETBL_SUCCESS);
    EXPECT(CFETBL_ValidateCmd("SAMPLE.SampleTable", false) == CFETBL_SUCCESS && SAMPLE_ReportHousekeeping() == CFE_SUCCESS);
    EXPECT(CFETBL_ActivateCmd("SAMPLE.SampleTable") == CFETBL_SUCCESS && Limit() == 500);
    EXPECT(SAMPLE_ReportHousekeeping() == CFE_TBL_INFO_UPDATED && Limit() == 700);
    CFETBL_Close();
}

static void TestMain(void)
{
    Start();
    CFETBL_Close();
    Setup();
    SAMPLE_Main();
    EXPECT(UT_GetStubCount(UT_KEY(CFE_ES_RunLoop)) == 1 && UT_GetStubCount(UT_KEY(CFE_ES_ExitApp)) == 1);
    CFETBL_Close();
}

/* Each code is forced once: by the library, and if the stubs go first by them. */
static void TestForced(void)
{
    static const CFE_Status_t Codes[] = {CFE_TBL_ERR_NO_ACCESS, CFE_TBL_ERR_UNREGISTERED, CFE_STATUS_EXTERNAL_RESOURCE_FAIL};
    bool IsStub;
    size_t n;

    Start();
    EXPECT(SAMPLE_ReportHousekeeping() == CFE_SUCCESS);
    IsStub = UT_GetStubCount(UT_KEY(CFE_TBL_Manage)) > 0;
    printf("the %s first\n", IsStub ? "stubs go" : "library goes");
    for (n = 0; n < sizeof(Codes) / sizeof(Codes[0]); n++) {
        EXPECT(CFETBL_Fail("CFE_TBL_Manage", 1, Codes[n]) && SAMPLE_ReportHousekeeping() == Codes[n]);
        EXPECT(SAMPLE_ReportHousekeeping() == CFE_SUCCESS);
        UT_SetDeferredRetcode(UT_KEY(CFE_TBL_Manage), 1, Codes[n]);
        EXPECT(SAMPLE_ReportHousekeeping() == (IsStub ? Codes[n] : CFE_SUCCESS) && SAMPLE_ReportHousekeeping() == CFE_SUCCESS);
    }
    UT_SetDefaultReturnValue(UT_KEY(CFE_EVS_Register), -3);
    EXPECT(SAMPLE_Init() == -3);
    CFETBL_Close();
}

int main(void)
{
    TestInit();
    TestGround();
    TestMain();
    TestForced();
    return expected();
}
