/* SPDX-License-Identifier: Apache-2.0 */
/* checker_test.c: the unit test of checker.c, over stubs of cFE, with a table of another application. Its blocks of the Critical Data Store
 * are behind the stubs of Executive Services, which the application calls too. */
#include "cfetbl_ut.h"
#include "checker.h"
#include "expect.h"

static const CHECKER_Definition_t Definitions[CHECKER_TABLES] = {{2, "NAV.MODES"}, {2, "CHECKER.Definitions"}, {1, "NAV.NONE"}};
static const uint8 Modes[8] = {1, 2, 3, 4, 5, 6, 7, 8}, Others[8] = {9, 2, 3, 4, 5, 6, 7, 8};
static CFE_TBL_Handle_t Nav;

static void Start(const void *Bank)
{
    UT_ResetState(0);
    CFETBL_UT_Install();
    EXPECT(CFETBL_Open(Bank) && CFETBL_StartApp(2, "NAV"));
    EXPECT(CFE_TBL_Register(&Nav, "MODES", sizeof(Modes), CFE_TBL_OPT_DBL_BUFFER, NULL) == CFE_SUCCESS);
    EXPECT(CFE_TBL_Load(Nav, CFE_TBL_SRC_ADDRESS, Modes) == CFE_SUCCESS);
    EXPECT(CFETBL_StartApp(1, "CHECKER") && CHECKER_Init(Definitions) == CFE_SUCCESS);
}

static void *NavAddress(void)
{
    void *Address;

    EXPECT(CFE_TBL_GetAddress(&Address, Nav) >= CFE_SUCCESS);
    return Address;
}

/* Loads, changes in place with CFE_TBL_Modified, and such without. */
static void TestLook(void)
{
    Start(NULL);
    EXPECT(CHECKER_Look(0) == CHECKER_FIRST && CHECKER_Look(0) == CHECKER_SAME && CHECKER_Look(1) == CHECKER_FIRST);
    EXPECT(CHECKER_Look(2) == CFE_TBL_ERR_INVALID_NAME);
    CFETBL_UseApp(2);
    EXPECT(CFE_TBL_Load(Nav, CFE_TBL_SRC_ADDRESS, Others) == CFE_SUCCESS);
    CFETBL_UseApp(1);
    EXPECT(CHECKER_Look(0) == CHECKER_FIRST && CHECKER_Look(0) == CHECKER_SAME);
    CFETBL_UseApp(2);
    ((uint8 *)NavAddress())[1] = 77;
    CFETBL_UseApp(1);
    EXPECT(CHECKER_Look(0) == CHECKER_UNTOLD);
    CFETBL_UseApp(2);
    EXPECT(CFE_TBL_Modified(Nav) == CFE_SUCCESS);
    CFETBL_UseApp(1);
    EXPECT(CHECKER_Look(0) == CHECKER_FIRST && CHECKER_Look(0) == CHECKER_SAME);
    CFETBL_UseApp(2);
    EXPECT(CFE_TBL_Unregister(Nav) == CFE_SUCCESS);
    CFETBL_UseApp(1);
    EXPECT(CHECKER_Look(0) == CFE_TBL_ERR_UNREGISTERED && CHECKER_Look(0) == CFE_TBL_ERR_INVALID_NAME);
    CFETBL_Close();
}

/* The ground dumps what the application has written into its results. */
static void TestDump(void)
{
    const uint8 *File;
    size_t Size = 0;

    Start(NULL);
    EXPECT(CHECKER_Look(0) == CHECKER_FIRST);
    EXPECT(CFETBL_DumpCmd("CHECKER.Results", true, "/ram/results.tbl") == CFETBL_SUCCESS && CHECKER_Housekeeping() == CFE_SUCCESS);
    EXPECT(CFETBL_HousekeepingCmd() == CFETBL_SUCCESS);
    File = (const uint8 *)CFETBL_GetFile("/ram/results.tbl", &Size);
    EXPECT(File != NULL && Size == 116 + CHECKER_TABLES * sizeof(CHECKER_Result_t));
    EXPECT(((const CHECKER_Result_t *)(const void *)(File + 116))->IsKnown == 1);
    CFETBL_Close();
}

/* Whether it is on outlives a reset; a damaged block is made again. */
static void TestBlock(void)
{
    Start(NULL);
    EXPECT(CHECKER_Switch(0) == CFE_SUCCESS && CHECKER_Look(0) == CHECKER_OFF);
    EXPECT(CFETBL_ResetProcessor() && CHECKER_Init(Definitions) == CFE_SUCCESS && CHECKER_Look(0) == CHECKER_OFF);
    Start(CFETBL_Bank());
    EXPECT(CHECKER_Look(0) == CHECKER_OFF && CFETBL_Fail("CFE_ES_CopyToCDS", 1, CFE_ES_CDS_ACCESS_ERROR));
    EXPECT(CHECKER_Switch(1) == CFE_ES_CDS_ACCESS_ERROR && CHECKER_Switch(0) == CFE_SUCCESS);
    EXPECT(CFETBL_DamageBlock("CHECKER.IsOn") && CFETBL_ResetProcessor());
    EXPECT(CHECKER_Init(Definitions) == CFE_SUCCESS && CHECKER_Look(0) == CFE_TBL_ERR_INVALID_NAME);
    EXPECT(UT_GetStubCount(UT_KEY(CFE_ES_WriteToSysLog)) == 1);
    UT_SetDefaultReturnValue(UT_KEY(CFE_ES_RegisterCDS), CFE_ES_CDS_INSUFFICIENT_MEMORY);
    EXPECT(CHECKER_Init(Definitions) == CFE_ES_CDS_INSUFFICIENT_MEMORY);
    CFETBL_Close();
}

int main(void)
{
    TestLook();
    TestDump();
    TestBlock();
    return expected();
}
