/* applications.c: the tests of applications whose calls are recorded, as a flight team writes them over the library for C: the ground loads
   tables, and validation functions accept and reject them. APPLICATION says of which. Services of cFE that the library doesn't have do
   nothing here. */
#include "cfetbl.h"

#include <stdio.h>
#include <string.h>

#define EXPECT(condition) ((condition) ? (void)0 : (void)(failed = 1, printf("line %d: not so: %s\n", __LINE__, #condition)))

static int failed;

/* ---- cFE beside Table Services */

bool CFE_ES_RunLoop(uint32 *RunStatus)
{
    (void)RunStatus;
    return false;
}

void CFE_ES_ExitApp(uint32 ExitStatus)
{
    (void)ExitStatus;
}

CFE_Status_t CFE_ES_WriteToSysLog(const char *SpecStringPtr, ...)
{
    (void)SpecStringPtr;
    return CFE_SUCCESS;
}

uint32 CFE_ES_CalculateCRC(const void *DataPtr, size_t DataLength, uint32 InputCRC, CFE_ES_CrcType_Enum_t TypeCRC)
{
    uint32 word = InputCRC;

    (void)TypeCRC;
    for (size_t at = 0; at < DataLength; at++) {
        word ^= ((const uint8 *)DataPtr)[at];
        for (int bit = 0; bit < 8; bit++)
            word = (word & 1) != 0 ? word >> 1 ^ 0xA001 : word >> 1;
    }
    return word;
}

CFE_Status_t CFE_EVS_Register(const void *Filters, uint16 NumEventFilters, uint16 FilterScheme)
{
    (void)Filters, (void)NumEventFilters, (void)FilterScheme;
    return CFE_SUCCESS;
}

CFE_Status_t CFE_EVS_SendEvent(uint16 EventID, uint16 EventType, const char *Spec, ...)
{
    (void)EventID, (void)EventType, (void)Spec;
    return CFE_SUCCESS;
}

CFE_Status_t CFE_SB_CreatePipe(CFE_SB_PipeId_t *PipeIdPtr, uint16 Depth, const char *PipeName)
{
    (void)PipeIdPtr, (void)Depth, (void)PipeName;
    return CFE_SUCCESS;
}

CFE_Status_t CFE_SB_Subscribe(CFE_SB_MsgId_t MsgId, CFE_SB_PipeId_t PipeId)
{
    (void)MsgId, (void)PipeId;
    return CFE_SUCCESS;
}

CFE_Status_t CFE_SB_ReceiveBuffer(CFE_SB_Buffer_t **BufPtr, CFE_SB_PipeId_t PipeId, int32 TimeOut)
{
    (void)BufPtr, (void)PipeId, (void)TimeOut;
    return CFE_SB_TIME_OUT;
}

#if APPLICATION != 3
/* The ground loads a table, asks for its validation and, once the application has managed it, for its activation. */
static void ground_loads(const char *table, const void *image, size_t size, CFE_Status_t (*manage)(void), uint32_t activation)
{
    EXPECT(CFETBL_PutTableFile("/cf/new.tbl", table, 0, image, size) && CFETBL_LoadCmd("/cf/new.tbl") == CFETBL_SUCCESS);
    EXPECT(CFETBL_ValidateCmd(table, false) == CFETBL_SUCCESS && manage() == CFE_SUCCESS);
    EXPECT(CFETBL_ActivateCmd(table) == activation);
    if (activation == CFETBL_SUCCESS)
        EXPECT(manage() == CFE_TBL_INFO_UPDATED);
    else
        EXPECT(CFETBL_AbortLoadCmd(table) == CFETBL_SUCCESS);
}
#endif

#if APPLICATION == 1
CFE_Status_t GAUGE_Init(void);
bool GAUGE_IsAbove(uint16 Value);

static CFE_Status_t manage(void)
{
    CFE_TBL_Handle_t handle = 0;

    return CFE_TBL_Manage(handle);
}

static void test(void)
{
    static const uint16 accepted = 900, rejected = 2000, zero = 0;

    EXPECT(CFETBL_StartApp(1, "GAUGE") && GAUGE_Init() == CFE_SUCCESS && GAUGE_IsAbove(600));
    ground_loads("GAUGE.LIMIT", &accepted, sizeof accepted, manage, CFETBL_SUCCESS);
    EXPECT(!GAUGE_IsAbove(600));
    ground_loads("GAUGE.LIMIT", &rejected, sizeof rejected, manage, CFETBL_ERR_NOT_VALIDATED);
    ground_loads("GAUGE.LIMIT", &zero, sizeof zero, manage, CFETBL_SUCCESS);
    EXPECT(GAUGE_IsAbove(600));
    EXPECT(CFETBL_ResetProcessor() && GAUGE_Init() == CFE_SUCCESS && GAUGE_IsAbove(600));
}
#elif APPLICATION == 2
#include "apps/sample.h"

static const SAMPLE_Table_t first = {1, 0, 500}, second = {2, 0, 700}, none = {0, 0, 900};

static void test(void)
{
    uint16 limit = 0;
    uint32 crc = 0;

    EXPECT(CFETBL_StartApp(1, "SAMPLE") && SAMPLE_Init() == CFE_TBL_ERR_ACCESS);
    EXPECT(CFETBL_PutTableFile(SAMPLE_TABLE_FILE, "SAMPLE.SampleTable", 0, &none, sizeof none) && SAMPLE_Init() == CFE_TBL_WARN_DUPLICATE);
    EXPECT(CFETBL_ExitApp() && CFETBL_StartApp(2, "SAMPLE") && SAMPLE_Init() == SAMPLE_TABLE_VERSION_ERR);
    EXPECT(CFETBL_ExitApp() && CFETBL_StartApp(3, "SAMPLE"));
    EXPECT(CFETBL_PutTableFile(SAMPLE_TABLE_FILE, "SAMPLE.SampleTable", 0, &first, sizeof first) && SAMPLE_Init() == CFE_SUCCESS);
    ground_loads("SAMPLE.SampleTable", &none, sizeof none, SAMPLE_ReportHousekeeping, CFETBL_ERR_NOT_VALIDATED);
    ground_loads("SAMPLE.SampleTable", &second, sizeof second, SAMPLE_ReportHousekeeping, CFETBL_SUCCESS);
    EXPECT(SAMPLE_Process(&limit, &crc) >= CFE_SUCCESS && limit == 700);
    SAMPLE_Main();
}
#else
#include "apps/checker.h"

static const CHECKER_Definition_t definitions[CHECKER_TABLES] = {{2, "NAV.MODES"}, {2, "CHECKER.Definitions"}, {1, "NAV.NONE"}};
static const uint8 modes[8] = {1, 2, 3, 4, 5, 6, 7, 8}, others[8] = {9, 2, 3, 4, 5, 6, 7, 8};

static void look(CFE_TBL_Handle_t nav)
{
    void *address = NULL;

    EXPECT(CHECKER_Look(0) == CHECKER_FIRST && CHECKER_Look(0) == CHECKER_SAME && CHECKER_Look(1) == CHECKER_FIRST);
    CFETBL_UseApp(2);
    EXPECT(CFE_TBL_Load(nav, CFE_TBL_SRC_ADDRESS, others) == CFE_SUCCESS);
    CFETBL_UseApp(1);
    EXPECT(CHECKER_Look(0) == CHECKER_FIRST && CHECKER_Look(0) == CHECKER_SAME);
    CFETBL_UseApp(2);
    EXPECT(CFE_TBL_GetAddress(&address, nav) >= CFE_SUCCESS);
    ((uint8 *)address)[1] = 77;
    CFETBL_UseApp(1);
    EXPECT(CHECKER_Look(0) == CHECKER_UNTOLD);
    CFETBL_UseApp(2);
    ((uint8 *)address)[2] = 78;
    EXPECT(CFE_TBL_Modified(nav) == CFE_SUCCESS && CFE_TBL_ReleaseAddress(nav) == CFE_SUCCESS);
    CFETBL_UseApp(1);
    EXPECT(CHECKER_Look(0) == CHECKER_FIRST && CHECKER_Look(0) == CHECKER_SAME);
}

static void test(void)
{
    CFE_TBL_Handle_t nav = 0, handles[2];
    void *first, *second, **addresses[2];

    EXPECT(CFETBL_StartApp(2, "NAV") && CFE_TBL_Register(&nav, "MODES", sizeof modes, CFE_TBL_OPT_DBL_BUFFER, NULL) == CFE_SUCCESS);
    EXPECT(CFE_TBL_Load(nav, CFE_TBL_SRC_ADDRESS, modes) == CFE_SUCCESS);
    EXPECT(CFETBL_StartApp(1, "CHECKER") && CHECKER_Init(definitions) == CFE_SUCCESS);
    look(nav);
    EXPECT(CFE_TBL_Share(&handles[0], "NAV.MODES") == CFE_SUCCESS && CFE_TBL_Share(&handles[1], "CHECKER.Results") == CFE_SUCCESS);
    addresses[0] = &first;
    addresses[1] = &second;
    EXPECT(CFE_TBL_GetAddresses(addresses, 2, handles) == CFE_TBL_INFO_UPDATED && memcmp(first, modes, 1) != 0);
    EXPECT(CFE_TBL_ReleaseAddresses(2, handles) == CFE_SUCCESS);
    EXPECT(CFETBL_DumpCmd("CHECKER.Results", true, "/ram/results.tbl") == CFETBL_SUCCESS && CHECKER_Housekeeping() == CFE_SUCCESS);
    EXPECT(CFETBL_HousekeepingCmd() == CFETBL_SUCCESS && CHECKER_Switch(0) == CFE_SUCCESS && CHECKER_Look(0) == CHECKER_OFF);
    EXPECT(CFETBL_ResetProcessor() && CHECKER_Init(definitions) == CFE_SUCCESS && CHECKER_Look(0) == CHECKER_OFF);
}
#endif

int main(void)
{
    EXPECT(CFETBL_Open(NULL));
    test();
    CFETBL_Close();
    return failed;
}
