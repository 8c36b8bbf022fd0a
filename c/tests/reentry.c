/* SPDX-License-Identifier: Apache-2.0 */
/* reentry.c: what a validation function may call, and what it is refused: switching the service off or on, resets and the end of the
 * application while the call that asks it isn't done. tools/develop/check-c runs it under AddressSanitizer and valgrind. */
#include "cfetbl.h"
#include "expect.h"

enum { SIZE = 8 };

static const uint8_t one[SIZE] = {1};
static const uint8_t two[SIZE] = {2};

/* What the function does before it accepts the image, how often it was called, and the handles of its tables. */
static void (*act)(void);
static int calls;
static CFE_TBL_Handle_t table, other;

static int32 judge(void *image)
{
    calls += 1;
    if (act != NULL) {
        act();
    }
    return ((const uint8_t *)image)[0] == 0 ? -17 : CFE_SUCCESS;
}

static void start(uint16 options)
{
    act = NULL;
    calls = 0;
    EXPECT(CFETBL_Open(NULL));
    EXPECT(CFETBL_StartApp(1, "A"));
    EXPECT(CFE_TBL_Register(&table, "T", SIZE, options, judge) == CFE_SUCCESS);
    EXPECT(CFE_TBL_Load(table, CFE_TBL_SRC_ADDRESS, one) == CFE_SUCCESS && calls == 1);
}

/* ---- what is refused */

static void close_it(void)
{
    CFETBL_Close();
    EXPECT_MESSAGE("CFETBL_Close: not while a validation function is at work");
    EXPECT(CFETBL_Bank() != NULL);
}

static void open_it(void)
{
    EXPECT(!CFETBL_Open(NULL));
    EXPECT_MESSAGE("CFETBL_Open: not while a validation function is at work");
    EXPECT(!CFETBL_Open(CFETBL_Bank()));
}

static void reset_it(void)
{
    EXPECT(!CFETBL_ResetProcessor());
    EXPECT_MESSAGE("CFETBL_ResetProcessor: not while a validation function is at work");
    EXPECT(!CFETBL_PowerOn());
    EXPECT_MESSAGE("CFETBL_PowerOn: not while a validation function is at work");
    EXPECT(!CFETBL_ExitApp());
    EXPECT_MESSAGE("CFETBL_ExitApp: not while a validation function is at work");
}

/* Each of them under each call that asks the function. */
static void test_refused(void)
{
    static void (*const acts[])(void) = {close_it, open_it, reset_it};
    size_t n;

    for (n = 0; n < sizeof acts / sizeof acts[0]; n++) {
        void *address;

        start(CFE_TBL_OPT_DBL_BUFFER);
        act = acts[n];
        EXPECT(CFE_TBL_Load(table, CFE_TBL_SRC_ADDRESS, two) == CFE_SUCCESS && calls == 2);
        EXPECT(CFETBL_PutTableFile("/f", "A.T", 1, "\3", 1));
        EXPECT(CFE_TBL_Load(table, CFE_TBL_SRC_FILE, "/f") == CFE_SUCCESS && calls == 3);
        EXPECT(CFETBL_PutTableFile("/f", "A.T", 2, "\4", 1));
        EXPECT(CFETBL_LoadCmd("/f") == 0 && CFETBL_ValidateCmd("A.T", false) == 0);
        EXPECT(CFE_TBL_Validate(table) == CFE_SUCCESS && calls == 4);
        EXPECT(CFETBL_ActivateCmd("A.T") == 0 && CFE_TBL_Update(table) == CFE_SUCCESS);
        EXPECT(CFETBL_PutTableFile("/f", "A.T", 3, "\5", 1));
        EXPECT(CFETBL_LoadCmd("/f") == 0 && CFETBL_ValidateCmd("A.T", false) == 0);
        EXPECT(CFE_TBL_Manage(table) == CFE_SUCCESS && calls == 5);
        EXPECT(CFETBL_ActivateCmd("A.T") == 0 && CFE_TBL_Manage(table) == CFE_TBL_INFO_UPDATED);
        EXPECT(CFE_TBL_GetAddress(&address, table) == CFE_TBL_INFO_UPDATED && memcmp(address, "\2\3\4\5\0\0\0", SIZE) == 0);
        CFETBL_Close();
        EXPECT(CFETBL_Bank() == NULL);
    }
}

/* ---- what is done */

static void unregister_it(void)
{
    act = NULL;
    EXPECT(CFE_TBL_Unregister(table) == CFE_SUCCESS);
}

/* The table goes while its image is judged. */
static void test_unregister(void)
{
    void *address;

    start(CFE_TBL_OPT_DBL_BUFFER);
    EXPECT(CFE_TBL_GetAddress(&address, table) == CFE_TBL_INFO_UPDATED);
    act = unregister_it;
    EXPECT(CFE_TBL_Load(table, CFE_TBL_SRC_ADDRESS, two) == CFE_TBL_ERR_INVALID_HANDLE && calls == 2);
    EXPECT(CFE_TBL_GetAddress(&address, table) == CFE_TBL_ERR_INVALID_HANDLE && address == NULL);
    CFETBL_Close();
}

static void *pinned;

static void release_it(void)
{
    EXPECT(CFE_TBL_ReleaseAddress(table) >= CFE_SUCCESS);
}

static void modify_it(void)
{
    ((uint8_t *)pinned)[1] = 9;
    EXPECT(CFE_TBL_Modified(table) == CFE_SUCCESS);
    EXPECT(CFE_TBL_ReleaseAddress(table) >= CFE_SUCCESS);
}

/* The address is given back while an image is judged, after a change too; CFE_TBL_Modified asks no function. */
static void test_release(void)
{
    void *address;

    start(CFE_TBL_OPT_DBL_BUFFER);
    EXPECT(CFE_TBL_GetAddress(&pinned, table) == CFE_TBL_INFO_UPDATED);
    act = release_it;
    EXPECT(CFE_TBL_Load(table, CFE_TBL_SRC_ADDRESS, two) == CFE_SUCCESS && calls == 2);
    EXPECT(CFE_TBL_GetAddress(&pinned, table) == CFE_TBL_INFO_UPDATED && memcmp(pinned, two, SIZE) == 0);
    ((uint8_t *)pinned)[2] = 7;
    EXPECT(CFE_TBL_Modified(table) == CFE_SUCCESS && calls == 2);
    act = modify_it;
    EXPECT(CFE_TBL_Load(table, CFE_TBL_SRC_ADDRESS, "\3\0\0\0\0\0\0") == CFE_SUCCESS && calls == 3);
    act = NULL;
    EXPECT(CFE_TBL_GetAddress(&address, table) == CFE_TBL_INFO_UPDATED && memcmp(address, "\3\0\0\0\0\0\0", SIZE) == 0);
    CFETBL_Close();
}

static int32 any(void *image)
{
    calls += 100;
    return ((const uint8_t *)image)[0] == 0 ? -3 : CFE_SUCCESS;
}

static void use_others(void)
{
    CFE_ES_CDSHandle_t block;
    CFE_TBL_Info_t info;
    char back[4];
    void *address;

    act = NULL;
    EXPECT(CFE_TBL_Register(&other, "U", SIZE, CFE_TBL_OPT_CRITICAL, any) == CFE_SUCCESS);
    EXPECT(CFE_TBL_Load(other, CFE_TBL_SRC_ADDRESS, two) == CFE_SUCCESS);
    EXPECT(CFE_TBL_GetAddress(&address, other) == CFE_TBL_INFO_UPDATED && memcmp(address, two, SIZE) == 0);
    EXPECT(CFE_TBL_GetInfo(&info, "A.U") == CFE_SUCCESS && info.Critical);
    EXPECT(CFE_ES_RegisterCDS(&block, 4, "B") == CFE_SUCCESS && CFE_ES_CopyToCDS(block, "abcd") == CFE_SUCCESS);
    EXPECT(CFE_ES_RestoreFromCDS(back, block) == CFE_SUCCESS && memcmp(back, "abcd", 4) == 0);
    EXPECT(CFETBL_PutFile("/g", "x", 1) && CFETBL_LoadCmd("/g") == CFETBL_ERR_NO_STD_HEADER);
    EXPECT(CFETBL_DumpCmd("A.U", true, "/d") == 0 && CFETBL_GetFile("/d", NULL) != NULL && CFETBL_HousekeepingCmd() == 0);
    EXPECT(CFETBL_StartApp(2, "B") && CFETBL_ResetCountersCmd() == 0 && CFETBL_SetTime(9, 0));
    CFETBL_UseApp(1);
}

/* A function uses other tables, the store and the ground, and asks another function meanwhile. */
static void test_others(void)
{
    start(CFE_TBL_OPT_DEFAULT);
    act = use_others;
    EXPECT(CFE_TBL_Load(table, CFE_TBL_SRC_ADDRESS, two) == CFE_SUCCESS && calls == 102);
    EXPECT(CFETBL_LastAnswer().status == CFETBL_SUCCESS && CFETBL_LastAnswer().packets_length == 48);
    CFETBL_Close();
}

static uint8_t next_image[SIZE];

static void load_once_more(void)
{
    next_image[1] += 1;
    EXPECT(CFE_TBL_Load(table, CFE_TBL_SRC_ADDRESS, next_image) != CFE_SUCCESS || next_image[1] > 0);
}

/* A function that loads its table again and again comes to an end. */
static void test_nesting(void)
{
    start(CFE_TBL_OPT_DEFAULT);
    next_image[0] = 1;
    act = load_once_more;
    EXPECT(CFE_TBL_Load(table, CFE_TBL_SRC_ADDRESS, two) == CFE_SUCCESS && calls == 1 + 16);
    EXPECT_MESSAGE("16 validation functions are at work");
    CFETBL_Close();
}

/* Nothing is called once the service is off. */
static void test_closed(void)
{
    void *address;

    start(CFE_TBL_OPT_DEFAULT);
    CFETBL_Close();
    CFETBL_Close();
    EXPECT(CFE_TBL_Load(table, CFE_TBL_SRC_ADDRESS, two) == CFE_STATUS_EXTERNAL_RESOURCE_FAIL && calls == 1);
    EXPECT_MESSAGE("CFE_TBL_Load: no service is on");
    EXPECT(CFE_TBL_GetAddress(&address, table) == CFE_STATUS_EXTERNAL_RESOURCE_FAIL && address == NULL);
    EXPECT(!CFETBL_StartApp(1, "A") && !CFETBL_ExitApp() && !CFETBL_ResetProcessor() && !CFETBL_SetTime(1, 0));
    EXPECT(!CFETBL_PutFile("/f", "x", 1) && CFETBL_GetFile("/f", NULL) == NULL && CFETBL_NoopCmd() == CFETBL_NOT_PLAYED);
    EXPECT(CFETBL_LastAnswer().status == CFETBL_NOT_PLAYED && !CFETBL_NextEvent(NULL) && !CFETBL_NextNotice(NULL, NULL, NULL));
    EXPECT(!CFETBL_Fail("CFE_TBL_Load", 1, -1) && !CFETBL_DamageBlock("A.T") && CFETBL_Session() == 0 && CFETBL_Requests() == 0);
}

int main(void)
{
    test_refused();
    test_unregister();
    test_release();
    test_others();
    test_nesting();
    test_closed();
    return expected();
}
