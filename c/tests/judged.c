/* SPDX-License-Identifier: Apache-2.0 */
/* judged.c: which images validation functions are asked about: each that a request would have judged, each time, in order, before the
 * request is played. */
#include "cfetbl.h"
#include "expect.h"

enum { SIZE = 4, MOST = 16 };

static const uint8_t one[SIZE] = {1, 1, 1, 1};
static const uint8_t two[SIZE] = {2, 2, 2, 2};

/* The images that the function was asked about, what it answers in turn, and what it does before that. */
static uint8_t asked[MOST][SIZE];
static int calls;
static int32 verdicts[MOST];
static void (*act)(void);
static CFE_TBL_Handle_t table;

static int32 judge(void *image)
{
    int place = calls;

    EXPECT(place < MOST);
    memcpy(asked[place % MOST], image, SIZE);
    calls += 1;
    if (act != NULL) {
        act();
    }
    return verdicts[place % MOST];
}

static void forget(void)
{
    calls = 0;
    act = NULL;
    memset(verdicts, 0, sizeof verdicts);
}

/* A table with an image. */
static void start(uint16 options)
{
    forget();
    EXPECT(CFETBL_Open(NULL) && CFETBL_StartApp(1, "A"));
    EXPECT(CFE_TBL_Register(&table, "T", SIZE, options, judge) == CFE_SUCCESS);
    EXPECT(CFE_TBL_Load(table, CFE_TBL_SRC_ADDRESS, one) == CFE_SUCCESS && calls == 1);
    forget();
}

/* The table's last image, and that of a load of the ground, wait for their validations. */
static void start_pending(const uint8_t *image)
{
    start(CFE_TBL_OPT_DEFAULT);
    EXPECT(CFETBL_PutTableFile("/f", "A.T", 0, image, SIZE) && CFETBL_LoadCmd("/f") == CFETBL_SUCCESS);
    EXPECT(CFETBL_ValidateCmd("A.T", true) == CFETBL_SUCCESS && CFETBL_ValidateCmd("A.T", false) == CFETBL_SUCCESS);
    EXPECT(calls == 0);
}

static void forget_events(void)
{
    struct CFETBL_Event event;

    while (CFETBL_NextEvent(&event)) {
    }
}

/* The next event is of a validation with this verdict. */
static bool is_finished(int32 verdict)
{
    struct CFETBL_Event event;

    return CFETBL_NextEvent(&event) && event.number == 3 && event.detail == (uint32_t)verdict;
}

/* ---- the same image again */

static void test_again(void)
{
    start(CFE_TBL_OPT_DEFAULT);
    EXPECT(CFE_TBL_Load(table, CFE_TBL_SRC_ADDRESS, one) == CFE_SUCCESS && calls == 1);
    verdicts[1] = -9;
    EXPECT(CFE_TBL_Load(table, CFE_TBL_SRC_ADDRESS, one) == -9 && calls == 2);
    EXPECT(CFE_TBL_Load(table, CFE_TBL_SRC_ADDRESS, one) == CFE_SUCCESS && calls == 3);
    EXPECT(memcmp(asked[0], one, SIZE) == 0 && memcmp(asked[2], one, SIZE) == 0);
    CFETBL_Close();
}

/* Two functions that are asked about the same bytes answer each for itself. */
static int32 refuse(void *image)
{
    (void)image;
    return -3;
}

static void test_functions(void)
{
    CFE_TBL_Handle_t other;

    start(CFE_TBL_OPT_DEFAULT);
    EXPECT(CFE_TBL_Register(&other, "U", SIZE, CFE_TBL_OPT_DEFAULT, refuse) == CFE_SUCCESS);
    EXPECT(CFE_TBL_Load(other, CFE_TBL_SRC_ADDRESS, one) == -3 && CFE_TBL_Load(table, CFE_TBL_SRC_ADDRESS, one) == CFE_SUCCESS);
    EXPECT(CFE_TBL_Load(other, CFE_TBL_SRC_ADDRESS, one) == -3 && calls == 1);
    CFETBL_Close();
}

/* ---- two questions of one request */

static void test_two(void)
{
    start_pending(two);
    forget_events();
    verdicts[0] = -8;
    EXPECT(CFE_TBL_Manage(table) == CFE_SUCCESS && calls == 2);
    EXPECT(memcmp(asked[0], one, SIZE) == 0 && memcmp(asked[1], two, SIZE) == 0);
    EXPECT(is_finished(-8) && is_finished(0));
    EXPECT(CFETBL_ActivateCmd("A.T") == CFETBL_SUCCESS);
    CFETBL_Close();
}

/* Both about the same bytes: one question, whose verdict is that of both. */
static void test_two_alike(void)
{
    start_pending(one);
    forget_events();
    verdicts[0] = -7;
    EXPECT(CFE_TBL_Manage(table) == CFE_SUCCESS && calls == 1 && memcmp(asked[0], one, SIZE) == 0);
    EXPECT(is_finished(-7) && is_finished(-7));
    EXPECT(CFETBL_ActivateCmd("A.T") == CFETBL_ERR_NOT_VALIDATED);
    CFETBL_Close();
}

/* ---- what is asked if the function changes what there is to ask */

static void abort_it(void)
{
    act = NULL;
    EXPECT(CFETBL_AbortLoadCmd("A.T") == CFETBL_SUCCESS);
}

static void load_another(void)
{
    static const uint8_t three[SIZE] = {3, 3, 3, 3};

    act = NULL;
    EXPECT(CFETBL_AbortLoadCmd("A.T") == CFETBL_SUCCESS);
    EXPECT(CFETBL_PutTableFile("/g", "A.T", 0, three, SIZE) && CFETBL_LoadCmd("/g") == CFETBL_SUCCESS);
    EXPECT(CFETBL_ValidateCmd("A.T", false) == CFETBL_SUCCESS);
}

static void manage_it(void)
{
    act = NULL;
    EXPECT(CFE_TBL_Manage(table) == CFE_SUCCESS && calls == 3);
}

static void test_changed(void)
{
    start_pending(two);
    act = abort_it;
    EXPECT(CFE_TBL_Manage(table) == CFE_SUCCESS && calls == 1 && memcmp(asked[0], one, SIZE) == 0);
    CFETBL_Close();

    start_pending(two);
    act = load_another;
    EXPECT(CFE_TBL_Manage(table) == CFE_SUCCESS && calls == 2 && asked[1][0] == 3);
    CFETBL_Close();

    /* The call inside has both done, so nothing is left of the one around it. */
    start_pending(two);
    act = manage_it;
    EXPECT(CFE_TBL_Manage(table) == CFE_SUCCESS && calls == 3);
    EXPECT(memcmp(asked[0], one, SIZE) == 0 && memcmp(asked[1], one, SIZE) == 0 && memcmp(asked[2], two, SIZE) == 0);
    EXPECT(CFE_TBL_GetStatus(table) == CFE_SUCCESS);
    CFETBL_Close();
}

/* ---- no question */

static void test_unasked(void)
{
    start_pending(two);
    EXPECT(CFE_TBL_Load(table, CFE_TBL_SRC_ADDRESS, two) == CFE_TBL_ERR_LOAD_IN_PROGRESS && calls == 0);
    EXPECT(CFE_TBL_Load(200, CFE_TBL_SRC_ADDRESS, two) == CFE_TBL_ERR_INVALID_HANDLE && calls == 0);
    EXPECT(CFE_TBL_Load(table, CFE_TBL_SRC_FILE, "/none") < CFE_SUCCESS && calls == 0);
    CFETBL_Close();
}

/* What was written in place goes active unasked, and the next VALIDATE asks about it. */
static void test_written(void)
{
    void *address;

    start(CFE_TBL_OPT_DEFAULT);
    EXPECT(CFE_TBL_GetAddress(&address, table) == CFE_TBL_INFO_UPDATED);
    ((uint8_t *)address)[0] = 0;
    EXPECT(CFE_TBL_Modified(table) == CFE_SUCCESS && CFE_TBL_ReleaseAddress(table) == CFE_SUCCESS && calls == 0);
    EXPECT(CFETBL_ValidateCmd("A.T", true) == CFETBL_SUCCESS && CFE_TBL_Validate(table) == CFE_SUCCESS);
    EXPECT(calls == 1 && asked[0][0] == 0 && asked[0][1] == 1);
    CFETBL_Close();
}

int main(void)
{
    test_again();
    test_functions();
    test_two();
    test_two_alike();
    test_changed();
    test_unasked();
    test_written();
    return expected();
}
