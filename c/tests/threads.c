/* SPDX-License-Identifier: Apache-2.0 */
/* threads.c: threads that call one service, as child threads of an application do, and threads with services of their own. */
#include "cfetbl.h"
#include "expect.h"

#include <pthread.h>

enum { ROUNDS = 50, SIZE = 64, CHILDREN = 4 };

static int32 any(void *image)
{
    return *(const uint8_t *)image == 0 ? -1 : CFE_SUCCESS;
}

/* Loads an image of one byte all over and reads it, so often. Gives NULL if all was as expected. */
static void *load_and_read(void *own, CFE_TBL_Handle_t handle)
{
    uint8_t image[SIZE];
    void *address;
    int round;

    for (round = 1; round <= ROUNDS; round++) {
        memset(image, *(const uint8_t *)own + round, SIZE);
        if (CFE_TBL_Load(handle, CFE_TBL_SRC_ADDRESS, image) != CFE_SUCCESS || CFE_TBL_GetAddress(&address, handle) != CFE_TBL_INFO_UPDATED ||
            memcmp(address, image, SIZE) != 0 || CFE_TBL_ReleaseAddress(handle) != CFE_SUCCESS) {
            return own;
        }
    }
    return NULL;
}

/* Starts a thread for each of these, waits for all, and gives how many weren't as expected. */
static int run_all(void *(*work)(void *), uint8_t *owns, int count)
{
    pthread_t threads[CHILDREN];
    int n, bad = 0;

    for (n = 0; n < count; n++) {
        EXPECT(pthread_create(&threads[n], NULL, work, &owns[n]) == 0);
    }
    for (n = 0; n < count; n++) {
        void *ended;

        EXPECT(pthread_join(threads[n], &ended) == 0);
        bad += ended != NULL;
    }
    return bad;
}

/* ---- services of their own */

static void *with_own_service(void *own)
{
    CFE_TBL_Handle_t handle;

    if (!CFETBL_Open(NULL) || !CFETBL_StartApp(1, "A") || CFE_TBL_Register(&handle, "T", SIZE, CFE_TBL_OPT_DEFAULT, any) != CFE_SUCCESS ||
        load_and_read(own, handle) != NULL) {
        return own;
    }
    CFETBL_Close();
    return NULL;
}

static void test_own_services(void)
{
    uint8_t owns[2] = {0, 100};

    EXPECT(run_all(with_own_service, owns, 2) == 0);
}

/* ---- child threads of an application */

/* Registers a table of its own in the service of the test. */
static void *as_child(void *own)
{
    char name[2] = {(char)('A' + *(const uint8_t *)own % 26), 0};
    CFE_TBL_Handle_t handle;

    return CFE_TBL_Register(&handle, name, SIZE, CFE_TBL_OPT_DEFAULT, any) != CFE_SUCCESS ? own : load_and_read(own, handle);
}

/* Chooses another application for itself. */
static void *as_another(void *own)
{
    CFE_TBL_Handle_t handle;

    CFETBL_UseApp(2);
    if (CFE_TBL_Register(&handle, "U", SIZE, CFE_TBL_OPT_DEFAULT, any) != CFE_SUCCESS) {
        return own;
    }
    return CFE_TBL_Share(&handle, "B.U") == CFE_SUCCESS ? NULL : own;
}

static void test_children(void)
{
    uint8_t owns[CHILDREN] = {0, 1, 2, 3};
    CFE_TBL_Handle_t handle;
    CFE_TBL_Info_t info;

    EXPECT(CFETBL_Open(NULL) && CFETBL_StartApp(2, "B") && CFETBL_StartApp(1, "A"));
    EXPECT(run_all(as_child, owns, CHILDREN) == 0);
    EXPECT(CFE_TBL_GetInfo(&info, "A.A") == CFE_SUCCESS && CFE_TBL_GetInfo(&info, "A.D") == CFE_SUCCESS);
    EXPECT(run_all(as_another, owns, 1) == 0);
    EXPECT(CFE_TBL_Register(&handle, "V", SIZE, CFE_TBL_OPT_DEFAULT, any) == CFE_SUCCESS && CFE_TBL_GetInfo(&info, "A.V") == CFE_SUCCESS);
    EXPECT(CFE_TBL_GetInfo(&info, "B.U") == CFE_SUCCESS);
    CFETBL_Close();
}

/* ---- several services, and a thread that has none */

static uint64_t session;

static void *joined(void *own)
{
    if (CFETBL_NoopCmd() != CFETBL_NOT_PLAYED || strstr(CFETBL_LastMessage(), "several services are on") == NULL || CFETBL_Join(0) ||
        CFETBL_Join(session + 99)) {
        return own;
    }
    return CFETBL_Join(session) && CFETBL_Session() == session && CFETBL_NoopCmd() == CFETBL_SUCCESS ? NULL : own;
}

static void *beside(void *own)
{
    if (!CFETBL_Open(NULL) || CFETBL_Session() == session || run_all(joined, own, 1) != 0) {
        return own;
    }
    CFETBL_Close();
    return CFETBL_NoopCmd() == CFETBL_NOT_PLAYED && strstr(CFETBL_LastMessage(), "was switched off") != NULL ? NULL : own;
}

static void test_several(void)
{
    uint8_t own = 0;

    EXPECT(CFETBL_Open(NULL));
    session = CFETBL_Session();
    EXPECT(run_all(beside, &own, 1) == 0 && CFETBL_NoopCmd() == CFETBL_SUCCESS);
    CFETBL_Close();
    EXPECT(CFETBL_NoopCmd() == CFETBL_NOT_PLAYED);
    EXPECT_MESSAGE("no service is on");
}

/* ---- a thread that calls while a validation function is at work */

static uint8_t meanwhile_own;

static void *meanwhile(void *own)
{
    CFE_TBL_Info_t info;

    CFETBL_Close();
    return strstr(CFETBL_LastMessage(), "not while a validation function is at work") != NULL && !CFETBL_ResetProcessor() &&
                   CFE_TBL_GetInfo(&info, "A.T") == CFE_SUCCESS && CFETBL_NoopCmd() == CFETBL_SUCCESS
               ? NULL
               : own;
}

static int32 with_a_thread(void *image)
{
    EXPECT(run_all(meanwhile, &meanwhile_own, 1) == 0);
    return any(image);
}

static void test_meanwhile(void)
{
    uint8_t image[SIZE] = {1};
    CFE_TBL_Handle_t handle;

    EXPECT(CFETBL_Open(NULL) && CFETBL_StartApp(1, "A"));
    EXPECT(CFE_TBL_Register(&handle, "T", SIZE, CFE_TBL_OPT_DEFAULT, with_a_thread) == CFE_SUCCESS);
    EXPECT(CFE_TBL_Load(handle, CFE_TBL_SRC_ADDRESS, image) == CFE_SUCCESS);
    CFETBL_Close();
}

int main(void)
{
    test_children();
    test_meanwhile();
    test_own_services();
    test_several();
    return expected();
}
