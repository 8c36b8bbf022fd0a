/* SPDX-License-Identifier: Apache-2.0 */
/* long.c: a service of many calls, whose memory stays as it is. The word is their number; from LONG on the process's memory is looked at,
 * which the tools that watch memory make larger. */
#include "cfetbl.h"
#include "expect.h"

#include <stdlib.h>

enum { SIZE = 64, ROUND = 10, FIRST = 5000, LONG = 1000000, WAITING = 131072, GROWN_KILOBYTES = 512 };

static int calls;

static int32 not_zero(void *image)
{
    calls += 1;
    return ((const uint8_t *)image)[0] == 0 ? -1 : CFE_SUCCESS;
}

/* The most memory that the process has had, in kilobytes; 0 if the system doesn't tell. */
static long kilobytes(void)
{
    FILE *status = fopen("/proc/self/status", "r");
    char line[128];
    long most = 0;

    while (status != NULL && most == 0 && fgets(line, sizeof line, status) != NULL) {
        (void)sscanf(line, "VmHWM: %ld", &most);
    }
    if (status != NULL) {
        fclose(status);
    }
    return most;
}

static CFE_TBL_Handle_t table, block_table;
static CFE_ES_CDSHandle_t block;

static void start(void)
{
    static const uint8_t one[SIZE] = {1};

    EXPECT(CFETBL_Open(NULL) && CFETBL_StartApp(1, "A"));
    EXPECT(CFE_TBL_Register(&table, "T", SIZE, CFE_TBL_OPT_DEFAULT, not_zero) == CFE_SUCCESS);
    EXPECT(CFE_TBL_Register(&block_table, "C", SIZE, CFE_TBL_OPT_CRITICAL, NULL) == CFE_SUCCESS);
    EXPECT(CFE_ES_RegisterCDS(&block, SIZE, "B") == CFE_SUCCESS);
    EXPECT(CFE_TBL_Load(block_table, CFE_TBL_SRC_ADDRESS, one) == CFE_SUCCESS);
}

/* ROUND calls, each image another one than the last. */
static void round_of(uint32_t number)
{
    uint8_t image[SIZE] = {1, (uint8_t)(number >> 16), (uint8_t)(number >> 8), (uint8_t)number}, back[SIZE];
    struct CFETBL_Event event;
    CFE_TBL_Info_t info;
    void *address;

    EXPECT(CFE_TBL_Load(table, CFE_TBL_SRC_ADDRESS, image) == CFE_SUCCESS);
    EXPECT(CFE_TBL_GetAddress(&address, table) == CFE_TBL_INFO_UPDATED && memcmp(address, image, SIZE) == 0);
    EXPECT(CFE_TBL_ReleaseAddress(table) == CFE_SUCCESS);
    EXPECT(CFE_TBL_GetStatus(table) == CFE_SUCCESS && CFE_TBL_Manage(table) == CFE_SUCCESS);
    EXPECT(CFE_TBL_GetInfo(&info, "A.T") == CFE_SUCCESS && info.Size == SIZE);
    EXPECT(CFE_ES_CopyToCDS(block, image) == CFE_SUCCESS);
    EXPECT(CFE_ES_RestoreFromCDS(back, block) == CFE_SUCCESS && memcmp(back, image, SIZE) == 0);
    EXPECT(CFE_TBL_Load(block_table, CFE_TBL_SRC_ADDRESS, image) == CFE_SUCCESS);
    EXPECT(CFETBL_DumpCmd("A.T", true, "/d") == CFETBL_SUCCESS);
    while (CFETBL_NextEvent(&event)) {
    }
}

static void test_long(uint32_t count)
{
    uint32_t number, rounds = count / ROUND, before;
    long first = 0;

    start();
    calls = 0;
    before = CFETBL_Requests();
    for (number = 0; number < rounds && failed == 0; number++) {
        round_of(number);
        if (number == FIRST) {
            first = kilobytes();
        }
    }
    EXPECT(calls == (int)rounds && CFETBL_Requests() - before >= count);
    if (count >= LONG && kilobytes() - first > GROWN_KILOBYTES) {
        printf("%ld kB after %d calls, and %ld after %u\n", first, FIRST * ROUND, kilobytes(), (unsigned)count);
        failed += 1;
    }
    CFETBL_Close();
}

/* Events that nobody takes wait, but for the oldest of very many. */
static void test_waiting(void)
{
    struct CFETBL_Event event;
    uint32_t number, given = 0;

    EXPECT(CFETBL_Open(NULL) && CFETBL_ResetCountersCmd() == CFETBL_SUCCESS);
    for (number = 0; number < WAITING - 1; number++) {
        EXPECT(CFETBL_NoopCmd() == CFETBL_SUCCESS);
    }
    EXPECT(CFETBL_NextEvent(&event) && event.detail == 1);
    for (number = 0; number < 3; number++) {
        EXPECT(CFETBL_NoopCmd() == CFETBL_SUCCESS);
    }
    while (CFETBL_NextEvent(&event)) {
        EXPECT(event.detail == 0);
        given += 1;
    }
    EXPECT(given == WAITING);
    CFETBL_Close();
}

int main(int count, char **words)
{
    uint32_t wanted = count > 1 ? (uint32_t)strtoul(words[1], NULL, 10) : 2000;

    test_long(wanted);
    if (wanted >= LONG) {
        test_waiting();
    }
    return expected();
}
