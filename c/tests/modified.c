/* SPDX-License-Identifier: Apache-2.0 */
/* modified.c: what applications write through addresses, with CFE_TBL_Modified and without, and tables at an address of their user's. */
#include "cfetbl.h"
#include "expect.h"

enum { SIZE = 8 };

static const uint8_t one[SIZE] = {1, 2, 3, 4, 5, 6, 7, 8};
static int calls;

static int32 first_not_zero(void *image)
{
    calls += 1;
    return ((const uint8_t *)image)[0] == 0 ? -17 : CFE_SUCCESS;
}

/* A table A.T, of application 1, that application 2 shares. */
static CFE_TBL_Handle_t own, shared;

static void start(uint16 options, CFE_TBL_CallbackFuncPtr_t function)
{
    calls = 0;
    EXPECT(CFETBL_Open(NULL) && CFETBL_StartApp(1, "A"));
    EXPECT(CFE_TBL_Register(&own, "T", SIZE, options, function) == CFE_SUCCESS);
    if ((options & CFE_TBL_OPT_LD_DMP_MSK) == 0) {
        EXPECT(CFE_TBL_Load(own, CFE_TBL_SRC_ADDRESS, one) == CFE_SUCCESS);
    }
    EXPECT(CFETBL_StartApp(2, "B") && CFE_TBL_Share(&shared, "A.T") == CFE_SUCCESS);
    CFETBL_UseApp(1);
}

/* The address that an application gets. */
static uint8_t *address_of(int app, CFE_TBL_Handle_t handle, CFE_Status_t wanted)
{
    void *address;

    CFETBL_UseApp(app);
    EXPECT(CFE_TBL_GetAddress(&address, handle) == wanted && address != NULL);
    CFETBL_UseApp(1);
    return address;
}

static void release(int app, CFE_TBL_Handle_t handle, CFE_Status_t wanted)
{
    CFETBL_UseApp(app);
    EXPECT(CFE_TBL_ReleaseAddress(handle) == wanted);
    CFETBL_UseApp(1);
}

/* The bytes of the active image that the ground gets. */
static const uint8_t *dumped(void)
{
    static const uint8_t none[SIZE];
    const uint8_t *file;
    size_t size = 0;

    EXPECT(CFETBL_DumpCmd("A.T", true, "/d") == CFETBL_SUCCESS);
    file = CFETBL_GetFile("/d", &size);
    EXPECT(file != NULL && size == 116 + SIZE);
    return file == NULL ? none : file + 116;
}

static CFE_TBL_Info_t info(void)
{
    CFE_TBL_Info_t found;

    EXPECT(CFE_TBL_GetInfo(&found, "A.T") == CFE_SUCCESS);
    return found;
}

/* What one writes in place, all see, and the ground too; it stays after the address is given back. Without CFE_TBL_Modified nobody hears
 * of it. */
static void test_in_place(uint16 options)
{
    uint32 crc;
    uint8_t *mine, *theirs;

    start(options, first_not_zero);
    crc = info().Crc;
    mine = address_of(1, own, CFE_TBL_INFO_UPDATED);
    theirs = address_of(2, shared, CFE_TBL_INFO_UPDATED);
    EXPECT(mine == theirs && memcmp(mine, one, SIZE) == 0);
    mine[0] = 0;
    EXPECT(theirs[0] == 0 && memcmp(dumped(), mine, SIZE) == 0);
    release(1, own, CFE_SUCCESS);
    release(2, shared, CFE_SUCCESS);
    theirs = address_of(2, shared, CFE_SUCCESS);
    EXPECT(theirs[0] == 0 && theirs[1] == 2 && calls == 1);
    EXPECT(info().Crc == crc && info().LastFileLoaded[0] == 0 && info().NumUsers == 2);
    theirs[1] = 9;
    EXPECT(memcmp(dumped(), theirs, SIZE) == 0);
    CFETBL_Close();
}

/* CFE_TBL_Modified tells everybody, and GetInfo has the new check word, the time and a star. No validation function is asked. */
static void test_modified(uint16 options)
{
    uint8_t *mine, *theirs;
    uint32 crc;

    start(options, first_not_zero);
    EXPECT(CFETBL_PutTableFile("/cf/t.tbl", "A.T", 0, one, SIZE) && CFE_TBL_Load(own, CFE_TBL_SRC_FILE, "/cf/t.tbl") == CFE_SUCCESS);
    crc = info().Crc;
    mine = address_of(1, own, CFE_TBL_INFO_UPDATED);
    theirs = address_of(2, shared, CFE_TBL_INFO_UPDATED);
    release(2, shared, CFE_SUCCESS);
    mine[0] = 0;
    EXPECT(CFETBL_SetTime(77, 0x8000) && CFE_TBL_Modified(own) == CFE_SUCCESS && calls <= 2);
    EXPECT(strcmp(info().LastFileLoaded, "/cf/t.tbl(*)") == 0 && info().Crc != crc);
    EXPECT(info().TimeOfLastUpdate.Seconds == 77 && info().TimeOfLastUpdate.Subseconds == 0x80000000u);
    theirs = address_of(2, shared, CFE_TBL_INFO_UPDATED);
    EXPECT(theirs[0] == 0 && theirs == mine && memcmp(dumped(), mine, SIZE) == 0);
    release(1, own, CFE_SUCCESS);
    release(2, shared, CFE_SUCCESS);
    EXPECT(address_of(1, own, CFE_SUCCESS) == mine);
    EXPECT(CFE_TBL_Modified(own) == CFE_SUCCESS && strcmp(info().LastFileLoaded, "/cf/t.tbl(*)(*)") == 0);
    release(1, own, CFE_SUCCESS);
    EXPECT(CFE_TBL_Load(own, CFE_TBL_SRC_FILE, "/cf/t.tbl") == CFE_SUCCESS);
    EXPECT(strcmp(info().LastFileLoaded, "/cf/t.tbl") == 0 && info().Crc == crc);
    EXPECT(memcmp(address_of(1, own, CFE_TBL_INFO_UPDATED), one, SIZE) == 0);
    CFETBL_Close();
}

/* Whoever shares a table may modify it, too, while others have its address. */
static void test_sharer(void)
{
    uint8_t *mine, *theirs;

    start(CFE_TBL_OPT_DEFAULT, first_not_zero);
    mine = address_of(1, own, CFE_TBL_INFO_UPDATED);
    theirs = address_of(2, shared, CFE_TBL_INFO_UPDATED);
    theirs[7] = 99;
    CFETBL_UseApp(2);
    EXPECT(CFE_TBL_Modified(shared) == CFE_SUCCESS);
    CFETBL_UseApp(1);
    EXPECT(mine[7] == 99 && dumped()[7] == 99);
    release(1, own, CFE_TBL_INFO_UPDATED);
    EXPECT(CFE_TBL_Modified(shared) == CFE_TBL_ERR_NO_ACCESS && CFE_TBL_Modified(200) == CFE_TBL_ERR_INVALID_HANDLE);
    CFETBL_Close();
}

/* A load of the ground is open: applications get the change at once, the ground once the load is gone, unless it takes its place. */
static void test_open_load(void)
{
    uint8_t *mine;
    uint32 crc;

    start(CFE_TBL_OPT_DEFAULT, NULL);
    EXPECT(CFETBL_PutTableFile("/f", "A.T", 0, "\7\7\7\7\7\7\7\7", SIZE) && CFETBL_LoadCmd("/f") == CFETBL_SUCCESS);
    crc = info().Crc;
    mine = address_of(1, own, CFE_TBL_INFO_UPDATED);
    mine[0] = 42;
    EXPECT(CFE_TBL_Modified(own) == CFE_SUCCESS && info().Crc != crc);
    EXPECT(strcmp(info().LastFileLoaded, "/f(*)") == 0);
    EXPECT(address_of(2, shared, CFE_TBL_INFO_UPDATED)[0] == 42 && dumped()[0] == 1);
    EXPECT(CFETBL_AbortLoadCmd("A.T") == CFETBL_SUCCESS && dumped()[0] == 42);
    release(1, own, CFE_SUCCESS);
    release(2, shared, CFE_SUCCESS);
    EXPECT(CFETBL_LoadCmd("/f") == CFETBL_SUCCESS && CFETBL_ValidateCmd("A.T", false) == CFETBL_SUCCESS);
    mine[1] = 43;
    EXPECT(CFETBL_ActivateCmd("A.T") == CFETBL_SUCCESS && CFE_TBL_Update(own) == CFE_SUCCESS);
    EXPECT(memcmp(address_of(1, own, CFE_TBL_INFO_UPDATED), "\7\7\7\7\7\7\7\7", SIZE) == 0 && dumped()[1] == 7);
    CFETBL_Close();
}

/* Preserved memory has a change of a critical table once CFE_TBL_Modified was called, and not before. */
static void test_critical(void)
{
    uint8_t *mine;

    start(CFE_TBL_OPT_CRITICAL, NULL);
    mine = address_of(1, own, CFE_TBL_INFO_UPDATED);
    mine[0] = 50;
    EXPECT(CFE_TBL_Modified(own) == CFE_SUCCESS);
    mine[1] = 51;
    EXPECT(CFE_TBL_GetStatus(own) == CFE_SUCCESS && CFETBL_ResetProcessor());
    EXPECT(CFE_TBL_Register(&own, "T", SIZE, CFE_TBL_OPT_CRITICAL, NULL) == CFE_TBL_INFO_RECOVERED_TBL);
    mine = address_of(1, own, CFE_TBL_INFO_UPDATED);
    EXPECT(mine[0] == 50 && mine[1] == 2);
    CFETBL_Close();
}

/* The owner of a dump-only table writes through its address, whoever has the address too, and before and after it is given back. */
static void test_dump_only(void)
{
    uint8_t *mine, *theirs;

    start(CFE_TBL_OPT_DUMP_ONLY, NULL);
    mine = address_of(1, own, CFE_TBL_INFO_UPDATED);
    theirs = address_of(2, shared, CFE_TBL_INFO_UPDATED);
    memcpy(mine, one, SIZE);
    EXPECT(memcmp(theirs, one, SIZE) == 0);
    release(1, own, CFE_SUCCESS);
    mine[3] = 77;
    EXPECT(CFETBL_DumpCmd("A.T", true, "/d") == CFETBL_SUCCESS && CFETBL_GetFile("/d", NULL) == NULL);
    EXPECT(CFE_TBL_Manage(own) == CFE_SUCCESS && CFETBL_HousekeepingCmd() == CFETBL_SUCCESS);
    EXPECT(CFETBL_GetFile("/d", NULL) != NULL && memcmp((const uint8_t *)CFETBL_GetFile("/d", NULL) + 116, theirs, SIZE) == 0);
    EXPECT(theirs[3] == 77 && address_of(1, own, CFE_SUCCESS) == mine);
    EXPECT(CFE_TBL_Modified(own) == CFE_SUCCESS && strcmp(info().LastFileLoaded, "(*)") == 0);
    CFETBL_Close();
}

/* A table at an address of its user's: it is there after a load from the address, and the ground dumps what is there. */
static void test_user_address(void)
{
    static uint8_t memory[SIZE] = {9, 8, 7}, elsewhere[SIZE] = {4};
    void *address;

    EXPECT(CFETBL_Open(NULL) && CFETBL_StartApp(1, "A"));
    EXPECT(CFE_TBL_Register(&own, "T", SIZE, CFE_TBL_OPT_USR_DEF_ADDR, NULL) == CFE_SUCCESS);
    EXPECT(CFE_TBL_GetAddress(&address, own) == CFE_TBL_ERR_NEVER_LOADED && address == NULL && !info().TableLoadedOnce);
    EXPECT(CFETBL_PutTableFile("/f", "A.T", 0, one, SIZE) && CFE_TBL_Load(own, CFE_TBL_SRC_FILE, "/f") == CFE_TBL_ERR_DUMP_ONLY);
    EXPECT(CFE_TBL_Load(own, CFE_TBL_SRC_ADDRESS, memory) == CFE_SUCCESS);
    EXPECT(CFE_TBL_GetAddress(&address, own) == CFE_TBL_INFO_UPDATED && address == memory);
    EXPECT(info().UserDefAddr && info().DumpOnly && info().TableLoadedOnce && info().NumUsers == 1);
    memory[1] = 88;
    EXPECT(CFETBL_DumpCmd("A.T", true, "/d") == CFETBL_SUCCESS && CFE_TBL_DumpToBuffer(own) == CFE_SUCCESS);
    EXPECT(CFETBL_HousekeepingCmd() == CFETBL_SUCCESS && memcmp((const uint8_t *)CFETBL_GetFile("/d", NULL) + 116, memory, SIZE) == 0);
    EXPECT(CFE_TBL_Load(own, CFE_TBL_SRC_ADDRESS, elsewhere) == CFE_SUCCESS);
    EXPECT(CFE_TBL_GetAddress(&address, own) == CFE_TBL_INFO_UPDATED && address == elsewhere && CFE_TBL_ReleaseAddress(own) == CFE_SUCCESS);
    EXPECT(CFE_TBL_Unregister(own) == CFE_SUCCESS);
    CFETBL_Close();
}

int main(void)
{
    test_in_place(CFE_TBL_OPT_SNGL_BUFFER);
    test_in_place(CFE_TBL_OPT_DBL_BUFFER);
    test_modified(CFE_TBL_OPT_SNGL_BUFFER);
    test_modified(CFE_TBL_OPT_DBL_BUFFER);
    test_sharer();
    test_open_load();
    test_critical();
    test_dump_only();
    test_user_address();
    return expected();
}
