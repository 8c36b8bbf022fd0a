/* SPDX-License-Identifier: Apache-2.0 */
/* calls.c: each call of cfetbl.h, with the return codes that cFE's User's Guide and docs/reference/cfe.md give. */
#include "cfetbl.h"

#include "expect.h"

typedef struct {
    uint8_t bytes[8];
} image_t;

static const image_t one = {{1, 2, 3, 4, 5, 6, 7, 8}};
static const image_t two = {{2, 2, 3, 4, 5, 6, 7, 8}};
static const image_t bad = {{0, 2, 3, 4, 5, 6, 7, 8}};

/* A table's object and its file, as a tool makes it. */
static const image_t DefinedTable = {{1, 2, 3, 4, 5, 6, 7, 8}};
CFE_TBL_FILEDEF(DefinedTable, A.DefinedTable, A table, defined.tbl)

/* How often the function was called. */
static int calls;

static int32 first_not_zero(void *image)
{
    calls += 1;
    return ((const image_t *)image)->bytes[0] == 0 ? -17 : CFE_SUCCESS;
}

static int32 never(void *image)
{
    (void)image;
    return -1;
}

static void start(void)
{
    EXPECT(CFETBL_Open(NULL));
    EXPECT(CFETBL_StartApp(1, "A"));
}

/* What headers of cFE have beside calls. */
static void test_names(void)
{
    cpuaddr address = (cpuaddr)&DefinedTable;

    EXPECT(strcmp(CFE_TBL_FileDef.ObjectName, "DefinedTable") == 0 && strcmp(CFE_TBL_FileDef.TableName, "A.DefinedTable") == 0);
    EXPECT(strcmp(CFE_TBL_FileDef.Description, "A table") == 0 && strcmp(CFE_TBL_FileDef.TgtFilename, "defined.tbl") == 0);
    EXPECT(CFE_TBL_FileDef.ObjectSize == sizeof DefinedTable && *(const uint8 *)address == 1);
    EXPECT(sizeof CFE_TBL_FileDef.TableName == CFE_TBL_MAX_FULL_NAME_LEN && CFETBL_CFE_VERSION == 700);
}

/* A table from its registration to its end. */
static void test_register(void)
{
    CFE_TBL_Handle_t handle, again, other;

    start();
    EXPECT(CFE_TBL_Register(NULL, "T", 8, CFE_TBL_OPT_DEFAULT, NULL) == CFE_TBL_BAD_ARGUMENT);
    EXPECT(CFE_TBL_Register(&handle, "12345678901234567", 8, CFE_TBL_OPT_DEFAULT, NULL) == CFE_TBL_ERR_INVALID_NAME);
    EXPECT(CFE_TBL_Register(&handle, "", 8, CFE_TBL_OPT_DEFAULT, NULL) == CFE_TBL_ERR_INVALID_NAME);
    EXPECT(CFE_TBL_Register(&handle, "T", 0, CFE_TBL_OPT_DEFAULT, NULL) == CFE_TBL_ERR_INVALID_SIZE);
    EXPECT(CFE_TBL_Register(&handle, "T", 16385, CFE_TBL_OPT_DEFAULT, NULL) == CFE_TBL_ERR_INVALID_SIZE);
    EXPECT(CFE_TBL_Register(&handle, "T", 8, CFE_TBL_OPT_USR_DEF_MSK, NULL) == CFE_TBL_ERR_INVALID_OPTIONS);
    EXPECT(CFE_TBL_Register(&handle, "T", 8, CFE_TBL_OPT_DUMP_ONLY | CFE_TBL_OPT_DBL_BUFFER, NULL) == CFE_TBL_ERR_INVALID_OPTIONS);
    EXPECT(handle == CFE_TBL_BAD_TABLE_HANDLE);
    EXPECT(CFE_TBL_Register(&handle, "T", 8, CFE_TBL_OPT_DEFAULT, NULL) == CFE_SUCCESS);
    EXPECT(CFE_TBL_Register(&again, "T", 8, CFE_TBL_OPT_DEFAULT, NULL) == CFE_TBL_WARN_DUPLICATE && again == handle);
    EXPECT(CFE_TBL_Register(&again, "T", 9, CFE_TBL_OPT_DEFAULT, NULL) == CFE_TBL_ERR_DUPLICATE_DIFF_SIZE);
    EXPECT(CFETBL_StartApp(2, "A"));
    EXPECT(CFE_TBL_Register(&other, "T", 8, CFE_TBL_OPT_DEFAULT, NULL) == CFE_TBL_ERR_DUPLICATE_NOT_OWNED);
    EXPECT(CFE_TBL_Load(handle, CFE_TBL_SRC_ADDRESS, &one) == CFE_TBL_ERR_NO_ACCESS);
    EXPECT(CFE_TBL_Share(&other, "A.NONE") == CFE_TBL_ERR_INVALID_NAME);
    EXPECT(CFE_TBL_Share(&other, "A.T") == CFE_SUCCESS);
    CFETBL_UseApp(1);
    EXPECT(CFE_TBL_Unregister(handle) == CFE_SUCCESS);
    EXPECT(CFE_TBL_Unregister(handle) == CFE_TBL_ERR_INVALID_HANDLE);
    CFETBL_UseApp(2);
    EXPECT(CFE_TBL_GetStatus(other) == CFE_TBL_ERR_UNREGISTERED);
    EXPECT(CFETBL_ExitApp());
    EXPECT(CFE_TBL_GetStatus(other) != CFE_SUCCESS);
    CFETBL_Close();
}

/* An address stays until it is released, and its table with one buffer is locked as long. */
static void test_addresses(void)
{
    CFE_TBL_Handle_t handles[2];
    void *address = &failed, *first, *second;
    void **both[2];

    both[0] = &first;
    both[1] = &second;
    start();
    EXPECT(CFE_TBL_Register(&handles[0], "S", 8, CFE_TBL_OPT_SNGL_BUFFER, NULL) == CFE_SUCCESS);
    EXPECT(CFE_TBL_Register(&handles[1], "D", 8, CFE_TBL_OPT_DBL_BUFFER, NULL) == CFE_SUCCESS);
    EXPECT(CFE_TBL_GetAddress(&address, handles[0]) == CFE_TBL_ERR_NEVER_LOADED && address == NULL);
    EXPECT(CFE_TBL_ReleaseAddress(handles[0]) == CFE_SUCCESS);
    EXPECT(CFE_TBL_Load(handles[0], CFE_TBL_SRC_ADDRESS, &one) == CFE_SUCCESS);
    EXPECT(CFE_TBL_Load(handles[1], CFE_TBL_SRC_ADDRESS, &one) == CFE_SUCCESS);
    EXPECT(CFE_TBL_GetAddresses(both, 2, handles) == CFE_TBL_INFO_UPDATED);
    EXPECT(memcmp(first, &one, 8) == 0 && memcmp(second, &one, 8) == 0);
    EXPECT(CFE_TBL_Load(handles[0], CFE_TBL_SRC_ADDRESS, &two) == CFE_TBL_INFO_TABLE_LOCKED);
    EXPECT(CFE_TBL_Load(handles[1], CFE_TBL_SRC_ADDRESS, &two) == CFE_SUCCESS);
    EXPECT(memcmp(first, &one, 8) == 0 && memcmp(second, &one, 8) == 0);
    EXPECT(CFE_TBL_ReleaseAddresses(2, handles) == CFE_TBL_INFO_UPDATED);
    EXPECT(CFE_TBL_GetAddress(&second, handles[1]) == CFE_TBL_INFO_UPDATED && memcmp(second, &two, 8) == 0);
    EXPECT(CFE_TBL_GetAddress(&second, handles[1]) == CFE_SUCCESS && memcmp(second, &two, 8) == 0);
    CFETBL_Close();
}

/* Loads from memory and from files, and what a validation function says of them. */
static void test_loads(void)
{
    CFE_TBL_Handle_t handle;
    CFE_TBL_Info_t info;

    start();
    calls = 0;
    EXPECT(CFE_TBL_Register(&handle, "T", 8, CFE_TBL_OPT_DEFAULT, first_not_zero) == CFE_SUCCESS);
    EXPECT(CFE_TBL_Load(handle, CFE_TBL_SRC_ADDRESS, NULL) == CFE_TBL_BAD_ARGUMENT);
    EXPECT(CFE_TBL_Load(handle, (CFE_TBL_SrcEnum_t)7, &one) == CFE_TBL_ERR_ILLEGAL_SRC_TYPE);
    EXPECT(CFE_TBL_Load(handle, CFE_TBL_SRC_ADDRESS, &bad) == -17 && calls == 1);
    EXPECT(CFE_TBL_Load(handle, CFE_TBL_SRC_ADDRESS, &one) == CFE_SUCCESS && calls == 2);
    EXPECT(CFE_TBL_Load(handle, CFE_TBL_SRC_ADDRESS, &one) == CFE_SUCCESS && calls == 3); /* the same image again */
    EXPECT(CFE_TBL_Load(handle, CFE_TBL_SRC_FILE, "/none") == CFE_TBL_ERR_ACCESS);
    EXPECT(CFETBL_PutFile("/bad", "x", 1));
    EXPECT(CFE_TBL_Load(handle, CFE_TBL_SRC_FILE, "/bad") == CFE_TBL_ERR_NO_STD_HEADER);
    EXPECT(CFETBL_PutTableFile("/other", "A.U", 0, &two, 8));
    EXPECT(CFE_TBL_Load(handle, CFE_TBL_SRC_FILE, "/other") == CFE_TBL_ERR_FILE_FOR_WRONG_TABLE);
    EXPECT(CFETBL_PutTableFile("/two", "A.T", 0, &two, 8));
    EXPECT(CFETBL_SetTime(5, 0x8000));
    EXPECT(CFE_TBL_Load(handle, CFE_TBL_SRC_FILE, "/two") == CFE_SUCCESS && calls == 4);
    EXPECT(CFE_TBL_GetInfo(&info, "A.NONE") == CFE_TBL_ERR_INVALID_NAME);
    EXPECT(CFE_TBL_GetInfo(&info, "A.T") == CFE_SUCCESS);
    EXPECT(info.Size == 8 && info.TableLoadedOnce && !info.DumpOnly && !info.DoubleBuffered && !info.Critical);
    EXPECT(info.TimeOfLastUpdate.Seconds == 5 && info.TimeOfLastUpdate.Subseconds == 0x80000000u);
    EXPECT(strcmp(info.LastFileLoaded, "/two") == 0);
    CFETBL_Close();
}

/* What the ground asks for, and the application does. */
static void test_ground(void)
{
    CFE_TBL_Handle_t handle;
    void *address;

    start();
    EXPECT(CFE_TBL_Register(&handle, "T", 8, CFE_TBL_OPT_DEFAULT, first_not_zero) == CFE_SUCCESS);
    EXPECT(CFE_TBL_NotifyByMessage(handle, CFE_SB_ValueToMsgId(0x1810), 3, 7) == CFE_SUCCESS);
    EXPECT(CFE_TBL_NotifyByMessage(handle, CFE_SB_ValueToMsgId(0x0810), 3, 7) == CFE_TBL_BAD_ARGUMENT);
    EXPECT(CFE_TBL_Validate(handle) == CFE_TBL_INFO_NO_VALIDATION_PENDING);
    EXPECT(CFE_TBL_Update(handle) == CFE_TBL_INFO_NO_UPDATE_PENDING);
    EXPECT(CFE_TBL_Manage(handle) == CFE_SUCCESS);
    EXPECT(CFETBL_PutTableFile("/f", "A.T", 0, &bad, 8));
    EXPECT(CFETBL_LoadCmd("/f") == 0 && CFETBL_ValidateCmd("A.T", false) == 0);
    EXPECT(CFETBL_LastAnswer().packets_length == 24 + 12); /* an event and the notice */
    EXPECT(CFE_TBL_GetStatus(handle) == CFE_TBL_INFO_VALIDATION_PENDING);
    EXPECT(CFE_TBL_Validate(handle) == CFE_SUCCESS); /* though the function refuses the image */
    EXPECT(CFETBL_ActivateCmd("A.T") == 66);
    EXPECT(CFETBL_AbortLoadCmd("A.T") == 0);
    EXPECT(CFETBL_PutTableFile("/f", "A.T", 0, &two, 8));
    EXPECT(CFETBL_LoadCmd("/f") == 0 && CFETBL_ValidateCmd("A.T", false) == 0);
    EXPECT(CFE_TBL_Load(handle, CFE_TBL_SRC_ADDRESS, &one) == CFE_TBL_ERR_LOAD_IN_PROGRESS);
    EXPECT(CFE_TBL_Manage(handle) == CFE_SUCCESS);
    EXPECT(CFETBL_ActivateCmd("A.T") == 0);
    EXPECT(CFE_TBL_GetStatus(handle) == CFE_TBL_INFO_UPDATE_PENDING);
    EXPECT(CFE_TBL_Manage(handle) == CFE_TBL_INFO_UPDATED);
    EXPECT(CFE_TBL_GetAddress(&address, handle) == CFE_TBL_INFO_UPDATED && memcmp(address, &two, 8) == 0);
    EXPECT(CFETBL_NoopCmd() == 0 && CFETBL_ResetCountersCmd() == 0 && CFETBL_SendRegistryCmd("A.T") == 0);
    EXPECT(CFETBL_DumpRegistryCmd("/r") == 0 && CFETBL_DumpCmd("A.T", true, "/d") == 0);
    EXPECT(CFETBL_LoadCmd("12345678901234567890123456789012345678901234567890123456789012345") == 84);
    CFETBL_Close();
}

/* A dump-only table is written through its address. */
static void test_dump_only(void)
{
    CFE_TBL_Handle_t handle;
    void *address;

    start();
    EXPECT(CFE_TBL_Register(&handle, "R", 8, CFE_TBL_OPT_DUMP_ONLY, NULL) == CFE_SUCCESS);
    EXPECT(CFE_TBL_Load(handle, CFE_TBL_SRC_ADDRESS, &one) == CFE_TBL_ERR_DUMP_ONLY);
    EXPECT(CFE_TBL_GetAddress(&address, handle) >= CFE_SUCCESS && address != NULL);
    memcpy(address, &one, 8);
    EXPECT(CFETBL_DumpCmd("A.R", true, "/d") == 0);
    EXPECT(CFE_TBL_GetStatus(handle) == CFE_TBL_INFO_DUMP_PENDING);
    EXPECT(CFE_TBL_DumpToBuffer(handle) == CFE_SUCCESS);
    EXPECT(CFETBL_HousekeepingCmd() == 0);
    EXPECT(CFETBL_LastAnswer().length == 116 + 8 && memcmp(CFETBL_LastAnswer().bytes + 116, &one, 8) == 0);
    EXPECT(CFE_TBL_Modified(handle) == CFE_SUCCESS);
    CFETBL_Close();
}

/* Blocks of the Critical Data Store outlive a reset, and the preserved memory of one service goes to the next. */
static void test_store(void)
{
    static uint8_t bank[262144];
    CFE_ES_CDSHandle_t block;
    CFE_TBL_Handle_t handle;
    uint8_t back[4];

    start();
    EXPECT(CFE_ES_RegisterCDS(&block, 4, "12345678901234567") == CFE_ES_CDS_INVALID_NAME);
    EXPECT(CFE_ES_RegisterCDS(&block, 0, "B") == CFE_ES_CDS_INVALID_SIZE);
    EXPECT(CFE_ES_RegisterCDS(&block, 4, "B") == CFE_SUCCESS);
    EXPECT(CFE_ES_RestoreFromCDS(back, block) == CFE_ES_CDS_BLOCK_CRC_ERR); /* nothing was copied yet */
    EXPECT(CFE_ES_CopyToCDS(block, "abcd") == CFE_SUCCESS);
    EXPECT(CFETBL_ResetProcessor());
    EXPECT(CFE_ES_RegisterCDS(&block, 4, "B") == CFE_ES_CDS_ALREADY_EXISTS);
    EXPECT(CFE_ES_RestoreFromCDS(back, block) == CFE_SUCCESS && memcmp(back, "abcd", 4) == 0);
    EXPECT(CFE_ES_CopyToCDS(CFE_ES_CDS_BAD_HANDLE, "abcd") == CFE_ES_ERR_RESOURCEID_NOT_VALID);
    EXPECT(CFE_TBL_Register(&handle, "C", 8, CFE_TBL_OPT_CRITICAL, never) == CFE_SUCCESS);
    EXPECT(CFE_TBL_Load(handle, CFE_TBL_SRC_ADDRESS, &one) == -1);
    EXPECT(CFE_TBL_Unregister(handle) == CFE_SUCCESS);
    EXPECT(CFE_TBL_Register(&handle, "C", 8, CFE_TBL_OPT_CRITICAL, NULL) == CFE_SUCCESS);
    EXPECT(CFE_TBL_Load(handle, CFE_TBL_SRC_ADDRESS, &one) == CFE_SUCCESS);
    EXPECT(CFETBL_DeleteCdsCmd("A.C") == 74);
    memcpy(bank, CFETBL_Bank(), sizeof bank);
    EXPECT(CFETBL_Open(bank) && CFETBL_StartApp(1, "A"));
    EXPECT(CFE_TBL_Register(&handle, "C", 8, CFE_TBL_OPT_CRITICAL, NULL) == CFE_TBL_INFO_RECOVERED_TBL);
    CFETBL_Close();
    EXPECT(CFE_TBL_GetStatus(0) == CFE_STATUS_EXTERNAL_RESOURCE_FAIL); /* the service is off */
}

int main(void)
{
    test_names();
    test_register();
    test_addresses();
    test_loads();
    test_ground();
    test_dump_only();
    test_store();
    return expected();
}
