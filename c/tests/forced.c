/* SPDX-License-Identifier: Apache-2.0 */
/* forced.c: what a test forces and looks at: return codes, command packets, events and notices, files, damaged blocks, and messages. */
#include "cfetbl.h"
#include "expect.h"

#include <stdlib.h>

enum { SIZE = 8 };

static const uint8_t one[SIZE] = {1, 2, 3, 4, 5, 6, 7, 8};
static const uint8_t zeros[SIZE];
static CFE_TBL_Handle_t table;
static CFE_ES_CDSHandle_t block;

static int32 any(void *image)
{
    return ((const uint8_t *)image)[0] == 0 ? -17 : CFE_SUCCESS;
}

static void start(void)
{
    EXPECT(CFETBL_Open(NULL) && CFETBL_StartApp(1, "A"));
    EXPECT(CFE_TBL_Register(&table, "T", SIZE, CFE_TBL_OPT_CRITICAL, any) == CFE_SUCCESS);
    EXPECT(CFE_TBL_Load(table, CFE_TBL_SRC_ADDRESS, one) == CFE_SUCCESS);
    EXPECT(CFE_ES_RegisterCDS(&block, 4, "B") == CFE_SUCCESS && CFE_ES_CopyToCDS(block, "abcd") == CFE_SUCCESS);
}

/* ---- forced codes */

static CFE_Status_t call_register(void)
{
    CFE_TBL_Handle_t handle = 5;
    CFE_Status_t code = CFE_TBL_Register(&handle, "T", SIZE, CFE_TBL_OPT_CRITICAL, any);

    EXPECT(code == CFE_TBL_WARN_DUPLICATE ? handle == table : handle == CFE_TBL_BAD_TABLE_HANDLE);
    return code;
}

static CFE_Status_t call_share(void)
{
    CFE_TBL_Handle_t handle = 5;
    CFE_Status_t code = CFE_TBL_Share(&handle, "A.T");

    EXPECT(code == CFE_SUCCESS ? CFE_TBL_Unregister(handle) == CFE_SUCCESS : handle == CFE_TBL_BAD_TABLE_HANDLE);
    return code;
}

static CFE_Status_t call_unregister(void)
{
    return CFE_TBL_Unregister(200);
}

static CFE_Status_t call_load(void)
{
    return CFE_TBL_Load(table, CFE_TBL_SRC_ADDRESS, one);
}

static CFE_Status_t call_update(void)
{
    return CFE_TBL_Update(table);
}

static CFE_Status_t call_validate(void)
{
    return CFE_TBL_Validate(table);
}

static CFE_Status_t call_manage(void)
{
    return CFE_TBL_Manage(table);
}

static CFE_Status_t call_dump_to_buffer(void)
{
    return CFE_TBL_DumpToBuffer(table);
}

static CFE_Status_t call_modified(void)
{
    return CFE_TBL_Modified(table);
}

static CFE_Status_t call_get_address(void)
{
    void *address = &failed;
    CFE_Status_t code = CFE_TBL_GetAddress(&address, table);

    EXPECT(address == NULL || CFE_TBL_ReleaseAddress(table) >= CFE_SUCCESS);
    return code;
}

static CFE_Status_t call_release_address(void)
{
    return CFE_TBL_ReleaseAddress(table);
}

static CFE_Status_t call_get_addresses(void)
{
    void *address = &failed;
    void **addresses[1];
    CFE_Status_t code;

    addresses[0] = &address;
    code = CFE_TBL_GetAddresses(addresses, 1, &table);
    EXPECT(address == NULL || CFE_TBL_ReleaseAddress(table) >= CFE_SUCCESS);
    return code;
}

static CFE_Status_t call_release_addresses(void)
{
    return CFE_TBL_ReleaseAddresses(1, &table);
}

static CFE_Status_t call_get_status(void)
{
    return CFE_TBL_GetStatus(table);
}

static CFE_Status_t call_get_info(void)
{
    CFE_TBL_Info_t info;
    CFE_Status_t code = CFE_TBL_GetInfo(&info, "A.T");

    EXPECT(info.Size == (code == CFE_SUCCESS ? (size_t)SIZE : 0));
    return code;
}

static CFE_Status_t call_notify(void)
{
    return CFE_TBL_NotifyByMessage(table, CFE_SB_ValueToMsgId(0x1810), 3, 7);
}

static CFE_Status_t call_register_cds(void)
{
    CFE_ES_CDSHandle_t handle = 5;
    CFE_Status_t code = CFE_ES_RegisterCDS(&handle, 4, "B");

    EXPECT(code == CFE_ES_CDS_ALREADY_EXISTS ? handle == block : handle == CFE_ES_CDS_BAD_HANDLE);
    return code;
}

static CFE_Status_t call_copy_to_cds(void)
{
    return CFE_ES_CopyToCDS(block, "abcd");
}

static CFE_Status_t call_restore_from_cds(void)
{
    char back[4] = "xyz";
    CFE_Status_t code = CFE_ES_RestoreFromCDS(back, block);

    EXPECT(memcmp(back, code == CFE_SUCCESS ? "abcd" : "xyz", 4) == 0);
    return code;
}

static const struct {
    const char *name;
    CFE_Status_t (*call)(void);
    CFE_Status_t usual; /* what it returns if nothing is forced */
} calls[] = {
    {"CFE_TBL_Register", call_register, CFE_TBL_WARN_DUPLICATE},
    {"CFE_TBL_Share", call_share, CFE_SUCCESS},
    {"CFE_TBL_Unregister", call_unregister, CFE_TBL_ERR_INVALID_HANDLE},
    {"CFE_TBL_Load", call_load, CFE_SUCCESS},
    {"CFE_TBL_Update", call_update, CFE_TBL_INFO_NO_UPDATE_PENDING},
    {"CFE_TBL_Validate", call_validate, CFE_TBL_INFO_NO_VALIDATION_PENDING},
    {"CFE_TBL_Manage", call_manage, CFE_SUCCESS},
    {"CFE_TBL_DumpToBuffer", call_dump_to_buffer, CFE_SUCCESS},
    {"CFE_TBL_Modified", call_modified, CFE_SUCCESS},
    {"CFE_TBL_GetAddress", call_get_address, CFE_SUCCESS},
    {"CFE_TBL_ReleaseAddress", call_release_address, CFE_SUCCESS},
    {"CFE_TBL_GetAddresses", call_get_addresses, CFE_SUCCESS},
    {"CFE_TBL_ReleaseAddresses", call_release_addresses, CFE_SUCCESS},
    {"CFE_TBL_GetStatus", call_get_status, CFE_SUCCESS},
    {"CFE_TBL_GetInfo", call_get_info, CFE_SUCCESS},
    {"CFE_TBL_NotifyByMessage", call_notify, CFE_SUCCESS},
    {"CFE_ES_RegisterCDS", call_register_cds, CFE_ES_CDS_ALREADY_EXISTS},
    {"CFE_ES_CopyToCDS", call_copy_to_cds, CFE_SUCCESS},
    {"CFE_ES_RestoreFromCDS", call_restore_from_cds, CFE_SUCCESS},
};

enum { CALLS = sizeof calls / sizeof calls[0] };

/* The return codes of cFE that a test may force. */
static const CFE_Status_t codes[] = {
    CFE_SUCCESS,
    CFE_STATUS_EXTERNAL_RESOURCE_FAIL,
    CFE_ES_CDS_ALREADY_EXISTS,
    CFE_ES_CDS_INSUFFICIENT_MEMORY,
    CFE_ES_CDS_INVALID_NAME,
    CFE_ES_CDS_INVALID_SIZE,
    CFE_ES_CDS_INVALID,
    CFE_ES_CDS_ACCESS_ERROR,
    CFE_ES_BAD_ARGUMENT,
    CFE_ES_CDS_BLOCK_CRC_ERR,
    CFE_ES_ERR_RESOURCEID_NOT_VALID,
    CFE_ES_ERR_NAME_NOT_FOUND,
    CFE_TBL_ERR_INVALID_HANDLE,
    CFE_TBL_ERR_INVALID_NAME,
    CFE_TBL_ERR_INVALID_SIZE,
    CFE_TBL_INFO_UPDATE_PENDING,
    CFE_TBL_ERR_NEVER_LOADED,
    CFE_TBL_ERR_REGISTRY_FULL,
    CFE_TBL_WARN_DUPLICATE,
    CFE_TBL_ERR_NO_ACCESS,
    CFE_TBL_ERR_UNREGISTERED,
    CFE_TBL_ERR_HANDLES_FULL,
    CFE_TBL_ERR_DUPLICATE_DIFF_SIZE,
    CFE_TBL_ERR_DUPLICATE_NOT_OWNED,
    CFE_TBL_INFO_UPDATED,
    CFE_TBL_ERR_NO_BUFFER_AVAIL,
    CFE_TBL_ERR_DUMP_ONLY,
    CFE_TBL_ERR_ILLEGAL_SRC_TYPE,
    CFE_TBL_ERR_LOAD_IN_PROGRESS,
    CFE_TBL_ERR_FILE_TOO_LARGE,
    CFE_TBL_WARN_SHORT_FILE,
    CFE_TBL_ERR_BAD_CONTENT_ID,
    CFE_TBL_INFO_NO_UPDATE_PENDING,
    CFE_TBL_INFO_TABLE_LOCKED,
    CFE_TBL_INFO_VALIDATION_PENDING,
    CFE_TBL_INFO_NO_VALIDATION_PENDING,
    CFE_TBL_ERR_BAD_SUBTYPE_ID,
    CFE_TBL_ERR_FILE_SIZE_INCONSISTENT,
    CFE_TBL_ERR_NO_STD_HEADER,
    CFE_TBL_ERR_NO_TBL_HEADER,
    CFE_TBL_ERR_FILENAME_TOO_LONG,
    CFE_TBL_ERR_FILE_FOR_WRONG_TABLE,
    CFE_TBL_ERR_LOAD_INCOMPLETE,
    CFE_TBL_WARN_PARTIAL_LOAD,
    CFE_TBL_ERR_PARTIAL_LOAD,
    CFE_TBL_INFO_DUMP_PENDING,
    CFE_TBL_ERR_INVALID_OPTIONS,
    CFE_TBL_WARN_NOT_CRITICAL,
    CFE_TBL_INFO_RECOVERED_TBL,
    CFE_TBL_ERR_BAD_SPACECRAFT_ID,
    CFE_TBL_ERR_BAD_PROCESSOR_ID,
    CFE_TBL_MESSAGE_ERROR,
    CFE_TBL_ERR_SHORT_FILE,
    CFE_TBL_ERR_ACCESS,
    CFE_TBL_BAD_ARGUMENT,
};

/* Each code reaches the application once, from the call that it is forced for, and that call isn't made. */
static void test_codes(void)
{
    size_t n, place;

    start();
    for (n = 0; n < CALLS; n++) {
        /* An address that was never got is told as an update the first time. */
        (void)calls[n].call();
        for (place = n % 3; place < sizeof codes / sizeof codes[0]; place += 3) {
            uint32_t requests = CFETBL_Requests();

            if (codes[place] == calls[n].usual || (codes[place] == CFE_TBL_WARN_DUPLICATE && n == 0)) {
                continue;
            }
            if (codes[place] == CFE_SUCCESS && (n == 1 || n == 14 || n == 18)) {
                continue;
            }
            EXPECT(CFETBL_Fail(calls[n].name, 1, codes[place]));
            EXPECT(calls[n].call() == codes[place] && CFETBL_Requests() == requests);
            EXPECT(CFETBL_LastAnswer().status == CFETBL_NOT_PLAYED);
        }
        EXPECT(calls[n].call() == calls[n].usual);
    }
    CFETBL_Close();
}

/* The nth call that comes, and several codes at once. */
static void test_nth(void)
{
    start();
    EXPECT(CFETBL_Fail("CFE_TBL_Load", 3, CFE_TBL_ERR_ACCESS) && CFETBL_Fail("CFE_TBL_Load", 1, CFE_TBL_ERR_NO_ACCESS));
    EXPECT(call_load() == CFE_TBL_ERR_NO_ACCESS && call_load() == CFE_SUCCESS);
    EXPECT(call_load() == CFE_TBL_ERR_ACCESS && call_load() == CFE_SUCCESS);
    EXPECT(!CFETBL_Fail("CFE_TBL_Lode", 1, -1));
    EXPECT_MESSAGE("CFETBL_Fail: the library has no call CFE_TBL_Lode");
    EXPECT(!CFETBL_Fail(NULL, 1, -1) && !CFETBL_Fail("CFE_TBL_Load", 0, -1));
    EXPECT(CFETBL_Fail("CFE_TBL_Load", 1, CFE_TBL_ERR_ACCESS) && CFETBL_Open(NULL) && CFETBL_StartApp(1, "A"));
    EXPECT(CFE_TBL_Load(0, CFE_TBL_SRC_ADDRESS, one) == CFE_TBL_ERR_INVALID_HANDLE);
    CFETBL_Close();
}

/* ---- commands, events and notices */

static void test_command(void)
{
    static const uint8_t noop[] = {0x18, 0x04, 0xC0, 0, 0, 1, 0, 0x22};
    struct CFETBL_Event event;

    start();
    while (CFETBL_NextEvent(&event)) {
    }
    EXPECT(CFETBL_Command(noop, sizeof noop) == CFETBL_SUCCESS);
    EXPECT(CFETBL_NextEvent(&event) && event.number == 1 && event.status == 0 && event.row == 0xFFFF && event.detail == 0);
    EXPECT(CFETBL_Command(noop, 7) == CFETBL_ERR_BAD_PACKET && CFETBL_Command(noop, 0) == CFETBL_ERR_BAD_PACKET);
    EXPECT(CFETBL_NextEvent(&event) && event.number == 2 && event.status == CFETBL_ERR_BAD_PACKET);
    EXPECT(CFETBL_Command(NULL, 8) == CFETBL_NOT_PLAYED && CFETBL_Command(noop, 40000) == CFETBL_NOT_PLAYED);
    EXPECT_MESSAGE("CFETBL_Command: the packet has more than 32,832 bytes");
    CFETBL_Close();
}

static void test_notices(void)
{
    uint32_t message, parameter;
    uint16_t function;

    start();
    EXPECT(call_notify() == CFE_SUCCESS && !CFETBL_NextNotice(&message, &function, &parameter));
    EXPECT(CFETBL_ValidateCmd("A.T", true) == CFETBL_SUCCESS);
    EXPECT(CFETBL_NextNotice(&message, &function, &parameter) && message == 0x1810 && function == 3 && parameter == 7);
    EXPECT(!CFETBL_NextNotice(&message, &function, &parameter));
    CFETBL_Close();
}

/* ---- the last answer */

static void test_answer(void)
{
    void *address;

    start();
    EXPECT(CFE_TBL_GetAddress(&address, table) == CFE_TBL_INFO_UPDATED && CFETBL_LastAnswer().status == CFETBL_INFO_UPDATED);
    EXPECT(CFETBL_LastAnswer().length == 0);
    EXPECT(CFE_TBL_Load(table, (CFE_TBL_SrcEnum_t)7, one) == CFE_TBL_ERR_ILLEGAL_SRC_TYPE);
    EXPECT(CFETBL_LastAnswer().status == CFETBL_NOT_PLAYED && CFETBL_LastAnswer().bytes == NULL);
    EXPECT(CFE_TBL_ReleaseAddress(table) == CFE_SUCCESS && CFE_TBL_Load(table, CFE_TBL_SRC_ADDRESS, zeros) == -17);
    EXPECT(CFETBL_LastAnswer().status == CFETBL_ERR_VALIDATION_FAILED && CFETBL_LastAnswer().detail == (uint32_t)-17);
    CFETBL_Close();
}

/* ---- files */

static void test_files(void)
{
    const char *path = "forced.tmp";
    FILE *file = fopen(path, "wb");
    size_t size = 0;
    int n;

    start();
    EXPECT(file != NULL && fwrite("contents", 1, 8, file) == 8 && fclose(file) == 0);
    EXPECT(CFETBL_PutHostFile("/host", path) && remove(path) == 0);
    EXPECT(CFETBL_GetFile("/host", &size) != NULL && size == 8 && memcmp(CFETBL_GetFile("/host", NULL), "contents", 8) == 0);
    EXPECT(!CFETBL_PutHostFile("/host", path) && !CFETBL_PutHostFile("/host", NULL) && !CFETBL_PutHostFile("/host", "."));
    EXPECT(CFETBL_PutFile("/empty", NULL, 0) && CFETBL_GetFile("/empty", &size) != NULL && size == 0);
    EXPECT(!CFETBL_PutFile("/none", NULL, 1) && !CFETBL_PutFile("", "x", 1) && !CFETBL_PutFile("/large", one, 32769));
    EXPECT(!CFETBL_PutFile(NULL, "x", 1) && !CFETBL_PutTableFile("/t", "A.T", 0, NULL, 1) && CFETBL_GetFile("/none", &size) == NULL);
    EXPECT_MESSAGE("CFETBL_GetFile: the file store has no file /none");
    EXPECT(CFETBL_DumpRegistryCmd("/r") == CFETBL_SUCCESS && CFETBL_GetFile("/r", &size) != NULL && size == 208);
    EXPECT(CFETBL_ResetProcessor() && CFETBL_GetFile("/r", NULL) != NULL);
    for (n = 0; n < 61; n++) {
        char name[16];

        snprintf(name, sizeof name, "/%d", n);
        EXPECT(CFETBL_PutFile(name, "x", 1));
    }
    EXPECT(!CFETBL_PutFile("/more", "x", 1) && CFETBL_GetFile("/more", NULL) == NULL && CFETBL_PutFile("/host", "y", 1));
    EXPECT(CFETBL_PowerOn() && CFETBL_GetFile("/r", NULL) == NULL);
    CFETBL_Close();
}

/* ---- damaged blocks */

static void test_damage(void)
{
    static uint8_t bank[262144];
    char back[4];

    start();
    EXPECT(CFETBL_PutFile("/kept", "x", 1) && CFETBL_SetTime(99, 1) && CFETBL_StartApp(2, "B"));
    CFETBL_UseApp(1);
    EXPECT(!CFETBL_DamageBlock("A.NONE") && !CFETBL_DamageBlock(NULL));
    EXPECT(CFETBL_DamageBlock("A.T") && CFETBL_DamageBlock("A.B") && CFETBL_DamageBlock("A.B"));
    EXPECT(CFE_ES_RestoreFromCDS(back, block) == CFE_SUCCESS); /* not before the reset */
    memcpy(bank, CFETBL_Bank(), sizeof bank);
    EXPECT(CFETBL_ResetProcessor());
    EXPECT(CFE_TBL_Register(&table, "T", SIZE, CFE_TBL_OPT_CRITICAL, any) == CFE_SUCCESS);
    EXPECT(call_get_address() == CFE_TBL_ERR_NEVER_LOADED);
    EXPECT(CFE_ES_RegisterCDS(&block, 4, "B") == CFE_ES_CDS_ALREADY_EXISTS);
    EXPECT(CFE_ES_RestoreFromCDS(back, block) == CFE_ES_CDS_BLOCK_CRC_ERR);
    EXPECT(CFE_ES_CopyToCDS(block, "efgh") == CFE_SUCCESS && CFE_ES_RestoreFromCDS(back, block) == CFE_SUCCESS);
    EXPECT(memcmp(back, "efgh", 4) == 0);
    EXPECT(CFETBL_GetFile("/kept", NULL) != NULL && CFE_TBL_Load(table, CFE_TBL_SRC_FILE, "/kept") == CFE_TBL_ERR_NO_STD_HEADER);
    EXPECT(!CFETBL_StartApp(2, "B"));
    EXPECT(CFETBL_Open(bank) && CFETBL_StartApp(1, "A"));
    EXPECT(CFE_ES_RegisterCDS(&block, 4, "B") == CFE_ES_CDS_ALREADY_EXISTS);
    EXPECT(CFE_ES_RestoreFromCDS(back, block) == CFE_ES_CDS_BLOCK_CRC_ERR);
    CFETBL_Close();
}

/* ---- headers of another cFE */

static void test_headers(void)
{
    struct CFETBL_Headers headers = CFETBL_HEADERS;

    headers.info += 4;
    EXPECT(!CFETBL_OpenFor(NULL, &headers));
    EXPECT_MESSAGE("CFE_TBL_Info_t has");
    headers.info -= 4;
    headers.table_size = 3;
    EXPECT(!CFETBL_OpenFor(NULL, &headers));
    EXPECT_MESSAGE("compile cfetbl.c with the test's headers");
    EXPECT(CFETBL_Session() == 0);
}

int main(void)
{
    test_codes();
    test_nth();
    test_command();
    test_notices();
    test_answer();
    test_files();
    test_damage();
    test_headers();
    return expected();
}
