/* SPDX-License-Identifier: Apache-2.0 */
/* starved.c: each allocation of a few calls fails in turn, linked with -Wl,--wrap= for malloc, calloc and realloc. The call in which it fails
 * comes out as ever or says so, and comes out as ever when it is made again; so do all after it. */
#include "cfetbl.h"
#include "expect.h"

#include <stdlib.h>

void *__real_malloc(size_t size);
void *__wrap_malloc(size_t size);
void *__real_calloc(size_t count, size_t size);
void *__wrap_calloc(size_t count, size_t size);
void *__real_realloc(void *at, size_t size);
void *__wrap_realloc(void *at, size_t size);

enum { SIZE = 1024, MOST = 10000 };

/* How many allocations there are until the one that fails, with it; 0 if none does. */
static unsigned left;

static bool fails(void)
{
    if (left > 0) {
        left -= 1;
        return left == 0;
    }
    return false;
}

void *__wrap_malloc(size_t size)
{
    return fails() ? NULL : __real_malloc(size);
}

void *__wrap_calloc(size_t count, size_t size)
{
    return fails() ? NULL : __real_calloc(count, size);
}

void *__wrap_realloc(void *at, size_t size)
{
    return fails() ? NULL : __real_realloc(at, size);
}

/* ---- the calls */

static uint8_t image[SIZE] = {1, 2, 3};
static CFE_TBL_Handle_t table, shared, critical;
static CFE_ES_CDSHandle_t block;
static void *address;

static int32 judge(void *judged)
{
    return ((const uint8_t *)judged)[0] == 0 ? -1 : CFE_SUCCESS;
}

/* What a function of a test gives, as a return code. */
static CFE_Status_t code_of(bool is_done)
{
    return is_done ? CFE_SUCCESS : CFE_STATUS_EXTERNAL_RESOURCE_FAIL;
}

static CFE_Status_t command_code(uint32_t status)
{
    return status == CFETBL_NOT_PLAYED ? CFE_STATUS_EXTERNAL_RESOURCE_FAIL : (CFE_Status_t)status;
}

static CFE_Status_t open_it(void)
{
    return code_of(CFETBL_Open(NULL));
}

static CFE_Status_t start_one(void)
{
    return code_of(CFETBL_StartApp(1, "A"));
}

static CFE_Status_t start_other(void)
{
    return code_of(CFETBL_StartApp(2, "B"));
}

static CFE_Status_t use_one(void)
{
    CFETBL_UseApp(1);
    return CFE_SUCCESS;
}

static CFE_Status_t use_other(void)
{
    CFETBL_UseApp(2);
    return CFE_SUCCESS;
}

static CFE_Status_t register_table(void)
{
    return CFE_TBL_Register(&table, "T", SIZE, CFE_TBL_OPT_DBL_BUFFER, judge);
}

static CFE_Status_t register_critical(void)
{
    return CFE_TBL_Register(&critical, "C", SIZE, CFE_TBL_OPT_CRITICAL, NULL);
}

static CFE_Status_t share(void)
{
    return CFE_TBL_Share(&shared, "A.T");
}

static CFE_Status_t load(void)
{
    return CFE_TBL_Load(table, CFE_TBL_SRC_ADDRESS, image);
}

static CFE_Status_t load_critical(void)
{
    return CFE_TBL_Load(critical, CFE_TBL_SRC_ADDRESS, image);
}

static CFE_Status_t get_address(void)
{
    CFE_Status_t code = CFE_TBL_GetAddress(&address, shared);

    EXPECT(code < CFE_SUCCESS ? address == NULL : address != NULL && memcmp(address, image, SIZE) == 0);
    return code < CFE_SUCCESS ? code : CFE_SUCCESS;
}

static CFE_Status_t release_address(void)
{
    return CFE_TBL_ReleaseAddress(shared);
}

static CFE_Status_t write_in_place(void)
{
    image[9] = ((uint8_t *)address)[9] = 77;
    return CFE_TBL_Modified(shared);
}

static CFE_Status_t put_file(void)
{
    return code_of(CFETBL_PutTableFile("/f", "A.T", 0, image, SIZE));
}

static CFE_Status_t load_command(void)
{
    return command_code(CFETBL_LoadCmd("/f"));
}

static CFE_Status_t validate_command(void)
{
    return command_code(CFETBL_ValidateCmd("A.T", false));
}

static CFE_Status_t activate_command(void)
{
    return command_code(CFETBL_ActivateCmd("A.T"));
}

static CFE_Status_t manage(void)
{
    return CFE_TBL_Manage(table);
}

static CFE_Status_t dump_command(void)
{
    return command_code(CFETBL_DumpCmd("A.T", true, "/d"));
}

static CFE_Status_t register_block(void)
{
    return CFE_ES_RegisterCDS(&block, SIZE, "B");
}

static CFE_Status_t copy_block(void)
{
    return CFE_ES_CopyToCDS(block, image);
}

static CFE_Status_t damage(void)
{
    return code_of(CFETBL_DamageBlock("A.C"));
}

static CFE_Status_t reset(void)
{
    return code_of(CFETBL_ResetProcessor());
}

/* Each call with what it returns as ever, and what it may also return when it is made once more. */
static const struct {
    CFE_Status_t (*call)(void);
    CFE_Status_t usual;
    CFE_Status_t again;
} calls[] = {
    {open_it, CFE_SUCCESS, CFE_SUCCESS},
    {start_one, CFE_SUCCESS, CFE_SUCCESS},
    {register_table, CFE_SUCCESS, CFE_SUCCESS},
    {register_critical, CFE_SUCCESS, CFE_SUCCESS},
    {load, CFE_SUCCESS, CFE_SUCCESS},
    {load_critical, CFE_SUCCESS, CFE_SUCCESS},
    {start_other, CFE_SUCCESS, CFE_SUCCESS},
    {use_other, CFE_SUCCESS, CFE_SUCCESS},
    {share, CFE_SUCCESS, CFE_SUCCESS},
    {get_address, CFE_SUCCESS, CFE_SUCCESS},
    {write_in_place, CFE_SUCCESS, CFE_SUCCESS},
    {release_address, CFE_SUCCESS, CFE_SUCCESS},
    {use_one, CFE_SUCCESS, CFE_SUCCESS},
    {put_file, CFE_SUCCESS, CFE_SUCCESS},
    {load_command, CFE_SUCCESS, CFE_SUCCESS},
    {validate_command, CFE_SUCCESS, CFE_SUCCESS},
    {manage, CFE_SUCCESS, CFE_SUCCESS},
    {activate_command, CFE_SUCCESS, CFE_SUCCESS},
    {manage, CFE_TBL_INFO_UPDATED, CFE_SUCCESS},
    {use_other, CFE_SUCCESS, CFE_SUCCESS},
    {get_address, CFE_SUCCESS, CFE_SUCCESS},
    {release_address, CFE_SUCCESS, CFE_SUCCESS},
    {use_one, CFE_SUCCESS, CFE_SUCCESS},
    {dump_command, CFE_SUCCESS, CFE_SUCCESS},
    {register_block, CFE_SUCCESS, CFE_ES_CDS_ALREADY_EXISTS},
    {copy_block, CFE_SUCCESS, CFE_SUCCESS},
    {damage, CFE_SUCCESS, CFE_SUCCESS},
    {reset, CFE_SUCCESS, CFE_SUCCESS},
    {register_table, CFE_SUCCESS, CFE_SUCCESS},
    {load, CFE_SUCCESS, CFE_SUCCESS},
};

/* Makes all calls, of whose allocations the nth fails. Gives whether there was one. */
static bool try_nth(unsigned nth)
{
    size_t n;

    left = nth;
    image[9] = 0;
    for (n = 0; n < sizeof calls / sizeof calls[0] && failed == 0; n++) {
        unsigned before = left;
        CFE_Status_t code = calls[n].call();

        if (before > 0 && left == 0 && code == CFE_STATUS_EXTERNAL_RESOURCE_FAIL) {
            code = calls[n].call();
            code = code == calls[n].again ? calls[n].usual : code;
        }
        if (code != calls[n].usual) {
            printf("allocation %u, call %u: %08x\n", nth, (unsigned)n, (unsigned)code);
            failed += 1;
        }
    }
    CFETBL_Close();
    return left == 0;
}

int main(void)
{
    unsigned nth = 1;

    while (nth < MOST && failed == 0 && try_nth(nth)) {
        nth += 1;
    }
    EXPECT(nth > 100);
    return expected();
}
