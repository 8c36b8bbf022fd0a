/* random.c: calls at random, of three applications and the ground, with writes in place and validation functions that make calls.
 * Now and then it looks whether all who have the address of a table's last image see the same bytes, and whether the ground dumps
 * them. Its words are a seed and a number of calls. */
#include "cfetbl.h"
#include "expect.h"

#include <stdlib.h>

enum { APPS = 3, TABLES = 3, SIZE = 8, PINS = 4, DEPTH = 3 };

static const uint16 options[TABLES] = {CFE_TBL_OPT_DEFAULT, CFE_TBL_OPT_DBL_BUFFER, CFE_TBL_OPT_DUMP_ONLY};
static uint32_t state;
static int depth;

static uint32_t chance(uint32_t below)
{
    state = state * 1664525u + 1013904223u;
    return (state >> 8) % below;
}

static void name_of(char *name, int app, uint32_t table)
{
    name[0] = (char)('A' + app - 1);
    name[1] = '.';
    name[2] = (char)('T' + table);
    name[3] = 0;
}

static void call(void);

/* Now and then it makes a call itself. */
static int32 judge(void *image)
{
    depth += 1;
    if (depth <= DEPTH && chance(4) == 0) {
        call();
    }
    depth -= 1;
    return ((const uint8_t *)image)[0] % 8 == 7 ? -5 : CFE_SUCCESS;
}

/* Handles with the addresses that they got. */
static struct {
    int app;
    CFE_TBL_Handle_t handle;
    uint8_t *address;
} pins[PINS];

static void forget_pins(void)
{
    memset(pins, 0, sizeof pins);
}

static void get(int app, CFE_TBL_Handle_t handle)
{
    uint32_t place = chance(PINS);
    void *address;

    if (CFE_TBL_GetAddress(&address, handle) >= CFE_SUCCESS && address != NULL) {
        pins[place].app = app;
        pins[place].handle = handle;
        pins[place].address = address;
    }
}

/* Writes in place, if the address that was got is still the handle's, and says so or not. */
static void write_in_place(void)
{
    uint32_t place = chance(PINS);
    void *address;

    if (pins[place].app == 0) {
        return;
    }
    CFETBL_UseApp(pins[place].app);
    if (CFE_TBL_GetAddress(&address, pins[place].handle) < CFE_SUCCESS) {
        return;
    }
    ((uint8_t *)address)[chance(SIZE)] = (uint8_t)chance(256);
    if (chance(2) == 0) {
        EXPECT(CFE_TBL_Modified(pins[place].handle) == CFE_SUCCESS);
    }
}

static void call_application(int app)
{
    CFE_TBL_Handle_t handle = (CFE_TBL_Handle_t)chance(12);
    uint8_t image[SIZE];
    char name[4];
    size_t n;

    name_of(name, 1 + (int)chance(APPS), chance(TABLES));
    for (n = 0; n < SIZE; n++) {
        image[n] = (uint8_t)chance(256);
    }
    switch (chance(14)) {
    case 0:
        n = chance(TABLES);
        name_of(name, app, (uint32_t)n);
        (void)CFE_TBL_Register(&handle, name + 2, SIZE, (uint16)(options[n] | (chance(4) == 0 && n < 2 ? CFE_TBL_OPT_CRITICAL : 0)),
                               n == 2 || chance(2) == 0 ? NULL : judge);
        break;
    case 1:
        (void)CFE_TBL_Share(&handle, name);
        break;
    case 2:
        (void)CFE_TBL_Unregister(chance(4) == 0 ? handle : 200);
        break;
    case 3:
    case 4:
        (void)CFE_TBL_Load(handle, CFE_TBL_SRC_ADDRESS, image);
        break;
    case 5:
        (void)CFE_TBL_Load(handle, CFE_TBL_SRC_FILE, "/f");
        break;
    case 6:
        (void)CFE_TBL_Manage(handle);
        break;
    case 7:
        (void)CFE_TBL_Validate(handle);
        break;
    case 8:
        (void)CFE_TBL_Update(handle);
        break;
    case 9:
        (void)CFE_TBL_DumpToBuffer(handle);
        break;
    case 10:
    case 11:
        get(app, handle);
        break;
    case 12:
        (void)CFE_TBL_ReleaseAddress(handle);
        break;
    default:
        write_in_place();
    }
}

static void call_ground(void)
{
    uint8_t image[SIZE];
    char name[4];
    size_t n;

    name_of(name, 1 + (int)chance(APPS), chance(TABLES));
    for (n = 0; n < SIZE; n++) {
        image[n] = (uint8_t)chance(256);
    }
    switch (chance(9)) {
    case 0:
    case 1:
        (void)CFETBL_PutTableFile("/f", name, chance(3), image, 1 + chance(5));
        break;
    case 2:
        (void)CFETBL_LoadCmd("/f");
        break;
    case 3:
        (void)CFETBL_ValidateCmd(name, chance(2) == 0);
        break;
    case 4:
        (void)CFETBL_ActivateCmd(name);
        break;
    case 5:
        (void)CFETBL_AbortLoadCmd(name);
        break;
    case 6:
        (void)CFETBL_DumpCmd(name, true, "/dumped");
        break;
    case 7:
        (void)CFETBL_HousekeepingCmd();
        break;
    default:
        if (depth == 0 && chance(20) == 0) {
            EXPECT(CFETBL_ResetProcessor());
            forget_pins();
        }
    }
}

static void call(void)
{
    int app = 1 + (int)chance(APPS);

    CFETBL_UseApp(app);
    if (chance(3) == 0) {
        call_ground();
    } else {
        call_application(app);
    }
}

/* Two handles that have just got a table's address see the same memory, and the ground dumps it unless a load is open. */
static void check(uint32_t number)
{
    char name[4];
    CFE_TBL_Handle_t first, second;
    void *here, *there;
    CFE_TBL_Info_t info;

    name_of(name, 1 + (int)(number % APPS), number / APPS % TABLES);
    CFETBL_UseApp(1);
    if (CFE_TBL_Share(&first, name) != CFE_SUCCESS) {
        return;
    }
    CFETBL_UseApp(2);
    EXPECT(CFE_TBL_Share(&second, name) == CFE_SUCCESS && CFE_TBL_GetInfo(&info, name) == CFE_SUCCESS);
    if (CFE_TBL_GetAddress(&there, second) >= CFE_SUCCESS) {
        CFETBL_UseApp(1);
        EXPECT(CFE_TBL_GetAddress(&here, first) >= CFE_SUCCESS && here == there && info.NumUsers >= 2);
        if (!info.DumpOnly && !info.Critical && CFETBL_DumpCmd(name, true, "/checked") == CFETBL_SUCCESS &&
            CFETBL_AbortLoadCmd(name) != CFETBL_SUCCESS) {
            EXPECT(memcmp((const uint8_t *)CFETBL_GetFile("/checked", NULL) + 116, here, SIZE) == 0);
        }
    }
    CFETBL_UseApp(1);
    EXPECT(CFE_TBL_Unregister(first) == CFE_SUCCESS);
    CFETBL_UseApp(2);
    EXPECT(CFE_TBL_Unregister(second) == CFE_SUCCESS);
}

int main(int count, char **words)
{
    uint32_t calls = count > 2 ? (uint32_t)strtoul(words[2], NULL, 10) : 600, n;

    state = count > 1 ? (uint32_t)strtoul(words[1], NULL, 10) : 1;
    EXPECT(CFETBL_Open(NULL) && CFETBL_StartApp(1, "A") && CFETBL_StartApp(2, "B") && CFETBL_StartApp(3, "C"));
    for (n = 0; n < calls && failed == 0; n++) {
        call();
        if (n % 4 == 0) {
            check(n / 4);
        }
    }
    if (failed != 0) {
        printf("seed %s, call %u\n", count > 1 ? words[1] : "1", (unsigned)n);
    }
    CFETBL_Close();
    return expected();
}
