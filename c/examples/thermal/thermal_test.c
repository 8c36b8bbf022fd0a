/* SPDX-License-Identifier: Apache-2.0 */
/* thermal_test.c: the unit test of the application. It plays cFE and the ground: it starts the application, uplinks tables, sends
 * commands and resets the processor between two loads. Build it by
 *
 *     cc -o thermal_test thermal.c thermal_test.c $(pkg-config --cflags --libs cfetbl)
 */
#include "cfetbl.h"
#include "thermal.h"

#include <stdio.h>

static int Failed;

#define EXPECT(Condition)                                                      \
    do {                                                                       \
        if (!(Condition)) {                                                    \
            printf("%s:%d: not so: %s\n", __FILE__, __LINE__, #Condition);     \
            Failed++;                                                          \
        }                                                                      \
    } while (0)

static const int16 Cold[THERMAL_ZONES] = {-150, -150, -150, -150};

/* The number of heaters that are on in the cold. */
static int HeatersInTheCold(void)
{
    uint8 Heater[THERMAL_ZONES] = {0};
    int Zone, Count = 0;

    EXPECT(THERMAL_Control(Cold, Heater) == CFE_SUCCESS);
    for (Zone = 0; Zone < THERMAL_ZONES; Zone++) {
        Count += Heater[Zone];
    }
    return Count;
}

static void Start(void)
{
    EXPECT(CFETBL_Open(NULL));
    EXPECT(CFETBL_StartApp(1, "THERMAL"));
    EXPECT(THERMAL_Init() == CFE_SUCCESS);
}

/* The ground loads limits by which the first zone may be colder. */
static void TestGroundLoad(void)
{
    static const THERMAL_Limits_t Colder = {-300, -200};
    CFE_TBL_Info_t Info;

    Start();
    EXPECT(HeatersInTheCold() == 4);
    EXPECT(CFETBL_PutTableFile("/cf/limits.tbl", "THERMAL.LIMITS", 0, &Colder, sizeof(Colder)));
    EXPECT(CFETBL_LoadCmd("/cf/limits.tbl") == 0);
    EXPECT(CFETBL_ActivateCmd("THERMAL.LIMITS") == 66); /* it has to be validated first */
    EXPECT(CFETBL_ValidateCmd("THERMAL.LIMITS", false) == 0);
    EXPECT(THERMAL_Housekeeping() == CFE_SUCCESS);
    EXPECT(CFETBL_ActivateCmd("THERMAL.LIMITS") == 0);
    EXPECT(HeatersInTheCold() == 4); /* not before the application manages its table */
    EXPECT(THERMAL_Housekeeping() == CFE_SUCCESS);
    EXPECT(CFE_TBL_GetInfo(&Info, "THERMAL.LIMITS") == CFE_SUCCESS);
    EXPECT(Info.Size == sizeof(THERMAL_LimitsTable_t) && Info.DoubleBuffered && !Info.Critical);
    CFETBL_Close();
}

/* The validation function refuses limits in a wrong order, and those that no sensor tells. */
static void TestBadLimits(void)
{
    static const THERMAL_LimitsTable_t Swapped = {{{50, -100}, {-100, 50}, {0, 150}, {200, 250}}};
    static const THERMAL_LimitsTable_t TooHot = {{{-100, 50}, {-100, 50}, {0, 150}, {200, 901}}};
    CFE_TBL_Handle_t Handle;

    Start();
    EXPECT(CFE_TBL_Register(&Handle, "LIMITS", sizeof(Swapped), CFE_TBL_OPT_DBL_BUFFER, NULL) == CFE_TBL_WARN_DUPLICATE);
    EXPECT(CFE_TBL_Load(Handle, CFE_TBL_SRC_ADDRESS, &Swapped) == THERMAL_LIMITS_ORDER_ERR);
    EXPECT(CFE_TBL_Load(Handle, CFE_TBL_SRC_ADDRESS, &TooHot) == THERMAL_LIMITS_RANGE_ERR);
    EXPECT(CFETBL_PutTableFile("/cf/limits.tbl", "THERMAL.LIMITS", 0, &Swapped, sizeof(Swapped)));
    EXPECT(CFETBL_LoadCmd("/cf/limits.tbl") == 0);
    EXPECT(CFETBL_ValidateCmd("THERMAL.LIMITS", false) == 0);
    EXPECT(THERMAL_Housekeeping() == CFE_SUCCESS);
    EXPECT(CFETBL_ActivateCmd("THERMAL.LIMITS") == 66);
    EXPECT(HeatersInTheCold() == 4);
    CFETBL_Close();
}

/* The heaters that were given up outlive a reset of the processor, and not the power-on. */
static void TestReset(void)
{
    Start();
    EXPECT(THERMAL_GiveUp(1) == CFE_SUCCESS);
    EXPECT(HeatersInTheCold() == 3);
    EXPECT(CFETBL_ResetProcessor());
    EXPECT(THERMAL_Init() == CFE_SUCCESS);
    EXPECT(HeatersInTheCold() == 3);
    EXPECT(THERMAL_GiveUp(2) == CFE_SUCCESS);
    EXPECT(HeatersInTheCold() == 2);
    EXPECT(CFETBL_PowerOn());
    EXPECT(CFETBL_StartApp(1, "THERMAL"));
    EXPECT(THERMAL_Init() == CFE_SUCCESS);
    EXPECT(HeatersInTheCold() == 4);
    CFETBL_Close();
}

int main(void)
{
    TestGroundLoad();
    TestBadLimits();
    TestReset();
    printf("%s\n", Failed == 0 ? "all as expected" : "some cases failed");
    return Failed == 0 ? 0 : 1;
}
