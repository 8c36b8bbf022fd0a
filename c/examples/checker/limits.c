/* SPDX-License-Identifier: Apache-2.0 */
/* limits.c: the limits that the checker begins with. */
#include "checker.h"

CHECKER_Limits_t CHECKER_Limits = {
    .Version = 3,
    .Period = 0.25,
    .Point = {
        {"BATT_VOLT", 0x0811, 12, 24.5f, 33.6f, CHECKER_SAFE_MODE, 3, true},
        {"BATT_TEMP", 0x0811, 16, -5.0f, 45.0f, CHECKER_EVENT, 5, false},
        {"WHEEL_RPM", 0x0823, 20, -6000.0f, 6000.0f, CHECKER_EVENT, 2, false},
    },
};

CFE_TBL_FILEDEF(CHECKER_Limits, CHECKER.Limits, Limits of the checker, checker_lim.tbl)
