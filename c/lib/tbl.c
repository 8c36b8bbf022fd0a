/* SPDX-License-Identifier: Apache-2.0 */
/* tbl.c: what of tbl.h the crate tbl_c doesn't export. */
#include "tbl.h"

/* Is there alone if the library of the crate was built without proofs (tools/command/build-unproved-library). */
extern const char tbl_is_unproved __attribute__((weak));

int tbl_is_proved(void)
{
    return &tbl_is_unproved == NULL;
}

uint8_t tbl_validator_app(uint8_t number)
{
    return number < 32 ? number / 2 + 1 : number % 16 + 1;
}
