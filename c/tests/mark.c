/* SPDX-License-Identifier: Apache-2.0 */
/* mark.c: whether tbl.c tells a build of the crate without proofs, which has a symbol more (UNPROVED), from the proved one. */
#include "tbl.h"

#ifdef UNPROVED
const char tbl_is_unproved = 1;
#endif

int main(void)
{
#ifdef UNPROVED
    return tbl_is_proved() ? 1 : 0;
#else
    return tbl_is_proved() ? 0 : 1;
#endif
}
