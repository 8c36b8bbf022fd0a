/* SPDX-License-Identifier: Apache-2.0 */
/* over_stubs.c: runs the unit test of an application over stubs of cFE that answer by the service, also one that doesn't know of stubs.
 * All files are compiled with -Dmain=test_of_application, and with -DSTUBS_FIRST=1 if the stubs are linked before the library, or 0 if they
 * are linked after it. It is told if the calls went to the other one of the two. */
#include "cfetbl_ut.h"

#include <stdio.h>

#undef main

int test_of_application(void);

int main(void)
{
    int status;
    bool has_stub;

    UT_ResetState(0);
    CFETBL_UT_Install();
    status = test_of_application();
    has_stub = UT_GetStubCount(UT_KEY(CFE_TBL_Register)) > 0;
    if (has_stub != STUBS_FIRST) {
        printf("calls went to %s\n", has_stub ? "the stubs, which are linked after the library" : "the library, which is linked after the stubs");
        return 1;
    }
    return status;
}
