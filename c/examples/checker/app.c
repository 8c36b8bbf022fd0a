/* SPDX-License-Identifier: Apache-2.0 */
/* app.c: hands the validation function of the limits to `cfetbl serve --app checker.so`. The Makefile makes that library of it and of
 * validate.c, which stays as it is. */
#include "cfetbl_app.h"
#include "checker.h"

CFETBL_APP(CFETBL_APP_FUNCTION(0, CHECKER_ValidateLimits));
