/* SPDX-License-Identifier: Apache-2.0 */
/* cfetbl.c: the calls, for a test that compiles them with its own headers of cFE (CFETBL_WITH_CFE). They take the place of those in the
 * library, in which each service has an object of its own. */
#include "cfetbl_es.c"
#include "cfetbl_tbl.c"
