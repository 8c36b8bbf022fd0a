/* SPDX-License-Identifier: Apache-2.0 */
/* cfetbl_app.h: how a shared library hands the validation functions of an application to `cfetbl serve --app LIBRARY`.
 *
 * The library has one variable, CFETBL_App, which CFETBL_APP defines:
 *
 *     #include "cfetbl_app.h"
 *     #include "checker.h"
 *
 *     CFETBL_APP(CFETBL_APP_FUNCTION(0, CHECKER_ValidateLimits));
 *
 * It is built for the machine on which the service runs, and images have that machine's layout:
 *
 *     cc -shared -fPIC app.c validate.c -o checker.so $(pkg-config --cflags cfetbl)
 *
 * A function is cFE's: it is given the address of an image, and returns 0 if the image may go active, and else a code of its own. It may
 * send events by CFE_EVS_SendEvent, CFE_EVS_SendEventWithAppID and CFE_EVS_SendTimedEvent, and call CFE_ES_WriteToSysLog and OS_printf.
 * What else it calls has to be in the library. It runs in a process of its own, and gets a copy of the image: what it writes there is lost.
 *
 * This file needs no header of cFE, and goes with any. */
#ifndef CFETBL_APP_H
#define CFETBL_APP_H

#include <stdint.h>

#ifdef __cplusplus
extern "C" {
#endif

/* The edition of the structures below. */
#define CFETBL_APP_VERSION 1

/* How many numbers there are for functions, from 0 on. */
#define CFETBL_APP_NUMBERS 240

/* What stands for the return code of a function that crashed, ended its process or took too long. The image is refused. */
#define CFETBL_APP_NO_VERDICT (-2147483647 - 1)

/* A validation function and its number, by which a table is registered (`app 1 register LIMITS size 4 validator 0`). The number says which
 * application may register it: application a, from 1 to 16, has 2a - 2 and 2a - 1, and every sixteenth number from 31 + a on. */
struct CFETBL_AppFunction {
    uint32_t number;
    const char *name;
    int32_t (*function)(void *image);
};

struct CFETBL_App {
    uint32_t version;
    uint32_t count;
    const struct CFETBL_AppFunction *functions;
};

/* What the service looks for. */
extern const struct CFETBL_App CFETBL_App __attribute__((visibility("default")));

/* A function by its name. */
#define CFETBL_APP_FUNCTION(number, function) {(number), #function, (function)}

/* Defines CFETBL_App with these functions, at least one. */
#define CFETBL_APP(...)                                                                   \
    static const struct CFETBL_AppFunction CFETBL_AppFunctions[] = {__VA_ARGS__};         \
    const struct CFETBL_App CFETBL_App = {CFETBL_APP_VERSION,                             \
                                          sizeof CFETBL_AppFunctions / sizeof *CFETBL_AppFunctions, CFETBL_AppFunctions}

#ifdef __cplusplus
}
#endif

#endif
