/* SPDX-License-Identifier: Apache-2.0 */
/* app_functions.c: libraries for `cfetbl serve --app`, as tests/test_serve_app.py compiles them: SHIPPED has the functions of the shipped
 * program, HOSTILE those that don't answer, and the others have something wrong. TABLE_SIZE is how many bytes each table has. */
#include "cfetbl_app.h"

#include <stdio.h>
#include <stdlib.h>
#include <string.h>
#include <unistd.h>

#ifdef SHIPPED
static int32_t first_byte(void *image)
{
    return *(const uint8_t *)image == 0 ? -5 : 0;
}

static int32_t last_xor(void *image)
{
    const uint8_t *bytes = image;
    const char *size = getenv("TABLE_SIZE");
    int length = size == NULL ? 1 : atoi(size), place;
    uint8_t sum = 0;

    for (place = 0; place + 1 < length; place++) {
        sum ^= bytes[place];
    }
    return bytes[length - 1] == sum ? 0 : -7;
}

#define TWO(app) {2 * app - 2, "first_byte", first_byte}, {2 * app - 1, "last_xor", last_xor}
CFETBL_APP(TWO(1), TWO(2), TWO(3), TWO(4), TWO(5), TWO(6), TWO(7), TWO(8), TWO(9), TWO(10), TWO(11), TWO(12), TWO(13), TWO(14), TWO(15), TWO(16));
#endif

#ifdef HOSTILE
int32_t CFE_EVS_SendEvent(uint16_t EventID, uint16_t EventType, const char *Spec, ...);
void OS_printf(const char *String, ...);

static int32_t crashes(void *image)
{
    (void)image;
    return *(volatile int32_t *)0;
}

static int32_t hangs(void *image)
{
    while (image != NULL) {
        pause();
    }
    return 0;
}

static int32_t exits(void *image)
{
    (void)image;
    exit(3);
}

/* Says what it is given, on all ways, and writes into the image. */
static int32_t talks(void *image)
{
    printf("to standard output\n");
    fflush(stdout);
    OS_printf("a line\n");
    CFE_EVS_SendEvent(7, 3, "first byte %u\033", *(const uint8_t *)image);
    memset(image, 0, 4);
    return 0;
}

static int32_t refuses(void *image)
{
    return -(int32_t) * (const uint8_t *)image;
}

CFETBL_APP(CFETBL_APP_FUNCTION(0, crashes), CFETBL_APP_FUNCTION(1, hangs), CFETBL_APP_FUNCTION(32, exits), CFETBL_APP_FUNCTION(48, talks),
           CFETBL_APP_FUNCTION(224, refuses));
#endif

#ifdef WITHOUT_APP
int32_t validate(void *image)
{
    return image == NULL;
}
#endif

#if defined OUT_OF_RANGE || defined TWICE || defined OTHER_EDITION || defined NO_FUNCTION || defined AS_IT_LOADS
static int32_t accepts(void *image)
{
    (void)image;
    return 0;
}
#endif

#ifdef OUT_OF_RANGE
CFETBL_APP(CFETBL_APP_FUNCTION(240, accepts));
#elif defined TWICE
CFETBL_APP(CFETBL_APP_FUNCTION(5, accepts), CFETBL_APP_FUNCTION(5, accepts));
#elif defined NO_FUNCTION
CFETBL_APP({5, "accepts", 0}, {6, "accepts", accepts});
#elif defined OTHER_EDITION
static const struct CFETBL_AppFunction functions[] = {{0, "accepts", accepts}};
const struct CFETBL_App CFETBL_App = {2, 1, functions};
#elif defined AS_IT_LOADS
CFETBL_APP(CFETBL_APP_FUNCTION(0, accepts));

__attribute__((constructor)) static void begin(void)
{
    abort();
}
#elif defined UNDEFINED
int32_t CFE_TBL_Load(int16_t handle, int type, const void *data);

static int32_t loads(void *image)
{
    return CFE_TBL_Load(0, 1, image);
}

CFETBL_APP(CFETBL_APP_FUNCTION(0, loads));
#endif
