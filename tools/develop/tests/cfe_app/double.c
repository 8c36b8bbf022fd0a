/* double.c: linked with record.c and the library for C, it records what the test of an application does for the ground and for cFE: each
   request that isn't an application's call is a line `bytes ..`. What the library asks for itself isn't recorded. */
#include "cfetbl.h"
#include "record.h"
#include "tbl.h"

#include <stdio.h>
#include <stdlib.h>

enum { RESET = 0x04, START = 0x10, EXIT = 0x21, LAST_OF_GROUND = 0x0F };

#define WRAP(call) extern __typeof__(call) __real_##call, __wrap_##call;
WRAP(tbl_open)
WRAP(tbl_step)
WRAP(CFETBL_StartApp)
WRAP(CFETBL_UseApp)

static void tell_record(const uint8_t *record, size_t length)
{
    char *line = malloc(2 * length + 8), *at = line + sprintf(line, "bytes ");

    for (size_t place = 0; place < length; place++)
        at += sprintf(at, "%02X", record[place]);
    record_line(line);
    free(line);
}

uint8_t __wrap_tbl_open(struct tbl_handle *handle, const uint8_t *bank, size_t size)
{
    record_line("reset power-on");
    record_app(1);
    return __real_tbl_open(handle, bank, size);
}

uint8_t __wrap_tbl_step(struct tbl_handle *handle, const uint8_t *record, size_t length, const int32_t *verdicts, size_t count,
                        uint8_t *entry, size_t room, struct tbl_told *told)
{
    uint8_t status = __real_tbl_step(handle, record, length, verdicts, count, entry, room, told);

    if (status == TBL_OK && (record[0] <= LAST_OF_GROUND || record[0] == START || record[0] == EXIT))
        tell_record(record, length);
    if (status == TBL_OK && (record[0] == RESET || record[0] == EXIT))
        record_forget(record[1]);
    return status;
}

bool __wrap_CFETBL_StartApp(int app, const char *name)
{
    bool is_done = __real_CFETBL_StartApp(app, name);

    if (is_done)
        record_app(app);
    return is_done;
}

void __wrap_CFETBL_UseApp(int app)
{
    record_app(app);
    __real_CFETBL_UseApp(app);
}
