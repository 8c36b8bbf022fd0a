/* SPDX-License-Identifier: Apache-2.0 */
/* recorder.c: linked with -Wl,--wrap= for tbl_open and tbl_step, it writes the records of each service that is opened, and their entries, to
 * files below the folder that RECORDED names, as they come, so that the program can be asked for the same. The program has validation
 * functions of its own, so a session is written up to the first image on which the application's verdict is another one. */
#include "tbl.h"

#include <stdbool.h>
#include <stdio.h>
#include <stdlib.h>
#include <string.h>

uint8_t __real_tbl_open(struct tbl_handle *handle, const uint8_t *bank, size_t size);
uint8_t __wrap_tbl_open(struct tbl_handle *handle, const uint8_t *bank, size_t size);
uint8_t __real_tbl_step(struct tbl_handle *handle, const uint8_t *record, size_t length, const int32_t *verdicts, size_t count, uint8_t *entry,
                        size_t room, struct tbl_told *told);
uint8_t __wrap_tbl_step(struct tbl_handle *handle, const uint8_t *record, size_t length, const int32_t *verdicts, size_t count, uint8_t *entry,
                        size_t room, struct tbl_told *told);

/* How many sessions were opened, and whether the last one is still written. */
static int sessions;
static bool is_written;

/* The verdict of the program's function of a number (docs/use/sessions.md): the even ones look at the first byte, and the odd ones at the last. */
static int32_t verdict_of_program(uint8_t number, const uint8_t *image, size_t length)
{
    uint8_t all = 0;
    size_t at;

    if (number % 2 == 0) {
        return image[0] == 0 ? -5 : 0;
    }
    for (at = 0; at < length; at++) {
        all ^= image[at];
    }
    return all == 0 ? 0 : -7;
}

/* Appends bytes to the file of the last session with this ending. */
static void append(const char *ending, const void *bytes, size_t length)
{
    char path[512];
    FILE *file;

    snprintf(path, sizeof path, "%s/%d.%s", getenv("RECORDED"), sessions, ending);
    file = fopen(path, "ab");
    if (file == NULL || fwrite(bytes, 1, length, file) != length || fclose(file) != 0) {
        fprintf(stderr, "recorder: %s can't be written\n", path);
        abort();
    }
}

uint8_t __wrap_tbl_open(struct tbl_handle *handle, const uint8_t *bank, size_t size)
{
    sessions += 1;
    is_written = getenv("RECORDED") != NULL;
    if (is_written) {
        append("store", bank, size);
    }
    return __real_tbl_open(handle, bank, size);
}

uint8_t __wrap_tbl_step(struct tbl_handle *handle, const uint8_t *record, size_t length, const int32_t *verdicts, size_t count, uint8_t *entry,
                        size_t room, struct tbl_told *told)
{
    static int32_t wanted[TBL_QUESTIONS];
    uint8_t status = __real_tbl_step(handle, record, length, verdicts, count, entry, room, told);

    if (status == TBL_VERDICT_MISSING && count < TBL_QUESTIONS) {
        wanted[count] = verdict_of_program((uint8_t)told->number, entry, told->length);
    }
    is_written = is_written && memcmp(verdicts, wanted, count * sizeof *verdicts) == 0;
    if (status == TBL_OK && is_written) {
        append("session", record, length);
        append("entries", entry, told->length);
    }
    return status;
}
