/* SPDX-License-Identifier: Apache-2.0 */
/* Calls of the library for C, so many in a row, for tools/develop/bench: it prints the nanoseconds of processor time that one takes, and the kilobytes
   that the process had at most, as Linux tells them.

       calls COUNT CALL        by cfetbl.h, of the calls that are named below
       calls COUNT FIRST       by tbl.h: the records on standard input, of which the first so many come once, and the others in turn

   A number other than 0 is the status of what went otherwise. */
#define _XOPEN_SOURCE 600
#include "cfetbl.h"
#include "tbl.h"

#include <stdio.h>
#include <stdlib.h>
#include <string.h>
#include <time.h>

enum { SIZE = 64, MOST_INPUT = 1 << 20, MOST_ENTRY = 65536, FAILED = 2, WRONG_USE = 3 };

static double now(void)
{
    struct timespec time;

    clock_gettime(CLOCK_PROCESS_CPUTIME_ID, &time);
    return (double)time.tv_sec * 1e9 + (double)time.tv_nsec;
}

static long kilobytes(void)
{
    FILE *status = fopen("/proc/self/status", "r");
    char line[128];
    long most = 0;

    while (status != NULL && most == 0 && fgets(line, sizeof line, status) != NULL) {
        (void)sscanf(line, "VmHWM: %ld", &most);
    }
    if (status != NULL) {
        fclose(status);
    }
    return most;
}

static int told(double nanoseconds, unsigned long count)
{
    printf("%.1f %ld\n", nanoseconds / (double)count, kilobytes());
    return 0;
}

/* ---- by cfetbl.h */

static CFE_TBL_Handle_t table;
static const uint8_t image[SIZE] = {1};

static bool noop(void)
{
    struct CFETBL_Event event;

    return CFETBL_NoopCmd() == CFETBL_SUCCESS && CFETBL_NextEvent(&event);
}

static bool get_status(void)
{
    return CFE_TBL_GetStatus(table) == CFE_SUCCESS;
}

static bool load(void)
{
    struct CFETBL_Event event;

    return CFE_TBL_Load(table, CFE_TBL_SRC_ADDRESS, image) == CFE_SUCCESS && CFETBL_NextEvent(&event);
}

static bool get_and_release(void)
{
    void *address;

    return CFE_TBL_GetAddress(&address, table) >= CFE_SUCCESS && CFE_TBL_ReleaseAddress(table) == CFE_SUCCESS;
}

static const struct {
    const char *name;
    bool (*call)(void);
} calls[] = {{"noop", noop}, {"get-status", get_status}, {"load", load}, {"get-and-release", get_and_release}};

static int time_calls(unsigned long count, bool (*call)(void))
{
    unsigned long n;
    double begun;

    if (!CFETBL_Open(NULL) || !CFETBL_StartApp(1, "A") ||
        CFE_TBL_Register(&table, "T", SIZE, CFE_TBL_OPT_DEFAULT, NULL) != CFE_SUCCESS || !load() || !get_and_release()) {
        return FAILED;
    }
    begun = now();
    for (n = 0; n < count; n++) {
        if (!call()) {
            return FAILED;
        }
    }
    return told(now() - begun, count);
}

/* ---- by tbl.h */

/* Records as they stand one after the other. */
struct records {
    const uint8_t *at;
    size_t length;
};

static size_t length_of(const uint8_t *record)
{
    return 4 + ((size_t)record[2] << 8 | record[3]);
}

/* Plays the record at a place, and moves on to the one after it. */
static bool play(struct tbl_handle *handle, const struct records *records, size_t *place)
{
    static uint8_t entry[MOST_ENTRY];
    static const int32_t none[1];
    size_t length = length_of(records->at + *place);
    struct tbl_told told;
    uint8_t status = tbl_step(handle, records->at + *place, length, none, 0, entry, sizeof entry, &told);

    *place += length;
    return status == TBL_OK;
}

static int time_records(unsigned long count, unsigned long first, const struct records *records)
{
    static const uint8_t bank[TBL_BANK_SIZE];
    struct tbl_handle handle = {NULL};
    size_t place = 0, again;
    unsigned long n;
    double begun;

    if (tbl_open(&handle, bank, sizeof bank) != TBL_OK) {
        return FAILED;
    }
    for (n = 0; n < first; n++) {
        if (!play(&handle, records, &place)) {
            return FAILED;
        }
    }
    again = place;
    begun = now();
    for (n = 0; n < count; n++) {
        if (place == records->length) {
            place = again;
        }
        if (!play(&handle, records, &place)) {
            return FAILED;
        }
    }
    return told(now() - begun, count);
}

int main(int words, char **word)
{
    static uint8_t input[MOST_INPUT];
    unsigned long count = words == 3 ? strtoul(word[1], NULL, 10) : 0;
    struct records records = {input, 0};
    size_t n;

    if (count == 0) {
        return WRONG_USE;
    }
    for (n = 0; n < sizeof calls / sizeof calls[0]; n++) {
        if (strcmp(word[2], calls[n].name) == 0) {
            return time_calls(count, calls[n].call);
        }
    }
    records.length = fread(input, 1, sizeof input, stdin);
    return time_records(count, strtoul(word[2], NULL, 10), &records);
}
