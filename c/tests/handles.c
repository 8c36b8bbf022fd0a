/* SPDX-License-Identifier: Apache-2.0 */
/* handles.c: what tbl.h says of handles, and what is told where something is missing. */
#include "tbl.h"
#include "expect.h"

#include <stdlib.h>

enum { ROOM = 256, KIND_START = 0x10, KIND_REGISTER = 0x11, KIND_LOAD_IMAGE = 0x14, KIND_COMMAND = 0x01, SIZE = 4, COUNT = 20 };

static const uint8_t zeros[TBL_BANK_SIZE];
static const int32_t none[1];
static uint8_t entry[ROOM];
static struct tbl_told told;

/* A record of an application, or with 0 of the ground. */
static size_t record_of(uint8_t *record, uint8_t kind, uint8_t actor, const void *body, size_t length)
{
    record[0] = kind;
    record[1] = actor;
    record[2] = (uint8_t)(length >> 8);
    record[3] = (uint8_t)length;
    memcpy(record + 4, body, length);
    return 4 + length;
}

static uint8_t step(struct tbl_handle *handle, const uint8_t *record, size_t length, const int32_t *verdicts, size_t count)
{
    memset(&told, 0xEE, sizeof told);
    return tbl_step(handle, record, length, verdicts, count, entry, ROOM, &told);
}

/* The status of the request that an entry tells. */
static uint32_t status_in(const uint8_t *at)
{
    return (uint32_t)at[5] << 24 | (uint32_t)at[6] << 16 | (uint32_t)at[7] << 8 | at[8];
}

static uint8_t noop(struct tbl_handle *handle)
{
    static const uint8_t packet[] = {0x18, 0x04, 0xC0, 0, 0, 1, 0, 0x22};
    uint8_t record[12];
    size_t length = record_of(record, KIND_COMMAND, 0, packet, sizeof packet);

    return step(handle, record, length, none, 0);
}

static uint8_t start(struct tbl_handle *handle, uint8_t app, char name)
{
    uint8_t record[24], field[20] = {(uint8_t)name};
    size_t length = record_of(record, KIND_START, app, field, sizeof field);

    return step(handle, record, length, none, 0);
}

/* Registers a table of SIZE bytes with a validation function. */
static uint8_t register_table(struct tbl_handle *handle, uint8_t app, uint8_t function)
{
    uint8_t record[27], fields[23] = {'T', [19] = SIZE, [22] = function};
    size_t length = record_of(record, KIND_REGISTER, app, fields, sizeof fields);

    return step(handle, record, length, none, 0);
}

/* Loads an image of one byte all over into the table of handle 0. */
static uint8_t load(struct tbl_handle *handle, uint8_t app, uint8_t byte, const int32_t *verdicts, size_t count)
{
    uint8_t record[10], fields[6] = {0, 0};
    size_t length;

    memset(fields + 2, byte, SIZE);
    length = record_of(record, KIND_LOAD_IMAGE, app, fields, sizeof fields);
    return step(handle, record, length, verdicts, count);
}

/* Opens a handle that begins as zeros. */
static void open_handle(struct tbl_handle *handle)
{
    handle->at = NULL;
    EXPECT(tbl_open(handle, zeros, sizeof zeros) == TBL_OK && handle->at != NULL);
}

/* ---- closed handles */

static void test_closed(void)
{
    struct tbl_handle handle = {NULL};
    uint8_t bank[8] = {9};

    EXPECT(noop(&handle) == TBL_CLOSED && tbl_bank(&handle, 0, bank, sizeof bank) == TBL_CLOSED && bank[0] == 9);
    tbl_close(&handle);
    EXPECT(handle.at == NULL && tbl_open(&handle, zeros, sizeof zeros) == TBL_OK && noop(&handle) == TBL_OK);
    tbl_close(&handle);
    EXPECT(handle.at == NULL && noop(&handle) == TBL_CLOSED);
    tbl_close(&handle);
    EXPECT(handle.at == NULL);
}

static void test_opened_again(void)
{
    struct tbl_handle handle;

    open_handle(&handle);
    EXPECT(start(&handle, 1, 'A') == TBL_OK && status_in(entry) == 0);
    EXPECT(start(&handle, 1, 'A') == TBL_OK && status_in(entry) == 79);
    EXPECT(tbl_open(&handle, zeros, sizeof zeros) == TBL_OK);
    EXPECT(start(&handle, 1, 'A') == TBL_OK && status_in(entry) == 0 && entry[3] == 0);
    tbl_close(&handle);
}

static void test_bad_bank(void)
{
    struct tbl_handle handle;

    open_handle(&handle);
    EXPECT(tbl_open(&handle, zeros, sizeof zeros - 1) == TBL_BAD_BANK && noop(&handle) == TBL_CLOSED);
    EXPECT(tbl_open(&handle, zeros, 0) == TBL_BAD_BANK && handle.at == NULL);
}

/* ---- records */

static void test_records(void)
{
    static const uint8_t bad[] = {0x7F, 0, 0, 0}, two[] = {0x21, 1, 0, 0, 0x21, 1, 0, 0};
    struct tbl_handle handle;

    open_handle(&handle);
    EXPECT(step(&handle, bad, sizeof bad, none, 0) == TBL_BAD_RECORD && step(&handle, two, sizeof two, none, 0) == TBL_BAD_RECORD);
    EXPECT(step(&handle, two, 3, none, 0) == TBL_BAD_RECORD && step(&handle, two, 0, none, 0) == TBL_BAD_RECORD);
    EXPECT(noop(&handle) == TBL_OK && told.length == 21 + 24 && told.number == 0 && entry[3] == 0);
    EXPECT(step(&handle, two, 4, none, 0) == TBL_OK && entry[3] == 1 && status_in(entry) == 32);
    tbl_close(&handle);
}

/* An entry is copied as far as there is room. */
static void test_room(void)
{
    static const uint8_t leave[] = {0x21, 1, 0, 0};
    struct tbl_handle handle;
    uint8_t small[4] = {7, 7, 7, 7};

    open_handle(&handle);
    EXPECT(tbl_step(&handle, leave, sizeof leave, none, 0, small, 3, &told) == TBL_OK && told.length == 21);
    EXPECT(small[0] == 0 && small[2] == 0 && small[3] == 7);
    tbl_close(&handle);
}

/* ---- verdicts */

static void test_verdicts(void)
{
    static const int32_t refused[] = {-17}, accepted[] = {0, -1};
    struct tbl_handle handle;

    open_handle(&handle);
    EXPECT(start(&handle, 1, 'A') == TBL_OK && register_table(&handle, 1, 1) == TBL_OK && status_in(entry) == 0);
    EXPECT(load(&handle, 1, 5, none, 0) == TBL_VERDICT_MISSING && told.number == 1 && told.length == SIZE && entry[0] == 5 && entry[3] == 5);
    EXPECT(load(&handle, 1, 6, none, 0) == TBL_VERDICT_MISSING && entry[0] == 6);
    EXPECT(load(&handle, 1, 5, refused, 1) == TBL_OK && status_in(entry) == 58 && entry[3] == 2);
    EXPECT(load(&handle, 1, 5, none, 0) == TBL_VERDICT_MISSING); /* no verdict outlives its record */
    EXPECT(load(&handle, 1, 5, accepted, 2) == TBL_OK && status_in(entry) == 0);
    EXPECT(load(&handle, 1, 5, none, 0) == TBL_VERDICT_MISSING);
    EXPECT(load(&handle, 2, 5, none, 0) == TBL_OK && status_in(entry) != 0); /* a refusal asks nothing */
    EXPECT(noop(&handle) == TBL_OK);
    tbl_close(&handle);
}

/* ---- preserved memory */

static void test_bank(void)
{
    static uint8_t bank[TBL_BANK_SIZE];
    struct tbl_handle handle, other;
    uint8_t part[8] = {0};

    open_handle(&handle);
    EXPECT(tbl_bank(&handle, 0, bank, sizeof bank) == TBL_OK);
    EXPECT(tbl_bank(&handle, TBL_BANK_SIZE - 4, part, sizeof part) == TBL_OK && memcmp(part, bank + TBL_BANK_SIZE - 4, 4) == 0);
    EXPECT(tbl_bank(&handle, TBL_BANK_SIZE, part, sizeof part) == TBL_OK && tbl_bank(&handle, SIZE_MAX, part, sizeof part) == TBL_OK);
    open_handle(&other);
    EXPECT(tbl_open(&other, bank, sizeof bank) == TBL_OK && noop(&other) == TBL_OK);
    tbl_close(&other);
    tbl_close(&handle);
}

/* ---- several handles */

static void test_several(void)
{
    struct tbl_handle handles[COUNT];
    int n, round;

    for (n = 0; n < COUNT; n++) {
        open_handle(&handles[n]);
    }
    for (round = 0; round < 3; round++) {
        for (n = 0; n < COUNT; n++) {
            EXPECT(start(&handles[n], (uint8_t)(1 + round), (char)('A' + round)) == TBL_OK && status_in(entry) == 0 && entry[3] == round);
        }
    }
    for (n = COUNT - 1; n >= 0; n--) {
        tbl_close(&handles[n]);
        EXPECT(noop(&handles[n]) == TBL_CLOSED && (n == 0 || noop(&handles[n - 1]) == TBL_OK));
    }
}

int main(void)
{
    test_closed();
    test_opened_again();
    test_bad_bank();
    test_records();
    test_room();
    test_verdicts();
    test_bank();
    test_several();
    return expected();
}
