/* SPDX-License-Identifier: Apache-2.0 */
/* snapshots.c: what tbl.h says of copies of a handle, and of writes of preserved memory that break off. */
#include "tbl.h"
#include "expect.h"

enum { ROOM = 256, KIND_START = 0x10, KIND_CDS_REGISTER = 0x30, KIND_CDS_COPY = 0x31, KIND_CDS_RESTORE = 0x32, SIZE = 4, DONE = 0, STOPPED = 10, FAULT = 76 };

static const uint8_t zeros[TBL_BANK_SIZE];
static const int32_t none[1];
static uint8_t entry[ROOM];
static struct tbl_told told;

/* Plays a record of application 1, and gives the status of its request. */
static uint32_t play(struct tbl_handle *handle, uint8_t kind, const void *body, size_t length)
{
    uint8_t record[64] = {kind, 1, 0, (uint8_t)length};

    memcpy(record + 4, body, length);
    memset(entry, 0, sizeof entry);
    EXPECT(tbl_step(handle, record, 4 + length, none, 0, entry, ROOM, &told) == TBL_OK);
    return (uint32_t)entry[5] << 24 | (uint32_t)entry[6] << 16 | (uint32_t)entry[7] << 8 | entry[8];
}

/* Opens a handle in which application 1 runs. */
static void open_handle(struct tbl_handle *handle, const uint8_t *bank)
{
    static const uint8_t name[20] = {'A'};

    handle->at = NULL;
    EXPECT(tbl_open(handle, bank, TBL_BANK_SIZE) == TBL_OK && play(handle, KIND_START, name, sizeof name) == DONE);
}

static uint32_t register_block(struct tbl_handle *handle)
{
    static const uint8_t body[20] = {'B', [19] = SIZE};

    return play(handle, KIND_CDS_REGISTER, body, sizeof body);
}

static uint32_t copy_block(struct tbl_handle *handle, uint8_t byte)
{
    const uint8_t body[2 + SIZE] = {0, 0, byte, byte, byte, byte};

    return play(handle, KIND_CDS_COPY, body, sizeof body);
}

/* The byte that the block has all over, or 0 where it gives none. */
static uint8_t restored(struct tbl_handle *handle)
{
    static const uint8_t slot[2];

    return play(handle, KIND_CDS_RESTORE, slot, sizeof slot) == DONE ? entry[17] : 0;
}

/* ---- copies */

static void test_copy(void)
{
    struct tbl_handle handle, snapshot = {NULL};

    open_handle(&handle, zeros);
    EXPECT(register_block(&handle) == DONE && copy_block(&handle, 5) == DONE);
    EXPECT(tbl_copy(&handle, &snapshot) == TBL_OK && snapshot.at != NULL && snapshot.at != handle.at);
    EXPECT(copy_block(&handle, 6) == DONE && entry[3] == 3 && restored(&handle) == 6);
    EXPECT(restored(&snapshot) == 5 && entry[3] == 3); /* the snapshot goes on from its own place */
    EXPECT(tbl_copy(&snapshot, &handle) == TBL_OK && restored(&handle) == 5 && entry[3] == 4);
    tbl_close(&handle);
    EXPECT(restored(&snapshot) == 5);
    EXPECT(tbl_copy(&handle, &snapshot) == TBL_CLOSED && restored(&snapshot) == 5);
    tbl_close(&snapshot);
}

/* ---- writes that break off */

static void test_nothing_breaks(void)
{
    struct tbl_write_counts counts = {9, 9, 9, 9, 9};
    struct tbl_handle handle = {NULL};

    EXPECT(tbl_writes(&handle, &counts) == TBL_CLOSED && counts.made == 9 && tbl_break(&handle, NULL, 0) == TBL_CLOSED);
    open_handle(&handle, zeros);
    EXPECT(tbl_writes(&handle, &counts) == TBL_OK && counts.made > 0 && counts.faults == 0 && counts.stops == 0 && counts.length == 0);
    EXPECT(tbl_break(&handle, &(struct tbl_write_break){1, 0, true}, 0) == TBL_OK && register_block(&handle) == DONE);
    EXPECT(tbl_writes(&handle, &counts) == TBL_OK && counts.made > 0 && counts.stops == 0);
    tbl_close(&handle);
}

/* A reset comes into a copy: in its image, and in the byte by which the image shows. */
static void test_stops(void)
{
    static const struct tbl_write_break image = {1, 2, true}, turn = {2, 1, true};
    struct tbl_write_counts counts;
    struct tbl_handle handle;

    open_handle(&handle, zeros);
    EXPECT(register_block(&handle) == DONE && copy_block(&handle, 5) == DONE);
    EXPECT(tbl_break(&handle, &image, 1) == TBL_OK && copy_block(&handle, 7) == STOPPED);
    EXPECT(tbl_writes(&handle, &counts) == TBL_OK && counts.stops == 1 && counts.faults == 0 && counts.length == 8 + SIZE && counts.at > 0);
    (void)register_block(&handle); /* the application runs on, and has its block again */
    EXPECT(restored(&handle) == 5);
    EXPECT(tbl_break(&handle, &turn, 1) == TBL_OK && copy_block(&handle, 7) == STOPPED);
    EXPECT(tbl_writes(&handle, &counts) == TBL_OK && counts.stops == 1 && counts.length == 1);
    (void)register_block(&handle);
    EXPECT(restored(&handle) == 7);
    tbl_close(&handle);
}

/* Two resets, of which the second comes into the boot after the first: nothing is played any more, and preserved memory is there. */
static void test_stop_in_boot(void)
{
    static const struct tbl_write_break both[] = {{1, 2, true}, {2, 0, true}};
    static uint8_t bank[TBL_BANK_SIZE];
    struct tbl_handle handle;
    uint32_t status;

    open_handle(&handle, zeros);
    EXPECT(register_block(&handle) == DONE && copy_block(&handle, 5) == DONE);
    EXPECT(tbl_break(&handle, both, 2) == TBL_OK);
    status = copy_block(&handle, 7);
    EXPECT(status == STOPPED && tbl_bank(&handle, 0, bank, sizeof bank) == TBL_OK);
    tbl_close(&handle);
    open_handle(&handle, bank);
    (void)register_block(&handle);
    EXPECT(restored(&handle) == 5);
    tbl_close(&handle);
}

static void test_fault(void)
{
    static const struct tbl_write_break fails = {1, 0, false};
    struct tbl_write_counts counts;
    struct tbl_handle handle;

    open_handle(&handle, zeros);
    EXPECT(register_block(&handle) == DONE && copy_block(&handle, 5) == DONE);
    EXPECT(tbl_break(&handle, &fails, 1) == TBL_OK && copy_block(&handle, 7) == FAULT);
    EXPECT(tbl_writes(&handle, &counts) == TBL_OK && counts.faults == 1 && counts.stops == 0);
    EXPECT(restored(&handle) == 5 && copy_block(&handle, 8) == DONE && restored(&handle) == 8);
    tbl_close(&handle);
}

int main(void)
{
    test_copy();
    test_nothing_breaks();
    test_stops();
    test_stop_in_boot();
    test_fault();
    return expected();
}
