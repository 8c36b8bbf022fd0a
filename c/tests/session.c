/* SPDX-License-Identifier: Apache-2.0 */
/* session.c: plays the session on standard input through tbl.h, a record at a time, with the two validation functions that the
 * program has for each application, and writes the entries to standard output. Its status is that of the last tbl_step. */
#include "tbl.h"

#include <stdio.h>
#include <stdlib.h>
#include <string.h>

/* The function of an even number looks at the first byte. */
static int32_t first_byte(const uint8_t *image, size_t length)
{
    return length == 0 || image[0] == 0 ? -5 : 0;
}

/* That of an odd one accepts an image whose last byte is the exclusive or of all bytes before it. */
static int32_t last_xor(const uint8_t *image, size_t length)
{
    uint8_t sum = 0;
    size_t place;

    for (place = 0; place + 1 < length; place++) {
        sum ^= image[place];
    }
    return length == 0 || image[length - 1] == sum ? 0 : -7;
}

static int32_t judge(uint32_t number, const uint8_t *image, size_t length)
{
    return number % 2 == 0 ? first_byte(image, length) : last_xor(image, length);
}

/* All of standard input. */
static uint8_t *read_all(size_t *length)
{
    size_t room = 65536, got;
    uint8_t *bytes = malloc(room);

    *length = 0;
    while (bytes != NULL && (got = fread(bytes + *length, 1, room - *length, stdin)) > 0) {
        *length += got;
        if (*length == room) {
            uint8_t *more = realloc(bytes, room * 2);

            if (more == NULL) {
                free(bytes);
                return NULL;
            }
            bytes = more;
            room *= 2;
        }
    }
    return bytes;
}

/* Room for the longest entry. */
enum { ROOM = 2162688 };

/* Plays one record, with all verdicts that it needs, and writes its entry. */
static int step(struct tbl_handle *handle, const uint8_t *record, size_t length, uint8_t *entry)
{
    int32_t verdicts[TBL_QUESTIONS];
    struct tbl_told told;
    size_t count = 0;
    int status;

    while ((status = tbl_step(handle, record, length, verdicts, count, entry, ROOM, &told)) == TBL_VERDICT_MISSING && count < TBL_QUESTIONS) {
        verdicts[count] = judge(told.number, entry, told.length);
        count += 1;
    }
    if (status == TBL_OK) {
        fwrite(entry, 1, told.length, stdout);
    }
    return status;
}

/* How many bytes the record at the front has, or those that are left of it. */
static size_t record_length(const uint8_t *bytes, size_t left)
{
    size_t length = left < 4 ? left : 4 + ((size_t)bytes[2] << 8 | bytes[3]);

    return length < left ? length : left;
}

static int play(struct tbl_handle *handle, const uint8_t *bytes, size_t length)
{
    uint8_t *entry = malloc(ROOM);
    size_t at = 0;
    int status = entry == NULL ? TBL_NO_MEMORY : TBL_OK;

    while (status == TBL_OK && at < length) {
        size_t used = record_length(bytes + at, length - at);

        status = step(handle, bytes + at, used, entry);
        at += used;
    }
    free(entry);
    return status;
}

int main(void)
{
    static const uint8_t bank[TBL_BANK_SIZE];
    struct tbl_handle handle = {NULL};
    size_t length;
    uint8_t *bytes = read_all(&length);
    int status = bytes == NULL ? TBL_NO_MEMORY : tbl_open(&handle, bank, sizeof bank);

    if (status == TBL_OK) {
        status = play(&handle, bytes, length);
    }
    tbl_close(&handle);
    free(bytes);
    return status;
}
