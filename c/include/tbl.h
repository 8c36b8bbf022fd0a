/* SPDX-License-Identifier: Apache-2.0 */
/* tbl.h: the table service for C, a request at a time. But for tbl_is_proved and tbl_validator_app these are the functions of the proved crate
 * tbl_c as it exports them, with no C between: docs/proof/README.md says what is proved of them.
 *
 * A handle holds a service. tbl_open boots one over preserved memory; tbl_step plays one record, as docs/reference/records.md lays it out, and tells
 * the entry that a transcript has for it; tbl_close frees all. A service takes as much memory after a million records as after ten, and
 * has no last one.
 *
 * No function of the application is called. If a validation function has to judge an image, tbl_step plays nothing, and tells which
 * function and which image. The caller asks it, and calls tbl_step again with the verdict.
 *
 * What the caller owes, since no contract can ask it of C:
 * - a handle begins as zeros, is written by these functions alone, and isn't copied;
 * - one call at a time is made with a handle, and one thread's call comes after another's (by a lock, or the other thread's end);
 * - no address is NULL, also of no bytes, and what a call writes is no other argument of it;
 * - a handle is closed before its memory goes.
 * A handle that is closed may be stepped, which gives TBL_CLOSED, closed once more, which does nothing, and opened again. */
#ifndef TBL_H
#define TBL_H

#include <stdbool.h>
#include <stddef.h>
#include <stdint.h>

#include "cfetbl_version.h"

#ifdef __cplusplus
extern "C" {
#endif

/* How many bytes preserved memory has. */
#define TBL_BANK_SIZE 262144u

/* The most bytes of an image. */
#define TBL_IMAGE_LIMIT 16384u

/* The number of a registration without a validation function. */
#define TBL_NO_VALIDATOR 0xFFu

/* How many numbers validation functions have, from 0 on. */
#define TBL_VALIDATORS 240u

/* How many images one record has judged at most. */
#define TBL_QUESTIONS 2u

/* How a call ended. But for TBL_OK and TBL_UNTOLD, TBL_BOOT_FAULT and TBL_BOOT_STOPPED of tbl_step, nothing was changed. */
enum tbl_status {
    TBL_OK = 0,
    TBL_NO_MEMORY = 1,        /* out of memory */
    TBL_BAD_RECORD = 5,       /* the bytes are no record, a part of one, or more than one */
    TBL_BOOT_FAULT = 7,       /* preserved memory failed in a boot */
    TBL_BOOT_STOPPED = 8,     /* a reset came into a boot */
    TBL_FULL = 13,            /* a table has had 4,294,967,293 images */
    TBL_VERDICT_MISSING = 16, /* a validation function has to judge an image first */
    TBL_BAD_BANK = 17,        /* preserved memory has another size than TBL_BANK_SIZE */
    TBL_CLOSED = 18,          /* the handle is closed */
    TBL_ENDED = 19,           /* a boot failed or was stopped before: nothing is played any more */
    TBL_UNTOLD = 20           /* the record was played, and memory ran out for its entry */
};

struct tbl_handle {
    void *at;
};

/* What tbl_step tells beside bytes: how many bytes the entry has, and 0; with TBL_VERDICT_MISSING how many the image has, and the number of
 * the validation function that has to judge it. */
struct tbl_told {
    size_t length;
    uint32_t number;
};

/* A write of preserved memory that is to break off: its number, counted from 1; after how many of its bytes, and the whole write if it has
 * fewer; and whether a reset of the processor comes then (true) or the memory fails (false). */
struct tbl_write_break {
    uint32_t write;
    uint32_t after;
    bool stop;
};

/* What became of writes: how many were made, those included that broke off; how many failed, and how many a reset stopped; where the last of
 * those begins that broke off, and how many bytes it has (0 and 0 if none did). */
struct tbl_write_counts {
    uint64_t made;
    uint64_t faults;
    uint64_t stops;
    uint32_t at;
    uint32_t length;
};

/* Opens a handle over a copy of these bytes of preserved memory, of which there are TBL_BANK_SIZE, and boots as after a reset of the
 * processor. A handle that is open is closed first. TBL_OK, TBL_NO_MEMORY, TBL_BOOT_FAULT, TBL_BOOT_STOPPED, TBL_BAD_BANK. */
uint8_t tbl_open(struct tbl_handle *handle, const uint8_t *bank, size_t size);

/* Plays one record with the verdicts of validation functions on the images that it has judged, in the order in which it has them judged. It
 * copies as much of the entry as there is room for. With TBL_VERDICT_MISSING it copies of the first image without a verdict, and nothing
 * was played. */
uint8_t tbl_step(struct tbl_handle *handle, const uint8_t *record, size_t length, const int32_t *verdicts, size_t count, uint8_t *entry,
                 size_t room, struct tbl_told *told);

/* Copies preserved memory as it is now, from a place on, as much of it as there is room for. TBL_OK, TBL_CLOSED. */
uint8_t tbl_bank(struct tbl_handle *handle, size_t from, uint8_t *bytes, size_t room);

/* Has these writes of preserved memory break off, and no others. They are counted from the next one on. A reset that comes so into a request
 * is told by its entry, as a transcript has it; the service boots, and goes on. TBL_OK, TBL_NO_MEMORY (what was to break off, still is),
 * TBL_CLOSED. */
uint8_t tbl_break(struct tbl_handle *handle, const struct tbl_write_break *breaks, size_t count);

/* Tells what became of the writes of preserved memory since tbl_open or tbl_break. TBL_OK, TBL_CLOSED. */
uint8_t tbl_writes(struct tbl_handle *handle, struct tbl_write_counts *counts);

/* Has a handle hold a copy of what another holds, with the same answer to whatever comes: tbl_copy(handle, snapshot) takes a snapshot, and
 * tbl_copy(snapshot, handle) goes back to it. What tbl_break said isn't copied. TBL_OK; TBL_NO_MEMORY, TBL_CLOSED (of the first), and then
 * nothing is changed. */
uint8_t tbl_copy(struct tbl_handle *from, struct tbl_handle *to);

/* Closes a handle, and frees all that it holds. */
void tbl_close(struct tbl_handle *handle);

/* Whether these functions are the proved ones, and no build without proofs. */
int tbl_is_proved(void);

/* Which application, from 1 to 16, has the validation function of this number, below TBL_VALIDATORS. */
uint8_t tbl_validator_app(uint8_t number);

#ifdef __cplusplus
}
#endif

#endif
