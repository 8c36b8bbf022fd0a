/* SPDX-License-Identifier: Apache-2.0 */
/* crash_store.c: what a trouble in a write leaves in preserved memory, which docs/reference/store.md lays out, and in which words a write is told. */
#include "crash.h"

#include <stdio.h>
#include <string.h>

/* The bytes of a directory that is cleared, of the letters after the live byte, and of an entry after its gate. */
enum { DIRECTORY_LENGTH = CFETBL_SLOTS * CFETBL_ENTRY, LETTERS_LENGTH = 15, REST_OF_ENTRY = CFETBL_ENTRY - 1 };

/* How many turns there are, and the byte of the first one. */
enum { TURNS = 3, FIRST_TURN = 0xA0 };

static int turn_of(uint8_t byte)
{
    return byte >= FIRST_TURN && byte < FIRST_TURN + TURNS ? byte - FIRST_TURN : -1;
}

/* Which place of a block shows, 0 or 1, by its two turn bytes; -1 if none does. */
static int place_by(const uint8_t *turns)
{
    int first = turn_of(turns[0]), second = turn_of(turns[1]);

    if (first < 0) {
        return second < 0 ? -1 : 1;
    }
    return second == (first + 1) % TURNS ? 1 : 0;
}

static const uint8_t *entry_of(const uint8_t *bank, int slot)
{
    return bank + CFETBL_DIRECTORY + slot * CFETBL_ENTRY;
}

/* Where the place of a block begins. */
static uint32_t begin_of(const uint8_t *entry, int place)
{
    return cfetbl_number_at(entry + CFETBL_OFFSET_PLACE, 4) + (uint32_t)place * CFETBL_SECOND_PLACE;
}

/* A write into the store's places of blocks is a head and an image, and fits one of the open entries. */
int crash_copied_slot(const uint8_t *bank, const struct crash_piece *piece, int *shows)
{
    int slot;

    *shows = -1;
    if (piece->at < CFETBL_DIRECTORY + DIRECTORY_LENGTH) {
        return -1;
    }
    for (slot = 0; slot < CFETBL_SLOTS; slot++) {
        const uint8_t *entry = entry_of(bank, slot);
        uint32_t size = cfetbl_number_at(entry + CFETBL_BLOCK_SIZE_PLACE, 4);

        if (entry[0] == CFETBL_OPEN_GATE && size + CFETBL_HEAD == piece->length &&
            (piece->at == begin_of(entry, 0) || piece->at == begin_of(entry, 1))) {
            *shows = place_by(entry + CFETBL_TURNS_PLACE);
            return slot;
        }
    }
    return -1;
}

/* The place in its entry of a write into the directory; -1 if it is none. */
static int place_in_entry(const struct crash_piece *piece)
{
    if (piece->at < CFETBL_DIRECTORY || piece->at + piece->length > CFETBL_DIRECTORY + DIRECTORY_LENGTH || piece->length >= CFETBL_ENTRY) {
        return -1;
    }
    return (int)(piece->at - CFETBL_DIRECTORY) % CFETBL_ENTRY;
}

bool crash_is_turn(const struct crash_piece *piece)
{
    int place = place_in_entry(piece);

    return piece->length == 1 && (place == CFETBL_TURNS_PLACE || place == CFETBL_TURNS_PLACE + 1);
}

/* A store like cFE's has one place a block, and no turn bytes: head and image are written over those that show, in this order, and with
 * the last byte the new image is whole. That is what CFE_ES_CDSBlockWrite does: it writes the block's header with the new CRC, and then the
 * data. CFE_ES_RestoreFromCDS finds a block in which the two don't fit. */
void crash_write(uint8_t *bank, const struct crash_piece *piece, uint32_t after, bool is_like_cfe)
{
    uint32_t at = piece->at;
    int shows, slot;

    if (is_like_cfe && crash_is_turn(piece)) {
        after = piece->length;
    } else if (is_like_cfe && after < piece->length) {
        slot = crash_copied_slot(bank, piece, &shows);
        at = slot >= 0 && shows >= 0 ? begin_of(entry_of(bank, slot), shows) : at;
    }
    memcpy(bank + at, piece->bytes, after);
}

void crash_tear(uint8_t *bank, int slot, const struct crash_piece *piece, uint32_t after)
{
    const uint8_t *entry = entry_of(bank, slot);
    int shows = place_by(entry + CFETBL_TURNS_PLACE);

    if (shows >= 0) {
        memcpy(bank + begin_of(entry, shows), piece->bytes, after);
    }
}

/* ---- words */

static void say_named(char what[80], const char *words, const uint8_t *name)
{
    snprintf(what, 80, "%s of %.*s", words, CFETBL_FULL_NAME, (const char *)name);
}

static void say_in_entry(char what[80], const uint8_t *bank, const struct crash_piece *piece, int place)
{
    const uint8_t *name = entry_of(bank, (int)(piece->at - CFETBL_DIRECTORY) / CFETBL_ENTRY) + CFETBL_NAME_PLACE;

    if (place == 0) {
        say_named(what, piece->bytes[0] == CFETBL_OPEN_GATE ? "gate (opened)" : "gate (closed)", name);
    } else if (piece->length == REST_OF_ENTRY) {
        say_named(what, "entry", piece->bytes + CFETBL_NAME_PLACE - 1);
    } else {
        say_named(what, "turn byte", name);
    }
}

void crash_say_write(char what[80], const uint8_t *bank, const struct crash_piece *piece)
{
    int place = place_in_entry(piece), shows, slot = crash_copied_slot(bank, piece, &shows);

    if (slot >= 0) {
        say_named(what, "image", entry_of(bank, slot) + CFETBL_NAME_PLACE);
    } else if (place >= 0) {
        say_in_entry(what, bank, piece, place);
    } else if (piece->length == DIRECTORY_LENGTH) {
        snprintf(what, 80, "directory (cleared)");
    } else {
        snprintf(what, 80, piece->length == LETTERS_LENGTH ? "letters of the store" : "live byte");
    }
}
