/* SPDX-License-Identifier: Apache-2.0 */
/* damage.c: damages a block of the Critical Data Store, in the bytes that docs/reference/store.md lays out. */
#include "cfetbl_service.h"

#include <string.h>

bool cfetbl_damage(uint8_t *bank, const char *name)
{
    char field[CFETBL_FULL_NAME] = {0};
    bool is_found = false;
    int slot;

    memcpy(field, name, strlen(name) < sizeof field ? strlen(name) : sizeof field);
    for (slot = 0; slot < CFETBL_SLOTS; slot++) {
        const uint8_t *entry = bank + CFETBL_DIRECTORY + slot * CFETBL_ENTRY;
        uint32_t offset = cfetbl_number_at(entry + CFETBL_OFFSET_PLACE, 4), size = cfetbl_number_at(entry + CFETBL_BLOCK_SIZE_PLACE, 4);

        if (entry[0] != CFETBL_OPEN_GATE || memcmp(entry + CFETBL_NAME_PLACE, field, sizeof field) != 0) {
            continue;
        }
        if (size > 0 && size <= CFETBL_IMAGE_LIMIT && offset <= CFETBL_SECOND_PLACE - CFETBL_HEAD - size) {
            bank[offset + CFETBL_HEAD] ^= 0xFF;
            bank[CFETBL_SECOND_PLACE + offset + CFETBL_HEAD] ^= 0xFF;
            is_found = true;
        }
    }
    return is_found;
}
