/* SPDX-License-Identifier: Apache-2.0 */
/* files.c: what the file store has, by the commands and answers that put files there: the service has no request that gives a file. */
#include "cfetbl_service.h"

#include <stdlib.h>
#include <string.h>

/* Places in a command packet, its message ids, and the function codes that write files. */
enum { CODE_PLACE = 6, PAYLOAD_PLACE = 8, DUMP_FILE_PLACE = PAYLOAD_PLACE + 2 + CFETBL_FULL_NAME };
enum { COMMAND_ID = 0x1804, HOUSEKEEPING_ID = 0x180C, DUMP_CODE = 3, DUMP_REGISTRY_CODE = 6 };

/* Places in an event packet, and the events that are looked for. */
enum { LENGTH_PLACE = 4, NUMBER_PLACE = 12, ROW_PLACE = 18, DETAIL_PLACE = 20, EVENT_LENGTH = 24 };
enum { EVENT_ID = 0x0808, ACCEPTED = 1, WRITTEN = 7, NOT_WRITTEN = 8 };

static struct cfetbl_file *find(const struct cfetbl_files *files, const char *name)
{
    struct cfetbl_file *file = files->first;

    while (file != NULL && strcmp(file->name, name) != 0) {
        file = file->next;
    }
    return file;
}

const struct cfetbl_file *cfetbl_file_of(const struct cfetbl_files *files, const char *name)
{
    return find(files, name);
}

/* The file of a name, which is made if it isn't there, after those that are. */
static struct cfetbl_file *file_for(struct cfetbl_files *files, const char *name)
{
    struct cfetbl_file *file = find(files, name), **end = &files->first;

    if (file != NULL || (file = calloc(1, sizeof *file)) == NULL) {
        return file;
    }
    strncpy(file->name, name, CFETBL_FILE_NAME);
    while (*end != NULL) {
        end = &(*end)->next;
    }
    *end = file;
    return file;
}

bool cfetbl_keep_file(struct cfetbl_files *files, const char *name, const uint8_t *at, size_t size)
{
    struct cfetbl_file *file = file_for(files, name);
    uint8_t *copy = malloc(size + 1);

    if (file == NULL || copy == NULL) {
        free(copy);
        cfetbl_say("out of memory for the file %.64s, which CFETBL_GetFile doesn't find", name);
        return false;
    }
    if (size > 0) {
        memcpy(copy, at, size);
    }
    free(file->at);
    file->at = copy;
    file->size = size;
    return true;
}

/* A name field as a string. */
static void read_name(char name[CFETBL_FILE_NAME + 1], const uint8_t *field)
{
    memcpy(name, field, CFETBL_FILE_NAME);
    name[CFETBL_FILE_NAME] = 0;
}

/* The next event of this number in packets, or NULL; `at` and `length` go on after it. */
static const uint8_t *next_event(const uint8_t **at, size_t *length, uint32_t number, uint32_t other)
{
    while (*length > LENGTH_PLACE + 2) {
        const uint8_t *packet = *at;
        size_t whole = cfetbl_number_at(packet + LENGTH_PLACE, 2) + 7;

        if (whole > *length) {
            break;
        }
        *at += whole;
        *length -= whole;
        if (cfetbl_number_at(packet, 2) == EVENT_ID && whole == EVENT_LENGTH) {
            uint32_t found = cfetbl_number_at(packet + NUMBER_PLACE, 2);

            if (found == number || found == other) {
                return packet;
            }
        }
    }
    return NULL;
}

/* A dump that its table's owner has to fill keeps its file's name, by the row of the table. */
static void keep_asked(struct cfetbl_files *files, const char *name, const struct cfetbl_reply *reply)
{
    const uint8_t *at = reply->packets;
    size_t length = reply->packets_length;
    const uint8_t *event = next_event(&at, &length, ACCEPTED, ACCEPTED);
    uint32_t row = event == NULL ? CFETBL_ROWS : cfetbl_number_at(event + ROW_PLACE, 2);

    if (row < CFETBL_ROWS) {
        memcpy(files->dumps[row], name, CFETBL_FILE_NAME + 1);
    }
}

/* Housekeeping wrote the files of filled dumps, one after the other. */
static void keep_filled(struct cfetbl_files *files, const struct cfetbl_reply *reply)
{
    const uint8_t *at = reply->packets, *event;
    size_t length = reply->packets_length, from = 0;

    while ((event = next_event(&at, &length, WRITTEN, NOT_WRITTEN)) != NULL) {
        uint32_t row = cfetbl_number_at(event + ROW_PLACE, 2), size = cfetbl_number_at(event + DETAIL_PLACE, 4);

        if (row >= CFETBL_ROWS || cfetbl_number_at(event + NUMBER_PLACE, 2) != WRITTEN || from + size > reply->length) {
            continue;
        }
        (void)cfetbl_keep_file(files, files->dumps[row], reply->bytes + from, size);
        from += size;
    }
}

void cfetbl_keep_dumps(struct cfetbl_files *files, const uint8_t *packet, size_t length, const struct cfetbl_reply *reply)
{
    char name[CFETBL_FILE_NAME + 1];
    uint32_t id = cfetbl_number_at(packet, 2), code = packet[CODE_PLACE] & 0x7F;

    if (id == HOUSEKEEPING_ID) {
        keep_filled(files, reply);
    } else if (id == COMMAND_ID && code == DUMP_CODE && length == DUMP_FILE_PLACE + CFETBL_FILE_NAME) {
        read_name(name, packet + DUMP_FILE_PLACE);
        if (reply->length > 0) {
            (void)cfetbl_keep_file(files, name, reply->bytes, reply->length);
        } else {
            keep_asked(files, name, reply);
        }
    } else if (id == COMMAND_ID && code == DUMP_REGISTRY_CODE && length == PAYLOAD_PLACE + CFETBL_FILE_NAME) {
        read_name(name, packet + PAYLOAD_PLACE);
        (void)cfetbl_keep_file(files, name, reply->bytes, reply->length);
    }
}

void cfetbl_free_files(struct cfetbl_files *files)
{
    while (files->first != NULL) {
        struct cfetbl_file *file = files->first;

        files->first = file->next;
        free(file->at);
        free(file);
    }
    memset(files, 0, sizeof *files);
}
