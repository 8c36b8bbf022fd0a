/* SPDX-License-Identifier: Apache-2.0 */
/* memory.c: the memory that applications point at, one image for each table, as cFE has it: all handles of a table get the same
 * address, and what one writes there is seen by all, with CFE_TBL_Modified or without.
 *
 * The service has images that don't change. So what was written in place is loaded into it as an image more, before the next call or
 * command: by an Edit of a dump-only table's owner, and else by a LoadImage of the table's owner, for which the handles that have an
 * address give it back and get it again. No validation function is asked about it, as in cFE. Nobody hears of such an image but by
 * CFE_TBL_Modified, and it isn't seen in what CFE_TBL_GetInfo gives. Of a critical table it waits for CFE_TBL_Modified, since cFE copies
 * the table into the Critical Data Store only then. While the service can't take it, for a load that is open, it stays in this memory:
 * applications see it there, and the ground once the service has it. */
#include "cfetbl_service.h"

#include <stdlib.h>
#include <string.h>

/* ---- images */

static struct cfetbl_image *image_of(size_t size, void *memory)
{
    struct cfetbl_image *image = calloc(1, sizeof *image);

    if (image == NULL) {
        return NULL;
    }
    image->holders = 1;
    image->is_users = memory != NULL;
    image->at = memory != NULL ? memory : malloc(size);
    image->played = calloc(1, size);
    if (image->at == NULL || image->played == NULL) {
        free(image->is_users ? NULL : image->at);
        free(image->played);
        free(image);
        return NULL;
    }
    return image;
}

static struct cfetbl_image *hold(struct cfetbl_image *image)
{
    image->holders += 1;
    return image;
}

static void let_go(struct cfetbl_image **held)
{
    struct cfetbl_image *image = *held;

    *held = NULL;
    if (image != NULL) {
        image->holders -= 1;
        if (image->holders == 0) {
            free(image->is_users ? NULL : image->at);
            free(image->played);
            free(image);
        }
    }
}

/* ---- tables and handles */

static struct cfetbl_table *find_table(struct cfetbl_service *service, const char *name)
{
    struct cfetbl_table *table = service->tables;

    while (table != NULL && (table->is_gone || strcmp(table->name, name) != 0)) {
        table = table->next;
    }
    return table;
}

const struct cfetbl_table *cfetbl_table_of(struct cfetbl_service *service, const char *name)
{
    return find_table(service, name);
}

struct cfetbl_handle *cfetbl_known(struct cfetbl_service *service, uint16_t number)
{
    struct cfetbl_handle *handle = number < CFETBL_HANDLES ? &service->handles[number] : NULL;

    return handle != NULL && handle->app != 0 && handle->app == cfetbl_app(service) ? handle : NULL;
}

static void free_table(struct cfetbl_service *service, struct cfetbl_table *table)
{
    struct cfetbl_table **at = &service->tables;

    while (*at != table) {
        at = &(*at)->next;
    }
    *at = table->next;
    let_go(&table->active);
    free(table);
}

static void keep(struct cfetbl_service *service, uint16_t number, struct cfetbl_table *table)
{
    struct cfetbl_handle *handle = &service->handles[number];

    cfetbl_forget_handle(service, number);
    handle->app = cfetbl_app(service);
    handle->table = table;
    table->users += 1;
}

/* A full name: that of the application, a dot, and the table's. */
static void put_full_name(char *to, const char *app, const char *name)
{
    size_t length = strlen(app), rest = strlen(name);

    memcpy(to, app, length);
    to[length] = '.';
    memcpy(to + length + 1, name, rest + 1);
}

bool cfetbl_reserve_table(struct cfetbl_service *service)
{
    if (service->spare == NULL) {
        service->spare = calloc(1, sizeof *service->spare);
    }
    if (service->spare == NULL) {
        cfetbl_say("out of memory for a table");
    }
    return service->spare != NULL;
}

void cfetbl_keep_registered(struct cfetbl_service *service, uint16_t number, const char *name, size_t size, uint16_t options,
                            bool is_recovered)
{
    struct cfetbl_table *table = service->spare;

    service->spare = NULL;
    put_full_name(table->name, service->apps[cfetbl_app(service)], name);
    table->size = size;
    table->owner = cfetbl_app(service);
    table->registered = number;
    table->is_double = (options & 0x0001) != 0;
    table->is_dump_only = (options & 0x0002) != 0;
    table->is_users = (options & 0x0004) != 0;
    table->is_critical = (options & 0x0008) != 0;
    table->current = table->is_dump_only || is_recovered ? 1 : 0; /* a dump-only one begins with zeros */
    table->next = service->tables;
    service->tables = table;
    keep(service, number, table);
}

void cfetbl_keep_shared(struct cfetbl_service *service, uint16_t number, const char *name)
{
    struct cfetbl_table *table = find_table(service, name);

    if (table != NULL) {
        keep(service, number, table);
    }
}

void cfetbl_forget_handle(struct cfetbl_service *service, uint16_t number)
{
    struct cfetbl_handle *handle = &service->handles[number];
    struct cfetbl_table *table = handle->table;

    let_go(&handle->pinned);
    memset(handle, 0, sizeof *handle);
    if (table != NULL) {
        table->users -= 1;
        table->is_gone = table->is_gone || table->registered == number;
        if (table->users == 0) {
            free_table(service, table);
        }
    }
}

void cfetbl_forget_handles(struct cfetbl_service *service, int app)
{
    int number;

    for (number = 0; number < CFETBL_HANDLES; number++) {
        if (app == 0 || service->handles[number].app == app) {
            cfetbl_forget_handle(service, (uint16_t)number);
        }
    }
}

/* ---- what the service has */

/* The registry record of a table, until the next request; NULL if none could be got. */
static const uint8_t *record_of(struct cfetbl_service *service, const struct cfetbl_table *table)
{
    struct cfetbl_record record = cfetbl_begin(service, CFETBL_KIND_GET_INFO, table->owner);

    cfetbl_put_name(&record, table->name, CFETBL_FULL_NAME);
    return cfetbl_play(service, record) == CFETBL_SUCCESS ? cfetbl_reply(service).bytes : NULL;
}

/* Places in an event packet, and the event that comes when an image goes active. */
enum { LENGTH_PLACE = 4, NUMBER_PLACE = 12, DETAIL_PLACE = 20, EVENT_LENGTH = 24, EVENT_ID = 0x0808, WENT_ACTIVE = 5 };

void cfetbl_count_image(struct cfetbl_service *service, uint16_t number, const struct cfetbl_reply *reply)
{
    const uint8_t *at = reply->packets, *end = at + reply->packets_length;

    while (end - at >= EVENT_LENGTH && number < CFETBL_HANDLES && service->handles[number].table != NULL) {
        if (cfetbl_number_at(at, 2) == EVENT_ID && cfetbl_number_at(at + NUMBER_PLACE, 2) == WENT_ACTIVE) {
            service->handles[number].table->current = cfetbl_number_at(at + DETAIL_PLACE, 4);
        }
        at += cfetbl_number_at(at + LENGTH_PLACE, 2) + 7;
    }
}

/* How many images a table told everybody of. */
static uint32_t told_of(const struct cfetbl_table *table)
{
    return table->current - table->quiet + table->modified;
}

/* A further image came into the table by a load: it has what it had before no more. */
static void renew(struct cfetbl_table *table)
{
    table->images = table->current;
    table->is_modified = false;
    table->is_shown = false;
}

/* Reads the image that a handle pins into the memory of its table: the same memory, or of a table with two buffers another one. */
static bool read_image(struct cfetbl_service *service, uint16_t number)
{
    struct cfetbl_handle *handle = &service->handles[number];
    struct cfetbl_table *table = handle->table;
    struct cfetbl_record record = cfetbl_begin(service, CFETBL_KIND_READ, handle->app);
    struct cfetbl_image *image = table->active;

    cfetbl_put_number(&record, number, 2);
    cfetbl_put_number(&record, 0, 4);
    cfetbl_put_number(&record, (uint32_t)table->size, 4);
    if (cfetbl_play(service, record) != CFETBL_SUCCESS) {
        return false;
    }
    if (image == NULL || table->is_double) {
        image = image_of(table->size, NULL);
        if (image == NULL) {
            cfetbl_say("out of memory for an image");
            return false;
        }
        let_go(&table->active);
        table->active = image;
    }
    memcpy(image->at, cfetbl_reply(service).bytes, table->size);
    memcpy(image->played, image->at, table->size);
    return true;
}

/* Has the memory of a table show the last image, which the handle pins. */
static bool show_last(struct cfetbl_service *service, uint16_t number)
{
    struct cfetbl_table *table = service->handles[number].table;

    if (table->active != NULL && table->current == table->images) {
        return true;
    }
    if (!table->is_users && !read_image(service, number)) {
        return false;
    }
    renew(table);
    return true;
}

/* ---- what was written in place */

/* Keeps what CFE_TBL_GetInfo gives from now on. */
static void keep_shown(struct cfetbl_table *table, const uint8_t *record)
{
    if (!table->is_shown) {
        table->shown.crc = cfetbl_number_at(record + CFETBL_RECORD_CRC, 4);
        table->shown.seconds = cfetbl_number_at(record + CFETBL_RECORD_SECONDS, 4);
        table->shown.subseconds = cfetbl_number_at(record + CFETBL_RECORD_SUBSECONDS, 2);
        memcpy(table->shown.file, record + CFETBL_RECORD_FILE, CFETBL_FILE_NAME);
        table->is_shown = true;
    }
}

/* All handles that have an address of the table give it back, or get it again. */
static void for_each_pin(struct cfetbl_service *service, const struct cfetbl_table *table, int kind)
{
    int number;

    for (number = 0; number < CFETBL_HANDLES; number++) {
        const struct cfetbl_handle *handle = &service->handles[number];

        if (handle->table == table && handle->pinned != NULL) {
            (void)cfetbl_play_handle(service, kind, handle->app, (uint16_t)number);
        }
    }
}

/* The bytes of an image that differ from those that the service has: from a place on, so many. */
static size_t changed(const struct cfetbl_table *table, size_t *from)
{
    const struct cfetbl_image *image = table->active;
    size_t end = table->size;

    *from = 0;
    if (memcmp(image->at, image->played, end) == 0) {
        return 0;
    }
    while (*from < end && image->at[*from] == image->played[*from]) {
        *from += 1;
    }
    while (end > *from && image->at[end - 1] == image->played[end - 1]) {
        end -= 1;
    }
    return end - *from;
}

static uint32_t play_image(struct cfetbl_service *service, const struct cfetbl_table *table)
{
    struct cfetbl_record record = cfetbl_begin(service, table->is_dump_only ? CFETBL_KIND_EDIT : CFETBL_KIND_LOAD_IMAGE, table->owner);
    size_t from = 0, length = table->size;
    uint32_t status;

    cfetbl_put_number(&record, table->registered, 2);
    if (table->is_dump_only) {
        length = changed(table, &from);
        cfetbl_put_number(&record, (uint32_t)from, 4);
    }
    cfetbl_put(&record, table->active->at + from, length);
    cfetbl_waive(service, true);
    status = cfetbl_play(service, record);
    cfetbl_waive(service, false);
    return status;
}

/* Brings the memory of a table into the service, if it takes it. */
static void bring_in_table(struct cfetbl_service *service, struct cfetbl_table *table)
{
    const uint8_t *record = record_of(service, table);
    uint32_t status;

    if (record == NULL || (record[CFETBL_RECORD_STATE] & CFETBL_LOAD_OPEN) != 0) {
        return;
    }
    keep_shown(table, record);
    for_each_pin(service, table, CFETBL_KIND_RELEASE);
    status = play_image(service, table);
    for_each_pin(service, table, CFETBL_KIND_GET);
    if (status == CFETBL_SUCCESS) {
        table->current += 1;
        table->images += 1;
        table->quiet += 1;
        table->is_modified = false;
        memcpy(table->active->played, table->active->at, table->size);
    }
}

void cfetbl_bring_in(struct cfetbl_service *service)
{
    struct cfetbl_table *table;
    size_t from;

    for (table = service->tables; table != NULL; table = table->next) {
        /* An image that came into the table meanwhile takes the place of what was written. */
        if (table->is_gone || table->active == NULL || table->current != table->images || (table->is_critical && !table->is_modified)) {
            continue;
        }
        if (changed(table, &from) > 0) {
            bring_in_table(service, table);
        } else {
            table->is_modified = false;
        }
    }
}

/* ---- addresses */

uint32_t cfetbl_get(struct cfetbl_service *service, uint16_t number, void **address)
{
    struct cfetbl_handle *handle = cfetbl_known(service, number);
    uint32_t status;

    if (handle != NULL && handle->table->is_users && handle->table->active == NULL && !handle->table->is_gone) {
        return CFETBL_ERR_NEVER_LOADED;
    }
    if (handle != NULL && handle->pinned != NULL) {
        /* cFE gives the address again, of what is the table's image by now. */
        (void)cfetbl_play_handle(service, CFETBL_KIND_RELEASE, handle->app, number);
    }
    status = cfetbl_ask_handle(service, CFETBL_KIND_GET, number);
    if ((status != CFETBL_SUCCESS && status != CFETBL_INFO_UPDATED) || handle == NULL) {
        return status;
    }
    let_go(&handle->pinned);
    if (!show_last(service, number)) {
        (void)cfetbl_play_handle(service, CFETBL_KIND_RELEASE, handle->app, number);
        return CFETBL_NOT_PLAYED;
    }
    handle->pinned = hold(handle->table->active);
    *address = handle->pinned->at;
    status = told_of(handle->table) > handle->told ? CFETBL_INFO_UPDATED : CFETBL_SUCCESS;
    handle->told = told_of(handle->table);
    return status;
}

uint32_t cfetbl_release(struct cfetbl_service *service, uint16_t number)
{
    uint32_t status = cfetbl_ask_handle(service, CFETBL_KIND_RELEASE, number);
    struct cfetbl_handle *handle = cfetbl_known(service, number);

    if (handle == NULL) {
        return status;
    }
    let_go(&handle->pinned);
    if (status == CFETBL_SUCCESS || status == CFETBL_INFO_UPDATED) {
        return told_of(handle->table) > handle->told ? CFETBL_INFO_UPDATED : CFETBL_SUCCESS;
    }
    return status;
}

/* Puts `(*)` after the name of a file; a name that fills its field gives its end for that. */
static void put_star(char file[CFETBL_FILE_NAME])
{
    size_t length = 0;

    while (length < CFETBL_FILE_NAME && file[length] != 0) {
        length += 1;
    }
    if (length > CFETBL_FILE_NAME - 4) {
        length = CFETBL_FILE_NAME - 4;
    }
    memcpy(file + length, "(*)", 4);
}

/* The check word of an image: CRC-16/ARC. */
static uint32_t check_word(const uint8_t *at, size_t size)
{
    uint32_t word = 0;
    int bit;

    for (; size > 0; size -= 1, at += 1) {
        word ^= *at;
        for (bit = 0; bit < 8; bit++) {
            word = (word & 1) != 0 ? word >> 1 ^ 0xA001 : word >> 1;
        }
    }
    return word;
}

uint32_t cfetbl_modified(struct cfetbl_service *service, uint16_t number)
{
    uint32_t status = cfetbl_ask_handle(service, CFETBL_KIND_GET_STATUS, number);
    struct cfetbl_handle *handle = cfetbl_known(service, number);
    struct cfetbl_table *table;
    const uint8_t *record;

    if (handle == NULL || handle->table->active == NULL || handle->table->current != handle->table->images || status > 31) {
        return status;
    }
    table = handle->table;
    record = record_of(service, table);
    if (record == NULL) {
        return status;
    }
    keep_shown(table, record);
    put_star(table->shown.file);
    table->shown.crc = check_word(table->active->at, table->size);
    table->shown.seconds = service->seconds;
    table->shown.subseconds = service->subseconds;
    table->is_modified = true;
    table->modified += 1;
    handle->told += 1;
    cfetbl_bring_in(service);
    return status;
}

uint32_t cfetbl_use_memory(struct cfetbl_service *service, uint16_t number, void *memory)
{
    uint32_t status = cfetbl_ask_handle(service, CFETBL_KIND_GET_STATUS, number);
    struct cfetbl_handle *handle = cfetbl_known(service, number);
    struct cfetbl_image *image;
    const uint8_t *record;

    if (handle == NULL || status > 31) {
        return status;
    }
    image = image_of(handle->table->size, memory);
    record = image == NULL ? NULL : record_of(service, handle->table);
    if (record == NULL) {
        let_go(&image);
        return CFETBL_NOT_PLAYED;
    }
    if (handle->table->active != NULL) {
        memcpy(image->played, handle->table->active->played, handle->table->size);
    }
    let_go(&handle->table->active);
    handle->table->active = image;
    renew(handle->table);
    handle->table->modified += 1;
    keep_shown(handle->table, record);
    handle->table->shown.crc = check_word(memory, handle->table->size);
    handle->table->shown.seconds = service->seconds;
    handle->table->shown.subseconds = service->subseconds;
    cfetbl_bring_in(service);
    return CFETBL_SUCCESS;
}

const struct cfetbl_shown *cfetbl_shown_of(struct cfetbl_service *service, const char *name)
{
    const struct cfetbl_table *table = find_table(service, name);

    return table != NULL && table->current == table->images && table->is_shown ? &table->shown : NULL;
}
