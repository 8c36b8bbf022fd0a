/* SPDX-License-Identifier: Apache-2.0 */
/* control.c: what tests call: they play cFE and the ground. */
#include "cfetbl.h"
#include "cfetbl_service.h"

#include <errno.h>
#include <stdio.h>
#include <stdlib.h>
#include <string.h>

/* The library's, in cfetbl_tbl.c. */
extern const struct CFETBL_Headers cfetbl_headers;

/* ---- the service */

bool cfetbl_has_headers(const char *function, const struct CFETBL_Headers *headers)
{
    if (headers->info != cfetbl_headers.info) {
        cfetbl_say("%s: CFE_TBL_Info_t has %u bytes in the test and %u in the library: compile cfetbl.c with the test's headers of cFE",
                   function, (unsigned)headers->info, (unsigned)cfetbl_headers.info);
        return false;
    }
    if (memcmp(headers, &cfetbl_headers, sizeof *headers) != 0) {
        cfetbl_say("%s: handles or sizes have other types in the test than in the library: compile cfetbl.c with the test's headers of "
                   "cFE",
                   function);
        return false;
    }
    return true;
}

bool CFETBL_OpenFor(const void *bank, const struct CFETBL_Headers *headers)
{
    if (cfetbl_watch != NULL) {
        cfetbl_watch->forbidden("CFETBL_Open");
    }
    return cfetbl_has_headers("CFETBL_Open", headers) && cfetbl_open(bank);
}

void CFETBL_Close(void)
{
    struct cfetbl_service *service = cfetbl_enter_if_on();

    if (service == NULL) {
        return;
    }
    if (cfetbl_watch != NULL) {
        cfetbl_watch->forbidden("CFETBL_Close");
    }
    if (!cfetbl_is_judging(service, "CFETBL_Close")) {
        cfetbl_close(service);
    }
    cfetbl_leave();
}

const void *CFETBL_Bank(void)
{
    struct cfetbl_service *service = cfetbl_enter("CFETBL_Bank");
    const void *bank;

    if (service == NULL) {
        return NULL;
    }
    cfetbl_bring_in(service);
    bank = cfetbl_bank(service);
    cfetbl_leave();
    return bank;
}

uint64_t CFETBL_Session(void)
{
    struct cfetbl_service *service = cfetbl_enter_if_on();
    uint64_t serial = service == NULL ? 0 : service->serial;

    if (service != NULL) {
        cfetbl_leave();
    }
    return serial;
}

bool CFETBL_Join(uint64_t session)
{
    return cfetbl_join(session);
}

bool CFETBL_IsProved(void)
{
    return cfetbl_is_proved();
}

const char *CFETBL_LastMessage(void)
{
    return cfetbl_message();
}

/* ---- applications */

/* Begins a function of a test that makes a request: what was written in place comes into the service, and the last answer goes. */
static struct cfetbl_service *begin(const char *function)
{
    struct cfetbl_service *service = cfetbl_enter(function);

    if (service != NULL) {
        cfetbl_forget_answer(service);
        cfetbl_bring_in(service);
    }
    return service;
}

/* Ends it, and says why if the request was refused. */
static bool end(const char *function, uint32_t status)
{
    cfetbl_leave();
    if (status != CFETBL_SUCCESS && status != CFETBL_NOT_PLAYED) {
        cfetbl_say("%s: refused with status %u of docs/reference/statuses.md", function, (unsigned)status);
    }
    return status == CFETBL_SUCCESS;
}

/* Whether a name is there and its field holds it. */
static bool is_fit(const char *function, const char *name, size_t width)
{
    if (name == NULL) {
        cfetbl_say("%s: a name is missing", function);
    } else if (strlen(name) > width) {
        cfetbl_say("%s: the name %.80s has more than %u bytes", function, name, (unsigned)width);
    } else {
        return true;
    }
    return false;
}

static bool is_app(const char *function, int app)
{
    if (app < 1 || app > CFETBL_APPS) {
        cfetbl_say("%s: applications have numbers from 1 to %d, and %d is none", function, CFETBL_APPS, app);
    }
    return app >= 1 && app <= CFETBL_APPS;
}

bool CFETBL_StartApp(int app, const char *name)
{
    struct cfetbl_service *service;
    struct cfetbl_record record;
    uint32_t status;

    if (!is_app("CFETBL_StartApp", app) || !is_fit("CFETBL_StartApp", name, CFETBL_APP_NAME)) {
        return false;
    }
    service = begin("CFETBL_StartApp");
    if (service == NULL) {
        return false;
    }
    record = cfetbl_begin(service, CFETBL_KIND_START, app);
    cfetbl_put_name(&record, name, CFETBL_APP_NAME);
    status = cfetbl_ask(service, record);
    if (status == CFETBL_SUCCESS) {
        strcpy(service->apps[app], name);
        cfetbl_use_app(service, app);
    }
    return end("CFETBL_StartApp", status);
}

void CFETBL_UseApp(int app)
{
    struct cfetbl_service *service = is_app("CFETBL_UseApp", app) ? cfetbl_enter("CFETBL_UseApp") : NULL;

    if (service != NULL) {
        cfetbl_use_app(service, app);
        cfetbl_leave();
    }
}

bool CFETBL_ExitApp(void)
{
    struct cfetbl_service *service = begin("CFETBL_ExitApp");
    uint32_t status;
    int app;

    if (service == NULL) {
        return false;
    }
    if (cfetbl_is_judging(service, "CFETBL_ExitApp")) {
        cfetbl_leave();
        return false;
    }
    app = cfetbl_app(service);
    status = cfetbl_ask(service, cfetbl_begin(service, CFETBL_KIND_EXIT, app));
    if (status == CFETBL_SUCCESS) {
        cfetbl_forget_handles(service, app);
        service->apps[app][0] = 0;
    }
    return end("CFETBL_ExitApp", status);
}

/* ---- the processor and the time */

enum { PROCESSOR = 1, POWER = 2 };

static void forget_applications(struct cfetbl_service *service)
{
    memset(service->apps, 0, sizeof service->apps);
    memset(service->damages, 0, sizeof service->damages);
    cfetbl_free_files(&service->files);
}

static bool reset(const char *function, int kind)
{
    struct cfetbl_service *service = begin(function);
    struct cfetbl_record record;
    uint32_t status;

    if (service == NULL) {
        return false;
    }
    if (cfetbl_is_judging(service, function) || (kind == PROCESSOR && service->damages[0][0] != 0 && !cfetbl_reopen(service))) {
        cfetbl_leave();
        return false;
    }
    record = cfetbl_begin(service, CFETBL_KIND_RESET, 0);
    cfetbl_put_number(&record, (uint32_t)kind, 1);
    status = cfetbl_ask(service, record);
    if (status == CFETBL_SUCCESS) {
        cfetbl_forget_handles(service, 0);
        memset(service->files.dumps, 0, sizeof service->files.dumps);
        if (kind == POWER) {
            forget_applications(service);
        }
    }
    return end(function, status);
}

bool CFETBL_ResetProcessor(void)
{
    return reset("CFETBL_ResetProcessor", PROCESSOR);
}

bool CFETBL_PowerOn(void)
{
    return reset("CFETBL_PowerOn", POWER);
}

/* Keeps the name of a block that is there for the next reset. */
static bool keep_damage(struct cfetbl_service *service, const char *name)
{
    int place = 0;

    (void)cfetbl_bank(service);
    if (!cfetbl_damage(service->bank, name)) {
        cfetbl_say("CFETBL_DamageBlock: the Critical Data Store has no block %s", name);
        return false;
    }
    while (place < CFETBL_DAMAGES && service->damages[place][0] != 0) {
        if (strcmp(service->damages[place], name) == 0) {
            return true;
        }
        place += 1;
    }
    if (place == CFETBL_DAMAGES) {
        cfetbl_say("CFETBL_DamageBlock: %d blocks wait for the next reset, and there is no room for another one", CFETBL_DAMAGES);
        return false;
    }
    strcpy(service->damages[place], name);
    return true;
}

bool CFETBL_DamageBlock(const char *name)
{
    struct cfetbl_service *service = is_fit("CFETBL_DamageBlock", name, CFETBL_FULL_NAME) ? begin("CFETBL_DamageBlock") : NULL;
    bool is_kept;

    if (service == NULL) {
        return false;
    }
    is_kept = keep_damage(service, name);
    cfetbl_leave();
    return is_kept;
}

bool CFETBL_SetTime(uint32_t seconds, uint16_t subseconds)
{
    struct cfetbl_service *service = begin("CFETBL_SetTime");
    struct cfetbl_record record;
    uint32_t status;

    if (service == NULL) {
        return false;
    }
    record = cfetbl_begin(service, CFETBL_KIND_TIME, 0);
    cfetbl_put_number(&record, seconds, 4);
    cfetbl_put_number(&record, subseconds, 2);
    status = cfetbl_ask(service, record);
    if (status == CFETBL_SUCCESS) {
        service->seconds = seconds;
        service->subseconds = subseconds;
    }
    return end("CFETBL_SetTime", status);
}

/* ---- files */

/* How many bytes a table file has before its image. */
enum { FILE_HEADER = 116 };

static bool put_file(const char *function, const char *name, const void *contents, size_t size)
{
    struct cfetbl_service *service;
    struct cfetbl_record record;
    uint32_t status;

    if (size > CFETBL_FILE_LIMIT) {
        cfetbl_say("%s: %s has more than %d bytes", function, name, CFETBL_FILE_LIMIT);
        return false;
    }
    service = begin(function);
    if (service == NULL) {
        return false;
    }
    record = cfetbl_begin(service, CFETBL_KIND_FILE, 0);
    cfetbl_put_name(&record, name, CFETBL_FILE_NAME);
    cfetbl_put(&record, contents, size);
    status = cfetbl_ask(service, record);
    if (status == CFETBL_SUCCESS) {
        (void)cfetbl_keep_file(&service->files, name, contents, size);
    }
    return end(function, status);
}

bool CFETBL_PutFile(const char *name, const void *contents, size_t size)
{
    if (contents == NULL && size > 0) {
        cfetbl_say("CFETBL_PutFile: the contents are missing");
        return false;
    }
    return is_fit("CFETBL_PutFile", name, CFETBL_FILE_NAME) && put_file("CFETBL_PutFile", name, contents, size);
}

bool CFETBL_PutHostFile(const char *name, const char *path)
{
    uint8_t contents[CFETBL_FILE_LIMIT + 1];
    bool is_whole;
    size_t size;
    FILE *file;

    if (!is_fit("CFETBL_PutHostFile", name, CFETBL_FILE_NAME)) {
        return false;
    }
    file = path == NULL ? NULL : fopen(path, "rb");
    if (file == NULL) {
        cfetbl_say("CFETBL_PutHostFile: %.120s: %s", path == NULL ? "no path" : path, path == NULL ? "NULL" : strerror(errno));
        return false;
    }
    size = fread(contents, 1, sizeof contents, file);
    is_whole = ferror(file) == 0;
    fclose(file);
    if (!is_whole) {
        cfetbl_say("CFETBL_PutHostFile: %.120s can't be read", path);
        return false;
    }
    return put_file("CFETBL_PutHostFile", name, contents, size);
}

bool CFETBL_PutTableFile(const char *name, const char *table, uint32_t offset, const void *image, size_t size)
{
    uint8_t file[CFETBL_FILE_LIMIT];
    struct cfetbl_record to = {file, 0};

    if (!is_fit("CFETBL_PutTableFile", name, CFETBL_FILE_NAME) || !is_fit("CFETBL_PutTableFile", table, CFETBL_FULL_NAME)) {
        return false;
    }
    if ((image == NULL && size > 0) || size > CFETBL_FILE_LIMIT - FILE_HEADER) {
        cfetbl_say("CFETBL_PutTableFile: the image %s", image == NULL ? "is missing" : "is too long for a file");
        return false;
    }
    cfetbl_put_number(&to, 0x63464531, 4); /* cFE1 */
    cfetbl_put_number(&to, 8, 4);          /* a table file */
    cfetbl_put_number(&to, 64, 4);
    cfetbl_put_number(&to, 66, 4); /* spacecraft and processor */
    cfetbl_put_number(&to, 1, 4);
    cfetbl_put_number(&to, 0, 4);
    cfetbl_put_number(&to, 0, 4);
    cfetbl_put_number(&to, 0, 4);
    cfetbl_put_name(&to, "Table image", 32);
    cfetbl_put_number(&to, 0, 4);
    cfetbl_put_number(&to, offset, 4);
    cfetbl_put_number(&to, (uint32_t)size, 4);
    cfetbl_put_name(&to, table, CFETBL_FULL_NAME);
    cfetbl_put(&to, image, size);
    return put_file("CFETBL_PutTableFile", name, file, to.length);
}

const void *CFETBL_GetFile(const char *name, size_t *size)
{
    struct cfetbl_service *service = is_fit("CFETBL_GetFile", name, CFETBL_FILE_NAME) ? cfetbl_enter("CFETBL_GetFile") : NULL;
    const struct cfetbl_file *file;

    if (service == NULL) {
        return NULL;
    }
    file = cfetbl_file_of(&service->files, name);
    if (file == NULL) {
        cfetbl_say("CFETBL_GetFile: the file store has no file %s", name);
    } else if (size != NULL) {
        *size = file->size;
    }
    cfetbl_leave();
    return file == NULL ? NULL : file->at;
}

/* ---- commands of the ground */

/* Message ids of commands to the table task. */
enum { COMMAND_MID = 0x1804, HOUSEKEEPING_MID = 0x180C };

/* The most bytes of a command: headers, select, table and file. */
enum { COMMAND_LIMIT = 8 + 2 + CFETBL_FULL_NAME + CFETBL_FILE_NAME };

/* Begins a command packet. Its length and its checksum are put in by `send_packet`. */
static struct cfetbl_record command(uint8_t *packet, uint32_t message, uint32_t code)
{
    struct cfetbl_record to = {packet, 0};

    cfetbl_put_number(&to, message, 2);
    cfetbl_put_number(&to, 0xC000, 2);
    cfetbl_put_number(&to, 0, 2);
    cfetbl_put_number(&to, code, 1);
    cfetbl_put_number(&to, 0, 1);
    return to;
}

uint32_t CFETBL_Command(const void *packet, size_t length)
{
    struct cfetbl_service *service;
    struct cfetbl_record record;
    struct cfetbl_reply reply;
    uint32_t status;

    if (packet == NULL || length > CFETBL_PACKET_LIMIT) {
        cfetbl_say("CFETBL_Command: the packet %s", packet == NULL ? "is missing" : "has more than 32,832 bytes");
        return CFETBL_NOT_PLAYED;
    }
    service = begin("CFETBL_Command");
    if (service == NULL) {
        return CFETBL_NOT_PLAYED;
    }
    record = cfetbl_begin(service, CFETBL_KIND_COMMAND, 0);
    cfetbl_put(&record, packet, length);
    status = cfetbl_ask(service, record);
    if (status == CFETBL_SUCCESS) {
        reply = cfetbl_reply(service);
        cfetbl_keep_dumps(&service->files, packet, length, &reply);
    }
    cfetbl_leave();
    return status;
}

static uint32_t send_packet(struct cfetbl_record packet)
{
    uint8_t sum = 0xFF;
    size_t place;

    packet.at[5] = (uint8_t)(packet.length - 7);
    for (place = 0; place < packet.length; place++) {
        sum ^= packet.at[place];
    }
    packet.at[7] = sum;
    return CFETBL_Command(packet.at, packet.length);
}

/* Sends a command whose payload is a select, if it has one, and name fields. A name that its field can't hold is refused as the service
 * refuses a bad one. */
static uint32_t send_names(uint32_t code, const bool *active, const char *table, const char *file)
{
    uint8_t packet[COMMAND_LIMIT];
    struct cfetbl_record to = command(packet, COMMAND_MID, code);

    if ((table != NULL && strlen(table) > CFETBL_FULL_NAME) || (file != NULL && strlen(file) > CFETBL_FILE_NAME)) {
        return CFETBL_ERR_BAD_NAME;
    }
    if (active != NULL) {
        cfetbl_put_number(&to, *active, 2);
    }
    if (table != NULL) {
        cfetbl_put_name(&to, table, CFETBL_FULL_NAME);
    }
    if (file != NULL) {
        cfetbl_put_name(&to, file, CFETBL_FILE_NAME);
    }
    return send_packet(to);
}

uint32_t CFETBL_NoopCmd(void)
{
    return send_names(0, NULL, NULL, NULL);
}

uint32_t CFETBL_ResetCountersCmd(void)
{
    return send_names(1, NULL, NULL, NULL);
}

/* A missing name is an empty one, which the service refuses. */
static const char *named(const char *name)
{
    return name == NULL ? "" : name;
}

uint32_t CFETBL_LoadCmd(const char *file)
{
    return send_names(2, NULL, NULL, named(file));
}

uint32_t CFETBL_DumpCmd(const char *table, bool active, const char *file)
{
    return send_names(3, &active, named(table), named(file));
}

uint32_t CFETBL_ValidateCmd(const char *table, bool active)
{
    return send_names(4, &active, named(table), NULL);
}

uint32_t CFETBL_ActivateCmd(const char *table)
{
    return send_names(5, NULL, named(table), NULL);
}

uint32_t CFETBL_DumpRegistryCmd(const char *file)
{
    return send_names(6, NULL, NULL, named(file));
}

uint32_t CFETBL_SendRegistryCmd(const char *table)
{
    return send_names(7, NULL, named(table), NULL);
}

uint32_t CFETBL_DeleteCdsCmd(const char *table)
{
    return send_names(8, NULL, named(table), NULL);
}

uint32_t CFETBL_AbortLoadCmd(const char *table)
{
    return send_names(9, NULL, named(table), NULL);
}

uint32_t CFETBL_HousekeepingCmd(void)
{
    uint8_t packet[COMMAND_LIMIT];

    return send_packet(command(packet, HOUSEKEEPING_MID, 0));
}

/* ---- what a test forces, and what was answered */

bool CFETBL_Fail(const char *call, unsigned nth, CFE_Status_t code)
{
    struct cfetbl_service *service = cfetbl_enter("CFETBL_Fail");
    bool is_forced;

    if (service == NULL) {
        return false;
    }
    is_forced = cfetbl_force(service, named(call), nth, code);
    cfetbl_leave();
    return is_forced;
}

struct CFETBL_Answer CFETBL_LastAnswer(void)
{
    struct CFETBL_Answer answer = {CFETBL_NOT_PLAYED, 0, NULL, 0, NULL, 0};
    struct cfetbl_service *service = cfetbl_enter("CFETBL_LastAnswer");

    if (service != NULL) {
        answer.status = service->answer.status;
        answer.detail = service->answer.detail;
        answer.bytes = service->answer.bytes;
        answer.length = service->answer.length;
        answer.packets = service->answer.packets;
        answer.packets_length = service->answer.packets_length;
        cfetbl_leave();
    }
    return answer;
}

bool CFETBL_NextEvent(struct CFETBL_Event *event)
{
    struct cfetbl_service *service = cfetbl_enter("CFETBL_NextEvent");
    uint8_t bytes[12];
    bool is_there;

    if (service == NULL) {
        return false;
    }
    is_there = cfetbl_next(&service->packets.events, bytes, sizeof bytes);
    if (is_there && event != NULL) {
        event->number = (uint16_t)cfetbl_number_at(bytes, 2);
        event->status = cfetbl_number_at(bytes + 2, 4);
        event->row = (uint16_t)cfetbl_number_at(bytes + 6, 2);
        event->detail = cfetbl_number_at(bytes + 8, 4);
    }
    cfetbl_leave();
    return is_there;
}

bool CFETBL_NextNotice(uint32_t *message, uint16_t *function, uint32_t *parameter)
{
    struct cfetbl_service *service = cfetbl_enter("CFETBL_NextNotice");
    uint8_t bytes[8];
    bool is_there;

    if (service == NULL) {
        return false;
    }
    is_there = cfetbl_next(&service->packets.notices, bytes, sizeof bytes);
    cfetbl_leave();
    if (is_there) {
        if (message != NULL) {
            *message = cfetbl_number_at(bytes, 2);
        }
        if (function != NULL) {
            *function = (uint16_t)cfetbl_number_at(bytes + 2, 2);
        }
        if (parameter != NULL) {
            *parameter = cfetbl_number_at(bytes + 4, 4);
        }
    }
    return is_there;
}

uint32_t CFETBL_Requests(void)
{
    struct cfetbl_service *service = cfetbl_enter_if_on();
    uint32_t requests;

    if (service == NULL) {
        return 0;
    }
    requests = cfetbl_requests(service);
    cfetbl_leave();
    return requests;
}
