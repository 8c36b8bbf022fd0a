/* SPDX-License-Identifier: Apache-2.0 */
/* service.c: services: which one a thread calls, the records that requests are made of, and the handle that a service is opened over. Beside
 * playing.c and crash tests, it alone calls tbl.h. */
#include "cfetbl_service.h"
#include "tbl.h"

#include <pthread.h>
#include <stdarg.h>
#include <stdio.h>
#include <stdlib.h>
#include <string.h>

#if __STDC_VERSION__ >= 201112L
#define THREAD_LOCAL _Thread_local
#else
#define THREAD_LOCAL __thread
#endif

static const char *const call_names[CFETBL_CALLS] = {
    "CFE_TBL_Register",       "CFE_TBL_Share",        "CFE_TBL_Unregister",     "CFE_TBL_Load",          "CFE_TBL_Update",
    "CFE_TBL_Validate",       "CFE_TBL_Manage",       "CFE_TBL_DumpToBuffer",   "CFE_TBL_Modified",      "CFE_TBL_GetAddress",
    "CFE_TBL_ReleaseAddress", "CFE_TBL_GetAddresses", "CFE_TBL_ReleaseAddresses", "CFE_TBL_GetStatus",   "CFE_TBL_GetInfo",
    "CFE_TBL_NotifyByMessage", "CFE_ES_RegisterCDS",  "CFE_ES_CopyToCDS",       "CFE_ES_RestoreFromCDS",
};

/* One lock for all services. It isn't held while a validation function is at work. */
static pthread_mutex_t lock = PTHREAD_MUTEX_INITIALIZER;

/* The services that are on, and the serial of the next one. */
static struct cfetbl_service *services;
static uint64_t next_serial = 1;

/* Which service this thread opened or joined, and which application it has chosen there; 0 for none. */
static THREAD_LOCAL uint64_t own_serial;
static THREAD_LOCAL uint64_t opened_serial;
static THREAD_LOCAL uint64_t chosen_serial;
static THREAD_LOCAL int chosen_app;

static THREAD_LOCAL char message[256];

const struct cfetbl_watch *cfetbl_watch;

void cfetbl_say(const char *format, ...)
{
    va_list words;

    va_start(words, format);
    vsnprintf(message, sizeof message, format, words);
    va_end(words);
    fprintf(stderr, "cfetbl: %s\n", message);
}

const char *cfetbl_message(void)
{
    return message;
}

/* ---- which service */

static struct cfetbl_service *service_of(uint64_t serial)
{
    struct cfetbl_service *service = services;

    while (service != NULL && service->serial != serial) {
        service = service->next;
    }
    return service;
}

/* The service that this thread opened or joined; if it did neither, the one that is on, if it is the only one. */
static struct cfetbl_service *find(void)
{
    if (own_serial != 0) {
        return service_of(own_serial);
    }
    return services != NULL && services->next == NULL ? services : NULL;
}

/* Says why `find` found none. */
static void say_which(const char *function)
{
    if (services == NULL) {
        cfetbl_say("%s: no service is on: call CFETBL_Open first", function);
    } else if (own_serial != 0) {
        cfetbl_say("%s: the service that this thread called was switched off", function);
    } else {
        cfetbl_say("%s: several services are on, and this thread switched none on: call CFETBL_Join first", function);
    }
}

struct cfetbl_service *cfetbl_enter_if_on(void)
{
    struct cfetbl_service *service;

    pthread_mutex_lock(&lock);
    service = find();
    if (service == NULL) {
        pthread_mutex_unlock(&lock);
    }
    return service;
}

struct cfetbl_service *cfetbl_enter(const char *function)
{
    struct cfetbl_service *service;

    pthread_mutex_lock(&lock);
    service = find();
    if (service == NULL) {
        say_which(function);
        pthread_mutex_unlock(&lock);
    } else if (cfetbl_watch != NULL) {
        cfetbl_watch->begins(function);
    }
    return service;
}

void cfetbl_leave(void)
{
    pthread_mutex_unlock(&lock);
}

void cfetbl_return(void)
{
    pthread_mutex_lock(&lock);
}

/* Whether the test forces a code for this call, which counts. */
static bool is_forced(struct cfetbl_service *service, enum cfetbl_call call, int32_t *code)
{
    bool is_now = false;
    int place;

    for (place = 0; place < CFETBL_FORCED && service->is_forcing; place++) {
        struct cfetbl_forced *forced = &service->forced[place];

        if (forced->left > 0 && forced->call == call) {
            forced->left -= 1;
            if (forced->left == 0) {
                *code = forced->code;
                is_now = true;
            }
        }
    }
    return is_now;
}

void cfetbl_forget_answer(struct cfetbl_service *service)
{
    service->answered = NULL;
    memset(&service->answer, 0, sizeof service->answer);
    service->answer.status = CFETBL_NOT_PLAYED;
}

struct cfetbl_service *cfetbl_enter_call(enum cfetbl_call call, int32_t *code)
{
    struct cfetbl_service *service = cfetbl_enter(call_names[call]);

    if (service == NULL) {
        return NULL;
    }
    cfetbl_forget_answer(service);
    if (is_forced(service, call, code)) {
        (void)cfetbl_returned(*code);
        cfetbl_leave();
        return NULL;
    }
    cfetbl_bring_in(service);
    return service;
}

bool cfetbl_is_judging(const struct cfetbl_service *service, const char *function)
{
    if (service->judging > 0) {
        cfetbl_say("%s: not while a validation function is at work", function);
    }
    return service->judging > 0;
}

int cfetbl_app(const struct cfetbl_service *service)
{
    return chosen_serial == service->serial ? chosen_app : service->app;
}

/* What the thread that opened the service chooses holds of all threads that choose nothing themselves. */
void cfetbl_use_app(struct cfetbl_service *service, int app)
{
    if (opened_serial == service->serial) {
        service->app = app;
    } else {
        chosen_serial = service->serial;
        chosen_app = app;
    }
}

/* ---- records */

void cfetbl_put(struct cfetbl_record *to, const void *bytes, size_t length)
{
    if (length > 0) {
        memcpy(to->at + to->length, bytes, length);
        to->length += length;
    }
}

void cfetbl_put_number(struct cfetbl_record *to, uint32_t number, int bytes)
{
    while (bytes > 0) {
        bytes -= 1;
        to->at[to->length] = (uint8_t)(number >> 8 * bytes);
        to->length += 1;
    }
}

void cfetbl_put_name(struct cfetbl_record *to, const char *name, size_t width)
{
    size_t length = strlen(name);

    if (length > width) {
        length = width;
    }
    cfetbl_put(to, name, length);
    memset(to->at + to->length, 0, width - length);
    to->length += width - length;
}

struct cfetbl_record cfetbl_begin(struct cfetbl_service *service, int kind, int actor)
{
    struct cfetbl_record to = {NULL, 0};

    to.at = service->record;
    cfetbl_put_number(&to, (uint32_t)kind, 1);
    cfetbl_put_number(&to, (uint32_t)actor, 1);
    cfetbl_put_number(&to, 0, 2);
    return to;
}

/* ---- requests */

uint32_t cfetbl_ask(struct cfetbl_service *service, struct cfetbl_record record)
{
    uint32_t status;
    struct cfetbl_reply reply;

    cfetbl_forget_answer(service);
    status = cfetbl_play(service, record);
    if (status != CFETBL_NOT_PLAYED) {
        reply = cfetbl_reply(service);
        if (record.at[0] >= CFETBL_KIND_LOAD_IMAGE && record.at[0] <= CFETBL_KIND_MANAGE) {
            cfetbl_count_image(service, (uint16_t)cfetbl_number_at(record.at + 4, 2), &reply);
        }
        cfetbl_take_packets(&service->packets, reply.packets, reply.packets_length);
        service->answer = reply;
        service->answered = service->entry;
    }
    return status;
}

uint32_t cfetbl_ask_handle(struct cfetbl_service *service, int kind, uint16_t handle)
{
    struct cfetbl_record record = cfetbl_begin(service, kind, cfetbl_app(service));

    cfetbl_put_number(&record, handle, 2);
    return cfetbl_ask(service, record);
}

uint32_t cfetbl_play_handle(struct cfetbl_service *service, int kind, int actor, uint16_t handle)
{
    struct cfetbl_record record = cfetbl_begin(service, kind, actor);

    cfetbl_put_number(&record, handle, 2);
    return cfetbl_play(service, record);
}

static struct cfetbl_record record_of_name(struct cfetbl_service *service, int kind, const char *name)
{
    struct cfetbl_record record = cfetbl_begin(service, kind, cfetbl_app(service));

    cfetbl_put_name(&record, name, CFETBL_FULL_NAME);
    return record;
}

uint32_t cfetbl_ask_name(struct cfetbl_service *service, int kind, const char *name)
{
    return cfetbl_ask(service, record_of_name(service, kind, name));
}

uint32_t cfetbl_play_name(struct cfetbl_service *service, int kind, const char *name)
{
    return cfetbl_play(service, record_of_name(service, kind, name));
}

void cfetbl_waive(struct cfetbl_service *service, bool is_waiving)
{
    service->is_waiving = is_waiving;
}

uint32_t cfetbl_number_of(struct cfetbl_service *service, int app, cfetbl_function function)
{
    uint32_t number;

    if (function == NULL) {
        return TBL_NO_VALIDATOR;
    }
    for (number = 0; number < TBL_VALIDATORS; number++) {
        if (tbl_validator_app((uint8_t)number) != app) {
            continue;
        }
        if (service->functions[number] == NULL || service->functions[number] == function) {
            service->functions[number] = function;
            return number;
        }
    }
    cfetbl_say("application %d has 15 validation functions in this service, and can have no further one", app);
    return TBL_VALIDATORS;
}

bool cfetbl_force(struct cfetbl_service *service, const char *call, unsigned nth, int32_t code)
{
    int name = 0, place = 0;

    while (name < CFETBL_CALLS && strcmp(call, call_names[name]) != 0) {
        name += 1;
    }
    while (place < CFETBL_FORCED && service->forced[place].left > 0) {
        place += 1;
    }
    if (name == CFETBL_CALLS) {
        cfetbl_say("CFETBL_Fail: the library has no call %.64s", call);
    } else if (nth == 0) {
        cfetbl_say("CFETBL_Fail: the next call is number 1");
    } else if (place == CFETBL_FORCED) {
        cfetbl_say("CFETBL_Fail: %d codes wait for their calls, and there is no room for another one", CFETBL_FORCED);
    } else {
        service->forced[place].call = (enum cfetbl_call)name;
        service->forced[place].left = nth;
        service->forced[place].code = code;
        service->is_forcing = true;
        return true;
    }
    return false;
}

/* ---- preserved memory */

const uint8_t *cfetbl_bank(struct cfetbl_service *service)
{
    int place;

    (void)tbl_bank(service->handle, 0, service->bank, TBL_BANK_SIZE);
    for (place = 0; place < CFETBL_DAMAGES && service->damages[place][0] != 0; place++) {
        (void)cfetbl_damage(service->bank, service->damages[place]);
    }
    return service->bank;
}

bool cfetbl_carry_over(struct cfetbl_service *service)
{
    struct cfetbl_record record;
    const struct cfetbl_file *file;
    int app;

    record = cfetbl_begin(service, CFETBL_KIND_TIME, 0);
    cfetbl_put_number(&record, service->seconds, 4);
    cfetbl_put_number(&record, service->subseconds, 2);
    if (cfetbl_play(service, record) != CFETBL_SUCCESS) {
        return false;
    }
    for (app = 1; app <= CFETBL_APPS; app++) {
        record = cfetbl_begin(service, CFETBL_KIND_START, app);
        cfetbl_put_name(&record, service->apps[app], CFETBL_APP_NAME);
        if (service->apps[app][0] != 0 && cfetbl_play(service, record) != CFETBL_SUCCESS) {
            return false;
        }
    }
    for (file = service->files.first; file != NULL; file = file->next) {
        record = cfetbl_begin(service, CFETBL_KIND_FILE, 0);
        cfetbl_put_name(&record, file->name, CFETBL_FILE_NAME);
        cfetbl_put(&record, file->at, file->size);
        if (cfetbl_play(service, record) != CFETBL_SUCCESS) {
            return false;
        }
    }
    return true;
}

/* Closes a handle and frees it. NULL is none. */
static void close_handle(struct tbl_handle *handle)
{
    if (handle != NULL) {
        tbl_close(handle);
        free(handle);
    }
}

/* A handle over these bytes of preserved memory; NULL if memory ran out. It stays where it is, since a handle isn't copied. */
static struct tbl_handle *handle_over(const uint8_t *bank)
{
    struct tbl_handle *handle = calloc(1, sizeof *handle);

    if (handle != NULL && tbl_open(handle, bank, TBL_BANK_SIZE) != TBL_OK) {
        close_handle(handle);
        return NULL;
    }
    return handle;
}

bool cfetbl_reopen(struct cfetbl_service *service)
{
    struct tbl_handle *before = service->handle, *opened = handle_over(cfetbl_bank(service));

    if (opened == NULL) {
        cfetbl_say("out of memory for a service over damaged memory");
        return false;
    }
    service->handle = opened;
    if (!cfetbl_carry_over(service)) {
        service->handle = before;
        close_handle(opened);
        return false;
    }
    close_handle(before);
    memset(service->damages, 0, sizeof service->damages);
    return true;
}

/* ---- services */

static void free_service(struct cfetbl_service *service)
{
    cfetbl_forget_handles(service, 0);
    cfetbl_free_packets(&service->packets);
    cfetbl_free_files(&service->files);
    close_handle(service->handle);
    free(service->bank);
    free(service->record);
    free(service->rooms[0]);
    free(service->rooms[1]);
    free(service->spare);
    free(service);
}

static struct cfetbl_service *service_over(const void *bank)
{
    struct cfetbl_service *service = calloc(1, sizeof *service);

    if (service == NULL) {
        return NULL;
    }
    service->app = 1;
    service->answer.status = CFETBL_NOT_PLAYED;
    service->record = malloc(CFETBL_RECORD_LIMIT);
    service->rooms[0] = malloc(CFETBL_ENTRY_LIMIT);
    service->rooms[1] = malloc(CFETBL_ENTRY_LIMIT);
    service->bank = calloc(1, CFETBL_BANK_SIZE);
    if (service->record != NULL && service->rooms[0] != NULL && service->rooms[1] != NULL && service->bank != NULL) {
        service->handle = handle_over(bank != NULL ? bank : service->bank);
    }
    if (service->handle == NULL) {
        free_service(service);
        return NULL;
    }
    return service;
}

void cfetbl_close(struct cfetbl_service *service)
{
    struct cfetbl_service **at = &services;

    while (*at != service) {
        at = &(*at)->next;
    }
    *at = service->next;
    free_service(service);
}

bool cfetbl_open(const void *bank)
{
    struct cfetbl_service *before, *opened;

    pthread_mutex_lock(&lock);
    before = service_of(opened_serial);
    if (before != NULL && cfetbl_is_judging(before, "CFETBL_Open")) {
        pthread_mutex_unlock(&lock);
        return false;
    }
    /* The bytes may be those of the service that was on. */
    opened = service_over(bank);
    if (before != NULL) {
        cfetbl_close(before);
    }
    if (opened == NULL) {
        cfetbl_say("CFETBL_Open: out of memory");
    } else {
        opened->serial = own_serial = opened_serial = next_serial;
        next_serial += 1;
        opened->next = services;
        services = opened;
    }
    pthread_mutex_unlock(&lock);
    return opened != NULL;
}

bool cfetbl_join(uint64_t serial)
{
    bool is_on;

    pthread_mutex_lock(&lock);
    is_on = serial != 0 && service_of(serial) != NULL;
    if (is_on) {
        own_serial = serial;
    } else {
        cfetbl_say("CFETBL_Join: no service of this number is on");
    }
    pthread_mutex_unlock(&lock);
    return is_on;
}

uint32_t cfetbl_requests(const struct cfetbl_service *service)
{
    return service->requests;
}

bool cfetbl_is_proved(void)
{
    return tbl_is_proved() != 0;
}
