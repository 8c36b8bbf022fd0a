/* SPDX-License-Identifier: Apache-2.0 */
/* main.c: records from standard input, entries to standard output. It has its words from the command line. */
#include "serving.h"

#include "cfetbl_service.h"

#include <errno.h>
#include <signal.h>
#include <stdarg.h>
#include <stdio.h>
#include <stdlib.h>
#include <string.h>
#include <unistd.h>

enum {
    HEAD = 4,
    POWER_ON = 2,
    /* Where a Register has the number of its validation function, and a number under which no function is. */
    VALIDATOR_AT = 22,
    NO_FUNCTION = 0xFE,
    INPUT_ROOM = 1 << 17,
    END = 13,
    LONGEST_LINE = 2048,
    USUAL_LIMIT = 1000,
    LONGEST_LIMIT = 1000000
};

/* How many places entries go through: the one after FFFFFFFE is 0 again. */
#define PLACES 4294967295u

static const char help[] =
    "tbl_app_serve: the cFE table service, with the validation functions of an application\n"
    "\n"
    "tbl_app_serve --app LIBRARY [--app-limit SECONDS] [--store FILE] [--durable]\n"
    "               reads session records from standard input and writes the entry of each to standard output, as tbl_serve does.\n"
    "               Images are judged by the functions of the shared library, which cfetbl_app.h says how to make. A function\n"
    "               that crashes, or takes longer than 1 s or SECONDS, refuses its image. The Critical Data Store is in the file\n"
    "               cds.store of the working folder, or in FILE, and is synced before an answer with --durable\n"
    "tbl_app_serve --help\n"
    "tbl_app_serve --version\n"
    "\n"
    "It ends with a status of tbl_serve. 2 comes too if the library can't be used, and 4 if the store file can't be written; standard\n"
    "error says why.\n";

struct service {
    struct tbl_handle handle;
    struct judge judge;
    struct store store;
    uint8_t *input;
    size_t from, to;
    uint8_t *entry;
    uint32_t count, bytes;
};

void say(const char *format, ...)
{
    char line[LONGEST_LINE] = "tbl_app_serve: ";
    size_t length = strlen(line), place;
    va_list words;

    va_start(words, format);
    vsnprintf(line + length, sizeof line - length - 1, format, words);
    va_end(words);
    length = strlen(line);
    for (place = 0; place < length; place++) {
        unsigned char letter = (unsigned char)line[place];

        line[place] = letter < ' ' || letter == 0x7F ? '?' : line[place];
    }
    line[length] = '\n';
    /* (a line is written at once, since two processes write) */
    if (write(STDERR_FILENO, line, length + 1) < 0) {
        return;
    }
}

/* ---- bytes in and out */

/* Reads until so many bytes are there. 1 if they are, 0 at the end of the input, and -1 if a read failed. */
static int fill(struct service *service, size_t count)
{
    if (service->from + count > INPUT_ROOM) {
        memmove(service->input, service->input + service->from, service->to - service->from);
        service->to -= service->from;
        service->from = 0;
    }
    while (service->to - service->from < count) {
        ssize_t got = read(STDIN_FILENO, service->input + service->to, INPUT_ROOM - service->to);

        if (got == 0) {
            return 0;
        }
        if (got < 0 && errno != EINTR) {
            return -1;
        }
        service->to += got > 0 ? (size_t)got : 0;
    }
    return 1;
}

static bool write_out(const uint8_t *bytes, size_t length)
{
    while (length > 0) {
        ssize_t count = write(STDOUT_FILENO, bytes, length);

        if (count < 0 && errno != EINTR) {
            return false;
        }
        bytes += count > 0 ? count : 0;
        length -= count > 0 ? (size_t)count : 0;
    }
    return true;
}

static void put_number(uint8_t *at, uint32_t number)
{
    int place;

    for (place = 0; place < 4; place++) {
        at[place] = (uint8_t)(number >> (24 - 8 * place));
    }
}

/* Writes the end record. The status of the program. */
static int end(const struct service *service, int status)
{
    uint8_t record[END];

    put_number(record, PLACES);
    record[4] = (uint8_t)status;
    put_number(record + 5, service->count);
    put_number(record + 9, service->bytes);
    return write_out(record, sizeof record) ? status : WRITE_FAILED;
}

/* ---- records */

/* A table can be registered with the functions that the library has, and with no others. */
static void look_for_function(const struct service *service, uint8_t *record, size_t length)
{
    uint8_t *number = record + HEAD + VALIDATOR_AT;

    if (record[0] == CFETBL_KIND_REGISTER && length == HEAD + VALIDATOR_AT + 1 && *number != TBL_NO_VALIDATOR &&
        (*number >= CFETBL_APP_NUMBERS || service->judge.library.names[*number][0] == 0)) {
        *number = NO_FUNCTION;
    }
}

/* Plays a record, with the verdicts that it needs. */
static int step(struct service *service, const uint8_t *record, size_t length, struct tbl_told *told)
{
    int32_t verdicts[TBL_QUESTIONS];
    size_t count = 0;
    int status;

    for (;;) {
        status = tbl_step(&service->handle, record, length, verdicts, count, service->entry, CFETBL_ENTRY_LIMIT, told);
        if (status != TBL_VERDICT_MISSING || count == TBL_QUESTIONS) {
            return status;
        }
        if (!judge_image(&service->judge, told->number, service->entry, told->length, &verdicts[count])) {
            return status;
        }
        count += 1;
    }
}

/* Plays a record and writes its entry. DONE, or the status of the program. */
static int answer(struct service *service, uint8_t *record, size_t length)
{
    bool is_power_on = record[0] == CFETBL_KIND_RESET && length > HEAD && record[HEAD] == POWER_ON;
    struct tbl_told told;
    int status;

    look_for_function(service, record, length);
    status = step(service, record, length, &told);
    switch (status) {
    case TBL_OK:
        break;
    case TBL_BAD_RECORD:
        return end(service, BAD_RECORD);
    case TBL_FULL:
        return end(service, FULL);
    case TBL_VERDICT_MISSING:
        return WRONG_USE;
    case TBL_UNTOLD:
        return NO_MEMORY;
    default:
        return end(service, NO_MEMORY);
    }
    if (!store_follow(&service->store, &service->handle, is_power_on) || !write_out(service->entry, told.length)) {
        return WRITE_FAILED;
    }
    service->count = service->count + 1 == PLACES ? 0 : service->count + 1;
    service->bytes += (uint32_t)length;
    return DONE;
}

/* Plays records for as long as they come. */
static int serve(struct service *service)
{
    int status = DONE, came;
    size_t length;

    while (status == DONE) {
        came = fill(service, HEAD);
        if (came > 0) {
            length = HEAD + ((size_t)service->input[service->from + 2] << 8 | service->input[service->from + 3]);
            came = fill(service, length);
        }
        if (came < 0) {
            return end(service, READ_FAILED);
        }
        if (came == 0) {
            return end(service, service->from == service->to ? DONE : BAD_RECORD);
        }
        status = answer(service, service->input + service->from, length);
        service->from += length;
    }
    return status;
}

/* ---- words */

/* The milliseconds of so many seconds; 0 if they aren't a number from 0.001 to 1,000. */
static int milliseconds(const char *words)
{
    char *rest;
    double seconds = strtod(words, &rest);

    return rest != words && *rest == 0 && seconds >= 0.001 && seconds * 1000 <= LONGEST_LIMIT ? (int)(seconds * 1000) : 0;
}

struct words {
    const char *app;
    const char *store;
    int limit;
    bool is_durable;
};

static bool read_words(int count, char **given, struct words *words)
{
    int at;

    *words = (struct words){NULL, "cds.store", USUAL_LIMIT, false};
    for (at = 1; at < count; at++) {
        bool has_more = at + 1 < count;

        if (strcmp(given[at], "--durable") == 0) {
            words->is_durable = true;
        } else if (has_more && strcmp(given[at], "--app") == 0) {
            words->app = given[++at];
        } else if (has_more && strcmp(given[at], "--store") == 0) {
            words->store = given[++at];
        } else if (has_more && strcmp(given[at], "--app-limit") == 0) {
            words->limit = milliseconds(given[++at]);
        } else {
            return false;
        }
    }
    return words->app != NULL && words->limit > 0;
}

/* The library's file as dlopen takes it: a name without a folder is one of the working folder. */
static char *path_of(const char *name)
{
    char *path = malloc(strlen(name) + sizeof "./");

    if (path != NULL) {
        sprintf(path, "%s%s", strchr(name, '/') == NULL ? "./" : "", name);
    }
    return path;
}

/* Opens all that is needed, and serves. The library comes first: nothing is written if it can't be used. */
static int open_and_serve(struct service *service, const struct words *words)
{
    int status;

    service->input = malloc(INPUT_ROOM);
    service->entry = malloc(CFETBL_ENTRY_LIMIT);
    service->judge.path = path_of(words->app);
    service->judge.limit = words->limit;
    if (service->input == NULL || service->entry == NULL || service->judge.path == NULL) {
        say("out of memory");
        return NO_MEMORY;
    }
    if (!judge_start(&service->judge)) {
        return WRONG_USE;
    }
    status = store_open(&service->store, words->store, words->is_durable);
    if (status != DONE) {
        return status;
    }
    status = tbl_open(&service->handle, service->store.written, TBL_BANK_SIZE);
    if (status != TBL_OK) {
        return status == TBL_NO_MEMORY ? NO_MEMORY : STORE_FAILED;
    }
    if (!store_follow(&service->store, &service->handle, false)) {
        return STORE_FAILED;
    }
    return serve(service);
}

int main(int count, char **given)
{
    static struct service service = {.judge.socket = -1, .store.file = -1};
    struct words words;
    int status;

    if (count == 2 && strcmp(given[1], "--help") == 0) {
        return write_out((const uint8_t *)help, sizeof help - 1) ? DONE : WRITE_FAILED;
    }
    if (count == 2 && strcmp(given[1], "--version") == 0) {
        return write_out((const uint8_t *)"tbl_app_serve " CFETBL_VERSION "\n", sizeof "tbl_app_serve " CFETBL_VERSION) ? DONE : WRITE_FAILED;
    }
    /* Nobody reading is a write that fails. */
    signal(SIGPIPE, SIG_IGN);
    if (!read_words(count, given, &words)) {
        say("the words aren't known: see --help");
        return WRONG_USE;
    }
    status = open_and_serve(&service, &words);
    judge_end(&service.judge);
    tbl_close(&service.handle);
    store_close(&service.store);
    free((char *)(uintptr_t)service.judge.path);
    free(service.input);
    free(service.entry);
    return status;
}
