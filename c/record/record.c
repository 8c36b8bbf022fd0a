/* SPDX-License-Identifier: Apache-2.0 */
/* Records applications' calls of cFE's table services and of the Critical Data Store, for `cfetbl compare`.

   It is linked into an application, whose calls the linker sends here:

       cc .. record.c @wraps ..

   Each call is a line of the file that the environment names as CFETBL_LOG (calls.log without it): its arguments, its return
   code, and what it gave back, as `app 1 CFE_TBL_Update 0 -> CFE_SUCCESS`. Before that line stands what validation functions said
   inside the call, what was written through an address since the last call, and a file that is loaded, as it is in the file system. Commands to Table Services that go out by CFE_SB_TransmitMsg, resets and ends of applications are lines too, and
   each second in which a call is made. Applications have numbers, from 1 to 16, in the order in which they call first.

   With RECORD_ALONE it needs nothing of cFE but the calls of cfe_tbl.h and of the Critical Data Store. Then the application is the
   one that `record_app` says, or CFETBL_APP of the environment (1 without it), and commands, files and the time are for the test to
   record, by `record_line`. With RECORD_DIRECT it needs no linker that wraps calls: a source includes record_direct.h.

   It is written from the public headers of cFE (edition 7), and calls pthread for a lock: the log has calls of several tasks in the
   order in which they were made, one after the other. */
#if !defined _XOPEN_SOURCE && !defined _GNU_SOURCE
#define _XOPEN_SOURCE 600 /* locks that are taken again */
#endif

#include "cfe.h"
#ifndef RECORD_ALONE
#include "cfe_msgids.h"
#include "cfe_psp.h"
#endif
#include "record.h"

#include <pthread.h>
#include <stdarg.h>
#include <stdio.h>
#include <stdlib.h>
#include <string.h>

#define VERSION 2
#define MOST_KNOWN 512
#define MOST_APPS 16
#define LONGEST_NAME 64
#define MOST_IMAGE 65536

#ifdef RECORD_DIRECT
#define REAL(call) call
#define RECORDED(call) record_##call
#define RECORD(call) extern __typeof__(call) record_##call;
#else
#define REAL(call) __real_##call
#define RECORDED(call) __wrap_##call
#define RECORD(call) extern __typeof__(call) __real_##call, __wrap_##call;
#endif
#include "calls.h"
#undef RECORD

/* ---- the log */

static pthread_mutex_t lock;
static pthread_once_t is_ready = PTHREAD_ONCE_INIT;
static FILE *file;
static int goes_on;

static void open_log(void)
{
    const char *name = getenv("CFETBL_LOG");
    pthread_mutexattr_t kind;

    pthread_mutexattr_init(&kind);
    pthread_mutexattr_settype(&kind, PTHREAD_MUTEX_RECURSIVE);
    pthread_mutex_init(&lock, &kind);
    file = fopen(name != NULL ? name : "calls.log", goes_on ? "a" : "w");
    if (file == NULL) {
        perror("record: the log");
        abort();
    }
    setvbuf(file, NULL, _IOLBF, 0);
    if (!goes_on)
        fprintf(file, "log %d\n", VERSION);
}

/* Takes the lock. A validation function may make calls while it is taken. */
static void enter(void)
{
    pthread_once(&is_ready, open_log);
    pthread_mutex_lock(&lock);
}

static void leave(void)
{
    pthread_mutex_unlock(&lock);
}

#ifdef __GNUC__
static void tell(const char *format, ...) __attribute__((format(printf, 1, 2)));
#endif

static void tell(const char *format, ...)
{
    va_list words;

    va_start(words, format);
    vfprintf(file, format, words);
    va_end(words);
}

void record_line(const char *line)
{
    enter();
    tell("%s\n", line);
    leave();
}

void record_go_on(void)
{
    goes_on = 1;
}

void record_end(void)
{
    enter();
    tell("log end\n");
    leave();
}

/* A name as session text has it: in quotes, with \xNN for what doesn't print. */
static void tell_name(const char *name, size_t most)
{
    tell(" \"");
    for (size_t at = 0; name != NULL && at < most && name[at] != '\0'; at++)
        if (name[at] == '"' || name[at] == '\\')
            tell("\\%c", name[at]);
        else if (name[at] > ' ' && name[at] <= '~')
            tell("%c", name[at]);
        else
            tell("\\x%02X", (unsigned char)name[at]);
    tell("\"");
}

static void tell_bytes(const void *from, size_t count)
{
    tell("%s", count == 0 ? " empty" : " ");
    for (size_t at = 0; at < count; at++)
        tell("%02X", ((const unsigned char *)from)[at]);
}

#define CODE(name) { name, #name }

/* The names of return codes. Those that an edition of cFE doesn't have are told as numbers. */
static void tell_code(CFE_Status_t code)
{
    static const struct { CFE_Status_t code; const char *name; } codes[] = {
#include "codes.h"
    };

    tell(" -> ");
    for (size_t at = 0; at < sizeof codes / sizeof codes[0]; at++)
        if (codes[at].code == code) {
            tell("%s", codes[at].name);
            return;
        }
    tell("0x%08lX", (unsigned long)code & 0xFFFFFFFFUL);
}

/* ---- applications, and the time */

#ifdef RECORD_ALONE
static int chosen;

void record_app(int number)
{
    chosen = number;
}

static int app(void)
{
    const char *number = getenv("CFETBL_APP");

    return chosen != 0 ? chosen : number != NULL ? atoi(number) : 1;
}

static void tell_time(void)
{
}
#else
static unsigned long apps[MOST_APPS];
static int apps_known;
static unsigned long last_second;

void record_app(int number)
{
    (void)number;
}

/* The number of the application that calls. A line tells that it runs, before its first one. */
static int app(void)
{
    CFE_ES_AppId_t id;
    char name[LONGEST_NAME] = "";
    int at = 0;

    if (CFE_ES_GetAppID(&id) != CFE_SUCCESS)
        return 1;
    while (at < apps_known && apps[at] != CFE_RESOURCEID_TO_ULONG(id))
        at++;
    if (at == apps_known && at < MOST_APPS) {
        apps[apps_known++] = CFE_RESOURCEID_TO_ULONG(id);
        CFE_ES_GetAppName(name, id, sizeof name);
        tell("app %d start", at + 1);
        tell_name(name, sizeof name);
        tell("\n");
    }
    return at < MOST_APPS ? at + 1 : MOST_APPS;
}

static void tell_time(void)
{
    CFE_TIME_SysTime_t now = CFE_TIME_GetTime();

    if (now.Seconds != last_second)
        tell("time %lu %lu\n", (unsigned long)now.Seconds, (unsigned long)(now.Subseconds >> 16));
    last_second = now.Seconds;
}
#endif

/* ---- tables and blocks */

/* The table of a handle, or a block: how many bytes it has, and whose the handle is; the address that it has, and what stood there when
   it was last looked at. */
struct known {
    unsigned long handle;
    size_t size;
    int app;
    const unsigned char *address;
    unsigned char *seen;
};

static struct known tables[MOST_KNOWN], blocks[MOST_KNOWN];
static unsigned tables_known, blocks_known;

static struct known *find(struct known *all, unsigned count, unsigned long handle)
{
    for (unsigned at = 0; at < count; at++)
        if (all[at].handle == handle)
            return &all[at];
    return NULL;
}

static struct known *remember(struct known *all, unsigned *count, unsigned long handle, size_t size)
{
    struct known *known = find(all, *count, handle);

    if (known == NULL && *count == MOST_KNOWN)
        return NULL;
    if (known == NULL)
        known = &all[(*count)++];
    free(known->seen);
    memset(known, 0, sizeof *known);
    known->handle = handle;
    known->size = size;
    return known;
}

static size_t table_size(CFE_TBL_Handle_t handle)
{
    struct known *known = find(tables, tables_known, (unsigned long)handle);

    return known == NULL ? 0 : known->size;
}

static size_t block_size(CFE_ES_CDSHandle_t handle)
{
    struct known *known = find(blocks, blocks_known, CFE_RESOURCEID_TO_ULONG(handle));

    return known == NULL ? 0 : known->size;
}

/* A handle has this address from now on, or none. What is written there is told before the next call. */
static void look_at(int number, CFE_TBL_Handle_t handle, const void *address)
{
    struct known *known = find(tables, tables_known, (unsigned long)handle);

    if (known == NULL)
        return;
    free(known->seen);
    known->app = number;
    known->address = address;
    known->seen = address == NULL ? NULL : malloc(known->size);
    if (known->seen != NULL)
        memcpy(known->seen, address, known->size);
}

/* All handles that have this address have been told of what stands there. */
static void see(const unsigned char *address)
{
    for (unsigned at = 0; at < tables_known; at++)
        if (tables[at].address == address && tables[at].seen != NULL)
            memcpy(tables[at].seen, address, tables[at].size);
}

static void tell_written(void)
{
    for (unsigned at = 0; at < tables_known; at++) {
        struct known *known = &tables[at];

        if (known->seen == NULL || memcmp(known->seen, known->address, known->size) == 0)
            continue;
        see(known->address);
        tell("app %d wrote %d", known->app, (int)known->handle);
        tell_bytes(known->seen, known->size);
        tell("\n");
    }
}

/* Addresses that are gone aren't looked at any more. */
void record_forget(int number)
{
    enter();
    for (unsigned at = 0; at < tables_known; at++)
        if (number == 0 || tables[at].app == number) {
            free(tables[at].seen);
            tables[at].seen = NULL;
            tables[at].address = NULL;
        }
    leave();
}

/* ---- validation functions: each one of an application has a function here that calls it and tells its verdict */

static struct judged {
    CFE_TBL_CallbackFuncPtr_t function;
    char table[LONGEST_NAME];
    int app;
} judged[64];

static int32 verdict_of(const struct judged *which, void *image)
{
    int32 verdict = which->function(image);

    enter();
    tell("app %d verdict", which->app);
    tell_name(which->table, sizeof which->table);
    tell(" %ld\n", (long)verdict);
    leave();
    return verdict;
}

#define EIGHT(row) ONE(row, 0) ONE(row, 1) ONE(row, 2) ONE(row, 3) ONE(row, 4) ONE(row, 5) ONE(row, 6) ONE(row, 7)
#define ALL EIGHT(0) EIGHT(1) EIGHT(2) EIGHT(3) EIGHT(4) EIGHT(5) EIGHT(6) EIGHT(7)
#define ONE(row, at) static int32 judge_##row##at(void *image) { return verdict_of(&judged[8 * row + at], image); }
ALL
#undef ONE
#define ONE(row, at) judge_##row##at,
static const CFE_TBL_CallbackFuncPtr_t judges[] = { ALL };
#undef ONE

/* The function here for one of an application, or that one itself if there are too many. */
static CFE_TBL_CallbackFuncPtr_t judge_for(CFE_TBL_CallbackFuncPtr_t function, const char *table, int number)
{
    size_t at = 0, most = sizeof judges / sizeof judges[0];

    if (function == NULL || table == NULL || strlen(table) >= LONGEST_NAME)
        return function;
    while (at < most && judged[at].function != NULL && (judged[at].app != number || strcmp(judged[at].table, table) != 0))
        at++;
    if (at == most)
        return function;
    judged[at].function = function;
    judged[at].app = number;
    strcpy(judged[at].table, table);
    return judges[at];
}

/* ---- files that are loaded */

#ifdef RECORD_ALONE
static void tell_file(const char *name)
{
    (void)name;
}
#else
static void tell_file(const char *name)
{
    static unsigned char bytes[MOST_IMAGE];
    osal_id_t id;
    int32 count;

    if (name == NULL || OS_OpenCreate(&id, name, OS_FILE_FLAG_NONE, OS_READ_ONLY) != OS_SUCCESS)
        return;
    count = OS_read(id, bytes, sizeof bytes);
    OS_close(id);
    if (count < 0)
        return;
    tell("file");
    tell_name(name, LONGEST_NAME);
    tell("%s", count == 0 ? "" : " hex");
    tell_bytes(bytes, (size_t)count);
    tell("\n");
}
#endif

/* ---- calls */

/* Tells what came before a call, a command or a reset. */
static void tell_before(void)
{
    enter();
    tell_time();
    tell_written();
}

/* Begins a call, before it is made. Gives the number of the application. */
static int begin(void)
{
    tell_before();
    return app();
}

/* Begins the line of a call that was made. */
static void tell_call(int number, const char *call)
{
    tell("app %d %s", number, call);
}

static CFE_Status_t end(CFE_Status_t code)
{
    tell("\n");
    leave();
    return code;
}

static CFE_Status_t end_with_code(CFE_Status_t code)
{
    tell_code(code);
    return end(code);
}

static int has_handle(CFE_Status_t code)
{
    return code == CFE_SUCCESS || code == CFE_TBL_INFO_RECOVERED_TBL || code == CFE_TBL_WARN_DUPLICATE || code == CFE_TBL_WARN_NOT_CRITICAL;
}

CFE_Status_t RECORDED(CFE_TBL_Register)(CFE_TBL_Handle_t *handle, const char *name, size_t size, uint16 options,
                                        CFE_TBL_CallbackFuncPtr_t function)
{
    int number = begin();
    CFE_Status_t code = REAL(CFE_TBL_Register)(handle, name, size, options, judge_for(function, name, number));

    tell_call(number, "CFE_TBL_Register");
    tell_name(name, LONGEST_NAME);
    tell(" %lu 0x%04X %s", (unsigned long)size, (unsigned)options, function != NULL ? "function" : "none");
    tell_code(code);
    if (has_handle(code)) {
        remember(tables, &tables_known, (unsigned long)*handle, size);
        tell(" handle %d", (int)*handle);
    }
    return end(code);
}

CFE_Status_t RECORDED(CFE_TBL_GetInfo)(CFE_TBL_Info_t *info, const char *name)
{
    int number = begin();
    CFE_Status_t code = REAL(CFE_TBL_GetInfo)(info, name);

    tell_call(number, "CFE_TBL_GetInfo");
    tell_name(name, LONGEST_NAME);
    tell_code(code);
    if (code == CFE_SUCCESS)
        tell(" size %lu loaded %d dump-only %d double %d critical %d", (unsigned long)info->Size, info->TableLoadedOnce != 0,
             info->DumpOnly != 0, info->DoubleBuffered != 0, info->Critical != 0);
    return end(code);
}

CFE_Status_t RECORDED(CFE_TBL_Share)(CFE_TBL_Handle_t *handle, const char *name)
{
    int number = begin();
    CFE_Status_t code = REAL(CFE_TBL_Share)(handle, name);
    CFE_TBL_Info_t info;

    tell_call(number, "CFE_TBL_Share");
    tell_name(name, LONGEST_NAME);
    tell_code(code);
    if (code == CFE_SUCCESS) {
        if (REAL(CFE_TBL_GetInfo)(&info, name) == CFE_SUCCESS)
            remember(tables, &tables_known, (unsigned long)*handle, info.Size);
        tell(" handle %d", (int)*handle);
    }
    return end(code);
}

/* The calls that take a handle and give a return code alone. */
#define RECORD_BY_HANDLE(call)                              \
    CFE_Status_t RECORDED(call)(CFE_TBL_Handle_t handle)    \
    {                                                       \
        int number = begin();                               \
        CFE_Status_t code = REAL(call)(handle);             \
                                                            \
        tell_call(number, #call);                           \
        tell(" %d", (int)handle);                \
        return end_with_code(code);                         \
    }

RECORD_BY_HANDLE(CFE_TBL_Update)
RECORD_BY_HANDLE(CFE_TBL_Validate)
RECORD_BY_HANDLE(CFE_TBL_Manage)
RECORD_BY_HANDLE(CFE_TBL_DumpToBuffer)
RECORD_BY_HANDLE(CFE_TBL_GetStatus)

CFE_Status_t RECORDED(CFE_TBL_Unregister)(CFE_TBL_Handle_t handle)
{
    int number = begin();
    CFE_Status_t code;

    look_at(number, handle, NULL);
    code = REAL(CFE_TBL_Unregister)(handle);
    tell_call(number, "CFE_TBL_Unregister");
    tell(" %d", (int)handle);
    return end_with_code(code);
}

CFE_Status_t RECORDED(CFE_TBL_Load)(CFE_TBL_Handle_t handle, CFE_TBL_SrcEnum_t kind, const void *source)
{
    int number = begin();
    CFE_Status_t code;

    if (kind == CFE_TBL_SRC_FILE)
        tell_file(source);
    code = REAL(CFE_TBL_Load)(handle, kind, source);
    tell_call(number, "CFE_TBL_Load");
    tell(" %d", (int)handle);
    if (kind == CFE_TBL_SRC_FILE) {
        tell(" file");
        tell_name(source, LONGEST_NAME);
    } else {
        tell(" address");
        tell_bytes(source, source == NULL ? 0 : table_size(handle));
    }
    return end_with_code(code);
}

/* The bytes at an address that a call gave. */
static void tell_image(int number, CFE_TBL_Handle_t handle, CFE_Status_t code, const void *address)
{
    if (code != CFE_SUCCESS && code != CFE_TBL_INFO_UPDATED)
        return;
    look_at(number, handle, address);
    tell(" bytes");
    tell_bytes(address, table_size(handle));
}

CFE_Status_t RECORDED(CFE_TBL_GetAddress)(void **address, CFE_TBL_Handle_t handle)
{
    int number = begin();
    CFE_Status_t code = REAL(CFE_TBL_GetAddress)(address, handle);

    tell_call(number, "CFE_TBL_GetAddress");
    tell(" %d", (int)handle);
    tell_code(code);
    tell_image(number, handle, code, address == NULL ? NULL : *address);
    return end(code);
}

CFE_Status_t RECORDED(CFE_TBL_ReleaseAddress)(CFE_TBL_Handle_t handle)
{
    int number = begin();
    CFE_Status_t code = REAL(CFE_TBL_ReleaseAddress)(handle);

    look_at(number, handle, NULL);
    tell_call(number, "CFE_TBL_ReleaseAddress");
    tell(" %d", (int)handle);
    return end_with_code(code);
}

CFE_Status_t RECORDED(CFE_TBL_GetAddresses)(void **addresses[], uint16 count, const CFE_TBL_Handle_t handles[])
{
    int number = begin();
    CFE_Status_t code = REAL(CFE_TBL_GetAddresses)(addresses, count, handles);

    tell_call(number, "CFE_TBL_GetAddresses");
    for (uint16 at = 0; handles != NULL && at < count; at++)
        tell(" %d", (int)handles[at]);
    tell_code(code);
    for (uint16 at = 0; addresses != NULL && handles != NULL && at < count; at++)
        if (addresses[at] == NULL || *addresses[at] == NULL || (code != CFE_SUCCESS && code != CFE_TBL_INFO_UPDATED))
            tell(" bytes none");
        else
            tell_image(number, handles[at], CFE_SUCCESS, *addresses[at]);
    return end(code);
}

CFE_Status_t RECORDED(CFE_TBL_ReleaseAddresses)(uint16 count, const CFE_TBL_Handle_t handles[])
{
    int number = begin();
    CFE_Status_t code = REAL(CFE_TBL_ReleaseAddresses)(count, handles);

    tell_call(number, "CFE_TBL_ReleaseAddresses");
    for (uint16 at = 0; handles != NULL && at < count; at++) {
        look_at(number, handles[at], NULL);
        tell(" %d", (int)handles[at]);
    }
    return end_with_code(code);
}

/* What was written in place stands at the address that the handle has. */
CFE_Status_t RECORDED(CFE_TBL_Modified)(CFE_TBL_Handle_t handle)
{
    int number = begin();
    CFE_Status_t code = REAL(CFE_TBL_Modified)(handle);
    const struct known *known = find(tables, tables_known, (unsigned long)handle);

    tell_call(number, "CFE_TBL_Modified");
    tell(" %d", (int)handle);
    tell_code(code);
    if (code == CFE_SUCCESS && known != NULL && known->address != NULL) {
        see(known->address);
        tell(" bytes");
        tell_bytes(known->address, known->size);
    }
    return end(code);
}

CFE_Status_t RECORDED(CFE_TBL_NotifyByMessage)(CFE_TBL_Handle_t handle, CFE_SB_MsgId_t message, CFE_MSG_FcnCode_t function, uint32 parameter)
{
    int number = begin();
    CFE_Status_t code = REAL(CFE_TBL_NotifyByMessage)(handle, message, function, parameter);

    tell_call(number, "CFE_TBL_NotifyByMessage");
    tell(" %d 0x%04lX %u %lu", (int)handle, (unsigned long)CFE_SB_MsgIdToValue(message), (unsigned)function,
         (unsigned long)parameter);
    return end_with_code(code);
}

CFE_Status_t RECORDED(CFE_ES_RegisterCDS)(CFE_ES_CDSHandle_t *handle, size_t size, const char *name)
{
    int number = begin();
    CFE_Status_t code = REAL(CFE_ES_RegisterCDS)(handle, size, name);

    tell_call(number, "CFE_ES_RegisterCDS");
    tell_name(name, LONGEST_NAME);
    tell(" %lu", (unsigned long)size);
    tell_code(code);
    if (code == CFE_SUCCESS || code == CFE_ES_CDS_ALREADY_EXISTS) {
        remember(blocks, &blocks_known, CFE_RESOURCEID_TO_ULONG(*handle), size);
        tell(" handle %lu", CFE_RESOURCEID_TO_ULONG(*handle));
    }
    return end(code);
}

CFE_Status_t RECORDED(CFE_ES_CopyToCDS)(CFE_ES_CDSHandle_t handle, const void *from)
{
    int number = begin();
    CFE_Status_t code = REAL(CFE_ES_CopyToCDS)(handle, from);

    tell_call(number, "CFE_ES_CopyToCDS");
    tell(" %lu", CFE_RESOURCEID_TO_ULONG(handle));
    tell_bytes(from, from == NULL ? 0 : block_size(handle));
    return end_with_code(code);
}

CFE_Status_t RECORDED(CFE_ES_RestoreFromCDS)(void *into, CFE_ES_CDSHandle_t handle)
{
    int number = begin();
    CFE_Status_t code = REAL(CFE_ES_RestoreFromCDS)(into, handle);

    tell_call(number, "CFE_ES_RestoreFromCDS");
    tell(" %lu", CFE_RESOURCEID_TO_ULONG(handle));
    tell_code(code);
    if (code == CFE_SUCCESS) {
        tell(" bytes");
        tell_bytes(into, block_size(handle));
    }
    return end(code);
}

/* ---- ends, resets and commands */

#ifndef RECORD_ALONE
void RECORDED(CFE_ES_ExitApp)(uint32 status)
{
    int number = begin();

    tell("app %d exit\n", number);
    record_forget(number);
    leave();
    REAL(CFE_ES_ExitApp)(status);
}

/* After a reset each application tells again that it runs. */
CFE_Status_t RECORDED(CFE_ES_ResetCFE)(uint32 kind)
{
    tell_before();
    tell("reset %s\n", kind == CFE_PSP_RST_TYPE_PROCESSOR ? "processor" : "power-on");
    record_forget(0);
    apps_known = 0;
    fflush(file);
    leave();
    return REAL(CFE_ES_ResetCFE)(kind);
}

/* The payloads of commands (cfe_tbl_msg.h): a number that says which image, a table's name and a file's, each if the command has it. */
static const struct {
    const char *name;
    int has_select, has_table, has_file;
} commands[] = {
    { "NOOP", 0, 0, 0 },          { "RESET_COUNTERS", 0, 0, 0 }, { "LOAD", 0, 0, 1 },     { "DUMP", 1, 1, 1 },
    { "VALIDATE", 1, 1, 0 },      { "ACTIVATE", 0, 1, 0 },       { "DUMP_REGISTRY", 0, 0, 1 }, { "SEND_REGISTRY", 0, 1, 0 },
    { "DELETE_CDS", 0, 1, 0 },    { "ABORT_LOAD", 0, 1, 0 },
};

static void tell_payload(const unsigned char *at, CFE_MSG_FcnCode_t code)
{
    uint16 select;

    if (commands[code].has_select) {
        memcpy(&select, at, sizeof select);
        if (select > 1)
            tell(" %u", (unsigned)select);
        else
            tell("%s", select == 1 ? " active" : " inactive");
        at += sizeof select;
    }
    if (commands[code].has_table) {
        tell_name((const char *)at, CFE_MISSION_TBL_MAX_FULL_NAME_LEN);
        at += CFE_MISSION_TBL_MAX_FULL_NAME_LEN;
    }
    if (commands[code].has_file)
        tell_name((const char *)at, CFE_MISSION_MAX_PATH_LEN);
}

static size_t payload_size(CFE_MSG_FcnCode_t code)
{
    return (commands[code].has_select ? sizeof(uint16) : 0) + (commands[code].has_table ? CFE_MISSION_TBL_MAX_FULL_NAME_LEN : 0) +
           (commands[code].has_file ? CFE_MISSION_MAX_PATH_LEN : 0);
}

static void tell_command(const CFE_MSG_Message_t *message)
{
    const unsigned char *payload = (const unsigned char *)message + sizeof(CFE_MSG_CommandHeader_t);
    CFE_SB_MsgId_t id = CFE_SB_INVALID_MSG_ID;
    CFE_MSG_FcnCode_t code = 0;
    CFE_MSG_Size_t size = 0;

    CFE_MSG_GetMsgId(message, &id);
    CFE_MSG_GetFcnCode(message, &code);
    CFE_MSG_GetSize(message, &size);
    if (CFE_SB_MsgIdToValue(id) == CFE_TBL_SEND_HK_MID) {
        tell("ground HOUSEKEEPING\n");
    } else if (CFE_SB_MsgIdToValue(id) == CFE_TBL_CMD_MID && code < sizeof commands / sizeof commands[0]) {
        if (size != sizeof(CFE_MSG_CommandHeader_t) + payload_size(code)) {
            tell("# a command %s of another length, which cFE refuses\n", commands[code].name);
            return;
        }
        if (strcmp(commands[code].name, "LOAD") == 0)
            tell_file((const char *)payload);
        tell("ground %s", commands[code].name);
        tell_payload(payload, code);
        tell("\n");
    }
}

CFE_Status_t RECORDED(CFE_SB_TransmitMsg)(const CFE_MSG_Message_t *message, bool is_origination)
{
    tell_before();
    if (message != NULL)
        tell_command(message);
    leave();
    return REAL(CFE_SB_TransmitMsg)(message, is_origination);
}
#endif
