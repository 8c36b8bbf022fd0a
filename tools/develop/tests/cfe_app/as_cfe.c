/* as_cfe.c: the library for C as if it were a cFE with OSAL, so that the application of `cfetbl cfe-app` runs over it: tasks, files, the
   Software Bus and resets. Each line of standard input names a file with the lines of an application, and the log that it is to write.
   Each boot is a process of its own, so that nothing but preserved memory and files outlives a reset. AS_CFE_FAULT plants a fault. */
#define _GNU_SOURCE
#include "cfe.h"
#include "cfe_psp.h"
#include "cfetbl_calls.h"

#include <pthread.h>
#include <stdarg.h>
#include <stdio.h>
#include <stdlib.h>
#include <string.h>
#include <sys/wait.h>
#include <unistd.h>

enum { MOST_APPS = 17, MOST_FILES = 256, LONGEST = 64, BANK = 262144, PACKET = 256 };
/* How a boot ends. */
enum { DONE = 0, FAILED = 1, PROCESSOR = 10, POWER_ON = 11 };

/* ---- the lines */

static char *names[MOST_APPS], **lines;
static uint32 count, room;

const char *CFETBL_CALLS_App(uint32 Number)
{
    return Number < MOST_APPS ? names[Number] : NULL;
}

const char *CFETBL_CALLS_Line(uint32 Number)
{
    return Number < count ? lines[Number] : NULL;
}

static void forget_lines(void)
{
    for (int at = 0; at < MOST_APPS; at++) {
        free(names[at]);
        names[at] = NULL;
    }
    while (count > 0)
        free(lines[--count]);
}

static bool read_lines(const char *path)
{
    FILE *file = fopen(path, "r");
    char *line = NULL;
    size_t size = 0;
    int apps = 0;

    if (file == NULL)
        return false;
    forget_lines();
    while (getline(&line, &size, file) > 0) {
        line[strcspn(line, "\n")] = 0;
        if (strncmp(line, "app ", 4) == 0) {
            names[apps++] = strdup(line + 4);
            continue;
        }
        if (count == room)
            lines = realloc(lines, (room = 2 * room + 64) * sizeof *lines);
        lines[count++] = strdup(line);
    }
    free(line);
    fclose(file);
    return true;
}

/* ---- files: those of the file system, which outlive a reset, and are in the file store of the library too */

static struct {
    char name[LONGEST + 1];
    uint8 *at;
    size_t size;
} files[MOST_FILES];
static const char *folder;

static void path_of(char path[512], const char *name)
{
    snprintf(path, 512, "%s/%s", folder, name);
    for (char *at = path + strlen(folder) + 1; *at != 0; at++)
        if (*at == '/')
            *at = '!';
}

int32 OS_OpenCreate(osal_id_t *filedes, const char *path, int32 flags, int32 access_mode)
{
    char there[512];
    FILE *file;

    (void)flags;
    path_of(there, path);
    file = fopen(there, access_mode == OS_READ_ONLY ? "rb" : "wb");
    if (file == NULL)
        return OS_ERROR;
    for (osal_id_t at = 1; at < MOST_FILES; at++)
        if (files[at].name[0] == 0) {
            snprintf(files[at].name, sizeof files[at].name, "%s", path);
            files[at].at = (uint8 *)file;
            files[at].size = access_mode == OS_READ_ONLY ? 0 : 1;
            *filedes = at;
            return OS_SUCCESS;
        }
    fclose(file);
    return OS_ERROR;
}

int32 OS_read(osal_id_t filedes, void *buffer, size_t nbytes)
{
    return (int32)fread(buffer, 1, nbytes, (FILE *)(void *)files[filedes].at);
}

int32 OS_write(osal_id_t filedes, const void *buffer, size_t nbytes)
{
    return (int32)fwrite(buffer, 1, nbytes, (FILE *)(void *)files[filedes].at);
}

int32 OS_close(osal_id_t filedes)
{
    char there[512];

    fclose((FILE *)(void *)files[filedes].at);
    if (files[filedes].size == 1 && strncmp(files[filedes].name, "/ram/", 5) == 0) {
        path_of(there, files[filedes].name);
        (void)CFETBL_PutHostFile(files[filedes].name, there);
    }
    files[filedes].name[0] = 0;
    return OS_SUCCESS;
}

/* The file of the place goes once all is done. */
static bool is_done;

int32 OS_remove(const char *path)
{
    char there[512];

    path_of(there, path);
    unlink(there);
    is_done = true;
    return OS_SUCCESS;
}

/* ---- tasks: one runs at a time, until it delays itself or ends */

static __thread uint32 own;
static pthread_mutex_t turns = PTHREAD_MUTEX_INITIALIZER;
static pthread_cond_t turn[MOST_APPS];
static bool is_alive[MOST_APPS];
static uint32 running;
static int exits;

/* The turn goes to the next task that is alive. */
static void hand_on(void)
{
    for (uint32 step = 1; step <= MOST_APPS; step++)
        if (is_alive[(own + step) % MOST_APPS]) {
            running = (own + step) % MOST_APPS;
            break;
        }
    pthread_cond_signal(&turn[running]);
}

static void wait_for_turn(void)
{
    while (running != own)
        pthread_cond_wait(&turn[own], &turns);
}

static void begin_task(void)
{
    pthread_mutex_lock(&turns);
    wait_for_turn();
    pthread_mutex_unlock(&turns);
}

static void end_task(void)
{
    pthread_mutex_lock(&turns);
    is_alive[own] = false;
    hand_on();
    pthread_mutex_unlock(&turns);
    pthread_exit(NULL);
}

static void delay(void)
{
    pthread_mutex_lock(&turns);
    hand_on();
    wait_for_turn();
    pthread_mutex_unlock(&turns);
}

/* A long delay waits until an application has ended. */
int32 OS_TaskDelay(uint32 millisecond)
{
    do
        delay();
    while (millisecond >= CFETBL_CALLS_EXIT && exits == 0);
    if (millisecond >= CFETBL_CALLS_EXIT)
        exits = 0;
    return OS_SUCCESS;
}

bool CFE_ES_RunLoop(uint32 *RunStatus)
{
    if (is_done)
        end_task();
    return *RunStatus == CFE_ES_RunStatus_APP_RUN;
}

void CFE_ES_ExitApp(uint32 ExitStatus)
{
    (void)ExitStatus;
    (void)CFETBL_ExitApp();
    exits = 1;
    end_task();
}

CFE_Status_t CFE_ES_GetAppID(CFE_ES_AppId_t *AppIdPtr)
{
    *AppIdPtr = own + 1;
    return CFE_SUCCESS;
}

CFE_Status_t CFE_ES_GetAppName(char *AppName, CFE_ES_AppId_t AppId, size_t BufferLength)
{
    snprintf(AppName, BufferLength, "%s", names[AppId - 1]);
    return CFE_SUCCESS;
}

CFE_Status_t CFE_ES_WriteToSysLog(const char *SpecStringPtr, ...)
{
    (void)SpecStringPtr;
    return CFE_SUCCESS;
}

CFE_TIME_SysTime_t CFE_TIME_GetTime(void)
{
    CFE_TIME_SysTime_t now = {0, 0};

    return now;
}

/* Preserved memory is kept, and with a reset of the processor the next boot begins with it. */
CFE_Status_t CFE_ES_ResetCFE(uint32 ResetType)
{
    char path[512];
    FILE *file;

    path_of(path, "bank");
    file = fopen(path, "wb");
    if (file == NULL || fwrite(CFETBL_Bank(), 1, BANK, file) != BANK || fclose(file) != 0)
        _exit(FAILED);
    _exit(ResetType == CFE_PSP_RST_TYPE_PROCESSOR ? PROCESSOR : POWER_ON);
}

/* ---- the Software Bus: commands go to the library with their numbers and their checksum as it wants them */

CFE_Status_t CFE_MSG_Init(CFE_MSG_Message_t *MsgPtr, CFE_SB_MsgId_t MsgId, CFE_MSG_Size_t Size)
{
    uint32 id = CFE_SB_MsgIdToValue(MsgId);

    MsgPtr->Byte[0] = (uint8)(id >> 8);
    MsgPtr->Byte[1] = (uint8)id;
    MsgPtr->Byte[2] = 0xC0;
    MsgPtr->Byte[3] = 0;
    MsgPtr->Byte[4] = (uint8)((Size - 7) >> 8);
    MsgPtr->Byte[5] = (uint8)(Size - 7);
    return CFE_SUCCESS;
}

CFE_Status_t CFE_MSG_GetSize(const CFE_MSG_Message_t *MsgPtr, CFE_MSG_Size_t *Size)
{
    *Size = (size_t)(MsgPtr->Byte[4] << 8 | MsgPtr->Byte[5]) + 7;
    return CFE_SUCCESS;
}

CFE_Status_t CFE_MSG_GetMsgId(const CFE_MSG_Message_t *MsgPtr, CFE_SB_MsgId_t *MsgId)
{
    *MsgId = CFE_SB_ValueToMsgId((uint32)(MsgPtr->Byte[0] << 8 | MsgPtr->Byte[1]));
    return CFE_SUCCESS;
}

CFE_Status_t CFE_MSG_SetFcnCode(CFE_MSG_Message_t *MsgPtr, CFE_MSG_FcnCode_t FcnCode)
{
    ((CFE_MSG_CommandHeader_t *)(void *)MsgPtr)->FunctionCode = (uint8)FcnCode;
    return CFE_SUCCESS;
}

CFE_Status_t CFE_MSG_GetFcnCode(const CFE_MSG_Message_t *MsgPtr, CFE_MSG_FcnCode_t *FcnCode)
{
    *FcnCode = ((const CFE_MSG_CommandHeader_t *)(const void *)MsgPtr)->FunctionCode;
    return CFE_SUCCESS;
}

/* Files that were asked for are in the file system once they are written. */
static char dumps[MOST_FILES][LONGEST + 1];

static void keep_dumps(void)
{
    char path[512];
    const void *at;
    size_t size;

    for (int number = 0; number < MOST_FILES && dumps[number][0] != 0; number++) {
        FILE *file;

        at = CFETBL_GetFile(dumps[number], &size);
        path_of(path, dumps[number]);
        file = at == NULL ? NULL : fopen(path, "wb");
        if (file != NULL) {
            fwrite(at, 1, size, file);
            fclose(file);
        }
    }
}

static void note_dump(const uint8 *name)
{
    int at = 0;

    while (at < MOST_FILES && dumps[at][0] != 0 && strncmp(dumps[at], (const char *)name, LONGEST) != 0)
        at++;
    if (at < MOST_FILES)
        snprintf(dumps[at], sizeof dumps[at], "%.*s", LONGEST, (const char *)name);
}

CFE_Status_t CFE_SB_TransmitMsg(const CFE_MSG_Message_t *MsgPtr, bool IsOrigination)
{
    uint8 packet[PACKET], sum = 0xFF;
    CFE_MSG_Size_t size;
    uint16 select;

    (void)IsOrigination;
    CFE_MSG_GetSize(MsgPtr, &size);
    memcpy(packet, MsgPtr, size);
    if (packet[1] == 0x04 && (packet[6] == 3 || packet[6] == 4)) {
        memcpy(&select, packet + 8, sizeof select);
        packet[8] = (uint8)(select >> 8);
        packet[9] = (uint8)select;
    }
    if (packet[1] == 0x04 && (packet[6] == 3 || packet[6] == 6))
        note_dump(packet + size - LONGEST);
    packet[7] = 0;
    for (size_t at = 0; at < size; at++)
        sum ^= packet[at];
    packet[7] = sum;
    (void)CFETBL_Command(packet, size);
    if (packet[1] == 0x0C || packet[6] == 3 || packet[6] == 6)
        keep_dumps();
    return CFE_SUCCESS;
}

/* ---- boots */

static uint64_t session;

static void *task(void *number)
{
    own = (uint32)(uintptr_t)number;
    begin_task();
    if (!CFETBL_Join(session) || (own > 0 && !CFETBL_StartApp((int)own, names[own])))
        _exit(FAILED);
    CFETBL_CALLS_Main();
    return NULL;
}

/* Files that were there before the reset. */
static void put_files(void)
{
    char name[LONGEST], path[512];

    for (int number = 0; number < MOST_FILES; number++) {
        snprintf(name, sizeof name, "/ram/f%d", number);
        path_of(path, name);
        if (access(path, R_OK) == 0 && !CFETBL_PutHostFile(name, path))
            _exit(FAILED);
    }
}

static void boot(const char *log, bool has_bank)
{
    static uint8 bank[BANK];
    pthread_t tasks[MOST_APPS];
    char path[512];
    int number;
    FILE *file;

    setenv("CFETBL_LOG", log, 1);
    path_of(path, "bank");
    file = has_bank ? fopen(path, "rb") : NULL;
    if (file != NULL && fread(bank, 1, BANK, file) != BANK)
        _exit(FAILED);
    if (!CFETBL_Open(file != NULL ? bank : NULL))
        _exit(FAILED);
    session = CFETBL_Session();
    put_files();
    for (number = 0; number < MOST_APPS && names[number] != NULL; number++) {
        pthread_cond_init(&turn[number], NULL);
        is_alive[number] = true;
    }
    for (number = 0; number < MOST_APPS && names[number] != NULL; number++)
        pthread_create(&tasks[number], NULL, task, (void *)(uintptr_t)number);
    while (number > 0)
        pthread_join(tasks[--number], NULL);
    CFETBL_Close();
    exit(DONE);
}

static bool run(const char *log)
{
    bool has_bank = false;
    int status;

    for (;;) {
        pid_t child = fork();

        if (child == 0)
            boot(log, has_bank);
        if (waitpid(child, &status, 0) != child || !WIFEXITED(status))
            return false;
        if (WEXITSTATUS(status) != PROCESSOR && WEXITSTATUS(status) != POWER_ON)
            return WEXITSTATUS(status) == DONE;
        has_bank = WEXITSTATUS(status) == PROCESSOR;
    }
}

int main(void)
{
    char path[1024], log[1024], command[1200];
    char template[] = "/tmp/as_cfe.XXXXXX";

    folder = mkdtemp(template);
    while (scanf("%1023s %1023s", path, log) == 2) {
        snprintf(command, sizeof command, "rm -f %s/*", folder);
        if (folder == NULL || system(command) != 0 || !read_lines(path) || !run(log)) {
            printf("as_cfe: %s failed\n", path);
            return FAILED;
        }
    }
    rmdir(folder);
    return DONE;
}

/* ---- faults, which AS_CFE_FAULT plants: each lets one call answer otherwise */

static bool has_fault(int number)
{
    const char *planted = getenv("AS_CFE_FAULT");

    return planted != NULL && atoi(planted) == number;
}

static CFE_Status_t changed(int number, CFE_Status_t code, CFE_Status_t from, CFE_Status_t to)
{
    return code == from && has_fault(number) ? to : code;
}

#define REAL(call) extern __typeof__(call) __real_##call, __wrap_##call;
REAL(CFE_TBL_Register)
REAL(CFE_TBL_Share)
REAL(CFE_TBL_Load)
REAL(CFE_TBL_Update)
REAL(CFE_TBL_Manage)
REAL(CFE_TBL_GetStatus)
REAL(CFE_TBL_GetInfo)
REAL(CFE_TBL_GetAddress)
REAL(CFE_ES_RestoreFromCDS)

CFE_Status_t __wrap_CFE_TBL_Register(CFE_TBL_Handle_t *handle, const char *name, size_t size, uint16 options, CFE_TBL_CallbackFuncPtr_t function)
{
    return changed(1, __real_CFE_TBL_Register(handle, name, size, options, function), CFE_TBL_INFO_RECOVERED_TBL, CFE_SUCCESS);
}

CFE_Status_t __wrap_CFE_TBL_Share(CFE_TBL_Handle_t *handle, const char *name)
{
    return changed(2, __real_CFE_TBL_Share(handle, name), CFE_SUCCESS, CFE_TBL_ERR_INVALID_NAME);
}

CFE_Status_t __wrap_CFE_TBL_Load(CFE_TBL_Handle_t handle, CFE_TBL_SrcEnum_t kind, const void *source)
{
    CFE_Status_t code = __real_CFE_TBL_Load(handle, kind, source);

    return changed(3, changed(4, code, CFE_TBL_ERR_LOAD_IN_PROGRESS, CFE_SUCCESS), CFE_SUCCESS, CFE_TBL_INFO_TABLE_LOCKED);
}

CFE_Status_t __wrap_CFE_TBL_Update(CFE_TBL_Handle_t handle)
{
    return changed(5, __real_CFE_TBL_Update(handle), CFE_SUCCESS, CFE_TBL_INFO_NO_UPDATE_PENDING);
}

CFE_Status_t __wrap_CFE_TBL_Manage(CFE_TBL_Handle_t handle)
{
    return changed(6, __real_CFE_TBL_Manage(handle), CFE_TBL_INFO_UPDATED, CFE_SUCCESS);
}

CFE_Status_t __wrap_CFE_TBL_GetStatus(CFE_TBL_Handle_t handle)
{
    return changed(7, __real_CFE_TBL_GetStatus(handle), CFE_TBL_INFO_DUMP_PENDING, CFE_TBL_ERR_UNREGISTERED);
}

CFE_Status_t __wrap_CFE_TBL_GetInfo(CFE_TBL_Info_t *info, const char *name)
{
    CFE_Status_t code = __real_CFE_TBL_GetInfo(info, name);

    info->Critical = info->Critical != has_fault(8);
    return code;
}

CFE_Status_t __wrap_CFE_TBL_GetAddress(void **address, CFE_TBL_Handle_t handle)
{
    static uint8 other[16384];
    CFE_Status_t code = __real_CFE_TBL_GetAddress(address, handle);

    if (has_fault(9) && code == CFE_TBL_INFO_UPDATED)
        *address = other;
    return code;
}

CFE_Status_t __wrap_CFE_ES_RestoreFromCDS(void *into, CFE_ES_CDSHandle_t handle)
{
    CFE_Status_t code = __real_CFE_ES_RestoreFromCDS(into, handle);

    if (has_fault(10) && code == CFE_SUCCESS)
        ((uint8 *)into)[0] ^= 1;
    return code;
}
