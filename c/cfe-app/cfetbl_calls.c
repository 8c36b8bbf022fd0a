/* SPDX-License-Identifier: Apache-2.0 */
/* cfetbl_calls.c: applications of cFE that make the calls of sessions, one after the other, each application its own. record.c records
 * them in calls.log. `cfetbl cfe-app` writes this file, and `cfetbl compare` compares the log.
 *
 * All applications are this module under several names, so they have its data in common, as on Linux. Whose turn it is says the first
 * number of the next line; application 0 plays the ground. */
#include "cfe.h"
#include "cfe_msgids.h"
#include "cfe_psp.h"
#include "cfetbl_calls.h"
#include "record.h"
#include "record_direct.h"

#include <stdlib.h>
#include <string.h>

#define CALLS_HANDLES 256
#define CALLS_BLOCKS 128
#define CALLS_BYTES 32768
#define CALLS_WORD 160
#define CALLS_NONE 0xFFFFFFFFu

/* A command to Table Services: its payload has a number that says which image, a table's name and a file's, each if it has it. */
typedef struct {
    CFE_MSG_CommandHeader_t Header;
    uint8 Payload[sizeof(uint16) + CFE_MISSION_TBL_MAX_FULL_NAME_LEN + CFE_MISSION_MAX_PATH_LEN];
} CALLS_Command_t;

/* A place in the lines. */
typedef struct {
    uint32 Line;
    const char *At;
} CALLS_Cursor_t;

static struct {
    uint32 At;        /* the line that is next */
    uint32 IsReady;   /* whether `At` is right */
    uint32 IsLeaving; /* whether the application of this line ends */
    bool IsEnded;
    CFE_TBL_Handle_t Handles[CALLS_HANDLES];
    bool HasHandle[CALLS_HANDLES];
    size_t Sizes[CALLS_HANDLES];
    size_t Judged; /* how many bytes the table has whose validation function may be called */
    CFE_ES_CDSHandle_t Blocks[CALLS_BLOCKS];
    bool HasBlock[CALLS_BLOCKS];
    uint8 Bytes[CALLS_BYTES];
    uint8 Restored[CALLS_BYTES];
} CALLS_Data;

static uint32 CALLS_Load(const uint32 *From)
{
    return __atomic_load_n(From, __ATOMIC_ACQUIRE);
}

static void CALLS_Store(uint32 *To, uint32 Value)
{
    __atomic_store_n(To, Value, __ATOMIC_RELEASE);
}

/* ---- words of a line */

static bool CALLS_IsDigit(char Char)
{
    return (Char >= '0' && Char <= '9') || (Char >= 'A' && Char <= 'F');
}

static uint8 CALLS_Digit(char Char)
{
    return (uint8)(Char <= '9' ? Char - '0' : Char - 'A' + 10);
}

/* The next word, in which %XX is any byte; empty at the end of the line. */
static void CALLS_Word(CALLS_Cursor_t *Cursor, char Word[CALLS_WORD])
{
    size_t Length = 0;

    while (*Cursor->At == ' ') {
        Cursor->At += 1;
    }
    while (*Cursor->At != ' ' && *Cursor->At != 0 && Length + 1 < CALLS_WORD) {
        if (Cursor->At[0] == '%' && CALLS_IsDigit(Cursor->At[1]) && CALLS_IsDigit(Cursor->At[2])) {
            Word[Length] = (char)(CALLS_Digit(Cursor->At[1]) << 4 | CALLS_Digit(Cursor->At[2]));
            Cursor->At += 3;
        } else {
            Word[Length] = *Cursor->At;
            Cursor->At += 1;
        }
        Length += 1;
    }
    /* A word of % alone is an empty one. */
    Word[Length == 1 && Word[0] == '%' ? 0 : Length] = 0;
}

static uint32 CALLS_Number(CALLS_Cursor_t *Cursor)
{
    char Word[CALLS_WORD];

    CALLS_Word(Cursor, Word);
    return (uint32)strtoul(Word, NULL, 0);
}

/* Goes on in the next line if that goes on with this one. */
static bool CALLS_GoOn(CALLS_Cursor_t *Cursor)
{
    const char *Next = CFETBL_CALLS_Line(Cursor->Line + 1);

    if (Next == NULL || Next[0] != '+') {
        return false;
    }
    Cursor->Line += 1;
    Cursor->At = Next + 1;
    return true;
}

/* The next byte of a word, in hexadecimal. */
static uint8 CALLS_Byte(CALLS_Cursor_t *Cursor)
{
    uint8 Byte = (uint8)(CALLS_Digit(Cursor->At[0]) << 4 | CALLS_Digit(Cursor->At[1]));

    Cursor->At += 2;
    return Byte;
}

/* How often a byte stands in a row: once, or as *N after it says. */
static size_t CALLS_Count(CALLS_Cursor_t *Cursor)
{
    char *End;
    size_t Count;

    if (*Cursor->At != '*') {
        return 1;
    }
    Count = strtoul(Cursor->At + 1, &End, 10);
    Cursor->At = End;
    return Count;
}

/* All bytes that are left, on the lines too that go on with this one. */
static size_t CALLS_ReadBytes(CALLS_Cursor_t *Cursor)
{
    size_t Length = 0, Count;
    uint8 Byte;

    do {
        while (*Cursor->At == ' ' || (CALLS_IsDigit(Cursor->At[0]) && CALLS_IsDigit(Cursor->At[1]))) {
            if (*Cursor->At == ' ') {
                Cursor->At += 1;
                continue;
            }
            Byte = CALLS_Byte(Cursor);
            for (Count = CALLS_Count(Cursor); Count > 0 && Length < CALLS_BYTES; Count--) {
                CALLS_Data.Bytes[Length] = Byte;
                Length += 1;
            }
        }
    } while (CALLS_GoOn(Cursor));
    return Length;
}

/* ---- handles, by the numbers that the sessions have for them */

static uint32 CALLS_HandleNumber(CALLS_Cursor_t *Cursor)
{
    uint32 Number = CALLS_Number(Cursor);

    return Number < CALLS_HANDLES ? Number : CALLS_NONE;
}

static CFE_TBL_Handle_t CALLS_Handle(uint32 Number)
{
    return Number < CALLS_HANDLES && CALLS_Data.HasHandle[Number] ? CALLS_Data.Handles[Number] : CFE_TBL_BAD_TABLE_HANDLE;
}

static CFE_TBL_Handle_t CALLS_NextHandle(CALLS_Cursor_t *Cursor)
{
    uint32 Number = CALLS_HandleNumber(Cursor);

    CALLS_Data.Judged = Number < CALLS_HANDLES ? CALLS_Data.Sizes[Number] : 0;
    return CALLS_Handle(Number);
}

/* Keeps a handle that a call gave, if it gave one. */
static void CALLS_Keep(uint32 Number, CFE_TBL_Handle_t Handle, size_t Size, CFE_Status_t Status)
{
    if (Number < CALLS_HANDLES) {
        CALLS_Data.Handles[Number] = Handle;
        CALLS_Data.HasHandle[Number] = Status >= CFE_SUCCESS;
        CALLS_Data.Sizes[Number] = Size;
    }
}

static CFE_ES_CDSHandle_t CALLS_NextBlock(CALLS_Cursor_t *Cursor)
{
    uint32 Number = CALLS_Number(Cursor);

    return Number < CALLS_BLOCKS && CALLS_Data.HasBlock[Number] ? CALLS_Data.Blocks[Number] : CFE_ES_CDS_BAD_HANDLE;
}

/* ---- validation functions, as the sessions have them */

static int32 CALLS_FirstByte(void *Table)
{
    return ((const uint8 *)Table)[0] == 0 ? -5 : CFE_SUCCESS;
}

static int32 CALLS_LastXor(void *Table)
{
    const uint8 *Bytes = Table;
    uint8 Sum = 0;
    size_t Place;

    for (Place = 0; Place + 1 < CALLS_Data.Judged; Place++) {
        Sum ^= Bytes[Place];
    }
    return CALLS_Data.Judged > 0 && Bytes[CALLS_Data.Judged - 1] == Sum ? CFE_SUCCESS : -7;
}

static CFE_TBL_CallbackFuncPtr_t CALLS_Function(const char *Word)
{
    if (strcmp(Word, "first") == 0) {
        return CALLS_FirstByte;
    }
    return strcmp(Word, "xor") == 0 ? CALLS_LastXor : NULL;
}

/* ---- calls */

static void CALLS_Register(CALLS_Cursor_t *Cursor)
{
    CFE_TBL_Handle_t Handle = CFE_TBL_BAD_TABLE_HANDLE;
    char Name[CALLS_WORD], Function[CALLS_WORD];
    uint32 Number = CALLS_HandleNumber(Cursor);
    CFE_Status_t Status;
    uint16 Options;
    size_t Size;

    CALLS_Word(Cursor, Name);
    Size = CALLS_Number(Cursor);
    Options = (uint16)CALLS_Number(Cursor);
    CALLS_Word(Cursor, Function);
    Status = CFE_TBL_Register(&Handle, Name, Size, Options, CALLS_Function(Function));
    CALLS_Keep(Number, Handle, Size, Status);
}

static void CALLS_Share(CALLS_Cursor_t *Cursor)
{
    CFE_TBL_Handle_t Handle = CFE_TBL_BAD_TABLE_HANDLE;
    uint32 Number = CALLS_HandleNumber(Cursor);
    CFE_Status_t Status;
    char Name[CALLS_WORD];

    CALLS_Word(Cursor, Name);
    Status = CFE_TBL_Share(&Handle, Name);
    CALLS_Keep(Number, Handle, 0, Status);
}

static void CALLS_LoadImage(CALLS_Cursor_t *Cursor)
{
    CFE_TBL_Handle_t Handle = CALLS_NextHandle(Cursor);

    CALLS_ReadBytes(Cursor);
    CFE_TBL_Load(Handle, CFE_TBL_SRC_ADDRESS, CALLS_Data.Bytes);
}

static void CALLS_LoadFile(CALLS_Cursor_t *Cursor)
{
    CFE_TBL_Handle_t Handle = CALLS_NextHandle(Cursor);
    char Name[CALLS_WORD];

    CALLS_Word(Cursor, Name);
    CFE_TBL_Load(Handle, CFE_TBL_SRC_FILE, Name);
}

static void CALLS_Get(CALLS_Cursor_t *Cursor)
{
    void *Address = NULL;

    CFE_TBL_GetAddress(&Address, CALLS_NextHandle(Cursor));
}

/* The owner of a dump-only table writes over a part of it. */
static void CALLS_Edit(CALLS_Cursor_t *Cursor)
{
    CFE_TBL_Handle_t Handle = CALLS_NextHandle(Cursor);
    size_t Offset = CALLS_Number(Cursor), Length = CALLS_ReadBytes(Cursor);
    void *Address = NULL;

    if (CFE_TBL_GetAddress(&Address, Handle) >= CFE_SUCCESS) {
        memcpy((uint8 *)Address + Offset, CALLS_Data.Bytes, Length);
        CFE_TBL_ReleaseAddress(Handle);
    }
}

static void CALLS_GetInfo(CALLS_Cursor_t *Cursor)
{
    char Name[CALLS_WORD];
    CFE_TBL_Info_t Info;

    CALLS_Word(Cursor, Name);
    CFE_TBL_GetInfo(&Info, Name);
}

static void CALLS_Notify(CALLS_Cursor_t *Cursor)
{
    CFE_TBL_Handle_t Handle = CALLS_NextHandle(Cursor);
    CFE_SB_MsgId_t Message = CFE_SB_ValueToMsgId(CALLS_Number(Cursor));
    CFE_MSG_FcnCode_t Code = (CFE_MSG_FcnCode_t)CALLS_Number(Cursor);

    CFE_TBL_NotifyByMessage(Handle, Message, Code, CALLS_Number(Cursor));
}

static void CALLS_RegisterBlock(CALLS_Cursor_t *Cursor)
{
    CFE_ES_CDSHandle_t Handle = CFE_ES_CDS_BAD_HANDLE;
    uint32 Number = CALLS_Number(Cursor);
    CFE_Status_t Status;
    char Name[CALLS_WORD];

    CALLS_Word(Cursor, Name);
    Status = CFE_ES_RegisterCDS(&Handle, CALLS_Number(Cursor), Name);
    if (Number < CALLS_BLOCKS && (Status == CFE_SUCCESS || Status == CFE_ES_CDS_ALREADY_EXISTS)) {
        CALLS_Data.Blocks[Number] = Handle;
        CALLS_Data.HasBlock[Number] = true;
    }
}

static void CALLS_CopyBlock(CALLS_Cursor_t *Cursor)
{
    CFE_ES_CDSHandle_t Handle = CALLS_NextBlock(Cursor);

    CALLS_ReadBytes(Cursor);
    CFE_ES_CopyToCDS(Handle, CALLS_Data.Bytes);
}

static void CALLS_RestoreBlock(CALLS_Cursor_t *Cursor)
{
    CFE_ES_RestoreFromCDS(CALLS_Data.Restored, CALLS_NextBlock(Cursor));
}

/* The calls by a handle alone. */
static void CALLS_Unregister(CALLS_Cursor_t *Cursor)
{
    CFE_TBL_Unregister(CALLS_NextHandle(Cursor));
}

static void CALLS_Update(CALLS_Cursor_t *Cursor)
{
    CFE_TBL_Update(CALLS_NextHandle(Cursor));
}

static void CALLS_Validate(CALLS_Cursor_t *Cursor)
{
    CFE_TBL_Validate(CALLS_NextHandle(Cursor));
}

static void CALLS_Manage(CALLS_Cursor_t *Cursor)
{
    CFE_TBL_Manage(CALLS_NextHandle(Cursor));
}

static void CALLS_DumpToBuffer(CALLS_Cursor_t *Cursor)
{
    CFE_TBL_DumpToBuffer(CALLS_NextHandle(Cursor));
}

static void CALLS_Release(CALLS_Cursor_t *Cursor)
{
    CFE_TBL_ReleaseAddress(CALLS_NextHandle(Cursor));
}

static void CALLS_GetStatus(CALLS_Cursor_t *Cursor)
{
    CFE_TBL_GetStatus(CALLS_NextHandle(Cursor));
}

/* The last call of an application. Application 0 goes on once Executive Services have had the time to clean up. */
static void CALLS_Exit(CALLS_Cursor_t *Cursor)
{
    (void)Cursor;
    CALLS_Store(&CALLS_Data.IsLeaving, 1);
    CFE_ES_ExitApp(CFE_ES_RunStatus_APP_EXIT);
}

/* ---- what the ground does */

static void CALLS_Write(const char *Name, const void *Bytes, size_t Length)
{
    osal_id_t File;

    if (OS_OpenCreate(&File, Name, OS_FILE_FLAG_CREATE | OS_FILE_FLAG_TRUNCATE, OS_WRITE_ONLY) != OS_SUCCESS) {
        CFE_ES_WriteToSysLog("CFETBL_CALLS: %s can't be written\n", Name);
        return;
    }
    OS_write(File, Bytes, Length);
    OS_close(File);
}

static void CALLS_File(CALLS_Cursor_t *Cursor)
{
    char Name[CALLS_WORD];
    size_t Length;

    CALLS_Word(Cursor, Name);
    Length = CALLS_ReadBytes(Cursor);
    CALLS_Write(Name, CALLS_Data.Bytes, Length);
}

static void CALLS_Send(CALLS_Command_t *Command, CFE_SB_MsgId_Atom_t Message, CFE_MSG_FcnCode_t Code, size_t Length)
{
    CFE_MSG_Init(&Command->Header.Msg, CFE_SB_ValueToMsgId(Message), sizeof(Command->Header) + Length);
    CFE_MSG_SetFcnCode(&Command->Header.Msg, Code);
    CFE_SB_TransmitMsg(&Command->Header.Msg, true);
    OS_TaskDelay(CFETBL_CALLS_COMMAND);
}

/* Puts a name field of so many bytes into a payload, unless the word is -. */
static size_t CALLS_PutName(CALLS_Cursor_t *Cursor, uint8 *To, size_t Width)
{
    char Word[CALLS_WORD];
    size_t Length;

    CALLS_Word(Cursor, Word);
    if (strcmp(Word, "-") == 0) {
        return 0;
    }
    Length = strlen(Word);
    memcpy(To, Word, Length < Width ? Length : Width);
    return Width;
}

static void CALLS_Command(CALLS_Cursor_t *Cursor)
{
    static CALLS_Command_t Command;
    CFE_MSG_FcnCode_t Code = (CFE_MSG_FcnCode_t)CALLS_Number(Cursor);
    char Word[CALLS_WORD];
    size_t Length = 0;

    memset(&Command, 0, sizeof(Command));
    CALLS_Word(Cursor, Word);
    if (strcmp(Word, "-") != 0) {
        uint16 Select = (uint16)strtoul(Word, NULL, 0);

        memcpy(Command.Payload, &Select, sizeof(Select));
        Length = sizeof(Select);
    }
    Length += CALLS_PutName(Cursor, Command.Payload + Length, CFE_MISSION_TBL_MAX_FULL_NAME_LEN);
    Length += CALLS_PutName(Cursor, Command.Payload + Length, CFE_MISSION_MAX_PATH_LEN);
    CALLS_Send(&Command, CFE_TBL_CMD_MID, Code, Length);
}

static void CALLS_Housekeeping(CALLS_Cursor_t *Cursor)
{
    static CALLS_Command_t Command;

    (void)Cursor;
    memset(&Command, 0, sizeof(Command));
    CALLS_Send(&Command, CFE_TBL_SEND_HK_MID, 0, 0);
}

/* The next line is kept in a file, with which all goes on after the reset. */
static void CALLS_Reset(CALLS_Cursor_t *Cursor)
{
    uint32 Kind = CALLS_Number(Cursor), Next = Cursor->Line + 1;

    CALLS_Write(CFETBL_CALLS_PLACE, &Next, sizeof(Next));
    CFE_ES_ResetCFE(Kind == 1 ? CFE_PSP_RST_TYPE_PROCESSOR : CFE_PSP_RST_TYPE_POWERON);
    OS_TaskDelay(CFETBL_CALLS_EXIT);
}

/* ---- turns */

static const struct {
    const char *Name;
    void (*Do)(CALLS_Cursor_t *Cursor);
} CALLS_Table[] = {
    {"register", CALLS_Register},     {"share", CALLS_Share},
    {"unregister", CALLS_Unregister}, {"load", CALLS_LoadImage},
    {"load-file", CALLS_LoadFile},    {"update", CALLS_Update},
    {"validate", CALLS_Validate},     {"manage", CALLS_Manage},
    {"dump-to-buffer", CALLS_DumpToBuffer}, {"get", CALLS_Get},
    {"release", CALLS_Release},       {"get-status", CALLS_GetStatus},
    {"get-info", CALLS_GetInfo},      {"notify", CALLS_Notify},
    {"edit", CALLS_Edit},             {"cds-register", CALLS_RegisterBlock},
    {"cds-copy", CALLS_CopyBlock},    {"cds-restore", CALLS_RestoreBlock},
    {"exit", CALLS_Exit},             {"file", CALLS_File},
    {"command", CALLS_Command},       {"housekeeping", CALLS_Housekeeping},
    {"reset", CALLS_Reset},
};

/* Goes on with the line after the one at the cursor. */
static void CALLS_Next(CALLS_Cursor_t *Cursor)
{
    while (CALLS_GoOn(Cursor)) {
    }
    CALLS_Store(&CALLS_Data.At, Cursor->Line + 1);
}

/* Makes the next line's call if it is this application's turn. */
static bool CALLS_TakeTurn(uint32 App)
{
    CALLS_Cursor_t Cursor;
    char Word[CALLS_WORD];
    size_t Place;

    Cursor.Line = CALLS_Load(&CALLS_Data.At);
    Cursor.At = CFETBL_CALLS_Line(Cursor.Line);
    if (Cursor.At == NULL || CALLS_Number(&Cursor) != App) {
        return false;
    }
    CALLS_Word(&Cursor, Word);
    for (Place = 0; Place < sizeof(CALLS_Table) / sizeof(CALLS_Table[0]); Place++) {
        if (strcmp(Word, CALLS_Table[Place].Name) == 0) {
            CALLS_Table[Place].Do(&Cursor);
        }
    }
    CALLS_Next(&Cursor);
    return true;
}

/* After the last line the log gets its end. */
static void CALLS_End(void)
{
    if (!CALLS_Data.IsEnded && CFETBL_CALLS_Line(CALLS_Load(&CALLS_Data.At)) == NULL) {
        CALLS_Data.IsEnded = true;
        record_end();
        OS_remove(CFETBL_CALLS_PLACE);
        CFE_ES_WriteToSysLog("CFETBL_CALLS: all calls were made, and calls.log has them\n");
    }
}

/* Application 0 goes on after one that has ended. */
static void CALLS_AfterExit(void)
{
    CALLS_Cursor_t Cursor;

    if (CALLS_Load(&CALLS_Data.IsLeaving) != 0) {
        OS_TaskDelay(CFETBL_CALLS_EXIT);
        CALLS_Store(&CALLS_Data.IsLeaving, 0);
        Cursor.Line = CALLS_Load(&CALLS_Data.At);
        Cursor.At = CFETBL_CALLS_Line(Cursor.Line);
        CALLS_Next(&Cursor);
    }
}

/* ---- the applications */

static uint32 CALLS_OwnNumber(void)
{
    char Name[CALLS_WORD] = "";
    CFE_ES_AppId_t AppId;
    uint32 Number = 0;

    if (CFE_ES_GetAppID(&AppId) != CFE_SUCCESS || CFE_ES_GetAppName(Name, AppId, sizeof(Name)) != CFE_SUCCESS) {
        return CALLS_NONE;
    }
    while (CFETBL_CALLS_App(Number) != NULL && strcmp(CFETBL_CALLS_App(Number), Name) != 0) {
        Number += 1;
    }
    return CFETBL_CALLS_App(Number) == NULL ? CALLS_NONE : Number;
}

/* Application 0 finds out whether all goes on after a reset. */
static void CALLS_Begin(void)
{
    osal_id_t File;
    uint32 Place = 0;

    if (OS_OpenCreate(&File, CFETBL_CALLS_PLACE, OS_FILE_FLAG_NONE, OS_READ_ONLY) == OS_SUCCESS) {
        if (OS_read(File, &Place, sizeof(Place)) == (int32)sizeof(Place)) {
            record_go_on();
        }
        OS_close(File);
    }
    CALLS_Store(&CALLS_Data.At, Place);
    CALLS_Store(&CALLS_Data.IsReady, 1);
}

void CFETBL_CALLS_Main(void)
{
    uint32 RunStatus = CFE_ES_RunStatus_APP_RUN, App = CALLS_OwnNumber();

    if (App == CALLS_NONE) {
        CFE_ES_WriteToSysLog("CFETBL_CALLS: no application of this name has calls to make\n");
        RunStatus = CFE_ES_RunStatus_APP_ERROR;
    } else if (App == 0) {
        CALLS_Begin();
    }
    while (CFE_ES_RunLoop(&RunStatus)) {
        bool IsReady = CALLS_Load(&CALLS_Data.IsReady) != 0;

        if (!IsReady || CALLS_Load(&CALLS_Data.IsLeaving) != 0 || !CALLS_TakeTurn(App)) {
            OS_TaskDelay(CFETBL_CALLS_PAUSE);
        }
        if (App == 0) {
            CALLS_AfterExit();
            CALLS_End();
        }
    }
    CFE_ES_ExitApp(RunStatus);
}
