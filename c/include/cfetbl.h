/* SPDX-License-Identifier: Apache-2.0 */
/* cfetbl.h: the calls of cFE Table Services and of the Critical Data Store, for applications that run on the developer's machine.
 *
 * An application's C code calls CFE_TBL_Register, CFE_TBL_GetAddress, CFE_TBL_Load, CFE_TBL_Manage and their kin by cFE's names, and a test
 * calls the functions with CFETBL_ below, which do what cFE and the ground do: start an application, uplink a file, send a command,
 * reset the processor. docs/reference/cfe.md says where this service differs from cFE.
 *
 * The calls are those of edition 7 of cFE's API ('Caelum'). With CFETBL_CFE_VERSION 607, for this file and for cfetbl.c, three of them are
 * as in 6.7: CFE_TBL_Register takes a uint32 as size, CFE_ES_RegisterCDS an int32, and CFE_ES_CopyToCDS a void pointer that isn't const.
 *
 * With CFETBL_WITH_CFE the types and return codes are those of the application's own cFE headers, which have to be on the include path
 * as "cfe.h", for this file and for cfetbl.c. Else they are those of cfetbl_cfe.h: names and meanings of cFE's public headers, with
 * values that are cFE's as far as this project knows them.
 *
 * A service belongs to the test and not to a thread: each thread that the application starts calls the same one, and one call is made after
 * the other. A function that says false, or gives NULL or CFETBL_NOT_PLAYED, says why on standard error and in CFETBL_LastMessage. */
#ifndef CFETBL_H
#define CFETBL_H

#include <stdbool.h>
#include <stddef.h>
#include <stdint.h>

#ifndef CFETBL_CFE_VERSION
#define CFETBL_CFE_VERSION 700
#endif
#if CFETBL_CFE_VERSION != 700 && CFETBL_CFE_VERSION != 607
#error "CFETBL_CFE_VERSION is 700 or 607"
#endif

#ifdef CFETBL_WITH_CFE
#include "cfe.h"
#else
#include "cfetbl_cfe.h"
#endif
#include "cfetbl_status.h"

#include "cfetbl_version.h"

#ifdef __cplusplus
extern "C" {
#endif

/* ---- the calls by names of this library's own. cFE's names are weak functions that call these: a stub may take their place
 * (cfetbl_ut.h) */

#if defined CFETBL_WITH_CFE && CFETBL_CFE_VERSION == 607
typedef uint32 CFETBL_TableSize_t;
typedef int32 CFETBL_BlockSize_t;
typedef void *CFETBL_CopySource_t;
#else
typedef size_t CFETBL_TableSize_t;
typedef size_t CFETBL_BlockSize_t;
typedef const void *CFETBL_CopySource_t;
#endif
typedef uint16 CFETBL_FcnCode_t;

/* The number of a message id, which is a plain number in 6.7. */
#if CFETBL_CFE_VERSION == 607
#define CFETBL_MESSAGE_NUMBER(id) ((uint32_t)(id))
#else
#define CFETBL_MESSAGE_NUMBER(id) ((uint32_t)CFE_SB_MsgIdToValue(id))
#endif

CFE_Status_t CFETBL_TBL_Register(CFE_TBL_Handle_t *TblHandlePtr, const char *Name, CFETBL_TableSize_t Size, uint16 TblOptionFlags,
                                 CFE_TBL_CallbackFuncPtr_t TblValidationFuncPtr);
CFE_Status_t CFETBL_TBL_Share(CFE_TBL_Handle_t *TblHandlePtr, const char *TblName);
CFE_Status_t CFETBL_TBL_Unregister(CFE_TBL_Handle_t TblHandle);
CFE_Status_t CFETBL_TBL_Load(CFE_TBL_Handle_t TblHandle, CFE_TBL_SrcEnum_t SrcType, const void *SrcDataPtr);
CFE_Status_t CFETBL_TBL_Update(CFE_TBL_Handle_t TblHandle);
CFE_Status_t CFETBL_TBL_Validate(CFE_TBL_Handle_t TblHandle);
CFE_Status_t CFETBL_TBL_Manage(CFE_TBL_Handle_t TblHandle);
CFE_Status_t CFETBL_TBL_DumpToBuffer(CFE_TBL_Handle_t TblHandle);
CFE_Status_t CFETBL_TBL_Modified(CFE_TBL_Handle_t TblHandle);
CFE_Status_t CFETBL_TBL_GetAddress(void **TblPtr, CFE_TBL_Handle_t TblHandle);
CFE_Status_t CFETBL_TBL_ReleaseAddress(CFE_TBL_Handle_t TblHandle);
CFE_Status_t CFETBL_TBL_GetAddresses(void **TblPtrs[], uint16 NumTables, const CFE_TBL_Handle_t TblHandles[]);
CFE_Status_t CFETBL_TBL_ReleaseAddresses(uint16 NumTables, const CFE_TBL_Handle_t TblHandles[]);
CFE_Status_t CFETBL_TBL_GetStatus(CFE_TBL_Handle_t TblHandle);
CFE_Status_t CFETBL_TBL_GetInfo(CFE_TBL_Info_t *TblInfoPtr, const char *TblName);
CFE_Status_t CFETBL_TBL_NotifyByMessage(CFE_TBL_Handle_t TblHandle, CFE_SB_MsgId_t MsgId, CFETBL_FcnCode_t CommandCode, uint32 Parameter);
CFE_Status_t CFETBL_ES_RegisterCDS(CFE_ES_CDSHandle_t *CDSHandlePtr, CFETBL_BlockSize_t BlockSize, const char *Name);
CFE_Status_t CFETBL_ES_CopyToCDS(CFE_ES_CDSHandle_t Handle, CFETBL_CopySource_t DataToCopy);
CFE_Status_t CFETBL_ES_RestoreFromCDS(void *RestoreToMemory, CFE_ES_CDSHandle_t Handle);

#if !defined CFETBL_WITH_CFE && CFETBL_CFE_VERSION == 607 && !defined CFETBL_IN_LIBRARY
/* The library's functions by cFE's names have the types of edition 7, so those of 6.7 call the ones above. */
static inline CFE_Status_t CFE_TBL_Register(CFE_TBL_Handle_t *TblHandlePtr, const char *Name, uint32 Size, uint16 TblOptionFlags,
                                            CFE_TBL_CallbackFuncPtr_t TblValidationFuncPtr)
{
    return CFETBL_TBL_Register(TblHandlePtr, Name, Size, TblOptionFlags, TblValidationFuncPtr);
}

static inline CFE_Status_t CFE_ES_RegisterCDS(CFE_ES_CDSHandle_t *HandlePtr, int32 BlockSize, const char *Name)
{
    return CFETBL_ES_RegisterCDS(HandlePtr, (size_t)BlockSize, Name);
}

static inline CFE_Status_t CFE_ES_CopyToCDS(CFE_ES_CDSHandle_t Handle, void *DataToCopy)
{
    return CFETBL_ES_CopyToCDS(Handle, DataToCopy);
}
#endif

/* ---- the service */

/* What the headers of a test and of the library have to have the same. */
struct CFETBL_Headers {
    size_t info;
    size_t table_handle;
    size_t block_handle;
    size_t table_size;
};

#define CFETBL_HEADERS \
    { sizeof(CFE_TBL_Info_t), sizeof(CFE_TBL_Handle_t), sizeof(CFE_ES_CDSHandle_t), sizeof(CFETBL_TableSize_t) }

bool CFETBL_OpenFor(const void *bank, const struct CFETBL_Headers *headers);

/* Switches a service on, over these 262,144 bytes of preserved memory, or over zeros if bank is NULL. The one that this thread switched on
 * before is switched off. False means out of memory, that a validation function is at work, or that the library was compiled with other
 * headers of cFE than this test. */
static inline bool CFETBL_Open(const void *bank)
{
    static const struct CFETBL_Headers headers = CFETBL_HEADERS;

    return CFETBL_OpenFor(bank, &headers);
}

/* Switches it off, unless a validation function is at work: one that is left by longjmp counts as at work. Each address that CFE_TBL_GetAddress gave is gone. */
void CFETBL_Close(void);

/* The 262,144 bytes of preserved memory, until the next call; NULL if no service is on. */
const void *CFETBL_Bank(void);

/* The number of the service that this thread calls, and 0 if there is none. A thread that switched none on calls the only one that is
 * on; if threads of a test have services of their own, further threads have to join one. */
uint64_t CFETBL_Session(void);
bool CFETBL_Join(uint64_t session);

/* Whether the function that plays requests is the proved one. */
bool CFETBL_IsProved(void);

/* The last line that this thread's calls wrote to standard error, without `cfetbl: `, or an empty one. */
const char *CFETBL_LastMessage(void);

/* ---- applications */

/* Starts an application under this name, from 1 to 16, and lets it make the calls from now on. False means that it runs already, that the
 * name isn't 1 to 20 printing characters without a dot or a blank, or out of memory. It has at most 15 validation functions in one
 * service, and none once it has ended: an application that starts after that should have another number. */
bool CFETBL_StartApp(int app, const char *name);

/* Lets an application make the calls from now on: those of all threads that choose none themselves, if the thread that switched the service
 * on says so, and else those of this thread. */
void CFETBL_UseApp(int app);

/* Ends the application that makes the calls, as CFE_ES_ExitApp does. */
bool CFETBL_ExitApp(void);

/* ---- the processor, the time and files */

/* Resets the processor: applications run on without tables and handles, and blocks of the Critical Data Store stay. */
bool CFETBL_ResetProcessor(void);

/* Switches the power off and on: nothing stays. */
bool CFETBL_PowerOn(void);

/* Damages the blocks of this full name, as 'APP.NAME', in the Critical Data Store: from the next reset of the processor on, and in
 * CFETBL_Bank, no image of them is whole. */
bool CFETBL_DamageBlock(const char *name);

/* Sets the time of the service, in seconds and 1/65,536 of one. */
bool CFETBL_SetTime(uint32_t seconds, uint16_t subseconds);

/* Puts a file into the file store, where CFE_TBL_Load and CFETBL_LoadCmd find it: at most 32,768 bytes, and 64 files. */
bool CFETBL_PutFile(const char *name, const void *contents, size_t size);

/* The same for a file of this machine. */
bool CFETBL_PutHostFile(const char *name, const char *path);

/* Puts a table file there: so many bytes of the image of the table of this full name, from an offset on. */
bool CFETBL_PutTableFile(const char *name, const char *table, uint32_t offset, const void *image, size_t size);

/* The contents of a file that was put there or dumped, until the next call; NULL if there is none. */
const void *CFETBL_GetFile(const char *name, size_t *size);

/* ---- commands of the ground. Each gives the status of the service that cfetbl_status.h names: CFETBL_SUCCESS if it was accepted. */

uint32_t CFETBL_NoopCmd(void);
uint32_t CFETBL_ResetCountersCmd(void);
uint32_t CFETBL_LoadCmd(const char *file);
uint32_t CFETBL_DumpCmd(const char *table, bool active, const char *file);
uint32_t CFETBL_ValidateCmd(const char *table, bool active);
uint32_t CFETBL_ActivateCmd(const char *table);
uint32_t CFETBL_AbortLoadCmd(const char *table);
uint32_t CFETBL_DumpRegistryCmd(const char *file);
uint32_t CFETBL_SendRegistryCmd(const char *table);
uint32_t CFETBL_DeleteCdsCmd(const char *table);

/* Asks for a housekeeping packet, which also writes the files of filled dumps. */
uint32_t CFETBL_HousekeepingCmd(void);

/* Sends a command packet as it is, with its headers and its checksum, in the layout that docs/reference/packets.md has. */
uint32_t CFETBL_Command(const void *packet, size_t length);

/* ---- what a test forces */

/* Of the calls by this name that come from now on, the nth (from 1 on) isn't made and returns this code. The name is cFE's, as
 * "CFE_TBL_Load". Handles and addresses that it gives are then those of a failure. */
bool CFETBL_Fail(const char *call, unsigned nth, CFE_Status_t code);

/* ---- what was answered */

/* What the last call or command was answered with: CFETBL_NOT_PLAYED if it made no request. Reply bytes and packets stay until the next
 * call; docs/reference/packets.md lays them out. */
struct CFETBL_Answer {
    uint32_t status;
    uint32_t detail;
    const uint8_t *bytes;
    size_t length;
    const uint8_t *packets;
    size_t packets_length;
};

struct CFETBL_Answer CFETBL_LastAnswer(void);

/* The next event of calls and commands that wasn't given yet, in their order, or false. At most 131,072 wait: of more the oldest go.
 * docs/reference/statuses.md has the numbers of events; the row is the table's in the registry, 0xFFFF for none. */
struct CFETBL_Event {
    uint16_t number;
    uint32_t status;
    uint16_t row;
    uint32_t detail;
};

bool CFETBL_NextEvent(struct CFETBL_Event *event);

/* The same for notices that CFE_TBL_NotifyByMessage asked for: the message id, the function code and the parameter. */
bool CFETBL_NextNotice(uint32_t *message, uint16_t *function, uint32_t *parameter);

/* How many requests were played, modulo 2^32: those of the calls, and further ones that the library makes for them. */
uint32_t CFETBL_Requests(void);

#ifdef __cplusplus
}
#endif

#endif
