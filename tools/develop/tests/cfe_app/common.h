/* What cfe.h has beside the calls of tables and of the Critical Data Store, as far as the application of `cfetbl cfe-app` and
   c/record need it: written from cFE's public headers of edition 7 and OSAL's. The types of identifiers come before it. */
#ifndef COMMON_H
#define COMMON_H

/* ---- Executive Services */

enum { CFE_ES_RunStatus_APP_RUN = 1, CFE_ES_RunStatus_APP_EXIT = 2, CFE_ES_RunStatus_APP_ERROR = 3 };

bool CFE_ES_RunLoop(uint32 *RunStatus);
void CFE_ES_ExitApp(uint32 ExitStatus);
CFE_Status_t CFE_ES_ResetCFE(uint32 ResetType);
CFE_Status_t CFE_ES_GetAppID(CFE_ES_AppId_t *AppIdPtr);
CFE_Status_t CFE_ES_GetAppName(char *AppName, CFE_ES_AppId_t AppId, size_t BufferLength);
CFE_Status_t CFE_ES_WriteToSysLog(const char *SpecStringPtr, ...);

/* ---- messages, and the Software Bus */

typedef size_t CFE_MSG_Size_t;
typedef uint32 CFE_SB_MsgId_Atom_t;

typedef union CFE_MSG_Message {
    uint16 Words[3];
    uint8 Byte[6];
} CFE_MSG_Message_t;

typedef struct CFE_MSG_CommandHeader {
    CFE_MSG_Message_t Msg;
    uint8 FunctionCode;
    uint8 Checksum;
} CFE_MSG_CommandHeader_t;

#define CFE_MSG_PTR(shdr) (&((shdr).Msg))

CFE_Status_t CFE_MSG_Init(CFE_MSG_Message_t *MsgPtr, CFE_SB_MsgId_t MsgId, CFE_MSG_Size_t Size);
CFE_Status_t CFE_MSG_GetSize(const CFE_MSG_Message_t *MsgPtr, CFE_MSG_Size_t *Size);
CFE_Status_t CFE_MSG_GetMsgId(const CFE_MSG_Message_t *MsgPtr, CFE_SB_MsgId_t *MsgId);
CFE_Status_t CFE_MSG_SetFcnCode(CFE_MSG_Message_t *MsgPtr, CFE_MSG_FcnCode_t FcnCode);
CFE_Status_t CFE_MSG_GetFcnCode(const CFE_MSG_Message_t *MsgPtr, CFE_MSG_FcnCode_t *FcnCode);
CFE_Status_t CFE_SB_TransmitMsg(const CFE_MSG_Message_t *MsgPtr, bool IsOrigination);

/* ---- Time Services */

CFE_TIME_SysTime_t CFE_TIME_GetTime(void);

/* ---- OSAL */

enum { OS_SUCCESS = 0, OS_ERROR = -1 };
enum { OS_READ_ONLY = 0, OS_WRITE_ONLY = 1, OS_READ_WRITE = 2 };
typedef enum { OS_FILE_FLAG_NONE = 0, OS_FILE_FLAG_CREATE = 1, OS_FILE_FLAG_TRUNCATE = 2 } OS_file_flag_t;

int32 OS_OpenCreate(osal_id_t *filedes, const char *path, int32 flags, int32 access_mode);
int32 OS_read(osal_id_t filedes, void *buffer, size_t nbytes);
int32 OS_write(osal_id_t filedes, const void *buffer, size_t nbytes);
int32 OS_close(osal_id_t filedes);
int32 OS_remove(const char *path);
int32 OS_TaskDelay(uint32 millisecond);

#endif
