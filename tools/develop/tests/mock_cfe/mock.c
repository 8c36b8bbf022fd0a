/* A mock of cFE with one single-buffered table CTRL.LIMITS of 4 bytes and one block: as much as app.c needs. MOCK_FAULT plants
   one of ten faults. */
#include "cfe.h"

#include <stdlib.h>
#include <string.h>

#define SIZE 4
#define OWN 5
#define SHARED 6
#define BLOCK 0x30001

static unsigned char image[SIZE], load[SIZE], block[SIZE];
static bool is_registered, is_shared, is_loaded, is_told, is_pinned, is_asked, has_block, is_copied;

static bool has_fault(int number)
{
    const char *planted = getenv("MOCK_FAULT");

    return planted != NULL && atoi(planted) == number;
}

static bool is_given(CFE_TBL_Handle_t handle)
{
    return is_registered && (handle == OWN || (is_shared && handle == SHARED));
}

static CFE_Status_t become_active(const void *from)
{
    if (is_pinned && !has_fault(4))
        return CFE_TBL_INFO_TABLE_LOCKED;
    if (!(has_fault(7) && from == load))
        memcpy(image, from, SIZE);
    is_loaded = true;
    is_told = is_asked = false;
    return CFE_SUCCESS;
}

CFE_Status_t CFE_TBL_Register(CFE_TBL_Handle_t *handle, const char *name, size_t size, uint16 options, CFE_TBL_CallbackFuncPtr_t function)
{
    (void)name, (void)options, (void)function;
    if (is_registered && size != SIZE)
        return CFE_TBL_ERR_DUPLICATE_DIFF_SIZE;
    *handle = OWN;
    if (is_registered && !has_fault(1))
        return CFE_TBL_WARN_DUPLICATE;
    is_registered = true;
    return CFE_SUCCESS;
}

CFE_Status_t CFE_TBL_Share(CFE_TBL_Handle_t *handle, const char *name)
{
    if (strcmp(name, "CTRL.LIMITS") != 0)
        return CFE_TBL_ERR_INVALID_NAME;
    is_shared = true;
    *handle = SHARED;
    return CFE_SUCCESS;
}

CFE_Status_t CFE_TBL_Unregister(CFE_TBL_Handle_t handle)
{
    if (!is_given(handle))
        return CFE_TBL_ERR_INVALID_HANDLE;
    if (handle == SHARED)
        is_shared = false;
    else
        is_registered = false;
    return CFE_SUCCESS;
}

CFE_Status_t CFE_TBL_Load(CFE_TBL_Handle_t handle, CFE_TBL_SrcEnum_t kind, const void *source)
{
    (void)kind;
    if (!is_given(handle))
        return CFE_TBL_ERR_INVALID_HANDLE;
    if (is_asked && !has_fault(6))
        return CFE_TBL_ERR_LOAD_IN_PROGRESS;
    return become_active(source);
}

CFE_Status_t CFE_TBL_Update(CFE_TBL_Handle_t handle)
{
    if (!is_given(handle))
        return CFE_TBL_ERR_INVALID_HANDLE;
    return is_asked ? become_active(load) : CFE_TBL_INFO_NO_UPDATE_PENDING;
}

CFE_Status_t CFE_TBL_Manage(CFE_TBL_Handle_t handle)
{
    CFE_Status_t code = CFE_TBL_Update(handle);

    return code == CFE_TBL_INFO_NO_UPDATE_PENDING ? CFE_SUCCESS : code == CFE_SUCCESS ? CFE_TBL_INFO_UPDATED : code;
}

CFE_Status_t CFE_TBL_Validate(CFE_TBL_Handle_t handle)
{
    return is_given(handle) ? CFE_SUCCESS : CFE_TBL_ERR_INVALID_HANDLE;
}

CFE_Status_t CFE_TBL_DumpToBuffer(CFE_TBL_Handle_t handle)
{
    return CFE_TBL_Validate(handle);
}

CFE_Status_t CFE_TBL_GetAddress(void **address, CFE_TBL_Handle_t handle)
{
    bool was_told = is_told || has_fault(3);

    if (!is_given(handle))
        return CFE_TBL_ERR_INVALID_HANDLE;
    *address = image;
    if (!is_loaded && !has_fault(2))
        return CFE_TBL_ERR_NEVER_LOADED;
    is_pinned = is_told = true;
    return was_told ? CFE_SUCCESS : CFE_TBL_INFO_UPDATED;
}

CFE_Status_t CFE_TBL_ReleaseAddress(CFE_TBL_Handle_t handle)
{
    if (!is_given(handle))
        return CFE_TBL_ERR_INVALID_HANDLE;
    is_pinned = false;
    return CFE_SUCCESS;
}

CFE_Status_t CFE_TBL_GetAddresses(void **addresses[], uint16 count, const CFE_TBL_Handle_t handles[])
{
    return count == 0 ? CFE_SUCCESS : CFE_TBL_GetAddress(addresses[0], handles[0]);
}

CFE_Status_t CFE_TBL_ReleaseAddresses(uint16 count, const CFE_TBL_Handle_t handles[])
{
    return count == 0 ? CFE_SUCCESS : CFE_TBL_ReleaseAddress(handles[0]);
}

CFE_Status_t CFE_TBL_Modified(CFE_TBL_Handle_t handle)
{
    is_told = !is_given(handle);
    return is_given(handle) ? CFE_SUCCESS : CFE_TBL_ERR_INVALID_HANDLE;
}

CFE_Status_t CFE_TBL_GetStatus(CFE_TBL_Handle_t handle)
{
    if (!is_given(handle))
        return has_fault(10) ? CFE_SUCCESS : CFE_TBL_ERR_INVALID_HANDLE;
    return is_asked && !has_fault(5) ? CFE_TBL_INFO_UPDATE_PENDING : CFE_SUCCESS;
}

CFE_Status_t CFE_TBL_GetInfo(CFE_TBL_Info_t *info, const char *name)
{
    (void)name;
    memset(info, 0, sizeof *info);
    info->Size = has_fault(8) ? 2 * SIZE : SIZE;
    info->TableLoadedOnce = is_loaded;
    return CFE_SUCCESS;
}

CFE_Status_t CFE_TBL_NotifyByMessage(CFE_TBL_Handle_t handle, CFE_SB_MsgId_t message, CFE_MSG_FcnCode_t function, uint32 parameter)
{
    (void)message, (void)function, (void)parameter;
    return CFE_TBL_Validate(handle);
}

CFE_Status_t CFE_ES_RegisterCDS(CFE_ES_CDSHandle_t *handle, size_t size, const char *name)
{
    bool was_there = has_block;

    (void)size, (void)name;
    *handle = BLOCK;
    has_block = true;
    return was_there ? CFE_ES_CDS_ALREADY_EXISTS : CFE_SUCCESS;
}

CFE_Status_t CFE_ES_CopyToCDS(CFE_ES_CDSHandle_t handle, const void *from)
{
    (void)handle;
    memcpy(block, from, SIZE);
    is_copied = true;
    return CFE_SUCCESS;
}

CFE_Status_t CFE_ES_RestoreFromCDS(void *into, CFE_ES_CDSHandle_t handle)
{
    (void)handle;
    if (!is_copied)
        return CFE_ES_CDS_BLOCK_CRC_ERR;
    memcpy(into, block, SIZE);
    if (has_fault(9))
        ((unsigned char *)into)[SIZE - 1] ^= 1;
    return CFE_SUCCESS;
}

void mock_ground_loads(const void *from)
{
    memcpy(load, from, SIZE);
    is_asked = true;
}
