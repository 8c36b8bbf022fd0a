/* An application whose calls are recorded, with what the ground does between them. */
#include "cfe.h"
#include "record.h"

#include <stdio.h>

static void ground(const unsigned char *image)
{
    char line[80];

    snprintf(line, sizeof line, "file /new table CTRL.LIMITS hex %02X%02X%02X%02X", image[0], image[1], image[2], image[3]);
    record_line(line);
    record_line("ground LOAD /new");
    record_line("ground VALIDATE inactive CTRL.LIMITS");
    record_line("ground ACTIVATE CTRL.LIMITS");
    mock_ground_loads(image);
}

static void table(void)
{
    static const unsigned char first[] = {1, 2, 3, 4}, second[] = {5, 6, 7, 8};
    CFE_TBL_Handle_t handle, other;
    CFE_TBL_Info_t info;
    void *address;

    CFE_TBL_Register(&handle, "LIMITS", 4, 0, NULL);
    CFE_TBL_Register(&other, "LIMITS", 4, 0, NULL);
    CFE_TBL_Register(&other, "LIMITS", 8, 0, NULL);
    CFE_TBL_GetAddress(&address, handle);
    CFE_TBL_Load(handle, CFE_TBL_SRC_ADDRESS, first);
    CFE_TBL_GetAddress(&address, handle);
    CFE_TBL_Load(handle, CFE_TBL_SRC_ADDRESS, second);
    CFE_TBL_ReleaseAddress(handle);
    CFE_TBL_ReleaseAddress(handle);
    CFE_TBL_Update(handle);
    ground(second);
    CFE_TBL_GetStatus(handle);
    CFE_TBL_Load(handle, CFE_TBL_SRC_ADDRESS, first);
    CFE_TBL_Manage(handle);
    CFE_TBL_GetAddress(&address, handle);
    CFE_TBL_ReleaseAddress(handle);
    CFE_TBL_NotifyByMessage(handle, 0x1880, 5, 7);
    CFE_TBL_Share(&other, "CTRL.LIMITS");
    CFE_TBL_Unregister(other);
    CFE_TBL_GetInfo(&info, "CTRL.LIMITS");
    CFE_TBL_Unregister(handle);
    CFE_TBL_GetStatus(handle);
}

static void block(void)
{
    static const unsigned char state[] = {0xA0, 0xA1, 0xA2, 0xA3};
    CFE_ES_CDSHandle_t handle;
    unsigned char found[4];

    CFE_ES_RegisterCDS(&handle, 4, "STATE");
    CFE_ES_RestoreFromCDS(found, handle);
    CFE_ES_CopyToCDS(handle, state);
    CFE_ES_RestoreFromCDS(found, handle);
    CFE_ES_RegisterCDS(&handle, 4, "STATE");
}

int main(void)
{
    table();
    block();
    record_end();
    return 0;
}
