/* SPDX-License-Identifier: Apache-2.0 */
/* version607.c: an application of cFE 6.7, whose three calls have other types (CFETBL_CFE_VERSION 607). */
#include "cfetbl.h"
#include "expect.h"

/* The types of 6.7. */
static CFE_Status_t (*const register_table)(CFE_TBL_Handle_t *, const char *, uint32, uint16, CFE_TBL_CallbackFuncPtr_t) = CFE_TBL_Register;
static CFE_Status_t (*const register_block)(CFE_ES_CDSHandle_t *, int32, const char *) = CFE_ES_RegisterCDS;
static CFE_Status_t (*const copy_block)(CFE_ES_CDSHandle_t, void *) = CFE_ES_CopyToCDS;

int main(void)
{
    char image[] = "image", back[6];
    CFE_TBL_Handle_t table;
    CFE_ES_CDSHandle_t block;
    CFE_SB_MsgId_t id = 0x1810;
    uint32_t message = 0;

    EXPECT(CFETBL_Open(NULL) && CFETBL_StartApp(1, "A"));
    EXPECT(register_table(&table, "T", sizeof image, CFE_TBL_OPT_DEFAULT, NULL) == CFE_SUCCESS);
    EXPECT(CFE_TBL_Load(table, CFE_TBL_SRC_ADDRESS, image) == CFE_SUCCESS);
    EXPECT(CFE_TBL_NotifyByMessage(table, id, 3, 7) == CFE_SUCCESS && CFE_SB_ValueToMsgId(0x1810) == id);
    EXPECT(register_block(&block, -1, "B") == CFE_ES_CDS_INVALID_SIZE && register_block(&block, sizeof image, "B") == CFE_SUCCESS);
    EXPECT(copy_block(block, image) == CFE_SUCCESS && CFE_ES_RestoreFromCDS(back, block) == CFE_SUCCESS && strcmp(back, image) == 0);
    EXPECT(!CFETBL_NextNotice(&message, NULL, NULL));
    CFETBL_Close();
    return expected();
}
