// header.cpp: the headers, and some calls of each kind, from C++17.
#include "cfetbl.h"
#include "cfetbl_crash.h"
#include "expect.h"
#include "tbl.h"

#include <array>
#include <vector>

static int32 not_zero(void *image)
{
    return *static_cast<const uint8 *>(image) == 0 ? -17 : CFE_SUCCESS;
}

static void start_one(void *)
{
    CFE_ES_CDSHandle_t block = CFE_ES_CDS_BAD_HANDLE;

    EXPECT(CFETBL_StartApp(1, "A") && CFE_ES_RegisterCDS(&block, 8, "B") >= CFE_SUCCESS);
}

static CFE_Status_t start_again(void *context)
{
    start_one(context);
    return CFE_SUCCESS;
}

int main()
{
    const std::array<uint8, 8> one{1, 2, 3, 4, 5, 6, 7, 8}, bad{};
    std::array<uint8_t, 8> bytes{};
    CFE_TBL_Handle_t table = CFE_TBL_BAD_TABLE_HANDLE;
    CFE_ES_CDSHandle_t block = CFE_ES_CDS_BAD_HANDLE;
    CFE_TBL_Info_t info;
    std::vector<void **> addresses;
    CFETBL_Event event{};
    tbl_handle handle{};
    void *address = nullptr;
    CFETBL_CrashReport report{};

    EXPECT(CFETBL_Open(nullptr) && CFETBL_StartApp(1, "A"));
    EXPECT(CFE_TBL_Register(&table, "T", one.size(), CFE_TBL_OPT_DBL_BUFFER, not_zero) == CFE_SUCCESS);
    EXPECT(CFE_TBL_Load(table, CFE_TBL_SRC_ADDRESS, bad.data()) == -17);
    EXPECT(CFE_TBL_Load(table, CFE_TBL_SRC_ADDRESS, one.data()) == CFE_SUCCESS);
    addresses.push_back(&address);
    EXPECT(CFE_TBL_GetAddresses(addresses.data(), 1, &table) == CFE_TBL_INFO_UPDATED && memcmp(address, one.data(), one.size()) == 0);
    static_cast<uint8 *>(address)[0] = 9;
    EXPECT(CFE_TBL_Modified(table) == CFE_SUCCESS && CFE_TBL_ReleaseAddress(table) >= CFE_SUCCESS);
    EXPECT(CFE_TBL_GetInfo(&info, "A.T") == CFE_SUCCESS && info.NumUsers == 1);
    EXPECT(CFE_TBL_NotifyByMessage(table, CFE_SB_ValueToMsgId(0x1810), 3, 7) == CFE_SUCCESS);
    EXPECT(CFE_ES_RegisterCDS(&block, one.size(), "B") == CFE_SUCCESS && CFE_ES_CopyToCDS(block, one.data()) == CFE_SUCCESS);
    EXPECT(CFETBL_Fail("CFE_ES_CopyToCDS", 1, CFE_ES_CDS_ACCESS_ERROR) && CFE_ES_CopyToCDS(block, one.data()) == CFE_ES_CDS_ACCESS_ERROR);
    EXPECT(CFETBL_NoopCmd() == CFETBL_SUCCESS && CFETBL_LastAnswer().packets_length == 24);
    EXPECT(CFETBL_NextEvent(&event) && event.number == 3);
    CFETBL_Close();
    EXPECT(tbl_bank(&handle, 0, bytes.data(), bytes.size()) == TBL_CLOSED);
    tbl_close(&handle);
    EXPECT(CFETBL_ForEachReset(start_one, start_again, nullptr, nullptr, &report) && report.resets == 64 && report.failed == 0);
    CFETBL_FreeReport(&report);
    return expected();
}
