/* The telemetry payloads of cFE's table services and of its event services, with the default sizes of its configuration, as its
   public headers (cfe_tbl_msg.h, cfe_evs_msg.h) have them; prints the place and the bytes of each field. */
#include <stdbool.h>
#include <stddef.h>
#include <stdint.h>
#include <stdio.h>

typedef struct { uint32_t Seconds; uint32_t Subseconds; } SysTime;

typedef struct {
    uint8_t CommandCounter, CommandErrorCounter;
    uint16_t NumTables, NumLoadPending, ValidationCounter;
    uint32_t LastValCrc;
    int32_t LastValStatus;
    bool ActiveBuffer;
    char LastValTableName[40];
    uint8_t SuccessValCounter, FailedValCounter, NumValRequests, NumFreeSharedBufs, ByteAlignPad1;
    uint32_t MemPoolHandle;
    SysTime LastUpdateTime;
    char LastUpdatedTable[40], LastFileLoaded[64], LastFileDumped[64], LastTableLoaded[40];
} housekeeping;

typedef struct {
    uint32_t Size, Crc, ActiveBufferAddr, InactiveBufferAddr, ValidationFuncPtr;
    SysTime TimeOfLastUpdate, FileTime;
    bool TableLoadedOnce, LoadPending, DumpOnly, DoubleBuffered;
    char Name[40], LastFileLoaded[64], OwnerAppName[20];
    bool Critical;
    uint8_t ByteAlign4;
} registry;

typedef struct {
    struct { char AppName[20]; uint16_t EventID, EventType; uint32_t SpacecraftID, ProcessorID; } PacketID;
    char Message[122];
    uint8_t Spare1, Spare2;
} event;

#define TELL(of, field) printf("%s %s %zu %zu\n", #of, #field, offsetof(of, field), sizeof(((of *)0)->field))

int main(void)
{
    TELL(housekeeping, CommandCounter); TELL(housekeeping, CommandErrorCounter); TELL(housekeeping, NumTables);
    TELL(housekeeping, NumLoadPending); TELL(housekeeping, ValidationCounter); TELL(housekeeping, LastValCrc);
    TELL(housekeeping, LastValStatus); TELL(housekeeping, ActiveBuffer); TELL(housekeeping, LastValTableName);
    TELL(housekeeping, SuccessValCounter); TELL(housekeeping, FailedValCounter); TELL(housekeeping, NumValRequests);
    TELL(housekeeping, NumFreeSharedBufs); TELL(housekeeping, ByteAlignPad1); TELL(housekeeping, MemPoolHandle);
    TELL(housekeeping, LastUpdateTime.Seconds); TELL(housekeeping, LastUpdateTime.Subseconds);
    TELL(housekeeping, LastUpdatedTable); TELL(housekeeping, LastFileLoaded); TELL(housekeeping, LastFileDumped);
    TELL(housekeeping, LastTableLoaded);
    TELL(registry, Size); TELL(registry, Crc); TELL(registry, ActiveBufferAddr); TELL(registry, InactiveBufferAddr);
    TELL(registry, ValidationFuncPtr); TELL(registry, TimeOfLastUpdate.Seconds); TELL(registry, TimeOfLastUpdate.Subseconds);
    TELL(registry, FileTime.Seconds); TELL(registry, FileTime.Subseconds); TELL(registry, TableLoadedOnce);
    TELL(registry, LoadPending); TELL(registry, DumpOnly); TELL(registry, DoubleBuffered); TELL(registry, Name);
    TELL(registry, LastFileLoaded); TELL(registry, OwnerAppName); TELL(registry, Critical); TELL(registry, ByteAlign4);
    TELL(event, PacketID.AppName); TELL(event, PacketID.EventID); TELL(event, PacketID.EventType);
    TELL(event, PacketID.SpacecraftID); TELL(event, PacketID.ProcessorID); TELL(event, Message); TELL(event, Spare1);
    TELL(event, Spare2);
    printf("sizes %zu %zu %zu\n", sizeof(housekeeping), sizeof(event), sizeof(registry));
    return 0;
}
