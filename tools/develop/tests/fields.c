/* fields.c: a table of each kind of fields, in types whose width is the same on each target. */
#include "cfetbl_table.h"

typedef enum { OFF = 0, ON = 1, STUCK = 200 } State_t;
typedef enum { BELOW = -1, INSIDE = 0, ABOVE = 1 } Side_t;
typedef enum { LOW, MIDDLE = 7, HIGH } __attribute__((packed)) Level_t;
typedef uint16 Counter_t;
typedef Counter_t Ticks_t;

typedef struct {
    uint8 Kind;
    union {
        uint32 Count;
        float Ratio;
        uint8 Raw[4];
    } Value;
    union {
        int16 Signed;
        uint16 Unsigned;
    };
} Choice_t;

typedef struct {
    char Name[11];
    Ticks_t Ticks;
    bool IsOn;
    State_t State;
    Side_t Side;
    Level_t Level;
    float Limit;
    uint32 Low : 3;
    uint32 Middle : 13;
    int32 Signed : 5;
    Side_t Of : 3;
    uint8 : 0;
    uint8 Flag : 1;
    uint8 : 2;
    bool Truth : 1;
} Point_t;

typedef struct {
    int64_t Big;
    double Wide;
    const Point_t Point[3];
    struct {
        uint8 First;
        uint32 Second;
        double Third;
        struct {
            int16 x, y;
        } Nested[2];
    } __attribute__((packed)) Packed[2];
    int8_t Matrix[2][3];
    char Label[2][5];
    char Letter;
    Choice_t Choice[2];
    uint64_t Mask;
    volatile float Small;
} Table_t;

Table_t Fields __attribute__((section(".table"))) = {
    .Big = -1234567890123456789,
    .Wide = 0.1,
    .Point = {
        {"first", 65535, true, STUCK, BELOW, HIGH, 77.5f, 5, 4321, -9, ABOVE, 1, true},
        {"second pt.", 1, false, ON, ABOVE, MIDDLE, 0.1f, 1, 1, 15, BELOW, 0, false},
        {"", 2, true, (State_t)3, INSIDE, LOW, -0.0f, 7, 8191, -16, INSIDE, 1, false},
    },
    .Packed = {{1, 0xDEADBEEF, 1e300, {{-1, 2}, {3, -4}}}, {2, 5, -2.5, {{5, 6}, {7, 8}}}},
    .Matrix = {{-1, 2, -3}, {4, -5, 6}},
    .Label = {"ab\"c", "\\\x7f"},
    .Letter = 'x',
    .Choice = {{1, {.Count = 0x01020304}, {.Signed = -2}}, {2, {.Ratio = 1.5f}, {.Unsigned = 65535}}},
    .Mask = 0xFEDCBA9876543210,
    .Small = 1e-45f,
};

CFE_TBL_FILEDEF(Fields, FIELDS_APP.Fields, A table of all kinds, fields.tbl)
