/* cfe.c: stand-ins for what a validation function calls of cFE and OSAL, for `cfetbl table check`, which builds it as a library and
 * loads it before the application's own. Each event and each line for a log is handed on as text. */
#include <stdarg.h>
#include <stdint.h>
#include <stdio.h>

#define LONGEST 1024
/* Numbers in the place of an event's type for what is no event. */
#define LINE_OF_A_LOG 0

typedef void (*Taker)(uint16_t id, uint16_t type, const char *text);

static Taker Take;

void cfetbl_take_events(Taker taker)
{
    Take = taker;
}

static void Hand(uint16_t id, uint16_t type, const char *format, va_list list)
{
    char text[LONGEST];

    vsnprintf(text, sizeof text, format, list);
    if (Take) {
        Take(id, type, text);
    }
}

#define HAND(id, type, format)           \
    do {                                 \
        va_list list;                    \
                                         \
        va_start(list, format);          \
        Hand((id), (type), format, list); \
        va_end(list);                    \
    } while (0)

int32_t CFE_EVS_SendEvent(uint16_t EventID, uint16_t EventType, const char *Spec, ...)
{
    HAND(EventID, EventType, Spec);
    return 0;
}

/* The identifier of an application, and a time, are structures or numbers of one or two words. */
int32_t CFE_EVS_SendEventWithAppID(uint16_t EventID, uint16_t EventType, uint32_t AppID, const char *Spec, ...)
{
    (void)AppID;
    HAND(EventID, EventType, Spec);
    return 0;
}

typedef struct {
    uint32_t Seconds;
    uint32_t Subseconds;
} Time;

int32_t CFE_EVS_SendTimedEvent(Time When, uint16_t EventID, uint16_t EventType, const char *Spec, ...)
{
    (void)When;
    HAND(EventID, EventType, Spec);
    return 0;
}

int32_t CFE_ES_WriteToSysLog(const char *SpecStringPtr, ...)
{
    HAND(0, LINE_OF_A_LOG, SpecStringPtr);
    return 0;
}

void OS_printf(const char *String, ...)
{
    HAND(0, LINE_OF_A_LOG, String);
}
