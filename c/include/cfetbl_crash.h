/* SPDX-License-Identifier: Apache-2.0 */
/* cfetbl_crash.h: crash tests of an application's own code. The processor is reset before each write that the application's calls make to
 * the Critical Data Store, and after each number of its bytes; then the application's own start code is called over what is left.
 *
 * Each of these restarts is a process of its own, which begins with the memory that the test had when it called CFETBL_ForEachReset: what
 * the application had in its memory is gone, as after a reset. docs/use/crash-tests.md shows how to write such a test. */
#ifndef CFETBL_CRASH_H
#define CFETBL_CRASH_H

#include "cfetbl.h"

#include <stdio.h>

#ifdef __cplusplus
extern "C" {
#endif

/* Kinds of trouble, as the options choose them. */
enum {
    CFETBL_CRASH_RESET = 0x01,        /* a reset of the processor */
    CFETBL_CRASH_FAULT = 0x02,        /* the write fails: the call returns its error, the scenario goes on to its end, then comes a reset */
    CFETBL_CRASH_SECOND_RESET = 0x04, /* a reset, and one more in a write of the restart after it */
    CFETBL_CRASH_POWER_ON = 0x08      /* a power-on: neither the store nor files are left */
};

/* What comes of a trouble. */
enum CFETBL_CrashOutcome {
    CFETBL_CRASH_HOLDS,   /* the application started, and the invariant holds */
    CFETBL_CRASH_NOT_UP,  /* the restart returned an error: a code below 0 */
    CFETBL_CRASH_BROKEN,  /* the invariant doesn't hold */
    CFETBL_CRASH_HANGS,   /* the application didn't return within the time limit */
    CFETBL_CRASH_DIES     /* the application's process ended, by a signal or by exit */
};

/* What the application does: it starts, saves, is sent commands. A service is on. It starts its applications by CFETBL_StartApp, and makes
 * its calls from one thread. */
typedef void (*CFETBL_CrashScenario_t)(void *context);

/* The application's start code over what is left. A service is on, in which no application runs. */
typedef CFE_Status_t (*CFETBL_CrashRestart_t)(void *context);

/* Whether all is well after a restart that returned no error. It looks at what the application has in its memory, and makes no call. If
 * it returns false, it writes why. */
typedef bool (*CFETBL_CrashInvariant_t)(void *context, char *why, size_t room);

/* A struct of zeros has the least: a reset after each byte of each write. */
struct CFETBL_CrashOptions {
    unsigned kinds;       /* CFETBL_CRASH_RESET and its kin, or 0 for that alone */
    uint32_t every;       /* inside a write only after each so-many-th byte; 0 is 1 */
    uint32_t inside;      /* at most so many places inside a write; 0 is all */
    uint32_t limit;       /* how many milliseconds the application may take for a restart, or from call to call; 0 is 5,000 */
    void *context;        /* what the three functions are called with */
    const void *bank;     /* the 262,144 bytes of preserved memory at the beginning, or NULL for zeros */
    void *notes;          /* memory of the test that a reset leaves as it is, for what the scenario notes and the invariant reads; or NULL */
    size_t notes_size;    /* how many bytes it has, at most 65,536 */
    bool asks_at_end;     /* the invariant is asked at the end of each scenario too, of the application that still runs */
    bool shows_output;    /* what restarts write to standard output and standard error isn't thrown away */
};

/* Where a trouble comes: in a write, after `first` to `last` of its bytes. */
struct CFETBL_CrashPlace {
    uint32_t write;    /* its number in the scenario or in the restart, from 1; 0 for none, and one more than all for the end */
    uint32_t first;
    uint32_t last;
    uint32_t length;   /* how many bytes it has */
    uint32_t at;       /* where in preserved memory it begins */
    uint32_t places;   /* at how many places in it troubles were tried */
    uint32_t call;     /* the number of its call, from 1 */
    char name[32];     /* of the call */
    char line[192];    /* of the application, in which it makes the call, as "app.c:31 (APP_Save)"; addresses where addr2line isn't there */
    char what[80];     /* what is written */
};

struct CFETBL_CrashFinding {
    unsigned kind;                    /* of the trouble */
    enum CFETBL_CrashOutcome outcome; /* never CFETBL_CRASH_HOLDS */
    uint32_t count;                   /* how many troubles in a row have it */
    struct CFETBL_CrashPlace place;   /* of the first trouble */
    struct CFETBL_CrashPlace second;  /* of the second reset, if it is one */
    CFE_Status_t returned;            /* by the restart */
    char answers[768];                /* what its calls returned */
    char why[256];                    /* what the invariant wrote, or how the process ended */
};

struct CFETBL_CrashReport {
    bool is_whole;           /* all was tried; else `message` says why not */
    bool is_like_cfe;        /* over a store like cFE's */
    uint32_t calls;          /* of the scenario */
    uint32_t tried;          /* troubles of all kinds */
    uint32_t resets;         /* of these inside writes, which is the sum of their lengths if `every` and `inside` are 0 */
    uint32_t ends;           /* resets and power-ons after the scenario's last write, and questions at its end */
    uint32_t faults;
    uint32_t second_resets;
    uint32_t power_ons;
    uint32_t restarts;       /* how often the restart was called: once for all troubles that leave the same */
    uint32_t failed;         /* how many troubles have a finding */
    uint32_t write_count;
    uint32_t finding_count;
    struct CFETBL_CrashPlace *writes;
    struct CFETBL_CrashFinding *findings;
    uint32_t milliseconds;
    char message[512];
};

/* Has the crash tests after it run over a store like cFE's, whose copies overwrite the image before in place: after a reset inside one the
 * block has neither, and CFE_ES_RestoreFromCDS returns CFE_ES_CDS_BLOCK_CRC_ERR. Without it a copy leaves the image before or the new one. */
void CFETBL_StoreLikeCfe(bool is_like_cfe);

/* Which kind of trouble came before the restart that is at work, 0 if none is. */
unsigned CFETBL_CrashKind(void);

bool CFETBL_ForEachResetFor(CFETBL_CrashScenario_t scenario, CFETBL_CrashRestart_t restart, CFETBL_CrashInvariant_t invariant,
                            const struct CFETBL_CrashOptions *options, struct CFETBL_CrashReport *report,
                            const struct CFETBL_Headers *headers);

/* Tries each trouble. It returns true if all were tried, whatever was found. Else a message says why not, and the report has what was tried
 * so far: if the scenario makes other calls each time it is played, doesn't go on or ends its process, if the application hangs three
 * times, if the invariant makes a call, or out of memory. Without an invariant it is asked only whether the application starts. Options may be NULL.
 * CFETBL_FreeReport frees what the report has in any case. */
static inline bool CFETBL_ForEachReset(CFETBL_CrashScenario_t scenario, CFETBL_CrashRestart_t restart, CFETBL_CrashInvariant_t invariant,
                                       const struct CFETBL_CrashOptions *options, struct CFETBL_CrashReport *report)
{
    static const struct CFETBL_Headers headers = CFETBL_HEADERS;

    return CFETBL_ForEachResetFor(scenario, restart, invariant, options, report, &headers);
}

/* Writes a report as text, or as JSON in one line. False means that a write failed. */
bool CFETBL_ReportText(FILE *to, const struct CFETBL_CrashReport *report);
bool CFETBL_ReportJson(FILE *to, const struct CFETBL_CrashReport *report);
void CFETBL_FreeReport(struct CFETBL_CrashReport *report);

#ifdef __cplusplus
}
#endif

#endif
