/* SPDX-License-Identifier: Apache-2.0 */
/* crash.c: crash tests: that each place of each write leaves what the service itself leaves there, what is asked at which kind of trouble, and
 * what is said of scenarios, restarts and invariants that aren't fit. With THIN in the environment it tries few places, and waits once. */
#define _DEFAULT_SOURCE

#include "cfetbl_crash.h"
#include "cfetbl_service.h"
#include "expect.h"
#include "tbl.h"

#include <signal.h>
#include <stdlib.h>
#include <sys/mman.h>
#include <unistd.h>

/* The time limits, in milliseconds: one that nothing on a busy machine reaches, and that of what hangs. */
enum { SIZE = 8, STEPS = 7, LONG = 60000, SHORT = 1000 };

static CFE_TBL_Handle_t table;
static CFE_ES_CDSHandle_t block;
static uint8_t seen[SIZE];
static CFE_Status_t restored;

/* ---- an application that saves a table and a block */

/* One of its steps. */
static void step(int number)
{
    uint8_t image[SIZE];

    memset(image, 16 * number + 1, sizeof image);
    switch (number) {
    case 0:
        CFETBL_StartApp(1, "A");
        break;
    case 1:
        CFE_ES_RegisterCDS(&block, SIZE, "B");
        break;
    case 2:
        CFE_TBL_Register(&table, "T", SIZE, CFE_TBL_OPT_CRITICAL, NULL);
        break;
    case 3:
    case 5:
        CFE_ES_CopyToCDS(block, image);
        break;
    default:
        CFE_TBL_Load(table, CFE_TBL_SRC_ADDRESS, image);
    }
}

static void scenario(void *context)
{
    int number;

    (void)context;
    for (number = 0; number < STEPS; number++) {
        step(number);
    }
}

static CFE_Status_t restart(void *context)
{
    (void)context;
    CFETBL_StartApp(1, "A");
    memset(seen, 0, sizeof seen);
    CFE_ES_RegisterCDS(&block, SIZE, "B");
    restored = CFE_ES_RestoreFromCDS(seen, block);
    return CFE_TBL_Register(&table, "T", SIZE, CFE_TBL_OPT_CRITICAL, NULL);
}

static bool holds(void *context, char *why, size_t room)
{
    (void)context;
    (void)why;
    (void)room;
    return true;
}

static struct CFETBL_CrashOptions few(void)
{
    struct CFETBL_CrashOptions options = {0};

    options.every = getenv("THIN") == NULL ? 4 : 32;
    options.limit = LONG;
    return options;
}

/* ---- what is left in preserved memory */

static char left[32];

static void put_sum(const void *bank)
{
    const uint8_t *at = bank;
    uint32_t sum = 1;
    size_t place;

    for (place = 0; place < TBL_BANK_SIZE; place++) {
        sum = sum * 31 + at[place];
    }
    snprintf(left, sizeof left, "%08lX", (unsigned long)sum);
}

static CFE_Status_t restart_with_sum(void *context)
{
    (void)context;
    put_sum(CFETBL_Bank());
    return CFE_SUCCESS;
}

static bool tell_sum(void *context, char *why, size_t room)
{
    (void)context;
    snprintf(why, room, "%s", left);
    return false;
}

/* What the service itself leaves after a reset in a write, after so many bytes. */
static void put_stopped_sum(uint32_t write, uint32_t after)
{
    const struct tbl_write_break stop = {write, after, true};
    struct tbl_write_counts counts = {0};
    struct cfetbl_service *service;
    int number;

    EXPECT(CFETBL_Open(NULL));
    service = cfetbl_enter_if_on();
    EXPECT(tbl_break(service->handle, &stop, 1) == TBL_OK);
    cfetbl_leave();
    for (number = 0; number < STEPS && counts.stops == 0; number++) {
        step(number);
        EXPECT(tbl_writes(service->handle, &counts) == TBL_OK);
    }
    EXPECT(counts.stops == 1);
    put_sum(CFETBL_Bank());
    CFETBL_Close();
}

static void try_states(void)
{
    struct CFETBL_CrashOptions options = few();
    struct CFETBL_CrashReport report;
    uint32_t place, after;

    options.every = getenv("THIN") == NULL ? 1 : 32;
    EXPECT(CFETBL_ForEachReset(scenario, restart_with_sum, tell_sum, &options, &report));
    EXPECT(report.write_count == 12 && report.failed == report.tried && (options.every > 1 || report.resets == 2 * 64 + 4 * 17));
    for (place = 0; place < report.finding_count; place++) {
        const struct CFETBL_CrashPlace *in = &report.findings[place].place;

        for (after = in->first; after <= in->last && in->length > 0; after += options.every) {
            put_stopped_sum(in->write, after);
            EXPECT(strcmp(left, report.findings[place].why) == 0);
        }
    }
    CFETBL_FreeReport(&report);
}

/* ---- kinds of trouble */

static struct {
    int copies, loads; /* that were answered with a success */
} noted;

static void noting(void *context)
{
    uint8_t image[SIZE];
    int number;

    (void)context;
    for (number = 0; number < 3; number++) {
        step(number);
    }
    for (number = 1; number < 4; number++) {
        memset(image, number, sizeof image);
        noted.copies += CFE_ES_CopyToCDS(block, image) == CFE_SUCCESS;
    }
}

/* A block has the last image whose copy was answered, or the one that was copied as the reset came. */
static bool is_kept(void *context, char *why, size_t room)
{
    bool is_none = CFETBL_CrashKind() == CFETBL_CRASH_POWER_ON || noted.copies == 0;
    bool is_kept = restored == CFE_SUCCESS ? seen[0] >= noted.copies && seen[0] <= 3 : is_none;

    (void)context;
    if (!is_kept) {
        snprintf(why, room, "image %d after %d copies", seen[0], noted.copies);
    }
    return is_kept && (CFETBL_CrashKind() != CFETBL_CRASH_POWER_ON || restored != CFE_SUCCESS);
}

static void try_notes(void)
{
    struct CFETBL_CrashOptions options = few();
    struct CFETBL_CrashReport report;

    options.kinds = CFETBL_CRASH_RESET | CFETBL_CRASH_FAULT | CFETBL_CRASH_POWER_ON;
    options.notes = &noted;
    options.notes_size = sizeof noted;
    EXPECT(CFETBL_ForEachReset(noting, restart, is_kept, &options, &report) && report.failed == 0);
    EXPECT(report.power_ons == report.write_count && report.faults == report.resets && noted.copies == 0);
    CFETBL_FreeReport(&report);
    CFETBL_StoreLikeCfe(true);
    options.every = 6; /* inside images too */
    EXPECT(CFETBL_ForEachReset(noting, restart, is_kept, &options, &report) && report.failed > 0);
    EXPECT(report.findings[0].place.write == 7 && strstr(report.findings[0].answers, "CFE_ES_CDS_BLOCK_CRC_ERR") != NULL);
    CFETBL_FreeReport(&report);
    CFETBL_StoreLikeCfe(false);
}

/* A file of the file store is there after a reset, and isn't after a power-on. */
static void with_file(void *context)
{
    uint8_t image[SIZE] = {7};

    step(0);
    step(2);
    CFETBL_SetTime(77, 0);
    CFETBL_PutTableFile("/f", "A.T", 0, image, sizeof image);
    CFE_TBL_Load(table, CFE_TBL_SRC_FILE, "/f");
    (void)context;
}

static CFE_Status_t load_file(void *context)
{
    CFE_Status_t status = restart(context);

    return status < CFE_SUCCESS ? status : CFE_TBL_Load(table, CFE_TBL_SRC_FILE, "/f");
}

static void try_files(void)
{
    struct CFETBL_CrashOptions options = few();
    struct CFETBL_CrashReport report;
    uint32_t place;

    options.kinds = CFETBL_CRASH_RESET | CFETBL_CRASH_POWER_ON;
    EXPECT(CFETBL_ForEachReset(with_file, load_file, holds, &options, &report) && report.write_count == 4);
    for (place = 0; place < report.finding_count; place++) {
        const struct CFETBL_CrashFinding *finding = &report.findings[place];

        EXPECT(finding->returned == CFE_TBL_ERR_ACCESS && (finding->kind == CFETBL_CRASH_POWER_ON || finding->place.write < 3));
    }
    EXPECT(report.power_ons == 4 && report.failed == 5 + report.resets - 2 - (options.every == 4 ? 3 : 0));
    CFETBL_FreeReport(&report);
}

/* An application that loads a default at its start: its own start is reset too. */
static CFE_Status_t with_default(void *context)
{
    uint8_t image[SIZE] = {1};
    CFE_Status_t status = restart(context);

    return status == CFE_SUCCESS ? CFE_TBL_Load(table, CFE_TBL_SRC_ADDRESS, image) : status;
}

static void start_alone(void *context)
{
    (void)with_default(context);
}

static void try_second(void)
{
    struct CFETBL_CrashOptions options = few();
    struct CFETBL_CrashReport report;
    uint32_t place;

    options.kinds = CFETBL_CRASH_SECOND_RESET;
    options.inside = 1;
    EXPECT(CFETBL_ForEachReset(start_alone, with_default, holds, &options, &report) && report.failed == 0);
    EXPECT(report.second_resets >= report.resets && report.restarts < report.tried);
    CFETBL_FreeReport(&report);
    EXPECT(CFETBL_ForEachReset(start_alone, restart_with_sum, tell_sum, &options, &report) && report.second_resets == 0);
    for (place = 0; place < report.finding_count; place++) {
        EXPECT(report.findings[place].second.write == 0 && strcmp(report.findings[place].place.name, "CFE_TBL_Manage") != 0);
    }
    CFETBL_FreeReport(&report);
}

static bool is_never(void *context, char *why, size_t room)
{
    (void)context;
    snprintf(why, room, "never");
    return false;
}

static void try_at_end(void)
{
    struct CFETBL_CrashOptions options = few();
    struct CFETBL_CrashReport report;

    options.kinds = CFETBL_CRASH_FAULT;
    options.every = 64;
    options.asks_at_end = true;
    EXPECT(CFETBL_ForEachReset(scenario, restart, is_never, &options, &report) && report.restarts == 0);
    EXPECT(report.faults == report.write_count && report.ends == 1 && report.failed == report.tried);
    EXPECT(strstr(report.findings[0].why, "at the end, without a reset: never") != NULL);
    CFETBL_FreeReport(&report);
}

/* ---- what isn't fit */

/* What is to be said of a test. */
static void expect_message(CFETBL_CrashScenario_t played, CFETBL_CrashRestart_t called, CFETBL_CrashInvariant_t asked, const char *words)
{
    struct CFETBL_CrashOptions options = few();
    struct CFETBL_CrashReport report;

    options.limit = strstr(words, " ms") == NULL ? LONG : getenv("THIN") == NULL ? SHORT : 10 * SHORT;
    EXPECT(!CFETBL_ForEachReset(played, called, asked, &options, &report) && !report.is_whole);
    EXPECT_MESSAGE(words);
    EXPECT(strstr(CFETBL_LastMessage(), report.message) != NULL);
    CFETBL_FreeReport(&report);
}

/* How often a scenario was played, which no application should know. */
static volatile int *plays;

static void other_block(void *context)
{
    scenario(context);
    *plays += 1;
    CFE_ES_RegisterCDS(&block, (size_t)*plays, "C");
}

static void fewer_calls(void *context)
{
    scenario(context);
    *plays += 1;
    if (*plays == 1) {
        CFE_TBL_Manage(table);
    }
}

static void more_calls(void *context)
{
    scenario(context);
    *plays += 1;
    if (*plays == 2) {
        CFE_TBL_Manage(table);
    }
}

static void dying(void *context)
{
    scenario(context);
    raise(SIGUSR1);
}

static void leaving(void *context)
{
    scenario(context);
    exit(5);
}

static void waiting(void *context)
{
    scenario(context);
    for (;;) {
        pause();
    }
}

static void opening(void *context)
{
    (void)context;
    CFETBL_Open(NULL);
}

static void closing(void *context)
{
    (void)context;
    CFETBL_Close();
}

static CFE_Status_t waiting_restart(void *context)
{
    waiting(context);
    return CFE_SUCCESS;
}

static CFE_Status_t opening_restart(void *context)
{
    opening(context);
    return CFE_SUCCESS;
}

static bool calling(void *context, char *why, size_t room)
{
    (void)context;
    (void)why;
    (void)room;
    return CFE_TBL_Manage(table) == CFE_SUCCESS;
}

static void try_other_plays(void)
{
    plays = mmap(NULL, sizeof *plays, PROT_READ | PROT_WRITE, MAP_SHARED | MAP_ANONYMOUS, -1, 0);
    EXPECT(plays != MAP_FAILED);
    expect_message(other_block, restart, holds, "the scenario isn't the same at each play: call 8, CFE_ES_RegisterCDS, is the first that differs (at ");
    *plays = 0;
    expect_message(fewer_calls, restart, holds, "the scenario isn't the same at each play: it made 8 calls before, and now 7");
    *plays = 0;
    expect_message(more_calls, restart, holds, "it made 7 calls before, and now call 8, CFE_TBL_Manage, comes after them");
    munmap((void *)plays, sizeof *plays);
}

static void try_unfit(void)
{
    expect_message(NULL, restart, holds, "the scenario is missing");
    expect_message(scenario, NULL, holds, "the restart is missing");
    expect_message(dying, restart, holds, "the scenario was ended by signal 10 ");
    expect_message(leaving, restart, holds, "the scenario ended its process with status "); /* a tool may give another one */
    EXPECT_MESSAGE(", after call 7, CFE_TBL_Load");
    expect_message(waiting, restart, holds, " ms after call 7, CFE_TBL_Load");
    expect_message(opening, restart, holds, "the scenario calls CFETBL_Open: the service is on in a crash test");
    expect_message(closing, restart, holds, "the scenario calls CFETBL_Close");
    if (getenv("THIN") == NULL) {
        expect_message(scenario, waiting_restart, holds, " ms");
        EXPECT_MESSAGE("3 times the application didn't return within ");
    }
    expect_message(scenario, opening_restart, holds, "the restart calls CFETBL_Open");
    expect_message(scenario, restart, calling, "the invariant calls CFE_TBL_Manage");
}

/* A restart that dies is a finding, and the next one is tried all the same. */
static CFE_Status_t dying_restart(void *context)
{
    CFE_Status_t status = restart(context);

    if (status == CFE_TBL_INFO_RECOVERED_TBL) {
        raise(SIGUSR1);
    }
    return status;
}

static CFE_Status_t leaving_restart(void *context)
{
    (void)context;
    exit(9);
}

static void try_dying(void)
{
    struct CFETBL_CrashOptions options = few();
    struct CFETBL_CrashReport report;

    EXPECT(CFETBL_ForEachReset(scenario, dying_restart, holds, &options, &report) && report.failed > 0);
    EXPECT(report.findings[0].outcome == CFETBL_CRASH_DIES && strstr(report.findings[0].why, "the restart was ended by signal 10 ") != NULL);
    CFETBL_FreeReport(&report);
    EXPECT(CFETBL_ForEachReset(scenario, leaving_restart, NULL, &options, &report) && report.failed == report.tried);
    EXPECT(strstr(report.findings[0].why, "the restart ended its process with status ") != NULL);
    CFETBL_FreeReport(&report);
}

/* What an application does after a fault is looked at too. */
static void stuck_after_fault(void *context)
{
    (void)context;
    step(0);
    if (CFE_ES_RegisterCDS(&block, SIZE, "B") == CFE_SUCCESS && CFE_ES_CopyToCDS(block, "AAAAAAAA") != CFE_SUCCESS) {
        waiting(context);
    }
}

static void dying_after_fault(void *context)
{
    (void)context;
    step(0);
    if (CFE_ES_RegisterCDS(&block, SIZE, "B") == CFE_SUCCESS && CFE_ES_CopyToCDS(block, "AAAAAAAA") != CFE_SUCCESS) {
        raise(SIGUSR1);
    }
}

static void expect_after_fault(CFETBL_CrashScenario_t played, enum CFETBL_CrashOutcome outcome, const char *words)
{
    struct CFETBL_CrashOptions options = few();
    struct CFETBL_CrashReport report;

    options.kinds = CFETBL_CRASH_FAULT;
    options.every = 64;
    options.limit = getenv("THIN") == NULL ? SHORT : 10 * SHORT;
    EXPECT(CFETBL_ForEachReset(played, restart, holds, &options, &report) && report.faults == 4);
    EXPECT(report.finding_count > 0 && report.findings[0].outcome == outcome && strstr(report.findings[0].why, words) != NULL);
    CFETBL_FreeReport(&report);
}

static void try_after_fault(void)
{
    if (getenv("THIN") == NULL) {
        expect_after_fault(stuck_after_fault, CFETBL_CRASH_HANGS, "after the fault the scenario made no call for ");
    }
    expect_after_fault(dying_after_fault, CFETBL_CRASH_DIES, "after the fault the scenario was ended by signal 10 ");
}

/* The test's own service and memory stay as they are. */
static void try_apart(void)
{
    struct CFETBL_CrashOptions options = few();
    struct CFETBL_CrashReport report;

    EXPECT(CFETBL_Open(NULL) && CFETBL_StartApp(1, "A"));
    options.every = 64;
    EXPECT(CFETBL_ForEachReset(scenario, restart, holds, &options, &report) && report.failed == 0);
    EXPECT(CFE_ES_RegisterCDS(&block, SIZE, "B") == CFE_SUCCESS && CFETBL_CrashKind() == 0);
    CFETBL_FreeReport(&report);
    CFETBL_Close();
}

int main(void)
{
    try_states();
    try_notes();
    try_files();
    try_second();
    try_at_end();
    try_other_plays();
    try_unfit();
    try_dying();
    try_after_fault();
    try_apart();
    return expected();
}
