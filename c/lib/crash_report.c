/* SPDX-License-Identifier: Apache-2.0 */
/* crash_report.c: the report of a crash test as text and as JSON. */
#include "crash.h"

#include <stdlib.h>
#include <string.h>

/* How many milliseconds are between two lines of progress. */
enum { PROGRESS = 200 };

/* ---- words */

#define CODE(name) {#name, name}

/* The return codes by cFE's names. Those with an own meaning for an application's start come first. */
static const struct {
    const char *name;
    CFE_Status_t code;
} codes[] = {
    CODE(CFE_SUCCESS),
    CODE(CFE_TBL_INFO_RECOVERED_TBL),
    CODE(CFE_ES_CDS_ALREADY_EXISTS),
    CODE(CFE_ES_CDS_BLOCK_CRC_ERR),
    CODE(CFE_ES_CDS_ACCESS_ERROR),
    CODE(CFE_ES_CDS_INSUFFICIENT_MEMORY),
    CODE(CFE_ES_CDS_INVALID_NAME),
    CODE(CFE_ES_CDS_INVALID_SIZE),
    CODE(CFE_ES_BAD_ARGUMENT),
    CODE(CFE_ES_ERR_RESOURCEID_NOT_VALID),
    CODE(CFE_STATUS_EXTERNAL_RESOURCE_FAIL),
    CODE(CFE_TBL_INFO_UPDATED),
    CODE(CFE_TBL_INFO_UPDATE_PENDING),
    CODE(CFE_TBL_INFO_NO_UPDATE_PENDING),
    CODE(CFE_TBL_INFO_VALIDATION_PENDING),
    CODE(CFE_TBL_INFO_NO_VALIDATION_PENDING),
    CODE(CFE_TBL_INFO_DUMP_PENDING),
    CODE(CFE_TBL_INFO_TABLE_LOCKED),
    CODE(CFE_TBL_WARN_DUPLICATE),
    CODE(CFE_TBL_WARN_NOT_CRITICAL),
    CODE(CFE_TBL_ERR_NEVER_LOADED),
    CODE(CFE_TBL_ERR_INVALID_HANDLE),
    CODE(CFE_TBL_ERR_INVALID_NAME),
    CODE(CFE_TBL_ERR_INVALID_SIZE),
    CODE(CFE_TBL_ERR_INVALID_OPTIONS),
    CODE(CFE_TBL_ERR_REGISTRY_FULL),
    CODE(CFE_TBL_ERR_HANDLES_FULL),
    CODE(CFE_TBL_ERR_NO_ACCESS),
    CODE(CFE_TBL_ERR_UNREGISTERED),
    CODE(CFE_TBL_ERR_DUPLICATE_DIFF_SIZE),
    CODE(CFE_TBL_ERR_DUPLICATE_NOT_OWNED),
    CODE(CFE_TBL_ERR_DUMP_ONLY),
    CODE(CFE_TBL_ERR_ILLEGAL_SRC_TYPE),
    CODE(CFE_TBL_ERR_LOAD_IN_PROGRESS),
    CODE(CFE_TBL_ERR_NO_BUFFER_AVAIL),
    CODE(CFE_TBL_ERR_ACCESS),
    CODE(CFE_TBL_ERR_FILE_TOO_LARGE),
    CODE(CFE_TBL_ERR_FILE_FOR_WRONG_TABLE),
    CODE(CFE_TBL_ERR_LOAD_INCOMPLETE),
    CODE(CFE_TBL_ERR_PARTIAL_LOAD),
    CODE(CFE_TBL_ERR_FILENAME_TOO_LONG),
    CODE(CFE_TBL_ERR_NO_STD_HEADER),
    CODE(CFE_TBL_ERR_NO_TBL_HEADER),
    CODE(CFE_TBL_ERR_BAD_CONTENT_ID),
    CODE(CFE_TBL_ERR_BAD_SUBTYPE_ID),
    CODE(CFE_TBL_ERR_BAD_SPACECRAFT_ID),
    CODE(CFE_TBL_ERR_BAD_PROCESSOR_ID),
    CODE(CFE_TBL_BAD_ARGUMENT),
};

void crash_say_code(char *words, size_t room, int32_t code)
{
    size_t place;

    for (place = 0; place < sizeof codes / sizeof codes[0]; place++) {
        if (codes[place].code == code) {
            snprintf(words, room, "%s", codes[place].name);
            return;
        }
    }
    snprintf(words, room, "0x%08lX", (unsigned long)(uint32_t)code);
}

/* Both in the order of the bits and of the numbers that cfetbl_crash.h has. */
static const char *kind_words(unsigned kind)
{
    switch (kind) {
    case CFETBL_CRASH_RESET:
        return "reset";
    case CFETBL_CRASH_FAULT:
        return "fault";
    case CFETBL_CRASH_SECOND_RESET:
        return "second reset";
    case CFETBL_CRASH_POWER_ON:
        return "power-on";
    default:
        return "end";
    }
}

static const char *outcome_words(enum CFETBL_CrashOutcome outcome)
{
    static const char *const words[] = {"holds", "not up", "broken", "hangs", "dies"};

    return words[outcome];
}

/* ---- text */

/* `after 3 of 16 bytes`, or `after 3 to 9 of 16 bytes`. */
static void say_place(FILE *to, const struct CFETBL_CrashPlace *place)
{
    if (place->first == place->last) {
        fprintf(to, "write %u, after %u of %u bytes", (unsigned)place->write, (unsigned)place->first, (unsigned)place->length);
    } else {
        fprintf(to, "write %u, after %u to %u of %u bytes", (unsigned)place->write, (unsigned)place->first, (unsigned)place->last,
                (unsigned)place->length);
    }
}

static void say_call(FILE *to, const char *head, const struct CFETBL_CrashPlace *place)
{
    fprintf(to, "   %s %s, %u byte%s at %u, by call %u, %s%s%s\n", head, place->what, (unsigned)place->length, place->length == 1 ? "" : "s",
            (unsigned)place->at, (unsigned)place->call, place->name, place->line[0] == 0 ? "" : " at ", place->line);
}

/* What a trouble is, and where it comes. */
static void say_trouble(FILE *to, const struct CFETBL_CrashFinding *finding)
{
    if (finding->place.length == 0) {
        fprintf(to, finding->kind == 0 ? "at the end of the scenario" : "a %s at the end of the scenario", kind_words(finding->kind));
        return;
    }
    fprintf(to, "a %s in ", finding->kind == CFETBL_CRASH_SECOND_RESET ? "reset" : kind_words(finding->kind));
    say_place(to, &finding->place);
    if (finding->second.write > 0) {
        fprintf(to, ", and one in the restart's ");
        say_place(to, &finding->second);
    }
}

static void say_outcome(FILE *to, const struct CFETBL_CrashFinding *finding)
{
    char code[64];

    crash_say_code(code, sizeof code, finding->returned);
    if (finding->outcome == CFETBL_CRASH_NOT_UP) {
        fprintf(to, "the application didn't start: the restart returned %s", code);
    } else if (finding->outcome == CFETBL_CRASH_BROKEN) {
        fprintf(to, "the invariant doesn't hold%s%s", finding->why[0] == 0 ? "" : ": ", finding->why);
    } else {
        fprintf(to, "%s", finding->why);
    }
}

static void say_finding(FILE *to, uint32_t number, const struct CFETBL_CrashFinding *finding)
{
    fprintf(to, "%u. ", (unsigned)number);
    say_trouble(to, finding);
    if (finding->count > 1) {
        fprintf(to, " (%u of them)", (unsigned)finding->count);
    }
    fprintf(to, "\n   ");
    say_outcome(to, finding);
    fprintf(to, "\n");
    if (finding->place.length > 0) {
        say_call(to, "the write:", &finding->place);
    }
    if (finding->second.write > 0) {
        say_call(to, "the restart's write:", &finding->second);
    }
    if (finding->answers[0] != 0) {
        fprintf(to, "   the restart was answered: %s\n", finding->answers);
    }
}

/* How many troubles of each kind were tried. */
static void say_counts(FILE *to, const struct CFETBL_CrashReport *report)
{
    fprintf(to, "tried: %u reset%s in writes", (unsigned)report->resets, report->resets == 1 ? "" : "s");
    if (report->second_resets > 0) {
        fprintf(to, ", %u second resets", (unsigned)report->second_resets);
    }
    if (report->faults > 0) {
        fprintf(to, ", %u faults", (unsigned)report->faults);
    }
    if (report->power_ons > 0) {
        fprintf(to, ", %u power-ons", (unsigned)report->power_ons);
    }
    fprintf(to, ", %u at the end; the restart was called %u times, in %u.%02u s\n", (unsigned)report->ends, (unsigned)report->restarts,
            (unsigned)(report->milliseconds / 1000), (unsigned)(report->milliseconds % 1000 / 10));
}

bool CFETBL_ReportText(FILE *to, const struct CFETBL_CrashReport *report)
{
    uint32_t place;

    fprintf(to, "crash test over %s: the scenario makes %u calls, with %u writes to the Critical Data Store\n",
            report->is_like_cfe ? "a store like cFE's" : "the service's own store", (unsigned)report->calls, (unsigned)report->write_count);
    say_counts(to, report);
    for (place = 0; place < report->finding_count; place++) {
        say_finding(to, place + 1, &report->findings[place]);
    }
    if (report->failed == 0) {
        fprintf(to, "no finding\n");
    } else {
        fprintf(to, "%u of %u have a finding\n", (unsigned)report->failed, (unsigned)report->tried);
    }
    if (!report->is_whole) {
        fprintf(to, "not all was tried: %s\n", report->message);
    }
    return fflush(to) == 0 && ferror(to) == 0;
}

/* ---- JSON */

static void put_text(FILE *to, const char *name, const char *words)
{
    fprintf(to, "\"%s\":\"", name);
    for (; *words != 0; words++) {
        unsigned char letter = (unsigned char)*words;

        if (letter == '"' || letter == '\\') {
            fprintf(to, "\\%c", letter);
        } else if (letter < 0x20 || letter > 0x7E) {
            fprintf(to, "\\u%04x", letter);
        } else {
            fputc(letter, to);
        }
    }
    fputc('"', to);
}

static void put_number(FILE *to, const char *name, uint32_t number)
{
    fprintf(to, "\"%s\":%u,", name, (unsigned)number);
}

static void put_place(FILE *to, const char *name, const struct CFETBL_CrashPlace *place)
{
    fprintf(to, name[0] == 0 ? "%s{" : "\"%s\":{", name);
    put_number(to, "write", place->write);
    put_number(to, "first", place->first);
    put_number(to, "last", place->last);
    put_number(to, "length", place->length);
    put_number(to, "at", place->at);
    put_number(to, "places", place->places);
    put_number(to, "call", place->call);
    put_text(to, "name", place->name);
    fputc(',', to);
    put_text(to, "line", place->line);
    fputc(',', to);
    put_text(to, "what", place->what);
    fputc('}', to);
}

static void put_finding(FILE *to, const struct CFETBL_CrashFinding *finding)
{
    char code[64];

    fputc('{', to);
    put_text(to, "kind", kind_words(finding->kind));
    fputc(',', to);
    put_text(to, "outcome", outcome_words(finding->outcome));
    fputc(',', to);
    put_number(to, "count", finding->count);
    put_place(to, "place", &finding->place);
    fputc(',', to);
    if (finding->second.write > 0) {
        put_place(to, "second", &finding->second);
        fputc(',', to);
    }
    crash_say_code(code, sizeof code, finding->returned);
    put_text(to, "returned", code);
    fputc(',', to);
    put_text(to, "answers", finding->answers);
    fputc(',', to);
    put_text(to, "why", finding->why);
    fputc('}', to);
}

static void put_counts(FILE *to, const struct CFETBL_CrashReport *report)
{
    fprintf(to, "\"whole\":%s,\"like_cfe\":%s,", report->is_whole ? "true" : "false", report->is_like_cfe ? "true" : "false");
    put_number(to, "calls", report->calls);
    put_number(to, "tried", report->tried);
    put_number(to, "resets", report->resets);
    put_number(to, "ends", report->ends);
    put_number(to, "faults", report->faults);
    put_number(to, "second_resets", report->second_resets);
    put_number(to, "power_ons", report->power_ons);
    put_number(to, "restarts", report->restarts);
    put_number(to, "failed", report->failed);
    put_number(to, "milliseconds", report->milliseconds);
    put_text(to, "message", report->message);
}

bool CFETBL_ReportJson(FILE *to, const struct CFETBL_CrashReport *report)
{
    uint32_t place;

    fputc('{', to);
    put_counts(to, report);
    fprintf(to, ",\"writes\":[");
    for (place = 0; place < report->write_count; place++) {
        fprintf(to, place == 0 ? "" : ",");
        put_place(to, "", &report->writes[place]);
    }
    fprintf(to, "],\"findings\":[");
    for (place = 0; place < report->finding_count; place++) {
        fprintf(to, place == 0 ? "" : ",");
        put_finding(to, &report->findings[place]);
    }
    fprintf(to, "]}\n");
    return fflush(to) == 0 && ferror(to) == 0;
}

void crash_say_progress(struct crash *crash)
{
    uint64_t now = crash_now();

    if (crash->progress != NULL && now - crash->told >= PROGRESS) {
        crash->told = now;
        fprintf(crash->progress, "{\"progress\":{");
        put_number(crash->progress, "tried", crash->report->tried);
        put_number(crash->progress, "write", crash->report->write_count);
        put_number(crash->progress, "writes", crash->shared->scenario.writes);
        fprintf(crash->progress, "\"failed\":%u}}\n", (unsigned)crash->report->failed);
        fflush(crash->progress);
    }
}

void CFETBL_FreeReport(struct CFETBL_CrashReport *report)
{
    free(report->writes);
    free(report->findings);
    report->writes = NULL;
    report->findings = NULL;
    report->write_count = report->finding_count = 0;
}
