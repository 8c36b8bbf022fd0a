/* SPDX-License-Identifier: Apache-2.0 */
/* crash_tries.c: what comes of the troubles of a crash test. What a restart comes to is decided by what was left, so the start code is called
 * once for all troubles that leave the same bytes. */
#include "crash.h"

#include <stdarg.h>
#include <stdio.h>
#include <stdlib.h>
#include <string.h>

enum { FIRST_KNOWN = 1024, FIRST_ROOM = 16 };

void crash_stop(struct crash *crash, const char *format, ...)
{
    va_list words;

    if (!crash->is_stopped) {
        crash->is_stopped = true;
        va_start(words, format);
        vsnprintf(crash->report->message, sizeof crash->report->message, format, words);
        va_end(words);
    }
}

void *crash_grow(struct crash *crash, void *at, size_t *room, size_t count, size_t size)
{
    size_t more = *room == 0 ? FIRST_ROOM : 2 * *room;
    void *grown;

    if (count < *room) {
        return at;
    }
    grown = realloc(at, more * size);
    if (grown == NULL) {
        crash_stop(crash, "out of memory for the report");
        return NULL;
    }
    *room = more;
    return grown;
}

/* ---- what is known of states */

static void add_word(uint64_t sum[2], uint64_t word)
{
    sum[0] = (sum[0] ^ word) * 0x9E3779B97F4A7C15u;
    sum[0] ^= sum[0] >> 32;
    sum[1] = (sum[1] + word) * 0xC2B2AE3D27D4EB4Fu;
    sum[1] ^= sum[1] >> 29;
}

static void add_bytes(uint64_t sum[2], const void *bytes, size_t length)
{
    const uint8_t *at = bytes;
    uint64_t word;

    for (; length >= sizeof word; length -= sizeof word, at += sizeof word) {
        memcpy(&word, at, sizeof word);
        add_word(sum, word);
    }
    word = 0;
    memcpy(&word, at, length);
    add_word(sum, word);
}

/* A sum over a state, of 128 bits, and of what its restart is asked. */
static void sum_state(const struct crash *crash, const struct crash_state *state, uint64_t sum[2])
{
    uint32_t place;

    sum[0] = sum[1] = 1;
    add_bytes(sum, state, offsetof(struct crash_state, notes));
    add_bytes(sum, state->notes, crash->options.notes_size);
    for (place = 0; place < state->files; place++) {
        add_bytes(sum, &state->file[place], offsetof(struct crash_file, at) + state->file[place].size);
    }
}

/* The place of a sum in a table of so many places, a power of 2. */
static struct crash_known *known_at(struct crash_known *known, size_t room, const uint64_t sum[2])
{
    size_t place = (size_t)sum[0] & (room - 1);

    while (known[place].end != 0 && (known[place].sum[0] != sum[0] || known[place].sum[1] != sum[1])) {
        place = (place + 1) & (room - 1);
    }
    return &known[place];
}

static bool make_known_room(struct crash *crash)
{
    size_t room = crash->known_room == 0 ? FIRST_KNOWN : 2 * crash->known_room, place;
    struct crash_known *known;

    if (2 * crash->known_count < crash->known_room) {
        return true;
    }
    known = calloc(room, sizeof *known);
    if (known == NULL) {
        crash_stop(crash, "out of memory for what is known of restarts");
        return false;
    }
    for (place = 0; place < crash->known_room; place++) {
        if (crash->known[place].end != 0) {
            *known_at(known, room, crash->known[place].sum) = crash->known[place];
        }
    }
    free(crash->known);
    crash->known = known;
    crash->known_room = room;
    return true;
}

/* ---- what a restart came to */

static void say_answers(const struct crash_result *result, char *words, size_t room)
{
    uint32_t place, count = result->calls < CRASH_ANSWERS ? result->calls : CRASH_ANSWERS;
    size_t length = 0;
    char code[64];

    words[0] = 0;
    for (place = 0; place < count; place++) {
        crash_say_code(code, sizeof code, result->answer[place].code);
        length += (size_t)snprintf(words + length, room - length, "%s%s: %s", place == 0 ? "" : ", ", result->answer[place].name, code);
        if (length >= room) {
            memcpy(words + room - 4, "...", 4);
            return;
        }
    }
    if (result->calls > count) {
        (void)snprintf(words + length, room - length, ", and %u more", (unsigned)(result->calls - count));
    }
}

void crash_make_line(char *words)
{
    for (; *words != 0; words++) {
        if ((unsigned char)*words < 0x20 || *words == 0x7F) {
            *words = ' ';
        }
    }
}

static const char *part_of(const struct crash_result *result)
{
    return result->stage == CRASH_ASKS || result->stage == CRASH_DONE ? "the invariant" : "the restart";
}

/* What came of a restarter that ended, or was ended after the time limit. */
static void judge(struct crash *crash, bool is_within, int status, struct crash_end *end)
{
    const struct crash_result *result = &crash->shared->result;
    bool is_asked = result->stage == CRASH_DONE, has_returned = result->stage == CRASH_RETURNED && result->code < 0;

    memset(end, 0, sizeof *end);
    end->returned = result->stage >= CRASH_RETURNED ? result->code : 0;
    if (!is_within) {
        end->outcome = CFETBL_CRASH_HANGS;
        snprintf(end->why, sizeof end->why, "%s didn't return within %u ms", part_of(result), (unsigned)crash->options.limit);
    } else if (status != 0 && (is_asked || has_returned)) {
        end->outcome = CFETBL_CRASH_DIES;
        crash_say_end(end->why, sizeof end->why, "after it had returned, the application", status);
    } else if (has_returned) {
        end->outcome = CFETBL_CRASH_NOT_UP;
    } else if (!is_asked) {
        end->outcome = CFETBL_CRASH_DIES;
        crash_say_end(end->why, sizeof end->why, part_of(result), status);
    } else if (!result->holds) {
        end->outcome = CFETBL_CRASH_BROKEN;
        snprintf(end->why, sizeof end->why, "%.*s", (int)sizeof result->why - 1, result->why);
        crash_make_line(end->why);
    }
    if (end->outcome != CFETBL_CRASH_HOLDS) {
        say_answers(result, end->answers, sizeof end->answers);
    }
}

/* Calls the start code over the state that is tried. */
static bool restart(struct crash *crash, struct crash_end *end)
{
    struct crash_shared *shared = crash->shared;
    struct crash_process process;
    bool is_within;
    int status;

    memset(&shared->result, 0, sizeof shared->result);
    if (!crash_start(crash, false, &process)) {
        return false;
    }
    if (process.id == 0) {
        crash_run_restarter(crash, crash->tried);
    }
    is_within = crash_wait(crash, &process, &status);
    if (shared->wrong[0] != 0) {
        crash_stop(crash, "%s", shared->wrong);
        return false;
    }
    crash->report->restarts += 1;
    judge(crash, is_within, status, end);
    return true;
}

/* The place of an end among those that came, at which it is put; 0 if memory ran out, and else one more. */
static uint32_t keep_end(struct crash *crash, const struct crash_end *end)
{
    struct crash_end *ends;
    size_t place = 0;

    while (place < crash->end_count && memcmp(&crash->ends[place], end, sizeof *end) != 0) {
        place += 1;
    }
    if (place == crash->end_count) {
        ends = crash_grow(crash, crash->ends, &crash->end_room, crash->end_count, sizeof *ends);
        if (ends == NULL) {
            return 0;
        }
        crash->ends = ends;
        ends[place] = *end;
        crash->end_count += 1;
    }
    return (uint32_t)place + 1;
}

/* ---- findings */

/* The finding that goes on with this trouble; NULL if it begins one. A second reset is one more of any that has its writes. */
static struct crash_found *goes_on(struct crash *crash, const struct crash_trouble *trouble, size_t end)
{
    struct crash_found *found;
    size_t place;

    if (trouble->kind != CFETBL_CRASH_SECOND_RESET) {
        found = crash->last_found[trouble->row] == 0 ? NULL : &crash->found[crash->last_found[trouble->row] - 1];
        return found != NULL && found->end == end && found->trouble.place.write == trouble->place.write ? found : NULL;
    }
    for (place = crash->found_count; place > 0; place--) {
        found = &crash->found[place - 1];
        if (found->trouble.kind == trouble->kind && found->end == end && found->trouble.place.write == trouble->place.write &&
            found->trouble.second.write == trouble->second.write) {
            return found;
        }
    }
    return NULL;
}

static void widen(struct CFETBL_CrashPlace *place, const struct CFETBL_CrashPlace *more)
{
    place->first = place->first < more->first ? place->first : more->first;
    place->last = place->last > more->last ? place->last : more->last;
}

static void find(struct crash *crash, const struct crash_trouble *trouble, size_t end)
{
    struct crash_found *found = goes_on(crash, trouble, end);

    crash->report->failed += 1;
    if (found != NULL) {
        widen(&found->trouble.place, &trouble->place);
        widen(&found->trouble.second, &trouble->second);
        found->count += 1;
        return;
    }
    found = crash_grow(crash, crash->found, &crash->found_room, crash->found_count, sizeof *found);
    if (found == NULL) {
        return;
    }
    crash->found = found;
    found[crash->found_count].trouble = *trouble;
    found[crash->found_count].count = 1;
    found[crash->found_count].end = end;
    crash->found_count += 1;
    crash->last_found[trouble->row] = crash->found_count;
}

/* Counts a trouble, and keeps what came of it, by its place among the ends. */
static void count(struct crash *crash, const struct crash_trouble *trouble, size_t end)
{
    struct CFETBL_CrashReport *report = crash->report;
    bool is_at_end = trouble->place.length == 0;

    report->tried += 1;
    report->ends += is_at_end;
    report->resets += trouble->kind == CFETBL_CRASH_RESET && !is_at_end;
    report->faults += trouble->kind == CFETBL_CRASH_FAULT;
    report->second_resets += trouble->kind == CFETBL_CRASH_SECOND_RESET;
    report->power_ons += trouble->kind == CFETBL_CRASH_POWER_ON && !is_at_end;
    if (crash->ends[end].outcome == CFETBL_CRASH_HOLDS) {
        crash->last_found[trouble->row] = 0;
    } else {
        find(crash, trouble, end);
    }
    crash_say_progress(crash);
    crash->hangs += crash->ends[end].outcome == CFETBL_CRASH_HANGS;
    if (crash->hangs == CRASH_HANGS) {
        crash_stop(crash, "%d times the application didn't return within %u ms", CRASH_HANGS, (unsigned)crash->options.limit);
    }
}

void crash_note(struct crash *crash, const struct crash_trouble *trouble, const struct crash_end *end)
{
    uint32_t place = keep_end(crash, end);

    if (place > 0) {
        count(crash, trouble, place - 1);
    }
}

const struct crash_end *crash_try(struct crash *crash, const struct crash_trouble *trouble, bool *is_new)
{
    struct crash_known *known;
    struct crash_end end;
    uint64_t sum[2];

    if (!make_known_room(crash)) {
        return NULL;
    }
    sum_state(crash, crash->tried, sum);
    known = known_at(crash->known, crash->known_room, sum);
    *is_new = known->end == 0;
    if (*is_new) {
        if (!restart(crash, &end)) {
            return NULL;
        }
        known->end = keep_end(crash, &end);
        if (known->end == 0) {
            return NULL;
        }
        memcpy(known->sum, sum, sizeof sum);
        crash->known_count += 1;
    }
    count(crash, trouble, known->end - 1);
    return &crash->ends[known->end - 1];
}

size_t crash_keep_call(struct crash *crash, const struct crash_call *call)
{
    size_t place = crash->call_count;
    struct crash_call *calls;

    while (place > 0 && memcmp(&crash->calls[place - 1], call, sizeof *call) != 0) {
        place -= 1;
    }
    if (place > 0) {
        return place - 1;
    }
    calls = crash_grow(crash, crash->calls, &crash->call_room, crash->call_count, sizeof *calls);
    if (calls != NULL) {
        crash->calls = calls;
        calls[crash->call_count] = *call;
        crash->call_count += 1;
    }
    return crash->call_count == 0 ? 0 : crash->call_count - 1;
}
