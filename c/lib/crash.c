/* SPDX-License-Identifier: Apache-2.0 */
/* crash.c: the driver of a crash test: it has the scenario played, and tries each trouble in each of its writes. */
#define _DEFAULT_SOURCE

#include "crash.h"

#include <signal.h>
#include <stdio.h>
#include <stdlib.h>
#include <string.h>
#include <sys/mman.h>

/* How long an application may take if nothing is said, in milliseconds. */
enum { LIMIT = 5000 };

/* The rows of findings. */
enum { ROW_AT_END, ROW_RESET, ROW_FAULT, ROW_FAULT_AT_END, ROW_SECOND, ROW_POWER_ON };

static bool is_like_cfe;
static unsigned kind_at_work;

void CFETBL_StoreLikeCfe(bool is_like)
{
    is_like_cfe = is_like;
}

unsigned CFETBL_CrashKind(void)
{
    return kind_at_work;
}

/* ---- the states that troubles leave */

static size_t notes_of(const struct crash *crash)
{
    return crash->options.notes_size;
}

/* What a power-on leaves: nothing but what the test noted. */
static void switch_power(struct crash_state *state)
{
    state->kind = CFETBL_CRASH_POWER_ON;
    state->seconds = state->subseconds = state->files = 0;
    memset(state->damages, 0, sizeof state->damages);
    memset(state->bank, 0, sizeof state->bank);
}

static const struct crash_end *try_state(struct crash *crash, struct crash_trouble *trouble, unsigned kind, unsigned row, bool *is_new)
{
    trouble->kind = kind;
    trouble->row = row;
    kind_at_work = crash->tried->kind;
    return crash_try(crash, trouble, is_new);
}

/* ---- a second reset */

static void explore(struct crash *crash, int depth, struct crash_trouble *first);

/* Has the start code that succeeded over the state that is tried played once more, with a reset in each of its writes. */
static void try_second(struct crash *crash, struct crash_trouble *trouble)
{
    struct crash_shared *shared = crash->shared;
    uint32_t steps = shared->restart.steps;

    shared->second.steps = steps;
    shared->second.calls = shared->restart.calls;
    shared->second.writes = shared->restart.writes;
    memcpy(shared->second.step, shared->restart.step, steps * sizeof shared->restart.step[0]);
    explore(crash, 1, trouble);
}

/* ---- troubles in a write */

/* What came of a player that went on with a fault. */
static bool judge_fault(struct crash *crash, struct crash_end *end)
{
    const struct crash_shared *shared = crash->shared;

    memset(end, 0, sizeof *end);
    if (crash->has_hung) {
        end->outcome = CFETBL_CRASH_HANGS;
        snprintf(end->why, sizeof end->why, "after the fault the scenario made no call for %u ms", (unsigned)crash->options.limit);
    } else if (shared->result.stage < CRASH_RETURNED || shared->ended != 0) {
        end->outcome = CFETBL_CRASH_DIES;
        crash_say_end(end->why, sizeof end->why, "after the fault the scenario", shared->ended);
    } else if (shared->result.stage == CRASH_DONE && !shared->result.holds) {
        end->outcome = CFETBL_CRASH_BROKEN;
        snprintf(end->why, sizeof end->why, "at the end, without a reset: %.200s", shared->result.why);
        crash_make_line(end->why);
    }
    return end->outcome == CFETBL_CRASH_HOLDS;
}

/* Has the write fail after so many bytes, the scenario go on, and then the processor reset. */
static void try_fault(struct crash *crash, const struct crash_process *player, struct crash_trouble *trouble, uint32_t write)
{
    struct crash_shared *shared = crash->shared;
    struct crash_writes *writes = crash->waiting[0];
    const struct crash_piece *piece = &writes->piece[write - 1];
    struct crash_command command = {'f', -1, write, trouble->place.first};
    struct crash_end end;
    bool is_new;
    int shows;

    if (crash->is_like_cfe) {
        command.slot = crash_copied_slot(writes->before.bank, piece, &shows);
        command.slot = shows < 0 ? -1 : command.slot;
    }
    crash->has_hung = false;
    crash_tell(player, &command);
    if (crash_hear(crash, player) != 'd' || shared->wrong[0] != 0) {
        return;
    }
    trouble->kind = CFETBL_CRASH_FAULT;
    trouble->row = ROW_FAULT_AT_END;
    if (!judge_fault(crash, &end)) {
        crash_note(crash, trouble, &end);
        return;
    }
    crash_copy_state(crash->tried, &shared->writes.before, notes_of(crash));
    crash->tried->kind = CFETBL_CRASH_FAULT;
    if (command.slot >= 0 && shared->is_torn) {
        crash_tear(crash->tried->bank, command.slot, piece, command.after);
    }
    (void)try_state(crash, trouble, CFETBL_CRASH_FAULT, ROW_FAULT, &is_new);
}

/* The state that a reset in a write leaves, after so many bytes. */
static void leave(struct crash *crash, int depth, const struct crash_piece *piece, uint32_t after)
{
    crash_copy_state(crash->tried, &crash->waiting[depth]->before, notes_of(crash));
    crash_write(crash->tried->bank, piece, after, crash->is_like_cfe);
}

/* Tries each trouble in a write after so many bytes. */
static void try_place(struct crash *crash, const struct crash_process *player, struct crash_trouble *trouble, uint32_t write)
{
    const struct crash_piece *piece = &crash->waiting[0]->piece[write - 1];
    unsigned kinds = crash->options.kinds;
    const struct crash_end *end;
    bool is_new;

    if ((kinds & CFETBL_CRASH_RESET) != 0) {
        leave(crash, 0, piece, trouble->place.first);
        end = try_state(crash, trouble, CFETBL_CRASH_RESET, ROW_RESET, &is_new);
        if ((kinds & CFETBL_CRASH_SECOND_RESET) != 0 && end != NULL && is_new && crash->shared->result.stage == CRASH_DONE &&
            crash->shared->restart.writes > 0) {
            try_second(crash, trouble);
        }
    }
    if ((kinds & CFETBL_CRASH_POWER_ON) != 0 && trouble->place.first == 0 && !crash->is_stopped) {
        leave(crash, 0, piece, 0);
        switch_power(crash->tried);
        (void)try_state(crash, trouble, CFETBL_CRASH_POWER_ON, ROW_POWER_ON, &is_new);
    }
    if ((kinds & CFETBL_CRASH_FAULT) != 0 && !crash->is_stopped && !(crash->is_like_cfe && crash_is_turn(piece))) {
        try_fault(crash, player, trouble, write);
    }
}

/* How many bytes are between the places in a write of this length that are tried. */
static uint32_t distance(const struct crash *crash, uint32_t length)
{
    uint32_t every = crash->options.every == 0 ? 1 : crash->options.every;
    uint32_t spread = crash->options.inside == 0 ? 1 : (length + crash->options.inside) / (crash->options.inside + 1);

    return every > spread ? every : spread;
}

/* ---- a player that waits */

/* Tries each place in a write. */
static void try_write(struct crash *crash, int depth, const struct crash_process *player, struct crash_trouble *trouble, uint32_t write)
{
    const struct crash_piece *piece = &crash->waiting[depth]->piece[write - 1];
    struct CFETBL_CrashPlace *place = depth == 0 ? &trouble->place : &trouble->second;
    uint32_t after;
    bool is_new;

    for (after = 0; after < piece->length && !crash->is_stopped; after += distance(crash, piece->length)) {
        place->first = place->last = after;
        if (depth == 0) {
            try_place(crash, player, trouble, write);
        } else {
            leave(crash, depth, piece, after);
            (void)try_state(crash, trouble, CFETBL_CRASH_SECOND_RESET, ROW_SECOND, &is_new);
        }
        if (crash->shared->wrong[0] != 0) {
            return;
        }
    }
}

/* Keeps a write of the scenario for the report. */
static void keep_write(struct crash *crash, const struct crash_trouble *trouble)
{
    uint32_t *count = &crash->report->write_count;
    struct CFETBL_CrashPlace *writes = crash_grow(crash, crash->writes, &crash->write_room, *count, sizeof *writes);
    size_t *calls = crash_grow(crash, crash->write_calls, &crash->write_call_room, *count, sizeof *calls);

    crash->writes = writes != NULL ? writes : crash->writes;
    crash->write_calls = calls != NULL ? calls : crash->write_calls;
    if (writes != NULL && calls != NULL) {
        writes[*count] = trouble->place;
        calls[*count] = trouble->call;
        *count += 1;
    }
}

/* Copies what a player handed over. */
static void copy_writes(struct crash *crash, int depth)
{
    const struct crash_writes *from = &crash->shared->writes;
    struct crash_writes *to = crash->waiting[depth];
    uint32_t place;

    to->call = from->call;
    to->first = from->first;
    to->count = from->count;
    crash_copy_state(&to->before, &from->before, notes_of(crash));
    for (place = 0; place < from->count; place++) {
        memcpy(&to->piece[place], &from->piece[place], offsetof(struct crash_piece, bytes) + from->piece[place].length);
    }
}

/* Tries the writes of a record before which a player waits. */
static void try_record(struct crash *crash, int depth, const struct crash_process *player, struct crash_trouble *trouble)
{
    struct CFETBL_CrashPlace *place = depth == 0 ? &trouble->place : &trouble->second;
    struct crash_writes *writes = crash->waiting[depth];
    uint32_t write;

    copy_writes(crash, depth);
    *(depth == 0 ? &trouble->call : &trouble->second_call) = crash_keep_call(crash, &writes->call);
    for (write = 1; write <= writes->count && !crash->is_stopped && crash->shared->wrong[0] == 0; write++) {
        const struct crash_piece *piece = &writes->piece[write - 1];

        memset(place, 0, sizeof *place);
        place->write = writes->first + write - 1;
        place->length = piece->length;
        place->at = piece->at;
        place->places = (piece->length + distance(crash, piece->length) - 1) / distance(crash, piece->length);
        place->call = writes->call.number;
        memcpy(place->name, writes->call.name, sizeof place->name);
        crash_say_write(place->what, writes->before.bank, piece);
        if (depth == 0) {
            keep_write(crash, trouble);
        }
        try_write(crash, depth, player, trouble, write);
        memcpy(writes->before.bank + piece->at, piece->bytes, piece->length);
    }
}

/* Tries what comes at the end of the scenario, after all its writes. */
static void try_end(struct crash *crash)
{
    struct crash_shared *shared = crash->shared;
    struct crash_trouble trouble;
    struct crash_end end;
    bool is_new;

    memset(&trouble, 0, sizeof trouble);
    memset(&end, 0, sizeof end);
    trouble.place.write = crash->report->write_count + 1;
    if (crash->options.asks_at_end) {
        end.outcome = shared->result.holds ? CFETBL_CRASH_HOLDS : CFETBL_CRASH_BROKEN;
        memcpy(end.why, shared->result.why, sizeof end.why - 1);
        crash_make_line(end.why);
        crash_note(crash, &trouble, &end);
    }
    crash_copy_state(crash->tried, &shared->writes.before, notes_of(crash));
    if ((crash->options.kinds & CFETBL_CRASH_RESET) != 0) {
        (void)try_state(crash, &trouble, CFETBL_CRASH_RESET, ROW_RESET, &is_new);
    }
    if ((crash->options.kinds & CFETBL_CRASH_POWER_ON) != 0 && !crash->is_stopped) {
        switch_power(crash->tried);
        (void)try_state(crash, &trouble, CFETBL_CRASH_POWER_ON, ROW_POWER_ON, &is_new);
    }
}

/* Says why a player ended early: `said` is the last that was heard of it. */
static void say_ended(struct crash *crash, int depth, char said, int status)
{
    const struct crash_shared *shared = crash->shared;
    const char *who = depth == 0 ? "the scenario" : "the restart";
    char words[160];

    if (shared->wrong[0] != 0) {
        crash_stop(crash, "%s", shared->wrong);
    } else if (said == 'h') {
        crash_stop(crash, "%s made no call for %u ms after call %u, %s", who, (unsigned)crash->options.limit, (unsigned)shared->number,
                   shared->name == NULL ? "none" : shared->name);
    } else if (status != 0 || (said != 'e' && shared->result.stage < CRASH_RETURNED)) {
        crash_say_end(words, sizeof words, who, status);
        crash_stop(crash, "%s, after call %u, %s", words, (unsigned)shared->number, shared->name == NULL ? "none" : shared->name);
    }
}

/* Starts a player over the state that is tried. False means that there is none. */
static bool start(struct crash *crash, enum crash_mode mode, struct crash_play *play, bool is_restart, struct crash_process *player)
{
    memset(&crash->shared->result, 0, sizeof crash->shared->result);
    crash->shared->number = 0;
    if (!crash_start(crash, true, player)) {
        return false;
    }
    if (player->id == 0) {
        crash->link = player->link;
        crash->is_restart = is_restart;
        crash_run_player(crash, mode, play, crash->tried);
    }
    return true;
}

/* Has the scenario played once more, or the start code over the state that is tried, and tries troubles in its writes. */
static void explore(struct crash *crash, int depth, struct crash_trouble *trouble)
{
    struct crash_play *play = depth == 0 ? &crash->shared->scenario : &crash->shared->second;
    const struct crash_command go = {'g', -1, 0, 0};
    struct crash_process player;
    char said;
    int status;

    if (!start(crash, CRASH_WAITS, play, depth > 0, &player)) {
        return;
    }
    while ((said = crash_hear(crash, &player)) == 'w') {
        try_record(crash, depth, &player, trouble);
        if (crash->is_stopped || crash->shared->wrong[0] != 0) {
            break;
        }
        crash_tell(&player, &go);
    }
    if (said == 'e' && depth == 0) {
        try_end(crash);
    }
    if (said != 'e' && said != 0) {
        kill(player.id, SIGKILL);
    }
    (void)crash_wait(crash, &player, &status);
    if (!crash->is_stopped) {
        say_ended(crash, depth, said, status);
    }
}

/* Has the scenario played for the first time. */
static bool play_first(struct crash *crash)
{
    struct crash_process player;
    int status;
    char said;

    if (!start(crash, CRASH_NOTES_STEPS, &crash->shared->scenario, false, &player)) {
        return false;
    }
    said = crash_hear(crash, &player);
    if (said == 'h') {
        kill(player.id, SIGKILL);
    }
    (void)crash_wait(crash, &player, &status);
    say_ended(crash, 0, said, status);
    return !crash->is_stopped;
}

/* ---- the report */

/* Puts the line of a call into the places that have it. */
static void put_lines(struct crash *crash, char (*lines)[192])
{
    uint32_t place;
    size_t finding;

    for (place = 0; place < crash->report->write_count; place++) {
        memcpy(crash->writes[place].line, lines[crash->write_calls[place]], sizeof crash->writes[place].line);
    }
    for (finding = 0; finding < crash->found_count; finding++) {
        struct crash_trouble *trouble = &crash->found[finding].trouble;

        if (trouble->place.length > 0) {
            memcpy(trouble->place.line, lines[trouble->call], sizeof trouble->place.line);
        }
        if (trouble->second.write > 0) {
            memcpy(trouble->second.line, lines[trouble->second_call], sizeof trouble->second.line);
        }
    }
}

static void resolve(struct crash *crash)
{
    size_t message = strlen(crash->report->message), last = crash_keep_call(crash, &crash->shared->where);
    char (*lines)[192] = calloc(crash->call_count + 1, sizeof *lines);

    if (lines == NULL || crash->call_count == 0 || !crash_resolve(crash->calls, crash->call_count, lines)) {
        crash_stop(crash, "out of memory for the lines of calls");
    } else {
        put_lines(crash, lines);
        if (crash->shared->where.depth > 0 && lines[last][0] != 0) {
            snprintf(crash->report->message + message, sizeof crash->report->message - message, " (at %s)", lines[last]);
        }
    }
    free(lines);
}

static void put_findings(struct crash *crash)
{
    struct CFETBL_CrashReport *report = crash->report;
    size_t place;

    report->findings = crash->found_count == 0 ? NULL : calloc(crash->found_count, sizeof *report->findings);
    if (crash->found_count > 0 && report->findings == NULL) {
        crash_stop(crash, "out of memory for the findings");
        return;
    }
    for (place = 0; place < crash->found_count; place++) {
        const struct crash_found *found = &crash->found[place];
        const struct crash_end *end = &crash->ends[found->end];
        struct CFETBL_CrashFinding *told = &report->findings[place];

        told->kind = found->trouble.kind;
        told->outcome = end->outcome;
        told->count = found->count;
        told->place = found->trouble.place;
        told->second = found->trouble.second;
        told->returned = end->returned;
        memcpy(told->answers, end->answers, sizeof told->answers);
        memcpy(told->why, end->why, sizeof told->why);
    }
    report->finding_count = (uint32_t)crash->found_count;
}

/* ---- the whole test */

static void *mapped(size_t size, int how)
{
    void *at = mmap(NULL, size, PROT_READ | PROT_WRITE, how | MAP_ANONYMOUS | MAP_NORESERVE, -1, 0);

    return at == MAP_FAILED ? NULL : at;
}

static void unmap(void *at, size_t size)
{
    if (at != NULL) {
        munmap(at, size);
    }
}

static bool has_memory(struct crash *crash)
{
    crash->shared = mapped(sizeof *crash->shared, MAP_SHARED);
    crash->tried = mapped(sizeof *crash->tried, MAP_PRIVATE);
    crash->waiting[0] = mapped(sizeof *crash->waiting[0], MAP_PRIVATE);
    crash->waiting[1] = mapped(sizeof *crash->waiting[1], MAP_PRIVATE);
    if (crash->shared == NULL || crash->tried == NULL || crash->waiting[0] == NULL || crash->waiting[1] == NULL) {
        crash_stop(crash, "out of memory for a crash test");
    }
    return !crash->is_stopped;
}

static void free_memory(struct crash *crash)
{
    unmap(crash->shared, sizeof *crash->shared);
    unmap(crash->tried, sizeof *crash->tried);
    unmap(crash->waiting[0], sizeof *crash->waiting[0]);
    unmap(crash->waiting[1], sizeof *crash->waiting[1]);
    free(crash->known);
    free(crash->ends);
    free(crash->found);
    free(crash->write_calls);
    free(crash->calls);
}

/* Takes the options, with what is meant if nothing is said. False, with a message, means that they aren't right. */
static bool take_options(struct crash *crash, const struct CFETBL_CrashOptions *options)
{
    static uint8_t none[1];

    if (options != NULL) {
        crash->options = *options;
    }
    if (crash->scenario == NULL || crash->restart == NULL) {
        crash_stop(crash, "the %s is missing", crash->scenario == NULL ? "scenario" : "restart");
    } else if (crash->options.notes_size > CRASH_NOTES) {
        crash_stop(crash, "the notes have %zu bytes, and at most %d are kept", crash->options.notes_size, CRASH_NOTES);
    } else if (crash->options.notes == NULL && crash->options.notes_size > 0) {
        crash_stop(crash, "the notes are missing");
    }
    if (crash->options.notes == NULL) {
        crash->options.notes = none;
    }
    if ((crash->options.kinds & CFETBL_CRASH_SECOND_RESET) != 0 || crash->options.kinds == 0) {
        crash->options.kinds |= CFETBL_CRASH_RESET;
    }
    crash->options.limit = crash->options.limit == 0 ? LIMIT : crash->options.limit;
    return !crash->is_stopped;
}

/* The state in which the scenario begins. */
static void set_first_state(struct crash *crash)
{
    if (crash->options.bank != NULL) {
        memcpy(crash->tried->bank, crash->options.bank, CFETBL_BANK_SIZE);
    }
    memcpy(crash->tried->notes, crash->options.notes, crash->options.notes_size);
}

static void run(struct crash *crash)
{
    struct crash_trouble trouble;

    set_first_state(crash);
    if (play_first(crash)) {
        crash->report->calls = crash->shared->scenario.calls;
        memset(&trouble, 0, sizeof trouble);
        explore(crash, 0, &trouble);
    }
    resolve(crash);
    put_findings(crash);
}

bool CFETBL_ForEachResetFor(CFETBL_CrashScenario_t scenario, CFETBL_CrashRestart_t restart, CFETBL_CrashInvariant_t invariant,
                            const struct CFETBL_CrashOptions *options, struct CFETBL_CrashReport *report,
                            const struct CFETBL_Headers *headers)
{
    struct crash crash = {0};
    const char *path = getenv("CFETBL_CRASH_REPORT");

    memset(report, 0, sizeof *report);
    if (!cfetbl_has_headers("CFETBL_ForEachReset", headers)) {
        snprintf(report->message, sizeof report->message, "%s", cfetbl_message());
        return false;
    }
    fflush(NULL);
    crash.scenario = scenario;
    crash.restart = restart;
    crash.invariant = invariant;
    crash.report = report;
    crash.is_like_cfe = report->is_like_cfe = is_like_cfe;
    crash.begun = crash_now();
    crash.progress = path == NULL ? NULL : fopen(path, "a");
    if (take_options(&crash, options) && has_memory(&crash)) {
        run(&crash);
    }
    kind_at_work = 0;
    report->is_whole = !crash.is_stopped;
    report->writes = crash.writes;
    report->milliseconds = (uint32_t)(crash_now() - crash.begun);
    free_memory(&crash);
    if (crash.progress != NULL) {
        CFETBL_ReportText(crash.progress, report);
        CFETBL_ReportJson(crash.progress, report);
        fclose(crash.progress);
    }
    if (!report->is_whole) {
        cfetbl_say("CFETBL_ForEachReset: %s", report->message);
    }
    return report->is_whole;
}
