/* SPDX-License-Identifier: Apache-2.0 */
/* crash_player.c: what runs in the processes that the driver of a crash test starts: the scenario, the start code, and what is done at each
 * record that they have played. */
#define _GNU_SOURCE

#include "crash.h"
#include "tbl.h"

#include <errno.h>
#include <fcntl.h>
#include <signal.h>
#include <stdarg.h>
#include <stdio.h>
#include <stdlib.h>
#include <string.h>
#include <sys/socket.h>
#include <sys/wait.h>
#include <unistd.h>

/* What a process that gave up ends with. */
enum { GAVE_UP = 3 };

/* The test of this process. */
static struct crash *at_work;

/* Ends the process without what the test has done at its exit. */
static void end(int status) __attribute__((noreturn));

static void end(int status)
{
    fflush(stdout);
    _exit(status);
}

/* Says why the test can't go on, and ends the process. */
static void give_up(const char *format, ...) __attribute__((noreturn, format(printf, 1, 2)));

static void keep_call(struct crash_call *call)
{
    call->number = at_work->number;
    snprintf(call->name, sizeof call->name, "%s", at_work->name == NULL ? "" : at_work->name);
    call->depth = crash_frames(call->frame, CRASH_FRAMES);
}

static void give_up(const char *format, ...)
{
    struct crash_shared *shared = at_work->shared;
    va_list words;

    if (!at_work->has_ended) {
        keep_call(&shared->where);
    }
    va_start(words, format);
    vsnprintf(shared->wrong, sizeof shared->wrong, format, words);
    va_end(words);
    end(GAVE_UP);
}

/* ---- what outlives a reset */

void crash_copy_state(struct crash_state *to, const struct crash_state *from, size_t notes)
{
    uint32_t place;

    memcpy(to, from, offsetof(struct crash_state, notes));
    memcpy(to->notes, from->notes, notes);
    for (place = 0; place < from->files; place++) {
        memcpy(&to->file[place], &from->file[place], offsetof(struct crash_file, at) + from->file[place].size);
    }
}

/* What a reset would leave now. */
static void take_state(struct cfetbl_service *service, struct crash_state *state)
{
    const struct cfetbl_file *file;

    state->kind = CFETBL_CRASH_RESET;
    state->seconds = service->seconds;
    state->subseconds = service->subseconds;
    memcpy(state->damages, service->damages, sizeof state->damages);
    (void)tbl_bank(service->handle, 0, state->bank, CFETBL_BANK_SIZE);
    memcpy(state->notes, at_work->options.notes, at_work->options.notes_size);
    state->files = 0;
    for (file = service->files.first; file != NULL && state->files < CRASH_FILES; file = file->next) {
        struct crash_file *kept = &state->file[state->files];

        if (file->size <= sizeof kept->at) {
            memcpy(kept->name, file->name, sizeof kept->name);
            kept->size = (uint32_t)file->size;
            memcpy(kept->at, file->at, file->size);
            state->files += 1;
        }
    }
}

/* Opens a service over a state. */
static void open_over(struct crash_state *state)
{
    struct cfetbl_service *service;
    uint32_t place;
    bool is_over;

    for (place = 0; place < CFETBL_DAMAGES && state->damages[place][0] != 0; place++) {
        (void)cfetbl_damage(state->bank, state->damages[place]);
    }
    service = cfetbl_open(state->bank) ? cfetbl_enter("CFETBL_ForEachReset") : NULL;
    is_over = service != NULL;
    for (place = 0; is_over && place < state->files; place++) {
        is_over = cfetbl_keep_file(&service->files, state->file[place].name, state->file[place].at, state->file[place].size);
    }
    if (is_over) {
        service->seconds = state->seconds;
        service->subseconds = state->subseconds;
        is_over = cfetbl_carry_over(service);
    }
    if (!is_over) {
        give_up("out of memory for a service");
    }
    cfetbl_leave();
    memcpy(at_work->options.notes, state->notes, at_work->options.notes_size);
}

/* ---- the writes of a record */

static uint32_t writes_made(struct cfetbl_service *service)
{
    struct tbl_write_counts counts;

    return tbl_writes(service->handle, &counts) == TBL_OK ? (uint32_t)counts.made : 0;
}

static void break_write(struct cfetbl_service *service, uint32_t write, uint32_t after)
{
    const struct tbl_write_break fault = {write, after, false};

    if (tbl_break(service->handle, &fault, 1) != TBL_OK) {
        give_up("out of memory for a fault of the store");
    }
}

/* A scout has played the record: the write that failed is its last. */
static void hand_piece(struct cfetbl_service *service)
{
    struct crash_piece *piece = &at_work->shared->writes.piece[at_work->scouted - 1];
    struct tbl_write_counts counts;

    (void)tbl_writes(service->handle, &counts);
    if (counts.made == at_work->scouted && counts.length <= sizeof piece->bytes) {
        piece->at = counts.at;
        (void)tbl_bank(service->handle, counts.at, piece->bytes, counts.length);
        piece->length = counts.length;
    }
    /* Its parent kills it: nothing of the application has run here, so no tool is to look at what it leaves. */
    raise(SIGSTOP);
}

/* Has a child play the record with this write failing. In the child it returns true. */
static bool scout(struct cfetbl_service *service, uint32_t write)
{
    struct crash_piece *piece = &at_work->shared->writes.piece[write - 1];
    pid_t child;

    piece->length = 0;
    child = fork();
    if (child == 0) {
        at_work->mode = CRASH_SCOUTS;
        at_work->scouted = write;
        break_write(service, write, UINT32_MAX);
        return true;
    }
    if (child < 0) {
        give_up("no process can be started: %s", strerror(errno));
    }
    while (waitpid(child, NULL, WUNTRACED) < 0 && errno == EINTR) {
    }
    kill(child, SIGKILL);
    while (waitpid(child, NULL, 0) < 0 && errno == EINTR) {
    }
    if (piece->length == 0) {
        give_up("the bytes of write %u can't be known", (unsigned)(at_work->written + write));
    }
    return false;
}

static void say(char what)
{
    (void)send(at_work->link, &what, 1, MSG_NOSIGNAL);
}

/* Has a child go on with a fault. In the child it returns true. */
static bool go_on(struct cfetbl_service *service, const struct crash_command *command)
{
    struct crash_shared *shared = at_work->shared;
    pid_t child;

    shared->result.stage = CRASH_BEGINS;
    shared->is_torn = command->slot >= 0;
    child = fork();
    if (child == 0) {
        at_work->mode = CRASH_GOES_ON;
        at_work->torn_slot = command->slot;
        break_write(service, command->write, command->after);
        return true;
    }
    if (child < 0) {
        give_up("no process can be started: %s", strerror(errno));
    }
    shared->going_on = child;
    while (waitpid(child, &shared->ended, 0) < 0 && errno == EINTR) {
    }
    shared->going_on = 0;
    say('d');
    return false;
}

/* Does what the driver says, until it says that this process goes on. */
static void obey(struct cfetbl_service *service)
{
    struct crash_command command;
    ssize_t heard;

    do {
        heard = recv(at_work->link, &command, sizeof command, MSG_WAITALL);
        if (heard != (ssize_t)sizeof command) {
            end(GAVE_UP);
        }
    } while (command.what != 'g' && !go_on(service, &command));
}

/* Hands the writes of the record that comes now to the driver, and waits. */
static void hand_over(struct cfetbl_service *service, uint32_t count)
{
    struct crash_writes *writes = &at_work->shared->writes;
    uint32_t write;

    if (count > CRASH_PIECES) {
        give_up("a call makes %u writes, and at most %d are tried", (unsigned)count, CRASH_PIECES);
    }
    keep_call(&writes->call);
    writes->first = at_work->written + 1;
    writes->count = count;
    take_state(service, &writes->before);
    for (write = 1; write <= count; write++) {
        if (scout(service, write)) {
            return;
        }
    }
    at_work->written += count;
    say('w');
    obey(service);
}

/* ---- what the library calls */

static const char *part(void)
{
    return at_work->is_restart ? "the restart" : "the scenario";
}

/* An invariant makes no call. */
static void look_who_calls(const char *name)
{
    at_work->name = at_work->shared->name = name;
    if (at_work->mode == CRASH_IS_ASKED) {
        at_work->has_ended = false;
        give_up("the invariant calls %s: it looks at what the application has in its memory, and makes no call", name);
    }
}

static void begins(const char *name)
{
    at_work->shared->beats += 1;
    look_who_calls(name);
    at_work->number += 1;
    at_work->shared->number = at_work->number;
}

static void forbidden(const char *name)
{
    look_who_calls(name);
    give_up("%s calls %s: the service is on in a crash test, and stays so", part(), name);
}

static void returns(int32_t code)
{
    struct crash_result *result = &at_work->shared->result;

    if (at_work->is_restart && at_work->mode == CRASH_NOTES_STEPS) {
        if (result->calls < CRASH_ANSWERS) {
            result->answer[result->calls].name = at_work->name;
            result->answer[result->calls].code = code;
        }
        result->calls += 1;
    }
}

/* A sum over the bytes of a record: FNV-1a. */
static uint64_t sum_of(const struct cfetbl_record *record)
{
    uint64_t sum = 0xCBF29CE484222325u;
    size_t place;

    for (place = 0; place < record->length; place++) {
        sum = (sum ^ record->at[place]) * 0x100000001B3u;
    }
    return sum;
}

/* Whether the record that comes now is the one that came here as the scenario was first played. */
static void compare(uint64_t sum)
{
    const struct crash_play *play = at_work->play;

    if (at_work->step >= play->steps) {
        give_up("%s isn't the same at each play: it made %u calls before, and now call %u, %s, comes after them", part(), (unsigned)play->calls,
                (unsigned)at_work->number, at_work->name);
    }
    if (play->step[at_work->step].sum != sum || play->step[at_work->step].call != at_work->number) {
        give_up("%s isn't the same at each play: call %u, %s, is the first that differs", part(), (unsigned)at_work->number, at_work->name);
    }
}

static void before(struct cfetbl_service *service, const struct cfetbl_record *record)
{
    struct crash_play *play = at_work->play;

    at_work->shared->beats += 1;
    if (at_work->mode == CRASH_NOTES_STEPS) {
        if (at_work->step == CRASH_STEPS) {
            give_up("%s makes more than %d requests", part(), CRASH_STEPS);
        }
        play->step[at_work->step].sum = sum_of(record);
        play->step[at_work->step].call = at_work->number;
    } else if (at_work->mode == CRASH_WAITS) {
        compare(sum_of(record));
        if (play->step[at_work->step].writes > 0) {
            hand_over(service, play->step[at_work->step].writes);
        }
    }
    /* A break has the writes counted from itself on. */
    at_work->made = writes_made(service);
}

/* Whether the block that a fault tore is still as the fault left it, by its entry. */
static void look_at_torn(struct cfetbl_service *service)
{
    uint8_t entry[CFETBL_ENTRY];

    if (at_work->torn_slot < 0 || !at_work->shared->is_torn) {
        return;
    }
    (void)tbl_bank(service->handle, CFETBL_DIRECTORY + (size_t)at_work->torn_slot * CFETBL_ENTRY, entry, sizeof entry);
    if (!at_work->has_torn) {
        memcpy(at_work->torn_entry, entry, sizeof entry);
        at_work->has_torn = true;
    }
    at_work->shared->is_torn = memcmp(at_work->torn_entry, entry, sizeof entry) == 0;
}

static void after(struct cfetbl_service *service)
{
    uint32_t made;

    if (at_work->mode == CRASH_SCOUTS) {
        hand_piece(service);
    }
    made = writes_made(service) - at_work->made;
    if (at_work->mode == CRASH_NOTES_STEPS) {
        at_work->play->step[at_work->step].writes = made;
        at_work->play->writes += made;
    } else if (at_work->mode == CRASH_WAITS && made != at_work->play->step[at_work->step].writes) {
        give_up("%s isn't the same at each play: call %u, %s, is the first that differs, in how many writes it makes", part(),
                (unsigned)at_work->number, at_work->name);
    } else if (at_work->mode == CRASH_GOES_ON) {
        look_at_torn(service);
    }
    at_work->step += 1;
}

static const struct cfetbl_watch watch = {begins, forbidden, returns, before, after};

/* ---- the processes */

/* Throws away what the process writes. */
static void mute(void)
{
    int nothing = open("/dev/null", O_WRONLY);

    if (nothing >= 0) {
        dup2(nothing, STDOUT_FILENO);
        dup2(nothing, STDERR_FILENO);
        close(nothing);
    }
}

static void begin(struct crash *crash, enum crash_mode mode, struct crash_play *play, struct crash_state *from, bool is_muted)
{
    at_work = crash;
    crash->mode = mode;
    crash->play = play;
    crash->torn_slot = -1;
    if (is_muted && !crash->options.shows_output) {
        mute();
    }
    open_over(from);
    cfetbl_watch = &watch;
}

/* Asks the invariant. */
static void ask(void)
{
    struct crash_result *result = &at_work->shared->result;

    result->why[0] = 0;
    result->stage = CRASH_ASKS;
    at_work->mode = CRASH_IS_ASKED;
    result->holds = at_work->invariant == NULL || at_work->invariant(at_work->options.context, result->why, sizeof result->why);
    result->stage = CRASH_DONE;
}

/* Gives back all memory of the library, and ends the process: a tool that looks at memory finds the application's alone. */
static void leave(struct crash *crash) __attribute__((noreturn));

static void leave(struct crash *crash)
{
    cfetbl_watch = NULL;
    CFETBL_Close();
    free(crash->known);
    free(crash->ends);
    free(crash->found);
    free(crash->writes);
    free(crash->write_calls);
    free(crash->calls);
    if (crash->progress != NULL) {
        fclose(crash->progress);
    }
    end(0);
}

/* A player that waits has come to the end. */
static void end_play(struct cfetbl_service *service)
{
    const struct crash_play *play = at_work->play;

    if (at_work->step != play->steps) {
        give_up("%s isn't the same at each play: it made %u calls before, and now %u", part(), (unsigned)play->calls,
                (unsigned)at_work->number);
    }
    take_state(service, &at_work->shared->writes.before);
}

void crash_run_player(struct crash *crash, enum crash_mode mode, struct crash_play *play, struct crash_state *from)
{
    struct cfetbl_service *service;

    begin(crash, mode, play, from, mode != CRASH_NOTES_STEPS);
    if (mode == CRASH_NOTES_STEPS) {
        play->steps = play->calls = play->writes = 0;
    }
    crash->shared->result.stage = CRASH_PLAYS;
    if (crash->is_restart) {
        (void)crash->restart(crash->options.context);
    } else {
        crash->scenario(crash->options.context);
    }
    crash->has_ended = true;
    service = cfetbl_enter_if_on();
    if (service == NULL) {
        give_up("%s has left the service of the crash test", part());
    }
    if (crash->mode == CRASH_NOTES_STEPS) {
        play->steps = crash->step;
        play->calls = crash->number;
    } else if (crash->mode == CRASH_WAITS) {
        end_play(service);
    } else {
        take_state(service, &crash->shared->writes.before);
    }
    cfetbl_leave();
    crash->shared->result.stage = CRASH_RETURNED;
    if (mode == CRASH_WAITS && crash->options.asks_at_end && !crash->is_restart) {
        bool is_waiting = crash->mode == CRASH_WAITS;

        ask();
        crash->mode = is_waiting ? CRASH_WAITS : CRASH_GOES_ON;
    }
    if (crash->mode == CRASH_WAITS) {
        say('e');
    }
    leave(crash);
}

void crash_run_restarter(struct crash *crash, struct crash_state *from)
{
    struct crash_result *result = &crash->shared->result;
    struct crash_play *play = &crash->shared->restart;

    play->steps = play->calls = play->writes = 0;
    result->calls = 0;
    crash->is_restart = true;
    begin(crash, CRASH_NOTES_STEPS, play, from, true);
    result->stage = CRASH_PLAYS;
    result->code = crash->restart(crash->options.context);
    play->steps = crash->step;
    play->calls = crash->number;
    result->writes = play->writes;
    result->stage = CRASH_RETURNED;
    if (result->code >= 0) {
        ask();
    }
    leave(crash);
}
