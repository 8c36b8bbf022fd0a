/* SPDX-License-Identifier: Apache-2.0 */
/* crash.h: what the files of crash tests share.
 *
 * The process that calls CFETBL_ForEachReset is the driver, and makes no call of the service. It starts these:
 * - a player, which plays the scenario. A first one notes what each record asks, and how many writes it makes. A second one waits before each
 *   record that makes writes, so that nothing is played from its beginning for each reset.
 * - a scout, a child of the player for each write. The write fails there after its last byte, by which its place and its bytes are known.
 *   With these and preserved memory before it, the driver makes what a reset after any of its bytes leaves.
 * - a player that goes on, a child of the player in which a write fails, and which plays the rest of the scenario.
 * - a restarter, which calls the start code over what is left, and asks the invariant.
 * For a second reset the start code is what is played. All of them share one piece of memory with the driver. */
#ifndef CRASH_H
#define CRASH_H

#include "cfetbl_crash.h"
#include "cfetbl_service.h"

#include <sys/types.h>

enum {
    CRASH_STEPS = 1 << 18, /* the most records of a scenario */
    CRASH_PIECES = 160, /* a boot may close 128 gates */
    CRASH_FRAMES = 32,
    CRASH_ANSWERS = 24,
    CRASH_FILES = 64,
    CRASH_NOTES = 65536,
    CRASH_DEPTHS = 2,
    CRASH_HANGS = 3,
    CRASH_ROWS = 16
};

/* A record as it was handed to the service: a sum over its bytes, its call, and how many writes it made. */
struct crash_step {
    uint64_t sum;
    uint32_t call;
    uint32_t writes;
};

struct crash_play {
    uint32_t steps;
    uint32_t calls;
    uint32_t writes;
    struct crash_step step[CRASH_STEPS];
};

struct crash_file {
    char name[CFETBL_FILE_NAME + 1];
    uint32_t size;
    uint8_t at[CFETBL_FILE_LIMIT];
};

/* What outlives a reset. */
struct crash_state {
    unsigned kind;
    uint32_t seconds;
    uint32_t subseconds;
    uint32_t files;
    char damages[CFETBL_DAMAGES][CFETBL_FULL_NAME + 1];
    uint8_t bank[CFETBL_BANK_SIZE];
    uint8_t notes[CRASH_NOTES];
    struct crash_file file[CRASH_FILES];
};

/* A call, with the return addresses of its frames from the innermost on. */
struct crash_call {
    uint32_t number;
    uint32_t depth;
    char name[32];
    uintptr_t frame[CRASH_FRAMES];
};

/* A write: its place, and its bytes. */
struct crash_piece {
    uint32_t at;
    uint32_t length;
    uint8_t bytes[CFETBL_IMAGE_LIMIT + 8];
};

/* The writes of one record, and what a reset before them leaves. */
struct crash_writes {
    struct crash_call call;
    uint32_t first; /* the number of the first one */
    uint32_t count;
    struct crash_state before;
    struct crash_piece piece[CRASH_PIECES];
};

/* How far a process came. */
enum crash_stage { CRASH_BEGINS, CRASH_PLAYS, CRASH_RETURNED, CRASH_ASKS, CRASH_DONE };

struct crash_answer {
    const char *name;
    int32_t code;
};

struct crash_result {
    volatile enum crash_stage stage;
    int32_t code;
    bool holds;
    uint32_t calls;
    uint32_t writes;
    struct crash_answer answer[CRASH_ANSWERS];
    char why[256];
};

struct crash_shared {
    volatile uint32_t beats;   /* rises with each call and each record */
    volatile pid_t going_on;   /* the player that goes on after a fault, 0 if none does */
    int ended;                 /* how it ended */
    volatile uint32_t number;  /* of the last call of a player */
    const char *volatile name;
    volatile bool is_torn;     /* nothing was copied since over what the fault left */
    char wrong[256];           /* why a process gave up */
    struct crash_call where;   /* its call */
    struct crash_writes writes;
    struct crash_result result;
    struct crash_play scenario;
    struct crash_play restart;
    struct crash_play second;
};

/* What a process does with the records that it plays. */
enum crash_mode { CRASH_NOTES_STEPS, CRASH_WAITS, CRASH_SCOUTS, CRASH_GOES_ON, CRASH_IS_ASKED };

/* What the driver has a player do. */
struct crash_command {
    int32_t what;   /* 'g': go on; 'f': have a child go on with a fault */
    int32_t slot;   /* whose block the fault tears in place, or -1 */
    uint32_t write; /* the place of the write among those of the record */
    uint32_t after;
};

/* What came of a restart. */
struct crash_end {
    enum CFETBL_CrashOutcome outcome;
    int32_t returned;
    char answers[768];
    char why[256];
};

struct crash_known {
    uint64_t sum[2];
    uint32_t end; /* its place among the ends, and one more */
};

/* A trouble that is tried: where it comes, and the calls whose writes these are, by their places among the calls. */
struct crash_trouble {
    unsigned kind;
    unsigned row; /* one for each kind, of what is asked at the scenario's end too */
    struct CFETBL_CrashPlace place;
    struct CFETBL_CrashPlace second;
    size_t call;
    size_t second_call;
};

struct crash_found {
    struct crash_trouble trouble;
    uint32_t count;
    size_t end;
};

struct crash {
    CFETBL_CrashScenario_t scenario;
    CFETBL_CrashRestart_t restart;
    CFETBL_CrashInvariant_t invariant;
    struct CFETBL_CrashOptions options;
    bool is_like_cfe;
    struct crash_shared *shared;
    struct CFETBL_CrashReport *report;
    bool is_stopped;                            /* a message says why */

    /* of the driver */
    struct crash_state *tried;
    struct crash_writes *waiting[CRASH_DEPTHS]; /* of the player of the scenario, and of that of a restart */
    struct crash_known *known;
    size_t known_room, known_count;
    struct crash_end *ends;
    size_t end_room, end_count;
    struct crash_found *found;
    size_t found_room, found_count;
    struct CFETBL_CrashPlace *writes;
    size_t *write_calls;
    size_t write_room, write_call_room;
    struct crash_call *calls;
    size_t call_room, call_count;
    size_t last_found[CRASH_ROWS];              /* the finding that the last trouble of a row had, and one more; 0 if it had none */
    uint32_t hangs;
    bool has_hung;                              /* the player with a fault didn't go on */
    FILE *progress;
    uint64_t begun, told;

    /* of the process at work */
    enum crash_mode mode;
    struct crash_play *play;
    bool is_restart;
    bool has_ended; /* the scenario has returned */
    int link;
    uint32_t step, written, number, made;
    const char *name;
    uint32_t scouted;
    int32_t torn_slot;
    bool has_torn;
    uint8_t torn_entry[64];
};

/* ---- the driver: crash.c and crash_tries.c */

/* Keeps why not all is tried. The first reason stays. */
void crash_stop(struct crash *crash, const char *format, ...) __attribute__((format(printf, 2, 3)));

/* Memory for one element more than there are; NULL, and the test stops, if there is none. */
void *crash_grow(struct crash *crash, void *at, size_t *room, size_t count, size_t size);

/* Has the start code called over the state that is tried, unless it was called over the same before, and counts what comes. NULL if the test
 * stops. */
const struct crash_end *crash_try(struct crash *crash, const struct crash_trouble *trouble, bool *is_new);

/* The same for an end that is known already. */
void crash_note(struct crash *crash, const struct crash_trouble *trouble, const struct crash_end *end);

/* Makes words of the application one line. */
void crash_make_line(char *words);

/* The place of a call among those that are kept, at which it is put. */
size_t crash_keep_call(struct crash *crash, const struct crash_call *call);

/* ---- the processes that the driver starts: crash_player.c */

/* Plays the scenario or, over a state, the start code, and ends the process. */
void crash_run_player(struct crash *crash, enum crash_mode mode, struct crash_play *play, struct crash_state *from)
    __attribute__((noreturn));

/* Calls the start code over a state, asks the invariant, and ends the process. */
void crash_run_restarter(struct crash *crash, struct crash_state *from) __attribute__((noreturn));

/* Copies as much of a state as it has. */
void crash_copy_state(struct crash_state *to, const struct crash_state *from, size_t notes);

/* ---- starting and hearing them: crash_process.c */

struct crash_process {
    pid_t id;
    int link; /* to a player that waits: a socket; else the pipe that its end closes */
};

/* Starts a process. In the child id is 0. False, with a message, means that there can be none. */
bool crash_start(struct crash *crash, bool is_waiting, struct crash_process *process);

/* Waits for its end, and gives the status that waitpid gives. False means that it was killed, since it didn't go on within the limit. */
bool crash_wait(struct crash *crash, struct crash_process *process, int *status);

/* What a player that waits says: 'w' it is before writes, 'd' the player with a fault ended, 'e' it is at the end; 0 if it ended; 'h' if it
 * didn't go on within the limit. */
char crash_hear(struct crash *crash, const struct crash_process *process);
void crash_tell(const struct crash_process *process, const struct crash_command *command);

/* How a process ended, in words. */
void crash_say_end(char *words, size_t room, const char *who, int status);
uint64_t crash_now(void);

/* ---- what is in preserved memory: crash_store.c */

/* The slot of the block of whose copy this is the image, and which of its places shows (or -1); -1 if it is no image. */
int crash_copied_slot(const uint8_t *bank, const struct crash_piece *piece, int *shows);
bool crash_is_turn(const struct crash_piece *piece);

/* Makes of preserved memory what a trouble in a write leaves, after so many of its bytes. */
void crash_write(uint8_t *bank, const struct crash_piece *piece, uint32_t after, bool is_like_cfe);

/* The same for a block that a fault tore in place, and of which nothing was copied since. */
void crash_tear(uint8_t *bank, int slot, const struct crash_piece *piece, uint32_t after);
void crash_say_write(char what[80], const uint8_t *bank, const struct crash_piece *piece);

/* ---- the application's lines: crash_lines.c */

/* The return addresses of the frames below the caller's. */
uint32_t crash_frames(uintptr_t *frames, uint32_t room);

/* The line of each call, or an empty one. False means out of memory. */
bool crash_resolve(const struct crash_call *calls, size_t count, char (*lines)[192]);

/* ---- reports: crash_report.c */

/* The name of a return code, or its number. */
void crash_say_code(char *words, size_t room, int32_t code);
void crash_say_progress(struct crash *crash);

#endif
