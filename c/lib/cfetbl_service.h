/* SPDX-License-Identifier: Apache-2.0 */
/* cfetbl_service.h: what the files of the library share. Only service.c and playing.c know how records are played; the calls by cFE's names, the
 * memory of tables and what tests ask for are made of these requests. Nothing here depends on the headers of a cFE. */
#ifndef CFETBL_SERVICE_H
#define CFETBL_SERVICE_H

#include "cfetbl_status.h"

#include <stdbool.h>
#include <stddef.h>
#include <stdint.h>

#ifdef __cplusplus
extern "C" {
#endif

enum { CFETBL_APPS = 16, CFETBL_HANDLES = 256, CFETBL_SLOTS = 128, CFETBL_FUNCTIONS = 240, CFETBL_ROWS = 128 };

/* Widths of names in records, and the most bytes of an image, of a file, of a record, and of its entry: that of a housekeeping request
 * with the dumps of 128 tables. */
enum {
    CFETBL_APP_NAME = 20,
    CFETBL_SHORT_NAME = 16,
    CFETBL_FULL_NAME = 40,
    CFETBL_FILE_NAME = 64,
    CFETBL_IMAGE_LIMIT = 16384,
    CFETBL_FILE_LIMIT = 32768,
    CFETBL_PACKET_LIMIT = 32832,
    CFETBL_RECORD_LIMIT = 4 + 32832,
    CFETBL_ENTRY_LIMIT = 2162688,
    CFETBL_BANK_SIZE = 262144
};

/* Kinds of records. */
enum {
    CFETBL_KIND_COMMAND = 0x01,
    CFETBL_KIND_FILE = 0x02,
    CFETBL_KIND_TIME = 0x03,
    CFETBL_KIND_RESET = 0x04,
    CFETBL_KIND_START = 0x10,
    CFETBL_KIND_REGISTER = 0x11,
    CFETBL_KIND_SHARE = 0x12,
    CFETBL_KIND_UNREGISTER = 0x13,
    CFETBL_KIND_LOAD_IMAGE = 0x14,
    CFETBL_KIND_LOAD_FILE = 0x15,
    CFETBL_KIND_UPDATE = 0x16,
    CFETBL_KIND_VALIDATE = 0x17,
    CFETBL_KIND_MANAGE = 0x18,
    CFETBL_KIND_DUMP_TO_BUFFER = 0x19,
    CFETBL_KIND_EDIT = 0x1A,
    CFETBL_KIND_GET = 0x1B,
    CFETBL_KIND_READ = 0x1C,
    CFETBL_KIND_RELEASE = 0x1D,
    CFETBL_KIND_GET_STATUS = 0x1E,
    CFETBL_KIND_GET_INFO = 0x1F,
    CFETBL_KIND_NOTIFY = 0x20,
    CFETBL_KIND_EXIT = 0x21,
    CFETBL_KIND_CDS_REGISTER = 0x30,
    CFETBL_KIND_CDS_COPY = 0x31,
    CFETBL_KIND_CDS_RESTORE = 0x32
};

/* Places in a registry record, and bits of its state. */
enum {
    CFETBL_RECORD_SIZE = 0,
    CFETBL_RECORD_CRC = 4,
    CFETBL_RECORD_IMAGES = 8,
    CFETBL_RECORD_SECONDS = 12,
    CFETBL_RECORD_SUBSECONDS = 16,
    CFETBL_RECORD_STATE = 18,
    CFETBL_RECORD_FILE = 80
};
enum { CFETBL_LOADED = 0x01, CFETBL_DUMP_ONLY = 0x04, CFETBL_DOUBLE = 0x08, CFETBL_CRITICAL = 0x10, CFETBL_LOAD_OPEN = 0x20 };

/* The calls by cFE's names, as CFETBL_Fail and messages name them. */
enum cfetbl_call {
    CFETBL_CALL_REGISTER,
    CFETBL_CALL_SHARE,
    CFETBL_CALL_UNREGISTER,
    CFETBL_CALL_LOAD,
    CFETBL_CALL_UPDATE,
    CFETBL_CALL_VALIDATE,
    CFETBL_CALL_MANAGE,
    CFETBL_CALL_DUMP_TO_BUFFER,
    CFETBL_CALL_MODIFIED,
    CFETBL_CALL_GET_ADDRESS,
    CFETBL_CALL_RELEASE_ADDRESS,
    CFETBL_CALL_GET_ADDRESSES,
    CFETBL_CALL_RELEASE_ADDRESSES,
    CFETBL_CALL_GET_STATUS,
    CFETBL_CALL_GET_INFO,
    CFETBL_CALL_NOTIFY,
    CFETBL_CALL_REGISTER_CDS,
    CFETBL_CALL_COPY_TO_CDS,
    CFETBL_CALL_RESTORE_FROM_CDS,
    CFETBL_CALLS
};

/* ---- the service: service.c, and playing.c for how a record is played */

struct cfetbl_service;

typedef int32_t (*cfetbl_function)(void *image);

/* What a record is written into. */
struct cfetbl_record {
    uint8_t *at;
    size_t length;
};

/* What a request was answered with, until the next one. */
struct cfetbl_reply {
    uint32_t status;
    uint32_t detail;
    const uint8_t *bytes;
    size_t length;
    const uint8_t *packets;
    size_t packets_length;
};

/* Takes the lock and gives the service that this thread calls; cfetbl_leave gives the lock back. NULL if there is none: then the lock
 * isn't taken, and a message says that the function of this name found none. */
struct cfetbl_service *cfetbl_enter(const char *function);
void cfetbl_leave(void);

/* The same without a message. */
struct cfetbl_service *cfetbl_enter_if_on(void);

/* Takes the lock again after cfetbl_leave, for the service that the caller is at work with. */
void cfetbl_return(void);

/* The same for a call by cFE's name, which begins so: what was written in place comes into the service, and the last answer goes. NULL
 * also if the test forces a code, which then is in *code; else *code stays. */
struct cfetbl_service *cfetbl_enter_call(enum cfetbl_call call, int32_t *code);

/* Whether a validation function is at work; a message says then that the function of this name isn't done. */
bool cfetbl_is_judging(const struct cfetbl_service *service, const char *function);

/* Writes a line to standard error, and keeps it for CFETBL_LastMessage. */
void cfetbl_say(const char *format, ...)
#ifdef __GNUC__
    __attribute__((format(printf, 1, 2)))
#endif
    ;
const char *cfetbl_message(void);

/* The application that makes this thread's calls. */
int cfetbl_app(const struct cfetbl_service *service);

/* Begins a record, in which cfetbl_ask and cfetbl_play put its length. */
struct cfetbl_record cfetbl_begin(struct cfetbl_service *service, int kind, int actor);
void cfetbl_put(struct cfetbl_record *to, const void *bytes, size_t length);
void cfetbl_put_number(struct cfetbl_record *to, uint32_t number, int bytes);

/* A name field: the name and zeros. What is too long is cut. */
void cfetbl_put_name(struct cfetbl_record *to, const char *name, size_t width);
static inline uint32_t cfetbl_number_at(const uint8_t *at, int bytes)
{
    uint32_t number = 0;
    int place;

    for (place = 0; place < bytes; place++) {
        number = number << 8 | at[place];
    }
    return number;
}

/* Plays a record, and gives the status of its request, or CFETBL_NOT_PLAYED with a message. What cfetbl_ask plays is the last answer,
 * and its packets come to the test; cfetbl_play is for what the library asks for itself. */
uint32_t cfetbl_ask(struct cfetbl_service *service, struct cfetbl_record record);
uint32_t cfetbl_play(struct cfetbl_service *service, struct cfetbl_record record);
void cfetbl_forget_answer(struct cfetbl_service *service);
struct cfetbl_reply cfetbl_reply(const struct cfetbl_service *service);

/* The same for a request whose body is a handle alone, or a full name. */
uint32_t cfetbl_ask_handle(struct cfetbl_service *service, int kind, uint16_t handle);
uint32_t cfetbl_play_handle(struct cfetbl_service *service, int kind, int actor, uint16_t handle);
uint32_t cfetbl_ask_name(struct cfetbl_service *service, int kind, const char *name);
uint32_t cfetbl_play_name(struct cfetbl_service *service, int kind, const char *name);

/* While it is set, images are accepted and no validation function is asked. */
void cfetbl_waive(struct cfetbl_service *service, bool is_waiving);

/* The number under which the service knows a validation function of an application, 0xFF for none, and CFETBL_FUNCTIONS, with a
 * message, if it has no number left. */
uint32_t cfetbl_number_of(struct cfetbl_service *service, int app, cfetbl_function function);

/* Forces a code for a call by this name. False, with a message, means that there is no such call, or no room. */
bool cfetbl_force(struct cfetbl_service *service, const char *call, unsigned nth, int32_t code);

/* Whether the function that plays requests is the proved one. */
bool cfetbl_is_proved(void);

/* How many requests were played. */
uint32_t cfetbl_requests(const struct cfetbl_service *service);

/* ---- handles, and the memory of tables: memory.c */

/* An image in memory that applications point at. */
struct cfetbl_image {
    uint8_t *at;
    uint8_t *played; /* the same bytes as the service has them */
    unsigned holders;
    bool is_users; /* the memory is the application's own */
};

/* What CFE_TBL_GetInfo gives of an image that was modified in place. */
struct cfetbl_shown {
    uint32_t crc;
    uint32_t seconds;
    uint32_t subseconds;
    char file[CFETBL_FILE_NAME];
};

struct cfetbl_table {
    char name[CFETBL_FULL_NAME + 1];
    size_t size;
    int owner;
    uint16_t registered; /* the handle of its registration */
    unsigned users;      /* how many handles it has */
    bool is_dump_only, is_double, is_critical, is_users, is_gone;
    uint32_t current;            /* how many images the service has had of it */
    struct cfetbl_image *active; /* NULL before it was looked at */
    uint32_t images;             /* how many there were, with this one */
    uint32_t quiet;              /* how many of them tell nobody: what was written in place */
    uint32_t modified;           /* how often CFE_TBL_Modified told everybody */
    bool is_modified;            /* it did since the image last came into the service */
    bool is_shown;               /* `shown` is of the last image */
    struct cfetbl_shown shown;
    struct cfetbl_table *next;
};

/* What is known of a handle. */
struct cfetbl_handle {
    int app; /* whose it is; 0 if it isn't given */
    struct cfetbl_table *table;
    struct cfetbl_image *pinned; /* NULL if it has no address */
    uint32_t told;               /* of how many images it was told */
};

/* What is known of a handle; NULL if it isn't this application's. */
struct cfetbl_handle *cfetbl_known(struct cfetbl_service *service, uint16_t number);

/* Has memory for what is known of a table, before it is registered. False, with a message, means out of memory. */
bool cfetbl_reserve_table(struct cfetbl_service *service);

/* Keeps a handle that a registration gave, in the memory that was reserved, or a sharing. */
void cfetbl_keep_registered(struct cfetbl_service *service, uint16_t number, const char *name, size_t size, uint16_t options,
                            bool is_recovered);
void cfetbl_keep_shared(struct cfetbl_service *service, uint16_t number, const char *name);
void cfetbl_forget_handle(struct cfetbl_service *service, uint16_t number);

/* Forgets the handles of an application, or with 0 of all of them. */
void cfetbl_forget_handles(struct cfetbl_service *service, int app);

/* Counts the image that went active by a request with a handle, if its packets tell of one. */
void cfetbl_count_image(struct cfetbl_service *service, uint16_t number, const struct cfetbl_reply *reply);

/* What an application wrote in place comes into the service, as far as it takes it. */
void cfetbl_bring_in(struct cfetbl_service *service);

/* Gets and gives back an address. Each gives the status of the request. */
uint32_t cfetbl_get(struct cfetbl_service *service, uint16_t number, void **address);
uint32_t cfetbl_release(struct cfetbl_service *service, uint16_t number);

/* The table of a handle was modified through its address. */
uint32_t cfetbl_modified(struct cfetbl_service *service, uint16_t number);

/* Lets a table with an address of its user's have it there. */
uint32_t cfetbl_use_memory(struct cfetbl_service *service, uint16_t number, void *memory);

/* What CFE_TBL_GetInfo gives of a table that was modified in place since its last image came, and else NULL. */
const struct cfetbl_shown *cfetbl_shown_of(struct cfetbl_service *service, const char *name);

/* What is known of a table; NULL if none of this name is registered. */
const struct cfetbl_table *cfetbl_table_of(struct cfetbl_service *service, const char *name);

/* ---- events and notices: packets.c */

struct cfetbl_queue {
    uint8_t *at;
    size_t from;
    size_t length;
    size_t room;
};

struct cfetbl_packets {
    struct cfetbl_queue events;  /* 12 bytes each */
    struct cfetbl_queue notices; /* 8 bytes each */
};

/* Takes over the packets of a reply. */
void cfetbl_take_packets(struct cfetbl_packets *packets, const uint8_t *at, size_t length);

/* The next packet of these of so many bytes, or false. */
bool cfetbl_next(struct cfetbl_queue *queue, uint8_t *bytes, size_t length);
void cfetbl_free_packets(struct cfetbl_packets *packets);

/* ---- the files of the file store: files.c */

struct cfetbl_file {
    char name[CFETBL_FILE_NAME + 1];
    uint8_t *at;
    size_t size;
    struct cfetbl_file *next;
};

struct cfetbl_files {
    struct cfetbl_file *first;
    char dumps[CFETBL_ROWS][CFETBL_FILE_NAME + 1]; /* the file of each row's pending dump */
};

/* Keeps a file of the file store. False, with a message, means out of memory. */
bool cfetbl_keep_file(struct cfetbl_files *files, const char *name, const uint8_t *at, size_t size);
const struct cfetbl_file *cfetbl_file_of(const struct cfetbl_files *files, const char *name);

/* Keeps the files that a command wrote. */
void cfetbl_keep_dumps(struct cfetbl_files *files, const uint8_t *packet, size_t length, const struct cfetbl_reply *reply);
void cfetbl_free_files(struct cfetbl_files *files);

/* ---- damaged blocks: damage.c */

/* Where the directory of the Critical Data Store begins, its entries and the places of their fields, as docs/reference/store.md lays them out; how far
 * a block's second place is from its first; and how many bytes the head before an image has. */
enum {
    CFETBL_DIRECTORY = 16,
    CFETBL_ENTRY = 64,
    CFETBL_OPEN_GATE = 0xA5,
    CFETBL_OFFSET_PLACE = 4,
    CFETBL_BLOCK_SIZE_PLACE = 8,
    CFETBL_NAME_PLACE = 12,
    CFETBL_TURNS_PLACE = 52,
    CFETBL_SECOND_PLACE = 131072,
    CFETBL_HEAD = 8
};

/* Changes a byte of each place of the blocks of this name. False if there is none. */
bool cfetbl_damage(uint8_t *bank, const char *name);

/* ---- the parts of a service */

struct tbl_handle;

/* A code that a test forces. */
struct cfetbl_forced {
    unsigned left; /* how many calls there are until then, with that one; 0 if the place is free */
    enum cfetbl_call call;
    int32_t code;
};

enum { CFETBL_FORCED = 64, CFETBL_DAMAGES = 16 };

struct cfetbl_service {
    struct tbl_handle *handle;
    uint64_t serial; /* another one for each service */
    int app;         /* the application that makes the calls */
    int judging;     /* how many validation functions are at work, each inside the one before */
    bool is_waiving;
    char apps[CFETBL_APPS + 1][CFETBL_APP_NAME + 1]; /* the names of those that run */
    struct cfetbl_handle handles[CFETBL_HANDLES];
    struct cfetbl_table *tables;
    size_t slots[CFETBL_SLOTS]; /* how many bytes each block has */
    cfetbl_function functions[CFETBL_FUNCTIONS];
    struct cfetbl_packets packets;
    struct cfetbl_files files;
    struct cfetbl_forced forced[CFETBL_FORCED];
    bool is_forcing; /* the test has forced a code */
    char damages[CFETBL_DAMAGES][CFETBL_FULL_NAME + 1]; /* blocks that are damaged from the next reset on */
    uint8_t *bank; /* preserved memory with them */
    uint32_t seconds;
    uint32_t subseconds;
    uint32_t requests; /* how many were played */
    uint8_t *record;
    uint8_t *rooms[2];             /* for entries */
    uint8_t *entry;                /* the last one, in one of them */
    struct cfetbl_reply answer;    /* the last one of a call */
    const uint8_t *answered;       /* the room that it stands in, which keeps it until it is forgotten; NULL if there is none */
    struct cfetbl_table *spare;    /* for the table that is registered next */
    struct cfetbl_service *next;
};

/* Opens the service again over preserved memory with the damages, with the applications, the files and the time as they are. False, with
 * a message, means out of memory. */
bool cfetbl_reopen(struct cfetbl_service *service);

/* Preserved memory, with the damages. */
const uint8_t *cfetbl_bank(struct cfetbl_service *service);

/* Sets the time of a service and starts its applications as they are kept, and puts its files there: of a service that was opened again. */
bool cfetbl_carry_over(struct cfetbl_service *service);

/* ---- crash tests: crash.h, whose files aren't linked into a program that has none */

/* What a crash test has called. */
struct cfetbl_watch {
    void (*begins)(const char *name);                                                          /* a function of this name begins */
    void (*forbidden)(const char *name);                                                       /* the same, of one that no crash test may call */
    void (*returns)(int32_t code);                                                             /* a call by cFE's name returns */
    void (*before)(struct cfetbl_service *service, const struct cfetbl_record *record);        /* a record is handed to tbl_step */
    void (*after)(struct cfetbl_service *service);                                             /* tbl_step has returned */
};

/* NULL if no crash test is at work. */
extern const struct cfetbl_watch *cfetbl_watch;

static inline int32_t cfetbl_returned(int32_t code)
{
    if (cfetbl_watch != NULL) {
        cfetbl_watch->returns(code);
    }
    return code;
}

/* ---- services */

struct CFETBL_Headers;

/* Whether a test was compiled with the library's headers of cFE; else a message of this function says that it wasn't. */
bool cfetbl_has_headers(const char *function, const struct CFETBL_Headers *headers);

/* Switches on a service for this thread, over these bytes or over zeros. */
bool cfetbl_open(const void *bank);
void cfetbl_close(struct cfetbl_service *service);

/* Lets an application make this thread's calls from now on. */
void cfetbl_use_app(struct cfetbl_service *service, int app);

/* Lets this thread call the service of this serial. */
bool cfetbl_join(uint64_t serial);

#ifdef __cplusplus
}
#endif

#endif
