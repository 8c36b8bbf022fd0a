/* SPDX-License-Identifier: Apache-2.0 */
/* serving.h: the program tbl_app_serve. It plays records like tbl_serve, over tbl.h, and has images judged by the validation functions of
 * an application, which stand in a shared library and run in a process of their own. */
#ifndef CFETBL_SERVING_H
#define CFETBL_SERVING_H

#include <stdbool.h>
#include <stddef.h>
#include <stdint.h>
#include <sys/types.h>

#include "cfetbl_app.h"
#include "tbl.h"

/* Statuses of the program, which are those of tbl_serve. */
enum {
    DONE = 0,
    NO_MEMORY = 1,
    WRONG_USE = 2,
    READ_FAILED = 3,
    WRITE_FAILED = 4,
    BAD_RECORD = 5,
    STORE_FAILED = 7,
    FULL = 13
};

/* Writes a line to standard error, after the program's name. Control characters are left out. */
void say(const char *format, ...) __attribute__((format(printf, 1, 2)));

/* ---- the library, and the process that calls its functions (judging.c; library.c has what that process does) */

enum { NAME_ROOM = 64, FAULT_ROOM = 512 };

/* What a library has: the names of its functions by their numbers, empty for none; or why it can't be used. */
struct library {
    bool is_loaded;
    char fault[FAULT_ROOM];
    char names[CFETBL_APP_NUMBERS][NAME_ROOM];
};

struct judge {
    const char *path;
    /* How many milliseconds a function may take. */
    int limit;
    /* The process and the socket to it; 0 and -1 if there is none. */
    pid_t process;
    int socket;
    struct library library;
};

/* Starts the process, which loads the library. False if that can't be used, which was said. */
bool judge_start(struct judge *judge);

/* Has a function judge an image. False if the library can't be used any more, which was said. */
bool judge_image(struct judge *judge, uint32_t number, const uint8_t *image, size_t length, int32_t *verdict);

/* Ends the process. */
void judge_end(struct judge *judge);

/* What the process does until its socket closes: loads a library, tells what it has, and calls its functions. */
void call_functions(const char *path, int socket);

/* ---- the store file (store.c) */

struct store {
    const char *name;
    int file;
    bool is_durable;
    /* Its bytes, and room for what they should be. */
    uint8_t *written;
    uint8_t *wanted;
};

/* Opens and locks the file, makes it long enough, and reads it. The status of the program if that fails, which was said. */
int store_open(struct store *store, const char *name, bool is_durable);

/* Writes what a request changed in preserved memory, in an order that leaves each block whole wherever the program is killed. False if that
 * fails, which was said. */
bool store_follow(struct store *store, struct tbl_handle *handle, bool is_power_on);

void store_close(struct store *store);

#endif
