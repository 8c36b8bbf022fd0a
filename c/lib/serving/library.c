/* SPDX-License-Identifier: Apache-2.0 */
/* library.c: the process that loads an application's library and calls its validation functions. Whatever one of them does, it does it here. */
#define _GNU_SOURCE
#include "serving.h"

#include <dlfcn.h>
#include <stdalign.h>
#include <stdio.h>
#include <string.h>
#include <sys/socket.h>
#include <unistd.h>

enum { CACHE_LINE = 64 };

/* Who is told of cFE's events: c/stand-ins/cfe.c. */
void cfetbl_take_events(void (*taker)(uint16_t id, uint16_t type, const char *text));

/* What is asked: a function and an image. Aligned as the buffers of Table Services are. */
static struct {
    alignas(CACHE_LINE) uint8_t image[TBL_IMAGE_LIMIT];
    uint32_t number;
} question;

static struct library library;
static int32_t (*functions[CFETBL_APP_NUMBERS])(void *image);

/* Notes why the library can't be used. */
static bool fault(const char *format, const char *path, uint32_t number)
{
    snprintf(library.fault, sizeof library.fault, format, path, (unsigned)number);
    return false;
}

static void tell_event(uint16_t id, uint16_t type, const char *text)
{
    static const char *const types[] = {"log", "DEBUG", "INFORMATION", "ERROR", "CRITICAL"};
    const char *name = library.is_loaded && question.number < CFETBL_APP_NUMBERS ? library.names[question.number] : "";
    int length = (int)strcspn(text, "\n");

    if (type == 0) {
        say("%s: log: %.*s", name, length, text);
    } else if (type < sizeof types / sizeof *types) {
        say("%s: event %u %s: %.*s", name, id, types[type], length, text);
    } else {
        say("%s: event %u of type %u: %.*s", name, id, type, length, text);
    }
}

static bool take_function(const char *path, const struct CFETBL_AppFunction *it)
{
    if (it->number >= CFETBL_APP_NUMBERS) {
        return fault("%s: its CFETBL_App has a function of the number %u, and the greatest one is 239", path, it->number);
    }
    if (it->function == NULL || it->name == NULL || it->name[0] == 0) {
        return fault("%s: its CFETBL_App has no function or no name for the number %u", path, it->number);
    }
    if (functions[it->number] != NULL) {
        return fault("%s: its CFETBL_App has two functions of the number %u", path, it->number);
    }
    functions[it->number] = it->function;
    snprintf(library.names[it->number], NAME_ROOM, "%s", it->name);
    return true;
}

static bool load(const char *path)
{
    void *loaded = dlopen(path, RTLD_NOW | RTLD_LOCAL);
    const struct CFETBL_App *app = loaded == NULL ? NULL : dlsym(loaded, "CFETBL_App");
    uint32_t place;

    if (loaded == NULL) {
        return fault("%s", dlerror(), 0);
    }
    if (app == NULL) {
        return fault("%s: it has no CFETBL_App, which cfetbl_app.h says how to define", path, 0);
    }
    if (app->version != CFETBL_APP_VERSION) {
        return fault("%s: its CFETBL_App is of the edition %u of cfetbl_app.h, and this program takes edition 1", path, app->version);
    }
    if (app->count == 0 || app->functions == NULL) {
        return fault("%s: its CFETBL_App has no function", path, 0);
    }
    for (place = 0; place < app->count; place++) {
        if (!take_function(path, &app->functions[place])) {
            return false;
        }
    }
    return true;
}

void call_functions(const char *path, int socket)
{
    ssize_t length;

    question.number = CFETBL_APP_NUMBERS;
    cfetbl_take_events(tell_event);
    library.is_loaded = load(path);
    if (send(socket, &library, sizeof library, MSG_NOSIGNAL) < 0 || !library.is_loaded) {
        return;
    }
    /* The number comes first, and the image after it. */
    for (;;) {
        struct iovec parts[] = {{&question.number, sizeof question.number}, {question.image, sizeof question.image}};
        struct msghdr message = {.msg_iov = parts, .msg_iovlen = 2};
        int32_t verdict;

        length = recvmsg(socket, &message, 0);
        if (length < (ssize_t)sizeof question.number || question.number >= CFETBL_APP_NUMBERS || functions[question.number] == NULL) {
            return;
        }
        verdict = functions[question.number](question.image);
        if (send(socket, &verdict, sizeof verdict, MSG_NOSIGNAL) < 0) {
            return;
        }
    }
}
