/* SPDX-License-Identifier: Apache-2.0 */
/* crash_lines.c: the application's lines of calls. The return addresses of a call's frames are taken as it is made, and addr2line, if it is
 * there, says afterwards which functions and lines these are. The innermost that isn't the library's, nor a stub's, is the application's. */
#define _GNU_SOURCE

#include "crash.h"

#include <fcntl.h>
#include <link.h>
#include <spawn.h>
#include <stdio.h>
#include <stdlib.h>
#include <string.h>
#include <sys/wait.h>
#include <unistd.h>
#include <unwind.h>

extern char **environ;

/* How many addresses are told of a call whose line isn't known, and how many objects a program has. */
enum { ADDRESSES = 6, OBJECTS = 64 };

struct frames {
    uintptr_t *at;
    uint32_t room;
    uint32_t count;
};

static _Unwind_Reason_Code take_frame(struct _Unwind_Context *context, void *to)
{
    struct frames *frames = to;

    if (frames->count == frames->room) {
        return _URC_END_OF_STACK;
    }
    frames->at[frames->count] = _Unwind_GetIP(context);
    frames->count += 1;
    return _URC_NO_REASON;
}

uint32_t crash_frames(uintptr_t *at, uint32_t room)
{
    struct frames frames = {at, room, 0};

    memset(at, 0, room * sizeof *at);
    _Unwind_Backtrace(take_frame, &frames);
    return frames.count;
}

/* ---- objects */

/* What an address is in: the path of the program or of a shared object, and the place where that begins. */
struct object {
    uintptr_t address;
    uintptr_t begins;
    char path[256];
};

static int look_into(struct dl_phdr_info *info, size_t size, void *to)
{
    struct object *object = to;
    int part;

    (void)size;
    for (part = 0; part < info->dlpi_phnum; part++) {
        uintptr_t from = info->dlpi_addr + info->dlpi_phdr[part].p_vaddr;

        if (info->dlpi_phdr[part].p_type == PT_LOAD && object->address - from < info->dlpi_phdr[part].p_memsz) {
            object->begins = info->dlpi_addr;
            snprintf(object->path, sizeof object->path, "%s", info->dlpi_name);
            return 1;
        }
    }
    return 0;
}

/* The object of an address. The program itself has no name there. */
static void find_object(uintptr_t address, struct object *object)
{
    ssize_t length;

    memset(object, 0, sizeof *object);
    object->address = address;
    if (dl_iterate_phdr(look_into, object) == 1 && object->path[0] == 0) {
        length = readlink("/proc/self/exe", object->path, sizeof object->path - 1);
        object->path[length < 0 ? 0 : length] = 0;
    }
}

/* ---- functions and lines */

/* A frame of a call, and what addr2line says of it. */
struct line {
    uintptr_t place; /* in its object; that of the call itself, which is before the address to which it returns */
    char path[256];
    char told[192];
    bool is_known;
    bool is_own; /* the library's or a stub's */
};

static const char *base_of(const char *path)
{
    const char *slash = strrchr(path, '/');

    return slash == NULL ? path : slash + 1;
}

/* Whether a line is one of a source in the folder in which this one is, and the library has one of its name. */
static bool is_of_library(const char *path)
{
    static const char *const names[] = {"playing.c", "service.c", "memory.c", "control.c", "packets.c",     "files.c",
                                        "crash.c",   "cfe_tbl.c", "cfe_es.c", "damage.c",  "cfetbl_tbl.c", "cfetbl_es.c"};
    static const char own[] = __FILE__;
    size_t folder = (size_t)(base_of(own) - own), length = (size_t)(base_of(path) - path), place;
    bool is_beside = length >= folder && strncmp(path + length - folder, own, folder) == 0;

    for (place = 0; place < sizeof names / sizeof names[0]; place++) {
        if (strncmp(base_of(path), names[place], strlen(names[place])) == 0) {
            return is_beside;
        }
    }
    return strncmp(base_of(path), "crash_", 6) == 0 && is_beside;
}

static bool begins_with(const char *words, const char *with)
{
    return strncmp(words, with, strlen(with)) == 0;
}

static bool is_own(const char *function, const char *path)
{
    return begins_with(function, "CFE_TBL_") || begins_with(function, "CFE_ES_") || begins_with(function, "CFETBL_") ||
           begins_with(function, "cfetbl_") || begins_with(function, "UT_") || begins_with(base_of(path), "cfetbl_") || is_of_library(path);
}

/* A path from the working folder on, if it is below that. */
static const char *from_here(const char *path)
{
    static char here[4096];
    size_t length;

    if (here[0] == 0 && getcwd(here, sizeof here) == NULL) {
        return path;
    }
    length = strlen(here);
    return strncmp(path, here, length) == 0 && path[length] == '/' ? path + length + 1 : path;
}

/* Takes what addr2line says of a frame: a function and its line, innermost first. The first that isn't the library's counts. */
static void take_lines(struct line *line, const char *function, char *path)
{
    char *end = strstr(path, " (discriminator");

    if (end != NULL) {
        *end = 0;
    }
    if (line->is_known && !line->is_own) {
        return;
    }
    line->is_known = strcmp(function, "??") != 0;
    line->is_own = is_own(function, path);
    if (begins_with(path, "??")) {
        snprintf(line->told, sizeof line->told, "%.180s", function);
    } else {
        snprintf(line->told, sizeof line->told, "%.110s (%.60s)", from_here(path), function);
    }
}

/* Reads what addr2line writes of the frames of an object: for each its address, and then functions and lines in turn. */
static void read_lines(FILE *from, struct line *lines, size_t count, const char *path)
{
    char words[512], function[512] = "";
    size_t place = 0;
    struct line *line = NULL;

    while (fgets(words, sizeof words, from) != NULL) {
        words[strcspn(words, "\n")] = 0;
        if (begins_with(words, "0x")) {
            while (place < count && strcmp(lines[place].path, path) != 0) {
                place += 1;
            }
            line = place < count ? &lines[place] : NULL;
            place += 1;
            function[0] = 0;
        } else if (function[0] == 0) {
            memcpy(function, words, sizeof function);
        } else {
            if (line != NULL) {
                take_lines(line, function, words);
            }
            function[0] = 0;
        }
    }
}

/* Has addr2line read the places of an object's frames from a file. It writes into another one. */
static bool call_addr2line(const char *path, FILE *places, FILE *lines)
{
    char name[] = "addr2line", all[] = "-afi", object[] = "-e", of[256];
    char *words[] = {name, all, object, of, NULL};
    posix_spawn_file_actions_t files;
    int status = 1;
    pid_t child;

    snprintf(of, sizeof of, "%s", path);
    if (posix_spawn_file_actions_init(&files) != 0) {
        return false;
    }
    posix_spawn_file_actions_adddup2(&files, fileno(places), STDIN_FILENO);
    posix_spawn_file_actions_adddup2(&files, fileno(lines), STDOUT_FILENO);
    posix_spawn_file_actions_addopen(&files, STDERR_FILENO, "/dev/null", O_WRONLY, 0);
    if (posix_spawnp(&child, name, &files, NULL, words, environ) == 0) {
        (void)waitpid(child, &status, 0);
    }
    posix_spawn_file_actions_destroy(&files);
    return status == 0;
}

/* Has the frames of an object looked up. */
static void look_up(struct line *lines, size_t count, const char *path)
{
    FILE *places = tmpfile(), *said = tmpfile();
    size_t place;

    if (places != NULL && said != NULL) {
        for (place = 0; place < count; place++) {
            if (strcmp(lines[place].path, path) == 0) {
                fprintf(places, "0x%lx\n", (unsigned long)lines[place].place);
            }
        }
        rewind(places);
        if (call_addr2line(path, places, said)) {
            rewind(said);
            read_lines(said, lines, count, path);
        }
    }
    if (places != NULL) {
        fclose(places);
    }
    if (said != NULL) {
        fclose(said);
    }
}

/* Has the frames of each object looked up, an object after the other. */
static void look_all_up(struct line *lines, size_t count)
{
    const char *done[OBJECTS];
    size_t place, object, objects = 0;

    for (place = 0; place < count && objects < OBJECTS; place++) {
        for (object = 0; object < objects && strcmp(done[object], lines[place].path) != 0; object++) {
        }
        if (object == objects && lines[place].path[0] == '/') {
            done[objects] = lines[place].path;
            objects += 1;
            look_up(lines, count, lines[place].path);
        }
    }
}

/* ---- the line of a call */

/* The addresses of the first frames, for a reader who has what addr2line lacked. */
static void say_addresses(const struct line *lines, uint32_t depth, char told[192])
{
    size_t length = 0;
    uint32_t frame;

    for (frame = 0; frame < depth && frame < ADDRESSES && length < 192; frame++) {
        length += (size_t)snprintf(told + length, 192 - length, "%s%.20s+0x%lx", frame == 0 ? "" : " ", base_of(lines[frame].path),
                                   (unsigned long)lines[frame].place);
    }
}

static void say_line(const struct line *lines, uint32_t depth, char told[192])
{
    uint32_t frame = 0;

    while (frame < depth && lines[frame].is_known && lines[frame].is_own) {
        frame += 1;
    }
    if (frame < depth && lines[frame].is_known) {
        memcpy(told, lines[frame].told, sizeof lines[frame].told);
    } else {
        say_addresses(lines, depth, told);
    }
}

bool crash_resolve(const struct crash_call *calls, size_t count, char (*told)[192])
{
    struct line *lines = calloc(count, CRASH_FRAMES * sizeof *lines);
    struct object object;
    uint32_t frame;
    size_t call;

    if (lines == NULL) {
        return false;
    }
    for (call = 0; call < count; call++) {
        for (frame = 0; frame < calls[call].depth; frame++) {
            struct line *line = &lines[call * CRASH_FRAMES + frame];

            find_object(calls[call].frame[frame] - 1, &object);
            line->place = object.address - object.begins;
            memcpy(line->path, object.path, sizeof line->path);
        }
    }
    look_all_up(lines, count * CRASH_FRAMES);
    for (call = 0; call < count; call++) {
        say_line(lines + call * CRASH_FRAMES, calls[call].depth, told[call]);
    }
    free(lines);
    return true;
}
