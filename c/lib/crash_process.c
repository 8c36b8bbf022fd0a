/* SPDX-License-Identifier: Apache-2.0 */
/* crash_process.c: how the driver of a crash test starts its processes, hears them and waits for their ends. */
#define _GNU_SOURCE

#include "crash.h"

#include <errno.h>
#include <poll.h>
#include <signal.h>
#include <stdio.h>
#include <string.h>
#include <sys/socket.h>
#include <sys/wait.h>
#include <time.h>
#include <unistd.h>
#ifdef __linux__
#include <sys/prctl.h>
#endif

/* The longest wait, in milliseconds, until it is seen whether a process goes on. */
enum { LOOK = 50 };

uint64_t crash_now(void)
{
    struct timespec now;

    clock_gettime(CLOCK_MONOTONIC, &now);
    return (uint64_t)now.tv_sec * 1000 + (uint64_t)now.tv_nsec / 1000000;
}

/* A child ends with its parent, and not after it. */
static void end_with(pid_t parent)
{
#ifdef __linux__
    prctl(PR_SET_PDEATHSIG, SIGKILL);
#endif
    if (getppid() != parent) {
        _exit(1);
    }
}

bool crash_start(struct crash *crash, bool is_waiting, struct crash_process *process)
{
    pid_t parent = getpid();
    int ends[2];

    if ((is_waiting ? socketpair(AF_UNIX, SOCK_STREAM, 0, ends) : pipe(ends)) != 0) {
        crash_stop(crash, "no process can be started: %s", strerror(errno));
        return false;
    }
    process->id = fork();
    if (process->id == 0) {
        close(ends[0]);
        process->link = ends[1];
        end_with(parent);
        return true;
    }
    close(ends[1]);
    process->link = ends[0];
    if (process->id < 0) {
        crash_stop(crash, "no process can be started: %s", strerror(errno));
        close(ends[0]);
    }
    return process->id > 0;
}

/* Waits until something comes by a link, or it is closed. False means that no beat came within the limit. */
static bool comes(struct crash *crash, int link)
{
    uint32_t beats = crash->shared->beats;
    uint64_t since = crash_now();
    struct pollfd polled = {link, POLLIN, 0};

    while (poll(&polled, 1, LOOK) <= 0) {
        if (crash->shared->beats != beats) {
            beats = crash->shared->beats;
            since = crash_now();
        } else if (crash_now() - since > crash->options.limit) {
            return false;
        }
    }
    return true;
}

static int ended(pid_t id)
{
    int status = 0;

    while (waitpid(id, &status, 0) < 0 && errno == EINTR) {
    }
    return status;
}

/* The limit of a restart is one for all its calls, so the beats stand still for it. */
bool crash_wait(struct crash *crash, struct crash_process *process, int *status)
{
    struct pollfd polled = {process->link, POLLIN, 0};
    uint64_t until = crash_now() + crash->options.limit;
    bool is_within = true;

    while (is_within && poll(&polled, 1, (int)(until > crash_now() ? until - crash_now() : 0)) <= 0) {
        is_within = crash_now() < until;
    }
    if (!is_within) {
        kill(process->id, SIGKILL);
    }
    close(process->link);
    *status = ended(process->id);
    return is_within;
}

/* If a player that goes on with a fault hangs, it is killed, and its parent says that it ended. */
char crash_hear(struct crash *crash, const struct crash_process *process)
{
    char said = 0;

    while (!comes(crash, process->link)) {
        pid_t going_on = crash->shared->going_on;

        if (going_on == 0) {
            return 'h';
        }
        crash->has_hung = true;
        kill(going_on, SIGKILL);
    }
    return read(process->link, &said, 1) == 1 ? said : 0;
}

void crash_tell(const struct crash_process *process, const struct crash_command *command)
{
    (void)send(process->link, command, sizeof *command, MSG_NOSIGNAL);
}

void crash_say_end(char *words, size_t room, const char *who, int status)
{
    if (WIFSIGNALED(status)) {
        snprintf(words, room, "%s was ended by signal %d (%s)", who, WTERMSIG(status), strsignal(WTERMSIG(status)));
    } else {
        snprintf(words, room, "%s ended its process with status %d", who, WEXITSTATUS(status));
    }
}
