/* SPDX-License-Identifier: Apache-2.0 */
/* judging.c: images are judged in another process, so that a function that crashes or doesn't return ends that one alone. Its verdict is then
 * CFETBL_APP_NO_VERDICT, standard error says which function and which image it was, and the next image has the library loaded again. */
#define _GNU_SOURCE
#include "serving.h"

#include <errno.h>
#include <fcntl.h>
#include <poll.h>
#include <signal.h>
#include <stdio.h>
#include <stdlib.h>
#include <string.h>
#include <sys/prctl.h>
#include <sys/socket.h>
#include <sys/wait.h>
#include <unistd.h>

enum {
    /* How many milliseconds a library may take to be loaded. */
    LOADING_LIMIT = 20000,
    /* How many bytes of an image are told. */
    TOLD = 32,
    WORDS = 200
};

/* What came of the wait for an answer. */
enum heard { HEARD, GONE, SILENT };

/* Becomes the process that calls functions. What they print goes to standard error, and nothing of the service is open there. */
static void become_caller(const char *path, int socket, pid_t service)
{
    enum { LOW = STDERR_FILENO + 1, HIGH = STDERR_FILENO + 2 };
    int kept = fcntl(socket, F_DUPFD, HIGH), nothing = open("/dev/null", O_RDWR);

    prctl(PR_SET_PDEATHSIG, SIGKILL);
    if (getppid() != service || kept < 0 || nothing < 0 || dup2(nothing, STDIN_FILENO) < 0 || dup2(kept, LOW) < 0) {
        _exit(1);
    }
    dup2(STDERR_FILENO, STDOUT_FILENO);
    close_range(HIGH, ~0U, 0);
    call_functions(path, LOW);
    _exit(0);
}

/* Waits for an answer of so many bytes, for so many milliseconds. */
static enum heard hear(const struct judge *judge, void *answer, size_t length, int limit)
{
    struct pollfd wait = {.fd = judge->socket, .events = POLLIN};
    int ready;

    do {
        ready = poll(&wait, 1, limit);
    } while (ready < 0 && errno == EINTR);
    if (ready == 0) {
        return SILENT;
    }
    return recv(judge->socket, answer, length, 0) == (ssize_t)length ? HEARD : GONE;
}

/* Ends the process, and says in words how it ended. */
static void end_process(struct judge *judge, enum heard heard, int limit, char words[WORDS])
{
    int status = 0;

    if (heard != GONE) {
        kill(judge->process, SIGKILL);
    }
    close(judge->socket);
    while (waitpid(judge->process, &status, 0) < 0 && errno == EINTR) {
    }
    judge->process = 0;
    judge->socket = -1;
    if (heard == SILENT) {
        snprintf(words, WORDS, "didn't return within %d.%03d s", limit / 1000, limit % 1000);
    } else if (WIFSIGNALED(status)) {
        snprintf(words, WORDS, "was ended by signal %d (%s)", WTERMSIG(status), strsignal(WTERMSIG(status)));
    } else {
        snprintf(words, WORDS, "ended its process with status %d", WEXITSTATUS(status));
    }
}

bool judge_start(struct judge *judge)
{
    static struct library library;
    int sockets[2];
    pid_t service = getpid();
    enum heard heard;
    char words[WORDS];

    if (socketpair(AF_UNIX, SOCK_SEQPACKET | SOCK_CLOEXEC, 0, sockets) != 0 || (judge->process = fork()) < 0) {
        say("no process can be started for the functions of %s: %s", judge->path, strerror(errno));
        judge->process = 0;
        return false;
    }
    if (judge->process == 0) {
        become_caller(judge->path, sockets[1], service);
    }
    close(sockets[1]);
    judge->socket = sockets[0];
    heard = hear(judge, &library, sizeof library, LOADING_LIMIT);
    if (heard == HEARD && library.is_loaded) {
        judge->library = library;
        return true;
    }
    end_process(judge, heard, LOADING_LIMIT, words);
    if (heard == HEARD) {
        say("%s", library.fault);
    } else {
        say("%s %s as it was loaded", judge->path, words);
    }
    return false;
}

void judge_end(struct judge *judge)
{
    char words[WORDS];

    if (judge->process > 0) {
        end_process(judge, HEARD, 0, words);
    }
}

/* Hands a function and an image to the process. One that has ended since the last answer is started again. */
static bool ask(struct judge *judge, uint32_t number, const uint8_t *image, size_t length)
{
    struct iovec parts[] = {{&number, sizeof number}, {(void *)(uintptr_t)image, length}};
    struct msghdr message = {.msg_iov = parts, .msg_iovlen = 2};
    char words[WORDS];

    if (judge->process > 0 && sendmsg(judge->socket, &message, MSG_NOSIGNAL) >= 0) {
        return true;
    }
    if (judge->process > 0) {
        end_process(judge, GONE, 0, words);
        say("the process that calls the functions of %s %s, and is started again", judge->path, words);
    }
    return judge_start(judge) && sendmsg(judge->socket, &message, MSG_NOSIGNAL) >= 0;
}

/* Says which function gave no verdict on which image. */
static void say_lost(const struct judge *judge, uint32_t number, const uint8_t *image, size_t length, const char *words)
{
    char bytes[2 * TOLD + 1] = "";
    size_t place;

    for (place = 0; place < length && place < TOLD; place++) {
        snprintf(bytes + 2 * place, 3, "%02X", image[place]);
    }
    say("validation function %u (%s) of %s %s. Its image of %zu bytes, %s%s, is refused with %d", (unsigned)number,
        judge->library.names[number], judge->path, words, length, bytes, length > TOLD ? ".." : "", CFETBL_APP_NO_VERDICT);
}

bool judge_image(struct judge *judge, uint32_t number, const uint8_t *image, size_t length, int32_t *verdict)
{
    char words[WORDS];
    enum heard heard;

    if (!ask(judge, number, image, length)) {
        return false;
    }
    heard = hear(judge, verdict, sizeof *verdict, judge->limit);
    if (heard != HEARD) {
        end_process(judge, heard, judge->limit, words);
        say_lost(judge, number, image, length, words);
        *verdict = CFETBL_APP_NO_VERDICT;
    }
    return true;
}
