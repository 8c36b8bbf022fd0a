/* SPDX-License-Identifier: Apache-2.0 */
/*
 * By LD_PRELOAD: each thread that is made gets a priority of SCHED_FIFO of its own, 10 to 17, as flight software gives its tasks, and
 * begins 3 milliseconds after the one before. tools/develop/check-priorities uses it.
 */
#define _GNU_SOURCE
#include <dlfcn.h>
#include <pthread.h>
#include <sched.h>
#include <stdatomic.h>
#include <stdio.h>
#include <stdlib.h>
#include <unistd.h>

typedef void *(*Start)(void *);

struct task {
    Start start;
    void *argument;
    int number;
};

static void *run_task(void *given)
{
    struct task task = *(struct task *)given;
    struct sched_param priority = {.sched_priority = 10 + task.number % 8};
    free(given);
    int refused = pthread_setschedparam(pthread_self(), SCHED_FIFO, &priority);
    if (refused)
        fprintf(stderr, "thread %d has no priority: error %d\n", task.number, refused);
    if (task.number)
        usleep(3000 * (useconds_t)task.number);
    return task.start(task.argument);
}

int pthread_create(pthread_t *thread, const pthread_attr_t *attributes, Start start, void *argument)
{
    static atomic_int count;
    static int (*create)(pthread_t *, const pthread_attr_t *, Start, void *);
    struct task *task = malloc(sizeof *task);
    if (!create)
        *(void **)&create = dlsym(RTLD_NEXT, "pthread_create");
    if (!task || !create)
        return 11;
    task->start = start;
    task->argument = argument;
    task->number = atomic_fetch_add(&count, 1);
    return create(thread, attributes, run_task, task);
}
