/* SPDX-License-Identifier: Apache-2.0 */
/* app_writes.c: notes each write at a place of a file, and each sync, in the file that WRITES names: a tag, the place, how many bytes there
 * are, and these. It is preloaded by tests/test_serve_app.py. */
#define _GNU_SOURCE
#include <dlfcn.h>
#include <stdint.h>
#include <stdio.h>
#include <stdlib.h>
#include <sys/types.h>

static void note(char tag, uint64_t at, uint64_t length, const void *bytes)
{
    FILE *notes = fopen(getenv("WRITES"), "ab");

    fwrite(&tag, 1, 1, notes);
    fwrite(&at, sizeof at, 1, notes);
    fwrite(&length, sizeof length, 1, notes);
    if (length > 0) {
        fwrite(bytes, 1, length, notes);
    }
    fclose(notes);
}

ssize_t pwrite(int file, const void *bytes, size_t length, off_t at)
{
    ssize_t (*real)(int, const void *, size_t, off_t) = (ssize_t(*)(int, const void *, size_t, off_t))dlsym(RTLD_NEXT, "pwrite");

    note('w', (uint64_t)at, length, bytes);
    return real(file, bytes, length, at);
}

int fdatasync(int file)
{
    int (*real)(int) = (int (*)(int))dlsym(RTLD_NEXT, "fdatasync");

    note('s', 0, 0, NULL);
    return real(file);
}
