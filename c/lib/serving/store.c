/* SPDX-License-Identifier: Apache-2.0 */
/* store.c: the store file behind a service whose preserved memory is in memory. What a request changed there is written before the request
 * is answered, in the order of docs/reference/store.md: first what closes a block, then bytes that no open entry has, and last what opens them. */
#define _GNU_SOURCE
#include "serving.h"

#include <errno.h>
#include <fcntl.h>
#include <libgen.h>
#include <stdlib.h>
#include <string.h>
#include <sys/file.h>
#include <sys/stat.h>
#include <unistd.h>

/* Where things are in the bank, as docs/reference/store.md has it. */
enum {
    HEADER = 16,
    VERSION_AT = 3,
    SLOTS = 128,
    ENTRY = 64,
    TURNS_AT = 52,
    TURNS = 2,
    BLOCKS = HEADER + SLOTS * ENTRY,
    LIVE = 0x43,
    OPEN = 0xA5,
    /* How much is compared at once. */
    PIECE = 1024
};

static bool failed(const struct store *store, const char *what)
{
    say("%s %s: %s", store->name, what, strerror(errno));
    return false;
}

static bool write_at(const struct store *store, const uint8_t *bytes, size_t length, off_t at)
{
    while (length > 0) {
        ssize_t count = pwrite(store->file, bytes, length, at);

        if (count < 0 && errno == EINTR) {
            continue;
        }
        if (count <= 0) {
            return false;
        }
        bytes += count;
        length -= (size_t)count;
        at += count;
    }
    return true;
}

/* ---- opening */

/* A descriptor above those of the standard streams, one of which may be closed. */
static int above_streams(int file)
{
    int other;

    if (file < 0 || file > STDERR_FILENO) {
        return file;
    }
    other = fcntl(file, F_DUPFD_CLOEXEC, STDERR_FILENO + 1);
    close(file);
    return other;
}

/* Syncs the file and the folder that it is in. */
static bool sync_all(const struct store *store)
{
    char *copy = strdup(store->name);
    int folder = copy == NULL ? -1 : open(dirname(copy), O_RDONLY | O_DIRECTORY | O_CLOEXEC);
    bool is_synced = folder >= 0 && fsync(store->file) == 0 && fsync(folder) == 0;

    if (folder >= 0) {
        close(folder);
    }
    free(copy);
    return is_synced;
}

/* Writes zeros after the end of a file that is too short. */
static bool lengthen(const struct store *store)
{
    static const uint8_t zeros[TBL_BANK_SIZE];
    struct stat found;

    if (fstat(store->file, &found) != 0) {
        return failed(store, "has a length that can't be read");
    }
    if (found.st_size < (off_t)TBL_BANK_SIZE && !write_at(store, zeros, TBL_BANK_SIZE - (size_t)found.st_size, found.st_size)) {
        return failed(store, "is too short and can't be made longer");
    }
    return true;
}

static bool read_all(const struct store *store)
{
    size_t done = 0;

    while (done < TBL_BANK_SIZE) {
        ssize_t count = pread(store->file, store->written + done, TBL_BANK_SIZE - done, (off_t)done);

        if (count == 0) {
            errno = EIO;
        }
        if (count <= 0 && !(count < 0 && errno == EINTR)) {
            return failed(store, "can't be read");
        }
        done += count > 0 ? (size_t)count : 0;
    }
    return true;
}

static bool locked(const struct store *store)
{
    if (flock(store->file, LOCK_EX | LOCK_NB) == 0) {
        return true;
    }
    if (errno == EWOULDBLOCK) {
        say("%s is in use by another program", store->name);
        return false;
    }
    return failed(store, "can't be locked");
}

int store_open(struct store *store, const char *name, bool is_durable)
{
    *store = (struct store){name, -1, is_durable, malloc(TBL_BANK_SIZE), malloc(TBL_BANK_SIZE)};
    if (store->written == NULL || store->wanted == NULL) {
        say("out of memory");
        return NO_MEMORY;
    }
    store->file = above_streams(open(name, O_RDWR | O_CREAT | O_CLOEXEC, 0666));
    if (store->file < 0) {
        failed(store, "can't be opened for reading and writing");
        return STORE_FAILED;
    }
    if (!locked(store) || !lengthen(store) || !read_all(store)) {
        return STORE_FAILED;
    }
    if (is_durable && !sync_all(store)) {
        failed(store, "can't be synced");
        return STORE_FAILED;
    }
    return DONE;
}

void store_close(struct store *store)
{
    if (store->file >= 0) {
        close(store->file);
    }
    free(store->written);
    free(store->wanted);
}

/* ---- writing */

/* A part of the work of one request: what is written until the next sync. */
struct part {
    struct store *store;
    bool is_dirty;
};

static bool put(struct part *part, size_t at, const uint8_t *bytes, size_t length)
{
    part->is_dirty = true;
    if (!write_at(part->store, bytes, length, (off_t)at)) {
        return failed(part->store, "can't be written");
    }
    memcpy(part->store->written + at, bytes, length);
    return true;
}

/* Has what was written on the disk before anything else is, if that is asked. */
static bool end_part(struct part *part)
{
    bool is_due = part->is_dirty && part->store->is_durable;

    part->is_dirty = false;
    return !is_due || fdatasync(part->store->file) == 0 || failed(part->store, "can't be synced");
}

static bool differs(const struct store *store, size_t at, size_t length)
{
    return memcmp(store->written + at, store->wanted + at, length) != 0;
}

/* Writes what changed from a place on, from its first byte to its last one. */
static bool put_changed(struct part *part, size_t at, size_t length)
{
    const uint8_t *was = part->store->written, *is = part->store->wanted;
    size_t end = at + length;

    /* (most of it is the same, and is compared in pieces) */
    while (end - at >= PIECE && !differs(part->store, at, PIECE)) {
        at += PIECE;
    }
    while (end - at >= PIECE && !differs(part->store, end - PIECE, PIECE)) {
        end -= PIECE;
    }
    while (at < end && was[at] == is[at]) {
        at++;
    }
    while (end > at && was[end - 1] == is[end - 1]) {
        end--;
    }
    return at == end || put(part, at, is + at, end - at);
}

static size_t entry_at(int slot)
{
    return HEADER + (size_t)slot * ENTRY;
}

/* Whether an entry changes in more than its gate and its turn bytes. */
static bool is_other_block(const struct store *store, int slot)
{
    size_t at = entry_at(slot);

    return differs(store, at + 1, TURNS_AT - 1) || differs(store, at + TURNS_AT + TURNS, ENTRY - TURNS_AT - TURNS);
}

/* Closes the gates of blocks that go or become others. */
static bool close_gates(struct part *part)
{
    static const uint8_t closed = 0;
    const struct store *store = part->store;
    int slot;

    for (slot = 0; slot < SLOTS; slot++) {
        size_t at = entry_at(slot);
        bool goes = store->wanted[at] != OPEN || is_other_block(store, slot);

        if (store->written[at] == OPEN && goes && !put(part, at, &closed, 1)) {
            return false;
        }
    }
    return end_part(part);
}

/* Writes images into places that don't show, and entries whose gates are closed. */
static bool put_contents(struct part *part)
{
    const struct store *store = part->store;
    int slot;

    for (slot = 0; slot < SLOTS; slot++) {
        if (is_other_block(store, slot) && !put_changed(part, entry_at(slot) + 1, ENTRY - 1)) {
            return false;
        }
    }
    return put_changed(part, BLOCKS, TBL_BANK_SIZE - BLOCKS) && end_part(part);
}

/* Writes what changed at the same place of each entry: the turn bytes, which have other places show, or the gate. */
static bool put_in_entries(struct part *part, size_t place, size_t length)
{
    int slot;

    for (slot = 0; slot < SLOTS; slot++) {
        if (!put_changed(part, entry_at(slot) + place, length)) {
            return false;
        }
    }
    return end_part(part);
}

/* Begins a bank anew, as a power-on does: while it is at work the bank isn't live. */
static bool put_fresh(struct part *part)
{
    static const uint8_t dead = 0;
    const struct store *store = part->store;

    if (store->written[0] == LIVE && (!put(part, 0, &dead, 1) || !end_part(part))) {
        return false;
    }
    return put_changed(part, 1, BLOCKS - 1) && end_part(part) && put_changed(part, 0, 1) && end_part(part);
}

bool store_follow(struct store *store, struct tbl_handle *handle, bool is_power_on)
{
    struct part part = {store, false};

    /* Whatever a request writes changes the directory: a gate, a turn byte or the live byte. */
    (void)tbl_bank(handle, 0, store->wanted, BLOCKS);
    if (!differs(store, 0, BLOCKS)) {
        return true;
    }
    (void)tbl_bank(handle, BLOCKS, store->wanted + BLOCKS, TBL_BANK_SIZE - BLOCKS);
    if (is_power_on || memcmp(store->written, "CDS", VERSION_AT) != 0) {
        return put_fresh(&part);
    }
    return close_gates(&part) && put_contents(&part) && put_in_entries(&part, TURNS_AT, TURNS) && put_in_entries(&part, 0, 1) &&
           put_changed(&part, 0, HEADER) && end_part(&part);
}
