/* SPDX-License-Identifier: Apache-2.0 */
/* packets.c: the events and the notices that came, for tests that look at them one by one. If nobody takes them, the oldest go. */
#include "cfetbl_service.h"

#include <stdlib.h>
#include <string.h>

/* Places in packets, the message id of an event packet, and how many bytes of an event and of a notice are kept. */
enum { LENGTH_PLACE = 4, CODE_PLACE = 6, PARAMETER_PLACE = 8, BODY_PLACE = 12 };
enum { EVENT_ID = 0x0808, COMMAND_BIT = 0x1000, EVENT = 12, NOTICE = 8 };

/* How many bytes a queue has at first, and how many of its packets wait at most. */
enum { FIRST_ROOM = 1024, WAITING_LIMIT = 131072 };

/* Makes room for a packet after those that wait, which move to the front once as many bytes before them were given. */
static bool make_room(struct cfetbl_queue *queue, size_t length)
{
    size_t room = queue->room == 0 ? FIRST_ROOM : 2 * queue->room;
    uint8_t *at;

    if (queue->length + length <= queue->room) {
        return true;
    }
    if (2 * queue->from >= queue->length && queue->from > 0) {
        queue->length -= queue->from;
        memmove(queue->at, queue->at + queue->from, queue->length);
        queue->from = 0;
        return true;
    }
    at = realloc(queue->at, room);
    if (at == NULL) {
        return false;
    }
    queue->at = at;
    queue->room = room;
    return true;
}

static void append(struct cfetbl_queue *queue, const uint8_t *bytes, size_t length)
{
    if (!make_room(queue, length)) {
        cfetbl_say("out of memory for a packet");
        return;
    }
    memcpy(queue->at + queue->length, bytes, length);
    queue->length += length;
    if (queue->length - queue->from > WAITING_LIMIT * length) {
        queue->from += length;
    }
}

/* Keeps a packet, if it is an event or a notice. */
static void take(struct cfetbl_packets *packets, const uint8_t *at, size_t length)
{
    uint32_t id = cfetbl_number_at(at, 2);

    if (id == EVENT_ID && length >= BODY_PLACE + EVENT) {
        append(&packets->events, at + BODY_PLACE, EVENT);
    } else if ((id & COMMAND_BIT) != 0 && length >= PARAMETER_PLACE + 4) {
        uint8_t notice[NOTICE];

        memcpy(notice, at, 2);
        notice[2] = 0;
        notice[3] = at[CODE_PLACE] & 0x7F;
        memcpy(notice + 4, at + PARAMETER_PLACE, 4);
        append(&packets->notices, notice, NOTICE);
    }
}

void cfetbl_take_packets(struct cfetbl_packets *packets, const uint8_t *at, size_t length)
{
    while (length > LENGTH_PLACE + 2) {
        size_t whole = cfetbl_number_at(at + LENGTH_PLACE, 2) + 7;

        if (whole > length) {
            return;
        }
        take(packets, at, whole);
        at += whole;
        length -= whole;
    }
}

bool cfetbl_next(struct cfetbl_queue *queue, uint8_t *bytes, size_t length)
{
    if (queue->length - queue->from < length) {
        return false;
    }
    memcpy(bytes, queue->at + queue->from, length);
    queue->from += length;
    if (queue->from == queue->length) {
        queue->from = queue->length = 0;
    }
    return true;
}

void cfetbl_free_packets(struct cfetbl_packets *packets)
{
    free(packets->events.at);
    free(packets->notices.at);
    memset(packets, 0, sizeof *packets);
}
