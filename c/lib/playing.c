/* SPDX-License-Identifier: Apache-2.0 */
/* playing.c: how a record is played. The service calls no function of an application: before it plays a record it tells which validation
 * function has to judge which image, and it plays the record with these verdicts. No verdict outlives its request. */
#include "cfetbl_service.h"
#include "tbl.h"

#include <stdlib.h>
#include <string.h>

/* How many validation functions may be at work, each called by a request of the one before. */
enum { JUDGING_LIMIT = 16 };

/* How often one request may ask validation functions. One that changes the image each time would have no end. */
enum { ASKING_LIMIT = 1000 };

/* What a validation function answered on an image. */
struct answer {
    uint32_t number;
    int32_t verdict;
    size_t length;
    uint8_t *image;
    struct answer *next;
};

/* A record that is being played, what was answered for it, and the verdicts that it is played with, in the order of its questions. */
struct play {
    struct cfetbl_service *service;
    struct cfetbl_record record;
    struct answer *answers;
    int asked;
    int32_t verdicts[TBL_QUESTIONS];
    size_t count;
};

/* The answer to a question whose image stands in the service's room for entries; NULL if it wasn't asked for this record. */
static const struct answer *answer_to(const struct play *play, const struct tbl_told *question)
{
    const struct answer *answer = play->answers;

    while (answer != NULL && (answer->number != question->number || answer->length != question->length ||
                              memcmp(answer->image, play->service->entry, question->length) != 0)) {
        answer = answer->next;
    }
    return answer;
}

/* Room for the answer to a question, with a copy of its image. */
static struct answer *keep_question(struct play *play, const struct tbl_told *question)
{
    struct answer *answer = calloc(1, sizeof *answer);

    if (answer == NULL) {
        return NULL;
    }
    answer->number = question->number;
    answer->length = question->length;
    answer->image = malloc(question->length);
    if (answer->image == NULL) {
        free(answer);
        return NULL;
    }
    memcpy(answer->image, play->service->entry, question->length);
    answer->next = play->answers;
    play->answers = answer;
    return answer;
}

static void forget_answers(struct play *play)
{
    while (play->answers != NULL) {
        struct answer *answer = play->answers;

        play->answers = answer->next;
        free(answer->image);
        free(answer);
    }
}

/* Calls a validation function with a copy of an image. Other calls may come meanwhile, of the function too. */
static int call(struct play *play, cfetbl_function function, struct answer *answer)
{
    struct cfetbl_service *service = play->service;
    uint8_t *image = malloc(answer->length), *record = malloc(play->record.length);

    if (image == NULL || record == NULL) {
        free(image);
        free(record);
        return TBL_NO_MEMORY;
    }
    memcpy(image, answer->image, answer->length);
    memcpy(record, play->record.at, play->record.length);
    service->judging += 1;
    cfetbl_leave();
    answer->verdict = function(image);
    cfetbl_return();
    service->judging -= 1;
    memcpy(play->record.at, record, play->record.length);
    free(image);
    free(record);
    return TBL_OK;
}

/* Has the function of a question judge its image. */
static int judge(struct play *play, struct answer *answer)
{
    struct cfetbl_service *service = play->service;
    cfetbl_function function = service->functions[answer->number];

    if (service->is_waiving) {
        answer->verdict = 0;
    } else if (function == NULL) {
        answer->verdict = -1;
    } else if (service->judging == JUDGING_LIMIT) {
        cfetbl_say("%d validation functions are at work, each inside the one before, and no further one is called", JUDGING_LIMIT);
        answer->verdict = -1;
    } else {
        return call(play, function, answer);
    }
    return TBL_OK;
}

/* Answers the question that the record has next. If the function made requests, what the record asks may be another thing now, so its
 * questions come again from the first. */
static int answer_next(struct play *play, const struct tbl_told *question)
{
    const struct answer *known = answer_to(play, question);
    uint32_t played = play->service->requests;
    struct answer *asked;
    int status;

    if (play->count == TBL_QUESTIONS || (known == NULL && play->asked == ASKING_LIMIT)) {
        return TBL_VERDICT_MISSING;
    }
    if (known == NULL) {
        play->asked += 1;
        asked = keep_question(play, question);
        status = asked == NULL ? TBL_NO_MEMORY : judge(play, asked);
        if (status != TBL_OK) {
            return status;
        }
        known = asked;
    }
    if (play->service->requests != played) {
        play->count = 0;
    } else {
        play->verdicts[play->count] = known->verdict;
        play->count += 1;
    }
    return TBL_OK;
}

/* Hands the record and its verdicts to the service. */
static int step(struct play *play, struct tbl_told *told)
{
    struct cfetbl_service *service = play->service;
    int status;

    if (cfetbl_watch != NULL) {
        cfetbl_watch->before(service, &play->record);
    }
    status = tbl_step(service->handle, play->record.at, play->record.length, play->verdicts, play->count, service->entry,
                      CFETBL_ENTRY_LIMIT, told);
    if (cfetbl_watch != NULL) {
        cfetbl_watch->after(service);
    }
    return status;
}

/* Plays the record with the verdicts that it asks for. Its entry comes into the room that the last answer of a call doesn't stand in. */
static int play_answered(struct play *play)
{
    struct cfetbl_service *service = play->service;
    struct tbl_told told;
    int status;

    for (;;) {
        service->entry = service->answered == service->rooms[0] ? service->rooms[1] : service->rooms[0];
        status = step(play, &told);
        if (status != TBL_VERDICT_MISSING) {
            return status;
        }
        status = answer_next(play, &told);
        if (status != TBL_OK) {
            return status;
        }
    }
}

/* Says why a record wasn't played, or isn't answered. */
static void say_why(int status)
{
    switch (status) {
    case TBL_FULL:
        cfetbl_say("a table has had 4,294,967,293 images since it was registered");
        break;
    case TBL_NO_MEMORY:
        cfetbl_say("out of memory");
        break;
    case TBL_UNTOLD:
        cfetbl_say("out of memory for the answer of a request that was played");
        break;
    case TBL_VERDICT_MISSING:
        cfetbl_say("a request asked validation functions %d times, each about another image", ASKING_LIMIT);
        break;
    default:
        cfetbl_say("a request couldn't be played (%d of tbl.h)", status);
    }
}

uint32_t cfetbl_play(struct cfetbl_service *service, struct cfetbl_record record)
{
    struct play play = {service, record, NULL, 0, {0}, 0};
    int status;

    cfetbl_put_number(&(struct cfetbl_record){record.at, 2}, (uint32_t)(record.length - 4), 2);
    status = play_answered(&play);
    forget_answers(&play);
    if (status == TBL_OK || status == TBL_UNTOLD) {
        service->requests += 1;
    }
    if (status != TBL_OK) {
        say_why(status);
        return CFETBL_NOT_PLAYED;
    }
    return cfetbl_number_at(service->entry + 5, 4);
}

struct cfetbl_reply cfetbl_reply(const struct cfetbl_service *service)
{
    const uint8_t *at = service->entry;
    struct cfetbl_reply reply;

    reply.status = cfetbl_number_at(at + 5, 4);
    reply.detail = cfetbl_number_at(at + 9, 4);
    reply.length = cfetbl_number_at(at + 13, 4);
    reply.bytes = at + 17;
    reply.packets_length = cfetbl_number_at(at + 17 + reply.length, 4);
    reply.packets = at + 21 + reply.length;
    return reply;
}
