/*
 * Whether a reply makes sense by itself: a number of the list, a place that it may have, a value,
 * figures, steps or high marks that the image and the budget allow; and whether two replies of runs
 * agree. What does not is noted as a fault of the test.
 */
#ifndef REPLIES_H
#define REPLIES_H

#include "calls.h"

void check_makes_sense(const PiCheckReply *reply, const Call *call);
void needs_make_sense(const PiNeedsReply *reply, const Call *call);
void ranges_make_sense(const PiRangesReply *reply, const Call *call);
void run_makes_sense(const PiRunReply *reply, const Call *call);

/* A reply of a run in a message. */
#define RUN_FORMAT \
    "refusal %" PRIu64 " at %" PRIu64 ", outcome %" PRIu64 ", value %" PRId64 ", steps %" PRIu64 \
    ", most %" PRIu64 " %" PRIu64 " %" PRIu64 " %" PRIu64
#define RUN_ARGUMENTS(reply) \
    (reply)->refusal, (reply)->place, (reply)->outcome, (reply)->value, (reply)->steps, \
        (reply)->cells, (reply)->bindings, (reply)->values, (reply)->control

/* Whether all nine words of two replies agree; and notes a fault where they do not. */
int is_same_reply(const PiRunReply *one, const PiRunReply *other);
void same_reply(const char *what, const PiRunReply *one, const PiRunReply *other);

/* Whether each high mark of one reply is at most that of the other. */
int marks_are_within(const PiRunReply *one, const PiRunReply *other);

#endif
