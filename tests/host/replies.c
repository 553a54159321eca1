#include "replies.h"

#include "figures.h"
#include "report.h"

#include <inttypes.h>

/* Whether it is a number of the header's list; all 64 bits of it count. */
static int is_refusal(uint64_t refusal)
{
#define ROW(enumerator, number, name, sentence) case number:

    switch (refusal) {
    PI_REFUSAL_LIST(ROW)
        return 1;
    default:
        return 0;
    }
#undef ROW
}

/* The places that a refusal may have are below this. */
static uint64_t places(uint64_t refusal, const Call *call)
{
    if (refusal == PI_REFUSAL_TREE)
        return (uint64_t)call->image[0] + 1;
    if ((refusal >= PI_REFUSAL_KIND && refusal <= PI_REFUSAL_CALL) ||
        refusal == PI_REFUSAL_UNSAFE_ARITHMETIC)
        return call->image[0];
    return 1;
}

/* Whether a root can have this code: only registers are around it, so it is below 3 or a command's. */
static int is_root_code(uint64_t code)
{
    return code <= PI_CODE_INTEGER_CELL || code == PI_CODE_COMMAND;
}

void check_makes_sense(const PiCheckReply *reply, const Call *call)
{
    if (reply->refusal == PI_REFUSAL_NONE) {
        if (!is_root_code(reply->value) || reply->place != 0)
            test_fault("check passes with value %" PRIu64 " and place %" PRIu64, reply->value,
                       reply->place);
    } else if (!is_refusal(reply->refusal) || reply->value != 0 ||
               (reply->refusal > PI_REFUSAL_CALL && reply->refusal != PI_REFUSAL_WORK) ||
               reply->place >= places(reply->refusal, call)) {
        test_fault("check refuses with %" PRIu64 " at %" PRIu64 " and value %" PRIu64,
                   reply->refusal, reply->place, reply->value);
    }
}

/* Whether figures may be those of this image, and not of a refusal. */
static int figures_fit(const PiNeedsReply *reply, const Call *call)
{
    uint64_t registers = call->image[1];

    if (reply->open > 1 || reply->steps > (reply->open ? 0 : PI_MOST_BUDGET))
        return 0;
    if (call->image[0] == 0)
        return reply->control == 0 && reply->values == 0 && reply->cells == registers &&
               reply->bindings == registers && reply->steps == 0 && reply->open == 0;
    /* The root is on control; a step pushes an entry. */
    return reply->control >= 1 && reply->values >= 1 && reply->cells >= registers &&
           reply->bindings >= registers && (reply->open || reply->steps >= 1);
}

static int is_no_figure(const PiNeedsReply *reply)
{
    return reply->control == 0 && reply->values == 0 && reply->cells == 0 &&
           reply->bindings == 0 && reply->steps == 0 && reply->open == 0;
}

void needs_make_sense(const PiNeedsReply *reply, const Call *call)
{
    uint64_t refusal = reply->refusal;
    int fits;

    if (refusal == PI_REFUSAL_NONE)
        fits = reply->place == 0 && figures_fit(reply, call);
    else
        fits = is_refusal(refusal) && is_no_figure(reply) && reply->place < places(refusal, call) &&
               (refusal <= PI_REFUSAL_CALL || refusal == PI_REFUSAL_WORK ||
                refusal == PI_REFUSAL_TOO_MANY_STEPS);
    if (!fits)
        test_fault("needs answers what makes no sense: " NEEDS_FORMAT, NEEDS_ARGUMENTS(reply));
}

/* Whether pi_ranges may answer this. */
static int is_refusal_of_ranges(uint64_t refusal)
{
    switch (refusal) {
    case PI_REFUSAL_REGISTERS:
    case PI_REFUSAL_WORK:
    case PI_REFUSAL_CELLS:
    case PI_REFUSAL_BINDINGS:
    case PI_REFUSAL_VALUES:
    case PI_REFUSAL_CONTROL:
    case PI_REFUSAL_TOO_MANY_STEPS:
    case PI_REFUSAL_CROSSED_LIMITS:
    case PI_REFUSAL_LOOP:
    case PI_REFUSAL_UNSAFE_ARITHMETIC:
        return 1;
    default:
        return is_refusal(refusal) && refusal <= PI_REFUSAL_CALL;
    }
}

void ranges_make_sense(const PiRangesReply *reply, const Call *call)
{
    uint64_t refusal = reply->refusal;
    int fits;

    if (refusal == PI_REFUSAL_NONE)
        fits = reply->place == 0;
    else
        fits = is_refusal_of_ranges(refusal) && reply->place < places(refusal, call);
    /* 44 is at a Sum, Sub, Mul or Div. */
    if (fits && refusal == PI_REFUSAL_UNSAFE_ARITHMETIC)
        fits = call->image[2 + reply->place] >= PI_KIND_SUM &&
               call->image[2 + reply->place] <= PI_KIND_DIV;
    if (!fits)
        test_fault("ranges answers what makes no sense: refusal %" PRIu64 " at %" PRIu64, refusal,
                   reply->place);
}

static int value_fits(const PiRunReply *reply)
{
    /* The enum has 32 bits, and the reply's word must fit. */
    if (reply->outcome > PI_OUTCOME_CELL)
        return 0;
    switch ((PiOutcome)reply->outcome) {
    case PI_OUTCOME_NONE:
        return reply->value == 0;
    case PI_OUTCOME_NUMBER:
        return 1;
    case PI_OUTCOME_TRUTH:
        return reply->value == 0 || reply->value == 1;
    case PI_OUTCOME_CELL:
        return reply->value >= 0 && reply->value < PI_MOST_CELLS;
    }
    return 0;
}

static int steps_fit(const PiRunReply *reply, const Call *call)
{
    /* A run that ends has made a step, unless there is no node. */
    if (reply->refusal == PI_REFUSAL_NONE)
        return (reply->steps == 0) == (call->image[0] == 0) && reply->steps <= call->budget;
    if (before_the_run(reply->refusal))
        return reply->steps == 0;
    if (reply->refusal == PI_REFUSAL_STEPS)
        return reply->steps == call->budget;
    return reply->steps < call->budget;
}

static int is_no_mark(const PiRunReply *reply)
{
    return reply->cells == 0 && reply->bindings == 0 && reply->values == 0 && reply->control == 0;
}

/* Whether the size that a refusal is about was so near its limit that one step could pass it. */
static int is_near_its_limit(const PiRunReply *reply)
{
    switch (reply->refusal) {
    case PI_REFUSAL_CELLS: /* a step makes one cell at most */
        return reply->cells == PI_MOST_CELLS;
    case PI_REFUSAL_BINDINGS: /* a call binds its Formals at once */
        return reply->bindings + PI_MOST_COUNT > PI_MOST_BINDINGS;
    case PI_REFUSAL_VALUES: /* only a call's mark adds two, to an even count: two a block or call */
        return reply->values == PI_MOST_VALUES;
    case PI_REFUSAL_CONTROL: /* a Call puts its actuals and its mark in its own place */
        return reply->control + PI_MOST_COUNT > PI_MOST_CONTROL;
    default:
        return 1;
    }
}

/* Whether high marks may be those of a run of this image. */
static int marks_fit(const PiRunReply *reply, const Call *call)
{
    uint64_t registers;

    if (before_the_run(reply->refusal))
        return is_no_mark(reply);
    registers = call->image[1];
    if (reply->cells < registers || reply->cells > PI_MOST_CELLS || reply->bindings < registers ||
        reply->bindings > PI_MOST_BINDINGS || reply->values > PI_MOST_VALUES ||
        reply->control > PI_MOST_CONTROL)
        return 0;
    /* Before the first step: the registers, and the root if there is one. */
    if (reply->steps == 0)
        return reply->cells == registers && reply->bindings == registers && reply->values == 0 &&
               reply->control == (call->image[0] == 0 ? 0 : 1);
    /* Whatever ends has had an entry on the value stack. */
    return reply->control >= 1 && (reply->refusal != PI_REFUSAL_NONE || reply->values >= 1) &&
           is_near_its_limit(reply);
}

void run_makes_sense(const PiRunReply *reply, const Call *call)
{
    int fits = steps_fit(reply, call) && marks_fit(reply, call);

    if (reply->refusal == PI_REFUSAL_NONE)
        fits = fits && reply->place == 0 && value_fits(reply);
    else
        fits = fits && is_refusal(reply->refusal) && reply->refusal <= PI_REFUSAL_CONTROL &&
               reply->outcome == PI_OUTCOME_NONE && reply->value == 0 &&
               reply->place < places(reply->refusal, call);
    if (!fits)
        test_fault("run answers what makes no sense: " RUN_FORMAT, RUN_ARGUMENTS(reply));
}

int is_same_reply(const PiRunReply *one, const PiRunReply *other)
{
    return one->refusal == other->refusal && one->outcome == other->outcome &&
           one->value == other->value && one->place == other->place &&
           one->steps == other->steps && one->cells == other->cells &&
           one->bindings == other->bindings && one->values == other->values &&
           one->control == other->control;
}

void same_reply(const char *what, const PiRunReply *one, const PiRunReply *other)
{
    if (!is_same_reply(one, other))
        test_fault("%s: " RUN_FORMAT " and " RUN_FORMAT, what, RUN_ARGUMENTS(one),
                   RUN_ARGUMENTS(other));
}

int marks_are_within(const PiRunReply *one, const PiRunReply *other)
{
    return one->cells <= other->cells && one->bindings <= other->bindings &&
           one->values <= other->values && one->control <= other->control;
}
