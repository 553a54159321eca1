#include "ends.h"

#include "figures.h"
#include "report.h"

#include <inttypes.h>
#include <string.h>

/* The starts of a call as limits: each from a little below to a little above. */
typedef struct Limits {
    int64_t lowest[MOST_STARTS];
    int64_t highest[MOST_STARTS];
} Limits;

static Limits limits_around(const Call *call, int64_t below, int64_t above)
{
    Limits limits;
    size_t index;

    memset(&limits, 0, sizeof limits);
    for (index = 0; index < call->registers_length; index += 1) {
        int64_t start = call->starts[index];

        limits.lowest[index] = start < INT64_MIN + below ? INT64_MIN : start - below;
        limits.highest[index] = start > INT64_MAX - above ? INT64_MAX : start + above;
    }
    return limits;
}

/* The lowest refusal of room whose figure passes its limit, or 0. */
static uint64_t room_passed(const PiNeedsReply *needs)
{
    if (needs->cells > PI_MOST_CELLS)
        return PI_REFUSAL_CELLS;
    if (needs->bindings > PI_MOST_BINDINGS)
        return PI_REFUSAL_BINDINGS;
    if (needs->values > PI_MOST_VALUES)
        return PI_REFUSAL_VALUES;
    return needs->control > PI_MOST_CONTROL ? PI_REFUSAL_CONTROL : PI_REFUSAL_NONE;
}

/*
 * What the ranges of an image with as many registers as limits, none crossed, must be refused with; 0
 * where it is 44 or nothing. It may be 40 in its place where a Cond is in the tree.
 */
static uint64_t expected_refusal(const Call *call, const PiNeedsReply *needs)
{
    if (has_kind(call, PI_KIND_LOOP))
        return PI_REFUSAL_LOOP;
    return needs->refusal != PI_REFUSAL_NONE ? needs->refusal : room_passed(needs);
}

static void refused_as_it_must_be(const Call *call, const PiRangesReply *reply)
{
    PiCheckReply checked = call_check(call);
    PiNeedsReply needs;
    uint64_t expected;

    if (checked.refusal != PI_REFUSAL_NONE) {
        if (reply->refusal != checked.refusal || reply->place != checked.place)
            test_fault("check refuses with %" PRIu64 " at %" PRIu64 " and ranges with %" PRIu64
                       " at %" PRIu64,
                       checked.refusal, checked.place, reply->refusal, reply->place);
        return;
    }
    if (call->registers_length != call->image[1]) {
        if (reply->refusal != PI_REFUSAL_REGISTERS)
            test_fault("%lu limits for %lu registers, and ranges answers %" PRIu64,
                       (unsigned long)call->registers_length, (unsigned long)call->image[1],
                       reply->refusal);
        return;
    }
    needs = call_needs(call);
    expected = expected_refusal(call, &needs);
    if (reply->refusal == expected)
        return;
    if (expected == PI_REFUSAL_NONE && reply->refusal == PI_REFUSAL_UNSAFE_ARITHMETIC)
        return;
    /* Both commands of a Cond count there, and only the longer one in the needs. */
    if (expected != PI_REFUSAL_LOOP && reply->refusal == PI_REFUSAL_TOO_MANY_STEPS &&
        has_kind(call, PI_KIND_COND))
        return;
    test_fault("ranges are refused with %" PRIu64 " in place of %" PRIu64, reply->refusal, expected);
}

/* A run from these starts, within the limits of the ends. */
static void run_fits(const Call *call, const Ranged *ranged, const int64_t *starts, uint64_t budget)
{
    Call within = *call;
    Ran ran;
    size_t index;

    within.starts = starts;
    within.budget = budget;
    ran = call_run(&within);
    if (ran.reply.refusal == PI_REFUSAL_STEPS && budget < PI_MOST_BUDGET)
        return;
    if (ran.reply.refusal != PI_REFUSAL_NONE)
        test_fault("there are ends, and a run is refused with %" PRIu64, ran.reply.refusal);
    for (index = 0; index < call->registers_length; index += 1) {
        if (ran.left[index] < ranged->lowest[index] || ran.left[index] > ranged->highest[index])
            test_fault("register %lu is left at %" PRId64 ", and its range is %" PRId64 " to %" PRId64,
                       (unsigned long)index, ran.left[index], ranged->lowest[index],
                       ranged->highest[index]);
    }
}

/* Where each register is known exactly, so is its end. */
static void exact_starts_fit(const Call *call)
{
    Limits limits = limits_around(call, 0, 0);
    Ranged ranged = call_ranges(call, limits.lowest, call->registers_length, limits.highest,
                                call->registers_length);
    Call whole = *call;
    Ran ran;
    size_t index;

    if (ranged.reply.refusal != PI_REFUSAL_NONE &&
        ranged.reply.refusal != PI_REFUSAL_UNSAFE_ARITHMETIC)
        return;
    whole.budget = PI_MOST_BUDGET;
    ran = call_run(&whole);
    if (ranged.reply.refusal == PI_REFUSAL_UNSAFE_ARITHMETIC) {
        if (ran.reply.refusal != PI_REFUSAL_ZERO_DIVISOR &&
            ran.reply.refusal != PI_REFUSAL_OUT_OF_RANGE)
            test_fault("44 from exact starts, and the run answers %" PRIu64, ran.reply.refusal);
        return;
    }
    for (index = 0; index < call->registers_length; index += 1) {
        if (ranged.lowest[index] != ran.left[index] || ranged.highest[index] != ran.left[index])
            test_fault("register %lu is left at %" PRId64 ", and its ends are %" PRId64 " and %" PRId64,
                       (unsigned long)index, ran.left[index], ranged.lowest[index],
                       ranged.highest[index]);
    }
}

void fits_the_ranges(const Call *call)
{
    Limits limits = limits_around(call, 3, 10);
    size_t count = call->registers_length;
    Ranged ranged = call_ranges(call, limits.lowest, count, limits.highest, count);
    Call other = *call;
    Ranged again;

    refused_as_it_must_be(call, &ranged.reply);
    if (ranged.reply.refusal == PI_REFUSAL_WORK)
        return;
    other.work_length += 5;
    again = call_ranges(&other, limits.lowest, count, limits.highest, count);
    if (again.reply.refusal != ranged.reply.refusal || again.reply.place != ranged.reply.place ||
        memcmp(again.lowest, ranged.lowest, sizeof again.lowest) != 0 ||
        memcmp(again.highest, ranged.highest, sizeof again.highest) != 0)
        test_fault("other work words, and other ranges");
    exact_starts_fit(call);
    if (ranged.reply.refusal != PI_REFUSAL_NONE)
        return;
    run_fits(call, &ranged, limits.lowest, PI_MOST_BUDGET);
    run_fits(call, &ranged, limits.highest, PI_MOST_BUDGET);
    run_fits(call, &ranged, call->starts, call->budget > PI_MOST_BUDGET ? 0 : call->budget);
}
