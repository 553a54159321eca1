#include "figures.h"

#include "report.h"

#include <inttypes.h>

void same_needs(const char *what, const PiNeedsReply *one, const PiNeedsReply *other)
{
    if (one->refusal != other->refusal || one->place != other->place ||
        one->control != other->control || one->values != other->values ||
        one->cells != other->cells || one->bindings != other->bindings ||
        one->steps != other->steps || one->open != other->open)
        test_fault("%s: " NEEDS_FORMAT " and " NEEDS_FORMAT, what, NEEDS_ARGUMENTS(one),
                   NEEDS_ARGUMENTS(other));
}

int has_kind(const Call *call, uint32_t kind)
{
    size_t node;

    for (node = 0; node < call->image[0]; node += 1) {
        if (call->image[2 + node] == kind)
            return 1;
    }
    return 0;
}

/* A size of the states: a run's high mark, its figure, its limit, and the refusal beyond. */
typedef struct Size {
    const char *name;
    uint64_t refusal;
    uint64_t limit;
    uint64_t figure;
    uint64_t mark;
} Size;

/* The figures of room against how a run went. In a tree without Loop and Cond a run reaches all. */
static void room_fits(const PiNeedsReply *needs, const PiRunReply *reply, int reaches_all)
{
    const Size sizes[] = {
        {"cells", PI_REFUSAL_CELLS, PI_MOST_CELLS, needs->cells, reply->cells},
        {"bindings", PI_REFUSAL_BINDINGS, PI_MOST_BINDINGS, needs->bindings, reply->bindings},
        {"values", PI_REFUSAL_VALUES, PI_MOST_VALUES, needs->values, reply->values},
        {"control", PI_REFUSAL_CONTROL, PI_MOST_CONTROL, needs->control, reply->control},
    };
    int ended = reply->refusal == PI_REFUSAL_NONE;
    size_t index;

    for (index = 0; index < sizeof sizes / sizeof sizes[0]; index += 1) {
        const Size *size = &sizes[index];

        if (reply->refusal == size->refusal && size->figure <= size->limit)
            test_fault("a run is refused with %" PRIu64 ", and the figure is %" PRIu64,
                       size->refusal, size->figure);
        if (size->mark > size->figure || (ended && reaches_all && size->mark != size->figure))
            test_fault("a run's high mark of %s is %" PRIu64 ", and the figure is %" PRIu64, size->name,
                       size->mark, size->figure);
    }
}

/* The figure of steps against those that a run of this budget made. */
static void steps_fit(const PiNeedsReply *needs, const PiRunReply *reply, uint64_t budget,
                      int reaches_all)
{
    int ended = reply->refusal == PI_REFUSAL_NONE;

    if (reply->steps > needs->steps || (ended && reaches_all && reply->steps != needs->steps))
        test_fault("a run makes %" PRIu64 " steps, and the figure is %" PRIu64, reply->steps,
                   needs->steps);
    if (reply->refusal == PI_REFUSAL_STEPS && budget >= needs->steps)
        test_fault("a budget of %" PRIu64 " is used up, and the figure is %" PRIu64, budget,
                   needs->steps);
}

/* A run of a passed image, with as many registers as it has, against the needs. */
static void fits_a_run(const Call *call, const PiNeedsReply *needs, const PiRunReply *reply)
{
    int loops = has_kind(call, PI_KIND_LOOP);
    int reaches_all = !loops && !has_kind(call, PI_KIND_COND);

    if (needs->refusal == PI_REFUSAL_TOO_MANY_STEPS) {
        if (loops || (reaches_all && reply->refusal == PI_REFUSAL_NONE))
            test_fault("needs are refused with 40, and %s",
                       loops ? "a Loop is in the tree" : "a run ends");
        return;
    }
    if (needs->open != (uint64_t)loops)
        test_fault("open is %" PRIu64 ", and %s", needs->open,
                   loops ? "a Loop is in the tree" : "no Loop is in the tree");
    room_fits(needs, reply, reaches_all);
    if (!needs->open)
        steps_fit(needs, reply, call->budget, reaches_all);
}

void fits_the_needs(const Call *call, const Ran *ran)
{
    PiNeedsReply needs = call_needs(call);
    PiCheckReply checked = call_check(call);
    Call other = *call;
    PiNeedsReply again;
    Ran in_budget;
    int are_too_many = needs.refusal == PI_REFUSAL_TOO_MANY_STEPS;

    if (needs.refusal != checked.refusal && !(are_too_many && checked.refusal == PI_REFUSAL_NONE))
        test_fault("check answers refusal %" PRIu64 " and needs %" PRIu64, checked.refusal,
                   needs.refusal);
    if (needs.place != checked.place)
        test_fault("check answers place %" PRIu64 " and needs %" PRIu64, checked.place,
                   needs.place);
    if (checked.refusal == PI_REFUSAL_WORK)
        return;
    other.work_length += 5;
    again = call_needs(&other);
    same_needs("other work words", &needs, &again);
    if (checked.refusal != PI_REFUSAL_NONE || before_the_run(ran->reply.refusal))
        return;
    fits_a_run(call, &needs, &ran->reply);
    if (needs.open || are_too_many)
        return;
    other.budget = needs.steps;
    in_budget = call_run(&other);
    fits_a_run(&other, &needs, &in_budget.reply);
}
