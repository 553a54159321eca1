/*
 * The figure of steps on both sides of 1,000,000, and far above: functions each of which calls the one
 * before it twice. And what comes before refusal 40, and what keeps it away.
 */
#include "tests.h"

#include "cases.h"
#include "figures.h"
#include "lines.h"
#include "report.h"

#include <inttypes.h>

#define COUNT(list) (sizeof(list) / sizeof(list)[0])

static const int64_t starts[] = {5};
static uint32_t image[IMAGE_ROOM];
static Tree tree;

/* So many functions may stand in one Blk's declaration: they have names of their own. */
#define MOST_TOGETHER 35
#define MOST_FUNCTIONS 70

/* Steps: of an Assign of a number, of a Blk with a number without its command, of a Call. */
#define OF_ASSIGN 3
#define OF_BLOCK 6
#define OF_CALL 3

/* Register 0 becomes a sum of so many numbers, one at least: 3 steps for each of them. */
static void add_assign(size_t numbers)
{
    tree_add(&tree, PI_KIND_ASSIGN, 0);
    for (; numbers > 1; numbers -= 1) {
        tree_add(&tree, PI_KIND_SUM, 0);
        tree_add(&tree, PI_KIND_NUM, 1);
    }
    tree_add(&tree, PI_KIND_NUM, 1);
}

static void add_call(size_t function)
{
    tree_add(&tree, PI_KIND_CALL, PI_OPERAND(1 + function % MOST_TOGETHER, 0));
}

/* A function: the first sets the register, and each other calls the one before it twice. */
static void add_function(size_t function)
{
    tree_add(&tree, PI_KIND_BIND, 1 + (uint32_t)(function % MOST_TOGETHER));
    tree_add(&tree, PI_KIND_ABS, 0);
    tree_add(&tree, PI_KIND_BLK, 0);
    tree_add(&tree, PI_KIND_BIND, 62);
    tree_add(&tree, PI_KIND_NUM, 0);
    if (function == 0) {
        add_assign(1);
        return;
    }
    tree_add(&tree, PI_KIND_CSEQ, 0);
    add_call(function - 1);
    add_call(function - 1);
}

/* The Blks and the declarations of so many functions; a command is to follow. Their steps without it. */
static uint64_t add_functions(size_t functions)
{
    uint64_t steps = 0;
    size_t function;

    tree_clear(&tree, 1);
    for (function = 0; function < functions; function += 1) {
        int first = function % MOST_TOGETHER == 0;
        int last = function % MOST_TOGETHER == MOST_TOGETHER - 1 || function + 1 == functions;

        if (first)
            tree_add(&tree, PI_KIND_BLK, 0);
        if (!last)
            tree_add(&tree, PI_KIND_DSEQ, 0);
        add_function(function);
        /* A Bind of a function has 3 steps, a DSeq 3, a Blk 3. */
        steps += 3 + (first ? 3 : 0) + (last ? 0 : 3);
    }
    return steps;
}

/* The steps of a function's Blk, as far as they can be of use. */
static uint64_t steps_of(size_t function)
{
    uint64_t steps = OF_BLOCK + OF_ASSIGN;

    for (; function > 0 && steps <= PI_MOST_BUDGET; function -= 1)
        steps = OF_BLOCK + 1 + 2 * (OF_CALL + steps);
    return steps;
}

/* Functions, and calls of them and Assigns, of so many steps together. */
static void tree_of_steps(uint64_t steps)
{
    const size_t functions = 14;
    uint64_t left = steps - add_functions(functions);
    size_t function = functions;

    /* Each call comes with a CSeq. 11 steps are left at least, which is enough for any rest. */
    while (function > 0) {
        uint64_t one = 1 + OF_CALL + steps_of(function - 1);

        if (left < one + 11) {
            function -= 1;
        } else {
            tree_add(&tree, PI_KIND_CSEQ, 0);
            add_call(function - 1);
            left -= one;
        }
    }
    /* A CSeq with an Assign has 4, and an Assign of so many numbers 3 for each of them. */
    for (; left % 3 != 0; left -= 1 + OF_ASSIGN) {
        tree_add(&tree, PI_KIND_CSEQ, 0);
        add_assign(1);
    }
    add_assign((size_t)left / OF_ASSIGN);
}

/* The call's needs must be refused so, or if this is 0 have so many steps. */
static void expect(const Call *call, uint64_t refusal, uint64_t place, uint64_t steps)
{
    PiNeedsReply needs = call_needs(call);

    if (needs.refusal != refusal || needs.place != place || needs.steps != steps || needs.open != 0)
        test_fault("refusal %" PRIu64 " at %" PRIu64 " and steps %" PRIu64 " expected: " NEEDS_FORMAT,
                   refusal, place, steps, NEEDS_ARGUMENTS(&needs));
}

static void expect_figure_or_40(const Call *call, uint64_t steps)
{
    if (steps <= PI_MOST_BUDGET)
        expect(call, PI_REFUSAL_NONE, 0, steps);
    else
        expect(call, PI_REFUSAL_TOO_MANY_STEPS, 0, 0);
}

/*
 * A tree of just so many steps: its needs, and its run with the greatest budget, which ends after them
 * or is refused with 30.
 */
static void expect_just(uint64_t steps)
{
    int ends = steps <= PI_MOST_BUDGET;
    Call call;
    Ran ran;

    tree_of_steps(steps);
    call = tree_call(&tree, starts, image);
    expect_figure_or_40(&call, steps);
    ran = call_run(&call);
    if (ran.reply.refusal != (ends ? PI_REFUSAL_NONE : PI_REFUSAL_STEPS) ||
        ran.reply.steps != (ends ? steps : PI_MOST_BUDGET))
        test_fault("a run of %" PRIu64 " steps answers %" PRIu64 " after %" PRIu64, steps,
                   ran.reply.refusal, ran.reply.steps);
}

static void test_counts(void)
{
    uint64_t steps;

    test_begin("needs of 1,000,000 steps");
    expect_just(PI_MOST_BUDGET);
    test_end();
    test_begin("needs of 1,000,001 steps");
    expect_just(PI_MOST_BUDGET + 1);
    test_end();
    test_begin("needs of every count of steps");
    for (steps = 2000; steps < 2400; steps += 1)
        expect_just(steps);
    test_end();
}

/* From one function to so many that their steps are above 2^64 by far. */
static void test_doublings(void)
{
    size_t functions;
    Call call;

    test_begin("needs of functions that call the one before twice");
    for (functions = 1; functions <= MOST_FUNCTIONS; functions += 1) {
        uint64_t steps = add_functions(functions);

        add_call(functions - 1);
        call = tree_call(&tree, starts, image);
        expect_figure_or_40(&call, steps + OF_CALL + steps_of(functions - 1));
        /* However many the steps are, the tree has a page. */
        fits_the_pages(&call);
        /* Without the call each function is its Bind alone. */
        steps = add_functions(functions);
        add_assign(1);
        call = tree_call(&tree, starts, image);
        expect(&call, PI_REFUSAL_NONE, 0, steps + OF_ASSIGN);
    }
    test_end_with("%d functions", MOST_FUNCTIONS);
}

/* A call of a function, or where it is the first an Assign. */
static void add_command(size_t function)
{
    if (function == 0)
        add_assign(1);
    else
        add_call(function);
}

/* The larger command of a Cond counts, be it the first or the second, and not both together. */
static void test_choices(void)
{
    static const struct {
        size_t first;
        size_t second;
    } calls[] = {{69, 0}, {0, 69}, {69, 69}, {15, 14}, {14, 15}, {15, 15}, {13, 14}};
    size_t index, larger;
    uint64_t steps;
    Call call;

    test_begin("needs of a Cond with many steps");
    for (index = 0; index < COUNT(calls); index += 1) {
        larger = calls[index].first < calls[index].second ? calls[index].second : calls[index].first;
        steps = add_functions(larger + 1);
        tree_add(&tree, PI_KIND_COND, 0);
        tree_add(&tree, PI_KIND_BOO, 1);
        add_command(calls[index].first);
        add_command(calls[index].second);
        call = tree_call(&tree, starts, image);
        expect_figure_or_40(&call, steps + 3 + OF_CALL + steps_of(larger));
    }
    test_end();
}

/* With a Loop anywhere the steps are open, and the room is given; without it, 40. */
static void test_loops(void)
{
    /* Each function but the first has 3 entries of control, 4 of values and 2 of bindings. */
    static const PiNeedsReply open = {0, 0, 216, 286, 1, 141, 0, 1};
    size_t in_function;
    Call call;
    PiNeedsReply needs;

    test_begin("needs of too many steps, and a Loop");
    for (in_function = 0; in_function < 2; in_function += 1) {
        add_functions(MOST_FUNCTIONS);
        tree_add(&tree, PI_KIND_CSEQ, 0);
        add_call(MOST_FUNCTIONS - 1);
        if (in_function) {
            /* A Blk with a function that has a Loop and is not called. */
            tree_add(&tree, PI_KIND_BLK, 0);
            tree_add(&tree, PI_KIND_BIND, 61);
            tree_add(&tree, PI_KIND_ABS, 0);
            tree_add(&tree, PI_KIND_BLK, 0);
            tree_add(&tree, PI_KIND_BIND, 62);
            tree_add(&tree, PI_KIND_NUM, 0);
        }
        tree_add(&tree, PI_KIND_LOOP, 0);
        tree_add(&tree, PI_KIND_BOO, 1);
        add_assign(1);
        if (in_function)
            add_assign(1);
        call = tree_call(&tree, starts, image);
        needs = call_needs(&call);
        same_needs("with a Loop", &needs, &open);
    }
    test_end();
}

/* The work words and the image come before 40, wherever the image's fault is. */
static void test_order(void)
{
    Call call;
    size_t last;

    test_begin("needs, order 22, the image, 40");
    add_functions(MOST_FUNCTIONS);
    tree_add(&tree, PI_KIND_CSEQ, 0);
    add_call(MOST_FUNCTIONS - 1);
    add_assign(1);
    last = tree.count - 1;
    call = tree_call(&tree, starts, image);
    expect(&call, PI_REFUSAL_TOO_MANY_STEPS, 0, 0);
    /* The last node is of another type, has no binding, has no such operand, is of no kind. */
    tree.nodes[last].kind = PI_KIND_BOO;
    call = tree_call(&tree, starts, image);
    expect(&call, PI_REFUSAL_TYPE, last - 1, 0);
    tree.nodes[last].kind = PI_KIND_ID;
    tree.nodes[last].operand = 63;
    call = tree_call(&tree, starts, image);
    expect(&call, PI_REFUSAL_UNBOUND, last, 0);
    tree.nodes[last].operand = 64;
    call = tree_call(&tree, starts, image);
    expect(&call, PI_REFUSAL_OPERAND, last, 0);
    tree.nodes[last].kind = 18;
    call = tree_call(&tree, starts, image);
    expect(&call, PI_REFUSAL_KIND, last, 0);
    call.image_length -= 1;
    expect(&call, PI_REFUSAL_LENGTH, 0, 0);
    call.work_length = PI_WORK_WORDS - 1;
    expect(&call, PI_REFUSAL_WORK, 0, 0);
    tree.nodes[last].kind = PI_KIND_NUM;
    call = tree_call(&tree, starts, image);
    call.work_length = PI_WORK_WORDS - 1;
    expect(&call, PI_REFUSAL_WORK, 0, 0);
    call.work_length = PI_WORK_WORDS + 9;
    expect(&call, PI_REFUSAL_TOO_MANY_STEPS, 0, 0);
    test_end();
}

void test_needed_steps(void)
{
    test_counts();
    test_doublings();
    test_choices();
    test_loops();
    test_order();
}
