/*
 * The high marks of runs: the most cells, bindings, value entries and control entries of the states
 * that a run has reached, whichever state that was; at every budget; and in every order of what has
 * them. That none passes its figure of pi_needs, and that in a tree without Loop and Cond those of a
 * run that ends are the figures, is looked at for every call (figures.c).
 */
#include "tests.h"

#include "cases.h"
#include "replies.h"
#include "report.h"

#include <inttypes.h>

#define COUNT(list) (sizeof(list) / sizeof(list)[0])

#define NUM {PI_KIND_NUM, 1}
#define TRUE {PI_KIND_BOO, 1}
#define FALSE {PI_KIND_BOO, 0}
#define SUM {PI_KIND_SUM, 0}
#define CSEQ {PI_KIND_CSEQ, 0}
#define LOOP {PI_KIND_LOOP, 0}
#define COND {PI_KIND_COND, 0}
#define BLK {PI_KIND_BLK, 0}
#define DSEQ {PI_KIND_DSEQ, 0}
/* Register 0 becomes a number. */
#define SET {PI_KIND_ASSIGN, 0}, NUM
/* A name is bound to a number, and to a new cell. */
#define BIND(name) {PI_KIND_BIND, name}, NUM
#define CELL(name) {PI_KIND_BIND, name}, {PI_KIND_REF, 0}, NUM
#define THREE_CELLS BLK, DSEQ, CELL(20), DSEQ, CELL(21), CELL(22), SET

/* A function; a command, which may be its call; and then commands that need less. */
#define AFTER_A_FUNCTION(command) \
    BLK, {PI_KIND_BIND, 1}, {PI_KIND_ABS, 2}, {PI_KIND_FORMAL, 2}, {PI_KIND_FORMAL, 3}, THREE_CELLS, \
        CSEQ, command, CSEQ, SET, SET
#define CALL_OF_TWO {PI_KIND_CALL, PI_OPERAND(1, 2)}, NUM, NUM

/* Register 0 counts down to 0. */
static const Node rounds[] = {
    LOOP, {PI_KIND_GT, 0}, {PI_KIND_ID, 0}, {PI_KIND_NUM, 0},
    {PI_KIND_ASSIGN, 0}, {PI_KIND_SUB, 0}, {PI_KIND_ID, 0}, NUM,
};

/* A tree with one register, which is left at this. */
#define ONE(name, start, left, budget, reply, ...) \
    {name, NODES(__VA_ARGS__), 1, {start}, budget, COMMAND, reply, {left}}

static const Case cases[] = {
    /* The function's cells, bindings and entries are gone long before the end. */
    ONE("high marks in a function that is left", 5, 1, MOST, NONE(46, MARKS(4, 7, 11, 13)),
        AFTER_A_FUNCTION(CALL_OF_TWO)),
    ONE("high marks of a function never called", 5, 1, MOST, NONE(17, MARKS(1, 2, 4, 5)),
        AFTER_A_FUNCTION(SET)),
    /* A Cond's command counts where it is taken. */
    ONE("high marks of a Cond, the larger taken", 5, 1, MOST, NONE(30, MARKS(4, 4, 7, 10)), COND,
        TRUE, THREE_CELLS, SET),
    ONE("high marks of a Cond, the larger not taken", 5, 1, MOST, NONE(6, MARKS(1, 1, 2, 2)), COND,
        FALSE, THREE_CELLS, SET),
    /* A Loop's rounds add nothing to one another. */
    ONE("high marks of a Loop that is not gone through", 5, 5, MOST, NONE(3, MARKS(1, 1, 2, 2)), LOOP,
        FALSE, THREE_CELLS),
    {"high marks of one round", TREE(rounds), 1, {1}, MOST, COMMAND, NONE(18, MARKS(1, 1, 3, 5)), {0}},
    {"high marks of 1,000 rounds", TREE(rounds), 1, {1000}, MOST, COMMAND,
     NONE(12006, MARKS(1, 1, 3, 5)), {0}},
    /* Cut off: in the first test, where the command has not run; and in a later round. */
    {"high marks of a Loop, cut off in its test", TREE(rounds), 1, {1000}, 5, COMMAND,
     REFUSED(30, 0, 5, MARKS(1, 1, 3, 4)), {1000}},
    {"high marks of a Loop, cut off in a round", TREE(rounds), 1, {1000}, 6000, COMMAND,
     REFUSED(30, 0, 6000, MARKS(1, 1, 3, 5)), {500}},
    /* Withheld for 31: what its Div would leave is not reached. */
    {"high marks up to a zero divisor", NODES(SUM, NUM, {PI_KIND_DIV, 0}, NUM, {PI_KIND_NUM, 0}), 2,
     {0, 0}, MOST, 0, REFUSED(31, 0, 5, MARKS(2, 2, 3, 4)), {0, 0}},
};

size_t marks_calls(void)
{
    return COUNT(cases);
}

Call marks_call(size_t index, uint32_t *image)
{
    return case_call(&cases[index], image);
}

/* The sizes of a state: cells, bindings, value entries, control entries. */
typedef struct State {
    uint64_t cells, bindings, values, control;
} State;

/* Case I, the first state and that after each step. The function's Blk comes up in the ninth. */
static const State of_function[] = {
    {1, 1, 0, 1},
    {1, 1, 1, 4}, {1, 1, 2, 5}, {1, 1, 3, 4}, {1, 2, 2, 3}, {1, 2, 2, 2}, /* the Blk, its function */
    {1, 2, 2, 3}, {1, 2, 3, 2}, {1, 3, 4, 3},                             /* the Call, its mark */
    {1, 3, 5, 6}, {1, 3, 6, 7}, {1, 3, 6, 8}, {1, 3, 7, 7}, {2, 3, 7, 6}, /* the Blk, its cell */
    {2, 4, 6, 5}, {2, 4, 6, 4}, {2, 4, 7, 5}, {2, 4, 8, 4}, {2, 4, 6, 3}, /* its Assign */
    {1, 3, 4, 2}, {1, 2, 2, 1}, {1, 1, 0, 0},                             /* all three are left */
};

/* Case L: two declarations, the second over the kept environment. */
static const State of_declarations[] = {
    {0, 0, 0, 1},
    {0, 0, 1, 4}, {0, 0, 1, 7},                                           /* the Blk, the DSeq */
    {0, 0, 2, 8}, {0, 0, 2, 9}, {0, 0, 3, 8}, {1, 0, 3, 7}, {1, 1, 2, 6}, /* the first Bind */
    {1, 1, 3, 5},                                                         /* the environment is kept */
    {1, 1, 4, 6}, {1, 1, 4, 7}, {1, 1, 5, 6}, {2, 1, 5, 5}, {2, 2, 4, 4}, /* the second Bind */
    {2, 2, 2, 3}, {2, 2, 2, 2}, {2, 2, 3, 3}, {2, 2, 4, 2}, {2, 2, 2, 1}, /* the Assign */
    {0, 0, 0, 0},
};

/* A Loop that is gone through once: register 0 is 1. */
static const State of_loop[] = {
    {1, 1, 0, 1},
    {1, 1, 1, 2}, {1, 1, 1, 4}, {1, 1, 2, 3}, {1, 1, 3, 2}, {1, 1, 2, 1}, /* the test */
    {1, 1, 0, 2}, {1, 1, 1, 3}, {1, 1, 1, 5}, {1, 1, 2, 4}, {1, 1, 3, 3}, /* the Assign */
    {1, 1, 2, 2}, {1, 1, 0, 1},
    {1, 1, 1, 2}, {1, 1, 1, 4}, {1, 1, 2, 3}, {1, 1, 3, 2}, {1, 1, 2, 1}, {1, 1, 0, 0},
};

static uint64_t larger(uint64_t one, uint64_t other)
{
    return one < other ? other : one;
}

/* The high marks at each budget are the largest sizes of the states up to there, which are listed. */
static void test_states(const char *name, Call call, const State *states, size_t count)
{
    State most = states[0];
    size_t steps;

    test_begin(name);
    for (steps = 0; steps < count; steps += 1) {
        PiRunReply reply;

        most.cells = larger(most.cells, states[steps].cells);
        most.bindings = larger(most.bindings, states[steps].bindings);
        most.values = larger(most.values, states[steps].values);
        most.control = larger(most.control, states[steps].control);
        call.budget = steps;
        reply = call_run(&call).reply;
        if (reply.steps != steps || (reply.refusal == PI_REFUSAL_NONE) != (steps + 1 == count) ||
            reply.cells != most.cells || reply.bindings != most.bindings ||
            reply.values != most.values || reply.control != most.control)
            test_fault("most %" PRIu64 " %" PRIu64 " %" PRIu64 " %" PRIu64 " expected: " RUN_FORMAT,
                       most.cells, most.bindings, most.values, most.control, RUN_ARGUMENTS(&reply));
    }
    test_end();
}

static void test_every_budget(void)
{
    static const int64_t one[] = {1};
    static uint32_t image[IMAGE_ROOM];
    static Tree tree;

    /* By the paper's cases, in the order of paper.c: I and L. */
    test_states("high marks of I at every budget", paper_call(11, image), of_function,
                COUNT(of_function));
    test_states("high marks of L at every budget", paper_call(14, image), of_declarations,
                COUNT(of_declarations));
    tree_list(&tree, 1, rounds, COUNT(rounds));
    test_states("high marks of a Loop at every budget", tree_call(&tree, one, image), of_loop,
                COUNT(of_loop));
}

/* With budget 0 the first state alone is reached: the registers, and the root. */
static void test_first_state(void)
{
    static const int64_t starts[PI_MOST_REGISTERS] = {0};
    static const Node nodes[] = {THREE_CELLS};
    static uint32_t image[IMAGE_ROOM];
    static Tree tree;
    uint32_t registers;

    test_begin("high marks of the first state");
    for (registers = 1; registers <= PI_MOST_REGISTERS; registers += 1) {
        const PiRunReply first = REFUSED(30, 0, 0, MARKS(registers, registers, 0, 1));
        const PiRunReply all = NONE(27, MARKS(registers + 3, registers + 3, 7, 10));
        Call call;
        Ran ran;

        tree_list(&tree, registers, nodes, COUNT(nodes));
        call = tree_call(&tree, starts, image);
        ran = call_all(&call);
        same_reply("the run and what is expected", &ran.reply, &all);
        call.budget = 0;
        ran = call_all(&call);
        same_reply("budget 0 and what is expected", &ran.reply, &first);
    }
    test_end();
}

/* Commands over one register, each of which has one high mark above those of the others. */
#define FOUR 4
static const Node most_cells[] = {THREE_CELLS};
static const Node most_bindings[] = {
    BLK, {PI_KIND_BIND, 1}, {PI_KIND_ABS, 8}, {PI_KIND_FORMAL, 2}, {PI_KIND_FORMAL, 3},
    {PI_KIND_FORMAL, 4}, {PI_KIND_FORMAL, 5}, {PI_KIND_FORMAL, 6}, {PI_KIND_FORMAL, 7},
    {PI_KIND_FORMAL, 8}, {PI_KIND_FORMAL, 9}, BLK, BIND(20), SET,
    {PI_KIND_CALL, PI_OPERAND(1, 8)}, NUM, NUM, NUM, NUM, NUM, NUM, NUM, NUM,
};
/* Sums in the second operand, and Sums in the first. */
static const Node most_values[] = {
    {PI_KIND_ASSIGN, 0}, SUM, NUM, SUM, NUM, SUM, NUM, SUM, NUM, SUM, NUM, SUM, NUM, SUM, NUM,
    SUM, NUM, SUM, NUM, SUM, NUM, SUM, NUM, SUM, NUM, NUM,
};
static const Node most_control[] = {
    {PI_KIND_ASSIGN, 0}, SUM, SUM, SUM, SUM, SUM, SUM, SUM, SUM, SUM,
    NUM, NUM, NUM, NUM, NUM, NUM, NUM, NUM, NUM, NUM,
};

static void add(Tree *tree, const Node *nodes, size_t count)
{
    size_t index;

    for (index = 0; index < count; index += 1)
        tree_add(tree, nodes[index].kind, nodes[index].operand);
}

/* The four commands in this order, and a small one behind them. */
static void tree_of_four(Tree *tree, const size_t *order)
{
    static const struct {
        const Node *nodes;
        size_t count;
    } commands[FOUR] = {
        {TREE(most_cells)}, {TREE(most_bindings)}, {TREE(most_values)}, {TREE(most_control)},
    };
    static const Node small[] = {SET};
    size_t index;

    tree_clear(tree, 1);
    for (index = 0; index < FOUR; index += 1) {
        tree_add(tree, PI_KIND_CSEQ, 0);
        add(tree, commands[order[index]].nodes, commands[order[index]].count);
    }
    add(tree, small, COUNT(small));
}

/* Whether each of the four is in the order once. */
static int is_order(const size_t *order)
{
    size_t seen = 0, index;

    for (index = 0; index < FOUR; index += 1)
        seen |= (size_t)1 << order[index];
    return seen == ((size_t)1 << FOUR) - 1;
}

/* In each of the 24 orders the four high marks come from four commands, and differ. */
static void test_orders(void)
{
    static const int64_t starts[] = {5};
    static const PiRunReply expected = NONE(129, MARKS(4, 11, 14, 21));
    static const int64_t left = 1;
    static uint32_t image[IMAGE_ROOM];
    static Tree tree;
    size_t number, orders = 0;

    test_begin("high marks of four commands in every order");
    for (number = 0; number < FOUR * FOUR * FOUR * FOUR; number += 1) {
        const size_t order[FOUR] = {number / 64, number / 16 % 4, number / 4 % 4, number % 4};
        Call call;

        if (!is_order(order))
            continue;
        orders += 1;
        tree_of_four(&tree, order);
        call = tree_call(&tree, starts, image);
        expect_run(&call, &expected, &left);
    }
    test_end_with("%lu orders", (unsigned long)orders);
}

/* No high mark falls from one budget to the next, or passes that of the whole run. */
static void test_rising(void)
{
    static const int64_t starts[] = {5};
    static const size_t order[FOUR] = {2, 0, 3, 1};
    static uint32_t image[IMAGE_ROOM];
    static Tree tree;
    PiRunReply whole, before, reply;
    Call call;
    size_t rises = 0;

    test_begin("high marks from budget to budget");
    tree_of_four(&tree, order);
    call = tree_call(&tree, starts, image);
    whole = call_run(&call).reply;
    call.budget = 0;
    before = call_run(&call).reply;
    for (call.budget = 1; call.budget <= whole.steps; call.budget += 1) {
        reply = call_run(&call).reply;
        if (!marks_are_within(&before, &reply) || !marks_are_within(&reply, &whole))
            test_fault("budget %" PRIu64 ": " RUN_FORMAT ", before it " RUN_FORMAT, call.budget,
                       RUN_ARGUMENTS(&reply), RUN_ARGUMENTS(&before));
        if (!marks_are_within(&reply, &before))
            rises += 1;
        before = reply;
    }
    same_reply("the last budget and the whole run", &before, &whole);
    if (rises < FOUR)
        test_fault("they rose at %lu budgets", (unsigned long)rises);
    test_end_with("%lu rises", (unsigned long)rises);
}

void test_marks(void)
{
    test_cases(cases, COUNT(cases));
    test_every_budget();
    test_first_state();
    test_orders();
    test_rising();
}
