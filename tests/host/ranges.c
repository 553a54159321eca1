/* Ranges listed by hand: every operator, Conds, blocks, locations, functions, and no routine. */
#include "tests.h"

#include "cases.h"
#include "report.h"

#include <inttypes.h>

#define COUNT(list) (sizeof(list) / sizeof(list)[0])

static uint32_t image[IMAGE_ROOM];
static Tree tree;

/* Two registers, their limits, and the limits of their ends. */
typedef struct Row {
    const char *name;
    const Node *nodes;
    size_t count;
    int64_t lowest[2];
    int64_t highest[2];
    int64_t lowest_end[2];
    int64_t highest_end[2];
} Row;

#define SET(name) {PI_KIND_ASSIGN, name}
#define NUM(number) {PI_KIND_NUM, number}
#define ID(name) {PI_KIND_ID, name}
#define BLK {PI_KIND_BLK, 0}
#define CSEQ {PI_KIND_CSEQ, 0}
#define COND {PI_KIND_COND, 0}
#define LT {PI_KIND_LT, 0}
#define BIND(name) {PI_KIND_BIND, name}
#define REF {PI_KIND_REF, 0}
/* Whether register 0 is below 30. */
#define BELOW_30 LT, ID(0), NUM(30)

/* Register 0 becomes this operator of both registers. */
#define OF_BOTH(operator) NODES(SET(0), {operator, 0}, ID(0), ID(1))
/* Register 1 becomes 1 where the comparison of both may be true, and 0 where it may be false. */
#define TOLD(operator) \
    NODES(COND, {operator, 0}, ID(0), ID(1), SET(1), NUM(1), SET(1), NUM(0))
/* The same of a number and register 1. */
#define TOLD_OF(number, operator) \
    NODES(COND, {operator, 0}, NUM(number), ID(1), SET(1), NUM(1), SET(1), NUM(0))

static const Row rows[] = {
    {"sum", OF_BOTH(PI_KIND_SUM), {20, 3}, {40, 5}, {23, 3}, {45, 5}},
    {"difference", OF_BOTH(PI_KIND_SUB), {20, 3}, {40, 5}, {15, 3}, {37, 5}},
    {"product of all signs", OF_BOTH(PI_KIND_MUL), {-3, -7}, {2, 5}, {-15, -7}, {21, 5}},
    {"quotient", OF_BOTH(PI_KIND_DIV), {-7, 2}, {7, 3}, {-4, 2}, {3, 3}},
    {"quotient by negatives", OF_BOTH(PI_KIND_DIV), {-7, -3}, {7, -2}, {-4, -3}, {3, -2}},
    {"sum of all integers", OF_BOTH(PI_KIND_SUM), {INT64_MIN, 0}, {0, INT64_MAX}, {INT64_MIN, 0},
     {INT64_MAX, INT64_MAX}},
    {"quotient of all integers", OF_BOTH(PI_KIND_DIV), {INT64_MIN, 1}, {INT64_MAX, INT64_MAX},
     {INT64_MIN, 1}, {INT64_MAX, INT64_MAX}},
    {"quotient by -1", OF_BOTH(PI_KIND_DIV), {INT64_MIN + 1, -1}, {INT64_MAX, -1},
     {INT64_MIN + 1, -1}, {INT64_MAX, -1}},
    {"nothing is connected", NODES(SET(0), {PI_KIND_SUB, 0}, ID(0), ID(0)), {20, 0}, {40, 0},
     {-20, 0}, {20, 0}},
    {"Eq, both", TOLD(PI_KIND_EQ), {0, 5}, {10, 5}, {0, 0}, {10, 1}},
    {"Eq, true", TOLD(PI_KIND_EQ), {0, 0}, {0, 0}, {0, 1}, {0, 1}},
    {"Eq, false", TOLD(PI_KIND_EQ), {0, 11}, {10, 20}, {0, 0}, {10, 0}},
    {"Lt, true", TOLD(PI_KIND_LT), {0, 5}, {4, 9}, {0, 1}, {4, 1}},
    {"Lt, both", TOLD(PI_KIND_LT), {0, 5}, {5, 9}, {0, 0}, {5, 1}},
    {"Le, true", TOLD(PI_KIND_LE), {0, 5}, {5, 9}, {0, 1}, {5, 1}},
    {"Gt, false", TOLD(PI_KIND_GT), {0, 5}, {5, 9}, {0, 0}, {5, 0}},
    {"Ge, both", TOLD(PI_KIND_GE), {0, 5}, {5, 9}, {0, 0}, {5, 1}},
    {"Lt of the ends of the integers", TOLD(PI_KIND_LT), {INT64_MIN, INT64_MAX},
     {INT64_MIN, INT64_MAX}, {INT64_MIN, 1}, {INT64_MIN, 1}},
    {"And, Or and Not",
     NODES(COND, {PI_KIND_AND, 0}, {PI_KIND_OR, 0}, BELOW_30, {PI_KIND_BOO, 1}, {PI_KIND_NOT, 0},
           BELOW_30, SET(1), NUM(1), SET(1), NUM(0)),
     {20, 7}, {40, 7}, {20, 0}, {40, 1}},
    {"Cond, the wider ends", NODES(COND, BELOW_30, SET(1), NUM(5), SET(1), ID(0)), {20, 7}, {40, 7},
     {20, 5}, {40, 40}},
    {"Cond, both from the state before",
     NODES(COND, BELOW_30, SET(1), {PI_KIND_SUM, 0}, ID(1), NUM(1), SET(1), {PI_KIND_SUM, 0}, ID(1),
           NUM(2)),
     {20, 7}, {40, 7}, {20, 8}, {40, 9}},
    {"Cond, one command alone",
     NODES(COND, LT, ID(1), ID(0), SET(1), NUM(3), SET(1), {PI_KIND_DIV, 0}, NUM(1), NUM(0)), {20, 7},
     {40, 7}, {20, 3}, {40, 3}},
    {"Cond in a Cond",
     NODES(COND, BELOW_30, COND, BELOW_30, SET(1), NUM(4), SET(1), NUM(8), COND, BELOW_30, SET(1),
           NUM(6), SET(1), NUM(90)),
     {20, 7}, {40, 7}, {20, 4}, {40, 90}},
    {"a truth in a cell",
     NODES(BLK, BIND(9), REF, {PI_KIND_BOO, 1}, CSEQ, COND, BELOW_30, SET(9), {PI_KIND_BOO, 0}, SET(0),
           ID(0), COND, ID(9), SET(1), NUM(1), SET(1), NUM(0)),
     {20, 7}, {40, 7}, {20, 0}, {40, 1}},
    {"a cell of its own", NODES(BLK, BIND(9), REF, ID(0), SET(1), {PI_KIND_SUM, 0}, ID(9), ID(9)),
     {20, 7}, {40, 7}, {20, 40}, {40, 80}},
    {"a hidden register", NODES(BLK, BIND(0), REF, NUM(5), SET(0), NUM(6)), {20, 7}, {40, 7}, {20, 7},
     {40, 7}},
    {"a location", NODES(BLK, BIND(9), REF, {PI_KIND_DEREF, 0}, SET(1), {PI_KIND_VALREF, 9}), {20, 7},
     {40, 7}, {20, 20}, {40, 40}},
    {"declarations one after another",
     NODES(BLK, {PI_KIND_DSEQ, 0}, BIND(9), {PI_KIND_MUL, 0}, ID(0), NUM(2), BIND(8), REF,
           {PI_KIND_SUM, 0}, ID(9), ID(1), SET(1), ID(8)),
     {20, -3}, {40, 3}, {20, 37}, {40, 83}},
    {"a function of a number and a location",
     NODES(BLK, BIND(10), {PI_KIND_ABS, 2}, {PI_KIND_FORMAL, PI_OPERAND(20, PI_CODE_INTEGER)},
           {PI_KIND_FORMAL, PI_OPERAND(21, PI_CODE_INTEGER_CELL)}, BLK, BIND(22), {PI_KIND_MUL, 0},
           ID(20), NUM(3), SET(21), {PI_KIND_SUM, 0}, ID(21), ID(22), CSEQ,
           {PI_KIND_CALL, PI_OPERAND(10, 2)}, ID(0), {PI_KIND_DEREF, 1},
           {PI_KIND_CALL, PI_OPERAND(10, 2)}, NUM(4), {PI_KIND_DEREF, 1}),
     {20, 100}, {40, 200}, {20, 172}, {40, 332}},
    {"an expression", NODES({PI_KIND_SUM, 0}, ID(0), ID(1)), {20, 7}, {40, 9}, {20, 7}, {40, 9}},
    {"a number and a register", TOLD_OF(7, PI_KIND_GE), {0, 5}, {0, 9}, {0, 0}, {0, 1}},
};

/* The ends of both lists must be these. */
static void expect_ends(const Ranged *ranged, const int64_t *lowest, const int64_t *highest,
                        size_t count)
{
    size_t index;

    if (ranged->reply.refusal != PI_REFUSAL_NONE)
        test_fault("refusal %" PRIu64 " at %" PRIu64, ranged->reply.refusal, ranged->reply.place);
    for (index = 0; index < count; index += 1) {
        if (ranged->lowest[index] != lowest[index] || ranged->highest[index] != highest[index])
            test_fault("register %lu is %" PRId64 " to %" PRId64 ", expected %" PRId64 " to %" PRId64,
                       (unsigned long)index, ranged->lowest[index], ranged->highest[index],
                       lowest[index], highest[index]);
    }
}

static void test_rows(void)
{
    size_t index;

    for (index = 0; index < COUNT(rows); index += 1) {
        const Row *row = &rows[index];
        Ranged ranged;
        Call call;

        test_begin(row->name);
        tree_list(&tree, 2, row->nodes, row->count);
        call = tree_call(&tree, row->lowest, image);
        ranged = call_ranges(&call, row->lowest, 2, row->highest, 2);
        expect_ends(&ranged, row->lowest_end, row->highest_end, 2);
        /* And all that holds of every image. */
        call_all(&call);
        test_end();
    }
}

/* An image with no node keeps the limits, with every count of registers. */
static void test_no_routine_keeps(void)
{
    int64_t lowest[PI_MOST_REGISTERS], highest[PI_MOST_REGISTERS];
    uint32_t registers;
    size_t index;

    test_begin("ranges of no routine");
    for (index = 0; index < PI_MOST_REGISTERS; index += 1) {
        lowest[index] = INT64_MIN + (int64_t)index;
        highest[index] = index % 2 == 0 ? INT64_MAX : lowest[index];
    }
    for (registers = 0; registers <= PI_MOST_REGISTERS; registers += 1) {
        Ranged ranged;
        Call call;

        tree_clear(&tree, registers);
        call = tree_call(&tree, lowest, image);
        ranged = call_ranges(&call, lowest, registers, highest, registers);
        expect_ends(&ranged, lowest, highest, registers);
    }
    test_end();
}

void test_ranges(void)
{
    test_rows();
    test_no_routine_keeps();
}
