/* What ranges are refused with, in its order; both lists are kept; no pointer where a length is 0. */
#include "tests.h"

#include "cases.h"
#include "report.h"

#include <inttypes.h>

#define COUNT(list) (sizeof(list) / sizeof(list)[0])

static uint32_t image[IMAGE_ROOM];
static Tree tree;

/* Limits of one register: fitting ones, and crossed ones. */
static const int64_t low[] = {0, 0}, high[] = {10, 10};

static void expect(const Ranged *ranged, uint64_t refusal, uint64_t place)
{
    if (ranged->reply.refusal != refusal || ranged->reply.place != place)
        test_fault("refusal %" PRIu64 " at %" PRIu64 ", expected %" PRIu64 " at %" PRIu64,
                   ranged->reply.refusal, ranged->reply.place, refusal, place);
}

/*
 * The tree with one register must be refused so, or not: and before that with 42 for crossed limits,
 * with 20 for a list of another length, and with 22 for too few work words.
 */
static void expect_of_tree(uint64_t refusal, uint64_t place)
{
    static const size_t lengths[][2] = {{0, 0}, {0, 1}, {1, 0}, {2, 1}, {1, 2}, {2, 2}};
    Call call = tree_call(&tree, low, image);
    Ranged ranged = call_ranges(&call, low, 1, high, 1);
    size_t index;

    expect(&ranged, refusal, place);
    ranged = call_ranges(&call, high, 1, low, 1);
    expect(&ranged, PI_REFUSAL_CROSSED_LIMITS, 0);
    for (index = 0; index < COUNT(lengths); index += 1) {
        ranged = call_ranges(&call, high, lengths[index][0], low, lengths[index][1]);
        expect(&ranged, PI_REFUSAL_REGISTERS, 0);
    }
    call.work_length = PI_WORK_WORDS - 1;
    ranged = call_ranges(&call, high, 2, low, 0);
    expect(&ranged, PI_REFUSAL_WORK, 0);
    call.work_length = 0;
    ranged = call_ranges(&call, low, 1, high, 1);
    expect(&ranged, PI_REFUSAL_WORK, 0);
}

#define SET {PI_KIND_ASSIGN, 0}, {PI_KIND_NUM, 7}
#define BELOW_5 {PI_KIND_LT, 0}, {PI_KIND_ID, 0}, {PI_KIND_NUM, 5}
/* Quotients by 0 and products that leave the integers. */
#define BY_ZERO {PI_KIND_DIV, 0}, {PI_KIND_NUM, 1}, {PI_KIND_NUM, 0}
#define TOO_LARGE {PI_KIND_MUL, 0}, {PI_KIND_NUM, UINT32_MAX}, {PI_KIND_NUM, UINT32_MAX}
/* A function of one number, and its Call with this actual. */
#define FUNCTION(...) \
    {PI_KIND_BLK, 0}, {PI_KIND_BIND, 9}, {PI_KIND_ABS, 1}, \
        {PI_KIND_FORMAL, PI_OPERAND(20, PI_CODE_INTEGER)}, {PI_KIND_BLK, 0}, {PI_KIND_BIND, 21}, \
        {PI_KIND_NUM, 0}, __VA_ARGS__
#define CALL {PI_KIND_CALL, PI_OPERAND(9, 1)}

typedef struct Row {
    const char *name;
    const Node *nodes;
    size_t count;
    uint64_t refusal;
    uint64_t place;
} Row;

static const Row rows[] = {
    {"ends", NODES(SET), 0, 0},
    {"a Loop", NODES({PI_KIND_LOOP, 0}, {PI_KIND_BOO, 0}, SET), PI_REFUSAL_LOOP, 0},
    {"a Loop behind a quotient by 0",
     NODES({PI_KIND_CSEQ, 0}, {PI_KIND_ASSIGN, 0}, BY_ZERO, {PI_KIND_LOOP, 0}, {PI_KIND_BOO, 0}, SET),
     PI_REFUSAL_LOOP, 0},
    {"a Loop that no one calls",
     NODES(FUNCTION({PI_KIND_LOOP, 0}, {PI_KIND_BOO, 0}, SET), SET), PI_REFUSAL_LOOP, 0},
    {"44 at a quotient", NODES({PI_KIND_ASSIGN, 0}, BY_ZERO), PI_REFUSAL_UNSAFE_ARITHMETIC, 1},
    {"44 where the divisor may be 0",
     NODES({PI_KIND_ASSIGN, 0}, {PI_KIND_DIV, 0}, {PI_KIND_NUM, 1}, {PI_KIND_SUB, 0}, {PI_KIND_ID, 0},
           {PI_KIND_NUM, 5}),
     PI_REFUSAL_UNSAFE_ARITHMETIC, 1},
    {"44 at the first operand",
     NODES({PI_KIND_ASSIGN, 0}, {PI_KIND_SUM, 0}, BY_ZERO, TOO_LARGE), PI_REFUSAL_UNSAFE_ARITHMETIC, 2},
    {"44 at an operand before its operation",
     NODES({PI_KIND_DIV, 0}, {PI_KIND_NUM, 1}, {PI_KIND_MUL, 0}, {PI_KIND_NUM, 0}, BY_ZERO),
     PI_REFUSAL_UNSAFE_ARITHMETIC, 4},
    {"44 at the first command of a Cond",
     NODES({PI_KIND_COND, 0}, BELOW_5, {PI_KIND_ASSIGN, 0}, BY_ZERO, {PI_KIND_ASSIGN, 0}, TOO_LARGE),
     PI_REFUSAL_UNSAFE_ARITHMETIC, 5},
    {"44 at the second command of a Cond",
     NODES({PI_KIND_COND, 0}, BELOW_5, SET, {PI_KIND_ASSIGN, 0}, TOO_LARGE),
     PI_REFUSAL_UNSAFE_ARITHMETIC, 7},
    {"44 in a function",
     NODES(FUNCTION({PI_KIND_ASSIGN, 0}, {PI_KIND_DIV, 0}, {PI_KIND_NUM, 1}, {PI_KIND_ID, 20}), CALL,
           {PI_KIND_ID, 0}),
     PI_REFUSAL_UNSAFE_ARITHMETIC, 8},
    {"44 at an actual before its function",
     NODES(FUNCTION({PI_KIND_ASSIGN, 0}, BY_ZERO), CALL, TOO_LARGE), PI_REFUSAL_UNSAFE_ARITHMETIC, 12},
    {"no 44 in a function that no one calls", NODES(FUNCTION({PI_KIND_ASSIGN, 0}, BY_ZERO), SET), 0, 0},
    {"no 44 in a command that is not carried",
     NODES({PI_KIND_COND, 0}, {PI_KIND_BOO, 1}, SET, {PI_KIND_ASSIGN, 0}, BY_ZERO), 0, 0},
};

static void test_rows(void)
{
    size_t index;

    for (index = 0; index < COUNT(rows); index += 1) {
        test_begin(rows[index].name);
        tree_list(&tree, 1, rows[index].nodes, rows[index].count);
        expect_of_tree(rows[index].refusal, rows[index].place);
        test_end();
    }
}

/* Towers with room for all, and with a figure beyond its limit: the lowest number is told. */
static void test_room(void)
{
    static const struct {
        const char *name;
        Tower tower;
        uint64_t refusal;
    } towers[] = {
        {"ranges with 256 cells", {1, 15, 17, 1, 0, 0}, 0},
        {"ranges with 257 cells", {1, 16, 16, 1, 0, 0}, PI_REFUSAL_CELLS},
        {"ranges with 512 bindings", {1, 30, 17, 0, 0, 0}, 0},
        {"ranges with 513 bindings", {2, 15, 17, 0, 0, 0}, PI_REFUSAL_BINDINGS},
        {"ranges with 512 value entries", {15, 15, 1, 0, 0, 0}, 0},
        {"ranges with more value entries", {16, 14, 1, 0, 0, 0}, PI_REFUSAL_VALUES},
        {"ranges with 512 control entries", {10, 1, 1, 0, 48, 0}, 0},
        {"ranges with more control entries", {11, 1, 1, 0, 44, 0}, PI_REFUSAL_CONTROL},
        {"ranges with more control entries, in a Cond", {11, 1, 1, 0, 44, 1}, PI_REFUSAL_CONTROL},
    };
    size_t index;

    for (index = 0; index < COUNT(towers); index += 1) {
        test_begin(towers[index].name);
        tree_of_tower(&tree, &towers[index].tower);
        expect_of_tree(towers[index].refusal, 0);
        test_end();
    }
}

/*
 * Functions each of which has a Cond with a Call of the one before it in both commands, so that the steps
 * with both commands counted double. A run makes one of the two Calls, and its needs are few.
 */
static void tree_of_halves(size_t functions)
{
    size_t index;

    tree_clear(&tree, 1);
    for (index = 1; index <= functions; index += 1) {
        tree_add(&tree, PI_KIND_BLK, 0);
        tree_add(&tree, PI_KIND_BIND, (uint32_t)index);
        tree_add(&tree, PI_KIND_ABS, 0);
        tree_add(&tree, PI_KIND_BLK, 0);
        tree_add(&tree, PI_KIND_BIND, 63);
        tree_add(&tree, PI_KIND_NUM, 0);
        if (index == 1) {
            tree_add(&tree, PI_KIND_ASSIGN, 0);
            tree_add(&tree, PI_KIND_NUM, 7);
        } else {
            tree_add(&tree, PI_KIND_COND, 0);
            tree_add(&tree, PI_KIND_BOO, 1);
            tree_add(&tree, PI_KIND_CALL, PI_OPERAND(index - 1, 0));
            tree_add(&tree, PI_KIND_CALL, PI_OPERAND(index - 1, 0));
        }
    }
    tree_add(&tree, PI_KIND_CALL, PI_OPERAND(functions, 0));
}

/* A Call of function n has 24 x 2^(n - 1) - 12 steps, and each Blk around it 6. */
static void test_steps(void)
{
    static const size_t counts[] = {1, 2, 8, 15, 16, 17, 18, 33, 58};
    size_t index;

    test_begin("ranges, both commands of every Cond count");
    for (index = 0; index < COUNT(counts); index += 1) {
        tree_of_halves(counts[index]);
        expect_of_tree(counts[index] <= 16 ? 0 : PI_REFUSAL_TOO_MANY_STEPS, 0);
    }
    test_end();
}

/* The image's own refusals come before 20, whatever the lists are. */
static void test_image_first(void)
{
    static const int64_t crossed[MOST_STARTS] = {1, 1, 1};
    static const int64_t below[MOST_STARTS] = {0};
    size_t lengths[] = {0, 1, 2, 17};
    size_t index;
    Call call;
    Ranged ranged;

    test_begin("ranges, the image before the lists");
    for (index = 0; index < COUNT(lengths); index += 1) {
        call = paper_call(13, image);
        ranged = call_ranges(&call, crossed, lengths[index], below, 1);
        expect(&ranged, PI_REFUSAL_NOT_ASSIGNABLE, 4);
        call.image_length -= 1;
        ranged = call_ranges(&call, crossed, 1, below, lengths[index]);
        expect(&ranged, PI_REFUSAL_LENGTH, 0);
    }
    test_end();
}

/* Every count of limits against every count of registers, in either list. */
static void test_lengths(void)
{
    static const int64_t zeros[MOST_STARTS] = {0};
    uint32_t registers;
    size_t length;

    test_begin("ranges, lists of every length");
    for (registers = 0; registers <= PI_MOST_REGISTERS; registers += 1) {
        Call call;

        tree_clear(&tree, registers);
        tree_add(&tree, PI_KIND_NUM, 7);
        call = tree_call(&tree, zeros, image);
        for (length = 0; length < MOST_STARTS; length += 1) {
            uint64_t expected = length == registers ? PI_REFUSAL_NONE : PI_REFUSAL_REGISTERS;
            Ranged ranged = call_ranges(&call, zeros, length, zeros, registers);

            expect(&ranged, expected, 0);
            ranged = call_ranges(&call, zeros, registers, zeros, length);
            expect(&ranged, expected, 0);
        }
    }
    test_end();
}

static void test_no_pointer(void)
{
    static const uint32_t nothing[] = {0, 0};
    static const uint32_t number[] = {1, 1, PI_KIND_NUM, 7};
    static uint64_t work[PI_WORK_WORDS];
    PiRangesReply reply;

    test_begin("ranges, no pointer where the length is 0");
    reply = pi_ranges(nothing, COUNT(nothing), NULL, 0, NULL, 0, work, PI_WORK_WORDS);
    if (reply.refusal != PI_REFUSAL_NONE || reply.place != 0)
        test_fault("no register: ranges answers %" PRIu64 " at %" PRIu64, reply.refusal, reply.place);
    reply = pi_ranges(number, COUNT(number), NULL, 0, NULL, 0, work, PI_WORK_WORDS);
    if (reply.refusal != PI_REFUSAL_REGISTERS || reply.place != 0)
        test_fault("a register: ranges answers %" PRIu64 " at %" PRIu64, reply.refusal, reply.place);
    reply = pi_ranges(NULL, 0, NULL, 0, NULL, 0, NULL, 0);
    if (reply.refusal != PI_REFUSAL_WORK || reply.place != 0)
        test_fault("nothing: ranges answers %" PRIu64 " at %" PRIu64, reply.refusal, reply.place);
    test_end();
}

void test_ranges_refused(void)
{
    test_rows();
    test_room();
    test_steps();
    test_image_first();
    test_lengths();
    test_no_pointer();
}
