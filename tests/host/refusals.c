/*
 * Every refusal by its name with its place, which of two comes first, and the limits from both sides,
 * for a run; each check, needs and page of the same image are held to it (calls.c). Refusal 40 is in
 * needs_steps.c, and 41 in page_lengths.c.
 * The steps and high marks of the towers are those of the second interpreter.
 */
#include "tests.h"

#include "cases.h"
#include "replies.h"
#include "report.h"

#include <inttypes.h>

#define COUNT(list) (sizeof(list) / sizeof(list)[0])

/* None is 0, so that a register that is cleared shows. */
static const int64_t starts[MOST_STARTS] = {
    -1, 2, -3, 4, -5, 6, -7, 8, -9, 10, -11, 12, -13, 14, -15, 16, -17, 18, -19, 20,
};
static uint32_t image[IMAGE_ROOM];
static Tree tree;

/* The call of the tree. */
static Call call_of_tree(void)
{
    return tree_call(&tree, starts, image);
}

static void expect(const Call *call, const PiRunReply *expected)
{
    Ran ran = call_all(call);

    same_reply("the run and what is expected", &ran.reply, expected);
}

/* A refusal before the first step: no steps, no high marks. */
static void expect_refused(const Call *call, uint64_t refusal, uint64_t place)
{
    const PiRunReply expected = REFUSED_BEFORE(refusal, place);

    expect(call, &expected);
}

/* A register that is set to a number. */
static const Node assignment[] = {{PI_KIND_ASSIGN, 0}, {PI_KIND_NUM, 1}};
static const PiRunReply assigned = NONE(3, MARKS(1, 1, 2, 2));

/* A refusal of the image, by a tree with 1 register. */
typedef struct Faulty {
    const char *name;
    uint64_t refusal;
    uint64_t place;
    size_t count;
    Node nodes[13];
} Faulty;

static const Faulty faulty[] = {
    {"kind 0", PI_REFUSAL_KIND, 0, 1, {{0, 0}}},
    {"kind 18", PI_REFUSAL_KIND, 1, 2, {{PI_KIND_NOT, 0}, {18, 0}}},
    {"kind above 16 bits", PI_REFUSAL_KIND, 0, 1, {{65536 + PI_KIND_NUM, 0}}},
    {"operand of a Boo", PI_REFUSAL_OPERAND, 0, 1, {{PI_KIND_BOO, 2}}},
    {"operand of a Not", PI_REFUSAL_OPERAND, 0, 2, {{PI_KIND_NOT, 1}, {PI_KIND_BOO, 1}}},
    {"name 64", PI_REFUSAL_OPERAND, 0, 1, {{PI_KIND_ID, 64}}},
    {"9 actuals", PI_REFUSAL_OPERAND, 0, 1, {{PI_KIND_CALL, PI_OPERAND(0, 9)}}},
    {"root is a declaration", PI_REFUSAL_TREE, 0, 2, {{PI_KIND_BIND, 1}, {PI_KIND_NUM, 1}}},
    {"child is a command", PI_REFUSAL_TREE, 1, 3,
     {{PI_KIND_NOT, 0}, {PI_KIND_ASSIGN, 0}, {PI_KIND_NUM, 1}}},
    {"node missing", PI_REFUSAL_TREE, 2, 2, {{PI_KIND_SUM, 0}, {PI_KIND_NUM, 1}}},
    {"node left over", PI_REFUSAL_TREE, 1, 2, {{PI_KIND_NUM, 1}, {PI_KIND_NUM, 1}}},
    {"name unbound", PI_REFUSAL_UNBOUND, 1, 2, {{PI_KIND_ASSIGN, 0}, {PI_KIND_ID, 1}}},
    {"truth for a number", PI_REFUSAL_TYPE, 0, 3,
     {{PI_KIND_SUM, 0}, {PI_KIND_NUM, 1}, {PI_KIND_BOO, 1}}},
    {"truth for a register", PI_REFUSAL_TYPE, 0, 2, {{PI_KIND_ASSIGN, 0}, {PI_KIND_BOO, 1}}},
    {"name used before it is declared", PI_REFUSAL_UNBOUND, 3, 8,
     {{PI_KIND_BLK, 0}, {PI_KIND_DSEQ, 0}, {PI_KIND_BIND, 2}, {PI_KIND_ID, 1}, {PI_KIND_BIND, 1},
      {PI_KIND_NUM, 1}, {PI_KIND_ASSIGN, 0}, {PI_KIND_NUM, 1}}},
    {"register hidden by an earlier declaration", PI_REFUSAL_TYPE, 5, 10,
     {{PI_KIND_BLK, 0}, {PI_KIND_DSEQ, 0}, {PI_KIND_BIND, 0}, {PI_KIND_BOO, 1}, {PI_KIND_BIND, 1},
      {PI_KIND_SUM, 0}, {PI_KIND_ID, 0}, {PI_KIND_NUM, 1}, {PI_KIND_ASSIGN, 0}, {PI_KIND_NUM, 1}}},
    {"name on both sides", PI_REFUSAL_REPEATED, 1, 8,
     {{PI_KIND_BLK, 0}, {PI_KIND_DSEQ, 0}, {PI_KIND_BIND, 1}, {PI_KIND_NUM, 1}, {PI_KIND_BIND, 1},
      {PI_KIND_NUM, 1}, {PI_KIND_ASSIGN, 0}, {PI_KIND_NUM, 1}}},
    {"name used and declared again", PI_REFUSAL_REPEATED, 1, 8,
     {{PI_KIND_BLK, 0}, {PI_KIND_DSEQ, 0}, {PI_KIND_BIND, 1}, {PI_KIND_NUM, 1}, {PI_KIND_BIND, 1},
      {PI_KIND_ID, 1}, {PI_KIND_ASSIGN, 0}, {PI_KIND_NUM, 1}}},
    {"Formal repeated", PI_REFUSAL_REPEATED, 4, 13,
     {{PI_KIND_BLK, 0}, {PI_KIND_BIND, 1}, {PI_KIND_ABS, 2}, {PI_KIND_FORMAL, 2},
      {PI_KIND_FORMAL, PI_OPERAND(2, 1)}, {PI_KIND_BLK, 0}, {PI_KIND_BIND, 3}, {PI_KIND_NUM, 1},
      {PI_KIND_ASSIGN, 0}, {PI_KIND_NUM, 1},
      {PI_KIND_CALL, PI_OPERAND(1, 2)}, {PI_KIND_NUM, 1}, {PI_KIND_BOO, 1}}},
    {"number set", PI_REFUSAL_NOT_ASSIGNABLE, 3, 5,
     {{PI_KIND_BLK, 0}, {PI_KIND_BIND, 1}, {PI_KIND_NUM, 1}, {PI_KIND_ASSIGN, 1},
      {PI_KIND_NUM, 1}}},
    {"register called", PI_REFUSAL_CALL, 0, 1, {{PI_KIND_CALL, PI_OPERAND(0, 0)}}},
    {"name unbound in a function that is never called", PI_REFUSAL_UNBOUND, 6, 9,
     {{PI_KIND_BLK, 0}, {PI_KIND_BIND, 1}, {PI_KIND_ABS, 0}, {PI_KIND_BLK, 0}, {PI_KIND_BIND, 2},
      {PI_KIND_NUM, 1}, {PI_KIND_CALL, PI_OPERAND(1, 0)}, {PI_KIND_ASSIGN, 0}, {PI_KIND_NUM, 1}}},
};

static void test_faulty_trees(void)
{
    size_t index;
    Call call;

    for (index = 0; index < COUNT(faulty); index += 1) {
        test_begin(faulty[index].name);
        tree_list(&tree, 1, faulty[index].nodes, faulty[index].count);
        call = call_of_tree();
        expect_refused(&call, faulty[index].refusal, faulty[index].place);
        test_end();
    }
}

/* Lengths, n and r; and which of them comes first. */
static void test_lengths(void)
{
    static const PiRunReply none = NONE(0, MARKS(0, 0, 0, 0));
    Call call;
    size_t length;

    test_begin("lengths");
    tree_list(&tree, 1, assignment, COUNT(assignment));
    call = call_of_tree();
    for (length = 0; length <= 8; length += 1) {
        call.image_length = length;
        if (length == 6)
            expect(&call, &assigned);
        else
            expect_refused(&call, PI_REFUSAL_LENGTH, 0);
    }
    test_end();

    test_begin("n and r");
    tree_list(&tree, PI_MOST_REGISTERS + 1, assignment, COUNT(assignment));
    call = call_of_tree();
    expect_refused(&call, PI_REFUSAL_COUNTS, 0);
    /* Length 1 comes before n and r, and they before any other length. */
    call.image_length = 5;
    expect_refused(&call, PI_REFUSAL_COUNTS, 0);
    call.image_length = 1;
    expect_refused(&call, PI_REFUSAL_LENGTH, 0);
    tree_clear(&tree, 0);
    call = call_of_tree();
    expect(&call, &none);
    image[0] = PI_MOST_NODES + 1;
    expect_refused(&call, PI_REFUSAL_COUNTS, 0);
    tree_clear(&tree, PI_MOST_REGISTERS + 1);
    call = call_of_tree();
    expect_refused(&call, PI_REFUSAL_COUNTS, 0);
    test_end();
}

/* The host's own faults, and that a run tests 22, 21, the image, 20. */
static void test_host_faults(void)
{
    static const uint64_t budgets[] = {PI_MOST_BUDGET + 1, UINT64_C(1) << 32, UINT64_MAX};
    static uint64_t work[PI_WORK_WORDS];
    Call call, fine;
    PiCheckReply checked;
    size_t index;

    tree_list(&tree, 1, assignment, COUNT(assignment));
    fine = call_of_tree();

    test_begin("register slice");
    for (call = fine, index = 0; index < MOST_STARTS; index += 1) {
        call.registers_length = index;
        if (index == 1)
            expect(&call, &assigned);
        else
            expect_refused(&call, PI_REFUSAL_REGISTERS, 0);
    }
    test_end();

    test_begin("budget above the greatest");
    for (call = fine, index = 0; index < COUNT(budgets); index += 1) {
        call.budget = budgets[index];
        expect_refused(&call, PI_REFUSAL_BUDGET, 0);
    }
    test_end();

    test_begin("work slice too short");
    for (call = fine, index = 0; index < 3; index += 1) {
        call.work_length = index == 0 ? 0 : index == 1 ? 1 : PI_WORK_WORDS - 1;
        expect_refused(&call, PI_REFUSAL_WORK, 0);
        checked = call_check(&call);
        if (checked.refusal != PI_REFUSAL_WORK)
            test_fault("check answers %" PRIu64, checked.refusal);
    }
    test_end();

    test_begin("order 22, 21, the image, 20");
    call = fine;
    call.registers_length = 2;
    expect_refused(&call, PI_REFUSAL_REGISTERS, 0);
    call.image_length = 5;
    expect_refused(&call, PI_REFUSAL_LENGTH, 0);
    call.budget = PI_MOST_BUDGET + 1;
    expect_refused(&call, PI_REFUSAL_BUDGET, 0);
    call.work_length = PI_WORK_WORDS - 1;
    expect_refused(&call, PI_REFUSAL_WORK, 0);
    test_end();

    test_begin("no pointer where the length is 0");
    checked = pi_check(NULL, 0, NULL, 0);
    if (checked.refusal != PI_REFUSAL_WORK)
        test_fault("check answers %" PRIu64, checked.refusal);
    if (pi_needs(NULL, 0, NULL, 0).refusal != PI_REFUSAL_WORK)
        test_fault("needs does not answer 22");
    if (pi_needs(NULL, 0, work, PI_WORK_WORDS).refusal != PI_REFUSAL_LENGTH)
        test_fault("needs does not answer 1");
    if (pi_page(NULL, 0, NULL, 0, NULL, 0).refusal != PI_REFUSAL_WORK)
        test_fault("page does not answer 22");
    if (pi_page(NULL, 0, NULL, 0, work, PI_WORK_WORDS).refusal != PI_REFUSAL_LENGTH)
        test_fault("page does not answer 1");
    if (pi_run(NULL, 0, NULL, 0, 0, NULL, 0).refusal != PI_REFUSAL_WORK)
        test_fault("run does not answer 22");
    test_end();
}

static void test_sizes(void)
{
    /* Not of Not of ..: each leaves its mark on control. An odd count of them makes true false. */
    static const PiRunReply deepest = {0, PI_OUTCOME_TRUTH, 0, 0, 2 * 63 + 1, MARKS(0, 0, 1, 64)};
    static const PiRunReply longest = NONE(666 + 3 * 667, MARKS(1, 1, 2, 11));
    Call call;
    size_t past;

    for (past = 0; past < 2; past += 1) {
        test_begin(past ? "depth 65" : "depth 64");
        tree_of_depth(&tree, PI_MOST_DEPTH + past);
        call = call_of_tree();
        if (past)
            expect_refused(&call, PI_REFUSAL_DEPTH, PI_MOST_DEPTH);
        else
            expect(&call, &deepest);
        test_end();

        test_begin(past ? "2,001 nodes" : "2,000 nodes");
        tree_of_nodes(&tree, PI_MOST_NODES);
        if (past)
            tree_add(&tree, PI_KIND_NUM, 0);
        call = call_of_tree();
        if (past)
            expect_refused(&call, PI_REFUSAL_COUNTS, 0);
        else
            expect(&call, &longest);
        test_end();
    }
}

/* One step: none left of the budget, a number that is too great, a zero divisor. */
static void test_single_steps(void)
{
    static const Node divided[] = {{PI_KIND_DIV, 0}, {PI_KIND_NUM, 1}, {PI_KIND_NUM, 0}};
    static const Node product[] = {
        {PI_KIND_MUL, 0}, {PI_KIND_NUM, UINT32_MAX}, {PI_KIND_NUM, UINT32_MAX},
    };
    PiRunReply withheld = REFUSED(PI_REFUSAL_STEPS, 0, 3, MARKS(0, 0, 2, 3));
    Call call;

    test_begin("no step left");
    tree_list(&tree, 0, product, COUNT(product));
    call = call_of_tree();
    call.budget = 3;
    expect(&call, &withheld);
    test_end();

    test_begin("too great a product");
    call.budget = 4;
    withheld.refusal = PI_REFUSAL_OUT_OF_RANGE;
    expect(&call, &withheld);
    test_end();

    test_begin("zero divisor");
    tree_list(&tree, 0, divided, COUNT(divided));
    call = call_of_tree();
    withheld.refusal = PI_REFUSAL_ZERO_DIVISOR;
    expect(&call, &withheld);
    test_end();
}

/* Towers on both sides of each limit of the run. */
static void test_limits(void)
{
    static const struct {
        const char *name;
        Tower tower;
        PiRunReply reply;
    } towers[] = {
        {"256 cells", {1, 15, 17, 1, 0, 0}, NONE(2052, MARKS(256, 257, 67, 40))},
        {"a 257th cell", {1, 16, 16, 1, 0, 0}, REFUSED(33, 0, 2021, MARKS(256, 257, 67, 40))},
        {"512 bindings", {1, 30, 17, 0, 0, 0}, NONE(3072, MARKS(1, 512, 97, 54))},
        {"a 513th binding", {2, 15, 17, 0, 0, 0}, REFUSED(34, 0, 3026, MARKS(1, 512, 101, 56))},
        {"512 value entries", {15, 15, 1, 0, 0, 0}, NONE(1488, MARKS(1, 241, 512, 259))},
        {"a 513th value entry", {16, 14, 1, 0, 0, 0}, REFUSED(35, 0, 1229, MARKS(1, 240, 512, 260))},
        {"512 control entries", {10, 1, 1, 0, 48, 0}, NONE(2073, MARKS(1, 21, 62, 512))},
        {"a 513th control entry", {11, 1, 1, 0, 44, 0}, REFUSED(36, 0, 610, MARKS(1, 23, 67, 512))},
        /* A call has filled the value stack; its function's Blk would put 4 entries on control in
           place of its own, so that the high mark there is 510. */
        {"a 513th value entry at a function's Blk", {13, 21, 1, 0, 22, 0},
         REFUSED(35, 0, 1486, MARKS(1, 245, 512, 499))},
        {"a 513th entry on both stacks", {13, 21, 1, 0, 23, 0},
         REFUSED(36, 0, 1497, MARKS(1, 245, 512, 510))},
        /* With two names a Blk has a DSeq. */
        {"a 513th value entry in a second declaration", {15, 15, 2, 0, 0, 0},
         REFUSED(35, 0, 2576, MARKS(1, 465, 512, 262))},
        {"a 513th control entry at a DSeq", {13, 1, 2, 0, 39, 0},
         REFUSED(36, 0, 692, MARKS(1, 38, 77, 510))},
    };
    size_t index;
    Call call;

    for (index = 0; index < COUNT(towers); index += 1) {
        PiRunReply cut_off = towers[index].reply;

        test_begin(towers[index].name);
        tree_of_tower(&tree, &towers[index].tower);
        call = call_of_tree();
        expect(&call, &towers[index].reply);
        /* Where no step is left either, that is said first, with the same high marks. */
        if (towers[index].reply.refusal != PI_REFUSAL_NONE) {
            call.budget = towers[index].reply.steps;
            cut_off.refusal = PI_REFUSAL_STEPS;
            expect(&call, &cut_off);
        }
        test_end();
    }
}

void test_refusals(void)
{
    test_faulty_trees();
    test_lengths();
    test_host_faults();
    test_sizes();
    test_single_steps();
    test_limits();
}
