/*
 * Cond, a choice between two commands: which of them runs, and in how many steps; that both are checked,
 * whichever would be taken; each fault of its shape; and the limits of depth and of both stacks.
 */
#include "tests.h"

#include "cases.h"
#include "report.h"

#define COUNT(list) (sizeof(list) / sizeof(list)[0])

#define COND {PI_KIND_COND, 0}
#define TRUE {PI_KIND_BOO, 1}
#define FALSE {PI_KIND_BOO, 0}
/* A command: the register becomes this number. */
#define SET(name, number) {PI_KIND_ASSIGN, name}, {PI_KIND_NUM, number}
/* A command: the number is added to the register. */
#define ADD(name, number) \
    {PI_KIND_ASSIGN, name}, {PI_KIND_SUM, 0}, {PI_KIND_ID, name}, {PI_KIND_NUM, number}
/* A command with a fault: name 9 has no binding. */
#define UNBOUND {PI_KIND_ASSIGN, 0}, {PI_KIND_ID, 9}

/* Whether register 0 is below 5. */
static const Node below_five[] = {
    COND, {PI_KIND_LT, 0}, {PI_KIND_ID, 0}, {PI_KIND_NUM, 5},
    SET(1, 1),
    SET(1, 2),
};

/* Whether register 0 is below 0, and else whether it is 0. */
static const Node sign[] = {
    COND, {PI_KIND_LT, 0}, {PI_KIND_ID, 0}, {PI_KIND_NUM, 0},
    SET(1, 1),
    COND, {PI_KIND_EQ, 0}, {PI_KIND_ID, 0}, {PI_KIND_NUM, 0},
    SET(1, 2),
    SET(1, 3),
};

/* A Cond whose first command is a Cond: register 0 is above 0, and above 9. */
static const Node both[] = {
    COND, {PI_KIND_GT, 0}, {PI_KIND_ID, 0}, {PI_KIND_NUM, 0},
    COND, {PI_KIND_GT, 0}, {PI_KIND_ID, 0}, {PI_KIND_NUM, 9},
    SET(1, 1),
    SET(1, 2),
    SET(1, 3),
};

/* Register 0 counts down to 0; each round adds 10 to register 1, and from 2 on down 1. */
static const Node rounds[] = {
    {PI_KIND_LOOP, 0}, {PI_KIND_GT, 0}, {PI_KIND_ID, 0}, {PI_KIND_NUM, 0},
    {PI_KIND_CSEQ, 0},
    COND, {PI_KIND_GT, 0}, {PI_KIND_ID, 0}, {PI_KIND_NUM, 2},
    ADD(1, 10),
    ADD(1, 1),
    {PI_KIND_ASSIGN, 0}, {PI_KIND_SUB, 0}, {PI_KIND_ID, 0}, {PI_KIND_NUM, 1},
};

/* A function of a truth, called with both: register 0 or 1 becomes what its own cell holds. */
static const Node function[] = {
    {PI_KIND_BLK, 0},
    {PI_KIND_BIND, 5}, {PI_KIND_ABS, 1}, {PI_KIND_FORMAL, PI_OPERAND(6, PI_CODE_TRUTH)},
    {PI_KIND_BLK, 0}, {PI_KIND_BIND, 7}, {PI_KIND_REF, 0}, {PI_KIND_NUM, 3},
    COND, {PI_KIND_ID, 6},
    {PI_KIND_ASSIGN, 0}, {PI_KIND_ID, 7},
    {PI_KIND_ASSIGN, 1}, {PI_KIND_SUM, 0}, {PI_KIND_ID, 7}, {PI_KIND_ID, 0},
    {PI_KIND_CSEQ, 0},
    {PI_KIND_CALL, PI_OPERAND(5, 1)}, TRUE,
    {PI_KIND_CALL, PI_OPERAND(5, 1)}, FALSE,
};

/* A command that is a Blk with a cell of its own, then a use of what was around it. */
static const Node block[] = {
    {PI_KIND_CSEQ, 0},
    COND, {PI_KIND_GE, 0}, {PI_KIND_ID, 0}, {PI_KIND_NUM, 0},
    {PI_KIND_BLK, 0}, {PI_KIND_BIND, 0}, {PI_KIND_REF, 0}, {PI_KIND_NUM, 4}, ADD(0, 1),
    SET(0, 6),
    ADD(0, 1),
};

/* A divisor that is 0 is not divided by. */
static const Node guarded[] = {
    COND, {PI_KIND_EQ, 0}, {PI_KIND_ID, 0}, {PI_KIND_NUM, 0},
    SET(1, 0),
    {PI_KIND_ASSIGN, 1}, {PI_KIND_DIV, 0}, {PI_KIND_NUM, 100}, {PI_KIND_ID, 0},
};

/* A divisor is divided by just where it is 0. */
static const Node unguarded[] = {
    COND, {PI_KIND_EQ, 0}, {PI_KIND_ID, 0}, {PI_KIND_NUM, 0},
    {PI_KIND_ASSIGN, 1}, {PI_KIND_DIV, 0}, {PI_KIND_NUM, 100}, {PI_KIND_ID, 0},
    SET(1, 0),
};

/* The test divides. */
static const Node dividing_test[] = {
    COND, {PI_KIND_EQ, 0}, {PI_KIND_DIV, 0}, {PI_KIND_NUM, 1}, {PI_KIND_ID, 0}, {PI_KIND_NUM, 0},
    SET(1, 1),
    SET(1, 2),
};

/* A tree with one register that is refused before its run. */
#define FAULT(name, number, place, ...) \
    {name, NODES(__VA_ARGS__), 1, {5}, MOST, 0, REFUSED_BEFORE(number, place), {5}}

static const Case cases[] = {
    {"Cond, true", TREE(below_five), 2, {4, 9}, MOST, COMMAND, NONE(9, MARKS(2, 2, 3, 4)), {4, 1}},
    {"Cond, false", TREE(below_five), 2, {5, 9}, MOST, COMMAND, NONE(9, MARKS(2, 2, 3, 4)), {5, 2}},
    {"Cond, budget 0", TREE(below_five), 2, {4, 9}, 0, COMMAND, REFUSED(30, 0, 0, MARKS(2, 2, 0, 1)),
     {4, 9}},
    {"Cond, no step left at its mark", TREE(below_five), 2, {4, 9}, 5, COMMAND,
     REFUSED(30, 0, 5, MARKS(2, 2, 3, 4)), {4, 9}},
    {"Cond, no step left for its command", TREE(below_five), 2, {4, 9}, 6, COMMAND,
     REFUSED(30, 0, 6, MARKS(2, 2, 3, 4)), {4, 9}},
    {"Cond, true written out", NODES(COND, TRUE, SET(0, 7), SET(0, 8)), 1, {5}, MOST, COMMAND,
     NONE(6, MARKS(1, 1, 2, 2)), {7}},
    {"Cond, false written out", NODES(COND, FALSE, SET(0, 7), SET(0, 8)), 1, {5}, MOST, COMMAND,
     NONE(6, MARKS(1, 1, 2, 2)), {8}},
    {"Cond in the second command, not reached", TREE(sign), 2, {-7, 9}, MOST, COMMAND,
     NONE(9, MARKS(2, 2, 3, 4)), {-7, 1}},
    {"Cond in the second command, true", TREE(sign), 2, {0, 9}, MOST, COMMAND,
     NONE(15, MARKS(2, 2, 3, 4)), {0, 2}},
    {"Cond in the second command, false", TREE(sign), 2, {7, 9}, MOST, COMMAND,
     NONE(15, MARKS(2, 2, 3, 4)), {7, 3}},
    {"Cond in the first command, true", TREE(both), 2, {10, 9}, MOST, COMMAND,
     NONE(15, MARKS(2, 2, 3, 4)), {10, 1}},
    {"Cond in the first command, false", TREE(both), 2, {9, 9}, MOST, COMMAND,
     NONE(15, MARKS(2, 2, 3, 4)), {9, 2}},
    {"Cond in the first command, not reached", TREE(both), 2, {0, 9}, MOST, COMMAND,
     NONE(9, MARKS(2, 2, 3, 4)), {0, 3}},
    {"Cond in a Loop", TREE(rounds), 2, {5, 0}, MOST, COMMAND, NONE(131, MARKS(2, 2, 3, 6)), {0, 32}},
    {"Cond in a function", TREE(function), 2, {0, 0}, MOST, COMMAND, NONE(46, MARKS(3, 5, 9, 9)),
     {3, 6}},
    {"Cond with a Blk, true", TREE(block), 1, {5}, MOST, COMMAND, NONE(27, MARKS(2, 2, 5, 7)), {6}},
    {"Cond with a Blk, false", TREE(block), 1, {-5}, MOST, COMMAND, NONE(16, MARKS(1, 1, 3, 5)), {7}},
    {"Cond, zero divisor not taken", TREE(guarded), 2, {0, 9}, MOST, COMMAND,
     NONE(9, MARKS(2, 2, 3, 4)), {0, 0}},
    {"Cond, divisor taken", TREE(guarded), 2, {7, 9}, MOST, COMMAND, NONE(12, MARKS(2, 2, 3, 4)),
     {7, 14}},
    {"Cond, zero divisor taken", TREE(unguarded), 2, {0, 9}, MOST, COMMAND,
     REFUSED(31, 0, 10, MARKS(2, 2, 3, 4)), {0, 9}},
    {"Cond, divisor not taken", TREE(unguarded), 2, {7, 9}, MOST, COMMAND, NONE(9, MARKS(2, 2, 3, 4)),
     {7, 0}},
    {"Cond, zero divisor in its test", TREE(dividing_test), 2, {0, 9}, MOST, COMMAND,
     REFUSED(31, 0, 5, MARKS(2, 2, 3, 6)), {0, 9}},

    /* Scope and types: the children left to right, and then the test's code. */
    FAULT("Cond, test is an integer", 11, 0, COND, {PI_KIND_NUM, 1}, SET(0, 7), SET(0, 8)),
    FAULT("Cond, test is a location", 11, 0, COND, {PI_KIND_DEREF, 0}, SET(0, 7), SET(0, 8)),
    FAULT("Cond, test with a fault", 11, 1, COND, {PI_KIND_NOT, 0}, {PI_KIND_NUM, 1}, UNBOUND,
          UNBOUND),
    FAULT("Cond, fault in the first command, not taken", 10, 3, COND, FALSE, UNBOUND, SET(0, 8)),
    FAULT("Cond, fault in the second command, not taken", 10, 5, COND, TRUE, SET(0, 7), UNBOUND),
    FAULT("Cond, faults in both commands", 11, 2, COND, TRUE, {PI_KIND_ASSIGN, 0}, TRUE, UNBOUND),
    FAULT("Cond, fault in the first command and the test", 10, 3, COND, {PI_KIND_NUM, 1}, UNBOUND,
          SET(0, 8)),
    FAULT("Cond, fault in the second command and the test", 10, 5, COND, {PI_KIND_NUM, 1},
          SET(0, 7), UNBOUND),
    FAULT("Cond, register called in the second command", 14, 4, COND, TRUE, SET(0, 7),
          {PI_KIND_CALL, PI_OPERAND(0, 0)}),
    FAULT("Cond, names of the first command in the second", 10, 8, COND, TRUE, {PI_KIND_BLK, 0},
          {PI_KIND_BIND, 9}, {PI_KIND_NUM, 1}, SET(0, 7), UNBOUND),

    /* Shape. */
    FAULT("Cond, operand 1", 4, 0, {PI_KIND_COND, 1}, TRUE, SET(0, 7), SET(0, 8)),
    FAULT("Cond, operand 64", 4, 0, {PI_KIND_COND, 64}, TRUE, SET(0, 7), SET(0, 8)),
    FAULT("Cond, greatest operand", 4, 0, {PI_KIND_COND, UINT32_MAX}, TRUE, SET(0, 7), SET(0, 8)),
    FAULT("Cond, operand 1 below a node", 4, 3, {PI_KIND_CSEQ, 0}, SET(0, 7), {PI_KIND_COND, 1}),
    FAULT("Cond, no child", 5, 1, COND),
    FAULT("Cond, no command", 5, 2, COND, TRUE),
    FAULT("Cond, no second command", 5, 4, COND, TRUE, SET(0, 7)),
    FAULT("Cond, fourth child", 5, 6, COND, TRUE, SET(0, 7), SET(0, 8), SET(0, 9)),
    FAULT("Cond, test is a command", 5, 1, COND, SET(0, 7), SET(0, 8), SET(0, 9)),
    FAULT("Cond, first command is an expression", 5, 2, COND, TRUE, {PI_KIND_NUM, 7}, SET(0, 8)),
    FAULT("Cond, second command is an expression", 5, 4, COND, TRUE, SET(0, 7), {PI_KIND_NUM, 8}),
    FAULT("Cond, second command is a declaration", 5, 4, COND, TRUE, SET(0, 7), {PI_KIND_BIND, 1},
          {PI_KIND_NUM, 8}),
    FAULT("Cond for an expression", 5, 1, {PI_KIND_NOT, 0}, COND, TRUE, SET(0, 7), SET(0, 8)),
    FAULT("Cond for a declaration", 5, 1, {PI_KIND_BLK, 0}, COND, TRUE, SET(0, 7), SET(0, 8),
          SET(0, 9)),
    FAULT("Cond for a function's Blk", 5, 3, {PI_KIND_BLK, 0}, {PI_KIND_BIND, 5}, {PI_KIND_ABS, 0},
          COND, TRUE, SET(0, 7), SET(0, 8), {PI_KIND_CALL, PI_OPERAND(5, 0)}),
    FAULT("kind 26", 3, 0, {26, 0}, TRUE, SET(0, 7), SET(0, 8)),
};

size_t choice_calls(void)
{
    return COUNT(cases);
}

Call choice_call(size_t index, uint32_t *image)
{
    return case_call(&cases[index], image);
}

/* The run of a tree with one register: its reply, and what the register is left at. */
static void expect(const Tree *tree, const PiRunReply *reply, int64_t left)
{
    static const int64_t starts[] = {5};
    static uint32_t image[IMAGE_ROOM];
    Call call = tree_call(tree, starts, image);

    expect_run(&call, reply, &left);
}

/* Conds down to depth 64 and 65, below the first command and below the second. */
static void test_levels(void)
{
    /* Where the first node of depth 65 stands: it is in the innermost Cond's first command. */
    static const PiRunReply refused[] = {
        REFUSED_BEFORE(PI_REFUSAL_DEPTH, 62 * 4 + 3),
        REFUSED_BEFORE(PI_REFUSAL_DEPTH, 62 * 2 + 3),
    };
    /* Each Cond is gone from both stacks when its command comes up. */
    static const PiRunReply ended = NONE(62 * 3 + 3, MARKS(1, 1, 2, 2));
    static Tree tree;
    int truth;

    for (truth = 0; truth < 2; truth += 1) {
        test_begin(truth ? "Conds in the first command, depth 64 and 65"
                         : "Conds in the second command, depth 64 and 65");
        tree_of_choices(&tree, PI_MOST_DEPTH - 2, truth);
        expect(&tree, &ended, 7);
        tree_of_choices(&tree, PI_MOST_DEPTH - 1, truth);
        expect(&tree, &refused[truth], 5);
        test_end();
    }
}

/* Makes a CSeq of this command and one that sets the register. */
static void put_in_sequence(Tree *tree, const Tree *first)
{
    static const Node second[] = {SET(0, 9)};
    size_t index;

    tree_clear(tree, first->registers);
    tree_add(tree, PI_KIND_CSEQ, 0);
    for (index = 0; index < first->count; index += 1)
        tree_add(tree, first->nodes[index].kind, first->nodes[index].operand);
    for (index = 0; index < COUNT(second); index += 1)
        tree_add(tree, second[index].kind, second[index].operand);
}

/*
 * Towers with 511 entries on control when their Cond comes up, which its step makes 512; with a CSeq
 * around them it would make 513. In the second tower the value stack has 510 then, 511 with the Cond,
 * and 512 with its truth, which a refused run does not come to.
 */
static void test_limits(void)
{
    static const struct {
        const char *name;
        Tower tower;
        PiRunReply ends;
        PiRunReply stops; /* with a CSeq around it */
    } towers[] = {
        {"512 and 513 control entries at a Cond", {10, 1, 1, 0, 48, 1},
         NONE(2076, MARKS(1, 21, 62, 512)), REFUSED(36, 0, 601, MARKS(1, 21, 61, 512))},
        {"512 value entries too in a Cond's test", {15, 15, 1, 0, 17, 1},
         NONE(2511, MARKS(1, 241, 512, 512)), REFUSED(36, 0, 1486, MARKS(1, 241, 511, 512))},
    };
    static Tree tower, around;
    size_t index;

    for (index = 0; index < COUNT(towers); index += 1) {
        test_begin(towers[index].name);
        tree_of_tower(&tower, &towers[index].tower);
        expect(&tower, &towers[index].ends, 7);
        put_in_sequence(&around, &tower);
        expect(&around, &towers[index].stops, 5);
        test_end();
    }
}

void test_choice(void)
{
    test_cases(cases, COUNT(cases));
    test_levels();
    test_limits();
}
