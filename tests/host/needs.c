/*
 * The needs of routines that are listed by hand: the figures of every kind of node, of the paper's cases
 * and near the limits, and with every count of registers.
 */
#include "tests.h"

#include "cases.h"
#include "figures.h"
#include "report.h"

#define COUNT(list) (sizeof(list) / sizeof(list)[0])

/* None is 0, so that a register that is cleared shows. */
static const int64_t starts[MOST_STARTS] = {
    1, 2, 3, 4, 5, 6, 7, 8, 9, 10, 11, 12, 13, 14, 15, 16, 17, 18, 19, 20,
};
static uint32_t image[IMAGE_ROOM];
static Tree tree;

/* The figures of a routine without a Loop, and of one with a Loop; and none. */
#define FIGURES(control, values, cells, bindings, steps) \
    {0, 0, control, values, cells, bindings, steps, 0}
#define OPEN(control, values, cells, bindings) {0, 0, control, values, cells, bindings, 0, 1}
#define NO_FIGURES(refusal, place) {refusal, place, 0, 0, 0, 0, 0, 0}

/* Nodes without an operand, and pieces of trees. */
#define NUM {PI_KIND_NUM, 2}
#define TRUE {PI_KIND_BOO, 1}
#define NOT {PI_KIND_NOT, 0}
#define SUM {PI_KIND_SUM, 0}
#define EQ {PI_KIND_EQ, 0}
#define CSEQ {PI_KIND_CSEQ, 0}
#define LOOP {PI_KIND_LOOP, 0}
#define COND {PI_KIND_COND, 0}
#define BLK {PI_KIND_BLK, 0}
#define DSEQ {PI_KIND_DSEQ, 0}
#define REF {PI_KIND_REF, 0}
/* Register 0 becomes a number, in 3 steps; and a sum, in 6. */
#define SET {PI_KIND_ASSIGN, 0}, NUM
#define ADD {PI_KIND_ASSIGN, 0}, SUM, NUM, NUM
/* A name is bound to a number, to a new cell, and to a function without Formals, whose Blk follows. */
#define BIND(name) {PI_KIND_BIND, name}, NUM
#define CELL(name) {PI_KIND_BIND, name}, REF, NUM
#define FUNCTION(name) {PI_KIND_BIND, name}, {PI_KIND_ABS, 0}
#define CALL(name) {PI_KIND_CALL, PI_OPERAND(name, 0)}
/* A Blk that takes 9 steps, and one with two cells that takes 19. */
#define SMALL BLK, BIND(60), SET
#define LARGE BLK, DSEQ, CELL(60), CELL(61), SET

typedef struct Needed {
    const char *name;
    const Node *nodes;
    size_t count;
    PiNeedsReply reply;
} Needed;

/* Trees with one register, which is a cell and a binding. */
static const Needed needed[] = {
    {"needs of a Num", NODES(NUM), FIGURES(1, 1, 1, 1, 1)},
    {"needs of a Boo", NODES(TRUE), FIGURES(1, 1, 1, 1, 1)},
    {"needs of an Id", NODES({PI_KIND_ID, 0}), FIGURES(1, 1, 1, 1, 1)},
    {"needs of a DeRef", NODES({PI_KIND_DEREF, 0}), FIGURES(1, 1, 1, 1, 1)},
    {"needs of a Not", NODES(NOT, TRUE), FIGURES(2, 1, 1, 1, 3)},
    {"needs of a Sum", NODES(SUM, NUM, NUM), FIGURES(3, 2, 1, 1, 4)},
    {"needs of Sums on the left", NODES(SUM, SUM, SUM, NUM, NUM, NUM, NUM),
     FIGURES(7, 2, 1, 1, 10)},
    {"needs of Sums on the right", NODES(SUM, NUM, SUM, NUM, SUM, NUM, NUM),
     FIGURES(5, 4, 1, 1, 10)},
    {"needs of an Assign", NODES(SET), FIGURES(2, 2, 1, 1, 3)},
    {"needs of an Assign of a Sum", NODES(ADD), FIGURES(4, 3, 1, 1, 6)},
    {"needs of CSeqs on the left", NODES(CSEQ, CSEQ, CSEQ, SET, SET, SET, SET),
     FIGURES(5, 2, 1, 1, 15)},
    {"needs of CSeqs on the right", NODES(CSEQ, SET, CSEQ, SET, CSEQ, SET, SET),
     FIGURES(3, 2, 1, 1, 15)},

    /* Conds: the larger of the commands, for each figure alone. */
    {"needs of a Cond, the first larger", NODES(COND, TRUE, ADD, SET), FIGURES(4, 3, 1, 1, 9)},
    {"needs of a Cond, the second larger", NODES(COND, TRUE, SET, ADD), FIGURES(4, 3, 1, 1, 9)},
    {"needs of a Cond, the test larger", NODES(COND, NOT, NOT, NOT, NOT, TRUE, SET, SET),
     FIGURES(6, 2, 1, 1, 14)},
    {"needs of a Cond, the test with more values", NODES(COND, EQ, NUM, SUM, NUM, NUM, SET, SET),
     FIGURES(5, 4, 1, 1, 12)},
    /* Six nested CSeqs take 8 entries of control, and the Blk cells, bindings and values. */
    {"needs of a Cond, some of either",
     NODES(COND, TRUE, CSEQ, CSEQ, CSEQ, CSEQ, CSEQ, CSEQ, SET, SET, SET, SET, SET, SET, SET, LARGE),
     FIGURES(9, 5, 3, 3, 30)},
    {"needs of a Cond, some of either, exchanged",
     NODES(COND, TRUE, LARGE, CSEQ, CSEQ, CSEQ, CSEQ, CSEQ, CSEQ, SET, SET, SET, SET, SET, SET, SET),
     FIGURES(9, 5, 3, 3, 30)},
    {"needs of a Cond below the other", NODES(COND, TRUE, COND, TRUE, SET, SMALL, ADD),
     FIGURES(5, 4, 1, 2, 15)},

    /* Loops: the test, and the command with the Loop below it. */
    {"needs of a Loop", NODES(LOOP, TRUE, SET), OPEN(3, 2, 1, 1)},
    {"needs of a Loop, the test larger", NODES(LOOP, NOT, NOT, NOT, TRUE, SET), OPEN(5, 2, 1, 1)},
    {"needs of a Loop, the test with more values", NODES(LOOP, EQ, NUM, SUM, NUM, NUM, SET),
     OPEN(5, 4, 1, 1)},
    {"needs of a Loop, the command larger", NODES(LOOP, TRUE, LARGE), OPEN(10, 5, 3, 3)},
    {"needs of a Loop in a Loop", NODES(LOOP, TRUE, LOOP, TRUE, ADD), OPEN(6, 3, 1, 1)},
    {"needs of a Loop in a Cond", NODES(COND, TRUE, LARGE, LOOP, TRUE, SET), OPEN(9, 5, 3, 3)},

    /* Blocks: what is declared lies below the command until the block is left. */
    {"needs of a Blk with a number", NODES(SMALL), FIGURES(5, 4, 1, 2, 9)},
    {"needs of a Blk with a cell", NODES(BLK, CELL(60), SET), FIGURES(6, 4, 2, 2, 11)},
    {"needs of a Blk with two cells", NODES(LARGE), FIGURES(9, 5, 3, 3, 19)},
    {"needs of a Blk in a Blk", NODES(BLK, CELL(20), BLK, CELL(21), SET),
     FIGURES(7, 6, 3, 3, 19)},
    {"needs of a Blk after a Blk", NODES(CSEQ, LARGE, BLK, CELL(20), SET),
     FIGURES(10, 5, 3, 3, 31)},
    {"needs of a Blk before a Blk", NODES(CSEQ, BLK, CELL(20), SET, LARGE),
     FIGURES(9, 5, 3, 3, 31)},
    {"needs of DSeqs on the left", NODES(BLK, DSEQ, DSEQ, CELL(20), BIND(21), CELL(22), SET),
     FIGURES(12, 5, 3, 4, 25)},
    {"needs of DSeqs on the right", NODES(BLK, DSEQ, CELL(20), DSEQ, BIND(21), CELL(22), SET),
     FIGURES(9, 7, 3, 4, 25)},

    /* Functions: the need of their Blk at each call, and of their Bind alone where there is none. */
    {"needs of a function never called", NODES(BLK, FUNCTION(1), LARGE, SET),
     FIGURES(5, 4, 1, 2, 9)},
    {"needs of a function", NODES(BLK, FUNCTION(1), LARGE, CALL(1)), FIGURES(11, 9, 3, 4, 28)},
    {"needs of a function called twice", NODES(BLK, FUNCTION(1), LARGE, CSEQ, CALL(1), CALL(1)),
     FIGURES(12, 9, 3, 4, 51)},
    {"needs of a Loop in a function", NODES(BLK, FUNCTION(1), BLK, BIND(2), LOOP, TRUE, ADD, CALL(1)),
     OPEN(8, 9, 1, 3)},
    {"needs of a Loop in a function never called",
     NODES(BLK, FUNCTION(1), BLK, BIND(2), LOOP, TRUE, LARGE, SET), OPEN(5, 4, 1, 2)},
    {"needs of a function that a declaration names after another",
     NODES(BLK, DSEQ, FUNCTION(1), SMALL, FUNCTION(2), BLK, CELL(3), CALL(1), CALL(2)),
     FIGURES(9, 12, 2, 5, 35)},
    /* Name 1 is the small function again behind the block that hides it. */
    {"needs of a function that is hidden",
     NODES(BLK, FUNCTION(1), SMALL, CSEQ, BLK, FUNCTION(1), LARGE, SET, CALL(1)),
     FIGURES(7, 8, 1, 3, 28)},
    {"needs of a function that hides another",
     NODES(BLK, FUNCTION(1), SMALL, BLK, FUNCTION(1), LARGE, CALL(1)), FIGURES(12, 11, 3, 5, 34)},
    /* Function 2 calls the function 1 that stood around it, not the one around its call. */
    {"needs of a function that is not its caller's",
     NODES(BLK, FUNCTION(1), SMALL, BLK, FUNCTION(2), BLK, BIND(3), CALL(1), BLK, FUNCTION(1), LARGE,
           CALL(2)),
     FIGURES(11, 16, 1, 6, 39)},
    {"needs of a function with a Formal",
     NODES(BLK, {PI_KIND_BIND, 1}, {PI_KIND_ABS, 1}, {PI_KIND_FORMAL, 2}, SMALL,
           {PI_KIND_CALL, PI_OPERAND(1, 1)}, NUM),
     FIGURES(7, 8, 1, 4, 19)},
    {"needs of a Formal that hides the function",
     NODES(BLK, {PI_KIND_BIND, 1}, {PI_KIND_ABS, 1}, {PI_KIND_FORMAL, 1}, SMALL,
           {PI_KIND_CALL, PI_OPERAND(1, 1)}, NUM),
     FIGURES(7, 8, 1, 4, 19)},
    /* The last actual runs over seven others, and the first over their values. */
    {"needs of eight actuals",
     NODES(BLK, {PI_KIND_BIND, 1}, {PI_KIND_ABS, 8}, {PI_KIND_FORMAL, 2}, {PI_KIND_FORMAL, 3},
           {PI_KIND_FORMAL, 4}, {PI_KIND_FORMAL, 5}, {PI_KIND_FORMAL, 6}, {PI_KIND_FORMAL, 7},
           {PI_KIND_FORMAL, 8}, {PI_KIND_FORMAL, 9}, SMALL, {PI_KIND_CALL, PI_OPERAND(1, 8)}, NUM,
           NUM, NUM, NUM, NUM, NUM, NUM, NUM),
     FIGURES(10, 10, 1, 11, 26)},
    {"needs of a first actual that is larger",
     NODES(BLK, {PI_KIND_BIND, 1}, {PI_KIND_ABS, 3}, {PI_KIND_FORMAL, 2}, {PI_KIND_FORMAL, 3},
           {PI_KIND_FORMAL, 4}, SMALL, {PI_KIND_CALL, PI_OPERAND(1, 3)}, SUM, SUM, SUM, SUM, NUM, NUM,
           NUM, NUM, SUM, NUM, SUM, NUM, SUM, NUM, NUM, NUM, NUM),
     FIGURES(11, 9, 1, 6, 42)},
    {"needs of a last actual that is larger",
     NODES(BLK, {PI_KIND_BIND, 1}, {PI_KIND_ABS, 3}, {PI_KIND_FORMAL, 2}, {PI_KIND_FORMAL, 3},
           {PI_KIND_FORMAL, 4}, SMALL, {PI_KIND_CALL, PI_OPERAND(1, 3)}, NUM, NUM, SUM, SUM, SUM, SUM,
           NUM, NUM, NUM, NUM, SUM, NUM, SUM, NUM, SUM, NUM, NUM),
     FIGURES(13, 8, 1, 6, 42)},
};

/* By the paper's cases, in the order of paper.c; where a case has several budgets, its first. */
static const struct {
    const char *name;
    size_t paper;
    PiNeedsReply reply;
} of_the_paper[] = {
    {"needs of A", 0, FIGURES(4, 3, 0, 0, 7)},
    {"needs of D", 4, FIGURES(3, 2, 0, 0, 4)},
    {"needs of E", 5, FIGURES(3, 2, 0, 0, 4)},
    {"needs of F", 6, FIGURES(3, 2, 1, 1, 4)},
    {"needs of G", 7, OPEN(6, 3, 2, 2)},
    {"needs of H", 10, FIGURES(6, 5, 2, 2, 14)},
    {"needs of I", 11, FIGURES(8, 8, 2, 4, 21)},
    {"needs of J", 12, FIGURES(6, 5, 2, 2, 14)},
    {"needs of K", 13, NO_FIGURES(13, 4)},
    {"needs of L", 14, FIGURES(9, 5, 2, 2, 19)},
};

/* Towers on both sides of each limit; their runs are in refusals.c. */
static const struct {
    const char *name;
    Tower tower;
    PiNeedsReply reply;
} of_towers[] = {
    {"needs of 256 cells", {1, 15, 17, 1, 0, 0}, FIGURES(40, 67, 256, 257, 2052)},
    {"needs of 257 cells", {1, 16, 16, 1, 0, 0}, FIGURES(40, 67, 257, 258, 2060)},
    {"needs of 512 bindings", {1, 30, 17, 0, 0, 0}, FIGURES(54, 97, 1, 512, 3072)},
    {"needs of 513 bindings", {2, 15, 17, 0, 0, 0}, FIGURES(56, 101, 1, 513, 3081)},
    {"needs of 512 value entries", {15, 15, 1, 0, 0, 0}, FIGURES(259, 512, 1, 241, 1488)},
    {"needs of 513 value entries and more", {16, 14, 1, 0, 0, 0}, FIGURES(260, 514, 1, 241, 1491)},
    {"needs of 512 control entries", {10, 1, 1, 0, 48, 0}, FIGURES(512, 62, 1, 21, 2073)},
    {"needs of 513 control entries and more", {11, 1, 1, 0, 44, 0}, FIGURES(519, 68, 1, 23, 2104)},
};

/* The call of the tree must have these needs, and fit check and runs. */
static void expect(const Call *call, const PiNeedsReply *expected)
{
    PiNeedsReply needs = call_needs(call);

    call_all(call);
    same_needs("the needs and what is expected", &needs, expected);
}

static void expect_of_tree(const PiNeedsReply *expected)
{
    Call call = tree_call(&tree, starts, image);

    expect(&call, expected);
}

static void test_figures(void)
{
    size_t index;
    Call call;

    for (index = 0; index < COUNT(needed); index += 1) {
        test_begin(needed[index].name);
        tree_list(&tree, 1, needed[index].nodes, needed[index].count);
        expect_of_tree(&needed[index].reply);
        test_end();
    }
    for (index = 0; index < COUNT(of_the_paper); index += 1) {
        test_begin(of_the_paper[index].name);
        call = paper_call(of_the_paper[index].paper, image);
        expect(&call, &of_the_paper[index].reply);
        test_end();
    }
    for (index = 0; index < COUNT(of_towers); index += 1) {
        test_begin(of_towers[index].name);
        tree_of_tower(&tree, &of_towers[index].tower);
        expect_of_tree(&of_towers[index].reply);
        test_end();
    }
}

/* An image with no node needs its registers alone. */
static void test_no_routine_needs(void)
{
    uint32_t registers;

    test_begin("needs of no routine");
    for (registers = 0; registers <= PI_MOST_REGISTERS; registers += 1) {
        const PiNeedsReply expected = FIGURES(0, 0, registers, registers, 0);

        tree_clear(&tree, registers);
        expect_of_tree(&expected);
    }
    test_end();
}

/* Registers are cells and bindings, whatever else there is. */
static void test_registers(void)
{
    static const Node nodes[] = {LARGE};
    uint32_t registers;

    test_begin("needs with every count of registers");
    for (registers = 1; registers <= PI_MOST_REGISTERS; registers += 1) {
        const PiNeedsReply expected = FIGURES(9, 5, 2 + registers, 2 + registers, 19);

        tree_list(&tree, registers, nodes, COUNT(nodes));
        expect_of_tree(&expected);
    }
    test_end();
}

void test_needs(void)
{
    test_figures();
    test_no_routine_needs();
    test_registers();
}
