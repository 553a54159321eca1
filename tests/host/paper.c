/* The paper's cases A to L, at their budgets, with all their figures. */
#include "tests.h"

#include "cases.h"
#include "report.h"

#define COUNT(list) (sizeof(list) / sizeof(list)[0])

static const Node calculator[] = {
    {PI_KIND_MUL, 0}, {PI_KIND_NUM, 5}, {PI_KIND_SUM, 0}, {PI_KIND_NUM, 3}, {PI_KIND_NUM, 2},
};

static const Node subtraction[] = {
    {PI_KIND_SUB, 0}, {PI_KIND_NUM, 3}, {PI_KIND_NUM, 5},
};

static const Node zero_divisor[] = {
    {PI_KIND_DIV, 0}, {PI_KIND_NUM, 1}, {PI_KIND_NUM, 0},
};

static const Node division[] = {
    {PI_KIND_DIV, 0}, {PI_KIND_ID, 0}, {PI_KIND_NUM, 2},
};

static const Node factorial[] = {
    {PI_KIND_LOOP, 0},
    {PI_KIND_NOT, 0}, {PI_KIND_EQ, 0}, {PI_KIND_ID, 1}, {PI_KIND_NUM, 0},
    {PI_KIND_CSEQ, 0},
    {PI_KIND_ASSIGN, 0}, {PI_KIND_MUL, 0}, {PI_KIND_ID, 0}, {PI_KIND_ID, 1},
    {PI_KIND_ASSIGN, 1}, {PI_KIND_SUB, 0}, {PI_KIND_ID, 1}, {PI_KIND_NUM, 1},
};

static const Node cell[] = {
    {PI_KIND_BLK, 0},
    {PI_KIND_BIND, 1}, {PI_KIND_REF, 0}, {PI_KIND_ID, 0},
    {PI_KIND_ASSIGN, 0}, {PI_KIND_SUM, 0}, {PI_KIND_ID, 1}, {PI_KIND_ID, 1},
};

static const Node function[] = {
    {PI_KIND_BLK, 0},
    {PI_KIND_BIND, 1}, {PI_KIND_ABS, 1}, {PI_KIND_FORMAL, PI_OPERAND(2, PI_CODE_INTEGER)},
    {PI_KIND_BLK, 0},
    {PI_KIND_BIND, 3}, {PI_KIND_REF, 0}, {PI_KIND_ID, 2},
    {PI_KIND_ASSIGN, 0}, {PI_KIND_ID, 3},
    {PI_KIND_CALL, PI_OPERAND(1, 1)}, {PI_KIND_NUM, 7},
};

static const Node location[] = {
    {PI_KIND_BLK, 0},
    {PI_KIND_BIND, 1}, {PI_KIND_REF, 0}, {PI_KIND_DEREF, 0},
    {PI_KIND_ASSIGN, 0}, {PI_KIND_SUM, 0}, {PI_KIND_VALREF, 1}, {PI_KIND_NUM, 1},
};

static const Node not_assignable[] = {
    {PI_KIND_BLK, 0},
    {PI_KIND_BIND, 1}, {PI_KIND_REF, 0}, {PI_KIND_DEREF, 0},
    {PI_KIND_ASSIGN, 1}, {PI_KIND_DEREF, 0},
};

static const Node later[] = {
    {PI_KIND_BLK, 0},
    {PI_KIND_DSEQ, 0},
    {PI_KIND_BIND, 1}, {PI_KIND_REF, 0}, {PI_KIND_NUM, 1},
    {PI_KIND_BIND, 2}, {PI_KIND_REF, 0}, {PI_KIND_ID, 1},
    {PI_KIND_ASSIGN, 1}, {PI_KIND_NUM, 0},
};

static const Case cases[] = {
    {"A 5 x (3 + 2)", TREE(calculator), 0, {0}, MOST, 0, NUMBER(25, 7, MARKS(0, 0, 3, 4)), {0}},
    {"B budget 6", TREE(calculator), 0, {0}, 6, 0, REFUSED(30, 0, 6, MARKS(0, 0, 3, 4)), {0}},
    {"B budget 7", TREE(calculator), 0, {0}, 7, 0, NUMBER(25, 7, MARKS(0, 0, 3, 4)), {0}},
    {"C budget 0", TREE(calculator), 0, {0}, 0, 0, REFUSED(30, 0, 0, MARKS(0, 0, 0, 1)), {0}},
    {"D 3 - 5", TREE(subtraction), 0, {0}, MOST, 0, NUMBER(-2, 4, MARKS(0, 0, 2, 3)), {0}},
    {"E 1 by 0", TREE(zero_divisor), 0, {0}, MOST, 0, REFUSED(31, 0, 3, MARKS(0, 0, 2, 3)), {0}},
    {"F -7 by 2", TREE(division), 1, {-7}, MOST, 0, NUMBER(-4, 4, MARKS(1, 1, 2, 3)), {-7}},
    {"G factorial of 3", TREE(factorial), 2, {1, 3}, MOST, COMMAND, NONE(71, MARKS(2, 2, 3, 6)),
     {6, 0}},
    {"G factorial of 20", TREE(factorial), 2, {1, 20}, MOST, COMMAND, NONE(428, MARKS(2, 2, 3, 6)),
     {INT64_C(2432902008176640000), 0}},
    {"G factorial of 21", TREE(factorial), 2, {1, 21}, MOST, COMMAND,
     REFUSED(32, 0, 391, MARKS(2, 2, 3, 6)), {INT64_C(8515157028618240000), 3}},
    {"H a cell", TREE(cell), 1, {5}, MOST, COMMAND, NONE(14, MARKS(2, 2, 5, 6)), {10}},
    {"I a function", TREE(function), 1, {0}, MOST, COMMAND, NONE(21, MARKS(2, 4, 8, 8)), {7}},
    {"J a cell that holds a location", TREE(location), 1, {9}, MOST, COMMAND,
     NONE(14, MARKS(2, 2, 5, 6)), {10}},
    {"K a cell that holds a location is not set", TREE(not_assignable), 1, {9}, MOST, 0,
     REFUSED_BEFORE(13, 4), {9}},
    {"L a later declaration sees an earlier one", TREE(later), 0, {0}, MOST, COMMAND,
     NONE(19, MARKS(2, 2, 5, 9)), {0}},
    {"L budget 18", TREE(later), 0, {0}, 18, COMMAND, REFUSED(30, 0, 18, MARKS(2, 2, 5, 9)), {0}},
};

size_t paper_calls(void)
{
    return COUNT(cases);
}

Call paper_call(size_t index, uint32_t *image)
{
    return case_call(&cases[index], image);
}

/* The words that the paper writes out are those of case A. */
static void written_out(void)
{
    static const uint32_t words[] = {5, 0, 6, 1, 4, 1, 1, 0, 5, 0, 3, 2};
    static uint32_t image[IMAGE_ROOM];
    Call call = case_call(&cases[0], image);
    size_t index;

    test_begin("the words of A");
    if (call.image_length != COUNT(words))
        test_fault("%lu words", (unsigned long)call.image_length);
    for (index = 0; index < COUNT(words); index += 1) {
        if (image[index] != words[index])
            test_fault("word %lu is %lu", (unsigned long)index, (unsigned long)image[index]);
    }
    test_end();
}

void test_paper(void)
{
    written_out();
    test_cases(cases, COUNT(cases));
}
