/* How much stack a call takes with the deepest images, against the header's figures. */
#include "tests.h"

#include "buffers.h"
#include "lines.h"
#include "measure.h"
#include "report.h"
#include "trees.h"

static uint32_t image[IMAGE_ROOM];
static size_t image_length;
static uint64_t work[PI_WORK_WORDS];

static int64_t registers[PI_MOST_REGISTERS];

static void check_words(void)
{
    pi_check(image, image_length, work, PI_WORK_WORDS);
}

static void needs_words(void)
{
    pi_needs(image, image_length, work, PI_WORK_WORDS);
}

static void page_words(void)
{
    static uint8_t page[PAGE_ROOM];

    pi_page(image, image_length, page, sizeof page, work, PI_WORK_WORDS);
}

static void run_words(void)
{
    pi_run(image, image_length, registers, image[1], PI_MOST_BUDGET, work, PI_WORK_WORDS);
}

static uint8_t bytes[4 * IMAGE_ROOM];

static void fill_bytes(void)
{
    size_t index;

    for (index = 0; index < 4 * image_length; index += 1)
        bytes[index] = (uint8_t)(image[index / 4] >> (index % 4 * 8));
}

static void check_bytes(void)
{
    fill_bytes();
    pi_check_bytes(bytes, 4 * image_length, work, PI_WORK_WORDS);
}

static void run_bytes(void)
{
    static uint8_t values[8 * PI_MOST_REGISTERS];

    fill_bytes();
    pi_run_bytes(bytes, 4 * image_length, values, 8 * (size_t)image[1], PI_MOST_BUDGET, work,
                 PI_WORK_WORDS);
}

static size_t most(size_t one, size_t other)
{
    return one < other ? other : one;
}

/* Adds these nodes so many times. */
static void add(Tree *tree, size_t times, const Node *nodes, size_t count)
{
    size_t index;

    for (; times > 0; times -= 1) {
        for (index = 0; index < count; index += 1)
            tree_add(tree, nodes[index].kind, nodes[index].operand);
    }
}

#define ADD(times, ...) \
    do { \
        static const Node nodes[] = {__VA_ARGS__}; \
        add(tree, times, nodes, sizeof nodes / sizeof nodes[0]); \
    } while (0)
#define SET {PI_KIND_ASSIGN, 0}, {PI_KIND_NUM, 7}
#define NUMBER {PI_KIND_BIND, 1}, {PI_KIND_NUM, 0}

/* Blks below Blks to depth 62, the deepest levels of the checker: in the command or the declaration. */
static void deep_commands(Tree *tree)
{
    tree_clear(tree, 1);
    ADD(PI_MOST_DEPTH - 2, {PI_KIND_BLK, 0}, NUMBER);
    ADD(1, SET);
}

/* Blk, Bind, Abs, and again Blk: three levels a turn. */
static void deep_functions(Tree *tree)
{
    tree_clear(tree, 1);
    ADD(20, {PI_KIND_BLK, 0}, {PI_KIND_BIND, 1}, {PI_KIND_ABS, 0});
    ADD(1, {PI_KIND_BLK, 0}, NUMBER);
    ADD(21, SET);
}

/* Loops below Loops to depth 62, and CSeqs below CSeqs in the first command, and two levels below. */
static void deep_loops(Tree *tree)
{
    tree_clear(tree, 1);
    ADD(PI_MOST_DEPTH - 2, {PI_KIND_LOOP, 0}, {PI_KIND_BOO, 0});
    ADD(1, SET);
}

static void deep_sequences(Tree *tree)
{
    tree_clear(tree, 1);
    ADD(PI_MOST_DEPTH - 2, {PI_KIND_CSEQ, 0});
    ADD(PI_MOST_DEPTH - 1, SET);
}

/* Blks below Blks to depth 62, below them a Call, and its 8 actuals at depth 64. */
static void deep_calls(Tree *tree)
{
    uint32_t formal;

    tree_clear(tree, 1);
    ADD(1, {PI_KIND_BLK, 0}, {PI_KIND_BIND, 2}, {PI_KIND_ABS, PI_MOST_COUNT});
    for (formal = 0; formal < PI_MOST_COUNT; formal += 1)
        tree_add(tree, PI_KIND_FORMAL, PI_OPERAND(3 + formal, PI_CODE_INTEGER));
    ADD(1, {PI_KIND_BLK, 0}, NUMBER, SET);
    ADD(PI_MOST_DEPTH - 3, {PI_KIND_BLK, 0}, NUMBER);
    ADD(1, {PI_KIND_CALL, PI_OPERAND(2, PI_MOST_COUNT)});
    ADD(PI_MOST_COUNT, {PI_KIND_NUM, 7});
}

/* Conds below Conds to depth 62, in the second command or in the first, and two levels below them. */
static void deep_second_choices(Tree *tree)
{
    tree_of_choices(tree, PI_MOST_DEPTH - 2, 0);
}

static void deep_first_choices(Tree *tree)
{
    tree_of_choices(tree, PI_MOST_DEPTH - 2, 1);
}

/* DSeqs below DSeqs to depth 63, in the second declaration or in the first; each name is made of the
   one before it. */
static void deep_second_declarations(Tree *tree)
{
    uint32_t level;

    tree_clear(tree, 1);
    tree_add(tree, PI_KIND_BLK, 0);
    for (level = 1; level <= 60; level += 1) {
        tree_add(tree, PI_KIND_DSEQ, 0);
        tree_add(tree, PI_KIND_BIND, level);
        tree_add(tree, PI_KIND_ID, level - 1);
    }
    tree_add(tree, PI_KIND_BIND, 61);
    tree_add(tree, PI_KIND_ID, 60);
    ADD(1, SET);
}

static void deep_first_declarations(Tree *tree)
{
    uint32_t level;

    tree_clear(tree, 1);
    tree_add(tree, PI_KIND_BLK, 0);
    for (level = 1; level <= 60; level += 1)
        tree_add(tree, PI_KIND_DSEQ, 0);
    for (level = 1; level <= 61; level += 1) {
        tree_add(tree, PI_KIND_BIND, level);
        tree_add(tree, PI_KIND_ID, level - 1);
    }
    ADD(1, SET);
}

static void deep_expressions(Tree *tree)
{
    tree_of_depth(tree, PI_MOST_DEPTH);
}

void test_stack(void)
{
    static void (*const shapes[])(Tree *) = {
        deep_commands, deep_functions, deep_loops, deep_sequences, deep_calls,
        deep_second_choices, deep_first_choices, deep_second_declarations, deep_first_declarations,
        deep_expressions,
    };
    static Tree tree;
    size_t taken[6] = {0, 0, 0, 0, 0, 0};
    size_t index;

    /* A memory checker has stacks of its own. */
    if (buffers_are_exact())
        return;
    test_begin("stack");
    for (index = 0; index < sizeof shapes / sizeof shapes[0]; index += 1) {
        shapes[index](&tree);
        image_length = tree_image(&tree, image);
        if (pi_check(image, image_length, work, PI_WORK_WORDS).refusal != PI_REFUSAL_NONE)
            test_fault("shape %lu does not pass", (unsigned long)index);
        taken[0] = most(taken[0], stack_used_by(check_words));
        taken[1] = most(taken[1], stack_used_by(run_words));
        taken[2] = most(taken[2], stack_used_by(check_bytes));
        taken[3] = most(taken[3], stack_used_by(run_bytes));
        taken[4] = most(taken[4], stack_used_by(needs_words));
        taken[5] = most(taken[5], stack_used_by(page_words));
    }
    stack_fits("check", taken[0], PI_STACK_WORD_FORMS);
    stack_fits("run", taken[1], PI_STACK_WORD_FORMS);
    stack_fits("check of bytes", taken[2], PI_STACK_BYTE_FORMS);
    stack_fits("run of bytes", taken[3], PI_STACK_BYTE_FORMS);
    stack_fits("needs", taken[4], PI_STACK_WORD_FORMS);
    stack_fits("page", taken[5], PI_STACK_WORD_FORMS);
    test_end_with("check takes %lu bytes, run %lu, on bytes %lu and %lu, needs %lu, page %lu",
                  (unsigned long)taken[0], (unsigned long)taken[1], (unsigned long)taken[2],
                  (unsigned long)taken[3], (unsigned long)taken[4], (unsigned long)taken[5]);
}
