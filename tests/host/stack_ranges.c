/*
 * How much stack a call for ranges takes, against the header's figure. It goes down the tree and, at a
 * Call, into the function; and for every Cond that it is within and whose test may be both it keeps the
 * cells. So the deepest images have Conds in each other through a chain of functions. A Cond has three
 * nodes at least, so none has more than 666; here are 644, with as few other nodes as can be. Others have
 * sequences, blocks, and blocks with Conds in such a chain.
 */
#include "tests.h"

#include "buffers.h"
#include "cases.h"
#include "measure.h"
#include "report.h"
#include "trees.h"

/* Names: a truth that may be both, a function that does little, and one that no node uses. */
#define TRUTH 60
#define LITTLE 61
#define LOCAL 62
/* Two groups of functions, and the first names of each; so many functions go into each other. */
#define GROUPS 2
#define MOST_FUNCTIONS 19
#define FIRST_NAME(group) (1 + MOST_FUNCTIONS * (uint32_t)(group))
/* The depths of the root's command and of a group's first; each function within stands 3 deeper. */
#define ROOT_DEPTH 2
#define GROUP_DEPTH 7

static uint32_t image[IMAGE_ROOM];
static size_t image_length;
static uint64_t work[PI_WORK_WORDS];
static int64_t lowest[1], highest[1];
static PiRangesReply reply;

static void ranges_words(void)
{
    lowest[0] = 0;
    highest[0] = 10;
    reply = pi_ranges(image, image_length, lowest, 1, highest, 1, work, PI_WORK_WORDS);
}

/* What a level of a chain is made of, around the next one. */
typedef struct Level {
    const char *name;
    void (*before)(Tree *tree); /* the nodes before the next level */
    void (*behind)(Tree *tree); /* and behind it */
    size_t nodes;               /* so many of both */
    size_t depth;               /* how much deeper the next level stands */
    size_t below;               /* how much deeper the deepest node of this level stands */
    size_t most;                /* the most levels of a chain, for its room */
} Level;

static void call_little(Tree *tree)
{
    tree_add(tree, PI_KIND_CALL, PI_OPERAND(LITTLE, 0));
}

static void nothing(Tree *tree)
{
    (void)tree;
}

static void choice(Tree *tree)
{
    tree_add(tree, PI_KIND_COND, 0);
    tree_add(tree, PI_KIND_ID, TRUTH);
}

static void second_choice(Tree *tree)
{
    choice(tree);
    call_little(tree);
}

static void sequence(Tree *tree)
{
    tree_add(tree, PI_KIND_CSEQ, 0);
    call_little(tree);
}

static void block(Tree *tree)
{
    tree_add(tree, PI_KIND_BLK, 0);
    tree_add(tree, PI_KIND_BIND, LOCAL);
    tree_add(tree, PI_KIND_NUM, 0);
}

/* A block with a cell, and a Cond in it. */
static void block_and_choice(Tree *tree)
{
    tree_add(tree, PI_KIND_BLK, 0);
    tree_add(tree, PI_KIND_BIND, LOCAL);
    tree_add(tree, PI_KIND_REF, 0);
    tree_add(tree, PI_KIND_NUM, 0);
    choice(tree);
}

/* A Cond holds no room while its commands are carried; a block holds two of the 512 value entries. */
static const Level levels[] = {
    {"first commands", choice, call_little, 3, 1, 1, PI_MOST_NODES},
    {"second commands", second_choice, nothing, 3, 1, 1, PI_MOST_NODES},
    {"sequences", sequence, nothing, 2, 1, 1, PI_MOST_NODES},
    {"blocks", block, nothing, 3, 1, 2, 200},
    {"blocks with Conds", block_and_choice, call_little, 7, 2, 3, 190},
};

/* Adds levels within each other, so many, around a Call of the function of this name. */
static void add_levels(Tree *tree, const Level *level, size_t count, uint32_t called)
{
    size_t index;

    for (index = 0; index < count; index += 1)
        level->before(tree);
    tree_add(tree, PI_KIND_CALL, PI_OPERAND(called, 0));
    for (index = 0; index < count; index += 1)
        level->behind(tree);
}

/* As many levels as go below a command at this depth, and a Call below them. */
static size_t fitting(const Level *level, size_t depth)
{
    size_t for_the_call = (PI_MOST_DEPTH - depth) / level->depth;
    size_t for_the_last = (PI_MOST_DEPTH + level->depth - level->below - depth) / level->depth;

    return for_the_call < for_the_last ? for_the_call : for_the_last;
}

/* The nodes that are no levels: 16 around the groups, 2 in each, and 4 for each function. */
static size_t overhead(size_t functions)
{
    return 16 + GROUPS * (2 + 4 * functions);
}

/* A chain as it is planned: so many functions in each group, and how many levels each has. */
typedef struct Plan {
    size_t functions;
    size_t root;
    size_t counts[GROUPS][MOST_FUNCTIONS];
    size_t total;
} Plan;

static size_t least(size_t one, size_t other)
{
    return one < other ? one : other;
}

/* As many levels as go in where each group has so many functions, the outermost ones first. */
static Plan planned(const Level *level, size_t functions)
{
    size_t left = least((PI_MOST_NODES - overhead(functions)) / level->nodes, level->most);
    size_t group = GROUPS, index;
    Plan plan;

    plan.functions = functions;
    plan.total = left;
    plan.root = least(left, fitting(level, ROOT_DEPTH));
    left -= plan.root;
    /* The last group is called first. */
    while (group > 0) {
        group -= 1;
        for (index = 0; index < functions; index += 1) {
            plan.counts[group][index] = least(left, fitting(level, GROUP_DEPTH + 3 * index));
            left -= plan.counts[group][index];
        }
    }
    plan.total -= left;
    return plan;
}

/* The plan with the most levels. */
static Plan best(const Level *level)
{
    Plan found = planned(level, 1);
    size_t functions;

    for (functions = 2; functions <= MOST_FUNCTIONS; functions += 1) {
        Plan other = planned(level, functions);

        if (other.total > found.total)
            found = other;
    }
    return found;
}

/*
 * A group: functions each declared in the Blk of the one before it, which calls it from within its
 * levels. The last one calls the function of the name that is given.
 */
static void add_group(Tree *tree, const Level *level, const Plan *plan, size_t group, uint32_t called)
{
    uint32_t name = FIRST_NAME(group);
    size_t index;

    for (index = 0; index < plan->functions; index += 1) {
        tree_add(tree, PI_KIND_BIND, name + (uint32_t)index);
        tree_add(tree, PI_KIND_ABS, 0);
        tree_add(tree, PI_KIND_BLK, 0);
    }
    tree_add(tree, PI_KIND_BIND, LOCAL);
    tree_add(tree, PI_KIND_NUM, 0);
    while (index > 0) {
        add_levels(tree, level, plan->counts[group][index - 1],
                   index == plan->functions ? called : name + (uint32_t)index);
        index -= 1;
    }
}

/* A chain through both groups, with as many levels as go in; how many is the answer. */
static size_t tree_of_chain(Tree *tree, const Level *level)
{
    Plan plan = best(level);

    tree_clear(tree, 1);
    tree_add(tree, PI_KIND_BLK, 0);
    tree_add(tree, PI_KIND_DSEQ, 0);
    tree_add(tree, PI_KIND_DSEQ, 0);
    tree_add(tree, PI_KIND_BIND, TRUTH);
    tree_add(tree, PI_KIND_LT, 0);
    tree_add(tree, PI_KIND_ID, 0);
    tree_add(tree, PI_KIND_NUM, 5);
    tree_add(tree, PI_KIND_BIND, LITTLE);
    tree_add(tree, PI_KIND_ABS, 0);
    tree_add(tree, PI_KIND_BLK, 0);
    tree_add(tree, PI_KIND_BIND, LOCAL);
    tree_add(tree, PI_KIND_NUM, 0);
    tree_add(tree, PI_KIND_ASSIGN, 0);
    tree_add(tree, PI_KIND_NUM, 7);
    tree_add(tree, PI_KIND_DSEQ, 0);
    add_group(tree, level, &plan, 0, LITTLE);
    add_group(tree, level, &plan, 1, FIRST_NAME(0));
    add_levels(tree, level, plan.root, FIRST_NAME(1));
    return plan.total;
}

void test_stack_of_ranges(void)
{
    static Tree tree;
    const char *worst = "";
    size_t index, most = 0, deepest = 0;

    /* A memory checker has stacks of its own. */
    if (buffers_are_exact())
        return;
    test_begin("stack of ranges");
    for (index = 0; index < sizeof levels / sizeof levels[0]; index += 1) {
        size_t count = tree_of_chain(&tree, &levels[index]);
        size_t taken;

        image_length = tree_image(&tree, image);
        taken = stack_used_by(ranges_words);
        if (reply.refusal != PI_REFUSAL_NONE || lowest[0] != 7)
            test_fault("a chain of %s is refused with %lu at %lu", levels[index].name,
                       (unsigned long)reply.refusal, (unsigned long)reply.place);
        if (taken > most) {
            most = taken;
            deepest = count;
            worst = levels[index].name;
        }
    }
    stack_fits("ranges", most, PI_STACK_RANGES);
    test_end_with("ranges take %lu bytes, with %lu levels of %s", (unsigned long)most,
                  (unsigned long)deepest, worst);
}
