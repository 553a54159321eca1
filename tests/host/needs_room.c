/*
 * The figures of room, held to the runs: a tree by chance is put into a tower and filled up until one of
 * its figures is just at the limit or just beyond. Without Loop and Cond a run reaches each figure, so
 * the first ends and the second is refused for this very reason; a figure that is one too low or one too
 * high shows. With them, a run of the first is not refused for want of room.
 */
#include "tests.h"

#include "cases.h"
#include "figures.h"
#include "random.h"
#include "report.h"

#include <inttypes.h>
#include <stdio.h>

#define COUNT(list) (sizeof(list) / sizeof(list)[0])

/* The sizes, each with its limit, its refusal, and how much one more layer adds to it. */
typedef struct Size {
    const char *name;
    uint64_t limit;
    uint64_t refusal;
    uint64_t layer;
} Size;

enum { CONTROL, VALUES, CELLS, BINDINGS };

static const Size sizes[] = {
    {"needs of control at its limit", PI_MOST_CONTROL, PI_REFUSAL_CONTROL, 1},
    {"needs of values at their limit", PI_MOST_VALUES, PI_REFUSAL_VALUES, 2},
    {"needs of cells at their limit", PI_MOST_CELLS, PI_REFUSAL_CELLS, 1},
    {"needs of bindings at their limit", PI_MOST_BINDINGS, PI_REFUSAL_BINDINGS, 1},
};

static uint64_t figure_of(const PiNeedsReply *needs, size_t size)
{
    const uint64_t figures[] = {needs->control, needs->values, needs->cells, needs->bindings};

    return figures[size];
}

static size_t between(Random *random, size_t least, size_t most)
{
    return least + random_below(random, most - least + 1);
}

/* A tower that comes near the limit of this size. */
static Tower tower_by_chance(Random *random, size_t size)
{
    Tower tower = {1, 1, 1, 0, 0, 0};

    switch (size) {
    case CONTROL:
        tower.functions = between(random, 12, 14);
        tower.sequences = between(random, 26, 32);
        break;
    case VALUES:
        tower.functions = between(random, 12, 15);
        tower.blocks = between(random, 11, 15);
        break;
    case CELLS:
        tower.blocks = between(random, 8, 16);
        tower.names = between(random, 12, 17);
        tower.cells = 1;
        break;
    default:
        tower.blocks = between(random, 24, 30);
        tower.names = between(random, 15, 17);
        break;
    }
    return tower;
}

static int is_command(const Tree *tree)
{
    return tree->count != 0 && tree->nodes[0].kind >= PI_KIND_ASSIGN;
}

static int is_free_of(const Tree *tree, uint32_t kind)
{
    size_t node;

    for (node = 0; node < tree->count; node += 1) {
        if (tree->nodes[node].kind == kind)
            return 0;
    }
    return 1;
}

/* A command over one register, with Loops and Conds or without. */
static void command_by_chance(Tree *tree, Random *random, int plain)
{
    do
        tree_by_chance(tree, random);
    while (tree->registers != 1 || !is_command(tree) || tree->count > 300 ||
           (plain && !(is_free_of(tree, PI_KIND_LOOP) && is_free_of(tree, PI_KIND_COND))));
}

static void add_all(Tree *tree, const Tree *other)
{
    size_t node;

    for (node = 0; node < other->count; node += 1)
        tree_add(tree, other->nodes[node].kind, other->nodes[node].operand);
}

/* The command below so many layers, each of which adds to this size. */
static void add_below_layers(Tree *tree, const Tree *command, size_t size, size_t layers)
{
    size_t layer;

    for (layer = 0; layer < layers; layer += 1) {
        if (size == CONTROL) {
            tree_add(tree, PI_KIND_CSEQ, 0);
        } else {
            tree_add(tree, PI_KIND_BLK, 0);
            tree_add(tree, PI_KIND_BIND, 63);
            if (size == CELLS)
                tree_add(tree, PI_KIND_REF, 0);
            tree_add(tree, PI_KIND_NUM, 0);
        }
    }
    add_all(tree, command);
    for (layer = 0; size == CONTROL && layer < layers; layer += 1) {
        tree_add(tree, PI_KIND_ASSIGN, 0);
        tree_add(tree, PI_KIND_NUM, 7);
    }
}

/* The tower with layers and the command in place of its innermost command, the first Assign. */
static void put_into_tower(Tree *tree, const Tower *tower, const Tree *command, size_t size,
                           size_t layers)
{
    static Tree around;
    size_t node;

    tree_of_tower(&around, tower);
    tree_clear(tree, around.registers);
    for (node = 0; around.nodes[node].kind != PI_KIND_ASSIGN; node += 1)
        tree_add(tree, around.nodes[node].kind, around.nodes[node].operand);
    add_below_layers(tree, command, size, layers);
    for (node += 2; node < around.count; node += 1)
        tree_add(tree, around.nodes[node].kind, around.nodes[node].operand);
}

/* What came of the images of one size. */
typedef struct Tally {
    size_t ended;   /* at the limit, and the run has ended */
    size_t refused; /* beyond it, and the run was refused for it */
} Tally;

/* The needs of the tree, which must have this figure, and its runs. */
static void at_a_limit(const Tree *tree, size_t size, uint64_t expected, uint64_t budget, Tally *tally)
{
    static const int64_t starts[] = {3};
    static uint32_t image[IMAGE_ROOM];
    Call call = tree_call(tree, starts, image);
    PiNeedsReply needs = call_needs(&call);
    Ran ran;

    call.budget = budget;
    /* Deep trees may be refused, and are then of no use. */
    if (needs.refusal == PI_REFUSAL_DEPTH || needs.refusal == PI_REFUSAL_COUNTS)
        return;
    if (needs.refusal != PI_REFUSAL_NONE || figure_of(&needs, size) != expected)
        test_fault("figure %" PRIu64 " expected: " NEEDS_FORMAT, expected, NEEDS_ARGUMENTS(&needs));
    ran = call_all(&call);
    if (ran.reply.refusal == PI_REFUSAL_NONE && expected <= sizes[size].limit)
        tally->ended += 1;
    if (ran.reply.refusal == sizes[size].refusal && expected > sizes[size].limit)
        tally->refused += 1;
}

/* One tree by chance, filled up to the limit and beyond. */
static void fill_up(Random *random, size_t size, int plain, Tally *tally)
{
    static Tree command, tree;
    static uint32_t image[IMAGE_ROOM];
    Tower tower = tower_by_chance(random, size);
    uint64_t budget = plain ? PI_MOST_BUDGET : 20000;
    uint64_t figure, missing;
    PiNeedsReply needs;
    Call call;

    command_by_chance(&command, random, plain);
    put_into_tower(&tree, &tower, &command, size, 0);
    if (tree.count > PI_MOST_NODES)
        return;
    call = tree_call(&tree, NULL, image);
    needs = call_needs(&call);
    figure = figure_of(&needs, size);
    if (needs.refusal != PI_REFUSAL_NONE || figure > sizes[size].limit ||
        figure + 30 < sizes[size].limit)
        return;
    missing = (sizes[size].limit - figure) / sizes[size].layer;
    put_into_tower(&tree, &tower, &command, size, (size_t)missing);
    if (tree.count > PI_MOST_NODES)
        return;
    at_a_limit(&tree, size, figure + missing * sizes[size].layer, budget, tally);
    missing += 1;
    put_into_tower(&tree, &tower, &command, size, (size_t)missing);
    if (tree.count <= PI_MOST_NODES)
        at_a_limit(&tree, size, figure + missing * sizes[size].layer, budget, tally);
}

void test_needed_room(size_t count, uint64_t seed)
{
    size_t size, index;

    for (size = 0; size < COUNT(sizes); size += 1) {
        Tally tally = {0, 0};

        test_begin(sizes[size].name);
        for (index = 0; index < count && !test_has_fault(); index += 1) {
            Random random;

            random.state = seed + index;
            fill_up(&random, size, index % 4 != 0, &tally);
            if (test_has_fault())
                printf("  seed %" PRIu64 "\n", seed + index);
        }
        if (count >= 1000 && (tally.ended == 0 || tally.refused == 0))
            test_fault("no image told anything");
        test_end_with("%lu end at it, %lu are refused beyond it", (unsigned long)tally.ended,
                      (unsigned long)tally.refused);
    }
}
