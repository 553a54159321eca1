#include "trees.h"

#include "pi_engine.h"

#include <stdio.h>
#include <stdlib.h>

void tree_clear(Tree *tree, uint32_t registers)
{
    tree->registers = registers;
    tree->count = 0;
}

void tree_add(Tree *tree, uint32_t kind, uint32_t operand)
{
    if (tree->count == TREE_ROOM) {
        fprintf(stderr, "host: a tree of more than %d nodes\n", TREE_ROOM);
        exit(2);
    }
    tree->nodes[tree->count].kind = kind;
    tree->nodes[tree->count].operand = operand;
    tree->count += 1;
}

void tree_list(Tree *tree, uint32_t registers, const Node *nodes, size_t count)
{
    size_t index;

    tree_clear(tree, registers);
    for (index = 0; index < count; index += 1)
        tree_add(tree, nodes[index].kind, nodes[index].operand);
}

size_t tree_image(const Tree *tree, uint32_t *image)
{
    size_t index;

    image[0] = (uint32_t)tree->count;
    image[1] = tree->registers;
    for (index = 0; index < tree->count; index += 1) {
        image[2 + index] = tree->nodes[index].kind;
        image[2 + tree->count + index] = tree->nodes[index].operand;
    }
    return PI_IMAGE_WORDS(tree->count);
}

void tree_of_depth(Tree *tree, size_t depth)
{
    tree_clear(tree, 0);
    while (depth > 1) {
        tree_add(tree, PI_KIND_NOT, 0);
        depth -= 1;
    }
    tree_add(tree, PI_KIND_BOO, 1);
}

/* An Assign of a number to register 0. */
static void add_assign(Tree *tree, size_t number)
{
    tree_add(tree, PI_KIND_ASSIGN, 0);
    tree_add(tree, PI_KIND_NUM, (uint32_t)number);
}

void tree_of_choices(Tree *tree, size_t levels, int truth)
{
    size_t level;

    tree_clear(tree, 1);
    for (level = 0; level < levels; level += 1) {
        tree_add(tree, PI_KIND_COND, 0);
        tree_add(tree, PI_KIND_BOO, truth ? 1 : 0);
        if (!truth)
            add_assign(tree, 8);
    }
    add_assign(tree, 7);
    for (level = 0; truth && level < levels; level += 1)
        add_assign(tree, 8);
}

/* Assigns under CSeqs that share them out evenly, so the tree stays shallow. */
static void add_assigns(Tree *tree, size_t count)
{
    if (count == 1) {
        add_assign(tree, tree->count + 1);
        return;
    }
    tree_add(tree, PI_KIND_CSEQ, 0);
    add_assigns(tree, count / 2);
    add_assigns(tree, count - count / 2);
}

void tree_of_nodes(Tree *tree, size_t nodes)
{
    tree_clear(tree, 1);
    add_assigns(tree, (nodes + 1) / 3);
}

/* A declaration of so many names from 20 on, each but the first made of the one before it. */
static void add_names(Tree *tree, size_t names, int cells)
{
    uint32_t name;

    for (name = 20; name < 20 + names; name += 1) {
        if (name + 1 < 20 + names)
            tree_add(tree, PI_KIND_DSEQ, 0);
        tree_add(tree, PI_KIND_BIND, name);
        if (cells)
            tree_add(tree, PI_KIND_REF, 0);
        if (name == 20)
            tree_add(tree, PI_KIND_NUM, 0);
        else
            tree_add(tree, PI_KIND_ID, name - 1);
    }
}

/* The innermost command, in a Cond if the tower has one. */
static void add_innermost(Tree *tree, const Tower *tower)
{
    if (tower->choice) {
        tree_add(tree, PI_KIND_COND, 0);
        tree_add(tree, PI_KIND_BOO, 0);
        add_assign(tree, 8);
    }
    add_assign(tree, 7);
}

static void add_tower_body(Tree *tree, const Tower *tower, size_t function)
{
    size_t index;

    for (index = 0; index < tower->blocks; index += 1) {
        tree_add(tree, PI_KIND_BLK, 0);
        add_names(tree, tower->names, tower->cells);
    }
    for (index = 0; index < tower->sequences; index += 1)
        tree_add(tree, PI_KIND_CSEQ, 0);
    if (function == 0)
        add_innermost(tree, tower);
    else
        tree_add(tree, PI_KIND_CALL, PI_OPERAND(function, 0));
    for (index = 0; index < tower->sequences; index += 1)
        add_assign(tree, 7);
}

void tree_of_tower(Tree *tree, const Tower *tower)
{
    size_t function;

    tree_clear(tree, 1);
    /* The functions have the names from 1 on. */
    for (function = 0; function < tower->functions; function += 1) {
        tree_add(tree, PI_KIND_BLK, 0);
        tree_add(tree, PI_KIND_BIND, 1 + (uint32_t)function);
        tree_add(tree, PI_KIND_ABS, 0);
        add_tower_body(tree, tower, function);
    }
    tree_add(tree, PI_KIND_CALL, PI_OPERAND(tower->functions, 0));
}

/* What a tree by chance is made with: the names of integer cells in scope, and the levels left. */
typedef struct Growth {
    Tree *tree;
    Random *random;
    uint32_t names[PI_NAMES];
    size_t count;
} Growth;

static uint32_t any_name(Growth *growth)
{
    return random_pick(growth->random, growth->names, growth->count);
}

static void grow_integer(Growth *growth, size_t levels)
{
    Tree *tree = growth->tree;
    size_t choice = random_below(growth->random, levels == 0 ? 4 : 10);

    if (choice < 4 && (choice % 2 == 0 || growth->count == 0)) {
        tree_add(tree, PI_KIND_NUM, (uint32_t)random_below(growth->random, 10));
    } else if (choice < 4) {
        tree_add(tree, PI_KIND_ID, any_name(growth));
    } else {
        tree_add(tree, PI_KIND_SUM + (uint32_t)random_below(growth->random, 4), 0);
        grow_integer(growth, levels - 1);
        grow_integer(growth, levels - 1);
    }
}

static void grow_truth(Growth *growth, size_t levels)
{
    Tree *tree = growth->tree;
    size_t choice = levels == 0 ? 0 : random_below(growth->random, 8);

    if (choice == 0) {
        tree_add(tree, PI_KIND_BOO, (uint32_t)random_below(growth->random, 2));
    } else if (choice == 1) {
        tree_add(tree, PI_KIND_NOT, 0);
        grow_truth(growth, levels - 1);
    } else if (choice == 2) {
        tree_add(tree, PI_KIND_AND + (uint32_t)random_below(growth->random, 2), 0);
        grow_truth(growth, levels - 1);
        grow_truth(growth, levels - 1);
    } else {
        tree_add(tree, PI_KIND_EQ + (uint32_t)random_below(growth->random, 5), 0);
        grow_integer(growth, levels - 1);
        grow_integer(growth, levels - 1);
    }
}

static void grow_command(Growth *growth, size_t levels);

/* A Bind of a name to a new cell; the name can be used from here on. */
static void grow_cell(Growth *growth, uint32_t name, size_t levels)
{
    tree_add(growth->tree, PI_KIND_BIND, name);
    tree_add(growth->tree, PI_KIND_REF, 0);
    grow_integer(growth, levels - 1);
    growth->names[growth->count] = name;
    growth->count += 1;
}

/* A Blk that binds a name to a new cell. Names from 16 on by the level, which is below 8. */
static void grow_block(Growth *growth, size_t levels)
{
    tree_add(growth->tree, PI_KIND_BLK, 0);
    grow_cell(growth, 16 + (uint32_t)levels, levels);
    grow_command(growth, levels - 1);
    growth->count -= 1;
}

/* The sum of a name and some number. */
static void grow_from(Growth *growth, uint32_t name, size_t levels)
{
    tree_add(growth->tree, PI_KIND_SUM, 0);
    tree_add(growth->tree, PI_KIND_ID, name);
    grow_integer(growth, levels - 1);
}

/* A Blk and a DSeq whose first declaration binds a name to a new cell; the second is to follow. */
static uint32_t grow_first_declaration(Growth *growth, size_t levels)
{
    uint32_t name = 24 + (uint32_t)levels;

    tree_add(growth->tree, PI_KIND_BLK, 0);
    tree_add(growth->tree, PI_KIND_DSEQ, 0);
    grow_cell(growth, name, levels);
    return name;
}

/* A Bind of a name to a new cell, which is counted from another, and a command. */
static void grow_counted(Growth *growth, uint32_t name, uint32_t from, size_t levels)
{
    tree_add(growth->tree, PI_KIND_BIND, name);
    tree_add(growth->tree, PI_KIND_REF, 0);
    grow_from(growth, from, levels);
    growth->names[growth->count] = name;
    growth->count += 1;
    grow_command(growth, levels - 1);
    growth->count -= 1;
}

/* A Blk that binds a name to a new cell and then another to a cell that is counted from it. */
static void grow_sequence(Growth *growth, size_t levels)
{
    uint32_t first = grow_first_declaration(growth, levels);

    grow_counted(growth, 32 + (uint32_t)levels, first, levels);
    growth->count -= 1;
}

/* A Blk that binds a name to a new cell and then a function that uses it, which is called. */
static void grow_sequence_of_function(Growth *growth, size_t levels)
{
    uint32_t cell = grow_first_declaration(growth, levels);
    uint32_t function = 40 + (uint32_t)levels;

    tree_add(growth->tree, PI_KIND_BIND, function);
    tree_add(growth->tree, PI_KIND_ABS, 0);
    tree_add(growth->tree, PI_KIND_BLK, 0);
    grow_counted(growth, 62, cell, levels);
    growth->count -= 1;
    tree_add(growth->tree, PI_KIND_CALL, PI_OPERAND(function, 0));
}

/* A Cond of two commands. */
static void grow_choice(Growth *growth, size_t levels)
{
    tree_add(growth->tree, PI_KIND_COND, 0);
    grow_truth(growth, levels - 1);
    grow_command(growth, levels - 1);
    grow_command(growth, levels - 1);
}

/* A function of a number and a location, called with an expression and a register or cell. */
static void grow_call(Growth *growth, size_t levels)
{
    uint32_t function = 48 + (uint32_t)levels;
    Tree *tree = growth->tree;

    tree_add(tree, PI_KIND_BLK, 0);
    tree_add(tree, PI_KIND_BIND, function);
    tree_add(tree, PI_KIND_ABS, 2);
    tree_add(tree, PI_KIND_FORMAL, PI_OPERAND(60, PI_CODE_INTEGER));
    tree_add(tree, PI_KIND_FORMAL, PI_OPERAND(61, PI_CODE_INTEGER_CELL));
    tree_add(tree, PI_KIND_BLK, 0);
    tree_add(tree, PI_KIND_BIND, 62);
    tree_add(tree, PI_KIND_REF, 0);
    tree_add(tree, PI_KIND_ID, 60);
    growth->names[growth->count] = 61;
    growth->names[growth->count + 1] = 62;
    growth->count += 2;
    grow_command(growth, levels - 1);
    growth->count -= 2;
    tree_add(tree, PI_KIND_CALL, PI_OPERAND(function, 2));
    grow_integer(growth, levels - 1);
    tree_add(tree, PI_KIND_DEREF, any_name(growth));
}

static void grow_command(Growth *growth, size_t levels)
{
    Tree *tree = growth->tree;
    size_t choice = levels == 0 ? 0 : random_below(growth->random, 11);

    if (choice <= 2) {
        tree_add(tree, PI_KIND_ASSIGN, any_name(growth));
        grow_integer(growth, levels);
    } else if (choice == 3) {
        tree_add(tree, PI_KIND_LOOP, 0);
        grow_truth(growth, levels - 1);
        grow_command(growth, levels - 1);
    } else if (choice <= 5) {
        tree_add(tree, PI_KIND_CSEQ, 0);
        grow_command(growth, levels - 1);
        grow_command(growth, levels - 1);
    } else if (choice == 6) {
        grow_block(growth, levels);
    } else if (choice == 7) {
        grow_sequence(growth, levels);
    } else if (choice == 8) {
        grow_sequence_of_function(growth, levels);
    } else if (choice == 9) {
        grow_choice(growth, levels);
    } else {
        grow_call(growth, levels);
    }
}

void tree_by_chance(Tree *tree, Random *random)
{
    Growth growth;
    uint32_t name;
    size_t levels = random_below(random, 7);

    tree_clear(tree, (uint32_t)random_below(random, PI_MOST_REGISTERS + 1));
    growth.tree = tree;
    growth.random = random;
    growth.count = 0;
    for (name = 0; name < tree->registers; name += 1) {
        growth.names[growth.count] = name;
        growth.count += 1;
    }
    if (random_below(random, 32) == 0)
        return;
    if (tree->registers == 0 || random_below(random, 4) == 0) {
        if (random_below(random, 2) == 0)
            grow_integer(&growth, levels);
        else
            grow_truth(&growth, levels);
    } else {
        grow_command(&growth, levels);
    }
}
