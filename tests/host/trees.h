/* Trees as their nodes in preorder, and the images of them. */
#ifndef TREES_H
#define TREES_H

#include "random.h"

#include <stddef.h>
#include <stdint.h>

typedef struct Node {
    uint32_t kind;
    uint32_t operand;
} Node;

/* More than an image may have, so that one with too many can be made. */
#define TREE_ROOM 2200
#define IMAGE_ROOM (2 + 2 * TREE_ROOM)

typedef struct Tree {
    uint32_t registers;
    size_t count;
    Node nodes[TREE_ROOM];
} Tree;

void tree_clear(Tree *tree, uint32_t registers);
void tree_add(Tree *tree, uint32_t kind, uint32_t operand);

/* A tree of nodes that are listed by hand. */
void tree_list(Tree *tree, uint32_t registers, const Node *nodes, size_t count);

/* Writes the image of a tree; its length in words. */
size_t tree_image(const Tree *tree, uint32_t *image);

/* Not of Not of ... of true, so many levels. */
void tree_of_depth(Tree *tree, size_t depth);

/*
 * So many Conds, each a command of the one before it: the first, where all their tests are true, or the
 * second, where they are false. One register, which the innermost command sets to 7 and every other
 * one, not taken, to 8. Two levels are below the innermost Cond.
 */
void tree_of_choices(Tree *tree, size_t levels, int truth);

/* Assigns under CSeqs, of so many nodes, which is 3 x any number + 2; the registers are 1. */
void tree_of_nodes(Tree *tree, size_t nodes);

/*
 * A chain of functions, each of which calls the one before it from within so many nested Blks of so
 * many names each, and so many CSeqs; one register, which the innermost command sets to 7. Of a Blk's
 * names each but the first is made of the one before it.
 */
typedef struct Tower {
    size_t functions;
    size_t blocks;
    size_t names;
    int cells; /* the names are bound to new cells, or to numbers */
    size_t sequences;
    int choice; /* the innermost command is the second of a Cond whose test is false */
} Tower;

void tree_of_tower(Tree *tree, const Tower *tower);

/* A tree that passes: commands over the registers, cells and functions, an expression, or no node. */
void tree_by_chance(Tree *tree, Random *random);

#endif
