/* Calls of trees with all that their replies must have; and lists of such calls. */
#ifndef CASES_H
#define CASES_H

#include "calls.h"
#include "trees.h"

/* Writes the image of a tree; its call, with as many registers as it has and the greatest budget. */
Call tree_call(const Tree *tree, const int64_t *starts, uint32_t *image);

/* Checks and runs, as call_all does; the run must have this reply and leave these registers. */
void expect_run(const Call *call, const PiRunReply *reply, const int64_t *left);

typedef struct Case {
    const char *name;
    const Node *nodes;
    size_t count;
    uint32_t registers;
    int64_t starts[2];
    uint64_t budget;
    uint64_t code; /* the check's value, where it passes */
    PiRunReply reply;
    int64_t left[2];
} Case;

/* The nodes of a case with their count: a list that has a name, or one that is written out. */
#define TREE(nodes) nodes, sizeof(nodes) / sizeof(nodes)[0]
#define NODES(...) TREE(((const Node[]){__VA_ARGS__}))

/* The budget and the code of most cases. */
#define MOST PI_MOST_BUDGET
#define COMMAND PI_CODE_COMMAND

/* The high marks of a run; and the replies of most cases, with none of them for refusals 1 to 22. */
#define MARKS(cells, bindings, values, control) cells, bindings, values, control
#define NUMBER(value, steps, marks) {0, PI_OUTCOME_NUMBER, value, 0, steps, marks}
#define NONE(steps, marks) {0, PI_OUTCOME_NONE, 0, 0, steps, marks}
#define REFUSED(number, place, steps, marks) {number, PI_OUTCOME_NONE, 0, place, steps, marks}
#define REFUSED_BEFORE(number, place) REFUSED(number, place, 0, MARKS(0, 0, 0, 0))

/* Writes the image of a case; its call. */
Call case_call(const Case *the_case, uint32_t *image);

/* One test a case: check and run are called, and have its replies and leave its registers. */
void test_cases(const Case *cases, size_t count);

#endif
