/*
 * The service screen: the high marks of runs, each beside what the routine needs at most, as
 * mark/figure, and the limits below. Every routine runs twice, the second time on the registers that
 * the first run has left: high marks that stay where they are show that nothing drifts. The routines
 * are samples; the text of each is beside this file, under its name. From the repository's top:
 *
 *     cc -std=c99 -Iinclude examples/service_screen.c target/staticlib/libengine.a -o service_screen
 */
#include <inttypes.h>
#include <stdio.h>
#include "pi_engine.h"

// The nodes and the registers, the kinds in preorder, their operands.
static const uint32_t function[] = {
    21, 2,
    PI_KIND_BLK, PI_KIND_BIND, PI_KIND_ABS, PI_KIND_FORMAL, PI_KIND_FORMAL,
    PI_KIND_BLK, PI_KIND_BIND, PI_KIND_MUL, PI_KIND_ID, PI_KIND_NUM,
    PI_KIND_ASSIGN, PI_KIND_SUM, PI_KIND_ID, PI_KIND_ID,
    PI_KIND_CSEQ,
    PI_KIND_CALL, PI_KIND_ID, PI_KIND_DEREF,
    PI_KIND_CALL, PI_KIND_NUM, PI_KIND_DEREF,
    0, 10, 2, PI_OPERAND(20, PI_CODE_INTEGER), PI_OPERAND(21, PI_CODE_INTEGER_CELL),
    0, 22, 0, 20, 3,
    21, 0, 21, 22,
    0,
    PI_OPERAND(10, 2), 0, 1,
    PI_OPERAND(10, 2), 4, 1
};

static const uint32_t factorial[] = {
    14, 2,
    PI_KIND_LOOP, PI_KIND_NOT, PI_KIND_EQ, PI_KIND_ID, PI_KIND_NUM,
    PI_KIND_CSEQ,
    PI_KIND_ASSIGN, PI_KIND_MUL, PI_KIND_ID, PI_KIND_ID,
    PI_KIND_ASSIGN, PI_KIND_SUB, PI_KIND_ID, PI_KIND_NUM,
    0, 0, 0, 1, 0,
    0,
    0, 0, 0, 1,
    1, 0, 1, 1
};

static const uint32_t endless[] = {
    6, 1,
    PI_KIND_LOOP, PI_KIND_BOO, PI_KIND_ASSIGN, PI_KIND_SUM, PI_KIND_ID, PI_KIND_NUM,
    0, 1, 0, 0, 0, 1
};

static const uint32_t empty[] = {0, 2};

static const uint32_t refused[] = {
    7, 1,
    PI_KIND_CSEQ, PI_KIND_ASSIGN, PI_KIND_NUM, PI_KIND_ASSIGN, PI_KIND_LT, PI_KIND_ID, PI_KIND_NUM,
    0, 0, 1, 0, 0, 0, 5
};

// The registers, which the runs change.
static int64_t function_registers[] = {7, 100};
static int64_t factorial_registers[] = {1, 20};
static int64_t endless_registers[] = {0};
static int64_t empty_registers[] = {7, -3};
static int64_t refused_registers[] = {0};

// Lent to each call; 64 KB are better not on the stack.
static uint64_t work[PI_WORK_WORDS];

static void print_mark(uint64_t mark, uint64_t figure)
{
    char text[44];

    snprintf(text, sizeof text, "%" PRIu64 "/%" PRIu64, mark, figure);
    printf("%10s", text);
}

// One line a run. Refused with 1 to 22 it has no marks, and the routine has no figures: all are 0.
static void print_runs(const char *name, const uint32_t *image, size_t image_length,
                       int64_t *registers, size_t registers_length)
{
    PiNeedsReply needs = pi_needs(image, image_length, work, PI_WORK_WORDS);

    for (int run = 1; run <= 2; run += 1) {
        PiRunReply ran = pi_run(image, image_length, registers, registers_length, PI_MOST_BUDGET,
                                work, PI_WORK_WORDS);

        printf("%-10s%4d%9" PRIu64, name, run, ran.steps);
        print_mark(ran.cells, needs.cells);
        print_mark(ran.bindings, needs.bindings);
        print_mark(ran.values, needs.values);
        print_mark(ran.control, needs.control);
        if (ran.refusal == PI_REFUSAL_NONE)
            printf("  ended\n");
        else
            printf("  refused %" PRIu64 " at %" PRIu64 "\n", ran.refusal, ran.place);
    }
}

int main(void)
{
#define LENGTH(list) (sizeof list / sizeof list[0])
#define ROUTINE(name) \
    print_runs(#name, name, LENGTH(name), name##_registers, LENGTH(name##_registers))

    printf("%-10s%4s%9s%10s%10s%10s%10s  %s\n",
           "routine", "run", "steps", "cells", "bindings", "values", "control", "answer");
    ROUTINE(function);
    ROUTINE(factorial);
    ROUTINE(endless);
    ROUTINE(empty);
    ROUTINE(refused);
    printf("%-10s%4s%9d%10d%10d%10d%10d\n", "limit", "",
           PI_MOST_BUDGET, PI_MOST_CELLS, PI_MOST_BINDINGS, PI_MOST_VALUES, PI_MOST_CONTROL);
    return 0;
}
