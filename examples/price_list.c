/*
 * A price list, made from the images of routines before any of them is loaded: what each needs at most,
 * and where the steps are not left open by a Loop, what it costs at most. The routines are samples; the
 * text of each is beside this file, under its name. From the repository's top:
 *
 *     cc -std=c99 -Iinclude examples/price_list.c target/staticlib/libengine.a -o price_list
 */
#include <inttypes.h>
#include <stdio.h>
#include "pi_engine.h"

// The nodes and the registers, the kinds in preorder, their operands.
static const uint32_t calculator[] = {
    5, 0,
    PI_KIND_MUL, PI_KIND_NUM, PI_KIND_SUM, PI_KIND_NUM, PI_KIND_NUM,
    0, 5, 0, 3, 2
};

static const uint32_t lane_choice[] = {
    12, 4,
    PI_KIND_COND, PI_KIND_GT, PI_KIND_ID, PI_KIND_ID,
    PI_KIND_ASSIGN, PI_KIND_SUM, PI_KIND_ID, PI_KIND_NUM,
    PI_KIND_ASSIGN, PI_KIND_SUM, PI_KIND_ID, PI_KIND_NUM,
    0, 0, 0, 1,
    2, 0, 2, 1,
    3, 0, 3, 1
};

static const uint32_t function[] = {
    21, 2,
    PI_KIND_BLK, PI_KIND_BIND, PI_KIND_ABS, PI_KIND_FORMAL, PI_KIND_FORMAL,
    PI_KIND_BLK, PI_KIND_BIND, PI_KIND_MUL, PI_KIND_ID, PI_KIND_NUM,
    PI_KIND_ASSIGN, PI_KIND_SUM, PI_KIND_ID, PI_KIND_ID,
    PI_KIND_CSEQ,
    PI_KIND_CALL, PI_KIND_ID, PI_KIND_DEREF,
    PI_KIND_CALL, PI_KIND_NUM, PI_KIND_DEREF,
    0, 10, 2, PI_OPERAND(20, PI_CODE_INTEGER), PI_OPERAND(21, PI_CODE_INTEGER_CELL),
    0, 22, 0, 20, 3,
    21, 0, 21, 22,
    0,
    PI_OPERAND(10, 2), 0, 1,
    PI_OPERAND(10, 2), 4, 1
};

static const uint32_t factorial[] = {
    14, 2,
    PI_KIND_LOOP, PI_KIND_NOT, PI_KIND_EQ, PI_KIND_ID, PI_KIND_NUM,
    PI_KIND_CSEQ,
    PI_KIND_ASSIGN, PI_KIND_MUL, PI_KIND_ID, PI_KIND_ID,
    PI_KIND_ASSIGN, PI_KIND_SUB, PI_KIND_ID, PI_KIND_NUM,
    0, 0, 0, 1, 0,
    0,
    0, 0, 0, 1,
    1, 0, 1, 1
};

static const uint32_t empty[] = {0, 2};

static const uint32_t refused[] = {
    7, 1,
    PI_KIND_CSEQ, PI_KIND_ASSIGN, PI_KIND_NUM, PI_KIND_ASSIGN, PI_KIND_LT, PI_KIND_ID, PI_KIND_NUM,
    0, 0, 1, 0, 0, 0, 5
};

// Lent to each call; 64 KB are better not on the stack.
static uint64_t work[PI_WORK_WORDS];

// Why there are no figures, from the header's list.
static void print_refusal(uint64_t refusal, uint64_t place)
{
#define ROW(enumerator, number, name, sentence) \
    case enumerator: \
        printf("refused %d at %" PRIu64 " (%s: %s)\n", number, place, name, sentence); \
        break;

    switch ((PiRefusal)refusal) {
    case PI_REFUSAL_NONE:
        break;
    PI_REFUSAL_LIST(ROW)
    }
}

// One line of the list.
static void print_needs(const char *name, const uint32_t *image, size_t image_length)
{
    PiNeedsReply needs = pi_needs(image, image_length, work, PI_WORK_WORDS);

    printf("%-12s", name);
    if (needs.refusal != PI_REFUSAL_NONE) {
        printf(" ");
        print_refusal(needs.refusal, needs.place);
        return;
    }
    printf("%8" PRIu64 "%8" PRIu64 "%8" PRIu64 "%10" PRIu64,
           needs.control, needs.values, needs.cells, needs.bindings);
    if (needs.open)
        printf("%9s\n", "open");
    else
        printf("%9" PRIu64 "\n", needs.steps);
}

int main(void)
{
#define ROUTINE(name) print_needs(#name, name, sizeof name / sizeof name[0])

    printf("%-12s%8s%8s%8s%10s%9s\n", "routine", "control", "values", "cells", "bindings", "steps");
    ROUTINE(calculator);
    ROUTINE(lane_choice);
    ROUTINE(function);
    ROUTINE(factorial);
    ROUTINE(empty);
    ROUTINE(refused);
    return 0;
}
