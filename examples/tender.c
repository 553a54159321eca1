/*
 * A tender: between which ends a routine leaves each register, where the registers are known only within
 * limits. The rack has 20 to 40 levels, and nobody knows which. The routines are samples; the text of each
 * is beside this file, under its name. From the repository's top:
 *
 *     cc -std=c99 -Iinclude examples/tender.c target/staticlib/libengine.a -o tender
 */
#include <inttypes.h>
#include <stdio.h>
#include <string.h>
#include "pi_engine.h"

// The nodes and the registers, the kinds in preorder, their operands.
static const uint32_t rack[] = {
    37, 3,
    PI_KIND_BLK, PI_KIND_BIND, PI_KIND_ABS, PI_KIND_FORMAL, PI_KIND_FORMAL,
    PI_KIND_BLK, PI_KIND_BIND, PI_KIND_SUM, PI_KIND_DIV, PI_KIND_ID, PI_KIND_ID, PI_KIND_ID,
    PI_KIND_ASSIGN, PI_KIND_SUM, PI_KIND_MUL, PI_KIND_ID, PI_KIND_NUM, PI_KIND_NUM,
    PI_KIND_CSEQ,
    PI_KIND_ASSIGN, PI_KIND_SUM, PI_KIND_MUL, PI_KIND_SUB, PI_KIND_ID, PI_KIND_NUM, PI_KIND_NUM,
    PI_KIND_NUM,
    PI_KIND_COND, PI_KIND_GT, PI_KIND_ID, PI_KIND_NUM,
    PI_KIND_CALL, PI_KIND_NUM, PI_KIND_NUM,
    PI_KIND_CALL, PI_KIND_NUM, PI_KIND_NUM,
    0, 10, 2, PI_OPERAND(20, PI_CODE_INTEGER), PI_OPERAND(21, PI_CODE_INTEGER),
    0, 22, 0, 0, 1, 20, 21,
    2, 0, 0, 22, 2, 15,
    0,
    1, 0, 0, 0, 0, 1, 450,
    300,
    0, 0, 1, 12000,
    PI_OPERAND(10, 2), 1500, 6,
    PI_OPERAND(10, 2), 900, 4
};

static const uint32_t spare[] = {
    6, 2,
    PI_KIND_ASSIGN, PI_KIND_DIV, PI_KIND_ID, PI_KIND_SUB, PI_KIND_ID, PI_KIND_NUM,
    1, 0, 1, 0, 0, 30
};

// A lowest and a highest start for each register; the call puts the ends in their place.
static int64_t rack_lowest[] = {20, 0, 0};
static int64_t rack_highest[] = {40, 0, 0};
static int64_t spare_lowest[] = {20, 6000};
static int64_t spare_highest[] = {40, 6000};

// Lent to each call; 64 KB are better not on the stack.
static uint64_t work[PI_WORK_WORDS];

// Why there are no ends, from the header's list.
static void print_refusal(uint64_t refusal, uint64_t place)
{
#define ROW(enumerator, number, name, sentence) \
    case enumerator: \
        printf("refused %d at %" PRIu64 " (%s: %s)\n", number, place, name, sentence); \
        break;

    switch ((PiRefusal)refusal) {
    case PI_REFUSAL_NONE:
        break;
    PI_REFUSAL_LIST(ROW)
    }
}

static void print_range(int64_t lowest, int64_t highest)
{
    char text[48];

    snprintf(text, sizeof text, "%" PRId64 "..%" PRId64, lowest, highest);
    printf("%14s", text);
}

// One line a register: its range at the start and at the end.
static void print_ends(const char *name, const uint32_t *image, size_t image_length,
                       int64_t *lowest, int64_t *highest, size_t registers)
{
    int64_t starts[2][PI_MOST_REGISTERS];
    PiRangesReply reply;

    memcpy(starts[0], lowest, registers * sizeof *lowest);
    memcpy(starts[1], highest, registers * sizeof *highest);
    reply = pi_ranges(image, image_length, lowest, registers, highest, registers, work, PI_WORK_WORDS);
    if (reply.refusal != PI_REFUSAL_NONE) {
        printf("%-8s", name);
        print_refusal(reply.refusal, reply.place);
        return;
    }
    for (size_t index = 0; index < registers; index += 1) {
        printf("%-8s%8d", name, (int)index);
        print_range(starts[0][index], starts[1][index]);
        print_range(lowest[index], highest[index]);
        printf("\n");
    }
}

int main(void)
{
#define LENGTH(list) (sizeof list / sizeof list[0])
#define ROUTINE(name) \
    print_ends(#name, name, LENGTH(name), name##_lowest, name##_highest, LENGTH(name##_lowest))

    printf("%-8s%8s%14s%14s\n", "routine", "register", "starts", "ends");
    ROUTINE(rack);
    ROUTINE(spare);
    return 0;
}
