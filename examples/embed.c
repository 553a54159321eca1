#include <inttypes.h>
#include <stdio.h>
#include "pi_engine.h"

// 5 x (3 + 2): 5 nodes, 0 registers, the kinds in preorder, their operands.
static const uint32_t image[] = {
    5, 0,
    PI_KIND_MUL, PI_KIND_NUM, PI_KIND_SUM, PI_KIND_NUM, PI_KIND_NUM,
    0, 5, 0, 3, 2
};
static const size_t image_length = sizeof image / sizeof image[0];

// Lent to each call; 64 KB are better not on the stack.
static uint64_t work[PI_WORK_WORDS];

// Prints a refusal with its name and what it says, from the header's list.
static int refused(uint64_t refusal, uint64_t place)
{
#define ROW(enumerator, number, name, sentence) \
    case enumerator: \
        printf("refused %d at %" PRIu64 " (%s: %s)\n", number, place, name, sentence); \
        break;

    switch ((PiRefusal)refusal) {
    case PI_REFUSAL_NONE:
        break;
    PI_REFUSAL_LIST(ROW)
    }
    return 1;
}

int main(void)
{
    PiCheckReply checked = pi_check(image, image_length, work, PI_WORK_WORDS);
    if (checked.refusal != PI_REFUSAL_NONE)
        return refused(checked.refusal, checked.place);

    // This routine has no registers, so none are handed over.
    PiRunReply ran = pi_run(image, image_length, NULL, 0, PI_MOST_BUDGET, work, PI_WORK_WORDS);
    if (ran.refusal != PI_REFUSAL_NONE)
        return refused(ran.refusal, ran.place);
    if (ran.outcome == PI_OUTCOME_NUMBER)
        printf("number %" PRId64 "\n", ran.value);
    printf("steps %" PRIu64 "\n", ran.steps);
    // The most cells, bindings, value entries and control entries of the run.
    printf("most %" PRIu64 " %" PRIu64 " %" PRIu64 " %" PRIu64 "\n",
           ran.cells, ran.bindings, ran.values, ran.control);
    return 0;
}
