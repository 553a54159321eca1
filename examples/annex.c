/*
 * The annex of a contract: the tree of a routine, one node a line, below a heading for its columns. The
 * routine is a sample; its text is beside this file, lane_choice.pi. From the repository's top:
 *
 *     cc -std=c99 -Iinclude examples/annex.c target/staticlib/libengine.a -o annex
 */
#include <inttypes.h>
#include <stdio.h>
#include "pi_engine.h"

// The nodes and the registers, the kinds in preorder, their operands.
static const uint32_t lane_choice[] = {
    12, 4,
    PI_KIND_COND, PI_KIND_GT, PI_KIND_ID, PI_KIND_ID,
    PI_KIND_ASSIGN, PI_KIND_SUM, PI_KIND_ID, PI_KIND_NUM,
    PI_KIND_ASSIGN, PI_KIND_SUM, PI_KIND_ID, PI_KIND_NUM,
    0, 0, 0, 1,
    2, 0, 2, 1,
    3, 0, 3, 1
};

// Lent to each call; 64 KB of work words, and 62 KB for any page, are better not on the stack.
static uint64_t work[PI_WORK_WORDS];
static uint8_t page[PI_PAGE_BYTES(PI_MOST_NODES)];

// Prints a refusal with its name and what it says, from the header's list.
static int refused(uint64_t refusal, uint64_t place)
{
#define ROW(enumerator, number, name, sentence) \
    case enumerator: \
        printf("refused %d at %" PRIu64 " (%s: %s)\n", number, place, name, sentence); \
        break;

    switch ((PiRefusal)refusal) {
    case PI_REFUSAL_NONE:
        break;
    PI_REFUSAL_LIST(ROW)
    }
    return 1;
}

// The page of a routine, below its name and the heading.
static int print_page(const char *name, const uint32_t *image, size_t image_length)
{
    PiPageReply reply = pi_page(image, image_length, page, sizeof page, work, PI_WORK_WORDS);

    if (reply.refusal != PI_REFUSAL_NONE)
        return refused(reply.refusal, reply.place);
    printf("%s\n\n", name);
    printf("  depth\n");
    printf("node    kind      operand  end\n");
    // The image passes, so its first word is the count of lines. No 0 stands behind them.
    fwrite(page, PI_PAGE_LINE_BYTES, image[0], stdout);
    return 0;
}

int main(void)
{
    return print_page("lane_choice", lane_choice, sizeof lane_choice / sizeof lane_choice[0]);
}
