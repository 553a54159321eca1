#include "lines.h"

#include "report.h"

#include <stdio.h>
#include <string.h>

/* A kind's name, and how many children its nodes have. */
typedef struct Kind {
    const char *name;
    uint32_t children;
} Kind;

/* By number. A Call has its actuals too, and an Abs its Formals. */
static const Kind kinds[] = {
    [PI_KIND_NUM] = {"Num", 0},       [PI_KIND_BOO] = {"Boo", 0},
    [PI_KIND_ID] = {"Id", 0},         [PI_KIND_SUM] = {"Sum", 2},
    [PI_KIND_SUB] = {"Sub", 2},       [PI_KIND_MUL] = {"Mul", 2},
    [PI_KIND_DIV] = {"Div", 2},       [PI_KIND_EQ] = {"Eq", 2},
    [PI_KIND_LT] = {"Lt", 2},         [PI_KIND_LE] = {"Le", 2},
    [PI_KIND_GT] = {"Gt", 2},         [PI_KIND_GE] = {"Ge", 2},
    [PI_KIND_AND] = {"And", 2},       [PI_KIND_OR] = {"Or", 2},
    [PI_KIND_NOT] = {"Not", 1},       [PI_KIND_DEREF] = {"DeRef", 0},
    [PI_KIND_VALREF] = {"ValRef", 0}, [PI_KIND_ASSIGN] = {"Assign", 1},
    [PI_KIND_LOOP] = {"Loop", 2},     [PI_KIND_CSEQ] = {"CSeq", 2},
    [PI_KIND_BLK] = {"Blk", 2},       [PI_KIND_CALL] = {"Call", 0},
    [PI_KIND_COND] = {"Cond", 3},     [PI_KIND_BIND] = {"Bind", 1},
    [PI_KIND_DSEQ] = {"DSeq", 2},     [PI_KIND_REF] = {"Ref", 1},
    [PI_KIND_ABS] = {"Abs", 1},       [PI_KIND_FORMAL] = {"Formal", 0},
};

static uint32_t children_of(uint32_t kind, uint32_t operand)
{
    switch (kind) {
    case PI_KIND_CALL:
        return operand / 64;
    case PI_KIND_ABS:
        return kinds[kind].children + operand;
    default:
        return kinds[kind].children;
    }
}

/* Of each node its parent, and the first node after its descendants. The root has no parent. */
static size_t parents[PI_MOST_NODES], ends[PI_MOST_NODES];

/* From the last node to the first: so the ends of a node's children are known, each the next child. */
static void find_ends(const uint32_t *image)
{
    size_t count = image[0];
    size_t node = count;

    while (node > 0) {
        size_t next = node;
        uint32_t missing;

        node -= 1;
        missing = children_of(image[2 + node], image[2 + count + node]);
        for (; missing > 0; missing -= 1) {
            parents[next] = node;
            next = ends[next];
        }
        ends[node] = next;
    }
}

size_t page_of(const uint32_t *image, uint8_t *page)
{
    static size_t depths[PI_MOST_NODES];
    size_t count = image[0];
    size_t node;
    char line[PI_PAGE_LINE_BYTES + 1];

    find_ends(image);
    for (node = 0; node < count; node += 1) {
        depths[node] = node == 0 ? 1 : depths[parents[node]] + 1;
        snprintf(line, sizeof line, "%4lu %2lu %-6s %10lu %4lu\n", (unsigned long)node,
                 (unsigned long)depths[node], kinds[image[2 + node]].name,
                 (unsigned long)image[2 + count + node], (unsigned long)ends[node]);
        memcpy(page + PI_PAGE_BYTES(node), line, PI_PAGE_LINE_BYTES);
    }
    return count;
}

void same_lines(const uint8_t *page, const uint8_t *expected, size_t nodes)
{
    size_t place = 0;

    if (nodes == 0 || memcmp(page, expected, PI_PAGE_BYTES(nodes)) == 0)
        return;
    while (page[place] == expected[place])
        place += 1;
    test_fault("page: line %lu, column %lu is %d and must be %d, as in `%.30s`",
               (unsigned long)(place / PI_PAGE_LINE_BYTES),
               (unsigned long)(place % PI_PAGE_LINE_BYTES + 1), page[place], expected[place],
               (const char *)expected + place / PI_PAGE_LINE_BYTES * PI_PAGE_LINE_BYTES);
}

/* The bytes that the page needs; where the image has no n, or too great a one, what any page needs. */
static size_t enough_bytes(const Call *call)
{
    if (call->image_length == 0 || call->image[0] > PI_MOST_NODES)
        return PAGE_ROOM;
    return PI_PAGE_BYTES(call->image[0]);
}

void fits_the_pages(const Call *call)
{
    size_t enough = enough_bytes(call);
    Call other = *call;

    if (enough != 0)
        call_page(call, enough - 1, NULL);
    call_page(call, enough, NULL);
    other.work_length += 5;
    call_page(&other, enough + 9, NULL);
}
