/*
 * Pages of every length: too short, just enough, and longer. What comes before refusal 41; and an image
 * with no node, whose page has no line.
 */
#include "tests.h"

#include "cases.h"
#include "lines.h"
#include "report.h"

#include <inttypes.h>

#define COUNT(list) (sizeof(list) / sizeof(list)[0])

/* More than any page needs. */
#define LONG (PAGE_ROOM + 8000)

static uint32_t image[IMAGE_ROOM];
static Tree tree;

/* A page of so many bytes must be refused so, or if this is 0 be written. */
static void expect(const Call *call, size_t page_length, uint64_t refusal, uint64_t place)
{
    PiPageReply reply = call_page(call, page_length, NULL);

    if (reply.refusal != refusal || reply.place != place)
        test_fault("page of %lu bytes: refusal %" PRIu64 " at %" PRIu64 ", expected %" PRIu64
                   " at %" PRIu64,
                   (unsigned long)page_length, reply.refusal, reply.place, refusal, place);
}

static Call call_of_tree(void)
{
    return tree_call(&tree, NULL, image);
}

/* The lengths next to what the tree needs, and far from it. */
static void expect_lengths(void)
{
    static const size_t beyond[] = {0, 1, 2, PI_PAGE_LINE_BYTES};
    size_t enough = PI_PAGE_BYTES(tree.count);
    size_t index;
    Call call = call_of_tree();

    expect(&call, 0, PI_REFUSAL_SHORT_PAGE, 0);
    expect(&call, 1, PI_REFUSAL_SHORT_PAGE, 0);
    expect(&call, enough - 1, PI_REFUSAL_SHORT_PAGE, 0);
    for (index = 0; index < COUNT(beyond); index += 1)
        expect(&call, enough + beyond[index], PI_REFUSAL_NONE, 0);
    expect(&call, LONG, PI_REFUSAL_NONE, 0);
}

static void test_lengths(void)
{
    Call call = paper_call(0, image);
    size_t length;

    test_begin("page of A, every length");
    for (length = 0; length <= PI_PAGE_BYTES(5 + 2); length += 1)
        expect(&call, length, length < PI_PAGE_BYTES(5) ? PI_REFUSAL_SHORT_PAGE : PI_REFUSAL_NONE, 0);
    test_end();

    test_begin("page of one node, lengths");
    tree_of_depth(&tree, 1);
    expect_lengths();
    test_end();

    test_begin("page of 2,000 nodes, lengths");
    tree_of_nodes(&tree, PI_MOST_NODES);
    expect_lengths();
    test_end();
}

/* The page of an image with no node is kept whole, whatever its length. */
static void test_no_line(void)
{
    uint32_t registers;
    Call call;

    test_begin("page of no routine");
    for (registers = 0; registers <= PI_MOST_REGISTERS; registers += 1) {
        tree_clear(&tree, registers);
        call = call_of_tree();
        expect(&call, 0, PI_REFUSAL_NONE, 0);
        expect(&call, 1, PI_REFUSAL_NONE, 0);
        expect(&call, PI_PAGE_LINE_BYTES, PI_REFUSAL_NONE, 0);
        expect(&call, LONG, PI_REFUSAL_NONE, 0);
    }
    test_end();
}

/* The tree has a fault of its own, and with any length of the page it is told. */
static void expect_fault(uint64_t refusal, uint64_t place)
{
    Call call = call_of_tree();

    expect(&call, 0, refusal, place);
    expect(&call, PI_PAGE_BYTES(tree.count) - 1, refusal, place);
    expect(&call, LONG, refusal, place);
}

/* The work words and the image come before 41, wherever the image's fault is. */
static void test_order(void)
{
    Call call;
    size_t last;

    test_begin("page, order 22, the image, 41");
    tree_of_nodes(&tree, 1001);
    last = tree.count - 1;
    call = call_of_tree();
    expect(&call, PI_PAGE_BYTES(tree.count) - 1, PI_REFUSAL_SHORT_PAGE, 0);
    call.work_length = PI_WORK_WORDS - 1;
    expect(&call, PI_PAGE_BYTES(tree.count) - 1, PI_REFUSAL_WORK, 0);
    expect(&call, LONG, PI_REFUSAL_WORK, 0);
    call.work_length = PI_WORK_WORDS + 9;
    expect(&call, PI_PAGE_BYTES(tree.count) - 1, PI_REFUSAL_SHORT_PAGE, 0);
    expect(&call, LONG, PI_REFUSAL_NONE, 0);
    /* The last node is of another type, has no binding, has no such operand, is of no kind. */
    tree.nodes[last].kind = PI_KIND_BOO;
    tree.nodes[last].operand = 1;
    expect_fault(PI_REFUSAL_TYPE, last - 1);
    tree.nodes[last].kind = PI_KIND_ID;
    expect_fault(PI_REFUSAL_UNBOUND, last);
    tree.nodes[last].operand = 64;
    expect_fault(PI_REFUSAL_OPERAND, last);
    tree.nodes[last].kind = 18;
    expect_fault(PI_REFUSAL_KIND, last);
    tree.registers = PI_MOST_REGISTERS + 1;
    expect_fault(PI_REFUSAL_COUNTS, 0);
    tree.registers = 1;
    call = call_of_tree();
    call.image_length -= 1;
    expect(&call, 0, PI_REFUSAL_LENGTH, 0);
    expect(&call, LONG, PI_REFUSAL_LENGTH, 0);
    call.work_length = PI_WORK_WORDS - 1;
    expect(&call, 0, PI_REFUSAL_WORK, 0);
    expect(&call, LONG, PI_REFUSAL_WORK, 0);
    test_end();

    /* Its types do not fit. */
    test_begin("page of K");
    call = paper_call(13, image);
    expect(&call, 0, PI_REFUSAL_NOT_ASSIGNABLE, 4);
    expect(&call, LONG, PI_REFUSAL_NOT_ASSIGNABLE, 4);
    test_end();
}

/* Without a byte there is nothing to point to, for an image with no node and for one with a node. */
static void test_no_pointer(void)
{
    static const uint32_t nothing[] = {0, 0};
    static const uint32_t number[] = {1, 0, PI_KIND_NUM, 7};
    static uint64_t work[PI_WORK_WORDS];
    PiPageReply reply;

    test_begin("page, no pointer where the length is 0");
    reply = pi_page(nothing, COUNT(nothing), NULL, 0, work, PI_WORK_WORDS);
    if (reply.refusal != PI_REFUSAL_NONE || reply.place != 0)
        test_fault("no node: page answers %" PRIu64 " at %" PRIu64, reply.refusal, reply.place);
    reply = pi_page(number, COUNT(number), NULL, 0, work, PI_WORK_WORDS);
    if (reply.refusal != PI_REFUSAL_SHORT_PAGE || reply.place != 0)
        test_fault("a node: page answers %" PRIu64 " at %" PRIu64, reply.refusal, reply.place);
    test_end();
}

void test_page_lengths(void)
{
    test_lengths();
    test_no_line();
    test_order();
    test_no_pointer();
}
