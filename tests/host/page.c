/*
 * Pages that are listed by hand: of every kind of node, of the paper's cases, with operands, depths and
 * counts of nodes on both sides of one more digit, and up to the greatest. And pages by chance, with
 * numbers of every count of digits.
 */
#include "tests.h"

#include "cases.h"
#include "lines.h"
#include "random.h"
#include "report.h"

#include <inttypes.h>
#include <stdio.h>
#include <string.h>

#define COUNT(list) (sizeof(list) / sizeof(list)[0])

static uint32_t image[IMAGE_ROOM];
static Tree tree;
/* The page after a call. */
static uint8_t page[PAGE_ROOM];

#define NUM(number) {PI_KIND_NUM, number}
#define BLK {PI_KIND_BLK, 0}
/* Register 0 becomes this number. */
#define SET(number) {PI_KIND_ASSIGN, 0}, NUM(number)
#define FORMAL(name, code) {PI_KIND_FORMAL, PI_OPERAND(name, code)}

typedef struct Written {
    const char *name;
    const Node *nodes;
    size_t count;
    const char *page;
} Written;

/* Trees with one register. */
static const Written written[] = {
    {"page of truths",
     NODES({PI_KIND_AND, 0}, {PI_KIND_OR, 0}, {PI_KIND_LT, 0}, NUM(1), NUM(2), {PI_KIND_LE, 0},
           NUM(3), NUM(4), {PI_KIND_OR, 0}, {PI_KIND_GT, 0}, NUM(5), NUM(6), {PI_KIND_AND, 0},
           {PI_KIND_GE, 0}, NUM(7), NUM(8), {PI_KIND_BOO, 1}),
     "   0  1 And             0   17\n"
     "   1  2 Or              0    8\n"
     "   2  3 Lt              0    5\n"
     "   3  4 Num             1    4\n"
     "   4  4 Num             2    5\n"
     "   5  3 Le              0    8\n"
     "   6  4 Num             3    7\n"
     "   7  4 Num             4    8\n"
     "   8  2 Or              0   17\n"
     "   9  3 Gt              0   12\n"
     "  10  4 Num             5   11\n"
     "  11  4 Num             6   12\n"
     "  12  3 And             0   17\n"
     "  13  4 Ge              0   16\n"
     "  14  5 Num             7   15\n"
     "  15  5 Num             8   16\n"
     "  16  4 Boo             1   17\n"},
    {"page of a Cond", NODES({PI_KIND_COND, 0}, {PI_KIND_BOO, 0}, SET(1), SET(2)),
     "   0  1 Cond            0    6\n"
     "   1  2 Boo             0    2\n"
     "   2  2 Assign          0    4\n"
     "   3  3 Num             1    4\n"
     "   4  2 Assign          0    6\n"
     "   5  3 Num             2    6\n"},
    {"page of a function never called",
     NODES(BLK, {PI_KIND_BIND, 63}, {PI_KIND_ABS, 2}, FORMAL(62, 7), FORMAL(61, 2), BLK,
           {PI_KIND_BIND, 60}, NUM(9), SET(10), SET(4294967295)),
     "   0  1 Blk             0   12\n"
     "   1  2 Bind           63   10\n"
     "   2  3 Abs             2   10\n"
     "   3  4 Formal        510    4\n"
     "   4  4 Formal        189    5\n"
     "   5  4 Blk             0   10\n"
     "   6  5 Bind           60    8\n"
     "   7  6 Num             9    8\n"
     "   8  5 Assign          0   10\n"
     "   9  6 Num            10   10\n"
     "  10  2 Assign          0   12\n"
     "  11  3 Num    4294967295   12\n"},
    {"page of eight actuals",
     NODES(BLK, {PI_KIND_BIND, 63}, {PI_KIND_ABS, 8}, FORMAL(1, 0), FORMAL(2, 0), FORMAL(3, 0),
           FORMAL(4, 0), FORMAL(5, 0), FORMAL(6, 0), FORMAL(7, 0), FORMAL(8, 0), BLK,
           {PI_KIND_BIND, 9}, NUM(0), SET(1), {PI_KIND_CALL, PI_OPERAND(63, 8)}, NUM(10), NUM(20),
           NUM(30), NUM(40), NUM(50), NUM(60), NUM(70), NUM(80)),
     "   0  1 Blk             0   25\n"
     "   1  2 Bind           63   16\n"
     "   2  3 Abs             8   16\n"
     "   3  4 Formal          1    4\n"
     "   4  4 Formal          2    5\n"
     "   5  4 Formal          3    6\n"
     "   6  4 Formal          4    7\n"
     "   7  4 Formal          5    8\n"
     "   8  4 Formal          6    9\n"
     "   9  4 Formal          7   10\n"
     "  10  4 Formal          8   11\n"
     "  11  4 Blk             0   16\n"
     "  12  5 Bind            9   14\n"
     "  13  6 Num             0   14\n"
     "  14  5 Assign          0   16\n"
     "  15  6 Num             1   16\n"
     "  16  2 Call          575   25\n"
     "  17  3 Num            10   18\n"
     "  18  3 Num            20   19\n"
     "  19  3 Num            30   20\n"
     "  20  3 Num            40   21\n"
     "  21  3 Num            50   22\n"
     "  22  3 Num            60   23\n"
     "  23  3 Num            70   24\n"
     "  24  3 Num            80   25\n"},
};

/* By the paper's cases, in the order of paper.c; where a case has several budgets, its first. */
static const struct {
    const char *name;
    size_t paper;
    const char *page;
} of_the_paper[] = {
    {"page of A", 0,
     "   0  1 Mul             0    5\n"
     "   1  2 Num             5    2\n"
     "   2  2 Sum             0    5\n"
     "   3  3 Num             3    4\n"
     "   4  3 Num             2    5\n"},
    {"page of D", 4,
     "   0  1 Sub             0    3\n"
     "   1  2 Num             3    2\n"
     "   2  2 Num             5    3\n"},
    {"page of F", 6,
     "   0  1 Div             0    3\n"
     "   1  2 Id              0    2\n"
     "   2  2 Num             2    3\n"},
    {"page of G", 7,
     "   0  1 Loop            0   14\n"
     "   1  2 Not             0    5\n"
     "   2  3 Eq              0    5\n"
     "   3  4 Id              1    4\n"
     "   4  4 Num             0    5\n"
     "   5  2 CSeq            0   14\n"
     "   6  3 Assign          0   10\n"
     "   7  4 Mul             0   10\n"
     "   8  5 Id              0    9\n"
     "   9  5 Id              1   10\n"
     "  10  3 Assign          1   14\n"
     "  11  4 Sub             0   14\n"
     "  12  5 Id              1   13\n"
     "  13  5 Num             1   14\n"},
    {"page of H", 10,
     "   0  1 Blk             0    8\n"
     "   1  2 Bind            1    4\n"
     "   2  3 Ref             0    4\n"
     "   3  4 Id              0    4\n"
     "   4  2 Assign          0    8\n"
     "   5  3 Sum             0    8\n"
     "   6  4 Id              1    7\n"
     "   7  4 Id              1    8\n"},
    {"page of I", 11,
     "   0  1 Blk             0   12\n"
     "   1  2 Bind            1   10\n"
     "   2  3 Abs             1   10\n"
     "   3  4 Formal          2    4\n"
     "   4  4 Blk             0   10\n"
     "   5  5 Bind            3    8\n"
     "   6  6 Ref             0    8\n"
     "   7  7 Id              2    8\n"
     "   8  5 Assign          0   10\n"
     "   9  6 Id              3   10\n"
     "  10  2 Call           65   12\n"
     "  11  3 Num             7   12\n"},
    {"page of J", 12,
     "   0  1 Blk             0    8\n"
     "   1  2 Bind            1    4\n"
     "   2  3 Ref             0    4\n"
     "   3  4 DeRef           0    4\n"
     "   4  2 Assign          0    8\n"
     "   5  3 Sum             0    8\n"
     "   6  4 ValRef          1    7\n"
     "   7  4 Num             1    8\n"},
    {"page of L", 14,
     "   0  1 Blk             0   10\n"
     "   1  2 DSeq            0    8\n"
     "   2  3 Bind            1    5\n"
     "   3  4 Ref             0    5\n"
     "   4  5 Num             1    5\n"
     "   5  3 Bind            2    8\n"
     "   6  4 Ref             0    8\n"
     "   7  5 Id              1    8\n"
     "   8  2 Assign          1   10\n"
     "   9  3 Num             0   10\n"},
};

/* The operands, each with its columns. */
static const struct {
    uint32_t operand;
    const char *columns;
} operands[] = {
    {0, "         0"},          {9, "         9"},
    {10, "        10"},         {99, "        99"},
    {100, "       100"},        {999, "       999"},
    {1000, "      1000"},       {9999, "      9999"},
    {10000, "     10000"},      {99999, "     99999"},
    {100000, "    100000"},     {999999, "    999999"},
    {1000000, "   1000000"},    {9999999, "   9999999"},
    {10000000, "  10000000"},   {99999999, "  99999999"},
    {100000000, " 100000000"},  {999999999, " 999999999"},
    {1000000000, "1000000000"}, {2147483648, "2147483648"},
    {4294967290, "4294967290"}, {4294967295, "4294967295"},
};

/* The call writes a page of just its lines. */
static void expect_lines(const Call *call)
{
    PiPageReply reply = call_page(call, PI_PAGE_BYTES(call->image[0]), page);

    if (reply.refusal != PI_REFUSAL_NONE || reply.place != 0)
        test_fault("page is refused with %" PRIu64 " at %" PRIu64, reply.refusal, reply.place);
}

static void expect_of_tree(void)
{
    Call call = tree_call(&tree, NULL, image);

    expect_lines(&call);
}

/* The page that was written has this line of a node. */
static void expect_line(size_t node, const char *line)
{
    same_lines(page + PI_PAGE_BYTES(node), (const uint8_t *)line, 1);
}

/* The call's page is this text. */
static void expect_text(const Call *call, const char *text)
{
    if (strlen(text) != PI_PAGE_BYTES(call->image[0])) {
        test_fault("%lu bytes are listed", (unsigned long)strlen(text));
        return;
    }
    expect_lines(call);
    same_lines(page, (const uint8_t *)text, call->image[0]);
}

static void test_listed(void)
{
    size_t index;
    Call call;

    for (index = 0; index < COUNT(written); index += 1) {
        test_begin(written[index].name);
        tree_list(&tree, 1, written[index].nodes, written[index].count);
        call = tree_call(&tree, NULL, image);
        expect_text(&call, written[index].page);
        test_end();
    }
    for (index = 0; index < COUNT(of_the_paper); index += 1) {
        test_begin(of_the_paper[index].name);
        call = paper_call(of_the_paper[index].paper, image);
        expect_text(&call, of_the_paper[index].page);
        test_end();
    }
}

static void test_operands(void)
{
    char line[PI_PAGE_LINE_BYTES + 1];
    size_t index;

    test_begin("page, operands of every count of digits");
    for (index = 0; index < COUNT(operands); index += 1) {
        tree_clear(&tree, 0);
        tree_add(&tree, PI_KIND_NUM, operands[index].operand);
        expect_of_tree();
        snprintf(line, sizeof line, "   0  1 Num    %s    1\n", operands[index].columns);
        expect_line(0, line);
    }
    test_end();
}

/* Not of Not of ... of true, of every depth. */
static void test_depths(void)
{
    char first[PI_PAGE_LINE_BYTES + 1], last[PI_PAGE_LINE_BYTES + 1];
    unsigned depth;

    test_begin("page, every depth");
    tree_of_depth(&tree, 1);
    expect_of_tree();
    expect_line(0, "   0  1 Boo             1    1\n");
    for (depth = 2; depth <= PI_MOST_DEPTH; depth += 1) {
        tree_of_depth(&tree, depth);
        expect_of_tree();
        snprintf(first, sizeof first, "   0  1 Not             0   %2u\n", depth);
        snprintf(last, sizeof last, "  %2u %2u Boo             1   %2u\n", depth - 1, depth, depth);
        expect_line(0, first);
        expect_line(depth - 1, last);
    }
    expect_line(8, "   8  9 Not             0   64\n");
    expect_line(9, "   9 10 Not             0   64\n");
    expect_line(62, "  62 63 Not             0   64\n");
    test_end();
}

/* Assigns under CSeqs that share them out evenly. */
static void test_most_nodes(void)
{
    test_begin("page of 2,000 nodes");
    tree_of_nodes(&tree, PI_MOST_NODES);
    expect_of_tree();
    expect_line(0, "   0  1 CSeq            0 2000\n");
    expect_line(1, "   1  2 CSeq            0  999\n");
    expect_line(999, " 999  2 CSeq            0 2000\n");
    expect_line(1000, "1000  3 CSeq            0 1500\n");
    expect_line(1500, "1500  3 CSeq            0 2000\n");
    expect_line(1998, "1998 11 Assign          0 2000\n");
    expect_line(1999, "1999 12 Num          1999 2000\n");
    test_end();
}

void test_page(void)
{
    test_listed();
    test_operands();
    test_depths();
    test_most_nodes();
}

/* A number of at most 1, of at most 2 and so on to 10 digits, each as often. */
static uint32_t number_by_chance(Random *random)
{
    uint64_t limit = 10;
    size_t digits = 1 + random_below(random, 10);

    for (; digits > 1; digits -= 1)
        limit *= 10;
    if (limit > UINT32_MAX)
        limit = (uint64_t)UINT32_MAX + 1;
    return (uint32_t)random_below(random, (size_t)limit);
}

void test_pages_by_chance(size_t count, uint64_t seed)
{
    Random random;
    size_t index, node;

    test_begin("pages by chance");
    for (index = 0; index < count && !test_has_fault(); index += 1) {
        random.state = seed + index;
        tree_by_chance(&tree, &random);
        for (node = 0; node < tree.count; node += 1) {
            if (tree.nodes[node].kind == PI_KIND_NUM)
                tree.nodes[node].operand = number_by_chance(&random);
        }
        expect_of_tree();
        if (test_has_fault())
            printf("  seed %" PRIu64 "\n", seed + index);
    }
    test_end_with("%lu images", (unsigned long)index);
}
