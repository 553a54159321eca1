/* Div: the largest integer not above the quotient, for all signs and at the ends of the integers. */
#include "tests.h"

#include "cases.h"
#include "report.h"

#include <inttypes.h>

#define COUNT(list) (sizeof(list) / sizeof(list)[0])

/* Register 0 by register 1. */
static const Node quotient[] = {{PI_KIND_DIV, 0}, {PI_KIND_ID, 0}, {PI_KIND_ID, 1}};

/* Register 0 is halved until it stays as it is. */
#define HALF {PI_KIND_DIV, 0}, {PI_KIND_ID, 0}, {PI_KIND_NUM, 2}
static const Node halving[] = {
    {PI_KIND_LOOP, 0},
    {PI_KIND_NOT, 0}, {PI_KIND_EQ, 0}, {PI_KIND_ID, 0}, HALF,
    {PI_KIND_ASSIGN, 0}, HALF,
};

/* Register 0 is halved until it is 0. */
static const Node halving_to_0[] = {
    {PI_KIND_LOOP, 0},
    {PI_KIND_NOT, 0}, {PI_KIND_EQ, 0}, {PI_KIND_ID, 0}, {PI_KIND_NUM, 0},
    {PI_KIND_ASSIGN, 0}, HALF,
};

/* Whatever the quotient, the run has these high marks. */
#define OF_A_DIV MARKS(2, 2, 2, 3)
#define BY(name, left, right, number) \
    {name, TREE(quotient), 2, {left, right}, MOST, 0, NUMBER(number, 4, OF_A_DIV), {left, right}}
#define NOT_BY(name, left, right, refusal) \
    {name, TREE(quotient), 2, {left, right}, MOST, 0, REFUSED(refusal, 0, 3, OF_A_DIV), {left, right}}

static const Case cases[] = {
    BY("7 by 2", 7, 2, 3),
    BY("-7 by 2", -7, 2, -4),
    BY("7 by -2", 7, -2, -4),
    BY("-7 by -2", -7, -2, 3),
    BY("-8 by 2", -8, 2, -4),
    BY("8 by -2", 8, -2, -4),
    BY("-1 by 2", -1, 2, -1),
    BY("1 by -2", 1, -2, -1),
    BY("0 by -2", 0, -2, 0),
    BY("the lowest by 1", INT64_MIN, 1, INT64_MIN),
    BY("the lowest by 2", INT64_MIN, 2, INT64_MIN / 2),
    BY("the lowest by -2", INT64_MIN, -2, -(INT64_MIN / 2)),
    BY("the lowest by 3", INT64_MIN, 3, INT64_C(-3074457345618258603)),
    BY("the lowest by the greatest", INT64_MIN, INT64_MAX, -2),
    BY("the greatest by the lowest", INT64_MAX, INT64_MIN, -1),
    BY("the greatest by -1", INT64_MAX, -1, -INT64_MAX),
    BY("-1 by the greatest", -1, INT64_MAX, -1),
    BY("1 by the lowest", 1, INT64_MIN, -1),
    BY("-1 by the lowest", -1, INT64_MIN, 0),
    NOT_BY("the lowest by -1", INT64_MIN, -1, 32),
    NOT_BY("-7 by 0", -7, 0, 31),
    NOT_BY("the lowest by 0", INT64_MIN, 0, 31),
    {"halving 7", TREE(halving), 1, {7}, MOST, COMMAND, NONE(62, MARKS(1, 1, 4, 6)), {0}},
    {"halving -7", TREE(halving), 1, {-7}, MOST, COMMAND, NONE(62, MARKS(1, 1, 4, 6)), {-1}},
    {"halving 7 until 0", TREE(halving_to_0), 1, {7}, MOST, COMMAND, NONE(50, MARKS(1, 1, 3, 5)), {0}},
    {"halving -7 until 0", TREE(halving_to_0), 1, {-7}, 500, COMMAND,
     REFUSED(30, 0, 500, MARKS(1, 1, 3, 5)), {-1}},
};

size_t division_calls(void)
{
    return COUNT(cases);
}

Call division_call(size_t index, uint32_t *image)
{
    return case_call(&cases[index], image);
}

/* C's own quotient drops the fraction, and its remainder has the dividend's sign or is 0. */
static int64_t rounded_down(int64_t left, int64_t right)
{
    int64_t rest = left % right;

    return left / right - (rest != 0 && (rest < 0) != (right < 0));
}

/* Every two of some integers, and each of them with the other sign. */
static void test_pairs(void)
{
    static const int64_t some[] = {
        0, 1, 2, 3, 7, 10, INT64_C(2147483647), INT64_C(2147483648), INT64_C(4294967295),
        INT64_C(4294967296), INT64_C(4294967297), INT64_C(4611686018427387904), INT64_MAX - 1,
        INT64_MAX,
    };
    static uint32_t image[IMAGE_ROOM];
    static Tree tree;
    const size_t all = 2 * COUNT(some) + 1;
    int64_t starts[2];
    size_t index;

    test_begin("quotients of every two integers");
    tree_list(&tree, 2, quotient, COUNT(quotient));
    for (index = 0; index < all * all; index += 1) {
        const size_t places[] = {index / all, index % all};
        size_t side;
        PiRunReply reply = REFUSED(PI_REFUSAL_ZERO_DIVISOR, 0, 3, OF_A_DIV);
        Call call;

        for (side = 0; side < 2; side += 1) {
            size_t place = places[side];

            starts[side] = place == all - 1 ? INT64_MIN : some[place / 2];
            if (place % 2 != 0)
                starts[side] = -starts[side];
        }
        if (starts[0] == INT64_MIN && starts[1] == -1) {
            reply.refusal = PI_REFUSAL_OUT_OF_RANGE;
        } else if (starts[1] != 0) {
            const PiRunReply ended = NUMBER(rounded_down(starts[0], starts[1]), 4, OF_A_DIV);

            reply = ended;
        }
        call = tree_call(&tree, starts, image);
        expect_run(&call, &reply, starts);
    }
    test_end();
}

void test_division(void)
{
    test_cases(cases, COUNT(cases));
    test_pairs();
}
