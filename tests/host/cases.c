#include "cases.h"

#include "report.h"

#include <inttypes.h>
#include <string.h>

Call tree_call(const Tree *tree, const int64_t *starts, uint32_t *image)
{
    Call call;

    call.image = image;
    call.image_length = tree_image(tree, image);
    call.starts = starts;
    call.registers_length = tree->registers;
    call.budget = PI_MOST_BUDGET;
    call.work_length = PI_WORK_WORDS;
    return call;
}

void expect_run(const Call *call, const PiRunReply *reply, const int64_t *left)
{
    Ran ran = call_all(call);
    Ran expected;

    memset(&expected, 0, sizeof expected);
    expected.reply = *reply;
    memcpy(expected.left, left, call->registers_length * sizeof(int64_t));
    same_run("the run and what is expected", &ran, &expected, call->registers_length);
}

Call case_call(const Case *the_case, uint32_t *image)
{
    static Tree tree;
    Call call;

    tree_list(&tree, the_case->registers, the_case->nodes, the_case->count);
    call = tree_call(&tree, the_case->starts, image);
    call.budget = the_case->budget;
    return call;
}

static void one_case(const Case *the_case)
{
    static uint32_t image[IMAGE_ROOM];
    Call call = case_call(the_case, image);
    PiCheckReply checked = call_check(&call);
    int passes = the_case->reply.refusal == 0 || !before_the_run(the_case->reply.refusal);

    expect_run(&call, &the_case->reply, the_case->left);
    if (checked.refusal != (passes ? PI_REFUSAL_NONE : the_case->reply.refusal) ||
        checked.value != the_case->code || checked.place != the_case->reply.place)
        test_fault("check answers refusal %" PRIu64 ", value %" PRIu64 ", place %" PRIu64,
                   checked.refusal, checked.value, checked.place);
}

void test_cases(const Case *cases, size_t count)
{
    size_t index;

    for (index = 0; index < count; index += 1) {
        test_begin(cases[index].name);
        one_case(&cases[index]);
        test_end();
    }
}
