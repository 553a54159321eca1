/*
 * An image with no node, as of a slot with no routine: it passes as a command, and its run ends with
 * none in 0 steps and keeps the registers, with any permitted budget. And images near it.
 */
#include "tests.h"

#include "cases.h"
#include "replies.h"
#include "report.h"

#include <inttypes.h>
#include <string.h>

#define COUNT(list) (sizeof(list) / sizeof(list)[0])

/* None is 0, so that a register that is cleared shows. */
static const int64_t starts[MOST_STARTS] = {
    INT64_MIN, INT64_MAX, -1, 1, -5, 6, -7, 8, -9, 10, -11, 12, -13, 14, -15, 16, -17, 18, -19, 20,
};
static const uint64_t budgets[] = {0, 1, 2, PI_MOST_BUDGET - 1, PI_MOST_BUDGET};
/* n and r, and room for words behind them. */
static uint32_t image[8];

/* The call of n 0 and this r, with as many registers. */
static Call call_of(uint32_t registers)
{
    Call call;

    memset(image, 0, sizeof image);
    image[1] = registers;
    call.image = image;
    call.image_length = PI_IMAGE_WORDS(0);
    call.starts = starts;
    call.registers_length = registers;
    call.budget = 0;
    call.work_length = PI_WORK_WORDS;
    return call;
}

/*
 * The reply of a run: refused with this, or where that is 0 none, with the registers as its high marks
 * of cells and bindings; in 0 steps, the registers kept.
 */
static void expect(const Call *call, uint64_t refusal)
{
    const PiRunReply refused = REFUSED_BEFORE(refusal, 0);
    const PiRunReply none = NONE(0, MARKS(call->registers_length, call->registers_length, 0, 0));

    expect_run(call, refusal == PI_REFUSAL_NONE ? &none : &refused, call->starts);
}

static void expect_check(const Call *call, uint64_t refusal)
{
    PiCheckReply checked = call_check(call);
    uint64_t value = refusal == PI_REFUSAL_NONE ? PI_CODE_COMMAND : 0;

    if (checked.refusal != refusal || checked.value != value || checked.place != 0)
        test_fault("check answers refusal %" PRIu64 " at %" PRIu64 ", value %" PRIu64
                   ", expected %" PRIu64 ", value %" PRIu64,
                   checked.refusal, checked.place, checked.value, refusal, value);
}

/* Every count of registers with every budget. */
static void test_passes(void)
{
    uint32_t registers;
    size_t index;
    Call call;

    test_begin("no routine");
    for (registers = 0; registers <= PI_MOST_REGISTERS; registers += 1) {
        call = call_of(registers);
        expect_check(&call, PI_REFUSAL_NONE);
        for (index = 0; index < COUNT(budgets); index += 1) {
            call.budget = budgets[index];
            expect(&call, PI_REFUSAL_NONE);
        }
    }
    test_end();
}

/* r above 16 is 2, whatever the length from 2 on; another length than 2 is 1. */
static void test_lengths(void)
{
    uint32_t registers;
    Call call;

    test_begin("no routine, lengths and r");
    for (registers = 0; registers <= PI_MOST_REGISTERS + 1; registers += 1) {
        call = call_of(registers);
        for (call.image_length = 0; call.image_length <= COUNT(image); call.image_length += 1) {
            uint64_t refusal = PI_REFUSAL_LENGTH;

            if (call.image_length >= 2 && registers > PI_MOST_REGISTERS)
                refusal = PI_REFUSAL_COUNTS;
            else if (call.image_length == 2)
                refusal = PI_REFUSAL_NONE;
            expect_check(&call, refusal);
            expect(&call, refusal);
        }
    }
    /* With n 1 the node must be there. */
    call = call_of(0);
    image[0] = 1;
    expect(&call, PI_REFUSAL_LENGTH);
    test_end();
}

/* The words of a routine whose n is 0. */
static void test_left_behind(void)
{
    static uint32_t words[PI_IMAGE_WORDS(PI_MOST_NODES)];
    size_t index;
    Call call;

    test_begin("no routine, a routine's words behind");
    for (index = 0; index < paper_calls(); index += 1) {
        call = paper_call(index, words);
        words[0] = 0;
        expect_check(&call, PI_REFUSAL_LENGTH);
        expect(&call, PI_REFUSAL_LENGTH);
        call.image_length = PI_IMAGE_WORDS(0);
        expect_check(&call, PI_REFUSAL_NONE);
        expect(&call, PI_REFUSAL_NONE);
    }
    test_end();
}

/* The host's faults, in their order: 22, 21, the image, 20. */
static void test_faults(void)
{
    uint32_t registers;
    size_t length;
    Call call;

    test_begin("no routine, the host's faults");
    for (registers = 0; registers <= PI_MOST_REGISTERS; registers += 1) {
        for (length = 0; length < MOST_STARTS; length += 1) {
            call = call_of(registers);
            call.registers_length = length;
            expect(&call, length == registers ? PI_REFUSAL_NONE : PI_REFUSAL_REGISTERS);
        }
        call = call_of(registers);
        call.registers_length = registers + 1;
        call.image_length = 3;
        expect(&call, PI_REFUSAL_LENGTH);
        call.budget = PI_MOST_BUDGET + 1;
        expect(&call, PI_REFUSAL_BUDGET);
        call.image_length = 2;
        expect(&call, PI_REFUSAL_BUDGET);
        call.work_length = PI_WORK_WORDS - 1;
        expect(&call, PI_REFUSAL_WORK);
        expect_check(&call, PI_REFUSAL_WORK);
        call.work_length = 0;
        expect(&call, PI_REFUSAL_WORK);
        /* More work words than are needed. */
        call = call_of(registers);
        call.work_length = PI_WORK_WORDS + 8;
        expect_check(&call, PI_REFUSAL_NONE);
        expect(&call, PI_REFUSAL_NONE);
    }
    test_end();
}

/* Without registers there is nothing to point to. */
static void test_no_pointer(void)
{
    static const uint32_t words[] = {0, 0};
    static const uint8_t bytes[] = {0, 0, 0, 0, 0, 0, 0, 0};
    static const PiRunReply expected = NONE(0, MARKS(0, 0, 0, 0));
    static uint64_t work[PI_WORK_WORDS];
    size_t index;

    test_begin("no routine and no registers, no pointer");
    for (index = 0; index < COUNT(budgets); index += 1) {
        PiRunReply reply = pi_run(words, COUNT(words), NULL, 0, budgets[index], work, PI_WORK_WORDS);

        same_reply("run of words", &reply, &expected);
        reply = pi_run_bytes(bytes, COUNT(bytes), NULL, 0, budgets[index], work, PI_WORK_WORDS);
        same_reply("run of bytes", &reply, &expected);
    }
    test_end();
}

void test_no_routine(void)
{
    test_passes();
    test_lengths();
    test_left_behind();
    test_faults();
    test_no_pointer();
}
