#include "calls.h"

#include "buffers.h"
#include "ends.h"
#include "figures.h"
#include "lines.h"
#include "replies.h"
#include "report.h"

#include <inttypes.h>
#include <string.h>

#define WORK_BYTES (PI_WORK_WORDS * sizeof(uint64_t))

int before_the_run(uint64_t refusal)
{
    return refusal >= PI_REFUSAL_LENGTH && refusal <= PI_REFUSAL_WORK;
}

static int touches_nothing(uint64_t refusal)
{
    return refusal == PI_REFUSAL_BUDGET || refusal == PI_REFUSAL_WORK;
}

Buffer lend_work(size_t work_length, uint64_t budget)
{
    size_t bytes = work_length * sizeof(uint64_t);

    /* Where nothing may be touched every word is looked at, so every word is set. */
    if (work_length < PI_WORK_WORDS || budget > PI_MOST_BUDGET)
        return buffer_of_junk(bytes);
    return buffer_unset(bytes, WORK_BYTES, 0);
}

void work_settled(const Buffer *work, uint64_t refusal)
{
    if (touches_nothing(refusal)) {
        buffer_kept(work, "work words", 0);
    } else {
        buffer_kept(work, "work words", WORK_BYTES);
        buffer_cleared(work, "work words", WORK_BYTES);
    }
}

void registers_settled(const Buffer *registers, uint64_t refusal)
{
    buffer_kept(registers, "registers", before_the_run(refusal) ? 0 : registers->bytes);
}

/* By the refusal's number, of which this is the last. */
#define LAST PI_REFUSAL_UNSAFE_ARITHMETIC
static size_t answered[LAST + 1];

size_t times_answered(PiRefusal refusal)
{
    return refusal <= LAST ? answered[refusal] : 0;
}

static void count_answer(uint64_t refusal)
{
    if (refusal <= LAST)
        answered[refusal] += 1;
}

PiCheckReply call_check(const Call *call)
{
    Buffer image = buffer_holding(call->image, call->image_length * sizeof(uint32_t), 0);
    Buffer work = lend_work(call->work_length, 0);
    PiCheckReply reply = pi_check((const uint32_t *)(const void *)image.start, call->image_length,
                                  (uint64_t *)(void *)work.start, call->work_length);

    buffer_kept(&image, "image", 0);
    work_settled(&work, reply.refusal);
    check_makes_sense(&reply, call);
    count_answer(reply.refusal);
    buffer_free(&image);
    buffer_free(&work);
    return reply;
}

PiNeedsReply call_needs(const Call *call)
{
    Buffer image = buffer_holding(call->image, call->image_length * sizeof(uint32_t), 0);
    Buffer work = lend_work(call->work_length, 0);
    PiNeedsReply reply = pi_needs((const uint32_t *)(const void *)image.start, call->image_length,
                                  (uint64_t *)(void *)work.start, call->work_length);

    buffer_kept(&image, "image", 0);
    work_settled(&work, reply.refusal);
    needs_make_sense(&reply, call);
    count_answer(reply.refusal);
    buffer_free(&image);
    buffer_free(&work);
    return reply;
}

/* What pi_page must answer: as pi_check does, 22 too; and where that passes, 41 for too few bytes. */
static PiPageReply reply_of_page(const Call *call, size_t page_length)
{
    static uint64_t work[PI_WORK_WORDS];
    size_t work_length = call->work_length < PI_WORK_WORDS ? call->work_length : PI_WORK_WORDS;
    PiCheckReply checked = pi_check(call->image, call->image_length, work, work_length);
    PiPageReply reply;

    reply.refusal = checked.refusal;
    reply.place = checked.place;
    if (checked.refusal == PI_REFUSAL_NONE && page_length < PI_PAGE_BYTES(call->image[0]))
        reply.refusal = PI_REFUSAL_SHORT_PAGE;
    return reply;
}

PiPageReply call_page(const Call *call, size_t page_length, uint8_t *left)
{
    static uint8_t lines[PAGE_ROOM];
    PiPageReply expected = reply_of_page(call, page_length);
    size_t nodes = expected.refusal == PI_REFUSAL_NONE ? page_of(call->image, lines) : 0;
    size_t bytes = PI_PAGE_BYTES(nodes);
    Buffer image = buffer_holding(call->image, call->image_length * sizeof(uint32_t), 0);
    /* Bytes need no alignment. */
    Buffer page = buffer_unset(page_length, bytes, page_length % 8);
    Buffer work = lend_work(call->work_length, 0);
    PiPageReply reply = pi_page((const uint32_t *)(const void *)image.start, call->image_length,
                                page.start, page_length, (uint64_t *)(void *)work.start,
                                call->work_length);

    if (reply.refusal != expected.refusal || reply.place != expected.place)
        test_fault("page of %lu bytes: refusal %" PRIu64 " at %" PRIu64 " in place of %" PRIu64
                   " at %" PRIu64,
                   (unsigned long)page_length, reply.refusal, reply.place, expected.refusal,
                   expected.place);
    same_lines(page.start, lines, nodes);
    buffer_kept(&image, "image", 0);
    buffer_kept(&page, "page", bytes);
    work_settled(&work, reply.refusal);
    count_answer(reply.refusal);
    if (left != NULL && page_length != 0)
        memcpy(left, page.start, page_length);
    buffer_free(&image);
    buffer_free(&page);
    buffer_free(&work);
    return reply;
}

Ranged call_ranges(const Call *call, const int64_t *lowest, size_t lowest_length,
                   const int64_t *highest, size_t highest_length)
{
    Buffer image = buffer_holding(call->image, call->image_length * sizeof(uint32_t), 0);
    Buffer low = buffer_holding(lowest, lowest_length * sizeof(int64_t), 0);
    Buffer high = buffer_holding(highest, highest_length * sizeof(int64_t), 0);
    Buffer work = lend_work(call->work_length, 0);
    Ranged ranged;
    int ends;

    memset(&ranged, 0, sizeof ranged);
    ranged.reply = pi_ranges((const uint32_t *)(const void *)image.start, call->image_length,
                             (int64_t *)(void *)low.start, lowest_length,
                             (int64_t *)(void *)high.start, highest_length,
                             (uint64_t *)(void *)work.start, call->work_length);
    ends = ranged.reply.refusal == PI_REFUSAL_NONE;
    if (low.bytes != 0)
        memcpy(ranged.lowest, low.start, low.bytes);
    if (high.bytes != 0)
        memcpy(ranged.highest, high.start, high.bytes);
    buffer_kept(&image, "image", 0);
    buffer_kept(&low, "lowest", ends ? low.bytes : 0);
    buffer_kept(&high, "highest", ends ? high.bytes : 0);
    work_settled(&work, ranged.reply.refusal);
    ranges_make_sense(&ranged.reply, call);
    count_answer(ranged.reply.refusal);
    buffer_free(&image);
    buffer_free(&low);
    buffer_free(&high);
    buffer_free(&work);
    return ranged;
}

Ran call_run(const Call *call)
{
    Buffer image = buffer_holding(call->image, call->image_length * sizeof(uint32_t), 0);
    Buffer registers = buffer_holding(call->starts, call->registers_length * sizeof(int64_t), 0);
    Buffer work = lend_work(call->work_length, call->budget);
    Ran ran;

    memset(&ran, 0, sizeof ran);
    ran.reply = pi_run((const uint32_t *)(const void *)image.start, call->image_length,
                       (int64_t *)(void *)registers.start, call->registers_length, call->budget,
                       (uint64_t *)(void *)work.start, call->work_length);
    if (registers.bytes != 0)
        memcpy(ran.left, registers.start, registers.bytes);
    buffer_kept(&image, "image", 0);
    registers_settled(&registers, ran.reply.refusal);
    work_settled(&work, ran.reply.refusal);
    run_makes_sense(&ran.reply, call);
    count_answer(ran.reply.refusal);
    buffer_free(&image);
    buffer_free(&registers);
    buffer_free(&work);
    return ran;
}

uint64_t refusal_by_lengths(const Call *call)
{
    if (call->work_length < PI_WORK_WORDS)
        return PI_REFUSAL_WORK;
    if (call->budget > PI_MOST_BUDGET)
        return PI_REFUSAL_BUDGET;
    if (call->image_length < 2)
        return PI_REFUSAL_LENGTH;
    if (call->image[0] > PI_MOST_NODES || call->image[1] > PI_MOST_REGISTERS)
        return PI_REFUSAL_COUNTS;
    if (call->image_length != PI_IMAGE_WORDS(call->image[0]))
        return PI_REFUSAL_LENGTH;
    return PI_REFUSAL_NONE;
}

void same_run(const char *what, const Ran *one, const Ran *other, size_t registers_length)
{
    size_t index;

    same_reply(what, &one->reply, &other->reply);
    for (index = 0; index < registers_length; index += 1) {
        if (one->left[index] != other->left[index])
            test_fault("%s: register %lu is %" PRId64 " and %" PRId64, what, (unsigned long)index,
                       one->left[index], other->left[index]);
    }
}

/* The outcome that a root of this code has. */
static uint64_t outcome_of(uint64_t code)
{
    switch (code) {
    case PI_CODE_INTEGER:
        return PI_OUTCOME_NUMBER;
    case PI_CODE_TRUTH:
        return PI_OUTCOME_TRUTH;
    case PI_CODE_COMMAND:
        return PI_OUTCOME_NONE;
    default:
        return PI_OUTCOME_CELL;
    }
}

/* A run against the check of its image. */
static void fits_the_check(const Call *call, const Ran *ran)
{
    Call check = *call;
    PiCheckReply checked;
    uint64_t refusal = ran->reply.refusal;

    check.work_length = PI_WORK_WORDS + 3;
    checked = call_check(&check);
    if (checked.refusal != PI_REFUSAL_NONE) {
        if (refusal != checked.refusal || ran->reply.place != checked.place)
            test_fault("check refuses with %" PRIu64 " at %" PRIu64 " and run with %" PRIu64
                       " at %" PRIu64,
                       checked.refusal, checked.place, refusal, ran->reply.place);
    } else if (call->registers_length != call->image[1]) {
        if (refusal != PI_REFUSAL_REGISTERS)
            test_fault("%lu registers for %lu, and run answers %" PRIu64,
                       (unsigned long)call->registers_length, (unsigned long)call->image[1],
                       refusal);
    } else if (before_the_run(refusal)) {
        test_fault("check passes and run answers %" PRIu64, refusal);
    } else if (refusal == PI_REFUSAL_NONE && ran->reply.outcome != outcome_of(checked.value)) {
        test_fault("check answers code %" PRIu64 " and run outcome %" PRIu64, checked.value,
                   ran->reply.outcome);
    }
}

/*
 * The same run at other budgets: the steps made are just enough, and one less is too few. Cut off there
 * it has no high mark above these, and where a step was withheld just these. Where none is made no budget
 * is.
 */
static void fits_other_budgets(const Call *call, const Ran *ran)
{
    Call other = *call;
    Ran again;
    uint64_t steps = ran->reply.steps;
    int ended = ran->reply.refusal == PI_REFUSAL_NONE;

    if (ended || ran->reply.refusal > PI_REFUSAL_STEPS) {
        other.budget = ended ? steps : steps + 1;
        again = call_run(&other);
        same_run("just enough budget", ran, &again, call->registers_length);
        if (other.budget == 0)
            return;
        other.budget -= 1;
        again = call_run(&other);
        if (again.reply.refusal != PI_REFUSAL_STEPS || again.reply.steps != other.budget)
            test_fault("budget %" PRIu64 " of %" PRIu64 " gives refusal %" PRIu64 " after %" PRIu64
                       " steps",
                       other.budget, other.budget + 1, again.reply.refusal, again.reply.steps);
        if (!marks_are_within(&again.reply, &ran->reply) ||
            (!ended && !marks_are_within(&ran->reply, &again.reply)))
            test_fault("a step less: " RUN_FORMAT " and " RUN_FORMAT, RUN_ARGUMENTS(&again.reply),
                       RUN_ARGUMENTS(&ran->reply));
    }
}

Ran call_all(const Call *call)
{
    Ran ran = call_run(call);
    uint64_t expected = refusal_by_lengths(call);
    Call other = *call;
    Ran again;

    if (expected != PI_REFUSAL_NONE && ran.reply.refusal != expected)
        test_fault("refusal %" PRIu64 " in place of %" PRIu64, ran.reply.refusal, expected);
    fits_the_needs(call, &ran);
    fits_the_ranges(call);
    fits_the_pages(call);
    if (touches_nothing(ran.reply.refusal))
        return ran;
    fits_the_check(call, &ran);
    fits_other_budgets(call, &ran);
    other.work_length += 5;
    again = call_run(&other);
    same_run("other work words", &ran, &again, call->registers_length);
    return ran;
}
