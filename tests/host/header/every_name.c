/*
 * Uses every macro, type and call of the header, and is compiled as C and as C++ with more warnings
 * than a host may want. It prints nothing; the exit status is 0 where the answers are right.
 */
#include "pi_engine.h"

/* Refused by the compiler where the condition does not hold. */
#define HOLDS(name, condition) typedef char name[(condition) ? 1 : -1]

#if PI_VERSION_NUMBER != PI_VERSION_MAJOR * 10000 + PI_VERSION_MINOR * 100 + PI_VERSION_PATCH
#error "the version's number can be compared"
#endif
HOLDS(version_is_text, sizeof PI_VERSION >= sizeof "0.0.0");
HOLDS(check_reply_is_three_words, sizeof(PiCheckReply) == 3 * sizeof(uint64_t));
HOLDS(run_reply_is_nine_words, sizeof(PiRunReply) == 9 * sizeof(uint64_t));
HOLDS(run_reply_in_order,
      offsetof(PiRunReply, refusal) == 0 && offsetof(PiRunReply, outcome) == 8 &&
          offsetof(PiRunReply, value) == 16 && offsetof(PiRunReply, place) == 24 &&
          offsetof(PiRunReply, steps) == 32 && offsetof(PiRunReply, cells) == 40 &&
          offsetof(PiRunReply, bindings) == 48 && offsetof(PiRunReply, values) == 56 &&
          offsetof(PiRunReply, control) == 64);
HOLDS(needs_reply_is_eight_words, sizeof(PiNeedsReply) == 8 * sizeof(uint64_t));
HOLDS(needs_reply_in_order,
      offsetof(PiNeedsReply, refusal) == 0 && offsetof(PiNeedsReply, place) == 8 &&
          offsetof(PiNeedsReply, control) == 16 && offsetof(PiNeedsReply, values) == 24 &&
          offsetof(PiNeedsReply, cells) == 32 && offsetof(PiNeedsReply, bindings) == 40 &&
          offsetof(PiNeedsReply, steps) == 48 && offsetof(PiNeedsReply, open) == 56);
HOLDS(page_reply_is_two_words, sizeof(PiPageReply) == 2 * sizeof(uint64_t));
HOLDS(page_reply_in_order, offsetof(PiPageReply, refusal) == 0 && offsetof(PiPageReply, place) == 8);
HOLDS(ranges_reply_is_two_words, sizeof(PiRangesReply) == 2 * sizeof(uint64_t));
HOLDS(ranges_reply_in_order,
      offsetof(PiRangesReply, refusal) == 0 && offsetof(PiRangesReply, place) == 8);
HOLDS(smallest_image, PI_IMAGE_WORDS(0) == 2 && PI_IMAGE_BYTES(0) == 8);
HOLDS(largest_image_in_words, PI_IMAGE_WORDS(PI_MOST_NODES) == 4002);
HOLDS(largest_image_in_bytes, PI_IMAGE_BYTES(PI_MOST_NODES) == 16008);
HOLDS(smallest_page, PI_PAGE_BYTES(0) == 0 && PI_PAGE_BYTES(1) == PI_PAGE_LINE_BYTES);
HOLDS(largest_page, PI_PAGE_BYTES(PI_MOST_NODES) == 62000);
HOLDS(registers_are_cells, PI_MOST_REGISTERS <= PI_MOST_CELLS && PI_MOST_REGISTERS <= PI_NAMES);
HOLDS(kinds, PI_KIND_NUM == 1 && PI_KIND_ASSIGN == 20 && PI_KIND_COND == 25 && PI_KIND_BIND == 30);
HOLDS(limits, PI_MOST_DEPTH == 64 && PI_MOST_BUDGET == 1000000 && PI_MOST_COUNT == 8);
HOLDS(room, PI_MOST_BINDINGS == 512 && PI_MOST_VALUES == 512 && PI_MOST_CONTROL == 512);
HOLDS(stack, PI_STACK_WORD_FORMS < PI_STACK_BYTE_FORMS && PI_STACK_WORD_FORMS < PI_STACK_RANGES);

/* A table of the refusals. */
typedef struct Name {
    PiRefusal refusal;
    uint64_t number;
    const char *name;
    const char *sentence;
} Name;

#define ROW(enumerator, number, name, sentence) {enumerator, number, name, sentence},
static const Name names[] = {PI_REFUSAL_LIST(ROW)};
#undef ROW

static const char *name_of(uint64_t refusal)
{
    size_t index;

    for (index = 0; index < sizeof names / sizeof names[0]; index += 1) {
        if (names[index].number == refusal)
            return names[index].name;
    }
    return 0;
}

/* Call 1, a name that has no binding, with one actual: 2 nodes. */
static const uint32_t image[PI_IMAGE_WORDS(2)] = {
    2, 0, PI_KIND_CALL, PI_KIND_NUM, PI_OPERAND(1, 1), 7,
};
/* Num 7: 1 node, in words and in bytes. */
static const uint32_t number[PI_IMAGE_WORDS(1)] = {1, 0, PI_KIND_NUM, 7};
static const uint8_t bytes[PI_IMAGE_BYTES(1)] = {
    1, 0, 0, 0, 0, 0, 0, 0, PI_KIND_NUM, 0, 0, 0, 7, 0, 0, 0,
};

/* Register 0 becomes one more: 4 nodes. */
static const uint32_t one_more[PI_IMAGE_WORDS(4)] = {
    4, 1, PI_KIND_ASSIGN, PI_KIND_SUM, PI_KIND_ID, PI_KIND_NUM, 0, 0, 0, 1,
};

static uint64_t work[PI_WORK_WORDS];
static uint8_t page[PI_PAGE_BYTES(2)];

int main(void)
{
    /* The call has just this type. */
    PiPageReply (*const write_page)(const uint32_t *, size_t, uint8_t *, size_t, uint64_t *, size_t) =
        pi_page;
    PiRangesReply (*const give_ends)(const uint32_t *, size_t, int64_t *, size_t, int64_t *, size_t,
                                     uint64_t *, size_t) = pi_ranges;
    int64_t lowest[1] = {20}, highest[1] = {40};
    PiRangesReply ranged;
    const PiKind kind = PI_KIND_CALL;
    PiCheckReply checked = pi_check(image, PI_IMAGE_WORDS(2), work, PI_WORK_WORDS);
    PiRunReply ran = pi_run(image, PI_IMAGE_WORDS(2), 0, 0, PI_MOST_BUDGET, work, PI_WORK_WORDS);
    PiNeedsReply needs = pi_needs(image, PI_IMAGE_WORDS(2), work, PI_WORK_WORDS);
    PiPageReply paged = pi_page(image, PI_IMAGE_WORDS(2), page, PI_PAGE_BYTES(2), work, PI_WORK_WORDS);
    PiRefusal refusal = (PiRefusal)checked.refusal;
    PiCode code;
    PiOutcome outcome;

    if (image[2] != (uint32_t)kind || refusal != PI_REFUSAL_UNBOUND || ran.refusal != checked.refusal)
        return 1;
    if (needs.refusal != checked.refusal || needs.place != checked.place || needs.steps != 0)
        return 2;
    if (ran.cells != 0 || ran.bindings != 0 || ran.values != 0 || ran.control != 0)
        return 3;
    if (name_of(checked.refusal) == 0 || name_of(PI_REFUSAL_NONE) != 0)
        return 4;
    checked = pi_check_bytes(bytes, PI_IMAGE_BYTES(1), work, PI_WORK_WORDS);
    ran = pi_run_bytes(bytes, PI_IMAGE_BYTES(1), 0, 0, PI_MOST_BUDGET, work, PI_WORK_WORDS);
    code = (PiCode)checked.value;
    outcome = (PiOutcome)ran.outcome;
    if (code != PI_CODE_INTEGER || outcome != PI_OUTCOME_NUMBER || ran.value != 7)
        return 5;
    /* Num 7 again, in words. */
    needs = pi_needs(number, PI_IMAGE_WORDS(1), work, PI_WORK_WORDS);
    if (needs.refusal != PI_REFUSAL_NONE || needs.control != 1 || needs.values != 1 ||
        needs.cells != 0 || needs.bindings != 0 || needs.steps != ran.steps || needs.open != 0)
        return 6;
    if (ran.cells != needs.cells || ran.bindings != needs.bindings || ran.values != needs.values ||
        ran.control != needs.control)
        return 7;
    if (paged.refusal != PI_REFUSAL_UNBOUND || paged.place != 0 || page[0] != 0)
        return 8;
    paged = pi_page(number, PI_IMAGE_WORDS(1), page, PI_PAGE_LINE_BYTES - 1, work, PI_WORK_WORDS);
    if (paged.refusal != PI_REFUSAL_SHORT_PAGE || name_of(paged.refusal) == 0 || page[0] != 0)
        return 9;
    paged = write_page(number, PI_IMAGE_WORDS(1), page, PI_PAGE_BYTES(1), work, PI_WORK_WORDS);
    if (paged.refusal != PI_REFUSAL_NONE || paged.place != 0 || page[24] != '7' ||
        page[PI_PAGE_LINE_BYTES - 1] != '\n' || page[PI_PAGE_LINE_BYTES] != 0)
        return 10;
    ranged = pi_ranges(one_more, PI_IMAGE_WORDS(4), highest, 1, lowest, 1, work, PI_WORK_WORDS);
    if (ranged.refusal != PI_REFUSAL_CROSSED_LIMITS || ranged.place != 0 || lowest[0] != 20)
        return 11;
    ranged = give_ends(one_more, PI_IMAGE_WORDS(4), lowest, 1, highest, 1, work, PI_WORK_WORDS);
    if (ranged.refusal != PI_REFUSAL_NONE || ranged.place != 0 || lowest[0] != 21 || highest[0] != 41)
        return 12;
    highest[0] = INT64_MAX;
    ranged = give_ends(one_more, PI_IMAGE_WORDS(4), lowest, 1, highest, 1, work, PI_WORK_WORDS);
    if (ranged.refusal != PI_REFUSAL_UNSAFE_ARITHMETIC || ranged.place != 1 || lowest[0] != 21)
        return 13;
    return 0;
}
