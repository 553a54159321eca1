/*
 * The byte forms. On whole words they answer as the word forms do, wherever the bytes stand; for other
 * lengths the answer follows from n, r and the length alone.
 */
#include "tests.h"

#include "buffers.h"
#include "cases.h"
#include "random.h"
#include "replies.h"
#include "report.h"
#include "trees.h"

#include <inttypes.h>
#include <string.h>

/* A call of a byte form. */
typedef struct ByteCall {
    const uint8_t *image;
    size_t image_length;
    const uint8_t *registers;
    size_t registers_length;
    size_t offset; /* the bytes stand so far past an aligned place */
    uint64_t budget;
    size_t work_length;
} ByteCall;

#define BYTE_ROOM (4 * IMAGE_ROOM + 16)
#define REGISTER_BYTES (8 * MOST_STARTS)

static uint32_t words[IMAGE_ROOM];
static uint8_t image[BYTE_ROOM];
static uint8_t starts[REGISTER_BYTES];

/* Little-endian words and registers, both ways, on any machine. */
static void words_to_bytes(const uint32_t *from, size_t count, uint8_t *to)
{
    size_t index;

    for (index = 0; index < 4 * count; index += 1)
        to[index] = (uint8_t)(from[index / 4] >> (index % 4 * 8));
}

static size_t bytes_to_words(const uint8_t *from, size_t bytes, uint32_t *to)
{
    size_t index;

    for (index = 0; index < bytes / 4; index += 1)
        to[index] = (uint32_t)from[4 * index] | (uint32_t)from[4 * index + 1] << 8 |
                    (uint32_t)from[4 * index + 2] << 16 | (uint32_t)from[4 * index + 3] << 24;
    return bytes / 4;
}

static void registers_to_bytes(const int64_t *from, size_t count, uint8_t *to)
{
    size_t index;

    for (index = 0; index < 8 * count; index += 1)
        to[index] = (uint8_t)((uint64_t)from[index / 8] >> (index % 8 * 8));
}

static void bytes_to_registers(const uint8_t *from, size_t count, int64_t *to)
{
    size_t index, part;

    for (index = 0; index < count; index += 1) {
        uint64_t word = 0;

        for (part = 0; part < 8; part += 1)
            word |= (uint64_t)from[8 * index + part] << (part * 8);
        memcpy(&to[index], &word, sizeof word);
    }
}

/* What the lengths alone are refused with, and PI_REFUSAL_NONE where they pass. */
static uint64_t refusal_by_bytes(const ByteCall *call)
{
    uint32_t counts[2];

    if (call->work_length < PI_WORK_WORDS)
        return PI_REFUSAL_WORK;
    if (call->budget > PI_MOST_BUDGET)
        return PI_REFUSAL_BUDGET;
    if (call->image_length < 8)
        return PI_REFUSAL_LENGTH;
    bytes_to_words(call->image, 8, counts);
    if (counts[0] > PI_MOST_NODES || counts[1] > PI_MOST_REGISTERS)
        return PI_REFUSAL_COUNTS;
    if (call->image_length != PI_IMAGE_BYTES(counts[0]))
        return PI_REFUSAL_LENGTH;
    return PI_REFUSAL_NONE;
}

static PiCheckReply call_check_bytes(const ByteCall *call)
{
    Buffer lent = buffer_holding(call->image, call->image_length, call->offset);
    Buffer work = lend_work(call->work_length, 0);
    PiCheckReply reply = pi_check_bytes(lent.start, call->image_length,
                                        (uint64_t *)(void *)work.start, call->work_length);

    buffer_kept(&lent, "image", 0);
    work_settled(&work, reply.refusal);
    buffer_free(&lent);
    buffer_free(&work);
    return reply;
}

static PiRunReply call_run_bytes(const ByteCall *call, uint8_t *left)
{
    Buffer lent = buffer_holding(call->image, call->image_length, call->offset);
    Buffer registers = buffer_holding(call->registers, call->registers_length, call->offset);
    Buffer work = lend_work(call->work_length, call->budget);
    PiRunReply reply = pi_run_bytes(lent.start, call->image_length, registers.start,
                                    call->registers_length, call->budget,
                                    (uint64_t *)(void *)work.start, call->work_length);

    if (registers.bytes != 0)
        memcpy(left, registers.start, registers.bytes);
    buffer_kept(&lent, "image", 0);
    registers_settled(&registers, reply.refusal);
    work_settled(&work, reply.refusal);
    buffer_free(&lent);
    buffer_free(&registers);
    buffer_free(&work);
    return reply;
}

/* The replies of calls that are refused by their lengths. */
static void check_refused(const PiCheckReply *reply, uint64_t refusal)
{
    if (reply->refusal != refusal || reply->value != 0 || reply->place != 0)
        test_fault("check of bytes: refusal %" PRIu64 " at %" PRIu64 " in place of %" PRIu64,
                   reply->refusal, reply->place, refusal);
}

static void run_refused(const PiRunReply *reply, uint64_t refusal)
{
    const PiRunReply expected = REFUSED_BEFORE(refusal, 0);

    same_reply("run of bytes and what is expected", reply, &expected);
}

/* The word form's call on the same bytes; registers that make no whole number are left out. */
static Call word_call(const ByteCall *call, uint32_t *to, int64_t *values)
{
    Call same;

    same.image = to;
    same.image_length = bytes_to_words(call->image, call->image_length, to);
    bytes_to_registers(call->registers, call->registers_length / 8, values);
    same.starts = values;
    same.registers_length = call->registers_length / 8;
    same.budget = call->budget;
    same.work_length = call->work_length;
    return same;
}

/* Both byte forms, against the word forms or against what the lengths say. */
static uint64_t compare(const ByteCall *call)
{
    static uint32_t same_words[IMAGE_ROOM];
    int64_t values[MOST_STARTS];
    uint8_t left[REGISTER_BYTES];
    PiCheckReply checked = call_check_bytes(call);
    PiRunReply reply = call_run_bytes(call, left);
    uint64_t expected = refusal_by_bytes(call);
    Call same;
    PiCheckReply words_checked;
    Ran ran, bytes_ran;

    if (expected != PI_REFUSAL_NONE) {
        run_refused(&reply, expected);
        if (expected != PI_REFUSAL_BUDGET)
            check_refused(&checked, expected);
        return reply.refusal;
    }
    same = word_call(call, same_words, values);
    words_checked = call_check(&same);
    if (checked.refusal != words_checked.refusal || checked.value != words_checked.value ||
        checked.place != words_checked.place)
        test_fault("check of bytes: refusal %" PRIu64 " at %" PRIu64 " in place of %" PRIu64
                   " at %" PRIu64,
                   checked.refusal, checked.place, words_checked.refusal, words_checked.place);
    if (checked.refusal == PI_REFUSAL_NONE && call->registers_length != 8 * (size_t)same_words[1]) {
        run_refused(&reply, PI_REFUSAL_REGISTERS);
        return reply.refusal;
    }
    ran = call_run(&same);
    bytes_ran.reply = reply;
    bytes_to_registers(left, same.registers_length, bytes_ran.left);
    same_run("run of bytes", &bytes_ran, &ran, same.registers_length);
    return reply.refusal;
}

/* A word call in bytes. */
static ByteCall byte_call(const Call *call, size_t offset)
{
    ByteCall bytes;

    words_to_bytes(call->image, call->image_length, image);
    registers_to_bytes(call->starts, call->registers_length, starts);
    bytes.image = image;
    bytes.image_length = 4 * call->image_length;
    bytes.registers = starts;
    bytes.registers_length = 8 * call->registers_length;
    bytes.offset = offset;
    bytes.budget = call->budget;
    bytes.work_length = call->work_length;
    return bytes;
}

/* So many calls of words in bytes, wherever they stand. */
static void test_calls_in_bytes(const char *name, size_t count, Call (*call_of)(size_t, uint32_t *))
{
    size_t index, offset;
    Call call;
    ByteCall bytes;

    test_begin(name);
    for (index = 0; index < count; index += 1) {
        call = call_of(index, words);
        for (offset = 0; offset < 8; offset += 1) {
            bytes = byte_call(&call, offset);
            compare(&bytes);
        }
    }
    test_end();
}

/* Every length of the image and of the registers, of case G. */
static void test_byte_lengths(void)
{
    Call call = paper_call(7, words);
    ByteCall bytes = byte_call(&call, 1);
    size_t whole = bytes.image_length;
    size_t length;

    test_begin("lengths in bytes");
    for (length = 0; length <= whole + 9; length += 1) {
        bytes.image_length = length;
        if (compare(&bytes) != (length == whole ? PI_REFUSAL_NONE : PI_REFUSAL_LENGTH))
            test_fault("%lu bytes", (unsigned long)length);
    }
    bytes.image_length = whole;
    for (length = 0; length <= 33; length += 1) {
        bytes.registers_length = length;
        if (compare(&bytes) != (length == 16 ? PI_REFUSAL_NONE : PI_REFUSAL_REGISTERS))
            test_fault("%lu bytes of registers", (unsigned long)length);
    }
    /* n and r come before a length that does not fit them. Byte 4 is the least of r. */
    image[4] = PI_MOST_REGISTERS + 1;
    for (length = 8; length <= whole + 9; length += 1) {
        bytes.image_length = length;
        if (compare(&bytes) != PI_REFUSAL_COUNTS)
            test_fault("%lu bytes with 17 registers", (unsigned long)length);
    }
    test_end();
}

/* n 0 and each r: 8 bytes pass with 8r bytes of registers, wherever they stand; no others do. */
static void test_no_routine_in_bytes(void)
{
    static const int64_t values[MOST_STARTS] = {
        INT64_MIN, INT64_MAX, -1, 1, -5, 6, -7, 8, -9, 10, -11, 12, -13, 14, -15, 16, -17, 18,
    };
    uint32_t registers;
    size_t length;
    Call call;
    ByteCall bytes;

    test_begin("no routine in bytes");
    for (registers = 0; registers <= PI_MOST_REGISTERS + 1; registers += 1) {
        int too_many = registers > PI_MOST_REGISTERS;

        memset(words, 0, sizeof words);
        words[1] = registers;
        call.image = words;
        /* With room behind n and r for the longer lengths. */
        call.image_length = 10;
        call.starts = values;
        call.registers_length = registers;
        call.budget = registers % 2 == 0 ? 0 : PI_MOST_BUDGET;
        call.work_length = PI_WORK_WORDS + registers % 3;
        bytes = byte_call(&call, registers % 8);
        for (length = 0; length <= 40; length += 1) {
            uint64_t expected = PI_REFUSAL_LENGTH;

            if (length >= 8 && too_many)
                expected = PI_REFUSAL_COUNTS;
            else if (length == 8)
                expected = PI_REFUSAL_NONE;
            bytes.image_length = length;
            if (compare(&bytes) != expected)
                test_fault("%lu registers, %lu bytes", (unsigned long)registers,
                           (unsigned long)length);
        }
        bytes.image_length = 8;
        for (length = 0; !too_many && length < REGISTER_BYTES; length += 1) {
            bytes.registers_length = length;
            if (compare(&bytes) !=
                (length == 8 * (size_t)registers ? PI_REFUSAL_NONE : PI_REFUSAL_REGISTERS))
                test_fault("%lu registers, %lu bytes of them", (unsigned long)registers,
                           (unsigned long)length);
        }
        /* 21 and 22 come before the image. */
        bytes.budget = PI_MOST_BUDGET + 1;
        if (compare(&bytes) != PI_REFUSAL_BUDGET)
            test_fault("%lu registers, budget above the greatest", (unsigned long)registers);
        bytes.work_length = PI_WORK_WORDS - 1;
        if (compare(&bytes) != PI_REFUSAL_WORK)
            test_fault("%lu registers, work slice too short", (unsigned long)registers);
    }
    test_end();
}

/* Trees that pass and damaged ones, with a byte changed, added or missing now and then. */
static void test_bytes_by_chance(size_t count, uint64_t seed)
{
    static Tree tree;
    int64_t values[MOST_STARTS];
    Random random;
    size_t index, register_index;
    Call call;
    ByteCall bytes;

    test_begin("bytes by chance");
    for (index = 0; index < count && !test_has_fault(); index += 1) {
        random.state = seed + index;
        tree_by_chance(&tree, &random);
        call.image = words;
        call.image_length = tree_image(&tree, words);
        call.starts = values;
        call.registers_length = tree.registers;
        for (register_index = 0; register_index < tree.registers; register_index += 1)
            values[register_index] = random_integer(&random);
        call.budget = random_below(&random, 300);
        call.work_length = PI_WORK_WORDS + random_below(&random, 4);
        if (random_below(&random, 64) == 0)
            call.budget = PI_MOST_BUDGET + random_below(&random, 2);
        if (random_below(&random, 64) == 0)
            call.work_length = random_below(&random, PI_WORK_WORDS);
        bytes = byte_call(&call, random_below(&random, 8));
        if (random_below(&random, 2) == 0)
            image[random_below(&random, bytes.image_length)] = (uint8_t)random_word(&random);
        if (random_below(&random, 8) == 0)
            bytes.image_length = random_below(&random, bytes.image_length + 9);
        if (random_below(&random, 8) == 0)
            bytes.registers_length = random_below(&random, REGISTER_BYTES);
        compare(&bytes);
        if (test_has_fault())
            test_fault("seed %" PRIu64, seed + index);
    }
    test_end_with("%lu images", (unsigned long)index);
}

void test_bytes(size_t count, uint64_t seed)
{
    test_calls_in_bytes("the paper's cases in bytes", paper_calls(), paper_call);
    test_calls_in_bytes("Conds in bytes", choice_calls(), choice_call);
    test_calls_in_bytes("quotients in bytes", division_calls(), division_call);
    test_calls_in_bytes("high marks in bytes", marks_calls(), marks_call);
    test_byte_lengths();
    test_no_routine_in_bytes();
    test_bytes_by_chance(count, seed);
}
