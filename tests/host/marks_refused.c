/*
 * High marks where a call is refused. Refusals 1 to 22 have none, whatever ran before in the same
 * reply and with the same buffers. A step that is withheld for want of room leaves the high mark where
 * it was: at the limit, or below it where the step would add several at once. More limits are in
 * refusals.c and choice.c.
 */
#include "tests.h"

#include "cases.h"
#include "replies.h"
#include "report.h"

#include <string.h>

#define COUNT(list) (sizeof(list) / sizeof(list)[0])

#define NUM {PI_KIND_NUM, 1}
#define NOT {PI_KIND_NOT, 0}
#define BLK {PI_KIND_BLK, 0}
#define DSEQ {PI_KIND_DSEQ, 0}
#define SET {PI_KIND_ASSIGN, 0}, NUM
#define BIND(name) {PI_KIND_BIND, name}, NUM

/* A call that is refused before its first step; one register is handed over. */
typedef struct Refused {
    const Node *nodes;
    size_t count;
    uint32_t registers; /* the image's own count */
    uint64_t refusal;
    uint64_t place;
    size_t image_less; /* so many words of the image are left out */
    uint64_t budget;
    size_t work_length;
} Refused;

#define FAULT(refusal, place, ...) {NODES(__VA_ARGS__), 1, refusal, place, 0, MOST, PI_WORK_WORDS}
#define EIGHT_NOTS NOT, NOT, NOT, NOT, NOT, NOT, NOT, NOT

static const Refused refused[] = {
    {NODES(SET), 1, 1, 0, 1, MOST, PI_WORK_WORDS},
    {NODES(SET), 1, 1, 0, 6, MOST, PI_WORK_WORDS},
    {NODES(SET), 17, 2, 0, 0, MOST, PI_WORK_WORDS},
    FAULT(3, 1, {PI_KIND_ASSIGN, 0}, {18, 0}),
    FAULT(4, 1, {PI_KIND_ASSIGN, 0}, {PI_KIND_BOO, 2}),
    FAULT(5, 1, {PI_KIND_ASSIGN, 0}),
    FAULT(6, 64, EIGHT_NOTS, EIGHT_NOTS, EIGHT_NOTS, EIGHT_NOTS, EIGHT_NOTS, EIGHT_NOTS, EIGHT_NOTS,
          EIGHT_NOTS, {PI_KIND_BOO, 1}),
    FAULT(10, 1, {PI_KIND_ASSIGN, 0}, {PI_KIND_ID, 9}),
    FAULT(11, 0, {PI_KIND_ASSIGN, 0}, {PI_KIND_BOO, 1}),
    FAULT(12, 1, BLK, DSEQ, BIND(1), BIND(1), SET),
    FAULT(13, 3, BLK, BIND(1), {PI_KIND_ASSIGN, 1}, NUM),
    FAULT(14, 0, {PI_KIND_CALL, PI_OPERAND(0, 0)}),
    {NODES(SET), 2, 20, 0, 0, MOST, PI_WORK_WORDS},
    {NODES(SET), 1, 21, 0, 0, MOST + 1, PI_WORK_WORDS},
    {NODES(SET), 1, 22, 0, 0, MOST, PI_WORK_WORDS - 1},
};

/* What runs before: a tower with four large high marks. */
static const Tower large = {3, 10, 6, 1, 8, 0};
static const PiRunReply large_ran = NONE(1566, MARKS(181, 184, 83, 64));

/* Lent to every call in turn, so that it finds what the one before has left. */
static uint32_t image[IMAGE_ROOM];
static uint8_t bytes[4 * IMAGE_ROOM];
static int64_t registers[] = {5};
static uint8_t register_bytes[sizeof registers] = {5};
static uint64_t work[PI_WORK_WORDS];

/* The call in either form. */
static void run(PiRunReply *reply, int in_bytes, const Call *call)
{
    size_t index;

    for (index = 0; index < 4 * call->image_length; index += 1)
        bytes[index] = (uint8_t)(call->image[index / 4] >> (index % 4 * 8));
    if (in_bytes)
        *reply = pi_run_bytes(bytes, 4 * call->image_length, register_bytes, sizeof register_bytes,
                              call->budget, work, call->work_length);
    else
        *reply = pi_run(call->image, call->image_length, registers, COUNT(registers), call->budget,
                        work, call->work_length);
}

static Call refused_call(const Refused *row)
{
    static Tree tree;
    Call call;

    tree_list(&tree, row->registers, row->nodes, row->count);
    call = tree_call(&tree, registers, image);
    call.image_length -= row->image_less;
    call.budget = row->budget;
    call.work_length = row->work_length;
    return call;
}

/* Each refusal straight after the large run, which is answered in the same way each time. */
static void test_after_a_run(int in_bytes)
{
    static Tree tower;
    PiRunReply reply;
    Call call;
    size_t index;

    test_begin(in_bytes ? "no high marks with 1 to 22, in bytes" : "no high marks with 1 to 22");
    tree_of_tower(&tower, &large);
    for (index = 0; index < COUNT(refused); index += 1) {
        const PiRunReply expected = REFUSED_BEFORE(refused[index].refusal, refused[index].place);

        call = tree_call(&tower, registers, image);
        run(&reply, in_bytes, &call);
        same_reply("the large run and what is expected", &reply, &large_ran);
        call = refused_call(&refused[index]);
        run(&reply, in_bytes, &call);
        same_reply("the refused call and what is expected", &reply, &expected);
    }
    test_end_with("%lu refused calls", (unsigned long)index);
}

/* A function of eight Formals, whose Blk binds one name more, and its call. */
static const Node function[] = {
    BLK, {PI_KIND_BIND, 1}, {PI_KIND_ABS, 8}, {PI_KIND_FORMAL, 2}, {PI_KIND_FORMAL, 3},
    {PI_KIND_FORMAL, 4}, {PI_KIND_FORMAL, 5}, {PI_KIND_FORMAL, 6}, {PI_KIND_FORMAL, 7},
    {PI_KIND_FORMAL, 8}, {PI_KIND_FORMAL, 9}, BLK, BIND(20), SET,
};
static const Node call_of_eight[] = {
    {PI_KIND_CALL, PI_OPERAND(1, 8)}, NUM, NUM, NUM, NUM, NUM, NUM, NUM, NUM,
};
/* A Blk with one name, and one with 17; the command is to follow. */
static const Node one_name[] = {BLK, BIND(20)};
static const Node names[] = {
    BLK, DSEQ, BIND(20), DSEQ, BIND(21), DSEQ, BIND(22), DSEQ, BIND(23), DSEQ, BIND(24), DSEQ, BIND(25),
    DSEQ, BIND(26), DSEQ, BIND(27), DSEQ, BIND(28), DSEQ, BIND(29), DSEQ, BIND(30), DSEQ, BIND(31),
    DSEQ, BIND(32), DSEQ, BIND(33), DSEQ, BIND(34), DSEQ, BIND(35), BIND(36),
};

static void add(Tree *tree, size_t times, const Node *nodes, size_t count)
{
    size_t index;

    for (; times > 0; times -= 1) {
        for (index = 0; index < count; index += 1)
            tree_add(tree, nodes[index].kind, nodes[index].operand);
    }
}

/*
 * The call with the register, the function's name and 17 x 29 names around it, and some more: with 8
 * more it binds 511 names, and its Blk the 512th. With 9 the Blk would bind the 513th. With 10 and
 * above the call would bind too many at once, and the high mark stays at the names around it.
 */
static void test_names_at_once(void)
{
    static const struct {
        const char *name;
        size_t more;
        PiRunReply reply;
    } rows[] = {
        {"high marks of 512 bindings", 8, NONE(3032, MARKS(1, 512, 93, 52))},
        {"high marks before a 513th binding", 9, REFUSED(34, 0, 2992, MARKS(1, 512, 93, 52))},
        {"high marks before a call's 513th binding", 10,
         REFUSED(34, 0, 2993, MARKS(1, 505, 93, 52))},
        {"high marks before a call's 520th binding", 17,
         REFUSED(34, 0, 3028, MARKS(1, 512, 102, 56))},
    };
    static Tree tree;
    size_t index;

    for (index = 0; index < COUNT(rows); index += 1) {
        Call call;
        Ran ran;

        test_begin(rows[index].name);
        tree_clear(&tree, 1);
        add(&tree, 1, function, COUNT(function));
        add(&tree, 29, names, COUNT(names));
        add(&tree, rows[index].more, one_name, COUNT(one_name));
        add(&tree, 1, call_of_eight, COUNT(call_of_eight));
        call = tree_call(&tree, registers, image);
        ran = call_all(&call);
        same_reply("the run and what is expected", &ran.reply, &rows[index].reply);
        test_end();
    }
}

void test_marks_refused(void)
{
    test_after_a_run(0);
    test_after_a_run(1);
    test_names_at_once();
}
