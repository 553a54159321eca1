/* Images made by chance: random words, words in plausible ranges, trees that pass, damaged images. */
#include "tests.h"

#include "calls.h"
#include "random.h"
#include "report.h"
#include "trees.h"

#include <inttypes.h>
#include <stdio.h>
#include <string.h>

#define COUNT(list) (sizeof(list) / sizeof(list)[0])

static const uint32_t kinds[] = {
    PI_KIND_NUM, PI_KIND_BOO, PI_KIND_ID, PI_KIND_SUM, PI_KIND_SUB, PI_KIND_MUL, PI_KIND_DIV,
    PI_KIND_EQ, PI_KIND_LT, PI_KIND_LE, PI_KIND_GT, PI_KIND_GE, PI_KIND_AND, PI_KIND_OR,
    PI_KIND_NOT, PI_KIND_DEREF, PI_KIND_VALREF, PI_KIND_ASSIGN, PI_KIND_LOOP, PI_KIND_CSEQ,
    PI_KIND_BLK, PI_KIND_CALL, PI_KIND_COND, PI_KIND_BIND, PI_KIND_DSEQ, PI_KIND_REF,
    PI_KIND_ABS, PI_KIND_FORMAL,
};

static uint32_t image[IMAGE_ROOM];
static Tree tree;

/* Any bytes: up to 40 words, or a plausible n and r before them, n 0 too. */
static size_t random_words(Random *random)
{
    size_t length = random_below(random, 41);
    size_t index;

    for (index = 0; index < length; index += 1)
        image[index] = (uint32_t)random_word(random);
    if (length >= 2 && random_below(random, 2) == 0) {
        image[0] = (uint32_t)(length - 2) / 2;
        image[1] = (uint32_t)random_below(random, 20);
    }
    return length;
}

static uint32_t plausible_operand(Random *random)
{
    switch (random_below(random, 4)) {
    case 0:
        return 0;
    case 1:
        return (uint32_t)random_below(random, 3);
    case 2:
        return (uint32_t)random_below(random, 70);
    default:
        return PI_OPERAND(random_below(random, 4), random_below(random, 10));
    }
}

/* Kinds and operands in their ranges, or no node. */
static size_t plausible_words(Random *random)
{
    size_t nodes = random_below(random, 13);

    tree_clear(&tree, (uint32_t)random_below(random, 5));
    while (tree.count < nodes)
        tree_add(&tree, random_pick(random, kinds, COUNT(kinds)), plausible_operand(random));
    return tree_image(&tree, image);
}

static size_t passing(Random *random)
{
    tree_by_chance(&tree, random);
    return tree_image(&tree, image);
}

/* A sound image: one of the paper's, one by chance, or a high tower. */
static size_t sound_image(Random *random)
{
    static const Tower towers[] = {
        {1, 15, 17, 1, 0, 0}, {1, 30, 17, 0, 0, 0}, {15, 15, 1, 0, 0, 0}, {10, 1, 1, 0, 48, 0},
        {10, 1, 1, 0, 48, 1}, {3, 2, 2, 1, 2, 1},
    };
    size_t choice = random_below(random, 20);

    if (choice == 0) {
        tree_of_tower(&tree, &towers[random_below(random, COUNT(towers))]);
        return tree_image(&tree, image);
    }
    if (choice < 10)
        return paper_call(random_below(random, paper_calls()), image).image_length;
    return passing(random);
}

/* One change of a word, of the length, or of a node. */
static size_t damage(Random *random, size_t length)
{
    size_t nodes = length < 4 ? 1 : (length - 2) / 2;
    size_t place = random_below(random, nodes);

    switch (random_below(random, 8)) {
    case 0: /* one bit */
        if (length != 0)
            image[random_below(random, length)] ^= UINT32_C(1) << random_below(random, 32);
        return length;
    case 1: /* cut off */
        return random_below(random, length + 1);
    case 2: /* words more */
        image[length] = (uint32_t)random_word(random);
        image[length + 1] = 0;
        return length + 1 + random_below(random, 2);
    case 3: /* another n, often 0, with the words left */
        image[0] = random_below(random, 4) == 0 ? 0 : (uint32_t)random_below(random, 2002);
        return length;
    case 4:
        image[1] = (uint32_t)random_below(random, 18);
        return length;
    case 5: /* another kind */
        image[2 + place] = random_pick(random, kinds, COUNT(kinds));
        return length;
    case 6: /* another operand */
        image[2 + nodes + place] = plausible_operand(random);
        return length;
    default: /* two nodes change places */
        {
            size_t other = random_below(random, nodes);
            uint32_t kind = image[2 + place];

            image[2 + place] = image[2 + other];
            image[2 + other] = kind;
        }
        return length;
    }
}

static size_t damaged(Random *random)
{
    size_t length = sound_image(random);
    size_t changes = 1 + random_below(random, 2);

    while (changes > 0) {
        length = damage(random, length);
        changes -= 1;
    }
    return length;
}

static Call call_by_chance(Random *random, size_t length, int64_t *starts)
{
    Call call;
    size_t index;

    call.image = image;
    call.image_length = length;
    call.registers_length = length < 2 || image[1] > PI_MOST_REGISTERS ? 0 : image[1];
    call.starts = starts;
    call.budget = random_below(random, 300);
    call.work_length = PI_WORK_WORDS + random_below(random, 4);
    if (random_below(random, 8) == 0)
        call.budget = random_below(random, 20000);
    if (random_below(random, 64) == 0)
        call.budget = PI_MOST_BUDGET + random_below(random, 2);
    if (random_below(random, 16) == 0)
        call.registers_length = random_below(random, MOST_STARTS);
    if (random_below(random, 64) == 0)
        call.work_length = random_below(random, PI_WORK_WORDS);
    for (index = 0; index < call.registers_length; index += 1)
        starts[index] = random_integer(random);
    return call;
}

/* How often each refusal came, PI_REFUSAL_NONE too. */
typedef struct Tally {
    size_t answers[PI_REFUSAL_CONTROL + 1];
} Tally;

static void print_tally(size_t count, const Tally *tally)
{
    char text[400];
    size_t used = 0;
    uint64_t refusal;

    text[0] = 0;
    for (refusal = 0; refusal <= PI_REFUSAL_CONTROL; refusal += 1) {
        if (tally->answers[refusal] != 0 && used + 40 < sizeof text)
            used += (size_t)snprintf(text + used, sizeof text - used, " %" PRIu64 ":%lu", refusal,
                                     (unsigned long)tally->answers[refusal]);
    }
    test_end_with("%lu images; answers%s", (unsigned long)count, text);
}

static void print_image(size_t length)
{
    size_t index;

    printf("  image:");
    for (index = 0; index < length; index += 1)
        printf(" %lx", (unsigned long)image[index]);
    printf("\n");
}

/* Compares so many images of a sort; where they all pass, none may be refused with 1 to 14. */
static void family(const char *name, size_t (*make)(Random *), int all_pass, size_t count,
                   uint64_t seed)
{
    Random random;
    Tally tally;
    int64_t starts[MOST_STARTS];
    size_t index;
    Call call;
    Ran ran;

    memset(&tally, 0, sizeof tally);
    test_begin(name);
    for (index = 0; index < count && !test_has_fault(); index += 1) {
        random.state = seed + index;
        call = call_by_chance(&random, make(&random), starts);
        ran = call_all(&call);
        if (ran.reply.refusal <= PI_REFUSAL_CONTROL)
            tally.answers[ran.reply.refusal] += 1;
        if (all_pass && ran.reply.refusal >= PI_REFUSAL_LENGTH && ran.reply.refusal <= PI_REFUSAL_CALL)
            test_fault("an image that passes is refused with %" PRIu64 " at %" PRIu64,
                       ran.reply.refusal, ran.reply.place);
        if (test_has_fault()) {
            printf("  budget %" PRIu64 ", seed %" PRIu64 "\n", call.budget, seed + index);
            print_image(call.image_length);
        }
    }
    print_tally(index, &tally);
}

void test_chance(size_t count, uint64_t seed)
{
    family("random words", random_words, 0, count, seed);
    family("plausible words", plausible_words, 0, count, seed);
    family("images that pass", passing, 1, count, seed);
    family("damaged images", damaged, 0, count, seed);
}
