/*
 * The Π IR routine engine, for a C host: checks the image of a routine, works out what its runs may
 * need and between which limits they leave the registers, writes its tree as a page, and runs it over
 * the site's registers. For C99 and later, and C++11 and later.
 *
 * The target is x86-64 Linux, with the System V calling convention; code for other targets is not
 * made. The static library needs nothing but the C library's memory functions. To make it, and to
 * compile and link the program below:
 *
 *     tools/build.sh
 *     cc -std=c99 -Iinclude examples/embed.c target/staticlib/libengine.a -o embed
 *
 * A complete program (examples/embed.c):
 *
 *     #include <inttypes.h>
 *     #include <stdio.h>
 *     #include "pi_engine.h"
 *
 *     // 5 x (3 + 2): 5 nodes, 0 registers, the kinds in preorder, their operands.
 *     static const uint32_t image[] = {
 *         5, 0,
 *         PI_KIND_MUL, PI_KIND_NUM, PI_KIND_SUM, PI_KIND_NUM, PI_KIND_NUM,
 *         0, 5, 0, 3, 2
 *     };
 *     static const size_t image_length = sizeof image / sizeof image[0];
 *
 *     // Lent to each call; 64 KB are better not on the stack.
 *     static uint64_t work[PI_WORK_WORDS];
 *
 *     // Prints a refusal with its name and what it says, from the header's list.
 *     static int refused(uint64_t refusal, uint64_t place)
 *     {
 *     #define ROW(enumerator, number, name, sentence) \
 *         case enumerator: \
 *             printf("refused %d at %" PRIu64 " (%s: %s)\n", number, place, name, sentence); \
 *             break;
 *
 *         switch ((PiRefusal)refusal) {
 *         case PI_REFUSAL_NONE:
 *             break;
 *         PI_REFUSAL_LIST(ROW)
 *         }
 *         return 1;
 *     }
 *
 *     int main(void)
 *     {
 *         PiCheckReply checked = pi_check(image, image_length, work, PI_WORK_WORDS);
 *         if (checked.refusal != PI_REFUSAL_NONE)
 *             return refused(checked.refusal, checked.place);
 *
 *         // This routine has no registers, so none are handed over.
 *         PiRunReply ran = pi_run(image, image_length, NULL, 0, PI_MOST_BUDGET, work, PI_WORK_WORDS);
 *         if (ran.refusal != PI_REFUSAL_NONE)
 *             return refused(ran.refusal, ran.place);
 *         if (ran.outcome == PI_OUTCOME_NUMBER)
 *             printf("number %" PRId64 "\n", ran.value);
 *         printf("steps %" PRIu64 "\n", ran.steps);
 *         // The most cells, bindings, value entries and control entries of the run.
 *         printf("most %" PRIu64 " %" PRIu64 " %" PRIu64 " %" PRIu64 "\n",
 *                ran.cells, ran.bindings, ran.values, ran.control);
 *         return 0;
 *     }
 *
 * It prints `number 25`, `steps 7` and `most 0 0 3 4`. A run checks the image itself, so a host calls
 * pi_check only to know beforehand whether an image passes, pi_needs only to know beforehand how much
 * room and how many steps its runs may take (examples/price_list.c), and pi_page only to print the
 * tree, as on the annex of a contract (examples/annex.c). How near a run came to those needs is shown
 * by examples/service_screen.c. Where the registers are known only within limits, as at tender time,
 * pi_ranges gives limits of what a run leaves (examples/tender.c).
 *
 * What holds of every call:
 *
 * - Any contents and any lengths are allowed; what is wrong with them is answered as a refusal.
 * - A pointer is good for as many elements as its length says and aligned as its type demands; where
 *   the length is 0 it may be NULL. The buffers of a call do not overlap.
 * - The image is only read.
 * - Refusals 22 and 21 touch nothing. Every other call leaves the first 8,192 work words 0 and the
 *   rest untouched, whatever they held before.
 * - The answer does not hang on what the work words held, nor on what the page held.
 * - The registers are kept by refusals 1 to 22. Refusals 30 to 36 leave them as before the withheld
 *   step; a run that ends leaves what its last step left.
 * - The page is kept by every refusal of pi_page, and its bytes beyond the last line by every call.
 * - Both lists of limits are kept by every refusal of pi_ranges.
 * - No memory is used but what is lent and the stack, of which a call takes no more than
 *   PI_STACK_WORD_FORMS, PI_STACK_RANGES or PI_STACK_BYTE_FORMS bytes, whatever the image.
 * - Nothing is kept between calls, so calls on different buffers may run at once.
 * - Every call ends: a run makes at most its budget of steps, pi_ranges goes by at most 1,000,000 steps,
 *   and the rest goes by the nodes.
 */
#ifndef PI_ENGINE_H
#define PI_ENGINE_H

#include <stddef.h>
#include <stdint.h>

#ifdef __cplusplus
extern "C" {
#endif

/*
 * The version of this header and of the library it was delivered with. What the three numbers mean,
 * and what changed in which version, is in CHANGELOG.md. PI_VERSION_NUMBER is for #if.
 */
#define PI_VERSION_MAJOR 8
#define PI_VERSION_MINOR 1
#define PI_VERSION_PATCH 0
#define PI_VERSION "8.1.0"
#define PI_VERSION_NUMBER (PI_VERSION_MAJOR * 10000 + PI_VERSION_MINOR * 100 + PI_VERSION_PATCH)

/* The work words of 64 bits that a call needs. */
#define PI_WORK_WORDS 8192
/* An image has 0 to 2,000 nodes and 0 to 16 registers. With 0 nodes it is a slot with no routine. */
#define PI_MOST_NODES 2000
#define PI_MOST_REGISTERS 16
/* The greatest depth of a node; the root has depth 1. */
#define PI_MOST_DEPTH 64
/* The greatest budget of steps, the greatest figure of steps that pi_needs gives, and the most steps of
   a routine that pi_ranges gives ends for. */
#define PI_MOST_BUDGET 1000000
/* The most live cells (the registers are cells), live bindings, and entries on either stack. */
#define PI_MOST_CELLS 256
#define PI_MOST_BINDINGS 512
#define PI_MOST_VALUES 512
#define PI_MOST_CONTROL 512
/* The most actuals of a Call and Formals of an Abs. */
#define PI_MOST_COUNT 8
/* Names are 0 to 63. Names 0 to r - 1 are the registers. */
#define PI_NAMES 64

/*
 * The most bytes of stack that a call takes, to size a thread's stack with: the word forms, pi_check,
 * pi_run, pi_needs and pi_page; pi_ranges, which keeps the cells there for every Cond that it is within
 * and whose test may be both; and the byte forms, pi_check_bytes and pi_run_bytes, which lay the words
 * out there. What the thread itself and a signal handler take comes on top. The figures are measured
 * with the deepest images (tests/host), not proved, and have 4 KB to spare.
 */
#define PI_STACK_WORD_FORMS 30720
#define PI_STACK_RANGES 4194304
#define PI_STACK_BYTE_FORMS 45056

/*
 * The image: n, the count of nodes; r, the count of registers; the n kinds; the n operands. The nodes
 * stand in preorder: a node, then its children with all below them, left to right. A slot with no
 * routine is n 0 and r, two words and no more: it is a command with nothing to do.
 */
#define PI_IMAGE_WORDS(nodes) (2 + 2 * (size_t)(nodes))
#define PI_IMAGE_BYTES(nodes) (8 + 8 * (size_t)(nodes))

/* The page: a line for each node, of 30 columns and a newline. */
#define PI_PAGE_LINE_BYTES 31
#define PI_PAGE_BYTES(nodes) (PI_PAGE_LINE_BYTES * (size_t)(nodes))

/*
 * The four enums below have names, so that a compiler can warn of a switch with a missing case (gcc
 * does by -Wswitch, which is in -Wall). The replies' fields are 64-bit words, so name the enum:
 *
 *     switch ((PiRefusal)reply.refusal)
 */

/*
 * The kinds of nodes: children; operand. Where no operand is named it is 0. A Div gives the largest
 * integer not above the quotient: -7 by 2 and 7 by -2 are -4, -7 by -2 is 3. C's own division drops
 * the fraction, so its quotients are one more where they are below 0 and not exact.
 */
typedef enum PiKind {
    /* Expressions. */
    PI_KIND_NUM = 1,     /* none; the number, any 32-bit word */
    PI_KIND_BOO = 2,     /* none; 0 false, 1 true */
    PI_KIND_ID = 3,      /* none; name: its value, or the contents of its cell */
    PI_KIND_SUM = 4,     /* two expressions; 4 to 14 alike */
    PI_KIND_SUB = 5,     /* first minus second */
    PI_KIND_MUL = 6,
    PI_KIND_DIV = 7,     /* first by second, rounded down */
    PI_KIND_EQ = 8,
    PI_KIND_LT = 9,
    PI_KIND_LE = 10,
    PI_KIND_GT = 11,
    PI_KIND_GE = 12,
    PI_KIND_AND = 13,    /* both sides run */
    PI_KIND_OR = 14,
    PI_KIND_NOT = 15,    /* expression */
    PI_KIND_DEREF = 16,  /* none; name: the location of its cell */
    PI_KIND_VALREF = 17, /* none; name: the contents of the cell that its cell shows */
    /* Commands. */
    PI_KIND_ASSIGN = 20, /* expression; name */
    PI_KIND_LOOP = 21,   /* expression, command */
    PI_KIND_CSEQ = 22,   /* two commands */
    PI_KIND_BLK = 23,    /* declaration, command */
    PI_KIND_CALL = 24,   /* count expressions; PI_OPERAND(name, count) */
    PI_KIND_COND = 25,   /* expression, two commands: the first runs if it is true, else the second */
    /* Declarations. */
    PI_KIND_BIND = 30,   /* expression, Ref or Abs; name */
    PI_KIND_DSEQ = 31,   /* two declarations, the second of which sees the names of the first */
    /* Below a Bind, and below an Abs. */
    PI_KIND_REF = 40,    /* expression */
    PI_KIND_ABS = 41,    /* count Formals, then a Blk; count */
    PI_KIND_FORMAL = 42  /* none; PI_OPERAND(name, type code) */
} PiKind;

/* The operand of a Call, name and count, and of a Formal, name and type code. */
#define PI_OPERAND(name, above) ((uint32_t)(name) + 64 * (uint32_t)(above))

/*
 * A type code is base + 2 x level: level 0 is a plain value, each level above a location of the level
 * below, up to level 3. A check answers the root's code, or PI_CODE_COMMAND where it is a command or
 * there is no node. A root's code is 0, 1 or 2, since its only names are the registers. A Formal may
 * have any code; 4 to 7, levels 2 and 3, have no name here.
 */
typedef enum PiCode {
    PI_CODE_INTEGER = 0,
    PI_CODE_TRUTH = 1,
    PI_CODE_INTEGER_CELL = 2, /* a register's */
    PI_CODE_TRUTH_CELL = 3,
    PI_CODE_COMMAND = 8
} PiCode;

/*
 * Why a call is refused, one row a refusal: its enumerator, its number, its name, and what it says.
 * A host hands over a macro of four arguments and makes of the rows what it needs: a switch, a table.
 *
 * The place of 3 to 6, of 10 to 14 and of 44 is a node, by its number in preorder; the root's is 0. It
 * is the node judged; for 5 the node that may not stand there, or n where a node is missing, or the
 * first of the nodes left over; for 12 the DSeq with a name on both sides, or the Formal that
 * repeats one; for 44 the Sum, Sub, Mul or Div. The place of 1, 2 and 20 to 43 is 0 and means no node,
 * so look at the refusal first.
 *
 * More exactly: 1 is fewer than 2 words, or a length other than 2 + 2n (in bytes: see below); 6 is
 * depth 65; 14 is no function, or one with another count of Formals; 21 and 22 touch nothing. With 30
 * to 36 a step is withheld, and the reply has the steps that were made before it and the high marks up
 * to it; with 30 the steps equal the budget and the routine has not ended. If several of 30 to 36 hold
 * of a step, the first in the order 30, 31, 32, 33, 34, 36, 35 is told: of two full stacks control is
 * named. 40 comes from pi_needs and pi_ranges: no Loop is in the tree, and the most steps of its runs,
 * or for pi_ranges the steps with both commands of every Cond counted, come out above 1,000,000. 41
 * comes from pi_page alone: the image passes, and the lent page is shorter than PI_PAGE_BYTES(n). 42 to
 * 44 come from pi_ranges alone, and so do 33 to 36 where no run is made: a figure of room that pi_needs
 * gives is above its limit, and the lowest number is told.
 */
#define PI_REFUSAL_LIST(ROW) \
    /* Caused by the maker of the image. */ \
    ROW(PI_REFUSAL_LENGTH, 1, "length", "the length does not fit the counts") \
    ROW(PI_REFUSAL_COUNTS, 2, "counts", "n is above 2,000, or r is above 16") \
    ROW(PI_REFUSAL_KIND, 3, "kind", "no such kind of node") \
    ROW(PI_REFUSAL_OPERAND, 4, "operand", "the kind does not take this operand") \
    ROW(PI_REFUSAL_TREE, 5, "tree", "a node of another sort, missing or left over") \
    ROW(PI_REFUSAL_DEPTH, 6, "depth", "the node is deeper than 64") \
    /* Caused by the routine's author. */ \
    ROW(PI_REFUSAL_UNBOUND, 10, "unbound", "the name has no binding") \
    ROW(PI_REFUSAL_TYPE, 11, "type", "the node takes another type") \
    ROW(PI_REFUSAL_REPEATED, 12, "repeated", "the name is declared twice") \
    ROW(PI_REFUSAL_NOT_ASSIGNABLE, 13, "not assignable", "the name cannot be set") \
    ROW(PI_REFUSAL_CALL, 14, "call", "no function of this name with so many Formals") \
    /* Caused by the host. */ \
    ROW(PI_REFUSAL_REGISTERS, 20, "registers", "the registers are not as many as r") \
    ROW(PI_REFUSAL_BUDGET, 21, "budget", "the budget is above 1,000,000") \
    ROW(PI_REFUSAL_WORK, 22, "work", "the work words are fewer than 8,192") \
    /* Caused by the run. */ \
    ROW(PI_REFUSAL_STEPS, 30, "steps", "the budget is used up before the routine has ended") \
    ROW(PI_REFUSAL_ZERO_DIVISOR, 31, "zero divisor", "a Div by zero") \
    ROW(PI_REFUSAL_OUT_OF_RANGE, 32, "out of range", "the result is outside -2^63 to 2^63 - 1") \
    ROW(PI_REFUSAL_CELLS, 33, "cells", "a 257th cell would be live") \
    ROW(PI_REFUSAL_BINDINGS, 34, "bindings", "a 513th binding would be live") \
    ROW(PI_REFUSAL_VALUES, 35, "values", "a 513th entry would be on the value stack") \
    ROW(PI_REFUSAL_CONTROL, 36, "control", "a 513th entry would be on the control stack") \
    /* Caused by the needs or the ranges, before any run. */ \
    ROW(PI_REFUSAL_TOO_MANY_STEPS, 40, "too many steps", "the steps come out above 1,000,000") \
    /* Caused by the host, for the page. */ \
    ROW(PI_REFUSAL_SHORT_PAGE, 41, "short page", "the page is shorter than 31 bytes a node") \
    /* Caused by the host and by the routine, for the ranges. */ \
    ROW(PI_REFUSAL_CROSSED_LIMITS, 42, "crossed limits", "a lowest start is above its highest") \
    ROW(PI_REFUSAL_LOOP, 43, "loop", "a Loop is in the tree") \
    ROW(PI_REFUSAL_UNSAFE_ARITHMETIC, 44, "unsafe arithmetic", \
        "an end leaves the integers, or the divisor's range holds 0")

#define PI_REFUSAL_ENUMERATOR(enumerator, number, name, sentence) enumerator = number,
typedef enum PiRefusal {
    PI_REFUSAL_NONE = 0, /* the call is not refused */
    PI_REFUSAL_LIST(PI_REFUSAL_ENUMERATOR)
} PiRefusal;
#undef PI_REFUSAL_ENUMERATOR

/* What a run that ends leaves. */
typedef enum PiOutcome {
    PI_OUTCOME_NONE = 0,   /* nothing: the root is a command, or there is no node */
    PI_OUTCOME_NUMBER = 1, /* a number */
    PI_OUTCOME_TRUTH = 2,  /* a truth, 0 or 1 */
    PI_OUTCOME_CELL = 3    /* a location: the number of its cell, a register's own number */
} PiOutcome;

/* What a check answers: three 64-bit words. */
typedef struct PiCheckReply {
    uint64_t refusal; /* a PiRefusal: PI_REFUSAL_NONE where the image passes */
    uint64_t value;   /* where it passes a PiCode: the root's, or PI_CODE_COMMAND; else 0 */
    uint64_t place;   /* the refusal's place; 0 where the image passes */
} PiCheckReply;

/*
 * What a run answers: nine 64-bit words. The last four are its high marks: the most live cells, live
 * bindings, value entries and control entries over all states that it has reached, the one before its
 * first step included. A withheld step's state is not reached: with refusals 30 to 36 the marks are
 * those of the states before it, and with 1 to 22 all four are 0. No mark is above its limit,
 * PI_MOST_CELLS, PI_MOST_BINDINGS, PI_MOST_VALUES or PI_MOST_CONTROL, nor above its figure, where
 * pi_needs gives figures for the same image. In the first state of a run the registers are its cells
 * and bindings, no value is there, and the root is the one entry of control, or none where there is
 * no node.
 */
typedef struct PiRunReply {
    uint64_t refusal;  /* a PiRefusal: PI_REFUSAL_NONE where the run ends */
    uint64_t outcome;  /* a PiOutcome: what is left; PI_OUTCOME_NONE where it is refused */
    int64_t value;     /* the number, the truth or the cell's number; else 0 */
    uint64_t place;    /* the refusal's place; 0 where the run ends */
    uint64_t steps;    /* the steps made; 0 for refusals 1 to 22 */
    uint64_t cells;    /* the most live cells, the registers among them; 0 for refusals 1 to 22 */
    uint64_t bindings; /* the most live bindings, the registers among them; 0 likewise */
    uint64_t values;   /* the most entries on the value stack; 0 likewise */
    uint64_t control;  /* the most entries on the control stack; 0 likewise */
} PiRunReply;

/*
 * What pi_needs answers: eight 64-bit words. With a refusal all but the first two are 0. A figure of
 * room may be above its limit, PI_MOST_CONTROL, PI_MOST_VALUES, PI_MOST_CELLS or PI_MOST_BINDINGS.
 */
typedef struct PiNeedsReply {
    uint64_t refusal;  /* a PiRefusal: PI_REFUSAL_NONE where there are figures */
    uint64_t place;    /* the refusal's place; 0 where there are figures */
    uint64_t control;  /* the most entries on the control stack */
    uint64_t values;   /* the most entries on the value stack */
    uint64_t cells;    /* the most live cells, the registers among them */
    uint64_t bindings; /* the most live bindings, the registers among them */
    uint64_t steps;    /* the most steps, at most PI_MOST_BUDGET; 0 where they are open */
    uint64_t open;     /* 1 where a Loop is in the tree, so that the steps have no figure; else 0 */
} PiNeedsReply;

/* What pi_page answers: two 64-bit words. */
typedef struct PiPageReply {
    uint64_t refusal; /* a PiRefusal: PI_REFUSAL_NONE where the page is written */
    uint64_t place;   /* the refusal's place; 0 where the page is written */
} PiPageReply;

/* What pi_ranges answers: two 64-bit words. */
typedef struct PiRangesReply {
    uint64_t refusal; /* a PiRefusal: PI_REFUSAL_NONE where the ends are given */
    uint64_t place;   /* the refusal's place; 0 where the ends are given */
} PiRangesReply;

/*
 * Checks an image of so many 32-bit words. Tested in this order: the work words (22), the image (1 to
 * 14). Answers PI_REFUSAL_NONE exactly when the image meets the rules of shape, scope and types. An
 * image with no node meets them, with the value PI_CODE_COMMAND.
 */
PiCheckReply pi_check(const uint32_t *image, size_t image_length,
                      uint64_t *work, size_t work_length);

/*
 * Checks an image and runs it with the registers' values, of at most `budget` steps. The registers
 * are changed in place. Tested in this order: the work words (22), the budget (21), the image (1 to
 * 14), the count of registers (20); then the steps are made (30 to 36). The run of an image with no
 * node ends with PI_OUTCOME_NONE in 0 steps and leaves the registers as they are, with any budget up
 * to the greatest, 0 included; its high marks are cells r, bindings r, values 0, control 0.
 */
PiRunReply pi_run(const uint32_t *image, size_t image_length,
                  int64_t *registers, size_t registers_length,
                  uint64_t budget,
                  uint64_t *work, size_t work_length);

/*
 * The same on bytes as they are stored and sent, on any machine; the lengths of image and registers
 * count bytes, and bytes need no alignment. The image is its 32-bit words, least byte first: fewer
 * than 8 bytes are refusal 1; then n or r is 2; then a length other than 8 + 8n is 1, so an image with
 * no node has 8 bytes. A register is 8 bytes in two's complement, least byte first, changed in place;
 * a length other than 8r is 20. All else is as above, and the work words are words as above.
 */
PiCheckReply pi_check_bytes(const uint8_t *image, size_t image_length,
                            uint64_t *work, size_t work_length);

PiRunReply pi_run_bytes(const uint8_t *image, size_t image_length,
                        uint8_t *registers, size_t registers_length,
                        uint64_t budget,
                        uint64_t *work, size_t work_length);

/*
 * Works out the needs of a routine before it is loaded, from an image of so many 32-bit words alone:
 * the most control entries, value entries, cells and bindings that a run could reach, whatever the
 * registers hold, and the most steps that it could make, were no step withheld and every test free to
 * fall either way. Of a Cond each figure takes the larger of the two commands. A Loop's command counts
 * as run; how often it is run takes no more room, but leaves the steps open. A function adds what its
 * Blk needs wherever it is called, and where it is not called its Bind alone. So:
 *
 * - No run passes a figure, neither by a high mark nor by its steps. With the four figures of room
 *   within their limits no run is refused with 33 to 36, and with a budget of the steps, where they are
 *   not open, none is refused with 30.
 * - The figures are reached: each by some choice of the tests' truths. In a tree without Loop and Cond
 *   every run that ends reaches all of them: its high marks are the figures, and so are its steps.
 * - A Loop anywhere in the tree, be it in a function that is never called, leaves the steps open.
 *
 * Tested in this order: the work words (22), the image (1 to 14), and where no Loop is in the tree the
 * steps (40), of which 1,000,000 are given as a figure and 1,000,001 are refused. An image with no node
 * needs its registers alone: control 0, values 0, cells r, bindings r, steps 0. There is no form of this
 * call on bytes.
 */
PiNeedsReply pi_needs(const uint32_t *image, size_t image_length,
                      uint64_t *work, size_t work_length);

/*
 * Writes the tree of a routine as the annex of a contract prints it, from an image of so many 32-bit
 * words: one node a line, in the image's order, 30 columns and a newline. By columns:
 *
 *     1 to 4      the node, from 0 on
 *     6 and 7     its depth; the root's is 1
 *     9 to 14     the name of its kind, one of those below
 *     16 to 25    its operand, the image's word
 *     27 to 30    the first node after its descendants; the root's is n
 *
 * Numbers are decimal, to the right of their columns, filled with blanks; names are to the left.
 * Columns 5, 8, 15 and 26 are blank. The page of 5 x (3 + 2), below a line that counts the columns:
 *
 *     123456789012345678901234567890
 *        0  1 Mul             0    5
 *        1  2 Num             5    2
 *        2  2 Sum             0    5
 *        3  3 Num             3    4
 *        4  3 Num             2    5
 *
 * The names, in the order of PiKind: Num, Boo, Id, Sum, Sub, Mul, Div, Eq, Lt, Le, Gt, Ge, And, Or, Not,
 * DeRef, ValRef; Assign, Loop, CSeq, Blk, Call, Cond; Bind, DSeq; Ref, Abs, Formal.
 *
 * The lines are the first PI_PAGE_BYTES(n) bytes of the lent page, which may be longer: what is beyond
 * them is kept, and no 0 is written behind them. A page of PI_PAGE_BYTES(PI_MOST_NODES) bytes is enough
 * for every image.
 *
 * Tested in this order: the work words (22), the image (1 to 14), the length of the page (41). A refusal
 * writes no byte of the page. An image with no node has no line: its page may have length 0 and be NULL,
 * and a longer one is kept whole. There is no form of this call on bytes.
 */
PiPageReply pi_page(const uint32_t *image, size_t image_length,
                    uint8_t *page, size_t page_length,
                    uint64_t *work, size_t work_length);

/*
 * From a lowest and a highest start for each register gives a lowest and a highest end, from an image of
 * so many 32-bit words without a Loop. The two lists have a limit for each register; the ends take the
 * place of the starts. So:
 *
 * - A run from registers that start within their limits, both included, is refused with nothing but 30,
 *   whatever its budget up to the greatest; and where it ends, each register is within its ends.
 *
 * How the ends are found:
 *
 * - A number is carried as its two ends, which stand for all integers between them; a truth as those that
 *   are possible; a location exactly. No value is connected with another: with register 0 from 20 to 40,
 *   Sub(Id 0, Id 0) is -20 to 20.
 * - Sum, Sub, Mul and Div take the least and the greatest over the four pairs of the operands' ends. A
 *   comparison or Eq gives each truth that some pair of values gives; And, Or and Not each truth that
 *   some choice gives.
 * - A Cond's test narrows nothing. Where it can be only one truth, that command alone is carried. Where
 *   it may be both, each command is carried from what was there before the Cond, the first one first;
 *   then each cell takes the wider ends, or every truth that either command leaves.
 * - A root that is an expression is carried too, and its registers end as they start.
 *
 * Tested in this order: the work words (22), the image (1 to 14), the lengths of the two lists, both of
 * which are r (20), the limits, of which no lowest is above its highest (42), the Loops, of which there
 * are none anywhere in the tree (43), the steps with both commands of every Cond counted, of which
 * 1,000,000 pass (40), and the figures of room that pi_needs gives, each within its limit, of which the
 * lowest number is told (33 to 36). Then 44, at the first node in running order where an end leaves the
 * integers or the divisor's range holds 0: operands before their operation, the first before the second,
 * actuals last to first, a Cond's first command before its second; the node may be in a function.
 *
 * A refusal keeps both lists. An image with no node keeps them too: its ends are the starts. It takes
 * more stack than the other calls do, PI_STACK_RANGES. There is no form of this call on bytes.
 */
PiRangesReply pi_ranges(const uint32_t *image, size_t image_length,
                        int64_t *lowest, size_t lowest_length,
                        int64_t *highest, size_t highest_length,
                        uint64_t *work, size_t work_length);

#ifdef __cplusplus
}
#endif

#endif
