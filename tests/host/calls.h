/*
 * Calls of the engine with all that holds of every call looked at: the buffers after it, and the
 * reply's own sense. What is wrong is noted as a fault of the test.
 */
#ifndef CALLS_H
#define CALLS_H

#include "buffers.h"
#include "pi_engine.h"

typedef struct Call {
    const uint32_t *image;
    size_t image_length;
    const int64_t *starts; /* the registers before the call */
    size_t registers_length;
    uint64_t budget;
    size_t work_length;
} Call;

/* A register slice may be wrong, so it may be longer than r. */
#define MOST_STARTS 20

/* What came of a run: the reply, and the registers after it. */
typedef struct Ran {
    PiRunReply reply;
    int64_t left[MOST_STARTS];
} Ran;

/* What came of a call for ranges: the reply, and both lists after it. */
typedef struct Ranged {
    PiRangesReply reply;
    int64_t lowest[MOST_STARTS];
    int64_t highest[MOST_STARTS];
} Ranged;

/* Lends buffers to pi_check, to pi_needs, and to pi_run. */
PiCheckReply call_check(const Call *call);
PiNeedsReply call_needs(const Call *call);
Ran call_run(const Call *call);

/*
 * Lends buffers to pi_page, of which the page has so many bytes. The reply is held to the check of the
 * image, and the page to its words. All bytes of the page are left here after the call, or nowhere
 * where this is NULL.
 */
PiPageReply call_page(const Call *call, size_t page_length, uint8_t *left);

/*
 * Lends buffers to pi_ranges, with these two lists of limits in the place of the call's starts. The
 * lists are kept by a refusal.
 */
Ranged call_ranges(const Call *call, const int64_t *lowest, size_t lowest_length,
                   const int64_t *highest, size_t highest_length);

/* The work buffer of a call, which it may clear or not. */
Buffer lend_work(size_t work_length, uint64_t budget);

/* Notes faults of the buffers after a call with this refusal. */
void work_settled(const Buffer *work, uint64_t refusal);
void registers_settled(const Buffer *registers, uint64_t refusal);

/* How often the calls so far were answered with this refusal of the list. */
size_t times_answered(PiRefusal refusal);

/* Whether the refusal comes before the first step. */
int before_the_run(uint64_t refusal);

/* What the call must be refused with by its lengths, its budget and n and r alone; 0 where they pass. */
uint64_t refusal_by_lengths(const Call *call);

/*
 * Checks and runs, and notes where the two do not fit together: the run of what passes, its outcome's
 * sort, the count of registers, and the same run with one step less, just enough, and other junk. And
 * works out the needs, which must fit both, and the ranges, which must fit all three, and has pages
 * written.
 */
Ran call_all(const Call *call);

/* Notes a fault where two runs do not agree. */
void same_run(const char *what, const Ran *one, const Ran *other, size_t registers_length);

#endif
