/* Calls at once on different buffers, from several threads. */
#include "tests.h"

#include "lines.h"
#include "report.h"
#include "trees.h"

#include <pthread.h>
#include <string.h>

#define THREADS 4
/* So many runs, and as many times the needs, a page and ranges. */
#define CALLS 300

/* What a thread calls with, and how many of its calls went wrong. */
typedef struct Worker {
    uint64_t work[PI_WORK_WORDS];
    int64_t above; /* the factorial of this number */
    int64_t expected;
    uint32_t image[IMAGE_ROOM]; /* a tree of its own, and the page that it must have */
    uint8_t lines[PAGE_ROOM];
    uint8_t page[PAGE_ROOM];
    size_t faults;
} Worker;

/* By the paper's cases, in the order of paper.c: A, G, I and L. */
static const size_t papers[THREADS] = {0, 7, 11, 14};

static uint32_t factorial[IMAGE_ROOM];
static size_t factorial_length;

/* Whether the page of the thread's own tree is as it must be. */
static int has_its_page(Worker *worker)
{
    size_t nodes = worker->image[0];
    PiPageReply reply;

    memset(worker->page, 0, sizeof worker->page);
    reply = pi_page(worker->image, PI_IMAGE_WORDS(nodes), worker->page, sizeof worker->page,
                    worker->work, PI_WORK_WORDS);
    return reply.refusal == PI_REFUSAL_NONE &&
           memcmp(worker->page, worker->lines, sizeof worker->page) == 0;
}

/* Whether the ends of register 0, from this number to 10 more, are those of twice that. */
static int has_its_ends(Worker *worker)
{
    static const uint32_t twice[] = {
        4, 1, PI_KIND_ASSIGN, PI_KIND_MUL, PI_KIND_ID, PI_KIND_NUM, 0, 0, 0, 2,
    };
    int64_t lowest[1], highest[1];
    PiRangesReply reply;

    lowest[0] = worker->above;
    highest[0] = worker->above + 10;
    reply = pi_ranges(twice, sizeof twice / sizeof twice[0], lowest, 1, highest, 1, worker->work,
                      PI_WORK_WORDS);
    return reply.refusal == PI_REFUSAL_NONE && lowest[0] == 2 * worker->above &&
           highest[0] == 2 * worker->above + 20;
}

static void *work_alone(void *argument)
{
    Worker *worker = argument;
    size_t index;

    for (index = 0; index < CALLS; index += 1) {
        int64_t registers[2];
        PiRunReply reply;
        PiNeedsReply needs;

        registers[0] = 1;
        registers[1] = worker->above;
        reply = pi_run(factorial, factorial_length, registers, 2, PI_MOST_BUDGET, worker->work,
                       PI_WORK_WORDS);
        if (reply.refusal != PI_REFUSAL_NONE || registers[0] != worker->expected ||
            reply.cells != 2 || reply.bindings != 2 || reply.values != 3 || reply.control != 6)
            worker->faults += 1;
        needs = pi_needs(factorial, factorial_length, worker->work, PI_WORK_WORDS);
        if (needs.refusal != PI_REFUSAL_NONE || needs.control != 6 || needs.values != 3 ||
            needs.cells != 2 || needs.bindings != 2 || needs.open != 1)
            worker->faults += 1;
        if (!has_its_page(worker))
            worker->faults += 1;
        if (!has_its_ends(worker))
            worker->faults += 1;
    }
    return NULL;
}

void test_threads(void)
{
    static Worker workers[THREADS];
    pthread_t threads[THREADS];
    size_t index;
    int64_t product = 1;

    test_begin("calls at once");
    /* Case G, whose images and registers are the paper's. */
    factorial_length = paper_call(7, factorial).image_length;
    for (index = 0; index < THREADS; index += 1) {
        product *= (int64_t)index + 1;
        workers[index].above = (int64_t)index + 1;
        workers[index].expected = product;
        paper_call(papers[index], workers[index].image);
        page_of(workers[index].image, workers[index].lines);
        if (pthread_create(&threads[index], NULL, work_alone, &workers[index]) != 0) {
            test_fault("no thread");
            workers[index].above = 0;
        }
    }
    for (index = 0; index < THREADS; index += 1) {
        if (workers[index].above != 0)
            pthread_join(threads[index], NULL);
        if (workers[index].faults != 0)
            test_fault("thread %lu: %lu calls went wrong", (unsigned long)index,
                       (unsigned long)workers[index].faults);
    }
    test_end_with("%d threads of %d calls", THREADS, 4 * CALLS);
}
