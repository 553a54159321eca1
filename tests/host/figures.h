/* The needs of a routine, held to its check and its runs. What is wrong is a fault of the test. */
#ifndef FIGURES_H
#define FIGURES_H

#include "calls.h"

/* A reply of pi_needs in a message. */
#define NEEDS_FORMAT \
    "refusal %" PRIu64 " at %" PRIu64 ", control %" PRIu64 ", values %" PRIu64 ", cells %" PRIu64 \
    ", bindings %" PRIu64 ", steps %" PRIu64 ", open %" PRIu64
#define NEEDS_ARGUMENTS(reply) \
    (reply)->refusal, (reply)->place, (reply)->control, (reply)->values, (reply)->cells, \
        (reply)->bindings, (reply)->steps, (reply)->open

/* Notes a fault where two replies do not agree. */
void same_needs(const char *what, const PiNeedsReply *one, const PiNeedsReply *other);

/* Whether a node of a passed image has this kind. */
int has_kind(const Call *call, uint32_t kind);

/*
 * Works out the needs with the call's work words, and notes where they do not fit: the check of the
 * image, whose refusals come before 40; other work words; and runs, this one and one with a budget of
 * the steps: none has a high mark or steps above a figure, and in a tree without Loop and Cond those of
 * one that ends are the figures.
 */
void fits_the_needs(const Call *call, const Ran *ran);

#endif
