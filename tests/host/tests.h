/* The groups of tests. */
#ifndef TESTS_H
#define TESTS_H

#include "calls.h"

#include <stddef.h>
#include <stdint.h>

/* The paper's cases; and their calls, for other tests. */
void test_paper(void);
size_t paper_calls(void);
Call paper_call(size_t index, uint32_t *image);

/* Every refusal by name and place, their order, and the limits from both sides. */
void test_refusals(void);

/* An image with no node, and images near it. */
void test_no_routine(void);

/* Conds, a choice between two commands; and their calls, for other tests. */
void test_choice(void);
size_t choice_calls(void);
Call choice_call(size_t index, uint32_t *image);

/* Quotients of all signs; and their calls, for other tests. */
void test_division(void);
size_t division_calls(void);
Call division_call(size_t index, uint32_t *image);

/* The high marks of runs; and the calls of some, for other tests. */
void test_marks(void);
size_t marks_calls(void);
Call marks_call(size_t index, uint32_t *image);

/* No high marks before the first step, and those at a limit. */
void test_marks_refused(void);

/* Needs of routines that are listed by hand, and of a given number of steps. */
void test_needs(void);
void test_needed_steps(void);

/* Needs of routines made by chance that reach just to a limit, or just beyond. */
void test_needed_room(size_t count, uint64_t seed);

/* Pages that are listed by hand, and of every length. */
void test_page(void);
void test_page_lengths(void);

/* Pages of routines made by chance. */
void test_pages_by_chance(size_t count, uint64_t seed);

/* Ranges that are listed by hand, and what they are refused with. */
void test_ranges(void);
void test_ranges_refused(void);

/* The header's list of refusals, all of which the calls before have met; and its version. */
void test_names(void);

/* So many images of each sort, made by chance from a seed. */
void test_chance(size_t count, uint64_t seed);

/* The byte forms against the word forms. */
void test_bytes(size_t count, uint64_t seed);

/* Calls at once from several threads. */
void test_threads(void);

/* How much stack a call takes, and how much one for ranges. */
void test_stack(void);
void test_stack_of_ranges(void);

#endif
