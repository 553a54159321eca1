/*
 * A host of the engine: links the static library as the aisle controller does and holds it to what
 * pi_engine.h says.
 */
#include "buffers.h"
#include "report.h"
#include "tests.h"

#include <stdio.h>
#include <stdlib.h>
#include <string.h>

static const char help[] =
    "host: tests the engine's C interface\n"
    "\n"
    "usage: host COUNT SEED [exact]\n"
    "\n"
    "  COUNT   so many images of each sort that chance makes\n"
    "  SEED    what they are made from\n"
    "  exact   each buffer is an allocation of its own size, for a memory checker;\n"
    "          without it each has guard bytes on both sides\n";

/* The number that a whole text is. */
static int number(const char *text, unsigned long long *value)
{
    char *end;

    if (text[0] < '0' || text[0] > '9')
        return 0;
    *value = strtoull(text, &end, 10);
    return *end == 0;
}

int main(int count, char **arguments)
{
    unsigned long long images, seed;

    if (count < 3 || count > 4 || !number(arguments[1], &images) || !number(arguments[2], &seed) ||
        (count == 4 && strcmp(arguments[3], "exact") != 0)) {
        fputs(help, stderr);
        return 2;
    }
    buffers_exact(count == 4);
    test_paper();
    test_refusals();
    test_no_routine();
    test_choice();
    test_division();
    test_marks();
    test_marks_refused();
    test_needs();
    test_needed_steps();
    test_page();
    test_page_lengths();
    test_ranges();
    test_ranges_refused();
    test_names();
    test_chance((size_t)images, seed);
    test_needed_room((size_t)images, seed);
    test_pages_by_chance((size_t)images, seed);
    test_bytes((size_t)images, seed);
    test_threads();
    test_stack();
    test_stack_of_ranges();
    return test_close();
}
