#include "report.h"

#include <stdarg.h>
#include <stdio.h>

/* So many faults of one test are printed. */
#define MOST_PRINTED 5

static const char *current;
static unsigned faults;
static unsigned passed;
static unsigned failed;

void test_begin(const char *name)
{
    current = name;
    faults = 0;
}

void test_fault(const char *format, ...)
{
    va_list arguments;

    faults += 1;
    if (faults > MOST_PRINTED)
        return;
    printf("  %s: ", current);
    va_start(arguments, format);
    vprintf(format, arguments);
    va_end(arguments);
    printf("\n");
}

int test_has_fault(void)
{
    return faults != 0;
}

static void count(void)
{
    if (faults == 0)
        passed += 1;
    else
        failed += 1;
    printf("%s: %s", current, faults == 0 ? "ok" : "FAILED");
}

void test_end(void)
{
    count();
    printf("\n");
}

void test_end_with(const char *format, ...)
{
    va_list arguments;

    count();
    printf(", ");
    va_start(arguments, format);
    vprintf(format, arguments);
    va_end(arguments);
    printf("\n");
}

int test_close(void)
{
    printf("%u passed, %u failed\n", passed, failed);
    return failed == 0 ? 0 : 1;
}
