#define _POSIX_C_SOURCE 200112L

#include "measure.h"

#include "report.h"

#include <pthread.h>
#include <string.h>

/* The stack that is lent to a thread, full of one byte, so that what was used shows. */
#define STACK_BYTES (8 * 1024 * 1024)
#define UNUSED 0xa5
/* So many bytes of the header's figures must be left, as it says. */
#define TO_SPARE 4096

static union {
    unsigned char bytes[STACK_BYTES];
    long double aligned;
} stack;

/* A call, and where the stack stood when its thread made it. */
typedef struct Measured {
    void (*call)(void);
    const unsigned char *stood;
} Measured;

static void *measure(void *argument)
{
    volatile unsigned char here = 0;
    Measured *measured = argument;

    measured->stood = (const unsigned char *)&here;
    measured->call();
    return NULL;
}

size_t stack_used_by(void (*call)(void))
{
    pthread_attr_t attributes;
    pthread_t thread;
    Measured measured;
    const unsigned char *lowest = stack.bytes;

    measured.call = call;
    measured.stood = NULL;
    memset(stack.bytes, UNUSED, STACK_BYTES);
    if (pthread_attr_init(&attributes) != 0)
        return STACK_BYTES;
    if (pthread_attr_setstack(&attributes, stack.bytes, STACK_BYTES) == 0 &&
        pthread_create(&thread, &attributes, measure, &measured) == 0)
        pthread_join(thread, NULL);
    pthread_attr_destroy(&attributes);
    if (measured.stood == NULL)
        return STACK_BYTES;
    while (*lowest == UNUSED)
        lowest += 1;
    return (size_t)(measured.stood - lowest);
}

void stack_fits(const char *what, size_t taken, size_t figure)
{
    if (taken + TO_SPARE > figure)
        test_fault("%s takes %lu bytes, and the header says %lu with %d to spare", what,
                   (unsigned long)taken, (unsigned long)figure, TO_SPARE);
}
