/* How much stack a call takes, and whether that fits the header's figures. */
#ifndef MEASURE_H
#define MEASURE_H

#include <stddef.h>

/* The bytes of stack that a call takes: from where its thread stood down to the last that was written. */
size_t stack_used_by(void (*call)(void));

/* Notes a fault where a form takes more than the header's figure, less what it has to spare. */
void stack_fits(const char *what, size_t taken, size_t figure);

#endif
