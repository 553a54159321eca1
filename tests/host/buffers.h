/*
 * Buffers to lend to the engine. Guarded ones have guard bytes on both sides, full of junk, which no
 * call may change. Exact ones are allocations of their own of just that size, so that a memory checker
 * sees each access outside; and what a call must not read is left unset in them, so that it sees an
 * answer that hangs on it.
 */
#ifndef BUFFERS_H
#define BUFFERS_H

#include <stddef.h>

typedef struct Buffer {
    unsigned char *block; /* the allocation */
    unsigned char *made;  /* the allocation as it was made */
    unsigned char *start; /* what is lent */
    size_t bytes;
} Buffer;

/* Exact buffers from now on, or guarded ones. */
void buffers_exact(int exact);
int buffers_are_exact(void);

/* A buffer that holds these bytes. Its start is so many bytes past an aligned place. */
Buffer buffer_holding(const void *contents, size_t bytes, size_t offset);

/* A buffer full of junk, another one each time. */
Buffer buffer_of_junk(size_t bytes);

/* The same, with its first bytes left unset if buffers are exact; and its start as above. */
Buffer buffer_unset(size_t bytes, size_t unset, size_t offset);

void buffer_free(Buffer *buffer);

/* Notes a fault of the test where the guards, or bytes from `first` on, are not as they were made. */
void buffer_kept(const Buffer *buffer, const char *what, size_t first);

/* Notes a fault of the test where one of the first bytes is not 0. */
void buffer_cleared(const Buffer *buffer, const char *what, size_t bytes);

#endif
