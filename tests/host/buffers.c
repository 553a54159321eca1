#include "buffers.h"

#include "random.h"
#include "report.h"

#include <stdio.h>
#include <stdlib.h>
#include <string.h>

/* Guard bytes on each side: a multiple of every alignment. */
#define GUARD 256

static int exact_layout;
static Random junk = {0x6a756e6b};

void buffers_exact(int exact)
{
    exact_layout = exact;
}

int buffers_are_exact(void)
{
    return exact_layout;
}

static void *allocate(size_t bytes)
{
    void *block = malloc(bytes);

    if (block == NULL && bytes != 0) {
        fprintf(stderr, "host: no memory\n");
        exit(2);
    }
    return block;
}

static size_t guard(void)
{
    return exact_layout ? 0 : GUARD;
}

/* The bytes of the allocation before what is lent are its guard and its offset. */
static size_t before(const Buffer *buffer)
{
    return (size_t)(buffer->start - buffer->block);
}

static size_t block_bytes(const Buffer *buffer)
{
    return before(buffer) + buffer->bytes + guard();
}

/* Junk is never 0, so that clearing it shows. */
static void fill(unsigned char *bytes, size_t count)
{
    uint64_t word;

    while (count != 0) {
        size_t part = count < sizeof word ? count : sizeof word;

        word = random_word(&junk) | UINT64_C(0x0101010101010101);
        memcpy(bytes, &word, part);
        bytes += part;
        count -= part;
    }
}

static Buffer buffer_new(size_t bytes, size_t offset)
{
    Buffer buffer;

    buffer.bytes = bytes;
    buffer.block = allocate(guard() + offset + bytes + guard());
    buffer.start = buffer.block + guard() + offset;
    buffer.made = NULL;
    return buffer;
}

static void note_made(Buffer *buffer)
{
    size_t bytes = block_bytes(buffer);

    buffer->made = allocate(bytes);
    if (bytes != 0)
        memcpy(buffer->made, buffer->block, bytes);
}

Buffer buffer_holding(const void *contents, size_t bytes, size_t offset)
{
    Buffer buffer = buffer_new(bytes, offset);

    fill(buffer.block, block_bytes(&buffer));
    if (bytes != 0)
        memcpy(buffer.start, contents, bytes);
    note_made(&buffer);
    return buffer;
}

Buffer buffer_of_junk(size_t bytes)
{
    return buffer_unset(bytes, 0, 0);
}

Buffer buffer_unset(size_t bytes, size_t unset, size_t offset)
{
    Buffer buffer = buffer_new(bytes, offset);
    size_t skipped = exact_layout ? unset : 0;

    fill(buffer.block, before(&buffer));
    fill(buffer.start + skipped, bytes - skipped + guard());
    note_made(&buffer);
    return buffer;
}

void buffer_free(Buffer *buffer)
{
    free(buffer->block);
    free(buffer->made);
}

static void same(const Buffer *buffer, const char *what, const char *part, size_t from, size_t to)
{
    size_t index = from;

    if (from >= to || memcmp(buffer->block + from, buffer->made + from, to - from) == 0)
        return;
    while (buffer->block[index] == buffer->made[index])
        index += 1;
    test_fault("%s: byte %ld%s has changed from %d to %d", what,
               (long)index - (long)before(buffer), part, buffer->made[index],
               buffer->block[index]);
}

void buffer_kept(const Buffer *buffer, const char *what, size_t first)
{
    size_t start = before(buffer);
    size_t end = start + buffer->bytes;

    same(buffer, what, " (a guard before it)", 0, start);
    same(buffer, what, " (a guard behind it)", end, block_bytes(buffer));
    same(buffer, what, "", start + first, end);
}

void buffer_cleared(const Buffer *buffer, const char *what, size_t bytes)
{
    size_t index = 0;

    /* The first byte is 0 and each byte is as the one before it. */
    if (bytes == 0 ||
        (buffer->start[0] == 0 && memcmp(buffer->start, buffer->start + 1, bytes - 1) == 0))
        return;
    while (buffer->start[index] == 0)
        index += 1;
    test_fault("%s: byte %lu is %d and must be 0", what, (unsigned long)index,
               buffer->start[index]);
}
