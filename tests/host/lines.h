/* The lines of a page, worked out from the image's words alone; and pages of an image, too short too. */
#ifndef LINES_H
#define LINES_H

#include "calls.h"

/* Enough for the page of any image. */
#define PAGE_ROOM PI_PAGE_BYTES(PI_MOST_NODES)

/* Writes the lines that the page of a passed image must have; their count. */
size_t page_of(const uint32_t *image, uint8_t *page);

/* Notes a fault where one of so many lines is not as it must be. */
void same_lines(const uint8_t *page, const uint8_t *expected, size_t nodes);

/*
 * Asks for pages of the image with the call's work words, with a byte missing and of just enough bytes;
 * and for one of more bytes with other work words.
 */
void fits_the_pages(const Call *call);

#endif
