/*
 * The ranges of a routine, held to its check, its needs and its runs. What is wrong is a fault of the
 * test.
 */
#ifndef ENDS_H
#define ENDS_H

#include "calls.h"

/*
 * Works out the ranges with the call's work words, from limits around its starts, and notes where they
 * do not fit: what they are refused with, against the check, the lengths, the Loops of the tree and the
 * needs; other work words; runs from the limits and from within them, which end within the ends and are
 * refused with nothing but 30; and from starts known exactly, whose ends are what the run leaves, or it
 * is 44 where the run is refused with 31 or 32.
 */
void fits_the_ranges(const Call *call);

#endif
