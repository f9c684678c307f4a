/* Random event files. */
#ifndef TOOL_RANDOM_H
#define TOOL_RANDOM_H

#include "common.h"

/* File `number` of a seed, counted from 0; it is the caller's. It has from a few to some 200 records, most of which are accepted, and mostly ends with a cut.
   T goes through 1 to 8 and L through 1 to 256; every fourth file is damaged. */
contents random_file(uint64_t seed, uint64_t number);

#endif
