// The fewest shared tables of a design, found by trying every set of tables that are 0 at vertex 0. Complementing a table,
// leaving out a constant one or one of two that are equal never hurts, so these are all that need to be tried.
#ifndef FEWEST_H
#define FEWEST_H

#include "oracle.h"

// Where no set within the limit serves.
const size_t NONE_SERVE = 7;

size_t fewest(const oracle::Design &design);

#endif
