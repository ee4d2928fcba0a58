// The first network in byte order of a design, by a search that shares nothing with the library. Codes are given to global
// classes one by one, and each output keeps the reading sets that still tell its classes apart. The first tables are then asked
// for digit by digit.
//
// One code for each global class is enough: in a network whose tables vary inside a class all vertices of the class could take
// the least of their codes, and the first table that varies would come earlier.
#ifndef FIRST_H
#define FIRST_H

#include "oracle.h"

#include <optional>

struct First {
    bool settled = false; // false where the search took more nodes than it may
    std::string network;  // empty where no network within limit and widths computes the design
};

// `nodes`: how many codes the search may give in all.
First first_network(const oracle::Design &design, unsigned long nodes);

// Whether some network within limit and widths computes the design; nothing where that took more nodes than are left, from which
// those that it takes are taken off.
std::optional<bool> within_limit(const oracle::Design &design, unsigned long &nodes);

#endif
