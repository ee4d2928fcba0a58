// The lines that refusals name, compared with those that the oracle's examination takes one by one.
#ifndef LINES_H
#define LINES_H

#include "calls.h"

#include <map>
#include <string>
#include <vector>

// How often a refusal by each number named a line of its sheet, and how often one past the end.
struct LineTally {
    std::map<size_t, unsigned long> within, past;
};
extern LineTally of_lines;

// The first of what is named are refusals that Table, Map, Check or Export gave, so many; they are counted. The others may be any.
void compare_lines(const std::string &sheet, const std::string &network, const std::vector<Named> &named, size_t refusals = 0);

// Each number from 0 to 20 and two that no refusal has, with each line from 0 on to past the ends of both sheets, and two that no
// text has; of long sheets the first and the last lines alone.
std::vector<Named> all_named(const std::string &sheet, const std::string &network);

#endif
