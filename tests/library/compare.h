// The exported functions compared with the oracle on one panel, a design sheet or a PLA text with a second text, and one network
// sheet; and on one panel that is written both ways.
#ifndef COMPARE_H
#define COMPARE_H

#include "calls.h"
#include "oracle.h"

#include <map>
#include <string>

// A panel with what the oracle says of it.
struct Panel {
    Source source;
    oracle::Design design;
    oracle::Refusal refusal;

    explicit Panel(const Source &source);
};

// A network sheet beside a panel, with what the oracle says of the two.
struct Beside {
    const Panel &panel;
    std::string text;
    oracle::Network network;
    oracle::Comparison wanted;

    Beside(const Panel &panel, const std::string &text);
};

// How often a function gave each answer, 0 where it did not refuse; Check's "differs", and Export's texts of networks that
// differ, stand under DIFFERS.
const unsigned DIFFERS = 100;
typedef std::map<unsigned, unsigned long> Tally;
struct Tallies {
    Tally tables, maps, checks, exports;
};
extern Tallies of_sheets, of_plas;

// How often Map's answer was compared with the first network, and how often the oracle's search for it took too long.
extern unsigned long firsts, not_settled;

// How many networks with each of these were exported.
extern std::map<std::string, unsigned long> shapes;

// Buffers are ample, just long enough, and too short: by one byte, and by `more` further ones as far as there are so many.
void compare_table(const Panel &panel, size_t output, size_t more);

// Returns Map's network, or nothing. `try_all`: whether to find the fewest tables by trying all, where that takes long.
std::string compare_map(const Panel &panel, size_t more, bool try_all);

void compare_check(const Beside &beside);

// Of sheets alone.
void compare_export(const Beside &beside, size_t more);

// A valid sheet and a valid pair with the same names, tables, bound inputs and limit, asked by the library alone: Table of every
// output and Map must answer the same of both. Returns Map's network, or nothing.
std::string compare_both_ways(const Panel &sheet, const Panel &pla, size_t more);

// Check must answer the same of both.
void check_both_ways(const Panel &sheet, const Panel &pla, const std::string &network);

#endif
