// Random sheets, PLA texts and networks, valid, nearly valid and damaged, half of them with names in any case at each place, the same
// for the same seed on every machine.
#ifndef GENERATE_H
#define GENERATE_H

#include "calls.h"
#include "oracle.h"
#include "spelling.h"

#include <random>
#include <string>

class Generator {
public:
    explicit Generator(unsigned long seed) : source(seed) {}

    // 0 to n - 1
    size_t below(size_t n) { return source() % n; }
    bool once_in(size_t n) { return below(n) == 0; }

    // A design sheet: mostly valid, else with one rule broken, or with bytes damaged, or bytes at random.
    std::string design_sheet();

    // A PLA text and a second text: mostly valid, else with one rule broken, or with bytes damaged.
    Source pla();

    // A panel written both ways, the same names, tables, bound inputs and limit: a valid design sheet, with formulas of any form or
    // with sums of products, and a PLA text of other cubes with its second text.
    void panel(std::string &sheet, Source &pla);

    // A panel written both ways with limit 6, whose outputs read some of a few tables over the bound inputs: how many cells a set of
    // outputs needs depends on which tables they share.
    void border_panel(std::string &sheet, Source &pla);

    // Any bytes, with many ends of lines.
    std::string bytes();

    // A network sheet for a valid design. `mapped` is Map's own network, or empty.
    std::string network_sheet(const oracle::Design &design, const std::string &mapped);

private:
    struct Draft;
    struct PlaDraft;

    std::string name();
    std::string formula(const std::vector<std::string> &names, size_t size);
    std::string deep_formula(const std::vector<std::string> &names);
    Draft draft();
    Draft border_draft();
    void break_a_rule(Draft &draft);
    std::vector<std::string> shuffled(std::vector<std::string> names);
    PlaDraft pla_draft();
    void break_a_rule(PlaDraft &draft);
    std::string cube_around(size_t row, size_t inputs, const std::string &table);
    PlaDraft pla_of(const oracle::Design &design);
    std::string sheet_of_products(const PlaDraft &draft);
    std::string in_any_case(std::string text, const std::vector<Word> &names);
    std::string sheet_in_any_case(const std::string &text) { return in_any_case(text, names_of_sheet(text)); }
    std::string damaged(std::string text, const std::string &bytes);
    std::string random_digits(size_t n);
    oracle::Network random_network(const oracle::Design &design);
    oracle::Network rearranged(const oracle::Design &design, const oracle::Network &network);
    void fill_nodes(const oracle::Design &design, oracle::Network &network);

    std::mt19937_64 source;
};

// An output's line of the network sheet.
std::string print_node(const oracle::Design &design, size_t output, const oracle::Node &node);

// The network as a sheet, with a count line that says `count`.
std::string print_network(const oracle::Design &design, const oracle::Network &network, size_t count);

#endif
