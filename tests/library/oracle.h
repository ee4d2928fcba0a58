// Table, Check and Export worked out from the specification by brute force, to compare the library with. A line is read as a tree
// and printed again: it is spelled right if the print is the line and the tree has the shape its place demands. Values are
// found by walking the tree for each row, classes by comparing columns as strings. The lines of a PLA text are read and printed
// again too, and each cube is painted into the tables of its outputs. No part is shared with the library.
//
// A design has every name as it is given first: those of the inputs stand in the list of bound inputs and in formulas too.
#ifndef ORACLE_H
#define ORACLE_H

#include <cstddef>
#include <string>
#include <vector>

namespace oracle {

// A word, or a bracket with its items.
struct Tree {
    bool bracket = false;
    std::string word;
    std::vector<Tree> items;
};

struct Output {
    std::string name;
    Tree formula;      // of a sheet; a PLA text has none
    std::string table; // a digit for each row, once the whole examination is passed
};

struct Design {
    std::vector<std::string> inputs, bound;
    unsigned limit = 0;
    std::vector<Output> outputs;
};

// Number 0: no question was answered "no".
struct Refusal {
    unsigned number = 0;
    size_t line = 0;
};

struct Lut {
    std::string digits;
};

struct Node {
    std::vector<unsigned> reads;
    std::string digits;
};

struct Network {
    std::vector<Lut> luts;
    std::vector<Node> nodes;
};

struct Comparison {
    Refusal refusal;
    bool differs = false;
    size_t output = 0, row = 0;
};

// The lines of a text as they are taken one by one, without their ends; a last one without its end is one of them.
std::vector<std::string> lines(const std::string &text);

Refusal examine(const std::string &text, Design &design);

// The examination of a PLA text and a second text with the `bound` line and the `limit` line.
Refusal examine_pla(const std::string &text, const std::string &board, Design &design);

Refusal read_network(const Design &design, const std::string &text, Network &network);

// Check on a valid design; `network` is what the text says, unless it is refused.
Comparison check(const Design &design, const std::string &text, Network &network);

// What Export writes of a network that passes questions 10 and 11.
std::string blif(const Design &design, const Network &network);

// The inputs that are not bound, in the order of the `in` line.
std::vector<std::string> free_inputs(const Design &design);

// For each vertex the column of an output, a digit for each free row.
std::vector<std::string> columns(const Design &design, size_t output);

unsigned width(const Design &design, size_t output);
size_t global_classes(const Design &design);

// The value of a shared table's list at a vertex, as the row of a node's own table to which these tables lead.
size_t code(const Network &network, const Node &node, size_t vertex);

}

#endif
