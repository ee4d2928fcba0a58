// Calls of the exported functions with everything around them watched. Texts and buffers stand in pages of their own, flush
// with a page that may not be touched, in front on one call and behind on the next; the bytes around them must stay as they
// were, and so must texts, and a buffer from the end of what was written on. Out-parameters hold garbage before the call.
#ifndef CALLS_H
#define CALLS_H

#include <cstddef>
#include <string>
#include <vector>

// What a panel is written on: a design sheet, or a PLA text with a second text beside it. The functions for the one or for the
// other are called by what it is; Export is there for sheets alone.
struct Source {
    std::string text;
    bool pla = false;
    std::string board;

    Source(const std::string &sheet) : text(sheet) {}
    Source(const char *sheet) : text(sheet) {}
    Source(const std::string &pla, const std::string &board) : text(pla), pla(true), board(board) {}
};

struct Tabled {
    unsigned number;
    size_t line, written;
    std::string digits;
};

struct Mapped {
    unsigned number;
    size_t line, cells, length;
    std::string network;
};

struct Checked {
    unsigned number;
    size_t line, differs, output, row;
};

struct Exported {
    unsigned number;
    size_t line, length;
    std::string text;
};

// A refusal's number and line, as asked for its text; both may be any number.
struct Named {
    size_t number, line;
};

// A part of the design sheet, or where `second` is 1 of the network sheet.
struct Part {
    size_t second, start, length;
};

Tabled call_table(const Source &source, size_t output, size_t room);
Mapped call_map(const Source &source, size_t room);
Checked call_check(const Source &source, const std::string &network);
Exported call_export(const Source &sheet, const std::string &network, size_t room);

// The set of outputs, bit o for output o.
size_t call_cause(const Source &source);

// A part for each that is named; the two sheets are lent once for all of them.
std::vector<Part> call_lines(const std::string &sheet, const std::string &network, const std::vector<Named> &named);

// Which end the next text stands at, and whether an empty one has a null pointer: four ways, taken in turn from this one on.
void start_at_way(unsigned way);

// Ends the program with a message, and the texts at hand, unless `good`.
void expect(bool good, const std::string &what, const Source &source, const std::string &network = "");

#endif
