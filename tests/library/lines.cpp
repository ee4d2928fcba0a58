#include "lines.h"

#include "oracle.h"

#include <algorithm>
#include <cstdint>
#include <set>

LineTally of_lines;

namespace {

// A sheet's lines, and where each starts.
struct Ruled {
    const std::string &text;
    std::vector<std::string> lines;
    std::vector<size_t> starts;

    explicit Ruled(const std::string &text) : text(text), lines(oracle::lines(text))
    {
        size_t start = 0;
        for (const std::string &line : lines) {
            starts.push_back(start);
            start += line.size() + 1;
        }
    }

    bool has(size_t line) const { return line >= 1 && line <= lines.size(); }
};

bool of_design(size_t number)
{
    return number >= 2 && number <= 5;
}

bool of_network(size_t number)
{
    return number == 10 || number == 11;
}

const size_t LONG = 12;

std::set<size_t> lines_to_ask(size_t lines)
{
    std::set<size_t> asked = {SIZE_MAX, SIZE_MAX - 1};
    for (size_t line = 0; line <= lines + 2; line++)
        if (line <= LONG || line + 2 >= lines)
            asked.insert(line);
    return asked;
}

}

void compare_lines(const std::string &sheet, const std::string &network, const std::vector<Named> &named, size_t refusals)
{
    Ruled first(sheet), second(network);
    std::vector<Part> parts = call_lines(sheet, network, named);
    for (size_t i = 0; i < named.size(); i++) {
        const Named &n = named[i];
        const Ruled &own = of_network(n.number) ? second : first;
        bool there = (of_design(n.number) || of_network(n.number)) && own.has(n.line);
        size_t start = there ? own.starts[n.line - 1] : own.text.size(), length = there ? own.lines[n.line - 1].size() : 0;
        const Part &part = parts[i];
        if (i < refusals && n.line != 0)
            (own.has(n.line) ? of_lines.within : of_lines.past)[n.number]++;
        if (part.second == of_network(n.number) && part.start == start && part.length == length)
            continue;
        std::string what = "the part of refusal " + std::to_string(n.number) + " line " + std::to_string(n.line);
        what += " is of sheet " + std::to_string(of_network(n.number)) + " from " + std::to_string(start) + ", '";
        expect(false, what + own.text.substr(start, length) + "'", sheet, network);
    }
}

std::vector<Named> all_named(const std::string &sheet, const std::string &network)
{
    std::set<size_t> lines = lines_to_ask(oracle::lines(sheet).size()), more = lines_to_ask(oracle::lines(network).size());
    lines.insert(more.begin(), more.end());
    std::vector<Named> named;
    for (size_t number = 0; number <= 22; number++)
        for (size_t line : lines)
            named.push_back(Named{number == 21 ? SIZE_MAX : number == 22 ? size_t(1) << 32 | 2 : number, line});
    return named;
}
