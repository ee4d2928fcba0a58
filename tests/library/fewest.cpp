#include "fewest.h"

#include <algorithm>

namespace {

// A table is a number whose bit v is its value at vertex v.
typedef std::vector<unsigned> Tables;

// For each output and vertex the lowest vertex with the same column.
struct Problem {
    std::vector<std::vector<unsigned>> classes;
    std::vector<unsigned> widths;
};

// Whether vertices with equal codes in the chosen tables are in one class.
bool tell_apart(const std::vector<unsigned> &classes, const Tables &tables, unsigned chosen)
{
    unsigned class_at[64], seen[64] = {};
    for (size_t vertex = 0; vertex < classes.size(); vertex++) {
        unsigned code = 0;
        for (size_t i = 0; i < tables.size(); i++)
            code |= (chosen >> i & tables[i] >> vertex & 1) << i;
        if (seen[code] && class_at[code] != classes[vertex])
            return false;
        seen[code] = 1;
        class_at[code] = classes[vertex];
    }
    return true;
}

std::vector<unsigned> classes_of(const std::vector<std::string> &columns)
{
    std::vector<unsigned> classes;
    for (const std::string &c : columns)
        classes.push_back(unsigned(std::find(columns.begin(), columns.end(), c) - columns.begin()));
    return classes;
}

bool served(const Problem &problem, const Tables &tables, size_t output)
{
    unsigned reads = std::min(problem.widths[output], unsigned(tables.size()));
    for (unsigned chosen = 0; chosen < 1u << tables.size(); chosen++)
        if (unsigned(__builtin_popcount(chosen)) == reads && tell_apart(problem.classes[output], tables, chosen))
            return true;
    return false;
}

bool some_serve(const Problem &problem, Tables &tables, size_t more)
{
    if (more == 0) {
        for (size_t o = 0; o < problem.widths.size(); o++)
            if (!served(problem, tables, o))
                return false;
        return true;
    }
    for (unsigned t = tables.empty() ? 2 : tables.back() + 2; t < 1u << problem.classes[0].size(); t += 2) {
        tables.push_back(t);
        bool good = some_serve(problem, tables, more - 1);
        tables.pop_back();
        if (good)
            return true;
    }
    return false;
}

}

size_t fewest(const oracle::Design &design)
{
    Problem problem;
    for (size_t o = 0; o < design.outputs.size(); o++) {
        problem.classes.push_back(classes_of(oracle::columns(design, o)));
        problem.widths.push_back(oracle::width(design, o));
    }
    for (size_t u = 0; u <= design.limit; u++) {
        Tables tables;
        if (some_serve(problem, tables, u))
            return u;
    }
    return NONE_SERVE;
}
