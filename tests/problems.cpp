// The fewest open cells of problems on standard input, or inf, by trying every table for every cell.
// g++ -O2 -std=c++17. A problem is numbers: vertices (at most 8), outputs, limit, given tables; a budget for each output, -1 where
// none fits; the labels of each output at each vertex; the digits of each given table; and for each vertex the digit of the
// first open cell, or 2 where it is not known.
#include <algorithm>
#include <cstdint>
#include <iostream>
#include <set>
#include <vector>

// Two vertices are a digit of a mask: of all pairs (28 for 8 vertices) those that a table tells apart, or that must be.
using Pairs = uint32_t;

struct Problem {
    int vertices, outputs, limit, tables;
    std::vector<int> budgets;
    std::vector<std::vector<int>> labels, given;
    std::vector<int> known;
};

static Pairs different(const std::vector<int>& values)
{
    Pairs r = 0;
    int at = 0;
    for (size_t x = 0; x < values.size(); x++)
        for (size_t y = 0; y < x; y++, at++)
            if (values[x] != values[y])
                r |= Pairs(1) << at;
    return r;
}

// What sets of at most n given tables leave of a conflict, without what is more than another set leaves.
static std::vector<Pairs> left(Pairs conflict, const std::vector<Pairs>& given, int n)
{
    std::set<Pairs> all;
    for (int g = 0; g < 1 << given.size(); g++) {
        if (__builtin_popcount(g) > n)
            continue;
        Pairs r = conflict;
        for (size_t i = 0; i < given.size(); i++)
            if (g >> i & 1)
                r &= ~given[i];
        all.insert(r);
    }
    std::vector<Pairs> least;
    for (Pairs r : all)
        if (std::none_of(all.begin(), all.end(), [&](Pairs s) { return s != r && (s & ~r) == 0; }))
            least.push_back(r);
    return least;
}

// What the tables of the vertices' digits tell apart, each once: all of them, or those with the known digits.
static std::vector<Pairs> every(int vertices, const std::vector<int>& known)
{
    std::set<Pairs> all;
    for (int t = 0; t < 1 << vertices; t++) {
        std::vector<int> digits;
        bool fits = true;
        for (int x = 0; x < vertices; x++) {
            digits.push_back(t >> x & 1);
            fits = fits && (known[x] == 2 || known[x] == digits[x]);
        }
        if (fits)
            all.insert(different(digits));
    }
    return {all.begin(), all.end()};
}

class Search {
public:
    explicit Search(const Problem& p) : p(p)
    {
        std::vector<Pairs> given;
        for (auto& g : p.given)
            given.push_back(different(g));
        needs.resize(p.outputs);
        for (int o = 0; o < p.outputs; o++)
            for (int n = 0; n <= p.budgets[o] && n <= p.limit; n++)
                needs[o].push_back(left(different(p.labels[o]), given, p.budgets[o] - n));
        free = every(p.vertices, std::vector<int>(p.vertices, 2));
        first = every(p.vertices, p.known);
    }

    int fewest()
    {
        bool known = std::any_of(p.known.begin(), p.known.end(), [](int d) { return d != 2; });
        for (int u = known ? 1 : 0; u <= p.limit; u++) {
            cells = u;
            if (some(known ? 1 : 0, known, 0))
                return u;
        }
        return -1;
    }

private:
    // Whether tables for the cells from i on serve, in the order of `free` from j on; the first is tried here where it is known.
    bool some(int i, bool known, size_t j)
    {
        if (known) {
            for (Pairs t : first) {
                chosen[0] = t;
                if (some(1, false, 0))
                    return true;
            }
            return false;
        }
        if (i == cells)
            return serves();
        for (; j < free.size(); j++) {
            chosen[i] = free[j];
            if (some(i + 1, false, j))
                return true;
        }
        return false;
    }

    bool serves()
    {
        told[0] = 0;
        for (int s = 1; s < 1 << cells; s++)
            told[s] = told[s & (s - 1)] | chosen[__builtin_ctz(s)];
        for (int o = 0; o < p.outputs; o++)
            if (!served(o))
                return false;
        return true;
    }

    bool served(int o)
    {
        for (int s = 0; s < 1 << cells; s++) {
            size_t n = __builtin_popcount(s);
            if (n < needs[o].size())
                for (Pairs r : needs[o][n])
                    if ((r & ~told[s]) == 0)
                        return true;
        }
        return false;
    }

    const Problem& p;
    std::vector<std::vector<std::vector<Pairs>>> needs; // of each output that reads some number of cells
    std::vector<Pairs> free, first;
    int cells = 0;
    Pairs chosen[8], told[64];
};

static std::vector<int> numbers(int n)
{
    std::vector<int> r(n);
    for (int& x : r)
        std::cin >> x;
    return r;
}

int main()
{
    Problem p;
    while (std::cin >> p.vertices >> p.outputs >> p.limit >> p.tables) {
        p.budgets = numbers(p.outputs);
        p.labels.clear();
        p.given.clear();
        for (int o = 0; o < p.outputs; o++)
            p.labels.push_back(numbers(p.vertices));
        for (int i = 0; i < p.tables; i++)
            p.given.push_back(numbers(p.vertices));
        p.known = numbers(p.vertices);
        int u = Search(p).fewest();
        std::cout << (u < 0 ? "inf" : std::to_string(u)) << "\n";
    }
}
